#!/usr/bin/env python3
"""Times `bridge check text` and `bridge convert text` on a page of 2,000 histograms of 10 buckets each
beside a page of gauges with as many samples and labels. Prints what a sample of each costs, and the
ratio, which is to be at most 4/3.

    python3 bench/histograms.py [ROUNDS]

Pages and commands take turns in each round; the least time of each counts.
"""

import os
import subprocess
import sys
import tempfile

from timing import built_program, least_times, print_ratio

FAMILIES = 100
HISTOGRAMS_EACH = 20
BOUNDS = ("0.005", "0.025", "0.1", "0.25", "0.5", "1", "2.5", "5", "10", "+Inf")
SAMPLES = FAMILIES * HISTOGRAMS_EACH * (len(BOUNDS) + 2)
MOST_RATIO = 4 / 3


def cumulative(family: int, histogram: int) -> list[int]:
    """The counts of a histogram's buckets."""
    count, counts = 0, []
    for place in range(len(BOUNDS)):
        count += (family * 7919 + histogram * 104_729 + place * 1_299_709) % 5_003
        counts.append(count)
    return counts


def page(kind: str, suffixes: tuple[str, str, str], threshold: str) -> bytes:
    """Families with HELP and TYPE, as servers write the time that their requests take: of each histogram
    the buckets with their threshold as a third label, then two samples with two labels."""
    bucket, total, count = suffixes
    lines = []
    for family in range(FAMILIES):
        name = f"http_area_{family}_request_duration_seconds"
        lines.append(f"# HELP {name} How long requests of area {family} took.\n# TYPE {name} {kind}\n")
        for histogram in range(HISTOGRAMS_EACH):
            labels = f'handler="/api/v1/things/{histogram}",method="GET"'
            counts = cumulative(family, histogram)
            for bound, below in zip(BOUNDS, counts):
                lines.append(f'{name}{bucket}{{{labels},{threshold}="{bound}"}} {below}\n')
            lines.append(f"{name}{total}{{{labels}}} {counts[-1] // 3}.{histogram}5\n")
            # A gauge's two samples without a threshold are told apart by their labels.
            labels = labels if count else labels.replace("GET", "PUT")
            lines.append(f"{name}{count}{{{labels}}} {counts[-1]}\n")
    return "".join(lines).encode()


def pages() -> dict[str, bytes]:
    """The two pages, which differ in names alone."""
    return {
        "histograms": page("histogram", ("_bucket", "_sum", "_count"), "le"),
        "gauges": page("gauge", ("", "", ""), "lt"),
    }


def is_read(program: str, kind: str, path: str) -> bool:
    """Whether the program finds each sample of a page and no fault; else its answer is printed."""
    with open(path, "rb") as source:
        answer = subprocess.run([program, "check", "text"], stdin=source, capture_output=True, text=True)
    read = answer.stdout == f"ok {FAMILIES} families {SAMPLES} samples\n"
    if not read:
        print(f"{kind}: {answer.stdout.strip()} (status {answer.returncode})", file=sys.stderr)
    return read


def main() -> int:
    program = built_program()
    with tempfile.TemporaryDirectory() as folder:
        paths = {}
        for kind, data in pages().items():
            paths[kind] = os.path.join(folder, kind)
            with open(paths[kind], "wb") as out:
                out.write(data)
            print(f"{kind}: {SAMPLES} samples, {len(data)} bytes")
        if not all([is_read(program, kind, path) for kind, path in paths.items()]):
            return 1
        commands = {
            "check text": [program, "check", "text"],
            "convert text": [program, "convert", "text", "j", "h:1", "1000"],
        }
        runs = {(command, kind): (words, path) for command, words in commands.items() for kind, path in paths.items()}
        least = least_times(runs, 15)
    for command in commands:
        print_ratio(command, {kind: least[command, kind] / SAMPLES * 1e9 for kind in paths}, MOST_RATIO)
    return 0


if __name__ == "__main__":
    sys.exit(main())
