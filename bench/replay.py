#!/usr/bin/env python3
"""Times `bridge replay` on a script of 50 scrapes of a page of 20,000 samples, in each of which one series in a
hundred is gone and those of the scrape before are back, beside `bridge convert text` on the page, in one run.

    python3 bench/replay.py [ROUNDS]

A scrape may cost at most 1.4 times what `convert` costs for the page. The programs take turns; the least time of each
counts. The script is held while it is replayed, and twice while it is read; behind the third scrape the memory of the
program is to stay, so it is read behind each line of its output, and may grow by 2 MiB at most.
"""

import os
import subprocess
import sys
import tempfile

from text_commands import page
from timing import built_program, peak_bytes, rounds, seconds

SAMPLES = 20_000
SCRAPES = 50
MOST_RATIO = 1.4
MOST_GROWTH = 2 * 2**20


def thinned(lines: list[bytes], scrape: int) -> bytes:
    """The page without one sample in a hundred, another one for each scrape."""
    samples = 0
    kept = []
    for line in lines:
        if not line.startswith(b"#"):
            samples += 1
            if samples % 100 == scrape % 100:
                continue
        kept.append(line)
    return b"".join(kept)


def script(scrapes: int) -> bytes:
    """A script of so many scrapes, fifteen seconds apart."""
    lines = page(SAMPLES).splitlines(keepends=True)
    parts = [b"bridge-script 1\nrounds %d\ntarget j h:1 /metrics\n" % scrapes]
    for scrape in range(scrapes):
        body = thinned(lines, scrape)
        parts.append(b"page %d text %d\n%s\n" % (10**18 + scrape * 15 * 10**9, len(body), body))
    return b"".join(parts)


def resident_bytes(process: subprocess.Popen) -> int:
    """The bytes of memory that a process has now."""
    with open(f"/proc/{process.pid}/status", encoding="ascii") as status:
        for line in status:
            if line.startswith("VmRSS:"):
                return int(line.split()[1]) * 1024
    return 0


def memory_behind_lines(command: list[str], path: str) -> list[int]:
    """The memory of the program each time that a line of its output was read, while it writes the next one."""
    seen = []
    with open(path, "rb") as given, subprocess.Popen(command, stdin=given, stdout=subprocess.PIPE) as process:
        for _ in process.stdout:
            seen.append(resident_bytes(process))
    return seen[:-1]


def main() -> int:
    program = built_program()
    with tempfile.TemporaryDirectory() as folder:
        paths = {}
        for name, data in {"page": page(SAMPLES), "10": script(10), "50": script(SCRAPES)}.items():
            paths[name] = os.path.join(folder, name)
            with open(paths[name], "wb") as out:
                out.write(data)
        convert = [program, "convert", "text", "j", "h:1", "1000"]
        replay = [program, "replay"]
        once, whole = [], []
        for _ in range(rounds(5)):
            once.append(seconds(convert, paths["page"]))
            whole.append(seconds(replay, paths["50"]))
        scrape = min(whole) / SCRAPES
        ratio = scrape / min(once)
        print(
            f"replay: {scrape * 1e3:.1f} ms a scrape, convert: {min(once) * 1e3:.1f} ms;"
            f" ratio {ratio:.2f}, at most {MOST_RATIO:.2f}"
        )
        for name in ("10", "50"):
            peak, size = peak_bytes(replay, paths[name]), os.path.getsize(paths[name])
            print(f"  {name} scrapes: peak {peak / 2**20:.0f} MiB; the script has {size / 2**20:.0f} MiB")
        behind = memory_behind_lines(replay, paths["50"])
        growth = max(behind[2:]) - behind[2]
        print(
            f"  memory behind the first, second, third and last scrape but one:"
            f" {', '.join(f'{behind[at] / 2**20:.1f}' for at in (0, 1, 2, -1))} MiB;"
            f" the most behind the third {max(behind[2:]) / 2**20:.1f}"
        )
    return 0 if ratio <= MOST_RATIO and growth <= MOST_GROWTH else 1


if __name__ == "__main__":
    sys.exit(main())
