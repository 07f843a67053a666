#!/usr/bin/env python3
"""Times `bridge check` and `bridge convert` on a page of 20,000 samples of OpenMetrics beside the text page of
the same series. Prints what a sample of each costs, and the ratio, which is to be at most 5/4.

    python3 bench/openmetrics.py [ROUNDS]

Pages and commands take turns in each round; the least time of each counts.
"""

import os
import sys
import tempfile

from text_commands import page
from timing import built_program, least_times, print_ratio

SAMPLES = 20_000
MOST_RATIO = 5 / 4


def open_page(text: bytes) -> bytes:
    """The same series in OpenMetrics, which names a counter without its suffix."""
    lines = []
    for line in text.decode().splitlines():
        words = line.split(" ", 3)
        if words[0] == "#":
            words[2] = words[2].removesuffix("_total")
        lines.append(" ".join(words))
    return "\n".join([*lines, "# EOF", ""]).encode()


def main() -> int:
    program = built_program()
    text = page(SAMPLES)
    with tempfile.TemporaryDirectory() as folder:
        runs = {}
        for form, data in {"openmetrics": open_page(text), "text": text}.items():
            path = os.path.join(folder, form)
            with open(path, "wb") as out:
                out.write(data)
            runs["check", form] = ([program, "check", form], path)
            runs["convert", form] = ([program, "convert", form, "j", "h:1", "1000"], path)
        least = least_times(runs, 15)
    for command in ("check", "convert"):
        print_ratio(command, {form: least[command, form] / SAMPLES * 1e9 for form in ("openmetrics", "text")}, MOST_RATIO)
    return 0


if __name__ == "__main__":
    sys.exit(main())
