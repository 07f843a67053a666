#!/usr/bin/env python3
"""The peak memory of `bridge check text` and `convert text` over the size of the page, for pages that take
the most.

    python3 bench/memory.py                           both pages
    python3 bench/memory.py --page summaries|help     writes one

    summaries   200,000 summaries of one quantile in one family; `check` takes at most 20 times the page
    help        64 MiB of HELP lines, each of a family without samples; at most 14 times the page

Exit status 1 where `check` takes more.
"""

import itertools
import os
import string
import sys
import tempfile

from timing import answer, built_program, peak_bytes

MOST_PAGE = 1 << 26
SUMMARIES = 200_000


def summaries() -> bytes:
    """Summaries of one quantile."""
    lines = (b's{id="%06d",quantile="0.99"} 1\n' % number for number in range(SUMMARIES))
    return b"# TYPE s summary\n" + b"".join(lines)


def help_lines() -> bytes:
    """As many HELP lines as a page may have."""
    names = itertools.product(string.ascii_letters, repeat=4)
    size = len("#HELP name\n")
    return "".join(f"#HELP {''.join(name)}\n" for name in itertools.islice(names, MOST_PAGE // size)).encode()


PAGES = {"summaries": (summaries, 20), "help": (help_lines, 14)}


def main() -> int:
    if sys.argv[1:2] == ["--page"]:
        sys.stdout.buffer.write(PAGES[sys.argv[2]][0]())
        return 0
    program = built_program()
    above = 0
    for name, (page, most) in PAGES.items():
        data = page()
        with tempfile.TemporaryDirectory() as folder:
            path = os.path.join(folder, name)
            with open(path, "wb") as out:
                out.write(data)
            told = answer(program, path)
            check = peak_bytes([program, "check", "text"], path) / len(data)
            convert = peak_bytes([program, "convert", "text", "j", "h:1", "1000"], path) / len(data)
        print(f"{name}: {len(data)} bytes, {told.strip()}")
        print(f"  peak memory over the page: check {check:.1f}, at most {most}; convert {convert:.1f}")
        above += not told.startswith("ok ") or check > most
    return 1 if above else 0


if __name__ == "__main__":
    sys.exit(main())
