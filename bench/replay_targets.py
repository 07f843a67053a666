#!/usr/bin/env python3
"""Times `bridge replay` on a script of 256 targets with 20 scrapes each of a page of 100 samples, beside a script of
one target with as many scrapes, in one run.

    python3 bench/replay_targets.py [ROUNDS]

A visit of the many targets may cost at most 1.2 times what one costs of the one target. The programs take turns; the
least time of each counts.
"""

import os
import sys
import tempfile

from text_commands import page
from timing import built_program, least_times

SAMPLES = 100
TARGETS = 256
SCRAPES = 20
MOST_RATIO = 1.2


def script(targets: int, scrapes: int) -> bytes:
    """A script of so many targets with so many scrapes each, fifteen seconds apart."""
    body = page(SAMPLES)
    records = b"".join(
        b"page %d text %d\n%s\n" % (10**18 + scrape * 15 * 10**9, len(body), body) for scrape in range(scrapes)
    )
    parts = [b"bridge-script 1\nrounds %d\n" % scrapes]
    for number in range(targets):
        parts.append(b"target j h:%d /metrics\n%s" % (number + 1, records))
    return b"".join(parts)


def main() -> int:
    replay = [built_program(), "replay"]
    with tempfile.TemporaryDirectory() as folder:
        runs = {}
        for targets, scrapes in ((TARGETS, SCRAPES), (1, TARGETS * SCRAPES)):
            path = os.path.join(folder, f"{targets}")
            with open(path, "wb") as out:
                out.write(script(targets, scrapes))
            runs[targets] = (replay, path)
        least = least_times(runs, 5)
    visits = TARGETS * SCRAPES
    many, one = least[TARGETS] / visits, least[1] / visits
    print(
        f"replay: {many * 1e6:.0f} µs a visit of {TARGETS} targets, {one * 1e6:.0f} µs of one;"
        f" ratio {many / one:.2f}, at most {MOST_RATIO:.2f}"
    )
    return 0 if many / one <= MOST_RATIO else 1


if __name__ == "__main__":
    sys.exit(main())
