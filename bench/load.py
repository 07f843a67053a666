#!/usr/bin/env python3
"""Times `bridge load 7 64 300`, 19,200 visits of pages of 51 samples by four scrapers, on one processor and on four.

    python3 bench/load.py [ROUNDS]

The programs take turns; the least time of each counts.
"""

import os
import sys

from timing import built_program, least_times, peak_bytes

NUMBER, TARGETS, ROUNDS = 7, 64, 300
VISITS = TARGETS * ROUNDS


def main() -> int:
    load = [built_program(), "load", str(NUMBER), str(TARGETS), str(ROUNDS)]
    runs = {
        "1 processor": (["taskset", "-c", "0", *load], os.devnull),
        "4 processors": (["taskset", "-c", "0-3", *load], os.devnull),
    }
    for on, took in least_times(runs, 5).items():
        print(f"load, {VISITS} visits: {took:.2f} s on {on}, {took / VISITS * 1e6:.0f} µs a visit")
    print(f"peak memory {peak_bytes(load, os.devnull) / 2**20:.0f} MiB")
    return 0


if __name__ == "__main__":
    sys.exit(main())
