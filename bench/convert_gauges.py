#!/usr/bin/env python3
"""Times `bridge convert text` on a plain page of 200,000 gauges beside `promtool check metrics`
(Debian's package prometheus) on the same page, in one run, and reads the peak memory.

    python3 bench/convert_gauges.py [ROUNDS]

The two programs take turns; the least time of each counts.
"""

import os
import sys
import tempfile

from timing import built_program, installed_promtool, peak_bytes, rounds, seconds

GAUGES = 200_000


def page(count: int) -> bytes:
    """Gauges with names and values as exporters write them."""
    lines = []
    for i in range(count):
        name = f"node_exporter_area_{i % 97}_value_{i}_bytes"
        value = (f"{i * 7919 % 1_000_003}", f"{i % 1000}.{i % 89}5", f"{1 + i % 9}.{i % 1000:03}e+0{i % 9}")[i % 3]
        lines.append(f"# TYPE {name} gauge\n{name} {value}\n")
    return "".join(lines).encode()


def main() -> int:
    promtool = installed_promtool()
    program = built_program()
    data = page(GAUGES)
    with tempfile.TemporaryDirectory() as folder:
        path = os.path.join(folder, "gauges.prom")
        with open(path, "wb") as out:
            out.write(data)
        bridge = [program, "convert", "text", "j", "h:1", "1000"]
        check = [promtool, "check", "metrics"]
        ours, theirs = [], []
        for _ in range(rounds(7)):
            ours.append(seconds(bridge, path))
            theirs.append(seconds(check, path))
        memory = peak_bytes(bridge, path)
    print(f"page: {GAUGES} gauges, {len(data)} bytes")
    print(f"bridge convert text: {min(ours) * 1e3:.0f} ms; promtool check metrics: {min(theirs) * 1e3:.0f} ms")
    print(f"ratio of times: {min(ours) / min(theirs):.3f}")
    print(f"peak memory: {memory / len(data):.1f} times the page")
    return 0


if __name__ == "__main__":
    sys.exit(main())
