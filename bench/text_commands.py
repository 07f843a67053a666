#!/usr/bin/env python3
"""Times `bridge check text` and `bridge convert text` on pages of 20,000 and 200,000 samples beside
`promtool check metrics` (Debian's package prometheus), in one run, and reads the peak memory.

    python3 bench/text_commands.py [ROUNDS]

The programs take turns; the least time of each counts.
"""

import os
import sys
import tempfile

from timing import built_program, installed_promtool, peak_bytes, rounds, seconds


def page(samples: int) -> bytes:
    """Families of 100 samples with HELP, TYPE and five labels, as exporters of machines write them."""
    lines = []
    for i in range(samples):
        family = i // 100
        name = f"node_area_{family}_seconds_total" if family % 2 else f"node_area_{family}_bytes"
        if i % 100 == 0:
            kind = "counter" if family % 2 else "gauge"
            lines.append(f"# HELP {name} What area {family} of the machine used.\n# TYPE {name} {kind}\n")
        value = (f"{i * 7919 % 1_000_003}", f"{i % 1000}.{i % 89}5", f"{1 + i % 9}.{i % 1000:03}e+0{i % 9}")[i % 3]
        lines.append(
            f'{name}{{cpu="{i % 100}",device="/dev/sd{i % 7}",fstype="ext4",mode="user",path="/srv/data/{i % 13}"}} {value}\n'
        )
    return "".join(lines).encode()


def measure(program: str, promtool: str, samples: int) -> dict:
    """The least time of each command on one page, and the bridge's peak memory."""
    words = {
        "check": [program, "check", "text"],
        "convert": [program, "convert", "text", "j", "h:1", "1000"],
        "promtool": [promtool, "check", "metrics"],
    }
    with tempfile.TemporaryDirectory() as folder:
        path = os.path.join(folder, "page")
        with open(path, "wb") as out:
            out.write(page(samples))
        size = os.path.getsize(path)
        times = {name: [] for name in words}
        for _ in range(rounds(5)):
            for name, command in words.items():
                times[name].append(seconds(command, path))
        least = {name: min(all_times) for name, all_times in times.items()}
        memory = {name: peak_bytes(words[name], path) / 2**20 for name in ("check", "convert")}
    print(f"{samples} samples, {size / 1e6:.1f} MB")
    for name in ("check", "convert"):
        print(
            f"  bridge {name} text: {least[name] * 1e3:.0f} ms, {least[name] / samples * 1e9:.0f} ns a sample,"
            f" {memory[name]:.0f} MiB; ratio to promtool {least[name] / least['promtool']:.3f}"
        )
    print(f"  promtool check metrics: {least['promtool'] * 1e3:.0f} ms")
    return least


def main() -> int:
    promtool = installed_promtool()
    program = built_program()
    small = measure(program, promtool, 20_000)
    large = measure(program, promtool, 200_000)
    for name in ("check", "convert"):
        print(f"cost of a sample at 200,000 over 20,000, {name}: {large[name] / small[name] / 10:.2f}")
    return 0


if __name__ == "__main__":
    sys.exit(main())
