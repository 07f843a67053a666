"""What the benchmarks of the commands share: the programs, their times and their memory."""

import os
import shutil
import subprocess
import sys
import time

TOP = os.path.dirname(os.path.dirname(os.path.abspath(__file__)))


def rounds(usual: int) -> int:
    """How often each program runs: the first word, or the usual number."""
    return int(sys.argv[1]) if len(sys.argv) > 1 else usual


def installed_promtool() -> str:
    """The promtool of Debian's package prometheus; without it the benchmark ends."""
    promtool = shutil.which("promtool")
    if promtool is None:
        sys.exit("promtool is missing: install Debian's package prometheus")
    return promtool


def seconds(words, path) -> float:
    with open(path, "rb") as source:
        start = time.perf_counter()
        subprocess.run(words, stdin=source, stdout=subprocess.DEVNULL, stderr=subprocess.DEVNULL)
        return time.perf_counter() - start


def peak_bytes(words, path) -> int:
    """The largest resident size of one run, read in a child of its own."""
    code = (
        "import resource, subprocess, sys\n"
        "subprocess.run(sys.argv[2:], stdin=open(sys.argv[1], 'rb'), stdout=subprocess.DEVNULL)\n"
        "print(resource.getrusage(resource.RUSAGE_CHILDREN).ru_maxrss)\n"
    )
    out = subprocess.run([sys.executable, "-c", code, path, *words], capture_output=True, text=True, check=True)
    return int(out.stdout) * 1024


def built_program() -> str:
    """The program, built where it isn't yet."""
    program = os.path.join(TOP, "crates", "bridge", "out", "bridge")
    if not os.path.exists(program):
        subprocess.run([os.path.join(TOP, "bridge"), "--version"], check=True, stdout=subprocess.DEVNULL)
    return program


def answer(program, path) -> str:
    """What `check text` prints for a page."""
    with open(path, "rb") as source:
        return subprocess.run([program, "check", "text"], stdin=source, capture_output=True, text=True).stdout


def least_times(runs, usual: int) -> dict:
    """The least time of each run, a command's words and the path of its input; they take turns."""
    least = {}
    for _ in range(rounds(usual)):
        for key, (words, path) in runs.items():
            took = seconds(words, path)
            least[key] = min(took, least.get(key, took))
    return least


def print_ratio(command: str, costs: dict[str, float], most: float) -> None:
    """Prints what a sample of two pages costs, in nanoseconds, and the ratio of the first to the second."""
    (first, one), (second, other) = costs.items()
    print(
        f"{command}: {one:.0f} ns a sample of {first}, {other:.0f} of {second};"
        f" ratio {one / other:.2f}, at most {most:.2f}"
    )
