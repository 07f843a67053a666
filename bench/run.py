#!/usr/bin/env python3
"""Tells what a scrape costs `bridge run`: two pages of 20,000 samples, one after the other, over loopback, posted to a
collector there, at interval 0; and beside it what a scrape of the same stub costs Prometheus (Debian's package), in the
same run. One page has families of 100 samples with 5 labels each, the other is like a node exporter's.

    python3 bench/run.py [ROUNDS]

Of both the time of the processor is told, of the bridge also its peak memory. They take turns, and the least time of
each counts. A scrape may cost the bridge as much as Prometheus, and 64 MiB.
"""

import multiprocessing
import os
import socketserver
import subprocess
import sys
import tempfile
import time
from pathlib import Path

from text_commands import page
from timing import TOP, built_program, rounds

sys.path.insert(0, os.path.join(TOP, "tools"))
import prometheus  # noqa: E402

SAMPLES = 20_000
TARGET, COLLECTOR, PROMETHEUS = 19_231, 19_232, 19_233
MOST_MIB = 64
TURNS = 3


class Server(socketserver.TCPServer):
    """A server of one connection at a time, whose port may be used again at once."""

    allow_reuse_address = True
    request_queue_size = 64


def node_page() -> bytes:
    """The page like a node exporter's."""
    return subprocess.check_output(["sh", "-c", f'. "$0" && node_page {SAMPLES}', os.path.join(TOP, "bench", "workspace.sh")])


def serve_page(body: bytes, scrapes) -> None:
    """Answers every request with the page, and counts them."""
    head = b"HTTP/1.1 200 OK\r\nContent-Type: text/plain; version=0.0.4\r\nContent-Length: %d\r\n\r\n" % len(body)
    reply = head + body

    class Handler(socketserver.BaseRequestHandler):
        def handle(self) -> None:
            while b"\r\n\r\n" not in self.request.recv(65_536):
                pass
            self.request.sendall(reply)
            scrapes.value += 1

    Server(("127.0.0.1", TARGET), Handler).serve_forever()


def take_bodies() -> None:
    """Reads each body whole, and takes it."""

    class Handler(socketserver.StreamRequestHandler):
        def handle(self) -> None:
            size = 0
            for line in iter(self.rfile.readline, b"\r\n"):
                name, _, value = line.partition(b":")
                if name.lower() == b"content-length":
                    size = int(value)
            self.rfile.read(size)
            self.wfile.write(b"HTTP/1.1 200 OK\r\nContent-Length: 2\r\n\r\n{}")

    Server(("127.0.0.1", COLLECTOR), Handler).serve_forever()


def cost_of_run(folder: str, scrapes: int) -> tuple[float, float]:
    """The seconds of the processor that a scrape takes, and the peak memory in MiB."""
    config = Path(folder, "bridge.toml")
    config.write_text(
        f'collector = "http://127.0.0.1:{COLLECTOR}"\nrounds = {scrapes}\ninterval_ms = 0\n'
        f'[[target]]\njob = "bench"\nurl = "http://127.0.0.1:{TARGET}/metrics"\n'
    )
    program = built_program()
    running = os.posix_spawn(program, [program, "run", str(config)], os.environ)
    _, status, used = os.wait4(running, 0)
    if status != 0:
        sys.exit("the run failed")
    return (used.ru_utime + used.ru_stime) / scrapes, used.ru_maxrss / 1024


def processor_seconds(process: int) -> float:
    """The seconds of the processor that a process took so far."""
    fields = Path(f"/proc/{process}/stat").read_text().rpartition(")")[2].split()
    return (int(fields[11]) + int(fields[12])) / os.sysconf("SC_CLK_TCK")


def cost_of_prometheus(folder: str, scrapes: int, served) -> float:
    """The seconds of the processor that a scrape takes, over as many scrapes behind the first five."""
    job = f"- job_name: bench\n  scrape_interval: 250ms\n  scrape_timeout: 250ms\n  static_configs: [{{targets: ['127.0.0.1:{TARGET}']}}]\n"
    running = prometheus.start(folder, f"127.0.0.1:{PROMETHEUS}", job)
    try:
        before = served.value
        while served.value < before + 5:
            time.sleep(0.01)
        took, first = processor_seconds(running.pid), served.value
        while served.value < first + scrapes:
            time.sleep(0.01)
        return (processor_seconds(running.pid) - took) / (served.value - first)
    finally:
        prometheus.stop(running)


def is_cheap(name: str, body: bytes) -> bool:
    """Tells the costs of a page, and whether they are as low as asked."""
    scrapes = rounds(50)
    served = multiprocessing.Value("i", 0)
    server = multiprocessing.Process(target=serve_page, args=(body, served), daemon=True)
    server.start()
    time.sleep(1)
    runs, besides = [], []
    for _ in range(TURNS):
        with tempfile.TemporaryDirectory() as folder:
            runs.append(cost_of_run(folder, scrapes))
            besides.append(cost_of_prometheus(folder, scrapes, served))
    server.terminate()
    server.join()
    took, peak, beside = min(run[0] for run in runs), max(run[1] for run in runs), min(besides)
    print(
        f"a scrape of {SAMPLES} samples {name} ({len(body) / 1e6:.1f} MB): bridge run {took * 1e3:.1f} ms of the processor,"
        f" {peak:.0f} MiB; Prometheus {beside * 1e3:.1f} ms; ratio {took / beside:.2f}"
    )
    return took <= beside and peak <= MOST_MIB


def main() -> int:
    collector = multiprocessing.Process(target=take_bodies, daemon=True)
    collector.start()
    pages = {"in families of 100": page(SAMPLES), "like a node exporter's": node_page()}
    return 0 if all([is_cheap(name, body) for name, body in pages.items()]) else 1


if __name__ == "__main__":
    sys.exit(main())
