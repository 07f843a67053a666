"""A run of the bridge whose page Prometheus federates by selectors, for `tools/try_federation`: each job of a Prometheus
asks for other series, and is to have just these."""

import http.server
import json
import subprocess
import tempfile
import threading
import time
import urllib.error
import urllib.parse
import urllib.request
from pathlib import Path
from typing import Callable

import prometheus

Series = frozenset[tuple[str, str]]

PAGES = {
    "/node": b"""# TYPE up gauge
up 1
# TYPE load gauge
load{mode="idle"} 1
load{mode="busy",zone="a"} 2
# TYPE latency histogram
latency_bucket{le="0.5"} 1
latency_bucket{le="+Inf"} 2
latency_count 2
latency_sum 3
""",
    "/app": b"""# TYPE up gauge
up 0
# TYPE requests_total counter
requests_total{code="200",path="/a b"} 3
requests_total{code="500",path="/\xc3\xa9"} 1
# TYPE size summary
size{quantile="0.5"} 1
size_count 2
size_sum 3
""",
}
LATENCY = ("latency_bucket", "latency_count", "latency_sum")

# The values of match[] of a job, and which series these are.
ASKED: list[tuple[list[str], Callable[[str, dict[str, str]], bool]]] = [
    (['{job="node"}'], lambda name, labels: labels["job"] == "node"),
    (['{__name__="up"}'], lambda name, labels: name == "up"),
    (["load"], lambda name, labels: name == "load"),
    (['up{job="app"}', "latency"], lambda name, labels: name in LATENCY or (name == "up" and labels["job"] == "app")),
    (["latency_bucket"], lambda name, labels: name in LATENCY),
    (["requests_total"], lambda name, labels: name == "requests_total"),
    (['{zone!="a",job="node"}'], lambda name, labels: labels.get("zone") != "a" and labels["job"] == "node"),
    (['{path="/é"}', '{path="/a b"}'], lambda name, labels: "path" in labels),
    (['{job="other"}'], lambda name, labels: False),
    ([], lambda name, labels: True),
]
# What is no selector to the bridge.
REFUSED = ["{", "{}", '{job=~"n.*"}', "up offset 5m", '{job="a"}}']
SECONDS_TO_SCRAPE = 30


class Outside(http.server.BaseHTTPRequestHandler):
    """The targets, and a collector that takes every body."""

    def answer(self, body: bytes, content_type: str) -> None:
        self.send_response(200)
        self.send_header("Content-Type", content_type)
        self.send_header("Content-Length", str(len(body)))
        self.end_headers()
        self.wfile.write(body)

    def do_GET(self) -> None:
        self.answer(PAGES[self.path], "text/plain; version=0.0.4")

    def do_POST(self) -> None:
        self.rfile.read(int(self.headers["Content-Length"]))
        self.answer(b"{}", "application/json")

    def log_message(self, *words: object) -> None:
        pass


def config(port: int, door: int) -> str:
    """The configuration of a run of the targets."""
    text = f'collector = "http://127.0.0.1:{port}"\nrounds = 120\ninterval_ms = 1000\nlisten = "127.0.0.1:{door}"\npages = 1000\n'
    return text + "".join(f'\n[[target]]\njob = "{path[1:]}"\nurl = "http://127.0.0.1:{port}{path}"\n' for path in PAGES)


def jobs(door: int) -> str:
    """The jobs of a Prometheus, one for each list of selectors, whose series get the job's number as a label."""
    return "".join(
        f"- {{job_name: asked{n}, metrics_path: /federate, honor_labels: true, scrape_interval: 1s, "
        f"params: {json.dumps({'match[]': selectors})}, "
        f"metric_relabel_configs: [{{target_label: asked, replacement: '{n}'}}], "
        f"static_configs: [{{targets: ['127.0.0.1:{door}']}}]}}\n"
        for n, (selectors, _) in enumerate(ASKED)
    )


def status_of(door: int, selector: str) -> int:
    """The status with which the bridge answers a query of one selector."""
    query = urllib.parse.urlencode({"match[]": selector})
    try:
        with urllib.request.urlopen(f"http://127.0.0.1:{door}/federate?{query}") as reply:
            return reply.status
    except urllib.error.HTTPError as error:
        return error.code


def series_of(listen: str, n: int) -> set[Series]:
    """The series that Prometheus has of a job."""
    query = urllib.parse.urlencode({"match[]": f'{{asked="{n}"}}'})
    with urllib.request.urlopen(f"http://{listen}/api/v1/series?{query}") as reply:
        found = json.load(reply)["data"]
    return {frozenset((name, value) for name, value in series.items() if name != "asked") for series in found}


def is_wanted(wanted: Callable[[str, dict[str, str]], bool], series: Series) -> bool:
    labels = dict(series)
    return wanted(labels.pop("__name__"), labels)


def differences(listen: str) -> list[str]:
    """A line for each job that has other series than it asked for. The last job asks for all."""
    whole = series_of(listen, len(ASKED) - 1)
    said = [] if len(whole) == sum(page.count(b"\n") - page.count(b"# TYPE") for page in PAGES.values()) else [f"all: {len(whole)} series"]
    for n, (selectors, wanted) in enumerate(ASKED):
        right = {series for series in whole if is_wanted(wanted, series)}
        if series_of(listen, n) != right:
            said.append(f"{selectors}: {len(series_of(listen, n))} series, not the {len(right)} that they match")
    return said


def wait_for_scrapes(listen: str) -> list[str]:
    """The errors of the jobs once each was scraped, and scraped the targets behind the page."""
    found: list[dict] = []
    for _ in range(SECONDS_TO_SCRAPE):
        time.sleep(1)
        try:
            found = prometheus.targets(listen)
        except OSError:
            continue
        if len(found) == len(ASKED) and all(target["health"] == "up" for target in found) and series_of(listen, len(ASKED) - 1):
            break
    return [f"{target['labels']['job']}: {target['health']} {target['lastError']}" for target in found if target["health"] != "up"]


def selections(program: str) -> tuple[int, list[str]]:
    """How many lists of selectors were asked for or refused, and what came out otherwise."""
    server = http.server.ThreadingHTTPServer(("127.0.0.1", 0), Outside)
    threading.Thread(target=server.serve_forever, daemon=True).start()
    port = server.server_address[1]
    door, listen = port + 1, f"127.0.0.1:{port + 2}"
    with tempfile.TemporaryDirectory() as folder:
        Path(folder, "bridge.toml").write_text(config(port, door))
        bridge = subprocess.Popen([program, "run", f"{folder}/bridge.toml"], stdout=subprocess.DEVNULL)
        running = prometheus.start(folder, listen, jobs(door))
        try:
            said = wait_for_scrapes(listen)
            time.sleep(3)
            said += differences(listen)
            said += [f"{text}: status {status}, not 400" for text in REFUSED if (status := status_of(door, text)) != 400]
        finally:
            prometheus.stop(running)
            bridge.terminate()
            bridge.wait()
            server.shutdown()
    return len(ASKED) + len(REFUSED), said
