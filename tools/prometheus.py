"""A Prometheus of its own for the scripts beside, which need Debian's package prometheus."""

import json
import subprocess
import urllib.parse
import urllib.request
from pathlib import Path


def start(folder: str, listen: str, jobs: str) -> subprocess.Popen:
    """Starts one that keeps its data in a folder, listens at a host and port, and scrapes these jobs."""
    config = Path(folder, "prometheus.yml")
    config.write_text("scrape_configs:\n" + jobs)
    words = ["prometheus", f"--config.file={config}", f"--storage.tsdb.path={folder}/data", f"--web.listen-address={listen}"]
    return subprocess.Popen(words, stdout=subprocess.DEVNULL, stderr=subprocess.DEVNULL)


def stop(running: subprocess.Popen) -> None:
    """Ends it."""
    running.terminate()
    running.wait()


def targets(listen: str) -> list[dict]:
    """The targets of the one that listens there, as it found them at their last scrapes."""
    with urllib.request.urlopen(f"http://{listen}/api/v1/targets") as reply:
        return json.load(reply)["data"]["activeTargets"]


def value(listen: str, query: str) -> float:
    """The one number that a query gives now, or 0 where it gives none."""
    with urllib.request.urlopen(f"http://{listen}/api/v1/query?query={urllib.parse.quote(query)}") as reply:
        found = json.load(reply)["data"]["result"]
    return float(found[0]["value"][1]) if found else 0.0
