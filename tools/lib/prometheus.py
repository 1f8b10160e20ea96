"""Runs a Prometheus (Debian's package) that scrapes a page once a second, for tools/page.py."""
import contextlib
import json
import signal
import subprocess
import tempfile
import urllib.error
import urllib.parse
import urllib.request

SECONDS = 10
CONFIG = """global:
  scrape_interval: 1s
scrape_configs:
  - job_name: click
    static_configs:
      - targets: ['127.0.0.1:{target}']
"""


class Prometheus:
    """A Prometheus at a port of 127.0.0.1, with its data in a folder that goes with it."""

    def __init__(self, program: str, port: int, target: int):
        self.folder = tempfile.TemporaryDirectory(prefix="prometheus-")
        self.port, path = port, f"{self.folder.name}/prometheus.yml"
        with open(path, "w", encoding="ascii") as it:
            it.write(CONFIG.format(target=target))
        words = ["nice", "-n", "10", program, f"--config.file={path}", f"--storage.tsdb.path={self.folder.name}/data", f"--web.listen-address=127.0.0.1:{port}"]
        self.process = subprocess.Popen(words, stdin=subprocess.DEVNULL, stdout=subprocess.DEVNULL, stderr=subprocess.DEVNULL)

    def ask(self, path: str, **words: str) -> list | dict | None:
        """Returns the data of an answer, or None if Prometheus does not answer yet."""
        address = f"http://127.0.0.1:{self.port}/api/v1/{path}?{urllib.parse.urlencode(words)}"
        try:
            with urllib.request.urlopen(address, timeout=SECONDS) as answer:
                return json.load(answer)["data"]
        except (urllib.error.URLError, ConnectionError):
            return None

    def value(self, query: str) -> float | None:
        """Returns the only value of a query, or None if it has none or several."""
        data = self.ask("query", query=query)
        results = data["result"] if isinstance(data, dict) else []
        return float(results[0]["value"][1]) if len(results) == 1 else None

    def close(self) -> None:
        self.process.send_signal(signal.SIGTERM)
        with contextlib.suppress(subprocess.TimeoutExpired):
            self.process.wait(SECONDS)
        self.process.kill()
        self.process.wait()
        self.folder.cleanup()
