#!/usr/bin/env python3
"""speed.py [REQUESTS]: how many requests a second `resin live` and `php -S` answer on a small page, in one run on this machine.

Each server gets the same requests from the same client: 8 connections, each of which asks again once its answer is there, and opens anew where the
server closed it. The processor time of the bridge, of the engine and of PHP is that of their processes meanwhile."""
import os
import selectors
import shutil
import socket
import subprocess
import sys
import tempfile
import time
from pathlib import Path

from support import Server, engine_or_skip, get

CONNECTIONS = 8
PAGE = """<!doctype html>
<title>A small page</title>
<?php
$names = ['ann', 'bob', 'cyd'];
foreach ($names as $name) { echo '<p>Hello ', htmlspecialchars($name), ' ', htmlspecialchars($_GET['n']), "</p>\\n"; }
"""
SECONDS_PER_TICK = 1 / os.sysconf("SC_CLK_TCK")


class Asking:
    """One connection that asks again and again."""

    def __init__(self, port: int):
        self.port = port
        self.opened = 0
        self.open()

    def open(self) -> None:
        self.socket = socket.create_connection(("127.0.0.1", self.port), timeout=30)
        self.socket.setsockopt(socket.IPPROTO_TCP, socket.TCP_NODELAY, 1)
        self.opened += 1
        self.text = b""

    def ask(self, n: int) -> None:
        self.socket.sendall(get(f"/page.php?n={n}"))
        self.text = b""

    def has_answer(self, data: bytes) -> bool:
        self.text += data
        return self.text.count(b"</p>\n") == 3 or not data and self.text != b""


def measure(port: int, requests: int) -> tuple[float, int]:
    """Seconds for so many requests, and how many connections they took."""
    selector = selectors.DefaultSelector()
    asking = [Asking(port) for _ in range(CONNECTIONS)]
    asked = answered = 0
    since = time.monotonic()
    for it in asking:
        selector.register(it.socket, selectors.EVENT_READ, it)
        it.ask(asked)
        asked += 1
    while answered < requests:
        for key, _ in selector.select():
            it = key.data
            data = it.socket.recv(65536)
            if it.has_answer(data):
                assert it.text.startswith(b"HTTP/1.1 200"), it.text
                answered += 1
                closes = not data or b"Connection: close" in it.text
                if closes:
                    selector.unregister(it.socket)
                    it.socket.close()
                    it.open()
                    selector.register(it.socket, selectors.EVENT_READ, it)
                it.ask(asked)
                asked += 1
    seconds = time.monotonic() - since
    for it in asking:
        it.socket.close()
    return seconds, sum(it.opened for it in asking)


def processor_seconds(pid: int) -> float:
    """The processor time of a process so far."""
    fields = Path(f"/proc/{pid}/stat").read_text().rpartition(")")[2].split()
    return (int(fields[11]) + int(fields[12])) * SECONDS_PER_TICK


def report(name: str, requests: int, seconds: float, opened: int, spent: dict[str, float]) -> None:
    parts = ", ".join(f"{who} {1e6 * used / requests:.0f} µs" for who, used in spent.items())
    print(f"{name:10} {requests / seconds:7.0f} requests/s over {opened} connections; processor time a request: {parts}")


def measure_resin(folder: Path, requests: int) -> None:
    server = Server(folder, engine_or_skip(), "--quiet")
    engine = server.engine_pid()
    measure(server.port, requests // 10)
    before = [processor_seconds(pid) for pid in (server.process.pid, engine)]
    seconds, opened = measure(server.port, requests)
    bridge, own = (processor_seconds(pid) - was for pid, was in zip((server.process.pid, engine), before))
    server.end()
    report("resin live", requests, seconds, opened, {"bridge": bridge, "engine": own})
    print(f"{'':10} the bridge takes {100 * bridge / (bridge + own):.0f} % of the two")


def measure_php(folder: Path, requests: int) -> None:
    php = shutil.which("php")
    if not php:
        print("php -S is left out: there is no php on the path")
        return
    with socket.socket() as free:
        free.bind(("127.0.0.1", 0))
        port = free.getsockname()[1]
    process = subprocess.Popen([php, "-S", f"127.0.0.1:{port}", "-t", folder / "site"], stderr=subprocess.DEVNULL)
    while True:
        try:
            socket.create_connection(("127.0.0.1", port)).close()
            break
        except ConnectionRefusedError:
            time.sleep(0.05)
    measure(port, requests // 10)
    before = processor_seconds(process.pid)
    seconds, opened = measure(port, requests)
    used = processor_seconds(process.pid) - before
    process.terminate()
    process.wait()
    report("php -S", requests, seconds, opened, {"php": used})


def main() -> None:
    requests = int(sys.argv[1]) if len(sys.argv) > 1 else 20_000
    with tempfile.TemporaryDirectory(prefix="resin-speed-") as name:
        folder = Path(name)
        (folder / "site").mkdir()
        (folder / "site" / "page.php").write_text(PAGE)
        measure_resin(folder, requests)
        measure_php(folder, requests)


if __name__ == "__main__":
    main()
