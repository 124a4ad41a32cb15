#!/usr/bin/env python3
"""Draws what stands on the terminal of `tools/resin live demo` while a browser asks for some of its pages, as an SVG:

    python3 tools/picture.py docs/live.svg

The lines are those that the command gave in this run, and the pages those that it answered."""
import http.client
import os
import pty
import re
import shutil
import signal
import subprocess
import sys
import tempfile
from html import escape
from pathlib import Path

TOOLS = Path(__file__).resolve().parent
HOST, PORT = "127.0.0.1", 8080
TARGETS = ("/", "/style.css", "/password.php", "/hello.php?name=ann", "/hello.php?name=%3Cb%3E")
SHOWN = "/password.php"
LAST = "request 5: GET /hello.php?name=%3Cb%3E"
"""How the last line ends, which tells of a denial."""

SIZE, WIDE, HIGH = 13, 7.8, 19
MARGIN, BAR = 16, 28
COLOURS = {"": "#d8d8d8", "31": "#ff6b6b", "33": "#e5c07b"}
FONT = "ui-monospace, 'DejaVu Sans Mono', Menlo, Consolas, monospace"

Spans = list[tuple[str, str]]
"""Texts with the codes of their colours."""


def main(words: list[str]) -> int:
    """Runs the command, and writes the picture."""
    if len(words) != 1:
        print(__doc__, file=sys.stderr)
        return 2
    with tempfile.TemporaryDirectory(prefix="resin-picture-") as name:
        folder = Path(name)
        shutil.copytree(TOOLS.parent / "demo" / "site", folder / "demo" / "site")
        screen, pages = recorded(folder)
    lines = [[("$ tools/resin live demo", "")], *(coloured(line) for line in screen.splitlines())]
    Path(words[0]).write_text(picture(lines, pages[SHOWN]))
    return 0


def recorded(folder: Path) -> tuple[str, dict[str, str]]:
    """What stands on a terminal of the command, and what each page answered."""
    ours, its = pty.openpty()
    environment = {key: value for key, value in os.environ.items() if key != "NO_COLOR"}
    command = [sys.executable, str(TOOLS / "resin"), "live", "demo", "--port", str(PORT)]
    process = subprocess.Popen(command, cwd=folder, env=environment, stdin=its, stdout=its, stderr=its, start_new_session=True)
    os.close(its)
    try:
        screen = until(ours, f"http://{HOST}:{PORT}")
        pages = {target: asked(target) for target in TARGETS}
        screen += until(ours, LAST)
    finally:
        process.send_signal(signal.SIGINT)
        process.wait(timeout=60)
        os.close(ours)
    return screen, pages


def until(terminal: int, words: str) -> str:
    """What the terminal gets until these words stand on it."""
    text = b""
    while words.encode() not in text:
        try:
            text += os.read(terminal, 65536)
        except OSError:  # the end of a terminal on Linux
            raise SystemExit(f"the command ended: {text.decode()}") from None
    return text.decode().replace("\r\n", "\n")


def asked(target: str) -> str:
    """The status and the body of a page."""
    connection = http.client.HTTPConnection(HOST, PORT, timeout=60)
    connection.request("GET", target)
    response = connection.getresponse()
    body = response.read().decode()
    connection.close()
    return f"{response.status} {response.reason}\n{body}"


def coloured(line: str) -> Spans:
    """The spans of a line of a terminal."""
    parts = re.split(r"\x1b\[(\d*)m", line)
    return [(text, code if code in COLOURS else "") for text, code in zip(parts[::2], ["", *parts[1::2]]) if text]


def picture(lines: list[Spans], page: str) -> str:
    """A terminal with these lines, and below it a browser with the page."""
    columns = max(sum(len(text) for text, _ in line) for line in lines)
    status, *body = page.splitlines()
    wide = round(columns * WIDE + 2 * MARGIN)
    terminal = BAR + len(lines) * HIGH + MARGIN
    browser = BAR + len(body) * HIGH + MARGIN
    address = f"http://{HOST}:{PORT}{SHOWN}"
    parts = [
        f'<svg xmlns="http://www.w3.org/2000/svg" viewBox="0 0 {wide} {terminal + browser + MARGIN}" width="{wide}" '
        f'font-family="{FONT}" font-size="{SIZE}">',
        f"<title>tools/resin live demo: {escape(status)} in place of a password</title>",
        window(0, wide, terminal, "#1e1e1e"),
        *(text_line(spans, BAR + (at + 1) * HIGH) for at, spans in enumerate(lines) if spans),
        window(terminal + MARGIN, wide, browser, "#ffffff"),
        f'<rect x="80" y="{terminal + MARGIN + 6}" width="{wide - 80 - MARGIN}" height="{BAR - 12}" rx="9" fill="#ffffff"/>',
        text_line([(address, "address")], terminal + MARGIN + BAR / 2 + 4, 92),
        *(text_line([(line, "page")], terminal + MARGIN + BAR + (at + 1) * HIGH) for at, line in enumerate(body)),
        "</svg>\n",
    ]
    return "\n".join(parts)


def window(top: int, wide: int, high: int, ground: str) -> str:
    """A window with a bar and three buttons."""
    places = ((18, "#ff5f57"), (36, "#febc2e"), (54, "#28c840"))
    buttons = "".join(f'<circle cx="{x}" cy="{top + BAR / 2:g}" r="5" fill="{colour}"/>' for x, colour in places)
    frame = f'x="0.5" y="{top + 0.5}" width="{wide - 1}" height="{high - 1}" rx="8"'
    bar = f'<path d="M1 {top + BAR} V{top + 9} a8 8 0 0 1 8 -8 H{wide - 9} a8 8 0 0 1 8 8 V{top + BAR} Z" fill="#d0d0d0"/>'
    return f'<rect {frame} fill="{ground}" stroke="#888888"/>\n{bar}{buttons}'


def text_line(spans: Spans, y: float, x: float = MARGIN) -> str:
    """A line of text with its colours, each of its letters as wide as any other."""
    colours = {**COLOURS, "page": "#111111", "address": "#444444"}
    inner = "".join(f'<tspan fill="{colours[code]}">{escape(text, quote=False)}</tspan>' for text, code in spans)
    length = sum(len(text) for text, _ in spans)
    return f'<text x="{x:g}" y="{y:g}" textLength="{length * WIDE:.1f}" xml:space="preserve">{inner}</text>'


if __name__ == "__main__":
    sys.exit(main(sys.argv[1:]))
