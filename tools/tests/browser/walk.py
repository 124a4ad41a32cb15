#!/usr/bin/env python3
"""Walks through the forum of `demo/forum` in headless Chromium, and leaves a screenshot of each page.

    tools/tests/browser/walk.py FOLDER    # needs Debian's chromium and chromium-driver, and build/resin

The gate doesn't run it. It signs up, logs in, posts, keeps a note, and asks for what the policies and guards of `boot.php` deny; it ends with the
status 1 where a page isn't what it should be. Chromium is driven by the WebDriver protocol (W3C), over the standard library alone.
"""
import base64
import http.client
import json
import shutil
import subprocess
import sys
import tempfile
import time
from pathlib import Path

TESTS = Path(__file__).resolve().parents[1]
sys.path.insert(0, str(TESTS))

from support import TOOLS, Server, engine_or_skip  # noqa: E402

DRIVER_PORT = 9515
ELEMENT = "element-6066-11e4-a52e-4f735466cecf"
ARGUMENTS = ["--headless=new", "--no-sandbox", "--disable-gpu", "--window-size=900,700", "--hide-scrollbars"]


class Browser:
    """A session of Chromium."""

    def __init__(self) -> None:
        self._driver = subprocess.Popen(["chromedriver", f"--port={DRIVER_PORT}"], stdout=subprocess.DEVNULL, stderr=subprocess.DEVNULL)
        wanted = {"capabilities": {"alwaysMatch": {"browserName": "chrome", "goog:chromeOptions": {"args": ARGUMENTS}}}}
        self._session = ""
        self._session = "/session/" + self._once_ready("POST", "/session", wanted)["sessionId"]

    def _once_ready(self, method: str, path: str, body: dict) -> dict:
        for _ in range(100):
            try:
                return self._ask(method, path, body)
            except ConnectionRefusedError:
                time.sleep(0.1)
        raise SystemExit("chromedriver doesn't answer")

    def _ask(self, method: str, path: str, body: dict | None = None):
        connection = http.client.HTTPConnection("127.0.0.1", DRIVER_PORT, timeout=120)
        connection.request(method, self._session + path, json.dumps(body) if body is not None else None)
        value = json.loads(connection.getresponse().read())["value"]
        if isinstance(value, dict) and "error" in value:
            raise AssertionError(value["message"])
        return value

    def _element(self, selector: str) -> str:
        return self._ask("POST", "/element", {"using": "css selector", "value": selector})[ELEMENT]

    def open(self, url: str) -> None:
        self._ask("POST", "/url", {"url": url})

    def fill(self, **fields: str) -> None:
        """Types into the fields of these names of the page's own form, and submits it."""
        for name, text in fields.items():
            element = self._element(f"body > form [name={name}]")
            self._ask("POST", f"/element/{element}/value", {"text": text})
        self._ask("POST", f"/element/{self._element('body > form button')}/click", {})

    def text(self) -> str:
        """The text that the page shows."""
        return self._ask("GET", f"/element/{self._element('body')}/text")

    def picture(self, path: Path) -> None:
        path.write_bytes(base64.b64decode(self._ask("GET", "/screenshot")))

    def forget(self) -> None:
        """Drops the cookies, as another visitor comes without them."""
        self._ask("DELETE", "/cookie")

    def close(self) -> None:
        self._ask("DELETE", "")
        self._driver.terminate()
        self._driver.wait()


class Walk:
    """The pages that are seen, in order."""

    def __init__(self, browser: Browser, top: str, folder: Path):
        self._browser, self._top, self._folder = browser, top, folder
        self._count, self.failed = 0, False

    def see(self, name: str, *words: str, without: str = "") -> None:
        """Leaves a screenshot, and looks for these words on the page."""
        self._count += 1
        self._browser.picture(self._folder / f"{self._count:02}-{name}.png")
        text = self._browser.text()
        missing = [word for word in words if word not in text]
        if missing or (without and without in text):
            self.failed = True
            print(f"{name}: missing {missing} in {text!r}")
        else:
            print(f"{name}: ok")

    def go(self, target: str) -> None:
        self._browser.open(self._top + target)

    def sign_up(self, name: str, password: str) -> None:
        self.go("/signup.php")
        self._browser.fill(name=name, mail=f"{name}@foo.com", password=password)

    def log_in(self, name: str, password: str) -> None:
        self._browser.forget()
        self.go("/login.php")
        self._browser.fill(name=name, password=password)


def walk(browser: Browser, steps: Walk) -> None:
    steps.sign_up("ann", "s3cret")
    steps.see("signed-up", "Log in")
    steps.sign_up("bob", "hunter2")
    steps.log_in("ann", "s3cret")
    steps.see("logged-in", "Board", "ann")
    browser.fill(post="Hello from a browser")
    steps.see("posted", "Hello from a browser")
    steps.go("/notes.php")
    browser.fill(note="the key is under the mat")
    steps.go("/note.php?id=1")
    steps.see("own-note", "the key is under the mat")
    steps.log_in("bob", "hunter2")
    steps.go("/note.php?id=1")
    steps.see("note-of-another", "Uncaught PolicyException", without="mat")
    steps.go("/")
    browser.fill(post="<script>document.body.textContent = 'taken over'</script>")
    steps.see("board-with-a-script", "<script>")
    steps.go("/latest.php")
    steps.see("script-refused", "Uncaught PolicyException", without="taken over")
    steps.go("/reminder.php")
    browser.fill(name="ann")
    steps.see("reminded", "a mail is under way")


def main() -> int:
    [folder] = map(Path, sys.argv[1:])
    folder.mkdir(parents=True, exist_ok=True)
    with tempfile.TemporaryDirectory(prefix="resin-forum-") as made:
        shutil.copytree(TOOLS.parent / "demo" / "forum" / "site", Path(made) / "site")
        server = Server(Path(made), engine_or_skip())
        browser = Browser()
        try:
            steps = Walk(browser, f"http://127.0.0.1:{server.port}", folder)
            walk(browser, steps)
        finally:
            browser.close()
            server.end()
        denied = [line for line in server.lines if "DENIED" in line]
        print(*denied, sep="\n")
        return 1 if steps.failed or len(denied) != 2 else 0


if __name__ == "__main__":
    sys.exit(main())
