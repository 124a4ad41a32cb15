"""The site of `resin live`, looked at by `check` at the start and where one of its files changes, and for links that lead out of it."""
import contextlib
import queue
import threading
from pathlib import Path

from .check import Script, check_site, script_paths
from .fault import Wrong
from .folders import check_links

_SECONDS = 1.0


class Watch:
    """Looks at a site in a thread of its own, so that no answer waits for it. Without a checker it looks at links alone."""

    def __init__(self, checker: Path | None, folder: Path):
        self._checker, self._folder = checker, folder
        self._news: queue.SimpleQueue[list[str]] = queue.SimpleQueue()
        self._scripts: dict[Path, Script] = {}
        self._told = False
        self._wrong: Wrong | None = None
        self._end = threading.Event()
        threading.Thread(target=self._run, daemon=True).start()

    def news(self) -> list[str]:
        """The lines that came since the last call. Raises Wrong where a link leads out of the site."""
        if self._wrong:
            raise self._wrong
        lines: list[str] = []
        while not self._news.empty():
            lines += self._news.get()
        return lines

    def stop(self) -> None:
        """Looks no more."""
        self._end.set()

    def _run(self) -> None:
        seen: dict[Path, int] | None = None
        while not self._end.is_set():
            try:
                check_links(self._folder)
            except Wrong as wrong:
                self._wrong = wrong
                return
            if self._checker and (now := self._times()) != seen:
                seen = now
                self._news.put(self._look(self._checker))
            self._end.wait(_SECONDS)

    def _times(self) -> dict[Path, int]:
        times: dict[Path, int] = {}
        with contextlib.suppress(OSError):  # a file may go away meanwhile
            for path in script_paths(self._folder):
                times[path] = path.stat().st_mtime_ns
        return times

    def _look(self, checker: Path) -> list[str]:
        try:
            found = check_site(checker, self._folder, self._scripts)
        except (Wrong, OSError) as error:
            return [f"the site couldn't be checked: {error}"]
        lines = [line for finding in found for line in finding.lines()]
        if not lines and self._told:
            lines = ["check: nothing to tell any more"]
        self._told = bool(found)
        return lines
