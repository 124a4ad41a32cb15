"""`resin live`: a folder behind a browser."""
import sys
from pathlib import Path

from .bridge import Bridge, Settings
from .build import is_stale
from .fault import Wrong
from .folders import check_folder
from .programs import CHECKER, ENGINE
from .terminal import Terminal
from .watch import Watch


def live(settings: Settings, quiet: bool, checker: str | None) -> int:
    """Serves until Ctrl-C, and answers the exit status. The chosen checker looks at the site, or the one that is built. Raises Wrong where the folder
    can't be served, or where a link that leads out of it comes while it is."""
    check_folder(settings.folder)
    look = _checker(checker)
    if settings.keep and settings.keep.exists():
        raise Wrong(f"{settings.keep} is there already: give --keep a new name")
    terminal = Terminal(sys.stdout, quiet)
    try:
        bridge = Bridge(settings, terminal)
    except OSError as error:
        where = error.filename or f"can't listen on {settings.address} port {settings.port}"
        raise Wrong(f"{where}: {error.strerror or error}") from None
    if settings.engine == ENGINE.built and is_stale(ENGINE.built):
        terminal.say("build/resin is older than a source of it: tools/resin build makes it anew")
    terminal.say(f"serving {settings.folder} at {bridge.url} (Ctrl-C ends it)")
    if isinstance(look, Wrong):
        terminal.say(f"the scripts aren't checked: {look}")
    watch = Watch(None if isinstance(look, Wrong) else look, settings.folder)
    bridge.run(watch.news)
    watch.stop()
    return 0


def _checker(chosen: str | None) -> Path | Wrong:
    """The checker, or why there is none where none was chosen."""
    try:
        return CHECKER.find(chosen)
    except Wrong as wrong:
        if chosen:
            raise
        return wrong
