"""The folders that can be served."""
import os
from pathlib import Path

from .fault import Wrong


def check_folder(folder: Path) -> None:
    """Raises Wrong where a folder can't be served: it, or `site/` in it, isn't there, or a link leads out."""
    if not folder.is_dir():
        raise Wrong(f"{folder} is no folder")
    if not (folder / "site").is_dir():
        raise Wrong(f"{folder} has no folder site/, which holds the pages")
    check_links(folder)


def check_links(folder: Path) -> None:
    """Raises Wrong where a link in `site/` leads out of it, or `site/` itself is one that leads out of the folder."""
    site = folder / "site"
    _refuse_link(site, folder)
    for place, folders, files in os.walk(site):
        for name in (*folders, *files):
            _refuse_link(Path(place, name), site)


def _refuse_link(path: Path, home: Path) -> None:
    if path.is_symlink() and not Path(os.path.realpath(path)).is_relative_to(os.path.realpath(home)):
        raise Wrong(f"{path} is a link that leads out of {home}: nothing outside is served")
