"""The programs of the repository that the tools run, and where each of them stands."""
import os
from dataclasses import dataclass
from pathlib import Path

from .fault import Wrong

TOP = Path(__file__).resolve().parents[2]


@dataclass(frozen=True)
class Program:
    """A program of the repository."""

    what: str
    """What a person calls it."""
    crate: str
    name: str
    """Its name in build/."""
    words: tuple[str, ...]
    """With these words, and nothing on standard input, it ends by itself."""
    variable: str
    """The variable of the environment that may name another place of it."""

    @property
    def folder(self) -> Path:
        """Its crate."""
        return TOP / "crates" / self.crate

    @property
    def built(self) -> Path:
        """Where `resin build` puts it."""
        return TOP / "build" / self.name

    @property
    def proved(self) -> Path:
        """Where the gate and `rt run` leave it."""
        return self.folder / "out" / self.crate

    def find(self, chosen: str | None = None) -> Path:
        """The program to run: the chosen one or that which the variable names, else that of `resin build`, or the one that the gate or
        `rt run` left. Raises Wrong where there is none."""
        chosen = chosen or os.environ.get(self.variable)
        for place in [Path(chosen).absolute()] if chosen else [self.built, self.proved]:
            if place.is_file() and os.access(place, os.X_OK):
                return place
        if chosen:
            raise Wrong(f"{chosen} is no program")
        raise Wrong(f"no {self.what} is built yet: run tools/resin build")


ENGINE = Program("engine", "resin_cli", "resin", ("serve",), "RESIN_ENGINE")
CHECKER = Program("checker", "resin_check", "resin_check", (), "RESIN_CHECK")
