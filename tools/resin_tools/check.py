"""`resin check`: what is wrong with the scripts of a site before they run."""
import re
from collections.abc import Iterator
from pathlib import Path

from .checker import find_fault
from .fault import Wrong
from .left_out import instead_of_form, otherwise
from .names import early_parents, unknown_names, wrong_counts
from .php import Token, read_source
from .scripts import Finding, Script

_INPUT = re.compile(r"\$_(?:GET|POST|COOKIE|SERVER)\b")
_SHORT_TAG = re.compile(r"<\?(?!xml)", re.I)
# How each token begins that `otherwise` may know.
_ODD = re.compile(r"\$_|\$GLOBALS|static$|__", re.I)


def check_site(checker: Path, folder: Path, before: dict[Path, Script] | None = None) -> list[Finding]:
    """All findings in the scripts below `folder/site`, by file and place. Raises Wrong where the checker can't tell.

    Scripts that stand among those of an earlier look with the same text aren't looked at anew; afterwards those of this look stand there."""
    known = before if before is not None else {}
    scripts = [read_script(checker, path, known.get(path)) for path in script_paths(folder)]
    known.clear()
    known.update({script.path: script for script in scripts})
    looks = [faults, early_parents, wrong_counts, read_otherwise]
    found = [finding for script in scripts for look in looks for finding in look(script)]
    found += unknown_names(scripts)
    found += [finding for script in scripts if script.path == folder / "site" / "boot.php" for finding in guards(script)]
    return sorted(found, key=lambda it: (it.path, it.line, it.column))


def script_paths(folder: Path) -> list[Path]:
    """The scripts below `folder/site`, in order. Shadow texts stand in `.resin` under the names of their files, and are none."""
    site = folder / "site"
    return sorted(path for path in site.rglob("*.php") if path.is_file() and path.relative_to(site).parts[0] != ".resin")


def read_script(checker: Path, path: Path, before: Script | None) -> Script:
    """A script, with what is wrong with its text."""
    try:
        data = path.read_bytes()
    except OSError as error:
        raise Wrong(f"{path}: {error.strerror}") from None
    if before and before.source == read_source(data):
        return before
    return Script(path, read_source(data), find_fault(checker, data))


# ---- texts that are no programs

_FAULTS = {
    "Syntax": "no program goes on like this (Syntax)",
    "TooDeep": "too many constructs nest here (TooDeep)",
    "TooLong": "a source text has at most 16,777,216 bytes",
}


def faults(script: Script) -> Iterator[Finding]:
    """Why a script is no program."""
    if fault := script.fault:
        notes = instead_of_form(_statement(script, fault.offset)) if fault.kind == "Syntax" else ()
        yield script.error(fault.offset, _FAULTS[fault.kind], *notes)


def _statement(script: Script, place: int) -> str:
    """A statement with a fault at a place, as `instead_of_form` wants it."""
    code = [token for token in script.tokens if token.kind not in ("inline", "open")]
    end = next((at for at, token in enumerate(code) if token.start >= place), len(code))
    start = max((at + 1 for at, token in enumerate(code[:end]) if token.text in (";", "{", "}") or token.kind == "close"), default=0)
    before = "".join(_plain(token, place) + " " for token in code[start:end])
    return before + "▸" + " ".join(_plain(token, place) for token in code[end : end + 2]) + " "


def _plain(token: Token, place: int) -> str:
    """A token without what no table looks at."""
    if token.kind == "variable":
        return "$v"
    if token.kind != "text":
        return token.text
    if token.text.startswith('"') and token.start < place < token.end:
        return '"{'
    return '"${' if token.text.startswith('"') and token.start == place and "${" in token.text else "''"


# ---- what is read and does something else


def read_otherwise(script: Script) -> Iterator[Finding]:
    """What is no fault and means something else than in PHP."""
    code = script.read
    for at, token in enumerate(code):
        if token.kind in ("name", "variable") and _ODD.match(token.text):
            window = f"{code[at - 1].text if at else ''} ▸{' '.join(it.text for it in code[at : at + 3])} "
            if found := otherwise(window):
                yield script.warning(token.start, *found)
        elif token.kind == "inline":
            for tag in _SHORT_TAG.finditer(token.text):
                yield script.warning(token.start + tag.start(), "this is text, which is sent as it stands", "instead: `<?php`, `<?=`")


# ---- boot.php


def guards(boot: Script) -> Iterator[Finding]:
    """What in boot.php looks as if it guarded a page: it runs before the page with no inputs, and `exit` there ends boot.php alone."""
    seen: set[str] = set()
    for token in _outside_declarations(boot):
        if token.kind == "name" and token.text.lower() in ("exit", "die"):
            words = f"{token.text} in boot.php ends boot.php alone: the page runs all the same"
            yield boot.warning(token.start, words, "instead: a function that the pages call")
        is_searched = token.kind == "variable" or token.kind == "text" and token.text.startswith('"')
        found = _INPUT.search(token.text) if is_searched else None
        if found and found[0] not in seen:
            seen.add(found[0])
            words = f"{found[0]} is empty while boot.php runs"
            yield boot.warning(token.start + found.start(), words, "instead: a function that the pages call, or a filter")


def _outside_declarations(script: Script) -> Iterator[Token]:
    """The tokens that stand in no function and no class."""
    opened: list[bool] = []
    declares = False
    for token in script.tokens:
        if token.kind == "name" and token.text.lower() in ("function", "class"):
            declares = True
        elif token.text == "{":
            opened.append(declares)
            declares = False
        elif token.text == "}":
            opened[-1:] = []
        elif not declares and not any(opened):
            yield token
