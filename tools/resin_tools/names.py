"""The functions and classes that scripts declare and use."""
from collections.abc import Iterator
from dataclasses import dataclass

from .left_out import instead_of, is_missing_method
from .php import Token
from .runtime_names import CLASSES, COUNTS, FUNCTIONS, KEYWORDS
from .scripts import Finding, Script

# Words that begin forms of PHP before a bracket: where the form is a fault, they aren't told as functions too.
_WORDS = frozenset("declare fn list match".split())
_OPENING, _CLOSING = ("(", "[", "{"), (")", "]", "}")


@dataclass(frozen=True)
class _Use:
    """A name where it is used."""

    script: Script
    token: Token
    kind: str
    """`function`, `class` or `method`."""

    @property
    def key(self) -> tuple[str, str]:
        return self.kind, self.token.text.lower()


def unknown_names(scripts: list[Script]) -> Iterator[Finding]:
    """The calls of functions and the names of classes that neither the site nor the runtime has, in what is read of each script."""
    runtime = {("function", name) for name in FUNCTIONS} | {("class", name.lower()) for name in CLASSES}
    known = runtime | {(kind, token.text.lower()) for script in scripts for kind, token in declarations(script)}
    for script in scripts:
        for use in uses(script):
            if use.key not in known and not (script.fault and use.key[1] in _WORDS):
                words = f"neither the site nor the runtime has a {use.kind} {use.token.text}"
                yield script.error(use.token.start, words, *instead_of(use.kind, use.token.text))
        for kind, token in declarations(script):
            if (kind, token.text.lower()) in runtime:
                yield script.error(token.start, f"the runtime has a {kind} {token.text} (Redeclared)", "instead: another name")


def declarations(script: Script) -> Iterator[tuple[str, Token]]:
    """The functions, classes and methods that a script declares."""
    depth, class_depth = 0, None
    for before, token in zip([None, *script.tokens], script.tokens):
        word = before.text.lower() if before and before.kind == "name" else ""
        if token.text == "{":
            depth += 1
        elif token.text == "}":
            depth -= 1
            class_depth = None if class_depth == depth else class_depth
        elif token.kind == "name" and word == "class":
            class_depth = depth
            yield "class", token
        elif token.kind == "name" and word == "function":
            yield "function" if class_depth is None else "method", token


def uses(script: Script) -> Iterator[_Use]:
    """The functions and classes that a script uses, and the methods that PHP's exceptions have and those of the runtime haven't."""
    code = [Token("op", ";", 0), *script.read, Token("op", ";", len(script.source))]
    in_catch = False
    for before, token, behind in zip(code, code[1:], code[2:]):
        word = before.text.lower()
        in_catch = word == "catch" or in_catch and before.text != ")"
        if token.kind != "name" or token.text.lower() in KEYWORDS:
            continue
        if word in ("new", "extends", "instanceof") or in_catch and before.text in ("(", "|"):
            yield _Use(script, token, "class")
        elif behind.text == "(" and word not in ("->", "::", "function", "?->"):
            yield _Use(script, token, "function")
        elif behind.text == "(" and word == "->" and is_missing_method(token.text):
            yield _Use(script, token, "method")


def early_parents(script: Script) -> Iterator[Finding]:
    """The parents that their own file declares behind their children."""
    declared = {token.text.lower(): token.start for kind, token in declarations(script) if kind == "class"}
    for before, token in zip(script.read, script.read[1:]):
        if before.text.lower() == "extends" and declared.get(token.text.lower(), 0) > token.start:
            yield script.error(token.start, f"the class {token.text} is declared behind this one", "instead: the parent first")


def wrong_counts(script: Script) -> Iterator[Finding]:
    """The calls of functions of the runtime with another count of arguments than they take."""
    places = {token.start: at for at, token in enumerate(script.read)}
    for use in uses(script):
        name = use.token.text.lower()
        if use.kind != "function" or name not in COUNTS:
            continue
        least, most = COUNTS[name]
        given = _arguments(script.read[places[use.token.start] + 1 :])
        if given is not None and not least <= given <= (given if most is None else most):
            words = f"{name} takes {_range(least, most)}, and gets {given} (ArgumentCountError)"
            yield script.error(use.token.start, words, *instead_of("count", name))


def _arguments(code: list[Token]) -> int | None:
    """How many arguments stand in the brackets that the code begins with, None where they aren't closed."""
    depth, given, is_under_way = 1, 0, False
    for token in code[1:]:
        depth += (token.text in _OPENING) - (token.text in _CLOSING)
        if depth == 0:
            return given
        if depth == 1 and token.text == ",":
            is_under_way = False
        elif not is_under_way:
            given, is_under_way = given + 1, True
    return None


def _range(least: int, most: int | None) -> str:
    if most is None:
        return f"{least} arguments or more" if least > 1 else "an argument or more"
    if least == most:
        return {0: "no arguments", 1: "1 argument"}.get(least, f"{least} arguments")
    return f"{least} to {most} arguments"
