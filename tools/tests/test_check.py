"""`resin check`, and its tables of what the runtime has and of what the language leaves out."""
import os
import re
import subprocess
import sys
import unittest
from pathlib import Path
from unittest import mock

from support import TOOLS, Folder, Live, Server, checker_or_skip, get, read_response, run
from resin_tools import check, live, programs
from resin_tools.check import faults, read_otherwise
from resin_tools.checker import Fault, find_fault
from resin_tools.left_out import FORMS, LESS, NAMES, OTHERWISE, instead_of
from resin_tools.php import Lines, read_source, tokens
from resin_tools.runtime_names import CLASSES, CONSTANTS, COUNTS, FUNCTIONS, KEYWORDS, SERVER_KEYS
from resin_tools.scripts import Script

TOP = TOOLS.parent
PAGE = (TOP / "docs" / "LANGUAGE.md").read_text()


def section(head: str) -> str:
    """The part of docs/LANGUAGE.md under a heading that begins so."""
    found = re.search(rf"^(#+) {re.escape(head)}.*?\n(?=#|\Z)", PAGE, re.M | re.S)
    assert found, head
    return found[0]


def rows(text: str) -> list[str]:
    """The rows of tables, without their heads."""
    lines = [line for line in text.splitlines() if line.startswith("|")]
    heads = {at for at, line in enumerate(lines[1:]) if line.startswith("|---")}
    return [line for at, line in enumerate(lines) if at not in heads and at - 1 not in heads]


class Tokens(unittest.TestCase):
    def texts(self, source: str) -> list[str]:
        return [token.text for token in tokens(source)]

    def test_code_and_inline_text(self):
        self.assertEqual(self.texts("a<?php b();?>\nc<?= $d ?><? e"), ["a", "<?php ", "b", "(", ")", ";", "?>\n", "c", "<?=", "$d", "?>", "<? e"])

    def test_texts_and_comments(self):
        source = "<?php 'a\\'b' . \"x {$a[\"k\"]} \\\" y\" /* f() */ // g() ?> h"
        self.assertEqual(self.texts(source), ["<?php ", "'a\\'b'", ".", '"x {$a["k"]} \\" y"', "?>", " h"])

    def test_what_is_not_closed_ends_with_the_text(self):
        for source in ("<?php \"a", "<?php 'a", "<?php \"{$a[", "<?php /* a", "<?php", "<?php \"\\"):
            self.assertEqual("".join(self.texts(source)).replace(" ", ""), source.replace(" ", ""))

    def test_lines_and_columns(self):
        source = "a\nbc\r\nd\re".encode().decode("latin-1")
        self.assertEqual([Lines(source).place(at) for at in range(8)], [(1, 1), (1, 2), (2, 1), (2, 2), (2, 3), (2, 4), (3, 1), (3, 2)])
        self.assertEqual(Lines("äb".encode().decode("latin-1")).place(2), (1, 2))


class Tables(unittest.TestCase):
    """What the tables say is what docs/LANGUAGE.md says, and what the crates have."""

    def test_the_page_shows_the_rows(self):
        tables = {"Read otherwise": OTHERWISE, "Forms that are refused": FORMS, "Names that aren't there": NAMES, "Functions that take less": LESS}
        for head, table in tables.items():
            self.assertEqual(rows(section(head)), [row.markdown() for row in table])

    def test_each_name_of_a_row_is_looked_for(self):
        for row in NAMES:
            shown = re.findall(r"`([^`]+)`", row.php)
            found = {("function", name) for name in shown if re.fullmatch(r"\w+", name)}
            found |= {("class", name) for text in shown for name in re.findall(r"^new (\w+)\(", text)}
            found |= {("method", name) for text in shown for name in re.findall(r"^(?:\$e->)?(\w+)\(\)$", text)}
            with self.subTest(row=row.php):
                self.assertTrue(found or not (row.functions or row.classes or row.methods))
                self.assertEqual({instead_of(kind, name) for kind, name in found} - {(f"instead: {row.instead}",)}, set())

    def test_no_name_stands_twice_and_none_is_the_runtimes(self):
        functions = [name for row in NAMES + FORMS for name in row.functions.split()]
        classes = [name for row in NAMES for name in row.classes.split()]
        self.assertEqual((len(functions), len(classes)), (len(set(functions)), len(set(classes))))
        self.assertEqual((set(functions) & FUNCTIONS, set(classes) & CLASSES), (set(), set()))

    def test_the_page_tells_the_functions_and_what_they_take(self):
        told: dict[str, str] = {}
        for head in ("Builtin functions", "Files", "Filters", "Guards against injection", "Headers, the status, mail and buffers", "Policies"):
            for row in rows(section(head)):
                cell = row.split(" | ")[0]
                shared = re.search(r"`\(([^)]*)\)`", cell)
                told |= {name: shared[1] if shared else "" for name in re.findall(r"`(\w+)`", cell)}
                told |= dict(re.findall(r"`(\w+)\(([^`]*)\)`", cell))
        told |= dict(re.findall(r"^`(\w+)\(([^`]*)\)` carries out", section("Tables"), re.M))
        for method in ("export_check", "merge", "filter_write", "filter_func", "filter_read"):
            del told[method]
        for channel in ("http", "email", "file", "sql", "code", "input"):
            del told[channel]
        self.assertEqual({name: self.counts(parameters) for name, parameters in told.items()}, COUNTS)

    def counts(self, parameters: str) -> tuple[int, int | None]:
        words = parameters.split(", ") if parameters else []
        least = len([word for word in words if word != ".." and " = " not in word])
        return least, None if ".." in words else len(words)

    def test_the_page_tells_the_classes_and_the_server_keys(self):
        self.assertEqual({found[1] for row in rows(section("Exceptions")) if (found := re.match(r"\| `(\w+)`", row))} | {"Policy", "NoExport", "LostPolicy", "Filter"}, CLASSES)
        server = re.search(r"- `\$_SERVER` has (.*)", (TOP / "docs" / "FORMATS.md").read_text())
        assert server
        self.assertEqual(set(re.findall(r"`(\w+)`", server[1])), SERVER_KEYS)

    def test_the_page_tells_the_keywords_and_constants(self):
        words = re.search(r"take them too:\s+`([a-z_\s]+)`", section("Names, variables and keywords"))
        assert words
        self.assertEqual(set(words[1].split()), KEYWORDS)
        text = re.search(r"Constants are (.*?); another", section("Declarations"), re.S)
        assert text
        self.assertEqual(set(re.findall(r"`(\w+)`", text[1])), CONSTANTS)

    def test_the_crates_have_the_names(self):
        functions = {name for crate in ("resin_builtin", "resin_step_parts") for name in re.findall(r'spells\(b"(\w+)"', self.source(crate, "names.rt"))}
        self.assertEqual(functions, FUNCTIONS)
        self.assertEqual(set(re.findall(r'PreludeClass::\w+ => "(\w+)"', self.source("resin_heap", "prelude.rt"))), CLASSES)

    def source(self, crate: str, name: str) -> str:
        return (TOP / "crates" / crate / "src" / name).read_text()


# By the beginning of their rows, forms with a mark where they stop being the front of a program, as docs/LANGUAGE.md tells it.
MARK = "¦"
PLACES = {
    "closures": ["$f = ¦function ($a) { };", "$f = fn($a) ¦=> 1;", "$f = static ¦fn($a) => 1;", "f($a, ¦function () { });"],
    "functions and classes": ["if (1) { ¦class A { } }", "if ($a) ¦function f() { }", "function f() { ¦function g() { } }", "$a = new ¦class { };"],
    "`match": ["$a = match ($b) ¦{ 1 => 2 };"],
    "`throw`": ["$a = $b ?? ¦throw new C();"],
    "`static`": ["static ¦$a = 1;", "class A { ¦static function f() { } }", "class A { public static ¦function f() { } }"],
    "`A::m()`": ["C¦::m();", "$a = self¦::m(1);", "echo A¦::class;", "$a = static¦::X;", "$a¦::m();"],
    "constants": ["const ¦A = 1;", "class A { ¦const B = 1; }", "echo PHP_VERSION¦;", "f(__DIR__ ¦. '/a');", "password_hash($a, PASSWORD_DEFAULT¦);"],
    "`trait`": ["trait ¦A { }", "interface ¦A { }", "class A ¦implements B { }", "abstract ¦class A { }", "class A { public abstract ¦function f(); }", "enum ¦A { }"],
    "`readonly`": ["class A { public readonly ¦int $b; }", "class A { function __construct(¦private $a) { } }"],
    "`array`": ["function f(¦array $a) { }", "function f(): ¦array { }", "class A { public ¦array $a; }"],
    "a sum": ["class A { public $n = 60 ¦* 60; }", "function f($a = 1 ¦+ 2) { }"],
    "floats": ["$a = ¦1.5;", "$a = ¦1e3;", "$a = ¦.5;", "$a = ¦9223372036854775808;"],
    "references": ["foreach ($a as ¦&$v) { }", "$a = ¦&$b;", "function f(¦&$a) { }", "function f($b, int ¦&$a) { }", "function ¦&f() { }"],
    "`list": ["list($a, $b) ¦= $c;", "[$a, $b] ¦= $c;", "foreach ($a as ¦[$b, $c]) { }", "foreach ($a as $k => ¦list($b)) { }"],
    "heredocs": ["$a = ¦<<<A\nx\nA;"],
    '`"${a}"`': ['$a = ¦"x${a}";', "$a = \"{$o->¦{'p'}}\";"],
    "`exit": ["exit(¦'a');", "die(¦1);", "f() ¦or die();"],
    "`print": ["print ¦'a';"],
    "`clone": ["$a = clone ¦$b;"],
    "`$$a`": ["¦$$a = 1;", "$f¦();", "$a = new ¦$c;", "$a->¦$b = 1;", "$a->¦{'b'} = 1;", "f($e instanceof ¦$c);", "$a['f']¦();"],
    "`namespace`": ["namespace ¦A;", "use ¦A;", "$a = ¦\\strlen('a');"],
    "`and`": ["if ($a ¦and $b) { }", "$a = $b ¦xor $c;"],
    "`?->`": ["$a?¦->b;"],
    "`@f()`": ["¦@f();"],
    "`**`": ["$a = 2 *¦* 3;", "$a = $b ¦& 1;", "$a = $b <¦< 1;", "$a = ¦~$b;", "$a = $b ¦| 1;", "$a ¦|= 1;"],
    "`(float)`": ["$a = (float¦)$b;", "$a = (array¦)$b;"],
    "`1_000`": ["$a = ¦1_000;", "$a = ¦0o17;", "$a = ¦0X1F;"],
    "spread": ["f(¦...$a);", "f(a¦: 1);", "function f(¦...$a) { }"],
    "a last comma": ["function f($a,¦) { }", "unset($a,¦);"],
    "`break": ["while (1) { break ¦2; }"],
    "`switch": ["switch ($a)¦: case 1: endswitch;", "switch ($a) { case 1¦; }"],
    "keywords": ["class A { function ¦default() { } }", "$o->¦class = 1;"],
    "`new C()": ["new C()¦->m();"],
    "attributes": ["¦#[A] class B { }", "declare(strict_types¦=1);", "goto ¦a;", "function f() { yield ¦1; }", "$a = ¦`ls`;"],
}
# A stand-in for the checker: the fault is told by a comment before it.
STAND_IN = f"""#!{sys.executable} -ISs
import re, sys
found = re.search(rb"/[*](Syntax|TooDeep|TooLong|Memory)[*]/", sys.stdin.buffer.read())
if not found: sys.exit(0)
if found[1] == b"TooLong": sys.exit(6)
if found[1] == b"Memory": sys.stderr.write("out of memory\\n"); sys.exit(7)
print(f"{{found[1].decode()}} at {{found.end()}}, line 1, column 1")
sys.exit(1)
"""


def marked_fault(_: Path, source: bytes) -> Fault | None:
    """The same without a process."""
    found = re.search(rb"/[*](Syntax|TooDeep|TooLong)[*]/", source)
    return Fault(found[1].decode(), found.end()) if found else None


class Site(Folder):
    def setUp(self) -> None:
        super().setUp()
        self.checker = self.put("stand-in", STAND_IN)
        self.checker.chmod(0o755)

    def check(self) -> tuple[int, list[str]]:
        done = run("check", self.folder, "--checker", self.checker)
        self.assertEqual(done.stderr, b"")
        return done.returncode, done.stdout.decode().splitlines()

    def heads(self, name: str) -> list[str]:
        """What the lines that name a place in a file say behind its name."""
        return [line.partition(f"/{name}:")[2] for line in self.check()[1] if f"/{name}:" in line]


class Marked(Site):
    """Tests that start no process."""

    def setUp(self) -> None:
        super().setUp()
        patch = mock.patch.object(check, "find_fault", marked_fault)
        patch.start()
        self.addCleanup(patch.stop)


class Asked(Site):
    def test_what_the_checker_tells(self):
        rows = {
            "<?php f();": None,
            "<?php $a = /*Syntax*/;": Fault("Syntax", 21),
            "/*TooDeep*/": Fault("TooDeep", 11),
            "/*TooLong*/": Fault("TooLong", 16_777_216),
        }
        for source, fault in rows.items():
            self.assertEqual(find_fault(self.checker, source.encode()), fault)

    def test_a_checker_that_cannot_tell(self):
        self.put("site/a.php", "<?php /*Memory*/")
        other = self.put("other", "#!/bin/sh\necho Syntax\nexit 1\n")
        other.chmod(0o755)
        for checker, words in ((self.checker, "ended with status 7: out of memory"), (Path("/bin/false"), "ended with status 1"), (other, "ended with status 1")):
            done = run("check", self.folder, "--checker", checker)
            self.assertEqual((done.returncode, done.stdout, done.stderr.decode()), (2, b"", f"resin: {checker} {words}\n"))


class Shown(Marked):
    def test_a_fault_with_its_place(self):
        self.put("site/a.php", "<p>\n<?php\n\t$a = 'ü' . /*Syntax*/;\n")
        status, lines = self.check()
        self.assertEqual(status, 1)
        self.assertEqual(lines[0], f"{self.folder}/site/a.php:3:23: error: no program goes on like this (Syntax)")
        self.assertEqual(lines[1:], ["     $a = 'ü' . /*Syntax*/;", "    " + " " * 22 + "^"])

    def test_the_caret_stands_under_its_place(self):
        for front in ("", "'漢字' . ", "'e\u0301' . ", "'\x1b[31m' . "):
            with self.subTest(front=front):
                self.put("site/a.php", f"<?php $a = {front}/*Syntax*/)")
                _, text, caret = self.check()[1]
                self.assertTrue(text.isprintable())
                wide = {"漢": 2, "字": 2, "\u0301": 0}
                self.assertEqual(sum(wide.get(c, 1) for c in text[: text.index(")")]), caret.index("^"))

    def test_a_long_line_is_cut(self):
        for before, behind in ((0, 5000), (5000, 0), (5000, 5000), (90, 90)):
            with self.subTest(before=before, behind=behind):
                self.put("site/a.php", f"<?php {'$a;' * before}/*Syntax*/){'$b;' * behind}")
                _, text, caret = self.check()[1]
                self.assertLess(len(text), 180)
                self.assertEqual(text[caret.index("^")], ")")

    def test_other_faults(self):
        self.put("site/a.php", "<?php $a = /*TooDeep*/(1);")
        self.assertEqual(self.heads("a.php"), ["1:23: error: too many constructs nest here (TooDeep)"])
        with mock.patch.object(check, "find_fault", return_value=Fault("TooLong", 17)):
            self.assertEqual(self.heads("a.php"), ["1:18: error: a source text has at most 16,777,216 bytes"])

    def test_a_script_that_cannot_be_read(self):
        path = self.put("site/a.php", "")
        with mock.patch.object(Path, "read_bytes", side_effect=PermissionError(13, "Permission denied")):
            done = run("check", self.folder, "--checker", self.checker)
        self.assertEqual((done.returncode, done.stdout, done.stderr.decode()), (2, b"", f"resin: {path}: Permission denied\n"))

    def test_a_text_is_looked_at_once(self):
        self.put("site/a.php", "<?php f();")
        self.put("site/b.php", "<?php function f() { }")
        seen: dict[Path, Script] = {}
        with mock.patch.object(check, "find_fault", return_value=None) as find_fault:
            self.assertEqual(check.check_site(self.checker, self.folder, seen), [])
            self.put("site/b.php", "<?php g();")
            self.assertEqual(len(check.check_site(self.checker, self.folder, seen)), 2)
            (self.folder / "site" / "a.php").unlink()
            self.assertEqual(len(check.check_site(self.checker, self.folder, seen)), 1)
        self.assertEqual([call.args[1] for call in find_fault.call_args_list], [b"<?php f();", b"<?php function f() { }", b"<?php g();"])
        self.assertEqual(list(seen), [self.folder / "site" / "b.php"])


class Instead(unittest.TestCase):
    def notes(self, form: str) -> list[tuple[str, ...]]:
        front, rest = f"<?php {form}".split(MARK)
        script = Script(Path("a.php"), read_source((front + rest).encode()), Fault("Syntax", len(front.encode())))
        return [finding.notes for finding in faults(script)]

    def test_forms_that_are_left_out(self):
        self.assertEqual(len(PLACES), len(FORMS))
        for row, (begins, forms) in zip(FORMS, PLACES.items()):
            self.assertTrue(row.php.startswith(begins), (row.php, begins))
            for form in forms:
                with self.subTest(form=form):
                    self.assertEqual(self.notes(form), [(f"left out: {row.php}", f"instead: {row.instead}")])

    def test_a_row_for_one_function(self):
        self.assertEqual(self.notes("f(htmlspecialchars($a['b'], ENT_QUOTES ¦| ENT_HTML5, 'UTF-8'));")[0][1], "instead: `htmlspecialchars($s)`, which escapes both quotes")

    def test_no_note_where_no_row_tells(self):
        for form in ("$a = ¦;", "if ($a ¦{ }", "f(1 ¦2);", "$a = [1, ¦", "¦} f();", "$a = 1 + ¦* 2;", "f(TRUE ¦2);", "$a = 'x¦", "f(STR_PAD_LEFT ¦2);", "$a¦->;"):
            with self.subTest(form=form):
                self.assertEqual(self.notes(form), [()])

    def test_what_is_read_otherwise(self):
        source = (
            "<? echo 1 ?><?xml version='1.0'?><?php class A { public static $n = 0; private $m; function __get($n) { } function __construct() { } }\n"
            "echo $GLOBALS['a'], $_REQUEST['b'], $_SERVER['HTTP_HOST'], $_SERVER['REQUEST_URI'], $_SERVER[$a], $_GLOBALS, $__get;\n$_SESSION['c'] = 1;"
        )
        found = list(read_otherwise(Script(Path("a.php"), source)))
        places = [(it.line, it.column, it.words.partition(":")[0], it.is_error) for it in found]
        wanted = [(1, 1, "this is text, which is sent as it stands"), (1, 57, "`public static $n = 0;`"), (1, 93, "`__get`, `__set`, `__call`, `__destruct` and other methods with `__`")]
        supers = "`$GLOBALS`, `$_REQUEST`, `$_FILES`, `$_ENV`"
        wanted += [(2, 6, supers), (2, 21, supers), (2, 37, "`$_SERVER['HTTP_HOST']` and its kin")]
        self.assertEqual(places, [(*it, False) for it in wanted])
        self.assertEqual([it.notes for it in found][1:3], [("instead: a variable, by `global $n;`",), ("instead: a method that is called by its name",)])


RUNTIME = "neither the site nor the runtime has a"


class Names(Marked):
    def test_a_sound_site(self):
        self.put("site/boot.php", "<?php class A extends Policy { } function f() { return $_GET['a']; } function g() { exit; }")
        self.put("site/a.php", "<p><?php if (f() instanceof a) { STRLEN('a'); mail('a', 'b', 'c'); } try { new A(); } catch (Throwable $e) { G(); }")
        self.put("site/b.php", "nothing(); <?php 'nothing()'; # nothing()\n// nothing()\n/* nothing() */ echo \"nothing()\"; ?> nothing();")
        self.put("site/b/c.html", "<?php nothing();")
        self.put("site/.resin/a.php", "<?php nothing();")
        self.assertEqual(self.check(), (0, []))

    def test_the_demo_is_sound(self):
        done = run("check", TOP / "demo", "--checker", self.checker)
        self.assertEqual((done.returncode, done.stdout), (0, b""))

    def test_names_that_nothing_declares(self):
        text = "Join(',', f());\n$o = new Nothing();\n$o->method(1);\ntry { } catch (Exception | Mist $e) { }\nclass B extends Mine { function h() { } }\nh();"
        self.put("site/a.php", f"<?php\n{text}")
        self.put("site/b.php", "<?php class Mine { } function f() { }")
        wanted = [f"2:1: error: {RUNTIME} function Join", f"3:10: error: {RUNTIME} class Nothing", f"5:28: error: {RUNTIME} class Mist", f"7:1: error: {RUNTIME} function h"]
        self.assertEqual(self.heads("a.php"), wanted)
        self.assertIn("    instead: `implode`, `count`, `rtrim`, `is_int`", self.check()[1])

    def test_what_to_write_instead_of_classes_and_methods(self):
        self.put("site/a.php", "<?php $e = new RuntimeException('a'); $e->getLine(); $e->getMessage(); class A { function f() { return new self(); } }")
        lines = self.check()[1]
        self.assertEqual(self.heads("a.php"), [f"1:16: error: {RUNTIME} class RuntimeException", f"1:43: error: {RUNTIME} method getLine", f"1:108: error: {RUNTIME} class self"])
        self.assertEqual([line for line in lines if "instead" in line], ["    instead: a class of that name in `boot.php`: `class RuntimeException extends Exception { }`", "    instead: `getMessage()`, `getCode()`", "    instead: the name of the class"])
        self.put("site/b.php", "<?php class B { function getline() { } }")
        self.assertEqual(len(self.heads("a.php")), 2)

    def test_a_parent_behind_its_child(self):
        self.put("site/a.php", "<?php class B extends A { }\nclass A { }\nclass C extends A { }")
        self.assertEqual(self.heads("a.php"), ["1:23: error: the class A is declared behind this one"])
        self.assertIn("    instead: the parent first", self.check()[1])

    def test_counts_of_arguments(self):
        text = "header('a: b', true, 301);\nimplode($a);\nsubstr($a, [1, 2], f(3, 4, 5));\nob_start(1);\nSTRLEN();\nstrlen($a,);\n$o->strlen();\nsprintf();\narray_merge([]);\narray_merge([], [], []);\nmail(1, 2, 3, 4);"
        self.put("site/a.php", f"<?php\n{text}\nfunction f($a, $b, $c) {{ }}")
        counts = [("2:1", "header takes 1 to 2 arguments, and gets 3"), ("3:1", "implode takes 2 arguments, and gets 1"), ("5:1", "ob_start takes no arguments, and gets 1"), ("6:1", "strlen takes 1 argument, and gets 0")]
        counts += [("9:1", "sprintf takes an argument or more, and gets 0"), ("10:1", "array_merge takes 2 arguments or more, and gets 1"), ("12:1", "mail takes 3 arguments, and gets 4")]
        self.assertEqual(self.heads("a.php"), [f"{place}: error: {words} (ArgumentCountError)" for place, words in counts])
        self.assertIn("    instead: `http_response_code(301); header('Location: /x');`", self.check()[1])
        self.put("site/a.php", "<?php strlen(f(1, 2, /*Syntax*/);")
        self.assertEqual(len(self.heads("a.php")), 2)

    def test_names_that_the_runtime_has(self):
        self.put("site/a.php", "<?php function StrLen($a) { } class policy { function header() { } } class Mine { }")
        self.assertEqual(self.heads("a.php"), ["1:16: error: the runtime has a function StrLen (Redeclared)", "1:37: error: the runtime has a class policy (Redeclared)"])

    def test_words_of_forms_are_no_functions_where_the_form_is_a_fault(self):
        for form in ("declare(strict_types/*Syntax*/=1);", "$a = match (1) /*Syntax*/{ };", "list($a) /*Syntax*/= $b;", "$f = fn($a) /*Syntax*/=> 1;"):
            self.put("site/a.php", f"<?php {form}")
            self.assertEqual(len(self.heads("a.php")), 1)
        self.put("site/a.php", "<?php list($a);")
        self.assertEqual(self.heads("a.php"), [f"1:7: error: {RUNTIME} function list"])

    def test_names_before_a_fault_alone(self):
        self.put("site/a.php", "<?php array_map(/*Syntax*/function ($a) { }, $b); nothing();")
        self.put("site/b.php", "<?php array_map($a); $a = /*Syntax*/<<<A\nit is (b)\nA;\nfunction g() { }")
        self.put("site/c.php", "<?php g();")
        self.assertEqual([head.partition(": ")[2] for head in self.heads("a.php")], [f"error: {RUNTIME} function array_map", "error: no program goes on like this (Syntax)"])
        self.assertEqual(len(self.heads("b.php")), 2)
        self.assertEqual(self.heads("c.php"), [])


class Guards(Marked):
    def test_guards_in_boot(self):
        self.put("site/boot.php", "<?php\nif (!$_COOKIE['s']) {\n  exit;\n}\n$a = $_COOKIE['t'] . \"x {$_GET['u']}\";")
        status, lines = self.check()
        heads = [line.partition("boot.php:")[2] for line in lines if "boot.php:" in line]
        wanted = ["2:6: warning: $_COOKIE is empty while boot.php runs", "3:3: warning: exit in boot.php ends boot.php alone: the page runs all the same"]
        self.assertEqual(heads, [*wanted, "5:26: warning: $_GET is empty while boot.php runs"])
        self.assertEqual(status, 1)
        self.assertIn("    instead: a function that the pages call", lines)

    def test_what_is_no_guard(self):
        self.put("site/boot.php", "<?php function f() { if (!$_GET['a']) { exit; } } class A extends Filter { function m() { die; } } filter_add('http', new A());")
        self.put("site/a.php", "<?php if (!$_GET['a']) { exit; }")
        self.put("site/b/boot.php", "<?php exit;")
        self.assertEqual(self.check(), (0, []))


class Checker(Site):
    """The program itself."""

    def setUp(self) -> None:
        super().setUp()
        self.checker = checker_or_skip()

    def test_the_places_of_the_forms(self):
        for form in [form for forms in PLACES.values() for form in forms]:
            front, rest = f"<?php {form}".encode().split(MARK.encode())
            with self.subTest(form=form):
                self.assert_fault(front + rest, "Syntax", len(front))

    def test_lines_and_columns(self):
        for front in ("<?php ", "a\n<?php\n  ", "<?php\r\n 'ü' . ", "<?php\r\r'a' . ", "<?php /* \n\r\n\r */ $a = "):
            with self.subTest(front=front):
                self.assert_fault(front.encode() + b")", "Syntax", len(front.encode()))

    def test_an_end_that_comes_too_early(self):
        for source in (b"<?php if ($a) { f();", b"<?php if ($a) { f();\n", b"<?php f(\r\n"):
            self.assert_fault(source, "Syntax", len(source))

    def test_nesting(self):
        # The `=` opens the first construct, so the 200th bracket is the one too many.
        self.assert_fault(b"<?php $a = " + b"(" * 201 + b"1" + b")" * 201 + b";", "TooDeep", len(b"<?php $a = ") + 199)
        self.assert_fault(b"<?php $a = " + b"(" * 199 + b")", "Syntax", len(b"<?php $a = ") + 199)

    def assert_fault(self, source: bytes, kind: str, offset: int) -> None:
        """That the checker tells this fault, with the line and the column of Python's."""
        front = source[:offset].replace(b"\r\n", b"\n").replace(b"\r", b"\n").split(b"\n")
        done = subprocess.run([self.checker], input=source, capture_output=True, timeout=60, check=False)
        line = f"{kind} at {offset}, line {len(front)}, column {len(front[-1]) + 1}\n"
        self.assertEqual((done.returncode, done.stdout.decode(), done.stderr), (1, line, b""))

    def test_programs(self):
        for source in (b"", b"<p>\xff", b"<?php f();", b"<?php " + b";" * 1000):
            done = subprocess.run([self.checker], input=source, capture_output=True, timeout=60, check=False)
            self.assertEqual((done.returncode, done.stdout, done.stderr), (0, b"", b""))

    def test_the_longest_text(self):
        for length, wanted in ((16_777_216, (0, b"", b"")), (16_777_217, (6, b"", b"source text too long\n"))):
            done = subprocess.run([self.checker], input=b"a" * length, capture_output=True, timeout=60, check=False)
            self.assertEqual((done.returncode, done.stdout, done.stderr), wanted)

    def test_the_demo_is_sound(self):
        done = run("check", TOP / "demo", "--checker", self.checker)
        self.assertEqual((done.returncode, done.stdout), (0, b""))

    def test_a_long_text_costs_in_proportion(self):
        self.put("site/a.php", "<?php " + "f($a, 'b');\n" * 20_000 + "function f($a, $b) { }")
        self.assertEqual(self.check(), (0, []))


class WhileLive(Site):
    def setUp(self) -> None:
        super().setUp()
        self.engine = self.put("engine", "#!/bin/sh\ncat >/dev/null\n")
        self.engine.chmod(0o755)

    def test_changes_are_looked_at(self):
        self.put("data/site/a.php", "<?php nothing();")
        server = Server(self.folder / "data", self.engine, "--checker", self.checker)
        self.addCleanup(server.end)
        server.wait_line(f"site/a.php:1:7: error: {RUNTIME} function nothing")
        self.put("data/site/a.php", "<?php echo 1;")
        server.wait_line("check: nothing to tell any more")
        self.put("data/site/boot.php", "<?php exit;")
        server.wait_line("site/boot.php:1:7: warning: exit in boot.php")
        self.put("data/site/boot.php", "<?php /*Memory*/")
        server.wait_line("the site couldn't be checked: ")
        self.assertEqual(server.end(), 0)

    def test_without_a_checker_one_line_says_so(self):
        self.put("site/a.php", "<?php nothing();")

        def bridge(_, terminal):
            return mock.Mock(url="", run=lambda _: terminal.flush())

        with mock.patch.object(programs, "TOP", self.folder), mock.patch.object(live, "Bridge", bridge), mock.patch.dict(os.environ):
            os.environ.pop("RESIN_CHECK", None)
            done = run("live", self.folder, "--engine", self.engine)
        self.assertEqual((done.returncode, done.stderr), (0, b""))
        self.assertEqual([line[10:] for line in done.stdout.decode().splitlines()][1:], ["the scripts aren't checked: no checker is built yet: run tools/resin build"])


class WithTheEngine(Live):
    """What a guard in boot.php comes to, of which `check` warns."""

    def test_a_guard_in_boot_lets_everyone_in(self):
        self.put("data/site/a.php", "<?php echo 1;")
        self.put("data/site/boot.php", "<?php if (!isset($_GET['pw'])) { exit; }")
        self.start()
        connection = self.connect()
        connection.sendall(get("/a.php"))
        self.assertEqual(read_response(connection), (200, b"1"))


if __name__ == "__main__":
    unittest.main()
