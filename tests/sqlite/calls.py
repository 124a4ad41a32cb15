#!/usr/bin/env python3
"""calls.py FOLDER: writes the rows of resin_sqlite_table into FOLDER/stdin and FOLDER/stdout.

The answers are those of the tables below, which are written from what docs/FORMATS.md and the trait `Tables` say of each call, and share
nothing with the program. Most rows are calls drawn by a fixed seed, with the file opened again after each 100; the rest are edges, and
the files of data/, which files.py makes. test_sqlite.py draws more."""
import os
import random
import sys

LAST = 2**63 - 1


class Tables:
    """Tables in memory: a name has columns and rows; cells are None, an int or bytes."""

    def __init__(self):
        self.tables = {}

    def create(self, name, columns):
        if name in self.tables:
            return False
        self.tables[name] = (list(columns), {})
        return True

    def columns(self, name):
        return self.tables[name][0] if name in self.tables else None

    def rows(self, name):
        return sorted(self.tables[name][1].items()) if name in self.tables else []

    def insert(self, name, cells):
        if name not in self.tables:
            return None
        columns, rows = self.tables[name]
        number = max(rows, default=0) + 1
        if len(cells) != len(columns) or number > LAST:
            return None
        rows[number] = list(cells)
        return number

    def update(self, name, number, cells):
        if name not in self.tables:
            return False
        columns, rows = self.tables[name]
        if len(cells) != len(columns) or number not in rows:
            return False
        rows[number] = list(cells)
        return True

    def delete(self, name, number):
        return name in self.tables and self.tables[name][1].pop(number, None) is not None


def escaped(text):
    """A text as it is printed."""
    return "".join(chr(b) if chr(b).isalnum() and b < 128 or b == 95 else f"%{b:02X}" for b in text)


def cell_word(cell):
    return "N" if cell is None else str(cell) if isinstance(cell, int) else "'" + escaped(cell)


def answer_text(answer):
    if answer is None:
        return "none"
    return {True: "true", False: "false"}[answer] if isinstance(answer, bool) else str(answer)


def columns_text(columns):
    return "none" if columns is None else "columns" + "".join(f" {kind}:{escaped(name)}" for kind, name in columns)


def rows_text(rows):
    return "rows" + "".join(f" {number}:" + ",".join(map(cell_word, cells)) for number, cells in rows)


class Script:
    """Calls with their answers."""

    def __init__(self):
        self.calls, self.answers, self.tables = [], [], Tables()

    def say(self, call, answer):
        self.calls.append(call)
        self.answers.append(answer)

    def open(self, path, answer="open"):
        self.tables = Tables()
        self.say(f"open {path}", answer)

    def create(self, name, *columns):
        words = [f"{kind}:{escaped(column)}" for kind, column in columns]
        self.say(" ".join(["create", escaped(name), *words]), answer_text(self.tables.create(name, columns)))

    def columns(self, name):
        self.say(f"columns {escaped(name)}", columns_text(self.tables.columns(name)))

    def rows(self, name):
        self.say(f"rows {escaped(name)}", rows_text(self.tables.rows(name)))

    def insert(self, name, *cells):
        words = ["insert", escaped(name), *map(cell_word, cells)]
        self.say(" ".join(words), answer_text(self.tables.insert(name, cells)))

    def update(self, name, number, *cells):
        words = ["update", escaped(name), str(number), *map(cell_word, cells)]
        self.say(" ".join(words), answer_text(self.tables.update(name, number, cells)))

    def delete(self, name, number):
        self.say(f"delete {escaped(name)} {number}", answer_text(self.tables.delete(name, number)))


NAMES = [b"users", b"t", b"T", b"", b"a b", b"caf\xc3\xa9", b"n\x00l", b"\xff\xfe", b"x'y\"z", b"absent"]
TEXTS = [b"", b"it's", b"NULL", b"5", b"a\x00b", b"\x00", b"\xff", b"\xc3\xa9", b"\xc3", b"%41", b"two\nlines", b" ", b"resin2 1 1 2\n",
         b"x" * 300, b"\xed\xa0\x80", b"\xf0\x9f\x98\x80"]
NUMBERS = [0, 1, -1, 7, LAST, -LAST - 1, 2**31, 1234567890123]


def some_cell(draw):
    kind = draw.random()
    if kind < 0.15:
        return None
    if kind < 0.45:
        return draw.choice(NUMBERS)
    return draw.choice(TEXTS) if kind < 0.9 else bytes(draw.randrange(256) for _ in range(draw.randrange(40)))


def draw_calls(script, count, seed):
    draw = random.Random(seed)
    for k in range(1, count + 1):
        name = draw.choice(NAMES)
        width = len(script.tables.columns(name) or [])
        numbers = [number for number, _ in script.tables.rows(name)]
        if draw.random() < 0.07:
            width = draw.randrange(6)
        cells = [some_cell(draw) for _ in range(width)]
        number = draw.choice(numbers) if numbers and draw.random() < 0.85 else draw.choice([0, 1, 9, LAST, LAST + 1, 2**64 - 1])
        what = draw.random()
        if what < 0.06 and name != b"absent":
            columns = [(draw.choice("TI"), draw.choice(NAMES)) for _ in range(draw.randrange(6))]
            script.create(name, *columns)
        elif what < 0.16:
            script.columns(name)
        elif what < 0.32:
            script.rows(name)
        elif what < 0.60:
            script.insert(name, *cells)
        elif what < 0.80:
            script.update(name, number, *cells)
        else:
            script.delete(name, number)
        if k % 100 == 0:
            script.say("again", "open")


def edges(script):
    script.say("rows t", "not open")
    script.open("new.db")
    for name in NAMES:
        script.columns(name)
        script.rows(name)
    script.insert(b"t", None)
    script.delete(b"t", 1)
    script.update(b"t", 1)
    script.say("second", "another program has the file open")
    script.create(b"t", ("T", b"a"), ("I", b"b"))
    script.create(b"t")
    script.insert(b"t", b"it's", 5)
    script.insert(b"t", None, None)
    script.insert(b"t", b"it's")
    script.insert(b"t", 5, b"it's")
    script.rows(b"t")
    script.delete(b"t", 3)
    script.delete(b"t", 1)
    script.rows(b"t")
    script.insert(b"t", b"", -1)
    script.rows(b"t")
    script.say("again", "open")
    script.rows(b"t")
    script.say("second", "another program has the file open")
    # a table without columns has rows too
    script.create(b"none")
    for _ in range(3):
        script.insert(b"none")
    script.insert(b"none", None)
    script.update(b"none", 2)
    script.update(b"none", 4)
    script.delete(b"none", 2)
    script.say("again", "open")
    script.columns(b"none")
    script.rows(b"none")
    # large texts
    for size in (5000, 70000):
        script.insert(b"t", b"y" * size, size)
    script.say("again", "open")
    script.rows(b"t")


def broken_files(script):
    script.open("empty.db")
    script.rows(b"t")
    no = "the file is no database, or its rows break the rules of their tables"
    for name in ("text.db", "orphan.db", "number.db"):
        script.open(name, no)
        script.say("rows t", "not open")
        script.say("again", no)
    script.open("cut.db", "the file is damaged")
    for name in ("other.db", "old.db", "part.db"):
        script.open(name, "the file holds other tables than those of a site")
    for name in ("missing/resin.db", "folder.db"):
        script.open(name, "the file can't be opened: it or its folder is missing, or may not be read and written")
    # what a shell wrote: the largest number, a row that lacks a cell, one too many, and a cell of another kind
    script.open("shell.db")
    script.say("columns last", "columns T:a I:b <> none")
    script.say("rows last", "rows 9223372036854775806:'x,N 9223372036854775807:'y,3 <> rows")
    script.say("insert last N N", "none")
    script.say("delete last 9223372036854775807", "true <> false")
    script.say("insert last 'z 4", "9223372036854775807 <> none")
    script.say("rows last", "rows 9223372036854775806:'x,N 9223372036854775807:'z,4 <> rows")
    fault = "failed: a row doesn't have exactly one cell for each column of its table"
    for call in ("rows short", "update short 1 'x 5", "rows short", "rows long"):
        script.say(call, fault)


def main(folder):
    script = Script()
    edges(script)
    script.open("drawn.db")
    draw_calls(script, 600, 30)
    broken_files(script)
    for name, lines in (("stdin", script.calls), ("stdout", script.answers)):
        with open(os.path.join(folder, name), "w", newline="\n") as out:
            out.write("\n".join(lines) + "\n")


if __name__ == "__main__":
    main(sys.argv[1])
