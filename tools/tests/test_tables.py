"""Statements over tables, as the engine carries them out and as SQLite does (docs/LANGUAGE.md, "Tables"; docs/FORMATS.md, "The tables").

The statements are made at random, each from the number of its test, of the forms that both understand alike. SQLite gets them with an order by the
number of the row behind the order that they ask for, since its order of rows is otherwise its own.
"""
import random
import sqlite3
import subprocess
import unittest
from dataclasses import dataclass
from pathlib import Path

from support import Folder, engine_or_skip
from resin_tools.records import end_text, piece_text, read_answers

STATEMENTS = 300
JOINS_AND_TOTALS = 150
PAGE = 50

# Tells one statement's answer: a number for a count, else each row's names and cells.
TELL = r"""
function cell($v) { return is_null($v) ? 'null' : (is_int($v) ? "i$v" : 's' . bin2hex($v)); }
function tell($text) {
    try { $answer = sql_query($text); } catch (SqlException $e) { echo 'refused ', $e->getMessage(), "\n"; return; }
    if (is_int($answer)) { echo "count $answer\n"; return; }
    echo 'rows ', count($answer), "\n";
    foreach ($answer as $row) {
        foreach ($row as $name => $value) { echo $name, '=', cell($value), ' '; }
        echo "\n";
    }
}
"""

COLUMNS = {"t": {"a": "INTEGER", "s": "TEXT", "n": "INTEGER"}, "u": {"a": "INTEGER", "r": "TEXT"}}
TEXTS = ["", "x", "y", "Y", "it''s", "100%", "a\nb", "\u00e9", "zz", "x"]
NUMBERS = ["0", "1", "2", "3", "-1", "10", "9223372036854775807", "-9223372036854775808"]
TESTS = ["=", "<>", "<", "<=", ">", ">="]


@dataclass
class Statement:
    """A statement, and what SQLite is asked in its place."""

    text: str
    asked: str


class Maker:
    """Makes statements that are carried out."""

    def __init__(self, seed: int):
        self.random = random.Random(seed)

    def literal(self, kind: str) -> str:
        if self.random.random() < 0.15:
            return "NULL"
        return self.random.choice(NUMBERS) if kind == "INTEGER" else f"'{self.random.choice(TEXTS)}'"

    def condition(self, columns: dict[str, str], depth: int = 0) -> str:
        kind = self.random.random()
        if depth < 3 and kind < 0.4:
            left, right = self.condition(columns, depth + 1), self.condition(columns, depth + 1)
            word = self.random.choice(["AND", "OR"])
            return f"({left}) {word} {right}" if self.random.random() < 0.5 else f"{left} {word} {right}"
        column = self.random.choice(list(columns))
        if kind < 0.55:
            return f"{column} IS {self.random.choice(['', 'NOT '])}NULL"
        return f"{column} {self.random.choice(TESTS)} {self.literal(columns[column])}"

    def where(self, columns: dict[str, str]) -> str:
        return f" WHERE {self.condition(columns)}" if self.random.random() < 0.7 else ""

    def limit(self) -> str:
        return f" LIMIT {self.random.randrange(6)}" if self.random.random() < 0.3 else ""

    def insert(self, table: str) -> Statement:
        columns = COLUMNS[table]
        rows = ", ".join(f"({', '.join(self.literal(kind) for kind in columns.values())})" for _ in range(self.random.randint(1, 3)))
        if self.random.random() < 0.7:
            return self.alike(f"INSERT INTO {table} VALUES {rows}")
        some = self.random.sample(list(columns), self.random.randint(1, len(columns)))
        return self.alike(f"INSERT INTO {table} ({', '.join(some)}) VALUES ({', '.join(self.literal(columns[it]) for it in some)})")

    def statement(self) -> Statement:
        table = self.random.choice(list(COLUMNS))
        columns = COLUMNS[table]
        kind = self.random.random()
        if kind < 0.35:
            return self.insert(table)
        if kind < 0.45:
            some = self.random.sample(list(columns), self.random.randint(1, len(columns)))
            return self.alike(f"UPDATE {table} SET {', '.join(f'{it} = {self.literal(columns[it])}' for it in some)}{self.where(columns)}")
        if kind < 0.5:
            return self.alike(f"DELETE FROM {table} WHERE {self.condition(columns)} AND {self.condition(columns)}")
        names = "*" if self.random.random() < 0.4 else ", ".join(self.random.sample(list(columns), self.random.randint(1, len(columns))))
        front, limit = f"SELECT {names} FROM {table}{self.where(columns)}", self.limit()
        if self.random.random() < 0.6:
            order = f" ORDER BY {self.random.choice(list(columns))}{self.random.choice(['', ' ASC', ' DESC'])}"
            return Statement(front + order + limit, f"{front}{order}, rowid{limit}")
        return Statement(front + limit, f"{front} ORDER BY rowid{limit}")

    def join_or_total(self) -> Statement:
        if self.random.random() < 0.2:
            return self.insert(self.random.choice(list(COLUMNS)))
        return self.join() if self.random.random() < 0.5 else self.total()

    def join(self) -> Statement:
        first, second = self.random.choice([("t", "u"), ("u", "t")])
        columns = {f"{table}.{name}": kind for table in (first, second) for name, kind in COLUMNS[table].items()}
        left, right = self.random.choice([("t.a", "u.a"), ("t.n", "u.a"), ("t.s", "u.r"), ("u.r", "t.s"), ("u.a", "t.a")])
        names = ", ".join(self.random.sample(list(columns), self.random.randint(1, len(columns))))
        front, limit = f"SELECT {names} FROM {first} JOIN {second} ON {left} = {right}{self.where(columns)}", self.limit()
        asked = ", ".join(f'{it} AS "{it}"' for it in names.split(", "))
        return Statement(front + limit, f"{front.replace(names, asked, 1)} ORDER BY {first}.rowid, {second}.rowid{limit}")

    def total(self) -> Statement:
        table = self.random.choice(list(COLUMNS))
        columns = COLUMNS[table]
        items = ["COUNT(*)"] + [f"{word}({it})" for it, kind in columns.items() for word in ("SUM", "MIN", "MAX", "GROUP_CONCAT") if not (word == "SUM" and kind == "TEXT")]
        some = self.random.sample(items, self.random.randint(1, 4))
        asked = ", ".join(f'{it} AS "{it}"' for it in some)
        where = self.where(columns)
        return Statement(f"SELECT {', '.join(some)} FROM {table}{where}", f"SELECT {asked} FROM (SELECT * FROM {table}{where} ORDER BY rowid)")

    def alike(self, text: str) -> Statement:
        return Statement(text, text)


def told(value: int | str | None) -> str:
    """A cell as `TELL` shows it."""
    if value is None:
        return "null"
    return f"i{value}" if isinstance(value, int) else f"s{value.encode().hex()}"


class Oracle:
    """SQLite over tables of the same names."""

    def __init__(self) -> None:
        self.tables = sqlite3.connect(":memory:")

    def answer(self, asked: str) -> str | None:
        """What the statement's answer is shown as; None where a sum leaves 64 bits."""
        try:
            cursor = self.tables.execute(asked)
            if cursor.description is None:
                return f"count {max(0, cursor.rowcount)}\n"
            names = [it[0] for it in cursor.description]
            rows = cursor.fetchall()
        except sqlite3.OperationalError as error:
            if "integer overflow" in str(error):
                return None
            raise
        return f"rows {len(rows)}\n" + "".join("".join(f"{name}={told(value)} " for name, value in zip(names, row)) + "\n" for row in rows)


class Tables(Folder):
    def setUp(self) -> None:
        super().setUp()
        self.engine = engine_or_skip()

    def serve(self, pages: list[str]) -> list[bytes]:
        """Serves one request of each page in turn, by one engine, and answers the bodies."""
        trace = b""
        for number, page in enumerate(pages):
            self.put(f"site/p{number}.php", page)
            trace += piece_text(1, f"GET /p{number}.php HTTP/1.1\r\nHost: x\r\n\r\n".encode())
        done = subprocess.run([self.engine, "serve", "--fuel", "100000000"], cwd=self.folder, input=trace + end_text(1), capture_output=True, timeout=120, check=False)
        self.assertEqual((done.returncode, done.stderr), (0, b""))
        return [it.response.split(b"\r\n\r\n", 1)[1] for it in read_answers(done.stdout)]

    def pages_of(self, statements: list[Statement]) -> list[str]:
        parts = [statements[at:at + PAGE] for at in range(0, len(statements), PAGE)]
        return ["<?php" + TELL + "".join(f"tell('{quoted(it.text)}');\n" for it in part) for part in parts]

    def compare(self, statements: list[Statement]) -> None:
        """Carries the statements out by both, each page by an engine of its own, and looks at each answer and at the file behind them."""
        oracle = Oracle()
        made = [Statement(text, text) for text in (f"CREATE TABLE {table} ({', '.join(f'{it} {kind}' for it, kind in columns.items())})" for table, columns in COLUMNS.items())]
        statements = made + statements
        text = "".join(self.serve([page])[0].decode() for page in self.pages_of(statements))
        for statement in statements:
            expected = oracle.answer(statement.asked)
            assert expected is not None
            with self.subTest(statement=statement.text):
                self.assertEqual(text[:len(expected)], expected)
            text = text[len(expected):]
        self.assertEqual(text, "")
        for table in COLUMNS:
            with self.subTest(table=table):
                self.assertEqual(self.kept(table), [row for row in oracle.tables.execute(f"SELECT * FROM {table} ORDER BY rowid")])

    def kept(self, table: str) -> list[tuple]:
        """The rows of a table as the database file keeps them, without the shadow text behind each cell."""
        with sqlite3.connect(self.folder / "resin.db") as file:
            cells = file.execute("SELECT row_number, value FROM cells WHERE table_name = ? ORDER BY row_number, column_number", (table,)).fetchall()
        rows: dict[int, list] = {}
        for number, value in cells:
            rows.setdefault(number, []).append(value)
        return [tuple(row[::2]) for row in rows.values()]

    def test_statements_of_one_table_are_those_of_sqlite(self):
        for seed in range(3):
            maker = Maker(seed)
            with self.subTest(seed=seed):
                self.reset()
                self.compare([maker.statement() for _ in range(STATEMENTS // 3)])

    def test_joins_and_totals_are_those_of_sqlite(self):
        for seed in range(3):
            maker = Maker(100 + seed)
            maker_of = [maker.insert("t"), maker.insert("u"), maker.insert("t"), maker.insert("u")]
            with self.subTest(seed=seed):
                self.reset()
                self.compare(maker_of + self.without_overflow(maker_of, [maker.join_or_total() for _ in range(JOINS_AND_TOTALS // 3 + 10)]))

    def without_overflow(self, front: list[Statement], statements: list[Statement]) -> list[Statement]:
        """Those whose sums stay in 64 bits: beyond, a request ends by a fault here and a statement by an error there."""
        oracle = Oracle()
        for table, columns in COLUMNS.items():
            oracle.answer(f"CREATE TABLE {table} ({', '.join(f'{it} {kind}' for it, kind in columns.items())})")
        for it in front:
            oracle.answer(it.asked)
        return [it for it in statements if oracle.answer(it.asked) is not None]

    def reset(self) -> None:
        """Takes the database out."""
        for path in self.folder.glob("resin.db*"):
            path.unlink()

    def test_policies_of_cells_outlive_the_engine(self):
        self.serve(["""<?php sql_query('CREATE TABLE t (a TEXT)'); sql_query("INSERT INTO t VALUES ('it''" . policy_add('s', new NoExport()) . "')");"""])
        [body] = self.serve(["<?php $r = sql_query('SELECT a FROM t'); echo substr($r[0]['a'], 0, 3), $r[0]['a'];"])
        self.assertEqual(body[:3], b"it'")
        self.assertIn("write=2 channel=http policy=NoExport#1", (self.folder / "denial.log").read_text())
        self.assertIn("bytes=3-4", (self.folder / "denial.log").read_text())
        with sqlite3.connect(self.folder / "resin.db") as file:
            self.assertEqual(file.execute("SELECT value FROM cells ORDER BY column_number").fetchall(), [("it's",), ('resin2 1 1 2\nO:8:"NoExport":0:{}\n0\n3\n1 0\n',)])

    def test_a_database_that_another_program_holds_is_refused(self):
        self.serve(["<?php sql_query('CREATE TABLE t (a TEXT)');"])
        holder = sqlite3.connect(self.folder / "resin.db")
        self.addCleanup(holder.close)
        holder.execute("BEGIN EXCLUSIVE")
        done = subprocess.run([self.engine, "serve"], cwd=self.folder, input=b"", capture_output=True, timeout=60, check=False)
        self.assertEqual((done.returncode, done.stdout), (4, b""))
        self.assertEqual(done.stderr, b"resin.db: another program has the file open\nread fault\n")

    def test_a_file_that_is_no_database_is_refused_and_left(self):
        path = self.put("resin.db", b"no database" * 100)
        done = subprocess.run([self.engine, "serve"], cwd=self.folder, input=b"", capture_output=True, timeout=60, check=False)
        self.assertEqual(done.returncode, 4)
        self.assertTrue(done.stderr.startswith(b"resin.db: the file is no database"), done.stderr)
        self.assertTrue(done.stderr.endswith(b"\nread fault\n"), done.stderr)
        self.assertEqual(path.read_bytes(), b"no database" * 100)


def quoted(text: str) -> str:
    """A text inside the single quotes of PHP."""
    return text.replace("\\", "\\\\").replace("'", "\\'")


if __name__ == "__main__":
    unittest.main()
