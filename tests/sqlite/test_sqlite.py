#!/usr/bin/env python3
"""Tables in a database file, as others see it: SQLite's shell, a second program, a full disk, a stop of the process. Run it once the program is there:

    cd crates/resin_sqlite_table && rt run < stdin >/dev/null && cd ../.. && python3 -m unittest discover -s tests/sqlite

The variable RESIN_SQLITE_TABLE names another program. Nothing here is part of the gate: rt ci runs the program on its rows."""
import os
import random
import resource
import shutil
import signal
import sqlite3
import subprocess
import sys
import tempfile
import unittest

sys.path.insert(0, os.path.dirname(os.path.abspath(__file__)))
import calls  # noqa: E402
import files  # noqa: E402

CRATE = os.path.join(files.TOP, "crates", "resin_sqlite_table")
PROGRAM = os.environ.get("RESIN_SQLITE_TABLE", os.path.join(CRATE, "out", "resin_sqlite_table"))
LOCKED = "another program has the file open"


def drawn(count, seed, path="resin.db"):
    """Calls on a file, with their answers."""
    script = calls.Script()
    script.open(path)
    calls.draw_calls(script, count, seed)
    return script


def content(path):
    with open(path, "rb") as file:
        return file.read()


class Answering:
    """A program that answers call by call."""

    def __init__(self, folder, **how):
        self.of = subprocess.Popen([PROGRAM], cwd=folder, stdin=subprocess.PIPE, stdout=subprocess.PIPE, **how)

    def ask(self, call):
        self.of.stdin.write(call.encode() + b"\n")
        self.of.stdin.flush()
        return self.of.stdout.readline().decode().rstrip("\n")

    def end(self):
        self.of.stdin.close()
        self.of.stdout.close()
        return self.of.wait()


@unittest.skipUnless(os.path.exists(PROGRAM), f"{PROGRAM} isn't there")
class Database(unittest.TestCase):
    def setUp(self):
        self.folder = tempfile.mkdtemp(prefix="resin-sqlite-")
        self.addCleanup(shutil.rmtree, self.folder)
        self.path = os.path.join(self.folder, "resin.db")

    def run_calls(self, lines, **how):
        done = subprocess.run([PROGRAM], cwd=self.folder, input="\n".join(lines) + "\n", capture_output=True, text=True, **how)
        return done.stdout.splitlines()

    def stored(self):
        """What the file holds, read by SQLite, in the form of calls.Tables."""
        db = sqlite3.connect(self.path)
        db.text_factory = bytes
        self.assertEqual(db.execute("PRAGMA integrity_check").fetchall(), [(b"ok",)])
        self.assertEqual(db.execute("PRAGMA foreign_key_check").fetchall(), [])
        tables = {name: ([], {}) for name, in db.execute("SELECT name FROM tables")}
        for name, column, kind in db.execute("SELECT table_name, name, kind FROM columns ORDER BY table_name, column_number"):
            tables[name][0].append((kind.decode()[0], column))
        for name, row, column, value in db.execute("SELECT * FROM cells ORDER BY table_name, row_number, column_number"):
            cells = tables[name][1].setdefault(row, [])
            if column:
                self.assertEqual(column, len(cells) + 1)
                cells.append(value)
        db.close()
        for columns, rows in tables.values():
            for cells in rows.values():
                self.assertEqual(len(cells), len(columns))
        return tables

    def test_sqlite_reads_what_calls_left(self):
        script = drawn(2000, 1)
        self.assertEqual(self.run_calls(script.calls), script.answers)
        self.assertEqual(self.stored(), script.tables.tables)

    def test_the_file_alone_holds_the_tables(self):
        script = drawn(300, 2)
        self.assertEqual(self.run_calls(script.calls), script.answers)
        os.remove(self.path + "-wal")
        self.assertEqual(self.stored(), script.tables.tables)

    def test_what_sqlite_wrote_is_read(self):
        script = calls.Script()
        script.tables.create(b"users", [("T", b"name"), ("I", b"age")])
        script.tables.insert(b"users", [b"ann", 7])
        files.database(self.path, None, [*files.table("users", ("name", "TEXT"), ("age", "INTEGER")), files.cell("users", 1, 1, "ann"), files.cell("users", 1, 2, 7)])
        answers = self.run_calls(["open resin.db", "rows users", "columns users", "insert users 'bob 8"])
        self.assertEqual(answers, ["open", "rows 1:'ann,7 <> rows", "columns T:name I:age <> none", "2 <> none"])
        script.tables.insert(b"users", [b"bob", 8])
        self.assertEqual({name.decode(): rows for name, (_, rows) in self.stored().items()}, {"users": {1: [b"ann", 7], 2: [b"bob", 8]}})

    def test_a_view_and_an_index_are_left_alone(self):
        self.run_calls(["open resin.db", "create t T:a", "insert t 'x"])
        db = sqlite3.connect(self.path)
        db.execute("CREATE VIEW seen AS SELECT row_number, value FROM cells WHERE table_name = 't'")
        db.execute("CREATE INDEX by_value ON cells (value)")
        db.close()
        self.assertEqual(self.run_calls(["open resin.db", "insert t 'y"]), ["open", "2 <> none"])
        db = sqlite3.connect(self.path)
        self.assertEqual(db.execute("SELECT * FROM seen").fetchall(), [(1, "x"), (2, "y")])
        db.close()

    def test_two_programs_at_once(self):
        first = Answering(self.folder)
        self.assertEqual(first.ask("open resin.db"), "open")
        self.assertEqual(first.ask("create t T:a"), "true")
        second = Answering(self.folder)
        self.assertEqual(second.ask("open resin.db"), LOCKED)
        self.assertEqual(second.ask("rows t"), "not open")
        db = sqlite3.connect(self.path, timeout=0)
        with self.assertRaisesRegex(sqlite3.OperationalError, "locked"):
            db.execute("SELECT * FROM tables")
        db.close()
        self.assertEqual(first.ask("insert t 'x"), "1")
        self.assertEqual(first.end(), 0)
        self.assertEqual(second.ask("again"), "open")
        self.assertEqual(second.ask("rows t"), "rows 1:'x <> rows")
        self.assertEqual(second.end(), 0)

    def test_sqlite_in_a_transaction_locks_it(self):
        self.run_calls(["open resin.db", "create t T:a"])
        db = sqlite3.connect(self.path, isolation_level=None)
        db.execute("BEGIN IMMEDIATE")
        db.execute("INSERT INTO tables VALUES ('u')")
        self.assertEqual(self.run_calls(["open resin.db"]), [LOCKED])
        db.execute("ROLLBACK")
        db.close()
        self.assertEqual(self.run_calls(["open resin.db"]), ["open"])

    def test_a_file_that_may_only_be_read(self):
        self.run_calls(["open resin.db", "create t T:a"])
        os.remove(self.path + "-wal")
        for path, mode in ((self.path, 0o444), (self.folder, 0o555)):
            os.chmod(path, mode)
        before = content(self.path)
        how = {"user": 65534, "group": 65534} if os.getuid() == 0 else {}
        answers = self.run_calls(["open resin.db", "open new.db"], **how)
        os.chmod(self.folder, 0o755)
        no = "the file can't be opened: it or its folder is missing, or may not be read and written"
        self.assertEqual(answers, [no, no])
        self.assertEqual(content(self.path), before)

    def test_refused_files_are_left_as_they_were(self):
        files.main(self.folder)
        for name in ("text.db", "cut.db", "orphan.db", "number.db", "other.db", "old.db", "part.db"):
            path = os.path.join(self.folder, name)
            before = content(path)
            self.assertNotIn("open", self.run_calls([f"open {name}", "create t T:a"]))
            self.assertEqual(content(path), before, name)

    def test_a_full_disk_leaves_whole_calls(self):
        def small():
            signal.signal(signal.SIGXFSZ, signal.SIG_IGN)
            resource.setrlimit(resource.RLIMIT_FSIZE, (400_000, 400_000))

        lines = ["open resin.db", "create t T:a T:b"] + ["insert t '" + "x" * 9000 + " '" + "y" * 9000] * 60
        answers = self.run_calls(lines, preexec_fn=small)
        good = [answer for answer in answers[2:] if answer.isdigit()]
        bad = [answer for answer in answers[2:] if not answer.isdigit()]
        self.assertEqual(answers[:2], ["open", "true"])
        self.assertTrue(good and bad)
        self.assertTrue(all(answer.startswith("failed: ") for answer in bad), set(bad))
        print(f"\nfull: {len(good)} rows, then {sorted(set(bad))}", file=sys.stderr)
        rows = self.stored()[b"t"][1]
        self.assertIn(len(rows), (len(good), len(good) + 1))
        again = self.run_calls(["open resin.db", "insert t 'x 'y"])
        self.assertEqual(again, ["open", f"{len(rows) + 1} <> none"])

    def test_a_process_that_is_killed_leaves_whole_calls(self):
        draw = random.Random(5)
        for seed in range(12):
            for name in ("resin.db", "resin.db-wal"):
                if os.path.exists(os.path.join(self.folder, name)):
                    os.remove(os.path.join(self.folder, name))
            script = drawn(250, 100 + seed)
            child = subprocess.Popen([PROGRAM], cwd=self.folder, stdin=subprocess.PIPE, stdout=subprocess.PIPE)
            child.stdin.write(("\n".join(script.calls) + "\n").encode())
            child.stdin.flush()
            answers = []
            for _ in range(draw.randrange(2, 250)):
                answers.append(child.stdout.readline().decode().rstrip("\n"))
            child.kill()
            answers += child.stdout.read().decode().splitlines()
            child.stdin.close()
            child.stdout.close()
            child.wait()
            # every second time the program itself finds what the stop left, else SQLite does
            if seed % 2:
                self.assertEqual(self.run_calls(["open resin.db"]), ["open"])
            # the file holds what it held after the answered calls, or after one of those that were under way
            left = self.stored()
            self.assertTrue(any(left == tables for tables in states(100 + seed)[len(answers) - 1:]), seed)
            self.assertEqual(self.run_calls(["open resin.db"]), ["open"])


def states(seed):
    """What the tables are after each line of the drawn calls."""
    kept = []

    class Keeping(calls.Script):
        def say(self, call, answer):
            super().say(call, answer)
            kept.append({name: (list(columns), {n: list(c) for n, c in rows.items()}) for name, (columns, rows) in self.tables.tables.items()})

    script = Keeping()
    script.open("resin.db")
    calls.draw_calls(script, 250, seed)
    return kept


if __name__ == "__main__":
    unittest.main()
