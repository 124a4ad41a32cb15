#!/usr/bin/env python3
"""files.py FOLDER: makes the database files of resin_sqlite_table's data/ by Python's sqlite3, with the schema that docs/FORMATS.md prints."""
import os
import re
import sqlite3
import sys

TOP = os.path.dirname(os.path.dirname(os.path.dirname(os.path.abspath(__file__))))


def schema():
    """The texts of the three tables."""
    with open(os.path.join(TOP, "docs", "FORMATS.md"), encoding="utf-8") as text:
        block = re.search(r"```sql\n(.*?)```", text.read(), re.S)[1]
    return [table.rstrip("\n") for table in re.split(r"(?<=STRICT)\n", block) if table.strip()]


def database(path, tables=None, rows=(), rules=True):
    """Makes a file of small pages with these tables and rows; without the rules, rows may break them."""
    if os.path.exists(path):
        os.remove(path)
    db = sqlite3.connect(path)
    db.execute("PRAGMA page_size = 512")
    db.execute(f"PRAGMA foreign_keys = {int(rules)}")
    db.execute(f"PRAGMA ignore_check_constraints = {int(not rules)}")
    for table in schema() if tables is None else tables:
        db.execute(table)
    for statement, values in rows:
        db.execute(statement, values)
    db.commit()
    db.close()


def table(name, *columns):
    yield "INSERT INTO tables VALUES (?)", (name,)
    for number, (column, kind) in enumerate(columns, 1):
        yield "INSERT INTO columns VALUES (?, ?, ?, ?)", (name, number, column, kind)


def cell(name, row, column, value):
    return "INSERT INTO cells VALUES (?, ?, ?, ?)", (name, row, column, value)


def main(folder):
    def at(name):
        return os.path.join(folder, name)

    tables = schema()
    open(at("empty.db"), "wb").close()
    with open(at("text.db"), "w") as out:
        out.write("no database\n" * 50)
    database(at("other.db"), ["CREATE TABLE users (name TEXT, pw TEXT)"], [("INSERT INTO users VALUES ('ann', 'pw')", ())])
    database(at("old.db"), [tables[0], tables[1], tables[2].replace("row_number", "row")])
    database(at("part.db"), tables[:2])
    # rows that break the rules of their tables: a cell of a table that isn't there, and a row number that is none
    database(at("orphan.db"), None, [cell("t", 1, 1, "x")], rules=False)
    database(at("number.db"), None, [*table("t", ("a", "TEXT")), cell("t", 0, 1, "x")], rules=False)
    database(at("shell.db"), None, [
        *table("last", ("a", "TEXT"), ("b", "INTEGER")),
        *[cell("last", 2**63 - 2, 1, "x"), cell("last", 2**63 - 2, 2, None), cell("last", 2**63 - 1, 1, "y"), cell("last", 2**63 - 1, 2, 3)],
        *table("short", ("a", "TEXT"), ("b", "INTEGER")),
        *[cell("short", 1, 1, "x"), cell("short", 2, 1, "x"), cell("short", 2, 2, 4)],
        *table("long", ("a", "TEXT")),
        *[cell("long", 1, 1, "x"), cell("long", 1, 2, "y")],
    ])
    # a file that was cut off
    with open(at("shell.db"), "rb") as whole, open(at("cut.db"), "wb") as out:
        out.write(whole.read()[:-700])
    os.makedirs(at("folder.db"), exist_ok=True)
    with open(at("folder.db/x"), "w") as out:
        out.write("a folder\n")


if __name__ == "__main__":
    main(sys.argv[1])
