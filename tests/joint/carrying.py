"""The rows of resin_sql_more_table: joins and totals over small tables. The answers come from Python's sqlite3, and once more from the rules below; where
a cell is of another kind than its column, which SQLite orders in its own way, from the rules alone."""

import random
import sqlite3

from grammar import read

LAST = 2**64 - 1


# ---- tables: a name has columns as a keeper has them, and rows of cells; a cell is None, an int or a text


def shape(columns):
    """The columns without those that hold shadows, if they are pairs and no name stands twice."""
    names = [name for name, _ in columns]
    if not columns or len(columns) % 2 or len(set(names)) < len(names):
        return None
    for (name, _), (shadow, kind) in zip(columns[::2], columns[1::2]):
        if shadow != name + "__resin" or kind != "T":
            return None
    return columns[::2]


def is_of_kind(kind, value):
    return isinstance(value, int) if kind == "I" else isinstance(value, str)


def literal(text, value):
    if value[0] == "null":
        return None
    if value[0] == "number":
        return int(text[value[1] : value[2]])
    return text[value[1] : value[2]].replace("''", "'")


COMPARE = {
    "=": lambda a, b: a == b,
    "<>": lambda a, b: a != b,
    "<": lambda a, b: a < b,
    "<=": lambda a, b: a <= b,
    ">": lambda a, b: a > b,
    ">=": lambda a, b: a >= b,
}


def holds(w, text, cells):
    """`cells`: from the name of a column to its kind and its value."""
    if w is None:
        return True
    if w[0] == "any":
        return any(holds(part, text, cells) for part in w[1])
    if w[0] == "all":
        return all(holds(part, text, cells) for part in w[1])
    kind, value = cells[w[1]]
    if w[0] == "null":
        return is_of_kind(kind, value) if w[2] else value is None
    other = literal(text, w[3])
    if value is None or other is None or type(value) is not type(other):
        return False
    return COMPARE[w[2]](value, other)


def tests(w):
    if w is None:
        return []
    return [w] if w[0] in ("test", "null") else [test for part in w[1] for test in tests(part)]


def wrong_kind(w, text, kinds):
    for test in tests(w):
        if test[0] == "test":
            value = literal(text, test[3])
            if value is not None and not is_of_kind(kinds[test[1]], value):
                return True
    return False


# ---- the keeper


class Refused(Exception):
    pass


class Keeper:
    def __init__(self, tables, fail, made):
        self.tables, self.fail, self.made = tables, fail, made
        self.count, self.failed = 0, []

    def call(self):
        if self.made == LAST:
            raise Refused("spent")
        self.made += 1
        self.count += 1
        if self.count in self.fail:
            self.failed.append(self.made)
            raise Refused("keeper")

    def columns(self, name):
        self.call()
        return shape(self.tables[name][0]) if name in self.tables else None

    def rows(self, name):
        self.call()
        return self.tables[name][1] if name in self.tables else []


def cell(value):
    return "N" if value is None else str(value) if isinstance(value, int) else "'" + value


def answered(kind, value, shadow):
    return (value, shadow) if value is None or is_of_kind(kind, value) else (None, None)


def shown(names, rows, cost, chosen):
    cells = lambda row: ",".join(f"{cell(value)}~{cell(shadow)}" for value, shadow in row)
    return "".join(name + " " for name in names) + ":" + "".join(f" [{cells(row)}]" for row in rows) + f" cost {cost} chosen {chosen}"


def each_once(names):
    return list(dict.fromkeys(names))


def join(text, value, keeper, left):
    _, columns, t, u, p, q, w, limit = value
    if t == u:
        raise Refused("same table")
    ts, us = keeper.columns(t), keeper.columns(u)
    named = columns + [p, q] + [test[1] for test in tests(w)]
    if ts is None or us is None or any(name.split(".")[0] not in (t, u) for name in named):
        raise Refused("no table")
    kinds = {f"{table}.{name}": kind for table, of in ((t, ts), (u, us)) for name, kind in of}
    if any(name not in kinds for name in named):
        raise Refused("no column")
    if wrong_kind(w, text, kinds) or kinds[p] != kinds[q]:
        raise Refused("wrong kind")
    a, b = keeper.rows(t), keeper.rows(u)
    cost = len(a) + len(b) + len(a) * len(b)
    if cost > left:
        raise Refused("spent")
    chosen = []
    for i, first in enumerate(a):
        for j, last in enumerate(b):
            cells = {f"{t}.{name}": (kind, first[2 * n]) for n, (name, kind) in enumerate(ts)}
            cells |= {f"{u}.{name}": (kind, last[2 * n]) for n, (name, kind) in enumerate(us)}
            one, other = cells[p], cells[q]
            if is_of_kind(*one) and is_of_kind(*other) and one[1] == other[1] and holds(w, text, cells):
                chosen.append((i, j))
    chosen = chosen[:limit]
    names = each_once(columns)

    def find(pair, name):
        table, column = name.split(".")
        of, row = (ts, a[pair[0]]) if table == t else (us, b[pair[1]])
        at = [other for other, _ in of].index(column)
        return answered(of[at][1], row[2 * at], row[2 * at + 1])

    rows = [[find(pair, name) for name in names] for pair in chosen]
    return shown(names, rows, cost, len(chosen)), chosen


def item_name(item):
    return "COUNT(*)" if item[0] == "COUNT" else f"{item[0]}({item[1]})"


def item_value(function, cells, chosen):
    """The value of an item over its cells; `?` where one of them isn't to be read."""
    if function == "COUNT":
        return str(chosen)
    if any(value is None for value, _ in cells):
        return "?"
    if not cells:
        return "N"
    values = [value for value, _ in cells]
    if function == "SUM":
        sum = 0
        for value in values:
            sum += value
            if not -(2**63) <= sum < 2**63:
                return "overflow"
        return str(sum)
    if function == "GROUP_CONCAT":
        return "'" + ",".join(str(value) for value in values)
    return cell((min if function == "MIN" else max)(values))


def total(text, value, keeper, left):
    _, items, t, w = value
    columns = keeper.columns(t)
    if columns is None:
        raise Refused("no table")
    kinds = dict(columns)
    named = [column for _, column in items if column is not None] + [test[1] for test in tests(w)]
    if any(name not in kinds for name in named):
        raise Refused("no column")
    if wrong_kind(w, text, kinds) or any(function == "SUM" and kinds[column] == "T" for function, column in items):
        raise Refused("wrong kind")
    rows = keeper.rows(t)
    if len(rows) > left:
        raise Refused("spent")
    chosen = [n for n, row in enumerate(rows) if holds(w, text, {name: (kind, row[2 * at]) for at, (name, kind) in enumerate(columns)})]
    items = [(name, item) for name, item in dict.fromkeys((item_name(item), item) for item in value[1])]
    out = []
    for _, (function, column) in items:
        if column is None:
            out.append([])
            continue
        at = [name for name, _ in columns].index(column)
        cells = [answered(columns[at][1], rows[n][2 * at], rows[n][2 * at + 1]) for n in chosen]
        out.append([found for found in cells if found != (None, "")])
    values = [item_value(function, cells, len(chosen)) for (_, (function, _)), cells in zip(items, out)]
    return shown([name for name, _ in items], out, len(rows), len(chosen)) + " = " + " ".join(values), chosen


# ---- the same by SQLite


def check_values(db, value, behind, said):
    """SQLite's values of the items against those of an answer."""
    values = said.rsplit(" = ", 1)[1]
    items = list(dict.fromkeys(item_name(item) for item in value[1]))
    mine = values.split(" ")
    assert len(mine) == len(items), said
    for name, value in zip(items, mine):
        try:
            (theirs,) = db.execute(f"SELECT {name}{behind}").fetchone()
            theirs = cell(theirs)
        except sqlite3.OperationalError as why:
            assert "overflow" in str(why)
            theirs = "overflow"
        assert value in ("?", theirs), (said, name, theirs)


def by_sqlite(text, value, tables, said):
    """The places of the rows, or pairs, that SQLite chooses; None where a cell is of another kind than its column."""
    used = value[2:4] if value[0] == "join" else value[2:3]
    db = sqlite3.connect(":memory:")
    for name in used:
        columns, rows = tables[name]
        for row in rows:
            for (_, kind), found in zip(columns[::2], row[::2]):
                if found is not None and not is_of_kind(kind, found):
                    return None
        db.execute(f"CREATE TABLE {name} (place INTEGER, {', '.join(column for column, _ in columns)})")
        for place, row in enumerate(rows):
            db.execute(f"INSERT INTO {name} VALUES ({','.join('?' * (len(row) + 1))})", [place, *row])
    places = ", ".join(f"{name}.place" for name in used)
    behind = text[text.upper().index(" FROM ") :].rstrip(" ;")
    limit = ""
    if value[0] == "join" and value[7] is not None:
        at = behind.upper().rindex("LIMIT")
        behind, limit = behind[:at], behind[at:]
    if value[0] == "total":
        check_values(db, value, behind, said)
    found = db.execute(f"SELECT {places}{behind} ORDER BY {places} {limit}").fetchall()
    return [pair if value[0] == "join" else pair[0] for pair in found]


# ---- lines


def parsed(line):
    tables, fail, made, left, statements, last = {}, [], 0, 1_000_000, [], None
    for field in line.split("|"):
        word, _, rest = field.partition(" ")
        if word == "table":
            name, *columns = rest.split(" ")
            last = tables[name] = ([tuple(column.split(":")) for column in columns], [])
        elif word == "row":
            last[1].append([None if it == "N" else it[1:] if it[0] == "'" else int(it) for it in rest.split(" ")])
        elif word == "fail":
            fail = [int(it) for it in rest.split(" ")]
        elif word == "made":
            made = int(rest)
        elif word == "left":
            left = int(rest)
        else:
            statements.append(field)
    return tables, fail, made, left, statements


def answer(line):
    tables, fail, made, left, statements = parsed(line)
    keeper = Keeper(tables, fail, made)
    out = []
    for text in statements:
        value = read(text)
        if isinstance(value, int):
            out.append(f"syntax at {value}")
            continue
        if value[0] not in ("join", "total"):
            out.append("plain")
            continue
        try:
            said, chosen = (join if value[0] == "join" else total)(text, value, keeper, left)
            places = by_sqlite(text, value, tables, said)
            assert places is None or places == chosen, (line, places, chosen)
        except Refused as why:
            said = str(why)
        out.append(f"{said} # {keeper.made}" + "".join(f" failed {n}" for n in keeper.failed))
    return " | ".join(out)


T = "table t a:I a__resin:T s:T s__resin:T|row 1 ' 'x '|row 2 ' 'y '"
U = "table u a:I a__resin:T r:T r__resin:T|row 2 ' 'p '|row 2 ' 'q '"

CHOSEN = f"""\
{T}|{U}|SELECT t.s, u.r FROM t JOIN u ON t.a = u.a
{T}|SELECT COUNT(*), MAX(s) FROM t WHERE a = 9
table n a:I a__resin:T|row 3 'p|row 4 '|SELECT SUM(a) FROM n|SELECT GROUP_CONCAT(a) FROM n
{T}|SELECT t.a FROM t JOIN t ON t.a = t.a
{T}|{U}|SELECT u.r, t.s, u.r FROM u JOIN t ON t.a = u.a
{T}|{U}|SELECT t.s FROM t JOIN u ON t.a = u.a LIMIT 1|SELECT t.s FROM t JOIN u ON t.a = u.a LIMIT 0
{T}|{U}|SELECT t.s FROM t JOIN u ON t.s = u.r
{T}|{U}|SELECT t.s FROM t JOIN u ON t.a = u.r
{T}|{U}|SELECT x.s FROM t JOIN u ON t.a = u.r
{T}|{U}|SELECT t.x FROM t JOIN u ON t.a = u.r
{T}|{U}|SELECT t.s FROM t JOIN u ON t.a = u.a WHERE u.x = 1 OR x.y = 2
{T}|{U}|SELECT t.s FROM t JOIN u ON t.a = u.a WHERE t.a = 'x'
{T}|{U}|SELECT t.s FROM t JOIN u ON t.a = u.a WHERE t.s = 'x' OR u.r = 'q'
{T}|{U}|SELECT t.s FROM t JOIN u ON x.a = y.a
{T}|SELECT t.s FROM t JOIN u ON t.a = u.a
{T}|SELECT t.s FROM u JOIN t ON t.a = u.a
{T}|{U}|fail 1|SELECT t.s FROM t JOIN u ON t.a = u.a
{T}|{U}|fail 2|SELECT t.s FROM t JOIN u ON t.a = u.a
{T}|{U}|fail 3|SELECT t.s FROM t JOIN u ON t.a = u.a
{T}|{U}|fail 4|SELECT t.s FROM t JOIN u ON t.a = u.a|SELECT u.r FROM t JOIN u ON t.a = u.a
{T}|{U}|fail 1|SELECT t.s FROM t JOIN t ON t.a = t.a
{T}|{U}|left 8|SELECT t.s FROM t JOIN u ON t.a = u.a
{T}|{U}|left 7|SELECT t.s FROM t JOIN u ON t.a = u.a
{T}|left 2|SELECT COUNT(*) FROM t
{T}|left 1|SELECT COUNT(*) FROM t
{T}|left 0|SELECT x.a FROM t JOIN u ON t.a = u.a
{T}|{U}|made 18446744073709551611|SELECT t.s FROM t JOIN u ON t.a = u.a
{T}|{U}|made 18446744073709551612|SELECT t.s FROM t JOIN u ON t.a = u.a
{T}|{U}|made 18446744073709551615|SELECT t.s FROM t JOIN u ON t.a = u.a|SELECT t.a FROM t JOIN t ON t.a = t.a
{T}|made 18446744073709551614|SELECT COUNT(*) FROM t
{T}|made 18446744073709551614|SELECT SUM(s) FROM t
{T}|fail 1|SELECT COUNT(*) FROM t|SELECT COUNT(*) FROM t
{T}|fail 2|SELECT COUNT(*) FROM t
{T}|SELECT SUM(s) FROM t|SELECT MIN(s), GROUP_CONCAT(s) FROM t|SELECT SUM(x), SUM(s) FROM t
{T}|SELECT SUM(a) FROM x|SELECT SUM(a) FROM t WHERE x = 1|SELECT SUM(a) FROM t WHERE a = 'x'
{T}|SELECT MAX(a), COUNT(*), MAX(a), COUNT( * ), max(a) FROM t
{T}|SELECT MIN(s) FROM t WHERE a > 1
table t a:I a__resin:T|row N '|row N 'bad|row 'x 'p|row 7 'q|row N N|row 8 5|SELECT GROUP_CONCAT(a), COUNT(*) FROM t|SELECT COUNT(*) FROM t WHERE a IS NULL|SELECT COUNT(*) FROM t WHERE a IS NOT NULL
table t a:I a__resin:T|row N '|row 1 'x|row 'y '|row 1 '|table u b:I b__resin:T|row N '|row 'y '|row 1 'z|SELECT t.a, u.b FROM t JOIN u ON t.a = u.b
table t a:I a__resin:T s:T s__resin:T|row 1 ' 5 'w|table u b:I b__resin:T|row 1 '|SELECT t.s, u.b FROM t JOIN u ON t.a = u.b
table t a:I|{U}|SELECT t.a FROM t JOIN u ON t.a = u.a|SELECT COUNT(*) FROM t
{T}|{U}|SELECT t.a FROM t JOIN u ON t.a = t.s|SELECT a FROM t
table t a:I a__resin:T|table u a:I a__resin:T|row 1 '|SELECT t.a FROM t JOIN u ON t.a = u.a|SELECT SUM(a), COUNT(*) FROM t
"""


class Draw:
    def __init__(self, seed):
        self.random = random.Random(seed)
        self.shadows = 0

    def some(self, *choices):
        return self.random.choice(choices)

    def value(self, kind):
        if kind == "I":
            return self.some("0", "1", "2", "3", "-1", "9223372036854775807", "-9223372036854775808")
        return self.some("'", "'a", "'b", "'ab", "'B", "'0", "'z")

    def cells(self, kind, odd):
        self.shadows += 1
        how = self.random.random()
        if how < 0.2:
            return "N '" if not odd or how < 0.15 else f"N 'h{self.shadows}"
        if odd and how < 0.3:
            return f"{self.value('T' if kind == 'I' else 'I')} 'h{self.shadows}"
        return f"{self.value(kind)} " + self.some("'", f"'h{self.shadows}", f"'h{self.shadows}")

    def table(self, name, columns, odd):
        out = f"table {name} " + " ".join(f"{c}:{k} {c}__resin:T" for c, k in columns)
        for _ in range(self.some(0, 2, 3, 4, 5)):
            out += "|row " + " ".join(self.cells(k, odd) for _, k in columns)
        return out

    def literal(self, kind):
        if self.random.random() < 0.05:
            return "NULL"
        if self.random.random() < 0.04:
            kind = "T" if kind == "I" else "I"
        value = self.value(kind)
        return value if value[0] != "'" else value + "'"

    def test(self, columns):
        name, kind = self.some(*columns)
        if self.random.random() < 0.2:
            return f"{name} IS {self.some('', 'NOT ')}NULL"
        return f"{name} {self.some('=', '<>', '<', '<=', '>', '>=')} {self.literal(kind)}"

    def where(self, columns):
        count = self.some(0, 0, 1, 2, 3)
        if not count:
            return ""
        out = self.test(columns)
        for _ in range(count - 1):
            out = self.some(f"{out} AND {self.test(columns)}", f"{out} OR {self.test(columns)}", f"({out}) AND {self.test(columns)}", f"{self.test(columns)} OR ({out})")
        return f" WHERE {out}"

    def join(self, odd):
        ts = [("a", "I"), ("s", "T"), ("b", self.some("I", "T"))]
        us = [("a", self.some("I", "I", "T")), ("r", "T")]
        both = [("t." + c, k) for c, k in ts] + [("u." + c, k) for c, k in us]
        columns = ", ".join(self.some(*both)[0] for _ in range(self.some(1, 2, 3)))
        p, kind = self.some(*both[:3])
        fitting = [name for name, k in both[3:] if k == kind] or ["u.a"]
        on = [p, self.some(*fitting)]
        self.random.shuffle(on)
        limit = self.some("", "", "", " LIMIT 1", " LIMIT 3")
        sides = self.some("t JOIN u", "t JOIN u", "u JOIN t")
        return f"{self.table('t', ts, odd)}|{self.table('u', us, odd)}|SELECT {columns} FROM {sides} ON {on[0]} = {on[1]}{self.where(both)}{limit}"

    def total(self, odd):
        ts = [("a", "I"), ("s", "T"), ("b", self.some("I", "T"))]
        items = []
        for _ in range(self.some(1, 2, 3, 4)):
            function = self.some("COUNT", "SUM", "MIN", "MAX", "GROUP_CONCAT")
            numbers = [c for c, k in ts if k == "I"]
            items.append("COUNT(*)" if function == "COUNT" else f"{function}({self.some(*numbers) if function == 'SUM' else self.some(*ts)[0]})")
        return f"{self.table('t', ts, odd)}|SELECT {', '.join(items)} FROM t{self.where(ts)}"


def rows():
    draw = Draw(25)
    out = CHOSEN.splitlines()
    out += [draw.join(False) for _ in range(70)] + [draw.total(False) for _ in range(50)]
    out += [draw.join(True) for _ in range(20)] + [draw.total(True) for _ in range(15)]
    return out
