"""The rows of resin_joint_table: statements of the joint grammar and texts that are none, with the answers of grammar.py."""

import random

from grammar import read

# ---- what a line stands for, and how a literal is printed


def decoded(line):
    """The bytes of a line, each with the policy that it carries, 0 for none."""
    if line.startswith("@"):
        count, front, part, back = line[1:].split("@")
        line = front + int(count) * part + back
    out, policy, at = [], 0, 0
    escapes = {"n": "\n", "r": "\r", "t": "\t", "\\": "\\"}
    while at < len(line):
        if line[at] != "\\":
            out.append((line[at], policy))
            at += 1
        elif line[at + 1] == "x":
            out.append((chr(int(line[at + 2 : at + 4], 16)), policy))
            at += 4
        elif line[at + 1].isdigit():
            policy = int(line[at + 1])
            at += 2
        else:
            out.append((escapes[line[at + 1]], policy))
            at += 2
    return out


def shown_byte(byte):
    known = {"\n": "\\n", "\r": "\\r", "\t": "\\t"}
    return known.get(byte) or (byte if 32 <= ord(byte) <= 126 else f"\\x{ord(byte):02x}")


def shown_runs(pairs):
    out, last = "", None
    for byte, policies in pairs:
        if policies != last:
            out += "{" + "".join(f"{n};" for n in sorted(policies)) + "}"
            last = policies
        out += shown_byte(byte)
    return out


def carried(pairs):
    return [(byte, frozenset([policy]) - {0}) for byte, policy in pairs]


def unquoted(pairs):
    out, at = [], 0
    while at < len(pairs):
        if pairs[at][0] == "'":
            out.append(("'", pairs[at][1] | pairs[at + 1][1]))
            at += 2
        else:
            out.append(pairs[at])
            at += 1
    return out


def shown_literal(value, pairs):
    if value[0] == "null":
        return "null"
    part = carried(pairs[value[1] : value[2]])
    if value[0] == "text":
        return "text:" + shown_runs(unquoted(part))
    number = int("".join(byte for byte, _ in part))
    return f"{number}:" + shown_runs(part)


def shown_condition(w, pairs):
    if w[0] == "test":
        return w[1] + w[2] + shown_literal(w[3], pairs)
    if w[0] == "null":
        return w[1] + (" not null" if w[2] else " null")
    return f"{w[0]}[" + "".join(shown_condition(part, pairs) + ";" for part in w[1]) + "]"


def shown_where(w, pairs):
    return "" if w is None else " where " + shown_condition(w, pairs)


NAMES = {"COUNT": "count", "SUM": "sum", "MIN": "min", "MAX": "max", "GROUP_CONCAT": "concat"}


def shown(line):
    pairs = decoded(line)
    value = read("".join(byte for byte, _ in pairs))
    if isinstance(value, int):
        return f"bad {value}"
    if value[0] == "join":
        _, columns, t, u, p, q, w, n = value
        limit = "" if n is None else f" limit {n}"
        return f"join {' '.join(columns)} from {t} with {u} on {p}={q}" + shown_where(w, pairs) + limit
    if value[0] == "total":
        _, items, t, w = value
        shown_items = "".join(f" {NAMES[f]}" + ("" if c is None else f":{c}") for f, c in items)
        return f"total{shown_items} from {t}" + shown_where(w, pairs)
    return value[0]


# ---- statements that are drawn


class Draw:
    def __init__(self, seed):
        self.random = random.Random(seed)

    def some(self, *choices):
        return self.random.choice(choices)

    def cased(self, word):
        how = self.random.random()
        return word if how < 0.5 else word.lower() if how < 0.8 else "".join(self.some(b.lower(), b.upper()) for b in word)

    def name(self):
        return self.some("t", "u", "a", "b", "_x1", "count", "sum", "Max", "join", "on", "group_concat", "min", "selects", "order_by", "T", "n0")

    def place(self):
        return f"{self.some('t', 'u', 't', 'u', 'n0', 'join')}.{self.name()}"

    def literal(self):
        label = self.some("", "", "", "\\1", "\\2")
        end = "\\0" if label else ""
        return label + self.some("NULL", "0", "-7", "12", "007", "'x'", "''", "'it''s'", "'a\\\\b'", "9223372036854775807", "'\\x80'") + end

    def test(self, column):
        if self.random.random() < 0.25:
            return f"{column} ~{self.cased('IS')} ~" + self.some("", f"{self.cased('NOT')} ~") + self.cased("NULL")
        return f"{column}~{self.some('=', '<>', '<', '<=', '>', '>=')}~{self.literal()}"

    def condition(self, draw, deep=2):
        parts = []
        for _ in range(self.some(1, 1, 2, 3)):
            if deep and self.random.random() < 0.25:
                parts.append(f"(~{self.condition(draw, deep - 1)}~)")
            else:
                parts.append(self.test(draw()))
        out = parts[0]
        for part in parts[1:]:
            out += f" ~{self.cased(self.some('AND', 'OR'))} ~{part}"
        return out

    def where(self, draw):
        return "" if self.random.random() < 0.5 else f" ~{self.cased('WHERE')} ~{self.condition(draw)}"

    def limit(self):
        return self.some("", "", f" ~{self.cased('LIMIT')} ~{self.some('0', '3', '10', '9223372036854775807')}")

    def join(self):
        columns = "~,~".join(self.place() for _ in range(self.some(1, 2, 3)))
        t, u = self.some(("t", "u"), ("t", "u"), ("u", "t"), ("t", "t"), ("join", "on"))
        on = self.some((t, u), (t, u), (u, t), (t, "n0"), ("n0", "n0"), (t, t))
        return (
            f"{self.cased('SELECT')} ~{columns} ~{self.cased('FROM')} ~{t} ~{self.cased('JOIN')} ~{u} ~{self.cased('ON')} ~"
            f"{on[0]}.{self.name()}~=~{on[1]}.{self.name()}" + self.where(self.place) + self.limit() + self.some("", "", ";")
        )

    def item(self):
        function = self.some("COUNT", "SUM", "MIN", "MAX", "GROUP_CONCAT")
        return f"{self.cased(function)}(~{'*' if function == 'COUNT' else self.name()}~)"

    def total(self):
        items = "~,~".join(self.item() for _ in range(self.some(1, 2, 3)))
        return f"{self.cased('SELECT')} ~{items}~{self.cased('FROM')} ~{self.name()}" + self.where(self.name) + self.some("", "", ";")

    def plain(self):
        columns = self.some("*", self.name(), f"{self.name()}~,~{self.name()}")
        order = self.some("", f" ~{self.cased('ORDER')} ~BY ~{self.name()}", f" ~ORDER ~BY ~{self.name()} ~{self.cased('DESC')}")
        return f"{self.cased('SELECT')} ~{columns} ~{self.cased('FROM')} ~{self.name()}" + self.where(self.name) + order + self.limit() + self.some("", ";")

    def spaced(self, text):
        return "".join(self.some("", "", "", " ", "  ", "\\n", "\\t") if byte == "~" else byte for byte in text)

    def statement(self):
        return self.spaced(self.some(self.join, self.join, self.total, self.total, self.plain)())

    def broken(self):
        """A statement with a byte left out, put in, or turned, or cut off."""
        line = self.statement()
        at = self.random.randrange(len(line))
        if "\\" in line[max(0, at - 4) : at + 2]:
            return self.broken()
        byte = self.some(*"(),.=*' ;<xA0-_\"")
        return self.some(line[:at], line[:at] + line[at + 1 :], line[:at] + byte + line[at:], line[:at] + byte + line[at + 1 :])


CHOSEN = """\
# joins
SELECT t.s, u.r FROM t JOIN u ON t.a = u.a
SELECT t.a FROM t JOIN t ON t.a = t.a
select T.a,u.b from T join u on u.b=T.a where T.a>1 limit 3;
SELECT t.a FROM t JOIN u ON t.a = u.a WHERE t.a IS NULL OR (u.b = 'x' AND t.c <> -5) LIMIT 0
SELECT t.a FROM t JOIN u ON x.a = y.a
SELECT t.a FROM t JOIN u ON x.a = x.b
SELECT x.a FROM t JOIN u ON t.a = y.a
SELECT t.a FROM t JOIN u ON t.a = u.a WHERE t.s = \\1'it\\2''s\\0' AND u.b < \\3-1\\12\\0
SELECT join.on FROM join JOIN on ON join.on = on.join
SELECT count.sum FROM count JOIN min ON count.a = min.a
SELECT t.a FROM t JOIN T ON t.a = T.a
# both columns of ON on one side
SELECT t.a FROM t JOIN u ON t.a = t.b
SELECT t.a FROM t JOIN u ON u.a = u.b
SELECT t.a FROM t JOIN u ON t.a = t.
SELECT t.a FROM t JOIN u ON t.a = t
SELECT t.a FROM t JOIN u ON t.a = t.b WHERE
SELECT t.a FROM t JOIN u ON t.a = t.1
SELECT t.a FROM t JOIN u ON t.a = t .b
SELECT t.a FROM t JOIN u ON t.a=t.select
SELECT t.a FROM t JOIN t ON t.a = t.b WHERE
SELECT t.a FROM t JOIN u ON t.a = tt.b
SELECT t.a FROM t JOIN u ON tt.a = t.b
# columns with tables
SELECT t
SELECT t.
SELECT t.a
SELECT t. a
SELECT t .a
SELECT t.a.b
SELECT t.1
SELECT t.*
SELECT t.a,
SELECT t.a, b
SELECT t.a, b FROM t
SELECT t.a, u FROM t
SELECT t.a, *
SELECT t.a, COUNT(*)
SELECT a, t.b
SELECT a, b.c FROM t
SELECT *, t.a
SELECT t.a FROM t
SELECT t.a FROM t;
SELECT t.a FROM t WHERE t.a = 1
SELECT t.a FROM t ORDER BY a
SELECT t.a FROM t.u
SELECT t.a FROM t J
SELECT t.a FROM t JOINu ON
SELECT t.a FROM t JOIN u
SELECT t.a FROM t JOIN u WHERE
SELECT t.a FROM t JOIN u ONt.a
SELECT t.a FROM t JOIN u ON
SELECT t.a FROM t JOIN u ON a = u.a
SELECT t.a FROM t JOIN u ON t.a
SELECT t.a FROM t JOIN u ON t.a < u.a
SELECT t.a FROM t JOIN u ON t.a = 5
SELECT t.a FROM t JOIN u ON t.a = 'x'
SELECT t.a FROM t JOIN u ON t.a = u.a AND t.b = u.b
SELECT t.a FROM t JOIN u ON t.a = u.a WHERE a = 1
SELECT t.a FROM t JOIN u ON t.a = u.a WHERE t.a = u.b
SELECT t.a FROM t JOIN u ON t.a = u.a ORDER BY t.a
SELECT t.a FROM t JOIN u ON t.a = u.a WHERE t.a = 1 ORDER BY t.a
SELECT t.a FROM t JOIN u ON t.a = u.a WHERE t.a = 1 O
SELECT t.a FROM t JOIN u ON t.a = u.a LIMIT
SELECT t.a FROM t JOIN u ON t.a = u.a LIMIT 5 WHERE
SELECT t.a FROM t JOIN u ON t.a = u.aLIMIT 5
SELECT t.a FROM t JOIN u ON t.a = u.a JOIN v
SELECT t.a FROM t JOIN u ON t.a = u.a; ;
SELECT t.a FROM t JOIN select ON t.a = u.a
SELECT select.a FROM t
SELECT t.select FROM t
SELECT t.a__resin FROM t
SELECT a__resin.a FROM t
SELECT FROM.x
# totals
SELECT COUNT(*) FROM t
SELECT COUNT(*), MAX(s) FROM t WHERE a = 9
SELECT SUM(a) FROM n
select group_concat( a ),Count(\\n*\\t)from n;
SELECT MIN(min), MAX(max), SUM(sum), GROUP_CONCAT(group_concat), COUNT(*) FROM count
SELECT SUM(a), SUM(a), sum( a )FROM t WHERE a = \\1'x\\0y'
SELECT sum FROM t
SELECT count, sum FROM min WHERE max = 1
SELECT COUNT
SELECT COUNT(
SELECT COUNT(*
SELECT COUNT(*)
SELECT COUNT (*) FROM t
SELECT COUNT(a) FROM t
SELECT COUNT() FROM t
SELECT SUM(*) FROM t
SELECT SUM(a, b) FROM t
SELECT SUM(t.a) FROM t
SELECT SUM(1) FROM t
SELECT SUM() FROM t
SELECT SUM(a) SUM(b) FROM t
SELECT SUM(a), b FROM t
SELECT SUM(a), s FROM t
SELECT SUM(a), su
SELECT SUM(a), SUMMARY(b) FROM t
SELECT SUM(a), MI(b) FROM t
SELECT SUM(a), M
SELECT SUM(a), MEAN(b)
SELECT SUM(a), GROUP_CONCATS(b) FROM t
SELECT SUM(a), GROUP CONCAT(b)
SELECT SUM(a), COUNT (*) FROM t
SELECT SUM(a), COUNT(*)FROMt
SELECT SUM(a) FROM t LIMIT 1
SELECT SUM(a) FROM t ORDER BY a
SELECT SUM(a) FROM t WHERE a = 1 ORDER BY a
SELECT SUM(a) FROM t JOIN u
SELECT SUM(a) FROM t WHERE t.a = 1
SELECT SUM(a), * FROM t
SELECT *, SUM(a) FROM t
SELECT AVG(a) FROM t
SELECT a, SUM(b) FROM t
SELECT SUM(select) FROM t
SELECT SUM(a__resin) FROM t
# limits
@63@SELECT t.a@a@ FROM t JOIN u ON t.a = u.a
@64@SELECT t.a@a@ FROM t JOIN u ON t.a = u.a
@64@SELECT t@t@.a FROM
@64@SELECT t.b, t@t@.a FROM
@64@SELECT t.a FROM t JOIN u@u@ ON t.a =
@64@SELECT t.a FROM t JOIN u ON t@t@.a = x
@64@SELECT t.a FROM t JOIN u ON t.a = t@t@.b FROM
@64@SELECT t.a FROM t JOIN u ON t.a = u.b@b@ FROM
@64@SELECT t.a FROM t JOIN u ON t.a = t.b@b@
@64@SELECT SUM(a@a@) FROM t
@64@SELECT SUM@m@(a) FROM t
SELECT t.a FROM t JOIN u ON t.a = u.a WHERE t.a = 9223372036854775808 x
SELECT t.a FROM t JOIN u ON t.a = u.a WHERE t.a = -9223372036854775809
SELECT t.a FROM t JOIN u ON t.a = u.a LIMIT 9223372036854775808
SELECT SUM(a) FROM t WHERE a = 99999999999999999999999 (
@50@SELECT SUM(a) FROM t WHERE @(@a = 1
@51@SELECT SUM(a) FROM t WHERE @(@a = 1
@51@SELECT t.a FROM t JOIN u ON t.a = u.a WHERE @(@t.a = 1
# the statements of before
SELECT * FROM t
SELECT a, b FROM t WHERE a = 1 ORDER BY b DESC LIMIT 3;
CREATE TABLE count (sum INTEGER, max TEXT)
INSERT INTO join (on) VALUES (1)
UPDATE t SET min = 1 WHERE max IS NULL
DELETE FROM group_concat WHERE count > 1
CREATE TABLE t (a INTEGER, t.b TEXT)
UPDATE t SET t.a = 1
DELETE FROM t WHERE t.a = 1
INSERT INTO t VALUES (COUNT(*))
SELECT a FROM t JOIN u ON t.a = u.a
SELECT * FROM t JOIN u ON t.a = u.a
"""


def rows():
    out = CHOSEN.splitlines()
    draw = Draw(20)
    out.append("# drawn")
    out += [draw.statement() for _ in range(120)]
    out.append("# drawn and broken")
    broken = []
    while len(broken) < 160:
        line = draw.broken()
        if line and not line.startswith(("@", "#")):
            broken.append(line)
    return out + broken
