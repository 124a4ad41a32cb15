"""The joint grammar of SQL, written from its rules in docs/FORMATS.md and the page of resin_sql: which texts are statements, and where the first fault of another text is.

A parser here is a generator: given a text and a place it yields each place at which it can end, with a value. Where it wants a byte behind the
end of the text it notes that the text is a front. So a text is a front of a statement if it is one or a parser wanted more of it, and the fault
of a text stands behind its longest front. Limits of names and numbers, and the sides of ON, are looked at afterwards.
"""

import re

KEYWORDS = set("CREATE TABLE INTEGER TEXT INSERT INTO VALUES SELECT FROM WHERE ORDER BY ASC DESC LIMIT UPDATE SET DELETE AND OR IS NOT NULL".split())
WORD = re.compile(r"[A-Za-z_][A-Za-z0-9_]*")
DIGITS = re.compile(r"[0-9]+")
BLANKS = re.compile(r"[ \t\r\n]*")
FUNCTIONS = ["COUNT", "SUM", "MIN", "MAX", "GROUP_CONCAT"]


class Text:
    def __init__(self, text):
        self.text = text
        self.front = False

    def ends(self, at):
        if at == len(self.text):
            self.front = True
            return True
        return False

    # ---- tokens

    def blanks(self, at):
        return BLANKS.match(self.text, at).end()

    def sign(self, at, byte):
        if not self.ends(at) and self.text[at] == byte:
            yield at + 1

    def keyword(self, at, word):
        run = WORD.match(self.text, at)
        end = run.end() if run else at
        found = self.text[at:end].upper()
        if end == len(self.text) and word.startswith(found):
            self.front = True
        if found == word:
            yield end

    def name(self, at):
        run = WORD.match(self.text, at)
        if not run:
            self.ends(at)
            return
        self.ends(run.end())
        word = run.group()
        if word.upper() not in KEYWORDS and not word.endswith("__resin"):
            yield run.end(), word

    def column(self, at, with_table):
        for end, table in self.name(at):
            if not with_table:
                yield end, table
                continue
            for dot in self.sign(end, "."):
                for last, column in self.name(dot):
                    yield last, f"{table}.{column}"

    def number(self, at):
        run = DIGITS.match(self.text, at)
        if run:
            self.ends(run.end())
            yield run.end()
        else:
            self.ends(at)

    def literal(self, at):
        for end in self.keyword(at, "NULL"):
            yield end, ("null",)
        for end in self.number(at):
            yield end, ("number", at, end)
        for minus in self.sign(at, "-"):
            for end in self.number(minus):
                yield end, ("number", at, end)
        for quote in self.sign(at, "'"):
            end = quote
            while not self.ends(end):
                if self.text[end] != "'":
                    end += 1
                elif not self.ends(end + 1) and self.text[end + 1] == "'":
                    end += 2
                else:
                    yield end + 1, ("text", quote, end)
                    break

    def listed(self, at, item, most=None):
        """Items with commas between them."""
        for end, value in item(at):
            yield end, [value]
            if most == 1:
                continue
            for comma in self.sign(self.blanks(end), ","):
                for last, more in self.listed(self.blanks(comma), item, most and most - 1):
                    yield last, [value] + more

    # ---- conditions

    def test(self, at, with_table):
        for end, column in self.column(at, with_table):
            behind = self.blanks(end)
            for op in ("=", "<>", "<=", ">=", "<", ">"):
                here = behind
                for byte in op:
                    here = next(self.sign(here, byte), None)
                    if here is None:
                        break
                longer = here is not None and here < len(self.text) and self.text[here] in {"<": "=>", ">": "="}.get(op, "")
                if here is not None and not longer:
                    for last, value in self.literal(self.blanks(here)):
                        yield last, ("test", column, op, value)
            for last in self.keyword(behind, "IS"):
                for end_not in self.keyword(self.blanks(last), "NOT"):
                    for end_null in self.keyword(self.blanks(end_not), "NULL"):
                        yield end_null, ("null", column, True)
                for end_null in self.keyword(self.blanks(last), "NULL"):
                    yield end_null, ("null", column, False)

    def part(self, at, with_table, room):
        yield from self.test(at, with_table)
        if room:
            for opened in self.sign(at, "("):
                for end, inside in self.condition(self.blanks(opened), with_table, room - 1):
                    for closed in self.sign(self.blanks(end), ")"):
                        yield closed, inside
        else:
            self.ends(at)

    def joined(self, at, word, item):
        for end, value in item(at):
            yield end, [value]
            for behind in self.keyword(self.blanks(end), word):
                for last, more in self.joined(self.blanks(behind), word, item):
                    yield last, [value] + more

    def condition(self, at, with_table, room=50):
        every = lambda place: self.joined(place, "AND", lambda here: self.part(here, with_table, room))
        for end, ways in self.joined(at, "OR", every):
            yield end, ("any", [("all", parts) for parts in ways])

    def where(self, at, with_table=False):
        yield at, None
        for end in self.keyword(self.blanks(at), "WHERE"):
            yield from self.condition(self.blanks(end), with_table)

    # ---- statements

    def table(self, at, *words):
        if not words:
            yield from self.name(at)
            return
        for end in self.keyword(at, words[0]):
            yield from self.table(self.blanks(end), *words[1:])

    def limit(self, at):
        yield at, None
        for end in self.keyword(self.blanks(at), "LIMIT"):
            number = self.blanks(end)
            for last in self.number(number):
                yield last, int(self.text[number:last])

    def order(self, at):
        yield at
        for end in self.keyword(self.blanks(at), "ORDER"):
            for by in self.keyword(self.blanks(end), "BY"):
                for last, _ in self.name(self.blanks(by)):
                    yield last
                    yield from self.keyword(self.blanks(last), "ASC")
                    yield from self.keyword(self.blanks(last), "DESC")

    def select(self, at):
        for end in self.keyword(at, "SELECT"):
            yield from self.plain(self.blanks(end))
            yield from self.join(self.blanks(end))
            yield from self.total(self.blanks(end))

    def plain(self, at):
        stars = [(end, None) for end in self.sign(at, "*")]
        for end, _ in stars + list(self.listed(at, self.name)):
            for table, _ in self.table(self.blanks(end), "FROM"):
                for where, _ in self.where(table):
                    for order in self.order(where):
                        for last, _ in self.limit(order):
                            yield last, ("select",)

    def join(self, at):
        for end, columns in self.listed(at, lambda place: self.column(place, True)):
            for behind, t in self.table(self.blanks(end), "FROM"):
                for other, u in self.table(self.blanks(behind), "JOIN"):
                    for on in self.keyword(self.blanks(other), "ON"):
                        for first, p in self.column(self.blanks(on), True):
                            for equal in self.sign(self.blanks(first), "="):
                                for second, q in self.column(self.blanks(equal), True):
                                    for where, w in self.where(second, True):
                                        for last, n in self.limit(where):
                                            yield last, ("join", columns, t, u, p, q, w, n)

    def item(self, at):
        for function in FUNCTIONS:
            for end in self.keyword(at, function):
                for opened in self.sign(end, "("):
                    inside = self.blanks(opened)
                    if function == "COUNT":
                        found = [(place, None) for place in self.sign(inside, "*")]
                    else:
                        found = list(self.name(inside))
                    for place, column in found:
                        for closed in self.sign(self.blanks(place), ")"):
                            yield closed, (function, column)

    def total(self, at):
        for end, items in self.listed(at, self.item):
            for behind, t in self.table(self.blanks(end), "FROM"):
                for last, w in self.where(behind):
                    yield last, ("total", items, t, w)

    def create(self, at):
        def definition(place):
            for end, name in self.name(place):
                for kind in ("INTEGER", "TEXT"):
                    for last in self.keyword(self.blanks(end), kind):
                        yield last, name

        for end, _ in self.table(at, "CREATE", "TABLE"):
            for opened in self.sign(self.blanks(end), "("):
                for last, _ in self.listed(self.blanks(opened), definition, 64):
                    for closed in self.sign(self.blanks(last), ")"):
                        yield closed, ("create",)

    def insert(self, at):
        def row(place):
            for opened in self.sign(place, "("):
                for end, values in self.listed(self.blanks(opened), self.literal):
                    for closed in self.sign(self.blanks(end), ")"):
                        yield closed, values

        for end, _ in self.table(at, "INSERT", "INTO"):
            targets = [end]
            for opened in self.sign(self.blanks(end), "("):
                for last, _ in self.listed(self.blanks(opened), self.name):
                    targets += self.sign(self.blanks(last), ")")
            for target in targets:
                for values in self.keyword(self.blanks(target), "VALUES"):
                    for last, _ in self.listed(self.blanks(values), row):
                        yield last, ("insert",)

    def update(self, at):
        def change(place):
            for end, name in self.name(place):
                for equal in self.sign(self.blanks(end), "="):
                    yield from self.literal(self.blanks(equal))

        for end, _ in self.table(at, "UPDATE"):
            for behind in self.keyword(self.blanks(end), "SET"):
                for last, _ in self.listed(self.blanks(behind), change):
                    for place, _ in self.where(last):
                        yield place, ("update",)

    def delete(self, at):
        for end, _ in self.table(at, "DELETE", "FROM"):
            for last, _ in self.where(end):
                yield last, ("delete",)

    def statement(self):
        start = self.blanks(0)
        for rule in (self.create, self.insert, self.select, self.update, self.delete):
            for end, value in rule(start):
                behind = self.blanks(end)
                yield behind, value
                for semicolon in self.sign(behind, ";"):
                    yield self.blanks(semicolon), value


def whole(text):
    """The value of a statement, or None."""
    found = [value for end, value in Text(text).statement() if end == len(text)]
    assert len(found) <= 1 or all(value == found[0] for value in found), text
    return found[0] if found else None


def is_front(text):
    it = Text(text)
    ends = [end for end, _ in it.statement()]
    return it.front or len(text) in ends


def longest_front(text):
    size = 0
    while size < len(text) and is_front(text[: size + 1]):
        size += 1
    return size


ONE_SIDED = re.compile(r"\s*SELECT\s[^']*?\bFROM\s+(\w+)\s+JOIN\s+(\w+)\s+ON\s+(\w+)\.\w+\s*=\s*(\w+)(\.)", re.I | re.A)


def beyond(text, front):
    """The first name or number beyond its limit in a front, or second column of ON on the first's side: its last byte and its first."""
    found = []
    at = 0
    while at < front:
        if text[at] == "'":
            at += 1
            while at < front and text[at] != "'":
                at += 1
            at += 1
            continue
        word = WORD.match(text, at, front)
        if word:
            if len(word.group()) > 64:
                found.append((at + 64, at))
            at = word.end()
            continue
        digits = DIGITS.match(text, at, front)
        if digits:
            negative = at > 0 and text[at - 1] == "-"
            most = 2**63 if negative else 2**63 - 1
            for end in range(at + 1, digits.end() + 1):
                if int(text[at:end]) > most:
                    found.append((end - 1, at - negative))
                    break
            at = digits.end()
            continue
        at += 1
    on = ONE_SIDED.match(text, 0, front)
    if on:
        t, u, x, y = on.group(1, 2, 3, 4)
        if t != u and x == y and x in (t, u):
            found.append((on.start(5), on.start(4)))
    return min(found)[1] if found else None


def read(text):
    """The value of a statement, or the offset of the fault."""
    front = longest_front(text)
    place = beyond(text, front)
    if place is not None:
        return place
    value = whole(text) if front == len(text) else None
    return front if value is None else value
