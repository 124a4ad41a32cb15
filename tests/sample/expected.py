#!/usr/bin/env python3
"""Answers the rows of crates/resin_bench_site_table, from the description of the sample alone (docs/FORMATS.md, "The sample").

    python3 tests/sample/expected.py < crates/resin_bench_site_table/stdin | diff - crates/resin_bench_site_table/stdout

What a trace says is read here by a reader of its own, which takes records off the front.
"""

import hashlib
import re
import sys

SITE = {
    "boot.php": "<?php class Tag extends Policy { public $n = 0; function export_check($c) {"
    " if ($this->n % 7 == 3) { throw new PolicyException(); } } }",
    "w.php": "<?php $t = new Tag(); $t->n = (int)$_GET['n']; file_put_contents('f' . ($t->n % 10),"
    " policy_add(str_repeat('x', $t->n % 50 + 1), $t)); echo 'ok';",
    "r.php": "<?php echo '[', file_get_contents('f' . ((int)$_GET['n'] % 10)), ']';",
}


def request(page, number):
    return f"GET /{page}?n={number} HTTP/1.1\r\nHost: s\r\n\r\n".encode()


def record(conn, piece):
    return b"%d %d\n%s\n" % (conn, len(piece), piece)


def trace(count):
    """The trace of so many pairs of requests."""
    records = []
    for number in range(1, 2 * count, 2):
        write, read = request("w.php", number), request("r.php", number)
        cut, mark = len(write) // 2, len(read) // 2
        records += [record(1, write[:cut]), record(2, read[:mark]), record(1, write[cut:]), record(2, read[mark:])]
    return b"".join(records)


def digest(data):
    return f"{len(data)} bytes, MD5 {hashlib.md5(data).hexdigest()}"


def spelled(data):
    return data.decode().replace("\\", "\\\\").replace("\n", "\\n").replace("\r", "\\r")


def told(data):
    """How many records a trace has, and what came on each connection."""
    streams, records = {1: b"", 2: b""}, 0
    while data:
        head = re.match(rb"([1-9][0-9]*) (0|[1-9][0-9]*)\n", data)
        end = head.end() + int(head[2])
        assert data[end : end + 1] == b"\n"
        streams[int(head[1])] += data[head.end() : end]
        data = data[end + 1 :]
        records += 1
    parts = [f"{records} records"]
    for conn, stream in streams.items():
        requests = stream.split(b"\r\n\r\n")
        parts.append(f"on {conn} {len(requests) - 1} requests and {len(requests[-1])} bytes more, {digest(stream)}")
    return "; ".join(parts)


def entry(path, stored):
    return "none" if path not in stored else f"'{spelled(stored[path][0].encode())}' with '{stored[path][1]}'"


def answer(line):
    kind, *fields = line.split("|")
    site = {path: (text, "") for path, text in SITE.items()}
    if kind == "site":
        return entry(fields[0], site)
    if kind == "over":
        return entry(fields[1], {fields[0]: ("old", "shadow"), **site})
    data = trace(int(fields[0]))
    return {"trace": digest, "text": spelled, "read": told}[kind](data)


for row in sys.stdin:
    print(answer(row.rstrip("\n")))
