#!/usr/bin/env python3
"""Answers the rows of crates/resin_session_table, from the format of session texts alone (docs/FORMATS.md, "Session text").

    python3 tests/sessions/expected.py < crates/resin_session_table/stdin | diff - crates/resin_session_table/stdout

A labelled text is its bytes and, byte for byte, the places of their sets in SETS. A text is read by trying what it could be and writing that again: it
keeps an array exactly where the array's text is the text, letter for letter and label for label.
"""

import re
import sys

LONGEST = 16_777_216
SETS = [frozenset()]


def place_of(labels):
    """The place of a set in SETS."""
    if labels not in SETS:
        SETS.append(labels)
    return SETS.index(labels)


def spelled(field):
    """The labelled text that a field of a row spells."""
    out, marks, mark, at = bytearray(), bytearray(), 0, 0
    while at < len(field):
        if field[at : at + 1] == b"<":
            end = field.index(b">", at)
            mark = place_of(frozenset(int(chr(digit)) for digit in field[at + 1 : end]))
            at = end + 1
            continue
        if field.startswith(b"\\x", at):
            byte, taken = int(field[at + 2 : at + 4], 16), 4
        elif field.startswith((b"\\n", b"\\\\"), at):
            byte, taken = 10 if field[at + 1 : at + 2] == b"n" else 92, 2
        else:
            byte, taken = field[at], 1
        out.append(byte)
        marks.append(mark)
        at += taken
    return bytes(out), bytes(marks)


def marked(data, mark=0):
    return data, bytes([mark]) * len(data)


def joined(texts):
    return b"".join(data for data, _ in texts), b"".join(marks for _, marks in texts)


def canonical(data):
    """The integer of 64 bits that bytes are the canonical decimal of, or None."""
    if not re.fullmatch(rb"0|-?[1-9][0-9]*", data):
        return None
    number = int(data)
    return number if -(2**63) <= number < 2**63 else None


def key_of(data):
    number = canonical(data)
    return data if number is None else number


# A value is "other" where it is neither an integer nor a text, ("integer", number, place of its set) or ("text", bytes, places).


def entry_text(key, value):
    name = key if isinstance(key, bytes) else str(key).encode()
    stored = value[1:] if value[0] == "text" else marked(str(value[1]).encode(), value[2])
    kind = b"s" if value[0] == "text" else b"i"
    return joined([marked(b"%s %d %d\n%s" % (kind, len(name), len(stored[0]), name)), stored, marked(b"\n")])


def session_text(array):
    return joined([entry_text(key, value) for key, value in array.items()])


def read(text):
    """The array that a text keeps, or None."""
    data, marks = text
    array, at = {}, 0
    while at < len(data):
        head = re.compile(rb"([si]) (\d+) (\d+)\n").match(data, at)
        if not head:
            return None
        middle = head.end() + int(head[2])
        end = middle + int(head[3])
        key = key_of(data[head.end() : middle])
        if head[1] == b"s":
            array[key] = ("text", data[middle:end], marks[middle:end])
        else:
            number = canonical(data[middle:end])
            if number is None:
                return None
            array[key] = ("integer", number, marks[middle])
        at = end + 1
    return array if session_text(array) == text else None


def shown_bytes(data):
    out = ""
    for byte in data:
        if byte == 10:
            out += "\\n"
        elif byte == 92:
            out += "\\\\"
        elif byte < 32 or byte > 126 or chr(byte) in "<>|='":
            out += f"\\x{byte:02x}"
        else:
            out += chr(byte)
    return out


def shown_labels(mark):
    return "<" + "".join(str(policy) for policy in sorted(SETS[mark])) + ">"


def shown_text(text):
    data, marks = text
    if len(data) > 1000:
        return f"{len(data)} bytes"
    out, before = "", 0
    for byte, mark in zip(data, marks):
        if mark != before:
            out += shown_labels(mark)
            before = mark
        out += shown_bytes([byte])
    return out


def shown_value(value):
    return "s" + shown_text(value[1:]) if value[0] == "text" else f"i{value[1]}" + shown_labels(value[2])


def shown_array(array):
    if array is None:
        return "none"
    numbers = [key for key in array if isinstance(key, int)]
    following = max(numbers) + 1 if numbers else 0
    out = f"next {following}, height 1:" if following < 2**63 else "no next, height 1:"
    for key, value in array.items():
        out += "|" + (f"'{shown_bytes(key)}'" if isinstance(key, bytes) else str(key)) + "=" + shown_value(value)
    return out


def value_of(field):
    data, marks = spelled(field[1:])
    if field[:1] == b"s":
        return "text", data, marks
    return ("integer", canonical(data), marks[0]) if field[:1] == b"i" else ("other",)


def take(array, item):
    """Does to an array what an item says."""
    if item.startswith(b"!"):
        array.pop(key_of(spelled(item[1:])[0]), None)
    elif b"=" in item:
        name, _, value = item.partition(b"=")
        array[key_of(spelled(name)[0])] = value_of(value)


def written(array):
    if any(value[0] == "other" for value in array.values()):
        return "not storable"
    text = session_text(array)
    return "too long" if len(text[0]) > LONGEST else shown_text(text)


def answer(line):
    word, _, rest = line.partition(b"|")
    items = rest.split(b"|")
    if word == b"read":
        return shown_array(read(spelled(rest)))
    if word == b"many":
        array = {i: ("integer", i, 0) for i in range(int(rest))}
        text = session_text(array)
        return f"{len(text[0])} bytes, {len(read(text))} entries"
    array = {}
    if word != b"write":
        value = marked(b"v" * int(items.pop(0)))
        if word == b"read long":
            text = joined([marked(b"s 1 %d\nk" % len(value[0])), value, marked(b"\n")])
            return "unreadable" if len(text[0]) > LONGEST else shown_array(read(text))
        array[b"k"] = ("text", *value)
    for item in items:
        take(array, item)
    return written(array)


if __name__ == "__main__":
    for row in sys.stdin.buffer:
        print(answer(row.rstrip(b"\n")))
