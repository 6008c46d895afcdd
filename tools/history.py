#!/usr/bin/env python3
"""Histories in a readable line form, and as house records.

    history.py to-records  < lines    > records
    history.py to-lines    < records  > lines

The line form, one or more records a line:

    settings CELL CHANNEL GRANTED "NAME" LAST
    open S            hangup S            tick [TIMES]
    bytes S "00200001001         \\0"      further strings are joined; "x"*100 repeats
    scan "IDENTIFIER"
    tightening identifier="..." job=7 ...  by the names of house_records.py; what is not named is as usual there
    alarm code="..." tool_ready=0 ...      so, too
    record KIND HEX                        any other record, by its kind and payload
    tail HEX                               bytes behind the last whole record

Names and identifiers are filled up with spaces. A limit that was never set is
none, as in angle_min=none. In strings \\0 is NUL, \\xHH any
byte, \\" and \\\\ themselves. Lines that begin with # are comments; lines that begin
with > are the output expected there (see tests/vectors/run.py).

A line that begins with a blank goes on with the one before it: with nothing between the
two where that is output expected, with a blank where it is records."""

import itertools
import re
import sys

from house_records import (ALARM, BYTES, HANG_UP, LIMIT, NUMBERS, OPEN, PAYLOADS, SCANNED, SETTINGS, TEXT, TICK, TIGHTENING, fields_of,
                           record, record_of, split)

WORDS = {SETTINGS: "settings", SCANNED: "scan", TIGHTENING: "tightening", ALARM: "alarm"}  # with which a line of values begins
IN_ORDER = (SETTINGS, SCANNED)  # all values stand there, without their names
NONE = "none"  # a limit

STRING = r'"(?:[^"\\]|\\.)*"'
TOKEN = re.compile(rf"\s*([a-z_]+=(?:{STRING}|\S+)|{STRING}(?:\*\d+)?|\S+)")
VALUE = re.compile(r"(?:([a-z_]+)=)?(.*)", re.S)
ESCAPE = re.compile(rb"\\(x[0-9a-fA-F]{2}|.)", re.S)


def unescape(text):
    def one(match):
        what = match.group(1)
        if what == b"0":
            return b"\0"
        if what[:1] == b"x" and len(what) == 3:
            return bytes([int(what[1:], 16)])
        return what

    return ESCAPE.sub(one, text.encode("latin-1"))


def read_string(token):
    """A quoted token, perhaps repeated, as bytes."""
    times = 1
    if not token.endswith('"'):
        token, _, count = token.rpartition("*")
        times = int(count)
    return unescape(token[1:-1]) * times


def quote(data):
    out = []
    for byte in data:
        if byte == 0:
            out.append("\\0")
        elif byte in (0x22, 0x5C):
            out.append("\\" + chr(byte))
        elif 0x20 <= byte <= 0x7E:
            out.append(chr(byte))
        else:
            out.append("\\x%02x" % byte)
    return '"' + "".join(out) + '"'


def read_value(item, text):
    if item.sort == LIMIT and text == NONE:
        return None
    if item.sort in NUMBERS:
        return int(text)
    return read_string(text) if text.startswith('"') else text.encode("latin-1")


def show_value(item, value):
    if item.sort in NUMBERS:
        return NONE if value is None else "%d" % value
    return quote(value)


def read_fields(record_kind, tokens):
    """The values of a line by their names; one that has none is that of the item in its place."""
    items, fields = PAYLOADS[record_kind].items, {}
    for place, token in enumerate(tokens):
        name, text = VALUE.fullmatch(token).groups()
        item = items[name or list(items)[place]]
        fields[item.name] = read_value(item, text)
    return fields


def whole_lines(text):
    """The lines of a text, each with those that go on with it."""
    found = []
    for line in text.splitlines():
        if not line.strip() or not line[0].isspace():
            found.append(line)
        elif not found or found[-1].strip()[:1] in ("", "#") or line.lstrip()[0] in "#>":
            raise ValueError("it goes on with no line: " + line)
        else:
            found[-1] += ("" if found[-1].startswith(">") else " ") + line.lstrip()
    return found


def line_to_records(line):
    """The records of one whole line; none for comments, expectations and empty lines."""
    if not line.strip() or line[0] in "#>":
        return []
    word, *rest = TOKEN.findall(line)
    for record_kind in WORDS:
        if word == WORDS[record_kind]:
            return [record_of(record_kind, **read_fields(record_kind, rest))]
    if word == "open" and len(rest) == 1:
        return [record(OPEN + int(rest[0]))]
    if word == "hangup" and len(rest) == 1:
        return [record(HANG_UP + int(rest[0]))]
    if word == "tick" and len(rest) <= 1:
        return [record(TICK)] * (int(rest[0]) if rest else 1)
    if word == "bytes":
        return [record(BYTES + int(rest[0]), b"".join(read_string(part) for part in rest[1:]))]
    if word == "record":
        return [record(int(rest[0]), bytes.fromhex("".join(rest[1:])))]
    if word == "tail":
        return [bytes.fromhex("".join(rest))]
    raise ValueError("no such line: " + line)


def to_records(text):
    return b"".join(part for line in whole_lines(text) for part in line_to_records(line))


def quoted_parts(data):
    """Strings for the bytes; a byte repeated 32 times or more is shown as "x"*n."""
    parts, at = [], 0
    for match in re.finditer(rb"(.)\1{31,}", data, re.S):
        if match.start() > at:
            parts.append(quote(data[at:match.start()]))
        parts.append(quote(match.group(1)) + "*%d" % len(match.group(0)))
        at = match.end()
    if at < len(data) or not parts:
        parts.append(quote(data[at:]))
    return " ".join(parts)


def fields_line(record_kind, fields):
    words = [WORDS[record_kind]]
    for item in PAYLOADS[record_kind].items.values():
        value = fields[item.name].rstrip(b" ") if item.sort == TEXT else fields[item.name]
        if record_kind in IN_ORDER or value != item.usual:
            shown = show_value(item, value)
            words.append(shown if record_kind in IN_ORDER else item.name + "=" + shown)
    return " ".join(words)


def record_line(record_kind, payload):
    if fields := fields_of(record_kind, payload):
        return fields_line(record_kind, fields)
    if BYTES <= record_kind < TICK:
        return "bytes %d %s" % (record_kind - BYTES, quoted_parts(payload))
    if not payload and OPEN <= record_kind < HANG_UP:
        return "open %d" % (record_kind - OPEN)
    if not payload and HANG_UP <= record_kind < BYTES:
        return "hangup %d" % (record_kind - HANG_UP)
    if not payload and record_kind == TICK:
        return "tick"
    return ("record %d %s" % (record_kind, payload.hex())).rstrip()


def to_lines(data):
    records, tail = split(data)
    lines = []
    for line, alike in itertools.groupby(record_line(*each) for each in records):
        times = len(list(alike))
        lines += ["tick %d" % times] if line == "tick" and times > 1 else times * [line]
    if tail:
        lines.append("tail " + tail.hex())
    return "".join(line + "\n" for line in lines)


def main(arguments):
    if arguments == ["to-records"]:
        sys.stdout.buffer.write(to_records(sys.stdin.buffer.read().decode("latin-1")))
    elif arguments == ["to-lines"]:
        sys.stdout.write(to_lines(sys.stdin.buffer.read()))
    else:
        sys.exit(__doc__)


if __name__ == "__main__":
    main(sys.argv[1:])
