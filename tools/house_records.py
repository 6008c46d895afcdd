"""House records: their kinds, the items of their payloads, and how both become bytes. Whatever reads or writes a record in Python does
it by this.

    record(TICK)                                   a record as bytes
    record_of(TIGHTENING, job=7)                   one with a payload: what is not named has its usual value
    fields_of(record_kind, payload)                the items of a payload by their names
    split(data)                                    the records of a file, as kinds and payloads"""

import struct
from dataclasses import dataclass

TIGHTENING, SCANNED, SETTINGS, ALARM = 1, 2, 3, 5
OPEN, HANG_UP, BYTES, TICK = 16, 32, 48, 64  # but for the tick of session 0: the session's number is added
HEAD = struct.Struct("<HH")  # the length of the payload, and the kind
PAYLOAD_LONGEST = 8192  # of what the test program reads
GREATEST_NUMBER = 4294967295  # of a tightening

NUMBER, LIMIT, TEXT, TIME = "number", "limit", "text", "time"  # sorts of items; a limit is a number, or None where none was set
NUMBERS = (NUMBER, LIMIT)  # of which the bytes are a number
NEVER_SET = 4294967295  # that of a limit that is None
TEXT_SIZE, TIME_SIZE, CODE_SIZE = 25, 19, 4  # an alarm's code is a short text
NUMBER_FORMS = {1: "B", 2: "H", 4: "I"}  # of struct, by their bytes


@dataclass(frozen=True)
class Item:
    name: str
    sort: str
    size: int  # bytes
    greatest: int = 0  # of a number, and of a limit that is one
    usual: object = 0  # its value where none is named

    def form(self):
        return NUMBER_FORMS[self.size] if self.sort in NUMBERS else "%ds" % self.size

    def packed(self, value):
        if self.sort == LIMIT and value is None:
            return NEVER_SET
        return value if self.sort in NUMBERS else filled(value, self.size)

    def unpacked(self, value):
        return None if self.sort == LIMIT and value == NEVER_SET else value


def filled(value, size=TEXT_SIZE):
    """A text, as str or bytes, with the spaces that fill it up."""
    return (value.encode("latin-1") if isinstance(value, str) else value).ljust(size)


class Payload:
    """Items, one behind the other; `items` has them by their names, in order."""

    def __init__(self, *items):
        self.items = {item.name: item for item in items}
        self.form = struct.Struct("<" + "".join(item.form() for item in items))
        self.size = self.form.size

    def usual(self, **named):
        """The fields by their names: those that are named here, and the others as usual."""
        return {**{name: item.usual for name, item in self.items.items()}, **named}

    def pack(self, fields):
        return self.form.pack(*(item.packed(fields[name]) for name, item in self.items.items()))

    def unpack(self, payload):
        return {name: item.unpacked(value) for (name, item), value in zip(self.items.items(), self.form.unpack(payload))}


PAYLOADS = {
    SETTINGS: Payload(
        Item("cell", NUMBER, 2, 9999),
        Item("channel", NUMBER, 1, 99),
        Item("granted", NUMBER, 1, 1),
        Item("name", TEXT, TEXT_SIZE, usual=b""),
        Item("last", NUMBER, 4, GREATEST_NUMBER),
    ),
    SCANNED: Payload(Item("identifier", TEXT, TEXT_SIZE, usual=b"")),
    TIGHTENING: Payload(
        Item("identifier", TEXT, TEXT_SIZE, usual=b""),
        Item("job", NUMBER, 1, 99),
        Item("parameter_set", NUMBER, 2, 999, usual=1),
        Item("batch_size", NUMBER, 2, 9999),
        Item("batch_counter", NUMBER, 2, 9999),
        Item("tightening_status", NUMBER, 1, 1, usual=1),
        Item("torque_status", NUMBER, 1, 2, usual=1),
        Item("angle_status", NUMBER, 1, 2, usual=1),
        Item("torque_min", LIMIT, 4, 999999),
        Item("torque_max", LIMIT, 4, 999999),
        Item("torque_target", LIMIT, 4, 999999),
        Item("torque", NUMBER, 4, 999999),
        Item("angle_min", LIMIT, 4, 99999),
        Item("angle_max", LIMIT, 4, 99999),
        Item("angle_target", LIMIT, 4, 99999),
        Item("angle", NUMBER, 4, 99999),
        Item("time", TIME, TIME_SIZE, usual=b"2024-01-02:03:04:05"),
        Item("change_time", TIME, TIME_SIZE, usual=b"2024-01-01:00:00:00"),
        Item("batch_status", NUMBER, 1, 2),
    ),
    ALARM: Payload(
        Item("code", TEXT, CODE_SIZE, usual=b"E404"),
        Item("controller_ready", NUMBER, 1, 1, usual=1),
        Item("tool_ready", NUMBER, 1, 1, usual=1),
        Item("time", TIME, TIME_SIZE, usual=b"2024-01-02:03:04:05"),
    ),
}


def record(record_kind, payload=b""):
    return HEAD.pack(len(payload), record_kind) + payload


def record_of(record_kind, **named):
    return record(record_kind, PAYLOADS[record_kind].pack(PAYLOADS[record_kind].usual(**named)))


def fields_of(record_kind, payload):
    """None where the kind has no items, or the payload is not as long as they are."""
    items = PAYLOADS.get(record_kind)
    return items.unpack(payload) if items and len(payload) == items.size else None


def split(data):
    """The records as (record kind, payload), and the bytes behind the last whole one."""
    records, at = [], 0
    while at + HEAD.size <= len(data):
        length, record_kind = HEAD.unpack_from(data, at)
        begin, end = at + HEAD.size, at + HEAD.size + length
        if end > len(data):
            break
        records.append((record_kind, data[begin:end]))
        at = end
    return records, data[at:]
