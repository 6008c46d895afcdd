#!/usr/bin/env python3
"""Prints a history as house records, for a seed.

    generate.py SEED [--records N] [--framed COUNT]

The history is aimed at deep states. It is made of stretches, each of one sort, so that
long orderly ones (which reach clocks of 120 and full queues) alternate with disorder.
The generator keeps a rough idea of what stands at the other end (is the session up, how
long was it silent, which tightenings are kept) to stay in deep states; it does not know the
rules, and its idea may be wrong. The same seed always gives the same history.

--framed writes those of COUNT seeds, SEED and on, as the programs of tests/compare read them."""

import argparse
import os
import random
import struct
import sys

sys.path.insert(0, os.path.join(os.path.dirname(os.path.abspath(__file__)), "..", "..", "tools"))

from house_records import (ALARM, BYTES, CODE_SIZE, GREATEST_NUMBER, HANG_UP, LIMIT, NEVER_SET, NUMBERS, OPEN,  # noqa: E402
                           PAYLOAD_LONGEST, PAYLOADS, SCANNED, SETTINGS, TEXT, TICK, TIGHTENING, record)
from openprotocol import message  # noqa: E402

LONG_EVERY = 25  # of as many seeds one gives a history three times as long, in which a whole queue is given up

KNOWN = (1, 3, 50, 51, 53, 54, 60, 62, 63, 64, 70, 72, 73, 9999)
OTHERS = (0, 2, 4, 5, 6, 10, 49, 52, 55, 59, 61, 65, 66, 69, 71, 71, 74, 75, 75, 76, 77, 77, 78, 79, 100, 999, 1001,
          1234, 5000, 5001, 5100, 6000, 9990, 9998)
SUBSCRIBES, ACKNOWLEDGES = (51, 60, 70), (53, 62, 72)  # to identifiers, results and alarms
UNSUBSCRIBES = {51: 54, 60: 63, 70: 73}
REVISIONS = (b"001", b"000", b"   ", b"002", b"003", b"006", b"007", b"010", b"011", b"100", b"101",
             b"200", b"257", b"999")
GOOD_REVISIONS = (b"001", b"001", b"000", b"   ")
RESULT_REVISIONS = (b"001", b"002", b"003", b"004", b"005", b"006")  # that 0060 may ask for
TOO_HIGH = {51: (b"003", b"003", b"004", b"257", b"258", b"999"),
            60: (b"007", b"007", b"007", b"008", b"009", b"010", b"257", b"258", b"262", b"998", b"999"),
            70: (b"002", b"002", b"002", b"003", b"006", b"257", b"999")}
BAD_REVISIONS = (b"0  ", b"  1", b"00 ", b" 01", b"1  ", b"0 1", b"00a", b"/00", b"00:", b"-01",
                 b"\xb0\xb01", b"  \x1f")
NO_DIGITS = (0x20, 0x2F, 0x3A, 0x3B, 0x3C, 0x3D, 0x3E, 0x3F, 0x2B, 0x2D, 0x41, 0xB0, 0x1F)
TICK_RECORD = record(TICK)
KEPT = 64  # tightenings, by the controller
HELD, GIVEN_UP_AFTER = 8, 120  # results by a session; ticks of one that is open
LIMITS = [name for name, item in PAYLOADS[TIGHTENING].items.items() if item.sort == LIMIT]
OF_TORQUE, OF_ANGLE = LIMITS[:3], LIMITS[3:]


class Session:
    """What the generator believes of a session."""

    def __init__(self):
        self.up = self.started = False
        self.silent = 0
        self.pending = bytearray()  # bytes made but not yet sent


class History:
    def __init__(self, seed, count):
        self.random = random.Random(seed)
        self.long = seed % LONG_EVERY == 0
        self.count = 3 * count if self.long else count
        self.records = []
        self.sessions = [Session() for _ in range(4)]
        self.manner = "whole"  # how messages are cut into records
        self.serial = 0
        self.last = self.kept = 0  # the last number, as it is believed to be, and how many are kept

    # ---- small chances

    def chance(self, share):
        return self.random.random() < share

    def pick(self, things):
        return things[int(self.random.random() * len(things))]

    def between(self, least, greatest):
        return least + int(self.random.random() * (greatest - least + 1))

    def full(self):
        return len(self.records) >= self.count

    def some_sessions(self):
        return [s for s in range(4) if self.chance(0.6)] or [self.between(0, 3)]

    def started_sessions(self):
        return [s for s in range(4) if self.sessions[s].started]

    def a_session(self):
        """Mostly one that is up."""
        up = [s for s in range(4) if self.sessions[s].up]
        return self.pick(up) if up and not self.chance(0.05) else self.between(0, 3)

    # ---- records

    def put(self, record_kind, payload=b""):
        self.records.append(record(record_kind, payload))

    def tick(self):
        self.flush_all()
        if self.chance(0.01):
            self.put(TICK, b"x" * self.between(1, 5))
        else:
            self.records.append(TICK_RECORD)
        for session in self.sessions:
            session.silent += 1
            if session.up and session.silent >= 15:
                session.up = session.started = False

    def open(self, s):
        self.put(OPEN + s, b"?" if self.chance(0.02) else b"")
        if s < 4 and not self.sessions[s].up:
            self.sessions[s] = Session()
            self.sessions[s].up = True

    def hang_up(self, s):
        self.put(HANG_UP + s, b"?" if self.chance(0.02) else b"")
        if s < 4:
            self.sessions[s] = Session()

    def settings_fields(self, last=None, granted=None):
        if last is None:
            last = self.pick((0, 0, 7, 99, 65535, 345674, 9999999, GREATEST_NUMBER - 200,
                              self.between(0, GREATEST_NUMBER)))
        if granted is None:
            granted = 0 if self.chance(0.2) else 1
        cell = self.pick((0, 1, 12, 999, 1000, 9998, 9999))
        channel = self.pick((0, 1, 9, 10, 98, 99))
        return {"cell": cell, "channel": channel, "granted": granted, "name": self.text(), "last": last}

    def settings(self, last=None, granted=None):
        return PAYLOADS[SETTINGS].pack(self.settings_fields(last, granted))

    def start(self, last=None, granted=None):
        fields = self.settings_fields(last, granted)
        self.put(SETTINGS, PAYLOADS[SETTINGS].pack(fields))
        self.sessions = [Session() for _ in range(4)]
        self.last, self.kept = fields["last"], 0

    # ---- contents

    def text(self):
        """25 bytes of text, each one different where that can be."""
        self.serial += 1
        sort = self.random.random()
        if sort < 0.08:
            return b" " * 25
        if sort < 0.16:
            return bytes(self.between(0x20, 0x7E) for _ in range(25))
        if sort < 0.2:
            return (b" " * self.between(1, 24) + b"e%d" % self.serial)[:25].ljust(25)
        return (b"ID-%d" % self.serial).ljust(25)

    def time(self):
        return b"%04d-%02d-%02d:%02d:%02d:%02d" % (
            self.between(0, 9999), self.between(0, 99), self.between(0, 99),
            self.between(0, 99), self.between(0, 99), self.between(0, 99))

    def number(self, greatest):
        if self.chance(0.3):
            return self.pick((0, 1, 9, 10, greatest // 10, greatest - 1, greatest))
        return self.between(0, greatest)

    def code(self):
        """Of an alarm: mostly another than those before it."""
        self.serial += 1
        if self.chance(0.15):
            return bytes(self.pick((0x20, 0x7E, self.between(0x20, 0x7E))) for _ in range(CODE_SIZE))
        return b"E%03d" % (self.serial % 1000)

    def value(self, item):
        if item.sort == TEXT and item.size == CODE_SIZE:
            return self.code()
        if item.sort == TEXT:
            return b"" if self.chance(0.5) else self.text()
        if item.sort == LIMIT and self.chance(0.03):
            return NEVER_SET & 0xFFFF  # half of its bits
        if item.sort in NUMBERS:
            return self.number(item.greatest) if item.greatest > 9 else self.between(0, item.greatest)
        return self.time()

    def never_set(self):
        """Which limits of a tightening are none: of most not one, of others one alone, a torque's or an angle's, all six, or any."""
        if self.chance(0.5):
            return []
        return self.pick(([self.pick(LIMITS)], [self.pick(LIMITS)], [self.pick(LIMITS)], OF_TORQUE, OF_ANGLE, LIMITS,
                          [name for name in LIMITS if self.chance(0.5)]))

    def fields(self, record_kind):
        """Of a tool record."""
        fields = {name: self.value(item) for name, item in PAYLOADS[record_kind].items.items()}
        return {**fields, **dict.fromkeys(self.never_set(), None)} if record_kind == TIGHTENING else fields

    def tightening_payload(self):
        return PAYLOADS[TIGHTENING].pack(self.fields(TIGHTENING))

    def alarm_payload(self):
        return PAYLOADS[ALARM].pack(self.fields(ALARM))

    def tightening(self):
        self.put(TIGHTENING, self.tightening_payload())
        if self.last < GREATEST_NUMBER:
            self.last += 1
            self.kept = min(self.kept + 1, KEPT)

    def scan(self):
        self.put(SCANNED, self.text())

    def alarm(self):
        self.put(ALARM, self.alarm_payload())

    def event(self):
        sort = self.random.random()
        if sort < 0.58:
            self.tightening()
        elif sort < 0.71:
            self.alarm()
        elif sort < 0.87:
            self.scan()
        else:
            self.download(self.a_session())

    # ---- messages

    def send(self, s, data):
        """Sends bytes to a session in the manner of the stretch."""
        session = self.sessions[s]
        session.silent = 0 if session.started else session.silent
        session.pending += data
        if self.manner == "whole":
            self.flush(s)
        elif self.manner == "joined":
            if self.chance(0.25):
                self.flush(s)
        else:
            self.send_pieces(s)

    def send_pieces(self, s):
        pending = self.sessions[s].pending
        while pending and not self.chance(0.2):
            size = self.between(0, min(len(pending), self.pick((1, 4, 12, 30))))
            self.put(BYTES + s, bytes(pending[:size]))
            del pending[:size]

    def flush(self, s):
        pending = self.sessions[s].pending
        while pending:
            self.put(BYTES + s, bytes(pending[:PAYLOAD_LONGEST]))
            del pending[:PAYLOAD_LONGEST]

    def flush_all(self):
        """Now and then a part stays behind, so that ticks fall into the middle of a run."""
        for s in range(4):
            if self.sessions[s].pending and not self.chance(0.1):
                self.flush(s)

    def rest(self):
        """Bytes 13 to 20, which are not read."""
        if self.chance(0.8):
            return b"        "
        if self.chance(0.5):
            return b"00000000"
        return bytes(self.between(1, 255) for _ in range(8))

    def twelve(self):
        return self.pick((b" ", b" ", b"0", b"1"))

    def any_revision(self):
        """Mostly one at an edge, else any of the thousand."""
        return b"%03d" % self.between(0, 999) if self.chance(0.4) else self.pick(REVISIONS)

    def other_number(self):
        """A message number that is not known, mostly one near those that are."""
        return self.between(0, 9999) if self.chance(0.6) else self.pick(OTHERS)

    def begin(self, s):
        self.send(s, message(1, self.pick(GOOD_REVISIONS), self.twelve(), self.rest()))
        session = self.sessions[s]
        if session.up and not session.started:
            session.started = True
            session.silent = 0

    def good_revision(self, mid):
        """One that a subscription may ask for: of results all six, and revision 1 in each way of writing it."""
        if mid == 60 and self.chance(0.75):
            return self.pick(RESULT_REVISIONS)
        return self.pick(GOOD_REVISIONS + (b"002", b"002") if mid == 51 else GOOD_REVISIONS)

    def subscribe(self, s, mid, free=None):
        if free is None:
            free = self.chance(0.2)
        twelve = b"1" if free else self.pick((b"0", b" "))
        if self.chance(0.05):  # first one that may be too high
            self.send(s, message(mid, self.any_revision(), twelve, self.rest()))
        if self.chance(0.08):  # or that surely is
            self.send(s, message(mid, self.pick(TOO_HIGH[mid]), twelve, self.rest()))
        self.send(s, message(mid, self.good_revision(mid), twelve, self.rest()))

    def unsubscribe(self, s, mid):
        """What that message subscribed to."""
        self.send(s, message(UNSUBSCRIBES[mid], self.pick(REVISIONS), self.twelve()))

    def acknowledge(self, s, mid=None):
        mid = mid or self.pick(ACKNOWLEDGES + (62,))
        self.send(s, message(mid, self.pick(REVISIONS), self.twelve(), self.rest()))

    def download(self, s):
        size = self.pick((1, 2, 10, 24, 25, self.between(1, 25)))
        data = (b"D%d-" % self.serial + self.text().replace(b" ", b"."))[:size]
        if self.chance(0.05):
            data = b" " * size
        if self.chance(0.16):
            data = self.odd_byte(data)
        self.send(s, message(50, self.pick(GOOD_REVISIONS), self.twelve(), self.rest(), data))

    def asked_number(self):
        """Mostly one at an edge of what is kept, or one that would wrap to it; 0 asks for the newest."""
        oldest = self.last - self.kept + 1
        number = self.pick((0, 0, self.last, self.last + 1, oldest, oldest, oldest - 1, self.between(oldest, self.last),
                            self.between(oldest, self.last), self.last - self.between(0, KEPT + 2)))
        if self.chance(0.12):
            number += (GREATEST_NUMBER + 1) * self.pick((1, 1, 2))
        elif self.chance(0.06):
            number = self.pick((GREATEST_NUMBER, GREATEST_NUMBER + 1, 10 ** 10 - 1, self.between(0, 10 ** 10 - 1)))
        return max(number, 0) % 10 ** 10

    def asked_digits(self, number=None):
        """A number in ten digits; now and then with spaces before it, a byte that is no digit, or a digit too few or too many."""
        digits, sort = b"%010d" % (self.asked_number() if number is None else number), self.random.random()
        if sort < 0.05:
            return b"%10d" % int(digits)
        if sort < 0.1:
            where = self.between(0, 9)
            return digits[:where] + bytes([self.pick(NO_DIGITS) if self.chance(0.7) else self.between(1, 255)]) + digits[where + 1:]
        if sort < 0.13:
            return self.pick((digits[1:], digits[:-1], digits + b"0", b"0" + digits))
        return digits

    def fetch(self, s, number=None):
        revision = self.any_revision() if self.chance(0.06) else self.pick(GOOD_REVISIONS)
        self.send(s, message(64, revision, self.twelve(), self.rest(), self.asked_digits(number)))

    def keep_alive(self, s):
        """Any message of a started session will do."""
        sort = self.random.random()
        if sort < 0.1:
            self.fetch(s)
        elif sort < 0.6:
            self.send(s, message(9999, self.pick(REVISIONS), self.twelve(), self.rest()))
        elif sort < 0.7:
            self.send(s, message(self.other_number(), self.any_revision(), self.twelve()))
        elif sort < 0.8:
            self.subscribe(s, self.pick(SUBSCRIBES))
        elif sort < 0.9:
            self.send(s, message(1, self.pick(REVISIONS), data=b"x" * self.between(0, 2)))
        else:
            self.send(s, message(self.pick(ACKNOWLEDGES), data=b"x" * self.between(1, 3)))

    def any_message(self, s):
        """A message with every part near an edge."""
        mid = self.pick(KNOWN) if self.chance(0.85) else self.other_number()
        revision = self.pick(GOOD_REVISIONS) if self.chance(0.6) else self.any_revision()
        usual = self.between(1, 25) if mid == 50 else 0
        odd = self.chance(0.3)
        if odd:
            usual = self.pick((0, 1, 2, 9, 10, 11, 24, 25, 26, 27, 80))
        data = self.asked_digits() if mid == 64 and not odd else self.data(usual)
        self.send(s, message(mid, revision, self.twelve(), self.rest(), data))
        if mid == 1 and self.sessions[s].up and not usual:
            self.sessions[s].started = True
        elif mid == 3 and not usual:
            self.sessions[s].started = False

    def data(self, size):
        data = (self.text() * 4)[:size]
        return self.odd_byte(data) if data and self.chance(0.25) else data

    def odd_byte(self, data):
        """The same with one byte at or past an end of the range of texts, or any."""
        where = self.between(0, len(data) - 1)
        byte = self.pick((0x1F, 0x20, 0x7E, 0x7F, 0x7F, 0x80, 0xFF, 1, 10))
        if self.chance(0.3):
            byte = self.between(1, 255)
        return data[:where] + bytes([byte]) + data[where + 1:]

    def near_miss(self, s):
        """A run that fails one part of the header rule, or only just does not."""
        good = bytearray(message(self.pick(KNOWN), self.pick(GOOD_REVISIONS), self.twelve()))
        sort = self.between(0, 8)
        if sort == 0:  # the length lies
            lie = self.pick((19, 21, 0, 20, 120, 2000, 22))
            good[0:4] = b"%04d" % lie
        elif sort == 1:  # no digit in length or MID
            good[self.between(0, 7)] = self.pick(NO_DIGITS)
        elif sort == 2:
            good[8:11] = self.pick(BAD_REVISIONS)
            if self.chance(0.5):
                good[8:11] = b"001"
                good[self.between(8, 10)] = self.pick(NO_DIGITS)
        elif sort == 3:
            good[11] = self.pick((0x2F, 0x32, 0x33, 0x39, 0x21, 0x1F, 0x41, 0xB0, 0x20, 0x30, 0x31))
            if self.chance(0.4):
                good[11] = self.between(1, 255)
        elif sort == 4:  # short runs that tell their length truly
            size = self.between(0, 19)
            good = bytearray((b"%04d" % size + bytes(good[4:]))[:size] + b"\0")
        elif sort == 5:  # one byte too many or too few
            good = good[:-2] + b"\0" if self.chance(0.5) else good[:-1] + b" \0"
        elif sort == 6:  # empty runs
            good = bytearray(b"\0" * self.between(1, 4))
        elif sort == 7:  # the NUL counted in the length
            good[0:4] = b"0021"
        else:  # a NUL in the middle
            good[self.between(0, 19)] = 0
        self.send(s, bytes(good))

    # ---- bad records

    def bad_value(self, item, value):
        """A number out of its range, by one or as far as can be, or as a digit, or a wrong byte in a text or a time."""
        if item.sort in NUMBERS:
            farthest = NEVER_SET - 1 if item.sort == LIMIT else (1 << 8 * item.size) - 1
            return self.pick((item.greatest + 1, item.greatest + 1, farthest, ord("0") + value if item.greatest < 10 else farthest))
        text = bytearray(item.packed(value))
        where = self.between(0, item.size - 1)
        if item.sort == TEXT:
            text[where] = self.pick((0x1F, 0x7F, 0, 0x80, 0xFF))
        else:
            text[where] = self.pick((0x2F, 0x3A, 0x2D, 0x30, 0x20, 0x39, 0x2C, 0x2E, self.between(0, 255)))
        return bytes(text)

    def bad_payload(self, record_kind):
        """With one of the fields bad, or of another size where that is the last number of the settings, which can't be bad."""
        fields = self.settings_fields() if record_kind == SETTINGS else self.fields(record_kind)
        measured = record_kind == TIGHTENING and self.chance(0.3)
        name = self.pick(("torque", "angle", self.pick(LIMITS)) if measured else list(fields))
        if name == "last":
            return self.wrong_size(PAYLOADS[record_kind].pack(fields))
        return PAYLOADS[record_kind].pack({**fields, name: self.bad_value(PAYLOADS[record_kind].items[name], fields[name])})

    def wrong_size(self, payload):
        """One byte too few or too many, or so many that only the upper byte of the length is another."""
        if self.chance(0.3):
            return bytes(payload) + b" " * 256 * self.pick((1, 1, 2, 16))
        return bytes(payload[:-1]) if self.chance(0.5) else bytes(payload) + b" "

    def bad_record(self):
        sort = self.between(0, 11)
        if sort <= 3:
            self.put(TIGHTENING, self.bad_payload(TIGHTENING))
        elif sort == 4:
            self.put(SETTINGS, self.bad_payload(SETTINGS))
        elif sort == 5:
            self.put(SCANNED, self.bad_value(PAYLOADS[SCANNED].items["identifier"], self.text()))
        elif sort == 6:
            payload = self.tightening_payload()
            self.put(self.pick((TIGHTENING, SCANNED, SETTINGS, ALARM)),
                     self.wrong_size(self.pick((payload, self.text(), self.settings(), self.alarm_payload()))))
        elif sort == 7:  # a kind that no call takes, with a good payload of another
            record_kind = self.pick((0, 4, 6, 15, 65, 80, 255, 256, 257, 512, 769, 65535, 258, 259, 261))
            self.put(record_kind, self.pick((b"", self.text(), self.settings(), self.tightening_payload(), self.alarm_payload())))
        elif sort == 8:  # a good payload under another kind's number; those of identifiers and alarms are equally long
            self.put(self.pick((TIGHTENING, ALARM)), self.text())
            self.put(SCANNED, self.pick((self.tightening_payload(), self.alarm_payload())))
        elif sort <= 10:
            self.put(ALARM, self.bad_payload(ALARM))
        else:  # sessions that there are not
            s = self.between(4, 15)
            self.put(self.pick((OPEN, HANG_UP, BYTES)) + s, self.pick((b"", b"00200001")))

    # ---- stretches

    def bring_up(self, s, free=None, kinds=SUBSCRIBES):
        """Opens, starts and subscribes as far as the session is believed not to be."""
        session = self.sessions[s]
        if not session.up:
            self.open(s)
        if not self.sessions[s].started:
            self.begin(s)
            for mid in kinds:
                if self.chance(0.85):
                    self.subscribe(s, mid, free)
        self.flush(s)

    def bring_up_some(self, free=None):
        chosen = self.some_sessions()
        for s in chosen:
            self.bring_up(s, free)
        return chosen

    def patience(self):
        return self.between(7, 14) if not self.chance(0.02) else 15

    def watch(self, ticks, acknowledging=0.0, events=0.0):
        """Ticks, with keep-alives that let the notices live."""
        patience = [self.patience() for _ in range(4)]
        for _ in range(ticks):
            if self.full():
                return
            for s in self.started_sessions():
                if self.sessions[s].silent >= patience[s]:
                    self.keep_alive(s)
                    patience[s] = self.patience()
                if acknowledging and self.chance(acknowledging):
                    self.acknowledge(s)
            if events and self.chance(events):
                self.event()
            self.tick()

    def long_watch(self):
        """Notices grow old: past 20, 40, .. 120 and into the next one."""
        self.manner = "whole"
        chosen = self.bring_up_some(False if self.chance(0.8) else None)
        for other in self.started_sessions():  # too many cost too many keep-alives
            if other not in chosen and self.chance(0.5):
                self.hang_up(other)
        for _ in range(self.between(1, 4)):
            self.event()
        self.watch(self.pick((19, 20, 21, 40, 61, 99, 101, 119, 120, 121, 125, 141, 150)),
                   acknowledging=self.pick((0, 0, 0, 0.01)), events=self.pick((0, 0, 0.02)))
        if self.chance(0.5):
            self.acknowledge(self.pick(chosen))

    def steady(self):
        """A line at work: events, acknowledges mostly in time, some doubled."""
        self.manner = self.pick(("whole", "whole", "joined", "cut"))
        self.bring_up_some()
        for _ in range(self.between(10, 40)):
            if self.full():
                return
            sort = self.random.random()
            live = self.started_sessions()
            if sort < 0.35:
                self.event()
            elif sort < 0.8 and live:
                s = self.pick(live)
                for _ in range(2 if self.chance(0.15) else 1):
                    self.acknowledge(s)
            elif sort < 0.9 and live:
                self.pick((self.keep_alive, self.fetch))(self.pick(live))
            else:
                self.tick()

    def flood(self):
        """Queues past eight, then drained, sometimes with the identifier changed between."""
        self.manner = self.pick(("whole", "whole", "cut"))
        chosen = self.bring_up_some(False if self.chance(0.8) else None)
        for _ in range(self.between(6, 12)):
            self.tightening()
            if self.chance(0.2):
                self.scan()
        self.watch(self.pick((0, 1, 5, 21)))
        for _ in range(self.between(0, 18)):
            self.acknowledge(self.pick(chosen), 62)
            if self.chance(0.1):
                self.event()
            if self.chance(0.1):
                self.tick()

    def identifiers(self):
        """Identifiers that come while one is open, so that the waiting one is replaced."""
        self.manner = self.pick(("whole", "joined", "cut"))
        chosen = self.bring_up_some()
        for _ in range(self.between(4, 14)):
            sort = self.random.random()
            if sort < 0.35:
                self.scan()
            elif sort < 0.65:
                self.download(self.pick(chosen))
            elif sort < 0.85:
                self.acknowledge(self.pick(chosen), 53)
            elif sort < 0.92:
                self.tightening()
            else:
                self.tick()

    def alarms(self):
        """Alarms past four, some drained, some refused; then the subscription ends in one way or another, and is taken up again."""
        self.manner = self.pick(("whole", "whole", "cut"))
        chosen = self.bring_up_some(False if self.chance(0.8) else None)
        for _ in range(self.between(2, 7)):
            self.alarm()
            if self.chance(0.2):
                self.event()
        self.watch(self.pick((0, 1, 5, 20, 21)))
        for _ in range(self.between(0, 12)):
            self.acknowledge(self.pick(chosen), 72 if self.chance(0.9) else None)
            if self.chance(0.2):
                self.alarm()
            if self.chance(0.1):
                self.put(ALARM, self.bad_payload(ALARM))
        s = self.pick(chosen)
        self.flush(s)
        if self.chance(0.4):
            self.unsubscribe(s, 70)
            if self.chance(0.3):
                self.alarm()
            self.subscribe(s, 70)
        elif self.chance(0.6):
            self.pick((self.hang_up, self.stop))(s)
            self.bring_up(s)
        if self.chance(0.5):
            self.alarm()
        self.watch(self.pick((0, 3, 15, 21)))

    def chatter(self):
        """All sorts of messages, many of them refused or dropped."""
        self.manner = self.pick(("whole", "joined", "joined", "cut", "cut"))
        if self.chance(0.7):
            self.bring_up(self.between(0, 3))
        for _ in range(self.between(8, 30)):
            if self.full():
                return
            s = self.a_session()
            sort = self.random.random()
            if sort < 0.55:
                self.any_message(s)
            elif sort < 0.85:
                self.near_miss(s)
            elif sort < 0.92:
                self.event()
            elif sort < 0.95:
                self.open(s)
            else:
                self.tick()

    def ladder(self):
        """One message through its lengths and revisions."""
        self.manner = self.pick(("whole", "joined"))
        s = self.between(0, 3)
        if self.chance(0.8):
            self.bring_up(s)
        elif not self.sessions[s].up:
            self.open(s)
        mid = self.pick(KNOWN + (50, 64))
        for _ in range(self.between(3, 9)):
            size = self.pick((0, 0, 1, 2, 24, 25, 26, 26))
            data = self.data(size) if mid != 64 or self.chance(0.2) else (self.asked_digits() * 2)[:self.pick((9, 10, 10, 11))]
            self.send(s, message(mid, self.pick(REVISIONS), self.twelve(), data=data))
        self.flush(s)
        self.sessions[s].started = self.sessions[s].started and mid != 3
        self.event()

    def bad_records(self):
        self.manner = "whole"
        for _ in range(self.between(3, 12)):
            self.bad_record()
            if self.chance(0.1):
                self.event()

    def lifecycle(self):
        """Links lost and made again with notices open, runs cut off by it."""
        self.manner = self.pick(("whole", "cut"))
        s = self.between(0, 3)
        self.bring_up(s, False if self.chance(0.8) else None)
        for _ in range(self.between(1, 4)):
            self.event()
        self.watch(self.pick((0, 1, 5, 12)))
        self.flush(s)
        if self.chance(0.5):  # half a message is under way when the link drops
            half = message(self.pick(KNOWN), self.pick(GOOD_REVISIONS))
            self.put(BYTES + s, half[:self.pick((1, 4, 10, 12, 19, 20))])
        sort = self.random.random()
        if sort < 0.55:
            self.hang_up(s)
            if self.chance(0.2):
                self.hang_up(s)
                self.put(BYTES + s, message(9999))
        elif sort < 0.75:
            self.put(BYTES + s, b"\0" + message(3, self.pick(REVISIONS)))
            self.sessions[s].started = False
        else:
            for _ in range(15):
                self.tick()
        self.watch(self.pick((0, 0, 2, 20)))
        if self.chance(0.5):
            self.event()
        if self.chance(0.2):
            self.open(s)
        self.bring_up(s)
        if self.chance(0.4):  # what it missed
            self.fetch(s)
        if self.chance(0.2):
            self.acknowledge(s)
        self.event()
        self.watch(self.pick((0, 3, 16, 22)))
        self.event()

    def resubscribe(self):
        """Unsubscribed with notices open, subscribed again, perhaps asking otherwise."""
        self.manner = "whole"
        s = self.between(0, 3)
        self.bring_up(s)
        for _ in range(self.between(1, 4)):
            self.event()
        self.watch(self.pick((0, 0, 3, 12)))
        for mid in SUBSCRIBES:
            if self.chance(0.6):
                for _ in range(2 if self.chance(0.3) else 1):
                    self.unsubscribe(s, mid)
                if self.chance(0.3):
                    self.event()
                if self.chance(0.85):
                    self.subscribe(s, mid)
        self.event()
        self.watch(self.pick((0, 4, 18, 21)))
        self.event()

    def long_run(self):
        """Runs at and over 9,999 bytes, some over 65,536, that begin and end like messages."""
        s = self.between(0, 3)
        self.bring_up(s)
        body = message(self.pick((9999, 60, 1234)))[:-1]
        total = self.pick((9999, 9999, 9998, 10000, 10001, 10020, 10020, 16404, 20020, 65536, 65556,
                           65556, 65556, 75576))
        if total <= 9999 and self.chance(0.8):
            body = b"%04d" % total + body[4:]
        elif total == 10000:
            body = self.pick((b"0000", b"1000", b"9999")) + body[4:]
        filler = total - 2 * len(body)
        run = body + b"x" * filler + body
        if self.chance(0.3):
            run = (body * (total // len(body) + 1))[:total]
        self.send_long(s, run + b"\0" + message(9999))

    def send_long(self, s, data):
        at = 0
        while at < len(data):
            size = self.pick((PAYLOAD_LONGEST, PAYLOAD_LONGEST, 8191, 8000))
            self.put(BYTES + s, data[at:at + size])
            at += size

    def idle_edge(self):
        """14 ticks of silence, then something that counts as a message or does not."""
        self.manner = "whole"
        s = self.between(0, 3)
        if self.chance(0.6):
            self.bring_up(s)
        elif not self.sessions[s].up:
            self.open(s)
        for other in range(4):
            if other != s and self.sessions[other].up and self.chance(0.5):
                self.hang_up(other)
        for _ in range(self.pick((12, 13, 14, 14, 14)) - min(self.sessions[s].silent, 12)):
            self.tick()
        sort = self.between(0, 8)
        if sort == 0:
            self.near_miss(s)
        elif sort == 7:
            self.fetch(s)
        elif sort == 1:  # a part of a run, ended only afterwards
            self.put(BYTES + s, message(9999)[:self.between(1, 20)])
        elif sort == 2:
            self.send(s, message(1, self.pick((b"002", b"003")), data=b"x" * self.between(0, 1)))
        elif sort == 3:
            self.acknowledge(s)
        elif sort == 4:
            self.send(s, message(3))
            self.sessions[s].started = False
        elif sort == 5:
            self.keep_alive(s)
        elif sort == 6:
            self.any_message(s)
        for _ in range(self.pick((1, 2, 14, 15))):
            self.tick()
        self.event()

    def time_out_in_step(self):
        """A silence that ends on the very tick on which a copy would be due."""
        self.manner = "whole"
        s = self.between(0, 3)
        self.hang_up(s)
        self.bring_up(s, False)
        for _ in range(self.between(1, 3)):
            self.pick((self.tightening, self.scan, self.alarm))()
        due = self.pick((20, 20, 20, 40, 60, 120))
        for _ in range(due - 15):
            if self.sessions[s].silent >= 10:
                self.send(s, message(9999))
            for other in self.started_sessions():
                if other != s and self.sessions[other].silent >= 10:
                    self.keep_alive(other)
            self.tick()
        self.send(s, message(9999))
        for _ in range(15):
            self.tick()
        self.bring_up(s)
        self.event()

    def all_anew(self, revisions):
        """All four links made anew, subscribed to identifiers in revision 2, to tightenings in these, and to alarms, with acknowledges."""
        self.manner = "whole"
        for s, revision in enumerate(revisions):
            self.hang_up(s)
            self.open(s)
            self.begin(s)
            self.send(s, message(51, b"002") + message(60, revision) + message(70))

    def some_revisions(self):
        """For each of the four sessions one; mostly no two are alike."""
        if self.chance(0.2):
            return [self.good_revision(60) for _ in range(4)]
        return self.random.sample(RESULT_REVISIONS, 4)

    def fullest(self):
        """As much output as a call can have: a 0050, a tightening and an alarm that go to all, and three copies to each."""
        self.all_anew(4 * [b"006"])
        self.send(self.between(0, 3), message(50, data=self.text().replace(b" ", b".")))
        self.tightening()
        self.alarm()
        self.watch(self.pick((19, 20, 20, 21, 41)))
        if self.chance(0.3):
            for s in range(4):
                self.acknowledge(s)

    def revisions(self):
        """Results in several revisions at once: sent, sent again, and sent when they have waited; one subscription changes on the way."""
        self.all_anew(self.some_revisions())
        changing = self.between(0, 3)
        for _ in range(self.between(1, 4)):
            self.tightening()
        if self.chance(0.4):
            self.watch(self.pick((19, 20, 21)))
        for _ in range(self.between(2, 10)):
            sort = self.random.random()
            if sort < 0.5:
                self.acknowledge(self.between(0, 3), 62)
            elif sort < 0.75:
                self.event()
            elif sort < 0.85:
                self.tick()
            else:
                self.change_revision(changing)

    def change_revision(self, s):
        """Results unsubscribed and subscribed to anew, mostly in another revision; between the two one may come."""
        self.unsubscribe(s, 60)
        if self.chance(0.3):
            self.tightening()
        self.subscribe(s, 60)

    def all_given_up(self):
        """Eight tightenings, two identifiers and four alarms, none of them acknowledged: one after the other is given up."""
        self.all_anew(self.some_revisions())
        for _ in range(self.between(8, 10)):
            self.tightening()
        for _ in range(self.between(1, 3)):
            self.scan()
        for _ in range(self.between(4, 5)):
            self.alarm()
        for tick in range(self.pick((840, 841, 960, 965))):
            if tick % 13 == 0:
                for s in range(4):
                    self.send(s, message(self.pick(ACKNOWLEDGES), data=b"x"))
            self.tick()

    def unstarted(self):
        """An opened session that talks but does not start."""
        self.manner = self.pick(("whole", "cut"))
        s = self.between(0, 3)
        self.hang_up(s)
        self.open(s)
        for _ in range(self.between(3, 18)):
            sort = self.random.random()
            if sort < 0.5:
                self.tick()
            elif sort < 0.65:
                self.send(s, message(1, self.pick((b"002", b"003", b"999")),
                                     data=b"x" * self.between(0, 1)))
            elif sort < 0.8:
                self.near_miss(s)
            elif sort < 0.95:
                self.send(s, message(self.pick((9999, 60, 51, 70, 3, 62, 72, 1234))))
            else:
                self.event()
        self.flush(s)

    def second_start(self):
        """A start in the middle of it all, or one that is refused."""
        self.scan()
        if self.chance(0.3):
            self.put(SETTINGS, self.bad_payload(SETTINGS))
            return
        before = self.last
        self.start(last=before if self.chance(0.2) else None)
        if self.chance(0.7):
            s = self.between(0, 3)
            self.bring_up(s)
            for number in (0, self.pick((self.last, before, None))):  # none is kept
                self.fetch(s, number)
            self.tightening()
            self.fetch(s, before if self.chance(0.3) else None)

    def numbers_end(self):
        """The last number runs up to its end; bad records then too."""
        self.start(last=GREATEST_NUMBER - self.pick((0, 0, 1, 1, 2, 3)))
        self.bring_up_some()
        for _ in range(self.between(5, 12)):
            sort = self.random.random()
            if sort < 0.5:
                self.tightening()
            elif sort < 0.58:
                self.alarm()
            elif sort < 0.75:
                self.put(TIGHTENING, self.bad_payload(TIGHTENING))
            elif sort < 0.85:
                self.put(TIGHTENING, self.wrong_size(self.tightening_payload()))
            elif sort < 0.95:
                self.event()
            else:
                self.acknowledge(self.between(0, 3))
        self.watch(self.pick((0, 0, 1, 20, 21)))
        for s in self.started_sessions():
            for _ in range(self.between(0, 4)):
                self.acknowledge(s, 62)
            self.fetch(s)
        if self.chance(0.7):
            self.start()

    def old_results(self):
        """What is kept is asked for while more comes, the identifier in force changes, and links are lost and made again."""
        self.manner = self.pick(("whole", "whole", "joined", "cut"))
        s = self.between(0, 3)
        self.bring_up(s, kinds=self.pick(((), (60,), SUBSCRIBES)))
        for _ in range(self.between(6, 16)):
            sort = self.random.random()
            if sort < 0.17:
                self.tightening()
            elif sort < 0.2:
                self.alarm()
            elif sort < 0.3:
                self.scan()
            elif sort < 0.34:
                self.put(TIGHTENING, self.bad_payload(TIGHTENING))
            elif sort < 0.38:
                self.tick()
            elif sort < 0.42:
                self.pick((self.hang_up, self.stop))(s)
                self.bring_up(s, kinds=())
            else:
                self.fetch(s)

    def stop(self, s):
        self.flush(s)
        self.send(s, message(3, self.pick(REVISIONS)))
        self.flush(s)
        self.sessions[s].started = False

    def more_than_kept(self):
        """As many tightenings as are kept and some more, to nobody or to sessions that don't acknowledge; then they are asked for."""
        self.manner = "whole"
        if self.chance(0.2):  # the last number comes to its end
            self.start(last=GREATEST_NUMBER - self.between(KEPT - 3, KEPT + 5))
        if self.chance(0.4):
            for s in self.started_sessions():
                self.hang_up(s)
        chosen = self.bring_up_some(False) if self.chance(0.7) else []
        for _ in range(max(KEPT - self.kept, 0) + self.between(-2, 9)):
            self.tightening()
            if self.chance(0.03):
                self.scan()
        s = self.between(0, 3)
        self.bring_up(s)
        for _ in range(self.between(5, 12)):
            self.fetch(s)
            if self.chance(0.25):
                self.event()
        for _ in range(self.between(0, 12) if chosen else 0):
            self.acknowledge(self.pick(chosen), 62)

    def wait_anew(self, s):
        """Results subscribed to, with acknowledges, and as many told of as a session holds."""
        self.send(s, message(60, self.good_revision(60), self.pick((b"0", b" "))))
        self.come_to_wait(HELD)

    def come_to_wait(self, count):
        for _ in range(count):
            if self.chance(0.1):
                self.scan()
            self.tightening()

    def keep_all_but(self, s=None):
        for other in range(4):
            if other != s:
                self.send(other, message(9999, self.pick(REVISIONS), self.twelve(), self.rest()))

    def fill_places(self):
        """The four sessions anew. One after the other subscribes and is told of eight results for which no other has room: 32 wait."""
        order = self.random.sample(range(4), 4)
        for s in order:
            self.hang_up(s)
            self.open(s)
            self.begin(s)
        for s in order:
            self.wait_anew(s)

    def end_by_acknowledges(self, s):
        count = self.between(1, HELD)
        for _ in range(count):
            self.acknowledge(s, 62)
        self.come_to_wait(count + self.between(0, 1))

    def end_by_0063(self, s):
        self.unsubscribe(s, 60)
        self.wait_anew(s)

    def end_by_0003(self, s):
        self.stop(s)
        self.begin(s)
        self.wait_anew(s)

    def end_by_hang_up(self, s):
        self.hang_up(s)
        self.open(s)
        self.begin(s)
        self.wait_anew(s)

    def end_by_time_out(self, s):
        for ticks in (8, 7):
            self.keep_all_but(s)
            for _ in range(ticks):
                self.tick()
        self.open(s)
        self.begin(s)
        self.wait_anew(s)

    def end_by_giving_up(self, _):
        """What is open in all four; what comes then waits in several."""
        for tick in range(GIVEN_UP_AFTER + self.between(0, 2)):
            if tick % 13 == 0:
                self.keep_all_but()
            self.tick()
        self.come_to_wait(self.between(1, 4))

    def end_by_start(self, _):
        self.start()
        self.fill_places()

    ENDS = ((4, "acknowledges"), (3, "0063"), (3, "0003"), (3, "hang_up"), (4, "time_out"), (0.7, "giving_up"), (0.7, "start"))

    def all_places(self):
        """As many different results wait as can: then those of one session are gone in one way or another, and as many others come to
        wait, again and again; at last all are acknowledged, in any order, while some more come."""
        self.manner = "whole"
        self.fill_places()
        weights, names = zip(*self.ENDS)
        for _ in range(self.between(3, 7)):
            if not self.full():
                getattr(self, "end_by_" + self.random.choices(names, weights)[0])(self.between(0, 3))
        for _ in range(self.between(0, 50)):
            self.acknowledge(self.between(0, 3), 62)
            if self.chance(0.2):
                self.tightening()

    def shared_results(self):
        """Results that wait in several sessions, some of which acknowledge sooner: the others are sent theirs when many more have come."""
        self.manner = "whole"
        late, *early = self.random.sample(range(4), self.between(2, 4))
        for s in (late, *early):
            self.hang_up(s)
            self.open(s)
            self.begin(s)
            self.send(s, message(60, self.good_revision(60), b"0"))
        self.come_to_wait(self.between(2, HELD))
        for _ in range(self.pick((5, 20, 40))):
            s = self.pick(early)
            self.acknowledge(s, 62)
            if self.chance(0.9):
                self.tightening()
            if self.chance(0.1):
                self.tick()
        for _ in range(HELD):
            self.acknowledge(late, 62)

    def before_start(self):
        """Calls on a table of zeros."""
        for _ in range(self.between(1, 6)):
            self.pick((self.bad_record, self.event, self.tick,
                       lambda: self.put(self.pick((OPEN, HANG_UP, BYTES)) + self.between(0, 15))))()

    STRETCHES = (
        (10, "long_watch"), (10, "steady"), (6, "flood"), (6, "identifiers"), (5, "alarms"), (9, "chatter"),
        (6, "ladder"), (4, "bad_records"), (10, "lifecycle"), (7, "resubscribe"), (2.5, "long_run"),
        (7, "idle_edge"), (4, "time_out_in_step"), (4, "unstarted"), (1.5, "second_start"),
        (2, "numbers_end"), (2, "fullest"), (6, "old_results"), (3.5, "more_than_kept"), (4, "revisions"),
        (3, "all_places"), (2, "shared_results"),
    )

    def make(self):
        if self.chance(0.08):
            self.before_start()
        self.start()
        if self.long:
            self.all_given_up()
        weights = [weight for weight, _ in self.STRETCHES]
        names = [name for _, name in self.STRETCHES]
        while not self.full():
            getattr(self, self.random.choices(names, weights)[0])()
            if self.chance(0.5):
                self.flush_all()
        del self.records[self.count:]
        ending = self.random.random()
        if ending < 0.03:  # a cut record, or a payload over 8,192 bytes, ends the run
            self.records[-1] = self.records[-1][:-1]
        elif ending < 0.06:
            self.records[-1] = record(BYTES, b"x" * (PAYLOAD_LONGEST + 1)) + TICK_RECORD
        return b"".join(self.records)


def generate(seed, count=500):
    return History(seed, count).make()


def framed(data, seed):
    """A history behind its length and its seed, for programs that read many: compare/histories.h."""
    return struct.pack("<II", len(data), seed) + data


def main():
    parser = argparse.ArgumentParser(description=__doc__.splitlines()[0])
    parser.add_argument("seed", type=int)
    parser.add_argument("--records", type=int, default=500)
    parser.add_argument("--framed", type=int, metavar="COUNT")
    arguments = parser.parse_args()
    for seed in range(arguments.seed, arguments.seed + (arguments.framed or 1)):
        data = generate(seed, arguments.records)
        sys.stdout.buffer.write(framed(data, seed) if arguments.framed else data)


if __name__ == "__main__":
    main()
