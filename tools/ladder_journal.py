"""A journal for tools/ladder: its records, and the lines that replay prints for each. It is read in blocks, so that a long one
takes no more memory than a short one."""

import calendar
import contextlib
import glob
import os
import re
import subprocess
import sys
import tempfile
import threading
import time
from dataclasses import dataclass

import lent_table
from house_records import BYTES, HEAD, OPEN, PAYLOAD_LONGEST, SETTINGS, TICK, record

BLOCK = 65536


class Fault(Exception):
    """What ends the program with a message."""


def count(number, noun):
    return "%d %s%s" % (number, noun, "" if number == 1 else "s")


# ---- the records


class Journal:
    """Files that are read one after another; none, or -, is standard input. Each is as long as it was when it was opened, so that a
    journal can be drawn while it is written. What can't be read twice is copied first."""

    def __init__(self, names):
        self.parts = []  # name, file and size
        self.times = []  # what the host noted beside the parts: a place in the journal, and the time of day in seconds
        self.size = 0
        for name in names or ["-"]:
            with reading(name):
                file = sys.stdin.buffer if name == "-" else open(name, "rb")
                if not os.path.isfile(file.fileno()) or name == "-":
                    file = copied(file)
                size = os.fstat(file.fileno()).st_size
            self.times += [(self.size + at, when) for at, when in read_times(name)]
            self.parts.append((name, file, size))
            self.size += size

    def blocks(self):
        for name, file, size in self.parts:
            at = 0
            while at < size:
                with reading(name):
                    block = os.pread(file.fileno(), min(BLOCK, size - at), at)
                if not block:
                    raise Fault("%s became shorter while it was read" % name)
                yield block
                at += len(block)


@contextlib.contextmanager
def reading(name):
    try:
        yield
    except OSError as error:
        raise Fault("%s: %s" % (name, error.strerror)) from error


def beside(name, end):
    """The file that the host keeps beside a part FILE.7, FILE.7.END, or None. What stands beside FILE has the next part's number."""
    if re.search(r"\.[1-9]\d*$", name):
        found = [name + end]
    else:
        found = [each for each in glob.glob(glob.escape(name) + ".*" + end) if not os.path.exists(each[:-len(end)])]
    found = [each for each in found if re.search(r"\.[1-9]\d*$", each[:-len(end)]) and os.path.isfile(each)]
    return max(found, key=lambda each: int(each[:-len(end)].rpartition(".")[2]), default=None)


def read_times(name):
    """The lines of FILE.7.times: the bytes of the part so far, and the time of day."""
    path = beside(name, ".times")
    if not path:
        return []
    with reading(path), open(path, encoding="ascii", errors="replace") as file:
        found = [re.fullmatch(r"(\d+) (\d{4}-\d\d-\d\dT\d\d:\d\d:\d\d)Z\n", line) for line in file]
    return [(int(line[1]), calendar.timegm(time.strptime(line[2], "%Y-%m-%dT%H:%M:%S"))) for line in found if line]


def read_table(path):
    """The lent table with which a journal begins."""
    with reading(path), open(path, "rb") as file:
        data = file.read(lent_table.SIZE + len(lent_table.MAP) + 1)
    try:
        return lent_table.read(data)
    except ValueError:
        raise Fault("%s is no table" % path) from None


def copied(file):
    copy = tempfile.TemporaryFile()
    while block := file.read(BLOCK):
        copy.write(block)
    copy.flush()
    return copy


class Records:
    """The records of a journal up to where replay ends the run, as place, kind and payload; then the bytes from there on."""

    def __init__(self, journal):
        self.blocks = journal.blocks()
        self.size = self.left = journal.size  # left are the bytes that are in no record yet
        self.buffer = b""

    def __iter__(self):
        for block in self.blocks:
            self.buffer += block
            at = 0
            while at + HEAD.size <= len(self.buffer):
                length, record_kind = HEAD.unpack_from(self.buffer, at)
                begin, end = at + HEAD.size, at + HEAD.size + length
                if length > PAYLOAD_LONGEST or end > len(self.buffer):
                    break
                yield self.size - self.left, record_kind, self.buffer[begin:end]
                self.left -= end - at
                at = end
            self.buffer = self.buffer[at:]
            if self.is_too_long():
                return

    def is_too_long(self):
        return len(self.buffer) >= HEAD.size and HEAD.unpack_from(self.buffer)[0] > PAYLOAD_LONGEST

    def rest(self):
        yield self.buffer
        yield from self.blocks

    def why(self):
        """Why the run ends, in words; '' where the last record is whole."""
        if not self.left:
            return ""
        if self.left < HEAD.size:
            return "the last record is cut: %s of it" % count(self.left, "byte")
        length, record_kind = HEAD.unpack_from(self.buffer)
        if length > PAYLOAD_LONGEST:
            return "a record of %d bytes, longer than %d, ends the run: %s not read" % (length, PAYLOAD_LONGEST, count(self.left, "byte"))
        return "the last record is cut: kind %d, %d of %d bytes" % (record_kind, self.left - HEAD.size, length)


@dataclass
class Piece:
    """What replay is given at a time: a record, or of a bytes record one run, with the NUL that ends it."""

    record: int  # its number in the journal, from 1
    place: int  # where in the journal the record begins
    record_kind: int
    payload: bytes
    lines: list = ()  # what replay printed for it

    def refused(self):
        """The number with which it was refused, or 0."""
        return int(self.lines[0][2:]) if self.lines and self.lines[0].startswith("R ") else 0


def pieces_of(records):
    """A bytes record is given run by run, so that an answer stands behind its message: how bytes are cut does not matter."""
    for number, (place, record_kind, payload) in enumerate(records, 1):
        if BYTES <= record_kind < TICK and payload:
            for part in re.findall(rb"[^\0]*\0|[^\0]+", payload):
                yield Piece(number, place, record_kind, part)
        else:
            yield Piece(number, place, record_kind, payload)


# ---- what replay prints

# replay prints nothing between two records. So behind each stand two that are refused and change nothing, as marks: settings of
# no bytes, with 9 whatever the table holds, and an open of session 15, with 4, or with 2 before a start was done. What is printed
# for a record has one refusal at most, as its last line; if that is a 9, the 9 of the first mark follows it. So a 9 with a 4 or
# a 2 behind it is the marks', and nothing else is: what a frame has of spaces is printed as _.
MARKS = record(SETTINGS) + record(OPEN + 15)
PRINTED_MARKS = re.compile(r"R 9\nR [42]\n")
PRINTED_LONGEST = 65536  # no call writes so much

# A space stands only where replay itself puts it: that tells lines apart even where a mirrored 9999 has a line feed among its bytes.
LINE = re.compile(r"([0-3] S [^ ]*|[0-3] C|R \d+)\n")


def lines_of(text):
    lines, at = [], 0
    while at < len(text):
        match = LINE.match(text, at)
        if not match:
            raise Fault("replay printed what is no line of it: %r" % text[at:at + 60])
        lines.append(match.group(1))
        at = match.end()
    return lines


def printed_texts(pipe):
    """What stands before each pair of marks, and at last what stands behind them all."""
    text = ""
    while block := os.read(pipe.fileno(), BLOCK):
        *texts, text = PRINTED_MARKS.split(text + block.decode("latin-1"))
        yield from texts
        if len(text) > PRINTED_LONGEST:
            raise Fault("replay printed %d bytes without marks: its lines can't be told apart" % len(text))
    yield text


def feed(journal, pipe):
    """Gives replay the journal with the marks."""
    records = Records(journal)
    given = bytearray()
    try:
        with pipe:
            for piece in pieces_of(records):
                given += record(piece.record_kind, piece.payload) + MARKS
                if len(given) >= BLOCK:
                    pipe.write(given)
                    given.clear()
            pipe.write(given)
            for block in records.rest():
                pipe.write(block)
    except (BrokenPipeError, Fault):
        pass  # who reads what replay prints meets the same end


class Replay:
    """A run of the test program over a journal."""

    def __init__(self, command, journal):
        try:
            self.process = subprocess.Popen(command, stdin=subprocess.PIPE, stdout=subprocess.PIPE)
        except OSError as error:
            raise Fault("%s: %s" % (command[0], error.strerror)) from error
        self.command, self.records = command, Records(journal)
        self.feeder = threading.Thread(target=feed, args=(journal, self.process.stdin))
        self.feeder.start()

    def __enter__(self):
        return self

    def __exit__(self, *_):
        self.process.kill()
        self.feeder.join()
        self.process.stdout.close()
        self.process.wait()

    def pieces(self):
        """The pieces of the journal, each with its lines."""
        texts = printed_texts(self.process.stdout)
        text, record = next(texts), 0
        for piece in pieces_of(self.records):
            behind = next(texts, None)
            if behind is None:
                self.expect_status()
                raise Fault("replay printed no marks behind record %d: its lines can't be told apart" % piece.record)
            if text:
                piece.lines = lines_of(text)
                if len(piece.lines) > 1 and any(line.startswith("R ") for line in piece.lines):
                    raise Fault("replay printed more beside a refusal, at record %d: %r" % (piece.record, piece.lines))
            yield piece
            text, record = behind, piece.record
        if lines_of(text) or next(texts, None) is not None:
            raise Fault("replay went on where the run ends, behind record %d" % record)
        self.expect_status()

    def expect_status(self):
        if self.process.wait() != 0:
            raise Fault("%s ended with status %d" % (" ".join(self.command), self.process.returncode))


def tried(pieces):
    """A refused run together with those behind it in the same record: replay does not try them."""
    kept = None
    for piece in pieces:
        if kept and kept.record == piece.record and kept.refused():
            if piece.lines != kept.lines:
                raise Fault("record %d: a run was refused, and one behind it answered %r" % (piece.record, piece.lines))
            kept.payload += piece.payload
            continue
        if kept:
            yield kept
        kept = piece
    if kept:
        yield kept
