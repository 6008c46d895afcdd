"""Open Protocol, as far as the controller speaks it: messages are built, a stream is cut at its NULs, and the controller's frames are
read into named fields, or written of them, by layouts.

    message(60)                        0060, revision 1, as bytes with their NUL
    fetch(1002)                        0064 for the result of that number
    Stream().take(received)            the runs that are whole by now
    read(run)                          a Frame: mid, revision, byte_12, fields
    write(5, {"mid": 60})              a run that the controller sends"""

from dataclasses import dataclass

from house_records import CODE_SIZE, LIMIT, NUMBER, NUMBERS, TEXT, TEXT_SIZE, TIME_SIZE, filled

HEADER = 20

START, STARTED, STOP = 1, 2, 3
REFUSED, ACCEPTED = 4, 5
DOWNLOAD_IDENTIFIER = 50
SUBSCRIBE_IDENTIFIERS, IDENTIFIER, ACKNOWLEDGE_IDENTIFIER, UNSUBSCRIBE_IDENTIFIERS = 51, 52, 53, 54
SUBSCRIBE_RESULTS, RESULT, ACKNOWLEDGE_RESULT, UNSUBSCRIBE_RESULTS = 60, 61, 62, 63
FETCH_RESULT, OLD_RESULT = 64, 65  # an old one, by its number
SUBSCRIBE_ALARMS, ALARM, ACKNOWLEDGE_ALARM, UNSUBSCRIBE_ALARMS = 70, 71, 72, 73
KEEP_ALIVE = 9999

NEWEST = 0  # asked for as a number: the newest result that is kept
NOT_KEPT = 15  # the error where there is none of that number
NO_SUCH_REVISION = 97  # the error of a message whose revision the controller does not know
NUMBER_DIGITS = 10  # of a result's number

# What the error of a 0004 means.
ERRORS = {
    1: "invalid data",
    6: "already subscribed to identifiers",
    7: "not subscribed to identifiers",
    8: "an identifier over the net is not granted",
    9: "already subscribed to results",
    10: "not subscribed to results",
    11: "already subscribed to alarms",
    12: "not subscribed to alarms",
    NOT_KEPT: "no such result is kept",
    96: "already started",
    NO_SUCH_REVISION: "revision not supported",
    99: "unknown message",
}

# What the torque unit of a 0061 means, from revision 3 on (000, Table 23; 8 is 004's).
UNITS = {"1": "Nm", "2": "lbf.ft", "3": "lbf.in", "4": "kp.m", "5": "kgf.cm", "6": "ozf.in", "7": "%", "8": "Ncm"}


def message(mid, revision=b"001", byte_12=b" ", rest=b"        ", data=b""):
    """A message with its NUL; `rest` are bytes 13 to 20, which the controller does not read."""
    return b"%04d%04d" % (HEADER + len(data), mid) + revision + byte_12 + rest + data + b"\0"


def fetch(number=NEWEST):
    """The 0064 that asks for the result of that number."""
    return message(FETCH_RESULT, data=b"%0*d" % (NUMBER_DIGITS, number))


class Stream:
    """Received bytes, cut at NUL however they came."""

    def __init__(self):
        self.begun = b""

    def take(self, received):
        """The runs that end in what was received, without their NULs."""
        *runs, self.begun = (self.begun + received).split(b"\0")
        return runs


# ---- layouts: rows, and whether a field's number stands before each

SPACES, ZEROS, ONES = b" ", b"0", b"1"  # rows that have no value: one character fills them; the others are numbers, limits and texts
LIMITS = ("min", "max", "target")  # of a torque or an angle; one that was never set is None, and spaces in a frame


@dataclass(frozen=True)
class Row:
    sort: object
    width: int
    name: str  # of the field whose value it shows: what a house record has is called the same there

    def write(self, fields):
        if self.sort == LIMIT and fields[self.name] is None:
            return SPACES * self.width
        if self.sort in NUMBERS:
            return b"%0*d" % (self.width, fields[self.name])
        return filled(fields[self.name], self.width) if self.sort == TEXT else self.sort * self.width

    def read(self, value):
        """ValueError says what is wrong with it."""
        if self.sort == LIMIT and value == SPACES * self.width:
            return None
        if self.sort in NUMBERS and not value.isdigit():
            raise ValueError("%s is %r" % (self.name, value))
        return int(value) if self.sort in NUMBERS else value.decode("ascii").rstrip(" ")


NUMBERED, PLAIN = True, False


class Layout:
    """Of a frame: `places` are where the fields stand in it, `befores` what stands before them."""

    def __init__(self, numbered, *rows):
        self.rows, self.places, self.length = rows, {}, HEADER
        self.befores = [b"%02d" % i if numbered else b"" for i in range(1, len(rows) + 1)]
        for row, before in zip(rows, self.befores):
            begin = self.length + len(before)
            self.length = begin + row.width
            self.places[row.name] = slice(begin, self.length)

    def write(self, fields):
        """The data field."""
        return b"".join(before + row.write(fields) for row, before in zip(self.rows, self.befores))

    def read(self, run):
        """The fields of a frame; ValueError says what is wrong with it."""
        if len(run) != self.length:
            raise ValueError("%d bytes of data, not %d" % (len(run) - HEADER, self.length - HEADER))
        for row, before in zip(self.rows, self.befores):
            if not run[:self.places[row.name].start].endswith(before):
                raise ValueError("no %s before %s" % (before.decode(), row.name))
        return {row.name: row.read(run[self.places[row.name]]) for row in self.rows}


CONTROLLER = [Row(NUMBER, 4, "cell"), Row(NUMBER, 2, "channel"), Row(TEXT, TEXT_SIZE, "name")]

BATCH = [Row(NUMBER, 4, "batch_size"), Row(NUMBER, 4, "batch_counter")]


def measured(what, width):
    """A torque or an angle, behind its limits."""
    return [*(Row(LIMIT, width, what + "_" + which) for which in LIMITS), Row(NUMBER, width, what)]


TORQUES, ANGLES = measured("torque", 6), measured("angle", 5)
TIMES = [Row(TEXT, TIME_SIZE, "time"), Row(TEXT, TIME_SIZE, "change_time")]

# 0061 from revision 2 on (000, Tables 22 to 26); what the controller's tool does not report is zeros, texts too, and the unit is Nm.
LATER_RESULT = [
    *CONTROLLER,
    Row(TEXT, TEXT_SIZE, "identifier"),
    Row(NUMBER, 4, "job"),
    Row(NUMBER, 3, "parameter_set"),
    Row(ZEROS, 2, "strategy"),
    Row(ZEROS, 5, "strategy_options"),
    *BATCH,
    Row(NUMBER, 1, "tightening_status"),
    Row(NUMBER, 1, "batch_status"),
    Row(NUMBER, 1, "torque_status"),
    Row(NUMBER, 1, "angle_status"),
    Row(ZEROS, 1, "rundown_angle_status"),
    Row(ZEROS, 1, "current_status"),
    Row(ZEROS, 1, "selftap_status"),
    Row(ZEROS, 1, "prevail_torque_status"),
    Row(ZEROS, 1, "prevail_compensate_status"),
    Row(ZEROS, 10, "error_status"),
    *TORQUES,
    *ANGLES,
    Row(ZEROS, 5, "rundown_angle_min"),
    Row(ZEROS, 5, "rundown_angle_max"),
    Row(ZEROS, 5, "rundown_angle"),
    Row(ZEROS, 3, "current_min"),
    Row(ZEROS, 3, "current_max"),
    Row(ZEROS, 3, "current"),
    Row(ZEROS, 6, "selftap_min"),
    Row(ZEROS, 6, "selftap_max"),
    Row(ZEROS, 6, "selftap_torque"),
    Row(ZEROS, 6, "prevail_torque_min"),
    Row(ZEROS, 6, "prevail_torque_max"),
    Row(ZEROS, 6, "prevail_torque"),
    Row(NUMBER, NUMBER_DIGITS, "number"),
    Row(ZEROS, 5, "job_sequence_number"),
    Row(ZEROS, 5, "sync_number"),
    Row(ZEROS, 14, "tool_serial_number"),
    *TIMES,
    Row(ZEROS, TEXT_SIZE, "parameter_set_name"),
    Row(ONES, 1, "torque_unit"),
    Row(ZEROS, 2, "result_type"),
    Row(ZEROS, TEXT_SIZE, "identifier_part_2"),
    Row(ZEROS, TEXT_SIZE, "identifier_part_3"),
    Row(ZEROS, TEXT_SIZE, "identifier_part_4"),
    Row(ZEROS, 4, "customer_error_code"),
    Row(ZEROS, 6, "prevail_compensate_value"),
    Row(ZEROS, 10, "error_status_2"),
]
LATER_COUNTS = {2: 46, 3: 49, 4: 52, 5: 53, 6: 55}  # so many of these rows has a revision

# By message number and revision.
LAYOUTS = {
    (STARTED, 1): Layout(NUMBERED, *CONTROLLER),
    (REFUSED, 1): Layout(PLAIN, Row(NUMBER, 4, "mid"), Row(NUMBER, 2, "error")),
    (ACCEPTED, 1): Layout(PLAIN, Row(NUMBER, 4, "mid")),
    (IDENTIFIER, 1): Layout(PLAIN, Row(TEXT, TEXT_SIZE, "identifier")),
    (IDENTIFIER, 2): Layout(
        NUMBERED,
        Row(TEXT, TEXT_SIZE, "identifier"),
        Row(SPACES, TEXT_SIZE, "part_2"),
        Row(SPACES, TEXT_SIZE, "part_3"),
        Row(SPACES, TEXT_SIZE, "part_4"),
    ),
    (RESULT, 1): Layout(
        NUMBERED,
        *CONTROLLER,
        Row(TEXT, TEXT_SIZE, "identifier"),
        Row(NUMBER, 2, "job"),
        Row(NUMBER, 3, "parameter_set"),
        *BATCH,
        Row(NUMBER, 1, "tightening_status"),
        Row(NUMBER, 1, "torque_status"),
        Row(NUMBER, 1, "angle_status"),
        *TORQUES,
        *ANGLES,
        *TIMES,
        Row(NUMBER, 1, "batch_status"),
        Row(NUMBER, NUMBER_DIGITS, "number"),
    ),
    **{(RESULT, revision): Layout(NUMBERED, *LATER_RESULT[:count]) for revision, count in LATER_COUNTS.items()},
    (OLD_RESULT, 1): Layout(
        NUMBERED,
        Row(NUMBER, NUMBER_DIGITS, "number"),
        Row(TEXT, TEXT_SIZE, "identifier"),
        Row(NUMBER, 3, "parameter_set"),
        Row(NUMBER, 4, "batch_counter"),
        Row(NUMBER, 1, "tightening_status"),
        Row(NUMBER, 1, "torque_status"),
        Row(NUMBER, 1, "angle_status"),
        Row(NUMBER, 6, "torque"),
        Row(NUMBER, 5, "angle"),
        Row(TEXT, TIME_SIZE, "time"),
        Row(NUMBER, 1, "batch_status"),
    ),
    (ALARM, 1): Layout(
        NUMBERED,
        Row(TEXT, CODE_SIZE, "code"),
        Row(NUMBER, 1, "controller_ready"),
        Row(NUMBER, 1, "tool_ready"),
        Row(TEXT, TIME_SIZE, "time"),
    ),
    (KEEP_ALIVE, 1): Layout(PLAIN),
}


RESULT_REVISIONS = [revision for mid, revision in LAYOUTS if mid == RESULT]


def longest(mid):
    """The bytes of the longest frame of that number."""
    return max(layout.length for (number, _), layout in LAYOUTS.items() if number == mid)


@dataclass
class Frame:
    mid: int
    revision: int
    byte_12: bytes
    fields: dict


def read(run):
    """The frame that a run is; ValueError says what is wrong with it."""
    try:
        length, mid, revision = int(run[0:4]), int(run[4:8]), int(run[8:11].replace(b"   ", b"001")) or 1
        if length != len(run) or length < HEADER:
            raise ValueError("its length is %d" % len(run))
        if (mid, revision) not in LAYOUTS:
            raise ValueError("no such message here")
        return Frame(mid, revision, run[11:12], LAYOUTS[mid, revision].read(run))
    except ValueError as wrong:
        raise ValueError("not a frame of the controller: %r: %s" % (run, wrong)) from None


def missing_limits(fields, what):
    """In words, which limits of a torque or an angle were never set: its window where all three are missing."""
    missing = [which for which in LIMITS if fields[what + "_" + which] is None]
    return ["no %s %s" % (what, which) for which in (["window"] if len(missing) == len(LIMITS) else missing)]


def write(mid, fields, revision=1, byte_12=b" "):
    """The run of a frame with these fields, of which its layout takes what it has."""
    return message(mid, b"%03d" % revision, byte_12, data=LAYOUTS[mid, revision].write(fields))[:-1]
