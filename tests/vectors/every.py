"""Vectors by rule: every value of a byte or a number, where a file of lines would be too long.

Each case is house records and the lines that documents 01 and 02 ask for, reckoned here from
their rules for one session that talks alone, and from 01's arithmetic of ticks for several."""

import itertools

import openprotocol
import places
from house_records import (ALARM, BYTES, GREATEST_NUMBER, HANG_UP, LIMIT, NUMBERS, OPEN, PAYLOADS, SCANNED, SETTINGS, TEXT, TICK,
                           TIGHTENING, fields_of, filled, record)
from openprotocol import ACCEPTED, IDENTIFIER, OLD_RESULT, REFUSED, RESULT, STARTED, write

GOOD_SETTINGS = {"cell": 12, "channel": 3, "granted": 1, "name": filled("LINE4"), "last": 41}
LAST = GOOD_SETTINGS["last"]
DIGITS = b"0123456789"
SPACES = filled("")

# Of each message: least and greatest length, greatest revision (none: not read).
RULES = {1: (20, 20, 1), 3: (20, 20, None), 50: (21, 45, 1), 51: (20, 20, 2), 53: (20, 20, None), 54: (20, 20, None),
         60: (20, 20, 6), 62: (20, 20, None), 63: (20, 20, None), 64: (30, 30, 1),
         70: (20, 20, 1), 72: (20, 20, None), 73: (20, 20, None), 9999: (20, 20, None)}
RESULT_REVISIONS = range(1, 7)  # of 0061
KEPT = 64  # tightenings
LIMITS = [name for name, item in PAYLOADS[TIGHTENING].items.items() if item.sort == LIMIT]
SUBSCRIBED, NOT_SUBSCRIBED = {51: 6, 60: 9, 70: 11}, {54: 7, 63: 10, 73: 12}
SUBSCRIPTION = {51: 51, 54: 51, 60: 60, 63: 60, 70: 70, 73: 70}
ACKNOWLEDGES = (53, 62, 72)


def message(*header, **named):
    """A message without its NUL."""
    return openprotocol.message(*header, **named)[:-1]


def is_text(text):
    return min(text, default=0x20) >= 0x20 and max(text, default=0x20) <= 0x7E


def is_time(text):
    marks = dict(zip((4, 7, 10, 13, 16), b"--:::"))
    return all(byte == marks[place] if place in marks else byte in DIGITS for place, byte in enumerate(text))


def is_good(record_kind, fields):
    """Whether a record of that kind may have these fields."""
    def good(item, value):
        if item.sort == LIMIT and value is None:
            return True
        return value <= item.greatest if item.sort in NUMBERS else is_text(value) if item.sort == TEXT else is_time(value)

    return all(good(item, fields[name]) for name, item in PAYLOADS[record_kind].items.items())


def read_header(run):
    """The message number, the revision and whether no acknowledge is asked; None for a run that is no message."""
    digits, revision, twelve = run[:8], run[8:11], run[11:12]
    if not 20 <= len(run) <= 9999 or not digits.isdigit() or int(digits[:4]) != len(run):
        return None
    if (revision != b"   " and not revision.isdigit()) or twelve not in (b"0", b"1", b" "):
        return None
    return int(digits[4:]), (0 if revision == b"   " else int(revision)) or 1, twelve == b"1"


def notice(mid, subscription, fields):
    revision, free = subscription
    return write(mid, fields, revision, b"1" if free else b"0")


def identifier_frame(subscription, identifier):
    return notice(IDENTIFIER, subscription, {"identifier": identifier})


def result_frame(subscription, fields, identifier, number):
    return notice(RESULT, subscription, {**GOOD_SETTINGS, **fields, "identifier": identifier, "number": number})


def alarm_frame(subscription, fields):
    return notice(openprotocol.ALARM, subscription, fields)


def old_result_frame(fields, identifier, number):
    return write(OLD_RESULT, {**fields, "identifier": identifier, "number": number})


def tightening_fields(**named):
    fields = PAYLOADS[TIGHTENING].usual(**named)
    return {**fields, "identifier": filled(fields["identifier"])}


class Case:
    """Records and the lines expected of them."""

    def __init__(self, granted=1, last=LAST):
        self.records, self.lines, self.last, self.in_force, self.granted = [], [], last, SPACES, granted
        self.give(SETTINGS, {**GOOD_SETTINGS, "granted": granted, "last": last})

    def put(self, record_kind, payload=b""):
        self.records.append(record(record_kind, payload))

    def give(self, record_kind, fields):
        """A record with these fields."""
        self.put(record_kind, PAYLOADS[record_kind].pack(fields))

    def expect(self, frame, s=0):
        self.lines.append("%d S %s" % (s, frame.decode("latin-1").replace(" ", "_")))

    def refused(self, number):
        self.lines.append("R %d" % number)

    def named(self, name):
        return "every.py: " + name, b"".join(self.records), "".join(line + "\n" for line in self.lines)


class Steps(Case):
    """Session 0, started, which talks alone; whoever writes the case says what it hears of results."""

    def __init__(self, **named):
        super().__init__()
        self.begin(**named)

    def begin(self, **named):
        """A start with these settings."""
        self.settings = {**GOOD_SETTINGS, **named}
        self.number = self.settings["last"]
        self.give(SETTINGS, self.settings)
        self.put(OPEN)
        self.say(1)
        self.expect(write(STARTED, self.settings))

    def say(self, mid, *header, **named):
        self.put(BYTES, message(mid, *header, **named) + b"\0")

    def accepted(self, mid, *header):
        self.say(mid, *header)
        self.expect(write(ACCEPTED, {"mid": mid}))

    def tighten(self, fields):
        """What 0061 tells of it."""
        self.number += 1
        self.give(TIGHTENING, fields)
        return {**self.settings, **fields, "number": self.number}


class Alone(Case):
    """Session 0, which talks alone, and what it hears, as the rules have it."""

    def __init__(self, granted=1, last=LAST):
        super().__init__(granted, last)
        self.started, self.subscribed, self.waiting = False, {}, b""
        self.kept = {}  # the frames of the last tightenings, by their numbers
        self.put(OPEN)

    # ---- sent

    def send(self, *runs):
        """Runs to the session, as few records as hold them."""
        for run in runs:
            if len(self.waiting) + len(run) + 1 > 8192:
                self.flush()
            self.waiting += run + b"\0"
            for part in run.split(b"\0"):
                self.hear(part)

    def flush(self):
        self.put(BYTES, self.waiting)
        self.waiting = b""

    def begin(self, *subscriptions):
        self.send(message(1), *subscriptions)

    def scan(self, text):
        self.flush()
        self.put(SCANNED, text)
        if len(text) == 25 and is_text(text):
            self.identified(text)
        else:
            self.refused(7)

    def tighten(self, fields):
        self.flush()
        self.give(TIGHTENING, fields)
        if not is_good(TIGHTENING, fields):
            self.refused(7)
            return
        if self.last == GREATEST_NUMBER:
            self.refused(8)
            return
        self.last += 1
        identifier = self.in_force if fields["identifier"] == SPACES else fields["identifier"]
        self.kept[self.last] = old_result_frame(fields, identifier, self.last)
        self.kept.pop(self.last - KEPT, None)
        if 60 in self.subscribed:
            self.expect(result_frame(self.subscribed[60], fields, identifier, self.last))

    def alarm(self, payload):
        """A record of kind 5."""
        self.flush()
        self.put(ALARM, payload)
        fields = fields_of(ALARM, payload)
        if not fields or not is_good(ALARM, fields):
            self.refused(7)
        elif 70 in self.subscribed:
            self.expect(alarm_frame(self.subscribed[70], fields))

    # ---- heard

    def accept(self, mid):
        self.expect(write(ACCEPTED, {"mid": mid}))

    def turn_down(self, mid, error):
        self.expect(write(REFUSED, {"mid": mid, "error": error}))

    def form_error(self, run, mid, revision):
        least, greatest, revisions = RULES[mid]
        return 1 if not least <= len(run) <= greatest else 97 if revisions and revision > revisions else 0

    def hear(self, run):
        header = read_header(run)
        if header is None:
            return
        mid, revision, free = header
        if not self.started:
            if mid == 1:
                self.hear_start(self.form_error(run, mid, revision))
        elif mid not in RULES:
            self.turn_down(mid, 99)
        elif mid == 1:
            self.turn_down(mid, 96)
        elif mid not in ACKNOWLEDGES:
            error = self.form_error(run, mid, revision)
            if error:
                self.turn_down(mid, error)
            else:
                self.hear_good(run, mid, (revision, free))

    def hear_start(self, error):
        if error:
            self.turn_down(1, error)
            return
        self.started = True
        self.expect(write(STARTED, GOOD_SETTINGS))

    def hear_good(self, run, mid, subscription):
        if mid == 3:
            self.started, self.subscribed = False, {}
            self.accept(mid)
        elif mid == 9999:
            self.expect(run)
        elif mid == 50:
            self.hear_download(run[20:])
        elif mid == 64:
            self.hear_fetch(run[20:])
        elif (SUBSCRIPTION[mid] in self.subscribed) == (mid in SUBSCRIBED):
            self.turn_down(mid, (SUBSCRIBED if mid in SUBSCRIBED else NOT_SUBSCRIBED)[mid])
        else:
            self.subscribed.pop(SUBSCRIPTION[mid], None)
            if mid in SUBSCRIBED:
                self.subscribed[mid] = subscription
            self.accept(mid)

    def hear_download(self, data):
        if not is_text(data):
            self.turn_down(50, 1)
        elif not self.granted:
            self.turn_down(50, 8)
        else:
            self.accept(50)
            self.identified(filled(data))

    def hear_fetch(self, data):
        if not data.isdigit():
            self.turn_down(64, 1)
        elif (number := int(data) or self.last) in self.kept:
            self.expect(self.kept[number])
        else:
            self.turn_down(64, 15)

    def identified(self, identifier):
        self.in_force = identifier
        if 51 in self.subscribed:
            self.expect(identifier_frame(self.subscribed[51], identifier))

    def named(self, name):
        self.flush()
        return super().named(name)


# ---- cases of one session

def subscribe_results(revision, byte_12=b"1"):
    return message(60, b"%03d" % revision, byte_12)


FREE = (message(51, byte_12=b"1"), subscribe_results(1), message(70, byte_12=b"1"))
GOOD_ALARM = PAYLOADS[ALARM].pack(PAYLOADS[ALARM].usual())
NEWEST = b"0000000000"  # asked for by its number


def altered(text, values=range(256)):
    """The text with every value at every place."""
    for place in range(len(text)):
        for value in values:
            yield text[:place] + bytes([value]) + text[place + 1:]


def message_numbers():
    """All 10,000, before the start and after it, of 20 bytes and of 21."""
    case = Alone()
    case.send(*(message(mid) for mid in range(10000) if mid != 1))
    for data in (b"", b"x"):
        for mid in range(10000):
            if not case.started:
                case.begin()
            case.send(message(mid, data=data))
    return case.named("all message numbers")


def header_bytes():
    """Every byte value at every place of a header, twelve and the digits among them."""
    case = Alone()
    case.begin()
    for mid, undo in ((9999, None), (60, 63), (51, 54), (70, 73), (1234, None)):
        for run in altered(message(mid)):
            case.send(run)
            if undo and SUBSCRIPTION[undo] in case.subscribed:
                case.send(message(undo))
    case.tighten(tightening_fields())
    case.send(*(header + NEWEST for header in altered(message(64, data=NEWEST)[:20])))
    return case.named("every byte value in a header")


def revisions():
    """0 to 999 of each message that has a greatest one, and of those that unsubscribe, with each byte 12; a notice shows what was
    subscribed to."""
    case = Alone()
    for revision in [b"%03d" % number for number in range(1000)] + [b"   "]:
        for twelve in (b" ", b"0", b"1"):
            case.send(message(1, revision, twelve))
            if not case.started:
                case.begin()
            case.send(*(message(mid, revision, twelve) for mid in (*NOT_SUBSCRIBED, *SUBSCRIBED)))
            case.send(message(50, revision, twelve, data=b"D" + revision))
            if revision == b"002":  # a 0050 of that revision makes nothing known
                case.scan(filled("SCANNED"))
            case.tighten(tightening_fields())
            case.alarm(GOOD_ALARM)
            case.send(message(64, revision, twelve, data=NEWEST), message(3, revision, twelve))
    return case.named("every revision")


def downloads(granted=1):
    """Every byte value at every place of 0050's data, and every length."""
    case = Alone(granted)
    case.begin(*FREE)
    for size in range(0, 90):
        case.send(message(50, data=(b"0123456789abcdefghijklmnopqrstuvwxyz" * 3)[:size]))
    for data in altered(b"ABCDEFGHIJKLMNOPQRSTUVWXY"):
        case.send(message(50, data=data))
    case.tighten(tightening_fields())
    return case.named("every byte value in 0050's data, %sgranted" % ("" if granted else "not "))


def downloads_not_granted():
    return downloads(0)


def fetches():
    """Every byte value at every place of 0064's number, and every length, with one kept, and of a session that subscribed to nothing."""
    case = Alone()
    case.begin(message(64, data=NEWEST))
    case.tighten(tightening_fields(identifier=b"THE ONE THAT IS KEPT", torque=739, batch_counter=12, batch_size=34))
    number = b"%010d" % case.last
    for size in range(0, 90):
        case.send(message(64, data=(number + NEWEST * 8)[:size]))
    for data in (number, NEWEST):
        case.send(*(message(64, data=one) for one in altered(data)))
    return case.named("every byte value in 0064's data")


def about_the_kept(last):
    """Numbers at the edges of what may be kept when this is the last one: the newest, the oldest, and those that wrap to them."""
    near = {last + 1, last, last - 1, *range(last - KEPT - 1, last - KEPT + 3), 0, 1, LAST, LAST + 1}
    wrapped = {number + times * (GREATEST_NUMBER + 1) for number in (0, last, last - KEPT + 1) for times in (1, 2)}
    return sorted(number for number in near | wrapped | {GREATEST_NUMBER, 10 ** 10 - 1} if 0 <= number < 10 ** 10)


def numbers_asked(last=LAST, times=140):
    """What is kept after each of so many tightenings, the identifier in force being another after every second."""
    case = Alone(last=last)
    case.begin()
    for time in range(times):
        case.send(*(message(64, data=b"%010d" % number) for number in about_the_kept(case.last)))
        if time % 2:
            case.scan(filled("SCANNED %d" % time))
        case.tighten(tightening_fields(identifier=b"" if time % 3 else b"TOOL %d" % time, torque=time, angle=99999 - time))
    case.send(*(message(64, data=b"%010d" % number) for number in range(case.last - KEPT, min(case.last + 2, 10 ** 10))))
    return case.named("numbers about those that are kept, from %d on" % last)


def numbers_asked_from_0():
    return numbers_asked(0, 70)


def numbers_asked_at_the_end():
    """The last number comes to its end; what is refused then is not kept."""
    return numbers_asked(GREATEST_NUMBER - 70, 75)


def kept_values():
    """Every field of 0065 at its limits."""
    case = Alone()
    case.begin()
    for name, item in PAYLOADS[TIGHTENING].items.items():
        for number in near(item) if item.sort in NUMBERS else ():
            case.tighten(tightening_fields(**{name: number}))
            case.send(message(64, data=NEWEST))
    return case.named("numbers of the tool at their limits, fetched")


def tool_texts():
    """Every byte value at every place of the tool's texts and times."""
    case = Alone()
    case.begin(*FREE)
    for text in altered(b"IDENTIFIER OF THE TOOL 25"):
        case.scan(text)
        case.tighten(tightening_fields(identifier=text))
    for name in ("time", "change_time"):
        for text in altered(b"2024-01-02:03:04:05"):
            case.tighten(tightening_fields(**{name: text}))
    case.tighten(tightening_fields())
    return case.named("every byte value in the tool's texts")


def alarm_bytes():
    """Every byte value at every place of an alarm, whose record is as long as that of an identifier; and the same bytes as one of that
    kind."""
    case = Alone()
    case.begin(*FREE)
    for good in (GOOD_ALARM, filled("IDENTIFIER OF THE TOOL 25")):
        for payload in altered(good):
            case.alarm(payload)
            case.scan(payload)
    return case.named("every byte value in an alarm")


def near(item):
    """Numbers about the greatest, those that look good when bytes of them are left out, and those about the last, which a limit is none
    by."""
    greatest, bits = item.greatest, 8 * item.size
    small = {0, 1, 9, 10, greatest - 1, greatest, greatest + 1, greatest * 2}
    far = {value for shift in range(bits) for value in (greatest + (1 << shift), 1 << shift, (1 << bits) - (1 << shift), (1 << shift) - 1)}
    return [item.unpacked(number) for number in sorted(small | far) if 0 <= number < 1 << bits]


def tool_numbers():
    """In every revision of 0061."""
    case = Alone()
    case.begin(FREE[0])
    case.scan(filled("IN FORCE"))
    for revision in RESULT_REVISIONS:
        case.send(subscribe_results(revision))
        for name, item in PAYLOADS[TIGHTENING].items.items():
            for number in near(item) if item.sort in NUMBERS else ():
                case.tighten(tightening_fields(**{name: number}))
        case.send(message(63))
    return case.named("numbers of the tool at their limits")


def telling_fields():
    """Tightenings of which no two fields are alike, or of which all numbers are at one of their ends."""
    numbers = [name for name, item in PAYLOADS[TIGHTENING].items.items() if item.sort in NUMBERS]
    limits = {name: PAYLOADS[TIGHTENING].items[name].greatest for name in numbers}
    different = dict(
        identifier=b"ABCDEFGHIJKLMNOPQRSTUVWXY", job=42, parameter_set=987, batch_size=1234, batch_counter=5678,
        tightening_status=0, torque_status=1, angle_status=2, torque_min=123456, torque_max=234567, torque_target=345678, torque=456789,
        angle_min=54321, angle_max=65432, angle_target=76543, angle=87654, batch_status=2)
    times = dict(time=b"2026-11-17:09:10:11", change_time=b"1999-12-31:23:58:59")
    others = dict(tightening_status=1, torque_status=2, angle_status=0, batch_status=1)
    return [{**times, **different}, {**times, **different, **others}, {**times, **limits, "identifier": b"~" * 25},
            {**times, **dict.fromkeys(numbers, 0), "identifier": b"0"}]


def places_of_results():
    """0061 in each revision, with each field where the documents print its place; at the end the number is the greatest that there is."""
    tightenings = telling_fields()
    times = 2 * len(RESULT_REVISIONS) * len(tightenings)
    case = Steps(cell=9876, channel=54, name=b"NAME OF THE CONTROLLER 25", last=GREATEST_NUMBER - times)
    for byte_12 in (b"0", b"1"):
        for revision in RESULT_REVISIONS:
            case.accepted(60, b"%03d" % revision, byte_12)
            for fields in tightenings:
                case.expect(places.result(revision, byte_12, case.tighten(fields)))
                case.say(62)
            case.accepted(63)
    return case.named("0061 at the documents' places")


def limits_never_set():
    """Each choice of the six limits as none, in each revision, where the documents print their places; the others have all digits
    different, or are at their greatest. The last number of a revision is the greatest that there is, which is told in digits. 0065 has
    no limit."""
    choices = [chosen for count in range(len(LIMITS) + 1) for chosen in itertools.combinations(LIMITS, count)]
    tightenings = telling_fields()[1:3]
    case = Steps()
    for revision in RESULT_REVISIONS:
        case.begin(last=GREATEST_NUMBER - len(choices) * len(tightenings))
        case.accepted(60, b"%03d" % revision, b"1")
        for chosen in choices:
            for fields in tightenings:
                told = case.tighten({**fields, **dict.fromkeys(chosen, None)})
                case.expect(places.result(revision, b"1", told))
                case.say(64, data=NEWEST)
                case.expect(write(OLD_RESULT, told))
    return case.named("limits that were never set")


def places_of_alarms():
    """0071 with each field where the documents print its place."""
    case = Steps()
    for byte_12 in (b"0", b"1"):
        case.accepted(70, b"001", byte_12)
        for ready in ((0, 0), (0, 1), (1, 0), (1, 1)):
            for code in (b"E404", b"4301", b"    ", b"~ _!"):
                fields = {**dict(zip(("controller_ready", "tool_ready"), ready)), "code": code, "time": b"1999-12-31:23:58:59"}
                case.give(ALARM, fields)
                case.expect(places.alarm(byte_12, fields))
                case.say(72)
        case.accepted(73)
    return case.named("0071 at the documents' places")


def some_never_set(number, **named):
    """The fields of a tightening, of which some limits are none, by its number: from one to all six."""
    return tightening_fields(**named, **dict.fromkeys(LIMITS[number % len(LIMITS):], None))


def subscribed_anew():
    """From each revision to each: a result is open and one waits, the subscription is ended, and taken up again in the other."""
    case = Steps()

    def result(revision):
        """The frame of the next tightening."""
        fields = some_never_set(case.number, identifier=b"T%d" % case.number, torque=case.number)
        return notice(RESULT, (revision, False), case.tighten(fields))

    for before in RESULT_REVISIONS:
        for after in RESULT_REVISIONS:
            case.accepted(60, b"%03d" % before, b"0")
            case.expect(result(before))
            result(before)  # waits, and is gone
            case.accepted(63)
            case.say(62)
            result(after)  # nobody's
            case.accepted(60, b"%03d" % after, b"0")
            opened, waiting = result(after), result(after)
            case.expect(opened)
            for tick in range(20):
                keep_alive(case, (0,) if tick % 14 == 0 else ())
                case.put(TICK)
            case.expect(opened)
            case.say(62)
            case.expect(waiting)
            case.accepted(63)
    return case.named("subscribed anew in another revision")


def settings():
    """Every byte value at every place of the name, and numbers at their limits. A start done shows in 0002."""
    case = Case()
    good = {"cell": 1, "channel": 2, "granted": 1, "name": b"NAME OF THE CONTROLLER 25", "last": 0}
    tried = [dict(good, name=text) for text in altered(good["name"])]
    for name, item in PAYLOADS[SETTINGS].items.items():
        if item.sort in NUMBERS:
            tried += [dict(good, **{name: number}) for number in (range(256) if item.size == 1 else near(item))]
    for one in tried:
        case.give(SETTINGS, one)
        if not is_good(SETTINGS, one):
            case.refused(9)
            continue
        case.put(OPEN)
        case.put(BYTES, message(1) + b"\0")
        case.expect(write(STARTED, one))
    return case.named("every byte value in the settings")


def good_payloads():
    return [(record_kind, items.pack(items.usual())) for record_kind, items in PAYLOADS.items()]


def record_lengths():
    """Good payloads of all kinds with every length about them; only the whole record is taken."""
    case = Alone()
    case.begin(*FREE)
    case.flush()
    for record_kind, good in good_payloads():
        for size in [*range(700), *(len(good) + 256 * times for times in range(3, 32))]:
            if size != len(good):
                case.put(record_kind, (good + b" " * size)[:size])
                case.refused(9 if record_kind == SETTINGS else 7)
    case.scan(filled("S"))
    case.tighten(tightening_fields(identifier=b"T"))
    case.alarm(GOOD_ALARM)
    return case.named("every length of a record")


def record_kinds():
    """Kinds that no call takes, with payloads of those that are taken and with none."""
    case = Case()
    for record_kind, payload in [*good_payloads(), (0, b"")]:
        for other in [*range(16), *range(65, 1100), *(record_kind + 256 * times for times in range(5, 256)), 65535]:
            if other not in PAYLOADS:
                case.put(other, payload)
                case.refused(7)
    return case.named("kinds that no call takes")


# ---- cases of four sessions

def four_subscribed(case, revisions):
    """All four started and subscribed, to identifiers in revision 2, to results in these, and to alarms."""
    for s, revision in enumerate(revisions):
        runs = (message(1), message(51, b"002", b"0"), subscribe_results(revision, b"0"), message(70, b"001", b"0"))
        case.put(OPEN + s)
        case.put(BYTES + s, b"".join(run + b"\0" for run in runs))
        case.expect(write(STARTED, GOOD_SETTINGS), s)
        for mid in SUBSCRIBED:
            case.expect(write(ACCEPTED, {"mid": mid}), s)


def keep_alive(case, sessions=range(4)):
    """A message that is answered in no way: an acknowledge of the wrong length."""
    for s in sessions:
        case.put(BYTES + s, message(62, data=b"x") + b"\0")


def fullest_output():
    """A 0050 that all four hear, a tightening and an alarm to all four, and ticks with three copies to each."""
    case = Case()
    four_subscribed(case, 4 * [6])
    case.put(BYTES + 3, message(50, data=b"I" * 25) + b"\0")
    case.expect(write(ACCEPTED, {"mid": 50}), 3)
    for s in range(4):
        case.expect(identifier_frame((2, False), b"I" * 25), s)
    fields = tightening_fields(identifier=b"T" * 25)
    case.give(TIGHTENING, fields)
    for s in range(4):
        case.expect(result_frame((6, False), fields, fields["identifier"], LAST + 1), s)
    alarm = PAYLOADS[ALARM].usual()
    case.give(ALARM, alarm)
    for s in range(4):
        case.expect(alarm_frame((1, False), alarm), s)
    for tick in range(1, 122):
        if tick % 14 == 0:
            keep_alive(case)
        case.put(TICK)
        for s in range(4 if tick in (20, 40, 60, 80, 100) else 0):
            case.expect(identifier_frame((2, False), b"I" * 25), s)
            case.expect(result_frame((6, False), fields, fields["identifier"], LAST + 1), s)
            case.expect(alarm_frame((1, False), alarm), s)
    return case.named("the fullest output of every call")


def nothing_acknowledged():
    """Eight tightenings, two identifiers and four alarms held by each session, and 960 ticks: all are given up in a row, each in its
    revision."""
    case, revisions = Case(), (4, 1, 6, 2)
    four_subscribed(case, revisions)
    results = [[] for _ in revisions]
    for number in range(LAST + 1, LAST + 10):
        fields = some_never_set(number, identifier=b"T%d" % number, torque=number)
        case.give(TIGHTENING, fields)
        for s, revision in enumerate(revisions):
            results[s].append(result_frame((revision, False), fields, fields["identifier"], number))
            if number == LAST + 1:
                case.expect(results[s][0], s)
    identifiers = [identifier_frame((2, False), filled(text)) for text in (b"OPEN", b"REPLACED", b"WAITING")]
    for number, text in enumerate((b"OPEN", b"REPLACED", b"WAITING")):
        case.put(SCANNED, filled(text))
        for s in range(4 if number == 0 else 0):
            case.expect(identifiers[0], s)
    waiting = [identifiers[0], identifiers[2]]
    alarms = [PAYLOADS[ALARM].usual(code=b"E%03d" % number) for number in range(5)]
    for number, fields in enumerate(alarms):
        case.give(ALARM, fields)
        for s in range(4 if number == 0 else 0):
            case.expect(alarm_frame((1, False), fields), s)
    told = [alarm_frame((1, False), fields) for fields in alarms[:4]]
    for tick in range(1, 1000):
        if tick % 14 == 0:
            keep_alive(case)
        case.put(TICK)
        for s in range(4):
            for queue in (waiting, results[s][:8], told):
                if tick % 20 == 0 and tick // 120 < len(queue):
                    case.expect(queue[tick // 120], s)
    return case.named("960 ticks with nothing acknowledged")


class Waiting(Case):
    """Sessions that acknowledge results, and those that wait for each, the open one first, by 01's rules of notices and ticks."""

    def __init__(self):
        super().__init__()
        self.results, self.clock, self.silent = {}, {}, {}  # by session: what waits, the clock of the open one, ticks without a message

    def say(self, s, mid, *header):
        self.put(BYTES + s, message(mid, *header) + b"\0")
        self.silent[s] = 0

    def accepted(self, s, mid, *header):
        self.say(s, mid, *header)
        self.expect(write(ACCEPTED, {"mid": mid}), s)

    def enter(self, s):
        self.put(OPEN + s)
        self.begin(s)

    def begin(self, s):
        self.say(s, 1)
        self.expect(write(STARTED, GOOD_SETTINGS), s)

    def fill(self, s):
        """Subscribes and is told of as many as it holds, which all wait for it alone where the others are full."""
        self.accepted(s, 60, b"%03d" % (s + 1))
        self.results[s] = []
        self.tighten(8)

    def tighten(self, count):
        for _ in range(count):
            self.last += 1
            fields = some_never_set(self.last, identifier=b"N%d" % self.last, torque=self.last)
            self.give(TIGHTENING, fields)
            for s, results in sorted(self.results.items()):
                if len(results) < 8:
                    results.append(result_frame((s + 1, False), fields, fields["identifier"], self.last))
                    self.send_open(s, len(results) == 1)

    def send_open(self, s, is_new=True):
        if is_new and self.results[s]:
            self.clock[s] = 0
            self.expect(self.results[s][0], s)

    def acknowledge(self, s):
        self.say(s, 62)
        self.results[s].pop(0)
        self.send_open(s)

    def tick(self):
        self.put(TICK)
        for s in sorted(self.silent):
            self.silent[s] += 1
            if self.silent[s] == 15:
                self.lines.append("%d C" % s)
                del self.results[s], self.silent[s]
            elif self.results[s]:
                self.tick_open(s)

    def tick_open(self, s):
        self.clock[s] += 1
        if self.clock[s] == 120:
            self.results[s].pop(0)
            self.send_open(s)
        elif self.clock[s] % 20 == 0:
            self.expect(self.results[s][0], s)

    def keep(self, sessions):
        for s in sessions:
            self.say(s, 9999)
            self.expect(message(9999), s)

    # ---- the ways in which what waits for a session is gone; it is there again afterwards, and not subscribed

    def unsubscribe(self, s):
        self.accepted(s, 63)

    def stop(self, s):
        self.accepted(s, 3)
        self.begin(s)

    def hang_up(self, s):
        self.put(HANG_UP + s)
        self.enter(s)

    def time_out(self, s):
        for tick in range(15 - self.silent[s]):
            if tick % 8 == 0:
                self.keep({*range(4)} - {s})
            self.tick()
        self.enter(s)


def results_wait_and_are_gone():
    """32 results wait, eight for each session; those of each session in turn are gone in each way, and eight others come to wait for it
    in their place. At last each session is sent what waits for it; or a start ends it all, and it begins anew."""
    case, order = Waiting(), (3, 2, 0, 1)
    for acknowledged in (4, 8):
        for s in order:
            case.enter(s)
        for s in order:
            case.fill(s)
        for way, s in itertools.product((case.unsubscribe, case.time_out, case.stop, case.hang_up), range(4)):
            way(s)
            case.fill(s)
            for _ in range(s):
                case.acknowledge(s)
            case.tighten(s)
        for tick in range(125):  # what is open is given up by all; then one comes for all
            if tick % 14 == 0:
                case.keep(order)
            case.tick()
        case.tighten(1)
        for _, s in itertools.product(range(acknowledged), order):
            case.acknowledge(s)
        if acknowledged < 8:
            case.tighten(9)
            case.give(SETTINGS, GOOD_SETTINGS)
            case.last, case.results, case.silent = LAST, {}, {}
    return case.named("32 results wait, and are gone in each way")


BY_RULE = [message_numbers, header_bytes, revisions, downloads, downloads_not_granted, fetches, numbers_asked, numbers_asked_from_0,
           numbers_asked_at_the_end, kept_values, tool_texts, alarm_bytes, tool_numbers, places_of_results, limits_never_set,
           places_of_alarms, settings, record_lengths, record_kinds, subscribed_anew, fullest_output, nothing_acknowledged,
           results_wait_and_are_gone]


def cases():
    return [made() for made in BY_RULE]
