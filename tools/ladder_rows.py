"""The rows of tools/ladder: a journal's pieces as arrows between rails, and what becomes of each notice."""

import collections
from dataclasses import dataclass, field
from functools import partial

import history
import lent_table
import openprotocol
from house_records import ALARM, BYTES, HANG_UP, OPEN, SCANNED, SETTINGS, TICK, TIGHTENING, fields_of, filled
from ladder_journal import Fault, count

REFUSALS = {
    1: "table too short",
    2: "table not well formed: no start was done",
    3: "output too short",
    4: "no such session",
    5: "the session is closed",
    6: "the session is open already",
    7: "tool record bad",
    8: "no tightening number is left",
    9: "settings bad",
}
MESSAGES = {
    "0001": "communication start",
    "0003": "communication stop",
    "0050": "identifier download",
    "0051": "subscribe to identifiers",
    "0053": "acknowledge of an identifier",
    "0054": "unsubscribe from identifiers",
    "0060": "subscribe to tightenings",
    "0062": "acknowledge of a tightening",
    "0063": "unsubscribe from tightenings",
    "0064": "asks for an old tightening",
    "0070": "subscribe to alarms",
    "0072": "acknowledge of an alarm",
    "0073": "unsubscribe from alarms",
    "9999": "keep alive",
}

IDENTIFIER, TIGHTENED, ALARMED = "0052", "0061", "0071"  # the kinds of notice, by their MIDs
FETCH, FETCHED = "0064", "0065"  # an old tightening is asked for by its number, and given as a reply: it is no notice
SUBSCRIBES = {"0051": IDENTIFIER, "0060": TIGHTENED, "0070": ALARMED}
UNSUBSCRIBES = {"0054": IDENTIFIER, "0063": TIGHTENED, "0073": ALARMED}
ACKNOWLEDGES = {"0053": IDENTIFIER, "0062": TIGHTENED, "0072": ALARMED}
MOST = {IDENTIFIER: 2, TIGHTENED: 8, ALARMED: 4}  # notices of a kind that a session holds, the open one included
TOOLS = {SCANNED: ("identifier", IDENTIFIER), TIGHTENING: ("tightening", TIGHTENED), ALARM: ("alarm", ALARMED)}  # what a tool tells
REPEATED, GIVEN_UP = 20, 120  # ticks after the first copy

FETCHED_NUMBER = openprotocol.LAYOUTS[openprotocol.OLD_RESULT, 1].places["number"]

TOOL, CONTROLLER = -2, -1  # the rails; a session's is its number


# ---- words


def text_bytes(data):
    """A text without the spaces that fill it up, shown as replay shows frames."""
    return history.quote(data.rstrip(b" ").replace(b" ", b"_"))


def tightening_words(fields):
    """Its torque, which of its limits were never set, as far as it is told with limits, and whether it is OK."""
    words = ["%d.%02d Nm" % divmod(fields["torque"], 100)]
    for what in ("torque", "angle"):
        words += openprotocol.missing_limits(fields, what) if what + "_min" in fields else []
    return ", ".join([*words, "OK" if fields["tightening_status"] else "NOT OK"])


def alarm_name(fields):
    """By its code and its time: an alarm has no number."""
    return "%s of %s" % (text_bytes(fields["code"]), history.quote(fields["time"])[1:-1])


def alarm_words(fields):
    """And by what is not ready."""
    wanting = [what for what in ("controller", "tool") if not fields[what + "_ready"]]
    return "%s, %s" % (alarm_name(fields), " and ".join(wanting) + " not ready" if wanting else "both ready")


def tool_words(record_kind, payload, number=None, taken=None):
    """What a tool record says; of one that was done its number too, and who took it, though of an identifier not that nobody did."""
    fields = fields_of(record_kind, payload)
    if not fields:
        words = "of kind %d, %s" % (record_kind, count(len(payload), "byte"))
    elif record_kind == SCANNED:
        words = text_bytes(payload)
    elif record_kind == ALARM:
        words = alarm_words(fields)
    else:
        own = fields["identifier"]
        words = "%s%s%s" % ("" if number is None else "%d: " % number, tightening_words(fields),
                            ", identifier " + text_bytes(own) if own.strip(b" ") else "")
    if taken or taken is not None and record_kind != SCANNED:
        words += ", taken by " + (" ".join(map(str, taken)) or "none")
    return words


def tool_word(record_kind, payload):
    return TOOLS[record_kind][0] if fields_of(record_kind, payload) else "record"


def event_words(kind, event):
    if kind == TIGHTENED:
        return "tightening %d" % event
    return "identifier " + text_bytes(event) if kind == IDENTIFIER else "alarm " + alarm_name(fields_of(ALARM, event))


def start_words(payload):
    fields = fields_of(SETTINGS, payload)
    if not fields:
        return "settings of %s" % count(len(payload), "byte")
    return "cell %d, channel %d, %s, identifier over the net %sgranted, last number %d" % (
        fields["cell"], fields["channel"], text_bytes(fields["name"]), "" if fields["granted"] else "not ", fields["last"])


def run_words(run, closes):
    """A run that a NUL ended; `closes` is what an acknowledge closes. Nothing here decides whether it is a message."""
    head, word = run.head, run.word()
    if word == "run":
        notes = ["of %s" % count(run.length, "byte")]
    else:
        notes = [MESSAGES.get(word, "not named here")]
        if word == FETCH and run.length == openprotocol.HEADER + openprotocol.NUMBER_DIGITS and head[20:].isdigit():
            notes = ["asks for " + ("old tightening %d" % int(head[20:]) if int(head[20:]) else "the newest tightening")]
        elif word in ("0050", FETCH) and run.length > 20:
            notes[0] += " " + text_bytes(head[20:]) + (" .." if run.length > len(head) else "")
        if int(head[:4]) != run.length:
            notes.append("says %d bytes and has %d" % (int(head[:4]), run.length))
        if word in SUBSCRIBES and head[8:11] not in (b"000", b"001", b"   "):
            notes.append("revision " + history.quote(head[8:11])[1:-1])
        if word in SUBSCRIBES and head[11:12] == b"1":
            notes.append("no acknowledge asked")
        if word in ACKNOWLEDGES:
            notes.append("closes " + ("notice %d" % closes.number if closes else "nothing"))
    if run.parts > 1:
        notes.append("in %d parts from second %d on" % (run.parts, run.begun))
    return ", ".join(notes)


def frame_words(frame):
    """What a frame of the controller says; of one that openprotocol has no layout for, its revision."""
    mid = frame[4:8]
    if mid == "9999":
        return "the same bytes back"
    try:
        fields = openprotocol.read(frame.encode("latin-1").replace(b"_", b" ")).fields
    except ValueError:
        return "revision %s" % frame[8:11] if mid in MOST else "not named here"
    if mid == "0002":
        return "communication started"
    if mid == "0004":
        error = fields["error"]
        return "not accepted: %04d, error %02d: %s" % (fields["mid"], error, openprotocol.ERRORS.get(error, "not named here"))
    if mid == "0005":
        return "accepted: %04d" % fields["mid"]
    if mid == IDENTIFIER:
        return "identifier " + text_bytes(fields["identifier"].encode())
    if mid == ALARMED:
        return "alarm " + alarm_words({**fields, "code": fields["code"].encode(), "time": fields["time"].encode()})
    return "%stightening %d, %s, %s" % ("old " if mid == FETCHED else "", fields["number"], text_bytes(fields["identifier"].encode()),
                                        tightening_words(fields))


# ---- notices


@dataclass
class Notice:
    """An event for a session. It waits until it is first sent; `number` counts those that were."""

    session: int
    kind: str
    event: object  # the number of a tightening, or the payload of an identifier or an alarm
    number: int = 0
    frame: str = ""
    seconds: list = field(default_factory=list)  # of its copies

    def event_words(self):
        return event_words(self.kind, self.event)

    def words(self):
        """Of one that was sent: what its frame says."""
        return frame_words(self.frame)

    def fits(self, frame):
        """Whether that frame tells of the event; of a revision that openprotocol has no layout for it is taken to."""
        layout = openprotocol.LAYOUTS.get((int(self.kind), int(frame[8:11])))
        if not layout:
            return True
        if self.kind == TIGHTENED:
            return int(frame[layout.places["number"]]) == self.event
        if self.kind == IDENTIFIER:
            told, wanted = frame[layout.places["identifier"]], self.event
        else:
            told, wanted = frame[openprotocol.HEADER:], layout.write(fields_of(ALARM, self.event))
        return told == wanted.replace(b" ", b"_").decode("latin-1")

    def lost_words(self, when):
        """How it was lost: a notice that is dropped goes out no more."""
        if self.number:
            return "notice %d, %s: sent, and not acknowledged %s" % (self.number, self.event_words(), when)
        return "%s: waited, and was never sent; dropped %s" % (self.event_words(), when)


@dataclass
class Loss:
    """What becomes of a notice that is lost: of a tightening the server may still ask by its number."""

    words: str
    fetched: int = None  # the second in which it got it so

    def text(self):
        return self.words + ("" if self.fetched is None else "; fetched at %d s" % self.fetched)


@dataclass
class Subscription:
    asks: bool  # to acknowledge
    notices: list = field(default_factory=list)  # the open one, then those that wait


class Books:
    """Which notices the controller holds for each session, read off records and replies. Whatever replay sends is held against them:
    where the two differ nothing is drawn."""

    def __init__(self):
        self.subscriptions = [{} for _ in range(lent_table.SESSIONS)]
        self.sent = 0

    def held(self):
        """The rows of notices that are held."""
        return [each.notices for session in self.subscriptions for each in session.values() if each.notices]

    def tell(self, kind, event):
        """An event: those who took it, those who did not, and the waiting notices in whose place it stands now."""
        taken, not_taken, replaced = [], [], []
        for session, subscriptions in enumerate(self.subscriptions):
            subscription = subscriptions.get(kind)
            if not subscription:
                continue
            notices = subscription.notices
            if len(notices) == MOST[kind] and kind != IDENTIFIER:
                not_taken.append(session)
                continue
            if len(notices) == MOST[kind]:
                replaced.append(notices.pop())
            notices.append(Notice(session, kind, event))
            taken.append(session)
        return taken, not_taken, replaced

    def acknowledge(self, session, kind):
        """The notice that is closed, or None."""
        subscription = self.subscriptions[session].get(kind)
        return subscription.notices.pop(0) if subscription and subscription.notices else None

    def drop(self, session, kinds=tuple(MOST)):
        """The notices that are gone with these subscriptions."""
        dropped = [self.subscriptions[session].pop(kind, None) for kind in kinds]
        return [notice for subscription in dropped if subscription for notice in subscription.notices]

    def give_up(self, second, closed):
        """The notices that stand open for the 120th tick, of sessions that this tick has not closed."""
        open_ones = [notices for notices in self.held() if second - notices[0].seconds[0] == GIVEN_UP]
        return [notices.pop(0) for notices in open_ones if notices[0].session not in closed]

    def count(self, notice):
        self.sent += 1
        notice.number = self.sent

    def begin(self, lent):
        """A session of the table with which the journal begins."""
        for kind in MOST:
            subscription = lent.subscription(kind)
            if subscription:
                self.subscriptions[lent.number][kind] = subscription
                for notice in subscription.notices[:1]:
                    self.count(notice)

    def send(self, session, frame, second):
        """The notice of which replay sent a copy."""
        kind = frame[4:8]
        subscription = self.subscriptions[session].get(kind)
        if not subscription or not subscription.notices or not subscription.notices[0].fits(frame):
            raise Fault("at second %d replay sent server %d a %s that nothing in the journal explains: %s" % (second, session, kind, frame))
        notice = subscription.notices[0]
        if not notice.seconds:
            self.count(notice)
        notice.frame = frame
        notice.seconds.append(second)
        if not subscription.asks:
            subscription.notices.pop(0)
        return notice

    def expect_sent(self, second):
        for notices in self.held():
            if not notices[0].seconds:
                raise Fault("at second %d replay did not send server %d %s" % (second, notices[0].session, notices[0].event_words()))


# ---- the lent table with which a part of a journal begins


@dataclass
class Lent:
    """What a session's region says of it."""

    number: int  # of the session
    region: lent_table.Region

    def is_open(self):
        return self.region.phase() != lent_table.CLOSED

    def run(self):
        """The run that was being received, or None."""
        length, kept = self.region.run()
        return Run(0, kept, length, 1) if length else None

    def lane(self, kind):
        """And the events of the notices that are held."""
        if kind == TIGHTENED:
            lane = self.region.tightenings()
            return lane, [lent_table.little(result[lent_table.NUMBER]) for result in lane.notices]
        lane = self.region.identifiers() if kind == IDENTIFIER else self.region.alarms()
        return lane, lane.notices

    def subscription(self, kind):
        """With its notices, or None. The open one was sent before second 0, as often as its clock tells."""
        lane, events = self.lane(kind)
        if lane.form == lent_table.NOT:
            return None
        notices = [Notice(self.number, kind, event) for event in events]
        for notice in notices[:1]:
            notice.seconds = list(range(-lane.clock, 1, REPEATED))
        return Subscription(lane.form == lent_table.ACKNOWLEDGED, notices)


# ---- rows


@dataclass
class Row:
    second: int
    time: int  # of day, in seconds; None where it is not known
    started: bool  # a start was done: the second counts
    ticked: bool  # a tick caused it
    open: frozenset  # the sessions that are open before it
    origin: int
    target: int
    word: str  # stands in the arrow
    caption: object  # a text, or what makes it when the row is drawn
    source: object  # the line that replay printed, or a record's kind and payload, or None
    link: bool = False  # no message, but a link that comes or goes
    lost: Loss = None  # no arrow, but what becomes of a notice
    vain: bool = False  # an acknowledge that closes nothing
    refused: int = 0
    notice: Notice = None
    copy: int = 0
    concerns: tuple = None  # sessions; None: all

    def is_line(self):
        """It shows a line that replay printed."""
        return isinstance(self.source, str)

    def source_line(self):
        """The line, or the record in history's line form."""
        return self.source if self.is_line() else history.record_line(*self.source) if self.source else ""

    def session(self):
        return max(self.origin, self.target)

    def text(self):
        """What stands beside the arrow."""
        caption = self.caption if isinstance(self.caption, str) else self.caption()
        if self.notice:
            copies = len(self.notice.seconds)
            which = "notice %d" % self.notice.number + (", copy %d of %d" % (self.copy, copies) if copies > 1 else "")
            caption = which + ": " + caption
        refused = "refused, %d: %s" % (self.refused, REFUSALS.get(self.refused, "not named here")) if self.refused else ""
        return "; ".join(part for part in (caption, refused) if part)


@dataclass
class Run:
    """The run that a session is receiving: its first bytes and its length."""

    begun: int
    head: bytes = b""
    length: int = 0
    parts: int = 0

    def add(self, part):
        self.head = (self.head + part)[:45]
        self.length += len(part)
        self.parts += 1

    def word(self):
        return self.head[4:8].decode() if len(self.head) >= 8 and self.head[:8].isdigit() else "run"

    def is_acknowledge(self):
        """Well made: by the header's rule a message, and as long as an acknowledge is."""
        head = self.head
        return (self.word() in ACKNOWLEDGES and self.length == 20 == int(head[:4]) and (head[8:11].isdigit() or head[8:11] == b"   ")
                and head[11:12] in (b"0", b"1", b" "))


class Ladder:
    """Makes the rows piece by piece, and gives each to `show`. `times` are places in the journal, each with its time of day."""

    def __init__(self, show, times=()):
        self.show = show
        self.times, self.zero = collections.deque(times), None  # the time of day of second 0, by the last of the times that was met
        self.second, self.started, self.ticked = 0, False, False
        self.open = frozenset()
        self.runs = {}
        self.message = Run(0)  # the run that ended last
        self.last = 0  # tightening number
        self.books = Books()
        self.losses = [{} for _ in range(lent_table.SESSIONS)]  # of each session, by their numbers: tightenings that may still be kept

    def add(self, origin, target, word, caption, source, **more):
        if max(origin, target) >= 0:
            more["concerns"] = (max(origin, target),)
        time = None if self.zero is None else self.zero + self.second
        self.show(Row(self.second, time, self.started, self.ticked, self.open, origin, target, word, caption, source, **more))

    def add_open(self, session, source, **more):
        self.add(session, CONTROLLER, "open", "server %d calls in" % session, source, link=True, **more)

    def add_hang_up(self, session, source, **more):
        self.add(session, CONTROLLER, "hang-up", "the link of server %d is gone" % session, source, link=True, **more)

    def begin(self, table):
        """With the lent table, where no start comes first."""
        self.meet_times(0)
        self.started, self.last = True, lent_table.last_number(table)
        for session, region in enumerate(lent_table.regions(table)):
            lent = Lent(session, region)
            if lent.is_open():
                self.open |= {session}
                self.books.begin(lent)
                if lent.run():
                    self.runs[session] = lent.run()
        servers = ", ".join("server %d" % session for session in sorted(self.open)) or "none"
        self.add(CONTROLLER, CONTROLLER, "table", "goes on from the part before: open %s, last number %d, %s kept" % (
            servers, self.last, count(len(lent_table.kept(table)), "tightening")), None)

    def meet_times(self, place):
        """The times that were noted up to a place in the journal."""
        while self.times and self.times[0][0] <= place:
            self.zero = self.times.popleft()[1] - self.second

    def lose(self, session, words, number=None):
        """What is lost to a session; of a tightening with its number."""
        loss = Loss(words)
        self.add(session, session, "lost", loss.text, None, lost=loss)
        if number is not None:
            losses = self.losses[session]
            losses[number] = loss
            if len(losses) > lent_table.KEPT:
                losses.pop(min(losses))

    def lose_notice(self, notice, when):
        self.lose(notice.session, notice.lost_words(when), notice.event if notice.kind == TIGHTENED else None)

    def take(self, piece):
        self.meet_times(piece.place)
        refused = piece.refused()
        self.ticked = piece.record_kind == TICK and not refused
        if self.ticked:
            self.second += 1
            closed = {int(line[0]) for line in piece.lines if line[2] == "C"}
            for notice in self.books.give_up(self.second, closed):
                self.lose_notice(notice, "within %d s: given up" % GIVEN_UP)
        elif refused:
            self.take_refused(piece, refused)
            return
        else:
            self.take_record(piece.record_kind, piece.payload)
        for line in piece.lines:
            self.take_line(line)
        self.books.expect_sent(self.second)

    def take_refused(self, piece, refused):
        record_kind, payload = piece.record_kind, piece.payload
        more = {"refused": refused, "source": piece.lines[0]}
        if record_kind == SETTINGS:
            self.add(CONTROLLER, CONTROLLER, "start", partial(start_words, payload), **more)
        elif OPEN <= record_kind < HANG_UP:
            self.add_open(record_kind - OPEN, **more)
        elif HANG_UP <= record_kind < BYTES:
            self.add_hang_up(record_kind - HANG_UP, **more)
        elif BYTES <= record_kind < TICK:
            self.add(record_kind - BYTES, CONTROLLER, "bytes", count(len(payload), "byte"), **more)
        elif record_kind == TICK:
            self.add(CONTROLLER, CONTROLLER, "tick", "", **more)
        else:
            self.add(TOOL, CONTROLLER, tool_word(record_kind, payload), partial(tool_words, record_kind, payload), concerns=(), **more)

    def take_record(self, record_kind, payload):
        source = (record_kind, payload)
        if record_kind == SETTINGS:
            self.started = True
            self.show_all_unended()
            self.add(CONTROLLER, CONTROLLER, "start", partial(start_words, payload), source)
            for session in sorted(self.open):
                self.end_session(session, "when the controller was started anew")
            for losses in self.losses:
                losses.clear()  # a start keeps no tightening
            self.last = fields_of(SETTINGS, payload)["last"]
        elif OPEN <= record_kind < HANG_UP:
            self.add_open(record_kind - OPEN, source)
            self.open |= {record_kind - OPEN}
        elif HANG_UP <= record_kind < BYTES:
            session = record_kind - HANG_UP
            self.show_unended(session)
            self.add_hang_up(session, source)
            self.end_session(session, "when the link went")
        elif BYTES <= record_kind < TICK:
            self.take_bytes(record_kind - BYTES, payload, source)
        else:
            self.take_tool(record_kind, payload, source)

    def take_tool(self, record_kind, payload, source):
        number, event, (word, kind) = None, payload, TOOLS[record_kind]
        if kind == TIGHTENED:
            number = event = self.last = self.last + 1
        taken, not_taken, replaced = self.books.tell(kind, event)
        self.add(TOOL, CONTROLLER, word, partial(tool_words, record_kind, payload, number, taken), source, concerns=(*taken, *not_taken))
        for session in not_taken:
            self.lose(session, "%s: not taken; server %d has %d already" % (event_words(kind, event), session, MOST[kind]), number)
        self.lose_all(replaced, "for a newer one")

    def take_bytes(self, session, part, source):
        """The row of a run stands where it ends."""
        if not part:
            self.add(session, CONTROLLER, "bytes", "none", source)
            return
        run = self.runs.setdefault(session, Run(self.second))
        run.add(part.rstrip(b"\0"))
        if not part.endswith(b"\0"):
            return
        self.message = self.runs.pop(session)
        closes = None
        if run.is_acknowledge():
            closes = self.books.acknowledge(session, ACKNOWLEDGES[run.word()])
        vain = run.word() in ACKNOWLEDGES and not closes
        self.add(session, CONTROLLER, run.word(), partial(run_words, run, closes), source, vain=vain)

    def show_unended(self, session):
        """The row of a run that did not end stands before its link's end, or the journal's."""
        run = self.runs.pop(session, None)
        if run:
            self.add(session, CONTROLLER, "bytes", "%s of a run that did not end" % count(run.length, "byte"), None)

    def show_all_unended(self):
        for session in sorted(self.runs):
            self.show_unended(session)

    def end_session(self, session, when):
        self.open -= {session}
        self.runs.pop(session, None)
        self.lose_all(self.books.drop(session), when)

    def lose_all(self, notices, when):
        for notice in notices:
            self.lose_notice(notice, when)

    def take_line(self, line):
        session = int(line[0])
        if line[2] == "C":
            self.show_unended(session)
            self.add(CONTROLLER, session, "close", "server %d is closed for its silence" % session, line, link=True)
            self.end_session(session, "when the session was closed")
            return
        frame = line[4:]
        mid = frame[4:8]
        if mid in MOST:
            self.take_notice(session, frame, line)
            return
        self.add(CONTROLLER, session, mid, partial(frame_words, frame), line)
        if mid == "0005":
            self.take_accepted(session, frame[20:24])
        elif mid == FETCHED:
            self.take_fetched(session, int(frame[FETCHED_NUMBER]))

    def take_accepted(self, session, mid):
        """What an accepted message changes in the books."""
        if mid in SUBSCRIBES:
            self.books.subscriptions[session][SUBSCRIBES[mid]] = Subscription(self.message.head[11:12] != b"1")
        elif mid in UNSUBSCRIBES:
            self.lose_all(self.books.drop(session, (UNSUBSCRIBES[mid],)), "when the server unsubscribed")
        elif mid == "0003":
            self.lose_all(self.books.drop(session), "when the server stopped")
        elif mid == "0050":
            self.lose_all(self.books.tell(IDENTIFIER, filled(self.message.head[20:]))[2], "for a newer one")

    def take_fetched(self, session, number):
        loss = self.losses[session].pop(number, None)
        if loss:
            loss.fetched = self.second

    def take_notice(self, session, frame, line):
        notice = self.books.send(session, frame, self.second)
        copy = len(notice.seconds)
        if copy > 1:
            caption = "not acknowledged for %d s" % (self.second - notice.seconds[0])
        elif self.ticked:
            caption = lambda: frame_words(frame) + ", sent as the one before is given up"  # noqa: E731
        else:
            caption = partial(frame_words, frame)
        self.add(CONTROLLER, session, frame[4:8], caption, line, notice=notice, copy=copy)

    def end(self, why):
        self.ticked = False
        self.show_all_unended()
        if why:
            self.add(CONTROLLER, CONTROLLER, "end", why, None)
