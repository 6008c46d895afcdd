#!/usr/bin/env python3
"""Tests tools/ladder over a test program.

    run.py PROGRAM            all tests
    run.py PROGRAM --large    64 MiB of journal, drawn in less than 500 MB
    run.py PROGRAM --draw     draws the pictures of docs anew, of each story one as text and one as SVG

Histories are written in the line form of tools/history.py."""

import glob
import os
import re
import subprocess
import sys
import tempfile
import time
import xml.etree.ElementTree

ROOT = os.path.join(os.path.dirname(os.path.abspath(__file__)), "..", "..")
TESTS = os.path.join(ROOT, "tests")
sys.path[:0] = [os.path.join(ROOT, "tools"), os.path.join(TESTS, "histories")]
sys.dont_write_bytecode = True

import generate  # noqa: E402
import history  # noqa: E402
import ladder_journal  # noqa: E402
import ladder_rows  # noqa: E402
import openprotocol  # noqa: E402
from house_records import BYTES, HANG_UP, OPEN, TICK, record, split  # noqa: E402

LADDER = os.path.join(ROOT, "tools", "ladder")
STORIES = os.path.join(TESTS, "stories")
STORY = os.path.join(STORIES, "came-back")
FOUR_SERVERS = os.path.join(STORIES, "four-servers")
SVG = "{http://www.w3.org/2000/svg}"
SECONDS = 60  # more than any picture needs
SEEDS = range(1, 11)

START = 'settings 12 3 1 "LINE4" 0\n'
SUBSCRIBE = 'open 0\nbytes 0 "00200001001         \\0"\nbytes 0 "002000600010        \\0"\n'
SUBSCRIBED = START + SUBSCRIBE
KEEP_ALIVE = 'bytes 0 "00209999            \\0"\n'
TWENTY_TICKS = ("tick 10\n" + KEEP_ALIVE) * 2

program = None


def expect(what, got, wanted):
    if got != wanted:
        raise AssertionError("%s:\n  wanted %r\n  got    %r" % (what, wanted, got))


def call(*arguments, data=b"", replay=None):
    command = [LADDER, "--replay", replay or program, *arguments]
    return subprocess.run(command, input=data, capture_output=True, timeout=SECONDS, check=False)


def draw(data, *options):
    """The picture of a journal given on standard input."""
    done = call(*options, data=data)
    expect("status and errors", (done.returncode, done.stderr.decode()), (0, ""))
    return done.stdout.decode()


def lines_of_replay(data):
    return subprocess.run([program], input=data, capture_output=True, timeout=SECONDS, check=True).stdout


def rows(text):
    """The rows of a text picture: second ('' for a fold), what stands on the rails, label, which may go on in further lines."""
    found = []
    for line in text.split("\n\n")[1].splitlines()[1:]:
        fold = re.match(r"\.\. (\d+) s \.\.", line)
        second, (rails, _, label) = line[:13].strip(), line[13:].strip().rpartition("   ")
        if fold:
            found.append(("", int(fold.group(1)), ""))
        elif second:
            found.append((second, rails, label))
        else:
            found[-1] = (*found[-1][:2], found[-1][2] + " " + label)
    return found


def told_at_the_end(text):
    """What stands behind the rows of a text picture, as one line."""
    return " ".join(text.split("\n\n")[2].split())


def labels(text):
    return [label for second, _, label in rows(text) if second]


def made(lines):
    return history.to_records(lines)


def read(path):
    return content(path).decode("latin-1")


def content(path):
    with open(path, "rb") as file:
        return file.read()


def written_histories():
    """Every vector and story."""
    names = sorted(glob.glob(os.path.join(TESTS, "vectors", "*.txt")) + glob.glob(os.path.join(STORIES, "*")))
    return [(os.path.basename(name), made(read(name))) for name in names]


def vector(name):
    return made(read(os.path.join(TESTS, "vectors", name)))


# ---- the stories


def pictures():
    """Each picture of docs, and what is drawn for it."""
    for story in sorted(os.listdir(STORIES)):
        with tempfile.TemporaryDirectory() as folder:
            journal = os.path.join(folder, story)
            with open(journal, "wb") as file:
                file.write(made(read(os.path.join(STORIES, story))))
            for ending, options in ((".txt", []), (".svg", ["--svg"])):
                done = call(*options, journal)
                expect("status and errors", (done.returncode, done.stderr.decode()), (0, ""))
                yield os.path.join(ROOT, "docs", story + ending), done.stdout


def test_stories():
    for path, drawn in pictures():
        if content(path) != drawn:
            raise AssertionError("docs/%s is not what is drawn; `make -C tests pictures` draws it anew" % os.path.basename(path))


def test_columns():
    """No line of a picture is longer than 140 columns; of text, where it has the rails of five servers at most."""
    wide = []
    for name, data in written_histories() + [("seed %d" % seed, generate.generate(seed)) for seed in SEEDS]:
        for options in ([], ["--svg"]):
            lines = draw(data, *options).splitlines()
            if not options and lines[2].count("server ") > 5:
                wide.append(name)
            else:
                expect("longest line of " + name, max(map(len, lines)) <= 140, True)
    expect("few have more", len(wide) < len(SEEDS) / 2, True)


# ---- what is shown is what replay prints


def printed_in(picture):
    """The lines that the arrows of an SVG picture have from replay, as bytes."""
    found = []
    for group in xml.etree.ElementTree.fromstring(picture).iter(SVG + "g"):
        if group.get("class") == "line":
            found.append(history.unescape(group.find(SVG + "title").text) + b"\n")
    return b"".join(found)


def test_lines():
    for name, data in written_histories() + [("seed %d" % seed, generate.generate(seed)) for seed in SEEDS]:
        expect("lines of " + name, printed_in(draw(data, "--svg")), lines_of_replay(data))


def test_line_feeds():
    """A mirrored 9999 whose bytes look like lines, and like marks."""
    data = made(SUBSCRIBED + 'bytes 0 "00209999001 \\x0aR 4\\x0aR 9\\0" "00209999001 \\x0a0 C\\x0a\\x0a\\x0a\\x0a\\0"\nopen 0\n')
    picture = draw(data, "--svg")
    expect("lines", printed_in(picture), lines_of_replay(data))
    expect("frames and refusal", [label for label in labels(draw(data))][-5:], [
        "keep alive", "the same bytes back", "keep alive", "the same bytes back",
        "server 0 calls in; refused, 6: the session is open already"])


def test_seconds():
    """Rows and folds account for every second: a tick is folded, or stands alone, or sent something."""
    for name, data in [("came-back", made(read(STORY))), ("seed 3", generate.generate(3)), ("seed 8", generate.generate(8))]:
        at, fold = 0, 0
        shown = rows(draw(data))
        for place, (second, rails, label) in enumerate(shown):
            if not second:
                fold = rails
            elif second != "-":
                now = int(second.split()[0])
                if label.endswith("of a run that did not end") and place + 1 < len(shown):  # stands before what ends its link
                    label = shown[place + 1][2]
                ticked = now > at and re.search("not acknowledged for|given up|for its silence", label) is not None
                silent = now - at - ticked
                expect("%s: seconds folded before %d s, %s" % (name, now, label), fold, silent if silent > 1 else 0)
                at, fold = now, 0
        done = len([record_kind for record_kind, _ in split(data)[0] if record_kind == TICK])
        refused = sum(1 for label in labels(draw(data)) if label.startswith("tick: refused"))
        expect("%s: ticks done" % name, at + fold, done - refused)


# ---- copies


def copies_in(text):
    """(notice, copy, of how many), for each arrow of a notice."""
    found = []
    for label in labels(text):
        match = re.match(r"notice (\d+)(?:, copy (\d+) of (\d+))?: ", label)
        if match:
            found.append(tuple(int(number or 1) for number in match.groups()))
    return found


def test_copies():
    """Document 01's case (j): 1, 2, 5, 6 and 6 copies."""
    data = vector("cases-j.txt")
    counts = [1, 2, 5, 6, 6]
    wanted = [(number, copy, many) for number, many in enumerate(counts, 1) for copy in range(1, many + 1)]
    text = draw(data)
    expect("copies", copies_in(text), wanted)
    ages = [int(age) for age in re.findall(r"not acknowledged for (\d+) s", text)]
    expect("ages", ages, [20 * copy for _, copy, _ in wanted for copy in [copy - 1] if copy])
    sent = [line for line in lines_of_replay(data).decode().splitlines() if line[8:12] == "0061"]
    expect("frames by their number", [sent.count(frame) for frame in dict.fromkeys(sent)], counts)
    expect("heading", text.splitlines()[0], "journal: 5 notices, 4 of them sent more than once; 1 lost; 0 refused")
    expect("told at the end", re.findall(r"^notice (\d) .* (\d) copies", text, re.M), [("2", "2"), ("3", "5"), ("4", "6"), ("5", "6")])


def test_colours():
    """A notice and its copies have one colour and the notice's number, another notice another; copies are joined."""
    picture = xml.etree.ElementTree.fromstring(draw(vector("cases-j.txt"), "--svg"))
    colours = {}
    for group in picture.iter(SVG + "g"):
        badge = [text.text for text in group.findall(SVG + "text") if text.get("class") == "badge"]
        if badge:
            colours.setdefault(badge[0], []).append(group.find(SVG + "line").get("stroke"))
    expect("arrows", [(number, len(each)) for number, each in colours.items()], [("1", 1), ("2", 2), ("3", 5), ("4", 6), ("5", 6)])
    expect("colours of a notice", [len(set(each)) for each in colours.values()], [1] * 5)
    expect("colours of all", len({each[0] for each in colours.values()}), 5)
    joins = [path.get("stroke") for path in picture.findall(SVG + "path") if path.get("fill") == "none"]
    expect("brackets", joins, [colours[number][0] for number in "2345"])


def test_no_copies():
    """The same bytes sent again by an event are another notice; so is the same event's frame to another session."""
    twice = 'scan "X"\nscan "X"\n'
    data = made(SUBSCRIBED + 'bytes 0 "002000510011        \\0"\n' + twice)
    expect("without acknowledge", copies_in(draw(data)), [(1, 1, 1), (2, 1, 1)])
    text = draw(vector("s13-identifier-repeats.txt"))
    expect("two sessions", copies_in(text),
           [(1, 1, 6), (2, 1, 1), (3, 1, 1), (4, 1, 1)] + [(1, copy, 6) for copy in range(2, 7)] + [(5, 1, 1)])
    expect("the next", [label for label in labels(text) if "given up" in label],
           ['lost: notice 1, identifier "FIRST": sent, and not acknowledged within 120 s: given up',
            'notice 5: identifier "THIRD", sent as the one before is given up'])


def test_copies_to_two():
    """The same frame goes to two sessions twice: each has its own notice and its own copies."""
    def of_one(lines):
        return re.sub("(open|bytes) 0", r"\1 1", lines)

    data = made(SUBSCRIBED + of_one(SUBSCRIBE) + "tightening\n" + "".join(2 * ["tick 10\n", KEEP_ALIVE, of_one(KEEP_ALIVE)]))
    expect("copies", copies_in(draw(data)), [(1, 1, 2), (2, 1, 2), (1, 2, 2), (2, 2, 2)])


def test_copies_seen_from_later():
    """A window does not change the numbers."""
    data = made(SUBSCRIBED + "tightening\n" + TWENTY_TICKS * 3)
    expect("all", copies_in(draw(data)), [(1, 1, 4), (1, 2, 4), (1, 3, 4), (1, 4, 4)])
    expect("from second 30 to 45", copies_in(draw(data, "--from", "30", "--to", "45")), [(1, 3, 4)])


# ---- revisions


def subscribed_in(revision):
    return START + SUBSCRIBE.replace("0060001", "0060%03d" % revision)


def test_revisions():
    """A tightening reads the same in every revision of 0061, and so do its copies; the subscription says which revision it is of."""
    for revision in openprotocol.RESULT_REVISIONS:
        data = made(subscribed_in(revision) + 'tightening identifier="BODY 7" job=7 torque=4210 tightening_status=0\n' + TWENTY_TICKS)
        text, words = draw(data), 'tightening 1, "BODY_7", 42.10 Nm, NOT OK'
        expect("revision %d" % revision, labels(text)[4:8], [
            "subscribe to tightenings" + (", revision %03d" % revision if revision > 1 else ""), "accepted: 0060",
            '1: 42.10 Nm, NOT OK, identifier "BODY_7", taken by 0', "notice 1, copy 1 of 2: " + words])
        expect("told at the end of it", told_at_the_end(text).startswith("notice 1 (0061 %s) to server 0, 2 copies" % words), True)
    expect("one that there is not", labels(draw(made(subscribed_in(7))))[4:], [
        "subscribe to tightenings, revision 007", "not accepted: 0060, error 97: revision not supported"])


def test_missing_limits():
    """Limits that were never set are named beside a tightening, in every revision, at the copies too, and as text in the SVG; those that
    are set, be it to 0, are not. What was fetched has no limits, and a refused record names what it lacks all the same."""
    none = {what: " ".join("%s_%s=none" % (what, which) for which in openprotocol.LIMITS) for what in ("torque", "angle")}
    for missing, words in (("", ""), ("torque_min=0 angle_max=0", ""), (none["angle"], ", no angle window"),
                           (none["torque"], ", no torque window"), (" ".join(none.values()), ", no torque window, no angle window"),
                           ("angle_min=none torque_target=none", ", no torque target, no angle min"),
                           ("torque_max=none angle_max=none angle_target=none", ", no torque max, no angle max, no angle target")):
        for revision in openprotocol.RESULT_REVISIONS:
            data = made(subscribed_in(revision) + "tightening torque=4210 %s\n" % missing + fetch(0, 1) + TWENTY_TICKS)
            text, told = draw(data), 'tightening 1, "", 42.10 Nm%s, OK' % words
            expect("%s in revision %d" % (missing, revision), [label for label in labels(text) if "Nm" in label], [
                "1: 42.10 Nm%s, OK, taken by 0" % words, "notice 1, copy 1 of 2: " + told, 'old tightening 1, "", 42.10 Nm, OK'])
            expect("told at the end of it", told_at_the_end(text).startswith("notice 1 (0061 %s) to server 0, 2 copies" % told), True)
        picture = xml.etree.ElementTree.fromstring(draw(data, "--svg"))
        shown = ["".join(text.itertext()) for text in picture.iter(SVG + "text")]
        expect("in the SVG", "0061 notice 1, copy 1 of 2: " + told in " ".join(shown), True)
        records = [title.text for title in picture.iter(SVG + "title") if title.text.startswith("tightening")]
        expect("its record in the SVG", [made(line) in data for line in records], [True])
    bad = draw(made(SUBSCRIBED + "tightening torque=1000000 %s\n" % none["angle"]))
    expect("refused", labels(bad)[-1], "10000.00 Nm, no angle window, OK; refused, 7: tool record bad")


def test_numbers_of_revisions():
    """A 0061 that tells of another tightening than the next is found out in every revision; one of a revision that has no layout here is
    taken as it is."""
    with tempfile.TemporaryDirectory() as folder:
        for revision in openprotocol.RESULT_REVISIONS:
            at = len("0 S ") + openprotocol.LAYOUTS[openprotocol.RESULT, revision].places["number"].start
            wrong = script(folder, "%s | sed 's/^\\(.\\{%d\\}\\)0000000001/\\10000000002/'" % (program, at))
            done = call(data=made(subscribed_in(revision) + "tightening\n"), replay=wrong)
            expect("another number in revision %d" % revision,
                   (done.returncode, done.stdout, "nothing in the journal explains" in done.stderr.decode()), (1, b"", True))
        later = script(folder, "%s | sed 's/^0 S 02310061001/0 S 02310061010/'" % program)
        done = call(data=made(SUBSCRIBED + "tightening\n"), replay=later)
        expect("no layout", (done.returncode, labels(done.stdout.decode())[-1]), (0, "notice 1: revision 010"))


# ---- what was lost

ACKNOWLEDGE, NO_MESSAGE = b"00200062            \0", b"x\0"  # the second ends a run that was begun, whatever it is
MARK = record(OPEN + 15)  # refused with 4


class Results:
    """What may be dropped, or not taken, and how it is found out."""

    WORD, MID, MOST = "tightening", "0061", 8
    ACKNOWLEDGE = ACKNOWLEDGE
    TRIED = history.to_records('tightening identifier="TRIED"')

    @staticmethod
    def read(fields):
        """Its name in the pictures, and whether it is the one that is tried."""
        return str(fields["number"]), fields["identifier"] == "TRIED"

    @staticmethod
    def name(row):
        """Of the row of a tool record."""
        return row.text().partition(":")[0]


class Alarms:
    WORD, MID, MOST = "alarm", "0071", 4
    ACKNOWLEDGE = b"00200072            \0"
    TRIED = history.to_records('alarm code="TRY!" time=0000-00-00:00:00:00')

    @staticmethod
    def read(fields):
        name = ladder_rows.alarm_name({name: value.encode() if isinstance(value, str) else value for name, value in fields.items()})
        return name, name == '"TRY!" of 0000-00-00:00:00:00'

    @staticmethod
    def name(row):
        return plain(re.match(r'".*" of \S{19}', row.text())[0])


def plain(words):
    """Without a _ at the end of an alarm's code: in what replay prints it can't be told from the spaces that fill a code up."""
    return re.sub('_+" of ', '" of ', words)


class Story:
    """A history drawn: what each record printed, and its rows."""

    def __init__(self, data):
        self.records = split(data)[0]
        self.rows = [[] for _ in range(len(self.records) + 1)]  # by the record's number, from 1
        self.printed = [0] * (len(self.records) + 1)  # lines up to a record and with it
        with tempfile.NamedTemporaryFile() as file:
            file.write(data)
            file.flush()
            self.draw(ladder_journal.Journal([file.name]))

    def draw(self, journal):
        number, lines = 0, 0
        ladder = ladder_rows.Ladder(lambda row: self.rows[number].append(row))
        with ladder_journal.Replay([program], journal) as replay:
            for piece in ladder_journal.tried(replay.pieces()):
                number = piece.record
                ladder.take(piece)
                lines += len(piece.lines)
                self.printed[number] = lines

    def lost(self, number, session):
        """What is said to be lost to a session at a record; not whether it was fetched later."""
        return [plain(row.lost.words) for row in self.rows[number] if row.lost and row.session() == session]

    def go_on(self, number, more):
        """What replay prints for other records behind that one."""
        given = b"".join(record(*each) for each in self.records[:number]) + b"".join(more)
        return ladder_journal.lines_of(lines_of_replay(given).decode("latin-1"))[self.printed[number]:]


def notices(lines, session, sort):
    """Those of a sort that go to a session: each one's name, and whether it is the one that is tried."""
    frames = [line[4:].replace("_", " ").encode("latin-1") for line in lines if re.match("%d S ....%s" % (session, sort.MID), line)]
    return [sort.read(openprotocol.read(frame).fields) for frame in frames]


def dropped(lines, sort):
    """Of what is said to be lost: whether one of a sort had been sent, and the names of those that waited."""
    return (any(re.search(sort.WORD + " .*: sent, and not", line) for line in lines),
            [name for line in lines for name in re.findall("^%s (.*): waited, and was never sent" % sort.WORD, line)])


def held(story, number, session, sort):
    """The same of what is held before a record, by what one more and more acknowledges than it can hold bring out."""
    acknowledges = record(BYTES + session, sort.ACKNOWLEDGE * (sort.MOST + 1))
    lines = story.go_on(number - 1, [record(BYTES + session, NO_MESSAGE), sort.TRIED, MARK, acknowledges])
    if "R 8" in lines:
        return None  # no number is left to try with
    later = notices(lines[lines.index("R 4"):], session, sort)
    return bool(later), [name for name, tried in later if not tried]


def ends(story):
    """Each record that ends a session, and the session."""
    for number, (record_kind, _) in enumerate(story.records, 1):
        if HANG_UP <= record_kind < HANG_UP + 4 and not any(row.refused for row in story.rows[number]):
            yield number, record_kind - HANG_UP
        elif record_kind == TICK:
            for row in story.rows[number]:
                if row.word == "close":
                    yield number, row.session()


def test_dropped():
    """What ladder says is dropped with a session is what would have come out of it."""
    some = {Results: 0, Alarms: 0}
    for seed in SEEDS:
        story = Story(generate.generate(seed))
        for number, session in ends(story):
            for sort in some:
                wanted = held(story, number, session, sort)
                if wanted is not None:
                    expect("seed %d, record %d, %s" % (seed, number, sort.WORD), dropped(story.lost(number, session), sort), wanted)
                    some[sort] += bool(wanted[1])
    expect("some were dropped: %s" % some, min(some.values()) > 5, True)


def test_taken():
    """Who is said to have taken a tightening or an alarm is sent it, then or after acknowledges; who is said not to have is subscribed, and
    is not."""
    lost = {Results: 0, Alarms: 0}
    for seed in SEEDS[:3]:
        story = Story(generate.generate(seed))
        for number in range(1, len(story.records) + 1):
            for sort in lost:
                shown = [row for row in story.rows[number] if row.word == sort.WORD and not row.refused]
                if shown:
                    lost[sort] += taken_is_told(story, number, shown[0], sort, "seed %d, record %d" % (seed, number))
    expect("some were not taken: %s" % lost, min(lost.values()) > 5, True)


def taken_is_told(story, number, row, sort, what):
    """How many sessions did not take what the tool gave there. Each acknowledges what it held, and the one that is tried comes behind: only
    where it comes is the session subscribed."""
    given = sort.name(row)
    lines = story.go_on(number - 1, [record(*story.records[number - 1])] + [
        record(BYTES + s, NO_MESSAGE + sort.ACKNOWLEDGE * sort.MOST) for s in range(4)] + [sort.TRIED])
    told = [notices(lines, s, sort) for s in range(4)]
    taken = [s for s in range(4) if (given, False) in told[s]]
    not_taken = [s for s in range(4) if told[s] and told[s][-1][1] and s not in taken]
    expect(what, row.text().rpartition(", taken by ")[2], " ".join(map(str, taken)) or "none")
    said = "%s %s: not taken; server %d has %d already"
    expect(what, [line for s in range(4) for line in story.lost(number, s)], [said % (sort.WORD, given, s, sort.MOST) for s in not_taken])
    return len(not_taken)


def test_ninth():
    """Document 01's case (l), and the results that are held at the end."""
    text = draw(made(SUBSCRIBED + "tightening\n" * 9))
    expect("labels", labels(text)[-3:], ["8: 0.00 Nm, OK, taken by 0", "9: 0.00 Nm, OK, taken by none",
                                         "lost: tightening 9: not taken; server 0 has 8 already"])
    expect("told at the end", told_at_the_end(text), "at the end server 0 has not acknowledged notice 1, tightening 1; "
           + ", ".join("tightening %d" % number for number in range(2, 9)) + " wait behind it")


def test_ways_to_lose():
    """By a stop, an unsubscribe and a start, sent or not; an identifier in whose place a newer one waits."""
    def after(lines):
        return [label for label in labels(draw(made(SUBSCRIBED + "tightening\n" * 2 + lines))) if label.startswith("lost: ")]

    for lines, when in (('bytes 0 "00200003            \\0"\n', "when the server stopped"),
                        ('bytes 0 "00200063            \\0"\n', "when the server unsubscribed"),
                        (START, "when the controller was started anew"),
                        ("hangup 0\n", "when the link went"),
                        ("tick 15\n", "when the session was closed")):
        expect(when, after(lines), ["lost: notice 1, tightening 1: sent, and not acknowledged " + when,
                                    "lost: tightening 2: waited, and was never sent; dropped " + when])
    expect("the 120th tick and the 15th of silence", after("tick 14\n" + (KEEP_ALIVE + "tick 13\n") * 7 + KEEP_ALIVE + "tick 15\n"),
           ["lost: notice 1, tightening 1: sent, and not acknowledged when the session was closed",
            "lost: tightening 2: waited, and was never sent; dropped when the session was closed"])
    expect("replaced", after('bytes 0 "002000510010        \\0"\nscan "A"\nbytes 0 "00230050001         NET\\0"\nscan "C"\n'),
           ['lost: identifier "NET": waited, and was never sent; dropped for a newer one'])


def test_acknowledges():
    """What each acknowledge closes; one that is not well made, comes twice or too early closes nothing."""
    def closes(lines):
        return [label.rpartition("closes ")[2] for label in labels(draw(made(lines))) if label.startswith("acknowledge")]

    well, twice = 'bytes 0 "00200062            \\0"\n', 'bytes 0 "00200062            \\0" "002000620009        \\0"\n'
    expect("two", closes(SUBSCRIBED + "tightening\ntightening\n" + well * 3), ["notice 1", "notice 2", "nothing"])
    expect("byte 12", closes(SUBSCRIBED + "tightening\n" + twice), ["notice 1", "nothing"])
    for wrong in ('"00210062            x\\0"', '"0020006200a         \\0"', '"0020006200109999999\\0"', '"00200053            \\0"'):
        expect(wrong, closes(SUBSCRIBED + "tightening\nbytes 0 %s\n" % wrong + well), ["nothing", "notice 1"])
    expect("not started", closes(START + "open 0\n" + well), ["nothing"])
    expect("no acknowledge asked", closes(SUBSCRIBED.replace("60001" + "0", "60001" + "1") + "tightening\n" + well), ["nothing"])


# ---- alarms

ALARMS = SUBSCRIBED.replace("0060001", "0070001")


def test_alarms():
    """What the tool says of a fault, and what its notice says: by its code and its time, and what is not ready; one that is refused."""
    for controller, tool, words in ((1, 1, "both ready"), (1, 0, "tool not ready"), (0, 1, "controller not ready"),
                                    (0, 0, "controller and tool not ready")):
        data = made(ALARMS + 'alarm code="E 7" controller_ready=%d tool_ready=%d time=2026-02-03:04:05:06\n' % (controller, tool))
        name = '"E_7" of 2026-02-03:04:05:06, ' + words
        expect("labels", labels(draw(data))[4:], [
            "subscribe to alarms", "accepted: 0070", name + ", taken by 0", "notice 1: alarm " + name])
    name = '"E404" of 2024-01-02:03:04:05, both ready'
    expect("nobody there", labels(draw(made(START + "alarm\n")))[-1], name + ", taken by none")
    expect("bad ones", labels(draw(made(START + "alarm tool_ready=2\nrecord 5 00\n")))[1:], [
        name + "; refused, 7: tool record bad", "of kind 5, 1 byte; refused, 7: tool record bad"])
    expect("copies", copies_in(draw(made(ALARMS + "alarm\nalarm\n" + TWENTY_TICKS))), [(1, 1, 2), (1, 2, 2)])
    expect("the order in a tick", [copy[0] for copy in copies_in(draw(made(
        ALARMS + 'alarm\nbytes 0 "002000600010        \\0" "002000510010        \\0"\ntightening\nscan "X"\n' + TWENTY_TICKS)))],
        [1, 2, 3, 3, 2, 1])


def test_lost_alarms():
    """The fifth, which is not taken, and those that wait at the end; by a stop, an unsubscribe, a start, a hang-up, a close; given up."""
    names = ['alarm "E00%d" of 2024-01-02:03:04:05' % i for i in range(6)]

    def alarms(count):
        return ALARMS + "".join('alarm code="E00%d"\n' % i for i in range(1, count + 1))

    def lost(lines):
        return [label[6:] for label in labels(draw(made(lines))) if label.startswith("lost: ")]

    expect("the fifth", lost(alarms(5)), [names[5] + ": not taken; server 0 has 4 already"])
    expect("told at the end", told_at_the_end(draw(made(alarms(3)))),
           "at the end server 0 has not acknowledged notice 1, %s; %s, %s wait behind it" % tuple(names[1:4]))
    for lines, when in (('bytes 0 "00200003            \\0"\n', "when the server stopped"),
                        ('bytes 0 "00200073            \\0"\n', "when the server unsubscribed"),
                        (START, "when the controller was started anew"),
                        ("hangup 0\n", "when the link went"),
                        ("tick 15\n", "when the session was closed")):
        expect(when, lost(alarms(2) + lines), ["notice 1, %s: sent, and not acknowledged %s" % (names[1], when),
                                               "%s: waited, and was never sent; dropped %s" % (names[2], when)])
    expect("not with the results", lost(alarms(2) + 'bytes 0 "002000600010        \\0" "00200063            \\0"\n'), [])
    text = draw(made(alarms(2) + TWENTY_TICKS * 6))
    expect("given up", [label for label in labels(text) if "given up" in label], [
        "lost: notice 1, %s: sent, and not acknowledged within 120 s: given up" % names[1],
        "notice 2: %s, both ready, sent as the one before is given up" % names[2]])
    expect("copies", [copy for copy, _, _ in copies_in(text)], [1] * 6 + [2])


def test_acknowledges_of_alarms():
    """A 0072 closes an alarm, and a 0062 none; a 0072 closes no result."""
    def closes(more):
        lines = ALARMS + 'bytes 0 "002000600010        \\0"\nalarm\ntightening\n' + "".join(
            'bytes 0 "0020%s            \\0"\n' % mid for mid in more)
        return [label.rpartition("closes ")[2] for label in labels(draw(made(lines))) if label.startswith("acknowledge")]

    expect("each its own", closes(("0072", "0062")), ["notice 1", "notice 2"])
    expect("the other way round", closes(("0062", "0062", "0072", "0072")), ["notice 2", "nothing", "notice 1", "nothing"])


def test_another_alarm():
    """A 0071 that tells of another alarm than the next, be it in its code, its time or in what is ready, is found out."""
    with tempfile.TemporaryDirectory() as folder:
        for other in ("s/01E404/01E405/", "s/02103/02003/", "s/03104/03004/", "s/03:04:05/03:04:06/"):
            done = call(data=made(ALARMS + "alarm\n"), replay=script(folder, "%s | sed '%s'" % (program, other)))
            expect(other, (done.returncode, done.stdout, "nothing in the journal explains" in done.stderr.decode()), (1, b"", True))


# ---- what was fetched


def fetch(session, number):
    return 'bytes %d "00300064001         %010d\\0"\n' % (session, number)


def fetched_in(text):
    """Of what is said to be lost: the number of each tightening, and the second in which it was fetched, or None."""
    found = [re.search(r"^lost: .*?tightening (\d+):.*?(?:; fetched at (\d+) s)?$", label) for label in labels(text)]
    return [(int(match[1]), match[2] and int(match[2])) for match in found if match]


def test_asked_for():
    """What is asked for and what comes of it: an old one, none that is kept, no number."""
    asked = [(1, "old tightening 1"), (0, "the newest tightening"), (2, "old tightening 2"), (9999999999, "old tightening 9999999999")]
    data = made(SUBSCRIBED + "tightening torque=4210\n" + "".join(fetch(0, number) for number, _ in asked)
                + 'bytes 0 "00300064001         000000001a\\0" "00200064001         \\0" "00310064001         00000000001\\0"\n')
    kept, not_kept = 'old tightening 1, "", 42.10 Nm, OK', "not accepted: 0064, error 15: no such result is kept"
    wrong, bad = "asks for an old tightening", "not accepted: 0064, error 01: invalid data"
    wanted = [label for (_, words), said in zip(asked, (kept, kept, not_kept, not_kept)) for label in ("asks for " + words, said)]
    expect("labels", labels(draw(data))[-14:], wanted + [wrong + ' "000000001a"', bad, wrong, bad, wrong + ' "00000000001"', bad])


def test_fetched():
    """A lost tightening says when its own server fetched it first, and is lost all the same; neither another server's fetching counts, nor
    one before a start."""
    lost = made(SUBSCRIBED + "tightening\n" * 3 + "tick\nhangup 0\ntick\n")
    again = made(SUBSCRIBE)
    for more, wanted in (("", (None, None, None)), (fetch(0, 2) + "tick\n" + fetch(0, 2), (None, 2, None)), (fetch(0, 0), (None, None, 2)),
                         (re.sub("(open|bytes) 0", r"\1 1", SUBSCRIBE) + fetch(1, 1) + fetch(0, 3), (None, None, 2)),
                         (START + SUBSCRIBE + "tightening\n" * 3 + fetch(0, 1), (None, None, None))):
        text = draw(lost + again + made(more))
        expect("fetched by %r" % more, fetched_in(text), list(zip((1, 2, 3), wanted)))
        many = sum(second is not None for second in wanted)
        expect("heading", re.search("; (.*) lost(.*); ", text.splitlines()[0]).groups(), ("3", ", 1 of them fetched later" if many else ""))
    ninth = made(SUBSCRIBED + "tightening\n" * 9 + fetch(0, 9))
    expect("the ninth, which was not taken", fetched_in(draw(ninth)), [(9, 0)])
    given_up = made(SUBSCRIBED + "tightening\n" + TWENTY_TICKS * 6 + fetch(0, 1))
    expect("one that was given up", fetched_in(draw(given_up)), [(1, 120)])


# ---- refusals, the start, the end


def test_refusals():
    data = vector("refusals.txt")
    shown = [int(number) for number in re.findall(r"refused, (\d+): (?!not named)", draw(data))]
    printed = [int(line[2:]) for line in lines_of_replay(data).decode().splitlines() if line.startswith("R ")]
    expect("numbers", shown, printed)
    expect("their sorts", sorted(set(shown)), [2, 4, 5, 6, 7, 8, 9])


def test_refused_bytes():
    """replay leaves the rest of a record once a run in it is refused."""
    data = made(START + 'bytes 0 "00200001001         \\0" "abc\\0" "de"\ntightening job=200\n')
    expect("labels", labels(draw(data))[1:], ["27 bytes; refused, 5: the session is closed", "0.00 Nm, OK; refused, 7: tool record bad"])


def test_before_a_start():
    data = made('open 0\nscan "A"\nsettings 10000 3 1 "LINE4" 0\ntick 2\n' + SUBSCRIBED + 'tick\nsettings 1 1 1 "X" 0\nopen 0\n')
    shown = rows(draw(data))
    expect("seconds", [second for second, _, _ in shown], ["-"] * 5 + ["0 s"] * 6 + ["1 s", "1 s"])
    refused = [label.rpartition("refused, ")[2][0] for _, _, label in shown[:5]]
    expect("refused with", "".join(refused), "22922")
    expect("after the second start", shown[-1][1:], ("|           |<..open.....", "server 0 calls in"))


def test_cut_record():
    whole = made(SUBSCRIBED)
    last = made("tightening torque=5")
    usual = rows(draw(whole))
    for kept, said in ((1, "1 byte of it"), (3, "3 bytes of it"), (4, "kind 1, 0 of 106 bytes"), (109, "kind 1, 105 of 106 bytes")):
        shown = rows(draw(whole + last[:kept]))
        expect("rows before the cut", shown[:-1], usual)
        expect("the cut at %d" % kept, shown[-1][2], "end: the last record is cut: " + said)
    expect("not cut", labels(draw(whole + last))[-1], 'notice 1: tightening 1, "", 0.05 Nm, OK')


def test_too_long():
    longest = record(BYTES, b"x" * 8192)
    longer = record(BYTES, b"x" * 8193)
    shown = labels(draw(made(SUBSCRIBED) + longest + longer + longest))
    expect("labels", shown[-2:], ["8192 bytes of a run that did not end",
                                  "end: a record of 8193 bytes, longer than 8192, ends the run: 16393 bytes not read"])


# ---- files, runs, texts, windows


def test_parts():
    """A journal in parts, cut between records and within one, is drawn as one."""
    data = made(read(STORY))
    whole = draw(data)
    first = len(made(SUBSCRIBED))
    with tempfile.TemporaryDirectory() as folder:
        for cuts in ((0, first), (first, first + 2, 700), (1, 2, 3)):
            edges = [0, *cuts, len(data)]
            names = []
            for number, (begin, end) in enumerate(zip(edges, edges[1:]), 1):
                names.append(os.path.join(folder, "journal.%d" % number))
                with open(names[-1], "wb") as file:
                    file.write(data[begin:end])
            title, _, text = call(*names).stdout.decode().partition(":")
            expect("title", title, ", ".join(map(os.path.basename, names)))
            expect("cut at %s" % (cuts,), text, whole.partition(":")[2])
        expect("with - among them", call(names[0], "-", data=data[1:]).stdout.decode().partition(":")[2], whole.partition(":")[2])


def test_spread_run():
    """A run that came in several records stands where it ends; one that the link took with it is not joined with the next opening's."""
    data = made(START + 'open 0\nbytes 0 "00200001001         \\0" "0020"\ntick\nbytes 0 "0060"\nbytes 0\ntick 2\n'
                'bytes 0 "0010        \\0" "002099"\nhangup 0\nopen 0\nbytes 0 "00200001001         \\0"\n')
    expect("rows", [(second, label) for second, _, label in rows(draw(data))[2:]], [
        ("0 s", "communication start"), ("0 s", "communication started"), ("1 s", "none"), ("", ""),
        ("3 s", "subscribe to tightenings, in 3 parts from second 0 on"), ("3 s", "accepted: 0060"),
        ("3 s", "6 bytes of a run that did not end"), ("3 s", "the link of server 0 is gone"), ("3 s", "server 0 calls in"),
        ("3 s", "communication start"), ("3 s", "communication started")])


def test_order_in_a_record():
    """Several messages in one record: each answer stands behind its message."""
    data = made(START + 'open 0\nbytes 0 "00200001001         \\0" "ab\\0" "00209999            \\0" "002000600010        \\0"\n')
    arrows = [re.search("[0-9]{4}|run", rails).group() for _, rails, _ in rows(draw(data))[2:]]
    expect("arrows", arrows, ["0001", "0002", "run", "9999", "9999", "0060", "0005"])


def test_texts():
    """A text reads the same where it comes in and where it goes out, and what is no text is no risk for the picture."""
    data = made(SUBSCRIBED + 'scan "BODY  7 <&>"\ntightening\nrecord 2 ' + (b"\x1b[2J" + b" " * 21).hex() + "\n")
    expect("labels", labels(draw(data))[-4:], ['"BODY__7_<&>"', "1: 0.00 Nm, OK, taken by 0",
                                               'notice 1: tightening 1, "BODY__7_<&>", 0.00 Nm, OK',
                                               '"\\x1b[2J"; refused, 7: tool record bad'])
    shown = ["".join(text.itertext()) for text in xml.etree.ElementTree.fromstring(draw(data, "--svg")).iter(SVG + "text")]
    expect("in the SVG", [text for text in shown if "BODY" in text],
           ['identifier "BODY__7_<&>"', '0061 notice 1: tightening 1, "BODY__7_<&>", 0.00 Nm, OK'])


def test_rails():
    """A session's rail is dotted where it is closed, also behind the last row and at a window's end."""
    data = made(START + "open 0\ntick 3\nhangup 0\ntick 5\n")
    open_fold, closed_fold = ".. 3 s .. : : :", ".. 5 s .. : : ."
    for options, folds in ((["--to", "2"], [".. 2 s .. : : :"]), (["--to", "3"], [open_fold]), ([], [open_fold, closed_fold])):
        shown = [" ".join(line.split()) for line in draw(data, *options).splitlines() if line.startswith("..")]
        expect("folds %s" % options, shown, folds)


def test_window():
    data = vector("s13-identifier-repeats.txt")
    text = draw(data, "--session", "1")
    expect("rails", text.splitlines()[2].split(), ["tool", "controller", "server", "1"])
    expect("notices to server 1", copies_in(text), [(2, 1, 1), (3, 1, 1), (4, 1, 1)])
    expect("seconds", rows(text)[-1], ("", 134, ""))
    both = draw(data, "--session", "0", "--session", "1")
    expect("both", both, draw(data))
    expect("from 20 to 30", [second for second, _, _ in rows(draw(data, "--from", "20", "--to", "30"))],
           ["20 s", "20 s", "20 s", "", "30 s", "30 s"])


# ---- four servers, one session, pages


def four_servers():
    return made(read(FOUR_SERVERS))


def test_places():
    """No word of an SVG picture stands on a rail: labels stand right of them all, and an arrow's word between two."""
    picture = xml.etree.ElementTree.fromstring(draw(four_servers(), "--svg"))
    rails = sorted(int(text.get("x")) for text in picture.iter(SVG + "text") if text.get("class") == "name")
    expect("rails", len(rails), 6)
    for story in os.listdir(STORIES):
        data = made(read(os.path.join(STORIES, story)))
        drawn = xml.etree.ElementTree.fromstring(draw(data, "--svg"))
        for text in drawn.iter(SVG + "text"):
            words, wide = "".join(text.itertext()), 0 if text.get("class") == "title" else 5.8
            expect("the end of " + words, float(text.get("x")) + wide * len(words) < int(drawn.get("width")), True)
    groups = [group for group in picture.iter(SVG + "g")]
    expect("rows", len(groups), len(labels(draw(four_servers()))))
    for text in (text for group in groups for text in group.findall(SVG + "text")):
        words, x = "".join(text.itertext()), float(text.get("x"))
        if text.get("class") == "word":
            half = 4 * len(words)  # no letter of that size is wider
            expect(words, any(left < x - half and x + half < right for left, right in zip(rails, rails[1:])), True)
        else:
            expect(words, x > rails[-1], True)


def test_one_session():
    """--session shows what concerns that session: its rail, the events that it took or did not take, the start."""
    text = draw(four_servers(), "--session", "1")
    expect("rails", text.splitlines()[2].split(), ["tool", "controller", "server", "1"])
    events = [label.partition(":")[0] for _, rails, label in rows(text) if isinstance(rails, str) and "tightening" in rails]
    expect("tightenings", events, [str(number) for number in range(501, 511)])
    expect("identifiers", [label for label in labels(text) if "AXLE-0002" in label], [])
    lost = [int(number) for number in re.findall(r"lost: .*?tightening (\d+):", text)]
    expect("lost", lost, [509] + list(range(501, 509)))
    events = [label for label in labels(draw(four_servers(), "--session", "2")) if ", taken by " in label]
    expect("tightenings of one that left", events, ["501: 60.10 Nm, OK, taken by 0 1 2 3", "502: 60.20 Nm, OK, taken by 0 1 2 3"])


def test_pages():
    """The pages together are the picture, whatever their size, and the numbers are the same in them."""
    data = four_servers()
    whole = draw(data)
    many, found = -(-len(labels(whole)) // 50), []
    for page in range(1, many + 1):
        text = draw(data, "--rows", "50", "--page", str(page))
        expect("heading", "page %d of %d" % (page, many) in text.splitlines()[0], True)
        found += [(second, label) for second, _, label in rows(text)]
    expect("pages", many, 3)
    expect("rows", found, [(second, label) for second, _, label in rows(whole)])
    for page in (1, 90):
        expect("a page of one row", labels(draw(data, "--rows", "1", "--page", str(page))), [labels(whole)[page - 1]])
    done = call("--page", "3", data=data)
    expect("no such page", (done.returncode, done.stdout, done.stderr), (1, b"", b"ladder: there is 1 page only\n"))
    expect("no page 0", call("--page", "0", data=data).returncode, 2)


def busy(results):
    """A journal of four servers that acknowledge so many results, five of them a second."""
    servers = "".join(re.sub("(open|bytes) 0", r"\1 %d" % session, SUBSCRIBE) for session in range(4))
    one = made("tightening") + b"".join(record(BYTES + session, ACKNOWLEDGE) for session in range(4))
    return made(START + servers) + (one * 5 + record(TICK)) * (results // 5)


# A process has at least the memory of the one that started it: so that is a small one.
MEASURE = """import resource, subprocess, sys
status = subprocess.run(sys.argv[2:], stdout=open(sys.argv[1], "wb")).returncode
print(status, resource.getrusage(resource.RUSAGE_CHILDREN).ru_maxrss)"""


def memory(data):
    """The most memory, in KiB, that drawing a page of a journal takes."""
    with tempfile.TemporaryDirectory() as folder:
        journal, drawn = os.path.join(folder, "journal"), os.path.join(folder, "drawn")
        with open(journal, "wb") as file:
            file.write(data)
        command = [sys.executable, "-c", MEASURE, drawn, LADDER, "--replay", program, "--svg", "--page", "2", journal]
        said = subprocess.run(command, stdout=subprocess.PIPE, timeout=10 * SECONDS, check=True).stdout
        status, used = map(int, said.split())
        expect("status", status, 0)
        expect("heading", b"page 2 of" in content(drawn), True)
    return used


def test_memory():
    """A journal that is five times as long takes no more memory, but for what is chance."""
    short, long = memory(busy(1000)), memory(busy(5000))
    if long > short + 4096:
        raise AssertionError("%d KiB for a journal, %d KiB for one five times as long" % (short, long))


def draw_large():
    """What four busy servers leave in a journal of 64 MiB."""
    data = busy(320000)
    began = time.monotonic()
    used = memory(data)
    print("ladder: a journal of %d bytes drawn in %d KiB of memory and %d s" % (len(data), used, time.monotonic() - began))
    return 0 if len(data) >= 64 << 20 and used * 1024 < 500_000_000 else 1


def test_growing():
    """A journal that grows while it is read is drawn as it was."""
    data = made(read(STORY))
    with tempfile.TemporaryDirectory() as folder:
        journal = os.path.join(folder, "journal")
        with open(journal, "wb") as file:
            file.write(data)
        grows = script(folder, "printf '\\0\\0\\100\\0' >> %s; exec %s\n" % (journal, program))
        expect("picture", call(journal, replay=grows).stdout.decode(), draw(data))
        expect("bytes more", len(content(journal)), len(data) + 4)


def test_usual_program():
    """Without --replay the program is the one that the repository builds."""
    done = subprocess.run([LADDER], input=four_servers(), capture_output=True, timeout=SECONDS, check=False)
    expect("picture", (done.returncode, done.stderr, done.stdout.decode()), (0, b"", draw(four_servers())))


# ---- what can't be drawn


def script(folder, text):
    path = os.path.join(folder, "replay")
    with open(path, "w", encoding="utf-8") as file:
        file.write("#!/bin/sh\n" + text)
    os.chmod(path, 0o755)
    return path


def test_faults():
    """A clear error, status 1 and no picture."""
    data = made(SUBSCRIBED + 'open 0\nbytes 1 "a\\0b\\0"\n') + made("tightening")[:50]
    wrong = [
        ("cat > /dev/null", "its lines can't be told apart"),
        ("%s | sed '/^R 4/d'" % program, "its lines can't be told apart"),
        ("%s | sed '$d'" % program, "its lines can't be told apart"),
        ("%s | sed 's/^R 9/R 7/'" % program, "its lines can't be told apart"),
        ("%s | sed 's/^R 9/R 8\\nR 9/'" % program, "more beside a refusal"),
        ("%s | awk '!/^R 5/ || ! many++'" % program, "one behind it answered"),
        ("(cat; head -c 60 /dev/zero | tr '\\0' z) | %s" % program, "went on where the run ends"),
        ("%s; echo R 5" % program, "went on where the run ends"),
        ("%s; echo hello" % program, "no line of it"),
        ("%s; exit 3" % program, "ended with status 3"),
    ]
    with tempfile.TemporaryDirectory() as folder:
        for text, said in wrong:
            done = call(data=data, replay=script(folder, text))
            expect(text, (done.returncode, done.stdout, said in done.stderr.decode()), (1, b"", True))
        done = call("--to", "2026-01-31T23:59", data=data)
        expect("no times", (done.returncode, done.stdout, "no times of day" in done.stderr.decode()), (1, b"", True))
        expect("no moment", call("--to", "noon", data=data).returncode, 2)
        table = script(folder, "no table")
        done = call("--table", table, data=data)
        expect("no table", (done.returncode, done.stdout, done.stderr.decode()), (1, b"", "ladder: %s is no table\n" % table))
        done = call(os.path.join(folder, "nothing"))
        expect("no such file", (done.returncode, done.stderr.decode().endswith("nothing: No such file or directory\n")), (1, True))
        done = call(replay=os.path.join(folder, "nothing"))
        expect("no such program", (done.returncode, done.stderr.decode().endswith("nothing: No such file or directory\n")), (1, True))


def main(arguments):
    global program
    if not arguments:
        sys.exit(__doc__)
    program = os.path.abspath(arguments[0])
    if arguments[1:] == ["--draw"]:
        for path, drawn in pictures():
            with open(path, "wb") as file:
                file.write(drawn)
        return 0
    if arguments[1:] == ["--large"]:
        return draw_large()
    tests = [(name[5:].replace("_", " "), test) for name, test in globals().items() if name.startswith("test_")]
    wrong = 0
    for name, test in tests:
        try:
            test()
            print("ladder: %-32s right" % name)
        except Exception as error:  # whatever it is, the other tests are run too
            wrong += 1
            print("ladder: %-32s WRONG\n%s: %s" % (name, type(error).__name__, error))
    print("ladder: %d right, %d wrong" % (len(tests) - wrong, wrong))
    return 1 if wrong else 0


if __name__ == "__main__":
    sys.exit(main(sys.argv[1:]))
