#!/usr/bin/env python3
"""Says how often the generated histories reach what is rare.

    reached.py PROGRAM [--count N] [--first-seed N]

What was sent is read off the records. What a tick gave up, in which revisions results went out and
with which limits, how 0060, 0064 and 0070 to 0073 were answered, what became of alarms, and which results
waited for whom, is read off the lines of a test program, which is given received bytes run by run and a
hang-up of session 15 behind each record: 'R 4' ends its lines."""

import argparse
import collections
import re
import subprocess
from dataclasses import dataclass

import generate  # which puts tools on the path
from generate import LIMITS
from house_records import (ALARM, BYTES, GREATEST_NUMBER, HANG_UP, LIMIT, NEVER_SET, OPEN, PAYLOADS, SCANNED, SETTINGS, TICK, TIGHTENING,
                           fields_of, record, split)
from openprotocol import LAYOUTS, RESULT

MARKER = record(HANG_UP + 15)
NO_DIGITS = b"/:;<=>?"
GIVEN_UP_WHOLE = 7  # of eight held seven are sent when the one before them is given up, within 840 ticks
KEPT = 64  # tightenings
ALARMS_HELD, GIVEN_UP_AFTER = 4, 120  # by a session; ticks of one that is open
RESULTS_HELD, PLACES = 8, 32  # results by a session, and how many different ones can wait in all


@dataclass
class Result:
    """What a line shows of an 0061."""
    session: int
    revision: int
    number: int
    none: list  # the limits that are none


def result_in(line):
    """None where the line shows no 0061."""
    found = re.match(r"(\d) S (\d{4}0061(\d{3}).*)", line)
    if not found:
        return None
    places = LAYOUTS[RESULT, int(found[3])].places
    none = [name for name in LIMITS if not found[2][places[name]].strip("_")]
    return Result(int(found[1]), int(found[3]), int(found[2][places["number"]]), none)


class Reached:
    def __init__(self):
        self.seen = collections.defaultdict(set)
        self.times = collections.Counter()

    def run(self, run):
        """A run that was sent, whether or not its session was there."""
        if len(run) < 20:
            return
        places = [place for place in range(11) if run[place] in NO_DIGITS]
        rest = bytes(0x30 if place in places else byte for place, byte in enumerate(run[:11]))
        if len(places) == 1 and rest.isdigit():
            self.times["a run with one of / : ; < = > ? as a digit"] += 1
        if not run[:8].isdigit() or int(run[:4]) != len(run):
            return
        self.seen["values of byte 12, of 255"].add(run[11])
        if not run[8:11].isdigit() or run[11] not in b" 01":
            return
        mid = int(run[4:8])
        self.seen["message numbers, of 10,000"].add(mid)
        if mid in (51, 60, 70):
            self.seen["revisions of 00%d, of 1,000" % mid].add(int(run[8:11]))
        if mid == 50:
            self.seen["byte values in 0050's data, of 255"].update(run[20:])

    def records(self, records):
        sent = collections.defaultdict(bytes)
        for record_kind, payload in records:
            if BYTES <= record_kind < BYTES + 4:
                *runs, sent[record_kind] = (sent[record_kind] + payload).split(b"\0")
                for run in runs:
                    self.run(run)
            elif OPEN <= record_kind < BYTES:
                sent[BYTES + record_kind % 16] = b""
            elif (record_kind in PAYLOADS and len(payload) > PAYLOADS[record_kind].size
                  and (len(payload) - PAYLOADS[record_kind].size) % 256 == 0):
                self.times["a record whose length is wrong in its upper byte only"] += 1

    def identifiers(self, groups):
        """0052 in each revision, and in both at once: a call's frames stand one behind the other, the shorter behind the longer too."""
        for _, _, lines in groups:
            revisions = re.findall(r"^\d S \d{4}0052(\d{3})", "\n".join(lines), re.M)
            for revision in revisions:
                self.times["0052 in revision %s" % revision] += 1
            self.times["a call that sends 0052 in both revisions"] += len(set(revisions)) == 2

    def given_up(self, groups):
        """`groups`: a record, and its lines. A notice that a tick sends for the first time comes behind one given up."""
        newest, in_a_row, whole = {}, collections.Counter(), False
        for record_kind, _, lines in groups:
            for line in lines:
                found = re.match(r"(\d) S \d{4}(0052|0061|0071)", line)
                if not found:
                    continue
                queue = found.groups()
                if record_kind != TICK:
                    in_a_row[queue] = 0
                elif newest.get(queue) != line:
                    in_a_row[queue] += 1
                    self.times["a notice given up and the next sent"] += 1
                    self.times["an alarm given up and the next sent"] += queue[1] == "0071"
                    self.times["the second in a row given up"] += in_a_row[queue] == 2
                    whole = whole or in_a_row[queue] == GIVEN_UP_WHOLE
                newest[queue] = line
        self.times["a history in which a queue of eight is given up whole"] += whole


class Memory:
    """What a history's tightenings are, and what became of the 0064 that asked for them. `times` counts it."""

    def __init__(self, times):
        self.times, self.sent, self.when, self.came = times, collections.defaultdict(bytes), collections.Counter(), {}
        self.begin(0)

    def begin(self, last):
        self.before = self.came  # the numbers of tightenings before the start
        self.last, self.came, self.step = last, {}, 0
        self.blank, self.none = set(), set()  # the numbers of those without an identifier, and of those with a limit that is none
        self.when.clear()
        self.sent.clear()

    def kept(self):
        return min(len(self.came), KEPT)

    def record(self, record_kind, payload, lines):
        """A record that was given, and its lines. Steps tell what came before what."""
        done = not any(line.startswith("R ") for line in lines)
        self.step += 1
        if record_kind == SETTINGS and done:
            self.begin(fields_of(record_kind, payload)["last"])
        elif record_kind == TIGHTENING and done:
            self.tightened(payload)
        elif record_kind == TIGHTENING and "R 8" in lines:
            self.when["8"] = self.step
        elif record_kind == SCANNED and done:
            self.when["scan"] = self.step
        elif HANG_UP <= record_kind < BYTES and done:
            self.when["hang-up"] = self.step
            self.sent.pop(record_kind - HANG_UP + BYTES, None)
        elif record_kind == TICK and any(line.endswith(" C") for line in lines):
            self.when["time-out"] = self.step
        elif BYTES <= record_kind < BYTES + 4:
            self.bytes(record_kind, payload, lines)
        for line in lines:
            if (result := result_in(line)) and result.number <= self.last - KEPT:
                self.times["0061 of a tightening that is kept no more"] += 1

    def tightened(self, payload):
        self.last += 1
        self.came[self.last] = self.step
        if not payload[:25].strip():
            self.blank.add(self.last)
        if None in fields_of(TIGHTENING, payload).values():
            self.none.add(self.last)

    def bytes(self, record_kind, payload, lines):
        *runs, self.sent[record_kind] = (self.sent[record_kind] + payload).split(b"\0")
        asked = [run for run in runs if len(run) >= 20 and run[4:8] == b"0064"]
        replies = [line for line in lines if re.match(r"\d S (\d{4}0065|\d{4}0004.{12}0064)", line)]
        for run, line in zip(asked, replies) if len(asked) == len(replies) else ():
            self.answered(run, line)
        if any(re.match(r"\d S 00240005.{12}0003", line) for line in lines):
            self.when["0003"] = self.step

    def answered(self, run, line):
        error = None if line[8:12] == "0065" else int(line[-2:])
        if error is None:
            self.found(int(run[20:]), int(line[26:36]))
        elif error == 15:
            self.not_found(int(run[20:]))
        elif error == 1:
            self.count("0064 gets 01 for its %s" % ("length" if len(run) != 30 else "spaces" if b" " in run[20:] else "digits"))
        else:
            self.count("0064 gets %d" % error)

    def count(self, what, how_often=True):
        self.times[what] += how_often

    def found(self, asked, number):
        self.count("0065 sent")
        self.count("0065 of the newest, asked for by 0", asked == 0)
        self.count("0065 of the newest, asked for by its number", asked == self.last)
        self.count("0065 of the oldest of 64", number == self.last - KEPT + 1)
        self.count("0065 after more than 64 tightenings", len(self.came) > KEPT)
        self.count("0065 with the number 4,294,967,295", number == GREATEST_NUMBER)
        self.count("0065 of a tightening with a limit that is none", number in self.none)
        self.count("0065 behind a tightening refused with 8", self.when["8"] > 0)
        for end in ("hang-up", "0003", "time-out"):
            self.count("0065 of a tightening from before a %s" % end, self.came.get(number, self.step) < self.when[end])
        self.count("0065 with an identifier that is in force no more",
                   number in self.blank and self.came[number] < self.when["scan"])

    def not_found(self, asked):
        wrapped = asked % (GREATEST_NUMBER + 1)
        self.count("0064 gets 15")
        self.count("0064 gets 15 for 0, none being kept", asked == 0)
        self.count("0064 gets 15 for one older than the oldest of 64", asked == self.last - KEPT and len(self.came) > KEPT)
        self.count("0064 gets 15 for the number behind the newest", asked == self.last + 1)
        self.count("0064 gets 15 for one from before the start", asked in self.before)
        self.count("0064 gets 15 for one that wraps to one kept",
                   asked > GREATEST_NUMBER and (wrapped == 0 or wrapped > self.last - self.kept()) and wrapped <= self.last)


class Results:
    """In which revisions a history's results were sent, with which limits, and how subscriptions to them changed. `times` counts it."""

    def __init__(self, times):
        self.times = times
        self.begin(0)

    def begin(self, last):
        self.last, self.newest = last, collections.Counter()  # the last number, and the newest that was sent to each session
        self.sent = collections.defaultdict(bytes)
        self.asked, self.ended = {}, {}  # by session: the revision and the last number when it was asked for; what was ended

    def record(self, record_kind, payload, lines):
        done = not any(line.startswith("R ") for line in lines)
        if record_kind == SETTINGS and done:
            self.begin(fields_of(record_kind, payload)["last"])
        self.last += record_kind == TIGHTENING and done
        if OPEN <= record_kind < BYTES and done:
            self.forget(record_kind % 16)
        self.results(record_kind, [result for line in lines if (result := result_in(line))])
        if record_kind == TIGHTENING:
            self.tightening(fields_of(record_kind, payload), lines)
        if BYTES <= record_kind < BYTES + 4:
            self.bytes(record_kind - BYTES, payload, lines)
        for line in lines:
            if re.match(r"\d C|\d S 00240005.{12}0003", line):
                self.forget(int(line[0]))

    def tightening(self, fields, lines):
        """With which torques, angles and limits it is refused, and with which limits at an edge it is not."""
        for name, item in PAYLOADS[TIGHTENING].items.items() if fields else ():
            value, of = fields[name], "a limit" if item.sort == LIMIT else "its " + name
            if "R 7" in lines and item.size == 4 and value in (item.greatest + 1, NEVER_SET - 1, NEVER_SET):
                self.times["a tightening gets 7 for %s of %s" % (of, format(value, ","))] += 1
            elif item.sort == LIMIT and value in (item.greatest, 65535) and not any(line.startswith("R ") for line in lines):
                self.times["a limit of %s" % format(value, ",")] += 1

    def forget(self, s):
        for kept in (self.sent, self.asked, self.ended):
            kept.pop(s, None)

    def results(self, record_kind, results):
        """A result that is sent for the first time by another record than its own has waited."""
        for result in results:
            waited = record_kind != TIGHTENING and result.number > self.newest[result.session]
            self.result(result, waited, record_kind == TICK and not waited)
            self.newest[result.session] = result.number
        together = len({result.revision for result in results})
        if together > 1:
            self.times["a call that sends 0061 in %d revisions" % together] += 1
            self.times["a call that sends 0061 in several revisions, each with a limit that is none"] += all(one.none for one in results)

    def result(self, result, waited, once_more):
        """One that was sent."""
        for what, so in (("0061", True), ("0061 of a result that waited,", waited), ("0061 once more,", once_more)):
            sent = "%s in revision %d" % (what, result.revision)
            self.times[sent] += so
            self.times[sent + ", with a limit that is none"] += so and bool(result.none)
            self.times[sent + ", with the number 4,294,967,295"] += so and result.number == GREATEST_NUMBER
        if len(result.none) in (1, len(LIMITS)):
            alone = result.none[0] if len(result.none) == 1 else "all six limits"
            self.times["0061 in revision %d, %s none" % (result.revision, alone)] += 1

    def bytes(self, s, payload, lines):
        *runs, self.sent[s] = (self.sent[s] + payload).split(b"\0")
        asked = [run for run in runs if len(run) >= 20 and re.match(rb"\d{4}006[03](\d{3}|   )[01 ]", run)]
        replies = [line for line in lines if re.match(r"\d S \d{4}000[45].{12}006[03]", line)]
        for run, line in zip(asked, replies) if len(asked) == len(replies) else ():
            revision = int(run[8:11].replace(b"   ", b"001")) or 1
            if line[8:12] == "0004":
                self.refused(revision, line[-6:])
            elif run[4:8] == b"0063":
                self.unsubscribed(s)
            else:
                self.subscribed(s, revision)

    def refused(self, revision, said):
        if said == "006097":
            self.times["0060 gets 97 in %s" % ("revision %d" % revision if revision in (7, 8, 998, 999) else "another revision")] += 1

    def unsubscribed(self, s):
        """The newest result came when there was a subscription, and was not sent: so some wait."""
        revision, last = self.asked.pop(s, (0, self.last))
        self.ended[s] = revision, self.last > max(last, self.newest[s])

    def subscribed(self, s, revision):
        self.asked[s] = revision, self.last
        before, waiting = self.ended.pop(s, (revision, False))
        self.times["results subscribed to anew in another revision"] += before not in (0, revision)
        self.times["results subscribed to anew in another revision, some had waited"] += before not in (0, revision) and waiting


class Alarms:
    """What became of a history's alarms. `times` counts it. How many a session holds is counted along: by records, lines and 0072."""

    def __init__(self, times):
        self.times = times
        self.begin(0)

    def begin(self, last):
        self.last = last
        self.sent = collections.defaultdict(bytes)
        self.free = {}  # by session that is subscribed: whether no acknowledge is asked
        self.held, self.clock = collections.Counter(), collections.Counter()

    def count(self, what, how_often=True):
        self.times[what] += how_often

    def record(self, record_kind, payload, lines):
        done = not any(line.startswith("R ") for line in lines)
        if record_kind == SETTINGS and done:
            self.begin(fields_of(record_kind, payload)["last"])
        self.last += record_kind == TIGHTENING and done
        if record_kind in (ALARM, SCANNED) and "R 7" in lines:
            self.bad(record_kind, payload)
        elif record_kind == ALARM and done:
            self.alarm(lines)
        elif HANG_UP <= record_kind < BYTES and done:
            self.ended(record_kind - HANG_UP, "a hang-up")
        elif record_kind == TICK:
            self.tick(lines)
        elif BYTES <= record_kind < BYTES + 4:
            self.bytes(record_kind - BYTES, payload, lines)

    def bad(self, record_kind, payload):
        """A bad record of kind 5, or of kind 2 with an alarm's payload."""
        fields = fields_of(ALARM, payload)
        if record_kind == SCANNED:
            self.count("a record of kind 2 with an alarm's bytes gets 7", bool(fields) and fields["tool_ready"] < 2)
        elif not fields:
            self.count("an alarm gets 7 for its length")
        elif payload.isascii() and payload.decode().isprintable() and b":" not in fields["time"]:
            self.count("a record of kind 5 with 25 bytes of text gets 7")
        else:
            ready = (fields["controller_ready"], fields["tool_ready"])
            self.count("an alarm gets 7 for a ready byte of 2", 2 in ready)
            self.count("an alarm gets 7 for a ready byte that is a digit", bool({48, 49} & {*ready}))
            self.count("an alarm gets 7 for its code or time", max(ready) < 2)

    def alarm(self, lines):
        self.count("an alarm done when the last number is used up", self.last == GREATEST_NUMBER)
        self.count("0071 of an alarm that has come", sum(" S 00530071" in line for line in lines))
        for s, free in self.free.items():
            self.count("an alarm to a session that asked no acknowledge", free)
            self.count("an alarm to a session that holds four", self.held[s] == ALARMS_HELD)
            if not free and self.held[s] < ALARMS_HELD:
                self.held[s] += 1

    def tick(self, lines):
        of_sessions = [[line[8:12] for line in lines if line.startswith("%d S" % s)] for s in range(4)]
        self.count("0071 of a tick", sum(mids.count("0071") for mids in of_sessions))
        self.count("a tick with 0052, 0061 and 0071 for one session", ["0052", "0061", "0071"] in of_sessions)
        self.count("a tick with 0052, 0061 and 0071 for four sessions", of_sessions == 4 * [["0052", "0061", "0071"]])
        self.count("a tick with 0071 for one session and a notice for a later one",
                   any("0071" in mids and any(of_sessions[s + 1:]) for s, mids in enumerate(of_sessions)))
        for s in range(4):
            if "%d C" % s in lines:
                self.ended(s, "a time-out")
            self.clock[s] += self.held[s] > 0
            if self.clock[s] == GIVEN_UP_AFTER:
                self.closed(s)

    def closed(self, s):
        self.held[s], self.clock[s] = max(self.held[s] - 1, 0), 0

    def ended(self, s, how):
        self.count("%s with an alarm open" % how, self.held[s] > 0)
        self.count("%s with alarms waiting" % how, self.held[s] > 1)
        self.free.pop(s, None)
        self.held[s] = self.clock[s] = 0
        if how != "0073":
            self.sent.pop(s, None)

    def bytes(self, s, payload, lines):
        """What several messages of one record come to is read off only where each has its reply, or none can have one."""
        *runs, self.sent[s] = (self.sent[s] + payload).split(b"\0")
        runs = [run for run in runs if len(run) >= 20 and re.match(rb"\d{8}(\d{3}|   )[01 ]", run) and int(run[:4]) == len(run)]
        self.count("0071 by an 0072", sum("S 00530071" in line for line in lines))
        asked = [run for run in runs if run[4:8] in (b"0003", b"0070", b"0072", b"0073")]
        replies = [line for line in lines if re.match(r"\d S \d{4}000[45].{12}00(03|70|73)", line)]
        if len(replies) != sum(run[4:8] != b"0072" for run in asked):
            return
        for run in asked:
            if run[4:8] == b"0072":
                self.acknowledged(s, run)
            else:
                self.answered(s, run, replies.pop(0))
        for line in lines:
            self.count("0071 from a server gets 99", line.endswith("007199"))
            self.count("0074 to 0078 from a server get 99", bool(re.search(r"0004.{12}007[4-8]99$", line)))

    def acknowledged(self, s, run):
        if s not in self.free:
            self.count("0072 without a subscription")
        elif len(run) != 20:
            self.count("0072 of wrong length with an alarm open", self.held[s] > 0)
        else:
            self.count("0072 with no alarm open", self.held[s] == 0)
            self.count("0072 that lets the next alarm out", self.held[s] > 1)
            self.closed(s)

    def answered(self, s, run, line):
        mid, refused = run[4:8].decode(), line[8:12] == "0004"
        if refused and mid != "0003":
            self.count("%s gets %s" % (mid, line[-2:]))
            self.count("0070 gets 97 where it is subscribed", line[-6:] == "007097" and s in self.free)
        elif mid == "0070":
            self.count("0070 accepted, asking no acknowledge", run[11:12] == b"1")
            self.free[s] = run[11:12] == b"1"
        elif not refused:
            self.count("0073 accepted", mid == "0073")
            self.ended(s, mid)


class Waiting:
    """Which results a history's sessions hold, the open one first, by their numbers; how many different ones there are, which need a place
    each; and in which ways they are gone. `times` counts it, `seen` has the values. What is sent is held against it."""

    def __init__(self, times, seen):
        self.times, self.seen, self.ended = times, seen, collections.Counter()
        self.begin(0)

    def begin(self, last):
        """By the ways in which results are gone from the last session that held them: how many places that freed. A start frees all."""
        self.ended = collections.Counter({"a start": self.ended["a start"]})
        self.last, self.came = last, 0  # how many came to wait
        self.sent, self.held, self.clock = collections.defaultdict(bytes), collections.defaultdict(list), collections.Counter()
        self.asks = {}  # by session that is subscribed: whether acknowledges are asked
        self.when, self.gone = {}, collections.defaultdict(set)  # by number: when it came to wait; how it was gone from a session

    def count(self, what, how_often=True):
        self.times[what] += how_often

    def waiting(self):
        return {number for numbers in self.held.values() for number in numbers}

    def record(self, record_kind, payload, lines):
        done = not any(line.startswith("R ") for line in lines)
        if record_kind == SETTINGS and done:
            self.ended["a start"] += len(self.waiting())
            self.begin(fields_of(record_kind, payload)["last"])
        elif record_kind == TIGHTENING and done:
            self.tightening()
        elif HANG_UP <= record_kind < BYTES and done:
            self.unsubscribed(record_kind - HANG_UP, "a hang-up")
            self.sent.pop(record_kind - HANG_UP, None)
        elif record_kind == TICK:
            self.tick(lines)
        elif BYTES <= record_kind < BYTES + 4:
            self.bytes(record_kind - BYTES, payload, lines)
        for result in filter(None, map(result_in, lines)):
            self.told(result, record_kind)

    def tightening(self):
        self.last += 1
        waiting = self.waiting()
        takers = [s for s, asked in self.asks.items() if asked and len(self.held[s]) < RESULTS_HELD]
        self.seen["how many results wait at once, 0 to 32"].add(len(waiting))
        self.count("a tightening while 32 results wait", len(waiting) == PLACES)
        if not takers:
            return
        self.count("a result that comes to wait in %d session%s" % (len(takers), "s"[len(takers) == 1:]))
        self.count("a result that takes the last of 32 places, in a session that holds seven",
                   len(waiting) == PLACES - 1 and len(self.held[takers[0]]) == RESULTS_HELD - 1)
        for way, ended in self.ended.items():
            self.count("a result that needs one of the places that %s freed" % way, len(waiting) + ended >= PLACES)
        for s in takers:
            self.held[s].append(self.last)
        self.came += 1
        self.when[self.last] = self.came

    def told(self, result, record_kind):
        """A result that was sent, to one that acknowledges: the first that it holds."""
        s, number = result.session, result.number
        if not self.asks.get(s):
            return
        if self.held[s][:1] != [number]:
            raise SystemExit("reached: session %d is sent %d, and holds %s" % (s, number, self.held[s]))
        if record_kind != TIGHTENING:
            for way in self.gone[number]:
                self.count("0061 of a result that %s ended in another session" % way)
            self.count("0061 of a result since which 32 or more came to wait", self.came - self.when[number] >= PLACES)

    def end(self, s, way, count):
        """Of the results of a session the first are gone."""
        ended, self.held[s] = self.held[s][:count], self.held[s][count:]
        left = self.waiting()
        for number in ended:
            self.gone[number].add(way)
        self.ended[way] += len([number for number in ended if number not in left])
        self.clock[s] = 0

    def unsubscribed(self, s, way):
        self.asks.pop(s, None)
        self.end(s, way, RESULTS_HELD)

    def tick(self, lines):
        for s in range(4):
            if "%d C" % s in lines:
                self.unsubscribed(s, "a time-out")
                self.sent.pop(s, None)
            self.clock[s] += bool(self.held[s])
            if self.clock[s] == GIVEN_UP_AFTER:
                self.end(s, "giving up", 1)

    def bytes(self, s, payload, lines):
        """One run ends, at most."""
        *runs, self.sent[s] = (self.sent[s] + payload).split(b"\0")
        for run in runs:
            if len(run) == 20 and re.match(rb"0020(0003|006[023])(\d{3}|   )[01 ]", run):
                self.message(s, run, any(re.match(r"\d S 00240005.{12}%s" % run[4:8].decode(), line) for line in lines))

    def message(self, s, run, accepted):
        if run[4:8] == b"0062" and s in self.asks:
            self.end(s, "an acknowledge", 1)
        elif run[4:8] == b"0060" and accepted:
            self.asks[s] = run[11:12] != b"1"
        elif accepted:
            self.unsubscribed(s, run[4:8].decode())


def run_by_run(records):
    """The same records, where received bytes are cut behind each NUL, which does not matter to any call."""
    for record_kind, payload in records:
        pieces = re.findall(rb"[^\0]*\0|[^\0]+", payload) if BYTES <= record_kind < BYTES + 4 else []
        yield from ((record_kind, piece) for piece in pieces or [payload])


def groups_of(program, records):
    """Each record with its lines. Records to sessions that there are not are left out: they print what the marker does."""
    records = [(record_kind, payload) for record_kind, payload in run_by_run(records)
               if not (16 <= record_kind < 64 and record_kind % 16 > 3)]
    data = b"".join(record(record_kind, payload) + MARKER for record_kind, payload in records)
    done = subprocess.run([program], input=data, capture_output=True, timeout=60, check=True)
    texts = done.stdout.decode("latin-1").split("R 4\n")
    return ((record_kind, payload, text.split("\n")) for (record_kind, payload), text in zip(records, texts))


def main():
    parser = argparse.ArgumentParser(description=__doc__.splitlines()[0])
    parser.add_argument("program")
    parser.add_argument("--count", type=int, default=300)
    parser.add_argument("--first-seed", type=int, default=1)
    options = parser.parse_args()
    reached = Reached()
    for seed in range(options.first_seed, options.first_seed + options.count):
        made = generate.History(seed, 500)
        made.before_start = lambda: None  # before a start the marker prints R 2
        records, _ = split(made.make())
        reached.records(records)
        groups = list(groups_of(options.program, records))
        reached.identifiers(groups)
        reached.given_up(groups)
        readers = [reader(reached.times) for reader in (Memory, Results, Alarms)] + [Waiting(reached.times, reached.seen)]
        for group in groups:
            for reader in readers:
                reader.record(*group)
    for what, values in sorted(reached.seen.items()):
        print("%-64s %d" % (what, len(values)))
    for what, times in sorted(reached.times.items()):
        print("%-64s %d times" % (what, times))
    print("reached: %d histories" % options.count)


if __name__ == "__main__":
    main()
