"""The journal: replay prints of it what the servers saw."""

import collections
import contextlib
import os
import random
import re
import select
import socket
import time

import generate
from harness import (ALARM, BYTES, HANG_UP, OPEN, SCANNED, SETTINGS, TICK, TIGHTENING, InTime, alarm_fields, alarm_record, check, content,
                     equal, identifier_record, in_memory, openprotocol, record, split, test, tightening_fields, tightening_record)

TICK_SECONDS = 0.03
SAID = [1, 50, 51, 51, 53, 53, 60, 60, 60, 62, 62, 62, 62, 54, 63, 64, 64, 70, 70, 70, 72, 72, 73, 9999, 9999, 1234]  # by servers


def alarm_name(fields):
    """How the log names an alarm."""
    return 'alarm "%(code)s" of %(time)s' % fields


def names_of(server):
    """The results and alarms that came to a server, as the log names them."""
    told = [openprotocol.read(run) for run in server.seen if run[4:8] in (b"0061", b"0071")]
    return ["result %d" % frame.fields["number"] if frame.mid == openprotocol.RESULT else alarm_name(frame.fields) for frame in told]


class Play:
    """A host's life with four servers that come, subscribe, acknowledge or not, leave, are cut, fall silent and time out."""

    def __init__(self, place, seed):
        self.place, self.source = place, random.Random(seed)
        self.servers = []  # in the order in which they were let in
        self.number = self.alarms = self.refused = 0
        self.answers = []  # to the tightenings and alarms

    def here(self):
        return [server for server in self.servers if server.open]

    def enter(self):
        """A further server, if there is room: it is let in when it is answered."""
        server = self.place.server(self.host)
        with contextlib.suppress(ConnectionError):
            server.tell(openprotocol.START)
        in_time = InTime("an answer to a 0001, or the end")
        while in_time() and not server.seen and server.take():
            pass
        if server.seen:
            self.servers.append(server)

    def leave(self, server):
        """The link is ended by this end: cut, or in order, when all is read that was sent before."""
        if self.source.random() < 0.5:
            server.reads_all = False
            server.cut()
        else:
            with contextlib.suppress(OSError):  # the host may have closed it
                server.link.shutdown(socket.SHUT_WR)
            server.until_closed()

    def settle(self, server):
        """Reads all that is there for it; False if the host has closed it."""
        mark = openprotocol.message(openprotocol.KEEP_ALIVE, rest=b"%08d" % len(server.seen))[:-1]
        with contextlib.suppress(ConnectionError):
            server.send(b"\0" + mark + b"\0")
        in_time = InTime("the mirror of a 9999, or the end")
        while server.open and mark not in server.seen and in_time():
            server.take()
        return server.open

    def speak(self, server):
        mid = self.source.choice(SAID)
        data = b"NET" if mid == 50 else b"%010d" % self.source.randrange(self.number + 3) if mid == 64 else b""
        with contextlib.suppress(ConnectionError):
            revisions = b"1112" if mid == 70 else b"11122567"
            server.tell(mid, revision=b"00%c" % self.source.choice(revisions), byte_12=b"%c" % self.source.choice(b"  1"), data=data)

    def fall_silent(self):
        """One of them says nothing more until the host closes it, while the others speak on."""
        if not self.here():
            self.enter()
        silent = self.source.choice(self.here())
        in_time = InTime("a silent one is closed")
        while silent.open and in_time():
            for server in self.here():
                if server is not silent:
                    self.settle(server)
            if select.select([silent.link], [], [], TICK_SECONDS)[0]:
                silent.take()

    def step(self):
        chance = self.source.random()
        here = self.here()
        if chance < 0.08:
            self.enter()
        elif chance < 0.11 and here:
            self.leave(self.source.choice(here))
        elif chance < 0.3:
            self.number += 1
            self.answers.append(self.tool.give(tightening_record(tightening_fields(self.number))))
        elif chance < 0.33:
            self.tool.give(identifier_record("CAR %d" % self.source.randrange(1000)))
        elif chance < 0.4:
            self.alarms += 1
            self.answers.append(self.tool.give(alarm_record(alarm_fields(self.alarms))))
        elif chance < 0.42:
            self.refused += 1
            self.tool.give(record(7, b"bad"))
        elif chance < 0.45:
            time.sleep(TICK_SECONDS * self.source.randrange(8))  # so that something times out now and then
        elif here:
            self.speak(self.source.choice(here[:3]))

    def run(self, steps, *more):
        self.host = self.place.host(*more, tick=int(TICK_SECONDS * 1000))
        self.tool = self.place.tool()
        for i in range(1, steps + 1):
            self.step()
            if i % 300 == 0:
                self.fall_silent()
        for server in self.here():
            self.settle(server)
        self.tool.close()
        self.place.finish(self.host, self.servers, [7] * self.refused)
        return self.place.replayed()[0]


    def taken(self):
        """The results and alarms that were taken, as (server, kind, name in the log)."""
        servers, answers, now, alarms = iter(self.servers), iter(self.answers), {}, 0
        for record_kind, payload in self.place.journaled():
            if OPEN <= record_kind < HANG_UP:
                now[record_kind - OPEN] = next(servers)
            elif record_kind in (TIGHTENING, ALARM):
                sessions, number = re.fullmatch(r"0 done, taken by (none|[0-3 ]+?)(?:, number (\d+))?", next(answers)).groups()
                alarms += record_kind == ALARM
                name = "result " + number if number else alarm_name(alarm_fields(alarms))
                yield from ((now[int(session)], record_kind, name) for session in sessions.split() if session != "none")

    def check_losses(self):
        """Each result and each alarm that was taken came to its server, or a line of the log says that it was not sent; no line says so of
        one that came. Answers how many each sort of line was of, of results and of alarms."""
        lines = {(int(port), name): how for port, name, how in
                 re.findall(r"Z session \d [0-9.]+:(\d+): ((?:result|alarm) .*?) ((?:not|given|dropped)[a-z ,]+): ", self.host.log())}
        counts, came = collections.Counter(), {server: names_of(server) for server in self.servers}
        for server, record_kind, name in self.taken():
            copies = came[server].count(name)
            how = lines.get((server.port, name))
            counts[record_kind, how] += 1
            unread = not server.reads_all and copies == 0
            if how == "dropped, not sent":
                equal(copies, 0, "copies of %s, which a line says was not sent" % name)
            elif how == "given up":
                check(copies == 6 or not server.reads_all, "%d copies of %s, which was given up", copies, name)
            else:
                check(copies > 0 or unread, "%s did not come to its server, and the log says %s", name, how)
        return counts


@test
def the_journal_replays(place):
    """Four servers that come and go, are cut and time out: replay prints of the journal what each of them saw, and the log tells of each
    result and each alarm that did not come to them."""
    play = Play(place, 3)
    openings = play.run(900)
    losses = play.check_losses()
    for record_kind, words in ((TIGHTENING, "results"), (ALARM, "alarms")):
        place.said.append(words + ": " + ", ".join("%d %s" % (count, how or "received") for (kind, how), count in losses.items()
                                                   if kind == record_kind))
        for how in ("dropped, not sent", "dropped, sent but not acknowledged", None):
            many = losses[record_kind, how]
            check(many > 3, "only %d %s %s: this shows too little", many, words, how or "received")
    timed_out = sum(opening.closed() for opening in openings)
    place.said.append("%d openings, %d timed out, %d frames" % (len(openings), timed_out, sum(len(o.frames()) for o in openings)))
    check(timed_out >= 3, "too few timed out: this shows too little")
    check(len(openings) - timed_out > 4, "too few hang-ups: this shows too little")


class Generated:
    """A generated history, made to happen: its sessions are servers, its tool records come from a tool. Its starts and ticks are left
    out: the host ticks by itself."""

    def __init__(self, place, seed, records):
        self.place = place
        self.host = place.host(tick=50)
        self.tool = place.tool()
        self.now = {}  # by the history's session; which session the host gives is its own affair
        self.servers = []
        self.refusals = []
        for record_kind, payload in split(generate.generate(seed, records))[0]:
            self.happen(record_kind, payload.replace(b"\n", b" "))  # a line is a frame in what replay prints
        self.tool.close()
        place.finish(self.host, self.servers, self.refusals)
        for server in self.servers:
            server.close()

    def happen(self, record_kind, payload):
        session = record_kind % 16
        server = self.now.get(session)
        if record_kind in (TIGHTENING, SCANNED):
            answer = self.tool.give(record(record_kind, payload))
            if not answer.startswith("0 "):
                self.refusals.append(int(answer[:1]))
        elif OPEN <= record_kind < HANG_UP:
            if server is None and len(self.now) < 4:
                self.open(session)
        elif HANG_UP <= record_kind < BYTES:
            if server is not None:
                self.end(session)
        elif BYTES <= record_kind < TICK and server is not None:
            with contextlib.suppress(ConnectionError):
                server.send(payload)
            in_time = InTime("what was sent is read")
            while server.open and in_time() and select.select([server.link], [], [], 0)[0]:
                server.take()
            if not server.open:
                self.now.pop(session)

    def open(self, session):
        """It is let in when the journal says so; there is room, for each that has left was waited for."""
        openings = len(self.servers) + 1
        server = self.now[session] = self.place.server(self.host)
        self.servers.append(server)
        self.place.wait_for_journal(lambda records: sum(OPEN <= record_kind < HANG_UP for record_kind, _ in records) == openings,
                                    "opening %d" % openings)

    def end(self, session):
        server = self.now.pop(session)
        with contextlib.suppress(OSError):
            server.link.shutdown(socket.SHUT_WR)
        server.until_closed()


@test
@in_memory
def generated_histories(place):
    """Histories that were made to reach deep states, over sockets: replay prints of their journals what the servers saw."""
    openings = frames = 0
    histories = max(1, place.count // 100)
    for seed in range(1, histories + 1):
        generated = Generated(place, seed, 500)
        openings += len(generated.servers)
        frames += sum(len(server.seen) for server in generated.servers)
        for path in place.journal_parts():
            os.remove(path)
    place.said.append("%d histories, %d openings, %d frames" % (histories, openings, frames))


@test
def the_journal_in_parts(place):
    """Parts begun by size hold whole records and replay as one; a further run of the host goes on with the last."""
    play = Play(place, 4)
    play.run(400, "--journal-size", 3000, "--journal-keep", 1000)
    parts = place.journal_parts()
    check(len(parts) > 4, "only %d parts: this shows too little", len(parts))
    for i, path in enumerate(parts):
        written = content(path)
        records, rest = split(written)
        equal(rest, b"", "bytes behind the last whole record of part %d" % i)
        equal([k for k, (record_kind, _) in enumerate(records) if record_kind == SETTINGS], [0] if i == 0 else [],
              "start records of part %d" % i)
        if path != place.journal:
            check(3000 <= len(written) < 3000 + 4 + 8192, "part %d has %d bytes", i, len(written))
    kept = place.journal_bytes()
    play.run(100)
    check(place.journal_bytes().startswith(kept), "the second run has altered what the first had journaled")
    equal(len(place.journal_parts()), len(parts), "parts with the second run's")
    equal(split(place.journal_bytes()[len(kept):])[0][0][0], SETTINGS, "the kind of the first record of the second run")


@test
def without_a_journal(place):
    """A host that is not asked to journal makes no file but its state."""
    host = place.host(journal=False, tool=False)
    equal(place.server(host).start().fence(), [], "something besides")
    equal(host.end(), 0, "status")
    left = {name for name in os.listdir(place.folder) if not name.startswith(("log-", "state"))}
    equal(left, {"settings"}, "files")


@test
def a_journal_with_a_cut_end(place):
    """What a power cut left of a last record is put into a file of its own at the next start, which says so; all parts replay as one."""
    servers = []
    for part, cut in enumerate((b"\x19", b"\x19\0", b"\x19\0\x30\0", tightening_record(tightening_fields(0))[:-1]), 1):
        host = place.host()
        servers.append(place.server(host).start())
        host.kill()
        with open(place.journal, "ab") as file:
            file.write(cut)
        host = place.host()
        host.wait_for_log("%d bytes" % len(cut))
        servers.append(place.server(host).start())
        equal(host.end(), 0, "status")
        equal(content("%s.%d.cut" % (place.journal, part)), cut, "what was cut off")
    place.check_journal(servers)


@test
def a_journal_in_use(place):
    """A journal that another host writes is left to it: status 1, and the message names the file."""
    first = place.host()
    state, tool_path = place.state, place.tool_path
    place.state, place.tool_path = place.path("state-2"), place.path("tool-2")
    place.refused(place.start(), 1, place.journal)
    server = place.server(first).start()
    equal(server.fence(), [], "something besides")
    place.finish(first, [server])
    place.state, place.tool_path = state, tool_path
    equal(place.host().end(), 0, "status of a host that comes when the first is gone")


@test
def a_file_that_is_no_journal(place):
    """It is put aside and nothing of it is lost, even where it reads like a journal with a cut end."""
    for other, cut in ((b"not a journal, but something that somebody may need yet\n", False),
                       (b"#\n# a list that somebody may need yet\n", True)):
        with open(place.journal, "wb") as file:
            file.write(other)
        equal(place.host().end(), 0, "status")
        aside = place.journal_parts()[-2]
        equal(content(aside), b"" if cut else other, "the file put aside")
        equal(os.path.exists(aside + ".cut"), cut, "was something cut off it?")
        if cut:
            equal(content(aside + ".cut"), other, "what was cut off")
            os.remove(aside)
        equal([record_kind for record_kind, _ in split(content(place.journal))[0]], [SETTINGS], "kinds of records in the new journal")
        os.remove(place.journal)
    equal(place.host().end(), 0, "status of a further run")
    equal([os.path.basename(path) for path in place.journal_parts()], ["journal.1", "journal"], "files")
    check(os.path.exists(place.journal + ".3.times"), "the number of a part whose cut end is there was to be given twice")
