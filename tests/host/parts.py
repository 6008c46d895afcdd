"""The journal's parts: how many are kept, and that each can be replayed alone; and the log, which is bounded as they are."""

import contextlib
import os
import re
import signal
import subprocess

import generate
import harness
from harness import (BYTES, HANG_UP, OPEN, SECONDS, InTime, Skipped, Wrong, check, content, equal, in_memory, lent_table, message,
                     openprotocol, record, tell_and_acknowledge, test)
from journal import Play
from kept import PAGE, small_disk

SIZE, KEEP = 20000, 3
RECORD_GREATEST = 4 + 8192
DRAWN = 6  # of the parts that begin with an earlier table, those in which most results wait


def beside(place, end):
    """The numbers of the files FILE.N with that end."""
    name = os.path.basename(place.journal)
    found = (re.fullmatch(re.escape(name) + r"\.(\d+)" + re.escape(end), other) for other in os.listdir(os.path.dirname(place.journal)))
    return sorted(int(match.group(1)) for match in found if match)


def journal_size(place):
    """The bytes of all that is there of the journal, and beside it."""
    name, folder, size = os.path.basename(place.journal), os.path.dirname(place.journal), 0
    for other in os.listdir(folder):
        if other.startswith(name):
            with contextlib.suppress(FileNotFoundError):  # it was just deleted
                size += os.path.getsize(os.path.join(folder, other))
    return size


def replayed(place, data):
    """What the proved test program prints."""
    return subprocess.run([place.replay], input=data, stdout=subprocess.PIPE, timeout=SECONDS, check=True).stdout


@test
@in_memory
def a_peer_that_fills_the_journal(place):
    """Whatever one that never starts sends, the journal has no more bytes than its parts may have, the others go on, and so does the
    next run of the host."""
    bound = (KEEP + 1) * (SIZE + RECORD_GREATEST + lent_table.SIZE + 1000)
    options = ["--journal-size", SIZE, "--journal-keep", KEEP]
    number = greatest = sent = 0
    for run in (1, 2):
        host = place.host(*options)
        tool = place.tool()
        server = place.server(host).subscribe()
        bad = place.server(host)
        in_time = InTime("thirty parts")
        while max(beside(place, ""), default=0) < 30 * run and in_time():
            try:
                bad.send(b"x" * 60000)
            except ConnectionError:  # it may be hung up
                bad = place.server(host)
            sent += 60000
            number += 1
            tell_and_acknowledge(tool, server, number, number)
            equal(server.fence(), [], "something besides")
            greatest = max(greatest, journal_size(place))
        check(len(beside(place, "")) == KEEP, "parts that are kept: %s", beside(place, ""))
        check(greatest <= bound, "the journal had %d bytes, more than %d", greatest, bound)
        equal(host.end(), 0, "status")
    equal(beside(place, ".table"), beside(place, "") + [max(beside(place, "")) + 1], "tables beside the parts and the journal")
    place.said.append("%d bytes sent, the journal never had more than %d" % (sent, greatest))


@test
def a_journal_named_like_a_part(place):
    """The journal of another host that is named like a part of this one's is neither deleted nor written over."""
    journal, state, tool_path = place.journal, place.state, place.tool_path
    place.journal, place.state, place.tool_path = journal + ".1", place.path("state-2"), place.path("tool-2")
    other = place.host()
    place.journal, place.state, place.tool_path = journal, state, tool_path
    host = place.host("--journal-size", 100, "--journal-keep", 2)
    server = place.server(host).start()
    in_time = InTime("ten parts")
    while max(beside(place, "")) < 10 and in_time():
        equal(server.fence(), [], "something besides")
    host.wait_for_log("another host's")
    seen = place.server(other).start()
    equal(seen.fence(), [], "something besides")
    equal([one.end() for one in (host, other)], [0, 0], "status")
    equal(replayed(place, content(journal + ".1")).count(b"\n"), len(seen.seen), "frames in the other's journal")


@test
@in_memory
def parts_replayed_alone(place):
    """Each part from its table gives what it gives within the whole; so does all that is behind it. serifladder-replay and the proved
    test program print the same of the whole."""
    Play(place, 5).run(400, "--journal-size", 200, "--journal-keep", 1000)
    data = [content(path) for path in place.journal_parts()]
    check(len(data) > 40, "only %d parts: this shows too little", len(data))
    whole = replayed(place, b"".join(data))
    equal(place.own_replayed(b"".join(data)), whole, "what is printed of the whole")
    equal(beside(place, ".table"), list(range(2, len(data) + 1)), "tables")
    printed = []
    for part, written in enumerate(data, 1):
        table = "%s.%d.table" % (place.journal, part) if part > 1 else None
        check(whole.endswith(place.own_replayed(b"".join(data[part - 1:]), table)), "from part %d on it is not the whole's tail", part)
        printed.append(place.own_replayed(written, table))
    equal(b"".join(printed), whole, "what the parts alone print, joined")
    place.said.append("%d parts, %d lines" % (len(data), whole.count(b"\n")))


def earlier_table(table, shared, region_size, size):
    """A table as it stood earlier, of that size: what was shared, then each session with a copy of each result that waits for it, and
    behind these its alarms, where there were any."""
    def earlier(region):
        at, first = lent_table.TIGHTENINGS[0], lent_table.TIGHTENINGS[0] + lent_table.CONTROL
        slots = region.data[first:first + region.data[at + 2]]
        results = (region.data[:first] + b"".join(region.places[slot] for slot in slots)).ljust(lent_table.EARLIER_REGION, b"\0")
        return (results + region.data[lent_table.ALARMS[0]:])[:region_size]

    regions = b"".join(earlier(region) for region in lent_table.regions(table))
    return (lent_table.EARLIER_MARK + table[len(lent_table.MARK):shared] + regions).ljust(size, b"\0")


def of_the_first_map(table):
    """Its sessions stood where tightenings are kept now."""
    return earlier_table(table, lent_table.MEMORY, lent_table.EARLIER_REGION, lent_table.FIRST_SIZE)


def of_the_second_map(table):
    return earlier_table(table, lent_table.SHARED, lent_table.EARLIER_REGION, lent_table.SIZE)


def of_the_third_map(table):
    return earlier_table(table, lent_table.SHARED, lent_table.THIRD_REGION, lent_table.SIZE) + b"map 3\n"


def without_alarms(printed):
    """What replay prints, but for alarms and what it answers to those who ask for them."""
    return re.sub(rb"(?m)^\d S (00530071|002[46]000[45]001_________007).*\n", b"", printed)


def without_old_results(printed):
    """The same, but for what it answers to a 0064, too."""
    return re.sub(rb"(?m)^\d S (01180065|00260004001_________0064).*\n", b"", without_alarms(printed))


ASKS_FOR_THE_NEWEST = record(HANG_UP) + record(OPEN) + record(BYTES, message(openprotocol.START) + openprotocol.fetch())


def tables_of_an_earlier_map(place, earlier, without, told):
    """Has the parts of a host's life begin with a table as it was kept earlier: each gives what it gives from today's, but for what is left
    out of both. Some are drawn, the last with what is told of the table there; and a host finds the last number in such a part, which an
    older state is behind. Answers the name of the last table, and what stood there before."""
    play = Play(place, 5)
    play.run(400, "--journal-size", 600, "--journal-keep", 1000)
    parts, kept, alarms, waiting, shared, most = place.journal_parts(), [], 0, 0, 0, []
    check(len(parts) > 10, "only %d parts: this shows too little", len(parts))
    for part, path in enumerate(parts[1:], 2):
        table = "%s.%d.table" % (place.journal, part)
        today, was = place.own_replayed(content(path), table), content(table)
        of_today = lent_table.read(was)
        kept.append(len(lent_table.kept(of_today)))
        alarms += sum(len(region.alarms().notices) for region in lent_table.regions(of_today))
        held = [region.tightenings() for region in lent_table.regions(of_today)]
        results = [result for lane in held for result in lane.notices]
        waiting, shared, most = waiting + len(results), shared + len(results) - len({*results}), most + [(len({*results}), table, path)]
        with open(table, "wb") as file:
            file.write(earlier(of_today))
        brought = lent_table.read(content(table))
        equal([region.tightenings() for region in lent_table.regions(brought)], held, "what waits in table %d, brought up to date" % part)
        equal(without(place.own_replayed(content(path), table)), without(today), "what part %d gives" % part)
    check(sum(kept) > 100 and alarms > 5, "only %d tightenings were kept and %d alarms held: this shows too little", sum(kept), alarms)
    check(waiting > 50 and shared > 1, "only %d results waited, %d of them for a second session: this shows too little", waiting, shared)
    for _, *names in sorted(most)[-DRAWN:]:
        command = [os.path.join(harness.TOOLS, "ladder"), "--replay", place.own_replay, "--table", *names]
        done = subprocess.run(command, capture_output=True, timeout=SECONDS, check=False)
        check(done.returncode == 0, "what is drawn of a part in which much waits: %r", done)
    drawn = subprocess.run([os.path.join(harness.TOOLS, "ladder"), place.journal], capture_output=True, timeout=SECONDS, check=False)
    rows = re.sub(rb"\n[ |.]*", b" ", drawn.stdout)  # a label may go on in the next line
    check(drawn.returncode == 0 and told(kept[-1]).encode() in rows, "what is drawn: %r", drawn)
    os.remove(place.state)
    place.refused(place.start(), 1, place.state, place.journal, "--state-behind", "that %d was" % play.number)
    place.said.append("%d tables, %d results waiting in them, %d for one session more" % (len(parts) - 1, waiting, shared))
    return table, was


@test
@in_memory
def tables_from_before(place):
    """From a table that was kept before tightenings were, a part gives what it gives from today's, old results and alarms aside, of which
    none is kept there; it is drawn, too; and a host finds the last number in such a part, which an older state is behind."""
    table, _ = tables_of_an_earlier_map(place, of_the_first_map, without_old_results, lambda kept: ", 0 tightenings kept")
    equal(place.own_replayed(ASKS_FOR_THE_NEWEST, table)[-31:], b"0 S 00260004001_________006415\n", "the newest of none")


@test
@in_memory
def tables_from_before_alarms(place):
    """From a table that was kept before there were alarms, of the same size, a part gives what it gives from today's, alarms aside, old
    results too; it is drawn, and a host finds the last number in such a part."""
    table, _ = tables_of_an_earlier_map(place, of_the_second_map, without_alarms, lambda kept: ", %d tightenings kept" % kept)
    check(b"01180065" in place.own_replayed(ASKS_FOR_THE_NEWEST, table), "no old result is kept in %s", table)


def with_a_place_that_is_none(table):
    """The same with 32 in the slot of a result that waits."""
    at = next(at for at in range(lent_table.REGIONS, lent_table.USED, lent_table.REGION) if table[at + lent_table.TIGHTENINGS[0] + 2])
    slot = at + lent_table.TIGHTENINGS[0] + lent_table.CONTROL
    return table[:slot] + bytes([lent_table.PLACES]) + table[slot + 1:]


@test
@in_memory
def tables_from_before_places(place):
    """From a table that was kept when each session had its own copies of the results that wait for it, a part gives what it gives from
    today's, alarms too; it is drawn, and a host finds the last number in such a part. With another map's number behind it, with another
    map's mark, or with a place that is none of the 32, a table is none."""
    table, was = tables_of_an_earlier_map(place, of_the_third_map, lambda printed: printed, lambda kept: ", %d tightenings kept" % kept)
    today, third = was[:lent_table.SIZE], content(table)[:lent_table.SIZE]
    cases = [(today + behind, status) for behind, status in (
        (lent_table.MAP, 0), (b"map 5\n", 1), (b"map 3\n", 1), (b"map 4", 1), (b"map 4\n\n", 1), (b"\0" * 6, 1), (b"", 1))]
    cases += [(third + behind, status) for behind, status in ((b"map 3\n", 0), (lent_table.MAP, 1), (b"map 2\n", 1), (b"map 3\n\n", 1))]
    cases += [(with_a_place_that_is_none(today) + lent_table.MAP, 1)]
    for data, status in cases:
        with open(table, "wb") as file:
            file.write(data)
        for command in ([place.own_replay], [os.path.join(harness.TOOLS, "ladder"), "--replay", place.own_replay]):
            done = subprocess.run([*command, "--table", table], input=b"", capture_output=True, timeout=SECONDS, check=False)
            said = b"is no table" in done.stderr
            equal((done.returncode, said), (status, status == 1), "status of %s, with a table that begins with %r and ends with %r" % (
                command[0], data[:8], data[lent_table.SIZE:]))


@test
def generated_histories_replayed(place):
    """serifladder-replay prints what the proved test program prints, of generated histories and of such that are cut or damaged."""
    histories = max(30, place.count // 40)
    lines = 0
    for seed in range(1, histories + 1):
        data = generate.generate(seed, 300)
        cases = [data, data[:-1 - seed], data[:seed * 37] + bytes([seed % 256, 200]) + data[seed * 37:]]
        for case in cases:
            printed = replayed(place, case)
            equal(place.own_replayed(case), printed, "what is printed of a history of seed %d" % seed)
            lines += printed.count(b"\n")
    place.said.append("%d histories, %d lines" % (3 * histories, lines))


@test
def bad_use_of_serifladder_replay(place):
    """A table that is none, a file that is not there and a wrong command line: a message that names it, and nothing printed."""
    bad = place.path("bad")
    with open(bad, "wb") as file:
        file.write(bytes(lent_table.SIZE) + lent_table.MAP)
    for arguments, status, word in ((["--table", bad], 1, bad), (["--table", place.path("none")], 1, "none"), (["--table"], 2, "--table"),
                                    ([place.path("none")], 1, "none"), (["--unknown"], 2, "--unknown"), ([bad, bad], 2, "second"),
                                    ([place.folder], 1, place.folder)):
        done = subprocess.run([place.own_replay, *arguments], input=b"", capture_output=True, timeout=SECONDS, check=False)
        equal((done.returncode, done.stdout), (status, b""), "status and output of %s" % arguments)
        check(word.encode() in done.stderr, "no %r in the message of %s: %r", word, arguments, done.stderr)
    for option in ("--help", "-h", "--version"):
        done = subprocess.run([place.own_replay, option], capture_output=True, timeout=SECONDS, check=True)
        check(done.stdout.startswith(b"serifladder-replay "), "%s prints %r", option, done.stdout)


@test
@in_memory
def lines_that_repeat(place):
    """What a peer repeats is counted in the log: a few lines a second and their number, however much it sends."""
    host = place.host(tick=1000)
    server = place.server(host)
    sent = 20000
    server.send(b"\0" * sent)
    server.send(b"".join(message(openprotocol.KEEP_ALIVE, rest=b"%08d" % i) for i in range(2000)))
    server.start()
    equal(host.end(), 0, "status")
    lines = re.findall(r"Z (?:(\d+) lines like this are left out, the last: )?session 0 \S+ < (no message|\d)", host.log())
    counted = [sum(int(count or 1) for count, what in lines if (what == "no message") == bad) for bad in (True, False)]
    equal(counted, [sent, 2001], "lines of runs and of messages, said and counted")
    check(len(lines) < 400, "%d lines are not few", len(lines))
    place.said.append("%d lines for %d runs" % (len(lines), sent + 2000))


@test
def a_journal_that_is_removed(place):
    """A journal that is removed, renamed, replaced or cut under the host is begun anew, which the log says; what is sent from then on can
    be replayed from the table beside it, and what was put in its place is not lost."""
    host = place.host()
    server = place.server(host).subscribe()
    tool = place.tool()
    for number, (take_away, put_there) in enumerate(((os.remove, None), (lambda path: os.rename(path, path + "-old"), None),
                                                     (os.remove, b"another's"), (lambda path: os.truncate(path, 0), None)), 1):
        tell_and_acknowledge(tool, server, 2 * number - 1, 2 * number - 1)
        equal(server.fence(), [], "something besides")
        seen = len(server.seen)
        take_away(place.journal)
        if put_there:
            with open(place.journal, "wb") as file:
                file.write(put_there)
        tell_and_acknowledge(tool, server, 2 * number, 2 * number)
        equal(server.fence(), [], "something besides")
        sent = b"".join(b"0 S " + run.replace(b" ", b"_") + b"\n" for run in server.seen[seen:])
        table = "%s.%d.table" % (place.journal, max(beside(place, ".table")))
        equal(place.own_replayed(content(place.journal), table), sent, "what the new journal shows")
        check(host.log().count("was removed, renamed or cut") == number, "the log does not say it %d times:\n%s", number, host.log())
    check(b"another's" in [content(path) for path in place.journal_parts()], "what was put in the journal's place is gone")
    equal(host.end(), 0, "status")


class Reader:
    """Reads a journal that is a FIFO, as much as it is asked to."""

    def __init__(self, place):
        place.journal = place.path("fifo")
        os.mkfifo(place.journal)
        self.file = os.open(place.journal, os.O_RDONLY | os.O_NONBLOCK)
        place.undo.callback(os.close, self.file)
        self.data = b""

    def read(self):
        with contextlib.suppress(BlockingIOError):
            in_time = InTime("the FIFO is empty")
            while in_time() and (more := os.read(self.file, 65536)):
                self.data += more
        return self.data


@test
def a_journal_whose_reader_stops(place):
    """A FIFO as journal: while its reader stops the host waits, which the log says, and nothing is lost; a signal ends it all the same."""
    reader = Reader(place)
    host = place.host()
    server = place.server(host).start()
    server.link.settimeout(0.3)
    sent, in_time = 0, InTime("the FIFO is full")
    with contextlib.suppress(Wrong):
        while sent < 100_000 and in_time():
            server.send(message(openprotocol.KEEP_ALIVE, rest=b"%08d" % sent))
            sent += 1
            server.next()
    check(sent < 100_000, "the FIFO took everything: this shows nothing")
    host.wait_for_log("takes nothing")
    server.link.settimeout(SECONDS)
    reader.read()
    server.next()
    equal(server.fence(), [], "something besides")
    printed = replayed(place, reader.read())
    equal(printed, b"".join(b"0 S " + run.replace(b" ", b"_") + b"\n" for run in server.seen), "what the journal shows")
    server.link.settimeout(0.3)
    with contextlib.suppress(Wrong):
        while server.fences < 100_000 and in_time():
            server.fence()
    host.process.send_signal(signal.SIGTERM)
    place.refused(host, 1, place.journal)


@test
def the_last_part_number(place):
    """Where no number is left for a part the host does not start, and says so; nothing is renamed. Other names are left alone."""
    last = place.journal + ".4294967295"
    with open(last, "wb"):
        pass
    place.refused(place.start(), 1, place.journal, "4294967295")
    os.rename(last, place.journal + ".4294967294")
    others = [place.journal + end for end in (".4294967296", ".07", ".1x", ".-1", "-5", ".5.tables", ".")]
    for other in others:
        with open(other, "wb") as file:
            file.write(b"another's")
    host = place.host("--journal-size", 100)
    server = place.server(host).start()
    server.send(message(openprotocol.KEEP_ALIVE) * 20)
    place.refused(host, 1, place.journal, "4294967295")
    equal(content(place.journal + ".4294967294"), b"", "the part before the last")
    check(os.path.getsize(last) > 100, "the last part is not whole")
    equal({content(other) for other in others}, {b"another's"}, "files that are no parts")


@test
def a_disk_that_is_too_small(place):
    """A journal that may come to take more than its disk has room for is told of at the start; one that fits is not, and goes on for good
    beside a peer that sends and sends."""
    disk = small_disk(place)
    if not disk:
        raise Skipped("no small disk can be mounted here")
    place.journal = os.path.join(disk, "journal")
    host = place.host()
    host.wait_for_log("may come to take .* bytes more")
    equal(host.end(), 0, "status")
    host = place.host("--journal-size", 2 * PAGE, "--journal-keep", 1)
    check("may come to take" not in host.log(), "a journal that fits is told of:\n%s", host.log())
    server = place.server(host).start()
    in_time = InTime("twenty parts")
    while max(beside(place, ""), default=0) < 20 and in_time():
        server.send(b"x" * 4000 + b"\0")
        equal(server.fence(), [], "something besides")
    equal(host.end(), 0, "status")
