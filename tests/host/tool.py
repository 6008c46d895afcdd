"""The tool's records over its Unix socket and over a FIFO."""

import contextlib
import os
import random
import re
import resource
import select
import socket
import struct
import time

import harness
import tracing
from harness import (BYTES, GOOD_SETTINGS, GREATEST_NUMBER, HANG_UP, LIMITS, NEVER_SET, OPEN, PAYLOADS, SCANNED, SETTINGS, TICK,
                     TIGHTENING, WITH_SERIAL, InTime, check, done, equal, fields_of, identifier_record, in_memory, old_fields, openprotocol,
                     record, record_of, tell_and_acknowledge, test, tightening_fields, tightening_record, wait, with_serial)

BAD = "7 tool record bad"


def bad_records():
    """Records that the library refuses with 7."""
    good = tightening_record(tightening_fields(1))[4:]
    bad = [tightening_fields(1, job=100), tightening_fields(1, parameter_set=1000), tightening_fields(1, batch_size=10000),
           tightening_fields(1, tightening_status=2), tightening_fields(1, torque_status=3), tightening_fields(1, torque=1000000),
           tightening_fields(1, angle=100000), tightening_fields(1, identifier="\x7f"), tightening_fields(1, batch_status=3),
           tightening_fields(1, time="2026-01-01 00:00:00"), tightening_fields(1, change_time="2026-01-01:00-00:00")]
    return [tightening_record(fields) for fields in bad] + [
        record(TIGHTENING), record(TIGHTENING, good[:-1]), record(TIGHTENING, good + b"\0"), record(TIGHTENING, bytes(8192)),
        record(2), record(2, b"x" * 24), record(2, b"x" * 26), record(2, b"\n" + b"x" * 24),
        record(0), record(0, good), record(5, b"?"), record(6, b"?"), record(65535, bytes(8192)),
    ]


def other_calls():
    """Records that would be other calls in a journal: here they are bad records of a tool, and nothing more."""
    return [record_of(SETTINGS, name="OTHER", last=99), record(OPEN), record(OPEN + 1), record(HANG_UP),
            record(BYTES, openprotocol.message(3)), record(TICK)]


@test
def refused_tool_records(place):
    """A bad record is refused with 7 and logged; nothing is sent, no number is used, and the journal replays all the same."""
    host = place.host()
    tool = place.tool()
    server = place.server(host).subscribe()
    records = bad_records() + other_calls()
    for i, bad in enumerate(records):
        equal(tool.give(bad), BAD, "answer to bad record %d" % i)
        equal(host.log().count(BAD), i + 1, "refusals logged")
        equal(server.fence(), [], "what is sent for bad record %d" % i)
    tell_and_acknowledge(tool, server, 1, 1)
    equal(server.fence(), [], "something besides")
    place.finish(host, [server], [7] * len(records))
    place.said.append("%d bad records refused" % len(records))


@test
def limits_never_set(place):
    """Whichever of the six limits are missing, servers are told spaces in their places, in each revision, and digits in all others: the
    greatest number of a result, too, which is what says that a limit is missing. An old result is told as ever. A torque or an angle that
    is missing is refused with 7, and so is a limit above its greatest that is not missing."""
    rounds, sorts = ((1, 2, 3), (4, 5, 6)), 2 ** len(LIMITS)
    host = place.host("--new-state", GREATEST_NUMBER - len(rounds) * sorts)
    tool = place.tool()
    everyone = []
    for ended, revisions in enumerate(rounds):
        servers = [place.server(host).subscribe(acknowledge=False, revision=revision) for revision in revisions]
        everyone += servers
        for i in range(sorts):
            number = tool.tighten(tightening_fields(i), "0 1 2")
            for server in servers:
                server.expect_result(tightening_fields(i), number)
            equal(servers[0].fetch(number), old_fields(tightening_fields(i), number), "old result")
        for session, server in enumerate(servers):
            equal(server.fence(), [], "something besides")
            server.close()
            place.wait_for_hang_up(session, ended + 1)
    equal(number, GREATEST_NUMBER, "the last number")
    bad = [("torque", NEVER_SET), ("angle", NEVER_SET)]
    bad += [(name, number) for name in LIMITS for number in (PAYLOADS[TIGHTENING].items[name].greatest + 1, NEVER_SET - 1)]
    for name, number in bad:
        equal(tool.give(tightening_record(tightening_fields(0, **{name: number}))), BAD, "answer to a %s of %d" % (name, number))
    check(tool.give(tightening_record(tightening_fields(0))).startswith("8 "), "there is a number behind the last")
    place.finish(host, everyone, [7] * len(bad) + [8])


@test
def tool_records_cut_and_joined(place):
    """A record cut at any place is one record; several in one write are as many, each answered in order."""
    host = place.host()
    tool = place.tool()
    server = place.server(host).start()
    server.accepted(openprotocol.SUBSCRIBE_RESULTS, byte_12=b"1")
    number = 0
    size = len(tightening_record(tightening_fields(0)))
    for places in [[at] for at in range(1, size)] + [list(range(1, size))]:
        number += 1
        data = tightening_record(tightening_fields(number))
        begin = 0
        for end in places + [size]:
            tool.send(data[begin:end])
            if end < size:
                equal(server.fence(), [], "what is sent before a record is whole")
            begin = end
        equal(tool.answer(), done("0", number), "answer to a record cut at %s" % places)
        server.expect_result(tightening_fields(number), number)
    several, answers = b"", []
    for i in range(300):
        several += tightening_record(tightening_fields(number + 1 + i)) + record(5) + identifier_record("I %d" % i)
        answers += [done("0", number + 1 + i), BAD, "0 done, taken by none"]
    tool.send(several)
    equal([tool.answer() for _ in answers], answers, "answers to many records in one write")
    for i in range(300):
        server.expect_result(tightening_fields(number + 1 + i), number + 1 + i)
    equal(server.fence(), [], "something besides")


@test
def tool_records_that_end_the_connection(place):
    """A record too long, or cut by the end of its connection, is logged and does nothing; other tools and servers go on."""
    host = place.host()
    server = place.server(host).subscribe()
    steady = place.tool()
    number = 0
    for length in (8193, 65535):
        tool = place.tool()
        check("record too long" in tool.give(struct.pack("<HH", length, TIGHTENING)), "a record of %d bytes was not refused", length)
        equal(tool.answer(), None, "what follows a record too long")
        host.wait_for_log("too long")
    for _ in range(20):  # and they stay, which is to keep no other tool away
        place.tool().send(struct.pack("<HH", 8193, TIGHTENING) + bytes(100))
    equal(place.tool().give(identifier_record("LAST")), "0 done, taken by 0", "answer to a tool behind many that sent too much")
    equal(server.expect(openprotocol.IDENTIFIER)["identifier"], "LAST", "identifier")
    whole = tightening_record(tightening_fields(9))
    for i, at in enumerate((1, 3, 4, 5, len(whole) - 1)):
        tool = place.tool()
        tool.send(whole[:at])
        tool.link.shutdown(1)
        for answer in tool.answers():
            check(not answer.startswith("0"), "answer to a cut record: %r", answer)
        number += 1
        steady.tighten(tightening_fields(number), "0")
        server.expect_result(tightening_fields(number), number)
        server.tell(openprotocol.ACKNOWLEDGE_RESULT)
        equal(host.log().count(" cut"), i + 1, "cut records logged")
    equal(server.fence(), [], "something besides")


@test
def several_tools(place):
    """Tools at once: each is answered for its own records; a result of each arrives, numbered in the order of arrival."""
    host = place.host()
    server = place.server(host).start()
    server.accepted(openprotocol.SUBSCRIBE_RESULTS)
    tools = [place.tool() for _ in range(5)]
    number = 0
    for _ in range(10):
        halves = []
        for i, tool in enumerate(tools):
            data = tightening_record(tightening_fields(number + 1 + i))
            tool.send(data[:50])
            halves.append(data[50:])
        for tool, half in zip(tools, halves):
            number += 1
            equal(tool.give(half), done("0", number), "answer")
            server.expect_result(tightening_fields(number), number)
            server.tell(openprotocol.ACKNOWLEDGE_RESULT)
            equal(server.fence(), [], "something besides")


@test
def more_tools_than_have_room(place):
    """Further tools wait until others leave; none is turned away."""
    host = place.host()
    tools = [place.tool() for _ in range(30)]
    for tool in tools:
        tool.send(identifier_record("WAITING"))
    for tool in tools:
        equal(tool.answer(), "0 done, taken by none", "answer")
        tool.close()
    equal(host.log().count("WAITING"), len(tools), "identifiers logged")


@test
def a_tool_that_does_not_read(place):
    """Its records wait, and other tools and servers go on; when it reads, it finds an answer to each, in order."""
    host = place.host()
    server = place.server(host).start()
    server.accepted(openprotocol.SUBSCRIBE_RESULTS)
    deaf, steady = place.tool(), place.tool()
    deaf.link.settimeout(0)
    data, sent = (identifier_record("DEAF") + record(5)) * 20000, 0
    number = 0
    for _ in range(20):
        with contextlib.suppress(BlockingIOError):
            in_time = InTime("a send that is not taken")
            while sent < len(data) and in_time():
                sent += deaf.link.send(data[sent:sent + 8192])
        number += 1
        steady.tighten(tightening_fields(number), "0")
        server.expect_result(tightening_fields(number), number)
        server.tell(openprotocol.ACKNOWLEDGE_RESULT)
    check(sent < len(data), "%d bytes were taken: this shows nothing", sent)
    deaf.link.settimeout(harness.SECONDS)
    deaf.link.shutdown(socket.SHUT_WR)
    answers = deaf.answers()
    whole, rest = divmod(sent, len(identifier_record("DEAF") + record(5)))
    wanted = ["0 done, taken by none", BAD] * whole
    wanted += ["0 done, taken by none"] if rest >= len(identifier_record("DEAF")) else []
    equal(answers[:len(wanted)], wanted, "answers")
    check(all("cut" in answer for answer in answers[len(wanted):]), "further answers: %s", answers[len(wanted):])


@test
def a_tool_that_leaves_at_once(place):
    """What it has sent is done, whether it waits for the answers or not."""
    host = place.host()
    server = place.server(host).start()
    server.accepted(openprotocol.SUBSCRIBE_RESULTS, byte_12=b"1")
    number = 0
    for count in (1, 2, 30):
        tool = place.tool()
        tool.send(b"".join(tightening_record(tightening_fields(number + 1 + i)) for i in range(count)))
        tool.close()
        for _ in range(count):
            number += 1
            server.expect_result(tightening_fields(number), number)
    equal(server.fence(), [], "something besides")


@test
def garbage_from_tools(place):
    """Whatever bytes come from tools, they are answered by lines, and a good record is taken as ever."""
    host = place.host()
    server = place.server(host).subscribe()
    source = random.Random(5)
    good = [tightening_record(tightening_fields(0)), identifier_record("GARBAGE")]
    for _ in range(150):
        tool = place.tool()
        data = bytearray(b"".join(source.choice(good) for _ in range(source.randrange(4))) + source.randbytes(source.randrange(300)))
        for _ in range(source.randrange(1, 8) if data else 0):
            data[source.randrange(len(data))] = source.choice([0, 1, 2, 255, source.randrange(256)])
        with contextlib.suppress(ConnectionError):
            tool.send(data)
            tool.link.shutdown(socket.SHUT_WR)
        for answer in tool.answers():
            check(re.match(r"0 done, taken by|7 tool record bad$|record ", answer), "answer to garbage: %r", answer)
        tool.close()
    equal(place.tool().give(identifier_record("GOOD")), "0 done, taken by 0", "answer to a good record")
    runs, in_time = server.fence(), InTime("the last identifier")
    while in_time() and openprotocol.read(runs[-1]).fields.get("identifier") != "GOOD":
        server.tell(openprotocol.ACKNOWLEDGE_IDENTIFIER)
        runs += server.fence()
    place.finish(host, [server], place.replayed()[1])


# ---- records with a serial

@test
def records_with_a_serial(place):
    """A record whose serial is known is answered as it was first, by whichever tool it comes, and not taken again, over an end and a kill
    too; its journal has plain records. A refused record, and what only looks like one with a serial, leave nothing behind."""
    host = place.host()
    server = place.server(host).subscribe(acknowledge=False)
    servers, tool = [server], place.tool()
    first, identifier = with_serial(1, tightening_record(tightening_fields(1))), with_serial(2, identifier_record("NAMED"))
    for giver in (tool, tool, place.tool()):
        equal(giver.give(first), done("0", 1), "answer to a tightening with a serial")
        equal(giver.give(identifier), "0 done, taken by 0", "answer to an identifier with a serial")
    equal(tool.give(with_serial(1, identifier_record("OTHER"))), done("0", 1), "answer to another record of a serial that is known")
    server.expect_result(tightening_fields(1), 1)
    equal(server.expect(openprotocol.IDENTIFIER)["identifier"], "NAMED", "identifier")
    bad = [with_serial(3, tightening_record(tightening_fields(1, job=100))), record(WITH_SERIAL), record(WITH_SERIAL, bytes(19)),
           record(WITH_SERIAL, bytes(16) + identifier_record("X")[:-1]), record(WITH_SERIAL, bytes(16) + identifier_record("X") + b"x"),
           with_serial(3, with_serial(4, identifier_record("X"))), with_serial(3, record(OPEN))]
    for i, data in enumerate(bad):
        equal(tool.give(data), BAD, "answer to bad record %d" % i)
    equal(tool.give(with_serial(3, tightening_record(tightening_fields(2)))), done("0", 2), "answer to a serial that was refused before")
    server.expect_result(tightening_fields(2), 2)
    equal(server.fence(), [], "something besides")
    for end in (harness.Host.end, harness.Host.kill):
        end(host)
        host = place.host()
        servers.append(place.server(host).subscribe(acknowledge=False))
        tool = place.tool()
        equal(tool.give(first), done("0", 1), "answer to a serial of an earlier run")
        equal(tool.give(with_serial(3, b"")), BAD, "answer to a serial in front of nothing")
        equal(tool.give(with_serial(3, record(0))), done("0", 2), "answer to the last serial of an earlier run")
        equal(servers[-1].fence(), [], "something besides")
    place.finish(host, servers, [7] * (len(bad) + 2))
    record_kinds = [record_kind for record_kind, _ in place.journaled() if record_kind in (TIGHTENING, SCANNED)]
    equal(record_kinds, [TIGHTENING, SCANNED, TIGHTENING, TIGHTENING], "what was journaled of them")  # the third is the refused one


@test
@in_memory
def many_serials(place):
    """The last 64 serials are known, in whichever run they came, and older ones are not; what is damaged of their file is left out."""
    host = place.host()
    tool = place.tool()
    for i in range(1, 101):
        equal(tool.give(with_serial(i, tightening_record(tightening_fields(i)))), done("none", i), "answer")
    equal(host.end(), 0, "status")
    with open(place.state + ".serials", "r+b") as file:  # serial 66 stands in the second line
        file.seek(80)
        file.write(b"?")
    place.host()
    tool = place.tool()
    for i in [*range(37, 66), *range(67, 101)]:
        equal(tool.give(with_serial(i, tightening_record(tightening_fields(i)))), done("none", i), "answer to serial %d" % i)
    for k, i in enumerate((66, 36, 1)):
        equal(tool.give(with_serial(i, tightening_record(tightening_fields(i)))), done("none", 101 + k), "answer to serial %d" % i)


def told_again(place, serial, kill):
    """A tightening with that serial, during which the host is killed, and which a further host is told again: the number that it got. A
    server sees it once at most, under that number."""
    data = with_serial(serial, tightening_record(tightening_fields(serial)))
    answers, seen = [], []
    for tell in (kill, lambda _, tool, data: answers.append(tool.give(data))):
        host = place.host()
        server, tool = place.server(host).subscribe(acknowledge=False), place.tool()
        tell(host, tool, data)
        host.kill()
        server.until_closed()
        server.close()
        tool.close()
        seen += [openprotocol.read(run).fields["number"] for run in server.seen if run[4:8] == b"0061"]
    number = int(re.fullmatch(r"0 done, taken by 0, number (\d+)", answers[0]).group(1))
    check(seen in ([], [number]), "tightening %d has number %d, and servers saw it as %s", serial, number, seen)
    return number


def check_told_again(place, numbers, kills):
    """Each tightening stands in the journal once, under the number that was answered; a kill uses up one number at most."""
    journaled, last = {}, 0
    for record_kind, payload in place.journaled():
        if record_kind == SETTINGS:
            last = fields_of(SETTINGS, payload)["last"]
        elif record_kind == TIGHTENING:
            last += 1
            journaled.setdefault(payload, []).append(last)
    lost = sum(tightening_record(tightening_fields(serial))[4:] not in journaled for serial in numbers)
    doubled = sum(len(given) - 1 for given in journaled.values())
    unused = last - sum(map(len, journaled.values()))
    place.said.append("%d kills, lost %d, doubled %d, %d numbers used up without being journaled" % (kills, lost, doubled, unused))
    check(lost == doubled == 0 and unused <= kills, "%s", place.said[-1])
    for serial, number in numbers.items():
        equal(journaled[tightening_record(tightening_fields(serial))[4:]], [number], "the number of tightening %d" % serial)


@test
@in_memory
@tracing.traced
def told_again_after_every_kill(place):
    """A tightening with a serial, the host killed before each call of the system that it makes for it, and told again to the next."""
    numbers, answered = {}, False

    def kill(host, tool, data):
        nonlocal answered
        host.wait_until_it_waits()
        trace = tracing.Trace(host.process.pid)
        tool.send(data)
        for _ in range(len(numbers) + 1):
            trace.next_call()
            answered = answered or select.select([tool.link], [], [], 0)[0] != []

    in_time = InTime("a kill before every call")
    while not answered and in_time():
        serial = len(numbers) + 1
        numbers[serial] = told_again(place, serial, kill)
    check_told_again(place, numbers, len(numbers))


@test
@in_memory
def told_again_after_kills(place):
    """The same with the host killed some time after it was told."""
    source = random.Random(8)
    numbers = {}

    def kill(_, tool, data):
        tool.send(data)
        time.sleep(source.random() * 0.002)

    for serial in range(1, max(12, place.count // 100) + 1):
        numbers[serial] = told_again(place, serial, kill)
    check_told_again(place, numbers, len(numbers))


@test
def what_stands_where_the_tools_socket_goes(place):
    """A socket file left by a host that was killed is replaced; a file, a folder, or the socket of a living host is not."""
    first = place.host()
    place.state = place.path("state-2")
    other = place.start(journal=False)
    place.refused(other, 1, place.tool_path)
    server = place.server(first).subscribe()
    place.tool().tighten(tightening_fields(1), "0")
    server.expect_result(tightening_fields(1), 1)
    first.kill()
    check(os.path.exists(place.tool_path), "no socket file is left by a killed host: this shows nothing")
    place.journal = place.path("journal-2")  # of the other state
    host = place.host()
    server = place.server(host).subscribe()
    place.tool().tighten(tightening_fields(1), "0")
    server.expect_result(tightening_fields(1), 1)
    equal(host.end(), 0, "status")
    with open(place.tool_path, "w", encoding="ascii") as file:
        file.write(GOOD_SETTINGS)
    place.refused(place.start(), 1, place.tool_path)
    with open(place.tool_path, encoding="ascii") as file:
        equal(file.read(), GOOD_SETTINGS, "a file that stood there")
    os.remove(place.tool_path)
    os.mkdir(place.tool_path)
    place.refused(place.start(), 1, place.tool_path)
    check(os.path.isdir(place.tool_path), "a folder that stood there is gone")


def ticks_pass(place, server, count):
    """So many ticks pass, and the server keeps alive."""
    before, in_time = place.ticks(), InTime("%d ticks" % count)
    while place.ticks() < before + count and in_time():
        equal(server.fence(), [], "something besides")
        time.sleep(harness.FAST_TICK)


def open_fifo(place):
    """A writer of the FIFO, once the host reads it."""
    def opened():
        with contextlib.suppress(OSError):
            return os.open(place.tool_path, os.O_WRONLY | os.O_NONBLOCK)
        return None

    descriptor = wait(opened, "a reader of the FIFO")
    os.set_blocking(descriptor, True)
    return open(descriptor, "wb", buffering=0)


def write_fifo(place, data):
    """A writer of the FIFO that comes, writes and leaves."""
    with open_fifo(place) as fifo:
        fifo.write(data)


@test
def tool_records_over_a_fifo(place):
    """Records over a FIFO, from one writer after another, cut and joined; refusals are logged with number and meaning."""
    os.mkfifo(place.tool_path)
    host = place.host()
    server = place.server(host).start()
    server.accepted(openprotocol.SUBSCRIBE_RESULTS, byte_12=b"1")
    number = 0
    for writer in range(5):
        with open_fifo(place) as fifo:
            for places in ([30], [1, 2, 3, 4, 5], [109], []):
                data = tightening_record(tightening_fields(number + 1)) + tightening_record(tightening_fields(number + 2))
                begin = 0
                for end in places + [len(data)]:
                    fifo.write(data[begin:end])
                    equal(server.fence() if end < 110 else [], [], "what is sent before a record is whole")
                    begin = end
                for _ in range(2):
                    number += 1
                    server.expect_result(tightening_fields(number), number)
            fifo.write(record(5))
        host.wait_for_log("(?s)" + ".*".join([BAD] * (writer + 1)))
    for cut, words in ((tightening_record(tightening_fields(0))[:60], " cut"),
                       (struct.pack("<HH", 8193, 1) + bytes(50), "(?s)too long.*no writer")):
        write_fifo(place, cut)
        host.wait_for_log(words)  # the host has seen that this writer is gone: the next is not taken for it
        number += 1
        write_fifo(place, tightening_record(tightening_fields(number)))
        server.expect_result(tightening_fields(number), number)
    equal(server.fence(), [], "something besides")
    place.finish(host, [server], [7] * 5)
    check(os.path.exists(place.tool_path), "the FIFO is gone, which was not the host's")


@test
@in_memory
def a_fifo_that_goes_away(place):
    """A FIFO that is removed, or replaced by a file or by another FIFO: what was written is taken, the file's records are not, the log says
    it, and the FIFO is found again."""
    os.mkfifo(place.tool_path)
    host = place.host(tick=int(harness.FAST_TICK * 1000))
    server = place.server(host).subscribe(acknowledge=False)
    number = 0

    def taken():
        nonlocal number
        number += 1
        server.expect_result(tightening_fields(number), number)
        equal(server.fence(), [], "something besides")

    with open_fifo(place) as fifo:  # one who still has it open
        os.remove(place.tool_path)
        ticks_pass(place, server, 3)
        fifo.write(tightening_record(tightening_fields(number + 1)))
        taken()
    host.wait_for_log("tool .* cannot be opened: No such file")
    with open(place.path("file"), "wb") as file:
        file.write(tightening_record(tightening_fields(99)) * 3)
    os.rename(place.path("file"), place.tool_path)
    ticks_pass(place, server, 3)
    equal(host.log().count("cannot be opened"), 1, "lines that say so")
    os.remove(place.tool_path)
    os.mkfifo(place.tool_path)
    host.wait_for_log("tool .* is there again")
    write_fifo(place, tightening_record(tightening_fields(number + 1)))
    taken()
    os.remove(place.tool_path)  # while nobody has it open
    os.mkfifo(place.tool_path)
    ticks_pass(place, server, 3)
    write_fifo(place, tightening_record(tightening_fields(number + 1)))
    taken()
    os.rename(place.tool_path, place.path("other"))
    with open(place.tool_path, "wb") as file:
        file.write(tightening_record(tightening_fields(99)) * 3)
    host.wait_for_log("tool .* cannot be opened: it is no FIFO any more")
    equal(server.fence(), [], "something of the file")
    place.finish(host, [server])


@test
@in_memory
def silent_tools(place):
    """Eight tools that say nothing, or a part of a record: after fifteen ticks one gives its place to a further one, with a line; one that
    speaks keeps it."""
    host = place.host(tick=int(harness.FAST_TICK * 1000))
    server = place.server(host).subscribe()
    speaking, *silent = [place.tool() for _ in range(8)]
    silent[0].send(b"\x6a")
    for i in range(2):
        further = place.tool()
        further.send(record(5))
        in_time = InTime("a further tool is answered")
        while not select.select([further.link], [], [], harness.FAST_TICK)[0] and in_time():
            equal(speaking.give(record(5)), BAD, "answer to the one that speaks")
            equal(server.fence(), [], "something besides")
        equal(further.answer(), BAD, "answer to a further tool")
        equal(host.log().count("another needs its place"), i + 1, "lines that say so")
    closed = [tool for tool in silent if select.select([tool.link], [], [], 0)[0]]
    equal(len(closed), 2, "tools that gave up their places")
    equal(speaking.give(record(5)), BAD, "answer to the one that speaks")


@test
def few_descriptors(place):
    """Where few file descriptors are left, connections are turned away with a line, the host rests, and a tightening is kept and told; when
    there are more again, so are connections."""
    host = place.host(tick=1000)
    server = place.server(host).subscribe(acknowledge=False)
    tool = place.tool()
    tool.tighten(tightening_fields(1), "0")
    server.expect_result(tightening_fields(1), 1)
    greatest = resource.prlimit(host.process.pid, resource.RLIMIT_NOFILE)[1]
    resource.prlimit(host.process.pid, resource.RLIMIT_NOFILE, (host.lowest_free_file() + 8, greatest))
    for turned_away in (place.server(host), place.tool()):
        equal(turned_away.receive(), b"", "what one that is turned away is sent")
    equal(len(re.findall(r"(?:links|tool): a connection cannot be taken: too few", host.log())), 2, "lines that say so")
    resource.prlimit(host.process.pid, resource.RLIMIT_NOFILE, (host.lowest_free_file(), greatest))
    waiting = [place.server(host), place.tool()]
    host.wait_for_log(r"links: a connection cannot be taken: Too many open files")
    ran, began = host.processor_seconds(), time.monotonic()
    time.sleep(1)
    check(host.processor_seconds() - ran < (time.monotonic() - began) / 5, "the host runs without rest")
    check(host.log().count("Too many open files") < 10, "the host tries again without rest")
    resource.prlimit(host.process.pid, resource.RLIMIT_NOFILE, (host.files() + 20, greatest))
    waiting[0].start()
    waiting[1].tighten(tightening_fields(2), "0")
    server.expect_result(tightening_fields(2), 2)


@test
@tracing.traced
def a_fifo_writer_that_is_not_told(place):
    """A writer that comes and goes just before the FIFO is opened anew, of which poll does not tell that it left: what it wrote of a record
    is cut, and not taken for the beginning of the next one's."""
    os.mkfifo(place.tool_path)
    host = place.host()
    server = place.server(host).subscribe()
    trace = tracing.Trace(host.process.pid)
    write_fifo(place, b"")
    in_time = InTime("the FIFO opened anew")
    while trace.next_call() != "open" and in_time():
        pass
    write_fifo(place, tightening_record(tightening_fields(0))[:60])
    trace.end()
    host.wait_for_log("cut after 60 bytes")
    write_fifo(place, tightening_record(tightening_fields(1)))
    server.expect_result(tightening_fields(1), 1)
    equal(server.fence(), [], "something besides")
    place.finish(host, [server])
