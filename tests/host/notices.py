"""Notices: identifiers and results, as the tool gave them, and their copies."""

import re
import time

import harness
from harness import (InTime, check, equal, in_memory, openprotocol, tell_and_acknowledge, test, tightening_fields, tightening_record,
                     wait)


@test
def start_to_result(place):
    """A server that starts, subscribes and acknowledges gets each identifier and each result once, as the tool gave it."""
    host = place.host()
    tool = place.tool()
    unseen = tightening_fields(1)
    tool.tighten(unseen, "none")
    tool.scan("BEFORE ANYONE CAME", "none")
    server = place.server(host).start()
    server.accepted(openprotocol.SUBSCRIBE_IDENTIFIERS, revision=b"002")
    server.accepted(openprotocol.SUBSCRIBE_RESULTS)
    equal(server.fence(), [], "something old")
    for number in range(2, 30):
        identifier = "CAR %d" % number
        tool.scan(identifier, "0")
        fields = tightening_fields(number, **({"identifier": ""} if number % 2 else {}))
        tool.tighten(fields, "0")
        parts = server.expect(openprotocol.IDENTIFIER, revision=2)
        equal(parts, {"identifier": identifier, "part_2": "", "part_3": "", "part_4": ""}, "0052")
        server.tell(openprotocol.ACKNOWLEDGE_IDENTIFIER)
        server.expect_result({**fields, "identifier": fields["identifier"] or identifier}, number)
        server.tell(openprotocol.ACKNOWLEDGE_RESULT)
        equal(server.fence(), [], "something besides")
    for mid in (openprotocol.UNSUBSCRIBE_RESULTS, openprotocol.UNSUBSCRIBE_IDENTIFIERS, openprotocol.STOP):
        server.accepted(mid)
    tool.tighten(tightening_fields(30), "none")
    server.start()
    equal(server.fence(), [], "something old")
    place.finish(host, [server])


@test
def a_result_waits_for_the_acknowledge_before_it(place):
    """Eight are kept for a server, one by one as it acknowledges; the ninth is not taken. A server that asked for no acknowledge gets
    all of them at once."""
    host = place.host()
    tool = place.tool()
    slow = place.server(host).subscribe()
    quick = place.server(host).subscribe(acknowledge=False)
    for number in range(1, 10):
        tool.tighten(tightening_fields(number), "0 1" if number <= 8 else "1")
        quick.expect_result(tightening_fields(number), number)
    for number in range(1, 9):
        slow.expect_result(tightening_fields(number), number)
        equal(slow.fence(), [], "something before the acknowledge")
        slow.tell(openprotocol.ACKNOWLEDGE_RESULT)
    equal(slow.fence(), [], "something behind the eighth")
    place.finish(host, [slow, quick])


# The bytes of a 0061 in each revision, and where each has its number.
LENGTHS = {1: 231, 2: 385, 3: 419, 4: 500, 5: 506, 6: 526}
NUMBERS = {revision: slice(303, 313) if revision > 1 else slice(221, 231) for revision in LENGTHS}


@test
def servers_in_different_revisions(place):
    """Each is told of a result in the revision that it subscribed to, whatever the others have, and acknowledges it for itself. A revision
    that there is not gets 97 and changes nothing. One that subscribes anew gets the revision that it asks for then."""
    host = place.host()
    tool = place.tool()
    servers = [place.server(host).subscribe(acknowledge=revision != 4, revision=revision) for revision in (1, 2, 3, 4)]
    number = 0
    for revisions in ((1, 2, 3, 4), (5, 6, 5, 1)):
        for server, revision in zip(servers, revisions):
            if server.revision != revision:
                server.accepted(openprotocol.UNSUBSCRIBE_RESULTS)
                for none in (b"007", b"998", b"999"):
                    server.tell(openprotocol.SUBSCRIBE_RESULTS, revision=none)
                    equal(server.expect(openprotocol.REFUSED), {"mid": 60, "error": openprotocol.NO_SUCH_REVISION}, "answer to %r" % none)
                server.subscribe_results(revision)
        for _ in range(3):
            number += 1
            equal(tool.tighten(tightening_fields(number), "0 1 2 3"), number, "number")
            for server, revision in zip(servers, revisions):
                server.expect_result(tightening_fields(number), number)
                run = server.seen[-1]
                equal((len(run), int(run[NUMBERS[revision]])), (LENGTHS[revision], number), "length and number in revision %d" % revision)
                server.tell(openprotocol.ACKNOWLEDGE_RESULT)
                equal(server.fence(), [], "something besides")
    place.finish(host, servers)


@test
def an_identifier_over_the_net(place):
    """An identifier that one server downloads reaches all, its sender included, and stands in the next result."""
    host = place.host()
    tool = place.tool()
    servers = [place.server(host).subscribe() for _ in range(2)]
    servers[0].tell(openprotocol.DOWNLOAD_IDENTIFIER, data=b"FROM THE LINE")
    equal(servers[0].expect(openprotocol.ACCEPTED)["mid"], openprotocol.DOWNLOAD_IDENTIFIER, "accepted")
    fields = tightening_fields(1, identifier="")
    for server in servers:
        equal(server.expect(openprotocol.IDENTIFIER)["identifier"], "FROM THE LINE", "identifier")
    tool.tighten(fields, "0 1")
    for server in servers:
        server.expect_result({**fields, "identifier": "FROM THE LINE"}, 1)
        equal(server.fence(), [], "something besides")


@test
@in_memory
def a_notice_that_is_not_acknowledged(place):
    """It is repeated byte for byte, six copies in all, in whichever revision, while keep-alives go on; then the next is sent."""
    tick = harness.FAST_TICK
    host = place.host(tick=int(tick * 1000))
    tool = place.tool()
    servers = [place.server(host).start() for _ in range(2)]
    for server, revision in zip(servers, (1, 6)):
        server.subscribe_results(revision)
    tool.tighten(tightening_fields(1), "0 1")
    tool.tighten(tightening_fields(2), "0 1")
    before = place.ticks()
    runs, in_time = [[], []], InTime("123 ticks", more=200 * tick)
    while place.ticks() < before + 123 and in_time():
        for server, came in zip(servers, runs):
            came += server.fence()
        time.sleep(tick)
    for server, came in zip(servers, runs):
        frames = list(map(openprotocol.read, came + server.fence()))
        equal([frame.fields["number"] for frame in frames], [1, 1, 1, 1, 1, 1, 2], "numbers of the copies")
        equal({frame.revision for frame in frames}, {server.revision}, "their revisions")
        equal(len(set(came[:6])), 1, "how many sorts of copies")
    place.finish(host, servers)


class Sort:
    """Results, and what alarms.py makes of it: alarms, which are lost as results are. The i-th of them is the i-th that the tool gives."""

    SUBSCRIBE, NOTICE, ACKNOWLEDGE, UNSUBSCRIBE = (openprotocol.SUBSCRIBE_RESULTS, openprotocol.RESULT, openprotocol.ACKNOWLEDGE_RESULT,
                                                   openprotocol.UNSUBSCRIBE_RESULTS)
    HELD, HELD_WORD = 8, "eight"
    NAME = r"result (\d+)"  # how the log names one

    @staticmethod
    def record(i):
        return tightening_record(tightening_fields(i))

    @staticmethod
    def read(fields):
        """Which one a notice tells of."""
        return fields["number"]

    @staticmethod
    def named(name):
        """Which one the log names."""
        return int(name)

    @classmethod
    def give(cls, tool, i, taken_by):
        answer = tool.give(cls.record(i))
        check(answer.startswith("0 done, taken by %s" % taken_by), "answer to %d: %r, not taken by %s", i, answer, taken_by)

    @classmethod
    def losses(cls, host):
        """What the log says of those that were lost: (session, which one, how, why)."""
        found = re.findall(r"Z session (\d) [0-9.:]+: %s ((?:not|given|dropped)[a-z ,]+): (.+)\n" % cls.NAME, host.log())
        return [(int(session), cls.named(name), how, why) for session, name, how, why in found]


def ways_to_lose(place, sort):
    """Each that is lost has its line: not taken, given up, dropped at a stop, an unsubscribe, a time-out, a hang-up or the host's end."""
    tick = harness.FAST_TICK
    host = place.host(tick=int(tick * 1000))
    tool = place.tool()
    given, wanted = 0, []

    def tell(count, taken_by):
        """Answers which they were."""
        nonlocal given
        for _ in range(count):
            given += 1
            sort.give(tool, given, taken_by)
        return list(range(given + 1 - count, given + 1))

    def subscribed():
        server = place.server(host).start()
        server.accepted(sort.SUBSCRIBE)
        return server

    def dropped(each, why):
        return [(0, one, "dropped, not sent" if i else "dropped, sent but not acknowledged", why) for i, one in enumerate(each)]

    def lost(lines):
        wanted.extend(lines)
        wait(lambda: len(sort.losses(host)) >= len(wanted), "lines for %s" % lines)
        equal(sort.losses(host), wanted, "those lost")

    server = subscribed()
    _, second = tell(2, "0")
    server.tell(sort.ACKNOWLEDGE)
    server.fence()
    server.accepted(sort.UNSUBSCRIBE)
    lost(dropped([second], "its subscription is ended"))
    server.accepted(sort.SUBSCRIBE)
    held = tell(sort.HELD, "0")
    lost([(0, one, "not taken", "%s are held for it" % sort.HELD_WORD) for one in tell(1, "none")])
    server.fence()
    server.tell(sort.ACKNOWLEDGE, data=b"x")  # too long to acknowledge anything
    server.accepted(openprotocol.STOP)
    lost(dropped(held, "the session is stopped"))
    server.start()
    server.accepted(sort.SUBSCRIBE)
    first, second = tell(2, "0")
    in_time = InTime("one is given up", more=200 * tick)
    while not sort.losses(host)[len(wanted):] and in_time():
        server.fence()
        time.sleep(tick)
    lost([(0, first, "given up", "it was not acknowledged in 120 ticks")])
    server.until_closed()
    lost(dropped([second], "idle for 15 ticks"))
    server = subscribed()
    held = tell(3, "0")
    server.cut()
    lost(dropped(held, "Connection reset by peer"))
    subscribed()
    held = tell(2, "0")
    equal(host.end(), 0, "status")
    lost(dropped(held, "the host ends"))


def not_read(place, sort, ways):
    """Those that were not given to the system have their lines, and no other; what was is there to be read. In each of the ways a server
    subscribes without acknowledge, and loses at least so many."""
    host = place.host()
    tool = place.tool()
    given = 0
    for times, (subscribe, least) in enumerate(ways, 1):
        deaf = place.server(host, receive_buffer=4096).start()
        subscribe(deaf)
        first, lost_before, in_time = given + 1, len(sort.losses(host)), InTime("the deaf one is hung up")
        while in_time() and host.log().count("closed: 64 KiB wait for it") < times:
            given += 1
            tool.give(sort.record(given))
        lost = [one for _, one, how, _ in sort.losses(host)[lost_before:] if how == "dropped, not sent"]
        check(len(lost) > least, "only %d lines", len(lost))
        deaf.until_closed()
        read = [sort.read(openprotocol.read(run).fields) for run in deaf.seen if run[4:8] == b"%04d" % sort.NOTICE]
        equal(read, list(range(first, first + len(read))), "those that were read")
        equal(lost, list(range(lost[0], given + 1)), "those lost")
        check(lost[0] >= first + len(read), "%d was read, and a line says that it was not sent", lost[0])


@test
@in_memory
def results_that_are_lost(place):
    """Each has its line, with the session and the number: not taken, given up, dropped at a stop, an unsubscribe, a time-out, a hang-up
    or the host's end. None other has one."""
    ways_to_lose(place, Sort)


@test
@in_memory
def results_not_read(place):
    """A server that asked for no acknowledge and does not read is hung up, in whichever revision: each result that was not given to the
    system has its line, and no other; what was is there to be read."""
    not_read(place, Sort, [(lambda deaf: deaf.subscribe_results(1, byte_12=b"1"), 250),
                           (lambda deaf: deaf.subscribe_results(6, byte_12=b"1"), 110)])


@test
def log_lines(place):
    """Each message is logged with the time, the session, the peer and its direction, and each tool record with who took it."""
    host = place.host()
    tool = place.tool()
    server = place.server(host).subscribe()
    tell_and_acknowledge(tool, server, 1, 1)
    equal(server.fence(), [], "something besides")
    port = server.link.getsockname()[1]
    server.close()
    place.wait_for_hang_up(0)
    equal(host.end(), 0, "status")
    lines = host.log().splitlines()
    for line in lines:
        check(re.match(r"\d{4}-\d\d-\d\dT\d\d:\d\d:\d\d\.\d{3}Z ", line), "no time before a line: %r", line)
    of_messages = [match.group(1) for line in lines
                   if (match := re.search(r"Z session 0 127\.0\.0\.1:%d ([<>] \d{4})\b" % port, line))]
    wanted = ["< 0001", "> 0002", "< 0051", "> 0005", "< 0060", "> 0005", "> 0061", "< 0062", "< 9999", "> 9999"]
    equal(of_messages, wanted, "messages logged")


@test
def log_lines_with_values(place):
    """The log shows the text of a 0050 that was accepted, the error of a 0004, and the number of a 0061."""
    host = place.host("--new-state", 41)
    server = place.server(host).subscribe()
    server.tell(openprotocol.DOWNLOAD_IDENTIFIER, data=b"FROM THE \"LINE\"")
    server.fence()
    server.send(openprotocol.message(openprotocol.DOWNLOAD_IDENTIFIER, data=b"IN TWO " + b"PIECES")[:30])
    place.wait_for_journal(lambda records: records[-1][1].endswith(b"IN TWO PIE"), "the first piece")
    server.send(b"CES\0")
    server.tell(openprotocol.DOWNLOAD_IDENTIFIER, data=b"NOT\nPRINTABLE")
    server.tell(openprotocol.SUBSCRIBE_RESULTS)
    server.tell(1234)
    place.tool().tighten(tightening_fields(1), "0")
    server.fence()
    said = re.findall(r"Z session 0 [0-9.:]+ > (000[45] .*|0061.*)\n", host.log())
    equal(said[2:], ['0005 to 0050 "FROM THE \"LINE\""', '0005 to 0050 "IN TWO PIECES"', "0004 to 0050, error 01", "0004 to 0060, error 09",
                     "0004 to 1234, error 99", "0061 number 42"], "values logged")


@test
def log_lines_in_each_revision(place):
    """The log shows the number of a 0061 in each revision, and which revision a message asks for where that is not 1."""
    host = place.host("--new-state", 41)
    tool = place.tool()
    server = place.server(host).start()
    wanted = []
    for number, revision in enumerate((*LENGTHS, 7), 42):
        asked = "< 0060 revision %d" % revision if revision > 1 else "< 0060"
        if revision not in LENGTHS:
            server.tell(openprotocol.SUBSCRIBE_RESULTS, revision=b"%03d" % revision)
            server.fence()
            wanted += [asked, "> 0004 to 0060, error 97"]
            continue
        server.subscribe_results(revision)
        tool.tighten(tightening_fields(number), "0")
        server.expect_result(tightening_fields(number), number)
        server.accepted(openprotocol.UNSUBSCRIBE_RESULTS)
        wanted += [asked, "> 0005 to 0060", "> 0061 number %d" % number]
    equal(re.findall(r"Z session 0 [0-9.:]+ (< 0060.*|> 000[45] to 0060.*|> 0061.*)\n", host.log()), wanted, "lines of the log")


@test
def the_demo(place):
    """--demo scans identifiers, tightens bolts and has a fault of itself: results arrive in order, as a tool would have given them, among
    the first of a program with an angle window and of one without."""
    host = place.host("--demo", "--demo-seconds", 1, tool=False)
    server = place.server(host).subscribe().subscribe_alarms()
    numbers, identifiers, codes, windows, needed = [], [], [], {}, None
    in_time = InTime("three results, of two programs, an identifier and an alarm", more=10)
    while in_time() and (len(numbers) < 3 or len(windows) < 2 or not identifiers or not codes):
        frame = openprotocol.read(server.next())
        if frame.mid == openprotocol.IDENTIFIER:
            server.tell(openprotocol.ACKNOWLEDGE_IDENTIFIER)
            identifiers.append(frame.fields["identifier"])
        elif frame.mid == openprotocol.ALARM:
            server.tell(openprotocol.ACKNOWLEDGE_ALARM)
            codes.append(frame.fields["code"])
            check(abs(time.mktime(time.strptime(frame.fields["time"], "%Y-%m-%d:%H:%M:%S")) - time.time()) < 60, "time: %s", frame.fields)
        else:
            equal(frame.mid, openprotocol.RESULT, "message")
            server.tell(openprotocol.ACKNOWLEDGE_RESULT)
            numbers.append(frame.fields["number"])
            window = [frame.fields["angle_" + which] for which in openprotocol.LIMITS]
            equal(windows.setdefault(frame.fields["parameter_set"], window), window, "window of a program")
            needed = needed or (len(windows) == 2 and len(numbers))
            for what in ("torque", "angle"):
                least, greatest = frame.fields[what + "_min"], frame.fields[what + "_max"]
                within = (least is None or least <= frame.fields[what]) and (greatest is None or frame.fields[what] <= greatest)
                equal(frame.fields[what + "_status"] == 1, within, "%s status of %s" % (what, frame.fields))
            if window == [None] * 3:
                check(not 70 <= frame.fields["angle"] <= 110, "an angle within another program's window shows too little: %s", frame.fields)
    equal(sorted(windows.values(), key=str), [[70, 110, 90], [None] * 3], "angle windows")
    check(needed < 8, "both programs were seen after %d results only", needed)
    equal(numbers, list(range(numbers[0], numbers[0] + len(numbers))), "numbers")
    check(identifiers[-1] != "", "an empty identifier")
    check(re.fullmatch(r"E\d\d\d", codes[0]), "code %r", codes[0])
    place.finish(host, [server])
