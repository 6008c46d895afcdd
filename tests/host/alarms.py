"""Alarms: the tool's faults, who is told of them, their copies, and those that are lost."""

import re
import time

import harness
from harness import (InTime, alarm_fields, alarm_record, check, equal, in_memory, openprotocol, record, test, tightening_fields,
                     with_serial)
from notices import Sort, not_read, ways_to_lose

NOT_SUBSCRIBED, ALREADY_SUBSCRIBED, UNKNOWN = 12, 11, 99


def refused(server, mid, error, **more):
    server.tell(mid, **more)
    equal(server.expect(openprotocol.REFUSED), {"mid": mid, "error": error}, "answer to a %04d" % mid)


@test
def alarms_reach_their_subscribers(place):
    """An alarm goes to the servers that asked for alarms, as the tool gave it, at once or one by one as they acknowledge, and to no other;
    0070, 0072 and 0073 are answered as they should be. It alters neither the identifier in force nor a result's number."""
    host = place.host()
    tool = place.tool()
    tool.alarm(alarm_fields(0), "none")
    server, quick, other = servers = [place.server(host).start() for _ in range(3)]
    refused(server, openprotocol.UNSUBSCRIBE_ALARMS, NOT_SUBSCRIBED)
    refused(server, openprotocol.SUBSCRIBE_ALARMS, openprotocol.NO_SUCH_REVISION, revision=b"002")
    refused(server, openprotocol.SUBSCRIBE_ALARMS, 1, data=b"x")
    server.accepted(openprotocol.SUBSCRIBE_ALARMS, revision=b"   ")
    refused(server, openprotocol.SUBSCRIBE_ALARMS, ALREADY_SUBSCRIBED)
    quick.subscribe_alarms(acknowledge=False)
    other.subscribe_results()
    equal(server.fence(), [], "something old")
    tool.scan("BODY 1", "none")
    for i in range(1, 30):
        tool.alarm(alarm_fields(i), "0 1")
        for one, byte_12 in ((server, b"0"), (quick, b"1")):
            one.expect_alarm(alarm_fields(i))
            run = one.seen[-1]
            equal((len(run), run[11:12]), (53, byte_12), "length and byte 12")
        server.tell(openprotocol.ACKNOWLEDGE_ALARM, revision=b"%03d" % i)
        equal([one.fence() for one in servers], [[]] * 3, "something besides")
        tool.tighten(tightening_fields(i, identifier=""), "2")
        other.expect_result(tightening_fields(i, identifier="BODY 1"), i)
        other.tell(openprotocol.ACKNOWLEDGE_RESULT)
    for i in (30, 31, 32):
        tool.alarm(alarm_fields(i), "0 1")
    server.expect_alarm(alarm_fields(30))
    for mid, data in ((openprotocol.ACKNOWLEDGE_RESULT, b""), (openprotocol.ACKNOWLEDGE_IDENTIFIER, b""),
                      (openprotocol.ACKNOWLEDGE_ALARM, b"x")):
        server.tell(mid, data=data)
        equal(server.fence(), [], "what a %04d brings that acknowledges no alarm" % mid)
    server.tell(openprotocol.ACKNOWLEDGE_ALARM)
    server.expect_alarm(alarm_fields(31))
    for mid in (75, 77):
        refused(server, mid, UNKNOWN)
    server.accepted(openprotocol.UNSUBSCRIBE_ALARMS, revision=b"007")
    refused(server, openprotocol.UNSUBSCRIBE_ALARMS, NOT_SUBSCRIBED)
    server.tell(openprotocol.ACKNOWLEDGE_ALARM)
    server.subscribe_alarms()
    equal(server.fence(), [], "something old")
    tool.alarm(alarm_fields(33), "0 1")
    server.expect_alarm(alarm_fields(33))
    place.finish(host, servers)


@test
def four_alarms_wait(place):
    """Four are kept for a server, one by one as it acknowledges, beside eight results; the fifth is not taken. A link that is lost takes
    them with it: who comes back is told of none of them."""
    host = place.host()
    tool = place.tool()
    slow = place.server(host).subscribe().subscribe_alarms()
    quick = place.server(host).start().subscribe_alarms(acknowledge=False)
    for number in range(1, 9):
        tool.tighten(tightening_fields(number), "0")
    for i in range(1, 6):
        tool.alarm(alarm_fields(i), "0 1" if i <= 4 else "1")
        quick.expect_alarm(alarm_fields(i))
    slow.expect_result(tightening_fields(1), 1)
    for i in range(1, 5):
        slow.expect_alarm(alarm_fields(i))
        equal(slow.fence(), [], "something before the acknowledge")
        slow.tell(openprotocol.ACKNOWLEDGE_ALARM)
    equal(slow.fence(), [], "something behind the fourth")
    for i in (6, 7):
        tool.alarm(alarm_fields(i), "0 1")
    slow.expect_alarm(alarm_fields(6))
    slow.reads_all = False
    slow.cut()
    place.wait_for_hang_up(0)
    back = place.server(host).start().subscribe_alarms()
    equal(back.fence(), [], "something old")
    tool.alarm(alarm_fields(8), "0 1")
    back.expect_alarm(alarm_fields(8))
    place.finish(host, [slow, quick, back])


@test
@in_memory
def an_alarm_that_is_not_acknowledged(place):
    """It is repeated byte for byte, six copies in all, each behind those of an identifier and a result that are as old, while keep-alives
    go on; then the next is sent, and the log says that it is given up."""
    tick = harness.FAST_TICK
    host = place.host(tick=int(tick * 1000))
    tool = place.tool()
    server = place.server(host).subscribe().subscribe_alarms()
    tool.scan("BODY 1", "0")
    tool.tighten(tightening_fields(1), "0")
    tool.alarm(alarm_fields(1), "0")
    tool.alarm(alarm_fields(2), "0")
    before, runs, in_time = place.ticks(), [], InTime("123 ticks", more=200 * tick)
    while place.ticks() < before + 123 and in_time():
        runs += server.fence()
        time.sleep(tick)
    runs += server.fence()
    notices = [openprotocol.IDENTIFIER, openprotocol.RESULT, openprotocol.ALARM]
    equal([openprotocol.read(run).mid for run in runs], notices * 6 + [openprotocol.ALARM], "notices")
    equal(len(set(runs)), 4, "how many sorts of copies")
    equal(openprotocol.read(runs[-1]).fields, alarm_fields(2), "the next")
    first, second = ('alarm "E00%d" of 2026-03-05:00:00:0%d' % (i, i) for i in (1, 2))
    said = re.findall(r'Z session 0 [0-9.:]+(?: > 0071|:) (alarm .*)\n', host.log())
    equal(said, [first] * 6 + [second, first + " given up: it was not acknowledged in 120 ticks"], "lines of the log")
    equal([loss[1:3] for loss in Sort.losses(host)], [(1, "given up")], "results lost")
    place.finish(host, [server])


def which(code, when):
    """Which alarm has that time, and that code too."""
    hours, minutes, seconds = map(int, when.split(":")[1:])
    i = (hours * 60 + minutes) * 60 + seconds
    equal(code, alarm_fields(i)["code"], "the code of alarm %d" % i)
    return i


class Alarms(Sort):
    SUBSCRIBE, NOTICE, ACKNOWLEDGE, UNSUBSCRIBE = (openprotocol.SUBSCRIBE_ALARMS, openprotocol.ALARM, openprotocol.ACKNOWLEDGE_ALARM,
                                                   openprotocol.UNSUBSCRIBE_ALARMS)
    HELD, HELD_WORD = 4, "four"
    NAME = r'alarm ("E\d\d\d" of 2026-03-05:\d\d:\d\d:\d\d)'

    @staticmethod
    def record(i):
        return alarm_record(alarm_fields(i))

    @staticmethod
    def read(fields):
        return which(fields["code"], fields["time"])

    @staticmethod
    def named(name):
        code, when = name.split(" of ")
        return which(code.strip('"'), when)


@test
@in_memory
def alarms_that_are_lost(place):
    """Each has its line, with the session, the code and the time: not taken, given up, dropped at a stop, an unsubscribe, a time-out, a
    hang-up or the host's end. None other has one."""
    ways_to_lose(place, Alarms)


@test
@in_memory
def alarms_not_read(place):
    """A server that asked for no acknowledge of alarms and does not read is hung up: each alarm that was not given to the system has its
    line, and no other; what was is there to be read."""
    not_read(place, Alarms, [(lambda deaf: deaf.subscribe_alarms(acknowledge=False), 1100)])


@test
def log_lines_of_alarms(place):
    """The log shows an alarm that came with what it says and who took it, that alarms are asked for, an alarm that is sent and its
    acknowledge, whatever the code is."""
    host = place.host()
    tool = place.tool()
    server = place.server(host).start().subscribe_alarms()
    told = [{"code": "E404", "controller_ready": 1, "tool_ready": 0, "time": "2026-03-05:12:34:56"},
            {"code": '"\\%s', "controller_ready": 0, "tool_ready": 1, "time": "2026-03-05:12:34:57"},
            {"code": "    ", "controller_ready": 0, "tool_ready": 0, "time": "0000-00-00:00:00:00"}]
    for fields in told:
        tool.alarm(fields, "0")
        server.expect(openprotocol.ALARM)
        server.tell(openprotocol.ACKNOWLEDGE_ALARM)
        equal(server.fence(), [], "something besides")
    server.accepted(openprotocol.UNSUBSCRIBE_ALARMS)
    tool.alarm(told[0], "none")
    lines = re.findall(r"Z (?:session 0 [0-9.:]+ ([<>] (?:0005 to )?007\d.*)|tool: (alarm.*))\n", host.log())
    words = ['alarm "%(code)s" of %(time)s' % fields for fields in told]
    ready = [", controller ready, tool not ready", ", controller not ready, tool ready", ", controller not ready, tool not ready"]
    wanted = ["< 0070", "> 0005 to 0070"]
    for name, says in zip(words, ready):
        wanted += ["> 0071 " + name, name + says + ", taken by 0", "< 0072"]
    wanted += ["< 0073", "> 0005 to 0073", words[0] + ready[0] + ", taken by none"]
    equal([of_message or of_tool for of_message, of_tool in lines], wanted, "lines of the log")


@test
def alarms_with_a_serial(place):
    """An alarm whose serial is known is answered as it was first and told to nobody again, while the host runs; one that was refused leaves
    nothing behind. The serials of alarms stand on no disk: the next host takes one anew."""
    host = place.host()
    server = place.server(host).start().subscribe_alarms(acknowledge=False)
    tool = place.tool()
    first = with_serial(1, alarm_record(alarm_fields(1)))
    for giver in (tool, tool, place.tool()):
        equal(giver.give(first), "0 done, taken by 0", "answer to an alarm with a serial")
    equal(tool.give(with_serial(2, alarm_record(alarm_fields(2, tool_ready=2)))), "7 tool record bad", "answer to a bad one")
    equal(tool.give(with_serial(2, alarm_record(alarm_fields(2)))), "0 done, taken by 0", "answer to a serial that was refused before")
    for i in (1, 2):
        server.expect_alarm(alarm_fields(i))
    equal(server.fence(), [], "something besides")
    journaled = [harness.fields_of(*each)["tool_ready"] for each in place.journaled() if each[0] == harness.ALARM]
    equal(journaled, [0, 2, 1], "alarms journaled, by what they say of the tool")
    equal(host.end(), 0, "status")
    again = place.host()
    other = place.server(again).start().subscribe_alarms()
    equal(place.tool().give(first), "0 done, taken by 0", "answer of the next host")
    other.expect_alarm(alarm_fields(1))
    place.finish(again, [server, other], [7])


@test
def alarms_that_are_bad(place):
    """A record of kind 5 that is no alarm is refused with 7, logged, and told to nobody: another length, a code or a time that is none, a
    ready byte that is neither 0 nor 1, be it a digit; so is an alarm's payload as an identifier, and an identifier's as an alarm."""
    host = place.host()
    tool = place.tool()
    server = place.server(host).subscribe().subscribe_alarms()
    good = alarm_record(alarm_fields(1))[4:]
    bad = [alarm_record(alarm_fields(1, **named)) for named in (
        {"code": "E4\x1f4"}, {"code": "\x7f404"}, {"code": b"\xe9404"}, {"controller_ready": 2}, {"controller_ready": ord("1")},
        {"tool_ready": 2}, {"tool_ready": ord("0")}, {"tool_ready": 255}, {"time": "2026-03-05 12:34:56"}, {"time": "2026-03-05:12:34:5a"})]
    bad += [record(harness.ALARM, good[:-1]), record(harness.ALARM, good + b" "), record(harness.ALARM), record(harness.SCANNED, good),
            record(harness.ALARM, b"BODY-0000001".ljust(25)), record(harness.ALARM, bytes(25))]
    for i, data in enumerate(bad):
        equal(tool.give(data), "7 tool record bad", "answer to bad record %d" % i)
        equal(server.fence(), [], "what is sent for bad record %d" % i)
    check('alarm "' not in host.log(), "a bad alarm is logged as one:\n%s", host.log())
    equal(host.log().count("tool: refused, 7 tool record bad"), len(bad), "refusals logged")
    tool.alarm(alarm_fields(1), "0")
    server.expect_alarm(alarm_fields(1))
    place.finish(host, [server], [7] * len(bad))
