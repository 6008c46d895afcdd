"""Old results, asked for by their numbers."""

import re
import signal
import time

import harness
from harness import InTime, check, equal, in_memory, old_fields, openprotocol, test, tightening_fields, wait
from watching import Controller, Watch

KEPT = 64


def nothing_comes(place, server, tick):
    """The server gets nothing until past the next copy of what was once open, and keeps its link alive meanwhile."""
    until, in_time = place.ticks() + 25, InTime("25 ticks", more=50 * tick)
    while place.ticks() < until and in_time():
        equal(server.fence(), [], "something that came of itself")
        time.sleep(tick)


def watched(place, host, status, *arguments):
    """The lines of a watch that ends with that status."""
    watch = Watch(place, "--connect", "127.0.0.1:%d" % host.port, *arguments)
    equal(watch.process.wait(harness.SECONDS), status, "status of watch")
    return [" ".join(line.split()) for line in watch.lines()]


@test
@in_memory
def what_a_server_missed(place):
    """The rebuilder's day: a result is open and another waits when the link is lost, and a third is made meanwhile. When the server is back
    nothing old comes of itself, past the next copy too. Each is there to be asked for by its number, with the identifier of then; nothing
    of it is acknowledged, nor comes again. One that was never made is not kept. The next result comes as fresh. watch --fetch shows the
    old ones as old."""
    tick = 2 * harness.FAST_TICK
    host = place.host(tick=int(tick * 1000))
    tool = place.tool()
    server = place.server(host).subscribe()
    made = [tightening_fields(number, identifier="") for number in range(1, 6)]
    gearboxes = ["GEARBOX-4711"] * 3 + ["GEARBOX-4712"] * 2
    told = [{**fields, "identifier": gearbox} for fields, gearbox in zip(made, gearboxes)]

    def old(number):
        return old_fields(told[number - 1], number)

    def scan(identifier, taken_by):
        tool.scan(identifier, taken_by)
        if taken_by != "none":
            equal(server.expect(openprotocol.IDENTIFIER)["identifier"], identifier, "identifier")
            server.tell(openprotocol.ACKNOWLEDGE_IDENTIFIER)

    scan(gearboxes[0], "0")
    for number in (1, 2, 3):
        equal(tool.tighten(made[number - 1], "0"), number, "number")
        if number < 3:
            server.expect_result(told[number - 1], number)
        if number == 1:
            server.tell(openprotocol.ACKNOWLEDGE_RESULT)
    server.cut()
    place.wait_for_hang_up(0)
    scan(gearboxes[3], "none")
    equal(tool.tighten(made[3], "none"), 4, "number")

    back = place.server(host).subscribe()
    nothing_comes(place, back, tick)
    equal([back.fetch(number) for number in (2, 3, 4, openprotocol.NEWEST, 1)], [old(2), old(3), old(4), old(4), old(1)], "old results")
    equal([back.fetch(number) for number in (5, harness.GREATEST_NUMBER, 9999999999)], [None] * 3, "results that were never made")
    nothing_comes(place, back, tick)
    equal(tool.tighten(made[4], "0"), 5, "number")
    back.expect_result(told[4], 5)
    equal(back.fetch(5), old(5), "an old result that is open")
    back.tell(openprotocol.ACKNOWLEDGE_RESULT)
    equal(back.fence(), [], "something besides")
    said = re.findall(r"Z session 0 [0-9.:]+ > (0065 .*|0004 .*)\n", host.log())
    equal(said, ["0065 old result, number %d" % number for number in (2, 3, 4, 4, 1)]
          + ["0004 to 0064, error 15, number %d" % number for number in (5, harness.GREATEST_NUMBER, 9999999999)]
          + ["0065 old result, number 5"], "the log's lines")

    back.close()
    place.wait_for_hang_up(0, 2)
    lines = watched(place, host, 1, "--fetch", "2-3", "--fetch", "6", "--fetch", "0")
    shown = ["OLD result %d %s %.2f" % (number, gearboxes[number - 1], told[number - 1]["torque"] / 100) for number in (2, 3, 5)]
    shown[2:2] = ["old result 6: refused with error 15, no such result is kept"]
    equal([line.split(" Nm ")[0] for line in lines[1:]], shown + ["ended: 3 old results"], "what watch shows")
    place.wait_for_hang_up(0, 3)
    messages = re.findall(r"Z session 0 [0-9.:]+ < (\d+)\n", host.log())
    equal(messages[-6:], ["0001", "0064", "0064", "0064", "0064", "0003"], "what watch sends")
    equal(host.end(), 0, "status")


@test
def the_last_64_results(place):
    """So many are kept, whoever took them, through a stop, a hang-up and a reset; the next takes the oldest one's place. A server that has
    started and subscribed to nothing may ask. A host that is started again keeps its numbers, and no result from before."""
    host = place.host("--new-state", 4711)
    tool = place.tool()
    server = place.server(host).start()
    equal(server.fetch(), None, "the newest, where none is kept")
    numbers = range(4712, 4712 + KEPT + 7)
    for i, number in enumerate(numbers):
        equal(tool.tighten(tightening_fields(number), "none"), number, "number")
        check(tool.give(harness.record(1, b"bad")).startswith("7 "), "a bad record was not refused")
        equal(server.fetch(), old_fields(tightening_fields(number), number), "the newest result")
        oldest = numbers[max(0, i + 1 - KEPT)]
        equal([server.fetch(oldest - 1), server.fetch(oldest)], [None, old_fields(tightening_fields(oldest), oldest)],
              "the one before the oldest, and the oldest")
    servers = [server]
    for ends in (lambda: server.accepted(openprotocol.STOP), lambda: server.close(), lambda: server.cut()):
        ends()
        if not server.open:
            place.wait_for_hang_up(0, len(servers))
            server = place.server(host)
            servers.append(server)
        server.start()
        equal([server.fetch(number) for number in range(numbers[0], numbers[-1] + 2)],
              [None] * 7 + [old_fields(tightening_fields(number), number) for number in numbers[7:]] + [None], "what is kept")
    place.finish(host, servers, [7] * len(numbers))

    host = place.host()
    server = place.server(host).start()
    equal([server.fetch(), server.fetch(numbers[-1])], [None, None], "what a host that is started again keeps")
    tool = place.tool()
    equal(tool.tighten(tightening_fields(1), "none"), numbers[-1] + 1, "number")
    equal([server.fetch(), server.fetch(numbers[-1])], [old_fields(tightening_fields(1), numbers[-1] + 1), None], "what it keeps then")
    equal(host.end(), 0, "status")


@test
def watch_fetches_what_it_missed(place):
    """watch --fetch-missed asks for results that it was not told of, once a number shows it, and shows them as old ones; they do not count
    among its results. Without the option it asks for nothing."""
    host = place.host()
    tool = place.tool()
    watches = [Watch(place, "--connect", "127.0.0.1:%d" % host.port, "--count", "9", *more) for more in (["--fetch-missed"], [])]
    for watch in watches:
        watch.wait_for("connected")
    wait(lambda: host.log().count("0005 to 0060") == 2, "both subscribe")
    for watch in watches:
        watch.process.send_signal(signal.SIGSTOP)
    for number in range(1, 11):
        tool.tighten(tightening_fields(number), "0 1" if number <= 8 else "none")
    for watch in watches:
        watch.process.send_signal(signal.SIGCONT)
        watch.wait_for("result 8 ")
    wait(lambda: host.log().count("< 0062") == 16, "all are acknowledged")
    tool.tighten(tightening_fields(11), "0 1")
    shown = []
    for watch in watches:
        equal(watch.process.wait(harness.SECONDS), 0, "status of watch")
        shown.append([re.match(r"(?:OLD )?result \d+|ended: .*|", line)[0] for line in watch.lines()[1:]])
    fresh = ["result %d" % number for number in (*range(1, 9), 11)]
    equal(shown, [fresh + ["OLD result 9", "OLD result 10", "ended: 9 results"], fresh + ["ended: 9 results"]], "what they show")
    equal(host.log().count("< 0064"), 2, "how often an old result was asked for")
    equal(host.end(), 0, "status")


@test
def watch_fetches_beside_fresh_results(place):
    """While watch waits for an old result that it missed, fresh ones are shown and acknowledged, and nothing is asked for twice; what it
    misses meanwhile, and a lost link left unanswered, it asks for then. It asks for no more than may be kept."""
    fresh = {number: openprotocol.write(openprotocol.RESULT, harness.result_fields(tightening_fields(number), number), byte_12=b"0") + b"\0"
             for number in (7, 10, 11, 13, 300)}
    old = {number: openprotocol.write(openprotocol.OLD_RESULT, old_fields(tightening_fields(number), number)) + b"\0"
           for number in (8, 9, 12, *range(300 - KEPT + 1, 300))}
    acknowledges = openprotocol.message(openprotocol.ACKNOWLEDGE_RESULT)
    subscribes = Controller.subscribes()
    controller = Controller(place, "--fetch-missed")
    link = controller.accept()
    for sent, wanted in ((controller.STARTED, subscribes), (fresh[7], [acknowledges]), (fresh[10], [acknowledges, openprotocol.fetch(8)]),
                         (fresh[11], [acknowledges]), (fresh[13], [acknowledges]), (old[8], [openprotocol.fetch(9)]),
                         (fresh[13], [acknowledges])):
        link.send(sent)
        controller.expect(link, *wanted)
    link.close()
    link = controller.accept()
    link.send(controller.STARTED)
    controller.expect(link, *subscribes, openprotocol.fetch(9))
    link.send(old[9])
    controller.expect(link, openprotocol.fetch(12))
    link.send(old[12] + fresh[300])
    controller.expect(link, acknowledges, openprotocol.fetch(300 - KEPT + 1))
    for number in range(300 - KEPT + 1, 299):
        link.send(old[number])
        controller.expect(link, openprotocol.fetch(number + 1))
    link.send(old[299])
    controller.watch.wait_for("OLD result 299 ")
    shown = [re.match(r"(?:OLD )?result \d+", line)[0] for line in controller.watch.lines() if "result" in line]
    wanted = ["result 7", "result 10", "result 11", "result 13", "OLD result 8", "OLD result 9", "OLD result 12", "result 300"]
    equal(shown, wanted + ["OLD result %d" % number for number in range(300 - KEPT + 1, 300)], "results that are shown")


@test
def watch_fetches_from_another_controller(place):
    """What a lost link left without an answer watch asks for again; a controller that does not know 0064 ends it, and it says so."""
    controller = Controller(place, "--fetch", "3-4")
    old = openprotocol.write(openprotocol.OLD_RESULT, old_fields(tightening_fields(3), 3)) + b"\0"
    link = controller.accept()
    link.send(controller.STARTED)
    controller.expect(link, openprotocol.fetch(3))
    link.close()
    link = controller.accept()
    link.send(controller.STARTED)
    controller.expect(link, openprotocol.fetch(3))
    for byte in old:
        link.send(bytes([byte]))
    controller.expect(link, openprotocol.fetch(4))
    link.send(openprotocol.message(openprotocol.REFUSED, data=b"006499"))
    controller.expect(link, openprotocol.message(openprotocol.STOP))
    link.send(openprotocol.message(openprotocol.ACCEPTED, data=b"0003"))
    equal(controller.watch.process.wait(harness.SECONDS), 1, "status of watch")
    lines = controller.watch.lines()
    equal([lines[1], lines[3][:14], *lines[4:]], ["link lost: closed by the controller", "OLD result 3  ",
                                                 "old result 4: refused with error 99, unknown message", "ended: 1 old results"], "lines")
