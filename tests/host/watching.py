"""tools/watch, against the host."""

import os
import signal
import socket
import subprocess

import harness
import openprotocol
from harness import alarm_fields, check, equal, test, tightening_fields, wait


class Watch:
    def __init__(self, place, *arguments):
        self.path = place.path("watched-%d" % len(os.listdir(place.folder)))
        with open(self.path, "wb") as out:
            self.process = subprocess.Popen([os.path.join(harness.TOOLS, "watch"), *arguments], stdout=out, stderr=out)
        place.links.callback(self.end)

    def end(self):
        if self.process.poll() is None:
            self.process.kill()
            self.process.wait()

    def lines(self):
        with open(self.path, encoding="ascii") as file:
            return file.read().splitlines()

    def wait_for(self, words, times=1):
        wait(lambda: sum(words in line for line in self.lines()) >= times, "watch says %r: %s" % (words, self.lines()))


class Controller:
    """Another controller, played by a test: a watch connects to it."""

    STARTED = openprotocol.write(openprotocol.STARTED, harness.CONTROLLER) + b"\0"
    FAREWELL = [openprotocol.message(mid) for mid in (openprotocol.UNSUBSCRIBE_ALARMS, openprotocol.UNSUBSCRIBE_RESULTS,
                                                      openprotocol.UNSUBSCRIBE_IDENTIFIERS, openprotocol.STOP)]  # subscribed to all

    def __init__(self, place, *arguments):
        self.place = place
        self.door = place.links.enter_context(socket.create_server(("127.0.0.1", 0)))
        self.door.settimeout(harness.SECONDS)
        self.address = "127.0.0.1:%d" % self.door.getsockname()[1]
        self.watch = Watch(place, "--connect", self.address, *arguments)

    def accept(self):
        """The next link, on which watch starts."""
        link = harness.Link(self.door.accept()[0])
        link.link.setsockopt(socket.IPPROTO_TCP, socket.TCP_NODELAY, 1)
        self.place.links.callback(link.close)
        self.expect(link, openprotocol.message(openprotocol.START))
        return link

    def expect(self, link, *messages):
        wanted = b"".join(messages)
        got, in_time = b"", harness.InTime("what watch sends")
        while in_time() and len(got) < len(wanted) and (more := link.receive()):
            got += more
        equal(got, wanted, "what watch sends")

    @staticmethod
    def subscribes(revision=1):
        """The messages by which watch subscribes, to results in that revision."""
        return [openprotocol.message(openprotocol.SUBSCRIBE_IDENTIFIERS),
                openprotocol.message(openprotocol.SUBSCRIBE_RESULTS, b"%03d" % revision),
                openprotocol.message(openprotocol.SUBSCRIBE_ALARMS)]

    def start(self, revision=1):
        """The next link, on which watch starts and subscribes."""
        link = self.accept()
        link.send(self.STARTED)
        self.expect(link, *self.subscribes(revision))
        return link

    def end(self, link, status, *messages):
        """Takes these messages, with which watch ends, with that status. Its lines behind the first, which is of the start."""
        self.expect(link, *messages)
        link.send(openprotocol.write(openprotocol.ACCEPTED, {"mid": openprotocol.STOP}) + b"\0")
        equal(self.watch.process.wait(harness.SECONDS), status, "status of watch")
        return [" ".join(line.split()) for line in self.watch.lines()[1:]]


SHOWN = tightening_fields(0, identifier="BODY-0000001", torque=2431, torque_min=2200, torque_max=2600, angle=87, angle_min=60,
                          angle_max=120, time="2026-01-31:12:34:56", tightening_status=1)
LINE = "result 1 BODY-0000001 24.31 %s (22.00 to 26.00) 87 deg (60 to 120) 2026-01-31 12:34:56 OK"


@test
def watch_shows_results(place):
    """tools/watch --count 3 shows an identifier, three results and an alarm between them, keeps the link alive, and ends in order."""
    host = place.host()
    tool = place.tool()
    watch = Watch(place, "--connect", "127.0.0.1:%d" % host.port, "--count", "3")
    watch.wait_for("connected to 127.0.0.1:%d: controller LINE4, cell 12, channel 3" % host.port)
    host.wait_for_log("> 0005 to 0070")
    tool.scan("CAR 1", "0")
    tool.tighten(SHOWN, "0")
    tool.tighten({**SHOWN, "identifier": "", "tightening_status": 0, "torque": 2750, "torque_status": 2, "angle_status": 1}, "0")
    tool.alarm({"code": "E404", "controller_ready": 1, "tool_ready": 0, "time": "2026-01-31:12:34:57"}, "0")
    host.wait_for_log("< 9999")  # it keeps the link alive while nothing comes
    tool.tighten(tightening_fields(3), "0")
    equal(watch.process.wait(harness.SECONDS), 0, "status of watch")
    lines = [" ".join(line.split()) for line in watch.lines()]
    check("identifier CAR 1" in lines, "watch does not show the identifier: %s", lines)
    check("alarm E404 controller ready, tool not ready 2026-01-31 12:34:57" in lines, "watch does not show the alarm: %s", lines)
    results = [line for line in lines if line.startswith("result")]
    equal(results[:2], ["result 1 BODY-0000001 24.31 Nm (22.00 to 26.00) 87 deg (60 to 120) 2026-01-31 12:34:56 OK",
                        "result 2 CAR 1 27.50 Nm (22.00 to 26.00) 87 deg (60 to 120) 2026-01-31 12:34:56 NOT OK (torque high)"],
          "what watch shows")
    equal(len(results), 3, "results that watch shows")
    place.wait_for_hang_up(0)
    messages = [line.split(" < ")[1][:4] for line in host.log().splitlines() if " < " in line]
    equal(messages[-4:], ["0073", "0063", "0054", "0003"], "messages with which watch ends")


@test
def watch_waits_and_comes_back(place):
    """watch waits for a controller, comes back after a lost link, on the same port too, and Ctrl-C ends it in order."""
    host = place.host()
    address = "127.0.0.1:%d" % host.port
    host.kill()
    watch = Watch(place, "--connect", address)
    watch.wait_for("no controller at " + address)
    for run in (1, 2):
        host = place.host("--listen", address)
        watch.wait_for("connected to " + address, run)
        host.wait_for_log("< 0060")
        place.tool().tighten(tightening_fields(run), "0")
        watch.wait_for("result %d " % run)
        if run == 1:
            host.kill()
            watch.wait_for("link lost")
    watch.process.send_signal(signal.SIGINT)
    equal(watch.process.wait(harness.SECONDS), 0, "status of watch")
    equal(watch.lines()[-1], "ended: 2 results", "watch's last line")
    place.wait_for_hang_up(0)
    messages = [line.split(" < ")[1][:4] for line in host.log().splitlines() if " < " in line]
    equal(messages[-4:], ["0073", "0063", "0054", "0003"], "messages with which watch ends")


@test
def watch_with_another_controller(place):
    """Frames that come byte by byte are shown; a copy of a result is acknowledged and not shown again, and an old result that was not asked
    for is neither; after a refusal, or something that is no frame, watch says so and connects again."""
    results = [openprotocol.write(openprotocol.RESULT, harness.result_fields(tightening_fields(number), number), byte_12=b"0") + b"\0"
               for number in (7, 7, 8)]
    controller = Controller(place)
    watch = controller.watch
    link = controller.accept()
    for byte in controller.STARTED:
        link.send(bytes([byte]))
    controller.expect(link, *controller.subscribes())
    link.send(openprotocol.write(openprotocol.OLD_RESULT, harness.old_fields(tightening_fields(6), 6)) + b"\0")
    for result in results:
        link.send(result)
        controller.expect(link, openprotocol.message(openprotocol.ACKNOWLEDGE_RESULT))
    watch.wait_for("result 8 ")
    equal([line[:9] for line in watch.lines()[1:]], ["result 7 ", "result 8 "], "results that are shown")
    link.send(b"no frame\0")
    watch.wait_for("link lost: not a frame of the controller")
    link = controller.accept()
    link.send(openprotocol.message(openprotocol.REFUSED, data=b"000197"))
    watch.wait_for("link lost: 0001 refused with error 97, revision not supported")
    link = controller.start()
    link.send(openprotocol.message(openprotocol.REFUSED, data=b"006009"))
    watch.wait_for("link lost: 0060 refused with error 09, already subscribed to results")
    controller.start().close()
    watch.wait_for("link lost: closed by the controller")
    controller.accept().close()
    watch.wait_for("turned away by %s: it closed the link before it answered." % controller.address)


def result_run(revision, number=1, put=(), **named):
    """A 0061 in that revision of the tightening that is shown, with other values where they are named, and with the characters that `put`
    has for fields; with its NUL."""
    run = bytearray(openprotocol.write(openprotocol.RESULT, harness.result_fields({**SHOWN, **named}, number, revision), revision, b"0"))
    for name, characters in put:
        run[openprotocol.LAYOUTS[openprotocol.RESULT, revision].places[name]] = characters
    return bytes(run) + b"\0"


@test
def watch_in_each_revision(place):
    """watch --revision subscribes in that revision, reads each result by its layout and shows the same of it; a torque unit that is not Nm
    is shown as it is told."""
    told = [(revision, b"1", "Nm") for revision in openprotocol.RESULT_REVISIONS]
    told += [(3, b"2", "lbf.ft"), (5, b"7", "%"), (6, b"9", "unit 9")]
    for revision, unit, shown in told:
        controller = Controller(place, "--count", "1", "--revision", str(revision))
        link = controller.start(revision)
        told_unit = [("torque_unit", unit)] if revision >= 3 else []
        link.send(openprotocol.write(openprotocol.ACCEPTED, {"mid": openprotocol.SUBSCRIBE_RESULTS}) + b"\0"
                  + result_run(revision, put=told_unit))
        lines = controller.end(link, 0, openprotocol.message(openprotocol.ACKNOWLEDGE_RESULT), *controller.FAREWELL)
        equal(lines, [LINE % shown, "ended: 1 results"], "what watch shows of revision %d" % revision)


# Limits that were never set, and what is shown in the place of both windows.
WINDOWS = [
    ((), "(22.00 to 26.00)", "(60 to 120)"),
    (("angle_min", "angle_max", "angle_target"), "(22.00 to 26.00)", "(no angle window)"),
    (("torque_min", "torque_max", "torque_target"), "(no torque window)", "(60 to 120)"),
    (harness.LIMITS, "(no torque window)", "(no angle window)"),
    (("torque_min", "angle_max"), "(up to 26.00, no torque min)", "(from 60, no angle max)"),
    (("torque_max", "angle_min"), "(from 22.00, no torque max)", "(up to 120, no angle min)"),
    (("torque_target", "angle_target"), "(22.00 to 26.00, no torque target)", "(60 to 120, no angle target)"),
    (("torque_min", "torque_max"), "(no torque min, no torque max)", "(60 to 120)"),
    (("angle_max", "angle_target"), "(22.00 to 26.00)", "(from 60, no angle max, no angle target)"),
]


@test
def watch_shows_missing_limits(place):
    """A limit that was never set is shown as missing, in each revision, and one of 0 as 0."""
    for revision in openprotocol.RESULT_REVISIONS:
        controller = Controller(place, "--count", str(len(WINDOWS) + 1), "--revision", str(revision))
        link = controller.start(revision)
        wanted = []
        for number, (missing, torque, angle) in enumerate(WINDOWS, 1):
            link.send(result_run(revision, number, **dict.fromkeys(missing)))
            controller.expect(link, openprotocol.message(openprotocol.ACKNOWLEDGE_RESULT))
            wanted.append("result %d BODY-0000001 24.31 Nm %s 87 deg %s 2026-01-31 12:34:56 OK" % (number, torque, angle))
        link.send(result_run(revision, len(WINDOWS) + 1, **dict.fromkeys(harness.LIMITS, 0)))
        lines = controller.end(link, 0, openprotocol.message(openprotocol.ACKNOWLEDGE_RESULT), *controller.FAREWELL)
        equal(lines[:-2], wanted, "what watch shows of revision %d" % revision)
        check("24.31 Nm (0.00 to 0.00) 87 deg (0 to 0) " in lines[-2], "limits of 0: %s", lines[-2])


def not_numbers(row):
    """Characters that a number's field can't have: of a limit, spaces of the whole width are not among them."""
    wrong = [b" " * (row.width - 1) + b"0", b"0" * (row.width - 1) + b" ", b"+" + b"0" * (row.width - 1)] if row.width > 1 else [b"-"]
    return wrong + ([] if row.sort == openprotocol.LIMIT else [b" " * row.width])


@test
def watch_takes_no_other_spaces(place):
    """Spaces in a number that is no limit, the result's own above all, and a limit of digits and spaces: watch says that it is no frame,
    acknowledges nothing, and connects again."""
    wrong = [(revision, row.name, characters) for revision in openprotocol.RESULT_REVISIONS
             for row in openprotocol.LAYOUTS[openprotocol.RESULT, revision].rows
             if row.sort in (openprotocol.NUMBER, openprotocol.LIMIT) for characters in not_numbers(row)]
    for revision, name, characters in wrong:
        try:
            read = openprotocol.read(result_run(revision, put=[(name, characters)])[:-1]).fields[name]
        except ValueError:
            continue
        raise harness.Wrong("%s of revision %d is read as %r where %r stands" % (name, revision, read, characters))
    controller = Controller(place, "--count", "1")
    sent = [(1, "number", b" " * 10), (5, "torque", b" " * 6), (1, "angle_min", b"   60"), (2, "torque_max", b"2600  ")]
    for revision, name, characters in sent:
        link = controller.start()
        link.send(result_run(revision, put=[(name, characters)]))
        controller.watch.wait_for("%s is %r" % (name, characters))
        equal(link.receive(), b"", "what watch sends for %r as %s" % (characters, name))
    link = controller.start()
    link.send(result_run(1))
    lines = controller.end(link, 0, openprotocol.message(openprotocol.ACKNOWLEDGE_RESULT), *controller.FAREWELL)
    equal([sum(words in line for line in lines) for words in ("link lost: not a frame", "result 1 ")], [len(sent), 1], "lines")
    place.said.append("%d fields" % len(wrong))


@test
def watch_in_a_revision_that_is_not_to_be_had(place):
    """Where the controller does not know the revision, or there is no layout for it here, watch says so, acknowledges nothing and ends with
    status 1."""
    refused = openprotocol.write(openprotocol.REFUSED, {"mid": openprotocol.SUBSCRIBE_RESULTS, "error": openprotocol.NO_SUCH_REVISION})
    accepted = openprotocol.write(openprotocol.ACCEPTED, {"mid": openprotocol.SUBSCRIBE_RESULTS})
    of_revision_7 = result_run(6)[:-1].replace(b"05260061006", b"05440061007") + b"0" * 18
    without_results = [said for said in Controller.FAREWELL if said != openprotocol.message(openprotocol.UNSUBSCRIBE_RESULTS)]
    for revision, answer, farewell, said in (
            (1, [refused], without_results, "refused with error 97, revision not supported"),
            (7, [refused], without_results, "refused with error 97, revision not supported"),
            (7, [accepted, of_revision_7], Controller.FAREWELL, "accepted, and can't be shown: watch reads revisions 1 to 6")):
        controller = Controller(place, "--revision", str(revision))
        link = controller.start(revision)
        link.send(b"".join(run + b"\0" for run in answer))
        lines = controller.end(link, 1, *farewell)
        equal(lines, ["results in revision %d: %s" % (revision, said), "ended: 0 results"], "what watch shows")


@test
def watch_in_each_revision_of_the_host(place):
    """The host tells watch of results in each revision, to several at once; a higher one it refuses, and watch says so and ends with
    status 1."""
    host = place.host()
    tool = place.tool()

    def watching(revision):
        return Watch(place, "--connect", "127.0.0.1:%d" % host.port, "--count", "1", "--revision", str(revision))

    for number, revisions in enumerate(((1, 2, 3), (4, 5, 6)), 1):
        watches = [watching(revision) for revision in revisions]
        place.wait_for_journal(lambda records: sum(payload[4:8] == b"0060" for _, payload in records) == 3 * number, "all subscribe")
        tool.tighten(SHOWN, "0 1 2")
        for watch, revision in zip(watches, revisions):
            equal(watch.process.wait(harness.SECONDS), 0, "status of watch")
            equal([" ".join(line.split()) for line in watch.lines()[1:]],
                  [(LINE % "Nm").replace("result 1", "result %d" % number), "ended: 1 results"], "what it shows of revision %d" % revision)
        for session in range(3):
            place.wait_for_hang_up(session, number)
    watch = watching(7)
    equal(watch.process.wait(harness.SECONDS), 1, "status of watch")
    equal(watch.lines()[1:], ["results in revision 7: refused with error 97, revision not supported", "ended: 0 results"], "what it shows")
    equal(host.end(), 0, "status")


def alarm_run(i):
    return openprotocol.write(openprotocol.ALARM, alarm_fields(i), byte_12=b"0") + b"\0"


@test
def watch_shows_alarms(place):
    """Each alarm is shown with its code, what is ready and its time, and acknowledged then; so is a copy. Another error than that it has no
    alarms loses the link."""
    controller = Controller(place, "--count", "1")
    link = controller.start()
    for i in (1, 2, 2, 3):
        link.send(alarm_run(i))
        controller.expect(link, openprotocol.message(openprotocol.ACKNOWLEDGE_ALARM))
    link.send(openprotocol.message(openprotocol.REFUSED, data=b"007011"))
    controller.watch.wait_for("link lost: 0070 refused with error 11, already subscribed to alarms")
    link = controller.start()
    link.send(openprotocol.write(openprotocol.ACCEPTED, {"mid": openprotocol.SUBSCRIBE_ALARMS}) + b"\0" + result_run(1))
    lines = controller.end(link, 0, openprotocol.message(openprotocol.ACKNOWLEDGE_RESULT), *controller.FAREWELL)
    shown = ["alarm E001 controller ready, tool not ready 2026-03-05 00:00:01",
             "alarm E002 controller not ready, tool ready 2026-03-05 00:00:02",
             "alarm E002 controller not ready, tool ready 2026-03-05 00:00:02",
             "alarm E003 controller ready, tool ready 2026-03-05 00:00:03"]
    equal(lines[:4] + lines[-2:], [*shown, LINE % "Nm", "ended: 1 results"], "what watch shows")


@test
def watch_without_alarms(place):
    """A controller that has no alarms, or in another revision only, is watched all the same: watch says so once, over several links too,
    shows results, and does not unsubscribe from what it has not. With --no-alarms it asks for none, and says nothing."""
    unsubscribes_alarms, *farewell = Controller.FAREWELL
    for error, said in ((b"99", "error 99, unknown message"), (b"97", "error 97, revision not supported")):
        controller = Controller(place, "--count", "1")
        for _ in range(2):
            link = controller.start()
            link.send(openprotocol.message(openprotocol.REFUSED, data=b"0070" + error))
            controller.watch.wait_for("no alarms are shown: 0070 refused with " + said)
            link.close()
            controller.watch.wait_for("link lost: closed by the controller")
        link = controller.start()
        link.send(openprotocol.message(openprotocol.REFUSED, data=b"0070" + error) * 2 + result_run(1))
        lines = controller.end(link, 0, openprotocol.message(openprotocol.ACKNOWLEDGE_RESULT), *farewell)
        equal([sum(word in line for line in lines) for word in ("no alarms", "link lost", "result 1 ")], [1, 2, 1], "lines of %s" % lines)
    controller = Controller(place, "--count", "1", "--no-alarms")
    link = controller.accept()
    link.send(controller.STARTED)
    controller.expect(link, *controller.subscribes()[:2])
    link.send(result_run(1))
    lines = controller.end(link, 0, openprotocol.message(openprotocol.ACKNOWLEDGE_RESULT), *farewell)
    equal(lines, [LINE % "Nm", "ended: 1 results"], "what watch shows with --no-alarms")


@test
def watch_used_wrongly(place):
    """A revision that has no three digits, and one that is given where nothing is subscribed to, are wrong usage, and said."""
    for arguments, said in ((["--revision", "0"], "1 to 999"), (["--revision", "1000"], "1 to 999"), (["--revision", "5a"], "1 to 999"),
                            (["--revision", "5", "--fetch", "0"], "--fetch goes with none of")):
        watch = Watch(place, *arguments)
        equal(watch.process.wait(harness.SECONDS), 2, "status of watch %s" % " ".join(arguments))
        check(said in watch.lines()[-1], "watch says %r", watch.lines()[-1])


@test
def watch_turned_away(place):
    """Where all four sessions are taken watch says once that it is turned away, and goes on trying until one is free."""
    host = place.host()
    servers = [place.server(host).start() for _ in range(harness.SESSIONS)]
    watch = Watch(place, "--connect", "127.0.0.1:%d" % host.port)
    watch.wait_for("turned away by 127.0.0.1:%d: it closed the link before it answered. All its four sessions are taken" % host.port)
    away = "closed: (all four sessions are taken|its address has as many links as one may have)"
    host.wait_for_log("(?s)%s.*%s" % (away, away))
    equal(len(watch.lines()), 1, "lines of a watch that was turned away twice: %s" % watch.lines())
    servers[2].close()
    watch.wait_for("connected to 127.0.0.1:%d" % host.port)


@test
def watch_shows_before_it_acknowledges(place):
    """A result that can't be shown is not acknowledged, nor is an alarm."""
    host = place.host()
    tool = place.tool()
    command = [os.path.join(harness.TOOLS, "watch"), "--connect", "127.0.0.1:%d" % host.port]
    for times, (give, notice, acknowledge) in enumerate(((lambda: tool.tighten(tightening_fields(1), "0"), "0061", "0062"),
                                                         (lambda: tool.alarm(alarm_fields(1), "0"), "0071", "0072")), 1):
        watch = subprocess.Popen(command, stdout=subprocess.PIPE)
        place.links.callback(watch.kill)
        check(watch.stdout.readline().startswith(b"connected"), "watch does not connect")
        place.wait_for_journal(lambda records: sum(payload[4:8] == b"0070" for _, payload in records) == times, "watch has subscribed")
        watch.stdout.close()
        give()
        equal(watch.wait(harness.SECONDS), 1, "status of a watch that nobody reads")
        place.wait_for_hang_up(0, times)
        check("> " + notice in host.log() and "< " + acknowledge not in host.log(), "what nobody saw is acknowledged:\n%s", host.log())
