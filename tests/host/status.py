"""The host's status, and the example tools."""

import contextlib
import json
import os
import socket
import subprocess
import sys
import time

import harness
from harness import (ALARM, ROOT, alarm_fields, check, content, equal, fields_of, in_memory, lent_table, openprotocol, record, test,
                     tightening_fields, wait)
from journal import Play

CLOSED = {"phase": "closed"}


def status(place):
    """What the status socket answers, which is one line."""
    with socket.socket(socket.AF_UNIX) as link:
        link.settimeout(harness.SECONDS)
        link.connect(place.path("status"))
        with link.makefile() as answer:
            line, rest = answer.readline(), answer.read()
    equal(rest, "", "what follows the line")
    return json.loads(line)


def sessions(place):
    """The sessions of the status: of each what is told of it but its number, which is its place."""
    told = status(place)["sessions"]
    equal([session.pop("session") for session in told], list(range(4)), "numbers of the sessions")
    return told


@test
@in_memory
def the_status(place):
    """It tells of each session its peer, phase, subscriptions and what waits, and the last number, parts, losses and refusals."""
    host = place.host("--status", place.path("status"), "--new-state", 5, "--journal-size", 400, "--links-of-an-address", 3)
    equal(sessions(place), [CLOSED] * 4, "sessions before anybody came")
    began = time.monotonic()
    server, other = place.server(host), place.server(host)
    peers = ["127.0.0.1:%d" % one.link.getsockname()[1] for one in (server, other)]
    other.subscribe(acknowledge=False)
    nothing = {"identifiers": False, "results": False, "acknowledges": False, "held": [], "alarms": False, "acknowledges_alarms": False,
               "held_alarms": [], "bytes_waiting": 0}
    quick = {"phase": "started", "peer": peers[1], **nothing, "identifiers": True, "results": True}
    equal(sessions(place), [{"phase": "opened", "peer": peers[0], **nothing}, quick, CLOSED, CLOSED], "sessions")
    server.subscribe()
    slow = {"phase": "started", "peer": peers[0], **nothing, "identifiers": True, "results": True, "acknowledges": True}
    tool = place.tool()
    for i in range(9):
        tool.tighten(tightening_fields(i), "0 1" if i < 8 else "1")
    equal(sessions(place), [{**slow, "held": list(range(6, 14))}, quick, CLOSED, CLOSED], "sessions with eight results held")
    server.fence()
    server.tell(openprotocol.ACKNOWLEDGE_RESULT)
    server.expect_result(tightening_fields(1), 7)
    slow.update(held=list(range(7, 14)), alarms=True, acknowledges_alarms=True)
    quick.update(alarms=True)
    server.subscribe_alarms()
    other.fence()
    other.subscribe_alarms(acknowledge=False)
    equal(sessions(place), [slow, quick, CLOSED, CLOSED], "sessions after an acknowledge, with alarms asked for")
    codes = ["E001", '"\\ "', " 5% ", "    ", "E005"]
    for i, code in enumerate(codes):
        tool.alarm(alarm_fields(i, code=code), "0 1" if i < 4 else "1")
    equal(sessions(place), [{**slow, "held_alarms": codes[:4]}, quick, CLOSED, CLOSED], "sessions with four alarms held")
    server.fence()
    server.tell(openprotocol.ACKNOWLEDGE_ALARM)
    server.fence()
    equal(sessions(place)[0], {**slow, "held_alarms": codes[1:4]}, "a session that acknowledged an alarm")
    server.accepted(openprotocol.UNSUBSCRIBE_ALARMS)
    server.accepted(openprotocol.UNSUBSCRIBE_IDENTIFIERS)
    server.accepted(openprotocol.UNSUBSCRIBE_RESULTS)
    equal(sessions(place)[0], {"phase": "started", "peer": peers[0], **nothing}, "a session that unsubscribed")
    server.accepted(openprotocol.STOP)
    equal(sessions(place)[0], {"phase": "opened", "peer": peers[0], **nothing}, "a session that was stopped")
    tool.give(record(5))
    place.server(host)
    equal(place.server(host).until_closed(), [], "what one too many is sent")
    told = status(place)
    told.pop("sessions")
    uptime = told.pop("uptime_seconds")
    check(0 <= uptime <= time.monotonic() - began + 2, "uptime %d s", uptime)
    parts = len([name for name in os.listdir(place.folder) if name.startswith("journal") and name[7:].strip(".0123456789") == ""])
    equal(told, {"last_number": 14, "results_not_taken": 1, "results_given_up": 0, "results_dropped": 7, "alarms_not_taken": 1,
                 "alarms_given_up": 0, "alarms_dropped": 3, "links_refused": 1, "tool_records_refused": 1, "journal_parts": parts},
          "status")
    check(parts > 2, "only %d parts: this shows too little", parts)
    server.close()
    place.wait_for_hang_up(0)
    equal(sessions(place)[0], CLOSED, "a session whose peer left")
    equal(host.end(), 0, "status of the host")
    check(not os.path.exists(place.path("status")), "the status's socket file stands yet")


def region_told(region):
    """What a session's region says of it, in the words of the status."""
    if region.phase() == lent_table.CLOSED:
        return CLOSED
    identifiers, results, alarms = region.identifiers(), region.tightenings(), region.alarms()
    return {"phase": "started" if region.phase() == lent_table.STARTED else "opened", "identifiers": identifiers.form != lent_table.NOT,
            "results": results.form != lent_table.NOT, "acknowledges": results.form == lent_table.ACKNOWLEDGED,
            "held": [lent_table.little(result[lent_table.NUMBER]) for result in results.notices],
            "alarms": alarms.form != lent_table.NOT, "acknowledges_alarms": alarms.form == lent_table.ACKNOWLEDGED,
            "held_alarms": [fields_of(ALARM, alarm)["code"].decode("ascii") for alarm in alarms.notices]}


def one_copy_of_each(regions):
    """Whether each result that waits stands at one place, whoever waits for it; and for how many a second session waits, or a third."""
    lanes = [(region.lane(*lent_table.TIGHTENINGS).notices, region.tightenings().notices) for region in regions]
    held = [(slot[0], result) for slots, results in lanes for slot, result in zip(slots, results)]
    places, results = {place for place, _ in held}, {lent_table.little(result[lent_table.NUMBER]) for _, result in held}
    return len(places) == len(results), len(held) - len(places)


@test
@in_memory
def the_status_and_the_table(place):
    """In a host's life at random the status tells of each session what the lent table holds, as it is kept beside a journal whose parts
    are of one call each; at its end too, when all were stopped and what the table still has of their subscriptions counts for nothing. Of
    each result that waits the table has one copy."""
    play = Play(place, 15)
    play.host = place.host("--status", place.path("status"), "--journal-size", 1, "--journal-keep", 2)
    play.tool = place.tool()
    held = alarms = shared = 0

    def regions():
        play.tool.give(record(5))  # before this call, which alters nothing, the table is kept
        newest = max((name for name in os.listdir(place.folder) if name.endswith(".table")), key=lambda name: int(name.split(".")[1]))
        return lent_table.regions(lent_table.read(content(place.path(newest))))

    def equal_now():
        table = regions()
        told = [{key: value for key, value in session.items() if key not in ("peer", "bytes_waiting")} for session in sessions(place)]
        return [told] if told == [region_told(region) for region in table] else None

    def stopped_now():
        told = equal_now()
        return told if told and all(session["phase"] != "started" for session in told[0]) else None

    for i in range(400):
        play.step()
        if i % 4 == 0:
            told, = wait(equal_now, "a status that tells what the table holds")
            once, more = one_copy_of_each(regions())
            check(once, "a result that waits has no copy or two")
            shared += more
            held += sum(len(session.get("held", [])) for session in told)
            alarms += sum(len(session.get("held_alarms", [])) for session in told)
    check(held > 100 and shared > 5, "only %d results were held, %d by one session more: this shows too little", held, shared)
    check(alarms > 50, "only %d alarms were held: this shows too little", alarms)
    for server in play.here():
        if play.settle(server):
            server.tell(openprotocol.STOP)
    told, = wait(stopped_now, "a status of sessions that were stopped, which tells what the table holds")
    left = [region.data[at] for region in regions() if region.phase() == lent_table.OPENED for at, _ in lent_table.LANES]
    check(any(left), "nothing is left of any subscription: this shows too little")
    place.said.append("100 times, with %d results, %d by one session more, and %d alarms held; and with %d subscriptions left of %d "
                      "that were stopped" % (held, shared, alarms, len([form for form in left if form]),
                                             len([session for session in told if session["phase"] == "opened"])))


@test
def the_status_of_others(place):
    """Who asks and does not read, sends something, or leaves at once holds nothing up; a file in the socket's place is left alone."""
    host = place.host("--status", place.path("status"), journal=False)
    server = place.server(host).start()
    links = [socket.socket(socket.AF_UNIX) for _ in range(60)]
    for i, link in enumerate(links):
        link.connect(place.path("status"))
        if i % 3 == 0:
            with contextlib.suppress(ConnectionError):
                link.send(b"?" * 1000)
        if i % 3 == 1:
            link.close()
        equal(server.fence(), [], "something besides")
    equal(status(place)["journal_parts"], 0, "parts of a journal that is not written")
    for link in links:
        link.close()
    equal(host.end(), 0, "status")
    with open(place.path("status"), "w", encoding="ascii") as file:
        file.write("something")
    place.refused(place.start("--status", place.path("status")), 1, place.path("status"))
    equal(os.path.getsize(place.path("status")), 9, "bytes of a file that stood there")


@test
def example_tools(place):
    """The example tools, in Python and in C, send a tightening, and one an alarm, and show the answer; each has some thirty lines."""
    host = place.host()
    server = place.server(host).subscribe(acknowledge=False).subscribe_alarms(acknowledge=False)
    examples = os.path.join(ROOT, "host", "examples")
    compiled = place.path("example")
    subprocess.run(["gcc", "-std=c11", "-D_XOPEN_SOURCE=700", "-Wall", "-Wextra", "-Werror", "-o", compiled,
                    os.path.join(examples, "tool.c")], check=True)
    for number, command in enumerate(([sys.executable, os.path.join(examples, "tool.py")], [compiled]), 1):
        for path, status_wanted in ((place.tool_path, 0), (place.path("nowhere"), 1)):
            done = subprocess.run([*command, path], stdout=subprocess.PIPE, stderr=subprocess.DEVNULL, encoding="ascii", check=False,
                                  timeout=harness.SECONDS)
            equal(done.returncode, status_wanted, "status of %s" % command)
            equal(done.stdout, "" if status_wanted else "0 done, taken by 0, number %d\n" % number, "what %s shows" % command)
        result = server.expect(openprotocol.RESULT)
        wanted = {"identifier": "BODY 000001", "job": 1, "parameter_set": 7, "batch_size": 4, "batch_counter": 1, "torque_min": 2250,
                  "torque": 2493, "angle_target": 90, "angle": 88, "number": number}
        equal({name: result[name] for name in wanted}, wanted, "result of %s" % command)
    for code, shown in (([], "0 done, taken by 0\n"), (["E7"], "0 done, taken by 0\n"), (["TOO LONG"], "7 tool record bad\n")):
        done = subprocess.run([sys.executable, os.path.join(examples, "alarm.py"), place.tool_path, *code], stdout=subprocess.PIPE,
                              encoding="ascii", check=False, timeout=harness.SECONDS)
        equal((done.returncode, done.stdout), (int(shown[0] != "0"), shown), "what alarm.py shows of %s" % code)
        if done.returncode == 0:
            alarm = server.expect(openprotocol.ALARM)
            equal((alarm["code"], alarm["controller_ready"], alarm["tool_ready"]), ("".join(code) or "E404", 1, 0), "alarm")
    equal(server.fence(), [], "something besides")
