"""tools/ladder over the host's journal and what stands beside it."""

import os
import re
import subprocess
import time

import harness
from harness import (SECONDS, InTime, alarm_fields, check, equal, in_memory, openprotocol, tell_and_acknowledge, test,
                     tightening_fields)
from journal import Play

TIME = r"\d\d-\d\d \d\d:\d\d:\d\d"


def drawn(names):
    """The rows of a picture: the time of day, and the label, which may go on in further lines, without what depends on where the picture
    begins."""
    command = [os.path.join(harness.TOOLS, "ladder"), "--rows", "1000000", *names]
    done = subprocess.run(command, stdin=subprocess.DEVNULL, capture_output=True, timeout=SECONDS, check=False)
    equal((done.returncode, done.stderr), (0, b""), "status and errors of ladder")
    found = []
    for line in done.stdout.decode("ascii").split("\n\n")[1].splitlines()[1:]:
        row, label = re.match(r"(%s)? +-?\d+ s " % TIME, line), line.rpartition("   ")[2]
        if row:
            found.append((row.group(1), label))
        elif line.lstrip().startswith("|"):  # not what is folded
            found[-1] = (found[-1][0], found[-1][1] + " " + label)
    differs = r"notice \d+|, in \d+ parts from second \d+ on|(?<=; fetched) at \d+ s"
    return [(when, re.sub(differs, "notice", label)) for when, label in found]


@test
@in_memory
def parts_drawn_alone(place):
    """A journal whose first parts are gone is drawn as the whole is from there on: who is open, what is held, what is lost."""
    Play(place, 6).run(300, "--journal-size", 1500, "--journal-keep", 1000)
    parts = place.journal_parts()
    check(len(parts) > 4, "only %d parts: this shows too little", len(parts))
    whole = drawn(parts)
    lost = tables = 0
    for first in range(1, len(parts)):
        rows = drawn(parts[first:])
        if os.path.exists("%s.%d.table" % (place.journal, first + 1)):
            tables += 1
            check(rows.pop(0)[1].startswith("table: goes on from the part before: open "), "no row for the table of part %d", first + 1)
        equal([label for _, label in rows], [label for _, label in whole[len(whole) - len(rows):]], "from part %d on" % (first + 1))
        lost = max(lost, sum(label.startswith("lost: ") for _, label in rows))
    check(tables > 3 and lost > 3, "%d tables, %d lost: this shows too little", tables, lost)
    place.said.append("%d parts, %d with a table, %d rows, %d lost" % (len(parts), tables, len(whole), lost))


@test
def time_of_day_is_drawn(place):
    """The rows of a journal have the time of day that the host noted at each of its starts."""
    began = time.time()
    for run in (1, 2):
        time.sleep(run - 1)  # the second run has another time
        host = place.host()
        tell_and_acknowledge(place.tool(), place.server(host).subscribe(), run, run)
        host.wait_for_log("< 0062")
        host.end()
    rows = drawn([place.journal])
    check(len(rows) > 20 and all(when for when, _ in rows), "rows without a time: %s", rows)
    times = [time.strftime("%m-%d %H:%M:%S", time.gmtime(began + second)) for second in range(int(time.time() - began) + 2)]
    check(all(when in times for when, _ in rows), "a time that was not: %s, not among %s", rows, times)
    year = time.strftime("%Y-", time.gmtime(began))
    between = (rows[0][0], rows[-1][0])
    windows = [drawn([place.journal, "--from", year + begin.replace(" ", "T"), "--to", year + end.replace(" ", "T")]) for begin, end in
               (between, between[::-1], between[:1] * 2)]
    equal(windows[0], rows, "from the first to the last time")
    equal(windows[1], rows if len(set(between)) == 1 else [], "from the last to the first time")
    equal(windows[2], [row for row in rows if row[0] == between[0]], "at the first time")


@test
def what_a_table_holds_is_drawn(place):
    """A result and an alarm that stand open and a run that was begun in parts that are gone: their copies are counted on, and the run's
    bytes too. What the table has of the subscriptions of a server that was stopped counts for nothing."""
    host = place.host("--journal-size", 60, "--journal-keep", 1000, tick=int(harness.FAST_TICK * 1000))
    server, other = place.server(host).subscribe(revision=4).subscribe_alarms(), place.server(host).start()
    stopped = place.server(host).subscribe().subscribe_alarms()
    other.send(b"0020")
    tool = place.tool()
    tool.tighten(tightening_fields(1), "0 2")
    for i in (1, 2):
        tool.alarm(alarm_fields(i), "0 2")
    stopped.fence()
    stopped.accepted(openprotocol.STOP)
    runs = []
    in_time = InTime("three copies of a result and of an alarm")
    while any(len([run for run in runs if run[4:8] == mid]) < 3 for mid in (b"0061", b"0071")) and in_time():
        runs += server.fence()
        time.sleep(harness.FAST_TICK)
    equal(host.end(), 0, "status")
    parts = place.journal_parts()
    whole = [label for _, label in drawn(parts)]
    copies = ["notice, copy %d of 3: not acknowledged for %d s" % (copy, 20 * copy - 20) for copy in (2, 2, 3, 3)]
    equal([label for label in whole if "copy 2" in label or "copy 3" in label], copies, "copies")
    waiting = 'lost: alarm "E002" of 2026-03-05:00:00:02: waited, and was never sent; dropped when the link went'
    for first, told in ((len(parts) // 4, "4 bytes of a run that did not end"), (len(parts) * 3 // 4, copies[-1]),
                        (len(parts) * 3 // 4, waiting)):
        rows = [label for _, label in drawn(parts[first:])]
        check(first > 2 and told in rows, "%r is not told of parts from %d of %d on: this shows too little", told, first, len(parts))
        equal(rows[1:], whole[1 - len(rows):], "from part %d on" % (first + 1))


@test
def missing_limits_are_drawn(place):
    """Of a tightening that comes, and of its 0061 in each revision, the limits are named that were never set, and no others; a 0065, which
    has no limits, says nothing of them."""
    made = [((), ""), (("angle_min", "angle_max", "angle_target"), ", no angle window"), (("torque_target",), ", no torque target"),
            (("torque_min", "angle_max"), ", no torque min, no angle max"), (harness.LIMITS, ", no torque window, no angle window")]
    host = place.host()
    tool = place.tool()
    wanted = []
    for revision in openprotocol.RESULT_REVISIONS:
        server = place.server(host).subscribe(acknowledge=False, revision=revision)
        for missing, words in made:
            fields = tightening_fields(0, torque=2431, tightening_status=1, identifier="BODY", **dict.fromkeys(missing))
            number = tool.tighten(fields, "0")
            server.expect_result(fields, number)
            server.fetch(number)
            wanted += ['%d: 24.31 Nm%s, OK, identifier "BODY", taken by 0' % (number, words),
                       'notice: tightening %d, "BODY", 24.31 Nm%s, OK' % (number, words),
                       'old tightening %d, "BODY", 24.31 Nm, OK' % number]
        server.close()
        place.wait_for_hang_up(0, revision)
    equal(host.end(), 0, "status")
    equal([label for _, label in drawn([place.journal]) if "24.31 Nm" in label], wanted, "labels")
