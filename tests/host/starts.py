"""How the host starts on what is there: one host to a state, no number twice, no file for two purposes."""

import calendar
import contextlib
import itertools
import os
import shutil
import signal
import socket
import stat
import time

import harness
from harness import (SETTINGS, TICK, check, content, equal, in_memory, record, split, tell_and_acknowledge, test, tightening_fields,
                     tightening_record, wait)
from kept import ends_without_a_word, gives_next


def second_host(place):
    """A further host on the same state, with a tool's socket of its own and no journal."""
    place.tool_path = place.path("tool-2")
    return place.start(journal=False)


@test
def a_lock_that_was_removed(place):
    """A removed lock file lets no second host in, nor does a replaced state: both are locked, and the next number makes them anew. Where
    both are gone, the first host gives no number any more."""
    first = place.host()
    tool = place.tool()
    server = place.server(first).subscribe()
    for number in (1, 2):
        os.remove(place.state + ".lock")
        place.refused(second_host(place), 1, place.state)
        os.remove(place.state + ".lock")
        tell_and_acknowledge(tool, server, number, number)
        equal(server.fence(), [], "something besides")
        first.wait_for_log("lock was removed and is made anew")
        place.refused(second_host(place), 1, place.state)
    shutil.copy(place.state, place.path("copy"))
    os.replace(place.path("copy"), place.state)
    place.refused(second_host(place), 1, place.state)
    os.remove(place.state + ".lock")
    second = second_host(place).ready()
    tool.send(tightening_record(tightening_fields(3)))
    ends_without_a_word(place, first, server, tool, place.state)
    other = place.server(second).subscribe()
    place.tool().tighten(tightening_fields(3), "0")
    other.expect_result(tightening_fields(3), 3)  # which the first has kept, but not given


@test
def two_hosts_at_once(place):
    """Of two hosts that start on one port at the same time, the one that does not get it has made no file."""
    for attempt in range(8):
        with socket.create_server(("127.0.0.1", 0)) as free:
            port = free.getsockname()[1]
        hosts = []
        for name in ("a", "b"):
            os.mkdir(place.path("%s-%d" % (name, attempt)))
            place.state = place.path("%s-%d/state" % (name, attempt))
            hosts.append(place.start("--listen", "127.0.0.1:%d" % port, tool=False, journal=False))
        wait(lambda: any(host.process.poll() is not None for host in hosts), "an end of one of two hosts on one port")
        ended = hosts[0] if hosts[0].process.poll() is not None else hosts[1]
        place.refused(ended, 1, port)
        equal(os.listdir(place.path("%s-%d" % ("ab"[hosts.index(ended)], attempt))), [], "files made by the one that came too late")
        hosts[1 - hosts.index(ended)].kill()


@test
def an_older_state(place):
    """A state that is behind the journal, or behind its parts where the last file is gone, is refused, and nothing is altered. With
    --state-behind the host goes on from the greater number."""
    number = 0
    for gone in ([], [""], ["", ".table"]):
        older = content(place.state) if number else None
        host = place.host("--journal-size", 500)
        server = place.server(host).subscribe()
        tool = place.tool()
        for _ in range(12):
            number += 1
            tell_and_acknowledge(tool, server, number, number)
        check(tool.give(record(1, b"bad")).startswith("7 "), "a bad record was not refused")
        equal(server.fence(), [], "something besides")
        equal(host.end(), 0, "status")
        if older is None:
            os.remove(place.state)
        else:
            with open(place.state, "wb") as file:
                file.write(older)
        last = max(int(name.split(".")[1]) for name in os.listdir(place.folder) if name.endswith(".times"))
        for end in gone:
            os.remove(place.journal + (end and ".%d%s" % (last, end)))
        kept = {name: content(place.path(name)) for name in os.listdir(place.folder) if name.startswith(("journal", "state"))}
        shown = number
        if gone:  # the last file had some of the numbers
            log = place.refused(place.start(), 1, place.state, place.journal, "--state-behind")
            shown = int(log.partition("shows that ")[2].split()[0])
            check(number - 6 < shown <= number, "the parts show %d, of %d", shown, number)
        else:
            place.refused(place.start(), 1, place.state, place.journal, "--state-behind", "that %d was" % number)
        now = {name: content(place.path(name)) for name in os.listdir(place.folder) if name.startswith(("journal", "state"))}
        equal(now, kept, "files after the refusal")
        host = place.host("--state-behind", "--journal-size", 500)
        number = shown + 1
        server = place.server(host).subscribe()
        tell_and_acknowledge(place.tool(), server, number, number)
        equal(server.fence(), [], "something besides")
        equal(host.end(), 0, "status")
    gives_next(place, number + 1)


@test
def one_file_for_two_purposes(place):
    """The same file as state and journal, or as any other two, however it is written: status 2, both are named, and nothing is made."""
    os.symlink(place.folder, place.path("link"))
    names = {"--settings": place.settings, "--state": place.state, "--tool": place.tool_path, "--journal": place.journal}
    before = content(place.settings)
    for one, other in (("--state", "--journal"), ("--settings", "--journal"), ("--settings", "--state"), ("--tool", "--journal")):
        for path in (names[one], os.path.join(place.folder, ".", os.path.basename(names[one])),
                     os.path.join(place.path("link"), os.path.basename(names[one]))):
            given = [text for option, name in {**names, other: path}.items() for text in (option, name)]
            host = place.run("--listen", "127.0.0.1:0", "--new-state", 0, *given)
            place.refused(host, 2, one, other)
    equal(content(place.settings), before, "settings")
    left = {name for name in os.listdir(place.folder) if not name.startswith("log-")}
    equal(left, {"settings", "link"}, "files")


@test
def a_link_in_the_place_of_the_next_state(place):
    """A symbolic link where the next number is written is not followed, at the start and later; what a killed host left there is
    removed."""
    victim = place.path("victim")
    with open(victim, "wb") as file:
        file.write(b"somebody needs this yet")
    new = place.state + ".new"
    os.symlink(victim, new)
    place.refused(place.start(), 1, new)
    os.remove(new)
    with open(new, "wb") as file:
        file.write(b"half a num")
    host = place.host()
    server = place.server(host).subscribe()
    tool = place.tool()
    tell_and_acknowledge(tool, server, 1, 1)
    equal(server.fence(), [], "something besides")
    os.symlink(victim, new)
    tool.send(tightening_record(tightening_fields(2)))
    ends_without_a_word(place, host, server, tool, new)
    os.remove(new)
    equal(content(victim), b"somebody needs this yet", "the file that the link names")
    gives_next(place, 2)


@test
def the_same_command_line_every_time(place):
    """--new-state stands in the command line for good: the first start makes the state, each further one goes on with it, after a kill
    too."""
    arguments = ["--new-state", 40, "--journal-size", 300]
    for number in range(41, 46):
        host = place.host(*arguments)
        server = place.server(host).subscribe()
        tell_and_acknowledge(place.tool(), server, number, number)
        equal(server.fence(), [], "something besides")
        if number % 2:
            host.kill()
        else:
            equal(host.end(), 0, "status")


def mode(path):
    return stat.S_IMODE(os.stat(path).st_mode)


@test
def modes_and_groups(place):
    """Files and the tool's socket have the modes and the group that are given, whatever the umask; else the usual ones less the umask."""
    group = os.getgid()
    with open("/etc/group", encoding="utf-8") as groups:
        name = next((line.split(":")[0] for line in groups if line.split(":")[2] == str(group)), str(group))
    for given, files, socket_mode in ((["--file-mode", "664", "--tool-mode", "660", "--tool-group", name], 0o664, 0o660),
                                      (["--file-mode", "600", "--tool-group", group], 0o600, 0o750), ([], 0o640, 0o750)):
        host = place.host("--journal-size", 100, *given, preexec_fn=lambda: os.umask(0o027))
        server = place.server(host).subscribe()
        tell_and_acknowledge(place.tool(), server, 1, 1)
        equal(server.fence(), [], "something besides")
        made = [entry for entry in os.listdir(place.folder) if entry.startswith(("state", "journal"))]
        check(any(entry.endswith(".table") for entry in made), "no table: this shows too little")
        equal({entry: mode(place.path(entry)) for entry in made}, dict.fromkeys(made, files), "modes of the files")
        equal((mode(place.tool_path), os.stat(place.tool_path).st_gid), (socket_mode, group), "mode and group of the socket")
        equal(host.end(), 0, "status")
        for entry in made:
            with contextlib.suppress(FileNotFoundError):
                os.remove(place.path(entry))


@test
def log_and_journal_opened_again(place):
    """With --log the log goes to a file. SIGHUP opens it anew where it was renamed, and so the journal; the host goes on meanwhile."""
    log, old = place.path("the.log"), place.path("the.log.old")
    host = place.start("--log", log, tick=int(harness.FAST_TICK * 1000))
    host.log_path = log
    wait(lambda: os.path.exists(log), "a log")
    server = place.server(host.ready()).subscribe()
    os.rename(log, old)
    os.rename(place.journal, place.journal + "-old")
    host.process.send_signal(signal.SIGHUP)
    wait(lambda: os.path.exists(log) and os.path.exists(place.journal), "a log and a journal that are begun anew")
    tell_and_acknowledge(place.tool(), server, 1, 1)
    equal(server.fence(), [], "something besides")
    wait(lambda: "tool: tightening 1" in host.log(), "a line in the new log")
    check("listening on" in content(old).decode() and "listening on" not in host.log(), "the lines are in the wrong log")
    kept = split(content(place.journal + "-old"))[0]
    equal([record_kind for record_kind, _ in kept if record_kind != TICK][0], SETTINGS, "the first record of the journal that was renamed")
    equal(host.end(), 0, "status")


@test
def a_log_that_is_full(place):
    """A log of more than 8 MiB is put aside, in the place of the one before it; one that cannot be opened ends the host at once."""
    log = place.path("the.log")
    for size in (8 << 20, 100, 8 << 20):
        with open(log, "ab") as file:
            file.write(b"x" * (size - 1) + b"\n")
        host = place.start("--log", log)
        host.log_path = log
        wait(lambda: os.path.exists(place.tool_path), "a host that has begun")
        equal(host.end(), 0, "status")
    equal(sorted(name for name in os.listdir(place.folder) if name.startswith("the.log")), ["the.log", "the.log.1"], "logs")
    check(os.path.getsize(log) < 100000 and os.path.getsize(log + ".1") > 8 << 20, "the wrong log was put aside")
    place.refused(place.start("--log", place.path("none/log")), 1, place.path("none/log"))
    os.remove(place.settings)
    place.refused(place.start("--log", log), 1, place.settings)  # on standard error too
    check("error: settings" in content(log).decode(), "the log does not say why the host ended")


@test
@in_memory
def the_time_of_day_beside_the_journal(place):
    """Lines with the bytes of the journal so far and the time: one at each start, and one behind each 60th tick."""
    lines = []
    for run in (1, 2):
        began = int(time.time())
        host = place.host(tick=10)
        read = lambda: content(place.journal + ".1.times").decode().splitlines()  # noqa: E731
        wait(lambda: len(read()) >= len(lines) + 3, "three lines more in run %d" % run)
        equal(host.end(), 0, "status")
        records = split(content(place.journal))[0]
        ends = [0, *itertools.accumulate(4 + len(payload) for _, payload in records)]
        told = [(int(line.split()[0]), line.split()[1]) for line in read()[len(lines):]]
        ticks = [sum(record_kind == TICK for record_kind, _ in records[ends.index(told[0][0]):ends.index(at)]) for at, _ in told]
        equal(ticks, [60 * i for i in range(len(told))], "ticks of run %d before each line" % run)
        times = [calendar.timegm(time.strptime(text, "%Y-%m-%dT%H:%M:%SZ")) for _, text in told]
        check(began <= times[0] and times == sorted(times) and times[-1] <= time.time(), "times: %s", told)
        lines = read()
