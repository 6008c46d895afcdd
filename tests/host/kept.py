"""The last number, as it is kept: through kill -9, full disks, damage, and a second host."""

import contextlib
import os
import random
import resource
import select
import shutil
import stat
import subprocess
import zlib

import tracing
from harness import (BYTES, GREATEST_NUMBER, SETTINGS, TIGHTENING, InTime, Skipped, Wrong, check, content, equal, fields_of, openprotocol,
                     result_fields, tell_and_acknowledge, test, tightening_fields, tightening_record, wait)


def runs_of_the_host(records):
    """The last number with which each run of the host began, and how many tightenings it journaled."""
    runs = []
    for record_kind, payload in records:
        if record_kind == SETTINGS:
            runs.append([fields_of(SETTINGS, payload)["last"], 0])
        elif record_kind == TIGHTENING:
            runs[-1][1] += 1
    return runs


def check_numbers(place, servers, begins, *more):
    """Each run of the host, to a server each, gave the tightenings from `begins` on under the numbers behind those of the run before: no
    number twice, and none skipped but one that was kept when the host was killed, and not yet given."""
    equal(place.host(*more).end(), 0, "status")
    runs = runs_of_the_host(place.journaled())
    for i, (server, begin) in enumerate(zip(servers, begins)):
        last, journaled = runs[i]
        results = [frame.fields for run in server.seen if (frame := openprotocol.read(run)).mid == openprotocol.RESULT]
        equal(results, [result_fields(tightening_fields(begin + k), last + 1 + k) for k in range(len(results))], "results of run %d" % i)
        check(len(results) <= journaled, "run %d journaled %d tightenings, %d were seen", i, journaled, len(results))
        check(last + journaled <= runs[i + 1][0] <= last + journaled + 1, "run %d began at %d and gave %d numbers, the next began at %d",
              i, last, journaled, runs[i + 1][0])
    place.check_journal(servers)


def gives_next(place, number):
    """A further run of the host gives a tightening that number."""
    server = place.server(place.host()).subscribe()
    place.tool().tighten(tightening_fields(7), "0")
    server.expect_result(tightening_fields(7), number)


def begin_run(place, *more):
    """A host, a server that is sent everything at once, and a tool."""
    host = place.host(*more)
    server = place.server(host).subscribe(acknowledge=False)
    server.reads_all = False
    return host, server, place.tool()


@test
def killed_between_results(place):
    """After kill -9 and a restart numbers go on: no number twice, and none skipped but one that was kept and not yet given."""
    source = random.Random(2)
    servers, begins = [], []
    serial = 0
    for burst in [1] * 12 + [40] * 12:
        host, server, tool = begin_run(place)
        servers.append(server)
        begins.append(serial)
        tool.send(b"".join(tightening_record(tightening_fields(serial + i)) for i in range(burst)))
        for _ in range(source.randrange(burst) + 1):
            server.next()
        host.kill()
        server.until_closed()
        serial += burst
    check_numbers(place, servers, begins)


def kill_before_each_call(place, *more):
    """Kills the host before each call of the system that it makes for a tightening, one run for each; the calls of the last run."""
    servers, begins, answered = [], [], False
    in_time = InTime("a kill before every call", 60)
    while not answered and in_time():
        host, server, tool = begin_run(place, *more)
        servers.append(server)
        begins.append(len(servers))
        host.wait_until_it_waits()
        trace = tracing.Trace(host.process.pid)
        tool.send(tightening_record(tightening_fields(len(servers))))
        calls = []
        while len(calls) < len(servers) and not answered and in_time():
            calls.append(trace.next_call())
            answered = select.select([tool.link], [], [], 0)[0] != []
        host.kill()
        server.until_closed()
    place.said.append("killed before %d calls" % len(servers))
    check_numbers(place, servers, begins, *more)
    return calls


@test
@tracing.traced
def killed_before_every_call_of_the_system(place):
    """The same with the host killed before each call of the system that it makes for a tightening. The number is on the disk, and its
    folder with it, before anything is sent."""
    calls = kill_before_each_call(place)
    kept = [call for call in calls if call in ("send", "sync", "rename")]
    equal(kept[:4], ["sync", "rename", "sync", "send"], "calls that keep a number and send a result")


@test
@tracing.traced
def killed_while_a_part_is_begun(place):
    """The same where the tightening begins a part of the journal: whatever the kill leaves of the parts and of what stands beside them, the
    next start goes on, and each part from its table, or its start, gives what it gives within the whole."""
    # A start, an opening and three messages are 116 bytes.
    calls = kill_before_each_call(place, "--journal-size", 100, "--journal-keep", 10000)
    check(calls.count("rename") >= 2 and calls.count("sync") >= 3, "no part was begun: this shows nothing")
    parts = place.journal_parts()
    printed = []
    for path in parts[:-1]:
        table = path + ".table" if os.path.exists(path + ".table") else None
        printed.append(place.own_replayed(content(path), table))
    whole = place.own_replayed(place.journal_bytes())
    check(whole.startswith(b"".join(printed)), "the parts alone do not give what they give within the whole")


# ---- disks that are full

PAGE = os.sysconf("SC_PAGE_SIZE")
DISK_PAGES = 32


def small_disk(place):
    """A folder that can be filled up, or None where no file system may be mounted."""
    path = place.path("disk")
    os.mkdir(path)
    done = subprocess.run(["mount", "-t", "tmpfs", "-o", "size=%d" % (DISK_PAGES * PAGE), "serifladder", path], stderr=subprocess.DEVNULL,
                          check=False)
    if done.returncode != 0:
        place.said.append("without the right to mount a small disk")
        return None
    place.undo.callback(subprocess.run, ["umount", path], check=True)
    return path


def fill(disk):
    """Leaves no room on a disk but in the last pages of its files; answers what to remove to have room again."""
    path = os.path.join(disk, "filler")
    with open(path, "wb", buffering=0) as file, contextlib.suppress(OSError):
        for _ in range(DISK_PAGES):
            file.write(bytes(PAGE))
    return path


def limit_files(host, size):
    """No file of the host may have more bytes from now on."""
    resource.prlimit(host.process.pid, resource.RLIMIT_FSIZE, (size, size))


def ends_without_a_word(place, host, server, tool, *words):
    """The host ends with status 1 and these words in its log; neither the server nor the tool is told anything."""
    place.refused(host, 1, *words)
    equal(server.until_closed(), [], "what a server is sent of a call that could not be kept")
    if tool:
        equal(tool.answer(), None, "what the tool is told of a call that could not be kept")


@test
def no_room_for_the_state(place):
    """When the state can't be written, the host ends with status 1 and the result is not sent; the number is given later."""
    disk = small_disk(place)
    if disk:
        place.state = os.path.join(disk, "state")
    host = place.host()
    tool = place.tool()
    server = place.server(host).subscribe()
    tell_and_acknowledge(tool, server, 1, 1)
    equal(server.fence(), [], "something besides")
    if disk:
        in_the_way = fill(disk)
    else:
        in_the_way = place.state + ".new"  # where the host writes before it renames
        os.mkdir(in_the_way)
    tool.send(tightening_record(tightening_fields(2)))
    ends_without_a_word(place, host, server, tool, place.state)
    (os.remove if disk else os.rmdir)(in_the_way)
    gives_next(place, 2)


@test
def a_state_folder_that_goes_away(place):
    """The same when the folder of the state is gone."""
    os.mkdir(place.path("folder"))
    place.state = place.path("folder/state")
    host = place.host()
    tool = place.tool()
    server = place.server(host).subscribe()
    shutil.rmtree(place.path("folder"))
    tool.send(tightening_record(tightening_fields(1)))
    ends_without_a_word(place, host, server, tool, place.state)


@test
def no_room_for_the_journal(place):
    """When the journal can't be written, the host ends with status 1 and nothing of that call is sent."""
    disk = small_disk(place)
    if disk:
        place.journal = os.path.join(disk, "journal")
    host = place.host(piped=True)
    server = place.server(host).start()
    if disk:
        fill(disk)
    else:
        limit_files(host, PAGE)
    mirrored, in_time = 0, InTime("a full journal")
    with contextlib.suppress(Wrong, ConnectionError):
        while server.open and in_time():
            server.fence()
            mirrored += 1
    ends_without_a_word(place, host, server, None, place.journal)
    journaled = sum(payload[4:8] == b"9999" for record_kind, payload in place.journaled() if record_kind == BYTES)
    check(mirrored > 10, "only %d messages had room in the journal: this shows too little", mirrored)
    equal(mirrored, journaled, "messages that were answered, and not as many journaled")


@test
def a_tightening_that_is_not_journaled(place):
    """A tightening that is kept but can't be journaled is not sent; its number is not given again."""
    disk = small_disk(place)
    if disk:
        place.journal = os.path.join(disk, "journal")
    host = place.host(piped=True)
    server = place.server(host).subscribe()
    tool = place.tool()
    if disk:
        filler = fill(disk)
    else:
        limit_files(host, PAGE)
    # What room the journal has yet, records of bytes without an end fill up.
    in_time = InTime("a full journal")
    while in_time() and (room := -os.path.getsize(place.journal) % PAGE):
        size = room if room <= 4096 else 2048
        server.send(b"x" * (size - 4))
        wait(lambda: -os.path.getsize(place.journal) % PAGE == room - size, "%d bytes less room in the journal" % size)
    tool.send(tightening_record(tightening_fields(1)))
    ends_without_a_word(place, host, server, tool, place.journal)
    if disk:
        os.remove(filler)
    gives_next(place, 2)


@test
def a_journal_that_takes_nothing(place):
    """A device that is always full as journal: status 1 before anything is said to anyone, and the device stays where it was."""
    device = place.path("full")
    try:
        os.mknod(device, stat.S_IFCHR | 0o666, os.makedev(1, 7))
    except PermissionError:
        device = "/dev/full"
        if os.access("/dev", os.W_OK):  # a wrong host could rename it
            raise Skipped("no device can be made here") from None
    host = place.start("--journal", device, journal=False)
    place.refused(host, 1, device)
    check(stat.S_ISCHR(os.lstat(device).st_mode), "%s was renamed", device)


@test
def a_state_that_cannot_be_made(place):
    """A missing folder, and one in which nothing can be made: status 1, and the message names the file."""
    for state in (place.path("no-folder/state"), "/proc/serifladder-state"):
        for more in ([], ["--new-state", 5]):
            host = place.run("--settings", place.settings, "--state", state, "--listen", "127.0.0.1:0", *more)
            place.refused(host, 1, state)


@test
def a_missing_state(place):
    """Without a state file the host does not start, and says how to make one; with --new-state it makes one, and goes on with that the
    next time."""
    usual = ["--settings", place.settings, "--state", place.state, "--listen", "127.0.0.1:0"]
    place.refused(place.run(*usual), 1, place.state, "--new-state")
    check(not os.path.exists(place.state), "a state was made unasked")
    host = place.run(*usual, "--new-state", 41).ready()
    equal(host.end(), 0, "status")
    kept = content(place.state)
    host = place.run(*usual, "--new-state", 7).ready()
    check("last tightening number is 41" in host.log(), "a second --new-state was not left alone:\n%s", host.log())
    equal(host.end(), 0, "status")
    equal(content(place.state), kept, "the state after a --new-state that was not needed")
    gives_next(place, 42)


@test
def a_damaged_state(place):
    """Whichever byte is altered, wherever the file is cut, whatever is behind it: status 1, and the message names the file."""
    equal(place.host("--new-state", 1234567890, tool=False, journal=False).end(), 0, "status")
    kept = content(place.state)
    check(all(byte in b"\n" or 0x20 <= byte < 0x7F for byte in kept), "the state is not readable text: %r", kept)
    check(b"1234567890" in kept, "the number can't be read in the state: %r", kept)
    damaged = [kept[:i] + bytes([kept[i] ^ bit]) + kept[i + 1:] for i in range(len(kept)) for bit in (1, 16)]
    damaged += [kept[:i] for i in range(len(kept))]
    damaged += [kept + more for more in (b"\n", b" ", b"0", b"\0", b"\r\n", kept)]
    too_great = kept[:kept.rindex(b"check sum")].replace(b"1234567890", b"%d" % (GREATEST_NUMBER + 1))
    damaged.append(too_great + b"check sum %08x\n" % zlib.crc32(too_great))
    damaged += [b" " + kept, kept.replace(b"1234567890", b"01234567890"), kept.replace(b"1234567890", b"+1234567890"), b"\0" * len(kept)]
    for state in damaged:
        with open(place.state, "wb") as file:
            file.write(state)
        host = place.run("--settings", place.settings, "--state", place.state, "--listen", "127.0.0.1:0")
        try:
            place.refused(host, 1, place.state)
        except Wrong as wrong:
            host.kill()
            raise Wrong("state %r: %s" % (state, wrong)) from None
        equal(content(place.state), state, "a damaged state after the refusal")
    place.said.append("%d damaged states refused" % len(damaged))
    with open(place.state, "wb") as file:
        file.write(kept)
    gives_next(place, 1234567891)


@test
def a_state_in_use(place):
    """A second host on the same state is refused, also after the state was written; when the first is gone, however, it is free."""
    first = place.host()
    server = place.server(first).subscribe()
    tool = place.tool()
    for number in (1, 2):
        second = place.run("--settings", place.settings, "--state", place.state, "--listen", "127.0.0.1:0")
        place.refused(second, 1, place.state)
        tell_and_acknowledge(tool, server, number, number)
    equal(server.fence(), [], "something besides")
    first.kill()
    gives_next(place, 3)


@test
def the_last_number(place):
    """4,294,967,295 is given; behind it a tightening is refused with 8, nothing is sent, and it is so after a restart too."""
    host = place.host("--new-state", GREATEST_NUMBER - 1)
    server = place.server(host).subscribe()
    tool = place.tool()
    tell_and_acknowledge(tool, server, 1, GREATEST_NUMBER)
    servers = [server]
    for run in (1, 2):
        answer = tool.give(tightening_record(tightening_fields(2)))
        check(answer.startswith("8 "), "answer behind the last number: %r", answer)
        check(answer in host.log(), "the log does not have %r", answer)
        tool.scan("STILL SCANNED", "0")
        equal(server.expect(openprotocol.IDENTIFIER)["identifier"], "STILL SCANNED", "identifier")
        equal(server.fence(), [], "something besides")
        place.finish(host, servers, [8] * run)
        if run == 1:
            host = place.host()
            server = place.server(host).subscribe()
            servers.append(server)
            tool = place.tool()
