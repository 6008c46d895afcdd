"""What the tests of the host share: a place to run in, hosts, line servers, tools, and the journal read back.

A test is a function of a Place, registered by @test. Its first sentence says what it shows. Whatever it starts or makes is
made through the Place, which takes it all away again, however the test ends. Waiting ends by what is waited for; SECONDS is
only there so that a test that waits in vain ends too: every loop is bounded in time, by InTime or by what it waits for within. What a
host may write is bounded by FILE_GREATEST."""

import collections
import contextlib
import os
import re
import resource
import select
import shutil
import signal
import socket
import struct
import subprocess
import sys
import tempfile
import time

HERE = os.path.dirname(os.path.abspath(__file__))
ROOT = os.path.join(HERE, "..", "..")
TOOLS = os.path.join(ROOT, "tools")  # whose watch and ladder are tried (see run.py)
sys.path[:0] = [TOOLS, os.path.join(HERE, "..", "histories")]

import lent_table  # noqa: E402, F401
import openprotocol  # noqa: E402
from house_records import (ALARM, BYTES, GREATEST_NUMBER, HANG_UP, LIMIT, NEVER_SET, OPEN, PAYLOADS, SCANNED,  # noqa: E402, F401
                           SETTINGS, TICK, TIGHTENING, fields_of, record, record_of, split)
from openprotocol import message  # noqa: E402

SECONDS = 30
SESSIONS = 4
FILE_GREATEST = 64 << 20  # bytes of a file that a host writes; more where more results are asked for (see run.py)
NO_TICKS = 1000000  # milliseconds: no tick comes while a test runs
FAST_TICK = 0.04  # seconds; longer where the host is slow, as under an emulator (see run.py)
GOOD_SETTINGS = "cell = 12\nchannel = 3\ngranted = yes\nname = LINE4\n"
CONTROLLER = {"cell": 12, "channel": 3, "name": "LINE4"}

TESTS = []


class Wrong(Exception):
    """What differed."""


class Skipped(Exception):
    """Why nothing can be shown here."""


def test(function):
    TESTS.append(function)
    return function


def long(function):
    """The test takes too long for the gate: it is run where it is named."""
    function.long = True
    return function


def in_memory(function):
    """The test's files stand in memory where there is such a folder: it tries the host, which is not to wait for the disk."""
    if os.access("/dev/shm", os.W_OK | os.X_OK):
        function.parent = "/dev/shm"
    return function


def check(right, what, *values):
    if not right:
        raise Wrong(what % values if values else what)


def equal(got, wanted, what):
    check(got == wanted, "%s: %r, not %r", what, got, wanted)


def content(path):
    with open(path, "rb") as file:
        return file.read()


class InTime:
    """What a loop asks before each of its turns: it is so for SECONDS, and as many more as are given; then the test is wrong, and
    what besides() answers then is said too."""

    def __init__(self, what, more=0, besides=lambda: ""):
        self.what, self.seconds, self.besides = what, SECONDS + more, besides
        self.until = time.monotonic() + self.seconds

    def __call__(self):
        if time.monotonic() >= self.until:
            raise Wrong("not within %d s: %s%s" % (self.seconds, self.what, self.besides()))
        return True


def wait(condition, what, **how):
    """Waits until the condition holds, and answers what it answered."""
    in_time = InTime(what, **how)
    while not (held := condition()) and in_time():
        time.sleep(0.002)
    return held


# ---- records of the tool

LIMITS = [name for name, item in PAYLOADS[TIGHTENING].items.items() if item.sort == LIMIT]


def tightening_fields(i, **named):
    """The i-th tightening: no two are alike, and fields of one range differ; of 64 in a row each lacks other limits."""
    fields = {name: (i + 10006 * place) % (item.greatest + 1) for place, (name, item) in enumerate(PAYLOADS[TIGHTENING].items.items())}
    fields.update({name: None for place, name in enumerate(LIMITS) if i >> place & 1})
    fields.update(identifier="BODY-%07d" % i, time="2026-01-%02d:%02d:%02d:%02d" % (i % 28 + 1, i // 3600 % 24, i // 60 % 60, i % 60),
                  change_time="2025-12-31:23:59:%02d" % (i % 60), batch_status=(i + 2) % 3)
    return {**fields, **named}


def tightening_record(fields):
    return record_of(TIGHTENING, **fields)


def identifier_record(identifier):
    return record_of(SCANNED, identifier=identifier)


def alarm_fields(i, **named):
    """The i-th alarm: no two of a day are alike."""
    fields = {"code": "E%03d" % (i % 1000), "controller_ready": i % 2, "tool_ready": i // 2 % 2,
              "time": "2026-03-05:%02d:%02d:%02d" % (i // 3600 % 24, i // 60 % 60, i % 60)}
    return {**fields, **named}


def alarm_record(fields):
    return record_of(ALARM, **fields)


WITH_SERIAL = 4


def with_serial(serial, data):
    """A record with a serial in front of it, of 16 bytes."""
    return record(WITH_SERIAL, b"%16d" % serial + data)


def done(taken_by, number):
    """The answer to a tightening."""
    return "0 done, taken by %s, number %d" % (taken_by, number)


# What a 0061 says from revision 2 on of which the tool says nothing.
NOT_REPORTED = {row.name: row.write({}).decode() for row in openprotocol.LATER_RESULT
                if row.sort in (openprotocol.ZEROS, openprotocol.ONES)}


def told_fields(layout, fields, number):
    told = {**CONTROLLER, **NOT_REPORTED, **fields, "number": number}
    return {row.name: told[row.name] for row in layout.rows}


def result_fields(fields, number, revision=1):
    """What a 0061 of that revision has to say of that tightening."""
    return told_fields(openprotocol.LAYOUTS[openprotocol.RESULT, revision], fields, number)


def old_fields(fields, number):
    """What a 0065 has to say of it."""
    return told_fields(openprotocol.LAYOUTS[openprotocol.OLD_RESULT, 1], fields, number)


# ---- the programs of a test

def ends_within(process, seconds):
    """Whether a process ends in that time. It is told at once: subprocess's own wait looks only now and then."""
    with contextlib.suppress(OSError, AttributeError):  # where there is no such call of the system
        told = os.pidfd_open(process.pid)
        try:
            select.select([told], [], [], seconds)
        finally:
            os.close(told)
        return process.poll() is not None
    with contextlib.suppress(subprocess.TimeoutExpired):
        process.wait(seconds)
    return process.returncode is not None


class Host:
    """A host that was started; it is ready when its port is known. Its log goes to a file, if so wished through a pipe."""

    def __init__(self, command, log_path, piped=False, **how):
        self.log_path = log_path
        self.pipe = None
        with open(log_path, "wb") as log:
            if piped:
                self.pipe = subprocess.Popen(["cat"], stdin=subprocess.PIPE, stdout=log)
            out = self.pipe.stdin if piped else log
            self.process = subprocess.Popen(command, **{"stdin": subprocess.DEVNULL, "stdout": out, "stderr": out, **how})
        with contextlib.suppress(ProcessLookupError):
            resource.prlimit(self.process.pid, resource.RLIMIT_FSIZE, (FILE_GREATEST, FILE_GREATEST))
        if piped:
            self.pipe.stdin.close()
        self.port = None

    def log(self):
        """What it has said; nothing where its log was renamed."""
        if not os.path.exists(self.log_path):
            return ""
        with open(self.log_path, encoding="latin-1") as log:
            return log.read()

    def wait_for_log(self, pattern):
        """The match of the pattern, once the host has logged it."""
        def logged():
            over = self.process.poll() is not None
            found = re.search(pattern, self.log())
            check(found or not over, "the host ended with status %s and did not log %r:\n%s",
                  self.process.returncode, pattern, self.log())
            return found
        return wait(logged, "a log line like %r" % pattern)

    def ready(self):
        self.port = int(self.wait_for_log(r"listening on 127\.0\.0\.1:(\d+)").group(1))
        return self

    def status(self):
        """The status with which it ends, once it has."""
        check(ends_within(self.process, SECONDS), "the host did not end within %d s:\n%s", SECONDS, self.log())
        if self.pipe:
            self.pipe.wait(SECONDS)
        return self.process.returncode

    def end(self, number=signal.SIGTERM):
        self.process.send_signal(number)
        return self.status()

    def kill(self):
        self.process.kill()
        self.process.wait(SECONDS)
        if self.pipe:
            self.pipe.wait(SECONDS)

    def stop(self, seconds):
        """Keeps it from running for so long; answers for how long it was."""
        began = time.monotonic()
        self.process.send_signal(signal.SIGSTOP)
        time.sleep(seconds)
        self.process.send_signal(signal.SIGCONT)
        return time.monotonic() - began

    def files(self):
        """How many descriptors it has open."""
        return len(os.listdir("/proc/%d/fd" % self.process.pid))

    def lowest_free_file(self):
        """The number that the next descriptor which it opens gets."""
        taken = set(map(int, os.listdir("/proc/%d/fd" % self.process.pid)))
        return min(set(range(len(taken) + 1)) - taken)

    def told_by_the_system(self):
        """What the system tells of it, from its state on."""
        with open("/proc/%d/stat" % self.process.pid, encoding="ascii") as file:
            return file.read().rpartition(")")[2].split()

    def shown_by_the_system(self):
        """Lines of /proc, as far as they may be read, that show why it does not go on."""
        def shown(path):
            try:
                return "  %s: %s" % (path, content(path).decode("latin-1").strip())
            except OSError as why:
                return "  %s: %s" % (path, why.strerror)
        own = ["/proc/%d/%s" % (self.process.pid, name) for name in ("stat", "wchan", "schedstat")]
        return [shown(path) for path in own + ["/proc/loadavg"]]

    def processor_seconds(self):
        """How long it has been running on a processor."""
        fields = self.told_by_the_system()
        return (int(fields[11]) + int(fields[12])) / os.sysconf("SC_CLK_TCK")

    def wait_until_it_waits(self):
        """Until it has done what it was told, and waits for more."""
        wait(lambda: self.told_by_the_system()[0] == "S", "a host that waits")


class Link:
    """One of our connections to the host."""

    def __init__(self, link):
        self.link = link
        link.settimeout(SECONDS)

    def send(self, data):
        try:
            self.link.sendall(data)
        except socket.timeout:
            raise Wrong("what was sent was not taken within %d s" % SECONDS) from None

    def receive(self):
        """Some bytes; none at the end, be it in order or not."""
        try:
            return self.link.recv(65536)
        except ConnectionError:
            return b""
        except socket.timeout:
            raise Wrong("nothing came within %d s" % SECONDS) from None

    def close(self):
        self.open = False
        self.link.close()

    def cut(self):
        """Ends the link by a reset, as a lost peer's operating system does."""
        self.link.setsockopt(socket.SOL_SOCKET, socket.SO_LINGER, struct.pack("ii", 1, 0))
        self.close()


class Server(Link):
    """A line server. `seen` are all the runs that came, `open` tells whether the link has not ended, and `reads_all` whether all that
    was sent to it before has been read then."""

    def __init__(self, host, receive_buffer=None, address=None):
        link = socket.socket()
        if address:
            link.bind((address, 0))
        if receive_buffer:
            link.setsockopt(socket.SOL_SOCKET, socket.SO_RCVBUF, receive_buffer)
        link.setsockopt(socket.IPPROTO_TCP, socket.TCP_NODELAY, 1)
        super().__init__(link)
        link.connect(("127.0.0.1", host.port))
        self.port = link.getsockname()[1]
        self.stream = openprotocol.Stream()
        self.waiting = collections.deque()
        self.seen = []
        self.open = True
        self.reads_all = True
        self.fences = 0
        self.revision = 1  # of the results that it has subscribed to

    def take(self):
        """Takes what has come, or waits for it; False at the end."""
        received = self.receive()
        runs = self.stream.take(received)
        self.seen += runs
        self.waiting.extend(runs)
        self.open = received != b""
        return self.open

    def next(self):
        """The next run."""
        in_time = InTime("a further run")
        while not self.waiting and in_time():
            check(self.take(), "the host closed a link on which more was to come")
        return self.waiting.popleft()

    def expect(self, mid, revision=1):
        """The fields of the next frame, which is to be that one."""
        run = self.next()
        try:
            frame = openprotocol.read(run)
        except ValueError as wrong:
            raise Wrong(str(wrong)) from None
        check((frame.mid, frame.revision) == (mid, revision), "a %04d of revision %d was to come, not %r", mid, revision, run)
        return frame.fields

    def expect_result(self, fields, number):
        equal(self.expect(openprotocol.RESULT, self.revision), result_fields(fields, number, self.revision), "result")

    def expect_alarm(self, fields):
        equal(self.expect(openprotocol.ALARM), fields, "alarm")

    def fetch(self, number=openprotocol.NEWEST):
        """The fields of the old result of that number; None where it is not kept."""
        self.send(openprotocol.fetch(number))
        run = self.next()
        if run == openprotocol.write(openprotocol.REFUSED, {"mid": openprotocol.FETCH_RESULT, "error": openprotocol.NOT_KEPT}):
            return None
        frame = openprotocol.read(run)
        equal((frame.mid, frame.byte_12), (openprotocol.OLD_RESULT, b" "), "message and byte 12 of what a 0064 is answered")
        return frame.fields

    def tell(self, mid, **more):
        self.send(message(mid, **more))

    def accepted(self, mid, **more):
        self.tell(mid, **more)
        equal(self.expect(openprotocol.ACCEPTED)["mid"], mid, "accepted")

    def start(self):
        self.tell(openprotocol.START)
        equal(self.expect(openprotocol.STARTED), CONTROLLER, "0002")
        return self

    def subscribe(self, acknowledge=True, revision=1):
        """Starts, and subscribes to identifiers, and to results in that revision."""
        byte_12 = b"0" if acknowledge else b"1"
        self.start()
        self.accepted(openprotocol.SUBSCRIBE_IDENTIFIERS, byte_12=byte_12)
        self.subscribe_results(revision, byte_12=byte_12)
        return self

    def subscribe_results(self, revision=1, **more):
        self.accepted(openprotocol.SUBSCRIBE_RESULTS, revision=b"%03d" % revision, **more)
        self.revision = revision

    def subscribe_alarms(self, acknowledge=True):
        self.accepted(openprotocol.SUBSCRIBE_ALARMS, byte_12=b"0" if acknowledge else b"1")
        return self

    def fence(self):
        """The runs that come before the mirror of a 9999 that is sent now: what the host had to send, it has sent."""
        self.fences += 1
        mark = message(openprotocol.KEEP_ALIVE, rest=b"%08d" % self.fences)
        try:
            self.send(mark)
        except ConnectionError:
            raise Wrong("the host closed a link that was to stay") from None
        runs, in_time = [], InTime("the mirror of a 9999")
        while in_time() and (run := self.next()) != mark[:-1]:
            runs.append(run)
        return runs

    def until_closed(self):
        """The runs that come before the host closes the link."""
        in_time = InTime("the host closes a link")
        while self.open and in_time():
            if select.select([self.link], [], [], 0.1)[0]:
                self.take()
        runs = list(self.waiting)
        self.waiting.clear()
        return runs


class Tool(Link):
    """A tool on the host's Unix socket."""

    def __init__(self, path):
        link = socket.socket(socket.AF_UNIX)
        super().__init__(link)
        link.connect(path)
        self.received = b""

    def answer(self):
        """The next line; None at the end."""
        in_time = InTime("an answer")
        while b"\n" not in self.received and in_time():
            more = self.receive()
            if not more:
                equal(self.received, b"", "a line cut by the end")
                return None
            self.received += more
        line, self.received = self.received.split(b"\n", 1)
        return line.decode("ascii")

    def answers(self):
        """All the lines that come up to the end."""
        lines, in_time = [], InTime("the end of the answers")
        while in_time() and (line := self.answer()) is not None:
            lines.append(line)
        return lines

    def give(self, data):
        self.send(data)
        return self.answer()

    def tighten(self, fields, taken_by):
        """Answers the number that the tightening got."""
        answer = self.give(tightening_record(fields))
        found = re.fullmatch(r"0 done, taken by (none|[0-3 ]+), number (\d+)", answer or "")
        check(found and found.group(1) == taken_by, "answer to a tightening: %r, not taken by %s", answer, taken_by)
        return int(found.group(2))

    def scan(self, identifier, taken_by):
        equal(self.give(identifier_record(identifier)), "0 done, taken by " + taken_by, "answer to an identifier")

    def alarm(self, fields, taken_by):
        equal(self.give(alarm_record(fields)), "0 done, taken by " + taken_by, "answer to an alarm")


def tell_and_acknowledge(tool, server, i, number):
    """The i-th tightening reaches the server of session 0 under that number, and is acknowledged."""
    equal(tool.tighten(tightening_fields(i), "0"), number, "the number that a tightening got")
    server.expect_result(tightening_fields(i), number)
    server.tell(openprotocol.ACKNOWLEDGE_RESULT)


class Place:
    """Where a test runs: its folder, and all that it starts."""

    def __init__(self, options, parent=None):
        self.program, self.replay, self.own_replay, self.count = options.host, options.replay, options.own_replay, options.count
        self.said = []  # figures that the test wants to be printed behind its ok
        self.hosts = []
        self.links, self.undo = contextlib.ExitStack(), contextlib.ExitStack()  # before and after the hosts' end
        self.folder = tempfile.mkdtemp(prefix="serifladder-", dir=parent)
        self.settings = self.path("settings")
        self.state = self.path("state")
        self.journal = self.path("journal")
        self.tool_path = self.path("tool")
        with open(self.settings, "w", encoding="ascii") as file:
            file.write(GOOD_SETTINGS)

    def path(self, name):
        return os.path.join(self.folder, name)

    def leave(self):
        self.links.close()
        for host in self.hosts:
            if host.process.poll() is None:
                host.kill()
        self.undo.close()
        shutil.rmtree(self.folder)

    def run(self, *arguments, **how):
        """A host with just these arguments."""
        self.hosts.append(Host([self.program, *map(str, arguments)], self.path("log-%d" % len(self.hosts)), **how))
        return self.hosts[-1]

    def start(self, *more, tick=NO_TICKS, tool=True, journal=True, **how):
        """A host with the usual files, not waited for; the state is made where there is none. `tick` is in milliseconds."""
        arguments = ["--settings", self.settings, "--state", self.state]
        arguments += [] if "--listen" in more else ["--listen", "127.0.0.1:0"]
        arguments += [] if os.path.exists(self.state) or "--new-state" in more else ["--new-state", 0]
        arguments += ["--tool", self.tool_path] if tool else []
        arguments += ["--journal", self.journal] if journal else []
        arguments += ["--tick-milliseconds", tick] if tick else []
        return self.run(*arguments, *more, **how)

    def host(self, *more, **how):
        return self.start(*more, **how).ready()

    def finish(self, host, servers, refusals=()):
        """Ends the host, has the servers read all that was sent, and holds it against the journal."""
        status = host.end()
        for server in servers:
            if server.open and server.reads_all:
                server.until_closed()
        equal(status, 0, "status")
        self.check_journal(servers, refusals)

    def refused(self, host, status, *words):
        """The host is to end with that status and a message that has these words; answers the message."""
        equal(host.status(), status, "status of a host that logged\n%s\nof which" % host.log())
        for word in words:
            check(str(word) in host.log(), "no %r in the message:\n%s", str(word), host.log())
        return host.log()

    def server(self, host, **how):
        server = Server(host, **how)
        self.links.callback(server.close)
        return server

    def tool(self):
        tool = Tool(self.tool_path)
        self.links.callback(tool.close)
        return tool

    # ---- the journal

    def journal_parts(self):
        """The journal's files in the order in which they were written."""
        folder, name = os.path.split(self.journal)
        numbers = [int(found.group(1)) for other in os.listdir(folder) if (found := re.fullmatch(name + r"\.(\d+)", other))]
        return ["%s.%d" % (self.journal, number) for number in sorted(numbers)] + [self.journal]

    def journal_bytes(self):
        return b"".join(map(content, self.journal_parts()))

    def journal_size(self):
        return sum(map(os.path.getsize, self.journal_parts()))

    def journaled(self):
        """The journal's whole records, as (record kind, payload)."""
        return split(self.journal_bytes())[0]

    def ticks(self):
        return sum(record_kind == TICK for record_kind, _ in self.journaled())

    def wait_for_journal(self, condition, what):
        wait(lambda: condition(self.journaled()), "journal: " + what)

    def wait_for_hang_up(self, session, times=1):
        self.wait_for_journal(lambda records: sum(record_kind == HANG_UP + session for record_kind, _ in records) >= times,
                              "hang-up %d of session %d" % (times, session))

    def own_replayed(self, data, table=None):
        """What serifladder-replay prints of house records, from a table or from a start."""
        command = [self.own_replay] + (["--table", table] if table else [])
        return subprocess.run(command, input=data, stdout=subprocess.PIPE, timeout=SECONDS, check=True).stdout

    def replayed(self):
        """What replay prints of the journal: an Opening for each open record, and the refusals."""
        records, rest = split(self.journal_bytes())
        equal(rest, b"", "bytes behind the journal's last whole record")
        # An open of a session that is none is refused with 4 and alters nothing: it marks each opening in what is printed.
        marked = b"".join((MARK if OPEN <= record_kind < OPEN + SESSIONS else b"") + record(record_kind, payload)
                          for record_kind, payload in records)
        done = subprocess.run([self.replay], input=marked, stdout=subprocess.PIPE, timeout=SECONDS, check=True)
        sessions = iter([record_kind - OPEN for record_kind, _ in records if OPEN <= record_kind < OPEN + SESSIONS])
        openings, now, refusals = [], {}, []
        for line in done.stdout.split(b"\n")[:-1]:
            if line == b"R 4":
                openings.append(Opening(next(sessions), []))
                now[openings[-1].session] = openings[-1]
            elif line.startswith(b"R "):
                refusals.append(int(line[2:]))
            else:
                now[int(line[:1])].lines.append(line[2:])
        return openings, refusals

    def check_journal(self, servers, refusals=()):
        """What replay prints is what the servers saw, who are given in the order in which they were let in."""
        openings, refused = self.replayed()
        equal(refused, list(refusals), "refusals in the journal")
        equal(len(openings), len(servers), "openings in the journal")
        for i, (opening, server) in enumerate(zip(openings, servers)):
            printed = opening.frames()
            saw = [run.replace(b" ", b"_") for run in server.seen]
            if not server.reads_all:
                check(len(saw) <= len(printed), "server %d saw %d frames, replay has %d", i, len(saw), len(printed))
                printed = printed[:len(saw)]
            equal(saw[:len(printed)], printed[:len(saw)], "what server %d saw" % i)
            equal(len(saw), len(printed), "how many frames server %d saw" % i)
            check(not opening.closed() or not server.open, "the library closed session %d, its link is open", opening.session)


MARK = record(OPEN + 15)


class Opening(collections.namedtuple("Opening", "session lines")):
    """What the library sent to a session from its opening on."""

    def frames(self):
        return [line[2:] for line in self.lines if line.startswith(b"S ")]

    def closed(self):
        return b"C" in self.lines
