"""How the host is started: the command line and the settings."""

import contextlib
import os
import random
import re
import socket

from harness import CONTROLLER, GOOD_SETTINGS, ROOT, Wrong, check, equal, openprotocol, test, tightening_fields, wait

OPTIONS = ["--settings", "--state", "--new-state", "--state-behind", "--listen", "--allow", "--links-of-an-address", "--tool",
           "--tool-mode", "--tool-group", "--demo", "--demo-seconds", "--journal", "--journal-size", "--journal-keep", "--status",
           "--log", "--file-mode", "--tick-milliseconds", "--version", "--help", "-h"]


@test
def help_says_it_all(place):
    """--help and -h name every option and end with status 0, and so does the man page; --version says the version."""
    host, short, version = (place.run(option) for option in ("--help", "-h", "--version"))
    equal([one.status() for one in (host, short, version)], [0, 0, 0], "status")
    equal(short.log(), host.log(), "what -h says")
    check(re.fullmatch(r"serifladder-host \d+\.\d+\n", version.log()), "--version says %r", version.log())
    with open(os.path.join(ROOT, "host", "serifladder-host.8"), encoding="ascii") as file:
        page = file.read().replace("\\-", "-")
    for option in OPTIONS:
        check(option in host.log(), "--help does not name %s:\n%s", option, host.log())
        check(option in page, "the man page does not name %s", option)
    for option in re.findall(r"(?<![\w-])--[a-z][a-z-]*", host.log()):
        check(option in OPTIONS, "%s is in --help, but not tried here", option)


@test
def bad_usage(place):
    """A command line that can't be meant: a message that names what is wrong, status 2, and nothing made."""
    usual = ["--settings", place.settings, "--state", place.state, "--new-state", "0"]
    cases = [
        ([], "--settings"),
        (["--settings", place.settings], "--state"),
        (["--state", place.state, "--new-state", "0"], "--settings"),
        (usual + ["--unknown"], "--unknown"),
        (usual + ["further"], "further"),
        (usual + ["--listen"], "--listen"),
        (usual + ["--demo", "--tool", place.tool_path], "--tool"),
        (usual + ["--tool-mode", "660"], "--tool-mode"),
        (usual + ["--tool-group", "0"], "--tool-group"),
        (usual + ["--journal-keep", "5"], "--journal-keep"),
        (usual + ["--state-behind"], "--state-behind"),
    ]
    for option, values in {
        "--new-state": ["", "-1", "x", "1x", " 1", "4294967296", "99999999999999999999"],
        "--listen": ["", "127.0.0.1", "127.0.0.1:", ":4545", "127.0.0.1:x", "127.0.0.1:65536", "127.0.0.1:-1", "nowhere:4545:1"],
        "--allow": ["", "127.0.0.1", "127.0.0.1/", "127.0.0.1/33", "/8", "127.0.0/8", "here/8", "127.0.0.1/8x"],
        "--links-of-an-address": ["", "0", "5", "x"],
        "--tick-milliseconds": ["", "0", "-5", "x", "1.5"],
        "--journal-size": ["", "0", "-5", "x"],
        "--journal-keep": ["", "0", "-5", "x"],
        "--file-mode": ["", "8", "1000", "-1", "x", "00644"],
        "--tool-mode": ["", "8", "1000", "-1", "x"],
        "--tool-group": ["", "no such group", "-1", "4294967295", "root:"],
        "--demo-seconds": ["", "0", "-5", "x"],
    }.items():
        needed = {"--demo-": ["--demo"], "--journa": ["--journal", place.journal], "--tool-": ["--tool", place.tool_path]}
        needs = needed.get(option[:7], [])
        without = usual[:4] if option == "--new-state" else usual
        cases += [(without + needs + [option, value], option) for value in values]
    for arguments, word in cases:
        try:
            place.refused(place.run(*arguments), 2, word)
        except Wrong as wrong:
            raise Wrong("%s: %s" % (arguments, wrong)) from None
        check(not os.path.exists(place.state), "a state was made with %s", arguments)
    place.said.append("%d command lines refused" % len(cases))


@test
def bad_settings(place):
    """Settings of each sort that can't be: status 1, and the message names file and line."""
    good = {"cell": "12", "channel": "3", "granted": "yes", "name": "LINE4"}
    cases = []
    for key, values in {
        "cell": ["10000", "-1", "+1", "x", "", "12 13", "1.5", "0x10", "99999999999999999999"],
        "channel": ["100", "-1", "x", "", "3,4", "4294967299"],
        "granted": ["maybe", "", "1", "YES", "yes no"],
        "name": ["x" * 26, "caf\xe9", "a\x7fb", "a\tb", "x" * 5000],
    }.items():
        for value in values:
            lines = ["%s = %s" % (k, value if k == key else v) for k, v in good.items()]
            cases.append(("\n".join(lines) + "\n", list(good).index(key) + 1))
    cases += [
        (GOOD_SETTINGS + "colour = red\n", 5),
        (GOOD_SETTINGS + "\n# again\ncell = 12\n", 7),
        (GOOD_SETTINGS + "cell\n", 5),
        (GOOD_SETTINGS + "= 5\n", 5),
        (GOOD_SETTINGS + "Cell = 12\n", 5),
        (GOOD_SETTINGS.replace("cell", "cell\0"), 1),
        (GOOD_SETTINGS.replace("12", "12\0"), 1),
    ]
    for content, line in cases:
        with open(place.settings, "w", encoding="latin-1") as file:
            file.write(content)
        try:
            place.refused(place.start(), 1, "%s:%d" % (place.settings, line))
        except Wrong as wrong:
            raise Wrong("settings %r: %s" % (content, wrong)) from None
        check(not os.path.exists(place.state), "a state was made with settings %r", content)
    for key in good:
        with open(place.settings, "w", encoding="ascii") as file:
            file.write("".join("%s = %s\n" % (k, v) for k, v in good.items() if k != key))
        place.refused(place.start(), 1, place.settings, key)
    with open(place.settings, "wb"):
        pass
    place.refused(place.start(), 1, place.settings)
    os.remove(place.settings)
    place.refused(place.start(), 1, place.settings)
    os.mkdir(place.settings)
    place.refused(place.start(), 1, place.settings)
    place.said.append("%d settings refused" % (len(cases) + len(good) + 3))


@test
def garbage_as_settings(place):
    """Settings with bytes altered at random: a message with the file's name and status 1, or they are good; never anything else."""
    source = random.Random(6)
    for _ in range(200):
        content = bytearray(GOOD_SETTINGS.encode("ascii") * source.randrange(1, 3))
        for _ in range(source.randrange(1, 6)):
            at = source.randrange(len(content))
            content[at:at + source.randrange(3)] = source.randbytes(source.randrange(3))
        with open(place.settings, "wb") as file:
            file.write(content)
        # There is no state, so that the host ends with status 1 in any case.
        host = place.run("--settings", place.settings, "--state", place.state, "--listen", "127.0.0.1:0")
        place.refused(host, 1)
        check(place.settings in host.log() or place.state in host.log(), "settings %r: %s", content, host.log())


@test
def good_settings(place):
    """Settings in any order, with comments and empty lines, at their ends; no identifier over the net where it is not granted."""
    cases = [
        (GOOD_SETTINGS, CONTROLLER, True),
        (GOOD_SETTINGS[:-1], CONTROLLER, True),
        ("# one\n\nname=a name, with 25 letters ok\n  channel =99  \n\n#two\ngranted =\tno\ncell= 9999\n",
         {"cell": 9999, "channel": 99, "name": "a name, with 25 letters o"}, False),
        ("name = A\ncell = 0\ngranted = no\nchannel = 0\n", {"cell": 0, "channel": 0, "name": "A"}, False),
    ]
    for i, (content, controller, granted) in enumerate(cases):
        content = content.replace("letters ok", "letters o")
        with open(place.settings, "w", encoding="ascii") as file:
            file.write(content)
        host = place.host()
        server = place.server(host)
        server.tell(openprotocol.START)
        equal(server.expect(openprotocol.STARTED), controller, "0002 by settings %d" % i)
        server.tell(openprotocol.DOWNLOAD_IDENTIFIER, data=b"X")
        if granted:
            equal(server.expect(openprotocol.ACCEPTED), {"mid": 50}, "0050 by settings %d" % i)
        else:
            equal(server.expect(openprotocol.REFUSED), {"mid": 50, "error": 8}, "0050 by settings %d" % i)
        equal(host.end(), 0, "status")


@test
def an_address_in_use(place):
    """A port that is taken: status 1, the message names it, and no file is made or renamed."""
    with socket.create_server(("127.0.0.1", 0)) as taken:
        address = "127.0.0.1:%d" % taken.getsockname()[1]
        before = os.listdir(place.folder)
        place.refused(place.start("--listen", address), 1, address)
        made = [name for name in os.listdir(place.folder) if name not in before and not name.startswith("log-")]
        equal(made, [], "files that were made")


@test
def the_usual_address(place):
    """Without --listen it is 127.0.0.1:4545, be it free or not."""
    host = place.run("--settings", place.settings, "--state", place.state, "--new-state", 0)
    host.wait_for_log(r"listen on 127\.0\.0\.1:4545|listening on 127\.0\.0\.1:4545")


@test
def closed_standard_streams(place):
    """A host that is started without standard input, output and error writes its log into no other file or link."""
    with socket.create_server(("127.0.0.1", 0)) as free:
        port = free.getsockname()[1]
    host = place.start("--listen", "127.0.0.1:%d" % port, preexec_fn=lambda: os.closerange(0, 3))
    host.port = port

    def connected():
        check(host.process.poll() is None, "the host ended with status %s", host.process.returncode)
        with contextlib.suppress(ConnectionError):
            return place.server(host)
        return None

    server = wait(connected, "a host that listens").subscribe()
    place.tool().tighten(tightening_fields(1), "0")
    server.expect_result(tightening_fields(1), 1)
    equal(server.fence(), [], "something besides")
    place.finish(host, [server])
    equal(host.log(), "", "log")
    equal(place.host().end(), 0, "status of a further run on the same state")
