#!/usr/bin/env python3
"""Runs the tests of the host over real sockets.

    run.py --host PROGRAM --replay PROGRAM [--own-replay PROGRAM] [--tools FOLDER] [--only NAME,NAME,..] [--count N] [--seconds N]

--replay is the proved test program, --own-replay the host's serifladder-replay; if it is not given it stands beside the host. --tools is
where watch and ladder stand, if not in the repository's tools.
--count says how many results the load sends and, in hundreds, how many histories are made to happen; --seconds how long something
is waited for that does not come. Without --only, the tests that take long are left out.
Prints a line for each test. Exit status 0: none is wrong; what cannot be shown here is skipped, and counted apart."""

import argparse
import multiprocessing
import os
import signal
import subprocess
import sys
import time
import traceback

import harness
import links  # noqa: F401, I001
import notices  # noqa: F401
import alarms  # noqa: F401
import tool  # noqa: F401
import journal  # noqa: F401
import parts  # noqa: F401
import drawing  # noqa: F401
import kept  # noqa: F401
import starts  # noqa: F401
import usage  # noqa: F401
import ends  # noqa: F401
import watching  # noqa: F401
import fetching  # noqa: F401
import status  # noqa: F401
import load  # noqa: F401

AT_A_TIME = 2  # so many tests: they mostly wait
WATCHDOG = 180  # seconds: no test takes so long, however slow the machine; more where more results are asked for
BYTES_A_RESULT = 16384  # of logs and journals, at most


def too_long(*_):
    raise harness.Wrong("no end in time")


def seconds_for(options):
    """How long a test may take."""
    return WATCHDOG + options.count // 50


def seconds_to_start(host):
    """How long it takes to start the host and have it say something."""
    began = time.monotonic()
    subprocess.run([host, "--help"], stdout=subprocess.DEVNULL, check=True)
    return time.monotonic() - began


NAMED = {function.__name__.replace("_", "-"): function for function in harness.TESTS}


def run(arguments):
    """Whether the test of a name is right (None where it is skipped), what is to be said of it, and how long it took."""
    name, options = arguments
    began = time.monotonic()
    right, said = outcome(NAMED[name], options)
    return right, said, time.monotonic() - began


def outcome(function, options):
    place = harness.Place(options, getattr(function, "parent", None))
    signal.alarm(seconds_for(options))
    try:
        function(place)
        return True, ", ".join(["ok", *place.said])
    except harness.Skipped as why:
        return None, "skipped: %s" % why
    except Exception as wrong:
        told = str(wrong) if isinstance(wrong, harness.Wrong) else traceback.format_exc()
        logs = ["\n  log of host %d, its end:\n" % i + "\n".join("    " + line for line in host.log().splitlines()[-12:])
                for i, host in enumerate(place.hosts)]
        return False, "WRONG: " + told + "".join(logs[-2:])
    finally:
        signal.alarm(0)
        place.leave()


def main():
    parser = argparse.ArgumentParser(description=__doc__.splitlines()[0])
    parser.add_argument("--host", required=True)
    parser.add_argument("--replay", required=True)
    parser.add_argument("--own-replay")
    parser.add_argument("--tools", default=harness.TOOLS)
    parser.add_argument("--only", type=lambda text: text.split(","))
    parser.add_argument("--count", type=int, default=2000)
    parser.add_argument("--seconds", type=int, default=harness.SECONDS)
    options = parser.parse_args()
    options.own_replay = options.own_replay or os.path.join(os.path.dirname(options.host), "serifladder-replay")
    harness.SECONDS, harness.TOOLS = options.seconds, options.tools
    harness.FILE_GREATEST += options.count * BYTES_A_RESULT
    harness.FAST_TICK = max(harness.FAST_TICK, 2 * seconds_to_start(options.host))
    signal.signal(signal.SIGALRM, too_long)
    for number in (signal.SIGTERM, signal.SIGHUP):
        signal.signal(number, lambda *_: sys.exit(1))  # so that what was started is ended
    if unknown := set(options.only or ()) - set(NAMED):
        sys.exit("no such test: %s; there are %s" % (", ".join(unknown), ", ".join(NAMED)))
    names = [name for name, function in NAMED.items() if (name in options.only if options.only else not hasattr(function, "long"))]
    counts = {True: 0, False: 0, None: 0}
    with multiprocessing.get_context("fork").Pool(AT_A_TIME) as pool:
        outcomes = pool.imap(run, [(name, options) for name in names])
        for name in names:
            try:
                right, said, seconds = outcomes.next(2 * seconds_for(options))
            except multiprocessing.TimeoutError:
                sys.exit("%s: WRONG: its process was killed" % name)
            counts[right] += 1
            print("%s: %s" % (name, said), flush=True)
            if seconds > 5:
                print("  (%.0f s)" % seconds, flush=True)
        pool.close()  # in order: a worker that is ended by a signal may go on waiting, since it catches it
        pool.join()
    print("host: %d right, %d wrong, %d skipped" % (counts[True], counts[False], counts[None]))
    return 1 if counts[False] else 0


if __name__ == "__main__":
    sys.exit(main())
