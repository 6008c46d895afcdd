"""A process stopped before each of its calls of the system, to be ended there or let run on. One that runs under an emulator is stopped
before each call that the emulator makes, for it or for itself."""

import ctypes
import functools
import os
import signal
import struct
import subprocess

from harness import InTime, Skipped

NAMES = {
    "x86_64": {2: "open", 257: "open", 44: "send", 74: "sync", 75: "sync", 82: "rename", 264: "rename", 316: "rename"},
    "aarch64": {56: "open", 206: "send", 82: "sync", 83: "sync", 38: "rename", 276: "rename"},
}.get(os.uname().machine)

DETACH, CALL_STOPS, SEIZE, INTERRUPT, CALL_INFO = 17, 24, 0x4206, 0x4207, 0x420E
TELL_CALLS, KILL_WITH_US = 1, 0x100000
CALL_STOP = signal.SIGTRAP | 0x80
BEFORE_A_CALL = 1  # the first byte of what is told of a stop
NUMBER_AT = 24  # where the call's number stands in it

library = ctypes.CDLL(None, use_errno=True)
library.ptrace.argtypes = [ctypes.c_long] * 4
library.ptrace.restype = ctypes.c_long


class Trace:
    def __init__(self, process):
        self.process = process
        self.told = ctypes.create_string_buffer(NUMBER_AT + 8)
        self.ask(SEIZE, 0, TELL_CALLS | KILL_WITH_US)
        self.ask(INTERRUPT)
        os.waitpid(process, 0)

    def ask(self, request, place=0, data=0):
        if library.ptrace(request, self.process, place, data) < 0:
            raise OSError(ctypes.get_errno(), "ptrace: " + os.strerror(ctypes.get_errno()))

    def next_call(self):
        """Lets the process run up to its next call of the system, and answers what that is."""
        in_time = InTime("a call of the system")
        while in_time():
            self.ask(CALL_STOPS)
            _, status = os.waitpid(self.process, 0)
            if not os.WIFSTOPPED(status):
                raise OSError("the traced process has ended")
            if os.WSTOPSIG(status) != CALL_STOP:
                continue
            self.ask(CALL_INFO, len(self.told), ctypes.addressof(self.told))
            if self.told.raw[0] == BEFORE_A_CALL:
                number, = struct.unpack_from("<Q", self.told, NUMBER_AT)
                return NAMES.get(number, number)

    def end(self):
        """Lets the process run on."""
        self.ask(DETACH)


def possible():
    """Whether the host can be traced here."""
    if not NAMES:
        return False
    with subprocess.Popen(["sleep", "60"]) as process:
        try:
            Trace(process.pid).next_call()
            return True
        except OSError:
            return False
        finally:
            process.kill()


def traced(function):
    """The test traces the host; where that can't be, it is skipped."""
    @functools.wraps(function)
    def where_possible(place):
        if not possible():
            raise Skipped("the host can't be traced here")
        function(place)
    return where_possible
