"""Counts the instructions of a process by `ptrace`, which stops it after each one. So a count depends little on how busy the machine is."""

import contextlib
import ctypes
import os
import signal
import threading

from outcome import Skipped

SINGLE_STEP, ATTACH, DETACH = 9, 16, 17

LIBRARY = ctypes.CDLL(None, use_errno=True)
LIBRARY.ptrace.argtypes = [ctypes.c_long, ctypes.c_long, ctypes.c_void_p, ctypes.c_void_p]
LIBRARY.ptrace.restype = ctypes.c_long


def ask(request, process, number=0):
    if LIBRARY.ptrace(request, process, None, number) == -1:
        raise OSError(ctypes.get_errno(), os.strerror(ctypes.get_errno()))


class Work(threading.Thread):
    """What is done in a thread of its own while a process is counted. At its end it stops the process."""

    def __init__(self, process, work):
        super().__init__(daemon=True)
        self.process, self.work = process, work
        self.is_done, self.fault = False, None

    def run(self):
        try:
            self.work()
        except Exception as error:
            self.fault = error
        self.is_done = True
        with contextlib.suppress(ProcessLookupError):
            os.kill(self.process, signal.SIGSTOP)


def instructions(process, work):
    """Returns how many instructions a child of this process runs while this work is done. It is stopped after each of them, so it runs some ten
    thousand times slower than else. Skips the case if a process may not be traced."""
    try:
        ask(ATTACH, process)
    except PermissionError as error:
        raise Skipped(f"a process may not be traced here: {error.strerror}") from error
    try:
        stop_of(process)
        return count(process, Work(process, work))
    finally:
        with contextlib.suppress(ProcessLookupError):
            ask(DETACH, process)


def count(process, thread):
    """Returns how many steps a stopped process takes until the work of this thread is done. Signals reach the process."""
    thread.start()
    steps, passed = 0, 0
    while True:
        ask(SINGLE_STEP, process, passed)
        stop = stop_of(process)
        if stop == signal.SIGTRAP:
            steps, passed = steps + 1, 0
        elif stop == signal.SIGSTOP and thread.is_done:
            break
        else:
            passed = stop
    thread.join()
    if thread.fault:
        raise thread.fault
    return steps


def stop_of(process):
    """Waits until the process stops, and returns the signal by which it does."""
    _, status = os.waitpid(process, 0)
    if not os.WIFSTOPPED(status):
        raise ChildProcessError("the process ended while its instructions were counted")
    return os.WSTOPSIG(status)
