"""Runs `rt`, for one crate or for several side by side. An interrupt ends these calls, and then the program."""
import concurrent.futures
import contextlib
import fcntl
import os
import signal
import subprocess
import sys
import threading
import time

from crates import TOP, read

# the memory in bytes that one crate in work may take: most take a fifth of it
EACH = 4 << 30
# each job loads all that is below: with two or four, a crate takes up to twice the seconds of a processor
ONE_JOB = ["--jobs", "1"]


def memory():
    """Returns the free memory in bytes."""
    for line in read("/proc/meminfo").split("\n"):
        if line.startswith("MemAvailable:"):
            return int(line.split()[1]) << 10
    return EACH


class Clock:
    """Reports on standard error what is done, with the seconds since this began."""

    def __init__(self):
        self.begun = time.time()

    def seconds(self):
        return time.time() - self.begun

    def report(self, what):
        print(f"  {self.seconds():4.0f} s: {what}", file=sys.stderr, flush=True)


class Calls:
    """The commands that run now. After an interrupt, those that begin later are ended too.

    Each command also holds the lock of this checkout: if this program is killed, others wait until its commands ended.
    """

    def __init__(self):
        self.running, self.signal, self.locks = set(), 0, []
        # (the main thread may hold it when a signal comes)
        self.guard = threading.RLock()

    def begin(self, pid):
        with self.guard:
            self.running.add(pid)
            if self.signal:
                os.kill(pid, signal.SIGTERM)

    def end(self, pid):
        with self.guard:
            self.running.discard(pid)

    def interrupt(self, number, _):
        """Handles a signal: ends all commands. Each `run_in` then ends the program."""
        with self.guard:
            self.signal = number
            for pid in self.running:
                os.kill(pid, signal.SIGTERM)


CALLS = Calls()


def waited_for(call):
    """Waits for a command; returns the same as `run_in`."""
    CALLS.begin(call.pid)
    try:
        said = call.stdout.read()
        # (it stays a process until `wait4`, so that no signal can reach another one)
        os.waitid(os.P_PID, call.pid, os.WEXITED | os.WNOWAIT)
    finally:
        CALLS.end(call.pid)
    _, status, used = os.wait4(call.pid, 0)
    call.returncode = os.waitstatus_to_exitcode(status)
    return call.returncode, said, used.ru_utime + used.ru_stime


def run_in(place, words):
    """Runs a command: its status, its output, and its seconds of a processor. After an interrupt, it ends the program."""
    how = {"stdin": subprocess.DEVNULL, "stdout": subprocess.PIPE, "stderr": subprocess.STDOUT, "errors": "replace"}
    with subprocess.Popen(words, cwd=place, pass_fds=CALLS.locks, **how) as call:
        result = waited_for(call)
    return sys.exit(128 + CALLS.signal) if CALLS.signal else result


def side_by_side(next_job, end):
    """Does jobs, as many at once as processors and memory allow. `next_job` returns the next one, a function and its
    arguments, or None if there is none or it has to wait; `end` takes what a job returns. If this is interrupted, or
    a job raises an exception, the other jobs have ended before this ends."""
    most = len(os.sched_getaffinity(0))
    with concurrent.futures.ThreadPoolExecutor(most) as lanes:
        running = set()
        while True:
            while len(running) < most and (not running or memory() > EACH) and (job := next_job()):
                running.add(lanes.submit(*job))
            if not running:
                return
            # (memory may become free without a job that ends)
            ended, running = concurrent.futures.wait(running, 5, concurrent.futures.FIRST_COMPLETED)
            for it in ended:
                end(it.result())


def lock_alone(lock):
    try:
        fcntl.flock(lock, fcntl.LOCK_EX | fcntl.LOCK_NB)
    except BlockingIOError:
        print("waiting for another tool that works in this checkout ..", file=sys.stderr, flush=True)
        fcntl.flock(lock, fcntl.LOCK_EX)


def handle_interrupts(handler):
    """Sets the handler of the signals that interrupt a program, but for those that it ignores, as under `nohup`."""
    for it in (signal.SIGINT, signal.SIGTERM, signal.SIGHUP):
        if signal.getsignal(it) is not signal.SIG_IGN:
            signal.signal(it, handler)


@contextlib.contextmanager
def alone():
    """Waits until no other tool works in this checkout, and keeps others out until the end of the `with`. An
    interrupt in there ends the commands that run, and then the program."""
    handle_interrupts(signal.SIG_DFL)
    os.makedirs(os.path.join(TOP, "out"), exist_ok=True)
    with open(os.path.join(TOP, "out", "build.lock"), "w") as lock:
        lock_alone(lock)
        handle_interrupts(CALLS.interrupt)
        CALLS.locks = [lock.fileno()]
        try:
            yield
        finally:
            CALLS.locks = []
