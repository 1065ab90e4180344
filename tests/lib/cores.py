"""Which processors of this machine are cores of their own, and which share one.

Two threads of one core slow each other down, so what is measured depends on where the system's scheduler puts a program
and its clients. A virtual machine may call each thread a core, so what the system says is not trusted: a loop runs on two
processors at once, and is counted."""

import os
import time

# how many seconds a count goes on, and of how many counts the best is taken
SPAN, TRIES = 0.02, 5
# on processors of two cores a loop keeps at least this part of its pace
APART = 0.85


def begun_together(processors):
    """Counts on each of these processors at once how often a loop runs, each in a process of its own."""
    start = time.monotonic() + 0.005
    pipes = []
    for processor in processors:
        near, far = os.pipe()
        if os.fork() == 0:
            try:
                os.sched_setaffinity(0, {processor})
                while time.monotonic() < start:
                    pass
                count = 0
                while time.monotonic() < start + SPAN:
                    count += 1
                os.write(far, b"%d" % count)
            finally:
                os._exit(0)
        os.close(far)
        pipes.append(near)
    counts = []
    for near in pipes:
        with os.fdopen(near, "rb") as pipe:
            counts.append(int(pipe.read() or b"0"))
    for _ in processors:
        os.wait()
    return counts


def pace(first, *others):
    """Returns how often the loop runs on the first of these processors, beside the others."""
    return max(begun_together([first, *others])[0] for _ in range(TRIES))


def siblings(processor):
    """Returns the processors that share a core with this one, as the system says."""
    file = f"/sys/devices/system/cpu/cpu{processor}/topology/thread_siblings_list"
    try:
        with open(file, encoding="ascii") as text:
            parts = [part.split("-") for part in text.read().strip().split(",")]
    except OSError:
        return {processor}
    return {number for part in parts for number in range(int(part[0]), int(part[-1]) + 1)}


def apart_from(processor, others):
    """Returns those of the others that share no core with the processor: neither as the system says, nor as a loop shows
    that runs on both."""
    candidates = [other for other in others if other not in siblings(processor)]
    alone = pace(processor) if candidates else 0
    return [other for other in candidates if pace(processor, other) >= APART * alone]


def two_sides():
    """Returns a processor, and all processors of other cores: for a program, and for its clients. Returns none of both if
    there is one core alone."""
    processor, *others = sorted(os.sched_getaffinity(0))
    clients = apart_from(processor, others)
    return (processor, clients) if clients else (None, [])
