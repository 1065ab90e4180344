"""What /proc has of a process: memory and processor time."""

import os
import subprocess
import sys
import time

TICKS = os.sysconf("SC_CLK_TCK")


def bytes_of(pid, file, field):
    """Reads a field of kilobytes from a file of the process, or None where the process has ended."""
    with open(f"/proc/{pid}/{file}", encoding="ascii") as lines:
        found = [int(line.split()[1]) * 1024 for line in lines if line.startswith(field + ":")]
    return found[0] if found else None


def resident(process):
    """The process's memory in bytes, counted page by page."""
    return bytes_of(process.pid, "smaps_rollup", "Rss")


def most_resident(process):
    """The greatest memory in bytes that the process had so far, or None where it has ended."""
    return bytes_of(process.pid, "status", "VmHWM")


def is_asleep(process):
    """Whether the process waits for something, and not for a processor."""
    with open(f"/proc/{process.pid}/stat", encoding="ascii") as file:
        return file.read().rsplit(")", 1)[1].split()[0] == "S"


def processor_seconds(process):
    """The seconds that the process used a processor so far, in ticks of the kernel's clock."""
    with open(f"/proc/{process.pid}/stat", encoding="ascii") as file:
        fields = file.read().rsplit(")", 1)[1].split()
    return (int(fields[11]) + int(fields[12])) / TICKS


def processor_milliseconds(process):
    """The milliseconds that the process's first thread used a processor so far, more exactly than in ticks."""
    with open(f"/proc/{process.pid}/schedstat", encoding="ascii") as file:
        return int(file.read().split()[0]) / 1e6


def measured(words, statuses, **more):
    """Runs a command, which has to end with one of these statuses. Returns its seconds and its largest resident memory, which
    is read fifty times a second."""
    start = time.perf_counter()
    memory = 0
    with subprocess.Popen(words, **more) as run:
        while run.returncode is None:
            memory = most_resident(run) or memory
            try:
                run.wait(0.02)
            except subprocess.TimeoutExpired:
                pass
        seconds = time.perf_counter() - start
    if run.returncode not in statuses:
        sys.exit(f"{words} ended with status {run.returncode}")
    return seconds, memory
