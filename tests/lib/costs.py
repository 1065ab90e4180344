"""What a command costs from its start to its end, as the kernel counts it."""

import os
import subprocess
import time


def cost_of(words, out=subprocess.DEVNULL, err=subprocess.DEVNULL):
    """Runs a command: its status, the seconds that it took, those of a processor, and its largest resident memory in bytes,
    which is at least what this process ever had."""
    start = time.perf_counter()
    process = subprocess.Popen(words, stdin=subprocess.DEVNULL, stdout=out, stderr=err)
    _, status, used = os.wait4(process.pid, 0)
    process.returncode = os.waitstatus_to_exitcode(status)
    return process.returncode, time.perf_counter() - start, used.ru_utime + used.ru_stime, used.ru_maxrss * 1024
