"""Times of runs, and the lines that report them."""
import os
import subprocess
import sys
import time

from lib.git import ENV


def ran(words, source, told, folder=None, begin=subprocess.Popen):
    """The wall time in milliseconds and the peak memory in KiB of a run on this file."""
    with open(source, "rb") as data, open(told, "wb") as out:
        begun = time.perf_counter()
        child = begin(words, stdin=data, stdout=out, cwd=folder, env=ENV)
        return ended(child, begun, words)


def ended(child, begun, words):
    """The same of a process that was begun then."""
    _, status, usage = os.wait4(child.pid, 0)
    took = (time.perf_counter() - begun) * 1000
    child.returncode = os.waitstatus_to_exitcode(status)
    if child.returncode:
        sys.exit(f"{words}: status {child.returncode}")
    return took, usage.ru_maxrss


def least(work, begin=lambda number: None, rounds=3):
    """The least wall time of some runs in milliseconds, each after what makes it ready; both are given its number."""
    times = []
    for number in range(rounds):
        begin(number)
        begun = time.perf_counter()
        work(number)
        times.append((time.perf_counter() - begun) * 1000)
    return min(times)


def line(label, value, unit, beside=None):
    ratio = f"  ratio {value / beside:>7.3f}" if beside else ""
    print(f"    {label:<44} {value:>13,.3f} {unit}{ratio}", flush=True)


def hashed(program, kind, path, status=0):
    """The wall time of `hash-object` of a file in milliseconds; it ends with this status."""
    with open(path, "rb") as data:
        begun = time.perf_counter()
        null = subprocess.DEVNULL
        ended = subprocess.run([program, "hash-object", "--type", kind], stdin=data, stdout=null, stderr=null)
        spent = (time.perf_counter() - begun) * 1000
    if ended.returncode != status:
        sys.exit(f"{kind}: status {ended.returncode}, not {status}")
    return spent
