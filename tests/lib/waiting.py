"""Waits for what is to happen, and no longer."""
import fcntl
import struct
import termios
import time

# What a busy machine may take, in seconds.
PATIENCE = 300
PAUSE = 0.005
# A process that sleeps at this many looks in a row waits for somebody.
LOOKS = 20


def until(happened, patience=PATIENCE):
    """Asks again and again, until it is so or the patience is over; the last answer."""
    end = time.monotonic() + patience
    while not (found := happened()) and time.monotonic() < end:
        time.sleep(PAUSE)
    return found


def until_it_waits(process, patience=PATIENCE):
    """Waits until a process does nothing but wait; whether it does. It reads `/proc`."""
    row = []

    def waits():
        row.append(state_of(process) == "S")
        return len(row) >= LOOKS and all(row[-LOOKS:])

    return until(waits, patience)


def state_of(process):
    """The letter of a process's state: proc_pid_stat(5)."""
    with open(f"/proc/{process}/stat", encoding="utf-8", errors="replace") as file:
        return file.read().rpartition(")")[2].split()[0]


def unread(stream):
    """How many bytes wait at a socket for whoever reads it."""
    return struct.unpack("i", fcntl.ioctl(stream, termios.FIONREAD, bytes(4)))[0]
