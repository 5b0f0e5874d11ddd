"""A user of a machine, who pushes one blob after another, each when the one before is acknowledged, until nobody answers."""
import socket
import threading
import time

from lib.frames import frame, replies
from lib.live import to_end
from lib.objects import name_of, record

WHO = b"alice"
GRANT = "alice=10000000000"
OK = b"ok\n"
# A user gives up who waits longer.
PATIENCE = 120


def blob(number):
    return b"%0200d" % number


def name(number):
    return name_of(b"blob", blob(number))


def push(number):
    return frame(WHO, b"push r\n\n" + record(b"blob", blob(number)))


class User(threading.Thread):
    def __init__(self, host, first=0):
        super().__init__(daemon=True)
        self.path, self.first, self.goes_on = host.path, first, True
        # When each push was answered, how long it took, and another reply than `ok`, which is the last one.
        self.acknowledged, self.took, self.other = [], [], None

    def stop(self):
        """Pushes no more."""
        self.goes_on = False
        self.join()

    def run(self):
        try:
            with socket.socket(socket.AF_UNIX) as stream:
                stream.settimeout(PATIENCE)
                stream.connect(self.path)
                self.ask(stream, stream.makefile("rb"))
        except OSError:
            pass

    def ask(self, stream, answers):
        while self.goes_on:
            begun = time.monotonic()
            stream.sendall(push(self.first + len(self.acknowledged)))
            line = answers.readline()
            reply = answers.read(int(line)) if line[:-1].isdigit() else line
            if reply != OK:
                self.other = reply
                return
            self.acknowledged.append(time.monotonic())
            self.took.append(time.monotonic() - begun)

    def begun_after(self, moment):
        """How many of the pushes that were acknowledged were begun after this moment."""
        return sum(at - took > moment for at, took in zip(self.acknowledged, self.took))

    def names(self):
        """Of what was acknowledged."""
        return [name(self.first + number) for number in range(len(self.acknowledged))]


def missing(host, names):
    """Those of these that a host does not show."""
    with host.client() as stream:
        asking = threading.Thread(target=send, args=(stream, names))
        asking.start()
        told = replies(to_end(stream))[0]
        asking.join()
    return [name for name, reply in zip(names, told) if not reply.startswith(OK)] + names[len(told) :]


def send(stream, names):
    for name in names:
        stream.sendall(frame(WHO, b"cat-file %s\n" % name))
    stream.shutdown(socket.SHUT_WR)
