"""Networks of the box: one for the storage, one for each machine, and a switch between them that holds what it passes on."""
import os
import subprocess

from machines.box import DATA

STORAGE = "10.99.0.1"
SWITCH = "switch"
MACHINES = ("one", "two")


def ip(*words):
    subprocess.run(["ip", *words], check=True)


def inside(network, *words):
    """Words that run in a network. The process is the same as without them."""
    return ["nsenter", f"--net=/run/netns/{network}", *words]


def linked(network, interface, other, address):
    """A wire from a network, or from the box's own, to the switch, of plain frames that are no longer than they may be."""
    ip("link", "add", interface, "type", "veth", "peer", "name", other, "netns", SWITCH)
    if network:
        ip("link", "set", interface, "netns", network)
    of = ["-n", network] if network else []
    ip(*of, "addr", "add", f"{address}/24", "dev", interface)
    ip(*of, "link", "set", interface, "up")
    ip("-n", SWITCH, "link", "set", other, "up")
    plain = ["tso", "off", "gso", "off", "gro", "off", "tx", "off", "sg", "off"]
    for place, name in ((network, interface), (SWITCH, other)):
        subprocess.run([*(inside(place) if place else []), "ethtool", "-K", name, *plain], check=True, capture_output=True)


class Network:
    def __init__(self):
        self.wire = None
        ip("link", "set", "lo", "up")
        os.makedirs("/run/netns", exist_ok=True)
        for name in (SWITCH, *MACHINES):
            ip("netns", "add", name)
            ip("-n", name, "link", "set", "lo", "up")
        linked(None, "storage", "to-storage", STORAGE)
        for number, name in enumerate(MACHINES):
            linked(name, name, f"to-{name}", f"10.99.0.{11 + number}")
        self.program = os.path.join(DATA, "wire")
        source = os.path.join(os.path.dirname(os.path.abspath(__file__)), "wire.c")
        subprocess.run(["cc", "-O1", "-o", self.program, source], check=True)
        self.hold(0)

    def hold(self, milliseconds):
        """Lets each round trip take so much more time."""
        if self.wire:
            self.wire.kill()
            self.wire.wait()
        ends = ["to-storage", *(f"to-{name}" for name in MACHINES)]
        self.wire = subprocess.Popen(inside(SWITCH, self.program, str(int(milliseconds * 500)), *ends))

    def cut(self, machine):
        """Cuts a machine off from the storage and from the other machine."""
        ip("-n", SWITCH, "link", "set", f"to-{machine}", "down")

    def heal(self, machine):
        ip("-n", SWITCH, "link", "set", f"to-{machine}", "up")
