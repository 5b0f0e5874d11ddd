"""All of the box: the networks, the cluster, and two machines."""
from machines.ceph import Ceph
from machines.machine import Host, Machine
from machines.network import MACHINES, Network
from machines.user import GRANT, OK, WHO, User

PACKED = ("--packed", "--sync")


class World:
    def __init__(self, checks, program):
        self.checks, self.count = checks, 0
        self.network, self.ceph = Network(), Ceph()
        self.one, self.two = (Machine(name, program.path) for name in MACHINES)
        self.use(*PACKED)

    def use(self, *words):
        """Each later host is given these words."""
        self.one.more = self.two.more = {"serve": words}

    def begun(self):
        """A new folder, a host over it on the first machine, and a user who pushes to it."""
        self.count += 1
        folder = f"host{self.count}"
        host = Host(self.one, folder, GRANT)
        self.checks.same(f"{folder}: a repository", OK, host.asked(WHO, b"init r\n"))
        user = User(host)
        user.start()
        return folder, host, user

    def stop(self):
        for machine in (self.one, self.two):
            machine.stop()
