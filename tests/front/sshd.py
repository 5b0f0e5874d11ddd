"""A real `sshd` with keys, a port and a configuration of its own; each key has its tenant by a forced command."""
import os
import subprocess

from front.front import FrontWorld
from front.packages import found
from lib.waiting import until

# By SHLVL bash takes itself for one within another, and does not read `.bashrc`, which may say anything on standard error.
SERVER = """ListenAddress 127.0.0.1
Port {port}
HostKey {folder}/host_key
PidFile none
AuthorizedKeysFile {folder}/authorized_keys {folder}/page/var/lib/forkhost/.ssh/authorized_keys
StrictModes no
UsePAM no
PasswordAuthentication no
KbdInteractiveAuthentication no
PermitRootLogin prohibit-password
AcceptEnv GIT_PROTOCOL
SetEnv SHLVL=1
MaxStartups 100
MaxSessions 100
LogLevel ERROR
"""
CLIENT = """Host {host}
HostName 127.0.0.1
HostKeyAlias forkhost
Port {port}
IdentityFile {folder}/key_{key}
IdentitiesOnly yes
UserKnownHostsFile {folder}/known_hosts
StrictHostKeyChecking yes
BatchMode yes
LogLevel ERROR
ControlPath {folder}/shared_{key}
ControlMaster no
SendEnv GIT_PROTOCOL
"""
# Where sshd, run by root, keeps nothing.
EMPTY = "/run/sshd"


class SshWorld(FrontWorld):
    """The commands of a test share one connection for each key, which spares them the beginning of their own."""

    PROGRAMS = {"sshd": "openssh-server", "ssh": "openssh-client", "ssh-keygen": "openssh-client"}
    PROGRAMS |= {"flock": "util-linux"}
    # How often a push is a request of the front end's.
    ASKED = 1

    def wait(self):
        super().wait()
        words = ["ssh", "-F", self.path("ssh_config"), "-N", "-o", "ControlMaster=yes"]
        begun = lambda tenant: subprocess.Popen([*words, tenant], stdin=subprocess.DEVNULL)
        self.shared = [begun(tenant) for tenant in self.names]
        paths = [self.path(f"shared_{tenant}") for tenant in self.names]
        if not until(lambda: all(map(os.path.exists, paths))):
            raise ValueError("ssh does not connect")

    def __exit__(self, *_):
        for child in self.shared:
            child.terminate()
            child.wait()
        super().__exit__()

    def apart(self):
        """From now on each command has a connection of its own."""
        self.environment["GIT_SSH_COMMAND"] += " -o ControlPath=none"

    def command(self):
        """The server's command, once its files are there."""
        server = found("sshd", "openssh-server")
        if os.getuid() == 0:
            os.makedirs(EMPTY, mode=0o755, exist_ok=True)
        for name in ["host_key", *(f"key_{tenant}" for tenant in self.names)]:
            self.make_key(name)
        self.write("authorized_keys", "".join(self.line(tenant) for tenant in self.names))
        self.write("known_hosts", f"forkhost {self.key('host_key')}\n")
        self.write("sshd_config", SERVER.format(port=self.port, folder=self.folder))
        self.write("ssh_config", "")
        for tenant in self.names:
            self.add_client(tenant, tenant)
        self.environment |= {"GIT_SSH_COMMAND": f"ssh -F {self.path('ssh_config')}"}
        return [server, "-D", "-e", "-f", self.path("sshd_config")]

    def add_client(self, host, key):
        """A name by which a client reaches the server with a key."""
        with open(self.path("ssh_config"), "a", encoding="utf-8") as file:
            file.write(CLIENT.format(host=host, key=key, port=self.port, folder=self.folder))

    def make_key(self, name):
        maker = found("ssh-keygen", "openssh-client")
        subprocess.run([maker, "-q", "-t", "ed25519", "-N", "", "-C", name, "-f", self.path(name)], check=True)

    def add_plain(self):
        """A key that may run any command, for what Git does without a front end."""
        self.make_key("key_plain")
        with open(self.path("authorized_keys"), "a", encoding="utf-8") as file:
            file.write(self.key("key_plain") + "\n")
        self.add_client("plain", "plain")

    def key(self, name):
        with open(self.path(f"{name}.pub"), encoding="utf-8") as file:
            return file.read().strip()

    def line(self, tenant):
        """The line of `authorized_keys` for the key of a tenant."""
        command = f"{self.shell()} --settings {self.path('front')} {tenant}"
        return f'command="{command}",restrict {self.key(f"key_{tenant}")}\n'

    def url(self, repository, tenant="alice"):
        return f"ssh://{tenant}/{repository}.git"

    def by_hand(self, tenant, *words):
        """What a user asks for without Git."""
        return self.ran("ssh", "-F", self.path("ssh_config"), "-T", tenant, *words)
