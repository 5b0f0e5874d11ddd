"""Git in a folder, with no configuration but its own."""
import os
import subprocess

ENV = {
    "PATH": os.environ["PATH"],
    "LC_ALL": "C",
    "TZ": "UTC",
    "GIT_CONFIG_GLOBAL": os.devnull,
    "GIT_CONFIG_SYSTEM": os.devnull,
    "GIT_CONFIG_NOSYSTEM": "1",
    "GIT_AUTHOR_NAME": "Ada",
    "GIT_AUTHOR_EMAIL": "ada@example.org",
    "GIT_COMMITTER_NAME": "Bo",
    "GIT_COMMITTER_EMAIL": "bo@example.org",
    "GIT_AUTHOR_DATE": "1700000000 -0330",
    "GIT_COMMITTER_DATE": "1700000007 +1245",
}


class Git:
    """A new repository of the SHA-256 format in this folder."""

    def __init__(self, folder):
        self.folder = folder
        os.mkdir(folder)
        self.output("init", "-q", "--object-format=sha256", "--template=", "-b", "main")
        self.output("config", "gc.auto", "0")

    def ran(self, words, data=b""):
        return subprocess.run(["git", *words], cwd=self.folder, env=ENV, input=data, capture_output=True)

    def output(self, *words, data=b""):
        """What a command prints that must end well."""
        ran = self.ran(words, data)
        if ran.returncode:
            raise RuntimeError(f"git {words}: status {ran.returncode}: {ran.stderr.decode(errors='replace')}")
        return ran.stdout

    def lines(self, *words, data=b""):
        return self.output(*words, data=data).decode().splitlines()
