"""A process under strace, and the calls of its log that change files or send bytes."""
import os
import re
import subprocess
from typing import NamedTuple

from lib.program import Program
from lib.waiting import until

# Everything that changes a file, a name or a descriptor. What `past.py` does not know is an error there.
FILES = "open,openat,creat,close,lseek,write,writev,pwrite64,pwritev,pwritev2,ftruncate,truncate,fallocate,copy_file_range,sendfile"
NAMES = "rename,renameat,renameat2,link,linkat,symlink,symlinkat,unlink,unlinkat,rmdir,mkdir,mkdirat,mknod,mknodat"
SYNCS = "fsync,fdatasync,sync,syncfs,sync_file_range,msync"
OTHERS = "dup,dup2,dup3,accept,accept4,sendto,sendmsg,splice,io_uring_setup"
LONGEST = 1 << 24
STRACE = ["strace", "-D", "-f", "-xx", "-s", str(LONGEST), "-e", f"trace={FILES},{NAMES},{SYNCS},{OTHERS}"]
# What is not traced goes on undelayed. With it strace would kill at no call.
FAST = "--seccomp-bpf"
# No file grows longer, in KiB: a host then makes no reserve, whose zeros the log would have. A shell lets the signal for it
# be ignored.
MOST = 32768
LIMITED = ["bash", "-c", f'trap "" XFSZ; ulimit -f {MOST}; exec "$@"', "limited"]
LINE = re.compile(r"\d+ +(\w+)\((.*?)(?:\) += (\S+).*| <unfinished \.\.\.>)", re.DOTALL)
RESUMED = re.compile(r"\d+ +<\.\.\. (\w+) resumed>.*\) += (\S+)")
TEXT = re.compile(r'"((?:\\x[0-9a-f]{2})*)"(\.\.\.)?')
ENDED = re.compile(rb"\+\+\+ (?:exited with|killed by) [^\n]*\+\+\+\n\Z")


class Call(NamedTuple):
    name: str
    # The arguments but for texts, and the texts among them.
    words: list
    texts: list
    # What it returned; None if the process was killed before.
    result: int


def call_of(name, given, result):
    texts = []

    def taken(found):
        if found[2]:
            raise ValueError("strace cut a text")
        texts.append(bytes.fromhex(found[1].replace("\\x", "")))
        return "_"

    words = [word.strip() for word in TEXT.sub(taken, given).split(",")]
    return Call(name, words, texts, result)


def number_of(result):
    return None if result in (None, "?") else int(result, 0)


def calls_in(path):
    """The calls of a log of strace that did not fail, in order. One that waited while others went on stands where it ended."""
    waiting = {}
    with open(path, encoding="ascii", errors="replace") as file:
        for line in file:
            found, again = LINE.match(line), RESUMED.match(line)
            if found and found[3] is None:
                waiting[found[1]] = found[2]
                continue
            if again:
                name, given, result = again[1], waiting.pop(again[1]), number_of(again[2])
            elif found:
                name, given, result = found[1], found[2], number_of(found[3])
            else:
                continue
            if result is None or result >= 0:
                yield call_of(name, given, result)
    yield from (call_of(name, given, None) for name, given in waiting.items())


class Traced(Program):
    """The program under strace. `kill` kills it, and not strace; the log goes on until its end."""

    def __init__(self, program, work):
        super().__init__(program.path, program.more)
        self.work, self.count = work, 0

    def log(self):
        return os.path.join(self.work, f"calls{self.count}")

    def begun(self, *words, stdin=subprocess.PIPE, stdout=subprocess.PIPE, renames=None):
        """Starts it. It may be killed when it renames a file for the time of this number, before that is done."""
        self.count += 1
        way = ["-e", f"inject=rename:signal=KILL:when={renames}"] if renames else [FAST]
        given = [*STRACE, *way, "-o", self.log(), *LIMITED, *self.given(*words)]
        child = subprocess.Popen(given, stdin=stdin, stdout=stdout, stderr=subprocess.PIPE)
        self.running.append(child)
        until(lambda: os.path.exists(self.log()) or child.poll() is not None)
        return child

    def calls(self):
        """The calls of the process that ended last."""
        until(self.is_logged)
        found = list(calls_in(self.log()))
        os.remove(self.log())
        return found

    def is_logged(self):
        with open(self.log(), "rb") as file:
            file.seek(max(0, os.path.getsize(self.log()) - 100))
            return ENDED.search(file.read()) is not None
