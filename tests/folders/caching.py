"""What is kept of reads: the objects that were read last, for all who see them and for nobody else."""
import os
import re
import shutil
import subprocess

from lib.checks import Checks
from lib.folder import Folder
from lib.frames import frames, framed
from lib.live import Live
from lib.objects import name_of, record
from lib.program import done

ALICE, BOB, CAROL, HOST = b"alice", b"bob", b"carol", b"@host"
TENANTS = ["alice=10000000", "bob=10000000", "carol=10000000"]
KEPT = 256
LONGEST = 65536


def ask_of(name):
    return b"cat-file %s\n" % name


def told_of(content):
    return b"ok\n" + record(b"blob", content)


def tag_of(name):
    return b"refs/tags/%s" % name[:16]


def push_of(contents):
    """A push of blobs, with a tag at the first of them."""
    first = name_of(b"blob", contents[0])
    return b"push r\ncreate %s %s\n\n" % (tag_of(first), first) + b"".join(record(b"blob", content) for content in contents)


def begun(checks, program, *words):
    live = Live(program, *words, *TENANTS)
    for who in (ALICE, BOB, CAROL):
        checks.same("init", b"ok\n", live.asked(who, b"init r\n"))
    return live


def commit_of(tree, seconds, *parents):
    lines = [b"tree %s" % tree, *(b"parent %s" % parent for parent in parents)]
    idents = [b"%s A <a@b> %d +0000" % (word, seconds) for word in (b"author", b"committer")]
    return b"\n".join([*lines, *idents]) + b"\n"


def show_kept_objects(checks: Checks, program, work):
    """What was read is shown again although its file is altered, if it is not too long; and to those alone who see it."""
    folder = Folder(os.path.join(work, "kept"))
    live = begun(checks, program, "--dir", folder.path)
    short, long = b"s" * LONGEST, b"l" * (LONGEST + 1)
    for who in (ALICE, BOB):
        checks.same("a push", b"ok\n", live.asked(who, push_of([short, long])))
    for content in (short, long):
        checks.same("a first read", told_of(content), live.asked(ALICE, ask_of(name_of(b"blob", content))))
        folder.flip(name_of(b"blob", content))
    for who in (ALICE, BOB):
        checks.same("one that is kept", told_of(short), live.asked(who, ask_of(name_of(b"blob", short))))
        checks.same("one that is too long", b"host damaged\n", live.asked(who, ask_of(name_of(b"blob", long))))
    for content in (short, long):
        name = name_of(b"blob", content)
        checks.same("who sees none is told so", b"no missing %s\n" % name, live.asked(CAROL, ask_of(name)))
        folder.flip(name)
        checks.same("what is as it was", told_of(content), live.asked(BOB, ask_of(name)))
    checks.same("its end", done(), live.ended())


def show_oldest_goes(checks: Checks, program, work):
    """The object that was read longest ago goes when there is no more room."""
    folder = Folder(os.path.join(work, "oldest"))
    live = begun(checks, program, "--dir", folder.path)
    contents = [b"%d" % number for number in range(KEPT + 1)]
    checks.same("a push", b"ok\n", live.asked(ALICE, push_of(contents)))
    first = name_of(b"blob", contents[0])
    checks.same("the first", told_of(contents[0]), live.asked(ALICE, ask_of(first)))
    folder.flip(first)
    for content in contents[1:KEPT]:
        checks.same("another", told_of(content), live.asked(ALICE, ask_of(name_of(b"blob", content))))
    checks.same("it is kept", told_of(contents[0]), live.asked(ALICE, ask_of(first)))
    for content in contents[1:]:
        checks.same("another", told_of(content), live.asked(ALICE, ask_of(name_of(b"blob", content))))
    checks.same("it is gone", b"host damaged\n", live.asked(ALICE, ask_of(first)))
    folder.flip(first)
    checks.same("its end", done(), live.ended())


def show_read_twice(checks: Checks, program, work):
    """One object more than are kept, read twice over, in memory and in a folder."""
    contents = [b"twice %d" % number for number in range(KEPT + 1)]
    asks = [(ALICE, ask_of(name_of(b"blob", content))) for content in contents] * 2
    given = frames([(ALICE, b"init r\n"), (ALICE, push_of(contents)), *asks])
    wanted = framed(b"ok\n") * 2 + b"".join(framed(told_of(content)) for content in contents) * 2
    for words in ([], ["--dir", os.path.join(work, "twice")]):
        checks.same("read twice over", done(wanted), program.ran("run", *words, *TENANTS, given=given))


def show_swept_and_sent_again(checks: Checks, program, work):
    """An object that was pushed, read, held no more, swept, and pushed again is read right, and not between."""
    folder = Folder(os.path.join(work, "again"))
    live = begun(checks, program, "--dir", folder.path)
    content = b"again and again"
    name = name_of(b"blob", content)
    gone = b"update-refs r\ndelete %s %s\n" % (tag_of(name), name)
    for _ in range(3):
        checks.same("a push", b"ok\n", live.asked(ALICE, push_of([content])))
        checks.same("a read", told_of(content), live.asked(ALICE, ask_of(name)))
        checks.same("its tag goes", b"ok\n", live.asked(ALICE, gone))
        checks.same("a prune", b"ok\n", live.asked(ALICE, b"prune\n"))
        checks.same("it is not seen", b"no missing %s\n" % name, live.asked(ALICE, ask_of(name)))
        checks.same("it is swept", b"ok\n1\n", live.asked(HOST, b"collect\n"))
        checks.same("nothing is left", b"ok\n0\n", live.asked(HOST, b"census\n"))
        checks.same("nor is it seen then", b"no missing %s\n" % name, live.asked(ALICE, ask_of(name)))
        checks.same("its file is gone", {}, folder.live())
    checks.same("its end", done(), live.ended())


def asks_links(checks: Checks, live, commits):
    """What goes along links and parents is answered: bases, a history, and what stays of a prune."""
    root, left, right, top = commits
    for first, second, base in ((left, right, root), (left, top, left), (top, top, top), (root, right, root)):
        checks.same("a base", b"ok\n%s\n" % base, live.asked(ALICE, b"merge-base r %s %s\n" % (first, second)))
    checks.same("a history", b"ok\n%s\n" % top, live.asked(ALICE, b"rev-list r %s ^%s ^%s\n" % (top, left, right)))
    checks.same("a prune", b"ok\n", live.asked(ALICE, b"prune\n"))


def made_history():
    """A blob, the tree that has it, and four commits of this tree: a root, two after it, and one that merges these."""
    blob = b"linked"
    tree = b"100644 file\0" + bytes.fromhex(name_of(b"blob", blob).decode())
    root = commit_of(name_of(b"tree", tree), 1)
    left = commit_of(name_of(b"tree", tree), 2, name_of(b"commit", root))
    right = commit_of(name_of(b"tree", tree), 3, name_of(b"commit", root))
    return blob, tree, [root, left, right, commit_of(name_of(b"tree", tree), 4, name_of(b"commit", left), name_of(b"commit", right))]


def sent_history(blob, tree, commits):
    """A push of them, each before what it leads to."""
    records = [*(record(b"commit", commit) for commit in reversed(commits)), record(b"tree", tree), record(b"blob", blob)]
    return b"push r\ncreate refs/heads/main %s\n\n" % name_of(b"commit", commits[-1]) + b"".join(records)


def show_push_opens_nothing(checks: Checks, program, work):
    """By strace: a push in one body opens no file of an object to read it. It opens each once to write it, and a segment once for all."""
    if not shutil.which("strace"):
        raise OSError("there is no strace, by which calls are seen")
    folder, log = Folder(os.path.join(work, "opened")), os.path.join(work, "calls")
    given = frames([(ALICE, b"init r\n"), (ALICE, sent_history(*made_history()))])
    words = program.given("run", "--dir", folder.path, *TENANTS)
    traced = ["strace", "-f", "-qq", "-o", log, "-e", "trace=openat,write", *words]
    ran = subprocess.run(traced, input=given, capture_output=True, check=False)
    checks.same("a push", (0, framed(b"ok\n") * 2), (ran.returncode, ran.stdout))
    with open(log, encoding="utf-8", errors="replace") as file:
        lines = file.read().splitlines()
    told = max(at for at, line in enumerate(lines) if "write(1," in line)
    ours, others = "/(objects/[0-9a-f]{2}/|segments/[0-9])", "O_DIRECTORY| = -1 "
    opened = [line for line in lines[:told] if re.search(ours, line) and not re.search(others, line)]
    count = 1 if os.path.isdir(folder.inside("segments")) else len(folder.files())
    checks.same("each file is made", count, sum("O_CREAT" in line for line in opened))
    checks.same("and none is opened", [], [line for line in opened if "O_CREAT" not in line])


def show_links_are_known(checks: Checks, program, work):
    """After a push, and after a start, links are followed although each tree and each commit is altered."""
    folder = Folder(os.path.join(work, "links"))
    blob, tree, commits = made_history()
    names = [name_of(b"commit", commit) for commit in commits]
    sent = sent_history(blob, tree, commits)
    unread = [name_of(b"tree", tree), *names]
    live = begun(checks, program, "--dir", folder.path)
    checks.same("a push", b"ok\n", live.asked(ALICE, sent))
    for words in (None, ["--dir", folder.path]):
        if words:
            live = Live(program, *words)
            checks.same("it is started", b"ok\nr\n", live.asked(ALICE, b"repos\n"))
        for name in unread:
            folder.flip(name)
        asks_links(checks, live, names)
        for name in unread:
            folder.flip(name)
        checks.same("its end", done(), live.ended())
