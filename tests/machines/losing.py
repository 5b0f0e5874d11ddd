"""What is lost: a process, a machine, its wire, a storage node, and a metadata server, while a user pushes."""
import threading
import time

from lib.program import sound
from lib.waiting import until
from machines.ceph import LONGEST
from machines.machine import Host
from machines.user import GRANT, OK, WHO, User, missing

# For so many seconds a user pushes before something is lost, and for so many after it.
BEFORE, AFTER = 4, 5
STARTS = 6
DELAYS = (1, 5, 100)


def taken_over(world, label, folder, user, lost):
    """The second machine takes over; all that was acknowledged is there. Its host."""
    host = world.two.took_over(folder)
    took = time.monotonic() - lost
    user.join()
    world.checks.same(f"{label}: something was acknowledged", True, len(user.acknowledged) > 0)
    world.checks.same(f"{label}: what is lost of it", [], missing(host, user.names())[:3])
    print(f"{label}: {len(user.acknowledged)} acknowledged, all there after {took:.1f} s", flush=True)
    return host


def ended(world, label, folder, host):
    """The host on the second machine is killed, and what it leaves is sound."""
    host.child.kill()
    host.child.communicate()
    told = world.two.checked(world.two.folder(folder))
    world.checks.same(f"{label}: check", sound().output, told.output)


def show_killed_process(world, label="a process is killed"):
    folder, host, user = world.begun()
    time.sleep(BEFORE)
    lost = time.monotonic()
    host.child.kill()
    host.child.communicate()
    ended(world, label, folder, taken_over(world, label, folder, user, lost))


def show_lost_machine(world, label="a machine is lost"):
    folder, host, user = world.begun()
    time.sleep(BEFORE)
    lost = time.monotonic()
    world.one.lose(host)
    ended(world, label, folder, taken_over(world, label, folder, user, lost))
    world.one.boot()


def show_cut_off(world, label="a machine is cut off"):
    """Users still reach the host on the machine that is cut off. Once the other one serves, it acknowledges nothing that comes;
    what came before, and was synced, it may acknowledge late, and that is there."""
    folder, old, user = world.begun()
    time.sleep(BEFORE)
    world.network.cut(world.one.name)
    lost = time.monotonic()
    later = User(old, 1_000_000)
    later.start()
    new = world.two.took_over(folder)
    serves = time.monotonic()
    there = User(new, 2_000_000)
    there.start()
    time.sleep(AFTER)
    world.network.heal(world.one.name)
    for one in (user, later):
        one.join()
        world.checks.same(f"{label}: acknowledged by both", 0, one.begun_after(serves))
        world.checks.same(f"{label}: another reply, {one.other}", True, one.other in (None, b"", b"host store\n"))
    world.checks.same(f"{label}: a change at the old host", b"", asked(old, b"init late\n"))
    told = old.ended()
    world.checks.same(f"{label}: its host ends", (1, b"forkhost: journal not written\n"), (told.status, told.fault))
    world.checks.same(f"{label}: the other one serves", (True, None), (bool(there.acknowledged), new.child.poll()))
    names = user.names() + later.names() + there.names()
    world.checks.same(f"{label}: what is lost", [], missing(new, names)[:3])
    print(f"{label}: {len(names)} acknowledged, the other serves after {serves - lost:.1f} s", flush=True)
    world.one.boot()
    refused = Host(world.one, folder).ended()
    world.checks.same(f"{label}: mounted anew, a start is refused", (1, b"forkhost: store\n"), (refused.status, refused.fault))
    ended(world, label, folder, new)
    there.join()


def asked(host, request):
    """The reply to a request that needs no object, or nothing if none comes."""
    try:
        return host.asked(WHO, request)
    except OSError:
        return b""


def show_old_reads(world):
    """A host that is cut off answers nothing, also if nobody changes anything: it waits for its folder before it answers."""
    label = "cut off, and only read"
    folder, old, user = world.begun()
    user.stop()
    world.network.cut(world.one.name)
    time.sleep(AFTER)
    told = []
    reads = threading.Thread(target=lambda: told.append(asked(old, b"repos\n")), daemon=True)
    reads.start()
    new = world.two.took_over(folder)
    world.checks.same(f"{label}: a change at the new host", OK, new.asked(WHO, b"init there\n"))
    world.checks.same(f"{label}: the new host shows it", OK + b"r\nthere\n", new.asked(WHO, b"repos\n"))
    world.checks.same(f"{label}: the old one answers nothing", [], told)
    world.network.heal(world.one.name)
    reads.join()
    world.checks.same(f"{label}: nor does it later", [b""], told)
    ends = old.ended()
    world.checks.same(f"{label}: its host ends", (1, b"forkhost: journal not written\n"), (ends.status, ends.fault))
    world.one.boot()
    ended(world, label, folder, new)


def show_killed_server(world, label, kind, name):
    """A server of the file system is killed under writes, and begun again later: nothing fails."""
    folder, host, user = world.begun()
    time.sleep(BEFORE)
    world.ceph.kill(kind, name)
    killed = time.monotonic()
    goes_on = until(lambda: user.acknowledged and user.acknowledged[-1] > killed + AFTER)
    world.checks.same(f"{label}: it goes on", True, bool(goes_on))
    lost = time.monotonic()
    host.child.kill()
    told = host.ended()
    world.checks.same(f"{label}: nothing is reported", b"", told.fault)
    ended(world, label, folder, taken_over(world, label, folder, user, lost))
    print(f"{label}: the longest push took {max(user.took):.1f} s", flush=True)
    world.ceph.begin(kind, name)
    world.checks.same(f"{label}: the cluster is whole again", True, until(world.ceph.is_whole, LONGEST))


def show_killed_node(world):
    show_killed_server(world, "a storage node is killed", "osd", "2")


def show_killed_metadata(world):
    show_killed_server(world, "the metadata server is killed", "mds", world.ceph.active())


def show_two_starts(world):
    """Two hosts are started at once over one folder: one serves, and the other is refused."""
    for number in range(STARTS):
        folder, faults = f"both{number}", []
        children = [machine.begun(*start(machine, folder)) for machine in (world.one, world.two)]
        until(lambda: any(child.poll() is not None for child in children))
        time.sleep(1)
        ends = [child.poll() for child in children]
        world.checks.same(f"start {number}: one serves, and one is refused", [1, None], sorted(ends, key=str))
        for child in children:
            child.kill()
            faults.append(child.communicate()[1].split(b"\n")[0])
        world.checks.same(f"start {number}: why", [b"", b"forkhost: store"], sorted(faults))


def start(machine, folder):
    return ["serve", "--socket", f"/data/start.{machine.name}", "--connections", "9", "--dir", machine.folder(folder), GRANT]


def show_delays(world):
    for milliseconds in DELAYS:
        world.network.hold(milliseconds)
        label = f"{milliseconds} ms"
        show_killed_process(world, f"{label}, a process is killed")
        show_lost_machine(world, f"{label}, a machine is lost")
        show_cut_off(world, f"{label}, a machine is cut off")
    world.network.hold(0)


def show_other_ways(world):
    """What a lost machine loses with a file for each object, and without `--sync`: with it nothing, without it the last ones."""
    for words in (("--sync",), (), ("--packed",)):
        world.use(*words)
        label = f"a lost machine, {' '.join(words) or 'no flag'}"
        folder, host, user = world.begun()
        time.sleep(BEFORE)
        world.one.lose(host)
        new = world.two.took_over(folder)
        user.join()
        names = user.names()
        lost = missing(new, names)
        world.checks.same(f"{label}: what is lost are the last ones", names[len(names) - len(lost) :], lost)
        world.checks.same(f"{label}: nothing is lost if it is synced", True, not lost or "--sync" not in words)
        world.checks.same(f"{label}: it serves on", OK, new.asked(WHO, b"init later\n"))
        print(f"{label}: of {len(names)} acknowledged {len(lost)} are lost", flush=True)
        ended(world, label, folder, new)
        world.one.boot()
    world.use("--packed", "--sync")
