"""A cluster of Ceph in the box: a monitor, a manager, three storage nodes, of which each keeps all, and two metadata servers."""
import json
import os
import re
import subprocess
import time

from lib.waiting import until
from machines.box import DATA
from machines.network import STORAGE

HOME = os.path.join(DATA, "ceph")
NODES, METADATA = (0, 1, 2), ("a", "b")
# After so many seconds the file system gives up a client of which it has heard nothing. It takes no fewer.
TIMEOUT = 30
# A tool's request may take so long, and is asked again if it fails.
PATIENCE = 30
# On a busy machine a cluster is whole after some minutes.
LONGEST = 300
SETTINGS = f"""[global]
fsid = b7a3c1de-0000-4000-8000-000000000001
mon_initial_members = a
mon_host = v1:{STORAGE}:6789
auth_cluster_required = none
auth_service_required = none
auth_client_required = none
auth_allow_insecure_global_id_reclaim = false
ms_bind_msgr2 = false
ms_bind_ipv6 = false
public_addr = {STORAGE}
cluster_addr = {STORAGE}
osd_pool_default_size = 3
osd_pool_default_min_size = 2
osd_pool_default_pg_autoscale_mode = off
osd_crush_chooseleaf_type = 0
osd_memory_target = 939524096
osd_heartbeat_grace = 6
osd_heartbeat_interval = 2
mon_osd_min_down_reporters = 1
mon_osd_adjust_heartbeat_grace = false
bluestore_block_size = 4294967296
mds_beacon_grace = 8
mds_beacon_interval = 2
run_dir = {HOME}/run
admin_socket = {HOME}/run/$name.$pid.asok
log_file = {HOME}/log/$name.log
mon_cluster_log_file = {HOME}/log/cluster.log
mon_data = {HOME}/mon.$id
osd_data = {HOME}/osd.$id
mds_data = {HOME}/mds.$id
mgr_data = {HOME}/mgr.$id
keyring = {HOME}/keyring
"""
ALL = ["mon", "allow *", "osd", "allow *", "mds", "allow *", "mgr", "allow *"]
CAPS = [word for at, name in enumerate(ALL) for word in (["--cap", name] if at % 2 == 0 else [name])]


def tool(*words):
    """What `ceph` prints. On a busy machine it fails now and then, so it is asked again."""
    end = time.monotonic() + 4 * PATIENCE
    while True:
        try:
            ran = subprocess.run(["ceph", *words], capture_output=True, timeout=PATIENCE, check=False)
            if ran.returncode == 0:
                return ran.stdout.decode()
            why = ran.stderr.decode()
        except subprocess.TimeoutExpired:
            why = "it does not answer"
        if time.monotonic() > end:
            raise OSError(f"ceph {' '.join(words)}: {why}")
        time.sleep(1)


def made(*words):
    subprocess.run(words, check=True, capture_output=True)


class Ceph:
    def __init__(self):
        self.running = {}
        for name in ("run", "log", "mon.a", "mgr.a", *(f"osd.{node}" for node in NODES), *(f"mds.{name}" for name in METADATA)):
            os.makedirs(os.path.join(HOME, name))
        os.makedirs("/etc/ceph", exist_ok=True)
        with open("/etc/ceph/ceph.conf", "w", encoding="ascii") as file:
            file.write(SETTINGS)
        self.keys()
        self.begin("mon", "a")
        tool("config", "set", "mon", "auth_allow_insecure_global_id_reclaim", "false")
        self.begin("mgr", "a")
        for node in NODES:
            tool("osd", "create")
            made("ceph-osd", "-i", str(node), "--mkfs")
            self.begin("osd", str(node))
        self.file_system()

    def keys(self):
        ring, names = os.path.join(HOME, "keyring"), ["client.admin", "mgr.a", *(f"mds.{name}" for name in METADATA)]
        made("ceph-authtool", "--create-keyring", ring, "--gen-key", "-n", "mon.", "--cap", "mon", "allow *")
        for name in names:
            made("ceph-authtool", ring, "--gen-key", "-n", name, *CAPS)
        monitors, place = os.path.join(HOME, "monitors"), f"v1:{STORAGE}:6789"
        made("monmaptool", "--create", "--addv", "a", place, "--fsid", re.search("fsid = (.*)", SETTINGS)[1], monitors)
        made("ceph-mon", "--mkfs", "-i", "a", "--monmap", monitors, "--keyring", ring)

    def begin(self, kind, name):
        """Begins a process, and keeps it, so that it can be killed."""
        with open(os.path.join(HOME, "log", f"{kind}.{name}.out"), "ab") as out:
            self.running[kind, name] = subprocess.Popen([f"ceph-{kind}", "-f", "-i", name], stdout=out, stderr=out)

    def kill(self, kind, name):
        child = self.running.pop((kind, name))
        child.kill()
        child.wait()

    def file_system(self):
        for pool in ("metadata", "data"):
            tool("osd", "pool", "create", pool, "8")
        tool("fs", "new", "fs", "metadata", "data")
        for setting in ("session_timeout", "session_autoclose"):
            tool("fs", "set", "fs", setting, str(TIMEOUT))
        for name in METADATA:
            self.begin("mds", name)
        if not until(lambda: self.is_whole() and self.active(), LONGEST):
            raise OSError("the cluster does not become whole")

    def active(self):
        """The metadata server that serves, if there is one."""
        found = json.loads(tool("fs", "status", "--format", "json"))["mdsmap"]
        return next((one["name"] for one in found if one["state"] == "active"), None)

    def is_whole(self):
        """Whether each storage node is there, and has what it is to have. What was refused at its start, as a node is now and
        then on a busy machine, is begun again."""
        for (kind, name), child in list(self.running.items()):
            if child.poll() is not None:
                self.begin(kind, name)
        found = json.loads(tool("status", "--format", "json"))
        states = {one["state_name"] for one in found["pgmap"].get("pgs_by_state", [])}
        return found["osdmap"]["num_up_osds"] == len(NODES) and states == {"active+clean"}
