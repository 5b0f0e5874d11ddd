"""A box: a root of its own over that of the computer, Ceph in it, and no network but what is made there. None of it stays."""
import os
import subprocess
import sys
import tempfile

from lib.places import ROOT

PACKAGES = ["ceph-mon", "ceph-mgr", "ceph-osd", "ceph-mds", "ceph-fuse", "ceph-common", "iproute2", "ethtool"]
LENGTH = 24 << 30
# What is inside: the folder of all that is written there, and the program.
DATA, PROGRAM = "/data", "/data/forkhost"
INSIDE = "INSIDE_A_BOX"

# $1 is the box, $2 the repository, $3 the program, and what is to be run follows.
MADE = f"""set -e
mount --make-rprivate /
mount -o loop "$1/disk" "$1/mount"
cd "$1/mount"
mkdir upper work data root
mount -t overlay overlay -o lowerdir=/,upperdir=upper,workdir=work root
cp "$3" data/forkhost
cd root
mount -t proc proc proc
mount --rbind /sys sys
mount --rbind /dev dev
mount -t tmpfs tmpfs run
mount -t tmpfs tmpfs mnt
mkdir -p .{DATA} ".$2"
mount --bind ../data .{DATA}
mount --bind "$2" ".$2"
export DEBIAN_FRONTEND=noninteractive
apt="chroot . apt-get -qq -o APT::Sandbox::User=root"
{{ $apt update && $apt install -y --no-install-recommends {" ".join(PACKAGES)}; }} > ../apt.log 2>&1 || {{ tail ../apt.log; exit 1; }}
exec unshare -n chroot . env {INSIDE}=1 "${{@:4}}"
"""


def in_box(program, words):
    """Runs this script again in a new box, unless it is in one, and ends as it ends."""
    if INSIDE in os.environ:
        return
    if os.geteuid() != 0:
        sys.exit("two machines are made by root alone")
    with tempfile.TemporaryDirectory() as box:
        os.mkdir(os.path.join(box, "mount"))
        with open(os.path.join(box, "disk"), "xb") as disk:
            disk.truncate(LENGTH)
        subprocess.run(["mkfs.ext4", "-q", disk.name], check=True)
        made = ["unshare", "-m", "-p", "-f", "--kill-child", "bash", "-c", MADE, "box", box, ROOT, program]
        ran = subprocess.run([*made, sys.executable, "-B", os.path.abspath(sys.argv[0]), PROGRAM, *words], check=False)
    sys.exit(ran.returncode)
