"""Programs of Debian's packages, which are installed where they are not there."""
import fcntl
import os
import shutil
import subprocess

from lib.checks import Checks

PATH = os.pathsep.join([os.environ.get("PATH", os.defpath), "/usr/sbin", "/usr/lib/git-core"])

# As root alone: apt's own user may have no right to write files in /tmp.
APT = ["apt-get", "-qq", "-o", "APT::Sandbox::User=root"]


def found(name, package):
    """The path of a program. If its package cannot be installed either, that is a failure, and never skipped."""
    if not shutil.which(name, path=PATH):
        install(name, package)
    path = shutil.which(name, path=PATH)
    if not path:
        raise ValueError(f"{name} is not there, and apt-get did not install {package}")
    return path


def install(name, package):
    """Installs a package, unless another test did so meanwhile: one test at a time."""
    with open(__file__, "rb") as lock:
        fcntl.flock(lock, fcntl.LOCK_EX)
        if shutil.which(name, path=PATH):
            return
        outer = {**os.environ, "DEBIAN_FRONTEND": "noninteractive"}
        for words in (["update"], ["install", "-y", "--no-install-recommends", package]):
            subprocess.run([*APT, *words], env=outer, stdin=subprocess.DEVNULL, stdout=subprocess.DEVNULL, timeout=300)


def lacking(name, package):
    """Why a program is not there, before several subjects want it at once."""
    try:
        return found(name, package) and None
    except ValueError as fault:
        return str(fault)


def show_over(world, subjects):
    """Shows the subjects over this front end, three at once, where its programs are there."""
    checks = Checks()
    for name, package in world.PROGRAMS.items():
        checks.holds(f"{name} is there", lacking(name, package))
    if checks.failed:
        checks.end()
    checks.show_at_once(subjects, 3, world)
