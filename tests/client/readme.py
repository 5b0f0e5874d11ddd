"""The lines of the README for plain Git, run as they stand, and what they print."""
import os

from lib.making import commit
from lib.pages import block, commands, printed
from lib.world import World

PLACE = "/tmp/forkhost"
# What a newcomer made before; its name is in the README too.
TIP = "3ba674259065310fa6131d910fcc4f5fe06268585feed90fe8410afe212e325b"


def show_readme(checks, program, folder):
    world = World(checks, program, folder)
    world.host.ends_well(checks, "it is not needed")
    tools, place = world.path("tools"), world.path("place")
    os.mkdir(tools)
    os.symlink(program.path, os.path.join(tools, "forkhost"))
    # A reader waits a second; here it is as long as the host takes.
    with open(os.path.join(tools, "sleep"), "x", encoding="utf-8") as file:
        file.write(f"#!/bin/sh\nuntil test -S {place}; do /bin/sleep 0.01; done\n")
    os.chmod(os.path.join(tools, "sleep"), 0o700)
    world.repository("demo")
    tip = commit(world, "demo", "first", files={"greeting": "hello\n"})
    world.output("demo", "tag", "-a", "-m", "the first one", "v1", "main")
    text = block("README.md", "With plain Git", "forkhost serve")
    checks.same("five lines", 5, commands(text).count("\n"))
    script = f"exec 2>&1\n{commands(text)}kill $!\n".replace(PLACE, place)
    path = os.pathsep.join([tools, world.environment["PATH"]])
    ran = world.ran("bash", at="demo", given=script.encode(), more={"PATH": path})
    wanted = printed(text).replace(PLACE, place).replace(TIP, tip)
    checks.same("what they print", wanted, ran.output.decode())
    world.sound("the clone", "copy")
    checks.same("it is the source's", world.reached("demo"), world.reached("copy"))
