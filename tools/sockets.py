"""The console at both ends of a socket: the parts that tools/sessions/ has."""
import os
import tempfile

import asking
import connecting
import cutting
import emulating
import handing
import journaling
import lacking
import leaving
import linking
import many
import refusing
import serving
import serving_files
import streams
import talking
import telling_who
import waiting
import watching
import workspaces
from parts import Clock, part, some_of
from rows import CONSOLE, builds_of


def sockets_part(name, wrong_of, *given):
    """A part that tools/sessions/ has: what is wrong, and how much was tried."""
    clock = Clock()
    wrong, count = wrong_of(*given)
    part(name.format(count), some_of(wrong, count), clock)


def examples_parts(copy):
    """The talks of those examples that are built in the copy, and what a link does where its connection ends, where examples/game is."""
    built = [it for it in workspaces.examples() if os.path.isdir(f"{copy}/crates/{it}/out")]
    sockets_part("examples: {} talks over emulators", talking.wrong_of, copy, builds_of(copy, CONSOLE), built)
    if "example_game" in built:
        sockets_part("a link: {} sessions whose connections end", linking.wrong_of, copy)


def sockets_parts(copy):
    programs = builds_of(copy, CONSOLE)
    sockets_part("serve: {} connections", serving.wrong_of, programs)
    sockets_part("serve, a million messages: {} connections", many.wrong_of, programs)
    sockets_part("connect: {} runs", connecting.wrong_of, programs)
    sockets_part("connect: {} runs before servers that say nothing", waiting.wrong_of, programs)
    sockets_part("watch: {} runs", watching.wrong_of, programs)
    with tempfile.TemporaryDirectory(prefix="kaltewi-cut-") as room:
        sockets_part("serve, streams to the byte: {} connections", streams.wrong_of, programs, room)
        sockets_part("serve, clients that write and go at once: {} connections", leaving.wrong_of, programs, room)
        sockets_part("emulate: {} sessions of many clients at once", emulating.wrong_of, programs, room)
        sockets_part("emulate: {} sessions by plain HTTP", asking.wrong_of, programs, room)
        sockets_part("emulate: {} sessions of the files that it serves", serving_files.wrong_of, programs, room)
        sockets_part("emulate: {} sessions of who is connected", telling_who.wrong_of, programs, room)
        sockets_part("emulate: {} sessions of its file, kills among them", journaling.wrong_of, programs, room)
        sockets_part("serve and connect: {} reads and writes that fail in turn", cutting.wrong_of, programs, room)
        sockets_part("serve and connect: {} sessions of many writes, of which none is lost", handing.wrong_of, programs, room)
        refuser = lacking.refuser(room)[0]
        sockets_part("serve and connect: {} allocations refused in turn", refusing.wrong_of, programs, refuser)
        sockets_part("watch: {} allocations refused in turn", watching.refused_of, programs, refuser)
