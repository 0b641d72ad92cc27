"""A console whose streams fail: each read and each write of three scripts, a full device, an input that has no end."""
import os
import resource
import socket
import subprocess
import tempfile
import threading

from parts import Clock, part, some_of
from rows import builds_of, rows
from runs import differs

READ_FAULT = b"kaltewi: the input can't be read: Connection reset by peer (os error 104)\n"
TOO_LARGE = b"kaltewi: the input has more than 67108864 bytes\n"
WRITE_FAULT = b"kaltewi: the output can't be written: File too large (os error 27)\n"
FULL_DEVICE = b"kaltewi: the output can't be written: No space left on device (os error 28)\n"
SCRIPTS = ("tests/scripts/root_listen", "tests/rows/bad_lines", "tests/rows/each_line")
SECONDS = 60  # the longest that a run may take


def with_input(program, parts, is_broken):
    """Runs the console over an input that is read in these parts; where it is broken, the read behind them fails."""
    ours, theirs = socket.socketpair(socket.AF_UNIX, socket.SOCK_STREAM if is_broken else socket.SOCK_SEQPACKET)
    if is_broken:
        theirs.send(b"unread")  # a socket that closes with bytes that nobody read is reset

    def feed():
        try:
            for it in parts:
                ours.sendall(it)
        except OSError:
            pass  # the program ended first
        ours.close()

    feeder = threading.Thread(target=feed)
    if is_broken:
        feeder.start()
        feeder.join()
    ran = subprocess.Popen([program, "script"], stdin=theirs, stdout=subprocess.PIPE, stderr=subprocess.PIPE)
    theirs.close()
    if not is_broken:
        feeder.start()
    out, err = ran.communicate(timeout=SECONDS)
    feeder.join()
    return ran.returncode, out, err


def with_room(program, script, room):
    """Runs the console with an output that takes so many bytes."""
    with tempfile.TemporaryFile() as file:
        limit = lambda: resource.setrlimit(resource.RLIMIT_FSIZE, (room, room))
        ran = subprocess.run([program, "script"], input=script, stdout=file, stderr=subprocess.PIPE, timeout=SECONDS, restore_signals=False, preexec_fn=limit)
        file.seek(0)
        return ran.returncode, file.read(), ran.stderr


def without_end(program, line):
    """Runs the console over an input that gives a line for ever, behind one that prints something."""
    ran = subprocess.Popen([program, "script"], stdin=subprocess.PIPE, stdout=subprocess.PIPE, stderr=subprocess.PIPE)
    late = threading.Timer(SECONDS, ran.kill)
    late.start()

    def feed():
        try:
            ran.stdin.write(b'["connected"]\n')
            while True:
                ran.stdin.write(line * 65536)
        except OSError:
            pass  # the program ended

    feeder = threading.Thread(target=feed)
    feeder.start()
    out, err = ran.stdout.read(), ran.stderr.read()
    status = ran.wait()
    late.cancel()
    feeder.join()
    try:
        ran.stdin.close()
    except OSError:
        pass  # what it holds can't be written any more
    ran.stdout.close()
    ran.stderr.close()
    return status, out, err


def fails_at_each_byte(program, row):
    """What is wrong where the reads behind each number of bytes fail, and the writes, and where seven bytes are read at a time."""
    script, out = row.script, row.out
    yield differs(f"{row.name}, seven bytes a read", with_input(program, [script[i : i + 7] for i in range(0, len(script), 7)], False), (row.status, out, b""))
    lines, printed = None, b""
    for count in range(len(script) + 1):
        whole = script[: script.rfind(b"\n", 0, count) + 1]
        if whole != lines:
            lines, printed = whole, subprocess.run([program, "script"], input=whole, capture_output=True, timeout=SECONDS).stdout
        yield "" if out.startswith(printed) else f"{row.name}: its first {len(whole)} bytes print what the whole doesn't begin with"
        yield differs(f"{row.name}, a failing read behind {count} bytes", with_input(program, [script[:count]], True), (1, printed, READ_FAULT))
    for count in range(len(out)):
        yield differs(f"{row.name}, a failing write behind {count} bytes", with_room(program, script, count), (1, out[:count], WRITE_FAULT))


def on_full_device(program):
    with open("/dev/full", "wb") as full:
        for words in ([b"--help"], [b"script", b"--help"]):
            ran = subprocess.run([program, *words], stdout=full, stderr=subprocess.PIPE, timeout=SECONDS)
            yield differs(f"{words} on a full device", (ran.returncode, b"", ran.stderr), (1, b"", FULL_DEVICE))


def streams_part(copy):
    clock, wrong, count = Clock(), [], 0
    scripts = [it for it in rows("tests/scripts", "tests/rows") if it.name in SCRIPTS]
    for program in builds_of(copy, "rt_console"):
        endless = differs("line feeds for ever", without_end(program, b"\n"), (1, b"done\n", TOO_LARGE))
        for text in [endless, *on_full_device(program), *(text for row in scripts for text in fails_at_each_byte(program, row))]:
            wrong, count = wrong + ([f"{text} ({os.path.basename(program)})"] if text else []), count + 1
    part(f"console: {count} runs in which a read or a write fails", some_of(wrong, count), clock)
