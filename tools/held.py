#!/usr/bin/env python3
"""Runs emulate with an input that is held open, so that SIGINT, SIGTERM and SIGHUP end it cleanly: all connections are ended, and what they asked
for at their end is done. The program itself can take no signal: it is given --until-eof, and its input ends then.

Usage: tools/held.py PROGRAM WORD ..

The end of this process's own input ends it only with the word --until-eof. A second signal kills it, and so does the end of this process. The
status is the program's.
"""
import ctypes
import os
import signal
import subprocess
import sys
import threading

UNTIL_EOF, DEATH = "--until-eof", 1  # the latter is prctl's PR_SET_PDEATHSIG
SIGNALS = (signal.SIGINT, signal.SIGTERM, signal.SIGHUP)


class Held:
    """The end of the program's input that is ours."""

    def __init__(self, end):
        self.end, self.lock = end, threading.RLock()

    def close(self):
        with self.lock:
            if self.end is not None:
                os.close(self.end)
            is_first, self.end = self.end is not None, None
        return is_first


def passed_on(held):
    """Reads this process's input to its end, and then ends the program's."""
    while True:
        try:
            if not os.read(0, 65536):
                break
        except OSError:
            break
    held.close()


def prepare(parent):
    """In the program's process: signals come to this script alone, and it ends with it."""
    for it in SIGNALS:
        signal.signal(it, signal.SIG_IGN)
    ctypes.CDLL(None).prctl(DEATH, signal.SIGKILL)
    if os.getppid() != parent:
        os.abort()


def run(words):
    """Runs the program, and answers its status."""
    theirs, ours = os.pipe()
    held, asked, parent = Held(ours), [], os.getpid()
    heard = [it for it in SIGNALS if signal.getsignal(it) != signal.SIG_IGN]  # nohup has one passed over
    for it in heard:
        signal.signal(it, lambda number, _: asked.append(number))
    program = subprocess.Popen([*words, *([] if UNTIL_EOF in words else [UNTIL_EOF])], stdin=theirs, preexec_fn=lambda: prepare(parent))
    os.close(theirs)

    def end(number, _):
        if not held.close():
            program.kill()

    for it in heard:
        signal.signal(it, end)
    if asked:
        held.close()
    if UNTIL_EOF in words:
        threading.Thread(target=passed_on, args=(held,), daemon=True).start()
    status = program.wait()
    return status if status >= 0 else 128 - status


def main():
    if len(sys.argv) < 2:
        sys.exit(__doc__.strip())
    status = run(sys.argv[1:])
    sys.stdout.flush()
    os._exit(status)  # the thread that reads the input may wait for it still


if __name__ == "__main__":
    main()
