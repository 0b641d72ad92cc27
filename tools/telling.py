"""What the scripts of ./kaltewi say, and how they end: SIGTERM is noted, and answered between two steps, so that no command which one has begun goes
on without it."""
import signal
import sys
import time

ASKED = []


def say(text):
    print(f"kaltewi: {text}", file=sys.stderr, flush=True)


def minutes(began):
    """How long it is since that moment of the monotonic clock."""
    return f"{(time.monotonic() - began) / 60:.1f} minutes"


def is_mute(said):
    """Whether rt try said nothing but that nothing ran."""
    return not [it for it in said.split("\n") if it.strip() and not it.startswith("run=none ")]


def why_none(said):
    """Why rt try left no program, by all that it said."""
    if "run=ended " in said:
        return "the toolchain compiled nothing where it was looked for: it lies in another way than is known here"
    if is_mute(said):
        last = said.strip() or "(it said nothing)"
        return f"rt itself ended before it had compiled anything, perhaps for want of memory, of which it takes some 3 GB; its last line is: {last}"
    return "it was not compiled: see above"


def note_end():
    """From now on SIGTERM is noted alone."""
    signal.signal(signal.SIGTERM, lambda number, _: ASKED.append(number))


def end_if_asked():
    """Ends the script where SIGTERM has come."""
    if ASKED:
        sys.exit(128 + ASKED[0])
