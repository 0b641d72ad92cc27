"""Parts of the gate that try wrong bodies, over what rt ci proved and built in a copy (bodies.py says what counts as refused)."""
import concurrent.futures
import os
import tempfile

import bodies
import record
from parts import ROOT, Clock, crates, libraries_of, part

CENTRAL_CRATES = 12  # the most crates that have central wrong bodies, since the cost is by crate
CENTRAL_OF_EACH = 2
MOST_OF_A_GOAL = 400  # characters


def edits_of(crate):
    return bodies.edits_of(ROOT, crate)


def all_edits():
    return [edit for crate in crates() for edit in edits_of(crate)]


def applies_part(edits):
    wrong = [f"{it.name}: {why}" for it in edits for why in [it.applied({}, f"{ROOT}/crates/{it.crate}")[1]] if why]
    central = [it for it in edits if it.central]
    by_crate = {it.crate: [one for one in central if one.crate == it.crate] for it in central}
    if len(by_crate) > CENTRAL_CRATES:
        wrong.append(f"{len(by_crate)} crates have central ones, more than {CENTRAL_CRATES}")
    wrong += [f"{crate} has {len(own)} central ones, more than {CENTRAL_OF_EACH}" for crate, own in by_crate.items() if len(own) > CENTRAL_OF_EACH]
    part(f"{len(edits)} wrong bodies apply, {len(central)} of them central", "; ".join(wrong[:5]) or ("" if edits else "there is none"))


def not_built(copy, crate, below):
    """The libraries of the repository that a crate stands on, by others too, and that are not proved and built in the copy."""
    own = [it for it in below[crate] if it in below]
    found = [it for it in own if not os.path.isdir(f"{copy}/crates/{it}/out/rlib")]
    return list(dict.fromkeys(found + [lost for it in own for lost in not_built(copy, it, below)]))


def judged(copy, edits, at_once=os.cpu_count(), waits=lambda names: []):
    """Judges wrong bodies, so many crates side by side, over what is proved and built in the copy, and gives each crate with the verdicts of its
    own. A crate waits until its libraries are there; where they don't come its wrong bodies are not judged."""
    below = crates()
    by_crate = {crate: [it for it in edits if it.crate == crate] for crate in below}

    def verdicts(crate, own, room):
        if waits(libraries_of(crate, below)):
            return dict.fromkeys(own, bodies.UNTOLD)
        return bodies.verdicts(crate, own, *bodies.over_proved(ROOT, crate, below, copy, room))

    with tempfile.TemporaryDirectory(prefix="kaltewi-edits-") as room, concurrent.futures.ThreadPoolExecutor(at_once) as pool:
        runs = {crate: pool.submit(verdicts, crate, own, room) for crate, own in by_crate.items() if own}
        for crate, ran in runs.items():
            yield crate, ran.result()


def not_refused(verdicts):
    """What is wrong with wrong bodies that are not refused at a goal."""
    words = {bodies.ANSWER: "refused only by an answer", bodies.PROVED: "proved", bodies.UNTOLD: "not judged"}
    named = {why: " ".join(edit.name for edit, verdict in verdicts.items() if verdict == kind) for kind, why in words.items()}
    return "; ".join(f"{why}: {names}" for why, names in named.items() if names)


def central_part(copy, edits, waits):
    """The central wrong bodies. Those that were refused on this machine over the same texts are not tried again."""
    clock, verdicts = Clock(), {edit: verdict for edit in edits for verdict in [record.kept(edit)] if verdict}
    known = len(verdicts)
    for _, own in judged(copy, [it for it in edits if it not in verdicts], max(1, (os.cpu_count() or 1) // 2), waits):
        for edit, verdict in own.items():
            record.keep(edit, verdict)
        verdicts.update(own)
    what = f"{len(edits)} central wrong bodies refused{f', {known} of them in an earlier run' if known else ''}"
    part(what, not_refused(verdicts) if edits else "there is none", clock)


def wanted(named, below):
    """The crates of these names, and those above them, lowest first; every crate where none is named."""
    found = []
    for crate, libraries in below.items():
        if not named or crate in named or set(libraries) & set(found):
            found.append(crate)
    return found


def each_part(copy, some):
    """Every wrong body of these crates, and at the end which say less."""
    verdicts = {}
    for crate, own in judged(copy, [edit for crate in some for edit in edits_of(crate)]):
        part(f"{crate}: {len(own)} wrong bodies refused", not_refused(own))
        verdicts.update(own)
    for kind, what in (
        (bodies.ANSWER, "refused only by an answer that no longer fits, so that its contract admits it, or nothing says that it doesn't"),
        (bodies.OPEN, "refused at goals whose answers no longer fitted and were taken away, so that it may be the tactics that don't prove them"),
    ):
        print("\n".join(listed(verdicts, kind, what)), flush=True)


def listed(verdicts, kind, what):
    """The lines that name the wrong bodies of a verdict, each with its goals below it."""
    of_kind = [(edit, verdict) for edit, verdict in verdicts.items() if verdict == kind]
    yield f"{len(of_kind)} {what}{':' if of_kind else ''}"
    for edit, verdict in of_kind:
        yield f"  {edit.name}"
        yield from goal_lines(verdict)


def goal_lines(verdict):
    """The goals that a verdict rests on, with what they must prove, cut where that is long."""
    for goal, wanted in getattr(verdict, "goals", {}).items():
        yield f"    {goal}: {wanted[:MOST_OF_A_GOAL]}".rstrip(": ")
