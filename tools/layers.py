#!/usr/bin/env python3
"""The picture of the layers in docs/ARCHITECTURE.md, docs/layers.svg: made of crates.txt and of the layers below.

Usage: tools/layers.py            says whether docs/layers.svg is current, and what is wrong with the layers; fails where anything is
       tools/layers.py --write    writes docs/layers.svg

Each crate of crates.txt stands in one layer, and stands on crates of its own layer and of those below. The arrows lead from a layer to those
that it stands on, but for those that others of these stand on.
"""
import os
import re
import sys
from html import escape

from parts import ROOT, crates_in
from bodies import read, write

PICTURE, PAGE = "docs/layers.svg", "docs/ARCHITECTURE.md"
LAYERS = {
    "values": "rt_map rt_tree rt_order rt_push rt_query rt_input rt_chain rt_nodes rt_store",
    "parts of a core": "rt_writes rt_cache rt_forms rt_cover rt_view",
    "messages": "rt_wire rt_http rt_files",
    "core": "rt_world rt_parts rt_sync",
    "client": "rt_mail rt_client",
    "server": "rt_peer rt_hub",
    "sockets": "rt_socket rt_serve rt_link rt_journal rt_emulate",
    "console": "rt_lines rt_script rt_connect rt_watch rt_commands rt_console",
    "other languages": "rt_foreign rt_ffi",
    "door and tests": "kaltewi rt_tests rt_calls",
}  # lowest first
LEFT, RIGHT, WIDE, ROW, BOX, PER_LETTER, GAP, TURN = 130, 850, 930, 44, 28, 7.4, 8, 22


def layers():
    return {name: its.split() for name, its in LAYERS.items()}


def below_of(root):
    """The crates of the repository, lowest first, each with those of them that it stands on."""
    below = crates_in(read(f"{root}/crates.txt"))
    return {name: [it for it in its if it in below] for name, its in below.items()}


def wrong_layers(below, its):
    """The crates that stand in no layer or in two, those that are none, and those that stand on a crate of a layer above."""
    of = {}
    for place, (name, members) in enumerate(its.items()):
        for it in members:
            if it in of:
                yield f"{it} stands in two layers"
            if it not in below:
                yield f"{it} of '{name}' is no crate"
            of[it] = place
    yield from (f"{it} stands in no layer" for it in below if it not in of)
    for it, libraries in below.items():
        yield from (f"{it} stands on {one}, which is of a layer above" for one in libraries if of.get(one, 0) > of.get(it, len(its)))


def arrows(below, its):
    """The layers that each layer stands on, by their places, but for those that others of these stand on."""
    of = {it: place for place, members in enumerate(its.values()) for it in members}
    direct = {place: set() for place in range(len(its))}
    for it, libraries in below.items():
        direct[of[it]] |= {of[one] for one in libraries} - {of[it]}
    whole = {}
    for place in direct:
        whole[place] = direct[place].union(*(whole[one] for one in direct[place]))
    return {place: sorted(on - set().union(*(whole[one] for one in on))) for place, on in direct.items()}


def boxes(members, top):
    """The boxes of a layer's crates, from left to right."""
    at, found = LEFT + GAP, []
    for it in members:
        wide = round(len(it) * PER_LETTER + 12)
        found.append(f'    <rect x="{at}" y="{top + (ROW - BOX) // 2}" width="{wide}" height="{BOX}" rx="4" fill="#ffffff" stroke="#444"/>')
        found.append(f'    <text x="{at + wide / 2:g}" y="{top + ROW // 2 + 4}" text-anchor="middle">{it}</text>')
        at += wide + GAP
    return found


def arrow(top, bottom, lane):
    """An arrow from a layer to one below it: along the right edge, the farther out the more layers it passes."""
    out = RIGHT + 12 + TURN * lane
    return f'    <path d="M{RIGHT} {top}H{out}V{bottom}H{RIGHT + 4}"/>'


def picture(below, its):
    """The picture, with the highest layer on top."""
    count = len(its)
    tops = [10 + (count - 1 - place) * (ROW + 10) for place in range(count)]
    rows, lines = [], []
    for place, (name, members) in enumerate(its.items()):
        rows.append(f'    <rect x="{LEFT}" y="{tops[place]}" width="{RIGHT - LEFT}" height="{ROW}" rx="6" fill="#f3f3ee" stroke="#bbb"/>')
        rows.append(f'    <text x="{LEFT - 10}" y="{tops[place] + ROW // 2 + 4}" text-anchor="end" font-weight="bold">{escape(name)}</text>')
        rows += boxes(members, tops[place])
    for place, on in arrows(below, its).items():
        for one in on:
            begin, end = tops[place] + ROW // 2 + 6, tops[one] + ROW // 2 - 6
            lines.append(f'    <path d="M{LEFT + 24} {tops[place] + ROW}V{tops[one] - 2}"/>' if one == place - 1 else arrow(begin, end, place - one - 2))
    high = tops[0] + ROW + 10
    head = f'<svg xmlns="http://www.w3.org/2000/svg" viewBox="0 0 {WIDE} {high}" font-family="sans-serif" font-size="12" role="img" aria-label="The layers">'
    tip = '<marker id="a" viewBox="0 0 8 8" refX="7" refY="4" markerWidth="7" markerHeight="7" orient="auto"><path d="M0 0L8 4L0 8z" fill="#1b5fb5"/></marker>'
    return "\n".join(
        [head, "  <title>The layers, each with its crates</title>", f"  <defs>{tip}</defs>", f'  <rect width="{WIDE}" height="{high}" fill="#ffffff"/>', '  <g fill="#222">']
        + [*rows, "  </g>", '  <g fill="none" stroke="#1b5fb5" stroke-width="1.5" marker-end="url(#a)">', *lines, "  </g>", "</svg>", ""]
    )


def wrong_of(root):
    """What is wrong with the layers, their picture and their paragraphs, and how many layers there are."""
    below, its = below_of(root), layers()
    wrong = list(wrong_layers(below, its))
    if not wrong and (not os.path.isfile(f"{root}/{PICTURE}") or read(f"{root}/{PICTURE}") != picture(below, its)):
        wrong.append(f"{PICTURE} is not what tools/layers.py --write writes")
    for it in sorted(os.listdir(f"{root}/docs")):
        named = set(re.findall(r"\brt_\w+", read(f"{root}/docs/{it}"))) if it.endswith(".svg") else set()
        wrong += [f"docs/{it} names {one}, which is no crate" for one in sorted(named - set(below))]
    page = read(f"{root}/{PAGE}")
    wrong += [f"{PAGE} has no paragraph '{name}'" for name in its if f"\n**{name.capitalize()}** " not in page]
    return wrong, len(its)


def main():
    if sys.argv[1:] == ["--write"]:
        write(f"{ROOT}/{PICTURE}", picture(below_of(ROOT), layers()))
    elif sys.argv[1:]:
        print(__doc__.strip())
        sys.exit(2)
    else:
        wrong, count = wrong_of(ROOT)
        print("\n".join([*wrong, f"{count} layers, {len(wrong)} places"]))
        sys.exit(1 if wrong else 0)


if __name__ == "__main__":
    main()
