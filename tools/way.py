#!/usr/bin/env python3
"""The picture of the way of a write and of a push in docs/ARCHITECTURE.md, docs/way.svg: made of the table below.

Usage: tools/way.py            says whether docs/way.svg is current, and which functions of the table are in no source; fails where anything is
       tools/way.py --write    writes docs/way.svg

A box has its words, its column, its row, and the functions through which the way leads there, each as crate::Type::name or crate::name.
"""
import os
import re
import sys
from html import escape

import names
from bodies import read, write
from parts import ROOT

PICTURE = "docs/way.svg"
BOXES = {
    "call": ("a seat's call", 0, 0, "rt_link::Linked::ask rt_client::Client::set"),
    "ring": ("the seat's ring", 0, 2, "rt_mail::Lane::flush rt_mail::Inbox::next"),
    "request": ("request, pending write", 1, 0, "rt_parts::Requests::add rt_writes::Pending::add_apart"),
    "views": ("views of listeners", 1, 1, "rt_parts::Listeners::refresh rt_view::View::touch"),
    "data": ("regions and windows", 1, 2, "rt_cache::Brought::put"),
    "put": ("a message to the server", 2, 0, "rt_wire::ClientMessage::text"),
    "push": ("data, ok", 2, 2, "rt_wire::ServerMessage::read"),
    "tree": ("the tree", 3, 0, "rt_peer::Peer::message"),
    "listens": ("its listens", 3, 2, "rt_peer::push_all rt_wire::ServerMessage::text"),
}
FRAMES = {"client": (0, 2), "server": (3, 3)}  # each from a column to another
STEP = ("one step of the world", "rt_sync::Core::apply")  # what the middle of the client is
BETWEEN = ("WebSocket", "rt_link::Connection::turn rt_emulate::Guests::turn")  # what is between the frames
WAYS = {
    "a write: it shows at once, overlaid, and is sent": ("#b5451b", "call>request request>put put>tree tree>listens request>views"),
    "a push: it is kept, and each changed view is told; ok settles": ("#1b5fb5", "listens>push push>data data>views views>ring"),
}
COLUMNS = ((25, 150), (205, 195), (430, 185), (800, 185))  # where each begins, and how wide it is
TOP, BOX, ROW, PAD, SMALL = 66, 60, 84, 15, 11


def functions():
    """The functions of the table, as they stand there."""
    said = [its for _, _, _, its in BOXES.values()]
    return [it for its in (*said, STEP[1], BETWEEN[1]) for it in its.split()]


def is_there(root, path):
    """Whether the sources of a crate have a function."""
    crate, *rest = path.split("::")
    its = names.Crate(f"{root}/crates/{crate}")
    if len(rest) == 2:
        return its.has_in(*rest)
    return bool(re.search(rf"(?m)^(?:pub(?:\(crate\))? )?fn {rest[0]}\b", its.text))


def place(name):
    """The left and the upper edge of a box, and how wide it is."""
    _, column, row, _ = BOXES[name]
    left, wide = COLUMNS[column]
    return left, TOP + ROW * row, wide


def line_of(path):
    """A function as a line of a box."""
    crate, _, name = path.partition("::")
    return f"{crate}: {name}"


def text(x, y, said, more=""):
    return f'    <text x="{x:g}" y="{y:g}"{more}>{escape(said)}</text>'


def lines(x, y, said, its):
    """Words, and the functions below them, in the middle of a box that begins there."""
    down = y + (BOX - 15 * len(its)) / 2 + 4
    return [text(x, down, said), *(text(x, down + 15 * (at + 1), line_of(it), f' font-size="{SMALL}"') for at, it in enumerate(its))]


def box(name):
    left, top, wide = place(name)
    said, _, _, its = BOXES[name]
    rect = f'    <rect x="{left}" y="{top}" width="{wide}" height="{BOX}" rx="5" fill="#ffffff" stroke="#444"/>'
    return [rect, *lines(left + wide / 2, top, said, its.split())]


def frame(name, first, last):
    """A frame round some columns, with its name above it."""
    left, right = COLUMNS[first][0] - PAD, sum(COLUMNS[last]) + PAD
    high = 2 * ROW + BOX + 40
    rect = f'    <rect x="{left}" y="{TOP - 26}" width="{right - left}" height="{high}" rx="8" fill="#f6f6f2" stroke="#999"/>'
    return [rect, text((left + right) / 2, TOP - 34, name, ' font-weight="bold"')]


def arrow(way):
    """The path of an arrow between two boxes: straight in a row or a column, else along and then down or up."""
    (left, top, wide), (to_left, to_top, to_wide) = (place(it) for it in way.split(">"))
    middle, to_middle = left + wide / 2, to_left + to_wide / 2
    side = (left + wide, to_left - 2) if to_left > left else (left, to_left + to_wide + 2)
    end = to_top - 2 if to_top > top else to_top + BOX + 2
    if top == to_top:
        return f"M{side[0]:g} {top + BOX / 2:g}H{side[1]:g}"
    if left == to_left:
        return f"M{middle:g} {top + BOX if to_top > top else top:g}V{end:g}"
    return f"M{side[0]:g} {top + BOX / 2:g}H{to_middle:g}V{end:g}"


def arrows(at, color, ways):
    """The arrows of a way."""
    paths = "".join(f'<path d="{arrow(it)}"/>' for it in ways.split())
    return [f'  <g fill="none" stroke="{color}" stroke-width="2" marker-end="url(#m{at})">{paths}</g>']


def marker(at, color):
    return (
        f'    <marker id="m{at}" viewBox="0 0 8 8" refX="7" refY="4" markerWidth="7" markerHeight="7" orient="auto">'
        f'<path d="M0 0L8 4L0 8z" fill="{color}"/></marker>'
    )


def picture():
    wide, high = sum(COLUMNS[-1]) + PAD + 10, TOP + 2 * ROW + BOX + 50
    gap = (sum(COLUMNS[FRAMES["client"][1]]) + COLUMNS[FRAMES["server"][0]][0]) / 2
    middle = COLUMNS[1][0] + COLUMNS[1][1] / 2
    found = [
        f'<svg xmlns="http://www.w3.org/2000/svg" viewBox="0 0 {wide} {high}" font-family="sans-serif" font-size="13" role="img"'
        ' aria-label="The way of a write and of a push">',
        "  <title>The way of a write and of a push through client and server</title>",
        "  <defs>",
        *(marker(at, color) for at, (color, _) in enumerate(WAYS.values())),
        "  </defs>",
        f'  <rect width="{wide}" height="{high}" fill="#ffffff"/>',
        '  <g text-anchor="middle" fill="#222">',
    ]
    for name, its in FRAMES.items():
        found += frame(name, *its)
    found.append(text(middle, TOP - 8, f"{line_of(STEP[1])}, {STEP[0]}", f' font-size="{SMALL}"'))
    found += lines(gap, TOP + ROW, BETWEEN[0], BETWEEN[1].split())
    for name in BOXES:
        found += box(name)
    found.append("  </g>")
    for at, (color, ways) in enumerate(WAYS.values()):
        found += arrows(at, color, ways)
    found.append('  <g font-size="12">')
    found += [text(20 + at * 380, high - 14, said, f' fill="{color}"') for at, (said, (color, _)) in enumerate(WAYS.items())]
    return "\n".join([*found, "  </g>", "</svg>", ""])


def wrong_of(root):
    """What is wrong with the picture, and how many functions it names."""
    its = functions()
    wrong = [f"{PICTURE} names {it}, which is in no source" for it in its if not is_there(root, it)]
    if not os.path.isfile(f"{root}/{PICTURE}") or read(f"{root}/{PICTURE}") != picture():
        wrong.append(f"{PICTURE} is not what tools/way.py --write writes")
    return wrong, len(its)


def main():
    if sys.argv[1:] == ["--write"]:
        write(f"{ROOT}/{PICTURE}", picture())
    elif sys.argv[1:]:
        print(__doc__.strip())
        sys.exit(2)
    else:
        wrong, count = wrong_of(ROOT)
        print("\n".join([*wrong, f"{count} functions, {len(wrong)} places"]))
        sys.exit(1 if wrong else 0)


if __name__ == "__main__":
    main()
