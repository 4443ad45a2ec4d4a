#!/usr/bin/env python3
"""Draws a run's output as an SVG ladder: the office on the left, the machine on the right, a row for each period.

    crates/run/out/run < examples/sessions/search.txt | python3 tools/ladder.py "A search" > search.svg

`rt run` in crates/run makes the program.

The arrow to the right is the block, the arrow back is the return bit. A cross on the arrow back marks a request that was
lost: the return bit is 1 and the office reads 0. It needs nothing but Python 3.

The pictures in docs/pictures, from the sessions of the same names in examples/sessions:

    damaged.svg       "A damaged block repeated"
    search.svg        "A search and resynchronising"
    lost_request.svg  "A lost request and its alarm"
"""

import argparse
import re
import sys
from html import escape

ROW = 52
TOP = 114
LEFT = 190
RIGHT = 530
WIDTH = 720
FONT = "font-family='Helvetica, Arial, sans-serif'"

INK = "#222222"
GREY = "#8a8a8a"
GOOD = "#1b7f3b"
REPEAT = "#b36b00"
CANCEL = "#b3261e"
SYNC = "#1f5fbf"
ALARM = "#7a1fa2"
LOST = "#d6007f"

LEGEND = [
    ("block sent first", INK),
    ("block repeated", REPEAT),
    ("new block or end taken", GOOD),
    ("synchronising", SYNC),
    ("nothing new, return bit 0", GREY),
    ("bad, cancelled, return bit 1", CANCEL),
    ("alarm or refusal", ALARM),
    ("request lost", LOST),
]
LEGEND_COLUMNS = 4

HEADING = "period sent read event back"
EVENT_COLOURS = {
    "sync": SYNC,
    "bad": CANCEL,
    "accepted": GOOD,
    "ended": GOOD,
    "previous": GREY,
    "none": GREY,
    "sequence alarm": ALARM,
    "length alarm": ALARM,
}
PERIOD_LINE = re.compile(rf"([0-9]+) (S|!?(?:[0-9]+|E)) ([-01]) ({'|'.join(EVENT_COLOURS)}) ([01])")
REFUSED_LINE = re.compile(r"refused [1-8]")


class NoOutput(Exception):
    """What was read is no output of a run."""


class Row:
    """One period. A block is repeated if it was sent before; a request is lost if it is read as 0."""

    def __init__(self, words, sent_before, back_before):
        self.number, self.sent, self.reading, self.event, self.back = words
        self.item = self.sent.lstrip("!")
        self.cancelled = self.sent != self.item
        self.repeat = self.item in sent_before and self.item not in ("S", "E")
        self.lost = self.reading == "0" and back_before == "1"


def parse(text):
    """The rows of an output, and its refusal if it ends in one."""
    lines = text.splitlines()
    if not lines or lines[0] != HEADING:
        raise NoOutput(f"line 1 is not '{HEADING}'")
    rows, refusal, sent_before, back = [], None, set(), "1"
    for number, line in enumerate(lines[1:], 2):
        match = PERIOD_LINE.fullmatch(line)
        if refusal or not (match or REFUSED_LINE.fullmatch(line)):
            raise NoOutput(f"line {number} is no line of a run's output: {line[:60]!r}")
        if not match:
            refusal = line
            continue
        row = Row(match.groups(), sent_before, back)
        sent_before.add(row.item)
        back = row.back
        rows.append(row)
    return rows, refusal


def block_colour(row):
    if row.sent == "S":
        return SYNC
    if row.cancelled:
        return CANCEL
    return REPEAT if row.repeat else INK


def text(x, y, words, colour=INK, anchor="start", size=14, weight="normal"):
    return (
        f"<text x='{x}' y='{y}' fill='{colour}' text-anchor='{anchor}' {FONT} "
        f"font-size='{size}' font-weight='{weight}'>{escape(words)}</text>"
    )


def arrow(x1, y1, x2, y2, colour, dashed=False, width=2):
    dash = " stroke-dasharray='5 4'" if dashed else ""
    step = 9 if x2 > x1 else -9
    head = f"{x2},{y2} {x2 - step},{y2 - 4} {x2 - step},{y2 + 4}"
    return (
        f"<line x1='{x1}' y1='{y1}' x2='{x2 - step}' y2='{y2}' stroke='{colour}' stroke-width='{width}'{dash}/>"
        f"<polygon points='{head}' fill='{colour}'/>"
    )


def cross(x, y, colour):
    return (
        f"<path d='M{x - 6},{y - 6} L{x + 6},{y + 6} M{x - 6},{y + 6} L{x + 6},{y - 6}' "
        f"stroke='{colour}' stroke-width='3'/>"
    )


def draw_row(row, y):
    colour = block_colour(row)
    name = {"S": "synchronising block", "E": "end block"}.get(row.item, f"item {row.item}")
    if row.cancelled:
        name += ", cancelled"
    elif row.repeat:
        name += ", again"
    reading = "" if row.reading == "-" else f"reads {row.reading}"
    back = CANCEL if row.back == "1" else GREY
    parts = [
        text(24, y + 5, row.number, GREY, size=12),
        text(LEFT - 14, y + 5, reading, LOST if row.lost else INK, "end"),
        arrow(LEFT, y, RIGHT, y, colour, dashed=row.cancelled),
        text((LEFT + RIGHT) / 2, y - 6, name, colour, "middle", 13),
        text(RIGHT + 14, y + 5, row.event, EVENT_COLOURS[row.event], weight="bold"),
        arrow(RIGHT, y + 16, LEFT, y + 16, back, width=1),
        text((LEFT + RIGHT) / 2, y + 29, f"return bit {row.back}", back, "middle", 11),
    ]
    if row.lost:
        parts.append(cross(LEFT + 26, y + 16 - ROW, LOST))
        parts.append(text(LEFT - 14, y + 21 - ROW, "request lost", LOST, "end", 13))
    return parts


def draw_legend():
    parts = []
    for i, (words, colour) in enumerate(LEGEND):
        x = 24 + (WIDTH - 36) // LEGEND_COLUMNS * (i % LEGEND_COLUMNS)
        y = 41 + 17 * (i // LEGEND_COLUMNS)
        parts.append(f"<rect x='{x}' y='{y}' width='10' height='10' fill='{colour}'/>")
        parts.append(text(x + 15, y + 9, words, INK, size=11))
    return parts


def draw(title, rows, refusal):
    height = TOP + ROW * len(rows) + (34 if refusal else 12)
    bottom = TOP + ROW * len(rows) - 8
    parts = [
        f"<svg xmlns='http://www.w3.org/2000/svg' width='{WIDTH}' height='{height}' viewBox='0 0 {WIDTH} {height}'>",
        f"<rect width='{WIDTH}' height='{height}' fill='white'/>",
        text(24, 28, title, INK, size=17, weight="bold"),
    ]
    parts += draw_legend()
    for x, words in ((LEFT, "office"), (RIGHT, "machine")):
        parts.append(text(x, TOP - 22, words, INK, "middle", 14, "bold"))
        parts.append(f"<line x1='{x}' y1='{TOP - 16}' x2='{x}' y2='{bottom}' stroke='{INK}' stroke-width='1'/>")
    for i, row in enumerate(rows):
        parts += draw_row(row, TOP + ROW * i + 8)
    if refusal:
        parts.append(text(LEFT, bottom + 26, refusal, ALARM, "middle", 13, "bold"))
    return "\n".join(parts + ["</svg>"])


def main():
    parser = argparse.ArgumentParser(description=__doc__, formatter_class=argparse.RawDescriptionHelpFormatter)
    parser.add_argument("title", nargs="?", default="A session", help="the picture's title")
    title = parser.parse_args().title
    try:
        rows, refusal = parse(sys.stdin.buffer.read().decode(errors="replace"))
    except NoOutput as problem:
        sys.exit(f"ladder.py: {problem}")
    print(draw(title, rows, refusal))


if __name__ == "__main__":
    main()
