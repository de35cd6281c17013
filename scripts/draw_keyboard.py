#!/usr/bin/env python3
"""Draws docs/keyboard.svg from the rows of keys at the head of docs/KEYBOARD.md.

usage: scripts/draw_keyboard.py     at the top of the repository; it replaces the file it wrote before

A key is as wide as its column of the text. Above it stands its function after f, below it the one after g. What
spans several keys, as SHOW and CLEAR do, is a bracket over them.
"""

import re
from html import escape
from pathlib import Path

CARD = Path("docs/KEYBOARD.md")
PICTURE = Path("docs/keyboard.svg")

WIDTH, HEIGHT = 80, 104  # of a key's place
KEY_WIDTH, KEY_HEIGHT = 62, 44
MARGIN = 24
FIRST_COLUMN, COLUMN = 7, 8  # characters of the text before the first key, and of each
COLUMNS, ROWS = 10, 4
F_COLOUR, G_COLOUR, INK, KEY, CASE = "#c2570c", "#1d4f91", "#1f2328", "#f6f4ef", "#ddd8cd"

ENTER_COLUMN, ENTER_ROW = 5, 2  # ENTER reaches from this row into the next


def rows_of_text(text):
    """The lines of the four rows, each the words after f, the keys and the words after g."""
    block = re.search(r"^```\n(.*?)^```", text, re.M | re.S)[1]
    for piece in re.split(r"\n\n", block.rstrip("\n")):
        lines = piece.split("\n")
        after_g = lines.pop()
        keys = lines.pop()
        yield lines, keys, after_g


def words(line):
    """The words of a line, each with the column that its first character is nearest to."""
    for match in re.finditer(r"\S+", line):
        column = round((match.start() - FIRST_COLUMN) / COLUMN)
        if column >= 0:
            yield column, match[0]


def label(x, y, text, colour, size=13, weight="normal"):
    return (
        f'<text x="{x}" y="{y}" fill="{colour}" font-size="{size}" font-weight="{weight}" '
        f'text-anchor="middle">{escape(text)}</text>'
    )


def middle(column):
    return MARGIN + column * WIDTH + WIDTH // 2


def top(row):
    return MARGIN + row * HEIGHT + 36


def key(column, row, text):
    """A key, and its name on it."""
    x = middle(column) - KEY_WIDTH // 2
    tall = (column, row) == (ENTER_COLUMN, ENTER_ROW)
    height = KEY_HEIGHT + HEIGHT if tall else KEY_HEIGHT
    fill, ink = {"f": (F_COLOUR, "#ffffff"), "g": (G_COLOUR, "#ffffff")}.get(text, (KEY, INK))
    yield (
        f'<rect x="{x}" y="{top(row)}" width="{KEY_WIDTH}" height="{height}" rx="6" fill="{fill}" stroke="{INK}"/>'
    )
    yield label(middle(column), top(row) + height // 2 + 6, text, ink, 16 if len(text) < 5 else 14, "bold")


def bracket(first, last, y, text):
    """A name over several keys, with a line to either side."""
    left, right = middle(first) - KEY_WIDTH // 2, middle(last) + KEY_WIDTH // 2
    half = 5 * len(text) + 6
    centre = (left + right) // 2
    for start, end, foot in ((left, centre - half, left), (centre + half, right, right)):
        yield f'<path d="M{foot} {y + 5}V{y}M{start} {y}H{end}" stroke="{F_COLOUR}" fill="none"/>'
    yield label(centre, y + 4, text, F_COLOUR, 12)


def functions_after_f(lines, row):
    """What stands above a row: names over keys, and brackets."""
    for line in lines:
        for match in re.finditer(r"-{3,}\s*(\w+)\s*-{3,}", line):
            first = round((match.start() - FIRST_COLUMN) / COLUMN)
            last = round((match.end() - FIRST_COLUMN) / COLUMN) - 1
            yield from bracket(first, last, top(row) - (10 if len(lines) == 1 else 26), match[1])
        line = re.sub(r"-{3,}\s*\w+\s*-{3,}", lambda m: " " * len(m[0]), line)
        for column, word in words(line):
            if word != "|":
                yield label(middle(column), top(row) - 6, word, F_COLOUR)


def functions_after_g(line, row):
    for column, word in words(line):
        if word != "|":
            foot = top(row) + KEY_HEIGHT + 15
            if (column, row) == (ENTER_COLUMN, ENTER_ROW):
                foot += HEIGHT
            yield label(middle(column), foot, word, G_COLOUR)


def drawn(text):
    for row, (above, keys, below) in enumerate(rows_of_text(text)):
        yield from functions_after_f(above, row)
        for column, word in words(keys):
            if word != "|":
                yield from key(column, row, word)
        yield from functions_after_g(below, row)


def picture(text):
    width, height = 2 * MARGIN + COLUMNS * WIDTH, 2 * MARGIN + ROWS * HEIGHT
    head = (
        f'<svg xmlns="http://www.w3.org/2000/svg" viewBox="0 0 {width} {height}" width="{width}" height="{height}" '
        f'font-family="Helvetica, Arial, sans-serif" role="img">'
    )
    title = "<title>The 39 keys of the HP-16C, with the function of each after f above it and after g below it</title>"
    case = f'<rect width="{width}" height="{height}" rx="12" fill="{CASE}"/>'
    return "\n".join([head, title, case, *drawn(text), "</svg>"]) + "\n"


def main():
    PICTURE.write_text(picture(CARD.read_text()))


if __name__ == "__main__":
    main()
