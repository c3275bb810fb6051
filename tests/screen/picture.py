#!/usr/bin/env python3
"""Draws a terminal as a picture (SVG), from the output of `tmux capture-pane -e -p`: picture.py COLUMNS [SCHEME] <
screen

SCHEME is light or dark; without it the picture follows the reader's own.
"""
import html
import re
import sys

# The width and height of a cell, and the position of the text in it.
WIDE, HIGH, BASE, MARGIN = 8, 17, 13, 10
SGR = re.compile(r"\x1b\[([0-9;]*)m")
# xterm's eight colours; on a light background the light ones are a little darker, as terminals show them.
NAMED = ["#000000", "#cd0000", "#00a000", "#a08000", "#0000ee", "#cd00cd", "#00a0a0", "#c0c0c0"]
GROUNDS = {"light": ("#ffffff", "#24292f", "#8a929a"), "dark": ("#0d1117", "#d5dce3", "#7d8790")}


def colour(number):
    """One of xterm's 256 colours."""
    if number < 16:
        return NAMED[number % 8]
    if number > 231:
        return "#" + 3 * f"{8 + 10 * (number - 232):02x}"
    steps = [0, 95, 135, 175, 215, 255]
    number -= 16
    return "#" + "".join(f"{steps[it]:02x}" for it in (number // 36, number // 6 % 6, number % 6))


def pen_after(pen, words):
    """The pen after the numbers of one sequence: its colour and attributes."""
    pen, words = dict(pen), [int(it or 0) for it in words.split(";")]
    while words:
        word = words.pop(0)
        if word == 0:
            pen = {}
        elif word in (1, 2, 4, 7):
            pen[{1: "bold", 2: "dim", 4: "line", 7: "turned"}[word]] = True
        elif word == 22:
            pen.pop("bold", None), pen.pop("dim", None)
        elif word in (24, 27):
            pen.pop({24: "line", 27: "turned"}[word], None)
        elif 30 <= word <= 37:
            pen["colour"] = NAMED[word - 30]
        elif 90 <= word <= 97:
            pen["colour"] = NAMED[word - 90]
        elif word == 38 and words[:1] == [5]:
            pen["colour"] = colour(words[1])
            del words[:2]
        elif word == 39:
            pen.pop("colour", None)
    return pen


def runs(line, pen):
    """Runs with one look: column, text, pen; and the pen after the line."""
    found, column, place = [], 0, 0
    for it in [*SGR.finditer(line), None]:
        text = line[place:it.start() if it else len(line)]
        if text:
            found.append((column, text, pen))
        column += len(text)
        if it:
            pen, place = pen_after(pen, it[1]), it.end()
    return found, pen


def svg_of(row, column, text, pen):
    """A run as SVG."""
    x, y, width = MARGIN + WIDE * column, MARGIN + HIGH * row, WIDE * len(text)
    drawn = ""
    if pen.get("turned"):
        drawn += f'<rect class="ink" x="{x}" y="{y}" width="{width}" height="{HIGH}"/>'
    kinds = "back" if pen.get("turned") else "faint" if pen.get("dim") else "ink"
    kinds += " bold" if pen.get("bold") else ""
    own = f' style="fill:{pen["colour"]}"' if "colour" in pen and not pen.get("turned") else ""
    # Each part has its own place, so that it is right in any font.
    for part in re.finditer(r"\S+(?: \S+)*", text):
        left, length = x + WIDE * part.start(), WIDE * len(part[0])
        drawn += f'<text class="{kinds}"{own} x="{left}" y="{y + BASE}" textLength="{length}">{html.escape(part[0])}</text>'
    if pen.get("line"):
        drawn += f'<rect class="faint" x="{x}" y="{y + HIGH - 2}" width="{width}" height="1"/>'
    return drawn


def style(scheme):
    def of(scheme):
        back, ink, faint = GROUNDS[scheme]
        return f".back{{fill:{back}}}.ink{{fill:{ink}}}.faint{{fill:{faint}}}"
    both = of(scheme or "light") + ("" if scheme else f"@media(prefers-color-scheme:dark){{{of('dark')}}}")
    return f'text{{font:13.3px "DejaVu Sans Mono",Menlo,Consolas,monospace;white-space:pre}}.bold{{font-weight:bold}}{both}'


def picture(screen, columns, scheme=None):
    lines = screen.split("\n")
    if not lines[-1]:
        lines.pop()
    width, height = 2 * MARGIN + WIDE * columns, 2 * MARGIN + HIGH * len(lines)
    drawn, pen = [], {}
    for row, line in enumerate(lines):
        found, pen = runs(line, pen)
        drawn.append("".join(svg_of(row, *it) for it in found))
    return (f'<svg xmlns="http://www.w3.org/2000/svg" viewBox="0 0 {width} {height}" width="{width}" height="{height}">'
            f'<style>{style(scheme)}</style><rect class="back" width="{width}" height="{height}" rx="6"/>\n' + "\n".join(it for it in drawn if it) + "\n</svg>\n")


if __name__ == "__main__":
    sys.stdout.write(picture(sys.stdin.read(), int(sys.argv[1]), *sys.argv[2:]))
