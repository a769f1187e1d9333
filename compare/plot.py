#!/usr/bin/env python3
"""plot.py [--check]

Draws the table of compare/results/times.md as docs/times.svg, the time of each row beside smoltcp's. With --check it
writes nothing, and ends with status 1 if the picture is not that of the table.
"""
import sys
from pathlib import Path

DOCS = Path(__file__).resolve().parent.parent / "docs"
HERE, THERE, LINE = "#1f6feb", "#8b949e", "#57606a"


def rows_of(page):
    """The rows of the table of a page, without its head, each a list of texts."""
    lines = page.split("\n| ", 1)[1].split("\n\n")[0].splitlines()
    return [[cell.strip(" *") for cell in line.strip("|").split("|")] for line in lines[2:]]


def text(x, y, said, anchor="start", color=LINE):
    return f'<text x="{x:.0f}" y="{y:.0f}" text-anchor="{anchor}" fill="{color}">{said}</text>'


def times(rows):
    """A bar for each row: the time here, where 1 is smoltcp's. It shows on any ground, and has a title for those who
    can't see it."""
    left, step, unit = 180, 22, 400
    parts, bottom = [], 34 + step * len(rows)
    for number, (name, ratio, _) in enumerate(rows):
        y = 34 + step * number
        parts += [text(left - 8, y + 13, name, "end"),
                  f'<rect x="{left}" y="{y + 1}" width="{unit * float(ratio):.0f}" height="{step - 5}" fill="{HERE}"/>',
                  text(left + unit * float(ratio) - 6, y + 14, ratio, "end", "#fff")]
    parts += [f'<path d="M{left + unit} 28V{bottom}" stroke="{THERE}" stroke-dasharray="4 3"/>',
              text(left + unit, 20, "smoltcp", "middle")]
    width, height = left + unit + 60, bottom + 10
    size = f'width="{width}" height="{height}" viewBox="0 0 {width} {height}"'
    return "\n".join([f'<svg xmlns="http://www.w3.org/2000/svg" {size} font-family="sans-serif" font-size="12">',
                      "<title>Time of each row, where smoltcp's is 1</title>",
                      '<rect width="100%" height="100%" fill="#fff"/>', *parts, "</svg>\n"])


def main():
    path = DOCS / "times.svg"
    made = times(rows_of((DOCS.parent / "compare/results/times.md").read_text()))
    if "--check" not in sys.argv:
        path.write_text(made)
    elif not path.is_file() or path.read_text() != made:
        print("docs/times.svg isn't the picture of its table: python3 compare/plot.py writes it")
        return 1
    return 0


sys.exit(main())
