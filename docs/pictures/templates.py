#!/usr/bin/env python3
"""Draws docs/pictures/local.svg, focal.svg and zonal.svg: each template on one raster, before and after.

    docs/pictures/templates.py

What is drawn is what the server answers: `rasterd - run` is sent the two coverages as messages, and then is asked for
their cells and for each template by ProcessTemplate. `rt run` in crates/rasterd builds the program. Where an answer is
not that of the row in crates/query_tests/stdin, which is worked out by hand, nothing is drawn.
"""

import os
import subprocess
import sys
import urllib.parse

TOP = os.path.dirname(os.path.dirname(os.path.dirname(os.path.abspath(__file__))))
PROGRAM = f"{TOP}/crates/rasterd/out/rasterd"
ROWS = f"{TOP}/crates/query_tests/stdin"
CELL, GAP, LINE = 26, 44, 40
ZONES = ["#fbb4ae", "#b3cde3", "#ccebc5", "#decbe4", "#fed9a6"]


def rows():
    """The worked rows, each with what it gives."""
    with open(ROWS, encoding="utf-8") as file:
        lines = [line for line in file.read().split("\n") if line and not line.startswith(("#", "  "))]
    return dict(line.partition(" => ")[::2] for line in lines)


def insertions(given, name):
    """The requests that insert a coverage of the rows and write its cells."""
    for row in given:
        words = row.split(" ")
        if words[:2] == ["coverage", name]:
            domain, fields, cells = words[2:5]
            box = {"coverage": name, "field": fields.split(":")[0], "box": domain, "values": cells}
            return [("InsertCoverage", {"coverage": name, "domain": domain, "fields": fields}), ("UpdateCoverage", box)]
    sys.exit(f"no coverage {name}")


def message(request, keys):
    pairs = urllib.parse.urlencode({"request": request, **keys})
    return f"GET /ows?{pairs} HTTP/1.1\r\n\r\n".encode()


def bodies(requests):
    """The body of the reply to each request of one session."""
    stream = b"".join(message(*request) for request in requests)
    output = subprocess.run([PROGRAM, "-", "run"], input=stream, stdout=subprocess.PIPE, check=True).stdout
    found = []
    while output:
        head, _, rest = output.partition(b"\r\n\r\n")
        length = int(head.split(b"Content-Length: ")[1].split(b"\r\n")[0])
        if b" 200 " not in head:
            sys.exit(rest[:length].decode())
        found.append(rest[:length].decode())
        output = rest[length:]
    return found


def grid(text):
    return [[int(cell) for cell in line.split(",")] for line in text.split("\n") if line]


def shade(value, cells, is_zone):
    """The colour of a cell: a zone's own, or the darker the greater the value."""
    if is_zone:
        return ZONES[value % len(ZONES)]
    part = (value - min(cells)) / max(1, max(cells) - min(cells))
    return "#{:02x}{:02x}{:02x}".format(*(round(a + part * (b - a)) for a, b in ((255, 102), (255, 170), (229, 102))))


def drawn(raster, left, top, title, is_zone=False):
    cells = [cell for line in raster for cell in line]
    parts = [f'<text x="{left}" y="{top - 8}" font-weight="bold">{title}</text>']
    for i, line in enumerate(raster):
        for j, value in enumerate(line):
            x, y = left + j * CELL, top + i * CELL
            colour = shade(value, cells, is_zone)
            parts.append(f'<rect x="{x}" y="{y}" width="{CELL}" height="{CELL}" fill="{colour}" stroke="#888"/>')
            parts.append(f'<text x="{x + CELL / 2}" y="{y + CELL / 2 + 4}" text-anchor="middle">{value}</text>')
    return parts


def picture(name, before, after):
    """Before on the left, after on the right, three to a line."""
    height, width = len(before[0][1]), len(before[0][1][0])
    step_x, step_y = width * CELL + GAP, height * CELL + LINE
    parts = []
    for k, (title, raster, is_zone) in enumerate(before):
        parts += drawn(raster, GAP // 2, LINE + k * step_y, title, is_zone)
    arrow = GAP // 2 + step_x - GAP // 2
    middle = LINE + height * CELL / 2 + 4
    parts.append(f'<text x="{arrow}" y="{middle}" text-anchor="middle" font-size="20">&#8594;</text>')
    for k, (title, raster) in enumerate(after):
        parts += drawn(raster, GAP // 2 + (1 + k % 3) * step_x, LINE + k // 3 * step_y, title)
    lines = max(len(before), (len(after) + 2) // 3)
    size = f'width="{GAP // 2 + 4 * step_x}" height="{LINE + lines * step_y - LINE // 2}"'
    with open(f"{TOP}/docs/pictures/{name}.svg", "w", encoding="utf-8") as file:
        file.write(f'<svg xmlns="http://www.w3.org/2000/svg" {size} font-family="sans-serif" font-size="12">\n')
        file.write('<rect width="100%" height="100%" fill="white"/>\n')
        file.write("\n".join(parts) + "\n</svg>\n")


def main():
    given = rows()
    local = [
        (name, "land", None) for name in ("LocalSum", "LocalDifference", "LocalProduct", "LocalMaximum", "LocalMinimum")
    ]
    focal = [(name, None, "1") for name in ("FocalSum", "FocalMaximum", "FocalMinimum")]
    zonal = [(name, "land", None) for name in ("ZonalSum", "ZonalMaximum", "ZonalMinimum")]
    templates = local + focal + zonal
    layers = ["hill", "land"]
    written = [request for name in layers for request in insertions(given, name)]
    read = [("ProcessCoverages", {"query": f"for c in ({name}) return encode(c, csv)"}) for name in layers]
    asked = []
    for name, second, radius in templates:
        keys = {"template": name, "layer": "hill", "second": second, "radius": radius}
        asked.append(("ProcessTemplate", {key: value for key, value in keys.items() if value}))
    answers = bodies(written + read + asked)[len(written) :]
    drawings = {}
    for (name, second, radius), answer in zip(templates, answers[len(layers) :]):
        if given[f"process {name} hill {second or '-'} {radius or '-'}"] != answer.replace("\n", "\\n"):
            sys.exit(f"{name} is answered {answer}")
        drawings[name] = (name, grid(answer))
    hill, land = (("hill", grid(answers[0]), False), ("land", grid(answers[1]), True))
    picture("local", [hill, land], [drawings[name] for name, _, _ in local])
    picture("focal", [hill], [drawings[name] for name, _, _ in focal])
    picture("zonal", [hill, land], [drawings[name] for name, _, _ in zonal])


main()
