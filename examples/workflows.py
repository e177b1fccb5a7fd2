#!/usr/bin/python3
"""Three small workflows from end to end, against the built server over loopback.

    examples/workflows.py PROGRAM [FOLDER]

It starts a server on an empty store in memory, loads the rasters of `data.py`, asks, prints the answers as tables, and
writes pictures into the folder, else into examples/pictures. It needs Debian's packages python3-numpy and python3-gdal.
"""

import contextlib
import os
import sys

sys.dont_write_bytecode = True
HERE = os.path.dirname(os.path.abspath(__file__))
sys.path[:0] = [f"{HERE}/../clients/python", f"{HERE}/../scripts"]
try:
    import numpy
    from osgeo import gdal
except ImportError as missing:
    sys.exit(f"{missing}: install python3-numpy and python3-gdal, and run this with /usr/bin/python3")

import data
import rasterd
from served import served

COLOURS = {
    0: (245, 245, 245),
    1: (90, 140, 200),
    2: (235, 215, 130),
    3: (70, 130, 70),
    4: (190, 60, 50),
    5: (130, 125, 120),
}


def picture(path, cells, colours=None):
    """Writes bytes as a PNG, with a colour for each where these are given, else in grey; each cell is 3 dots wide."""
    wide = numpy.kron(cells.astype(numpy.uint8), numpy.ones((3, 3), numpy.uint8))
    made = gdal.GetDriverByName("MEM").Create("", wide.shape[1], wide.shape[0], 1, gdal.GDT_Byte)
    if colours:
        table = gdal.ColorTable()
        for cell, colour in colours.items():
            table.SetColorEntry(cell, colour)
        made.GetRasterBand(1).SetRasterColorTable(table)
    made.GetRasterBand(1).WriteArray(wide)
    gdal.GetDriverByName("PNG").CreateCopy(path, made)
    with contextlib.suppress(OSError):
        os.remove(f"{path}.aux.xml")


def grey(cells):
    """The cells from 0 to 255."""
    low, high = int(cells.min()), int(cells.max())
    return ((cells - low) * 255 // max(1, high - low)).astype(numpy.uint8)


def load(session, name, cells, kind):
    """A raster as a coverage with the one field `v`."""
    session.insert(name, {"y": (0, data.SIZE - 1), "x": (0, data.SIZE - 1)}, {"v": kind})
    session.write(name, "v", cells)


def table(title, heads, rows, counts):
    print(title)
    print(" " * 12 + "".join(f"{head:>12}" for head in heads))
    for row, line in zip(rows, counts):
        print(f"{row:<12}" + "".join(f"{count:>12}" for count in line))
    print()


def area_by_class(session, folder):
    """Zonal: how many cells of each class of land cover each district has."""
    counts = session.array(
        "for c in (cover), d in (district) return encode("
        f"coverage a over $d district(1:{data.DISTRICTS}), $k class(1:{len(data.CLASSES)})"
        " values count(c = $k and d = $d), csv)"
    )
    table(
        "Cells by district and land cover", data.CLASSES, [f"district {k + 1}" for k in range(data.DISTRICTS)], counts
    )
    classes = session.array("for c in (cover) return encode(c, csv)")
    picture(f"{folder}/cover.png", classes, COLOURS)
    return counts


def change(session, folder):
    """Local: what became of each class between two dates, and where."""
    counts = session.array(
        "for a in (cover), b in (later) return encode("
        f"coverage t over $f from(1:{len(data.CLASSES)}), $t to(1:{len(data.CLASSES)})"
        " values count(a = $f and b = $t), csv)"
    )
    table("Cells by land cover before (lines) and after (columns)", data.CLASSES, data.CLASSES, counts)
    where = session.array("for a in (cover), b in (later) return encode((a != b) * b, csv)")
    picture(f"{folder}/change.png", where, COLOURS)
    return counts


def focal(session, folder):
    """Focal: the terrain smoothed over 5 x 5 cells, and how far the heights next to a cell lie apart."""
    last = data.SIZE - 1
    smoothed = session.array(
        "for c in (terrain) return encode("
        f"coverage f over $p y(2:{last - 2}), $q x(2:{last - 2}) values"
        " (condense + over $u y(-2:2), $v x(-2:2) using c[y($p + $u), x($q + $v)]) / 25, csv)"
    )
    high = rasterd.arrays_of(session.template("FocalMaximum", "terrain", radius=1))
    low = rasterd.arrays_of(session.template("FocalMinimum", "terrain", radius=1))
    print(
        f"Heights from {session.query('for c in (terrain) return min(c)').strip()} to {session.query('for c in (terrain) return max(c)').strip()} m,"
        f" smoothed from {smoothed.min()} to {smoothed.max()} m; at most {(high - low).max()} m between neighbours"
    )
    picture(f"{folder}/smoothed.png", grey(smoothed))
    picture(f"{folder}/relief.png", grey(high - low))
    return smoothed, high - low


def main(program, folder=f"{HERE}/pictures"):
    os.makedirs(folder, exist_ok=True)
    heights = data.terrain()
    classes = data.cover(heights)
    with served(os.path.abspath(program)) as port, rasterd.Session(port=port, timeout=600) as session:
        for name, cells, kind in [
            ("terrain", heights, "i16"),
            ("cover", classes, "u8"),
            ("later", data.later(classes), "u8"),
            ("district", data.districts(), "u8"),
        ]:
            load(session, name, cells, kind)
        area_by_class(session, folder)
        change(session, folder)
        focal(session, folder)


if __name__ == "__main__":
    if len(sys.argv) not in (2, 3):
        sys.exit(__doc__)
    main(*sys.argv[1:])
