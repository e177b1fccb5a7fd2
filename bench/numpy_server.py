#!/usr/bin/env python3
"""Arrays of numpy behind a small HTTP server, over the layers of layers.py.

usage: bench/numpy_server.py LOOPS    LOOPS is queries.c, compiled

A path is an operation and its operands: names of arrays, and numbers. The answer is a number or CSV. It prints the port
of loopback that it listens at. Needs Debian's package python3-numpy.
"""
import functools
import http.server
import sys

sys.dont_write_bytecode = True

import numpy

from layers import CORNERS, LAYERS, SIDE, cells_of


def csv(cells):
    return "".join(",".join(map(str, row)) + "\n" for row in cells.tolist())


def number(it):
    return f"{it}\n"


def add(cells):
    return number(cells.sum(dtype=numpy.int64))


def greatest(cells):
    return number(cells.max())


def count(cells):
    return number(numpy.count_nonzero(((cells.astype(numpy.int32) * 3 + 7) // 2 > 100) & (cells != 0)))


def difference(cells, others):
    return number(numpy.abs(cells.astype(numpy.int32) - others).sum(dtype=numpy.int64))


def box(cells, low, side):
    return csv(cells[low : low + side, low : low + side])


def focal(merge, outside, cells, radius):
    """The cells at most the radius away are merged on one axis, and then on the other."""
    for _ in range(2):
        wide = numpy.pad(cells, ((radius, radius), (0, 0)), constant_values=outside)
        cells = functools.reduce(merge, (wide[k : k + len(cells)] for k in range(2 * radius + 1))).T
    return csv(cells)


def focal_sum(cells, radius):
    return focal(numpy.add, 0, cells.astype(numpy.int64), radius)


def focal_max(cells, radius):
    return focal(numpy.maximum, numpy.iinfo(cells.dtype).min, cells, radius)


def sums(cells, zones, kinds=0):
    """The sums of the cells of each zone, which doubles hold."""
    return numpy.bincount(zones.ravel(), cells.ravel(), kinds).astype(numpy.int64)


def zonal(cells, zones):
    return csv(sums(cells, zones)[zones])


def by_zones(cells, zones, side, kinds):
    return csv(sums(cells[:side, :side], zones[:side, :side], kinds)[None])


def cell(cells, y, x):
    return number(cells[y, x])


def plus(one, other):
    return number(one + other)


def write(cells, row, text):
    values = numpy.fromstring(text, numpy.int16, sep=",").reshape(-1, cells.shape[1])
    cells[row : row + len(values)] = values
    return "ok\n"


ANSWERS = {
    it.__name__: it
    for it in (add, greatest, count, difference, box, focal_sum, focal_max, zonal, by_zones, cell, plus, write)
}


class Handler(http.server.BaseHTTPRequestHandler):
    protocol_version = "HTTP/1.1"
    # a reply is written at once
    wbufsize = -1
    arrays = {}

    def answer(self, *more):
        name, *words = self.path.strip("/").split("/")
        text = ANSWERS[name](*(self.arrays[it] if it in self.arrays else int(it) for it in words), *more)
        self.send_response(200)
        self.send_header("Content-Type", "text/csv")
        self.send_header("Content-Length", str(len(text)))
        self.end_headers()
        self.wfile.write(text.encode())

    def do_GET(self):
        self.answer()

    def do_POST(self):
        self.answer(self.rfile.read(int(self.headers["Content-Length"])).decode())

    def log_message(self, *_):
        pass


def main():
    for layer in LAYERS:
        cells = Handler.arrays[layer] = numpy.array(cells_of(sys.argv[1], layer)).reshape(SIDE, SIDE)
        for name, of, side in CORNERS:
            if of == layer:
                Handler.arrays[name] = cells[:side, :side].copy()
    with http.server.HTTPServer(("127.0.0.1", 0), Handler) as server:
        print(server.server_port, flush=True)
        server.serve_forever()


if __name__ == "__main__":
    main()
