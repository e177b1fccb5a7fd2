"""Messages over the store of a file, each with the body of its reply, and what the file is to hold after them."""

import re
import urllib.parse

import store
from language import Refused
from meaning import cell_text, count, points, rank


def posted(pairs):
    """A message with these pairs as its body."""
    body = urllib.parse.urlencode(pairs, errors="replace").encode()
    return b"POST /ows HTTP/1.1\r\nContent-Length: %d\r\n\r\n%s" % (len(body), body)


def interval_list(axes):
    """Axes or a box, as a request has them."""
    return ",".join(f"{axis}({lo}:{hi})" for axis, lo, hi in axes)


def content_of(path):
    """The bytes of a file."""
    with open(path, "rb") as file:
        return file.read()


def replies_in(out):
    """The head and the body of each reply; the last may lack its body."""
    found = []
    while out:
        head, _, rest = out.partition(b"\r\n\r\n")
        length = int(re.search(rb"Content-Length: (\d+)", head)[1])
        found.append((head, rest[:length]))
        out = rest[length:]
    return found


def csv_of(cells, line):
    return "".join(",".join(map(cell_text, cells[k : k + line])) + "\n" for k in range(0, len(cells), line))


class Asks:
    """Messages over a store, `made`, each with the body of its reply; and what the store is after them, as `known`
    tells it."""

    DAMAGED = "refused 93 Damaged\n"

    def __init__(self, chance, found):
        self.made, self.damaged, self.after = [], False, self.known(found)
        self.ask({"request": "ListCoverages"}, "".join(f"{name}\n" for name in found))
        for name, stored in found.items():
            for k, (field, kind) in enumerate(stored.fields):
                listed = list(stored.tiles[k])
                numbers = chance.sample(listed, min(4, len(listed))) + [chance.randrange(store.tile_count(stored.axes))]
                for number in numbers:
                    self.ask_box(name, stored.axes, k, field, number)
                self.ask_whole(name, stored.axes, k, field)
                self.update(chance, name, stored.axes, k, field, kind)

    @staticmethod
    def known(found):
        """Signatures, and of each field the cells of its tiles, or their bytes where they are damaged."""
        return [
            (name, it.axes, it.fields, [known_tiles(it, k) for k in range(len(it.fields))])
            for name, it in found.items()
        ]

    def tiles(self, name, k):
        return next(tiles[k] for it, _, _, tiles in self.after if it == name)

    def ask(self, pairs, wanted):
        self.made.append((posted(pairs), wanted))

    def ask_query(self, text, wanted):
        self.damaged |= wanted == self.DAMAGED
        self.ask({"request": "ProcessCoverages", "query": text}, wanted)

    def ask_box(self, name, axes, k, field, number):
        box = store.tile_box(axes, number)
        cells = self.tiles(name, k)[number]
        wanted = self.DAMAGED if isinstance(cells, bytes) else csv_of(cells, box[-1][2] - box[-1][1] + 1)
        trims = ", ".join(f"{axis}({lo}:{hi})" for axis, lo, hi in box)
        self.ask_query(f"for c in ({name}) return encode(c.{field}[{trims}], csv)", wanted)

    def ask_whole(self, name, axes, k, field):
        cells = [None] * count(axes)
        for number, of_tile in enumerate(self.tiles(name, k)):
            if isinstance(of_tile, bytes):
                return self.ask_query(f"for c in ({name}) return encode(c.{field}, csv)", self.DAMAGED)
            for point, cell in zip(points(store.tile_box(axes, number)), of_tile):
                cells[rank(axes, point)] = cell
        self.ask_query(f"for c in ({name}) return encode(c.{field}, csv)", csv_of(cells, axes[-1][2] - axes[-1][1] + 1))

    def update(self, chance, name, axes, k, field, kind):
        """One cell of a tile that has more than that."""
        number = chance.randrange(store.tile_count(axes))
        box, tiles = store.tile_box(axes, number), self.tiles(name, k)
        if count(box) < 2:
            return
        point = [chance.randint(lo, hi) for _, lo, hi in box]
        cell = chance.choice([True, False] if kind == "bool" else [0, 1, 127])
        pairs = {"request": "UpdateCoverage", "coverage": name, "field": field, "fill": cell_text(cell)}
        pairs["box"] = ",".join(f"{axis}({at}:{at})" for (axis, _, _), at in zip(box, point))
        if isinstance(tiles[number], bytes):
            return self.ask(pairs, self.DAMAGED)
        tiles[number] = list(tiles[number])
        tiles[number][rank(box, point)] = cell
        self.ask(pairs, "ok\n")


def known_tiles(stored, k):
    found = []
    for number in range(store.tile_count(stored.axes)):
        try:
            found.append(store.cells_of(stored, k, number))
        except Refused:
            found.append(stored.tiles[k][number][1])
    return found
