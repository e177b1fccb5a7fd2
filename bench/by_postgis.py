"""PostGIS raster over the layers of layers.py, for the queries of queries.py.

A cluster of PostgreSQL is made in a temporary folder, listens on a socket there alone, and is ended at last. Each layer
is a table of tiles of 64 x 64 cells, indexed by place, as raster2pgsql makes them. One backend does all work of a
query. Needs Debian's packages postgresql and postgresql-15-postgis-3, or those of another version.
"""
import contextlib
import glob
import os
import shutil
import signal
import struct
import subprocess
import sys
import tempfile

from layers import CORNERS, LAYERS, SIDE, cells_of, on_processor
from served import until

TILE = 64
FOUND = sorted(glob.glob("/usr/share/postgresql/*/extension/postgis_raster.control"))
SETTINGS = ["-c", "listen_addresses=", "-c", "shared_buffers=512MB", "-c", "fsync=off"]
SETTINGS += ["-c", "max_parallel_workers_per_gather=0", "-c", "statement_timeout=900s"]
# rows alone, without a file of settings, until the first fault
PSQL = ["psql", "-qAtX", "-v", "ON_ERROR_STOP=1", "-U", "postgres", "-d", "postgres", "-h"]
ENDED = b"ended\n"
# what a cell is at most away from the edge of a box that has its middle
EDGE = 0.25


def box(low, side):
    """The square of a box of a layer, from a row and a column of the same number on."""
    left, right = low + EDGE, low + side - EDGE
    return f"ST_MakeEnvelope({left}, {-right}, {right}, {-left})"


def summary(what, layer):
    return f"SELECT {what}((ST_SummaryStats(rast, 1, false)).{what})::bigint FROM {layer}"


def values(raster):
    return f"ST_DumpValues({raster}, 1, false)"


def count(layer):
    return f"SELECT count(*) FROM {layer}, unnest({values('rast')}) v WHERE (v::int * 3 + 7) / 2 > 100 AND v <> 0"


def csv(raster, rows, source):
    """The rows of a raster, each a line."""
    lines = f"SELECT array_to_string(v[i:i], ',') FROM cells, generate_series(1, {rows}) i ORDER BY i"
    return f"WITH cells AS MATERIALIZED (SELECT {values(raster)} v FROM {source}) {lines}"


def window(low, side):
    return csv("ST_Union(ST_Clip(rast, box))", side, f"noise, {box(low, side)} box WHERE ST_ConvexHull(rast) && box")


def focal(what, radius):
    call = f"'ST_{what}4ma(double precision[], integer[], text[])'::regprocedure"
    raster = f"ST_MapAlgebra(ST_Union(rast), 1, {call}, '32BSI', 'FIRST', NULL, {radius}, {radius})"
    return csv(raster, 512, "hill")


# each cell of noise with that of land, or of terrain, tile by tile
PAIRS = f"unnest({values('c.rast')}, {values('d.rast')}) u(v, z)"


def zones(side, kinds):
    within = f"ST_ConvexHull(c.rast) && {box(0, side)}"
    sums = f"SELECT z, sum(v)::bigint s FROM noise c JOIN land d USING (rid), {PAIRS} WHERE {within} GROUP BY z"
    line = "SELECT string_agg(coalesce(s, 0)::text, ',' ORDER BY k)"
    return f"WITH sums AS ({sums}) {line} FROM generate_series(0, {kinds - 1}) k LEFT JOIN sums ON z = k"


def zonal(side):
    layers = [
        f"(SELECT {values('ST_Union(rast)')} {to} FROM {layer}{side})" for to, layer in (("v", "noise"), ("z", "land"))
    ]
    pairs = f"{layers[0]} c, {layers[1]} d, unnest(c.v, d.z) WITH ORDINALITY u(v, z, n)"
    cells = f"SELECT n, sum(u.v) OVER (PARTITION BY u.z)::bigint s FROM {pairs}"
    row = f"(n - 1) / {side}"
    return f"SELECT string_agg(s::text, ',' ORDER BY n) FROM ({cells}) cells GROUP BY {row} ORDER BY {row}"


# the query beside each loop of queries.c
QUERIES = {
    "add_noise": summary("sum", "noise"),
    "add_terrain": summary("sum", "terrain"),
    "add_land": summary("sum", "land"),
    "max_noise": summary("max", "noise"),
    "max_land": summary("max", "land"),
    "count_noise": count("noise"),
    "count_terrain": count("terrain"),
    "count_land": count("land"),
    "difference": f"SELECT sum(abs(v - z))::bigint FROM noise c JOIN terrain d USING (rid), {PAIRS}",
    "inner_window": window(1024, 64),
    "window": window(1000, 64),
    "cells": window(0, 1024),
    "focal_sum_1": focal("Sum", 1),
    "focal_sum_3": focal("Sum", 3),
    "focal_sum_8": focal("Sum", 8),
    "focal_max_1": focal("Max", 1),
    "focal_max_3": focal("Max", 3),
    "zonal_64": zonal(64),
    "zonal_130": zonal(130),
    "zones_16": zones(1024, 16),
    "zones_256": zones(1024, 256),
    "all_zones_16": zones(SIDE, 16),
    "all_zones_48": zones(SIDE, 48),
    "five": "SELECT 2 + 3",
    "cell": "SELECT ST_Value(rast, p) FROM noise, ST_Point(1000.5, -1000.5) p WHERE ST_ConvexHull(rast) && p",
}


def tiles(cells, side):
    """The rasters of a square corner of a layer, as PostGIS writes their bytes: where each lies, and its cells of
    i16."""
    for top in range(0, side, TILE):
        for left in range(0, side, TILE):
            rows, columns = min(TILE, side - top), min(TILE, side - left)
            head = struct.pack("<BHH6diHHBh", 1, 0, 1, 1, -1, left, -top, 0, 0, 0, columns, rows, 5, 0)
            starts = (y * SIDE + left for y in range(top, top + rows))
            yield head + b"".join(cells[at : at + columns].tobytes() for at in starts)


class Backend:
    """A session of psql, and the backend that serves it."""

    name, forms = "PostGIS", QUERIES

    def __init__(self, session):
        self.session = session
        self.backend = int(self.ask("SELECT pg_backend_pid()"))

    def ask(self, *queries):
        """The lines that queries give that are sent together."""
        together = " \\; ".join(queries)
        self.session.stdin.write(f"{together};\n\\echo ended\n".encode())
        self.session.stdin.flush()
        lines = []
        while not lines or lines[-1] != ENDED:
            lines.append(self.session.stdout.readline())
            if not lines[-1]:
                sys.exit("PostGIS gave no reply")
        return b"".join(lines[:-1])

    def spent(self):
        return on_processor(self.backend)

    def writes(self, cells, rows):
        """The updates that write the first rows of noise, tile by tile."""
        for top in range(0, rows, TILE):
            for left in range(0, SIDE, TILE):
                starts = (y * SIDE + left for y in range(top, top + TILE))
                text = ",".join(f"{{{','.join(map(str, cells[at : at + TILE]))}}}" for at in starts)
                rid = top // TILE * (SIDE // TILE) + left // TILE + 1
                yield f"UPDATE noise SET rast = ST_SetValues(rast, 1, 1, 1, '{{{text}}}'::float8[]) WHERE rid = {rid}"


def command(folder, *statements, copied=None):
    """Runs some statements, one of which may copy rows."""
    words = [word for it in statements for word in ("-c", it)]
    subprocess.run([*PSQL, folder, *words], input=copied, check=True)


def load(folder, loops):
    """Makes the tables, once the server is ready."""
    until(lambda: subprocess.run(["pg_isready", "-q", "-h", folder]).returncode == 0, "the start of PostgreSQL")
    command(folder, "CREATE EXTENSION postgis", "CREATE EXTENSION postgis_raster")
    for layer in LAYERS:
        cells = cells_of(loops, layer)
        for name, side in [(layer, SIDE)] + [(name, side) for name, of, side in CORNERS if of == layer]:
            made = f"CREATE TABLE {name} (rid serial PRIMARY KEY, rast raster)"
            index = f"CREATE INDEX ON {name} USING gist (ST_ConvexHull(rast))"
            rows = b"".join(it.hex().encode() + b"\n" for it in tiles(cells, side))
            command(folder, made, f"COPY {name} (rast) FROM STDIN", index, f"ANALYZE {name}", copied=rows)


@contextlib.contextmanager
def postgis(loops):
    """A backend over the layers, while it is needed."""
    programs = FOUND[-1].replace("/share/", "/lib/").replace("/extension/postgis_raster.control", "/bin")
    with tempfile.TemporaryDirectory() as folder:
        # PostgreSQL does not run as root
        user = {"user": "postgres", "group": "postgres", "extra_groups": []} if os.geteuid() == 0 else {}
        if user:
            shutil.chown(folder, "postgres")
        data = f"{folder}/data"
        made = [f"{programs}/initdb", "-D", data, "-A", "trust", "-U", "postgres", "--no-sync"]
        subprocess.run(made, check=True, stdout=subprocess.DEVNULL, cwd=folder, **user)
        words = [f"{programs}/postgres", "-D", data, "-k", folder, *SETTINGS]
        server = subprocess.Popen(words, stderr=subprocess.DEVNULL, cwd=folder, **user)
        try:
            load(folder, loops)
            with subprocess.Popen([*PSQL, folder], stdin=subprocess.PIPE, stdout=subprocess.PIPE) as session:
                yield Backend(session)
        finally:
            server.send_signal(signal.SIGINT)
            server.wait()
