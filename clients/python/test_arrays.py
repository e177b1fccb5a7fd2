#!/usr/bin/python3
"""Tests coverages as arrays of xarray and dask, from one server and in parts over four, beside numpy.

    clients/python/test_arrays.py PROGRAM

It needs Debian's packages python3-numpy, python3-xarray, python3-dask and python3-distributed, python3-rioxarray and
python3-gdal for a raster of GDAL's, and python3-nbclient, python3-nbformat, python3-ipykernel and python3-matplotlib
for the notebook; it says so where one is missing.
"""

import importlib.util
import json
import logging
import os
import shutil
import socket
import subprocess
import sys
import tempfile
import threading
import time
import unittest
import warnings

sys.dont_write_bytecode = True
for module in "numpy xarray dask distributed rioxarray osgeo nbclient nbformat ipykernel matplotlib".split():
    if importlib.util.find_spec(module) is None:
        package = f"python3-{module.replace('osgeo', 'gdal')}"
        sys.exit(f"there is no {module}: install {package}, and run this with /usr/bin/python3")

HERE = os.path.dirname(os.path.abspath(__file__))
TOP = os.path.dirname(os.path.dirname(HERE))
sys.path[:0] = [HERE, f"{TOP}/examples", f"{TOP}/scripts"]
os.environ |= {"PYTHONPATH": HERE, "PYDEVD_DISABLE_FILE_VALIDATION": "1"}

import dask
import distributed
import numpy
import rasterd
import rasterd_parts
import rasterd_xarray
import xarray
from served import LONGEST, connected, free_port, served

PROGRAM = os.path.abspath(sys.argv.pop(1)) if __name__ == "__main__" and len(sys.argv) > 1 else None
SIDE = 400


def box_of(top, bottom, left, right):
    return {"y": (top, bottom), "x": (left, right)}


def terrain():
    """Four fields over 400 x 400 cells, whose coordinates begin below 0."""
    numbers = numpy.random.default_rng(7)
    fields = {
        "v": numbers.integers(-(2**15), 2**15, (SIDE, SIDE)).astype("int16"),
        "far": numbers.integers(-(2**63), 2**63 - 1, (SIDE, SIDE), "int64"),
        "kind": numbers.integers(0, 5, (SIDE, SIDE)).astype("uint8"),
        "wet": numbers.random((SIDE, SIDE)) < 0.3,
    }
    fields["far"] //= 2**18
    axes = {"y": numpy.arange(SIDE) - 100, "x": numpy.arange(SIDE)}
    return xarray.Dataset({name: (("y", "x"), it) for name, it in fields.items()}, axes)


class Server:
    """The program on a store in memory, or on a copy of a closed file, at a port that it keeps."""

    def __init__(self, file="-"):
        self.port, self.file, self.program = free_port(), file, None
        self.start()

    @property
    def name(self):
        return f"127.0.0.1:{self.port}"

    def start(self):
        file = self.file
        if file != "-":
            file = f"{self.file}.{time.monotonic_ns()}"
            shutil.copy(self.file, file)
        self.program = subprocess.Popen([PROGRAM, file, "listen", str(self.port), "1000000"])
        connected(self.port, self.program).close()

    def kill(self):
        self.program.kill()
        self.program.wait()


def stored(path, coverages):
    """Makes a closed file with some coverages, each a name, a domain and its fields as arrays."""
    port = free_port()
    with subprocess.Popen([PROGRAM, path, "listen", str(port), "2"]) as program:
        connected(port, program).close()
        with rasterd.Session(port=port, timeout=600) as session:
            for name, domain, fields in coverages:
                session.insert(
                    name, domain, {it: rasterd_xarray.FIELDS[cells.dtype.name] for it, cells in fields.items()}
                )
                for field, cells in fields.items():
                    session.write(name, field, cells, domain)
        if program.wait(LONGEST):
            raise SystemExit("the store was not closed")


def quarters(dataset):
    """Four parts of a raster, cut off the middle, and the place of each."""
    for i, rows in enumerate([slice(0, 192), slice(192, SIDE)]):
        for j, columns in enumerate([slice(0, 128), slice(128, SIDE)]):
            part = dataset.isel(y=rows, x=columns)
            box = box_of(int(part.y[0]), int(part.y[-1]), int(part.x[0]), int(part.x[-1]))
            yield f"terrain_{i}_{j}", box, {name: it.values for name, it in part.data_vars.items()}


class OneServer(unittest.TestCase):
    def setUp(self):
        server = served(PROGRAM)
        self.port = server.__enter__()
        self.addCleanup(server.__exit__, None, None, None)
        self.url = f"rasterd://127.0.0.1:{self.port}/terrain"
        self.data = terrain()

    def test_there_and_back(self):
        rasterd_xarray.to_rasterd(self.data, self.url)
        for chunks in (None, {}, {"y": 64, "x": 100}):
            found = xarray.open_dataset(self.url, engine="rasterd", chunks=chunks)
            xarray.testing.assert_equal(found.compute(), self.data)
            self.assertEqual(
                {it: str(found[it].dtype) for it in found}, {it: str(self.data[it].dtype) for it in self.data}
            )

    def test_only_what_is_needed_is_asked(self):
        rasterd_xarray.to_rasterd(self.data, self.url)
        lazy = xarray.open_dataset(self.url, engine="rasterd")
        for take in [
            lambda it: it.v[3:50, 7],
            lambda it: it.v[-1, ::-3],
            lambda it: it.far[5:5],
            lambda it: it.kind.sel(y=slice(-10, 10), x=[3, 7, 3]),
            lambda it: it.wet.isel(x=0),
            lambda it: it.v[::50, ::70],
        ]:
            xarray.testing.assert_equal(take(lazy).compute(), take(self.data))
        asked = []
        self.addCleanup(setattr, rasterd_parts, "read", rasterd_parts.read)
        kept = rasterd_parts.read
        rasterd_parts.read = lambda part, field, box, *more: asked.append(box) or kept(part, field, box, *more)
        lazy = xarray.open_dataset(self.url, engine="rasterd")
        lazy.v.sel(y=slice(0, 9), x=slice(20, 29)).load()
        self.assertEqual(asked, [box_of(0, 9, 20, 29)])

    def test_axes_from_one_to_six(self):
        for axes in range(1, 7):
            shape = [5, 4, 3, 2, 2, 5][:axes]
            data = xarray.DataArray(
                numpy.arange(numpy.prod(shape)).reshape(shape).astype("int32"), dims=list("tzyxmn")[:axes]
            )
            url = self.url.replace("terrain", f"with{axes}")
            rasterd_xarray.to_rasterd(data, url)
            found = xarray.open_dataset(url, engine="rasterd", chunks={})
            numpy.testing.assert_array_equal(found.v.values, data.values)
            self.assertEqual(int(found.v.sum()), int(data.sum()))

    def test_what_cannot_be_written(self):
        for data, told in [
            (xarray.DataArray(numpy.zeros((2, 2)), dims=("y", "x")), "no field type holds v, which is of float64"),
            (xarray.Dataset({"a": ("x", [1]), "b": ("y", [1])}), "the same for all its fields"),
        ]:
            with self.assertRaisesRegex((TypeError, ValueError), told):
                rasterd_xarray.to_rasterd(data, self.url)
        rasterd_xarray.to_rasterd(self.data.v, self.url)
        with self.assertRaisesRegex(rasterd.Refused, "21"):
            rasterd_xarray.to_rasterd(self.data.v, self.url)
        with self.assertRaisesRegex(ValueError, "host:port"):
            xarray.open_dataset("rasterd:terrain", engine="rasterd")

    def test_cells_that_stand_for_no_data_or_are_scaled(self):
        plain, name = self.data.v, "_FillValue"
        read = plain.copy()
        read.encoding[name] = -32768
        marked, missing = plain.assign_attrs({name: -32768}), plain.assign_attrs(missing_value=0)
        for data, told in [
            (marked, "cells of v may stand for no data, as its _FillValue says, .*: put a Boolean variable beside it"),
            (missing, "as its missing_value says"),
            (read, "as its _FillValue says"),
            (marked.to_dataset().assign(other=plain), "cells of v may stand for no data"),
            (plain.assign_attrs(scale_factor=0.01), "the numbers of v are scaled, as its scale_factor says"),
            (
                plain.assign_attrs(scale_factor=2, add_offset=numpy.float32(3)),
                "as its scale_factor and add_offset says",
            ),
            (plain.assign_attrs(scale_factor=numpy.array([1.0, 2.0])), "as its scale_factor says"),
        ]:
            with self.assertRaisesRegex(ValueError, told):
                rasterd_xarray.to_rasterd(data, self.url)
        with rasterd.Session(port=self.port) as session:
            self.assertEqual(session.list(), [])
        # as rioxarray has them, and as xarray says that nothing is marked
        plain = plain.assign_attrs(scale_factor=1.0, add_offset=0.0)
        plain.encoding[name] = None
        rasterd_xarray.to_rasterd(plain, self.url)
        xarray.testing.assert_equal(xarray.open_dataset(self.url, engine="rasterd").v, self.data.v)

    def test_coordinates_that_are_not_kept_are_told(self):
        axes = {"t": [2000, 2005, 2010], "y": [7, 8], "x": [0.5, 1.5], "place": "here"}
        data = xarray.DataArray(numpy.arange(12).reshape(3, 2, 2), axes, ("t", "y", "x"), "v")
        with self.assertWarnsRegex(
            UserWarning, "^terrain does not keep the coordinates t, x, place; an axis without any"
        ):
            rasterd_xarray.to_rasterd(data, self.url)
        with rasterd.Session(port=self.port) as session:
            self.assertEqual(session.describe("terrain")[0], {"t": (0, 2), "y": (7, 8), "x": (0, 1)})
            session.delete("terrain")
        with warnings.catch_warnings():
            warnings.simplefilter("error")
            rasterd_xarray.to_rasterd(data.drop_vars(["t", "x", "place"]), self.url)
        found = xarray.open_dataset(self.url, engine="rasterd").v
        numpy.testing.assert_array_equal(found.sel(y=8), data[:, 1])

    def test_a_failed_write_leaves_nothing(self):
        def broken(block):
            raise RuntimeError("no block")

        lazy = dask.array.map_blocks(
            broken, self.data.v.chunk({"y": 100}).data, dtype="int16", meta=numpy.empty((0, 0), "int16")
        )
        with self.assertRaisesRegex(RuntimeError, "no block"):
            rasterd_xarray.to_rasterd(xarray.DataArray(lazy, dims=("y", "x")), self.url)
        with rasterd.Session(port=self.port) as session:
            self.assertEqual(session.list(), [])

    def test_a_server_that_goes_away_in_a_write_is_noted(self):
        server = Server()
        self.addCleanup(server.kill)

        def killing(block):
            server.kill()
            raise RuntimeError("no block")

        lazy = dask.array.map_blocks(
            killing, self.data.v.chunk().data, dtype="int16", meta=numpy.empty((0, 0), "int16")
        )
        url = f"rasterd://127.0.0.1:{self.port},{server.name}/terrain"
        with self.assertRaisesRegex(RuntimeError, "no block") as raised:
            rasterd_xarray.to_rasterd(xarray.DataArray(lazy, dims=("y", "x")), url)
        self.assertIn(server.name, raised.exception.__notes__[0])
        with rasterd.Session(port=self.port) as session:
            self.assertEqual(session.list(), [])
        with self.assertRaisesRegex(rasterd_parts.NoAnswer, server.name):
            rasterd_xarray.to_rasterd(self.data.v, url)
        with rasterd.Session(port=self.port) as session:
            self.assertEqual(session.list(), [])

    def test_a_part_whose_insertion_got_no_reply_is_noted(self):
        """The second server does it, and goes away before it replies; the third one never was there."""
        cut_short = f"127.0.0.1:{self.behind_a_cut()}"
        with self.assertRaisesRegex(rasterd_parts.NoAnswer, f"no answer from {cut_short}") as raised:
            rasterd_xarray.to_rasterd(self.data.v, f"{self.url.replace('/terrain', '')},{cut_short}/terrain")
        (note,) = raised.exception.__notes__
        self.assertRegex(note, rf"^terrain_\d_\d with y\(\S+\),x\(\S+\) may have been made at {cut_short}$")
        with rasterd.Session(port=self.port) as session:
            self.assertEqual(session.list(), [note.split()[0]])
            session.delete(note.split()[0])
        with self.assertRaisesRegex(rasterd_parts.NoAnswer, "no answer from 127.0.0.1:1,") as raised:
            rasterd_xarray.to_rasterd(self.data.v, "rasterd://127.0.0.1:1/terrain")
        self.assertEqual(getattr(raised.exception, "__notes__", []), [])

    def behind_a_cut(self):
        """The port of a way to the server that ends before the reply to an insertion comes."""
        listener = socket.create_server(("127.0.0.1", 0))
        self.addCleanup(listener.close)

        def forward():
            with listener.accept()[0] as client, socket.create_connection(("127.0.0.1", self.port), LONGEST) as server:
                said = b""
                while b"fields=v" not in said:
                    said += client.recv(65536)
                server.sendall(said)
                server.recv(65536)

        threading.Thread(target=forward, daemon=True).start()
        return listener.getsockname()[1]

    def test_an_answer_of_another_server_is_no_answer(self):
        for said in [b"HTTP/1.1 502 Bad Gateway\r\nContent-Length: 2\r\n\r\nno", b"no HTTP\r\n\r\n"]:
            port = self.one_that_says(said)
            with self.subTest(said=said), self.assertRaisesRegex(
                rasterd_parts.NoAnswer, f"no answer from 127.0.0.1:{port}: which part of terrain it has is not known"
            ):
                rasterd_parts.find([f"127.0.0.1:{port}"], "terrain")

    def one_that_says(self, text):
        """The port of a server that says a text to the first that asks."""
        listener = socket.create_server(("127.0.0.1", 0))
        self.addCleanup(listener.close)

        def says():
            with listener.accept()[0] as client:
                said = b""
                while b"request=" not in said:
                    said += client.recv(65536)
                client.sendall(text)

        threading.Thread(target=says, daemon=True).start()
        return listener.getsockname()[1]

    def test_coordinates_of_a_place(self):
        rasterd_xarray.to_rasterd(self.data.v, self.url)
        with tempfile.NamedTemporaryFile("w", suffix=".json") as file:
            json.dump({"transform": [1000.0, 10.0, 0.0, 9000.0, 0.0, -20.0], "wkt": 'LOCAL_CS["here"]'}, file)
            file.flush()
            found = xarray.open_dataset(self.url, engine="rasterd", geo=file.name)
        self.assertEqual((float(found.x[0]), float(found.x[-1])), (1005.0, 1000 + 399.5 * 10))
        self.assertEqual(float(found.y[0]), 9000 - 20 * -99.5)
        self.assertEqual(found.spatial_ref.attrs["crs_wkt"], 'LOCAL_CS["here"]')
        self.assertEqual(int(found.v.sel(y=9000 + 20 * 99.5, x=1005.0)), int(self.data.v[0, 0]))


class FourServers(unittest.TestCase):
    """The raster in four parts, each on a file of its own, and a second server on a copy of the first part."""

    @classmethod
    def setUpClass(cls):
        cls.data = terrain()
        cls.folder = tempfile.mkdtemp()
        cls.addClassCleanup(shutil.rmtree, cls.folder)
        cls.servers = []
        for k, part in enumerate(quarters(cls.data)):
            stored(f"{cls.folder}/{k}", [part])
            cls.servers.append(Server(f"{cls.folder}/{k}"))
            cls.addClassCleanup(cls.servers[-1].kill)
        cls.copy = Server(f"{cls.folder}/0")
        cls.addClassCleanup(cls.copy.kill)
        cls.names = [it.name for it in cls.servers]
        cls.url = f"rasterd://{','.join(cls.names)}/terrain"
        cls.cluster = distributed.LocalCluster(
            4, threads_per_worker=2, processes=True, dashboard_address=None, silence_logs=logging.CRITICAL
        )
        cls.addClassCleanup(cls.cluster.close)
        cls.client = distributed.Client(cls.cluster)
        cls.addClassCleanup(cls.client.close)

    def found(self, patience=60):
        return rasterd_parts.find(self.names, "terrain", patience)

    def test_equal_to_numpy(self):
        found = xarray.open_dataset(self.url, engine="rasterd", chunks={})
        xarray.testing.assert_equal(found.compute(), self.data)
        means, wanted = found.mean().compute(), {it: self.data[it].values.mean() for it in self.data}
        for field in ("v", "kind", "wet"):
            self.assertEqual(float(means[field]), wanted[field])
        self.assertEqual(int(found.far.sum()), int(self.data.far.values.sum()))
        numpy.testing.assert_array_equal(found.v.max("y").values, self.data.v.values.max(0))

    def test_folds_where_the_cells_are(self):
        raster, v, far = self.found(), self.data.v.values, self.data.far.values
        for field, cells in [("v", v), ("far", far), ("kind", self.data.kind.values), ("wet", self.data.wet.values)]:
            exact = sum(cells.ravel().tolist())
            self.assertEqual(raster.sum(field), exact)
            self.assertEqual(raster.mean(field), exact / cells.size)
            self.assertEqual((raster.min(field), raster.max(field)), (int(cells.min()), int(cells.max())))
        self.assertEqual(rasterd_xarray.reduce(self.url, "mean", "v"), v.mean())

    def test_counts_and_zones(self):
        raster, v, kind, wet = self.found(), *(self.data[it].values for it in ("v", "kind", "wet"))
        self.assertEqual(raster.counts("kind", range(0, 7)), {k: int((kind == k).sum()) for k in range(7)})
        self.assertEqual(raster.counts("wet", range(0, 2)), {0: int((~wet).sum()), 1: int(wet.sum())})
        zones = {k: (int((kind == k).sum()), int(v[kind == k].sum(dtype="int64"))) for k in range(-1, 6)}
        self.assertEqual(raster.zonal("v", "kind", range(-1, 6)), zones)
        few = rasterd_parts.WORK
        self.addCleanup(setattr, rasterd_parts, "WORK", few)
        rasterd_parts.WORK = 2**20
        self.assertEqual(raster.zonal("v", "kind", range(-1, 6), of=self.found()), zones)

    def test_windows_and_focal_sums_across_the_seams(self):
        raster, v = self.found(), self.data.v.values.astype("int64")
        box = box_of(80, 110, 100, 150)
        numpy.testing.assert_array_equal(raster.cells("v", box), self.data.v.values[180:211, 100:151])
        for other in (box_of(80, 10**6, 100, 150), dict(reversed(box.items()))):
            with self.assertRaisesRegex(ValueError, "is no box inside"):
                raster.cells("v", other)
        for radius in (1, 3):
            windows = numpy.lib.stride_tricks.sliding_window_view(numpy.pad(v, radius), (2 * radius + 1,) * 2)
            found = rasterd_parts.focal_sum(raster.array("v", {"y": 64, "x": 90}), radius)
            numpy.testing.assert_array_equal(found.compute(), windows.sum((2, 3)))

    def test_chunks_are_whole_tiles_of_one_part(self):
        array = self.found().array("v")
        self.assertEqual(array.chunks, ((192, 208), (128, 272)))
        small = self.found().array("v", {"y": 64, "x": 128})
        self.assertEqual(small.chunks, ((64, 64, 64, 64, 64, 64, 16), (128, 128, 128, 16)))

    def test_many_parts_are_written(self):
        servers = [Server() for _ in range(3)]
        for it in servers:
            self.addCleanup(it.kill)
        url = f"rasterd://{','.join(it.name for it in servers)}/made"
        raster = rasterd_xarray.to_rasterd(self.data, url)
        self.assertGreaterEqual(len(raster.parts), 3)
        found = xarray.open_dataset(url, engine="rasterd", chunks={})
        xarray.testing.assert_equal(found.compute(), self.data)
        self.assertEqual(raster.sum("v"), int(self.data.v.values.sum(dtype="int64")))

    def test_a_raster_of_gdals_is_cut(self):
        import rioxarray
        from osgeo import gdal

        path, v = f"{self.folder}/terrain.tif", self.data.v.values
        made = gdal.GetDriverByName("GTiff").Create(path, SIDE, SIDE, 1, gdal.GDT_Int16)
        made.GetRasterBand(1).WriteArray(v)
        del made
        servers = [Server() for _ in range(2)]
        for it in servers:
            self.addCleanup(it.kill)
        url = f"rasterd://{','.join(it.name for it in servers)}/terrain"
        raster = rioxarray.open_rasterio(path, chunks={"y": 100, "x": 100}).isel(band=0, drop=True)
        rasterd_xarray.to_rasterd(raster.rename("v"), url)
        numpy.testing.assert_array_equal(xarray.open_dataset(url, engine="rasterd", chunks={}).v, v)

    # Servers that are down

    def test_a_server_that_is_down_is_named_with_its_part(self):
        raster = self.found(patience=1)
        self.servers[2].kill()
        self.addCleanup(self.servers[2].start)
        for work in [
            lambda: raster.sum("v"),
            lambda: raster.array("v").mean().compute(),
            lambda: raster.cells("v", box_of(100, 120, 0, 9)),
            lambda: raster.zonal("v", "kind", range(5)),
        ]:
            with self.assertRaises(rasterd_parts.NoAnswer) as raised:
                work()
            self.assertIn(self.names[2], str(raised.exception))
            self.assertIn("terrain_1_0 with y(92:299),x(0:127)", str(raised.exception))
        with self.assertRaisesRegex(rasterd_parts.NoAnswer, self.names[2]):
            self.found()
        # what needs no cell of it is answered
        self.assertEqual(raster.cells("v", box_of(-100, -100, 0, 0))[0, 0], self.data.v.values[0, 0])

    def test_a_raster_that_was_written_down_knows_the_part_of_a_server_that_is_down(self):
        path = f"{self.folder}/terrain.parts.json"
        self.found().save(path)
        self.servers[1].kill()
        self.addCleanup(self.servers[1].start)
        with self.assertRaisesRegex(rasterd_parts.NoAnswer, "terrain_0_1"):
            rasterd_parts.load(path, patience=0.5).sum("v")

    def test_a_server_is_killed_in_mid_query_and_comes_back(self):
        raster, ended = self.found(), []
        array = raster.array("far", {"y": 16, "x": 16})
        work = threading.Thread(target=lambda: ended.append((int(array.sum().compute()), raster.sum("v"))))
        with warnings.catch_warnings(record=True) as told:
            warnings.simplefilter("always")
            work.start()
            time.sleep(0.3)
            self.servers[3].kill()
            time.sleep(3)
            self.assertEqual(ended, [])
            self.servers[3].start()
            work.join(LONGEST)
        wanted = int(self.data.far.values.sum()), int(self.data.v.values.sum(dtype="int64"))
        self.assertEqual(ended, [wanted])
        named = f"no answer from {self.names[3]}, which has terrain_1_1 with y(92:299),x(128:399)"
        self.assertTrue(any(named in str(it.message) for it in told), told)

    def test_a_server_that_comes_back_empty_is_no_answer(self):
        server = Server()
        self.addCleanup(server.kill)
        url = f"rasterd://{server.name}/made"
        raster = rasterd_xarray.to_rasterd(self.data.v, url, patience=1)
        server.kill()
        server.start()
        with self.assertRaisesRegex(rasterd_parts.NoAnswer, server.name):
            raster.sum("v")

    def test_copies_are_asked_in_turn_and_stand_in(self):
        raster = rasterd_parts.find([*self.names, self.copy.name], "terrain", patience=1)
        self.assertEqual(raster.parts[0].servers, (self.names[0], self.copy.name))
        asked = []

        def ask(session):
            asked.append(session.connection.port)
            return session.list()

        for turn in range(4):
            rasterd_parts.asked(raster.parts[0], ask, 1, turn)
        self.assertEqual(asked, [self.servers[0].port, self.copy.port] * 2)
        self.servers[0].kill()
        self.addCleanup(self.servers[0].start)
        self.assertEqual(raster.mean("v"), self.data.v.values.mean())
        self.assertEqual(float(raster.array("v").mean().compute()), self.data.v.values.mean())

    def test_a_part_that_is_missing_is_told(self):
        with self.assertRaisesRegex(
            ValueError, r"parts of terrain are missing: no server has y\(-100:91\),x\(128:399\)"
        ):
            rasterd_parts.find(self.names[:1] + self.names[2:3] + self.names[3:], "terrain")
        with self.assertRaisesRegex(ValueError, "has no part of other"):
            rasterd_parts.find(self.names, "other")


class Cutting(unittest.TestCase):
    def test_parts_are_whole_tiles_and_small_enough(self):
        for domain, count in [
            (box_of(0, 9999, -5, 20000), 1),
            (box_of(0, 9999, 0, 9999), 1),
            (box_of(0, 999, 0, 999), 7),
            ({"x": (0, 2**26)}, 3),
            (box_of(0, 0, 0, 5), 4),
        ]:
            parts = [rasterd_parts.Part("c", box, ("s",)) for _, box in rasterd_parts.cut(domain, count)]
            rasterd_parts.Layout("c", parts)
            self.assertEqual(rasterd_parts.bounding([it.domain for it in parts]), domain)
            self.assertTrue(all(rasterd.points_of(it.domain) <= rasterd_parts.MOST_POINTS for it in parts))
            tile = rasterd_parts.TILE[len(domain)]
            if rasterd.points_of(domain) > 1000:
                self.assertGreaterEqual(len(parts), count)
                self.assertTrue(
                    all((lo - domain[axis][0]) % tile == 0 for it in parts for axis, (lo, _) in it.domain.items())
                )

    def test_parts_that_overlap(self):
        boxes = [box_of(0, 9, 0, 9), box_of(0, 9, 9, 19)]
        with self.assertRaisesRegex(ValueError, "overlap"):
            rasterd_parts.Layout("c", [rasterd_parts.Part("c", box, ("s",)) for box in boxes])

    def test_a_layout_of_many_parts(self):
        boxes = [box_of(64 * y, 64 * y + 63, 64 * x, 64 * x + 63) for y in range(100) for x in range(100)]
        parts = [rasterd_parts.Part(f"c_{k}", box, ("s",)) for k, box in enumerate(boxes)]
        raster = rasterd_parts.Raster("c", {"v": "u8"}, parts)
        self.assertEqual(raster.array("v").numblocks, (100, 100))


class Notebook(unittest.TestCase):
    def test_it_runs(self):
        import nbclient
        import nbformat

        book = nbformat.read(f"{TOP}/examples/area-by-class.ipynb", 4)
        with served(PROGRAM) as first, served(PROGRAM) as second:
            os.environ["RASTERD"] = f"127.0.0.1:{first},127.0.0.1:{second}"
            nbclient.NotebookClient(book, timeout=300, resources={"metadata": {"path": f"{TOP}/examples"}}).execute()
        told = [output for cell in book.cells for output in cell.get("outputs", [])]
        self.assertTrue(any("image/png" in it.get("data", {}) for it in told))
        self.assertFalse([it for it in told if it["output_type"] == "error"])
        self.assertTrue(any("equal to numpy" in it.get("text", "") for it in told))


if __name__ == "__main__":
    if not PROGRAM:
        sys.exit(__doc__)
    unittest.main(verbosity=2)
