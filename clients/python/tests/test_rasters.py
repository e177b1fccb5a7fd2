"""Rasters in and out by GDAL, and the workflows of the examples beside the same by numpy."""

import contextlib
import http.client
import importlib.machinery
import io
import os
import signal
import subprocess
import sys
import tempfile

import numpy
from osgeo import gdal, osr
from osgeo_utils import gdalcompare
from over_loopback import CLIENTS, PROGRAM, TOP, OverLoopback, rasterd
from served import LONGEST, free_port, until

import data
import workflows

gdal.UseExceptions()
ROTATED = (500000.0, 8.0, 3.0, 5500000.0, 3.0, -8.0)


def made(path, bands, kind, dress=lambda raster: None):
    """A GeoTIFF of some bands."""
    height, width = bands[0].shape
    raster = gdal.GetDriverByName("GTiff").Create(path, width, height, len(bands), kind)
    for number, band in enumerate(bands, 1):
        raster.GetRasterBand(number).WriteArray(band)
    dress(raster)
    raster.FlushCache()
    return path


def compared(one, other):
    """What gdalcompare.py says of two rasters, but for their bytes, and how many differences it finds."""
    with contextlib.redirect_stdout(io.StringIO()) as said:
        differences = gdalcompare.compare_db(gdal.Open(one), gdal.Open(other))
    return said.getvalue(), differences


class InAFolder(OverLoopback):
    def setUp(self):
        super().setUp()
        folder = tempfile.TemporaryDirectory()
        self.addCleanup(folder.cleanup)
        self.folder = folder.name

    def path(self, name):
        return os.path.join(self.folder, name)

    def loads(self, *words):
        status, said = self.tool("rasterd-load", *words)
        self.assertEqual(status, 0, said)
        return said

    def gets(self, *words):
        status, said = self.tool("rasterd-get", *words)
        self.assertEqual(status, 0, said)

    def refused(self, tool, *words):
        """What a tool says in its one line."""
        status, said = self.tool(tool, *words)
        self.assertEqual((status, said.count("\n")), (1, 1), said)
        return said

    def assert_equal_rasters(self, one, other):
        said, differences = compared(one, other)
        self.assertEqual(differences, 0, said)


class Rasters(InAFolder):
    def test_there_and_back(self):
        numbers = numpy.random.default_rng(1)
        for kind, of_gdal, of_field in [
            (numpy.uint8, gdal.GDT_Byte, "u8"),
            (numpy.int16, gdal.GDT_Int16, "i16"),
            (numpy.uint16, gdal.GDT_UInt16, "i32"),
            (numpy.int32, gdal.GDT_Int32, "i32"),
        ]:
            ends = numpy.iinfo(kind)
            bands = [numbers.integers(ends.min, ends.max, (600, 500), kind, endpoint=True) for _ in range(2)]
            name = f"c{of_gdal}"
            with self.subTest(of_field):
                said = self.loads(made(self.path("raster.tif"), bands, of_gdal), name, "--fields", "a,b")
                self.assertIn("600,000 of 600,000 cells", said)
                self.assertNotIn("not kept", said)
                self.assertEqual(
                    self.session().describe(name), ({"y": (0, 599), "x": (0, 499)}, {"a": of_field, "b": of_field})
                )
                self.gets(f"for c in ({name}) return encode(c, csv)", self.path("answer.tif"))
                answer = gdal.Open(self.path("answer.tif"))
                for number, band in enumerate(bands, 1):
                    numpy.testing.assert_array_equal(answer.GetRasterBand(number).ReadAsArray(), band)

    def test_a_rotated_raster_with_no_data_and_a_reference_system(self):
        cells = numpy.random.default_rng(2).integers(-100, 3000, (60, 80)).astype(numpy.int16)
        cells[10:20, 30:50] = -32768

        def dress(raster):
            raster.SetGeoTransform(ROTATED)
            raster.SetProjection(osr_of(25832))
            band = raster.GetRasterBand(1)
            band.SetNoDataValue(-32768)
            band.SetDescription("height")
            band.SetUnitType("m")

        source, geo, back = (
            made(self.path("dem.tif"), [cells], gdal.GDT_Int16, dress),
            self.path("geo"),
            self.path("b.tif"),
        )
        said = self.refused("rasterd-load", source, "dem")
        self.assertIn("no data in 200 cells of band1: --mask keeps apart", said)
        self.assertIn("gdal_translate -a_nodata none", said)
        self.assertEqual(self.session().list(), [])
        said = self.loads(source, "dem", "--mask")
        told = (
            "not kept: place, reference system, no-data, units, descriptions; --geo FILE keeps them for rasterd-get\n"
        )
        self.assertIn(told, said)
        said = self.loads(source, "dem", "--mask", "--geo", geo, "--replace")
        self.assertNotIn("not kept", said)
        self.assertEqual(self.session().describe("dem")[1], {"band1": "i16", "band1_ok": "bool"})
        query = "for c in (dem) return add(c.band1) / count(c.band1_ok)"
        self.assertEqual(int(self.session().query(query)), cells[cells > -32768].sum() // 4600)
        self.gets("for c in (dem) return encode(c, csv)", back, "--geo", geo)
        self.assert_equal_rasters(source, back)
        # and a comparison that is not blind
        cells[0, 0] += 1
        self.assertGreater(compared(made(self.path("other.tif"), [cells], gdal.GDT_Int16, dress), back)[1], 0)

    def test_a_part_and_each_third_cell_lie_where_they_belong(self):
        cells = numpy.arange(60 * 80, dtype=numpy.int16).reshape(60, 80)

        def dress(raster):
            raster.SetGeoTransform(ROTATED)
            raster.SetProjection(osr_of(25832))

        source, geo = made(self.path("dem.tif"), [cells], gdal.GDT_Int16, dress), self.path("geo")
        self.loads(source, "dem", "--geo", geo)
        self.gets(
            "for c in (dem) return encode(c[y(5:24), x(7:36)], csv)", self.path("a.tif"), "--geo", geo, "--at", "5,7"
        )
        gdal.Translate(self.path("wanted.tif"), source, srcWin=[7, 5, 30, 20])
        self.assert_equal_rasters(self.path("wanted.tif"), self.path("a.tif"))
        self.gets("for c in (dem) return encode(c[x(7:36), y(5:24)], csv)", self.path("c.tif"), "--geo", geo)
        self.assert_equal_rasters(self.path("wanted.tif"), self.path("c.tif"))
        query = "for c in (dem) return encode(coverage s over $y y(0:5), $x x(0:8) values c[y(6 + 3 * $y), x(9 + 3 * $x)], csv)"
        self.gets(query, self.path("b.tif"), "--geo", geo, "--at", "6,9", "--step", "3")
        answer = gdal.Open(self.path("b.tif"))
        left, across, skew, top, lean, down = ROTATED
        wanted = (left + 9 * across + 6 * skew, 3 * across, 3 * skew, top + 9 * lean + 6 * down, 3 * lean, 3 * down)
        self.assertEqual(answer.GetGeoTransform(), wanted)
        numpy.testing.assert_array_equal(answer.ReadAsArray(), cells[6:24:3, 9:36:3])

    def test_cells_that_are_computed_are_written_as_they_come(self):
        source = made(self.path("a.tif"), [numpy.array([[100, 200], [250, 7]], numpy.uint8)], gdal.GDT_Byte)
        self.loads(source, "a", "--geo", self.path("geo"))
        self.gets("for c in (a) return encode(c * 2, csv)", self.path("b.tif"), "--geo", self.path("geo"))
        numpy.testing.assert_array_equal(gdal.Open(self.path("b.tif")).ReadAsArray(), [[200, 400], [500, 14]])

    def test_decimals(self):
        cells = (numpy.random.default_rng(4).integers(-90000, 90000, (50, 40)) / 100).astype(numpy.float32)
        cells[3, 4:9] = numpy.nan
        source, geo = made(self.path("t.tif"), [cells], gdal.GDT_Float32), self.path("geo")
        said = self.refused("rasterd-load", source, "t")
        self.assertIn("no field type holds cells of Float32: --scale N stores N times the number", said)
        self.assertIn("no data in 5 cells", self.refused("rasterd-load", source, "t", "--scale", "100"))
        self.loads(source, "t", "--scale", "100", "--mask", "--geo", geo)
        self.assertEqual(self.session().describe("t")[1], {"band1": "i32", "band1_ok": "bool"})
        self.gets("for c in (t) return encode(c, csv)", self.path("back.tif"), "--geo", geo)
        answer = gdal.Open(self.path("back.tif"))
        self.assertEqual(answer.GetRasterBand(1).DataType, gdal.GDT_Float32)
        numpy.testing.assert_array_equal(answer.ReadAsArray(), cells)
        self.assertIn("leave 64 bits", self.refused("rasterd-load", source, "u", "--mask", "--scale", str(10**17)))
        self.assertEqual(self.session().list(), ["t"])

    def test_colours_and_scale_come_back(self):
        cells = numpy.random.default_rng(5).integers(0, 4, (30, 30)).astype(numpy.uint8)

        def dress(raster):
            table = gdal.ColorTable()
            for k in range(256):
                table.SetColorEntry(k, (k, 255 - k, 7 * k % 256, 255))
            raster.GetRasterBand(1).SetColorTable(table)
            raster.GetRasterBand(1).SetScale(0.5)
            raster.GetRasterBand(1).SetOffset(3)
            raster.SetMetadataItem("AREA", "Luxembourg")

        source, geo = made(self.path("cover.tif"), [cells], gdal.GDT_Byte, dress), self.path("geo")
        self.assertIn("not kept: scale and offset, colour table, metadata; --geo", self.loads(source, "cover"))
        self.loads(source, "cover", "--geo", geo, "--replace")
        self.gets("for c in (cover) return encode(c, csv)", self.path("back.tif"), "--geo", geo)
        self.assert_equal_rasters(source, self.path("back.tif"))
        rasters = [gdal.Open(it) for it in (source, self.path("back.tif"))]
        tables = [it.GetRasterBand(1).GetColorTable() for it in rasters]
        self.assertEqual(*[[table.GetColorEntry(k) for k in range(256)] for table in tables])

    def test_a_place_that_is_no_transform(self):
        cells, geo = numpy.arange(20, dtype=numpy.int16).reshape(4, 5), self.path("geo")
        corners = [(0, 0), (100, 2), (3, -80), (99, -81)]
        points = [gdal.GCP(x, y, 0, column, row) for (x, y), column, row in zip(corners, (0, 5, 0, 5), (0, 0, 4, 4))]
        coefficients = {
            f"{it}_{end}": "1" for it in ("LINE", "SAMP", "LAT", "LONG", "HEIGHT") for end in ("OFF", "SCALE")
        }
        for it in ("LINE_NUM", "LINE_DEN", "SAMP_NUM", "SAMP_DEN"):
            coefficients[f"{it}_COEFF"] = " ".join(["1"] * 20)
        for name, way, dress in [
            ("points", "control points", lambda raster: raster.SetGCPs(points, osr_of(25832))),
            ("rpc", "RPCs", lambda raster: raster.SetMetadata(coefficients, "RPC")),
        ]:
            source = made(self.path(f"{name}.tif"), [cells], gdal.GDT_Int16, dress)
            told = f"{source} is placed by {way}, which are not kept: gdalwarp it first\n"
            self.assertEqual(self.refused("rasterd-load", source, name, "--geo", geo), told)
            self.assertEqual((self.session().list(), os.path.exists(geo)), ([], False))
            self.assertIn(told, self.loads(source, name))
            numpy.testing.assert_array_equal(self.session().array(f"for c in ({name}) return encode(c, csv)"), cells)
            self.session().delete(name)
        gdal.Warp(self.path("warped.tif"), self.path("points.tif"))
        self.assertNotIn("gdalwarp", self.loads(self.path("warped.tif"), "points", "--geo", geo))

    def test_parts(self):
        cells = numpy.zeros((4100, 4099), numpy.uint8)
        cells[4095:4097, 4094:4098] = [[1, 2, 3, 4], [5, 6, 7, 8]]
        source = made(self.path("large.tif"), [cells], gdal.GDT_Byte)
        self.assertIn("--parts cuts it", self.refused("rasterd-load", source, "large"))
        self.assertIn("16,805,900 of 16,805,900 cells", self.loads(source, "large", "--parts"))
        session = self.session()
        self.assertEqual(session.list(), ["large_0_0", "large_0_1", "large_1_0", "large_1_1"])
        self.assertEqual(session.describe("large_1_1")[0], {"y": (4096, 4099), "x": (4096, 4098)})
        for name, box, wanted in [
            ("large_0_0", "y(4095:4095),x(4094:4095)", "1,2\n"),
            ("large_0_1", "y(4095:4095),x(4096:4097)", "3,4\n"),
            ("large_1_0", "y(4096:4096),x(4094:4095)", "5,6\n"),
            ("large_1_1", "y(4096:4096),x(4096:4098)", "7,8,0\n"),
        ]:
            self.assertEqual(session.query(f"for c in ({name}) return encode(c[{box}], csv)"), wanted)
        small, geo, back = (
            made(self.path("small.tif"), [cells[:10, :10]], gdal.GDT_Byte),
            self.path("geo"),
            self.path("b.tif"),
        )
        self.loads(small, "large", "--parts", "--replace", "--geo", geo)
        self.assertEqual(session.list(), ["large_0_0"])
        self.gets("for c in (large_0_0) return encode(c, csv)", back, "--geo", geo)
        self.assert_equal_rasters(small, back)

    def test_cells_as_they_are_of_another_coverage_are_refused(self):
        geo, back = self.path("geo"), self.path("back.tif")
        source = made(self.path("a.tif"), [numpy.array([[1, 2], [3, 4]], numpy.uint8)] * 2, gdal.GDT_Byte)
        self.loads(source, "a", "--geo", geo)
        for name in ("b", "a_1", "a_0_1_2"):
            self.loads(source, name)
            said = self.refused("rasterd-get", f"for c in ({name}) return encode(c, csv)", back, "--geo", geo)
            self.assertEqual(said, f"{geo} is of the coverage a, and the query asks for {name}\n")
        self.gets("for c in (a) return encode(c . band2, csv)", back, "--geo", geo)
        numpy.testing.assert_array_equal(gdal.Open(back).ReadAsArray(), [[1, 2], [3, 4]])
        self.loads(source, "a", "--fields", "band1,other", "--replace")
        said = self.refused("rasterd-get", "for c in (a) return encode(c[x(0:0)], csv)", back, "--geo", geo)
        self.assertEqual(said, f"{geo} is of a coverage with the fields band1, band2, and a has band1, other\n")


class Deleting:
    """A session that says of each coverage that is to be deleted what is wanted."""

    def __init__(self, **said):
        self.said, self.deleted = said, []

    def delete(self, name):
        self.deleted.append(name)
        if self.said[name]:
            raise self.said[name]


class Faults(InAFolder):
    def test_each_coverage_of_a_load_that_ends_is_taken_away_or_named(self):
        load = importlib.machinery.SourceFileLoader("rasterd_load", f"{CLIENTS}/rasterd-load").load_module()
        gone, refused = rasterd.Refused(20, "NoSuchCoverage", 404), rasterd.Refused(91, "DiskFault", 500)
        silent = rasterd.NotUnderstood("status 502: ''")
        session, names = Deleting(a=gone, b=silent, c=http.client.BadStatusLine("x"), d=refused, e=None), list("abcde")
        with contextlib.redirect_stderr(io.StringIO()) as said:
            load.take_away(session, names)
        self.assertEqual(session.deleted, names)
        told = "may be there, with a part of the raster alone: delete it"
        wanted = f"\nb {told} (status 502: '')\n\nc {told} (x)\n\nd {told} (91 DiskFault)\n"
        self.assertEqual(said.getvalue(), wanted)
        session = Deleting(a=None, b=KeyboardInterrupt(), c=None)
        with contextlib.redirect_stderr(io.StringIO()) as said, self.assertRaises(KeyboardInterrupt):
            load.take_away(session, ["a", "b", "c"])
        self.assertEqual(said.getvalue(), f"\nb {told} (stopped)\n\nc {told} (stopped)\n")

    def test_what_is_told_in_one_line(self):
        source = made(self.path("a.tif"), [numpy.ones((3, 4), numpy.uint8)], gdal.GDT_Byte)
        wide = made(self.path("c.tif"), [numpy.ones((3, 4), numpy.complex64)], gdal.GDT_CFloat32)
        two = made(self.path("d.tif"), [numpy.ones((3, 4), numpy.uint8)] * 2, gdal.GDT_Byte)
        self.loads(source, "a", "--geo", self.path("geo"))
        with open(self.path("list"), "w", encoding="utf-8") as file:
            file.write("[1]")
        for tool, words, said in [
            ("rasterd-load", [self.path("none.tif"), "b"], "none.tif"),
            ("rasterd-load", [source, "a"], "there is a coverage a: take another name, or --replace it"),
            ("rasterd-load", [source, "my-dem"], "refused 14 BadValue: `coverage`: `my-dem` is no name"),
            ("rasterd-load", [source, "b", "--fields", "v,w"], "the raster has 1 bands, and 2 names are given"),
            ("rasterd-load", [source, "b", "--geo", self.path("none/geo")], "none/geo.new: No such file or directory"),
            ("rasterd-load", [wide, "b"], "no field type holds cells of CFloat32"),
            ("rasterd-load", [source, "b", "--geo", self.folder], "is a folder: --geo takes a file"),
            (
                "rasterd-get",
                ["for c in (a) return 1", self.path("b.tif"), "--geo", self.path("geo"), "--step", "0"],
                "--step 0: a step is 1 or more",
            ),
            ("rasterd-load", [two, "b", "--fields", "v,v"], "--fields v,v: a name is given twice"),
            ("rasterd-get", ["for c in (none) return 1", self.path("b.tif")], "refused 20 NoSuchCoverage: "),
            ("rasterd-get", ["for c in (a) return sum(c)", self.path("b.tif")], "1:21: `sum` does not fit"),
            ("rasterd-get", ["for c in (a, a) return 1", self.path("b.tif")], "the answer has 2 items"),
            (
                "rasterd-get",
                ["for c in (a) return 1", self.path("b.tif"), "--geo", self.path("no")],
                "no: No such file",
            ),
            (
                "rasterd-get",
                ["for c in (a) return 1", self.path("b.tif"), "--geo", self.path("list")],
                "list is no file of",
            ),
            ("rasterd-get", ["for c in (a) return 1", self.path("b.tif"), "--geo", source], "a.tif is no file of"),
            ("rasterd-get", ["for c in (a) return 300", self.path("b.png")], "a PNG has cells from 0 to 255: ask"),
            (
                "rasterd-get",
                ["for c in (a) return {a: 1; b: 2}", self.path("b.png")],
                "one field in grey or three in colours, and the answer has 2",
            ),
        ]:
            with self.subTest(words=words):
                self.assertIn(said, self.refused(tool, *words))
        self.assertEqual(self.session().list(), ["a"])
        for words in [("rasterd-load", source, "b"), ("rasterd-get", "for c in (a) return 1", self.path("b.tif"))]:
            status, said = self.tool(*words, port=1)
            self.assertEqual((status, said), (1, "no answer from 127.0.0.1:1: [Errno 111] Connection refused\n"))

    def large(self):
        cells = numpy.random.default_rng(6).integers(0, 255, (3000, 3000)).astype(numpy.uint8)
        return made(self.path("a.tif"), [cells], gdal.GDT_Byte), cells

    @contextlib.contextmanager
    def loading(self, source):
        """A load, from when its coverage is there."""
        words = [sys.executable, f"{CLIENTS}/rasterd-load", source, "a", "--port", str(self.port)]
        with subprocess.Popen(words, stderr=subprocess.PIPE, text=True) as running:
            until(lambda: running.poll() is not None or "a" in self.session().list(), "the coverage of a load")
            self.assertIsNone(running.poll())
            yield running

    def test_a_load_that_is_interrupted_leaves_no_coverage(self):
        for number in [signal.SIGINT, signal.SIGTERM]:
            with self.loading(self.large()[0]) as running:
                running.send_signal(number)
                said = running.communicate(timeout=LONGEST)[1]
            self.assertEqual((running.returncode, said.splitlines()[-1]), (1, "stopped"))
            self.assertEqual(self.session().list(), [])

    def test_a_load_that_is_refused_leaves_no_coverage(self):
        """The coverage is deleted meanwhile."""
        with self.loading(self.large()[0]) as running:
            self.session().delete("a")
            said = running.communicate(timeout=LONGEST)[1]
        self.assertEqual(running.returncode, 1)
        self.assertIn("refused 20 NoSuchCoverage", said.splitlines()[-1])
        self.assertEqual(self.session().list(), [])

    def test_a_load_goes_on_beside_a_job_that_reads_its_coverage(self):
        """The job answers by the part that was there at its submission."""
        source, cells = self.large()
        with self.loading(source) as running:
            job, left = self.session().submit("for c in (a) return add(c)")
            part = int(self.session().query("for c in (a) return add(c)"))
            said = running.communicate(timeout=LONGEST)[1]
        self.assertEqual(running.returncode, 0, said)
        session = self.session()
        while left:
            left = session.step(job, 1000)
        self.assertLessEqual(int(session.fetch(job)), part)
        self.assertEqual(int(session.query("for c in (a) return add(c)")), int(cells.sum()))

    def test_a_load_goes_on_over_the_ends_of_runs(self):
        port, (source, cells) = free_port(), self.large()
        words = [f"{TOP}/deploy/serve", self.path("store"), str(port), "7"]
        with subprocess.Popen(words, env={**os.environ, "SERVER": PROGRAM}, stderr=subprocess.DEVNULL) as serving:
            try:
                until(lambda: os.path.exists(self.path("store")), "the file of a server")
                status, said = self.tool("rasterd-load", source, "a", port=port)
                self.assertEqual(status, 0, said)
                self.assertEqual(int(until(lambda: self.added(port), "an answer of a run")), int(cells.sum()))
            finally:
                serving.terminate()

    def added(self, port):
        """The sum of the cells, or nothing where a run has ended."""
        with contextlib.suppress(ConnectionError):
            return rasterd.Session(port=port, timeout=LONGEST).query("for c in (a) return add(c)")

    def test_a_picture(self):
        with self.session() as session:
            session.insert("w", {"y": (0, 1), "x": (0, 1)}, {"v": "i16"})
            session.write("w", "v", [0, 100, 200, 1000])
        self.gets("for c in (w) return encode(c, csv)", self.path("answer.png"), "--stretch")
        numpy.testing.assert_array_equal(gdal.Open(self.path("answer.png")).ReadAsArray(), [[0, 26], [51, 255]])


def osr_of(code):
    found = osr.SpatialReference()
    found.ImportFromEPSG(code)
    return found.ExportToWkt()


class Workflows(OverLoopback):
    """The workflows of the examples beside the same by numpy."""

    def test_all(self):
        heights = data.terrain()
        classes, areas = data.cover(heights), data.districts()
        grown = data.later(classes)
        with self.session() as session, tempfile.TemporaryDirectory() as folder, contextlib.redirect_stdout(None):
            for name, cells, kind in [
                ("terrain", heights, "i16"),
                ("cover", classes, "u8"),
                ("later", grown, "u8"),
                ("district", areas, "u8"),
            ]:
                workflows.load(session, name, cells, kind)
            counts = workflows.area_by_class(session, folder)
            numpy.testing.assert_array_equal(
                counts,
                [[((areas == d) & (classes == k)).sum() for k in range(1, 6)] for d in range(1, data.DISTRICTS + 1)],
            )
            counts = workflows.change(session, folder)
            numpy.testing.assert_array_equal(
                counts, [[((classes == f) & (grown == t)).sum() for t in range(1, 6)] for f in range(1, 6)]
            )
            smoothed, relief = workflows.focal(session, folder)
            windows = numpy.lib.stride_tricks.sliding_window_view
            numpy.testing.assert_array_equal(smoothed, windows(heights.astype(int), (5, 5)).sum((2, 3)) // 25)
            padded = windows(numpy.pad(heights.astype(int), 1, "edge"), (3, 3))
            numpy.testing.assert_array_equal(relief, padded.max((2, 3)) - padded.min((2, 3)))
