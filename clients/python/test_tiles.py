#!/usr/bin/python3
"""Tests the gateway for QGIS by GDAL, which is what opens it there.

    clients/python/test_tiles.py PROGRAM

It needs Debian's packages python3-numpy and python3-gdal, and says so where one is missing.
"""

import json
import os
import signal
import subprocess
import sys
import tempfile
import unittest
import urllib.error
import urllib.request
from xml.etree import ElementTree

sys.dont_write_bytecode = True
try:
    import numpy
    from osgeo import gdal
except ImportError as missing:
    sys.exit(f"{missing}: install python3-numpy and python3-gdal, and run this with /usr/bin/python3")

HERE = os.path.dirname(os.path.abspath(__file__))
sys.path[:0] = [HERE, f"{HERE}/../../scripts"]
import rasterd
from served import LONGEST, connected, free_port, served

PROGRAM = os.path.abspath(sys.argv.pop(1)) if len(sys.argv) > 1 else sys.exit(__doc__)
WKT = """PROJCS["WGS 84 / UTM zone 32N",GEOGCS["WGS 84",DATUM["WGS_1984",SPHEROID["WGS 84",6378137,298.257223563]],
PRIMEM["Greenwich",0],UNIT["degree",0.0174532925199433]],PROJECTION["Transverse_Mercator"],
PARAMETER["latitude_of_origin",0],PARAMETER["central_meridian",9],PARAMETER["scale_factor",0.9996],
PARAMETER["false_easting",500000],PARAMETER["false_northing",0],UNIT["metre",1]]"""


class Tiles(unittest.TestCase):
    @classmethod
    def setUpClass(cls):
        gdal.UseExceptions()
        for name, value in [("GDAL_HTTP_PROXY", ""), ("GDAL_DISABLE_READDIR_ON_OPEN", "EMPTY_DIR")]:
            gdal.SetConfigOption(name, value)
        for name in [it for it in os.environ if it.lower().endswith("_proxy")]:
            del os.environ[name]
        cls.folder = cls.enterClassContext(tempfile.TemporaryDirectory())
        cls.port = cls.enterClassContext(served(PROGRAM))
        numbers = numpy.random.default_rng(3)
        cls.heights = numbers.integers(-(2**15), 2**15, (700, 500)).astype("int16")
        cls.kinds = numbers.integers(0, 256, (700, 500)).astype("uint8")
        box = {"y": (-100, 599), "x": (0, 499)}
        with rasterd.Session(port=cls.port, timeout=600) as session:
            session.insert("land", box, {"height": "i16", "kind": "u8", "wet": "bool", "far": "i64"})
            session.write("land", "height", cls.heights, box)
            session.write("land", "kind", cls.kinds, box)
            session.write("land", "wet", cls.kinds > 99, box)
            session.fill("land", "far", 10**12, box)
            session.insert("rain", {"t": (1, 3), "y": (0, 9), "x": (0, 19)}, {"mm": "u8"})
            session.write("rain", "mm", numpy.arange(600) % 256)
            session.insert("line", {"x": (0, 9)}, {"v": "u8"})
            session.insert("lost", {"y": (0, 9), "x": (0, 9)}, {"v": "u8"})
            for name in ("large_1_2", "own_1_2"):
                session.insert(name, {"y": (4096, 4105), "x": (8192, 8211)}, {"v": "u8"})
                session.write(name, "v", numpy.arange(200))
        with open(f"{cls.folder}/land.json", "w", encoding="utf-8") as file:
            json.dump({"transform": [500000.0, 20.0, 0.0, 5400000.0, 0.0, -20.0], "wkt": WKT}, file)
        for name, left in [("large", 500000.0), ("own", 0.0), ("own_1_2", 300000.0)]:
            with open(f"{cls.folder}/{name}.json", "w", encoding="utf-8") as file:
                json.dump({"transform": [left, 20.0, 0.0, 5400000.0, 0.0, -20.0], "wkt": WKT}, file)
        with open(f"{cls.folder}/rain.json", "w", encoding="utf-8") as file:
            json.dump({"transform": None, "wkt": ""}, file)
        cls.front = free_port()
        words = ["--listen", str(cls.front), "--port", str(cls.port), "--geo", cls.folder]
        gateway = subprocess.Popen([sys.executable, f"{HERE}/rasterd-tiles", *words])
        cls.addClassCleanup(gateway.wait)
        cls.addClassCleanup(gateway.kill)
        connected(cls.front, gateway).close()

    def opened(self, path):
        return gdal.Open(f"/vsicurl/http://127.0.0.1:{self.front}/{path}")

    def test_cells_are_the_coverages(self):
        for field, cells in [("height", self.heights), ("kind", self.kinds), ("wet", self.kinds > 99)]:
            raster = self.opened(f"land/{field}.vrt")
            numpy.testing.assert_array_equal(raster.ReadAsArray(), cells)
            numpy.testing.assert_array_equal(raster.ReadAsArray(130, 250, 200, 100), cells[250:350, 130:330])

    def test_every_nth_cell_where_less_is_wanted(self):
        raster = self.opened("land/kind.xml")
        self.assertEqual((raster.RasterXSize, raster.RasterYSize), (1024, 1024))
        band = raster.GetRasterBand(1)
        self.assertEqual(band.GetOverviewCount(), 2)
        found = band.GetOverview(1).ReadAsArray()
        numpy.testing.assert_array_equal(found[:175, :125], self.kinds[::4, ::4])
        self.assertEqual(found[175:].max(), 0)
        half = band.GetOverview(0).ReadAsArray()
        numpy.testing.assert_array_equal(half[:350, :250], self.kinds[::2, ::2])

    def test_it_lies_where_it_belongs(self):
        raster = self.opened("land/height.vrt")
        self.assertEqual(raster.GetGeoTransform(), (500000.0, 20.0, 0.0, 5402000.0, 0.0, -20.0))
        self.assertIn("UTM zone 32N", raster.GetProjection())
        self.assertEqual(self.opened("rain/mm.vrt").GetGeoTransform(), (0.0, 1.0, 0.0, 0.0, 0.0, -1.0))

    def test_a_part_lies_where_the_whole_raster_says(self):
        for name, left in [("large_1_2", 500000 + 8192 * 20), ("own_1_2", 300000 + 8192 * 20)]:
            raster = self.opened(f"{name}/v.vrt")
            self.assertEqual(raster.GetGeoTransform(), (left, 20.0, 0.0, 5400000 - 4096 * 20, 0.0, -20.0))
            self.assertIn("UTM zone 32N", raster.GetProjection())
            numpy.testing.assert_array_equal(raster.ReadAsArray(), numpy.arange(200).reshape(10, 20))

    def test_where_tiles_are_is_by_the_name_that_the_client_has(self):
        own = f"127.0.0.1:{self.front}"
        for head, host in [("Host: a&b<c\r\n", "a&b<c"), ("Host: localhost:7\r\n", "localhost:7"), ("", own)]:
            with self.subTest(head=head), connected(self.front) as client:
                client.sendall(f"GET /land/kind.vrt HTTP/1.0\r\n{head}\r\n".encode())
                with client.makefile("rb") as reply:
                    made = ElementTree.fromstring(reply.read().partition(b"\r\n\r\n")[2])
                source = ElementTree.fromstring(made.find(".//SourceFilename").text)
                self.assertEqual(source.find(".//ServerUrl").text, f"http://{host}/land/kind/${{z}}/${{x}}/${{y}}.png")

    def test_a_file_that_says_no_place_is_named(self):
        for kept in ("", "[]", '{"transform": [0, 1], "wkt": ""}', '{"transform": "abcdef", "wkt": ""}', '{"wkt": ""}'):
            with open(f"{self.folder}/lost.json", "w", encoding="utf-8") as file:
                file.write(kept)
            with self.subTest(kept=kept), self.assertRaises(urllib.error.HTTPError) as raised:
                urllib.request.urlopen(f"http://127.0.0.1:{self.front}/lost/v.vrt")
            self.assertEqual(raised.exception.code, 500)
            self.assertIn(f"{self.folder}/lost.json is no file of rasterd-load", raised.exception.read().decode())

    def test_gdal_translate(self):
        path = f"{self.folder}/made.tif"
        gdal.Translate(path, self.opened("land/height.vrt"))
        numpy.testing.assert_array_equal(gdal.Open(path).ReadAsArray(), self.heights)

    def test_axes_before_the_last_two(self):
        cells = (numpy.arange(600) % 256).reshape(3, 10, 20)
        numpy.testing.assert_array_equal(self.opened("rain/mm.vrt").ReadAsArray(), cells[0])
        numpy.testing.assert_array_equal(self.opened("rain/mm@3.vrt").ReadAsArray(), cells[2])

    def test_cells_of_more_than_16_bits_end_at_their_range(self):
        self.assertEqual(set(self.opened("land/far.vrt").ReadAsArray().ravel().tolist()), {32767})

    def test_what_is_not_there(self):
        for path, status, told in [
            ("land/none.vrt", 404, "no such layer"),
            ("line/v.vrt", 404, "no such layer"),
            ("other/v.vrt", 404, "refused 20"),
            ("land/kind/9/0/0.png", 404, "no such layer"),
            ("rain/mm@9/0/0/0.png", 400, "refused 62"),
            ("", 404, "no such layer"),
        ]:
            with self.subTest(path=path), self.assertRaises(urllib.error.HTTPError) as raised:
                urllib.request.urlopen(f"http://127.0.0.1:{self.front}/{path}")
            self.assertEqual(raised.exception.code, status)
            self.assertIn(told, raised.exception.read().decode())


class Away(unittest.TestCase):
    def setUp(self):
        # who starts the tests may have the signal ignored, and what is ignored stays so in a program that is started
        self.addCleanup(signal.signal, signal.SIGINT, signal.signal(signal.SIGINT, signal.default_int_handler))
        self.front, self.port = free_port(), free_port()
        words = ["--listen", str(self.front), "--port", str(self.port)]
        self.gateway = subprocess.Popen([sys.executable, f"{HERE}/rasterd-tiles", *words], stderr=subprocess.PIPE)
        self.addCleanup(self.gateway.communicate)
        self.addCleanup(self.gateway.kill)
        connected(self.front, self.gateway).close()

    def refused(self, path):
        """The status and the text of a refusal."""
        with self.assertRaises(urllib.error.HTTPError) as raised:
            urllib.request.urlopen(f"http://127.0.0.1:{self.front}/{path}")
        return raised.exception.code, raised.exception.read().decode()

    def test_a_server_that_is_away_is_named(self):
        status, told = self.refused("land/kind.vrt")
        self.assertEqual(status, 502)
        self.assertIn(f"no answer from 127.0.0.1:{self.port}", told)

    def test_ctrl_c_ends_it_without_a_word(self):
        self.assertEqual(self.refused(""), (404, "no such layer or tile\n"))
        self.gateway.send_signal(signal.SIGINT)
        self.assertEqual(self.gateway.communicate(timeout=LONGEST), (None, b""))
        self.assertEqual(self.gateway.returncode, 0)


if __name__ == "__main__":
    unittest.main(verbosity=2)
