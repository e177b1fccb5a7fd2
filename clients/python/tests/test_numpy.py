"""Arrays of numpy: written, read, and the forms that pass where a plain query is past a limit."""

import time

import numpy
from over_loopback import OverLoopback, rasterd
import rasterd_algebra


class Arrays(OverLoopback):
    def test_there_and_back(self):
        numbers = numpy.random.default_rng(1)
        for kind, of_field in [
            (numpy.uint8, "u8"),
            (numpy.int16, "i16"),
            (numpy.int32, "i32"),
            (numpy.int64, "i64"),
            (bool, "bool"),
        ]:
            cells = numbers.integers(0, 2, (300, 200)).astype(bool)
            if kind is not bool:
                ends = numpy.iinfo(kind)
                cells = numbers.integers(ends.min, ends.max, (300, 200), kind, endpoint=True)
                cells[0, :2] = ends.min, ends.max
            with self.subTest(of_field), self.session() as session:
                name = f"a_{of_field}"
                session.insert(name, {"y": (0, 299), "x": (0, 199)}, {"v": of_field})
                session.write(name, "v", cells)
                found = session.array(f"for c in ({name}) return encode(c, csv)")
                numpy.testing.assert_array_equal(found, cells)
                self.assertEqual(found.dtype, bool if kind is bool else numpy.int64)

    def test_fields(self):
        with self.session() as session:
            session.insert("w", {"y": (0, 1), "x": (-1, 0)}, {"v": "i32", "ok": "bool", "u": "u8"})
            session.write("w", "v", [[1, -2], [3, 4]])
            session.write("w", "ok", numpy.array([[True, False], [False, True]]))
            values, ok, other = session.array("for c in (w) return encode(c, csv)")
            numpy.testing.assert_array_equal(values, [[1, -2], [3, 4]])
            numpy.testing.assert_array_equal(ok, [[True, False], [False, True]])
            numpy.testing.assert_array_equal(other, numpy.zeros((2, 2)))
            self.assertEqual(session.array("for c in (w) return encode(c.v, csv)", (4,)).shape, (4,))
            with self.assertRaisesRegex(ValueError, "2 items"):
                session.array("for c in (w, w) return encode(c.v, csv)")
            with self.assertRaisesRegex(ValueError, "0 items"):
                session.array("for c in (w) where max(c.v) > 9 return encode(c.v, csv)")

    def test_an_array_of_another_shape_is_not_written(self):
        cells = numpy.arange(1, 7)
        with self.session() as session:
            session.insert("w", {"y": (0, 1), "x": (0, 2)}, {"v": "i16"})
            for wrong in [cells.reshape(3, 2), cells.reshape(6, 1), cells.reshape(1, 3, 2), cells.reshape(3, 2) / 1]:
                with self.assertRaisesRegex(ValueError, r"the box has the shape \(2, 3\), and the cells have"):
                    session.write("w", "v", wrong)
            self.assertEqual(session.query("for c in (w) return max(c)"), "0\n")
            for right in [cells, cells.reshape(2, 3), cells.reshape(2, 1, 3), cells.reshape(2, 3) / 1]:
                session.fill("w", "v", 0)
                session.write("w", "v", right)
                numpy.testing.assert_array_equal(
                    session.array("for c in (w) return encode(c, csv)"), [[1, 2, 3], [4, 5, 6]]
                )

    def test_cells_that_are_none_are_not_written(self):
        with self.session() as session:
            session.insert("w", {"y": (0, 0), "x": (0, 2)}, {"v": "i16", "ok": "bool"})
            for wrong, said in [
                (numpy.ma.array([1, 2, 3], mask=[False, True, False]), "cells are masked"),
                (numpy.array([1, 2, numpy.nan]), "nan.* is no cell"),
                (["7", "8", "9"], "'7' is no cell"),
                (numpy.array(["2026-01-01"] * 3, "datetime64[D]"), "is no cell"),
            ]:
                with self.subTest(said), self.assertRaisesRegex(ValueError, said):
                    session.write("w", "v", wrong)
            with self.assertRaisesRegex(ValueError, "cells are masked"):
                session.write("w", "ok", numpy.ma.array([True, True, True], mask=[False, True, False]))
            with self.assertRaises(rasterd.Refused):
                session.fill("w", "v", 7, {})
            self.assertEqual(session.query("for c in (w) return max(c.v)"), "0\n")
            for right in [[numpy.array([1, 2, 3])], numpy.matrix([1, 2, 3]), numpy.ma.array([1, 2, 3])]:
                session.fill("w", "v", 0)
                session.write("w", "v", right)
                self.assertEqual(session.query("for c in (w) return encode(c.v, csv)"), "1,2,3\n")

    def test_a_write_in_parts(self):
        cells = numpy.arange(700 * 900, dtype=numpy.int64).reshape(700, 900) * 10**12
        told = []
        with self.session() as session:
            session.insert("big", {"y": (0, 699), "x": (0, 899)}, {"v": "i64"})
            session.write("big", "v", cells, progress=lambda done, whole: told.append((done, whole)))
            self.assertGreater(len(told), 2)
            self.assertEqual(told[-1], (700 * 900, 700 * 900))
            numpy.testing.assert_array_equal(session.array("for c in (big) return encode(c, csv)"), cells)


class Algebra(OverLoopback):
    SIDE, BANDS, ZONES = 350, 6, 40

    def setUp(self):
        super().setUp()
        numbers = numpy.random.default_rng(3)
        self.zones = numbers.integers(3, 3 + self.ZONES, (self.SIDE, self.SIDE)).astype(numpy.int16)
        # one zone in the middle is empty
        self.zones[self.zones == 9] = 10
        self.bands = [numbers.integers(-500, 500, self.zones.shape, numpy.int16) for _ in range(self.BANDS)]
        # neither greatest nor least values may come from a 0
        self.bands[1:3] = self.bands[1] - 900, self.bands[2] + 900
        with self.session() as session:
            box = {"y": (0, self.SIDE - 1), "x": (0, self.SIDE - 1)}
            session.insert("image", box, {f"b{k}": "i16" for k in range(self.BANDS)})
            session.insert("zone", box, {"v": "i16"})
            session.write("zone", "v", self.zones)
            for k, band in enumerate(self.bands):
                session.write("image", f"b{k}", band)

    def by_numpy(self, band, operation):
        does = {
            "sum": numpy.sum,
            "count": len,
            "max": numpy.max,
            "min": numpy.min,
            "mean": lambda it: it.sum() // len(it),
        }
        return {int(zone): int(does[operation](band[self.zones == zone])) for zone in numpy.unique(self.zones)}

    def test_zonal(self):
        for k in range(3):
            for operation in ["sum", "count", "mean", "max", "min"]:
                found = rasterd_algebra.zonal(self.session(), f"image.b{k}", "zone", operation)
                self.assertEqual(found, self.by_numpy(self.bands[k].astype(int), operation))

    def test_what_is_written_between_its_requests_makes_no_number_that_never_was(self):
        """After each request of the tool all cells are others."""
        ask = rasterd.Session.query
        with self.session() as session:
            session.insert("w", {"x": (0, 3)}, {"v": "i16", "zone": "u8"})
            session.write("w", "zone", [0, 0, 1, 1])
        for operation, cell in [("max", -5), ("min", 9)]:
            self.session().write("w", "v", [1, 2, 3, 4])
            session = self.session()

            def query(text):
                answer = ask(session, text)
                self.session().fill("w", "v", cell)
                return answer

            session.query = query
            found = rasterd_algebra.zonal(session, "w.v", "w.zone", operation)
            self.assertEqual(found, {0: cell, 1: cell}, operation)

    def test_zones_of_each_type(self):
        for kind, cells in [
            ("u8", [0, 255, 7, 7]),
            ("i16", [-32768, 32767, -1, -2]),
            ("i32", [-(2**31), 2**31 - 1, 5, 6]),
            ("i64", [-(2**62), 2**62 - 1, 2**62 - 2, 0]),
        ]:
            with self.session() as session, self.subTest(kind):
                session.insert(kind, {"x": (0, 3)}, {"v": kind})
                session.write(kind, "v", cells)
                session.insert(f"zone_{kind}", {"x": (0, 3)}, {"v": "i16"})
                session.write(f"zone_{kind}", "v", [-1, -1, 1, 1])
                found = [rasterd_algebra.zonal(session, kind, f"zone_{kind}", it) for it in ("max", "min")]
                self.assertEqual(
                    found, [{-1: max(cells[:2]), 1: max(cells[2:])}, {-1: min(cells[:2]), 1: min(cells[2:])}]
                )

    def test_a_table_and_its_picture_where_the_template_is_refused(self):
        session, took = self.session(), []
        self.assert_refused(54, lambda: session.template("ZonalSum", "image.b0", second="zone"))
        for _ in range(3):
            begin = time.monotonic()
            pictures = [
                rasterd_algebra.zonal_picture(session, f"image.b{k}", "zone", "mean") for k in range(self.BANDS)
            ]
            took.append(time.monotonic() - begin)
        for band, picture in zip(self.bands, pictures):
            means = self.by_numpy(band, "mean")
            numpy.testing.assert_array_equal(picture, numpy.vectorize(means.get)(self.zones))
        print(f"{min(took):.2f} s for {self.BANDS} bands, ", end="", flush=True)

    def test_in_parts(self):
        """Where a table over all zones at once is too much work, and an answer of all cells too large."""
        cells = numpy.tile(self.bands[0], (4, 4))
        with self.session() as session:
            box = {"y": (-5, 4 * self.SIDE - 6), "x": (0, 4 * self.SIDE - 1)}
            session.insert("large", box, {"v": "i16", "zone": "i16"})
            session.write("large", "v", cells)
            session.write("large", "zone", numpy.tile(self.zones, (4, 4)) * 10)
        query = "for c in (large) return encode(c.v - avg(c.v), csv)"
        self.assert_refused(55, lambda: self.session().query(query))
        found = rasterd_algebra.zonal(self.session(), "large.v", "large.zone")
        self.assertEqual(found, {10 * zone: 16 * cell for zone, cell in self.by_numpy(self.bands[0], "sum").items()})
        numpy.testing.assert_array_equal(
            rasterd_algebra.cells(self.session(), "large.v", lambda c: f"{c} - 3"), cells.astype(int) - 3
        )
        low, high = int(cells.min()), int(cells.max())
        numpy.testing.assert_array_equal(
            rasterd_algebra.stretch(self.session(), "large.v"), (cells.astype(int) - low) * 255 // (high - low)
        )

    def test_histogram(self):
        band = self.bands[1].astype(int)
        for bins in [1, 7, 256, 5000]:
            found = rasterd_algebra.histogram(self.session(), "image.b1", bins)
            self.assertLessEqual(len(found), bins)
            width = -(-(band.max() - band.min() + 1) // bins)
            counts = numpy.bincount((band.ravel() - band.min()) // width)
            self.assertEqual(found, {int(band.min()) + k * width: int(it) for k, it in enumerate(counts)})

    def test_one_value_alone(self):
        with self.session() as session:
            session.insert("flat", {"x": (0, 9)}, {"v": "i64"})
            session.fill("flat", "v", 2**63 - 1)
            self.assertEqual(rasterd_algebra.histogram(session, "flat"), {2**63 - 1: 10})
            numpy.testing.assert_array_equal(rasterd_algebra.stretch(session, "flat"), numpy.zeros(10))
