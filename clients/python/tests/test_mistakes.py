"""Each mistake that people make is told in a way that names what to change."""

import collections
import os
import random
import re
import subprocess
import sys

from over_loopback import CLIENTS, TOP, OverLoopback, rasterd
import rasterd_why

MUTATED = 400

# What people write, and what the client says of it: the place, and some words.
TEXTS = [
    (
        "for c in (hill) return sqrt(max(c))",
        "1:24: `sqrt` does not fit: there is no function `sqrt`; there are abs, bit",
    ),
    ("for c in (hill) return sum(c)", "1:24: `sum` does not fit: it is called `add` here"),
    ("for c in (hill) return encode(c == 3, csv)", "1:34: `=` does not fit: equality is one `=`"),
    ("for c in (hill) return c > 0.5", "1:30: `5` does not fit: numbers are whole: there is no floating point"),
    ("for c in (hill) return encode(c[y(0:*)], csv)", "1:37: `*` does not fit: `*` is no bound"),
    ("for c in (hill) return max(c);", "1:30: `;` does not fit: a query ends without `;`"),
    ("for c in (hill) return switch case c > 1 return 1", "there is no `case`; choose by arithmetic"),
    ("for c in (hill) let m := max(c) return m", "1:17: `let` does not fit: there is no `let`"),
    (
        "for c in (hill) return encode(trim(c, {y(0:1)}), csv)",
        "1:31: `trim` does not fit: there is no `trim`; trims are",
    ),
    ("for c in (hill) return encode((float) c, csv)", "1:39: `c` does not fit: there are no casts"),
    ("for c in (hill) return encode(c, png)", "1:34: `png` does not fit: csv is the only format"),
    ('for c in (hill) return encode(c, "png")', '1:34: "png" is no format; csv is the only one'),
    ("SELECT * FROM hill", "1:1: `SELECT` does not fit: a query begins with `for`"),
    ("for c in (hill) return encode(c   1, csv)", "1:35: `1` does not fit: after `c` an operator is missing"),
    ("for c in (hill) return encode(c, csv) -- all", "1:39: `-` does not fit: there are no comments"),
    ("for c in (hill) return max(c) % 2", "1:31: `%` begins no token: there is no remainder"),
    ("for c in (hill) return max(c) <> 2", "1:32: `>` does not fit: unequal is `!=`"),
    (
        "for c in (hill) return encode(\n  c[y(1:2)] + ,\n  csv)",
        "2:15: `,` does not fit; here could stand an expression",
    ),
    ("for c in (hill) return encode(c", "1:32: the text ends too soon; here could stand `,`"),
    ("for c in hill return max(c)", "1:10: `hill` does not fit; here could stand `(`"),
    ("for c (hill) return 1", "1:7: `(` does not fit; here could stand `in`"),
    (
        "for c in (hill) return max(c) where c > 1",
        "1:31: `where` does not fit: `where` stands before `return`, or behind",
    ),
    ("for c in (hill) return 9223372036854775808", "1:24: a number is at most 9223372036854775807"),
    (f"for c in (hill) return {'0' * 5000}8 / {'9' * 5000}", "1:5028: a number is at most 9223372036854775807"),
    (f"for c in (hill) return {'-' * 70}1", "nested more than 64 deep"),
    (f"for c in (hill) return {'(' * 513}1{')' * 513}", "more than 512 brackets"),
    ("for c in (hill) return d", "40 UnknownName: 1:24: `d`: nothing binds it; bound are c"),
    ("for c in (hill), c in (land) return 1", "41 NameTaken: `for` binds `c` twice"),
    ("for c in (land) return 2 * max(abs(c.moist) + 1)", "1:36: `c.moist`: there is no field `moist`"),
    ("for c in (land) return encode(c.moist, csv)", "1:31: `c.moist`: there is no field `moist`; there are kind, wet"),
    (
        "for c in (hill) return encode(c[lat(0)], csv)",
        "1:31: `c[lat(0)]`: there is no such axis; there are y(0:2), x(0:3)",
    ),
    ("for c in (hill) return c[y(0), y(1)]", "`c[y(0), y(1)]`: an axis is named twice"),
    ("for c in (hill) return encode(c + c[x(0:1)], csv)", "the domains differ: y(0:2),x(0:3) and y(0:2),x(0:1)"),
    ("for c in (hill) return encode(c[y(0:9)], csv)", "1:31: `c[y(0:9)]`: it does not lie inside y(0:2),x(0:3)"),
    ("for c in (hill) return c[y(c), x(0)]", "1:24: `c[y(c), x(0)]`: a value with axes stands where a scalar must"),
    ("for c in (hill) return count(c)", "1:24: `count(c)`: a number stands where a Boolean must: compare it"),
    ("for c in (land) return add(c.wet)", "1:24: `add(c.wet)`: a Boolean stands where a number must: `count(..)`"),
    ("for c in (land) return max(c)", "1:24: `max(c)`: it has several fields: select one, as `.kind`"),
    (
        "for c in (hill), l in (land) return encode(c + l, csv)",
        "1:44: `c + l`: it has several fields: select one, as `.kind`",
    ),
    ("for c in (hill) where {a: true; b: true} return 1", "1:23: `{a: true; b: true}`: it has several fields"),
    ("for c in (hill) return encode(coverage m over $i a(0:2) value list <1; 2>, csv)", "it has 2 items"),
    ("for c in (hill) return (c + 1) * 2", "1:24: `(c + 1) * 2`: it has axes: write encode(.., csv) around it"),
    (
        "for c in (hill) return encode(c[y(2:1)], csv)",
        "1:31: `c[y(2:1)]`: a lower bound stands above its upper one, in y(2:1)",
    ),
    (
        "for c in (hill) return encode(c[x(0:1), y(0:3000000000)], csv)",
        "`c[x(0:1), y(0:3000000000)]`: a bound is outside of -2147483648 to 2147483647, in y(0:3000000000)",
    ),
    (
        "for c in (hill) return condense + over $i y(0:2), $j x(-2147483649:0) using 1",
        "a bound is outside of -2147483648 to 2147483647, in x(-2147483649:0)",
    ),
    ("for c in (hill) return encode(coverage m over $i a(5:4) value list <1>, csv)", "its upper one, in a(5:4)"),
    (
        "for c in (hill) return encode(coverage m over $i a(0:4096), $j b(0:4096) values 1, csv)",
        "it has more than 6 iterators, or its box more than 16,777,216 points",
    ),
    ("for c in (hill) where c return 1", "1:23: `c`: a value with axes stands where a scalar must"),
    ("for c in (hill) where max(c) return 1", "1:23: `max(c)`: a number stands where a Boolean must"),
    ("for c in (hill) return max(c / 0)", "61 DivideByZero: exclude the zeros"),
    ("for c in (hill) return c[y(3), x(0)]", "62 OutOfDomain: the position of a slice is outside"),
    (
        "for c in (hill) return condense max over $i y(0:2) where false using $i",
        "63 EmptyCondense: a `condense` of `max` or `min` had no points, as its `where` was true nowhere",
    ),
    (
        "for a in (hill, flat), b in (hill, flat), c in (hill, flat), d in (hill, flat), e in (hill, flat),"
        " f in (hill, flat), g in (hill, flat) return 1",
        "56 TooManyCombinations: the `for` list has more than 64 combinations of coverages: ask for some of them",
    ),
]

# Pairs of a request that is refused, and what the client says of it.
REQUESTS = [
    (
        "InsertCoverage",
        dict(coverage="in", domain="x(0:9)", fields="v:i16"),
        "14 BadValue: `coverage`: `in` is a word of",
    ),
    ("InsertCoverage", dict(coverage="my-dem", domain="x(0:9)", fields="v:i16"), "`coverage`: `my-dem` is no name"),
    (
        "InsertCoverage",
        dict(coverage="a", domain="x(0:9), y(0:9)", fields="v:i16"),
        "`domain`: ` y(0:9)` is not spelled",
    ),
    (
        "InsertCoverage",
        dict(coverage="a", domain="x(0:9)", fields="v:int16"),
        "`fields`: `int16` is no type: write v:i16",
    ),
    ("InsertCoverage", dict(coverage="a", domain="x(0:9)", fields="v"), "`fields`: `v` has no type: write v:i16"),
    (
        "InsertCoverage",
        dict(coverage="a", domain="x(0:9)", fields="count:i16"),
        "`fields`: `count` is a word of the lang",
    ),
    (
        "InsertCoverage",
        dict(coverage="a", domain="add(0:9)", fields="v:i16"),
        "`domain`: `add` is a word of the language",
    ),
    (
        "UpdateCoverage",
        dict(coverage="hill", field="v", box="y(0:0),x(0:1)", values="1, 2"),
        "`values`: ` 2` is no cell",
    ),
    ("UpdateCoverage", dict(coverage="hill", field="v", box="y(0:0),x(0:1)", fill="nan"), "`fill`: `nan` is no cell"),
    (
        "UpdateCoverage",
        dict(coverage="hill", field="v", box="y(0:0)", fill="1", values="1"),
        "one of `fill` and `values`",
    ),
    (
        "UpdateCoverage",
        dict(coverage="hill", field="v", box="x(0:1),y(0:0)", fill="1"),
        "24 OutsideDomain: the box has to name the axes in this order, and to lie inside: y(0:2),x(0:3)",
    ),
    ("UpdateCoverage", dict(coverage="land", field="v", box="y(0:0),x(0:0)", fill="1"), "the fields are kind, wet"),
    (
        "InsertCoverage",
        dict(coverage="a", domain="y(0:4999),x(0:4999)", fields="v:u8"),
        "22 BadDomain: a coverage has 1 to",
    ),
    (
        "InsertCoverage",
        dict(coverage="a", domain="a(0:1),b(0:1),c(0:1),d(0:1),e(0:1),f(0:1),g(0:1)", fields="v:u8"),
        "22 BadDomain: a coverage has 1 to 6 axes",
    ),
    ("DeleteCoverage", dict(coverage="Hill"), "20 NoSuchCoverage: there is no coverage `Hill`: ListCoverages tells"),
    (
        "UpdateCoverage",
        dict(coverage="hill", field="v", box="y(0:0),x(0:1)", values="1," * 600000 + "1"),
        "2 BodyTooLong: a body has at most 1,048,576 bytes: send the cells in several",
    ),
    (
        "UpdateCoverage",
        dict(coverage="hill", field="v", box="y(0:0),x(0:1)", fill="-" + 5000 * "7"),
        "14 BadValue: `fill`: `-7777777",
    ),
    ("StepJob", dict(job="9" * 5000, units="1"), "14 BadValue: `job`: `9999999"),
    ("StepJob", dict(job="1", units="0"), "`units`: `0` is not within 1 to 1000"),
    ("StepJob", dict(job="one", units="1"), "`job`: `one` is no job's number"),
    ("StepJob", dict(job="7", units="1"), "70 NoSuchJob: jobs end with the run of their server"),
    ("ProcessTemplate", dict(template="LocalSum", layer="hill.v.w"), "`layer`: `hill.v.w` is neither"),
    ("ProcessTemplate", dict(template="Slope", layer="hill"), "80 NoSuchTemplate: templates are LocalSum"),
    ("GetCapabilities", {}, "11 UnknownRequest: requests are InsertCoverage"),
    ("InsertCoverage", dict(coverage="a", fields="v:i16"), "12 MissingKey: InsertCoverage needs `domain`"),
    (
        "UpdateCoverage",
        dict(coverage="hill", field="v", box="y(0:0),x(0:1)"),
        "12 MissingKey: UpdateCoverage needs `fill` or `values`",
    ),
    ("ProcessCoverages", dict(text="for c in (hill) return 1"), "12 MissingKey: ProcessCoverages needs `query`"),
    ("StepJob", dict(job="1"), "12 MissingKey: StepJob needs `units`"),
    ("ProcessTemplate", dict(layer="hill"), "12 MissingKey: ProcessTemplate needs `template`"),
    ("DescribeCoverage", dict(coverage="hill", Coverage="land"), "13 RepeatedKey: a key is given twice, perhaps in"),
    (
        "InsertCoverage",
        dict(coverage="hill", domain="x(0:9)", fields="v:i16"),
        "21 CoverageExists: take another name, or delete the old coverage",
    ),
    (
        "UpdateCoverage",
        dict(coverage="hill", field="v", box="y(0:0),x(0:1)", values="1,2,3"),
        "25 ValueCount: `values` has 3 cells, and the box 2 points",
    ),
    (
        "UpdateCoverage",
        dict(coverage="hill", field="v", box="y(0:0),x(0:1)", values="32767,32768"),
        "26 ValueRange: `32768` is no cell of `v`: it is i16, and takes whole numbers from -32768 to 32767",
    ),
    (
        "UpdateCoverage",
        dict(coverage="land", field="kind", box="y(0:0),x(0:1)", fill="true"),
        "26 ValueRange: `true` is no cell of `kind`: it is u8, and takes whole numbers from 0 to 255",
    ),
    (
        "UpdateCoverage",
        dict(coverage="land", field="wet", box="y(0:0),x(0:1)", fill="1"),
        "26 ValueRange: `1` is no cell of `wet`: it is bool, and takes `true` and `false` alone",
    ),
    ("ProcessTemplate", dict(template="LocalSum", layer="hill"), "81 BadParameter: LocalSum takes another layer: give"),
    (
        "ProcessTemplate",
        dict(template="ZonalSum", layer="hill", second="land"),
        "81 BadParameter: `second`: `land` has several fields: select one, as `land.kind`",
    ),
    (
        "ExpandTemplate",
        dict(template="LocalSum", layer="hill.w", second="land.kind"),
        "81 BadParameter: `layer`: `hill` has no field `w`; there are v",
    ),
    ("ProcessTemplate", dict(template="FocalSum", layer="hill"), "81 BadParameter: FocalSum takes a `radius`, 1 to 8"),
    (
        "ProcessTemplate",
        dict(template="FocalSum", layer="hill", radius="9"),
        "81 BadParameter: FocalSum takes a `radius`, 1 to 8",
    ),
    (
        "ProcessTemplate",
        dict(template="FocalSum", layer="line", radius="1"),
        "81 BadParameter: FocalSum takes a layer on two axes, and `line` has x(0:9)",
    ),
    (
        "ProcessTemplate",
        dict(template="ZonalSum", layer="hill", second="line"),
        "81 BadParameter: the domains differ: y(0:2),x(0:3) and x(0:9)",
    ),
    (
        "ProcessTemplate",
        dict(template="LocalSum", layer="hill", second="line"),
        "45 DomainMismatch: the layers have unlike domains",
    ),
    (
        "ProcessTemplate",
        dict(template="FocalSum", layer="land.wet", radius="1"),
        "49 NeedsInteger: a layer is Boolean: a focal and a zonal template take numbers",
    ),
]


class Mistakes(OverLoopback):
    def setUp(self):
        super().setUp()
        with self.session() as session:
            session.insert("hill", {"y": (0, 2), "x": (0, 3)}, {"v": "i16"})
            session.insert("land", {"y": (0, 2), "x": (0, 3)}, {"kind": "u8", "wet": "bool"})
            session.insert("flat", {"y": (0, 2), "x": (0, 3)}, {"v": "i16"})
            session.insert("large", {"y": (0, 3999), "x": (0, 3999)}, {"v": "i16"})
            session.insert("line", {"x": (0, 9)}, {"v": "i16"})

    def refusal(self, asked):
        with self.assertRaises(rasterd.Refused) as raised:
            asked()
        return raised.exception

    def test_texts(self):
        with self.session() as session:
            for text, said in TEXTS:
                with self.subTest(text=text):
                    found = self.refusal(lambda: session.query(text))
                    self.assertIn(said, str(found))

    def test_requests(self):
        with self.session() as session:
            for request, pairs, said in REQUESTS:
                with self.subTest(request=request, pairs=pairs):
                    self.assertIn(said, str(self.refusal(lambda: session.request(request, **pairs))))

    def test_a_job_that_has_units_left(self):
        with self.session() as session:
            job, _ = session.submit("for c in (large) return max(c)")
            said = str(self.refusal(lambda: session.fetch(job)))
        self.assertEqual(said, "71 NotReady: the job has units left: step it until none are")

    def test_another_path(self):
        said = str(self.refusal(lambda: self.session(path="/rasdaman/ows").list()))
        self.assertEqual(said, "3 NoSuchPath: the path is /ows, or what a proxy makes of it")

    def test_the_order_of_axes_in_a_query_is_free(self):
        with self.session() as session:
            session.fill("hill", "v", 5, {"y": (2, 2), "x": (3, 3)})
            self.assertEqual(session.query("for c in (hill) return c[x(3), y(2)]"), "5\n")

    def test_limits(self):
        with self.session() as session:
            for text, said in [
                ("for c in (large) return max(c - avg(c))", "54 TooMuchWork: ask what is the same for all cells first"),
                ("for c in (large) return encode(c, csv)", "55 ResultTooLarge: ask for parts of at most 1,048,576"),
            ]:
                self.assertIn(said, str(self.refusal(lambda: session.query(text))))

    def test_how_deep_a_program_may_call_is_left_as_it_was(self):
        """The deepest brackets are read all the same."""
        deepest = f"for c in (hill) return {'(' * 512}1{')' * 512}"
        lines = [
            "import sys",
            "before = sys.getrecursionlimit()",
            "import rasterd_why",
            f"told = rasterd_why.misspelled({deepest!r}), rasterd_why.reason(32, dict(query='for c in'), None)",
            "print(told, sys.getrecursionlimit() == before)",
        ]
        words = [sys.executable, "-c", "\n".join(lines)]
        ended = subprocess.run(
            words, capture_output=True, text=True, env={**os.environ, "PYTHONPATH": CLIENTS}, check=True
        )
        self.assertEqual(ended.stdout, "(None, '1:9: the text ends too soon; here could stand `(`') True\n")

    def test_each_mistyped_query_of_the_documents_has_a_reason(self):
        with self.session() as session:
            for query in self.queries():
                try:
                    session.query(query)
                except rasterd.Refused as refusal:
                    self.assertIsNotNone(refusal.reason, query)

    def queries(self):
        with open(f"{TOP}/docs/LANGUAGE.md", encoding="utf-8") as file:
            return re.findall(r"\$ ask '(.*)'", file.read())

    def test_the_server_and_the_client_agree_on_what_is_spelled_as_a_query(self):
        chance, told, queries = random.Random(3), collections.Counter(), self.queries()
        with self.session() as session:
            for _ in range(MUTATED):
                query = self.mutated(chance, chance.choice(queries))
                try:
                    session.query(query)
                    is_spelled = True
                except rasterd.Refused as refusal:
                    is_spelled = not 30 <= refusal.number <= 33
                    self.assertTrue(refusal.reason, (query, str(refusal)))
                self.assertEqual(rasterd_why.misspelled(query) is None, is_spelled, query)
                told[is_spelled] += 1
        self.assertGreater(min(told[True], told[False]), MUTATED // 5)

    def mutated(self, chance, query):
        words = re.findall(r"\$?\w+|\s+|[<>!]=|.", query)
        for _ in range(chance.randint(0, 2)):
            at = chance.randrange(len(words))
            other = chance.choice(["+", ")", "[", "3", "sum", "%", ";", "and", "encode"])
            words[at : at + 1] = chance.choice([[], [words[at]] * 2, [chance.choice(words)], [other]])
        return "".join(words)
