"""The client beside the server: requests, jobs, connections, and the shell."""

import contextlib
import re
import socket
import subprocess
import tempfile
import threading
import unittest

from over_loopback import PROGRAM, OverLoopback, rasterd
from served import LONGEST, connected, free_port, until

# How long a client waits that has to be served before the server lets a silent one go, which it does after 60 seconds.
BEFORE_SILENCE = 50
FOCAL = (
    "for c in (wide) return encode(coverage f over $y y(3:796), $x x(3:796) values"
    " condense + over $v y(-3:3), $u x(-3:3) using c[y($y + $v), x($x + $u)], csv)"
)


class Requests(OverLoopback):
    def test_a_coverage(self):
        session = self.session()
        session.insert("lai", {"x": (0, 99)}, {"v": "i16"})
        session.fill("lai", "v", 7)
        self.assertEqual(session.query("for c in (lai) return encode(max(c[x(0:99)]), csv)"), "7\n")
        self.assertEqual(session.list(), ["lai"])
        self.assertEqual(session.describe("lai"), ({"x": (0, 99)}, {"v": "i16"}))
        session.delete("lai")
        self.assertEqual(session.list(), [])

    def test_refusals(self):
        with self.session() as session:
            session.insert("lai", {"x": (0, 99)}, {"v": "i16"})
            for number, name, asked in [
                (21, "CoverageExists", lambda: session.insert("lai", {"x": (0, 99)}, {"v": "i16"})),
                (20, "NoSuchCoverage", lambda: session.delete("other")),
                (26, "ValueRange", lambda: session.fill("lai", "v", 40000)),
                (53, "BadInterval", lambda: session.query("for c in (lai) return encode(c[x(5:3)], csv)")),
                (80, "NoSuchTemplate", lambda: session.template("Slope", "lai")),
            ]:
                self.assertTrue(self.assert_refused(number, asked).startswith(f"{number} {name}"))

    def test_booleans_and_fields(self):
        with self.session() as session:
            session.insert("w", {"y": (0, 1), "x": (-1, 0)}, {"v": "i32", "ok": "bool"})
            session.write("w", "v", [[1, -2], [3, 4]])
            session.write("w", "ok", [[True, False], [False, True]])
            self.assertEqual(
                session.items("for c in (w) return encode(c, csv)"),
                [[[(1, True), (-2, False)], [(3, False), (4, True)]]],
            )

    def test_a_cell_that_is_not_whole_is_not_written(self):
        with self.session() as session:
            session.insert("w", {"x": (0, 1)}, {"v": "i32"})
            for values in [[0.5, 1], [float("nan"), 1]]:
                with self.assertRaises(ValueError):
                    session.write("w", "v", values)
            session.write("w", "v", [3.0, 4])
            self.assertEqual(session.query("for c in (w) return encode(c, csv)"), "3,4\n")

    def test_cells_of_another_shape_are_not_written(self):
        box = {"t": (5, 5), "y": (0, 1), "x": (0, 2)}
        with self.session() as session:
            session.insert("w", {"t": (5, 6), "y": (0, 1), "x": (0, 2)}, {"v": "i16"})
            for values, told in [
                ([[1, 2], [3, 4], [5, 6]], r"the box has the shape \(1, 2, 3\), and the cells have \(3, 2\)"),
                (([1, 2], [3, 4], [5, 6]), r"the cells have \(3, 2\)"),
                ([[[1, 2, 3]], [[4, 5, 6]], []], "sequences of unlike lengths"),
                ([[1, 2, 3, 4], [5, 6]], "sequences of unlike lengths"),
                ([1, [2, 3, 4, 5, 6]], "sequences of unlike lengths"),
                ([[1, 2, 3], [4, 5]], "the box has 6 cells, and 5 are given"),
            ]:
                with self.subTest(values=values), self.assertRaisesRegex(ValueError, told):
                    session.write("w", "v", values, box)
            self.assertEqual(session.query("for c in (w) return max(c)"), "0\n")
            for first, values in [
                (1, [1, 2, 3, 4, 5, 6]),
                (7, [[7, 8, 9], [10, 11, 12]]),
                (13, [[[13, 14, 15], [16, 17, 18]]]),
                (19, [[[19], [20], [21]], [[22], [23], [24]]]),
                (25, (k for k in range(25, 31))),
                (31, ([k, k + 1, k + 2] for k in (31, 34))),
            ]:
                session.write("w", "v", values, box)
                rows = "".join(f"{k},{k + 1},{k + 2}\n" for k in (first, first + 3))
                self.assertEqual(session.query("for c in (w) return encode(c[t(5)], csv)"), rows)

    def test_templates(self):
        with self.session() as session:
            for name, cells in [("w", [1, 2, 3, 4]), ("z", [1, 1, 2, 2])]:
                session.insert(name, {"x": (0, 1), "y": (0, 1)}, {"v": "i16"})
                session.write(name, "v", cells)
            self.assertEqual(session.template("ZonalSum", "w", second="z"), "3,3\n7,7\n")
            self.assertEqual(session.template("FocalSum", "w", radius=1), "10,10\n10,10\n")
            self.assertEqual(
                session.expand("LocalSum", "w", second="z"), "for a in (w), b in (z) return encode(a + b, csv)\n"
            )

    def test_a_write_in_parts(self):
        cells, told = [[(700 * y + x) * 10**12 for x in range(600)] for y in range(300)], []
        with self.session() as session:
            session.insert("big", {"y": (0, 299), "x": (0, 599)}, {"v": "i64"})
            session.write("big", "v", cells, progress=lambda done, whole: told.append((done, whole)))
            self.assertGreater(len(told), 2)
            self.assertEqual(told[-1], (300 * 600, 300 * 600))
            self.assertEqual(
                session.query("for c in (big) return encode(c, csv)"),
                "".join(",".join(map(str, line)) + "\n" for line in cells),
            )


class Jobs(OverLoopback):
    def test_jobs(self):
        told, query = [], "for c in (w) return encode(c * 2, csv)"
        with self.session() as session:
            session.insert("w", {"y": (0, 199), "x": (0, 99)}, {"v": "i16"})
            session.fill("w", "v", 21)
            number, whole = session.submit(query)
            self.assertEqual(number, 1)
            self.assertGreater(whole, 1)
            self.assertEqual(session.step(number), whole - 1)
            self.assert_refused(71, lambda: session.fetch(number))
            session.fill("w", "v", 1)
            self.assertEqual(rasterd.items_of(session.query(query)), [[[(2,)] * 100] * 200])
            self.assertEqual(session.step(number, 1000), 0)
            self.assertEqual(rasterd.items_of(session.fetch(number)), [[[(42,)] * 100] * 200])
            self.assert_refused(70, lambda: session.fetch(number))
            answer = session.run(query, units=1, progress=lambda done, whole: told.append((done, whole)))
            self.assertEqual(rasterd.items_of(answer), [[[(2,)] * 100] * 200])
            self.assertEqual(told, [(done, whole) for done in range(1, whole + 1)])
            self.assert_refused(61, lambda: session.run("for c in (w) return max(c / 0)", progress=None))

    def test_a_job_answers_by_the_store_at_its_submission(self):
        """The coverage is written, deleted, and inserted anew with other cells, between the steps of two jobs."""
        with self.session() as session:
            session.insert("w", {"y": (0, 199), "x": (0, 99)}, {"v": "i16"})
            session.fill("w", "v", 7)
            first, whole = session.submit("for c in (w) return add(c)")
            session.fill("w", "v", 8, {"y": (0, 0), "x": (0, 99)})
            second, _ = session.submit("for c in (w) return add(c)")
            self.assertEqual(session.step(first), whole - 1)
            session.delete("w")
            self.assertEqual(session.step(second), whole - 1)
            session.insert("w", {"x": (0, 9)}, {"v": "i16"})
            session.fill("w", "v", 9)
            self.assertEqual([session.step(it, 1000) for it in (first, second)], [0, 0])
            self.assertEqual(session.query("for c in (w) return add(c)"), "90\n")
            self.assertEqual([session.fetch(it) for it in (first, second)], ["140000\n", "140100\n"])

    def test_a_job_that_is_stopped(self):
        def stop(done, whole):
            raise KeyboardInterrupt

        with self.session() as session:
            session.insert("w", {"x": (0, 9999)}, {"v": "i16"})
            with self.assertRaises(KeyboardInterrupt):
                session.run("for c in (w) return encode(c, csv)", units=1, progress=stop)
            self.assert_refused(70, lambda: session.cancel(1))

    def test_a_job_whose_answer_is_refused_is_cancelled(self):
        """Want of memory leaves a job where it is."""
        session = self.session()
        session.insert("w", {"x": (0, 9)}, {"v": "i16"})

        def fetch(job):
            raise rasterd.Refused(90, "NoMemory", 503)

        session.fetch = fetch
        self.assert_refused(90, lambda: session.run("for c in (w) return max(c)", progress=None))
        self.assert_refused(70, lambda: session.step(1))

    def test_a_job_whose_answer_is_a_fault_is_not_cancelled_by_its_number(self):
        session, cancelled = self.session(), []
        session.insert("w", {"x": (0, 9)}, {"v": "i16"})
        session.cancel = cancelled.append
        for number, query in [
            (60, "for c in (w) return max(c) - 9223372036854775807 - 2"),
            (61, "for c in (w) return max(1 / c)"),
            (62, "for c in (w) return c[x(10)]"),
            (63, "for c in (w) return condense max over $x x(0:9) where false using $x"),
            (64, "for c in (w) return bit(max(c), 64)"),
        ]:
            self.assert_refused(number, lambda: session.run(query, progress=None))
        self.assertEqual(cancelled, [])

    def test_a_job_that_is_another_one_is_not_answered_and_not_ended(self):
        other = self.session()

        def step(done, whole):
            other.step(1, 1)

        session = self.session()
        session.insert("w", {"x": (0, 99999)}, {"v": "i16"})
        with self.assertRaises(rasterd.NotUnderstood):
            session.run("for c in (w) return max(c)", units=1, progress=step)
        other.step(1, 1000)
        self.assertEqual(other.fetch(1), "0\n")

    def test_a_job_that_is_gone_is_not_cancelled_by_its_number(self):
        """Another client has got the number anew: as after the end of a run."""
        other, session = self.session(), self.session()
        session.insert("w", {"x": (0, 99999)}, {"v": "i16"})

        def take_away(done, whole):
            other.cancel(1)

        cancelled = []
        session.cancel = cancelled.append
        with self.assertRaises(rasterd.Refused) as raised:
            session.run("for c in (w) return max(c)", units=1, progress=take_away)
        self.assertEqual((raised.exception.number, cancelled), (70, []))

    def test_the_answer_comes_on_the_connection_of_the_last_step(self):
        """After it the run of the server ends, and its jobs with it."""
        port = free_port()
        with subprocess.Popen([PROGRAM, "-", "listen", str(port), "4"]) as server:
            try:
                connected(port, server).close()
                session = rasterd.Session(port=port, timeout=LONGEST)
                session.insert("w", {"x": (0, 9)}, {"v": "i16"})
                self.assertEqual(session.run("for c in (w) return max(c)", units=1000, progress=None), "0\n")
                self.assertEqual(server.wait(LONGEST), 0)
            finally:
                server.kill()

    def test_another_client_beside_a_job(self):
        """Between any two steps it is answered, and asks and is answered once more."""
        session, answers, counts, over = self.session(), [], [], threading.Event()
        session.insert("wide", {"y": (0, 799), "x": (0, 799)}, {"v": "i16"})
        session.fill("wide", "v", 2)

        def other():
            while not over.is_set():
                answers.append(self.session(BEFORE_SILENCE).list())

        def step(done, whole):
            counts.append(len(answers))
            until(lambda: len(answers) > counts[-1] + 1, "an answer to another client")

        beside = threading.Thread(target=other)
        beside.start()
        try:
            answer = session.run(FOCAL, progress=step)
        finally:
            over.set()
            beside.join()
        self.assertEqual(set(answer.replace("\n", ",").split(",")), {"98", ""})
        self.assertTrue(all(it == ["wide"] for it in answers))
        self.assertGreater(counts[-1] - counts[0], 10)


class Connections(OverLoopback):
    def test_nobody_waits_for_a_session_that_asks_nothing(self):
        idle = self.session()
        idle.list()
        self.session(BEFORE_SILENCE).list()

    def test_a_with_keeps_its_connection_and_its_end_lets_it_go(self):
        with self.session() as session:
            session.insert("w", {"x": (0, 9)}, {"v": "i16"})
            kept = session.connection.sock
            with session:
                session.list()
            session.fill("w", "v", 1)
            self.assertIs(session.connection.sock, kept)
            self.assertIsNotNone(kept)
        self.assertIsNone(session.connection.sock)

    def test_more_messages_than_a_connection_takes(self):
        with self.session() as session:
            for _ in range(2001):
                self.assertEqual(session.list(), [])


def read_whole(client):
    """Reads a request with a body to its end."""
    head, gap, body = b"", b"", b""
    while not gap or len(body) < int(re.search(rb"Content-Length: (\d+)", head)[1]):
        part = client.recv(65536)
        if not part:
            return
        head, gap, body = (head + gap + body + part).partition(b"\r\n\r\n")


def ok(text):
    """A reply with a text."""
    return b"HTTP/1.1 200 OK\r\nContent-Length: %d\r\n\r\n%s" % (len(text), text)


BAD_GATEWAY = b"HTTP/1.1 502 Bad Gateway\r\nContent-Length: 15\r\n\r\n<html>no</html>"


class Faults(unittest.TestCase):
    """A server of the test's own, which says of each connection what is wanted."""

    def answers(self, *said, more=None):
        """The port of a server that says one of these at each connection and ends it. Before each part but the first it
        waits for an event."""
        listener = socket.create_server(("127.0.0.1", 0))

        def serve():
            for first, *others in said:
                with contextlib.suppress(OSError), listener.accept()[0] as client:
                    read_whole(client)
                    client.sendall(first)
                    for part in others:
                        more.wait()
                        client.sendall(part)

        threading.Thread(target=serve, daemon=True).start()
        self.addCleanup(listener.close)
        return listener.getsockname()[1]

    def test_what_is_left_of_a_reply_is_not_that_of_the_next_request(self):
        whole = ok(b"lai\n")
        for cut in [[whole[:-2]], [whole[:-2], whole[-2:]]]:
            more = threading.Event()
            with rasterd.Session(port=self.answers(cut, [whole], [whole], more=more), timeout=0.3) as session:
                with self.assertRaises(Exception):
                    session.list()
                more.set()
                session.connection.timeout = LONGEST
                self.assertEqual(session.list(), ["lai"])
                # the server ends the connection, and does not say so
                until(lambda: rasterd.has_come(session.connection.sock), "the end of a connection")
                self.assertEqual(session.list(), ["lai"])

    def test_an_answer_of_another_server(self):
        with self.assertRaisesRegex(rasterd.NotUnderstood, "status 502"):
            rasterd.Session(port=self.answers([BAD_GATEWAY]), timeout=LONGEST).list()

    def test_ctrl_c_stays_one_where_the_cancelling_gets_no_answer(self):
        def stop(done, whole):
            raise KeyboardInterrupt

        for said in [BAD_GATEWAY, b"no HTTP\r\n\r\n", b"HTTP/1.1 200 OK\r\nContent-Length: 4\r\n\r\nok", b""]:
            port = self.answers([ok(b"job 1 left 5\n")], [ok(b"left 4\n")], [said])
            with self.subTest(said=said), self.assertRaises(KeyboardInterrupt):
                session = rasterd.Session(port=port, timeout=LONGEST)
                session.run("for c in (w) return max(c)", units=1, progress=stop)


class Parts(unittest.TestCase):
    def test_parts_follow_one_another(self):
        for box, most in [
            ({"y": (0, 9), "x": (0, 3)}, 8),
            ({"y": (-1, 1), "x": (0, 9)}, 4),
            ({"x": (5, 5)}, 1),
            ({"t": (0, 2), "y": (0, 2), "x": (0, 2)}, 5),
        ]:
            axes = list(box)
            points = [p for part in rasterd.parts_of(box, most) for p in self.points(part, axes)]
            self.assertEqual(points, self.points(box, axes))
            self.assertTrue(all(rasterd.points_of(part) <= most for part in rasterd.parts_of(box, most)))

    def points(self, box, axes):
        found = [()]
        for axis in axes:
            found = [(*p, at) for p in found for at in range(box[axis][0], box[axis][1] + 1)]
        return found


class Shell(OverLoopback):
    def setUp(self):
        super().setUp()
        with self.session() as session:
            session.insert("hill", {"y": (0, 1), "x": (0, 2)}, {"v": "i16"})
            session.write("hill", "v", [1, 2, 3, 4, 5, 6])

    def ask(self, *lines):
        return self.tool("rasterd-ask", given="".join(f"{line}\n" for line in lines))

    def test_one_query(self):
        self.assertEqual(self.tool("rasterd-ask", "for c in (hill) return max(c)"), (0, "6\n"))
        status, said = self.tool("rasterd-ask", "for c in (hill) return sum(c)")
        self.assertEqual(
            (status, said), (1, "refused 32 BadSyntax: 1:24: `sum` does not fit: it is called `add` here\n")
        )

    def test_what_is_typed(self):
        for lines, said in [
            (["for c in (hill) return max(c)"], "6\n"),
            (["for c in (hill)", "return max(", "c);"], "6\n"),
            (["\\d"], "hill\n"),
            (["\\d hill"], "axis y 0 1\naxis x 0 2\nfield v i16\n\n"),
            (["\\template FocalMaximum hill 1"], "5,6,6\n5,6,6\n"),
            (["\\template LocalSum hill hill"], "2,4,6\n8,10,12\n"),
            (["for c in (hill) return c", "\\d"], "refused 52 MustEncode: 1:24: `c`: it has axes: write"),
            (["\\q", "\\d"], ""),
            (["\\template FocalSum"], "\\template NAME LAYER [SECOND or RADIUS]      a template of map algebra\n"),
            (["\\template FocalSum hill 1 1", "\\d"], "\\template NAME LAYER [SECOND or RADIUS]"),
            (["\\csv none.csv"], "there is no answer yet\n"),
            (["\\?"], "Beside queries there are"),
        ]:
            with self.subTest(lines=lines):
                status, found = self.ask(*lines)
                self.assertEqual((status, found[: len(said)]), (0, said))
        self.assertIn("6\n", self.ask("\\job for c in (hill) return max(c)")[1])

    def test_files(self):
        with tempfile.TemporaryDirectory() as folder:
            query = "for c in (hill) return encode(c, csv)"
            self.assertEqual(self.ask(query, f"\\csv {folder}/a.csv", f"\\png {folder}/a.png")[0], 0)
            with open(f"{folder}/a.csv") as file:
                self.assertEqual(file.read(), "1,2,3\n4,5,6\n")
            with open(f"{folder}/a.png", "rb") as file:
                picture = file.read()
            self.assertEqual(picture[:16], b"\x89PNG\r\n\x1a\n\0\0\0\x0dIHDR")
            none = "for c in (hill) where false return encode(c, csv)"
            self.assertEqual(self.ask(none, f"\\png {folder}/a.png"), (0, "the last answer is empty\n"))
            with open(f"{folder}/a.png", "rb") as file:
                self.assertEqual(file.read(), picture)

    def test_a_server_that_is_not_there(self):
        status, said = self.tool("rasterd-ask", "for c in (hill) return 1", port=1)
        self.assertEqual((status, said), (1, "no answer from 127.0.0.1:1: [Errno 111] Connection refused\n"))
        status, said = self.tool("rasterd-ask", port=1, given="\\d\n")
        self.assertEqual((status, said), (0, "no answer from 127.0.0.1:1: [Errno 111] Connection refused\n"))
