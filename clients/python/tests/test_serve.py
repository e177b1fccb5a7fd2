"""deploy/serve: what it says, how it stops, that one serves a file, and that nothing that was closed is lost by a
kill."""

import atexit
import contextlib
import http.client
import os
import random
import re
import signal
import socket
import subprocess
import tempfile
import threading
import time
import unittest

from over_loopback import PROGRAM, TOP, rasterd
from served import LONGEST, free_port, until

# So many kills that leave the file open: others come between two runs.
KILLS = 6


class Script:
    """deploy/serve in a session of its own, with what it says."""

    def __init__(self, file, count, port=None, **environment):
        self.file, self.port, self.is_over = file, port or free_port(), False
        words = [f"{TOP}/deploy/serve", file, str(self.port), str(count)]
        self.process = subprocess.Popen(
            words,
            env={**os.environ, "KEEP": "0", "SERVER": PROGRAM, **environment},
            stderr=subprocess.PIPE,
            text=True,
            start_new_session=True,
        )
        # where the test itself is stopped
        atexit.register(self.kill)

    def session(self):
        return rasterd.Session(port=self.port, timeout=LONGEST)

    def line(self):
        """The next line that it says; it is killed where none has come for too long."""
        late = threading.Timer(LONGEST, os.killpg, (self.process.pid, signal.SIGKILL))
        late.start()
        found = self.process.stderr.readline()
        late.cancel()
        return found

    def ended(self):
        """Its status, and what it said."""
        _, said = self.process.communicate(timeout=LONGEST)
        self.is_over = True
        return self.process.returncode, said

    def stop(self, number=signal.SIGTERM):
        self.process.send_signal(number)
        return self.ended()

    def kill(self):
        """Kills it and all that it has started, until none of these has a lock; once it has ended nothing is left."""
        if not self.is_over:
            with contextlib.suppress(ProcessLookupError):
                os.killpg(self.process.pid, signal.SIGKILL)
            self.ended()
            for name in (f"{self.file}.lock", self.file):
                if os.path.isfile(name):
                    subprocess.run(["flock", name, "true"], timeout=LONGEST, check=True)


class Ended(AssertionError):
    """A script has ended that was asked something: its status, and what it said."""


def asked(script, work):
    """What a request gives. A connection that waited where a run ended is reset and was not served: it is tried
    again."""
    given = []

    def is_over():
        with contextlib.suppress(ConnectionError):
            given.append(work(script.session()))
        return given or script.process.poll() is not None

    until(is_over, f"an answer at port {script.port}")
    if not given:
        raise Ended(*script.ended())
    return given[0]


def insert(script, name):
    asked(script, lambda session: session.insert(name, {"x": (0, 9)}, {"v": "i32"}))


class Serving(unittest.TestCase):
    def setUp(self):
        folder = tempfile.TemporaryDirectory()
        self.addCleanup(folder.cleanup)
        self.folder, self.file = folder.name, f"{folder.name}/a store"

    def script(self, count=1000, file=None, **words):
        started = Script(file or self.file, count, **words)
        self.addCleanup(started.kill)
        return started

    def coverages(self):
        """What the file holds, seen by a run of its own."""
        script = self.script()
        listed = asked(script, lambda session: session.list())
        self.assertEqual(script.stop()[0], 0)
        return listed

    def test_what_it_says(self):
        script = self.script(2)
        place = f"serve: {self.file}"
        for line in [
            f"{place} is new: an empty store",
            f"{place} at http://127.0.0.1:{script.port}/ows; Ctrl-C closes it and ends",
        ]:
            self.assertEqual(script.line(), f"{line}\n")
        for name in ["a", "b", "c"]:
            insert(script, name)
        self.assertEqual(
            script.stop(), (0, f"{place} is closed after 2 connections, and opened again\n{place} is closed\n")
        )
        self.assertEqual(self.coverages(), ["a", "b", "c"])

    def test_it_stops_at_once_whatever_is_left(self):
        """The connections one by one would take longer than it is waited for."""
        for number in [signal.SIGTERM, signal.SIGINT, signal.SIGHUP]:
            script = self.script(1000000)
            insert(script, f"c{number}")
            self.assertEqual(script.stop(number)[0], 0)
        self.assertEqual(self.coverages(), ["c15", "c2", "c1"])

    def test_it_stops_where_requests_go_to_a_proxy(self):
        script = self.script(1000000, http_proxy="http://127.0.0.1:9")
        insert(script, "a")
        self.assertEqual(script.stop()[0], 0)
        self.assertEqual(self.coverages(), ["a"])

    def test_a_signal_to_the_whole_group_ends_the_script_alone(self):
        """As a terminal sends it: the server has to take no heed of it, and is let close its file."""
        for number in [signal.SIGINT, signal.SIGTERM, signal.SIGHUP]:
            script = self.script(1000000)
            insert(script, f"c{number}")
            os.killpg(script.process.pid, number)
            self.assertEqual(script.ended()[0], 0)
        self.assertEqual(self.coverages(), ["c2", "c15", "c1"])

    def test_it_stops_as_soon_as_it_has_begun(self):
        """Also while the server is about to start, by a program that takes its time for that."""
        with open(f"{self.folder}/slow", "w") as file:
            file.write(f'#!/bin/sh\nsleep 0.3\nexec {PROGRAM} "$@"\n')
        os.chmod(f"{self.folder}/slow", 0o755)
        for wait, program in [(0, PROGRAM), (0.01, PROGRAM), (0.05, PROGRAM), (0.1, f"{self.folder}/slow")]:
            script = self.script(1000000, SERVER=program)
            until(lambda: os.path.exists(f"{self.file}.lock"), "the lock of a script")
            time.sleep(wait)
            self.assertEqual(script.stop()[0], 0)
            os.remove(f"{self.file}.lock")
        self.assertEqual(self.coverages(), [])

    def test_the_client_that_is_connected_is_served_to_its_end(self):
        script = self.script(1000000)
        insert(script, "a")
        with script.session() as session:
            session.list()
            script.process.send_signal(signal.SIGTERM)
            time.sleep(0.5)
            session.insert("b", {"x": (0, 9)}, {"v": "i32"})
        self.assertEqual(script.ended()[0], 0)
        self.assertEqual(self.coverages(), ["a", "b"])

    def test_one_serves_a_file(self):
        first = self.script()
        insert(first, "a")
        os.symlink(self.file, f"{self.folder}/other name")
        for name in [self.file, f"{self.folder}/other name"]:
            self.assertEqual(self.script(file=name).ended(), (2, f"serve: another serves {name}\n"))
        self.assertEqual(first.session().list(), ["a"])
        self.assertEqual(first.stop()[0], 0)

    def test_a_server_without_the_script_has_its_file_alone(self):
        bare = subprocess.Popen([PROGRAM, self.file, "run"], stdin=subprocess.PIPE, stdout=subprocess.DEVNULL)
        self.addCleanup(bare.kill)
        until(lambda: os.path.exists(self.file) and os.path.getsize(self.file), "the first write of a server")
        self.assertEqual(self.script().ended(), (2, f"serve: another serves {self.file}\n"))
        bare.communicate(timeout=LONGEST)
        self.assertEqual(bare.returncode, 0)
        self.assertEqual(self.coverages(), [])

    def test_a_script_that_was_killed_alone_leaves_the_lock_to_its_server(self):
        first = self.script(2)
        insert(first, "a")
        first.process.kill()
        first.process.wait(LONGEST)
        self.assertIn("another serves", self.script().ended()[1])
        insert(first, "b")
        # Its server has the lock until it has closed the file.
        subprocess.run(["flock", f"{self.file}.lock", "true"], timeout=LONGEST, check=True)
        self.assertEqual(self.coverages(), ["a", "b"])

    def test_what_cannot_be_served(self):
        with open(f"{self.folder}/picture.tif", "wb") as file:
            file.write(b"II*\0" + bytes(8) + b"\2" + bytes(9000))
        with open(f"{self.folder}/open", "wb") as file:
            file.write(b"WCPSTORE" + bytes([1, 0, 0, 0, 1, 0, 0, 0]) + bytes(4080))
        for name, status, said in [
            ("none/store", 2, f"serve: there is no folder {self.folder}/none\n"),
            (".", 2, f"serve: {self.folder}/. is a folder\n"),
            ("picture.tif", 3, "not opened: 94 NotAStore\n"),
            (
                "open",
                3,
                f"not opened: 95 NotClosed\nserve: {self.folder}/open was left open: a run was killed, or could not close it."
                " There is no copy beside it: go back to a backup\n",
            ),
        ]:
            self.assertEqual(self.script(file=f"{self.folder}/{name}").ended(), (status, said))
        with socket.create_server(("127.0.0.1", 0)) as taken:
            port = taken.getsockname()[1]
            status, said = self.script(port=port).ended()
        self.assertEqual(status, 5)
        self.assertIn(f"\nserve: port {port} is in use, or not free for ", said)
        self.assertEqual(os.listdir(self.folder).count("picture.tif.closed"), 0)
        for port, count, said in [
            ("abc", 1, "PORT is a number from 1 to 65535, and not `abc`"),
            (65536, 1, "PORT is a number from 1 to 65535, and not `65536`"),
            (80, 0, "COUNT is a number from 1 to 1000000, and not `0`"),
            (80, 1000001, "COUNT is a number from 1 to 1000000, and not `1000001`"),
        ]:
            self.assertEqual(self.script(count, port=port).ended(), (2, f"serve: {said}\n"))
        for keep in ("often", "08"):
            status, said = self.script(KEEP=keep).ended()
            self.assertEqual((status, said), (2, f"serve: KEEP is `no` or a number of minutes, and not `{keep}`\n"))
        status, said = self.script(SERVER="/none/rasterd").ended()
        self.assertEqual(status, 2)
        self.assertIn("there is no program /none/rasterd", said)

    def test_copies(self):
        copy = f"{self.file}.closed"
        for keep, is_there, is_renewed in [("no", False, False), ("0", True, True), ("600", True, False)]:
            script = self.script(1, KEEP=keep)
            insert(script, f"a{keep}")
            insert(script, f"b{keep}")
            self.assertEqual(os.path.exists(copy), is_there)
            before = os.path.exists(copy) and os.stat(copy).st_mtime_ns
            insert(script, f"c{keep}")
            insert(script, f"d{keep}")
            self.assertEqual(os.path.exists(copy) and os.stat(copy).st_mtime_ns != before, is_renewed)
            self.assertEqual(script.stop()[0], 0)
            left = {"a store", "a store.lock"} | ({"a store.closed"} if is_there else set())
            self.assertEqual(set(os.listdir(self.folder)), left)

    def test_a_link_has_its_copy_beside_the_file(self):
        os.mkdir(f"{self.folder}/links")
        os.symlink(self.file, f"{self.folder}/links/link")
        script = self.script(2, file=f"{self.folder}/links/link")
        for name in "abc":
            insert(script, name)
        script.kill()
        self.assertEqual(os.listdir(f"{self.folder}/links"), ["link"])
        self.assertIn(
            f"mv '{self.file}.closed' '{self.file}'", self.script(file=f"{self.folder}/links/link").ended()[1]
        )

    def test_a_file_that_was_left_open_is_not_copied(self):
        self.killed(3, lambda script: insert(script, "late"))
        with open(f"{self.file}.closed", "rb") as file:
            before = file.read()
        for _ in range(2):
            self.assertEqual(self.script().ended()[0], 3)
        with open(f"{self.file}.closed", "rb") as file:
            self.assertEqual(file.read(), before)

    def killed(self, count, last):
        """A run of some inserts over the ends of runs, then a kill."""
        script = self.script(count)
        for number in range(count + 1):
            insert(script, f"c{number}")
        last(script)
        script.kill()

    def test_nothing_closed_is_lost_by_a_kill(self):
        """At random moments, behind a random number of changes, under a client that counts in a cell, each change in a
        connection of its own. All are there that were answered before the run of the last one: its opening followed
        their close."""
        moments, count, gone_on, known = random.Random(7), 40, 0, 0
        script = self.script()
        insert(script, "c")
        self.assertEqual(script.stop()[0], 0)
        rounds = 0
        while gone_on < KILLS and rounds < 10 * KILLS:
            rounds += 1
            script, done = self.script(count), []
            writer = threading.Thread(target=self.write, args=(script, known, done))
            writer.start()
            for number in range(moments.randrange(2 * count)):
                until(lambda: len(done) > number, "the answer to a change")
            time.sleep(moments.uniform(0, 0.8))
            script.kill()
            until(lambda: not writer.is_alive(), "the end of the client")
            gone_on += self.go_on()
            found = self.counted()
            self.assertGreaterEqual(found, known + max(0, (len(done) - 1) // count * count))
            self.assertLessEqual(found, known + len(done) + 1)
            known = found
        self.assertEqual(gone_on, KILLS)
        self.assertGreater(known, 0)

    def counted(self):
        script = self.script()
        found = int(asked(script, lambda session: session.query("for c in (c) return max(c)")))
        status, said = script.stop()
        self.assertEqual(status, 0, said)
        return found

    def write(self, script, known, done):
        """Counts on until the server is gone."""
        while True:
            try:
                script.session().fill("c", "v", known + len(done) + 1, {"x": (0, 9)})
                done.append(True)
            except (OSError, http.client.HTTPException):
                if script.process.poll() is not None:
                    return
                time.sleep(0.002)

    def go_on(self):
        """Does what the script says where it finds the file left open; whether it did."""
        script = self.script()
        try:
            asked(script, lambda session: session.list())
        except Ended as ended:
            status, said = ended.args
        else:
            status, said = script.stop()
            self.assertEqual(status, 0, said)
            return False
        self.assertEqual(status, 3, said)
        command = re.search(r"closed at \d{4}-\d\d-\d\d \d\d:\d\d:\d\d\. To go on from it: (mv '.*' '.*')\n", said)
        self.assertIsNotNone(command, said)
        subprocess.run(command[1], shell=True, check=True)
        return True
