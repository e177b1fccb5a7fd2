"""The package that deploy/package makes, unpacked into a folder: what it holds runs there."""

import os
import re
import shutil
import signal
import subprocess
import tempfile
import unittest

from over_loopback import PROGRAM, TOP, rasterd
from served import LONGEST, connected, free_port, served

NEEDED = [
    "usr/bin/rasterd",
    "usr/bin/rasterd-serve",
    "usr/bin/rasterd-load",
    "usr/bin/rasterd-get",
    "usr/bin/rasterd-ask",
    "usr/lib/python3/dist-packages/rasterd.py",
    "usr/share/doc/rasterd/README.md",
    "usr/share/doc/rasterd/examples/nginx.conf",
    "usr/share/doc/rasterd/examples/nginx-page.conf",
    "usr/share/man/man1/rasterd.1.gz",
    "usr/share/man/man1/rasterd-serve.1.gz",
    "lib/systemd/system/rasterd.service",
]


class Package(unittest.TestCase):
    @classmethod
    def setUpClass(cls):
        cls.room = tempfile.TemporaryDirectory()
        cls.addClassCleanup(cls.room.cleanup)
        made = cls.ran(f"{TOP}/deploy/package", PROGRAM, cls.room.name)
        cls.package, cls.root = made.stdout.strip(), f"{cls.room.name}/root"
        cls.ran("dpkg", "-x", cls.package, cls.root)
        # what stands in the project is out of reach: the tools are those of the package
        cls.environment = {
            **{name: value for name, value in os.environ.items() if name not in ("SERVER", "PYTHONPATH")},
            "PATH": f"{cls.root}/usr/bin:{os.environ['PATH']}",
            "PYTHONPATH": f"{cls.root}/usr/lib/python3/dist-packages",
        }

    @classmethod
    def ran(cls, *words, **more):
        return subprocess.run(words, check=True, capture_output=True, text=True, cwd=cls.room.name, **more)

    def test_its_files(self):
        self.assertTrue(re.fullmatch(r".*/rasterd_[0-9.]+_\w+\.deb", self.package), self.package)
        for name in NEEDED:
            self.assertTrue(os.path.isfile(f"{self.root}/{name}"), name)
        for folder, kept in [("clients/python", "usr/bin"), ("web", "usr/share/rasterd/web")]:
            wanted = {
                it
                for it in os.listdir(f"{TOP}/{folder}")
                if it.startswith("rasterd-") or it.endswith((".html", ".css", ".js", ".svg"))
            }
            self.assertLessEqual(wanted, set(os.listdir(f"{self.root}/{kept}")))
        listed = self.ran("dpkg-deb", "-c", self.package).stdout.splitlines()
        for line in listed:
            self.assertRegex(line, r"^[d-]rw[x-]r-[x-]r-[x-] root/root ", line)
        self.assertIn("Depends: ", self.ran("dpkg-deb", "-I", self.package).stdout)

    def unmade(self, top, **variables):
        """The status of a making that fails, which leaves nothing, neither a package nor its own folder."""
        with tempfile.TemporaryDirectory() as folder:
            os.mkdir(f"{folder}/own")
            words = [f"{top}/deploy/package", PROGRAM, folder]
            environment = {**os.environ, "TMPDIR": f"{folder}/own", **variables}
            ended = subprocess.run(words, env=environment, capture_output=True, text=True, check=False)
            self.assertEqual((os.listdir(folder), os.listdir(f"{folder}/own")), (["own"], []), ended.stderr)
        return ended.returncode

    def test_a_tree_that_lacks_a_part_makes_no_package(self):
        for part in ["web", "web/page.css", "oracle/machine.py", "clients/python/rasterd_xarray.dist-info"]:
            with self.subTest(part), tempfile.TemporaryDirectory() as top:
                for name in ["clients", "deploy", "docs", "oracle", "web"]:
                    shutil.copytree(f"{TOP}/{name}", f"{top}/{name}", ignore=shutil.ignore_patterns("out"))
                shutil.copy(f"{TOP}/README.md", top)
                (shutil.rmtree if os.path.isdir(f"{top}/{part}") else os.remove)(f"{top}/{part}")
                self.assertNotEqual(self.unmade(top), 0)

    def test_a_making_that_is_stopped_leaves_nothing(self):
        """The first program that it calls after most is made ends it."""
        for name, status in [("HUP", 129), ("INT", 130), ("TERM", 143)]:
            with self.subTest(name), tempfile.TemporaryDirectory() as folder:
                with open(f"{folder}/gzip", "w", encoding="utf-8") as file:
                    file.write(f"#!/bin/sh\nkill -{name} $PPID\n")
                os.chmod(f"{folder}/gzip", 0o755)
                self.assertEqual(self.unmade(TOP, PATH=f"{folder}:{os.environ['PATH']}"), status)

    def test_each_tool_tells_what_it_does(self):
        for tool in ["rasterd-load", "rasterd-get", "rasterd-ask"]:
            self.assertIn("--host", self.ran(tool, "--help", env=self.environment).stdout)

    def test_the_examples_of_the_documents(self):
        ended = self.ran(f"{TOP}/scripts/check.py", f"{self.root}/usr/bin/rasterd")
        self.assertRegex(ended.stdout, r"\d\d+ examples, 0 differ")

    def test_a_raster_in_and_out(self):
        with served(f"{self.root}/usr/bin/rasterd") as port, open(f"{self.room.name}/a.asc", "w") as file:
            file.write("ncols 3\nnrows 2\nxllcorner 0\nyllcorner 0\ncellsize 1\n1 2 3\n4 5 6\n")
            file.flush()
            self.ran("rasterd-load", "--port", str(port), file.name, "a", env=self.environment)
            query = "for c in (a) return encode(c * 10, csv)"
            self.ran("rasterd-get", "--port", str(port), query, "b.tif", env=self.environment)
            self.assertEqual(rasterd.Session(port=port).query(query), "10,20,30\n40,50,60\n")
        self.assertTrue(os.path.getsize(f"{self.room.name}/b.tif"))

    def test_serve_and_ask(self):
        """As README and the pages for man have it, with the program found by PATH."""
        port, store = free_port(), f"{self.room.name}/lai.store"
        words = ["rasterd-serve", store, str(port)]
        with subprocess.Popen(words, env=self.environment) as serving:
            try:
                connected(port, serving).close()
                rasterd.Session(port=port).insert("lai", {"x": (0, 9)}, {"v": "i16"})
                ask = ["rasterd-ask", "--port", str(port)]
                found = self.ran(*ask, "for c in (lai) return max(c)", env=self.environment)
                self.assertEqual(found.stdout, "0\n")
                words = [*ask, "for c in (lai) return sum(c)"]
                found = subprocess.run(
                    words, env=self.environment, cwd="/", capture_output=True, text=True, check=False
                )
                self.assertIn("it is called `add` here", found.stderr)
                serving.send_signal(signal.SIGTERM)
                self.assertEqual(serving.wait(LONGEST), 0)
            finally:
                serving.terminate()
        with open(store, "rb") as file:
            self.assertEqual(file.read(13)[12], 2)

    def test_the_unit(self):
        with open(f"{self.root}/lib/systemd/system/rasterd.service", encoding="utf-8") as file:
            found = dict(re.findall(r"^(\w+)=(.*)$", file.read(), re.M))
        self.assertTrue(os.access(f"{self.root}{found['ExecStart'].split()[0]}", os.X_OK))
        self.assertEqual(found["KillMode"], "mixed")
        self.assertTrue(found["ExecStart"].split()[1].startswith(f"/var/lib/{found['StateDirectory']}/"))

    def test_the_pages_for_man(self):
        for name in ["rasterd", "rasterd-serve"]:
            words = ["man", "-l", "--warnings", f"{self.root}/usr/share/man/man1/{name}.1.gz"]
            found = self.ran(*words, env={**os.environ, "MANWIDTH": "100", "LC_ALL": "C"})
            self.assertEqual(found.stderr, "")
            self.assertIn("EXIT STATUS", found.stdout)
