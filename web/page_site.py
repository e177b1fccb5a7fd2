"""The page's site as README starts it, and the coverages that its tests look at."""

import contextlib
import os
import shutil
import signal
import socket
import subprocess
import sys
import tempfile

TOP = os.path.dirname(os.path.dirname(os.path.abspath(__file__)))
sys.path[:0] = [f"{TOP}/clients/python", f"{TOP}/examples", f"{TOP}/scripts"]

import data
import numpy
import rasterd
from served import LONGEST, free_port, until

FAR = 2**53 + 1


def readme_lines():
    """The indented block below the heading `Look at it`."""
    with open(f"{TOP}/README.md", encoding="utf-8") as file:
        part = file.read().split("\n## Look at it\n", 1)[1].split("\n## ", 1)[0]
    return [line[4:] for line in part.splitlines() if line.startswith("    ")]


class Site:
    """A copy of the tree in which README's lines run before a program, the server's and nginx's ports free ones."""

    def __init__(self, program):
        self.program = program
        self.folder = tempfile.mkdtemp()
        os.chmod(self.folder, 0o755)
        self.port, self.front = free_port(), free_port()
        for name in ("deploy", "clients", "web", "examples"):
            shutil.copytree(f"{TOP}/{name}", f"{self.folder}/{name}", ignore=shutil.ignore_patterns("out"))
        self.rewrite(f"{self.folder}/web/nginx.conf")
        self.log = open(f"{self.folder}/log", "w", encoding="utf-8")

    def on_free_ports(self, text):
        return text.replace("8080", str(self.port)).replace("8090", str(self.front))

    def rewrite(self, path):
        with open(path, encoding="utf-8") as file:
            text = self.on_free_ports(file.read())
        with open(path, "w", encoding="utf-8") as file:
            file.write(text)

    def start(self):
        """Runs the lines; the loader is told the port, which a reader of README leaves at 8080."""
        lines = [self.on_free_ports(it) for it in readme_lines()]
        lines = [f"{it} --port {self.port}" if "rasterd-load" in it else it for it in lines]
        plain = {name: value for name, value in os.environ.items() if not name.lower().endswith("_proxy")}
        self.shell = subprocess.Popen(
            ["bash", "-ec", "\n".join(lines) + "\nwait"],
            cwd=self.folder,
            env=plain | {"SERVER": self.program},
            start_new_session=True,
            stdout=self.log,
            stderr=self.log,
        )
        return f"http://127.0.0.1:{self.front}/"

    def nginx(self, *words):
        words = ["nginx", "-p", "web", "-c", "nginx.conf", "-e", "out/error.log", *words]
        subprocess.run(words, cwd=self.folder, check=False, stderr=subprocess.DEVNULL)

    def stop_server(self):
        """As a person stops it; until nothing listens."""
        with contextlib.suppress(ProcessLookupError):
            os.killpg(self.shell.pid, signal.SIGTERM)
        self.shell.wait(LONGEST)
        until(self.is_silent, "the end of the server")

    def is_silent(self):
        """Whether nothing listens at the server's port."""
        with contextlib.suppress(ConnectionRefusedError):
            return socket.create_connection(("127.0.0.1", self.port), LONGEST).close()
        return True

    def stop(self):
        self.nginx("-s", "stop")
        self.stop_server()
        self.log.close()
        shutil.rmtree(self.folder)


def load(port):
    """Coverages of many kinds; a large one is filled by boxes."""
    heights = data.terrain()
    classes = data.cover(heights)
    plane = {"y": (0, data.SIZE - 1), "x": (0, data.SIZE - 1)}
    with rasterd.Session(port=port, timeout=600) as session:
        for name, cells, kind in [
            ("terrain", heights, "i16"),
            ("cover", classes, "u8"),
            ("later", data.later(classes), "u8"),
        ]:
            session.insert(name, plane, {"v": kind})
            session.write(name, "v", cells)
        session.insert("far", {"y": (0, 1), "x": (0, 2)}, {"v": "i64"})
        session.write("far", "v", [[FAR, FAR + 1, -FAR], [0, 2**63 - 1, -(2**63)]])
        session.insert("rain", {"t": (1, 3), "y": (-2, 1), "x": (0, 4)}, {"mm": "i16", "wet": "bool"})
        session.write("rain", "mm", numpy.arange(60) - 20)
        session.write("rain", "wet", [k % 3 == 0 for k in range(60)])
        session.insert("line", {"x": (0, 9)}, {"v": "i16"})
        session.write("line", "v", list(range(10)))
        session.insert("large", {"y": (0, 4095), "x": (0, 4095)}, {"v": "i32"})
        for k in range(64):
            session.fill("large", "v", k, {"y": (64 * k, 64 * k + 63), "x": (0, 4095)})
    return heights, classes
