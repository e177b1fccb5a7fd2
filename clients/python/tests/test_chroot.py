"""The package installed by apt in a fresh Debian of its own, made by debootstrap: what it depends on is all that it
needs."""

import os
import subprocess
import tempfile
import unittest

from over_loopback import PROGRAM, TOP
from served import free_port

SHELL = """
set -e
cd /tmp
rasterd-serve lai.store PORT 2>said &
until grep -q "at http" said; do kill -0 $!; sleep 0.1; done
curl -sS -d 'request=InsertCoverage&coverage=hill&domain=y(0:2),x(0:3)&fields=v:i16' localhost:PORT/ows
rasterd-ask --port PORT 'for c in (hill) return max(c)'
rasterd-ask --port PORT 'for c in (hill) return sum(c)' 2>&1 || true
python3 -c 'import rasterd; print(rasterd.Session(port=PORT).list())'
kill $!
wait $!
tail -1 said
"""


class Chroot(unittest.TestCase):
    @classmethod
    def setUpClass(cls):
        room = tempfile.TemporaryDirectory()
        cls.addClassCleanup(room.cleanup)
        cls.root = f"{room.name}/debian"
        ran("debootstrap", "--variant=minbase", "bookworm", cls.root)
        package = ran(f"{TOP}/deploy/package", PROGRAM, f"{cls.root}/tmp").strip()
        ran("mount", "-t", "proc", "proc", f"{cls.root}/proc")
        cls.addClassCleanup(ran, "umount", f"{cls.root}/proc")
        cls.inside("apt-get", "update", "--quiet=2")
        words = ["apt-get", "install", "--yes", "--quiet=2", "--no-install-recommends"]
        cls.inside("env", "DEBIAN_FRONTEND=noninteractive", *words, f"/tmp/{os.path.basename(package)}")

    @classmethod
    def inside(cls, *words):
        return ran("chroot", cls.root, *words)

    def test_the_examples_of_the_documents(self):
        program = f"{self.root}/tmp/rasterd-inside"
        with open(program, "w", encoding="utf-8") as file:
            file.write(f'#!/bin/sh\nexec chroot {self.root} rasterd "$@"\n')
        os.chmod(program, 0o755)
        self.assertIn(" 0 differ", ran(f"{TOP}/scripts/check.py", program))

    def test_serve_and_ask(self):
        said = self.inside("sh", "-c", SHELL.replace("PORT", str(free_port())))
        refused = "refused 32 BadSyntax: 1:24: `sum` does not fit: it is called `add` here"
        self.assertEqual(said, f"ok\n0\n{refused}\n['hill']\nserve: lai.store is closed\n")


def ran(*words):
    """What a command prints; a failure with all that it said."""
    plain = {name: value for name, value in os.environ.items() if name != "SERVER"}
    ended = subprocess.run(words, env=plain, capture_output=True, text=True, check=False)
    if ended.returncode:
        raise AssertionError(f"{' '.join(words)}: {ended.stdout[-2000:]}{ended.stderr[-2000:]}")
    return ended.stdout
