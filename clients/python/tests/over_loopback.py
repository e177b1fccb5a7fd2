"""What the tests share: the program, a server of its own for each test, and the tools."""

import os
import subprocess
import sys
import unittest

HERE = os.path.dirname(os.path.abspath(__file__))
TOP = os.path.abspath(f"{HERE}/../../..")
CLIENTS = f"{TOP}/clients/python"
sys.path[:0] = [CLIENTS, f"{TOP}/examples", f"{TOP}/scripts"]

import rasterd
from served import LONGEST, served

PROGRAM = os.environ["SERVER"]


class OverLoopback(unittest.TestCase):
    """Each test has a server on an empty store in memory of its own."""

    def setUp(self):
        server = served(PROGRAM)
        self.port = server.__enter__()
        self.addCleanup(server.__exit__, None, None, None)

    def session(self, timeout=LONGEST, **words):
        return rasterd.Session(port=self.port, timeout=timeout, **words)

    def assert_refused(self, number, asked):
        """What the refusal says."""
        with self.assertRaises(rasterd.Refused) as raised:
            asked()
        self.assertEqual(raised.exception.number, number)
        return str(raised.exception)

    def tool(self, name, *words, port=None, given=""):
        """Runs one of the programs; what it prints on both of its outputs, and its status."""
        ended = subprocess.run(
            [sys.executable, f"{CLIENTS}/{name}", *words, "--port", str(port or self.port)],
            capture_output=True,
            text=True,
            input=given,
            check=False,
        )
        return ended.returncode, ended.stdout + ended.stderr
