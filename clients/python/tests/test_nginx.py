"""nginx in front of the program, by bench/nginx.py."""

import subprocess
import sys
import unittest

from over_loopback import TOP


class Nginx(unittest.TestCase):
    def test_replies_and_jobs(self):
        ended = subprocess.run(
            [sys.executable, f"{TOP}/bench/nginx.py", "1"], capture_output=True, text=True, timeout=600, check=False
        )
        self.assertEqual(ended.returncode, 0, ended.stdout + ended.stderr)
        self.assertIn("600 of 600 right", ended.stdout)
