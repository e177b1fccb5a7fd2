#!/usr/bin/env python3
"""Tests the clients, deploy/serve and the package against the built server, over loopback.

    clients/python/test.py PROGRAM [PART..]

Without a part those tests run that need nothing but Python, curl, and flock and prlimit of util-linux. The others say
what Debian packages they need, and fail where one of these is missing; /usr/bin/python3 has what Debian installs:

    arrays     python3-numpy
    rasters    python3-numpy python3-gdal gdal-bin
    package    dpkg man-db python3-numpy python3-gdal
    chroot     debootstrap, as root, with a mirror in reach
    nginx      nginx openssl

`all` runs each. -k WORD runs the tests whose names have the word.
"""

import argparse
import importlib.util
import os
import shutil
import signal
import sys
import unittest

sys.dont_write_bytecode = True
TESTS = f"{os.path.dirname(os.path.abspath(__file__))}/tests"

# What each part needs: modules of Python and commands.
NEEDS = {
    "plain": [],
    "arrays": ["numpy"],
    "rasters": ["numpy", "osgeo", "osgeo_utils"],
    "package": ["dpkg-deb", "man", "numpy", "osgeo"],
    "chroot": ["dpkg-deb", "debootstrap"],
    "nginx": ["nginx", "openssl"],
}
PARTS = {
    "plain": ["test_client", "test_mistakes", "test_serve"],
    "arrays": ["test_numpy"],
    "rasters": ["test_rasters"],
    "package": ["test_package"],
    "chroot": ["test_chroot"],
    "nginx": ["test_nginx"],
}


def is_here(it):
    """Whether a module or a command is here."""
    return bool(shutil.which(it) or shutil.which(f"/usr/sbin/{it}") or importlib.util.find_spec(it))


def heed_signals():
    """Has what the tests start heed the signals that a program in the background, or behind `nohup`, does not."""
    for number in (signal.SIGHUP, signal.SIGINT, signal.SIGQUIT):
        if signal.getsignal(number) == signal.SIG_IGN:
            signal.signal(number, signal.SIG_DFL)


def main():
    heed_signals()
    # as by Ctrl-C, so that what was started is ended
    signal.signal(signal.SIGTERM, signal.default_int_handler)
    words = argparse.ArgumentParser(description=__doc__, formatter_class=argparse.RawDescriptionHelpFormatter)
    words.add_argument("program")
    words.add_argument("parts", nargs="*", choices=[*PARTS, "all", []], metavar="PART")
    words.add_argument("-k", metavar="WORD", action="append", help="the tests whose names have the word")
    given = words.parse_args()
    os.environ["SERVER"] = os.path.abspath(given.program)
    sys.path.insert(0, TESTS)
    loader = unittest.TestLoader()
    loader.testNamePatterns = [f"*{word}*" for word in given.k] if given.k else None
    parts = list(PARTS) if "all" in given.parts else given.parts or ["plain"]
    lacks = {part: [it for it in NEEDS[part] if not is_here(it)] for part in parts}
    if any(lacks.values()):
        print(*(f"{part} needs {', '.join(them)}, not found" for part, them in lacks.items() if them), sep="\n")
        return "--help names the packages; /usr/bin/python3 has those of Debian"
    found = loader.loadTestsFromNames(name for part in parts for name in PARTS[part])
    return not unittest.TextTestRunner(verbosity=2).run(found).wasSuccessful()


if __name__ == "__main__":
    sys.exit(main())
