"""The server of numpy_server.py, for the queries of queries.py. Needs Debian's package python3-numpy."""
import contextlib
import os
import socket
import subprocess
import sys

from layers import SIDE, Connection

SERVER = f"{os.path.dirname(os.path.abspath(__file__))}/numpy_server.py"
ROWS = 64
# the path beside each loop of queries.c
PATHS = {
    "add_noise": "add/noise",
    "add_terrain": "add/terrain",
    "add_land": "add/land",
    "max_noise": "greatest/noise",
    "max_land": "greatest/land",
    "count_noise": "count/noise",
    "count_terrain": "count/terrain",
    "count_land": "count/land",
    "difference": "difference/noise/terrain",
    "inner_window": "box/noise/1024/64",
    "window": "box/noise/1000/64",
    "cells": "box/noise/0/1024",
    "focal_sum_1": "focal_sum/hill/1",
    "focal_sum_3": "focal_sum/hill/3",
    "focal_sum_8": "focal_sum/hill/8",
    "focal_max_1": "focal_max/hill/1",
    "focal_max_3": "focal_max/hill/3",
    "zonal_64": "zonal/noise64/land64",
    "zonal_130": "zonal/noise130/land130",
    "zones_16": "by_zones/noise/land/1024/16",
    "zones_256": "by_zones/noise/land/1024/256",
    "all_zones_16": f"by_zones/noise/land/{SIDE}/16",
    "all_zones_48": f"by_zones/noise/land/{SIDE}/48",
    "five": "plus/2/3",
    "cell": "cell/noise/1000/1000",
}


def interpreter():
    """A Python that has numpy, or None."""
    for python in (sys.executable, "/usr/bin/python3"):
        words = [python, "-c", "import numpy"]
        if os.path.exists(python) and subprocess.run(words, stderr=subprocess.DEVNULL).returncode == 0:
            return python
    return None


class Server(Connection):
    name = "numpy"
    forms = {loop: f"GET /{path} HTTP/1.1\r\n\r\n".encode() for loop, path in PATHS.items()}

    def writes(self, cells, rows):
        """The messages that write the first rows of noise."""
        for top in range(0, rows, ROWS):
            text = ",".join(map(str, cells[top * SIDE : (top + ROWS) * SIDE])).encode()
            yield b"POST /write/noise/%d HTTP/1.1\r\nContent-Length: %d\r\n\r\n%s" % (top, len(text), text)


@contextlib.contextmanager
def numpy(loops):
    """A connection to the server, while it is needed."""
    with subprocess.Popen([interpreter(), SERVER, loops], stdout=subprocess.PIPE) as process:
        try:
            port = int(process.stdout.readline())
            with socket.create_connection(("127.0.0.1", port)) as client, client.makefile("rwb") as both:
                yield Server(process, both, both)
        finally:
            process.kill()
