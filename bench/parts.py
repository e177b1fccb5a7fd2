#!/usr/bin/python3
"""Figures of a raster of 4,096 x 4,096 cells over one, two and four servers of this machine.

    bench/parts.py PROGRAM

The raster is cut over the servers, each on a store in memory, and a cluster of dask with four processes asks. Seconds
with one server, two and four, the least of three rounds in which the three take turns, and in brackets the processor
time of the server that was busiest, which does not depend on what else the machine does. Each answer is compared with
numpy's. At the end the time that each of 1,024 small parts takes, which is that of a request and of a task of dask. It
needs Debian's packages python3-numpy, python3-xarray, python3-dask and python3-distributed.
"""

import contextlib
import os
import sys
import time

sys.dont_write_bytecode = True
TOP = os.path.dirname(os.path.dirname(os.path.abspath(__file__)))
sys.path[:0] = [f"{TOP}/clients/python", f"{TOP}/scripts"]
os.environ["PYTHONPATH"] = f"{TOP}/clients/python"
try:
    import distributed
    import numpy
    import rasterd
    import rasterd_parts
    import rasterd_xarray
    import xarray
except ImportError as missing:
    sys.exit(
        f"{missing}: install python3-xarray, python3-dask and python3-distributed, and run this with /usr/bin/python3"
    )
from served import server

SIDE = 4096
BOX = {"y": (2000, 2099), "x": (2000, 2099)}


def data():
    """Heights that vary by a step a cell, and zones of 256 x 256 cells."""
    numbers = numpy.random.default_rng(1)
    heights = (numbers.integers(-1, 2, (SIDE, SIDE)).cumsum(1) + 300).astype("int16")
    zones = (numpy.add.outer(numpy.arange(SIDE) // 256, numpy.arange(SIDE) // 256) % 16).astype("uint8")
    return xarray.Dataset({"height": (("y", "x"), heights), "zone": (("y", "x"), zones)})


def figures(heights, zones):
    """Each figure: its name, what is asked of a raster, and numpy's answer."""
    table = [(int((zones == k).sum()), int(heights[zones == k].sum(dtype="int64"))) for k in range(16)]
    counts, mean, window = [it[0] for it in table], heights.mean(), heights[2000:2100, 2000:2100]
    return [
        ("mean, folded where the cells are", lambda it: it.mean("height"), mean),
        ("16 counts by class", lambda it: list(it.counts("zone", range(16)).values()), counts),
        ("16 zones, cells and sum", lambda it: list(it.zonal("height", "zone", range(16)).values()), table),
        ("mean by dask over cells that come here", lambda it: it.array("height").mean().compute(), mean),
        ("a window of 100 x 100 across seams", lambda it: it.cells("height", BOX), window),
    ]


def spent(processes):
    """The processor seconds of each process so far."""
    found = []
    for process in processes:
        with open(f"/proc/{process}/stat", encoding="utf-8") as file:
            words = file.read().rsplit(")", 1)[1].split()
        found.append((int(words[11]) + int(words[12])) / os.sysconf("SC_CLK_TCK"))
    return found


def taken(work, raster, wanted, processes=()):
    """The seconds that a work takes, whose answer is the one that is wanted, and the most processor seconds of a
    server."""
    began, before = time.perf_counter(), spent(processes)
    found = work(raster)
    seconds, after = time.perf_counter() - began, spent(processes)
    if not numpy.array_equal(found, wanted):
        raise SystemExit(f"WRONG: {found} is not {wanted}")
    return seconds, max((b - a for a, b in zip(before, after)), default=0)


def written(dataset, ports):
    """The dataset, cut over the servers at some ports."""
    url = f"rasterd://{','.join(f'127.0.0.1:{it}' for it in ports)}/raster"
    began = time.perf_counter()
    raster = rasterd_xarray.to_rasterd(dataset, url)
    print(f"{len(ports)} servers: {len(raster.parts)} parts written in {time.perf_counter() - began:.1f} s")
    return raster


def small_parts(ports):
    """The seconds of one part's share in a sum over 1,024 parts of 64 x 64 cells."""
    boxes = {(y, x): {"y": (64 * y, 64 * y + 63), "x": (64 * x, 64 * x + 63)} for y in range(32) for x in range(32)}
    parts = []
    for k, ((y, x), box) in enumerate(boxes.items()):
        parts.append(rasterd_parts.Part(f"small_{y}_{x}", box, (f"127.0.0.1:{ports[k % len(ports)]}",)))
    for port in ports:
        with rasterd.Session(port=port, timeout=600) as session:
            for part in parts:
                if part.servers[0].endswith(f":{port}"):
                    session.insert(part.coverage, part.domain, {"v": "u8"})
    raster = rasterd_parts.Raster("small", {"v": "u8"}, parts)
    return min(taken(lambda it: it.sum("v"), raster, 0) for _ in range(3))[0] / len(parts)


def main(program):
    dataset = data()
    heights, zones = dataset.height.values, dataset.zone.values
    least = min(taken(lambda it: it.mean(), heights, heights.mean()) for _ in range(5))[0]
    print(f"numpy in memory, mean: {least:.3f} s")
    with contextlib.ExitStack() as stack:
        sites = [[stack.enter_context(server(os.path.abspath(program))) for _ in range(count)] for count in (1, 2, 4)]
        ports, processes = ([[it[k] for it in site] for site in sites] for k in (0, 1))
        rasters = list(map(written, [dataset] * 3, ports))
        cluster = stack.enter_context(distributed.LocalCluster(4, threads_per_worker=1, dashboard_address=None))
        stack.enter_context(distributed.Client(cluster))
        for name, work, wanted in figures(heights, zones):
            rounds = [list(map(taken, [work] * 3, rasters, [wanted] * 3, processes)) for _ in range(3)]
            least = [[min(it) for it in zip(*column)] for column in zip(*rounds)]
            print(f"{name}: " + ", ".join(f"{seconds:.3f} ({busiest:.2f})" for seconds, busiest in least))
        print(f"a part of 1,024 small ones: {small_parts(ports[-1]) * 1000:.2f} ms")


if __name__ == "__main__":
    if len(sys.argv) != 2:
        sys.exit(__doc__)
    main(sys.argv[1])
