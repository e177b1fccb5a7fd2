"""The built program on an empty store in memory, for as long as a script needs it; free ports, and waits that end."""

import contextlib
import socket
import subprocess
import time

# The seconds that are waited for what has to come: enough for a slow machine, where one sync of a file may take many.
LONGEST = 300
KEPT = []


def free_port():
    """A port that nobody else is given while this process runs: a socket that never listens is bound to it."""
    it = socket.socket()
    it.setsockopt(socket.SOL_SOCKET, socket.SO_REUSEADDR, 1)
    it.bind(("127.0.0.1", 0))
    KEPT.append(it)
    return it.getsockname()[1]


def until(condition, what):
    """What a condition gives, once that is something true."""
    end = time.monotonic() + LONGEST
    while not (found := condition()):
        if time.monotonic() > end:
            raise AssertionError(f"{what} has not come in {LONGEST} seconds")
        time.sleep(0.01)
    return found


def connected(port, process=None):
    """A connection to a port, once something listens there; refused where the process that is to listen has ended."""

    def tried():
        has_ended = process and process.poll() is not None
        try:
            return socket.create_connection(("127.0.0.1", port), LONGEST)
        except (ConnectionRefusedError, ConnectionResetError):
            # reset where what listened ended in that moment
            if has_ended:
                raise

    return until(tried, f"a connection to port {port}")


@contextlib.contextmanager
def server(program, folder=None):
    """The port at which the program listens, run in a folder, and its process; it is ended afterwards."""
    port = free_port()
    with subprocess.Popen([program, "-", "listen", str(port), "100000"], cwd=folder) as process:
        try:
            connected(port, process).close()
            yield port, process.pid
        finally:
            process.kill()


@contextlib.contextmanager
def served(program, folder=None):
    """The port alone."""
    with server(program, folder) as (port, _):
        yield port
