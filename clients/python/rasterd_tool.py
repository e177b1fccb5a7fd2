"""What the tools share: their words for a server, and one line for whatever goes wrong."""

import argparse
import contextlib
import http.client
import os
import signal
import sys

import rasterd


def words(doc):
    """A reader of the words after a tool's name."""
    made = argparse.ArgumentParser(description=doc, formatter_class=argparse.RawDescriptionHelpFormatter)
    made.add_argument("--host", default="127.0.0.1")
    made.add_argument("--port", type=int, default=8080)
    return made


def session(given):
    # longer than the longest query works
    return rasterd.Session(given.host, given.port, timeout=900)


def put(text):
    """Writes to standard output, or ends the program where that fails: in silence where nobody reads any more."""
    try:
        sys.stdout.write(text)
        sys.stdout.flush()
    except OSError as fault:
        # what is still to be written is not tried again at the end
        os.dup2(os.open(os.devnull, os.O_WRONLY), sys.stdout.fileno())
        sys.exit(1 if isinstance(fault, BrokenPipeError) else f"standard output: {fault.strerror}")


@contextlib.contextmanager
def in_one_line(given):
    """Ends the program with a line where something goes wrong inside, or it is stopped."""
    for number in (signal.SIGTERM, signal.SIGHUP):
        if signal.getsignal(number) is not signal.SIG_IGN:
            signal.signal(number, stopped)
    try:
        yield
    except rasterd.Refused as refusal:
        sys.exit(f"refused {refusal}")
    except rasterd.NotUnderstood as fault:
        sys.exit(f"no rasterd answers at {given.host}:{given.port}: {fault}")
    except OSError as fault:
        if fault.filename:
            sys.exit(f"{fault.filename}: {fault.strerror}")
        sys.exit(f"no answer from {given.host}:{given.port}: {fault or type(fault).__name__}")
    except http.client.HTTPException as fault:
        sys.exit(f"no rasterd answers at {given.host}:{given.port}: {type(fault).__name__}")
    except (ValueError, RuntimeError) as fault:
        # of GDAL too
        sys.exit(str(fault))
    except KeyboardInterrupt:
        sys.exit("stopped")


def stopped(*_):
    sys.exit("stopped")
