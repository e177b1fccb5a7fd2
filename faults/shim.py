"""The library of shim.c under the built program, and one run of the program that is asked message by message."""

import contextlib
import errno
import os
import re
import shutil
import subprocess
import sys
import tempfile

TOP = os.path.dirname(os.path.dirname(os.path.abspath(__file__)))
sys.path.append(f"{TOP}/scripts")

from served import LONGEST

# what becomes of a call, beside error numbers
HALF, NOTHING, INVERTED, HALF_THEN_EIO, STOPPED, ONE = range(1001, 1007)
EIO, ENOSPC, EINTR = errno.EIO, errno.ENOSPC, errno.EINTR
# more calls than a run makes
ALL = 10**9


def is_dynamic(program):
    """Whether libraries are loaded when the program starts."""
    return subprocess.run(["ldd", program], capture_output=True, check=False).returncode == 0


@contextlib.contextmanager
def library(program):
    """The path of the library, made by the toolchain's own compiler where `rt` is, else by `cc`, while it is needed.
    Ends with status 1 where it cannot be loaded before the program."""
    if not is_dynamic(program):
        sys.exit("the program is linked by itself: no library is loaded before it, and what needs one was not tried")
    rt = shutil.which("rt")
    tools = os.path.join(os.path.dirname(os.path.dirname(os.path.realpath(rt))), "toolchain/bin") if rt else ""
    own = [f"{tools}/clang", "--target=x86_64-unknown-linux-gnu", "-fuse-ld=lld", "-B", tools]
    with tempfile.TemporaryDirectory() as folder:
        made = f"{folder}/shim.so"
        compiler = own if os.path.exists(own[0]) else ["cc"]
        words = ["-shared", "-fPIC", "-fno-builtin", "-nostdlib", "-O1", "-o", made, f"{TOP}/faults/shim.c"]
        subprocess.run([*compiler, *words], check=True)
        yield made


def environment(made, on=None, first=0, how=EIO, count=1, log=None):
    """The environment of a run under the library of which so many calls fail, from the first on."""
    found = dict(os.environ, LD_PRELOAD=made, FAULT_FIRST=str(first), FAULT_HOW=str(how), FAULT_COUNT=str(count))
    if on:
        found["FAULT_ON"] = on
    if log:
        found["FAULT_LOG"] = log
    return found


class Run:
    """The program on a file, asked through pipes as one connection."""

    def __init__(self, program, file, env):
        pipe = subprocess.PIPE
        self.process = subprocess.Popen([program, file, "run"], stdin=pipe, stdout=pipe, stderr=pipe, env=env)

    def ask(self, message):
        """The reply to a message, head and body; nothing where the run has ended."""
        try:
            self.process.stdin.write(message)
            self.process.stdin.flush()
        except BrokenPipeError:
            return b""
        return self.reply()

    def reply(self):
        head = b""
        while not head.endswith(b"\r\n\r\n"):
            line = self.process.stdout.readline()
            if not line:
                return b""
            head += line
        length = int(re.search(rb"Content-Length: (\d+)", head)[1])
        return head + self.process.stdout.read(length)

    def end(self):
        """Ends the messages. Gives the status and the line on standard error."""
        with contextlib.suppress(BrokenPipeError):
            self.process.stdin.close()
        self.process.stdin = None
        try:
            _, errors = self.process.communicate(timeout=LONGEST)
        except subprocess.TimeoutExpired:
            self.process.kill()
            self.process.communicate()
            return "did not end", ""
        return self.process.returncode, errors.decode().strip()


def calls(log):
    """Of a run's log each call on the file, as (what, where, how many bytes, the bytes of a write), and the numbers of
    calls."""
    with open(log, "rb") as file:
        data = file.read()
    found, numbers = [], {}
    while data:
        line, _, data = data.partition(b"\n")
        what, at, length = line.decode().split()
        written, data = (data[: int(length)], data[int(length) :]) if what == "pwrite" else (b"", data)
        if what in ("disk", "stream", "memory"):
            numbers[what] = int(at)
        else:
            found.append((what, int(at), int(length), written))
    return found, numbers
