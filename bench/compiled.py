"""Plain loops in C beside which the benchmarks measure, and how the runs of programs are timed."""
import contextlib
import os
import resource
import subprocess
import sys
import tempfile

# the word of a command that stands for the number of its rounds
ROUNDS = "ROUNDS"


@contextlib.contextmanager
def compiled(source, *options):
    """The path of the program that `cc -O2` makes of a text in C, while it is needed; other options may follow."""
    with tempfile.TemporaryDirectory() as folder:
        program = os.path.join(folder, "loops")
        subprocess.run(["cc", "-O2", *options, "-x", "c", "-o", program, "-"], input=source, check=True, text=True)
        yield program


def figures(source, *words):
    """The numbers that such a program writes."""
    with compiled(source) as program:
        ended = subprocess.run([program, *words], capture_output=True, check=True, text=True)
    return [float(word) for word in ended.stdout.split()]


def line_of(command, rounds):
    """The line that a command of so many rounds writes; the script ends where it fails, or writes none."""
    words = [str(rounds) if word == ROUNDS else word for word in command]
    ended = subprocess.run(words, capture_output=True, text=True)
    line = ended.stdout.strip()
    if ended.returncode or not line:
        sys.exit(f"{' '.join(words)[:200]} ended with {ended.returncode} and wrote {line!r}: {ended.stderr.strip()}")
    return line


def absent(path):
    """The path, where no file is there; else the script ends."""
    if os.path.exists(path):
        sys.exit(f"{path} is there already")
    return path


def seconds(command, rounds, file=None):
    """The processor time of a command of so many rounds. The file that it writes, if one is named, is removed."""
    begun = resource.getrusage(resource.RUSAGE_CHILDREN)
    try:
        line_of(command, rounds)
    finally:
        if file and os.path.exists(file):
            os.remove(file)
    ended = resource.getrusage(resource.RUSAGE_CHILDREN)
    return ended.ru_utime - begun.ru_utime + ended.ru_stime - begun.ru_stime


def one_more(commands, rounds, repeats=7, file=None):
    """The processor time that one more round of each command takes: that of a run with so many more rounds than one,
    less that of a run with one, each the least of several; the commands take turns. `rounds` is one number, or one for
    each command; a file that they write is made anew for each run."""
    counts = rounds if isinstance(rounds, list) else [rounds] * len(commands)
    few = [min(seconds(command, 1, file) for _ in range(3)) for command in commands]
    times = [[seconds(*it, file) for it in zip(commands, [count + 1 for count in counts])] for _ in range(repeats)]
    return [(min(column) - start) / count for column, start, count in zip(zip(*times), few, counts)]
