#!/usr/bin/env python3
"""The time of each kernel and each condenser over columns, beside a plain loop in C over the same cells.

usage: bench/kernels.py [--cells N,..] [--beside PROGRAM] [WORD..]    only the lines that have all of these words

The columns have 4,096 cells, or as many as are named, which are no more. The kernels are run by crates/bench, which `rt run` in its folder
builds, and by another build of that program, if one is named. Each line is an operation on two columns, on a column and
the scalar 3 (scalar), or on one column (one); or a condenser of a column (fold), of a column under a condition (where),
or of as many condensers as the column has cells, each told of one: accumulators (each), or condensers that keep what
their kind needs (kept). The cells are one number, each kept by itself (constant), noise of 32 bits (noise) or of 62
bits (wide), or noise of 32 bits and a fault at the last place.

The loops in C make the same tests on numbers of 64 bits: whether a sum, a difference or a product left them, whether a
divisor is 0, or -1 beside the least number, whether a bit's number is 0 to 63. A sum is kept in 128 bits. They are
compiled by cc -O2 and by cc -O3, both for the processor that Rattle compiles for and for so many cells. The figure is
the processor time that one more round takes, the least of several, so that starting, making the cells and what else the
machine does do not count; the programs take turns.
"""
import argparse
import contextlib
import os

from compiled import ROUNDS, compiled, one_more, seconds

TOP = os.path.dirname(os.path.dirname(os.path.abspath(__file__)))
PROGRAM = [f"{TOP}/crates/bench/out/bench", "kernel"]
PROCESSOR = "-march=x86-64-v2"
REPEATS = 5
BOTH = ["+", "-", "*", "/", "<", "<=", ">", ">=", "=", "!=", "and", "or", "xor", "bit"]
ONE = ["negate", "plus", "not", "abs"]
CONDENSERS = ["sum", "product", "greatest", "least", "every", "any", "count", "average"]
PLAIN = ["constant", "noise"]
# the kernels, their shape, and the data that they are run on
LINES = [
    (BOTH, "columns", PLAIN),
    (["/"], "columns", ["wide"]),
    (BOTH, "scalar", PLAIN),
    (["/"], "scalar", ["wide"]),
    (ONE, "one", PLAIN),
    (CONDENSERS, "fold", PLAIN),
    (CONDENSERS, "where", PLAIN),
    (CONDENSERS, "each", PLAIN),
    (CONDENSERS, "kept", PLAIN),
    (["-", "*", "/", "bit"], "columns", ["faults"]),
]

LOOPS = r"""
#include <stdint.h>
#include <stdio.h>
#include <stdlib.h>
#include <string.h>
#define LOOP for (long i = 0; i < CELLS; i++)
#define FUNCTION __attribute__((noinline)) static int64_t
typedef __int128 wide;
typedef struct { int has_zero, negative; uint64_t magnitude; } factors;
static int64_t a[CELLS], b[CELLS], c[CELLS], out[CELLS];
int64_t scalar = 3;
static wide sums[CELLS];
static int64_t bests[CELLS], counts[CELLS];
static factors products[CELLS];

#define BOTH(name, step) \
    FUNCTION name##_columns(void) { int64_t wrong = 0, value; LOOP { int64_t x = a[i], y = b[i]; step; out[i] = value; } return wrong; } \
    FUNCTION name##_scalar(void) { int64_t wrong = 0, value, y = scalar; LOOP { int64_t x = a[i]; step; out[i] = value; } return wrong; }
BOTH(add, value = (uint64_t)x + (uint64_t)y; wrong |= (x ^ value) & (y ^ value))
BOTH(subtract, value = (uint64_t)x - (uint64_t)y; wrong |= (x ^ y) & (x ^ value))
BOTH(multiply, wrong |= -(int64_t)__builtin_mul_overflow(x, y, &value))
BOTH(divide, if (y == 0 || (y == -1 && x == INT64_MIN)) { value = 0; wrong = -1; } else value = x / y)
BOTH(less, value = x < y)
BOTH(at_most, value = x <= y)
BOTH(greater, value = x > y)
BOTH(at_least, value = x >= y)
BOTH(equal, value = x == y)
BOTH(other, value = x != y)
BOTH(both, value = x != 0 && y != 0)
BOTH(either, value = x != 0 || y != 0)
BOTH(one_only, value = (x != 0) != (y != 0))
BOTH(bit, if (y < 0 || y > 63) { value = 0; wrong = -1; } else value = (uint64_t)x >> y & 1)

#define ONE(name, step) FUNCTION name(void) { int64_t wrong = 0, value; LOOP { int64_t x = a[i]; step; out[i] = value; } return wrong; }
ONE(negate, value = 0 - (uint64_t)x; wrong |= x & value)
ONE(plus, value = x)
ONE(not, value = x == 0)
ONE(absolute, value = x < 0 ? 0 - (uint64_t)x : x; wrong |= value)

static inline factors times(factors p, int64_t x) {
    if (x == 0) { p.has_zero = 1; return p; }
    p.negative ^= x < 0;
    uint64_t size = x < 0 ? 0 - (uint64_t)x : x, beyond = ((uint64_t)1 << 63) + 1;
    if (__builtin_mul_overflow(p.magnitude, size, &p.magnitude) || p.magnitude > beyond) p.magnitude = beyond;
    return p;
}
#define FOLD(name, start, step, end) \
    FUNCTION name##_fold(void) { start; LOOP { int64_t x = a[i]; step; } end; } \
    FUNCTION name##_where(void) { start; LOOP { if (c[i]) { int64_t x = a[i]; step; } } end; }
FOLD(sum, wide sum = 0, sum += x, return (int64_t)sum ^ (int64_t)(sum >> 64))
FOLD(product, factors p = ((factors){0, 0, 1}), p = times(p, x), return p.magnitude ^ p.negative ^ p.has_zero)
FOLD(greatest, int64_t best = INT64_MIN, if (x > best) best = x, return best)
FOLD(least, int64_t best = INT64_MAX, if (x < best) best = x, return best)
FOLD(every, int64_t all = 1, all &= x != 0, return all)
FOLD(any, int64_t some = 0, some |= x != 0, return some)
FOLD(count, int64_t count = 0, count += x != 0, return count)

#define EACH(name, step) FUNCTION name##_each(void) { LOOP { int64_t x = a[i]; step; } return 0; }
EACH(sum, sums[i] += x)
EACH(product, products[i] = times(products[i], x))
EACH(greatest, if (x > bests[i]) bests[i] = x)
EACH(least, if (x < bests[i]) bests[i] = x)
EACH(every, counts[i] &= x != 0)
EACH(any, counts[i] |= x != 0)
EACH(count, counts[i] += x != 0)

typedef struct { const char *name, *shape; int64_t (*run)(void); } line;
#define TWO(word, name) {word, "columns", name##_columns}, {word, "scalar", name##_scalar}
#define FOUR(word, name) {word, "fold", name##_fold}, {word, "where", name##_where}, {word, "each", name##_each}, {word, "kept", name##_each}
static const line lines[] = {
    TWO("+", add), TWO("-", subtract), TWO("*", multiply), TWO("/", divide), TWO("<", less), TWO("<=", at_most),
    TWO(">", greater), TWO(">=", at_least), TWO("=", equal), TWO("!=", other), TWO("and", both), TWO("or", either),
    TWO("xor", one_only), TWO("bit", bit),
    {"negate", "one", negate}, {"plus", "one", plus}, {"not", "one", not}, {"abs", "one", absolute},
    FOUR("sum", sum), FOUR("product", product), FOUR("greatest", greatest), FOUR("least", least),
    FOUR("every", every), FOUR("any", any), FOUR("count", count), FOUR("average", sum),
};

static uint64_t mixed(uint64_t place) {
    uint64_t x = (place + 1) * 0x9e3779b97f4a7c15u;
    x = (x ^ (x >> 30)) * 0xbf58476d1ce4e5b9u;
    return x ^ (x >> 27);
}
static int64_t with_sign(const char *data, uint64_t number) {
    if (!strcmp(data, "wide")) return (int64_t)(number % ((uint64_t)1 << 62)) - ((int64_t)1 << 61);
    return (int64_t)(number % ((uint64_t)1 << 32)) - ((int64_t)1 << 31);
}
static void fill(const char *kernel, const char *data) {
    int is_constant = !strcmp(data, "constant"), is_faulty = !strcmp(data, "faults");
    for (long i = 0; i < CELLS; i++) {
        uint64_t number = mixed(i + CELLS);
        a[i] = is_constant ? 7 : with_sign(data, mixed(i));
        b[i] = is_constant ? 3 : with_sign(data, number);
        if (!strcmp(kernel, "/") && !is_constant) b[i] |= 1;
        if (!strcmp(kernel, "bit")) b[i] = number % 64;
        c[i] = is_constant ? 1 : mixed(i) >> 63;
        products[i].magnitude = 1;
    }
    if (is_faulty) {
        a[CELLS - 1] = INT64_MAX;
        if (!strcmp(kernel, "/")) b[CELLS - 1] = 0;
        if (!strcmp(kernel, "bit")) b[CELLS - 1] = 64;
        if (!strcmp(kernel, "-")) b[CELLS - 1] = -2;
    }
}
int main(int count, char **words) {
    int64_t seen = 0;
    fill(words[1], words[3]);
    for (unsigned n = 0; n < sizeof lines / sizeof *lines; n++) {
        if (strcmp(lines[n].name, words[1]) || strcmp(lines[n].shape, words[2])) continue;
        for (long r = atol(words[5]); r > 0; r--) {
            seen += lines[n].run() ^ out[r % CELLS];
            __asm__ volatile("" : : : "memory");
        }
        printf("%ld\n", (long)seen);
        return 0;
    }
    return 1;
}
"""


def enough(command):
    """A number of rounds for which a command takes some time."""
    rounds = 100
    while seconds(command, rounds) < 0.03:
        rounds *= 2
    return rounds


def asked():
    parser = argparse.ArgumentParser()
    parser.add_argument("--cells", default="4096", help="how many cells the columns have, joined by commas")
    parser.add_argument("--beside", help="another build of the program")
    parser.add_argument("words", nargs="*")
    return parser.parse_args()


def cases(wanted, lengths):
    """The kernels that are asked for, each with its shape, its data and the number of cells."""
    for kernels, shape, datas in LINES:
        for kernel in kernels:
            for data in datas:
                for cells in lengths:
                    if set(wanted) <= {kernel, shape, data}:
                        yield kernel, shape, data, cells


@contextlib.contextmanager
def loops(lengths):
    """The loops in C by the number of cells, which the compiler knows: by -O2 and by -O3."""
    with contextlib.ExitStack() as stack:
        levels = [[], ["-O3"]]
        yield {
            cells: [[stack.enter_context(compiled(LOOPS, PROCESSOR, f"-DCELLS={cells}", *it))] for it in levels]
            for cells in lengths
        }


def main():
    options = asked()
    lengths = options.cells.split(",")
    others = [[options.beside, "kernel"]] if options.beside else []
    titles = ["us", *["beside us" for _ in others], "C -O2 us", "C -O3 us"]
    titles += [*["to it" for _ in others], "to -O2", "to -O3"]
    print(f"{'':33}" + "".join(f"{title:>10}" for title in titles))
    with loops(lengths) as plain:
        for case in cases(options.words, lengths):
            commands = [[*program, *case, ROUNDS] for program in [PROGRAM, *others, *plain[case[-1]]]]
            ours, *rest = one_more(commands, [enough(command) for command in commands], REPEATS)
            times = "".join(f"{time * 1e6:10.3f}" for time in [ours, *rest])
            ratios = "".join(f"{ours / time:10.2f}" for time in rest)
            print(f"{' '.join(case):33}{times}{ratios}", flush=True)


if __name__ == "__main__":
    main()
