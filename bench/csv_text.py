#!/usr/bin/env python3
"""The time that an answer of 1,024 lines of 1,024 cells takes to be printed as CSV, beside two loops in C.

usage: bench/csv_text.py [WORD..]    only the lines that have one of these words

The cells are one number, noise of 16 bits, noise of 62 bits, and truth values. One loop in C prints each cell by
sprintf, the other writes the digits by itself; both write into memory that was taken before, and are compiled here by
cc -O2. The figure is the processor time that one more text takes, the least of several, so that starting and making the
cells do not count; the programs take turns. `rt run` in crates/bench builds the program.
"""
import os
import sys

from compiled import ROUNDS, compiled, one_more

TOP = os.path.dirname(os.path.dirname(os.path.abspath(__file__)))
PROGRAM = [os.environ.get("PRINTING", f"{TOP}/crates/bench/out/bench"), "csv"]
CELLS = 1 << 20
PATTERNS = ["one", "noise", "wide", "bool"]

LOOPS = r"""
#include <stdint.h>
#include <stdio.h>
#include <stdlib.h>
#include <string.h>
#define CELLS (1 << 20)
static int64_t cells[CELLS];
static uint64_t noise(uint64_t place) {
    uint64_t x = (place + 1) * 0x9e3779b97f4a7c15u;
    x = (x ^ (x >> 30)) * 0xbf58476d1ce4e5b9u;
    return x ^ (x >> 27);
}
static int64_t cell(const char *pattern, uint64_t place) {
    if (!strcmp(pattern, "one")) return 7;
    if (!strcmp(pattern, "wide")) return (int64_t)(noise(place) >> 2) - 2305843009213693952;
    if (!strcmp(pattern, "bool")) return noise(place) % 2 == 0;
    return (int64_t)(noise(place) % 65536) - 32768;
}
static char *digits(char *at, int64_t value) {
    char back[20];
    int count = 0;
    uint64_t left = value < 0 ? 0 - (uint64_t)value : value;
    if (value < 0) *at++ = '-';
    do back[count++] = '0' + left % 10; while (left /= 10);
    while (count) *at++ = back[--count];
    return at;
}
int main(int count, char **words) {
    int is_bool = !strcmp(words[1], "bool"), is_plain = PLAIN;
    char *text = malloc(CELLS * 22), *at = text;
    for (long i = 0; i < CELLS; i++) cells[i] = cell(words[1], i);
    for (long r = atol(words[2]); r > 0; r--) {
        at = text;
        for (long i = 0; i < CELLS; i++) {
            char end = (i + 1) % 1024 ? ',' : '\n';
            if (is_bool) { const char *word = cells[i] ? "true" : "false"; long size = 5 - cells[i]; memcpy(at, word, size); at += size; *at++ = end; }
            else if (is_plain) { at = digits(at, cells[i]); *at++ = end; }
            else at += sprintf(at, "%ld%c", (long)cells[i], end);
        }
    }
    printf("%ld\n", (long)(at - text));
    return count == 0;
}
"""


def main():
    wanted = sys.argv[1:]
    print(
        f"{'2^20 cells':12} {'ns a cell':>10} {'sprintf ns':>11} {'own loop ns':>12} {'to sprintf':>11} {'to the loop':>12}"
    )
    with compiled(LOOPS, "-DPLAIN=0") as library, compiled(LOOPS, "-DPLAIN=1") as plain:
        for pattern in PATTERNS:
            if wanted and pattern not in wanted:
                continue
            commands = [[*program, pattern, ROUNDS] for program in (PROGRAM, [library], [plain])]
            ours, printed, loop = (time / CELLS * 1e9 for time in one_more(commands, 10))
            print(
                f"{pattern:12} {ours:10.1f} {printed:11.1f} {loop:12.1f} {ours / printed:11.2f} {ours / loop:12.2f}",
                flush=True,
            )


if __name__ == "__main__":
    main()
