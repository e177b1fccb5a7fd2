#!/usr/bin/env python3
"""Seconds and bytes a second for reading queries of 65,536 bytes, each beside a loop in C that sorts the same bytes
into classes.

usage: bench/parsing.py [the program, else crates/bench/out/bench]

The program cuts the text into tokens and reads them as a query, as often as it is told; the figure is the processor time
that one more reading takes, the least of several; the two programs take turns. `rt run` in its folder builds it.
"""
import os
import sys

from compiled import ROUNDS, compiled, line_of, one_more

TOP = os.path.dirname(os.path.dirname(os.path.abspath(__file__)))
PROGRAM = sys.argv[1] if len(sys.argv) > 1 else f"{TOP}/crates/bench/out/bench"
LENGTH = 65536

LOOP = r"""
#include <ctype.h>
#include <stdio.h>
#include <stdlib.h>
#include <string.h>
int main(int count, char **words) {
    const char *text = words[count - 1];
    size_t n = strlen(text);
    long classes[4] = {0};
    for (long r = atol(words[2]); r > 0; r--) {
        for (size_t i = 0; i < n; i++) {
            unsigned char c = text[i];
            classes[isspace(c) ? 0 : isdigit(c) ? 1 : isalpha(c) ? 2 : 3]++;
        }
        __asm__ volatile("" : : "r"(classes) : "memory");
    }
    printf("%ld\n", classes[0]);
    return 0;
}
"""


def filled(front, piece, back=""):
    """The front, as many pieces as fit, and the back: at most 65,536 bytes."""
    return front + piece * ((LENGTH - len(front) - len(back)) // len(piece)) + back


HEAD = "for c in (lai) return "
ROWS = [
    ("many short operands: {a0: c + 1; ..}", filled(HEAD + "{x: c", "; a: c[x(0:9)] + 2 * c", "}")),
    ("a sum of 1: 1+1+..", filled(HEAD + "1", "+1")),
    ("signs: - - ..", filled(HEAD, "- ", "1")),
    ("fields: c.b.b..", filled(HEAD + "c", ".b")),
    ("brackets: c[x(0)][x(0)]..", filled(HEAD + "c", "[x(0)]")),
    ("512 parentheses, then a sum", filled(HEAD + "(" * 512 + "1" + ")" * 512, "+1")),
    ("a value list", filled(HEAD + "coverage m over $i x(0:0) value list <1", ";1", ">")),
]


def main():
    with compiled(LOOP) as plain:
        print(f"{'a query of 64 KiB':40} {'found':10} {'ms':>8} {'MB/s':>8} {'to C':>8}")
        for name, text in ROWS:
            words = ["query", ROUNDS, "syntax", text]
            found = line_of([PROGRAM, *words], 1)
            once, loop = one_more([[PROGRAM, *words], [plain, *words]], [100, 1000])
            print(f"{name:40} {found:10} {once * 1e3:8.2f} {len(text) / once / 1e6:8.1f} {once / loop:8.1f}")


if __name__ == "__main__":
    main()
