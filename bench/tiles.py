#!/usr/bin/env python3
"""Cells a second of encoding and decoding 64 tiles of 4,096 cells, beside a plain loop in C over the same cells.

usage: bench/tiles.py [WORD..]    only the lines that have all of these words

The tiles are of one value, of runs of 64 cells, of runs of twenty and of three on the average, and of noise, each in
every type of a field. Both programs write a tile as runs, or raw where that takes fewer bytes, and both find when they
read a raw tile that its runs would be longer. The figure is the processor time that one more call takes, the least of
several, so that starting and making the cells do not count; the two programs take turns. The loops in C write and read
the same runs, and are compiled here by cc -O2 with its vectors. `rt run` in crates/bench builds the program.
"""
import os
import sys

from compiled import ROUNDS, compiled, one_more

TOP = os.path.dirname(os.path.dirname(os.path.abspath(__file__)))
PROGRAM = [os.environ.get("TILES", f"{TOP}/crates/bench/out/bench"), "tile"]
CELLS = 64 * 4096
KINDS = ["bool", "u8", "i16", "i32", "i64"]
PATTERNS = ["one", "runs", "twenty", "three", "noise"]

LOOPS = r"""
#include <stdint.h>
#include <stdio.h>
#include <stdlib.h>
#include <string.h>
static const int widths[] = {1, 1, 2, 4, 8};
static uint64_t noise(uint64_t place) {
    uint64_t x = (place + 1) * 0x9e3779b97f4a7c15u;
    x = (x ^ (x >> 30)) * 0xbf58476d1ce4e5b9u;
    return x ^ (x >> 27);
}
static int begins(const char *pattern, uint64_t place) {
    if (!strcmp(pattern, "one")) return 0;
    if (!strcmp(pattern, "runs")) return place % 64 == 0;
    if (!strcmp(pattern, "twenty")) return noise(~place) % 20 == 0;
    if (!strcmp(pattern, "three")) return noise(~place) % 3 == 0;
    return 1;
}
static int64_t cell(int kind, uint64_t n) {
    switch (kind) {
    case 0: return n & 1;
    case 1: return n & 0xff;
    case 2: return (int64_t)(n & 0xffff) - 32768;
    case 3: return (int64_t)(n & 0xffffffff) - 2147483648;
    default: return n / 2;
    }
}
#define TILES 64
int64_t tiles[TILES][4096], again[4096];
uint8_t texts[TILES][4096 * 10 + 8];
static long count_runs(const int64_t *cells) {
    long runs = 1;
    for (long i = 1; i < 4096; i++) runs += cells[i] != cells[i - 1];
    return runs;
}
#define NARROWED(type) { for (long i = 0; i < 4096; i++) ((type *)bytes)[i] = cells[i]; break; }
#define WIDENED(type) { for (long i = 0; i < 4096; i++) again[i] = ((const type *)bytes)[i]; break; }
static void encode_raw(int width, const int64_t *cells, uint8_t *bytes) {
    switch (width) {
    case 1: NARROWED(uint8_t)
    case 2: NARROWED(int16_t)
    case 4: NARROWED(int32_t)
    default: NARROWED(int64_t)
    }
}
static int decode_raw(int width, const uint8_t *bytes) {
    switch (width) {
    case 1: WIDENED(uint8_t)
    case 2: WIDENED(int16_t)
    case 4: WIDENED(int32_t)
    default: WIDENED(int64_t)
    }
    return 4096L * width < count_runs(again) * (2 + width);
}
__attribute__((noinline)) static long encode(int width, const int64_t *cells, uint8_t *bytes) {
    long end = 0;
    if (4096L * width < count_runs(cells) * (2 + width)) {
        encode_raw(width, cells, bytes);
        return -4096L * width;
    }
    for (long at = 0; at < 4096;) {
        long stop = at + 1;
        while (stop < 4096 && cells[stop] == cells[at]) stop++;
        uint16_t count = stop - at;
        memcpy(bytes + end, &count, 2);
        memcpy(bytes + end + 2, &cells[at], width);
        end += 2 + width;
        at = stop;
    }
    return end;
}
__attribute__((noinline)) static int decode(int width, int is_signed, const uint8_t *bytes, long end) {
    long done = 0;
    if (end < 0) return decode_raw(width, bytes);
    for (long at = 0; at < end; at += 2 + width) {
        uint16_t count;
        int64_t value = 0;
        memcpy(&count, bytes + at, 2);
        memcpy(&value, bytes + at + 2, width);
        if (is_signed) value = (int64_t)((uint64_t)value << (64 - 8 * width)) >> (64 - 8 * width);
        for (long i = 0; i < count; i++) again[done++] = value;
    }
    return done == 4096;
}
int main(int count, char **words) {
    static const char *kinds[] = {"bool", "u8", "i16", "i32", "i64"};
    int kind = 0;
    long ends[TILES], rounds = atol(words[4]), is_encoding = !strcmp(words[3], "encode");
    while (strcmp(kinds[kind], words[1])) kind++;
    for (long t = 0; t < TILES; t++) {
        uint64_t begin = 0;
        for (long i = 0; i < 4096; i++) {
            if (i == 0 || begins(words[2], t * 4096 + i)) begin = t * 4096 + i;
            tiles[t][i] = cell(kind, noise(begin));
        }
        ends[t] = encode(widths[kind], tiles[t], texts[t]);
    }
    for (long r = 0; r < rounds; r++) for (long t = 0; t < TILES; t++) {
        if (is_encoding) encode(widths[kind], tiles[t], texts[t]);
        else if (!decode(widths[kind], kind > 1, texts[t], ends[t])) return 1;
        __asm__ volatile("" : : : "memory");
    }
    printf("%ld\n", (long)again[count]);
    return 0;
}
"""


def main():
    wanted = sys.argv[1:]
    print(f"{'tile':12} {'encode M/s':>11} {'to C':>6} {'decode M/s':>11} {'to C':>6}")
    with compiled(
        LOOPS, "-ftree-vectorize", "-fvect-cost-model=dynamic", "-march=x86-64-v2", "-fno-strict-aliasing"
    ) as plain:
        for kind in KINDS:
            for pattern in PATTERNS:
                if not set(wanted) <= {kind, pattern}:
                    continue
                line = f"{kind + ' ' + pattern:12}"
                for action in ("encode", "decode"):
                    words = [kind, pattern, action, ROUNDS]
                    ours, loop = one_more([[*PROGRAM, *words], [plain, *words]], 100)
                    line += f" {CELLS / ours / 1e6:11.0f} {ours / loop:6.2f}"
                print(line, flush=True)


if __name__ == "__main__":
    main()
