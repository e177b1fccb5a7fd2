#!/usr/bin/env python3
"""Cells a second of writing and reading a store of one grid of i16, each beside a plain loop in C over the same data.

usage: bench/store.py [SIDE, else 4096 [FILE for the store, else memory]]

FILE is made anew for each run, and is gone afterwards: it must not be there before.

The actions are those of crates/bench, which `rt run` in its folder builds: the whole grid filled with a number
that changes in each round (fill), written with noise (values) and read and added (read), and at scattered places a
window of 64 x 64 read and added, that crosses the edges of four tiles (window), a cell read (cell), and a cell written
(put). The figure is the processor time that one more round takes, so that starting, making the noise and what else the
machine does do not count.

All but `fill` work on noise: hardly two neighbours are the same, so that tiles are written raw, and one of 4,096 cells
fills two blocks. A grid of 4096 x 4096 cells then takes 32 MiB, as a plain array of i16 does. The loops in C work on
such an array, and are compiled here by cc -O2.
"""
import os
import sys

from compiled import ROUNDS, absent, figures, one_more

TOP = os.path.dirname(os.path.dirname(os.path.abspath(__file__)))
PROGRAM = [f"{TOP}/crates/bench/out/bench", "store"]
SIDE = int(sys.argv[1]) if len(sys.argv) > 1 else 4096
FILE = sys.argv[2] if len(sys.argv) > 2 else None
# each action, the cells of a round, and how many rounds are measured
ACTIONS = [
    ("fill", SIDE * SIDE, 60),
    ("values", SIDE * SIDE, 6),
    ("read", SIDE * SIDE, 6),
    ("window", 64 * 64, 10000),
    ("cell", 1, 40000),
    ("put", 1, 20000),
]

LOOPS = r"""
#include <stdint.h>
#include <stdio.h>
#include <stdlib.h>
#include <string.h>
#include <time.h>
#define BARRIER __asm__ volatile("" : : : "memory")
static double now(void) {
    struct timespec t;
    clock_gettime(CLOCK_PROCESS_CPUTIME_ID, &t);
    return t.tv_sec + t.tv_nsec / 1e9;
}
static uint64_t mixed(uint64_t number) {
    uint64_t x = (number + 1) * 0x9e3779b97f4a7c15u;
    x = (x ^ (x >> 30)) * 0xbf58476d1ce4e5b9u;
    return x ^ (x >> 27);
}
static int16_t *grid, *noise;
static long side;
static int64_t sum, window[64 * 64];
static uint64_t spot(long round, long limit) {
    uint64_t n = mixed(round);
    return (n >> 16) % limit * side + (n >> 32) % limit;
}
__attribute__((noinline)) static void fill(long round) {
    for (long i = 0; i < side * side; i++) grid[i] = round;
}
__attribute__((noinline)) static void values(long round) { memcpy(grid, noise, side * side * 2); }
__attribute__((noinline)) static void read_all(long round) {
    for (long i = 0; i < side * side; i++) sum += grid[i];
}
__attribute__((noinline)) static void read_window(long round) {
    const int16_t *from = grid + 32 * side + 32 + 64 * spot(round, side / 64 - 1);
    for (long y = 0; y < 64; y++)
        for (long x = 0; x < 64; x++) window[64 * y + x] = from[side * y + x];
    BARRIER;
    for (long i = 0; i < 64 * 64; i++) sum += window[i];
}
__attribute__((noinline)) static void cell(long round) { sum += grid[spot(round, side)]; }
__attribute__((noinline)) static void put(long round) { grid[spot(round, side)] = round; }
static void (*const actions[])(long) = {fill, values, read_all, read_window, cell, put};
int main(int count, char **words) {
    side = atol(words[1]);
    grid = malloc(side * side * 2);
    noise = malloc(side * side * 2);
    for (long i = 0; i < side * side; i++) grid[i] = noise[i] = (int)(mixed(i) & 0xffff) - 32768;
    for (int a = 0; a < 6; a++) {
        long rounds = a < 3 ? 20 : 200000;
        double best = 1e9;
        for (int again = 0; again < 3; again++) {
            double t = now();
            for (long r = 0; r < rounds; r++) { actions[a](r); BARRIER; }
            double taken = (now() - t) / rounds;
            if (taken < best) best = taken;
        }
        printf("%.12f\n", best);
    }
    fprintf(stderr, "%ld\n", (long)sum);
    return 0;
}
"""


def main():
    place = [absent(FILE)] if FILE else []
    print(f"{f'{SIDE} x {SIDE} i16':16} {'a round':>12} {'cells/s':>14} {'C cells/s':>14} {'to C':>9}")
    for (action, cells, rounds), plain in zip(ACTIONS, figures(LOOPS, str(SIDE))):
        (taken,) = one_more([[*PROGRAM, action, str(SIDE), ROUNDS, *place]], rounds, 3, FILE)
        print(f"{action:16} {taken * 1e6:9.1f} us {cells / taken:14,.0f} {cells / plain:14,.0f} {taken / plain:9.1f}")


if __name__ == "__main__":
    main()
