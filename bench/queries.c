/* The layers of bench/queries.py, and a loop beside each of its lines. With the name of a layer it writes that layer's cells, two
 * bytes each; else it reads names of loops, runs each once, and writes its time, how long its text is, and the text. */
#include <stdint.h>
#include <stdio.h>
#include <stdlib.h>
#include <string.h>
#include <time.h>

#define SIDE 4096
#define N (SIDE * SIDE)

typedef int16_t layer[N];
static layer noise, terrain, land, parsed;
static char *text, *decimal;

static double now(void) {
    struct timespec t;
    clock_gettime(CLOCK_PROCESS_CPUTIME_ID, &t);
    return t.tv_sec + t.tv_nsec / 1e9;
}

static uint64_t seed = 0x2545f4914f6cdd1d;

static uint64_t next(void) {
    uint64_t x = seed += 0x9e3779b97f4a7c15u;
    x = (x ^ (x >> 30)) * 0xbf58476d1ce4e5b9u;
    x = (x ^ (x >> 27)) * 0x94d049bb133111ebu;
    return x ^ (x >> 31);
}

/* Noise; terrain in runs of about three cells; and land cover of 16 kinds in runs of about twenty. */
static void make(void) {
    long height = 0, kind = 0;
    for (long i = 0; i < N; i++) {
        noise[i] = (int64_t)(next() & 0xffff) - 32768;
        if (i % SIDE == 0) height = i / SIDE % 130;
        else if (next() % 3 == 0) height += next() % 2 ? 1 + (long)(next() % 3) : height > 3 ? -1 - (long)(next() % 3) : 1;
        terrain[i] = height;
        if (next() % 20 == 0) kind = (kind + 1 + next() % 15) % 16;
        land[i] = kind;
    }
}

/* Writes a number and what stands behind it. */
static inline char *put(char *at, int64_t value, char behind) {
    char digits[20];
    int count = 0;
    uint64_t left = value < 0 ? -(uint64_t)value : (uint64_t)value;
    if (value < 0) *at++ = '-';
    do digits[count++] = '0' + left % 10; while (left /= 10);
    while (count) *at++ = digits[--count];
    *at++ = behind;
    return at;
}

static inline char *put_cell(char *at, int64_t value, long column, long columns) {
    return put(at, value, column + 1 == columns ? '\n' : ',');
}

static char *scalar(int64_t value) { return put(text, value, '\n'); }

#define LOOP __attribute__((noinline)) static char *

#define ADD(name) \
    LOOP add_##name(void) { \
        int64_t sum = 0; \
        for (long i = 0; i < N; i++) sum += name[i]; \
        return scalar(sum); \
    }
#define MAX(name) \
    LOOP max_##name(void) { \
        int16_t best = name[0]; \
        for (long i = 0; i < N; i++) \
            if (name[i] > best) best = name[i]; \
        return scalar(best); \
    }
#define COUNT(name) \
    LOOP count_##name(void) { \
        int64_t count = 0; \
        for (long i = 0; i < N; i++) count += (name[i] * 3 + 7) / 2 > 100 && name[i] != 0; \
        return scalar(count); \
    }
ADD(noise) ADD(terrain) ADD(land) MAX(noise) MAX(land) COUNT(noise) COUNT(terrain) COUNT(land)

LOOP difference(void) {
    int64_t sum = 0;
    for (long i = 0; i < N; i++) sum += abs(noise[i] - terrain[i]);
    return scalar(sum);
}

static inline char *box(const int16_t *cells, long low, long side) {
    char *at = text;
    for (long y = low; y < low + side; y++)
        for (long x = low; x < low + side; x++) at = put_cell(at, cells[y * SIDE + x], x - low, side);
    return at;
}
LOOP inner_window(void) { return box(noise, 1024, 64); }
LOOP window(void) { return box(noise, 1000, 64); }
LOOP cells(void) { return box(noise, 0, 1024); }
LOOP cell(void) { return scalar(noise[1000 * SIDE + 1000]); }
LOOP five(void) { return scalar(5); }

/* The sum, or the greatest, of the cells of the terrain's first 512 x 512 at most the radius away, the window clamped. */
static inline char *focal(long radius, int greatest) {
    char *at = text;
    for (long y = 0; y < 512; y++)
        for (long x = 0; x < 512; x++) {
            long top = y < radius ? 0 : y - radius, left = x < radius ? 0 : x - radius;
            long bottom = y + radius > 511 ? 511 : y + radius, right = x + radius > 511 ? 511 : x + radius;
            int64_t found = greatest ? INT16_MIN : 0;
            for (long v = top; v <= bottom; v++)
                for (long u = left; u <= right; u++) {
                    int16_t it = terrain[v * SIDE + u];
                    found = !greatest ? found + it : it > found ? it : found;
                }
            at = put_cell(at, found, x, 512);
        }
    return at;
}
LOOP focal_sum_1(void) { return focal(1, 0); }
LOOP focal_sum_3(void) { return focal(3, 0); }
LOOP focal_sum_8(void) { return focal(8, 0); }
LOOP focal_max_1(void) { return focal(1, 1); }
LOOP focal_max_3(void) { return focal(3, 1); }

/* Sums of noise by the kinds of land, over a corner. */
static inline char *zones(long side, long kinds) {
    int64_t sums[256] = {0};
    char *at = text;
    for (long y = 0; y < side; y++)
        for (long x = 0; x < side; x++) sums[land[y * SIDE + x]] += noise[y * SIDE + x];
    for (long k = 0; k < kinds; k++) at = put_cell(at, sums[k], k, kinds);
    return at;
}
LOOP zones_16(void) { return zones(1024, 16); }
LOOP zones_256(void) { return zones(1024, 256); }
LOOP all_zones_16(void) { return zones(SIDE, 16); }
LOOP all_zones_48(void) { return zones(SIDE, 48); }

static inline char *zonal(long side) {
    int64_t sums[16] = {0};
    char *at = text;
    for (long y = 0; y < side; y++)
        for (long x = 0; x < side; x++) sums[land[y * SIDE + x]] += noise[y * SIDE + x];
    for (long y = 0; y < side; y++)
        for (long x = 0; x < side; x++) at = put_cell(at, sums[land[y * SIDE + x]], x, side);
    return at;
}
LOOP zonal_64(void) { return zonal(64); }
LOOP zonal_130(void) { return zonal(130); }

/* Reads the first 1,024 rows of noise from their decimal text. */
LOOP ingest(void) {
    const char *at = decimal;
    for (long i = 0; i < 1024 * SIDE; i++) {
        int minus = *at == '-', value = 0;
        at += minus;
        while (*at >= '0') value = value * 10 + (*at++ - '0');
        parsed[i] = minus ? -value : value;
        at++;
    }
    return scalar(parsed[5]);
}

static void write_decimal(void) {
    char *at = decimal = malloc(7 * 1024 * SIDE);
    for (long i = 0; i < 1024 * SIDE; i++) at = put(at, noise[i], ',');
}

static const struct {
    const char *name;
    char *(*run)(void);
} lines[] = {
    {"add_noise", add_noise}, {"add_terrain", add_terrain}, {"add_land", add_land}, {"max_noise", max_noise},
    {"max_land", max_land}, {"count_noise", count_noise}, {"count_terrain", count_terrain}, {"count_land", count_land},
    {"difference", difference}, {"inner_window", inner_window}, {"window", window}, {"cells", cells}, {"cell", cell},
    {"five", five}, {"focal_sum_1", focal_sum_1}, {"focal_sum_3", focal_sum_3}, {"focal_sum_8", focal_sum_8},
    {"focal_max_1", focal_max_1}, {"focal_max_3", focal_max_3}, {"zones_16", zones_16}, {"zones_256", zones_256},
    {"all_zones_16", all_zones_16}, {"all_zones_48", all_zones_48}, {"zonal_64", zonal_64}, {"zonal_130", zonal_130},
    {"ingest", ingest},
};

/* Runs a loop once, and writes its time and its text. */
static void answer(char *(*run)(void)) {
    double begun = now();
    char *end = run();
    __asm__ volatile("" : : : "memory");
    double taken = now() - begun;
    printf("%.9f %ld\n", taken, (long)(end - text));
    fwrite(text, 1, end - text, stdout);
    fflush(stdout);
}

int main(int count, char **words) {
    const struct { const char *name; const layer *cells; } layers[] = {{"noise", &noise}, {"terrain", &terrain}, {"land", &land}};
    text = malloc(N);
    make();
    for (int i = 0; count == 2 && i < 3; i++)
        if (!strcmp(words[1], layers[i].name)) return fwrite(layers[i].cells, 2, N, stdout) != N;
    write_decimal();
    char name[32];
    while (scanf("%31s", name) == 1)
        for (unsigned n = 0; n < sizeof lines / sizeof *lines; n++)
            if (!strcmp(lines[n].name, name)) answer(lines[n].run);
    return 0;
}
