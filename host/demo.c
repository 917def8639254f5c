/*
 * How a host in C uses the spectrum engine, and reads and saves traces. Start with mean_frequency, the first use below,
 * from end to end; nearest_frequency is another, lines_beyond_bound a third, smooth_block a fourth, direct_line a
 * fifth, and save_samples with fetch_samples a sixth. After them each entry is called on tables of cases; its answer,
 * and the cells and scaled lines of the blocks worked by hand, are shown and compared. Saved traces are compared byte by
 * byte, and smoothed blocks with the plain sum. Ends with "demo: ok", or with what went wrong and exit status 1.
 */
#include "hartley.h"

#include <inttypes.h>
#include <math.h>
#include <stdio.h>
#include <stdlib.h>
#include <string.h>

/* A trace of 8,000 samples a second, P = 3: a block of one wave, and a block of two. */
static const uint8_t biscuit[] = {
    6, 0, 0, 0, 1, 0, 0x40, 0x1f, 0, 0, 3, 0,
    16, 0, 0, 0, 2, 0, /* 100, 71, 0, -71, -100, -71, 0, 71 */
    100, 0, 71, 0, 0, 0, 0xb9, 0xff, 0x9c, 0xff, 0xb9, 0xff, 0, 0, 71, 0,
    16, 0, 0, 0, 2, 0, /* 230, 130, 30, 130, 230, 130, 30, 130 */
    230, 0, 130, 0, 30, 0, 130, 0, 230, 0, 130, 0, 30, 0, 130, 0,
    0, 0, 0, 0, 4, 0
};

/* Whether a call has refused; if so it is told. */
static int refused(const char *call, uint64_t answer)
{
    if (hartley_number(answer) == HARTLEY_OK)
        return 0;
    printf("%s: refused %" PRIu64 " at %" PRIu64 "\n", call, hartley_number(answer), hartley_place(answer));
    return 1;
}

/* Fills n/2 + 1 powers, those of block k, of n samples. Answers whether no call has refused. */
static int powers_of(const uint8_t *trace, size_t trace_bytes, size_t k, size_t n, int64_t *powers)
{
    int64_t cells[HARTLEY_LARGEST_BLOCK];
    size_t cells_bytes = n * HARTLEY_CELL_BYTES, powers_bytes = (n / 2 + 1) * HARTLEY_CELL_BYTES;
    if (refused("fetch", hartley_fetch(trace, trace_bytes, k, (uint8_t *)cells, cells_bytes)))
        return 0;
    /* the spectrum takes the place of the samples */
    if (refused("forward", hartley_forward((uint8_t *)cells, cells_bytes)))
        return 0;
    return !refused("power", hartley_power((uint8_t *)cells, cells_bytes, (uint8_t *)powers, powers_bytes));
}

/* The strongest line of block k, of n samples, or 0 where a call refuses. Line 0, the sum, is left out. */
static size_t strongest_line(const uint8_t *trace, size_t trace_bytes, size_t k, size_t n)
{
    int64_t powers[HARTLEY_LARGEST_BLOCK / 2 + 1];
    if (!powers_of(trace, trace_bytes, k, n, powers))
        return 0;
    uint64_t answer = hartley_strongest((uint8_t *)powers, (n / 2 + 1) * HARTLEY_CELL_BYTES, 1, n / 2);
    return refused("strongest", answer) ? 0 : hartley_line(answer);
}

/* Shows the strongest line of each block of a trace. Answers the mean of their frequencies, or -1 if there is none. */
static double mean_frequency(const uint8_t *trace, size_t trace_bytes)
{
    if (hartley_version() != HARTLEY_VERSION) {
        printf("header of version %d, archive of version %" PRIu64 "\n", HARTLEY_VERSION, hartley_version());
        return -1;
    }
    uint64_t checked = hartley_check(trace, trace_bytes);
    if (refused("check", checked))
        return -1;
    size_t n = (size_t)1 << hartley_p(checked), blocks = hartley_blocks(checked);
    double sum = 0;
    for (size_t k = 0; k < blocks; k++) {
        size_t v = strongest_line(trace, trace_bytes, k, n);
        if (v == 0)
            return -1;
        double hertz = (double)hartley_rate(checked) * (double)v / (double)n;
        printf("block %zu: strongest at line %zu, %g hertz\n", k, v, hertz);
        sum += hertz;
    }
    return blocks > 0 ? sum / (double)blocks : -1;
}

/* The frequency nearest to the one given at which block k of a trace has this doubled power or more. Shows its line.
   Answers -1 if there is none. */
static double nearest_frequency(const uint8_t *trace, size_t trace_bytes, size_t k, double hertz, int64_t power)
{
    int64_t powers[HARTLEY_LARGEST_BLOCK / 2 + 1];
    uint64_t checked = hartley_check(trace, trace_bytes);
    if (refused("check", checked))
        return -1;
    size_t n = (size_t)1 << hartley_p(checked);
    if (!powers_of(trace, trace_bytes, k, n, powers))
        return -1;
    double step = (double)hartley_rate(checked) / (double)n; /* hertz from line to line */
    size_t chosen = (size_t)(hertz / step + 0.5);
    uint64_t answer = hartley_nearest((uint8_t *)powers, (n / 2 + 1) * HARTLEY_CELL_BYTES, chosen, power);
    if (refused("nearest", answer))
        return -1;
    if (!hartley_found(answer)) {
        printf("block %zu: no line of power %" PRId64 "\n", k, power);
        return -1;
    }
    double nearest = (double)hartley_line(answer) * step;
    printf("block %zu: line %" PRIu64 ", %g hertz, is nearest to %g hertz\n", k, hartley_line(answer), nearest, hertz);
    return nearest;
}

/* How many lines of the spectrum of block k of a trace are farther from 0 than the block's bound: the direct sum is not
   0 there, and at any other line it may be. Shows the bound. Answers -1 where a call refuses. */
static int lines_beyond_bound(const uint8_t *trace, size_t trace_bytes, size_t k)
{
    int64_t cells[HARTLEY_LARGEST_BLOCK];
    uint64_t checked = hartley_check(trace, trace_bytes);
    if (refused("check", checked))
        return -1;
    size_t n = (size_t)1 << hartley_p(checked), cells_bytes = n * HARTLEY_CELL_BYTES;
    if (refused("fetch", hartley_fetch(trace, trace_bytes, k, (uint8_t *)cells, cells_bytes)))
        return -1;
    /* before forward, while the cells are still the samples */
    uint64_t answer = hartley_bound((uint8_t *)cells, cells_bytes);
    if (refused("bound", answer) || refused("forward", hartley_forward((uint8_t *)cells, cells_bytes)))
        return -1;
    int64_t bound = (int64_t)hartley_distance(answer);
    int lines = 0;
    for (size_t v = 0; v < n; v++)
        lines += cells[v] < -bound || cells[v] > bound;
    printf("block %zu: %d lines beyond the bound, %" PRId64 "\n", k, lines, bound);
    return lines;
}

/* Fills the cells with block k of a trace, smoothed: each sample counts twice, those beside it once. Shows them divided
   by 4, the sum of the weights. Cyclically the first and the last sample are beside each other. Answers whether no call
   has refused. */
static int smooth_block(const uint8_t *trace, size_t trace_bytes, size_t k, int64_t *cells)
{
    int64_t weights[HARTLEY_LARGEST_BLOCK] = {2};
    uint64_t checked = hartley_check(trace, trace_bytes);
    if (refused("check", checked))
        return 0;
    size_t n = (size_t)1 << hartley_p(checked), cells_bytes = n * HARTLEY_CELL_BYTES;
    if (refused("fetch", hartley_fetch(trace, trace_bytes, k, (uint8_t *)cells, cells_bytes)))
        return 0;
    weights[1] += 1;     /* of the moment before */
    weights[n - 1] += 1; /* of the moment after, which is the same one where n is 2 */
    /* the smoothed cells take the place of the samples */
    if (refused("smooth", hartley_smooth((uint8_t *)cells, cells_bytes, (const uint8_t *)weights, cells_bytes)))
        return 0;
    printf("block %zu, smoothed:", k);
    for (size_t t = 0; t < n; t++)
        printf(" %g", (double)cells[t] / 4);
    printf("\n");
    return 1;
}

/* The cosine at a step, in 1,024ths of a turn, from the quarter table: even about 0, odd about 256. */
static int64_t cosine(const int64_t *table, size_t step)
{
    size_t turned = step % 1024, away = turned <= 512 ? turned : 1024 - turned;
    return away <= 256 ? table[away] : -table[512 - away];
}

/* Line v of the spectrum of block k of a trace by the direct sum over the table's cosines, as a program that has no
   engine makes it: sample times cosine plus sine, the sine being the cosine a quarter turn back. Shows it. Answers
   32,768 times the line, or INT64_MIN where a call refuses. */
static int64_t direct_line(const uint8_t *trace, size_t trace_bytes, size_t k, size_t v)
{
    int64_t cells[HARTLEY_LARGEST_BLOCK], table[HARTLEY_TABLE_CELLS], sum = 0;
    uint64_t checked = hartley_check(trace, trace_bytes);
    if (refused("check", checked))
        return INT64_MIN;
    size_t n = (size_t)1 << hartley_p(checked);
    if (refused("fetch", hartley_fetch(trace, trace_bytes, k, (uint8_t *)cells, n * HARTLEY_CELL_BYTES)))
        return INT64_MIN;
    if (refused("table", hartley_table((uint8_t *)table, sizeof table)))
        return INT64_MIN;
    for (size_t t = 0; t < n; t++) {
        size_t step = v * t * (1024 / n);
        sum += cells[t] * (cosine(table, step) + cosine(table, step + 768));
    }
    printf("block %zu: line %zu by the direct sum is %g\n", k, v, (double)sum / 32768);
    return sum;
}

/* Saves samples, 2^p to a block, and shows how many bytes the trace has. HARTLEY_LONGEST_TRACE bytes are lent for it,
   which are never too few. Answers how many of them a host writes to its file, or 0 where the call refuses. */
static size_t save_samples(size_t rate, size_t p, const int64_t *samples, size_t count, uint8_t *trace)
{
    const uint8_t *cells = (const uint8_t *)samples;
    uint64_t answer = hartley_save(rate, p, cells, count * HARTLEY_CELL_BYTES, trace, HARTLEY_LONGEST_TRACE);
    if (refused("save", answer))
        return 0;
    printf("%zu samples saved in %" PRIu64 " bytes\n", count, hartley_used(answer));
    return hartley_used(answer);
}

/* Fetches the samples of all blocks of a trace, one block after another. There is room for HARTLEY_LONGEST_TRACE / 2 of
   them, and no trace has more, since each takes two bytes. Answers what the call that refused has answered, or else
   what the check has. */
static uint64_t fetch_samples(const uint8_t *trace, size_t trace_bytes, int64_t *samples)
{
    uint64_t checked = hartley_check(trace, trace_bytes);
    if (refused("check", checked))
        return checked;
    size_t n = (size_t)1 << hartley_p(checked), cells_bytes = n * HARTLEY_CELL_BYTES;
    for (size_t k = 0; k < hartley_blocks(checked); k++) {
        uint64_t fetched = hartley_fetch(trace, trace_bytes, k, (uint8_t *)(samples + k * n), cells_bytes);
        if (refused("fetch", fetched))
            return fetched;
    }
    return checked;
}

/* From here on: the tables of cases, and the functions that show them. */

#define COUNT(rows) (sizeof(rows) / sizeof(rows)[0])
/* What both doubles hold before a scaled line is asked for; none is as large. */
#define LENT 1e300
/* What is left of 2^64 - 1 where it is the place of a refusal, which has seven bytes in an answer. */
#define PLACE_MAX (UINT64_MAX >> 8)
/* Stands for the line where none is found. */
#define NONE UINT64_MAX

enum { CELL = HARTLEY_CELL_BYTES, LOUDEST = 1 << 28, TRACE = 32, THREE = 69, LONGEST = HARTLEY_LONGEST_TRACE };
enum entry { FORWARD, BACKWARD, PARTS, POWER };

/* Blocks worked by hand: samples, spectrum, doubled parts, doubled powers, and of each scaled line the two doubles. */
static const struct worked {
    size_t n;
    int64_t samples[8], spectrum[8], real[5], imaginary[5], powers[5];
    double scaled[5][2];
} worked[] = {
    {2, {0, 0}, {0, 0}, {0, 0}, {0, 0}, {0, 0}, {{0, LENT}, {0, LENT}}},
    {2, {3, -5}, {-2, 8}, {-4, 16}, {0, 0}, {8, 128}, {{-1, LENT}, {4, LENT}}},
    {4, {1, 2, 3, 4}, {10, -4, -2, 0}, {20, -4, -4}, {0, 4, 0}, {200, 16, 8}, {{2.5, LENT}, {-0.5, 0.5}, {-0.5, LENT}}},
    {8, {1, 2, 3, 4, 5, 6, 7, 8}, {36, -14, -8, -6, -4, -2, 0, 6}, {72, -8, -8, -8, -8}, {0, 20, 8, 4, 0},
     {2592, 232, 64, 40, 32}, {{4.5, LENT}, {-0.5, 1.25}, {-0.5, 0.5}, {-0.5, 0.25}, {-0.5, LENT}}},
    {8, {0, 1, 0, 0, 0, 0, 0, 0}, {1, 1, 1, 0, -1, -1, -1, 0}, {2, 1, 0, -1, -2}, {0, -1, -2, -1, 0}, {2, 1, 2, 1, 2},
     {{0.125, LENT}, {0.0625, -0.0625}, {0, -0.125}, {-0.0625, -0.0625}, {-0.125, LENT}}},
    /* 5,792.5 goes away from zero, and the negative of the block has the negative spectrum */
    {8, {0, 4096, 0, 0, 0, 0, 0, 0}, {4096, 5793, 4096, 0, -4096, -5793, -4096, 0}, {8192, 5793, 0, -5793, -8192},
     {0, -5793, -8192, -5793, 0}, {33554432, 33558849, 33554432, 33558849, 33554432},
     {{512, LENT}, {362.0625, -362.0625}, {0, -512}, {-362.0625, -362.0625}, {-512, LENT}}},
    {8, {0, -4096, 0, 0, 0, 0, 0, 0}, {-4096, -5793, -4096, 0, 4096, 5793, 4096, 0}, {-8192, -5793, 0, 5793, 8192},
     {0, 5793, 8192, 5793, 0}, {33554432, 33558849, 33554432, 33558849, 33554432},
     {{-512, LENT}, {-362.0625, 362.0625}, {0, 512}, {362.0625, 362.0625}, {512, LENT}}},
};

/* Bounds of blocks whose cells are all the same, but the one at the place: the refusal and its place, or 0 and the
   bound. */
static const struct bound {
    const char *what;
    size_t bytes;
    int64_t others;
    size_t at;
    int64_t cell;
    uint64_t number, place_or_bound;
} bounds[] = {
    {"bound, 1024 cells, the loudest is -100", 1024 * CELL, 99, 700, -100, 0, 2083},
    {"bound, 1024 cells, the loudest is 100", 1024 * CELL, -99, 0, 100, 0, 2083},
    {"bound, 2 cells", 2 * CELL, 1, 1, -100, 0, 0},
    {"bound, 2 cells of -32768", 2 * CELL, -32768, 0, -32768, 0, 0},
    {"bound, 4 cells", 4 * CELL, 1, 3, 100, 0, 0},
    {"bound, 4 cells of -32768", 4 * CELL, -32768, 0, -32768, 0, 0},
    /* half the length times 8,192 is 32,768, and what is more is rounded up */
    {"bound, 8 cells, the loudest is -1", 8 * CELL, 0, 7, -1, 0, 2},
    {"bound, 8 cells, the loudest is 8192", 8 * CELL, -8191, 5, 8192, 0, 2},
    {"bound, 8 cells, the loudest is -8193", 8 * CELL, 8192, 5, -8193, 0, 3},
    /* M is 0, and every line too */
    {"bound, 2 cells of 0", 2 * CELL, 0, 0, 0, 0, 0},
    {"bound, 8 cells of 0", 8 * CELL, 0, 0, 0, 0, 1},
    {"bound, 1024 cells of 0", 1024 * CELL, 0, 0, 0, 0, 1166},
    /* the loudest of either sign: no bound is larger */
    {"bound, 8 cells, the loudest is -32768", 8 * CELL, 32767, 0, -32768, 0, 5},
    {"bound, 16 cells, the loudest is 32767", 16 * CELL, 1, 15, 32767, 0, 22},
    {"bound, 32 cells, the loudest is -32768", 32 * CELL, 1, 31, -32768, 0, 72},
    {"bound, 64 cells, the loudest is 32767", 64 * CELL, 1, 63, 32767, 0, 213},
    {"bound, 128 cells, the loudest is -32768", 128 * CELL, 1, 64, -32768, 0, 598},
    {"bound, 256 cells, the loudest is 32767", 256 * CELL, 1, 128, 32767, 0, 1624},
    {"bound, 512 cells, the loudest is -32768", 512 * CELL, 1, 256, -32768, 0, 4317},
    {"bound, 1024 cells, the loudest is -32768", 1024 * CELL, 32767, 512, -32768, 0, 11306},
    {"bound, 0 cells", 0, 1, 0, 1, HARTLEY_LENGTH, 0},
    {"bound, 1 cell", CELL, 1, 0, 1, HARTLEY_LENGTH, 0},
    {"bound, 3 cells", 3 * CELL, 1, 0, 1, HARTLEY_LENGTH, 0},
    {"bound, 3 cells, cell 2 is 32768", 3 * CELL, 1, 2, 32768, HARTLEY_LENGTH, 0},
    {"bound, 2048 cells", 2048 * CELL, 1, 0, 1, HARTLEY_LENGTH, 0},
    {"bound, 2 cells less a byte", 2 * CELL - 1, 1, 0, 1, HARTLEY_LENGTH, 0},
    {"bound, 8 cells and a byte", 8 * CELL + 1, 1, 0, 1, HARTLEY_LENGTH, 0},
    {"bound, 8 cells and 7 bytes, cell 5 is 32768", 8 * CELL + 7, 1, 5, 32768, HARTLEY_LENGTH, 0},
    {"bound, 1024 cells and a byte", 1024 * CELL + 1, 1, 0, 1, HARTLEY_LENGTH, 0},
    {"bound, cell 5 is 32768", 8 * CELL, 1, 5, 32768, HARTLEY_LOUD, 5},
    {"bound, cell 7 is -32769", 8 * CELL, 1, 7, -32769, HARTLEY_LOUD, 7},
    {"bound, all cells but cell 0 are 32768", 8 * CELL, 32768, 0, 1, HARTLEY_LOUD, 1},
    {"bound, cell 1 of 2 is 32768", 2 * CELL, 1, 1, 32768, HARTLEY_LOUD, 1},
    {"bound, cell 1023 is -32769", 1024 * CELL, 1, 1023, -32769, HARTLEY_LOUD, 1023},
    {"bound, cell 600 is 2^63 - 1", 1024 * CELL, 1, 600, INT64_MAX, HARTLEY_LOUD, 600},
    {"bound, cell 0 is -2^63", 8 * CELL, 1, 0, INT64_MIN, HARTLEY_LOUD, 0},
};

/* Lists of so many bytes that are lent for the table: the refusal, or 0. */
static const struct tabled {
    const char *what;
    size_t bytes;
    uint64_t number;
} tables[] = {
    {"table, 257 cells", 257 * CELL, 0},
    {"table, 0 cells", 0, HARTLEY_MISFIT},
    {"table, 1 cell", CELL, HARTLEY_MISFIT},
    {"table, 256 cells", 256 * CELL, HARTLEY_MISFIT},
    {"table, 258 cells", 258 * CELL, HARTLEY_MISFIT},
    {"table, 257 cells less a byte", 257 * CELL - 1, HARTLEY_MISFIT},
    {"table, 257 cells and a byte", 257 * CELL + 1, HARTLEY_MISFIT},
    {"table, 257 cells of four bytes", 257 * 4, HARTLEY_MISFIT},
    {"table, 1024 cells", 1024 * CELL, HARTLEY_MISFIT},
};

/* Blocks smoothed by hand: samples, weights, and what takes the place of the samples. */
static const struct smoothed {
    size_t n;
    int64_t samples[8], weights[8], cells[8];
} smoothed[] = {
    {2, {0, 0}, {32767, 0}, {0, 0}},
    {2, {3, -5}, {2, 1}, {1, -7}},
    /* the loudest of either sign */
    {2, {-32768, -32768}, {32767, 0}, {-1073709056, -1073709056}},
    {2, {-32768, -32768}, {-16384, -16383}, {1073709056, 1073709056}},
    {2, {-32768, 32767}, {16384, -16383}, {-1073692673, 1073692672}},
    /* the block itself, its negative, the block one moment later, one moment earlier, and its sum */
    {4, {1, 2, 3, 4}, {1, 0, 0, 0}, {1, 2, 3, 4}},
    {4, {1, 2, 3, 4}, {-1, 0, 0, 0}, {-1, -2, -3, -4}},
    {4, {1, 2, 3, 4}, {0, 1, 0, 0}, {4, 1, 2, 3}},
    {4, {1, 2, 3, 4}, {0, 0, 0, 1}, {2, 3, 4, 1}},
    {4, {1, 2, 3, 4}, {1, 1, 1, 1}, {10, 10, 10, 10}},
    {4, {1, 2, 3, 4}, {1, 2, -3, 0}, {0, -8, 4, 4}},
    {8, {1, 2, 3, 4, 5, 6, 7, 8}, {2, 1, 0, 0, 0, 0, 0, 1}, {12, 8, 12, 16, 20, 24, 28, 24}},
    {8, {1, 2, 3, 4, 5, 6, 7, 8}, {0, 0, 0, 0, 0, 0, 0, 0}, {0, 0, 0, 0, 0, 0, 0, 0}},
    {8, {0, 1, 0, 0, 0, 0, 0, 0}, {1, 2, 3, 4, 5, 6, 7, 8}, {8, 1, 2, 3, 4, 5, 6, 7}},
};

/* Blocks of cells 1, 2, 3 and so on, but the one at its place, smoothed by weights that are all the same, but the one
   at its place: the refusal and its place, or 0. */
static const struct smoothing {
    const char *what;
    size_t bytes, at;
    int64_t cell;
    size_t weights_bytes;
    int64_t others;
    size_t weight_at;
    int64_t weight;
    uint64_t number, place;
} smoothings[] = {
    {"smooth, 2 cells by -3 and 2", 2 * CELL, 0, 1, 2 * CELL, 2, 0, -3, 0, 0},
    {"smooth, 16 cells by 1, but weight 5 is -9", 16 * CELL, 0, 1, 16 * CELL, 1, 5, -9, 0, 0},
    {"smooth, 32 cells by 1, but weight 31 is 7", 32 * CELL, 9, -100, 32 * CELL, 1, 31, 7, 0, 0},
    {"smooth, 64 cells by -1, but weight 1 is 5", 64 * CELL, 63, -32768, 64 * CELL, -1, 1, 5, 0, 0},
    {"smooth, 128 cells by 255, but weight 0 is 382", 128 * CELL, 0, 32767, 128 * CELL, 255, 0, 382, 0, 0},
    {"smooth, 256 cells by -128, but weight 255 is 127", 256 * CELL, 128, -32768, 256 * CELL, -128, 255, 127, 0, 0},
    {"smooth, 512 cells by 1, but weight 300 is 32256", 512 * CELL, 1, 32767, 512 * CELL, 1, 300, 32256, 0, 0},
    {"smooth, 1024 cells by weight 1023, which is 1", 1024 * CELL, 0, 1, 1024 * CELL, 0, 1023, 1, 0, 0},
    {"smooth, 1024 cells by -31, but weight 0 is 1054", 1024 * CELL, 0, 1, 1024 * CELL, -31, 0, 1054, 0, 0},
    {"smooth, cell 0 is -32768, by weight 7, which is -32767", 1024 * CELL, 0, -32768, 1024 * CELL, 0, 7, -32767, 0, 0},
    {"smooth, cell 7 is -32768, by weight 3, which is 32767", 8 * CELL, 7, -32768, 8 * CELL, 0, 3, 32767, 0, 0},
    {"smooth, 8 cells by 4096, but weight 2 is 4095", 8 * CELL, 0, 1, 8 * CELL, 4096, 2, 4095, 0, 0},
    {"smooth, 0 cells", 0, 0, 1, 0, 0, 0, 0, HARTLEY_LENGTH, 0},
    {"smooth, 1 cell", CELL, 0, 1, CELL, 0, 0, 1, HARTLEY_LENGTH, 0},
    {"smooth, 3 cells", 3 * CELL, 0, 1, 3 * CELL, 0, 0, 1, HARTLEY_LENGTH, 0},
    {"smooth, 2048 cells", 2048 * CELL, 0, 1, 2048 * CELL, 0, 0, 1, HARTLEY_LENGTH, 0},
    {"smooth, 8 cells and a byte", 8 * CELL + 1, 0, 1, 8 * CELL, 0, 0, 1, HARTLEY_LENGTH, 0},
    {"smooth, 8 cells and a byte, by 8 and a byte", 8 * CELL + 1, 0, 1, 8 * CELL + 1, 0, 0, 1, HARTLEY_LENGTH, 0},
    {"smooth, 2 cells less a byte", 2 * CELL - 1, 0, 1, 2 * CELL, 0, 0, 1, HARTLEY_LENGTH, 0},
    {"smooth, 8 cells by no weights", 8 * CELL, 0, 1, 0, 0, 0, 0, HARTLEY_MISFIT, 0},
    {"smooth, 8 cells by 4 weights", 8 * CELL, 0, 1, 4 * CELL, 0, 0, 1, HARTLEY_MISFIT, 0},
    {"smooth, 8 cells by 7 weights", 8 * CELL, 0, 1, 7 * CELL, 0, 0, 1, HARTLEY_MISFIT, 0},
    {"smooth, 8 cells by 9 weights", 8 * CELL, 0, 1, 9 * CELL, 0, 0, 1, HARTLEY_MISFIT, 0},
    {"smooth, 8 cells by 16 weights", 8 * CELL, 0, 1, 16 * CELL, 0, 0, 1, HARTLEY_MISFIT, 0},
    {"smooth, 8 cells by 8 weights and a byte", 8 * CELL, 0, 1, 8 * CELL + 1, 0, 0, 1, HARTLEY_MISFIT, 0},
    {"smooth, 8 cells by 8 weights less a byte", 8 * CELL, 0, 1, 8 * CELL - 1, 0, 0, 1, HARTLEY_MISFIT, 0},
    {"smooth, 1024 cells by 1025 weights", 1024 * CELL, 0, 1, 1025 * CELL, 0, 0, 1, HARTLEY_MISFIT, 0},
    {"smooth, cell 5 is 32768", 8 * CELL, 5, 32768, 8 * CELL, 0, 0, 1, HARTLEY_LOUD, 5},
    {"smooth, cell 7 is -32769", 8 * CELL, 7, -32769, 8 * CELL, 0, 0, 1, HARTLEY_LOUD, 7},
    {"smooth, cell 0 is -2^63", 8 * CELL, 0, INT64_MIN, 8 * CELL, 0, 0, 1, HARTLEY_LOUD, 0},
    {"smooth, cell 1023 is 2^63 - 1, by weights of 0", 1024 * CELL, 1023, INT64_MAX, 1024 * CELL, 0, 0, 0,
     HARTLEY_LOUD, 1023},
    {"smooth, weight 5 is 32768", 8 * CELL, 0, 1, 8 * CELL, 0, 5, 32768, HARTLEY_WEIGHTS, 5},
    {"smooth, weight 5 is -32768", 8 * CELL, 0, 1, 8 * CELL, 0, 5, -32768, HARTLEY_WEIGHTS, 5},
    {"smooth, weight 0 is 65536", 8 * CELL, 0, 1, 8 * CELL, 0, 0, 65536, HARTLEY_WEIGHTS, 0},
    {"smooth, 8 cells by 4096", 8 * CELL, 0, 1, 8 * CELL, 4096, 0, 4096, HARTLEY_WEIGHTS, 7},
    {"smooth, 8 cells by -16384", 8 * CELL, 0, 1, 8 * CELL, -16384, 0, -16384, HARTLEY_WEIGHTS, 1},
    {"smooth, 8 cells by 16384, but weight 1 is -16384", 8 * CELL, 0, 1, 8 * CELL, 16384, 1, -16384,
     HARTLEY_WEIGHTS, 1},
    {"smooth, 1024 cells by -31, but weight 0 is 1055", 1024 * CELL, 0, 1, 1024 * CELL, -31, 0, 1055,
     HARTLEY_WEIGHTS, 1023},
    {"smooth, 1024 cells by 40", 1024 * CELL, 0, 1, 1024 * CELL, 40, 0, 40, HARTLEY_WEIGHTS, 819},
    /* magnitudes whose sum no cell holds, or that no cell holds themselves */
    {"smooth, 2 cells by -2^63", 2 * CELL, 0, 1, 2 * CELL, INT64_MIN, 0, INT64_MIN, HARTLEY_WEIGHTS, 0},
    {"smooth, 2 cells by 2^63 - 1", 2 * CELL, 0, 1, 2 * CELL, INT64_MAX, 0, INT64_MAX, HARTLEY_WEIGHTS, 0},
    {"smooth, 8 cells by -2^63, but weight 0 is 32767", 8 * CELL, 0, 1, 8 * CELL, INT64_MIN, 0, 32767,
     HARTLEY_WEIGHTS, 1},
    {"smooth, 8 cells by 1, but weight 7 is -2^63", 8 * CELL, 0, 1, 8 * CELL, 1, 7, INT64_MIN, HARTLEY_WEIGHTS, 7},
    {"smooth, 1024 cells by 1, but weight 1023 is 2^63 - 1", 1024 * CELL, 0, 1, 1024 * CELL, 1, 1023, INT64_MAX,
     HARTLEY_WEIGHTS, 1023},
    /* every two of the four faults at once: the one that is tested first decides */
    {"smooth, 3 cells by 2 weights", 3 * CELL, 0, 1, 2 * CELL, 0, 0, 1, HARTLEY_LENGTH, 0},
    {"smooth, 3 cells, cell 2 is 32768", 3 * CELL, 2, 32768, 3 * CELL, 0, 0, 1, HARTLEY_LENGTH, 0},
    {"smooth, 3 cells, weight 1 is 32768", 3 * CELL, 0, 1, 3 * CELL, 0, 1, 32768, HARTLEY_LENGTH, 0},
    {"smooth, 8 cells by 7 weights, cell 5 is 32768", 8 * CELL, 5, 32768, 7 * CELL, 0, 0, 1, HARTLEY_MISFIT, 0},
    {"smooth, 8 cells by 7 weights, weight 1 is 32768", 8 * CELL, 0, 1, 7 * CELL, 0, 1, 32768, HARTLEY_MISFIT, 0},
    {"smooth, cell 5 is 32768, weight 1 is 32768", 8 * CELL, 5, 32768, 8 * CELL, 0, 1, 32768, HARTLEY_LOUD, 5},
};

/* Blocks at the limits and beyond: cells 1, 2, 3 and so on, but the one at the place. A number of 0 is accepted. The
   outputs are the real and the imaginary parts, or the powers. */
static const struct limit {
    const char *what;
    enum entry entry;
    size_t bytes, output_bytes[2], place;
    int64_t cell;
    uint64_t number;
} limits[] = {
    {"forward, 0 cells", FORWARD, 0, {0}, 0, 1, HARTLEY_LENGTH},
    {"forward, 1 cell", FORWARD, CELL, {0}, 0, 1, HARTLEY_LENGTH},
    {"forward, 3 cells", FORWARD, 3 * CELL, {0}, 0, 1, HARTLEY_LENGTH},
    {"forward, 2 cells and a byte", FORWARD, 2 * CELL + 1, {0}, 0, 1, HARTLEY_LENGTH},
    {"forward, 2048 cells", FORWARD, 2048 * CELL, {0}, 0, 1, HARTLEY_LENGTH},
    {"forward, 1024 cells", FORWARD, 1024 * CELL, {0}, 0, 1, 0},
    {"forward, cell 5 is 32768", FORWARD, 8 * CELL, {0}, 5, 32768, HARTLEY_LOUD},
    {"forward, cell 7 is -32769", FORWARD, 8 * CELL, {0}, 7, -32769, HARTLEY_LOUD},
    {"forward, cell 7 is -32768", FORWARD, 8 * CELL, {0}, 7, -32768, 0},
    {"backward, 3 cells", BACKWARD, 3 * CELL, {0}, 0, 1, HARTLEY_LENGTH},
    {"backward, 2 cells less a byte", BACKWARD, 2 * CELL - 1, {0}, 0, 1, HARTLEY_LENGTH},
    {"backward, cell 1023 is 2^28 + 1", BACKWARD, 1024 * CELL, {0}, 1023, LOUDEST + 1, HARTLEY_LOUD},
    {"backward, cell 1023 is -2^28", BACKWARD, 1024 * CELL, {0}, 1023, -LOUDEST, 0},
    {"parts, 3 cells into none", PARTS, 3 * CELL, {0, 0}, 0, 1, HARTLEY_LENGTH},
    {"parts, 4 cells and a byte", PARTS, 4 * CELL + 1, {3 * CELL, 3 * CELL}, 0, 1, HARTLEY_LENGTH},
    {"parts, 4 cells into 2 and 3", PARTS, 4 * CELL, {2 * CELL, 3 * CELL}, 0, LOUDEST + 1, HARTLEY_MISFIT},
    {"parts, 4 cells into 3 and 2", PARTS, 4 * CELL, {3 * CELL, 2 * CELL}, 0, LOUDEST + 1, HARTLEY_MISFIT},
    {"parts, 4 cells into 4 and 3", PARTS, 4 * CELL, {4 * CELL, 3 * CELL}, 0, 1, HARTLEY_MISFIT},
    {"parts, 4 cells into 3 and 4", PARTS, 4 * CELL, {3 * CELL, 4 * CELL}, 0, 1, HARTLEY_MISFIT},
    {"parts, 4 cells into 3 and a byte, and 3", PARTS, 4 * CELL, {3 * CELL + 1, 3 * CELL}, 0, 1, HARTLEY_MISFIT},
    {"parts, 4 cells into 3, and 3 and a byte", PARTS, 4 * CELL, {3 * CELL, 3 * CELL + 1}, 0, 1, HARTLEY_MISFIT},
    {"parts, cell 3 is 2^28 + 1", PARTS, 4 * CELL, {3 * CELL, 3 * CELL}, 3, LOUDEST + 1, HARTLEY_LOUD},
    {"parts, cell 3 is -2^28 - 1", PARTS, 4 * CELL, {3 * CELL, 3 * CELL}, 3, -LOUDEST - 1, HARTLEY_LOUD},
    {"parts, cell 3 is 2^28", PARTS, 4 * CELL, {3 * CELL, 3 * CELL}, 3, LOUDEST, 0},
    {"parts, cell 1023 is -2^28", PARTS, 1024 * CELL, {513 * CELL, 513 * CELL}, 1023, -LOUDEST, 0},
    {"power, 3 cells into none", POWER, 3 * CELL, {0}, 0, 1, HARTLEY_LENGTH},
    {"power, 4 cells and a byte", POWER, 4 * CELL + 1, {3 * CELL}, 0, 1, HARTLEY_LENGTH},
    {"power, 4 cells into 2", POWER, 4 * CELL, {2 * CELL}, 0, LOUDEST + 1, HARTLEY_MISFIT},
    {"power, 4 cells into 4", POWER, 4 * CELL, {4 * CELL}, 0, 1, HARTLEY_MISFIT},
    {"power, 4 cells into 3 and a byte", POWER, 4 * CELL, {3 * CELL + 1}, 0, 1, HARTLEY_MISFIT},
    {"power, cell 2 is -2^28 - 1", POWER, 4 * CELL, {3 * CELL}, 2, -LOUDEST - 1, HARTLEY_LOUD},
    {"power, cell 2 is 2^28", POWER, 4 * CELL, {3 * CELL}, 2, LOUDEST, 0},
};

/* Scaled lines at the limits and beyond, of such blocks: the refusal and its place, or 0 and the case. */
static const struct line_limit {
    const char *what;
    size_t bytes, line, at;
    int64_t cell;
    uint64_t number, place_or_case;
} line_limits[] = {
    {"scaled, line 9 of 3 cells", 3 * CELL, 9, 0, 1, HARTLEY_LENGTH, 0},
    {"scaled, line 0 of 2 cells less a byte", 2 * CELL - 1, 0, 0, 1, HARTLEY_LENGTH, 0},
    {"scaled, line 9, cell 2 is 2^28 + 1", 4 * CELL, 9, 2, LOUDEST + 1, HARTLEY_LOUD, 2},
    {"scaled, line 0, cell 3 is -2^28 - 1", 4 * CELL, 0, 3, -LOUDEST - 1, HARTLEY_LOUD, 3},
    {"scaled, line 0, cell 0 is 2^28", 4 * CELL, 0, 0, LOUDEST, 0, HARTLEY_MEAN},
    {"scaled, line 1, cell 3 is -2^28", 4 * CELL, 1, 3, -LOUDEST, 0, HARTLEY_PAIR},
    {"scaled, line 1 of 2 cells", 2 * CELL, 1, 0, 1, 0, HARTLEY_LAST},
    {"scaled, line 2 of 2 cells", 2 * CELL, 2, 0, 1, HARTLEY_LINE, 2},
    {"scaled, line 511 of 1024 cells", 1024 * CELL, 511, 0, 1, 0, HARTLEY_PAIR},
    {"scaled, line 512 of 1024 cells", 1024 * CELL, 512, 0, 1, 0, HARTLEY_LAST},
    {"scaled, line 513 of 1024 cells", 1024 * CELL, 513, 0, 1, HARTLEY_LINE, 513},
    {"scaled, line 2^64 - 1", 1024 * CELL, SIZE_MAX, 0, 1, HARTLEY_LINE, PLACE_MAX},
};

/* Searches for the strongest line of such lists, of powers: the refusal and its place, or 0 and the line. */
static const struct band {
    const char *what;
    size_t bytes, low, high, at;
    int64_t cell;
    uint64_t number, place_or_line;
} bands[] = {
    {"strongest, lines 0 to 4 of 5", 5 * CELL, 0, 4, 0, 1, 0, 4},
    {"strongest, lines 1 to 3 of 5", 5 * CELL, 1, 3, 0, 9, 0, 3},
    {"strongest, line 2 alone", 5 * CELL, 2, 2, 0, 9, 0, 2},
    {"strongest, lines 1 and 4 of one power", 5 * CELL, 0, 4, 1, 5, 0, 1},
    {"strongest, power 0 is -2^63", 2 * CELL, 0, 0, 0, INT64_MIN, 0, 0},
    {"strongest, lines 0 to 512, power 0 is 2^63 - 1", 513 * CELL, 0, 512, 0, INT64_MAX, 0, 0},
    {"strongest, lines 0 to 512, power 300 is -1", 513 * CELL, 0, 512, 300, -1, 0, 512},
    {"strongest, 0 powers", 0, 0, 0, 0, 1, HARTLEY_LENGTH, 0},
    {"strongest, 1 power", CELL, 0, 0, 0, 1, HARTLEY_LENGTH, 0},
    {"strongest, lines 9 to 8 of 4", 4 * CELL, 9, 8, 0, 1, HARTLEY_LENGTH, 0},
    {"strongest, 5 powers and a byte", 5 * CELL + 1, 0, 4, 0, 1, HARTLEY_LENGTH, 0},
    {"strongest, 512 powers", 512 * CELL, 0, 4, 0, 1, HARTLEY_LENGTH, 0},
    {"strongest, 1025 powers", 1025 * CELL, 0, 4, 0, 1, HARTLEY_LENGTH, 0},
    {"strongest, lines 5 to 6 of 5", 5 * CELL, 5, 6, 0, 1, HARTLEY_LINE, 5},
    {"strongest, lines 5 to 2 of 5", 5 * CELL, 5, 2, 0, 1, HARTLEY_LINE, 5},
    {"strongest, lines 4 to 5 of 5", 5 * CELL, 4, 5, 0, 1, HARTLEY_LINE, 5},
    {"strongest, lines 3 to 2 of 5", 5 * CELL, 3, 2, 0, 1, HARTLEY_LINE, 3},
    {"strongest, lines 0 to 2^64 - 1", 513 * CELL, 0, SIZE_MAX, 0, 1, HARTLEY_LINE, PLACE_MAX},
};

/* Searches for the nearest line of such lists: the refusal and its place, or 0 and the line, or NONE. */
static const struct choice {
    const char *what;
    size_t bytes, chosen;
    int64_t level;
    size_t at;
    int64_t cell;
    uint64_t number, place_or_line;
} choices[] = {
    {"nearest to line 2, level 3", 5 * CELL, 2, 3, 0, 1, 0, 2},
    {"nearest to line 2, level 5", 5 * CELL, 2, 5, 0, 1, 0, 4},
    {"nearest to line 2, level 5, power 0 is 5", 5 * CELL, 2, 5, 0, 5, 0, 0},
    {"nearest to line 3, level 5, power 0 is 5", 5 * CELL, 3, 5, 0, 5, 0, 4},
    {"nearest to line 4, level 6, power 0 is 6", 5 * CELL, 4, 6, 0, 6, 0, 0},
    {"nearest to line 2, level 6", 5 * CELL, 2, 6, 0, 1, 0, NONE},
    {"nearest to line 1, level -2^63, power 1 is -2^63", 2 * CELL, 1, INT64_MIN, 1, INT64_MIN, 0, 1},
    {"nearest to line 512, level 2^63 - 1, power 0 is 2^63 - 1", 513 * CELL, 512, INT64_MAX, 0, INT64_MAX, 0, 0},
    {"nearest to line 0, level 513", 513 * CELL, 0, 513, 0, 1, 0, 512},
    {"nearest to line 256, level 514", 513 * CELL, 256, 514, 0, 1, 0, NONE},
    {"nearest, 0 powers", 0, 0, 1, 0, 1, HARTLEY_LENGTH, 0},
    {"nearest, 5 powers less a byte", 5 * CELL - 1, 0, 1, 0, 1, HARTLEY_LENGTH, 0},
    {"nearest, 1025 powers", 1025 * CELL, 0, 1, 0, 1, HARTLEY_LENGTH, 0},
    {"nearest to line 9 of 4", 4 * CELL, 9, 1, 0, 1, HARTLEY_LENGTH, 0},
    {"nearest to line 5 of 5", 5 * CELL, 5, 1, 0, 1, HARTLEY_LINE, 5},
    {"nearest to line 2^64 - 1, level 514", 513 * CELL, SIZE_MAX, 514, 0, 1, HARTLEY_LINE, PLACE_MAX},
};

/* A whole trace, and after it a second end for the traces that have bytes after their end. */
static const uint8_t whole[TRACE + 6] = {
    6, 0, 0, 0, 1, 0, 0x40, 0x1f, 0, 0, 2, 0,   /* head: 8,000 samples a second, P = 2 */
    8, 0, 0, 0, 2, 0, 1, 0, 2, 0, 3, 0, 4, 0,   /* block: 1, 2, 3, 4 */
    0, 0, 0, 0, 4, 0,                           /* end */
    0, 0, 0, 0, 4, 0
};

/* What becomes of it when it is cut or made longer and one byte is set. */
static const struct fault { const char *what; size_t bytes, at; uint8_t byte; uint64_t number, place; } faults[] = {
    {"check, an empty trace", 0, 0, 6, HARTLEY_CUT, 0},
    {"check, cut within the block", 20, 0, 6, HARTLEY_CUT, 12},
    {"check, cut within the end", TRACE - 1, 0, 6, HARTLEY_CUT, 26},
    {"check, a record of kind 5", TRACE, 16, 5, HARTLEY_KIND, 12},
    {"check, a block of 7 bytes", TRACE, 12, 7, HARTLEY_SIZE, 12},
    {"check, P is 11", TRACE, 10, 11, HARTLEY_HEAD, 0},
    {"check, a block first", TRACE, 4, 2, HARTLEY_HEADLESS, 0},
    {"check, a note first", TRACE, 4, 3, HARTLEY_HEADLESS, 0},
    {"check, an end first", TRACE, 4, 4, HARTLEY_HEADLESS, 0},
    {"check, a second head", TRACE, 16, 1, HARTLEY_SECOND_HEAD, 12},
    {"check, a second head after the block", TRACE, 30, 1, HARTLEY_SECOND_HEAD, 26},
    {"check, a byte after the end", TRACE + 1, 0, 6, HARTLEY_TAIL, TRACE},
    {"check, a second end", TRACE + 6, 0, 6, HARTLEY_TAIL, TRACE},
};

/* The numbers that such traces are given, whichever byte is set. 13, which version 2 had, is none of them. */
static const uint64_t numbers[] = {
    HARTLEY_OK, HARTLEY_CUT, HARTLEY_KIND, HARTLEY_SIZE, HARTLEY_HEAD,
    HARTLEY_HEADLESS, HARTLEY_SECOND_HEAD, HARTLEY_TAIL
};

/* A trace of three blocks, with a note between. */
static const uint8_t three[THREE] = {
    6, 0, 0, 0, 1, 0, 0x44, 0xac, 0, 0, 2, 0,                /* head: 44,100 samples a second, P = 2 */
    8, 0, 0, 0, 2, 0, 1, 0, 2, 0, 3, 0, 4, 0,                /* block 0: 1, 2, 3, 4 */
    3, 0, 0, 0, 3, 0, 'r', 'y', 'e',                         /* note */
    8, 0, 0, 0, 2, 0, 0, 0x80, 0xff, 0x7f, 0xff, 0xff, 0, 0, /* block 1: -32,768, 32,767, -1, 0 */
    8, 0, 0, 0, 2, 0, 5, 0, 0, 0, 0, 1, 0xfe, 0xff,          /* block 2: 5, 0, 256, -2 */
    0, 0, 0, 0, 4, 0                                         /* end */
};

/* Its blocks fetched, and what is refused, also where it is cut: the refusal and its place, or 0 and the samples. */
static const struct fetched {
    const char *what;
    size_t bytes, k, cells_bytes;
    uint64_t number, place;
    int64_t samples[4];
} fetches[] = {
    {"fetch, block 0", THREE, 0, 4 * CELL, 0, 0, {1, 2, 3, 4}},
    {"fetch, block 1", THREE, 1, 4 * CELL, 0, 0, {-32768, 32767, -1, 0}},
    {"fetch, block 2", THREE, 2, 4 * CELL, 0, 0, {5, 0, 256, -2}},
    {"fetch, block 3", THREE, 3, 4 * CELL, HARTLEY_ABSENT, 3, {0}},
    {"fetch, block 3 into 3 cells", THREE, 3, 3 * CELL, HARTLEY_ABSENT, 3, {0}},
    {"fetch, block 2^64 - 1", THREE, SIZE_MAX, 4 * CELL, HARTLEY_ABSENT, PLACE_MAX, {0}},
    {"fetch, block 2 into 3 cells", THREE, 2, 3 * CELL, HARTLEY_MISFIT, 0, {0}},
    {"fetch, block 2 into 5 cells", THREE, 2, 5 * CELL, HARTLEY_MISFIT, 0, {0}},
    {"fetch, block 2 into 4 cells and a byte", THREE, 2, 4 * CELL + 1, HARTLEY_MISFIT, 0, {0}},
    {"fetch, block 2 into none", THREE, 2, 0, HARTLEY_MISFIT, 0, {0}},
    {"fetch, block 0, cut within the end", THREE - 1, 0, 4 * CELL, HARTLEY_CUT, THREE - 6, {0}},
    {"fetch, block 3 into none, cut within the end", THREE - 1, 3, 0, HARTLEY_CUT, THREE - 6, {0}},
    {"fetch, block 0 of an empty trace", 0, 0, 4 * CELL, HARTLEY_CUT, 0, {0}},
};

/* Runs of such cells saved: the refusal and its place, or 0 and the bytes that the trace has. They are 18, and for each
   block 6 more and two for each of its cells. */
static const struct saved {
    const char *what;
    size_t rate, p, bytes, at;
    int64_t cell;
    size_t trace_bytes;
    uint64_t number, place_or_used;
} saves[] = {
    {"save, a block of 4", 8000, 2, 4 * CELL, 0, 1, TRACE, 0, TRACE},
    {"save, a block of 4 into 100 bytes", 8000, 2, 4 * CELL, 0, 1, 100, 0, TRACE},
    {"save, 2 blocks of 4, cell 7 is -32768", 8000, 2, 8 * CELL, 7, -32768, 47, 0, 46},
    {"save, 2 blocks of 4, cell 4 is 32767", 8000, 2, 8 * CELL, 4, 32767, 46, 0, 46},
    {"save, no cells", 8000, 2, 0, 0, 1, 18, 0, 18},
    {"save, no cells into 65537 bytes", 8000, 10, 0, 0, 1, LONGEST + 1, 0, 18},
    {"save, rate 1, a block of 2", 1, 1, 2 * CELL, 0, -1, 28, 0, 28},
    {"save, rate 2^32 - 1, a block of 1024", UINT32_MAX, 10, 1024 * CELL, 0, 1, LONGEST, 0, 2072},
    {"save, 6551 blocks of 2", 8000, 1, 6551 * 2 * CELL, 0, 1, 65528, 0, 65528},
    {"save, 31 blocks of 1024", 8000, 10, 31 * 1024 * CELL, 0, 1, LONGEST, 0, 63692},
    {"save, rate 0", 0, 2, 4 * CELL, 0, 1, TRACE, HARTLEY_HEAD, 0},
    {"save, rate 2^32", (size_t)UINT32_MAX + 1, 2, 4 * CELL, 0, 1, TRACE, HARTLEY_HEAD, 0},
    {"save, rate 2^32 + 8000", (size_t)UINT32_MAX + 8001, 2, 4 * CELL, 0, 1, TRACE, HARTLEY_HEAD, 0},
    {"save, rate 2^64 - 1", SIZE_MAX, 2, 4 * CELL, 0, 1, TRACE, HARTLEY_HEAD, 0},
    {"save, P is 0", 8000, 0, 4 * CELL, 0, 1, LONGEST, HARTLEY_HEAD, 0},
    {"save, P is 11", 8000, 11, 2048 * CELL, 0, 1, LONGEST, HARTLEY_HEAD, 0},
    {"save, P is 11, no cells", 8000, 11, 0, 0, 1, LONGEST, HARTLEY_HEAD, 0},
    {"save, P is 66", 8000, 66, 4 * CELL, 0, 1, LONGEST, HARTLEY_HEAD, 0},
    {"save, P is 65538", 8000, 65538, 4 * CELL, 0, 1, LONGEST, HARTLEY_HEAD, 0},
    {"save, P is 2^64 - 1", 8000, SIZE_MAX, 4 * CELL, 0, 1, LONGEST, HARTLEY_HEAD, 0},
    {"save, 3 cells in blocks of 4", 8000, 2, 3 * CELL, 0, 1, LONGEST, HARTLEY_LENGTH, 0},
    {"save, 6 cells in blocks of 4", 8000, 2, 6 * CELL, 0, 1, LONGEST, HARTLEY_LENGTH, 0},
    {"save, 512 cells in blocks of 1024", 8000, 10, 512 * CELL, 0, 1, LONGEST, HARTLEY_LENGTH, 0},
    {"save, a block of 4 and a byte", 8000, 2, 4 * CELL + 1, 0, 1, LONGEST, HARTLEY_LENGTH, 0},
    {"save, a block of 4 less a byte", 8000, 2, 4 * CELL - 1, 0, 1, LONGEST, HARTLEY_LENGTH, 0},
    {"save, a byte", 8000, 2, 1, 0, 1, LONGEST, HARTLEY_LENGTH, 0},
    {"save, cell 3 is 32768", 8000, 2, 4 * CELL, 3, 32768, TRACE, HARTLEY_LOUD, 3},
    {"save, cell 5 of 2 blocks is -32769", 8000, 2, 8 * CELL, 5, -32769, LONGEST, HARTLEY_LOUD, 5},
    {"save, cell 0 is 65537", 8000, 2, 4 * CELL, 0, 65537, TRACE, HARTLEY_LOUD, 0},
    {"save, cell 1 is 2^63 - 1", 8000, 2, 4 * CELL, 1, INT64_MAX, TRACE, HARTLEY_LOUD, 1},
    {"save, cell 2 is -2^63", 8000, 2, 4 * CELL, 2, INT64_MIN, TRACE, HARTLEY_LOUD, 2},
    {"save, cell 31743 of 31 blocks is 32768", 8000, 10, 31 * 1024 * CELL, 31743, 32768, LONGEST, HARTLEY_LOUD, 31743},
    {"save, cells 9 and 32767 are too loud", 8000, 10, 32 * 1024 * CELL, 9, -32769, 2 * LONGEST, HARTLEY_LOUD, 9},
    {"save, 6552 blocks of 2", 8000, 1, 6552 * 2 * CELL, 0, 1, 65538, HARTLEY_LONG, 0},
    {"save, 32 blocks of 1024", 8000, 10, 32 * 1024 * CELL, 32767, 1, 65746, HARTLEY_LONG, 0},
    {"save, a block of 4 into 31 bytes", 8000, 2, 4 * CELL, 0, 1, 31, HARTLEY_MISFIT, 0},
    {"save, 6551 blocks of 2 into 65527 bytes", 8000, 1, 6551 * 2 * CELL, 0, 1, 65527, HARTLEY_MISFIT, 0},
    {"save, no cells into 17 bytes", 8000, 2, 0, 0, 1, 17, HARTLEY_MISFIT, 0},
    {"save, no cells into none", 8000, 2, 0, 0, 1, 0, HARTLEY_MISFIT, 0},
    /* every two of the five faults at once: the one that is tested first decides */
    {"save, rate 0, 3 cells in blocks of 4", 0, 2, 3 * CELL, 0, 1, LONGEST, HARTLEY_HEAD, 0},
    {"save, rate 0, cell 2 is 32768", 0, 2, 4 * CELL, 2, 32768, LONGEST, HARTLEY_HEAD, 0},
    {"save, rate 0, 6552 blocks of 2", 0, 1, 6552 * 2 * CELL, 0, 1, 2 * LONGEST, HARTLEY_HEAD, 0},
    {"save, rate 0, into none", 0, 2, 4 * CELL, 0, 1, 0, HARTLEY_HEAD, 0},
    {"save, 3 cells in blocks of 4, cell 2 is 32768", 8000, 2, 3 * CELL, 2, 32768, LONGEST, HARTLEY_LENGTH, 0},
    {"save, 6552 blocks of 2 and a cell", 8000, 1, 6552 * 2 * CELL + CELL, 0, 1, 2 * LONGEST, HARTLEY_LENGTH, 0},
    {"save, 3 cells in blocks of 4, into none", 8000, 2, 3 * CELL, 0, 1, 0, HARTLEY_LENGTH, 0},
    {"save, cell 9999 of 6552 blocks is 32768", 8000, 1, 6552 * 2 * CELL, 9999, 32768, 2 * LONGEST, HARTLEY_LOUD, 9999},
    {"save, cell 2 is 32768, into none", 8000, 2, 4 * CELL, 2, 32768, 0, HARTLEY_LOUD, 2},
    {"save, 6552 blocks of 2 into 65536 bytes", 8000, 1, 6552 * 2 * CELL, 0, 1, LONGEST, HARTLEY_LONG, 0},
};

static _Noreturn void fail(const char *what)
{
    fflush(stdout);
    fprintf(stderr, "demo: failed: %s\n", what);
    exit(1);
}

/* A list of exactly so many bytes, to be lent. No list is null, so an empty one has a byte that is not lent. */
static uint8_t *new_list(size_t bytes)
{
    uint8_t *list = malloc(bytes > 0 ? bytes : 1);
    if (list == NULL)
        fail("no memory");
    memset(list, 0xa5, bytes);
    return list;
}

static uint8_t *copy_of(const uint8_t *list, size_t bytes)
{
    return memcpy(new_list(bytes), list, bytes);
}

/* A list that is lent, and what it held before. */
struct lent { size_t bytes; uint8_t *list, *before; };

static struct lent lend(uint8_t *list, size_t bytes)
{
    return (struct lent){bytes, list, copy_of(list, bytes)};
}

/* Takes a list back. It is kept where it is as it was: where it is lent to be read alone, or the call refused. */
static void take_back(struct lent lent, int kept)
{
    if (kept && memcmp(lent.list, lent.before, lent.bytes) != 0)
        fail("lent bytes were changed that are to be kept");
    free(lent.list);
    free(lent.before);
}

/* Writes a number in so many bytes, least byte first. Answers where the next one goes. */
static uint8_t *put(uint8_t *at, int bytes, uint64_t number)
{
    for (int i = 0; i < bytes; i++)
        at[i] = (uint8_t)(number >> 8 * i & 0xff);
    return at + bytes;
}

/* Writes a cell: eight bytes, two's complement, least byte first. */
static void put_cell(uint8_t *at, int64_t cell)
{
    put(at, CELL, (uint64_t)cell);
}

static int64_t get_cell(const uint8_t *at)
{
    uint64_t bits = 0;
    for (int i = 0; i < CELL; i++)
        bits |= (uint64_t)at[i] << 8 * i;
    return bits <= INT64_MAX ? (int64_t)bits : -(int64_t)~bits - 1;
}

/* A list of so many bytes with the cells 1, 2, 3 and so on, but the one at the place. */
static uint8_t *new_block(size_t bytes, size_t place, int64_t cell)
{
    uint8_t *list = new_list(bytes);
    for (size_t t = 0; CELL * (t + 1) <= bytes; t++)
        put_cell(list + CELL * t, t == place ? cell : (int64_t)t + 1);
    return list;
}

/* A list of so many bytes with all cells the same, but the one at the place. */
static uint8_t *new_flat_block(size_t bytes, int64_t others, size_t place, int64_t cell)
{
    uint8_t *list = new_list(bytes);
    for (size_t t = 0; CELL * (t + 1) <= bytes; t++)
        put_cell(list + CELL * t, t == place ? cell : others);
    return list;
}

/* Shows an answer and compares it: the number of the refusal, or 0, and the refusal's place. Whatever the answer is,
   hartley_used and hartley_distance read the same bytes of it as hartley_place. */
static void expect(const char *what, uint64_t answer, uint64_t number, uint64_t place)
{
    if (hartley_number(answer) == 0)
        printf("%s: accepted\n", what);
    else
        printf("%s: refused %" PRIu64 " at %" PRIu64 "\n", what, hartley_number(answer), hartley_place(answer));
    if (hartley_number(answer) != number || (number != 0 && hartley_place(answer) != place))
        fail("another answer was expected");
    if (hartley_used(answer) != hartley_place(answer) || hartley_distance(answer) != hartley_place(answer))
        fail("other bytes of an answer were expected");
}

/* Compares the answer of an accepted block, then shows the cells and compares them. */
static void expect_cells(const char *what, uint64_t answer, const uint8_t *list, const int64_t *cells, size_t count)
{
    int same = answer == 0;
    printf("%s:", what);
    for (size_t i = 0; i < count; i++) {
        printf(" %" PRId64, get_cell(list + CELL * i));
        same = same && get_cell(list + CELL * i) == cells[i];
    }
    printf("\n");
    if (!same)
        fail("another answer or other cells were expected");
}

/* Whether a double is the expected one: minus zero is not zero. */
static int same_double(double found, double expected)
{
    return found == expected && !signbit(found) == !signbit(expected);
}

/* Shows a scaled line of a block worked by hand, and compares it. What is not filled is kept. */
static void show_scaled(const struct worked *row, const uint8_t *spectrum, size_t line)
{
    double real = LENT, imaginary = LENT;
    uint64_t answer = hartley_scaled(spectrum, CELL * row->n, line, &real, &imaginary);
    uint64_t expected = line == 0 ? HARTLEY_MEAN : line == row->n / 2 ? HARTLEY_LAST : HARTLEY_PAIR;
    if (hartley_number(answer) != 0 || hartley_case(answer) != expected)
        fail("another answer to a scaled line was expected");
    if (expected == HARTLEY_PAIR)
        printf("  scaled line %zu: pair %.10g, %.10g\n", line, real, imaginary);
    else
        printf("  scaled line %zu: %s %.10g\n", line, expected == HARTLEY_MEAN ? "mean" : "last", real);
    if (!same_double(real, row->scaled[line][0]) || !same_double(imaginary, row->scaled[line][1]))
        fail("another scaled line was expected");
}

/* Forward of a block worked by hand, the parts, power and scaled lines of its spectrum, then backward. */
static void show_worked(const struct worked *row)
{
    size_t bytes = CELL * row->n, lines = row->n / 2 + 1;
    uint8_t *cells = new_list(bytes), *powers = new_list(CELL * lines);
    uint8_t *real = new_list(CELL * lines), *imaginary = new_list(CELL * lines);
    for (size_t t = 0; t < row->n; t++)
        put_cell(cells + CELL * t, row->samples[t]);
    expect_cells("block", 0, cells, row->samples, row->n);
    uint64_t answer = hartley_forward(cells, bytes);
    expect_cells("  forward", answer, cells, row->spectrum, row->n);
    answer = hartley_parts(cells, bytes, real, CELL * lines, imaginary, CELL * lines);
    expect_cells("  doubled real part", answer, real, row->real, lines);
    expect_cells("  doubled imaginary part", answer, imaginary, row->imaginary, lines);
    answer = hartley_power(cells, bytes, powers, CELL * lines);
    expect_cells("  doubled power", answer, powers, row->powers, lines);
    for (size_t v = 0; v < lines; v++)
        show_scaled(row, cells, v);
    answer = hartley_backward(cells, bytes);
    expect_cells("  backward", answer, cells, row->samples, row->n);
    free(cells);
    free(powers);
    free(real);
    free(imaginary);
}

static uint64_t call(enum entry entry, struct lent cells, struct lent first, struct lent second)
{
    switch (entry) {
    case FORWARD:
        return hartley_forward(cells.list, cells.bytes);
    case BACKWARD:
        return hartley_backward(cells.list, cells.bytes);
    case PARTS:
        return hartley_parts(cells.list, cells.bytes, first.list, first.bytes, second.list, second.bytes);
    default:
        return hartley_power(cells.list, cells.bytes, first.list, first.bytes);
    }
}

/* The bound of a block, or a refusal. The block is left as it was. Forward then takes it, or answers the same refusal;
   and where all samples are 0 it leaves them so. */
static void show_bound(const struct bound *row)
{
    struct lent cells = lend(new_flat_block(row->bytes, row->others, row->at, row->cell), row->bytes);
    uint64_t answer = hartley_bound(cells.list, cells.bytes);
    expect(row->what, answer, row->number, row->place_or_bound);
    if (row->number == 0) {
        printf("  bound %" PRIu64 "\n", hartley_distance(answer));
        if (hartley_distance(answer) != row->place_or_bound)
            fail("another bound was expected");
    }
    struct lent samples = lend(copy_of(cells.list, cells.bytes), cells.bytes);
    take_back(cells, 1);
    if (hartley_forward(samples.list, samples.bytes) != (row->number == 0 ? 0 : answer))
        fail("another answer than that of forward");
    take_back(samples, row->number != 0 || (row->others == 0 && row->cell == 0));
}

/* A block smoothed by hand. The weights are left as they were. */
static void show_smoothed(const struct smoothed *row)
{
    size_t bytes = CELL * row->n;
    uint8_t *cells = new_list(bytes), *weights = new_list(bytes);
    for (size_t t = 0; t < row->n; t++) {
        put_cell(cells + CELL * t, row->samples[t]);
        put_cell(weights + CELL * t, row->weights[t]);
    }
    expect_cells("block", 0, cells, row->samples, row->n);
    uint64_t answer = hartley_smooth(cells, bytes, weights, bytes);
    expect_cells("  weights", answer, weights, row->weights, row->n);
    expect_cells("  smoothed", answer, cells, row->cells, row->n);
    free(cells);
    free(weights);
}

/* The plain sum at moment t: over the moments u, of sample(u) times weight((t - u) mod n). */
static int64_t plain_sum(const uint8_t *samples, const uint8_t *weights, size_t n, size_t t)
{
    int64_t sum = 0;
    for (size_t u = 0; u < n; u++)
        sum += get_cell(samples + CELL * u) * get_cell(weights + CELL * ((t + n - u) % n));
    return sum;
}

/* A block smoothed, or refused: then it is left as it was. The weights always are. */
static void show_smoothing(const struct smoothing *row)
{
    const size_t n = row->bytes / CELL;
    struct lent cells = lend(new_block(row->bytes, row->at, row->cell), row->bytes);
    struct lent weights = lend(new_flat_block(row->weights_bytes, row->others, row->weight_at, row->weight),
                               row->weights_bytes);
    uint64_t answer = hartley_smooth(cells.list, cells.bytes, weights.list, weights.bytes);
    expect(row->what, answer, row->number, row->place);
    for (size_t t = 0; row->number == 0 && t < n; t++)
        if (answer != 0 || get_cell(cells.list + CELL * t) != plain_sum(cells.before, weights.list, n, t))
            fail("another answer or other cells were expected");
    take_back(cells, row->number != 0);
    take_back(weights, 1);
}

/* A block at the limits or beyond. Where it is refused, all that was lent is left as it was. What parts and power read
   always is. */
static void show_limit(const struct limit *row)
{
    const size_t *output_bytes = row->output_bytes;
    struct lent cells = lend(new_block(row->bytes, row->place, row->cell), row->bytes);
    struct lent first = lend(new_list(output_bytes[0]), output_bytes[0]);
    struct lent second = lend(new_list(output_bytes[1]), output_bytes[1]);
    uint64_t answer = call(row->entry, cells, first, second);
    expect(row->what, answer, row->number, row->place);
    take_back(cells, answer != 0 || row->entry == PARTS || row->entry == POWER);
    take_back(first, answer != 0);
    take_back(second, answer != 0);
}

/* A scaled line at the limits or beyond. Where it is refused, both doubles are left as they were. */
static void show_line_limit(const struct line_limit *row)
{
    struct lent cells = lend(new_block(row->bytes, row->at, row->cell), row->bytes);
    double real = LENT, imaginary = LENT;
    uint64_t answer = hartley_scaled(cells.list, cells.bytes, row->line, &real, &imaginary);
    expect(row->what, answer, row->number, row->place_or_case);
    if (row->number == 0 && hartley_case(answer) != row->place_or_case)
        fail("another case was expected");
    if (row->number != 0 && (real != LENT || imaginary != LENT))
        fail("a refused call has changed a lent double");
    take_back(cells, 1);
}

/* Shows what a search answers, and compares it. */
static void expect_line(const char *what, uint64_t answer, uint64_t number, uint64_t place_or_line)
{
    const uint64_t found = place_or_line != NONE;
    expect(what, answer, number, place_or_line);
    if (number != 0)
        return;
    if (hartley_found(answer))
        printf("  line %" PRIu64 "\n", hartley_line(answer));
    else
        printf("  none\n");
    if (hartley_found(answer) != found || hartley_line(answer) != (found ? place_or_line : 0))
        fail("another line was expected");
}

static void show_band(const struct band *row)
{
    struct lent powers = lend(new_block(row->bytes, row->at, row->cell), row->bytes);
    uint64_t answer = hartley_strongest(powers.list, powers.bytes, row->low, row->high);
    expect_line(row->what, answer, row->number, row->place_or_line);
    take_back(powers, 1);
}

static void show_choice(const struct choice *row)
{
    struct lent powers = lend(new_block(row->bytes, row->at, row->cell), row->bytes);
    uint64_t answer = hartley_nearest(powers.list, powers.bytes, row->chosen, row->level);
    expect_line(row->what, answer, row->number, row->place_or_line);
    take_back(powers, 1);
}

/* The check of a trace that is lent as a list of exactly its bytes. */
static uint64_t check_of(const uint8_t *trace, size_t bytes)
{
    uint8_t *lent = copy_of(trace, bytes);
    uint64_t answer = hartley_check(lent, bytes);
    free(lent);
    return answer;
}

/* Shows what the answer to an accepted trace says, and compares it. */
static void expect_trace(uint64_t answer, uint64_t rate, uint64_t p, uint64_t blocks)
{
    printf("  rate %" PRIu64 ", P %" PRIu64 ", blocks %" PRIu64 "\n", hartley_rate(answer), hartley_p(answer),
           hartley_blocks(answer));
    if (hartley_rate(answer) != rate || hartley_p(answer) != p || hartley_blocks(answer) != blocks)
        fail("another rate, P or number of blocks was expected");
}

static void show_whole(void)
{
    uint64_t answer = check_of(whole, TRACE);
    expect("check, a whole trace", answer, 0, 0);
    expect_trace(answer, 8000, 2, 1);
}

/* The check of the whole trace cut or made longer, with one byte set. */
static uint64_t check_of_fault(size_t bytes, size_t at, uint8_t byte)
{
    uint8_t trace[sizeof whole];
    memcpy(trace, whole, sizeof trace);
    trace[at] = byte;
    return check_of(trace, bytes);
}

static void show_fault(const struct fault *row)
{
    expect(row->what, check_of_fault(row->bytes, row->at, row->byte), row->number, row->place);
}

/* The same for every count of bytes and every byte, set to 0 to 5. Shows how often each number is given: each is, and
   no other. */
static void show_numbers(void)
{
    size_t given[256] = {0}, tried = 0, expected = 0;
    for (size_t bytes = 0; bytes <= sizeof whole; bytes++)
        for (size_t at = 0; at < sizeof whole; at++)
            for (uint8_t byte = 0; byte <= 5; byte++) {
                given[hartley_number(check_of_fault(bytes, at, byte))]++;
                tried++;
            }
    printf("check, every byte set, cut or made longer: %zu traces\n", tried);
    for (size_t i = 0; i < COUNT(numbers); i++) {
        printf("  number %" PRIu64 ": %zu\n", numbers[i], given[numbers[i]]);
        if (given[numbers[i]] == 0)
            fail("this number was expected too");
        expected += given[numbers[i]];
    }
    if (expected != tried)
        fail("another number was given");
}

/* The check of a trace that is a head, a note of so many bytes and an end. */
static uint64_t check_of_note(size_t length)
{
    uint8_t trace[12 + 6 + 256 + 6] = {0};
    memcpy(trace, whole, 12);
    trace[12] = (uint8_t)(length % 256);
    trace[13] = (uint8_t)(length / 256);
    trace[16] = 3;
    trace[18 + length + 4] = 4;
    return check_of(trace, 18 + length + 6);
}

/* A block fetched, or refused: then the lent cells are left as they were. The trace always is. */
static void show_fetch(const struct fetched *row)
{
    struct lent trace = lend(copy_of(three, row->bytes), row->bytes);
    struct lent cells = lend(new_list(row->cells_bytes), row->cells_bytes);
    uint64_t answer = hartley_fetch(trace.list, trace.bytes, row->k, cells.list, cells.bytes);
    expect(row->what, answer, row->number, row->place);
    if (row->number == 0) {
        expect_trace(answer, 44100, 2, 3);
        expect_cells("  samples", 0, cells.list, row->samples, 4);
        if (answer != hartley_check(trace.list, trace.bytes))
            fail("another answer than that of the check");
    }
    take_back(trace, 1);
    take_back(cells, row->number != 0);
}

/* Writes the trace that is to be saved of the cells: each record is its payload's length, its kind and the payload. */
static void put_trace(uint8_t *at, const struct saved *row, const uint8_t *cells)
{
    const size_t n = (size_t)1 << row->p;
    at = put(put(at, 4, 6), 2, 1);                          /* head */
    at = put(put(at, 4, row->rate), 2, row->p);
    for (size_t t = 0; t < row->bytes / CELL; t++) {
        if (t % n == 0)
            at = put(put(at, 4, 2 * n), 2, 2);              /* block */
        at = put(at, 2, (uint64_t)get_cell(cells + CELL * t));
    }
    put(put(at, 4, 0), 2, 4);                               /* end */
}

/* Compares the lent bytes with the trace that was to be saved, and past its end with what they held before. Then reads
   the trace back: its check, and its last block, if it has one. */
static void expect_saved(const struct saved *row, const uint8_t *cells, struct lent trace)
{
    const size_t n = (size_t)1 << row->p, bytes = n * CELL, blocks = row->bytes / bytes, used = row->place_or_used;
    put_trace(trace.before, row, cells);
    if (memcmp(trace.list, trace.before, trace.bytes) != 0)
        fail("another trace was expected, or other bytes past it");
    expect_trace(hartley_check(trace.list, used), row->rate, row->p, blocks);
    if (blocks == 0)
        return;
    uint8_t *fetched = new_list(bytes);
    uint64_t answer = hartley_fetch(trace.list, used, blocks - 1, fetched, bytes);
    if (hartley_number(answer) != 0 || memcmp(fetched, cells + bytes * (blocks - 1), bytes) != 0)
        fail("other samples were expected");
    free(fetched);
}

/* A trace saved, or refused: then the lent bytes are left as they were. The cells always are. */
static void show_save(const struct saved *row)
{
    struct lent cells = lend(new_block(row->bytes, row->at, row->cell), row->bytes);
    struct lent trace = lend(new_list(row->trace_bytes), row->trace_bytes);
    uint64_t answer = hartley_save(row->rate, row->p, cells.list, cells.bytes, trace.list, trace.bytes);
    expect(row->what, answer, row->number, row->place_or_used);
    if (row->number == 0) {
        printf("  bytes %" PRIu64 "\n", hartley_used(answer));
        if (hartley_used(answer) != row->place_or_used)
            fail("another number of bytes was expected");
        expect_saved(row, cells.list, trace);
    }
    take_back(cells, 1);
    take_back(trace, row->number != 0);
}

/* The table, or its refusal: then the lent bytes are left as they were. Some of its cosines are shown and compared. */
static void show_table(const struct tabled *row)
{
    static const size_t steps[] = {0, 1, 64, 128, 192, 255, 256};
    static const int64_t cosines[] = {32768, 32767, 30274, 23170, 12540, 201, 0};
    struct lent table = lend(new_list(row->bytes), row->bytes);
    uint64_t answer = hartley_table(table.list, table.bytes);
    expect(row->what, answer, row->number, 0);
    for (size_t i = 0; row->number == 0 && i < COUNT(steps); i++) {
        int64_t cell = get_cell(table.list + CELL * steps[i]);
        printf("  T(%zu) %" PRId64 "\n", steps[i], cell);
        if (cell != cosines[i])
            fail("another cosine was expected");
    }
    take_back(table, row->number != 0);
}

/* The use that saves, and reads back: of the samples of the whole trace, then of those fetched from another without
   notes. Each gives the very bytes of its trace. Then of a run that is not a whole number of blocks. */
static void show_saving(void)
{
    static const int64_t samples[] = {1, 2, 3, 4};
    static uint8_t saved[LONGEST];
    static int64_t fetched[LONGEST / 2];
    if (save_samples(8000, 2, samples, 4, saved) != TRACE || memcmp(saved, whole, TRACE) != 0)
        fail("another trace was expected");
    expect_trace(fetch_samples(saved, TRACE, fetched), 8000, 2, 1);
    if (memcmp(fetched, samples, sizeof samples) != 0)
        fail("other samples were expected");
    expect_trace(fetch_samples(biscuit, sizeof biscuit, fetched), 8000, 3, 2);
    if (save_samples(8000, 3, fetched, 16, saved) != sizeof biscuit || memcmp(saved, biscuit, sizeof biscuit) != 0)
        fail("another trace was expected");
    if (save_samples(8000, 3, fetched, 15, saved) != 0)
        fail("a refusal was expected");
}

/* The uses from end to end, of the trace and of the trace without its last byte; of a power that no line has; and of a
   block that the trace has not. */
static void show_uses(void)
{
    static const int64_t one_wave[8] = {342, 242, 0, -242, -342, -242, 0, 242};
    static const int64_t two_waves[8] = {720, 520, 320, 520, 720, 520, 320, 520};
    int64_t cells[HARTLEY_LARGEST_BLOCK];
    if (mean_frequency(biscuit, sizeof biscuit) != 1500)
        fail("another frequency was expected");
    if (mean_frequency(biscuit, sizeof biscuit - 1) != -1)
        fail("a refusal was expected");
    if (nearest_frequency(biscuit, sizeof biscuit, 0, 2000, 100000) != 1000)
        fail("another frequency was expected");
    if (nearest_frequency(biscuit, sizeof biscuit, 1, 2000, 100000) != 2000)
        fail("another frequency was expected");
    if (nearest_frequency(biscuit, sizeof biscuit, 0, 2000, 1000000) != -1)
        fail("no frequency was expected");
    if (lines_beyond_bound(biscuit, sizeof biscuit, 0) != 2 || lines_beyond_bound(biscuit, sizeof biscuit, 1) != 3)
        fail("another number of lines was expected");
    if (lines_beyond_bound(biscuit, sizeof biscuit, 2) != -1)
        fail("a refusal was expected");
    if (!smooth_block(biscuit, sizeof biscuit, 0, cells) || memcmp(cells, one_wave, sizeof one_wave) != 0)
        fail("other cells were expected");
    if (!smooth_block(biscuit, sizeof biscuit, 1, cells) || memcmp(cells, two_waves, sizeof two_waves) != 0)
        fail("other cells were expected");
    if (smooth_block(biscuit, sizeof biscuit, 2, cells))
        fail("a refusal was expected");
    if (direct_line(biscuit, sizeof biscuit, 0, 1) != 13133880 || direct_line(biscuit, sizeof biscuit, 1, 2) != 13107200)
        fail("another line was expected");
    if (direct_line(biscuit, sizeof biscuit, 2, 1) != INT64_MIN)
        fail("a refusal was expected");
}

int main(void)
{
    static const uint8_t zeros[HARTLEY_LONGEST_TRACE + 1];
    show_uses();
    show_saving();
    for (size_t i = 0; i < COUNT(worked); i++)
        show_worked(&worked[i]);
    for (size_t i = 0; i < COUNT(bounds); i++)
        show_bound(&bounds[i]);
    for (size_t i = 0; i < COUNT(smoothed); i++)
        show_smoothed(&smoothed[i]);
    for (size_t i = 0; i < COUNT(smoothings); i++)
        show_smoothing(&smoothings[i]);
    for (size_t i = 0; i < COUNT(tables); i++)
        show_table(&tables[i]);
    for (size_t i = 0; i < COUNT(limits); i++)
        show_limit(&limits[i]);
    for (size_t i = 0; i < COUNT(line_limits); i++)
        show_line_limit(&line_limits[i]);
    for (size_t i = 0; i < COUNT(bands); i++)
        show_band(&bands[i]);
    for (size_t i = 0; i < COUNT(choices); i++)
        show_choice(&choices[i]);
    show_whole();
    for (size_t i = 0; i < COUNT(faults); i++)
        show_fault(&faults[i]);
    show_numbers();
    expect("check, a note of 255 bytes", check_of_note(255), 0, 0);
    expect("check, a note of 256 bytes", check_of_note(256), HARTLEY_SIZE, 12);
    expect("check, 65537 bytes", check_of(zeros, HARTLEY_LONGEST_TRACE + 1), HARTLEY_LONG, 0);
    expect("check, 65536 bytes of 0", check_of(zeros, HARTLEY_LONGEST_TRACE), HARTLEY_KIND, 0);
    for (size_t i = 0; i < COUNT(fetches); i++)
        show_fetch(&fetches[i]);
    for (size_t i = 0; i < COUNT(saves); i++)
        show_save(&saves[i]);
    printf("demo: ok\n");
    return 0;
}
