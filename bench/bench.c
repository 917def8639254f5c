/*
 * Times the archive and the listing program against the same rules in C, and forward and backward also against FFTW's
 * DHT where it is installed. Prints tables in Markdown. Usage:
 *   bench FOLDER LIST LISTER EMPTY: times all; a folder for traces, the listing program, the one in C and a program that
 *     does nothing.
 *   bench calls forward|backward archive|C P TIMES, bench calls smooth archive|plain|scattered|narrowed P TIMES: calls one
 *     contender so many times and prints nothing, for a count of its instructions.
 *   bench trace P FILE: writes the longest trace with blocks of that P.
 */
#define _POSIX_C_SOURCE 200809L

#include "hartley.h"
#include "rule.h"

#include <fcntl.h>
#include <math.h>
#include <spawn.h>
#include <stdio.h>
#include <stdlib.h>
#include <string.h>
#include <sys/wait.h>
#include <time.h>
#include <unistd.h>
#ifdef WITH_FFTW
#include <fftw3.h>
enum { FFTW = 1 };
#else
enum { FFTW = 0 };
#endif

enum { ROUNDS = 101, FEWEST = 5, CELL = 8 };
static const double SLICE = 3e5;    /* ns of one contender in one round, at least */
static const double BUDGET = 5e9;   /* ns of one row of a table, above which it has fewer rounds */

static _Noreturn void fail(const char *what)
{
    fflush(stdout);
    fprintf(stderr, "bench: failed: %s\n", what);
    exit(1);
}

/* Timing */

struct contender {
    void (*call)(void);
    double times[ROUNDS];           /* ns per call, one for each round */
    double best, median, spread;    /* spread: between the quartiles, as a part of the median */
    double ratio;                   /* of the first contender to this one: the median of the rounds' ratios */
};

static double lowest = 1, highest = 1;      /* A/A ratios of the whole run */

static double now(void)
{
    struct timespec t;
    clock_gettime(CLOCK_MONOTONIC, &t);
    return 1e9 * (double)t.tv_sec + (double)t.tv_nsec;
}

static double time_of(void (*call)(void), long calls)
{
    double start = now();
    for (long i = 0; i < calls; i++)
        call();
    return now() - start;
}

static int by_size(const void *a, const void *b)
{
    double x = *(const double *)a, y = *(const double *)b;
    return (x > y) - (x < y);
}

/* Times the contenders in turn, round by round, each round beginning with another. The first two are one and the same. */
static void measure(struct contender *list, int count)
{
    long calls[5];
    double round = 0;
    for (int i = 0; i < count; i++) {
        double spent = time_of(list[i].call, calls[i] = 1);
        while (spent < SLICE)
            spent = time_of(list[i].call, calls[i] *= 2);
        round += spent;
    }
    int rounds = (int)fmax(FEWEST, fmin(ROUNDS, BUDGET / round));
    for (int r = 0; r < rounds; r++)
        for (int i = 0; i < count; i++) {
            int k = (i + r) % count;
            list[k].times[r] = time_of(list[k].call, calls[k]) / (double)calls[k];
        }
    for (int i = count - 1; i >= 0; i--) {
        struct contender *c = &list[i];
        double ratios[ROUNDS];
        for (int r = 0; r < rounds; r++)
            ratios[r] = list[0].times[r] / c->times[r];
        qsort(ratios, (size_t)rounds, sizeof ratios[0], by_size);
        qsort(c->times, (size_t)rounds, sizeof c->times[0], by_size);
        c->ratio = ratios[rounds / 2];
        c->best = c->times[0];
        c->median = c->times[rounds / 2];
        c->spread = (c->times[rounds * 3 / 4] - c->times[rounds / 4]) / c->median;
    }
    lowest = fmin(lowest, list[1].ratio);
    highest = fmax(highest, list[1].ratio);
}

/* The head of a table, from its columns with a bar after each. */
static void print_head(const char *columns)
{
    printf("\n|%s\n|", columns);
    for (; *columns != '\0'; columns++)
        if (*columns == '|')
            printf("---:|");
    printf("\n");
}

/* Best and median of each contender, in units of so many ns; the second is the first again and has no column. */
static void print_times(const struct contender *list, int count, double unit)
{
    for (int i = 0; i < count; i++)
        if (i != 1)
            printf(" %.0f / %.0f |", list[i].best / unit, list[i].median / unit);
}

/* The last columns of a table: A/A, the largest spread, and growth over the best of the row before, or none if that is 0. */
static void print_end(const struct contender *list, int count, double before)
{
    double spread = 0;
    for (int i = 0; i < count; i++)
        spread = fmax(spread, list[i].spread);
    printf(" %.2f | %.0f %% |", list[1].ratio, 100 * spread);
    if (before > 0)
        printf(" %.2f |\n", list[0].best / before);
    else
        printf(" |\n");
    fflush(stdout);
}

/* Blocks */

static size_t n;
static uint8_t fresh_bytes[CELL * LARGEST], warm_bytes[CELL * LARGEST];
static int64_t fresh_cells[LARGEST], warm_cells[LARGEST];
static double fresh_reals[LARGEST], *warm_reals;
static uint8_t line_bytes[2][CELL * (LARGEST / 2 + 1)];
static int64_t line_cells[2][LARGEST / 2 + 1];
static double archive_line[2], rule_line[2];

/* Each call gets a fresh copy of the block, in one warm buffer that is not cleared before. */
static void archive_forward(void)
{
    memcpy(warm_bytes, fresh_bytes, CELL * n);
    if (hartley_forward(warm_bytes, CELL * n) != 0)
        fail("the archive's forward refuses");
}

static void archive_backward(void)
{
    memcpy(warm_bytes, fresh_bytes, CELL * n);
    if (hartley_backward(warm_bytes, CELL * n) != 0)
        fail("the archive's backward refuses");
}

static void rule_c_forward(void)
{
    memcpy(warm_cells, fresh_cells, CELL * n);
    if (rule_forward(warm_cells, n) != 0)
        fail("the rule's forward refuses");
}

static void rule_c_backward(void)
{
    memcpy(warm_cells, fresh_cells, CELL * n);
    if (rule_backward(warm_cells, n) != 0)
        fail("the rule's backward refuses");
}

static void archive_power(void)
{
    if (hartley_power(fresh_bytes, CELL * n, line_bytes[0], CELL * (n / 2 + 1)) != 0)
        fail("the archive's power refuses");
}

static void rule_c_power(void)
{
    if (rule_power(fresh_cells, n, line_cells[0], n / 2 + 1) != 0)
        fail("the rule's power refuses");
}

static void archive_parts(void)
{
    size_t bytes = CELL * (n / 2 + 1);
    if (hartley_parts(fresh_bytes, CELL * n, line_bytes[0], bytes, line_bytes[1], bytes) != 0)
        fail("the archive's parts refuse");
}

static void rule_c_parts(void)
{
    if (rule_parts(fresh_cells, n, line_cells[0], line_cells[1], n / 2 + 1) != 0)
        fail("the rule's parts refuse");
}

/* A scaled line: line 1, which is a pair. */
static void archive_scaled(void)
{
    if (hartley_scaled(fresh_bytes, CELL * n, 1, &archive_line[0], &archive_line[1]) != 256 * HARTLEY_PAIR)
        fail("the archive's scaled line refuses");
}

static void rule_c_scaled(void)
{
    if (rule_scaled(fresh_cells, n, 1, &rule_line[0], &rule_line[1]) != 256 * HARTLEY_PAIR)
        fail("the rule's scaled line refuses");
}

#ifdef WITH_FFTW
static fftw_plan plan;

static void make_plan(void)
{
    if (warm_reals == NULL)
        warm_reals = fftw_alloc_real(LARGEST);
    else
        fftw_destroy_plan(plan);
    plan = fftw_plan_r2r_1d((int)n, warm_reals, warm_reals, FFTW_DHT, FFTW_MEASURE);
}

static void fftw_forward(void)
{
    memcpy(warm_reals, fresh_reals, sizeof(double) * n);
    fftw_execute(plan);
}

static void fftw_backward(void)
{
    fftw_forward();
    for (size_t t = 0; t < n; t++)
        warm_reals[t] *= 1.0 / (double)n;
}
#else
static void make_plan(void) {}
static void fftw_forward(void) {}
static void fftw_backward(void) {}
#endif

/* A random whole number of 16 bits, the same in every run. */
static uint16_t noise(void)
{
    static uint64_t x = 88172645463325252u;
    x ^= x << 13;
    x ^= x >> 7;
    x ^= x << 17;
    return (uint16_t)(x >> 40);
}

static void put_cell(uint8_t *at, int64_t cell)
{
    for (int i = 0; i < CELL; i++)
        at[i] = (uint8_t)((uint64_t)cell >> 8 * i);
}

static void set_fresh(size_t t, int64_t cell)
{
    fresh_cells[t] = cell;
    fresh_reals[t] = (double)cell;
    put_cell(fresh_bytes + CELL * t, cell);
}

static void expect_same(const uint8_t *bytes, const int64_t *cells, size_t count)
{
    uint8_t at[CELL];
    for (size_t i = 0; i < count; i++) {
        put_cell(at, cells[i]);
        if (memcmp(at, bytes + CELL * i, CELL) != 0)
            fail("the archive and the rule in C differ");
    }
}

/* FFTW's cells are near to those of the rule in C. */
static void expect_near(double distance)
{
    for (size_t t = 0; FFTW && t < n; t++)
        if (fabs(warm_reals[t] - (double)warm_cells[t]) > distance)
            fail("FFTW and the rule in C differ");
}

/* A fresh block of 2^p cells: random samples for forward, or their spectrum for backward. */
static void set_block(size_t p, int forward)
{
    n = (size_t)1 << p;
    for (size_t t = 0; t < n; t++)
        set_fresh(t, (int64_t)noise() - 32768);
    if (!forward) {
        rule_c_forward();
        for (size_t v = 0; v < n; v++)
            set_fresh(v, warm_cells[v]);
    }
}

/* One direction for all lengths. */
static void time_direction(int forward)
{
    double before = 0;
    for (size_t p = 1; p <= 10; p++) {
        struct contender list[4] = {
            {.call = forward ? archive_forward : archive_backward},
            {.call = forward ? archive_forward : archive_backward},
            {.call = forward ? rule_c_forward : rule_c_backward},
            {.call = forward ? fftw_forward : fftw_backward},
        };
        set_block(p, forward);
        make_plan();
        for (int i = 0; i < 4; i++)
            list[i].call();
        expect_same(warm_bytes, warm_cells, n);
        /* backward has no bound in the papers; 25 is far above what is seen */
        expect_near(forward ? (double)(rule_bound(fresh_cells, n) / 256) + 0.01 : 25);

        measure(list, 3 + FFTW);
        printf("| %zu | %zu |", p, n);
        print_times(list, 3 + FFTW, 1);
        printf(" %.2f |", list[2].ratio);
        if (FFTW)
            printf(" %.2f |", list[3].ratio);
        print_end(list, 3 + FFTW, before);
        before = list[0].best;
    }
}

static void time_blocks(void)
{
    const char *columns = FFTW ? " P | N | archive | C | FFTW | archive/C | archive/FFTW | A/A | spread | growth |"
                               : " P | N | archive | C | archive/C | A/A | spread | growth |";
    printf("\nForward, ns per call (best / median); growth of the archive's best per doubling of N:\n");
    print_head(columns);
    time_direction(1);
    printf("\nBackward, ns per call (best / median); growth of the archive's best per doubling of N:\n");
    print_head(columns);
    time_direction(0);
}

/* Both sides have filled the same lines, of one list or of two, or the same doubles. */
static void expect_same_lines(void)
{
    expect_same(line_bytes[0], line_cells[0], n / 2 + 1);
    expect_same(line_bytes[1], line_cells[1], n / 2 + 1);
    if (memcmp(archive_line, rule_line, sizeof rule_line) != 0)
        fail("the archive and the rule in C differ");
}

static void time_line_call(const char *what, size_t p, void (*archive)(void), void (*c)(void))
{
    struct contender list[3] = {{.call = archive}, {.call = archive}, {.call = c}};
    set_block(p, 0);
    archive();
    c();
    expect_same_lines();
    measure(list, 3);
    printf("| %s | %zu | %zu |", what, p, n);
    print_times(list, 3, 1);
    printf(" %.2f |", list[2].ratio);
    print_end(list, 3, 0);
}

/* Power, parts and a scaled line of a spectrum. */
static void time_lines(void)
{
    static const size_t ps[] = {3, 6, 10};
    printf("\nPower, parts and a scaled line, ns per call (best / median):\n");
    print_head(" call | P | N | archive | C | archive/C | A/A | spread | growth |");
    for (size_t i = 0; i < 3; i++)
        time_line_call("power", ps[i], archive_power, rule_c_power);
    for (size_t i = 0; i < 3; i++)
        time_line_call("parts", ps[i], archive_parts, rule_c_parts);
    for (size_t i = 0; i < 3; i++)
        time_line_call("scaled", ps[i], archive_scaled, rule_c_scaled);
}

/* Traces */

static uint8_t trace[LONGEST + CELL];   /* the last record's six bytes are written as a cell */
static size_t trace_bytes, records;

static void put_record(uint32_t length, uint8_t kind)
{
    uint8_t *at = trace + trace_bytes;
    put_cell(at, length | (int64_t)kind << 32);
    for (uint32_t i = 0; i < length; i++)
        at[6 + i] = (uint8_t)noise();
    trace_bytes += 6 + length;
    records++;
}

/* A trace of so many bytes: a head, as many blocks as fit, notes for the rest, the end. With P 0: notes of 0 bytes. */
static void make_trace(size_t bytes, size_t digits)
{
    size_t block = digits == 0 ? 6 : 6 + ((size_t)2 << digits), room = bytes - 18, blocks = room / block;
    trace_bytes = records = 0;
    put_record(6, HEAD);
    put_cell(trace + 6, 48000 | (int64_t)(digits == 0 ? 1 : digits) << 32);
    if (room % block > 0 && room % block < 6)
        blocks--;
    for (size_t k = 0; k < blocks; k++)
        put_record((uint32_t)block - 6, digits == 0 ? NOTE : BLOCK);
    for (size_t left = room - blocks * block; left > 0; left = bytes - 6 - trace_bytes)
        put_record(left <= 255 ? (uint32_t)left - 6 : 200, NOTE);
    put_record(0, END);
}

static uint64_t answer;

static void archive_check(void)
{
    answer = hartley_check(trace, trace_bytes);
}

static void rule_c_check(void)
{
    answer = rule_check(trace, trace_bytes);
}

static void time_checks(void)
{
    printf("\nCheck, ns per call (best / median); growth of the archive's best per fourfold length:\n");
    print_head(" blocks of P | bytes | records | blocks | archive | C | archive/C | A/A | spread | growth |");
    for (size_t shape = 0; shape < 3; shape++) {
        double before = 0;
        for (size_t bytes = 1024; bytes <= LONGEST; bytes *= 4) {
            struct contender list[3] = {{.call = archive_check}, {.call = archive_check}, {.call = rule_c_check}};
            size_t digits = shape == 0 ? 1 : shape == 1 ? 10 : 0;
            make_trace(bytes, digits);
            archive_check();
            uint64_t first = answer;
            rule_c_check();
            if (first != answer || answer % 256 != 0)
                fail("the archive's check and the one in C differ");
            measure(list, 3);
            if (digits == 0)
                printf("| none |");
            else
                printf("| %zu |", digits);
            printf(" %zu | %zu | %d |", bytes, records, (int)(answer / 65536 % 65536));
            print_times(list, 3, 1);
            printf(" %.2f |", list[2].ratio);
            print_end(list, 3, before);
            before = list[0].best;
        }
    }
}

/* A fetch of the last block. */

static uint8_t block_bytes[CELL * LARGEST];
static int64_t block_cells[LARGEST];
static size_t last_block, block_length;

static void archive_fetch(void)
{
    answer = hartley_fetch(trace, trace_bytes, last_block, block_bytes, CELL * block_length);
}

static void rule_c_fetch(void)
{
    answer = rule_fetch(trace, trace_bytes, last_block, block_cells, block_length);
}

static void rule_c_fetch_words(void)
{
    answer = rule_fetch_words(trace, trace_bytes, last_block, block_cells, block_length);
}

static void time_fetches(void)
{
    static const size_t ps[] = {1, 3, 6, 10};
    printf("\nFetch of the last block, ns per call (best / median):\n");
    print_head(" blocks of P | bytes | records | blocks | archive | C | by words | archive/C | archive/by words | A/A | spread | growth |");
    for (size_t i = 0; i < 8; i++) {
        struct contender list[4] = {{.call = archive_fetch}, {.call = archive_fetch}, {.call = rule_c_fetch},
                                    {.call = rule_c_fetch_words}};
        size_t p = ps[i / 2], bytes = i % 2 == 0 ? 18 + 6 + ((size_t)2 << p) : LONGEST;
        make_trace(bytes, p);
        last_block = rule_check(trace, trace_bytes) / 65536 % 65536 - 1;
        block_length = (size_t)1 << p;
        archive_fetch();
        uint64_t first = answer;
        rule_c_fetch();
        if (first != answer || answer % 256 != 0)
            fail("the archive's fetch and the one in C differ");
        expect_same(block_bytes, block_cells, block_length);
        rule_c_fetch_words();
        if (first != answer)
            fail("the archive's fetch and the one by words in C differ");
        expect_same(block_bytes, block_cells, block_length);
        measure(list, 4);
        printf("| %zu | %zu | %zu | %zu |", p, bytes, records, last_block + 1);
        print_times(list, 4, 1);
        printf(" %.2f | %.2f |", list[2].ratio, list[3].ratio);
        print_end(list, 4, 0);
    }
}

/* The search of a list of powers. Each call takes the next of a few lists, so that none is learnt by heart. */

enum { LINES = LARGEST / 2 + 1, MIDDLE = LARGEST / 4, LISTS = 4 };
enum { NONE = LINES };                          /* the distance where no line is to be found */
enum powers { RANDOM, RISING };
static const int64_t LEVEL = INT64_C(3) << 29;  /* some 20 of LINES random powers reach it */

static uint8_t power_bytes[LISTS][CELL * LINES];
static int64_t power_cells[LISTS][LINES];
static size_t at_list, low_line, high_line, chosen_line;

static size_t next_list(void)
{
    return at_list = (at_list + 1) % LISTS;
}

static void archive_strongest(void)
{
    answer = hartley_strongest(power_bytes[next_list()], CELL * LINES, low_line, high_line);
}

static void rule_c_strongest(void)
{
    answer = rule_strongest(power_cells[next_list()], LINES, low_line, high_line);
}

static void scan_c_strongest(void)
{
    answer = rule_strongest_scan(power_cells[next_list()], LINES, low_line, high_line);
}

static void archive_nearest(void)
{
    answer = hartley_nearest(power_bytes[next_list()], CELL * LINES, chosen_line, LEVEL);
}

static void rule_c_nearest(void)
{
    answer = rule_nearest(power_cells[next_list()], LINES, chosen_line, LEVEL);
}

static void scan_c_nearest(void)
{
    answer = rule_nearest_scan(power_cells[next_list()], LINES, chosen_line, LEVEL);
}

/* The doubled power of a random line. */
static int64_t random_power(void)
{
    int64_t x = (int64_t)noise() - 32768, y = (int64_t)noise() - 32768;
    return x * x + y * y;
}

/* A random power that reaches the level, or one that does not. */
static int64_t power_beside(int reaches)
{
    int64_t power = random_power();
    while ((power >= LEVEL) != reaches)
        power = random_power();
    return power;
}

static void set_power(size_t list, size_t line, int64_t power)
{
    power_cells[list][line] = power;
    put_cell(power_bytes[list] + CELL * line, power);
}

/* Lists for the strongest line. In rising ones each line is stronger than all before it. */
static void set_band(enum powers powers, size_t low, size_t high)
{
    low_line = low;
    high_line = high;
    for (size_t i = 0; i < LISTS; i++)
        for (size_t v = 0; v < LINES; v++)
            set_power(i, v, powers == RISING && v > 0 ? power_cells[i][v - 1] + 1 + noise() : random_power());
}

/* Lists for the nearest line, which is at the distance given, below the chosen one where there is room: no nearer line
   reaches the level, and farther ones are random. Answers what is to be found. */
static uint64_t set_hit(size_t chosen, size_t distance)
{
    const size_t hit = chosen >= distance ? chosen - distance : chosen + distance;
    chosen_line = chosen;
    for (size_t i = 0; i < LISTS; i++)
        for (size_t v = 0; v < LINES; v++) {
            size_t away = v < chosen ? chosen - v : v - chosen;
            set_power(i, v, away > distance ? random_power() : power_beside(v == hit));
        }
    return distance == NONE ? 0 : (uint64_t)hit << 16 | 256;
}

/* What all contenders answer of one list. */
static uint64_t same_answer(const struct contender *list, size_t before)
{
    uint64_t first = 0;
    for (int i = 0; i < 4; i++) {
        at_list = before;
        list[i].call();
        if (i == 0)
            first = answer;
        if (answer != first || answer % 256 != 0)
            fail("the archive and the rule in C differ");
    }
    return first;
}

/* The last columns of a row of four contenders, whose first columns are printed. */
static void time_four(struct contender *list)
{
    measure(list, 4);
    print_times(list, 4, 1);
    printf(" %.2f | %.2f |", list[2].ratio, list[3].ratio);
    print_end(list, 4, 0);
}

static void time_strongest(enum powers powers, size_t low, size_t high)
{
    struct contender list[4] = {
        {.call = archive_strongest},
        {.call = archive_strongest},
        {.call = rule_c_strongest},
        {.call = scan_c_strongest},
    };
    set_band(powers, low, high);
    for (size_t i = 0; i < LISTS; i++)
        same_answer(list, i);
    printf("| strongest, %zu to %zu | %s |", low, high, powers == RISING ? "rising" : "random");
    time_four(list);
}

static void time_nearest(size_t chosen, size_t distance)
{
    struct contender list[4] = {
        {.call = archive_nearest},
        {.call = archive_nearest},
        {.call = rule_c_nearest},
        {.call = scan_c_nearest},
    };
    const uint64_t hit = set_hit(chosen, distance);
    for (size_t i = 0; i < LISTS; i++)
        if (same_answer(list, i) != hit)
            fail("another line is the nearest");
    if (distance == NONE)
        printf("| nearest to %zu | none |", chosen);
    else
        printf("| nearest to %zu | at distance %zu |", chosen, distance);
    time_four(list);
}

/* The strongest line of the whole list and of 17 lines; the nearest to the middle and to line 0. */
static void time_searches(void)
{
    static const size_t distances[] = {0, 16, 256, NONE};
    printf("\nSearch of 513 powers, ns per call (best / median); scan is a plain one in C, line by line:\n");
    print_head(" search | powers | archive | C | scan | archive/C | archive/scan | A/A | spread | growth |");
    for (enum powers powers = RANDOM; powers <= RISING; powers++) {
        time_strongest(powers, 0, LINES - 1);
        time_strongest(powers, MIDDLE - 8, MIDDLE + 8);
    }
    for (size_t i = 0; i < 4; i++)
        time_nearest(MIDDLE, distances[i]);
    for (size_t i = 0; i < 4; i++)
        time_nearest(0, distances[i]);
}

/* Saving: all read the same cells and write to the same bytes, of which there are enough for any trace. */

static int64_t run_cells[LONGEST / 2];
static size_t run_p, run_count;

static void archive_save(void)
{
    answer = hartley_save(48000, run_p, (const uint8_t *)run_cells, CELL * run_count, trace, LONGEST);
}

static void rule_c_save(void)
{
    answer = rule_save(48000, run_p, run_cells, run_count, trace, LONGEST);
}

static void plain_c_save(void)
{
    answer = rule_save_plain(48000, run_p, run_cells, run_count, trace, LONGEST);
}

/* A run of random samples, of so many blocks of 2^p. */
static void set_run(size_t p, size_t blocks)
{
    run_p = p;
    run_count = blocks << p;
    for (size_t t = 0; t < run_count; t++)
        run_cells[t] = (int64_t)noise() - 32768;
}

/* All contenders answer and write the same, and keep the bytes past the trace. */
static void expect_same_trace(const struct contender *list)
{
    static uint8_t first_trace[LONGEST];
    uint64_t first = 0;
    for (int i = 0; i < 4; i++) {
        memset(trace, 0xa5, LONGEST);
        list[i].call();
        if (i == 0) {
            first = answer;
            memcpy(first_trace, trace, LONGEST);
        }
        if (answer != first || answer % 256 != 0 || memcmp(trace, first_trace, LONGEST) != 0)
            fail("the archive's save and the one in C differ");
    }
}

static void time_save(size_t p, size_t blocks)
{
    struct contender list[4] = {
        {.call = archive_save},
        {.call = archive_save},
        {.call = rule_c_save},
        {.call = plain_c_save},
    };
    set_run(p, blocks);
    expect_same_trace(list);
    printf("| %zu | %zu | %zu | %d |", p, (size_t)1 << p, blocks, (int)(answer / 256));
    time_four(list);
}

/* One block, 31, and the most that a trace has room for, which is 31 where P is 10. */
static void time_saves(void)
{
    static const size_t ps[] = {1, 3, 6, 10};
    printf("\nSave, ns per call (best / median); plain is one in C, cell by cell:\n");
    print_head(" P | N | blocks | bytes | archive | C | plain | archive/C | archive/plain | A/A | spread | growth |");
    for (size_t i = 0; i < 4; i++) {
        const size_t most = (LONGEST - 18) / (6 + ((size_t)2 << ps[i]));
        time_save(ps[i], 1);
        time_save(ps[i], 31);
        if (most > 31)
            time_save(ps[i], most);
    }
}

/* Bounds: all read the same cells. Each call takes the next of a few blocks. */

static int64_t sample_cells[LISTS][LARGEST];

static void archive_bound(void)
{
    answer = hartley_bound((const uint8_t *)sample_cells[next_list()], CELL * n);
}

static void rule_c_bound(void)
{
    answer = rule_bound(sample_cells[next_list()], n);
}

static void plain_c_bound(void)
{
    answer = rule_bound_plain(sample_cells[next_list()], n);
}

/* Blocks of random samples of 2^p cells. */
static void time_bound(size_t p)
{
    struct contender list[4] = {
        {.call = archive_bound},
        {.call = archive_bound},
        {.call = rule_c_bound},
        {.call = plain_c_bound},
    };
    n = (size_t)1 << p;
    for (size_t i = 0; i < LISTS; i++)
        for (size_t t = 0; t < n; t++)
            sample_cells[i][t] = (int64_t)noise() - 32768;
    for (size_t i = 0; i < LISTS; i++)
        same_answer(list, i);
    printf("| %zu | %zu |", p, n);
    time_four(list);
}

static void time_bounds(void)
{
    static const size_t ps[] = {3, 6, 10};
    printf("\nBound, ns per call (best / median); plain is one in C, cell by cell:\n");
    print_head(" P | N | archive | C | plain | archive/C | archive/plain | A/A | spread | growth |");
    for (size_t i = 0; i < 3; i++)
        time_bound(ps[i]);
}

/* Smoothing: each call gets a fresh copy of the block, as forward does. All read the same weights. */

static int64_t weight_cells[LARGEST];

static void archive_smooth(void)
{
    memcpy(warm_bytes, fresh_bytes, CELL * n);
    if (hartley_smooth(warm_bytes, CELL * n, (const uint8_t *)weight_cells, CELL * n) != 0)
        fail("the archive's smoothing refuses");
}

static void plain_c_smooth(void)
{
    memcpy(warm_cells, fresh_cells, CELL * n);
    if (rule_smooth_plain(warm_cells, n, weight_cells, n) != 0)
        fail("the plain smoothing refuses");
}

static void scattered_c_smooth(void)
{
    memcpy(warm_cells, fresh_cells, CELL * n);
    if (rule_smooth_scattered(warm_cells, n, weight_cells, n) != 0)
        fail("the scattered smoothing refuses");
}

static void narrowed_c_smooth(void)
{
    memcpy(warm_cells, fresh_cells, CELL * n);
    if (rule_smooth_narrowed(warm_cells, n, weight_cells, n) != 0)
        fail("the narrowed smoothing refuses");
}

/* A fresh block of 2^p random samples, and as many random weights: each may have its share of 32,767, of either sign. */
static void set_smoothing(size_t p)
{
    set_block(p, 1);
    const int64_t share = INT16_MAX / (int64_t)n;
    for (size_t i = 0; i < n; i++)
        weight_cells[i] = noise() % (2 * share + 1) - share;
}

static void time_smooths(void)
{
    double before = 0;
    printf("\nSmooth, ns per call (best / median); C is the better of plain and scattered; growth of the archive's best per doubling"
           " of N:\n");
    print_head(" P | N | archive | plain | scattered | narrowed | archive/C | C/archive | archive/narrowed | A/A | spread | growth |");
    for (size_t p = 1; p <= 10; p++) {
        struct contender list[5] = {
            {.call = archive_smooth},
            {.call = archive_smooth},
            {.call = plain_c_smooth},
            {.call = scattered_c_smooth},
            {.call = narrowed_c_smooth},
        };
        set_smoothing(p);
        archive_smooth();
        for (int i = 2; i < 5; i++) {
            list[i].call();
            expect_same(warm_bytes, warm_cells, n);
        }
        measure(list, 5);
        const double ratio = fmax(list[2].ratio, list[3].ratio);
        printf("| %zu | %zu |", p, n);
        print_times(list, 5, 1);
        printf(" %.2f | %.2f | %.2f |", ratio, 1 / ratio, list[4].ratio);
        print_end(list, 5, before);
        before = list[0].best;
    }
}

/* Instructions */

/* Calls one contender so many times. */
static void call_only(const char *name, const char *side, size_t p, long times)
{
    static const struct { const char *name, *side; void (*call)(void); } counted[] = {
        {"forward", "archive", archive_forward},
        {"forward", "C", rule_c_forward},
        {"backward", "archive", archive_backward},
        {"backward", "C", rule_c_backward},
        {"smooth", "archive", archive_smooth},
        {"smooth", "plain", plain_c_smooth},
        {"smooth", "scattered", scattered_c_smooth},
        {"smooth", "narrowed", narrowed_c_smooth},
    };
    if (strcmp(name, "smooth") == 0)
        set_smoothing(p);
    else
        set_block(p, strcmp(name, "forward") == 0);
    for (size_t k = 0; k < sizeof counted / sizeof counted[0]; k++)
        if (strcmp(counted[k].name, name) == 0 && strcmp(counted[k].side, side) == 0) {
            for (long i = 0; i < times; i++)
                counted[k].call();
            return;
        }
    fail("no such contender");
}

/* Listings */

static char trace_path[4096], text_path[2][4096];
static char *list_program, *lister_program, *empty_program;

/* Runs a program on the trace, its output going to a file. */
static void run(char *program, const char *out)
{
    extern char **environ;
    char *words[] = {program, NULL};
    posix_spawn_file_actions_t files;
    pid_t child;
    int status;
    posix_spawn_file_actions_init(&files);
    posix_spawn_file_actions_addopen(&files, 0, trace_path, O_RDONLY, 0);
    posix_spawn_file_actions_addopen(&files, 1, out, O_WRONLY | O_CREAT | O_TRUNC, 0600);
    if (posix_spawn(&child, program, &files, NULL, words, environ) != 0 || waitpid(child, &status, 0) != child || status != 0)
        fail(program);
    posix_spawn_file_actions_destroy(&files);
}

static void run_list(void)
{
    run(list_program, "/dev/null");
}

static void run_lister(void)
{
    run(lister_program, "/dev/null");
}

static void run_empty(void)
{
    run(empty_program, "/dev/null");
}

static void write_trace(const char *path)
{
    FILE *file = fopen(path, "wb");
    if (file == NULL || fwrite(trace, 1, trace_bytes, file) != trace_bytes || fclose(file) != 0)
        fail(path);
}

/* Both programs print the same text; answers its bytes. */
static size_t same_text(void)
{
    run(list_program, text_path[0]);
    run(lister_program, text_path[1]);
    FILE *one = fopen(text_path[0], "rb"), *two = fopen(text_path[1], "rb");
    if (one == NULL || two == NULL)
        fail("no listing");
    size_t bytes = 0;
    for (int x = getc(one), y = getc(two); x != EOF || y != EOF; x = getc(one), y = getc(two), bytes++)
        if (x != y)
            fail("the listing program and the one in C differ");
    fclose(one);
    fclose(two);
    return bytes;
}

static void time_listings(void)
{
    printf("\nList, the whole program as a process, us per run (best / median); growth of list's best per doubled length:\n");
    print_head(" blocks of P | bytes | blocks | printed bytes | list | C | empty process | list/C | (list - empty)/(C - empty) |"
               " A/A | spread | growth |");
    for (size_t digits = 1; digits <= 10; digits += digits == 1 ? 4 : 5) {
        double before = 0;
        for (size_t bytes = 4096; bytes <= LONGEST; bytes *= 2) {
            struct contender list[4] = {{.call = run_list}, {.call = run_list}, {.call = run_lister}, {.call = run_empty}};
            make_trace(bytes, digits);
            write_trace(trace_path);
            size_t printed = same_text();
            measure(list, 4);
            printf("| %zu | %zu | %d | %zu |", digits, bytes, (int)(rule_check(trace, trace_bytes) / 65536 % 65536), printed);
            print_times(list, 4, 1000);
            printf(" %.2f | %.2f |", list[2].ratio, (list[0].best - list[3].best) / (list[2].best - list[3].best));
            print_end(list, 4, before);
            before = list[0].best;
        }
    }
}

/* The table: all fill the same cells. */

static int64_t table_cells[HARTLEY_TABLE_CELLS];

static void archive_table(void)
{
    answer = hartley_table((uint8_t *)table_cells, sizeof table_cells);
}

static void rule_c_table(void)
{
    rule_table(table_cells);
}

static void plain_c_table(void)
{
    rule_table_plain(table_cells);
}

static void time_table(void)
{
    struct contender list[4] = {
        {.call = archive_table},
        {.call = archive_table},
        {.call = rule_c_table},
        {.call = plain_c_table},
    };
    int64_t right[HARTLEY_TABLE_CELLS];
    archive_table();
    memcpy(right, table_cells, sizeof right);
    for (int i = 2; i < 4; i++) {
        memset(table_cells, 0, sizeof table_cells);
        list[i].call();
        if (answer != 0 || memcmp(table_cells, right, sizeof right) != 0)
            fail("another table");
    }
    printf("\nTable, ns per call (best / median); plain is one in C that keeps no cosine:\n");
    print_head(" archive | C | plain | archive/C | archive/plain | A/A | spread | growth |");
    printf("|");
    time_four(list);
}

int main(int count, char **words)
{
    rule_tables();
    if (count == 6 && strcmp(words[1], "calls") == 0) {
        call_only(words[2], words[3], (size_t)atoi(words[4]), atol(words[5]));
        return 0;
    }
    if (count == 4 && strcmp(words[1], "trace") == 0) {
        make_trace(LONGEST, (size_t)atoi(words[2]));
        write_trace(words[3]);
        return 0;
    }
    if (count != 5)
        fail("usage: bench FOLDER LIST LISTER EMPTY | bench calls CALL SIDE P TIMES | bench trace P FILE");
    snprintf(trace_path, sizeof trace_path, "%s/trace", words[1]);
    snprintf(text_path[0], sizeof text_path[0], "%s/text_0", words[1]);
    snprintf(text_path[1], sizeof text_path[1], "%s/text_1", words[1]);
    list_program = words[2];
    lister_program = words[3];
    empty_program = words[4];
    time_blocks();
    time_lines();
    time_checks();
    time_fetches();
    time_listings();
    time_searches();    /* these five last, so that the random inputs of the others stay those of earlier runs */
    time_saves();
    time_bounds();
    time_smooths();
    time_table();
    printf("\nA/A, the same contender timed twice, was from %.2f to %.2f in this run.\n", lowest, highest);
    return 0;
}
