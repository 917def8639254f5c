/*
 * Holds what hartley.h says of stack and of threads. Usage: stack_and_threads TRACE ..
 *
 * Stack: each entry is called on a stack of its own, which is painted before. The deepest byte that has lost its paint
 * tells what the call took, with some bytes of the function here that makes it. None may take more than
 * HARTLEY_STACK_BYTES.
 *
 * Threads: four go through all traces at once, each from another trace on, and must find what one alone has found.
 *
 * Prints the most that each entry took; or what went wrong, with exit status 1.
 */
#define _DEFAULT_SOURCE

#include "hartley.h"

#include <pthread.h>
#include <stdio.h>
#include <stdlib.h>
#include <string.h>
#include <sys/mman.h>
#include <ucontext.h>

#define COUNT(rows) (sizeof(rows) / sizeof(rows)[0])

enum { CELL = HARTLEY_CELL_BYTES, LARGEST = HARTLEY_LARGEST_BLOCK, LONGEST = HARTLEY_LONGEST_TRACE, LOUDEST = 1 << 28 };
enum { STACK = 4 * HARTLEY_STACK_BYTES, GUARD = 1 << 20, PAINT = 0xa5 };
enum { THREADS = 4, ROUNDS = 200, BLOCKS_TRIED = 50 };

/* Those up to TABLE can refuse. */
enum entry {
    FORWARD, BOUND, BACKWARD, PARTS, POWER, SCALED, SMOOTH, STRONGEST, NEAREST, CHECK, FETCH,
    SAVE, TABLE, NUMBER, PLACE, DISTANCE, CASE, FOUND, LINE, RATE, P, BLOCKS, USED, VERSION
};
static const char *const names[] = {
    "forward", "bound", "backward", "parts", "power", "scaled", "smooth", "strongest", "nearest", "check", "fetch",
    "save", "table", "number", "place", "distance", "case", "found", "line", "rate", "p", "blocks", "used", "version"
};

static struct trace { uint8_t *bytes; size_t count; uint64_t sum; } *traces;
static size_t trace_count;

static _Noreturn void fail(const char *what, const char *which)
{
    fflush(stdout);
    fprintf(stderr, "stack_and_threads: failed: %s: %s\n", what, which);
    exit(1);
}

static void read_trace(struct trace *trace, const char *name)
{
    FILE *file = fopen(name, "rb");
    trace->bytes = malloc(HARTLEY_LONGEST_TRACE + 1);
    if (file == NULL || trace->bytes == NULL)
        fail("cannot be read", name);
    trace->count = fread(trace->bytes, 1, HARTLEY_LONGEST_TRACE + 1, file);
    fclose(file);
}

/* Stack */

static uint8_t *stack;                      /* its lowest byte; GUARD bytes below it that nobody may touch */
static ucontext_t here, on_stack;
static size_t most[COUNT(names)];           /* what each entry took at most */
static int met[TABLE + 1][2];               /* whether each that can refuse has accepted, and has refused */

/* What the next call is lent: the cells or the trace, the weights, outputs of one size, the line, the band's ends or
   the block asked for, the level, and the rate and P of a trace that is saved. */
static struct {
    enum entry entry;
    size_t cells_bytes, weights_bytes, output_bytes, index, high, rate, p;
    int64_t level;
    struct trace trace;
} lent;
static int64_t cells[LONGEST / 2 + 1], weights[2 * LARGEST], first[LARGEST], second[LARGEST];
static uint8_t saved[LONGEST];
static double real, imaginary;
static uint64_t answer;

static uint64_t called(void)
{
    uint8_t *const given = (uint8_t *)cells, *const one = (uint8_t *)first, *const two = (uint8_t *)second;
    const size_t given_bytes = lent.cells_bytes, bytes = lent.output_bytes;
    switch (lent.entry) {
    case FORWARD:
        return hartley_forward(given, given_bytes);
    case BOUND:
        return hartley_bound(given, given_bytes);
    case BACKWARD:
        return hartley_backward(given, given_bytes);
    case PARTS:
        return hartley_parts(given, given_bytes, one, bytes, two, bytes);
    case POWER:
        return hartley_power(given, given_bytes, one, bytes);
    case SCALED:
        return hartley_scaled(given, given_bytes, lent.index, &real, &imaginary);
    case SMOOTH:
        return hartley_smooth(given, given_bytes, (const uint8_t *)weights, lent.weights_bytes);
    case STRONGEST:
        return hartley_strongest(given, given_bytes, lent.index, lent.high);
    case NEAREST:
        return hartley_nearest(given, given_bytes, lent.index, lent.level);
    case CHECK:
        return hartley_check(lent.trace.bytes, lent.trace.count);
    case FETCH:
        return hartley_fetch(lent.trace.bytes, lent.trace.count, lent.index, one, bytes);
    case SAVE:
        return hartley_save(lent.rate, lent.p, given, given_bytes, saved, bytes);
    case TABLE:
        return hartley_table(given, given_bytes);
    case NUMBER:
        return hartley_number(answer);
    case PLACE:
        return hartley_place(answer);
    case DISTANCE:
        return hartley_distance(answer);
    case CASE:
        return hartley_case(answer);
    case FOUND:
        return hartley_found(answer);
    case LINE:
        return hartley_line(answer);
    case RATE:
        return hartley_rate(answer);
    case P:
        return hartley_p(answer);
    case BLOCKS:
        return hartley_blocks(answer);
    case USED:
        return hartley_used(answer);
    default:
        return hartley_version();
    }
}

static void call(void)
{
    answer = called();
}

/* Makes the call on the painted stack. */
static void measure(enum entry entry)
{
    lent.entry = entry;
    memset(stack, PAINT, STACK);
    if (getcontext(&on_stack) != 0)
        fail("no stack of its own", names[entry]);
    on_stack.uc_stack.ss_sp = stack;
    on_stack.uc_stack.ss_size = STACK;
    on_stack.uc_link = &here;
    makecontext(&on_stack, call, 0);
    if (swapcontext(&here, &on_stack) != 0)
        fail("no stack of its own", names[entry]);
    size_t left = 0;
    while (left < STACK && stack[left] == PAINT)
        left++;
    if (STACK - left > most[entry])
        most[entry] = STACK - left;
    if (entry <= TABLE)
        met[entry][hartley_number(answer) != HARTLEY_OK] = 1;
}

/* The calls on a block of so many bytes, with outputs for n cells: cells 1, 2, 3 and so on, but the last. */
static void measure_block(size_t bytes, int64_t last, size_t n, size_t output_bytes)
{
    const size_t lines[] = {0, 1, n / 2, n / 2 + 1};
    lent.cells_bytes = bytes;
    lent.output_bytes = output_bytes;
    for (enum entry entry = FORWARD; entry <= POWER; entry++) {
        for (size_t t = 0; t < bytes / CELL; t++)
            cells[t] = t + 1 < bytes / CELL ? (int64_t)t + 1 : last;
        measure(entry);
    }
    cells[0] = 1;
    for (size_t i = 0; i < COUNT(lines); i++) {
        lent.index = lines[i];
        measure(SCALED);
    }
}

/* Blocks of every P and of no P, accepted, too loud, with a byte more, with outputs that do not fit. */
static void measure_blocks(void)
{
    static const int64_t last[] = {1, -32768, 32768, LOUDEST, LOUDEST + 1};
    static const size_t no_block[] = {0, CELL, 3 * CELL, 2 * LARGEST * CELL};
    for (size_t n = 2; n <= LARGEST; n *= 2)
        for (size_t i = 0; i < COUNT(last); i++) {
            measure_block(n * CELL, last[i], n, (n / 2 + 1) * CELL);
            measure_block(n * CELL + 1, last[i], n, (n / 2 + 1) * CELL);
            measure_block(n * CELL, last[i], n, n / 2 * CELL);
        }
    for (size_t i = 0; i < COUNT(no_block); i++)
        measure_block(no_block[i], 1, LARGEST, (LARGEST / 2 + 1) * CELL);
}

/* A block of so many bytes smoothed, of cells 1, 2, 3 and so on, but the last, by weights 31, but the last. */
static void measure_smooth(size_t bytes, int64_t last, size_t weights_bytes, int64_t last_weight)
{
    lent.cells_bytes = bytes;
    lent.weights_bytes = weights_bytes;
    for (size_t t = 0; t < bytes / CELL; t++)
        cells[t] = t + 1 < bytes / CELL ? (int64_t)t + 1 : last;
    for (size_t i = 0; i < weights_bytes / CELL; i++)
        weights[i] = i + 1 < weights_bytes / CELL ? 31 : last_weight;
    measure(SMOOTH);
}

/* Blocks of every P and of no P: accepted, too loud, with a byte more, with weights that do not fit, and with weights
   that add to too much. */
static void measure_smooths(void)
{
    static const size_t no_block[] = {0, CELL, 3 * CELL, 2 * LARGEST * CELL};
    for (size_t n = 2; n <= LARGEST; n *= 2) {
        measure_smooth(n * CELL, -32768, n * CELL, -31);
        measure_smooth(n * CELL, 32768, n * CELL, -31);
        measure_smooth(n * CELL + 1, 1, n * CELL, 1);
        measure_smooth(n * CELL, 1, n * CELL + 1, 1);
        measure_smooth(n * CELL, 1, n / 2 * CELL, 1);
        measure_smooth(n * CELL, 1, n * CELL, 32768);
        measure_smooth(n * CELL, 1, n * CELL, INT64_MIN);
    }
    for (size_t i = 0; i < COUNT(no_block); i++)
        measure_smooth(no_block[i], 1, no_block[i], 1);
}

/* The searches of a list of so many bytes, of powers 1, 2, 3 and so on: with lines that it has and lines that it has
   not, in every order, and levels that all lines reach, or the last alone, or none. */
static void measure_list(size_t bytes)
{
    const size_t count = bytes / CELL, lines[] = {0, count / 2, count - 1, count, SIZE_MAX};
    const int64_t levels[] = {INT64_MIN, (int64_t)count, INT64_MAX};
    lent.cells_bytes = bytes;
    for (size_t v = 0; v < count; v++)
        cells[v] = (int64_t)v + 1;
    for (size_t i = 0; i < COUNT(lines); i++) {
        lent.index = lines[i];
        for (size_t j = 0; j < COUNT(lines); j++) {
            lent.high = lines[j];
            measure(STRONGEST);
        }
        for (size_t j = 0; j < COUNT(levels); j++) {
            lent.level = levels[j];
            measure(NEAREST);
        }
    }
}

/* Lists for every P, with a byte more, and of no P. */
static void measure_lists(void)
{
    static const size_t no_list[] = {0, CELL, 4 * CELL, LARGEST * CELL, (LARGEST + 1) * CELL};
    for (size_t n = 2; n <= LARGEST; n *= 2) {
        measure_list((n / 2 + 1) * CELL);
        measure_list((n / 2 + 1) * CELL + 1);
    }
    for (size_t i = 0; i < COUNT(no_list); i++)
        measure_list(no_list[i]);
}

/* A trace: the check; and its first, last and absent block, with cells that fit and cells that do not. */
static void measure_trace(const struct trace *trace)
{
    lent.trace = *trace;
    measure(CHECK);
    size_t accepted = hartley_number(answer) == HARTLEY_OK;
    size_t n = accepted ? (size_t)1 << hartley_p(answer) : LARGEST, blocks = accepted ? hartley_blocks(answer) : 1;
    const size_t asked[] = {0, blocks - (blocks > 0), blocks, SIZE_MAX};
    for (size_t i = 0; i < COUNT(asked); i++)
        for (size_t less = 0; less <= n; less += n / 2) {
            lent.index = asked[i];
            lent.output_bytes = (n - less) * CELL;
            measure(FETCH);
        }
}

/* A run of so many bytes saved, of cells 1, 2, 3 and so on, but the last: with room for any trace, and with none. */
static void measure_save(size_t rate, size_t bytes, int64_t last)
{
    lent.rate = rate;
    lent.cells_bytes = bytes;
    for (size_t t = 0; t < bytes / CELL; t++)
        cells[t] = t + 1 < bytes / CELL ? (int64_t)t + 1 : last;
    lent.output_bytes = LONGEST;
    measure(SAVE);
    lent.output_bytes = 0;
    measure(SAVE);
}

/* Runs for every P, and for 0 and 11: of no block, of one, of the most that a trace has room for, and of one more;
   accepted, too loud, with a byte more, and with rate 0. */
static void measure_saves(void)
{
    for (lent.p = 0; lent.p <= 11; lent.p++) {
        const size_t n = (size_t)1 << lent.p, most_blocks = (LONGEST - 18) / (6 + 2 * n);
        const size_t blocks[] = {0, 1, most_blocks, most_blocks + 1};
        for (size_t i = 0; i < COUNT(blocks); i++) {
            measure_save(8000, blocks[i] * n * CELL, -32768);
            measure_save(8000, blocks[i] * n * CELL, 32768);
            measure_save(8000, blocks[i] * n * CELL + 1, 1);
            measure_save(0, blocks[i] * n * CELL, 1);
        }
    }
}

/* The table in as many cells as it has, and in fewer, in more, and in other bytes. */
static void measure_tables(void)
{
    static const size_t counts[] = {HARTLEY_TABLE_CELLS * CELL, 0, HARTLEY_TABLE_CELLS * CELL - 1, LARGEST * CELL};
    for (size_t i = 0; i < COUNT(counts); i++) {
        lent.cells_bytes = counts[i];
        measure(TABLE);
    }
}

static void measure_all(void)
{
    uint8_t *room = mmap(NULL, GUARD + STACK, PROT_NONE, MAP_PRIVATE | MAP_ANONYMOUS, -1, 0);
    if (room == MAP_FAILED || mprotect(room + GUARD, STACK, PROT_READ | PROT_WRITE) != 0)
        fail("no memory", "stack");
    stack = room + GUARD;
    measure_blocks();
    measure_smooths();
    measure_lists();
    for (size_t i = 0; i < trace_count; i++)
        measure_trace(&traces[i]);
    measure_saves();
    measure_tables();
    for (enum entry entry = NUMBER; entry <= VERSION; entry++)
        measure(entry);
    for (enum entry entry = FORWARD; entry <= TABLE; entry++)
        if (!met[entry][0] || !met[entry][1])
            fail("has not both accepted and refused", names[entry]);
    for (enum entry entry = FORWARD; entry <= VERSION; entry++)
        printf("hartley_%s %zu\n", names[entry], most[entry]);
    for (enum entry entry = FORWARD; entry <= VERSION; entry++)
        if (most[entry] > HARTLEY_STACK_BYTES)
            fail("more stack than HARTLEY_STACK_BYTES", names[entry]);
}

/* Threads */

static pthread_barrier_t all_here;

static uint64_t with_cells(uint64_t sum, const int64_t *list, size_t count)
{
    for (size_t i = 0; i < count; i++)
        sum = 31 * sum + (uint64_t)list[i];
    return sum;
}

static uint64_t with_bytes(uint64_t sum, const uint8_t *list, size_t count)
{
    for (size_t i = 0; i < count; i++)
        sum = 31 * sum + list[i];
    return sum;
}

/* The sum, and with it what saving a block as a trace of its own answers and leaves. */
static uint64_t with_save(uint64_t sum, uint64_t checked, const int64_t *block, size_t n)
{
    const size_t rate = hartley_rate(checked), p = hartley_p(checked), bytes = 18 + 6 + 2 * n;
    uint8_t own[18 + 6 + 2 * LARGEST];
    memset(own, 0, bytes);
    sum = 31 * sum + hartley_save(rate, p, (const uint8_t *)block, n * CELL, own, bytes);
    return with_bytes(sum, own, bytes);
}

/* The sum, and with it what smoothing a copy of a block answers and leaves. The weights are cut from the samples, so
   that their magnitudes never add to too much. */
static uint64_t with_smooth(uint64_t sum, const int64_t *block, size_t n)
{
    int64_t own[LARGEST], own_weights[LARGEST];
    for (size_t t = 0; t < n; t++) {
        own[t] = block[t];
        own_weights[t] = block[t] % 32;
    }
    sum = 31 * sum + hartley_smooth((uint8_t *)own, n * CELL, (const uint8_t *)own_weights, n * CELL);
    return with_cells(with_cells(sum, own, n), own_weights, n);
}

/* The sum, and with it what the call for the table answers and leaves. */
static uint64_t with_table(uint64_t sum)
{
    int64_t own[HARTLEY_TABLE_CELLS];
    sum = 31 * sum + hartley_table((uint8_t *)own, sizeof own);
    return with_cells(sum, own, HARTLEY_TABLE_CELLS);
}

/* A sum over all that check, fetch, save, smooth, bound, forward, power and the searches answer and leave, for some
   blocks of a trace, and over the table. */
static uint64_t sum_of(const struct trace *trace)
{
    int64_t block[LARGEST], powers[LARGEST / 2 + 1];
    const uint64_t checked = hartley_check(trace->bytes, trace->count);
    uint64_t sum = with_table(checked);
    if (hartley_number(checked) != HARTLEY_OK)
        return sum;
    size_t n = (size_t)1 << hartley_p(checked), lines = n / 2 + 1, blocks = hartley_blocks(checked);
    for (size_t k = 0; k < blocks; k += 1 + blocks / BLOCKS_TRIED) {
        sum = 31 * sum + hartley_fetch(trace->bytes, trace->count, k, (uint8_t *)block, n * CELL);
        sum = with_cells(sum, block, n);
        sum = with_save(sum, checked, block, n);
        sum = with_smooth(sum, block, n);
        sum = 31 * sum + hartley_bound((uint8_t *)block, n * CELL);
        sum = with_cells(sum, block, n);
        sum = 31 * sum + hartley_forward((uint8_t *)block, n * CELL);
        sum = with_cells(sum, block, n);
        sum = 31 * sum + hartley_power((uint8_t *)block, n * CELL, (uint8_t *)powers, lines * CELL);
        sum = with_cells(sum, powers, lines);
        sum = 31 * sum + hartley_strongest((uint8_t *)powers, lines * CELL, 1, n / 2);
        sum = 31 * sum + hartley_nearest((uint8_t *)powers, lines * CELL, n / 4, powers[n / 2]);
    }
    return sum;
}

/* Goes through all traces ROUNDS times, from the given one on. Answers that one, or NULL where a sum is another. */
static void *go_through(void *from)
{
    const size_t start = (size_t)((struct trace *)from - traces);
    pthread_barrier_wait(&all_here);
    for (size_t i = start; i < start + ROUNDS * trace_count; i++)
        if (sum_of(&traces[i % trace_count]) != traces[i % trace_count].sum)
            return NULL;
    return from;
}

static void go_at_once(void)
{
    pthread_t threads[THREADS];
    int right = 1;
    for (size_t i = 0; i < trace_count; i++)
        traces[i].sum = sum_of(&traces[i]);
    pthread_barrier_init(&all_here, NULL, THREADS);
    for (size_t i = 0; i < THREADS; i++)
        if (pthread_create(&threads[i], NULL, go_through, &traces[i * trace_count / THREADS]) != 0)
            fail("no thread", "pthread_create");
    for (size_t i = 0; i < THREADS; i++) {
        void *result = NULL;
        pthread_join(threads[i], &result);
        right = right && result != NULL;
    }
    if (!right)
        fail("other results", "four threads at once");
}

int main(int count, char **arguments)
{
    trace_count = (size_t)count - 1;
    traces = calloc(trace_count, sizeof *traces);
    if (trace_count < THREADS || traces == NULL)
        fail("usage", "stack_and_threads TRACE .., four traces at least");
    for (size_t i = 0; i < trace_count; i++)
        read_trace(&traces[i], arguments[i + 1]);
    measure_all();
    go_at_once();
    return 0;
}
