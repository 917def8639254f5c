/*
 * The spectrum engine of the crispness bench, its quarter table, and the calls that read and save its traces, for hosts
 * in C. demo.c begins with one whole use.
 *
 * Link with libhartley.a. It is for System V x86-64 in ELF, and needs nothing but the C library.
 *
 * Lent: a call reads and writes only what it is lent, and keeps nothing between calls. A cell is eight bytes, two's
 * complement, least byte first, at any address. So an array of int64_t can be lent as it is, cast to uint8_t *, on a
 * little-endian machine, and x86-64 is one. Every count is one of bytes, not of cells.
 *
 * The host owes four things: no pointer is null, not even with a count of 0; as many bytes are lent as the count says;
 * nothing that is lent to be written overlaps anything else lent to the same call; and the two doubles of
 * hartley_scaled are aligned as any double. All else a call tests itself. It ends, whatever it is given. Where it
 * refuses, all that is lent is as it was.
 *
 * Answers: each is one number, and hartley_number reads from it whether the call has refused. Test hartley_number and
 * not the answer: an accepted check, fetch, save or scaled line is not 0, nor is a line that was found, nor a bound
 * where P is above 2.
 *
 * Threads: calls are safe from several threads at once. Until a call has answered, no other thread touches what it is
 * lent to write, or writes what it is lent to read.
 *
 * Stack: no call takes more than HARTLEY_STACK_BYTES. This is measured and not proved.
 *
 * Version: header and archive may be of different days, so a host compares hartley_version() with HARTLEY_VERSION at
 * its start. docs/CHANGES.md says what has changed. Version 2 has two calls more, hartley_strongest and
 * hartley_nearest, and two that read their answers, hartley_found and hartley_line; all of version 1 is as it was. In
 * version 3 the refusals 17, 18 and 19 stand where 13, order, stood. 13 is no longer given, and its name is gone. A
 * host that asked for 13 asks for the three: where it used the name the compiler says so, where it wrote the number
 * only the version does. Which traces are accepted, all places and every other answer are as they were in version 2.
 * Version 4 has one call more, hartley_save, and one that reads its answer, hartley_used; all of version 3 is as it
 * was. Version 5 has one call more, hartley_bound, and one that reads its answer, hartley_distance; all of version 4 is
 * as it was, and forward keeps within the bound, which is at most what it kept within before. Version 6 has one call
 * more, hartley_smooth, and one refusal more, 20; all of version 5 is as it was. Smoothing takes more stack than the
 * others, so HARTLEY_STACK_BYTES is 40,960, where it was 32,768. hartley_table came after that and is not counted
 * yet; all of version 6 is as it was.
 */
#ifndef HARTLEY_H
#define HARTLEY_H

#include <stddef.h>
#include <stdint.h>

/* Counts one up with every new call, and every change to a signature, an answer or a refusal. */
#define HARTLEY_VERSION 6
/* The bytes of a cell. */
#define HARTLEY_CELL_BYTES 8
/* The largest block, in cells. Parts and powers have HARTLEY_LARGEST_BLOCK / 2 + 1 at most. */
#define HARTLEY_LARGEST_BLOCK 1024
/* The quarter table, in cells: T(0) to T(256). */
#define HARTLEY_TABLE_CELLS 257
/* The longest trace, in bytes. A host that reads a file makes room for one byte more, so that a longer file is refused
   (10) and not cut short. A host that saves a trace lends so many bytes, and they are never too few (2). */
#define HARTLEY_LONGEST_TRACE 65536
/* The stack that a call takes at most, in bytes, with what the C library takes for it. */
#define HARTLEY_STACK_BYTES 40960

#ifdef __cplusplus
extern "C" {
#endif

/*
 * Refused input. Block calls, and the searches strongest and nearest, test 1, 2, 3 and 4 in turn; smooth tests 1, 2, 3
 * and 20; table tests 2 alone. A trace is tested for 10; then each record for 11 (six bytes), 12, 17, 18, 14, 11 (payload), 15; the first
 * fault found decides. A byte after the end, 19, is looked for last, once the end's own length has passed 14. A fetch
 * then tests 16, then 2. A save tests 15, 1, 3, 10 and 2 in turn. docs/TRACES.md, for makers of recorders, explains
 * each refusal of a trace by an example.
 */
enum hartley_refusal {
    HARTLEY_OK = 0,      /* nothing is refused */
    HARTLEY_LENGTH = 1,  /* block is not 2 to 1,024 cells and a power of two, or a list that is searched is not N/2 + 1
                            cells for such an N, or a run that is saved is not a whole number of blocks, or its count of
                            bytes is no multiple of eight; place 0 */
    HARTLEY_MISFIT = 2,  /* fetch: a lent output not N cells; parts, power: not N/2 + 1; smooth: the weights not N
                            cells; table: the lent output not 257; all five: their count of bytes is no multiple of
                            eight; save: fewer lent bytes than the trace has; place 0 */
    HARTLEY_LOUD = 3,    /* forward, bound, smooth, save: a sample outside -32,768 to 32,767; any call that takes a
                            spectrum: a cell outside +-2^28; place the first such cell */
    HARTLEY_LINE = 4,    /* a line above N/2: that of scaled, the chosen one of nearest, low of strongest, or else high;
                            place that line; then low of strongest above high; place low */
    HARTLEY_LONG = 10,   /* trace above 65,536 bytes, be it lent or to be saved; place 0 */
    HARTLEY_CUT = 11,    /* fewer than 6 bytes left before the end is read, or payload incomplete;
                            place the record's first byte */
    HARTLEY_KIND = 12,   /* kind not 1 to 4; same place */
    HARTLEY_SIZE = 14,   /* length wrong for the kind; same place */
    HARTLEY_HEAD = 15,   /* rate 0 or P outside 1 to 10; same place; save: these, and rate above 4,294,967,295;
                            place 0 */
    HARTLEY_ABSENT = 16, /* fetch of block k, k not below the count; place k */
    HARTLEY_HEADLESS = 17,    /* first record is not a head; place 0, its first byte */
    HARTLEY_SECOND_HEAD = 18, /* second head; place its first byte */
    HARTLEY_TAIL = 19,        /* a byte after the end; place that byte */
    HARTLEY_WEIGHTS = 20      /* smooth: the magnitudes of the weights add to more than 32,767; place the first weight
                                 at which the running sum passes it */
};

/* The cases of a scaled line, by the line asked for. */
enum hartley_scaled_line {
    HARTLEY_MEAN = 1,  /* line 0 */
    HARTLEY_LAST = 2,  /* line N/2 */
    HARTLEY_PAIR = 3   /* every other line */
};

/* The version of the archive, to be compared with HARTLEY_VERSION. */
uint64_t hartley_version(void);

/* The forward spectrum of a block of N samples, in place of the samples. No line is farther from the direct sum than
   hartley_bound answers for the samples; ask for the bound first, since forward replaces them. Answers 0, or a
   refusal: 1 or 3. The negative of a block has the negative spectrum, line by line, where it is not refused: -32,768
   has no negative that is taken. */
uint64_t hartley_forward(uint8_t *cells, size_t cells_bytes);

/* The bound of a block of N = 2^P samples: no line of its forward spectrum is farther from the direct Hartley sum, over
   fine cosines, of the samples. M being the largest magnitude in the block, the bound is 0 for P up to 2; then 5/2 of
   the one before, rounded up, plus half the length times M over 32,768, rounded up, plus 1. So it is 2,083 for M = 100
   and P = 10, and at most 11,306. Where M is 0 every line is 0. The call takes and refuses the blocks that
   hartley_forward takes and refuses, and nothing lent changes. Answers the bound, or a refusal: 1 or 3. */
uint64_t hartley_bound(const uint8_t *cells, size_t cells_bytes);

/* The block of a spectrum, in place of the spectrum. Answers 0, or a refusal: 1 or 3. The negative of a spectrum gets
   the same answer and the negative block. */
uint64_t hartley_backward(uint8_t *cells, size_t cells_bytes);

/* A block of N samples smoothed by N weights, cyclically and with no rounding, in place of the samples: at moment t
   stands the sum, over the moments u from 0 to N - 1, of sample(u) times weight((t - u) mod N). So weight 0 is that of
   the moment itself, weight 1 that of the moment before it, and weight N - 1 that of the moment after it. The weights
   are kept. They may have either sign, and their magnitudes add to 32,767 at most. So every smoothed cell is between
   -(2^30 - 1) and 2^30 - 1: its magnitude is at most 32,768 times 32,767, which is 1,073,709,056. Nothing is divided by
   the sum of the weights. Answers 0, or a refusal, here in the order of the tests: 1, 2, 3 or 20. */
uint64_t hartley_smooth(uint8_t *cells, size_t cells_bytes, const uint8_t *weights, size_t weights_bytes);

/* The doubled real and imaginary parts of lines 0 to N/2 of a spectrum H of N cells, each N/2 + 1 cells: H(v) + H(N-v)
   and H(N-v) - H(v), with H(N) read as H(0). Answers 0, or a refusal: 1, 2 or 3. */
uint64_t hartley_parts(const uint8_t *spectrum, size_t spectrum_bytes, uint8_t *real, size_t real_bytes,
                       uint8_t *imaginary, size_t imaginary_bytes);

/* The doubled powers of lines 0 to N/2 of a spectrum of N cells. Answers 0, or a refusal: 1, 2 or 3. */
uint64_t hartley_power(const uint8_t *spectrum, size_t spectrum_bytes, uint8_t *powers, size_t powers_bytes);

/* One scaled line v of a spectrum H of N cells. Line 0 is a mean: *real takes H(0)/N. Line N/2 is a last line: *real
   takes H(N/2)/N. Both keep *imaginary as it was lent. Every other line is a pair: *real takes (H(v) + H(N-v)) / 2N and
   *imaginary (H(N-v) - H(v)) / 2N. Every quotient is exact, and none is minus zero. Answers which case the line is, or
   a refusal: 1, 3 or 4. */
uint64_t hartley_scaled(const uint8_t *spectrum, size_t spectrum_bytes, size_t line, double *real, double *imaginary);

/* The strongest line from low to high, both included, of a list of N/2 + 1 powers, as hartley_power leaves it: the line
   of greatest power, the lowest of equals. Powers are compared as they stand, also where they are negative. Answers the
   line, or a refusal: 1 or 4. */
uint64_t hartley_strongest(const uint8_t *powers, size_t powers_bytes, size_t low, size_t high);

/* Of the lines of such a list whose power is the level or more, the one nearest to a chosen line, the lower of two
   equally near. The chosen line may itself be the nearest. Answers the line; or none, where no line of the list reaches
   the level, and only there; or a refusal: 1 or 4. */
uint64_t hartley_nearest(const uint8_t *powers, size_t powers_bytes, size_t chosen, int64_t level);

/* The check of a trace. Answers rate, P and the number of blocks, or a refusal: 10, 11, 12, 14, 15, 17, 18 or 19. */
uint64_t hartley_check(const uint8_t *trace, size_t trace_bytes);

/* The N samples of block k of a trace, counted from 0, in N lent cells. Answers what hartley_check answers, or a
   refusal: 2, 10, 11, 12, 14, 15, 16, 17, 18 or 19. */
uint64_t hartley_fetch(const uint8_t *trace, size_t trace_bytes, size_t k, uint8_t *cells, size_t cells_bytes);

/* The trace of a run of cells, from the first lent byte on: one head, with the rate in samples a second and P; the
   blocks; and the end. It has no notes. The run has the samples of one block of N = 2^P cells after another. It may
   have no cells, and the trace then has no blocks. A trace of k blocks has 18 + k (6 + 2N) bytes, and lent bytes past
   them keep their contents. The saved trace is accepted by hartley_check, and reads back as the same rate, P and
   samples. For the other direction, any accepted trace without notes is, byte for byte, what saving its rate, P and
   samples gives. Answers how many bytes the trace has, or a refusal, here in the order of the tests: 15, 1, 3, 10 or 2.
   Where HARTLEY_LONGEST_TRACE bytes are lent, it is never 2. */
uint64_t hartley_save(size_t rate, size_t p, const uint8_t *cells, size_t cells_bytes, uint8_t *trace,
                      size_t trace_bytes);

/* The engine's quarter table, computed from its rule, in HARTLEY_TABLE_CELLS lent cells: the cosines T(0) to T(256) of a
   quarter turn in 1,024ths of a turn, at scale 32,768. T(j) is (F(j) + 2^44) / 2^45, rounded down, where F has sixty
   binary places: F(0) is 2^60, F(256) is 0, and between them F(j) is the whole square root, rounded down, of
   (2^60 + G) x 2^59, G being F(2j) where 2j is at most 256, else minus F(512 - 2j). So a host that makes its own
   spectra need not copy the numbers. Answers 0, or a refusal: 2. */
uint64_t hartley_table(uint8_t *table, size_t table_bytes);

/*
 * Answers read. An answer has eight bytes, here with the least first.
 *
 *     the answer of                            byte 0    byte 1    bytes 2, 3    bytes 4 to 7
 *     forward, backward, smooth, done          0         0         0             0
 *     parts, power, table, done                0         0         0             0
 *     bound, done                              0         bound, in seven bytes
 *     scaled, done                             0         case      0             0
 *     strongest, nearest, a line found         0         1         line          0
 *     nearest, none found                      0         0         0             0
 *     check, fetch, done                       0         P         blocks        rate
 *     save, done                               0         used, in seven bytes
 *     any call that refuses                    number    place, in seven bytes
 *
 * Each call below reads its own of these bytes, whatever answer it is given. Of an answer that it is not meant for, it
 * reads what the table has there.
 */

/* Of any answer, byte 0: HARTLEY_OK, or the number of the refusal. */
uint64_t hartley_number(uint64_t answer);

/* Of a refusal, bytes 1 to 7: its place, a cell of the block or of the run, a weight, a byte of the trace, or the line
   or block asked for. Of the place of 4 and 16, which the host gave itself, the highest of eight bytes is left off
   where it is not 0. Every other place is whole. */
uint64_t hartley_place(uint64_t answer);

/* Of an accepted bound, bytes 1 to 7: the bound. */
uint64_t hartley_distance(uint64_t answer);

/* Of an accepted scaled line, byte 1: HARTLEY_MEAN, HARTLEY_LAST or HARTLEY_PAIR. */
uint64_t hartley_case(uint64_t answer);

/* Of an accepted search, as strongest and nearest answer it: whether a line was found, byte 1, which is 1 if so and 0
   if not; and the line that was found, bytes 2 and 3. Where none was found hartley_line is 0, which is a line too: ask
   hartley_found. The strongest line is always found. */
uint64_t hartley_found(uint64_t answer);
uint64_t hartley_line(uint64_t answer);

/* Of an accepted trace, as check and fetch answer it: the rate in samples a second, bytes 4 to 7; P, byte 1, a block
   having N = 2^P cells; and the number of blocks, bytes 2 and 3. */
uint64_t hartley_rate(uint64_t answer);
uint64_t hartley_p(uint64_t answer);
uint64_t hartley_blocks(uint64_t answer);

/* Of a trace that was saved, bytes 1 to 7: how many of the lent bytes it uses, from the first on. */
uint64_t hartley_used(uint64_t answer);

#ifdef __cplusplus
}
#endif

#endif
