/*
 * The level rule and its table, its bound, smoothing, the search of powers, the trace check and the saving of a trace in
 * C, written from the project's papers and not from the engine, which is measured against them. Answers are packed as in
 * hartley.h, so that both can be compared.
 */
#ifndef RULE_H
#define RULE_H

#include <stddef.h>
#include <stdint.h>

enum { LARGEST = 1024, LONGEST = 65536 };
enum { HEAD = 1, BLOCK, NOTE, END };

/* Fills the tables; called once, before all else. */
void rule_tables(void);

/* Fill the 257 numbers of the quarter table. The first keeps each fine cosine for those that follow from it, and has the
   root from the processor's own. The plain one computes each from the start, and the root digit by digit. */
void rule_table(int64_t *table);
void rule_table_plain(int64_t *table);

/* Forward and backward replace the n cells; power and parts fill so many lines; a scaled line fills its double, or both. */
uint64_t rule_forward(int64_t *cells, size_t n);
uint64_t rule_backward(int64_t *cells, size_t n);
uint64_t rule_power(const int64_t *spectrum, size_t n, int64_t *powers, size_t lines);
uint64_t rule_parts(const int64_t *spectrum, size_t n, int64_t *real, int64_t *imaginary, size_t lines);
uint64_t rule_scaled(const int64_t *spectrum, size_t n, size_t line, double *real, double *imaginary);

/* The bound of a block of n samples. It goes through the cells once and takes several at a time. The plain one answers
   the same, but tests and takes cell by cell. */
uint64_t rule_bound(const int64_t *cells, size_t n);
uint64_t rule_bound_plain(const int64_t *cells, size_t n);

/* Smooths the n cells in place by so many weights, by the plain sum and not by spectra. The plain one makes one sum
   after another. The scattered one answers and leaves the same, but adds the products of one cell after another to all
   sums, of which the compiler makes vectors. The narrowed one cuts cells and weights to 16 bits after the tests. */
uint64_t rule_smooth_plain(int64_t *cells, size_t n, const int64_t *weights, size_t count);
uint64_t rule_smooth_scattered(int64_t *cells, size_t n, const int64_t *weights, size_t count);
uint64_t rule_smooth_narrowed(int64_t *cells, size_t n, const int64_t *weights, size_t count);

/* The search of a list of so many powers. Strongest takes four lines at a time, nearest looks outwards from the chosen
   line. The scans find the same: they go through the band or the list line by line and keep the best. */
uint64_t rule_strongest(const int64_t *powers, size_t lines, size_t low, size_t high);
uint64_t rule_strongest_scan(const int64_t *powers, size_t lines, size_t low, size_t high);
uint64_t rule_nearest(const int64_t *powers, size_t lines, size_t chosen, int64_t level);
uint64_t rule_nearest_scan(const int64_t *powers, size_t lines, size_t chosen, int64_t level);

/* A fetch fills n cells with the samples of block k: sample by sample, of which the compiler makes vectors; or a word of
   eight bytes at a time. */
uint64_t rule_check(const uint8_t *trace, size_t bytes);
uint64_t rule_fetch(const uint8_t *trace, size_t bytes, size_t k, int64_t *cells, size_t n);
uint64_t rule_fetch_words(const uint8_t *trace, size_t bytes, size_t k, int64_t *cells, size_t n);

/* A save writes the trace of a run of cells, 2^p to a block, into so many lent bytes at most. It takes several cells at
   a time. The plain one answers and writes the same, but cell by cell and byte by byte. */
uint64_t rule_save(size_t rate, size_t p, const int64_t *cells, size_t count, uint8_t *trace, size_t bytes);
uint64_t rule_save_plain(size_t rate, size_t p, const int64_t *cells, size_t count, uint8_t *trace, size_t bytes);

/* An unsigned number of 2 and of 4 bytes, least byte first. */
uint32_t rule_two(const uint8_t *at);
uint32_t rule_four(const uint8_t *at);

#endif
