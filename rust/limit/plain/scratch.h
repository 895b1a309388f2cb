/* Two baselines for timing: all counts worked out from scratch, and one pass that reads and adds all counts. */
#ifndef SCRATCH_H
#define SCRATCH_H

#include <stddef.h>
#include <stdint.h>

/*
 * Works out the counts of all pairs from the rows of a sheet of n + n * n words. n is 1 to 64, no row has a bit at n or above, and
 * there is no cycle.
 */
void scratch_count(size_t n, uint64_t *sheet);

/* The sum, modulo 2 to the 64, of the n * n counts of a sheet. */
uint64_t floor_pass(size_t n, const uint64_t *sheet);

#endif
