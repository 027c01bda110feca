/* Compares what is timed: a ratio means something only where both give the same. Each ends the program at a difference. */
#ifndef COMPARE_H
#define COMPARE_H

#include <stddef.h>
#include <stdint.h>

/* Library, walker and hand-written formatters on every code and value of the benchmark, in both rooms. */
void compare_specimens(void);

/* Library and walker on random tables, each with a number, an instant and a text in four rooms; prints the answers. */
void compare_random(size_t tables, uint64_t seed);

#endif
