/* The workloads of bench_line and line_plain over the library for C. bench/calls and embed/check run them. */
#ifndef LINE_C_H
#define LINE_C_H

#define _POSIX_C_SOURCE 200809L

#include "bsc.h"

#include <stdio.h>
#include <stdlib.h>
#include <string.h>

/* A line, and what a report has to know of it. */
struct played {
    struct bsc_line line;
    size_t terminals;
    uint8_t selects[BSC_MAX_TERMINALS];     /* the number of selection addresses of each terminal */
};

/* Ends the program if a call that has no reason to fail does. */
static inline void must(uint32_t error)
{
    char text[65] = {0};
    if (error != BSC_OK) {
        bsc_error_text(error, (uint8_t *)text, 64);
        fprintf(stderr, "line_c: %s\n", text);
        exit(1);
    }
}

/* ---- The numbers that the workloads are made of: xorshift64*, as in bench/line_plain --------------------------- */

struct random {
    uint64_t state;
};

static inline struct random random_of(uint64_t seed)
{
    struct random random = {(seed * 0x9e3779b97f4a7c15u) | 1};
    return random;
}

/* A number below the bound. */
static inline size_t below(struct random *random, size_t bound)
{
    random->state ^= random->state >> 12;
    random->state ^= random->state << 25;
    random->state ^= random->state >> 27;
    return (size_t)((random->state * 0x2545f4914f6cdd1du) >> 32) % bound;
}

/* Whether one in this many comes up. */
static inline int one_in(struct random *random, size_t many)
{
    return below(random, many) == 0;
}

/* ---- What was left on a line ----------------------------------------------------------------------------------- */

/* A digest of numbers and octets. */
uint64_t new_digest(void);

/* Adds how an event was answered, by the number that bench_line has for it, and what is on the line after it. */
void digest_event(uint64_t *digest, size_t answer, struct bsc_line *line);

/* Prints what is left on the line after a history with this digest. */
void print_left(const char *name, uint64_t digest, struct played *played);

/* ---- Workloads --------------------------------------------------------------------------------------------------- */

/* How what is pending comes to be heard: by carry_sent, as the octets that were sent, or as these and one more FF. */
enum hearing { AS_SENT, AS_OCTETS, PADDED };

/* Polls of nothing, and texts of seven records each way, after a history of records. They are timed: the number of
 * events and their nanoseconds are printed on standard error if `clocked`. */
void play_polls(size_t terminals, size_t events, enum hearing hearing, int clocked);
void play_texts(size_t terminals, size_t history, size_t visits, enum hearing hearing, int clocked);

/* A number of random scripts. */
void play_scripts(uint64_t seed, uint64_t scripts, size_t events);

#endif
