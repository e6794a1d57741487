/* Random setups and random tables in range, reachable by a run or not. */
#ifndef TESTS_SOUND_H
#define TESTS_SOUND_H

#include "peer/table.h"
#include "random.h"

/* A setup and the largest number that each cell of its table may hold. */
struct limits {
    struct counts counts;
    size_t length;
    uint16_t most[MOST_CELLS];
};

/* Counts in range: small ones often, since an event costs a look at the whole table. */
struct counts random_counts(struct random *random);

void set_limits(struct limits *limits, const struct counts *counts);

/* Fills a table with numbers in range; nothing else about them makes sense. */
void fill_sound(uint16_t *table, const struct limits *limits, struct random *random);

/* Gives one cell behind the header another number, so that the table stays sound. */
void stir_sound(uint16_t *table, const struct limits *limits, struct random *random);

/* Gives one cell a number that is mostly out of range, or spoils what holds between phase and attempt. */
void make_unsound(uint16_t *table, const struct limits *limits, struct random *random);

#endif
