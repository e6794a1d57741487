/* Gives the proved engine and the peer the same call, and ends the program where they differ. */
#ifndef TESTS_COMPARE_H
#define TESTS_COMPARE_H

#include "peer/peer.h"
#include "peer/table.h"
#include "random.h"

#include <stdbool.h>
#include <stddef.h>
#include <stdint.h>

/* The cells kept around a table to see that nothing outside it is written, and the longest table that is lent. */
enum { MARGIN = 64, LONGEST_TABLE = 4000, LONGEST_LIST = 400 };

/* The same table twice, and the accepted events that led to it from a fresh one, if they are known. */
struct pair {
    size_t length;
    bool from_fresh;
    struct counts counts;
    size_t accepted;
    struct peer_event history[LONGEST_LIST];
    uint16_t engine[MARGIN + LONGEST_TABLE + MARGIN];
    uint16_t peer[MARGIN + LONGEST_TABLE + MARGIN];
};

struct figures {
    unsigned long long events;
    unsigned long long given[PEER_MUST_NOT + 1]; /* how often each number was given */
    unsigned long long lists;
    unsigned long long setups;
};

extern struct figures figures;

/* The peer's cells, to be looked at or, with copy_to_engine after it, to be filled. */
uint16_t *cells_of(struct pair *pair);

/* Begins a table of this length whose cells are random, and the margins too. */
void begin_table(struct pair *pair, size_t length, struct random *random);

/* Says that the peer's cells were filled by hand: the engine's become the same, and no list led here. */
void copy_to_engine(struct pair *pair);

void compare_table_length(const struct counts *counts);

void compare_set_up(struct pair *pair, const struct counts *counts);

/* Applies one event on both sides and gives the number. */
uint16_t compare_apply(struct pair *pair, const struct peer_event *event);

/* Applies a list in one call on both sides; the pair's history does not follow it. */
void compare_run(struct pair *pair, const struct peer_event *events, size_t count);

#endif
