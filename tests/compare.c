/* Gives the proved engine and the peer the same call; on a difference, says how to come to it again. */
#include "compare.h"

#include "vrolkant.h"

#include <stdio.h>
#include <stdlib.h>
#include <string.h>

struct figures figures;

/* The table before a call, since both sides may have changed theirs when a difference is seen. */
static uint16_t before[LONGEST_TABLE];

uint16_t *cells_of(struct pair *pair) { return pair->peer + MARGIN; }

static uint16_t *engine_cells(struct pair *pair) { return pair->engine + MARGIN; }

static size_t bytes_of(size_t cells) { return cells * sizeof(uint16_t); }

void begin_table(struct pair *pair, size_t length, struct random *random) {
    pair->length = length;
    for (size_t place = 0; place < MARGIN + length + MARGIN; place++)
        pair->peer[place] = random_below(random, UINT16_MAX + 1);
    copy_to_engine(pair);
}

void copy_to_engine(struct pair *pair) {
    memcpy(pair->engine, pair->peer, bytes_of(MARGIN + pair->length + MARGIN));
    pair->from_fresh = false;
}

static bool same_cells(const struct pair *pair) {
    return memcmp(pair->engine, pair->peer, bytes_of(MARGIN + pair->length + MARGIN)) == 0;
}

static void keep_before(struct pair *pair) { memcpy(before, cells_of(pair), bytes_of(pair->length)); }

static void print_event(const struct peer_event *event) {
    printf("%u %u %u %u %u %u\n", event->kind, event->client, event->attempt, event->server, event->database,
           event->value);
}

static void print_first_difference(const struct pair *pair) {
    for (size_t place = 0; place < MARGIN + pair->length + MARGIN; place++) {
        if (pair->engine[place] == pair->peer[place]) continue;
        printf("cell %ld of %lu%s: engine %u, peer %u\n", (long)place - MARGIN, (unsigned long)pair->length,
               place < MARGIN || place >= MARGIN + pair->length ? ", outside the table" : "", pair->engine[place],
               pair->peer[place]);
        return;
    }
    printf("every cell is the same\n");
}

/* Prints the way to the table before the call: a listing input as far as there is one, else the cells. */
static void print_way(const struct pair *pair) {
    if (pair->from_fresh) {
        printf("the listing input that shows it:\n%u %u %u %u\n", pair->counts.clients, pair->counts.servers,
               pair->counts.databases, pair->counts.attempts);
        for (size_t place = 0; place < pair->accepted; place++) print_event(&pair->history[place]);
        return;
    }
    printf("the table before, %lu cells:\n", (unsigned long)pair->length);
    for (size_t place = 0; place < pair->length; place++)
        printf("%u%s", before[place], place + 1 < pair->length ? " " : "\n");
    printf("and the events:\n");
}

static void begin_difference(const char *job) { printf("difference after %llu events, at %s\n", figures.events, job); }

void compare_table_length(const struct counts *counts) {
    size_t by_engine = vrolkant_table_length(counts->clients, counts->servers, counts->databases, counts->attempts);
    size_t by_peer = peer_table_length(counts->clients, counts->servers, counts->databases, counts->attempts);
    if (by_engine == by_peer) return;
    begin_difference("table_length");
    printf("counts %u %u %u %u: engine gives %lu, peer gives %lu\n", counts->clients, counts->servers,
           counts->databases, counts->attempts, (unsigned long)by_engine, (unsigned long)by_peer);
    exit(1);
}

void compare_set_up(struct pair *pair, const struct counts *counts) {
    uint16_t by_peer = peer_set_up(cells_of(pair), pair->length, counts->clients, counts->servers, counts->databases,
                                   counts->attempts);
    uint16_t by_engine = vrolkant_set_up(engine_cells(pair), pair->length, counts->clients, counts->servers,
                                         counts->databases, counts->attempts);
    figures.setups++;
    if (by_engine != by_peer || !same_cells(pair)) {
        begin_difference("set_up");
        printf("engine gives %u, peer gives %u\n", by_engine, by_peer);
        print_first_difference(pair);
        printf("counts %u %u %u %u, length %lu\n", counts->clients, counts->servers, counts->databases,
               counts->attempts, (unsigned long)pair->length);
        exit(1);
    }
    pair->from_fresh = by_peer == PEER_ACCEPTED;
    pair->counts = *counts;
    pair->accepted = 0;
}

static void remember(struct pair *pair, const struct peer_event *event) {
    if (pair->accepted < LONGEST_LIST)
        pair->history[pair->accepted++] = *event;
    else
        pair->from_fresh = false;
}

uint16_t compare_apply(struct pair *pair, const struct peer_event *event) {
    keep_before(pair);
    uint16_t by_peer = peer_apply(cells_of(pair), pair->length, event);
    uint16_t by_engine = vrolkant_apply(engine_cells(pair), pair->length, event->kind, event->client, event->attempt,
                                        event->server, event->database, event->value);
    figures.events++;
    figures.given[by_peer]++;
    if (by_engine != by_peer || !same_cells(pair)) {
        begin_difference("apply");
        printf("engine gives %u, peer gives %u\n", by_engine, by_peer);
        print_first_difference(pair);
        print_way(pair);
        print_event(event);
        exit(1);
    }
    if (by_peer == PEER_ACCEPTED && pair->from_fresh) remember(pair, event);
    return by_peer;
}

/* The list as paper 01 words it: event by event, 1 and 2 asked at each, and of an empty list too. The proved list job asks
   them once, and has to give the same. */
static struct peer_ran run_by_events(uint16_t *table, size_t length, const struct peer_event *events, size_t count) {
    struct counts counts;
    struct peer_ran ran = {0, look_over(table, length, &counts)};
    while (ran.refusal == PEER_ACCEPTED && ran.accepted < count) {
        ran.refusal = peer_apply(table, length, &events[ran.accepted]);
        if (ran.refusal == PEER_ACCEPTED) ran.accepted++;
    }
    return ran;
}

void compare_run(struct pair *pair, const struct peer_event *events, size_t count) {
    static struct vrolkant_event list[LONGEST_LIST];
    for (size_t place = 0; place < count; place++)
        list[place] = (struct vrolkant_event){events[place].kind,   events[place].client,   events[place].attempt,
                                              events[place].server, events[place].database, events[place].value};
    keep_before(pair);
    struct peer_ran by_peer = run_by_events(cells_of(pair), pair->length, events, count);
    struct vrolkant_ran by_engine = vrolkant_run(engine_cells(pair), pair->length, list, count);
    figures.lists++;
    if (by_engine.accepted != by_peer.accepted || by_engine.refusal != by_peer.refusal || !same_cells(pair)) {
        begin_difference("run");
        printf("engine gives %lu and %u, peer gives %lu and %u\n", (unsigned long)by_engine.accepted, by_engine.refusal,
               (unsigned long)by_peer.accepted, by_peer.refusal);
        print_first_difference(pair);
        print_way(pair);
        for (size_t place = 0; place < count; place++) print_event(&events[place]);
        exit(1);
    }
    pair->from_fresh = false;
}
