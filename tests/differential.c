/* Compares the proved engine with the peer on random calls: lists, sound tables, unsound ones, setups. */
#include "compare.h"
#include "guide.h"
#include "sound.h"

#include <stdio.h>
#include <stdlib.h>
#include <string.h>

static struct random source;
static struct pair pair;

static void begin_fresh(const struct counts *counts) {
    begin_table(&pair, length_of(counts), &source);
    compare_set_up(&pair, counts);
}

/* An event for a sound table: of a hundred, so many are not invited by its state. */
static struct peer_event any_event(const struct mood *mood, uint16_t noise) {
    enum { TEMPTING = 65, FITTING = 10, WILD = 5 };
    const uint16_t *table = cells_of(&pair);
    struct counts counts = {table[HEADER_CLIENTS], table[HEADER_SERVERS], table[HEADER_DATABASES],
                            table[HEADER_ATTEMPTS]};
    struct peer_event event = invited_event(table, mood, &source);
    if (!random_chance(&source, noise)) return event;
    uint16_t turn = random_below(&source, 100);
    if (turn < TEMPTING) return tempting_event(table, &source);
    if (turn < TEMPTING + FITTING) return fitting_event(&counts, &source);
    if (turn < TEMPTING + FITTING + WILD) return wild_event(&source);
    spoil_event(&event, &source);
    return event;
}

/* The same list in one call: as it was, as far as it was accepted, and a start of that. */
static void run_again(const struct counts *counts, const struct peer_event *events, size_t count) {
    struct peer_event accepted[LONGEST_LIST];
    size_t length = pair.accepted;
    memcpy(accepted, pair.history, sizeof accepted);
    begin_fresh(counts);
    compare_run(&pair, events, count);
    begin_fresh(counts);
    compare_run(&pair, accepted, length);
    begin_fresh(counts);
    compare_run(&pair, accepted, random_below(&source, (uint32_t)length + 1));
}

static void lists_from_fresh(void) {
    static const uint16_t noises[] = {0, 3, 10, 30, 100};
    struct counts counts = random_counts(&source);
    struct mood mood = any_mood(&source);
    struct peer_event events[LONGEST_LIST];
    uint16_t noise = noises[random_below(&source, sizeof noises / sizeof *noises)];
    size_t count = random_from(&source, 1, random_chance(&source, 50) ? LONGEST_LIST : 60);
    begin_fresh(&counts);
    for (size_t place = 0; place < count; place++) {
        events[place] = any_event(&mood, noise);
        compare_apply(&pair, &events[place]);
    }
    run_again(&counts, events, count);
}

static void begin_sound(struct limits *limits) {
    struct counts counts = random_counts(&source);
    set_limits(limits, &counts);
    begin_table(&pair, limits->length, &source);
    fill_sound(cells_of(&pair), limits, &source);
    copy_to_engine(&pair);
}

static void events_on_sound_tables(void) {
    enum { EVENTS = 60, NOISE = 40, SHORT_LIST = 6 };
    static struct limits limits;
    begin_sound(&limits);
    for (unsigned place = 0; place < EVENTS; place++) {
        struct peer_event event = any_event(&level_mood, NOISE);
        compare_apply(&pair, &event);
        stir_sound(cells_of(&pair), &limits, &source);
        stir_sound(cells_of(&pair), &limits, &source);
        copy_to_engine(&pair);
    }
    struct peer_event list[SHORT_LIST];
    for (unsigned place = 0; place < SHORT_LIST; place++) list[place] = any_event(&level_mood, NOISE);
    compare_run(&pair, list, random_from(&source, 0, SHORT_LIST));
}

static void events_on_unsound_tables(void) {
    enum { EVENTS = 20, NOISE = 15, RUN = 20 };
    static struct limits limits;
    static uint16_t sound[MOST_CELLS];
    begin_sound(&limits);
    memcpy(sound, cells_of(&pair), limits.length * sizeof *sound);
    for (unsigned place = 0; place < EVENTS; place++) {
        struct peer_event event = any_event(&level_mood, NOISE);
        make_unsound(cells_of(&pair), &limits, &source);
        copy_to_engine(&pair);
        if (random_chance(&source, RUN))
            compare_run(&pair, &event, random_below(&source, 2));
        else
            compare_apply(&pair, &event);
        memcpy(cells_of(&pair), sound, limits.length * sizeof *sound);
    }
}

/* A length that is right for the counts, near it, or anything. */
static size_t some_length(const struct counts *counts) {
    size_t right = peer_table_length(counts->clients, counts->servers, counts->databases, counts->attempts);
    switch (random_below(&source, 4)) {
    case 0:
        return random_from(&source, 0, LONGEST_TABLE);
    case 1:
        return right + random_below(&source, 3);
    case 2:
        return right > 0 ? right - 1 : 0;
    default:
        return right;
    }
}

/* Counts of which any may be just outside its range, or far. */
static struct counts some_counts(void) {
    struct counts counts = random_counts(&source);
    uint16_t *fields[] = {&counts.clients, &counts.servers, &counts.databases, &counts.attempts};
    static const uint16_t outside[] = {0, 9, 17, 256, 257, UINT16_MAX};
    if (random_chance(&source, 50))
        *fields[random_below(&source, 4)] = outside[random_below(&source, sizeof outside / sizeof *outside)];
    return counts;
}

/* Tables of every length whose header may be wrong and whose cells are random, or few of them not 0. */
static void events_on_wrong_tables(void) {
    struct counts counts = some_counts();
    begin_table(&pair, some_length(&counts), &source);
    uint16_t *cells = cells_of(&pair), header[] = {counts.clients, counts.servers, counts.databases, counts.attempts};
    if (random_chance(&source, 50)) memset(cells, 0, pair.length * sizeof *cells);
    for (size_t place = 0; place < HEADER_CELLS && place < pair.length; place++) cells[place] = header[place];
    copy_to_engine(&pair);
    counts = random_counts(&source);
    struct peer_event event = fitting_event(&counts, &source);
    compare_apply(&pair, &event);
    compare_run(&pair, &event, random_below(&source, 2));
}

static void setups(void) {
    struct counts counts = some_counts();
    begin_table(&pair, some_length(&counts), &source);
    compare_set_up(&pair, &counts);
}

static void table_lengths(void) {
    enum { OVER = 19 };
    struct counts counts;
    for (counts.clients = 0; counts.clients < OVER; counts.clients++)
        for (counts.servers = 0; counts.servers < OVER; counts.servers++)
            for (counts.databases = 0; counts.databases < OVER; counts.databases++)
                for (counts.attempts = 0; counts.attempts < OVER; counts.attempts++) compare_table_length(&counts);
}

/* The jobs by turns; the shares say how many turns of a hundred, not how many events. */
static void one_job(void) {
    enum { LISTS = 15, SOUND = 35, UNSOUND = 20 };
    uint16_t turn = random_below(&source, 100);
    if (turn < LISTS) {
        lists_from_fresh();
    } else if (turn < LISTS + SOUND) {
        events_on_sound_tables();
    } else if (turn < LISTS + SOUND + UNSOUND) {
        events_on_unsound_tables();
    } else {
        events_on_wrong_tables();
        setups();
    }
}

static void print_figures(void) {
    printf("%llu events compared: %llu accepted", figures.events, figures.given[PEER_ACCEPTED]);
    for (unsigned number = PEER_WRONG_SIZE; number <= PEER_MUST_NOT; number++)
        printf(", %llu refused by %u", figures.given[number], number);
    printf("; %llu lists, %llu setups; no difference\n", figures.lists, figures.setups);
}

/* Reads a word that is a decimal and nothing else; a mistyped count must not pass as a small one. */
static bool read_decimal(const char *word, unsigned long long *number) {
    char *end;
    *number = strtoull(word, &end, 10);
    return '0' <= *word && *word <= '9' && *end == 0;
}

int main(int count, char **words) {
    unsigned long long seed, wanted;
    if (count != 3 || !read_decimal(words[1], &seed) || !read_decimal(words[2], &wanted)) {
        fprintf(stderr, "usage: differential SEED COUNT\n");
        return 2;
    }
    source.state = seed;
    table_lengths();
    while (figures.events < wanted) one_job();
    print_figures();
    return 0;
}
