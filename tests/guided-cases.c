/* Writes listing inputs that a guided run makes: guided-cases FOLDER FIRST COUNT, the files named by three digits. */
#include "guide.h"

#include <stdio.h>
#include <stdlib.h>
#include <string.h>

enum { LONGEST_NAME = 4096, SEED = 20, LINES_BEHIND = 3 };

/* How a file ends: with accepted events alone, with a refusal by that number, or (8) in the middle of a line. */
static const uint16_t endings[] = {
    0, PEER_NOT_SENT, 0, PEER_MUST_NOT, PEER_PARTY_DOWN, 0, PEER_WRONG_FIELD, PEER_UNKNOWN_KIND, PEER_MALFORMED};

static const struct counts setups[] = {{1, 1, 1, 1}, {1, 2, 1, 2}, {2, 2, 2, 2}, {1, 3, 3, 4}, {3, 3, 2, 3},
                                       {2, 3, 2, 1}, {8, 1, 1, 1}, {1, 8, 1, 2}, {1, 1, 8, 2}, {1, 2, 2, 16},
                                       {4, 4, 4, 4}, {5, 3, 7, 2}, {8, 8, 8, 16}};

/* The usual events of a run by themselves, and what may disturb them. */
struct scenario {
    uint16_t timeouts, readies, suspicions, trusts, cleans;
    uint16_t server_crashes, database_crashes, client_crashes;
    uint16_t yes, useful;
};

static const struct scenario scenarios[] = {
    {0, 0, 0, 0, 0, 0, 0, 0, 100, 100},        /* nothing goes wrong */
    {100, 100, 25, 100, 120, 0, 0, 0, 98, 90}, /* cleaners race owners that are up */
    {100, 60, 10, 40, 60, 0, 60, 0, 98, 90},   /* databases come and go */
    {60, 100, 10, 40, 60, 0, 5, 0, 60, 95},    /* databases often vote no */
    {300, 60, 25, 100, 300, 8, 0, 0, 98, 90},  /* owners crash and are cleaned */
    {100, 60, 10, 40, 60, 2, 10, 0, 98, 45},   /* most messages arrive again */
    {60, 60, 10, 40, 60, 2, 5, 8, 95, 90},     /* clients crash */
};

struct run {
    FILE *file;
    struct random random;
    struct counts counts;
    size_t length;
    uint16_t table[MOST_CELLS];
};

static struct mood mood_of(const struct scenario *scenario) {
    struct mood mood = usual_mood;
    mood.weights[PEER_KIND_TIMEOUT] = scenario->timeouts;
    mood.weights[PEER_KIND_READY] = scenario->readies;
    mood.weights[PEER_KIND_SUSPECT] = scenario->suspicions;
    mood.weights[PEER_KIND_TRUST] = scenario->trusts;
    mood.weights[PEER_KIND_CLEAN] = scenario->cleans;
    mood.weights[PEER_KIND_SERVER_CRASH] = scenario->server_crashes;
    mood.weights[PEER_KIND_DATABASE_CRASH] = scenario->database_crashes;
    mood.weights[PEER_KIND_CLIENT_CRASH] = scenario->client_crashes;
    mood.yes = scenario->yes;
    mood.useful = scenario->useful;
    return mood;
}

static void write_event(const struct run *run, const struct peer_event *event, const char *end) {
    fprintf(run->file, "%u %u %u %u %u %u%s", event->kind, event->client, event->attempt, event->server,
            event->database, event->value, end);
}

/* Whether some client that is up still has something to do. */
static bool unfinished(const struct run *run) {
    for (uint16_t client = 1; client <= run->counts.clients; client++) {
        const uint16_t *cells = run->table + client_at(&run->counts, client);
        if (cells[CLIENT_UP] == 1 && cells[CLIENT_PHASE] <= PHASE_WAITING) return true;
    }
    return false;
}

/* Writes accepted events until all clients are done, and some more; a run that is stuck ends by its limit. */
static void write_accepted(struct run *run, const struct mood *mood, unsigned limit) {
    enum { MORE = 6, TRIES = 20 };
    unsigned more = 0, written = 0;
    for (unsigned tried = 0; tried < limit * TRIES && written < limit && more < MORE; tried++) {
        struct peer_event event = invited_event(run->table, mood, &run->random);
        if (peer_apply(run->table, run->length, &event) != PEER_ACCEPTED) continue;
        write_event(run, &event, "\n");
        written++;
        if (!unfinished(run)) more++;
    }
}

/* Writes an event of the kind that some party's state invites, if there is one. */
static void write_of_kind(struct run *run, uint16_t kind) {
    struct mood mood = {.useful = 100};
    mood.weights[kind] = 1;
    struct peer_event event = invited_event(run->table, &mood, &run->random);
    if (peer_apply(run->table, run->length, &event) == PEER_ACCEPTED) write_event(run, &event, "\n");
}

/* Looks for an event that is refused by the number and writes it. */
static void write_refused(struct run *run, uint16_t number) {
    enum { TRIES = 20000 };
    static uint16_t table[MOST_CELLS];
    for (unsigned tried = 0; tried < TRIES; tried++) {
        struct peer_event event = tempting_event(run->table, &run->random);
        if (number <= PEER_WRONG_FIELD) spoil_event(&event, &run->random);
        memcpy(table, run->table, sizeof table);
        if (peer_apply(table, run->length, &event) != number) continue;
        write_event(run, &event, "\n");
        return;
    }
}

/* Writes lines that are not to be looked at, though they might be accepted. */
static void write_behind(struct run *run) {
    for (unsigned line = 0; line < LINES_BEHIND; line++) {
        struct peer_event event = invited_event(run->table, &usual_mood, &run->random);
        write_event(run, &event, "\n");
    }
}

static void write_ending(struct run *run, uint16_t ending) {
    if (ending == PEER_MALFORMED) {
        struct peer_event event = fitting_event(&run->counts, &run->random);
        write_event(run, &event, "");
    } else if (ending != PEER_ACCEPTED) {
        if (ending == PEER_PARTY_DOWN)
            write_of_kind(run, random_from(&run->random, PEER_KIND_SERVER_CRASH, PEER_KIND_CLIENT_CRASH));
        write_refused(run, ending);
        write_behind(run);
    }
}

/* Most runs may go on until all is done; some are cut short. */
static unsigned limit_of(unsigned number) {
    enum { CUT_EVERY = 5, CUT = 60, LONG_EVERY = 11, LONG = 2500, USUAL = 900 };
    if (number % CUT_EVERY == 0) return CUT;
    return number % LONG_EVERY == 0 ? LONG : USUAL;
}

static void write_case(FILE *file, unsigned number) {
    struct run run = {.file = file, .random = {SEED + number}};
    run.counts = setups[number % (sizeof setups / sizeof *setups)];
    run.length = length_of(&run.counts);
    struct mood mood = mood_of(&scenarios[number % (sizeof scenarios / sizeof *scenarios)]);
    peer_set_up(run.table, run.length, run.counts.clients, run.counts.servers, run.counts.databases,
                run.counts.attempts);
    fprintf(file, "%u %u %u %u\n", run.counts.clients, run.counts.servers, run.counts.databases, run.counts.attempts);
    write_accepted(&run, &mood, limit_of(number));
    write_ending(&run, endings[number % (sizeof endings / sizeof *endings)]);
}

int main(int count, char **words) {
    if (count != 4) {
        fprintf(stderr, "usage: guided-cases FOLDER FIRST COUNT\n");
        return 2;
    }
    unsigned first = (unsigned)strtoull(words[2], NULL, 10), cases = (unsigned)strtoull(words[3], NULL, 10);
    for (unsigned number = 0; number < cases; number++) {
        char name[LONGEST_NAME];
        snprintf(name, sizeof name, "%s/%03u", words[1], first + number);
        FILE *file = fopen(name, "wb");
        if (!file) {
            perror(name);
            return 2;
        }
        write_case(file, number);
        if (fclose(file) != 0) return 2;
    }
    return 0;
}
