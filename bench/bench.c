/* Measures the proved library's three jobs beside the plain C peer's, on the same lists of accepted events. */
#include "vrolkant.h"

#include "guide.h"

#include <stdio.h>
#include <stdlib.h>
#include <string.h>
#include <time.h>

/* The setups by growing table length: apply is measured at all, since its cost grows with the table, all jobs at some. */
static const struct {
    struct counts counts;
    bool every_job;
} setups[] = {
    {{1, 1, 1, 1}, true},   {{1, 2, 1, 2}, false},  {{1, 2, 2, 4}, false},  {{2, 3, 2, 4}, true},
    {{2, 4, 3, 6}, false},  {{3, 4, 4, 7}, false},  {{4, 5, 4, 8}, false},  {{4, 6, 6, 10}, false},
    {{5, 6, 6, 12}, false}, {{6, 8, 6, 12}, false}, {{7, 8, 8, 14}, false}, {{8, 8, 8, 16}, true},
};

enum { SETUPS = sizeof setups / sizeof *setups, LEAST_CELLS = 28 };

/* A shelf has as many tables of one setup as go into the cells of the largest, and their lists share the room for
   events: a pass over it is then long enough for the clock, and touches about as much memory, at every setup. */
enum { SHELF_CELLS = MOST_CELLS, MOST_TABLES = SHELF_CELLS / LEAST_CELLS, MOST_EVENTS = 4096 };

/* Set-up takes so little that a pass sets each table up so many times. */
enum { SET_UP_ROUNDS = 64 };

/* The tables of one setup and a list of accepted events for each, the lists one behind the other. */
struct shelf {
    struct counts counts;
    size_t length; /* of one table */
    size_t tables;
    size_t starts[MOST_TABLES + 1]; /* where each table's list starts; the last is where all end */
    struct peer_event peer_events[MOST_EVENTS];
    struct vrolkant_event proved_events[MOST_EVENTS]; /* the same */
    uint16_t fresh[SHELF_CELLS];
    uint16_t ended[SHELF_CELLS]; /* each table after its list */
};

static struct shelf shelves[SETUPS];

/* Both sides work on the same cells by turns, so that neither has them at a better address. */
static uint16_t lent[SHELF_CELLS] __attribute__((aligned(64)));

/* Preparing, outside of the timing. */

static bool finished(const uint16_t *table, const struct counts *counts) {
    for (uint16_t client = 1; client <= counts->clients; client++) {
        uint16_t phase = table[client_at(counts, client) + CLIENT_PHASE];
        if (phase != PHASE_DELIVERED && phase != PHASE_GIVEN_UP) return false;
    }
    return true;
}

/* Plays the table until every client has its result or has given up, or the room is full, and keeps what was accepted.
   No server and no client may crash: for want of another, the smallest setups would stand still. */
static size_t prepare_list(struct shelf *shelf, uint16_t *table, size_t start, struct random *random) {
    size_t place = start, end = start + MOST_EVENTS / shelf->tables;
    while (place < end && !finished(table, &shelf->counts)) {
        struct peer_event event = invited_event(table, &usual_mood, random);
        if (event.kind == PEER_KIND_SERVER_CRASH || event.kind == PEER_KIND_CLIENT_CRASH) continue;
        if (peer_apply(table, shelf->length, &event) == PEER_ACCEPTED) shelf->peer_events[place++] = event;
    }
    return place;
}

/* Every table has a list of its own, since the processor would learn a single short one by heart. */
static void prepare_shelf(struct shelf *shelf, const struct counts *counts) {
    struct random random = {.state = 1};
    shelf->counts = *counts;
    shelf->length = length_of(counts);
    shelf->tables = SHELF_CELLS / shelf->length;
    for (size_t number = 0; number < shelf->tables; number++) {
        uint16_t *fresh = shelf->fresh + number * shelf->length, *ended = shelf->ended + number * shelf->length;
        peer_set_up(fresh, shelf->length, counts->clients, counts->servers, counts->databases, counts->attempts);
        memcpy(ended, fresh, shelf->length * sizeof *ended);
        shelf->starts[number + 1] = prepare_list(shelf, ended, shelf->starts[number], &random);
    }
    for (size_t place = 0; place < shelf->starts[shelf->tables]; place++) {
        const struct peer_event *event = &shelf->peer_events[place];
        shelf->proved_events[place] = (struct vrolkant_event){event->kind,   event->client,   event->attempt,
                                                              event->server, event->database, event->value};
    }
}

/* The jobs: a pass over the lent tables of a shelf, which gives the number of accepted setups or events. */

typedef size_t pass(const struct shelf *shelf);

static size_t set_up_proved(const struct shelf *shelf) {
    const struct counts *counts = &shelf->counts;
    size_t accepted = 0, length = shelf->length;
    for (unsigned round = 0; round < SET_UP_ROUNDS; round++)
        for (size_t number = 0; number < shelf->tables; number++)
            accepted += vrolkant_set_up(lent + number * length, length, counts->clients, counts->servers,
                                        counts->databases, counts->attempts) == VROLKANT_ACCEPTED;
    return accepted;
}

static size_t set_up_peer(const struct shelf *shelf) {
    const struct counts *counts = &shelf->counts;
    size_t accepted = 0, length = shelf->length;
    for (unsigned round = 0; round < SET_UP_ROUNDS; round++)
        for (size_t number = 0; number < shelf->tables; number++)
            accepted += peer_set_up(lent + number * length, length, counts->clients, counts->servers,
                                    counts->databases, counts->attempts) == PEER_ACCEPTED;
    return accepted;
}

static size_t apply_proved(const struct shelf *shelf) {
    size_t accepted = 0, length = shelf->length;
    for (size_t number = 0; number < shelf->tables; number++)
        for (size_t place = shelf->starts[number]; place < shelf->starts[number + 1]; place++) {
            const struct vrolkant_event *event = &shelf->proved_events[place];
            accepted += vrolkant_apply(lent + number * length, length, event->kind, event->client, event->attempt,
                                       event->server, event->database, event->value) == VROLKANT_ACCEPTED;
        }
    return accepted;
}

static size_t apply_peer(const struct shelf *shelf) {
    size_t accepted = 0, length = shelf->length;
    for (size_t number = 0; number < shelf->tables; number++)
        for (size_t place = shelf->starts[number]; place < shelf->starts[number + 1]; place++)
            accepted += peer_apply(lent + number * length, length, &shelf->peer_events[place]) == PEER_ACCEPTED;
    return accepted;
}

static size_t list_proved(const struct shelf *shelf) {
    size_t accepted = 0, length = shelf->length;
    for (size_t number = 0; number < shelf->tables; number++) {
        size_t start = shelf->starts[number], count = shelf->starts[number + 1] - start;
        struct vrolkant_ran ran = vrolkant_run(lent + number * length, length, shelf->proved_events + start, count);
        if (ran.refusal == VROLKANT_ACCEPTED) accepted += ran.accepted;
    }
    return accepted;
}

static size_t list_peer(const struct shelf *shelf) {
    size_t accepted = 0, length = shelf->length;
    for (size_t number = 0; number < shelf->tables; number++) {
        size_t start = shelf->starts[number], count = shelf->starts[number + 1] - start;
        struct peer_ran ran = peer_run(lent + number * length, length, shelf->peer_events + start, count);
        if (ran.refusal == PEER_ACCEPTED) accepted += ran.accepted;
    }
    return accepted;
}

enum side { PROVED, PEER, SIDES };
enum job { SET_UP, APPLY, LIST, JOBS };

static const char *const side_names[SIDES] = {[PROVED] = "proved library", [PEER] = "peer"};

static const struct {
    const char *name;
    pass *passes[SIDES];
} jobs[JOBS] = {
    [SET_UP] = {"set-up", {set_up_proved, set_up_peer}},
    [APPLY] = {"apply", {apply_proved, apply_peer}},
    [LIST] = {"list", {list_proved, list_peer}},
};

/* Measuring. */

enum { MOST_REPETITIONS = 100 };

static size_t repetitions;
static uint64_t shortest; /* nanoseconds that a repetition of both sides takes at least */

/* Accepted setups or events per second. */
static double rates[SETUPS][JOBS][SIDES][MOST_REPETITIONS];

static uint64_t nanoseconds(void) {
    struct timespec time;
    clock_gettime(CLOCK_MONOTONIC, &time);
    return (uint64_t)time.tv_sec * 1000000000u + (uint64_t)time.tv_nsec;
}

/* Fresh tables for a list, and for a set-up tables of which every cell has to be written. */
static void lend(const struct shelf *shelf, enum job job) {
    if (job == SET_UP)
        memset(lent, 0xff, sizeof lent);
    else
        memcpy(lent, shelf->fresh, sizeof lent);
}

/* Ends the program unless all was accepted and the cells are those that the lists were prepared with: both sides are
   held to the same, so they are the same. */
static void check(const struct shelf *shelf, enum job job, enum side side, size_t accepted) {
    const uint16_t *expected = job == SET_UP ? shelf->fresh : shelf->ended;
    size_t all = job == SET_UP ? shelf->tables * SET_UP_ROUNDS : shelf->starts[shelf->tables];
    bool same_cells = memcmp(lent, expected, shelf->tables * shelf->length * sizeof *lent) == 0;
    if (accepted == all && same_cells) return;
    fprintf(stderr, "bench: %s of the %s at %u %u %u %u: %lu of %lu accepted, cells %s\n", jobs[job].name,
            side_names[side], shelf->counts.clients, shelf->counts.servers, shelf->counts.databases,
            shelf->counts.attempts, (unsigned long)accepted, (unsigned long)all, same_cells ? "as expected" : "differ");
    exit(1);
}

/* The nanoseconds of one pass from the start; only the pass itself is timed. */
static uint64_t timed(const struct shelf *shelf, enum job job, enum side side, size_t *accepted) {
    lend(shelf, job);
    uint64_t start = nanoseconds();
    *accepted = jobs[job].passes[side](shelf);
    uint64_t taken = nanoseconds() - start;
    check(shelf, job, side, *accepted);
    return taken;
}

/* Passes of the two sides in turn until they have taken long enough. The fastest of a side counts: other work on the
   machine can only slow a pass, and a pass is short enough that some are left alone. (The processor time of the program
   does not do: under load single passes seemed a quarter faster by it than they are.) */
static void measure(size_t setup, enum job job, size_t repetition) {
    double fastest[SIDES] = {0};
    for (uint64_t taken = 0; taken < shortest;)
        for (enum side side = PROVED; side < SIDES; side++) {
            size_t accepted;
            uint64_t pass = timed(&shelves[setup], job, side, &accepted);
            double rate = (double)accepted * 1e9 / (double)pass;
            if (rate > fastest[side]) fastest[side] = rate;
            taken += pass;
        }
    for (enum side side = PROVED; side < SIDES; side++) rates[setup][job][side][repetition] = fastest[side];
}

static bool measured(size_t setup, enum job job) { return job == APPLY || setups[setup].every_job; }

/* Everything once in each repetition, so that what else the machine does meets all alike. */
static void measure_all(size_t repetition) {
    for (size_t setup = 0; setup < SETUPS; setup++)
        for (enum job job = SET_UP; job < JOBS; job++)
            if (measured(setup, job)) measure(setup, job, repetition);
}

static void sort(double *numbers, size_t count) {
    for (size_t place = 1; place < count; place++)
        for (size_t at = place; at > 0 && numbers[at - 1] > numbers[at]; at--) {
            double larger = numbers[at - 1];
            numbers[at - 1] = numbers[at];
            numbers[at] = larger;
        }
}

static void sort_all(void) {
    for (size_t setup = 0; setup < SETUPS; setup++)
        for (enum job job = SET_UP; job < JOBS; job++)
            for (enum side side = PROVED; side < SIDES; side++) sort(rates[setup][job][side], repetitions);
}

/* Printing; the rates are sorted by now. */

static double median(const double *sorted) { return (sorted[(repetitions - 1) / 2] + sorted[repetitions / 2]) / 2; }

static void print_setup(const char *name, const struct counts *counts) {
    printf("%-8s %7u %7u %9u %8u %5lu", name, counts->clients, counts->servers, counts->databases, counts->attempts,
           (unsigned long)length_of(counts));
}

/* Other work on the machine can only slow a repetition, so the fastest of each side compare best on a busy one. */
static void print_ratio(size_t setup, enum job job) {
    const double *proved = rates[setup][job][PROVED], *peer = rates[setup][job][PEER];
    printf(" %11.2f %7.2f\n", median(proved) / median(peer), proved[repetitions - 1] / peer[repetitions - 1]);
}

static void print_rates(size_t setup, enum job job) {
    print_setup(jobs[job].name, &setups[setup].counts);
    for (enum side side = PROVED; side < SIDES; side++) {
        const double *sorted = rates[setup][job][side];
        printf(" %12.0f %12.0f %12.0f", median(sorted), sorted[0], sorted[repetitions - 1]);
    }
    print_ratio(setup, job);
}

/* The time is the reciprocal of the rate, so the highest rate is the least time. */
static void print_growth(size_t setup) {
    print_setup("growth", &setups[setup].counts);
    for (enum side side = PROVED; side < SIDES; side++) {
        const double *sorted = rates[setup][APPLY][side];
        printf(" %12.4f %12.4f %12.4f", 1e6 / median(sorted), 1e6 / sorted[repetitions - 1], 1e6 / sorted[0]);
    }
    print_ratio(setup, APPLY);
}

static void print_header(const char *unit) {
    printf("# %s\n", unit);
    printf("#job     clients servers databases attempts cells       proved        least         most         peer"
           "        least         most proved/peer fastest\n");
}

static void print_all(void) {
    printf("# the median of %lu repetitions, then the least and the most of them\n", (unsigned long)repetitions);
    printf("# a repetition has passes of the two sides in turn, and its fastest pass counts\n");
    printf("# proved/peer: the ratio of the median rates, and of the fastest; above 1 the proved library is faster\n");
    print_header("set-up: setups per second; apply and list: events per second");
    for (enum job job = SET_UP; job < JOBS; job++)
        for (size_t setup = 0; setup < SETUPS; setup++)
            if (setups[setup].every_job) print_rates(setup, job);
    print_header("growth: microseconds per event of apply against the cells of the table");
    for (size_t setup = 0; setup < SETUPS; setup++) print_growth(setup);
}

int main(int count, char **words) {
    repetitions = count == 3 ? strtoull(words[1], NULL, 10) : 0;
    shortest = count == 3 ? strtoull(words[2], NULL, 10) * 1000000u : 0;
    if (repetitions < 1 || repetitions > MOST_REPETITIONS || shortest == 0) {
        fprintf(stderr, "usage: bench REPETITIONS MILLISECONDS\n");
        return 2;
    }
    for (size_t setup = 0; setup < SETUPS; setup++) prepare_shelf(&shelves[setup], &setups[setup].counts);
    measure_all(0); /* warms up: the first repetition overwrites it */
    for (size_t repetition = 0; repetition < repetitions; repetition++) measure_all(repetition);
    sort_all();
    print_all();
    return 0;
}
