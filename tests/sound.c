/* Random setups and random tables in range. Every cell's range is 0 to some limit, but for a client's attempt. */
#include "sound.h"

struct counts random_counts(struct random *random) {
    enum { SMALL = 88, LARGEST = 15, SMALL_PARTIES = 3 };
    if (random_chance(random, SMALL))
        return (struct counts){random_from(random, 1, 2), random_from(random, 1, SMALL_PARTIES),
                               random_from(random, 1, SMALL_PARTIES), random_from(random, 1, SMALL_PARTIES)};
    if (random_chance(random, LARGEST))
        return (struct counts){MOST_CLIENTS, MOST_SERVERS, MOST_DATABASES, MOST_ATTEMPTS};
    return (struct counts){random_from(random, 1, MOST_CLIENTS), random_from(random, 1, MOST_SERVERS),
                           random_from(random, 1, MOST_DATABASES), random_from(random, 1, MOST_ATTEMPTS)};
}

static void limit_row(uint16_t *most, const struct counts *counts) {
    uint16_t servers = everyone(counts->servers), databases = everyone(counts->databases);
    for (size_t place = 0; place < ROW_ACKNOWLEDGEMENTS + 2u * counts->servers; place++) most[place] = databases;
    most[ROW_OWNER] = counts->servers;
    most[ROW_OUTCOME] = OUTCOME_ABORT;
    most[ROW_VALUE] = most[ROW_COMPUTED] = UINT16_MAX;
    most[ROW_SENT] = most[ROW_TERMINATING] = servers;
    most[ROW_WRITTEN] = 1;
}

static void limit_client(uint16_t *most, const struct counts *counts) {
    most[CLIENT_UP] = 1;
    most[CLIENT_PHASE] = PHASE_GIVEN_UP;
    most[CLIENT_ATTEMPT] = counts->attempts;
    most[CLIENT_REQUEST] = most[CLIENT_DELIVERED] = UINT16_MAX;
}

void set_limits(struct limits *limits, const struct counts *counts) {
    uint16_t *most = limits->most;
    limits->counts = *counts;
    limits->length = length_of(counts);
    most[HEADER_CLIENTS] = MOST_CLIENTS;
    most[HEADER_SERVERS] = MOST_SERVERS;
    most[HEADER_DATABASES] = MOST_DATABASES;
    most[HEADER_ATTEMPTS] = MOST_ATTEMPTS;
    for (uint16_t server = 1; server <= counts->servers; server++) {
        most[server_at(server) + SERVER_UP] = 1;
        most[server_at(server) + SERVER_SUSPECTS] = everyone(counts->servers);
    }
    for (uint16_t database = 1; database <= counts->databases; database++)
        most[database_at(counts, database) + DATABASE_UP] = most[database_at(counts, database) + DATABASE_READY] = 1;
    for (uint16_t client = 1; client <= counts->clients; client++) {
        limit_client(most + client_at(counts, client), counts);
        for (uint16_t attempt = 1; attempt <= counts->attempts; attempt++)
            limit_row(most + row_at(counts, client, attempt), counts);
    }
}

/* Full masks and zeros are common: most rules ask for one or the other. */
static uint16_t value_up_to(uint16_t most, struct random *random) {
    enum { FULL = 35, EMPTY = 15 };
    uint16_t chosen = random_below(random, 100);
    if (chosen < FULL) return most;
    if (chosen < FULL + EMPTY) return 0;
    return random_from(random, 0, most);
}

/* Makes attempt 0 exactly where the phase is idle; most clients wait. */
static void mend_clients(uint16_t *table, const struct counts *counts, struct random *random) {
    for (uint16_t client = 1; client <= counts->clients; client++) {
        uint16_t *cells = table + client_at(counts, client);
        if (cells[CLIENT_PHASE] == PHASE_IDLE)
            cells[CLIENT_ATTEMPT] = 0;
        else if (cells[CLIENT_ATTEMPT] == 0)
            cells[CLIENT_ATTEMPT] = random_from(random, 1, counts->attempts);
    }
}

/* Lifts one party of each sort: a table whose parties are mostly down would have little to accept. */
static void lift_parties(uint16_t *table, const struct counts *counts, struct random *random) {
    table[server_at(random_from(random, 1, counts->servers)) + SERVER_UP] = 1;
    table[database_at(counts, random_from(random, 1, counts->databases)) + DATABASE_UP] = 1;
    table[client_at(counts, random_from(random, 1, counts->clients)) + CLIENT_UP] = 1;
}

void fill_sound(uint16_t *table, const struct limits *limits, struct random *random) {
    enum { WAITING = 50 };
    const struct counts *counts = &limits->counts;
    table[HEADER_CLIENTS] = counts->clients;
    table[HEADER_SERVERS] = counts->servers;
    table[HEADER_DATABASES] = counts->databases;
    table[HEADER_ATTEMPTS] = counts->attempts;
    for (size_t place = HEADER_CELLS; place < limits->length; place++)
        table[place] = value_up_to(limits->most[place], random);
    for (uint16_t client = 1; client <= counts->clients; client++)
        if (random_chance(random, WAITING)) table[client_at(counts, client) + CLIENT_PHASE] = PHASE_WAITING;
    lift_parties(table, counts, random);
    mend_clients(table, counts, random);
}

void stir_sound(uint16_t *table, const struct limits *limits, struct random *random) {
    enum { LIFTED = 30 };
    size_t place = random_from(random, HEADER_CELLS, (uint16_t)(limits->length - 1));
    table[place] = value_up_to(limits->most[place], random);
    if (random_chance(random, LIFTED)) lift_parties(table, &limits->counts, random);
    mend_clients(table, &limits->counts, random);
}

void make_unsound(uint16_t *table, const struct limits *limits, struct random *random) {
    enum { CLIENT_CELL = 20, JUST_OVER = 50 };
    size_t place = random_below(random, (uint32_t)limits->length);
    if (random_chance(random, CLIENT_CELL)) {
        uint16_t *cells = table + client_at(&limits->counts, random_from(random, 1, limits->counts.clients));
        cells[random_chance(random, 50) ? CLIENT_PHASE : CLIENT_ATTEMPT] = random_from(random, 0, PHASE_GIVEN_UP + 1);
    } else if (limits->most[place] == UINT16_MAX || random_chance(random, JUST_OVER)) {
        table[place] = (uint16_t)(limits->most[place] + 1);
    } else {
        table[place] = random_from(random, (uint16_t)(limits->most[place] + 1), UINT16_MAX);
    }
}
