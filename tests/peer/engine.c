/* The rule of each of the 18 kinds of event, applied to one event or to a list of them. */
#include "peer.h"
#include "table.h"

/* An event with the cells that its fields name; a field that the kind does not use names nothing. */
struct scene {
    struct counts counts;
    struct peer_event event;
    uint16_t *table;
    uint16_t *client;
    uint16_t *server;
    uint16_t *database;
    uint16_t *row;
};

typedef uint16_t rule(const struct scene *scene);

static bool has(uint16_t mask, uint16_t party) { return (mask & bit_of(party)) != 0; }

static void add(uint16_t *mask, uint16_t party) { *mask = (uint16_t)(*mask | bit_of(party)); }

static void take_away(uint16_t *mask, uint16_t party) { *mask = (uint16_t)(*mask & ~bit_of(party)); }

/* Sets a party's bit, and its companion to what is said: a stray companion bit does not survive. */
static void add_with_companion(uint16_t *mask, uint16_t *companion, uint16_t party, bool said) {
    add(mask, party);
    if (said)
        add(companion, party);
    else
        take_away(companion, party);
}

static uint16_t *row_of(const struct scene *scene, uint16_t client, uint16_t attempt) {
    return scene->table + row_at(&scene->counts, client, attempt);
}

/* The register of decisions is written once: an offer to one that holds a decision changes neither cell. */
static void offer(uint16_t *row, uint16_t outcome, uint16_t value) {
    if (row[ROW_OUTCOME] != OUTCOME_NONE) return;
    row[ROW_OUTCOME] = outcome;
    row[ROW_VALUE] = value;
}

static bool owns(const struct scene *scene) { return scene->row[ROW_OWNER] == scene->event.server; }

/* The condition under which a vote, or a ready in its place, is still listened to. */
static bool listens(const struct scene *scene) {
    const uint16_t *row = scene->row;
    return row[ROW_COMPUTED] != 0 && row[ROW_WRITTEN] == 0 && !has(row[ROW_HEARD], scene->event.database);
}

static uint16_t issue(const struct scene *scene) {
    if (scene->client[CLIENT_PHASE] != PHASE_IDLE) return PEER_MUST_NOT;
    scene->client[CLIENT_PHASE] = PHASE_WAITING;
    scene->client[CLIENT_ATTEMPT] = 1;
    scene->client[CLIENT_REQUEST] = scene->event.value;
    add(&row_of(scene, scene->event.client, 1)[ROW_SENT], 1);
    return PEER_ACCEPTED;
}

static uint16_t time_out(const struct scene *scene) {
    if (scene->client[CLIENT_PHASE] != PHASE_WAITING) return PEER_MUST_NOT;
    uint16_t *current = row_of(scene, scene->event.client, scene->client[CLIENT_ATTEMPT]);
    current[ROW_SENT] = everyone(scene->counts.servers);
    return PEER_ACCEPTED;
}

static uint16_t request_arrives(const struct scene *scene) {
    if (!has(scene->row[ROW_SENT], scene->event.server)) return PEER_NOT_SENT;
    if (scene->row[ROW_OWNER] == 0) scene->row[ROW_OWNER] = scene->event.server;
    return PEER_ACCEPTED;
}

static uint16_t compute(const struct scene *scene) {
    if (!owns(scene) || scene->row[ROW_COMPUTED] != 0) return PEER_MUST_NOT;
    scene->row[ROW_COMPUTED] = scene->event.value;
    return PEER_ACCEPTED;
}

static uint16_t prepare_arrives(const struct scene *scene) {
    enum { SAYS_YES = 1 };
    uint16_t *row = scene->row, database = scene->event.database;
    if (row[ROW_COMPUTED] == 0) return PEER_NOT_SENT;
    if (has(row[ROW_VOTED], database)) return PEER_ACCEPTED;
    bool yes = scene->event.value == SAYS_YES && !has(row[ROW_DECIDED], database);
    add_with_companion(&row[ROW_VOTED], &row[ROW_YES], database, yes);
    return PEER_ACCEPTED;
}

static uint16_t vote_arrives(const struct scene *scene) {
    uint16_t *row = scene->row, database = scene->event.database;
    if (!owns(scene) || !has(row[ROW_VOTED], database)) return PEER_NOT_SENT;
    if (listens(scene)) add_with_companion(&row[ROW_HEARD], &row[ROW_HEARD_YES], database, has(row[ROW_YES], database));
    return PEER_ACCEPTED;
}

static uint16_t ready_arrives(const struct scene *scene) {
    if (scene->database[DATABASE_READY] == 0) return PEER_NOT_SENT;
    if (owns(scene) && listens(scene))
        add_with_companion(&scene->row[ROW_HEARD], &scene->row[ROW_HEARD_YES], scene->event.database, false);
    return PEER_ACCEPTED;
}

static uint16_t write_decision(const struct scene *scene) {
    uint16_t *row = scene->row, all = everyone(scene->counts.databases);
    if (!owns(scene) || row[ROW_COMPUTED] == 0 || row[ROW_WRITTEN] != 0 || row[ROW_HEARD] != all) return PEER_MUST_NOT;
    if (ones(row[ROW_HEARD_YES]) == scene->counts.databases)
        offer(row, OUTCOME_COMMIT, row[ROW_COMPUTED]);
    else
        offer(row, OUTCOME_ABORT, 0);
    row[ROW_WRITTEN] = 1;
    add(&row[ROW_TERMINATING], scene->event.server);
    return PEER_ACCEPTED;
}

static uint16_t suspect(const struct scene *scene) {
    if (scene->event.value == scene->event.server) return PEER_MUST_NOT;
    add(&scene->server[SERVER_SUSPECTS], scene->event.value);
    return PEER_ACCEPTED;
}

static uint16_t trust(const struct scene *scene) {
    if (scene->event.value == scene->event.server) return PEER_MUST_NOT;
    take_away(&scene->server[SERVER_SUSPECTS], scene->event.value);
    return PEER_ACCEPTED;
}

static uint16_t clean(const struct scene *scene) {
    uint16_t owner = scene->row[ROW_OWNER];
    if (owner == 0 || owns(scene) || !has(scene->server[SERVER_SUSPECTS], owner)) return PEER_MUST_NOT;
    offer(scene->row, OUTCOME_ABORT, 0);
    add(&scene->row[ROW_TERMINATING], scene->event.server);
    return PEER_ACCEPTED;
}

static uint16_t decide_arrives(const struct scene *scene) {
    uint16_t *row = scene->row, sender = scene->event.server, database = scene->event.database;
    if (!has(row[ROW_TERMINATING], sender) || row[ROW_OUTCOME] == OUTCOME_NONE) return PEER_NOT_SENT;
    if (!has(row[ROW_DECIDED], database))
        add_with_companion(&row[ROW_DECIDED], &row[ROW_COMMITTED], database, row[ROW_OUTCOME] == OUTCOME_COMMIT);
    add(&row[sent_to(sender)], database);
    return PEER_ACCEPTED;
}

static uint16_t acknowledgement_arrives(const struct scene *scene) {
    uint16_t *row = scene->row, server = scene->event.server, database = scene->event.database;
    if (!has(row[sent_to(server)], database)) return PEER_NOT_SENT;
    add(&row[known_by(&scene->counts, server)], database);
    return PEER_ACCEPTED;
}

static void next_attempt(const struct scene *scene) {
    uint16_t *client = scene->client;
    if (client[CLIENT_ATTEMPT] == scene->counts.attempts) {
        client[CLIENT_PHASE] = PHASE_GIVEN_UP;
        return;
    }
    client[CLIENT_ATTEMPT]++;
    add(&row_of(scene, scene->event.client, client[CLIENT_ATTEMPT])[ROW_SENT], 1);
}

static uint16_t result_arrives(const struct scene *scene) {
    uint16_t *row = scene->row, *client = scene->client;
    uint16_t known = row[known_by(&scene->counts, scene->event.server)];
    if (row[ROW_OUTCOME] == OUTCOME_NONE || known != everyone(scene->counts.databases)) return PEER_NOT_SENT;
    if (client[CLIENT_PHASE] != PHASE_WAITING || client[CLIENT_ATTEMPT] != scene->event.attempt) return PEER_ACCEPTED;
    if (row[ROW_OUTCOME] == OUTCOME_COMMIT) {
        client[CLIENT_PHASE] = PHASE_DELIVERED;
        client[CLIENT_DELIVERED] = row[ROW_VALUE];
    } else {
        next_attempt(scene);
    }
    return PEER_ACCEPTED;
}

static uint16_t server_crashes(const struct scene *scene) {
    scene->server[SERVER_UP] = 0;
    return PEER_ACCEPTED;
}

static uint16_t database_crashes(const struct scene *scene) {
    scene->database[DATABASE_UP] = 0;
    return PEER_ACCEPTED;
}

static uint16_t client_crashes(const struct scene *scene) {
    scene->client[CLIENT_UP] = 0;
    return PEER_ACCEPTED;
}

static uint16_t database_recovers(const struct scene *scene) {
    if (scene->database[DATABASE_UP] == 1) return PEER_MUST_NOT;
    scene->database[DATABASE_UP] = 1;
    scene->database[DATABASE_READY] = 1;
    return PEER_ACCEPTED;
}

/* The fields of an event that name a party or an attempt, as flags; the party that acts is one of them. */
enum { NOBODY = 0, CLIENT = 1, ATTEMPT = 2, SERVER = 4, DATABASE = 8, RESULT = CLIENT | ATTEMPT };

enum value_use { NO_VALUE, ANY_VALUE, VOTE, SERVER_ID };

struct kind {
    unsigned fields;
    enum value_use value;
    unsigned actor;
    rule *rule;
};

static const struct kind kinds[PEER_LAST_KIND + 1] = {
    [PEER_KIND_ISSUE] = {CLIENT, ANY_VALUE, CLIENT, issue},
    [PEER_KIND_TIMEOUT] = {CLIENT, NO_VALUE, CLIENT, time_out},
    [PEER_KIND_REQUEST] = {RESULT | SERVER, NO_VALUE, SERVER, request_arrives},
    [PEER_KIND_COMPUTE] = {RESULT | SERVER, ANY_VALUE, SERVER, compute},
    [PEER_KIND_PREPARE] = {RESULT | DATABASE, VOTE, DATABASE, prepare_arrives},
    [PEER_KIND_VOTE] = {RESULT | SERVER | DATABASE, NO_VALUE, SERVER, vote_arrives},
    [PEER_KIND_READY] = {RESULT | SERVER | DATABASE, NO_VALUE, SERVER, ready_arrives},
    [PEER_KIND_WRITE] = {RESULT | SERVER, NO_VALUE, SERVER, write_decision},
    [PEER_KIND_SUSPECT] = {SERVER, SERVER_ID, SERVER, suspect},
    [PEER_KIND_TRUST] = {SERVER, SERVER_ID, SERVER, trust},
    [PEER_KIND_CLEAN] = {RESULT | SERVER, NO_VALUE, SERVER, clean},
    [PEER_KIND_DECIDE] = {RESULT | SERVER | DATABASE, NO_VALUE, DATABASE, decide_arrives},
    [PEER_KIND_ACKNOWLEDGEMENT] = {RESULT | SERVER | DATABASE, NO_VALUE, SERVER, acknowledgement_arrives},
    [PEER_KIND_RESULT] = {RESULT | SERVER, NO_VALUE, CLIENT, result_arrives},
    [PEER_KIND_SERVER_CRASH] = {SERVER, NO_VALUE, SERVER, server_crashes},
    [PEER_KIND_DATABASE_CRASH] = {DATABASE, NO_VALUE, DATABASE, database_crashes},
    [PEER_KIND_CLIENT_CRASH] = {CLIENT, NO_VALUE, CLIENT, client_crashes},
    [PEER_KIND_RECOVERY] = {DATABASE, NO_VALUE, NOBODY, database_recovers},
};

/* A field that is used lies in 1 to most, one that is not is 0. */
static bool field_fits(bool used, uint16_t field, uint16_t most) {
    return used ? 1 <= field && field <= most : field == 0;
}

static bool fields_fit(const struct kind *kind, const struct peer_event *event, const struct counts *counts) {
    const uint16_t most_value[] = {[NO_VALUE] = 0, [ANY_VALUE] = UINT16_MAX, [VOTE] = 2, [SERVER_ID] = counts->servers};
    return field_fits(kind->fields & CLIENT, event->client, counts->clients) &&
           field_fits(kind->fields & ATTEMPT, event->attempt, counts->attempts) &&
           field_fits(kind->fields & SERVER, event->server, counts->servers) &&
           field_fits(kind->fields & DATABASE, event->database, counts->databases) &&
           field_fits(kind->value != NO_VALUE, event->value, most_value[kind->value]);
}

/* Finds the cells that the fields name; the fields have been seen to fit. */
static void set_scene(struct scene *scene, unsigned fields) {
    const struct counts *counts = &scene->counts;
    const struct peer_event *event = &scene->event;
    if (fields & CLIENT) scene->client = scene->table + client_at(counts, event->client);
    if (fields & SERVER) scene->server = scene->table + server_at(event->server);
    if (fields & DATABASE) scene->database = scene->table + database_at(counts, event->database);
    if (fields & ATTEMPT) scene->row = row_of(scene, event->client, event->attempt);
}

static bool actor_is_up(unsigned actor, const struct scene *scene) {
    switch (actor) {
    case CLIENT:
        return scene->client[CLIENT_UP] == 1;
    case SERVER:
        return scene->server[SERVER_UP] == 1;
    case DATABASE:
        return scene->database[DATABASE_UP] == 1;
    default:
        return true;
    }
}

/* Applies an event to a table that was seen to be sound, with the counts of its header. */
static uint16_t apply_sound(uint16_t *table, const struct counts *counts, const struct peer_event *event) {
    struct scene scene = {.counts = *counts, .event = *event, .table = table};
    if (event->kind < PEER_KIND_ISSUE || event->kind > PEER_LAST_KIND) return PEER_UNKNOWN_KIND;
    const struct kind *kind = &kinds[event->kind];
    if (!fields_fit(kind, event, counts)) return PEER_WRONG_FIELD;
    set_scene(&scene, kind->fields);
    if (!actor_is_up(kind->actor, &scene)) return PEER_PARTY_DOWN;
    return kind->rule(&scene);
}

uint16_t peer_apply(uint16_t *table, size_t length, const struct peer_event *event) {
    struct counts counts;
    uint16_t unsound = look_over(table, length, &counts);
    if (unsound) return unsound;
    return apply_sound(table, &counts, event);
}

struct peer_ran peer_run(uint16_t *table, size_t length, const struct peer_event *events, size_t count) {
    struct counts counts;
    struct peer_ran ran = {.accepted = 0, .refusal = look_over(table, length, &counts)};
    while (ran.refusal == PEER_ACCEPTED && ran.accepted < count) {
        ran.refusal = apply_sound(table, &counts, &events[ran.accepted]);
        if (ran.refusal == PEER_ACCEPTED) ran.accepted++;
    }
    return ran;
}
