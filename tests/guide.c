/* Chooses events by looking at a sound table: for each kind, the fields that meet its rule's conditions. */
#include "guide.h"

const struct mood usual_mood = {
    .weights = {0, 400, 60, 400, 400, 480, 480, 120, 480, 60, 20, 160, 480, 480, 400, 4, 20, 1, 200},
    .yes = 95,
    .useful = 90,
};

const struct mood level_mood = {
    .weights = {0, 8, 8, 8, 8, 8, 8, 8, 8, 8, 8, 8, 8, 8, 8, 1, 1, 1, 8},
    .yes = 50,
    .useful = 80,
};

/* A sound table, the client and attempt looked at, and whether the event is wished to change something. */
struct view {
    const uint16_t *table;
    struct counts counts;
    struct random *random;
    bool useful;
    uint16_t yes;
    uint16_t client;
    uint16_t attempt;
    const uint16_t *cells; /* of the client */
    const uint16_t *row;
    uint16_t servers_up;
    uint16_t databases_up;
    uint16_t databases_ready;
};

struct mood any_mood(struct random *random) {
    static const uint16_t factors[] = {0, 1, 1, 2, 6}, yes[] = {100, 100, 95, 60, 20};
    static const uint16_t disturbances[] = {PEER_KIND_TIMEOUT,        PEER_KIND_READY,        PEER_KIND_SUSPECT,
                                            PEER_KIND_TRUST,          PEER_KIND_CLEAN,        PEER_KIND_SERVER_CRASH,
                                            PEER_KIND_DATABASE_CRASH, PEER_KIND_CLIENT_CRASH, PEER_KIND_RECOVERY};
    struct mood mood = usual_mood;
    for (unsigned place = 0; place < sizeof disturbances / sizeof *disturbances; place++) {
        uint16_t factor = factors[random_below(random, sizeof factors / sizeof *factors)];
        mood.weights[disturbances[place]] = (uint16_t)(mood.weights[disturbances[place]] * factor);
    }
    mood.yes = yes[random_below(random, sizeof yes / sizeof *yes)];
    mood.useful = random_from(random, 50, 100);
    return mood;
}

/* A party of the mask, or 0 if there is none. */
static uint16_t pick(struct random *random, uint16_t mask) {
    if (mask == 0) return 0;
    uint16_t skipped = random_below(random, ones(mask)), party = 1;
    for (;; party++)
        if ((mask & bit_of(party)) && skipped-- == 0) return party;
}

static uint16_t without(uint16_t mask, uint16_t removed) { return (uint16_t)(mask & ~removed); }

/* The parties of a mask that an event may choose from: if it is to be useful, those not yet done. */
static uint16_t still(const struct view *view, uint16_t mask, uint16_t done) {
    return view->useful ? without(mask, done) : mask;
}

static bool owner_up(const struct view *view) {
    return view->row[ROW_OWNER] != 0 && (view->servers_up & bit_of(view->row[ROW_OWNER]));
}

static bool listening(const struct view *view) { return view->row[ROW_COMPUTED] != 0 && view->row[ROW_WRITTEN] == 0; }

static bool propose_compute(const struct view *view, struct peer_event *event) {
    event->server = view->row[ROW_OWNER];
    event->value = random_from(view->random, 1, UINT16_MAX);
    return owner_up(view) && view->row[ROW_COMPUTED] == 0;
}

static bool propose_request(const struct view *view, struct peer_event *event) {
    if (view->useful && view->row[ROW_OWNER] != 0) return false;
    event->server = pick(view->random, view->row[ROW_SENT] & view->servers_up);
    return event->server != 0;
}

static bool propose_prepare(const struct view *view, struct peer_event *event) {
    event->database = pick(view->random, still(view, view->databases_up, view->row[ROW_VOTED]));
    event->value = random_chance(view->random, view->yes) ? 1 : 2;
    return event->database != 0 && view->row[ROW_COMPUTED] != 0;
}

static bool propose_hearing(const struct view *view, struct peer_event *event, uint16_t from) {
    if (!owner_up(view) || (view->useful && !listening(view))) return false;
    event->server = view->row[ROW_OWNER];
    event->database = pick(view->random, still(view, from, view->row[ROW_HEARD]));
    return event->database != 0;
}

static bool propose_write(const struct view *view, struct peer_event *event) {
    event->server = view->row[ROW_OWNER];
    return owner_up(view) && listening(view) && view->row[ROW_HEARD] == everyone(view->counts.databases);
}

/* A useful suspicion is one of the owner, since it lets a server clean. */
static bool propose_suspicion(const struct view *view, struct peer_event *event) {
    uint16_t all = everyone(view->counts.servers);
    event->value = view->useful ? view->row[ROW_OWNER] : pick(view->random, all);
    if (event->value == 0) return false;
    event->server = pick(view->random, without(view->servers_up, bit_of(event->value)));
    return event->server != 0;
}

static bool propose_trust(const struct view *view, struct peer_event *event) {
    event->server = pick(view->random, view->servers_up);
    if (event->server == 0) return false;
    uint16_t suspects = view->table[server_at(event->server) + SERVER_SUSPECTS];
    uint16_t from = view->useful ? suspects : everyone(view->counts.servers);
    event->value = pick(view->random, without(from, bit_of(event->server)));
    return event->value != 0;
}

static bool propose_clean(const struct view *view, struct peer_event *event) {
    uint16_t owner = view->row[ROW_OWNER], cleaners = 0;
    if (owner == 0) return false;
    for (uint16_t server = 1; server <= view->counts.servers; server++)
        if (server != owner && (view->table[server_at(server) + SERVER_SUSPECTS] & bit_of(owner)))
            cleaners = (uint16_t)(cleaners | bit_of(server));
    event->server = pick(view->random, still(view, cleaners & view->servers_up, view->row[ROW_TERMINATING]));
    return event->server != 0;
}

static bool propose_decide(const struct view *view, struct peer_event *event) {
    event->server = pick(view->random, view->row[ROW_TERMINATING]);
    if (event->server == 0 || view->row[ROW_OUTCOME] == OUTCOME_NONE) return false;
    event->database = pick(view->random, still(view, view->databases_up, view->row[sent_to(event->server)]));
    return event->database != 0;
}

static bool propose_acknowledgement(const struct view *view, struct peer_event *event) {
    uint16_t receivers = 0;
    for (uint16_t server = 1; server <= view->counts.servers; server++)
        if (still(view, view->row[sent_to(server)], view->row[known_by(&view->counts, server)]))
            receivers = (uint16_t)(receivers | bit_of(server));
    event->server = pick(view->random, receivers & view->servers_up);
    if (event->server == 0) return false;
    uint16_t known = view->row[known_by(&view->counts, event->server)];
    event->database = pick(view->random, still(view, view->row[sent_to(event->server)], known));
    return true;
}

static bool propose_result(const struct view *view, struct peer_event *event) {
    bool waiting = view->cells[CLIENT_PHASE] == PHASE_WAITING && view->cells[CLIENT_ATTEMPT] == view->attempt;
    uint16_t senders = 0;
    for (uint16_t server = 1; server <= view->counts.servers; server++)
        if (view->row[known_by(&view->counts, server)] == everyone(view->counts.databases))
            senders = (uint16_t)(senders | bit_of(server));
    event->server = pick(view->random, senders);
    return event->server != 0 && view->row[ROW_OUTCOME] != OUTCOME_NONE && (waiting || !view->useful);
}

static bool propose_by_client(const struct view *view, struct peer_event *event) {
    event->attempt = 0;
    if (view->cells[CLIENT_UP] == 0) return false;
    if (event->kind == PEER_KIND_CLIENT_CRASH) return true;
    if (event->kind == PEER_KIND_TIMEOUT)
        return view->cells[CLIENT_PHASE] == PHASE_WAITING &&
               still(view, everyone(view->counts.servers),
                     view->table[row_at(&view->counts, view->client, view->cells[CLIENT_ATTEMPT]) + ROW_SENT]);
    event->value = random_from(view->random, 1, UINT16_MAX);
    return view->cells[CLIENT_PHASE] == PHASE_IDLE;
}

/* The kinds that name no result: a server's or a database's own. */
static bool propose_by_party(const struct view *view, struct peer_event *event) {
    event->client = event->attempt = 0;
    switch (event->kind) {
    case PEER_KIND_SUSPECT:
        return propose_suspicion(view, event);
    case PEER_KIND_TRUST:
        return propose_trust(view, event);
    case PEER_KIND_SERVER_CRASH:
        event->server = pick(view->random, view->servers_up);
        return event->server != 0;
    case PEER_KIND_DATABASE_CRASH:
        event->database = pick(view->random, view->databases_up);
        return event->database != 0;
    default:
        event->database = pick(view->random, without(everyone(view->counts.databases), view->databases_up));
        return event->database != 0;
    }
}

static bool propose(const struct view *view, uint16_t kind, struct peer_event *event) {
    *event = (struct peer_event){.kind = kind, .client = view->client, .attempt = view->attempt};
    switch (kind) {
    case PEER_KIND_ISSUE:
    case PEER_KIND_TIMEOUT:
    case PEER_KIND_CLIENT_CRASH:
        return propose_by_client(view, event);
    case PEER_KIND_REQUEST:
        return propose_request(view, event);
    case PEER_KIND_COMPUTE:
        return propose_compute(view, event);
    case PEER_KIND_PREPARE:
        return propose_prepare(view, event);
    case PEER_KIND_VOTE:
        return propose_hearing(view, event, view->row[ROW_VOTED]);
    case PEER_KIND_READY:
        return propose_hearing(view, event, view->databases_ready);
    case PEER_KIND_WRITE:
        return propose_write(view, event);
    case PEER_KIND_CLEAN:
        return propose_clean(view, event);
    case PEER_KIND_DECIDE:
        return propose_decide(view, event);
    case PEER_KIND_ACKNOWLEDGEMENT:
        return propose_acknowledgement(view, event);
    case PEER_KIND_RESULT:
        return propose_result(view, event) && view->cells[CLIENT_UP] == 1;
    default:
        return propose_by_party(view, event);
    }
}

static void look_at_parties(struct view *view) {
    for (uint16_t server = 1; server <= view->counts.servers; server++)
        if (view->table[server_at(server) + SERVER_UP])
            view->servers_up = (uint16_t)(view->servers_up | bit_of(server));
    for (uint16_t database = 1; database <= view->counts.databases; database++) {
        const uint16_t *cells = view->table + database_at(&view->counts, database);
        if (cells[DATABASE_UP]) view->databases_up = (uint16_t)(view->databases_up | bit_of(database));
        if (cells[DATABASE_READY]) view->databases_ready = (uint16_t)(view->databases_ready | bit_of(database));
    }
}

/* Looks mostly at the client's current attempt, since the others are seldom unfinished. */
static void look_at_result(struct view *view) {
    enum { CURRENT = 85 };
    view->client = random_from(view->random, 1, view->counts.clients);
    view->cells = view->table + client_at(&view->counts, view->client);
    uint16_t current = view->cells[CLIENT_ATTEMPT];
    view->attempt = current != 0 && random_chance(view->random, CURRENT)
                        ? current
                        : random_from(view->random, 1, view->counts.attempts);
    view->row = view->table + row_at(&view->counts, view->client, view->attempt);
}

static uint16_t wished_kind(const struct mood *mood, struct random *random) {
    uint32_t total = 0;
    for (unsigned kind = 1; kind <= PEER_LAST_KIND; kind++) total += mood->weights[kind];
    uint32_t rest = random_below(random, total);
    uint16_t kind = 1;
    for (; rest >= mood->weights[kind]; kind++) rest -= mood->weights[kind];
    return kind;
}

struct peer_event invited_event(const uint16_t *table, const struct mood *mood, struct random *random) {
    enum { TRIES = 40 };
    struct view view = {
        .table = table,
        .counts = {table[HEADER_CLIENTS], table[HEADER_SERVERS], table[HEADER_DATABASES], table[HEADER_ATTEMPTS]},
        .random = random,
        .useful = random_chance(random, mood->useful),
        .yes = mood->yes};
    struct peer_event event;
    look_at_parties(&view);
    for (unsigned tried = 0; tried < TRIES; tried++) {
        look_at_result(&view);
        if (propose(&view, wished_kind(mood, random), &event)) return event;
    }
    return fitting_event(&view.counts, random);
}

/* The fields that each kind uses, and its largest value; A_SERVER where the value is a server's id. */
enum { A_SERVER = MOST_SERVERS };

static const struct {
    bool client, attempt, server, database;
    uint16_t most_value;
} uses[PEER_LAST_KIND + 1] = {
    [PEER_KIND_ISSUE] = {true, false, false, false, UINT16_MAX},
    [PEER_KIND_TIMEOUT] = {true, false, false, false, 0},
    [PEER_KIND_REQUEST] = {true, true, true, false, 0},
    [PEER_KIND_COMPUTE] = {true, true, true, false, UINT16_MAX},
    [PEER_KIND_PREPARE] = {true, true, false, true, 2},
    [PEER_KIND_VOTE] = {true, true, true, true, 0},
    [PEER_KIND_READY] = {true, true, true, true, 0},
    [PEER_KIND_WRITE] = {true, true, true, false, 0},
    [PEER_KIND_SUSPECT] = {false, false, true, false, A_SERVER},
    [PEER_KIND_TRUST] = {false, false, true, false, A_SERVER},
    [PEER_KIND_CLEAN] = {true, true, true, false, 0},
    [PEER_KIND_DECIDE] = {true, true, true, true, 0},
    [PEER_KIND_ACKNOWLEDGEMENT] = {true, true, true, true, 0},
    [PEER_KIND_RESULT] = {true, true, true, false, 0},
    [PEER_KIND_SERVER_CRASH] = {false, false, true, false, 0},
    [PEER_KIND_DATABASE_CRASH] = {false, false, false, true, 0},
    [PEER_KIND_CLIENT_CRASH] = {true, false, false, false, 0},
    [PEER_KIND_RECOVERY] = {false, false, false, true, 0},
};

struct peer_event fitting_event(const struct counts *counts, struct random *random) {
    uint16_t kind = random_from(random, 1, PEER_LAST_KIND), most_value = uses[kind].most_value;
    if (most_value == A_SERVER) most_value = counts->servers;
    struct peer_event event = {.kind = kind};
    if (uses[kind].client) event.client = random_from(random, 1, counts->clients);
    if (uses[kind].attempt) event.attempt = random_from(random, 1, counts->attempts);
    if (uses[kind].server) event.server = random_from(random, 1, counts->servers);
    if (uses[kind].database) event.database = random_from(random, 1, counts->databases);
    if (most_value) event.value = random_from(random, 1, most_value);
    return event;
}

struct peer_event tempting_event(const uint16_t *table, struct random *random) {
    enum { AT_THE_OWNER = 60 };
    struct counts counts = {table[HEADER_CLIENTS], table[HEADER_SERVERS], table[HEADER_DATABASES],
                            table[HEADER_ATTEMPTS]};
    struct peer_event event = fitting_event(&counts, random);
    if (event.attempt == 0) return event;
    uint16_t current = table[client_at(&counts, event.client) + CLIENT_ATTEMPT];
    if (current != 0) event.attempt = current;
    uint16_t owner = table[row_at(&counts, event.client, event.attempt) + ROW_OWNER];
    if (event.server != 0 && owner != 0 && random_chance(random, AT_THE_OWNER)) event.server = owner;
    return event;
}

/* A number at the edge of some field's range, or any. */
static uint16_t edge_or_any(struct random *random) {
    enum { EDGE = 80 };
    static const uint16_t edges[] = {0, 1, 2, 3, 4, 8, 9, 16, 17, 18, 19, UINT16_MAX};
    if (random_chance(random, EDGE)) return edges[random_below(random, sizeof edges / sizeof *edges)];
    return random_below(random, UINT16_MAX + 1);
}

struct peer_event wild_event(struct random *random) {
    struct peer_event event;
    event.kind = edge_or_any(random);
    event.client = edge_or_any(random);
    event.attempt = edge_or_any(random);
    event.server = edge_or_any(random);
    event.database = edge_or_any(random);
    event.value = edge_or_any(random);
    return event;
}

void spoil_event(struct peer_event *event, struct random *random) {
    uint16_t *fields[] = {&event->kind,   &event->client,   &event->attempt,
                          &event->server, &event->database, &event->value};
    uint16_t *field = fields[random_below(random, sizeof fields / sizeof *fields)];
    switch (random_below(random, 3)) {
    case 0:
        (*field)++;
        break;
    case 1:
        (*field)--;
        break;
    default:
        *field = edge_or_any(random);
    }
}
