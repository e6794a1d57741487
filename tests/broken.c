/* An engine with one fault, named by the environment's BREAK, that poses as the proved one in a comparison. */
#include "peer/peer.h"
#include "peer/table.h"
#include "vrolkant.h"

#include <stdlib.h>
#include <string.h>

typedef uint16_t faulty_apply(uint16_t *table, size_t length, const struct peer_event *event);

/* The row of the event's result; the event has been accepted or at least seen to fit. */
static uint16_t *row_of(uint16_t *table, const struct peer_event *event) {
    struct counts counts = {table[HEADER_CLIENTS], table[HEADER_SERVERS], table[HEADER_DATABASES],
                            table[HEADER_ATTEMPTS]};
    return table + row_at(&counts, event->client, event->attempt);
}

static uint16_t clean_forces_abort(uint16_t *table, size_t length, const struct peer_event *event) {
    uint16_t number = peer_apply(table, length, event);
    if (number != PEER_ACCEPTED || event->kind != PEER_KIND_CLEAN) return number;
    row_of(table, event)[ROW_OUTCOME] = OUTCOME_ABORT;
    row_of(table, event)[ROW_VALUE] = 0;
    return number;
}

static uint16_t write_replaces_abort(uint16_t *table, size_t length, const struct peer_event *event) {
    uint16_t number = peer_apply(table, length, event);
    if (number != PEER_ACCEPTED || event->kind != PEER_KIND_WRITE) return number;
    uint16_t *row = row_of(table, event);
    if (row[ROW_HEARD_YES] != everyone(table[HEADER_DATABASES])) return number;
    row[ROW_OUTCOME] = OUTCOME_COMMIT;
    row[ROW_VALUE] = row[ROW_COMPUTED];
    return number;
}

static uint16_t acknowledgement_for_another(uint16_t *table, size_t length, const struct peer_event *event) {
    uint16_t number = peer_apply(table, length, event);
    if (number != PEER_ACCEPTED || event->kind != PEER_KIND_ACKNOWLEDGEMENT) return number;
    uint16_t other = (uint16_t)(event->server % table[HEADER_SERVERS] + 1);
    uint16_t *known = row_of(table, event) + sent_to(other) + table[HEADER_SERVERS];
    *known = (uint16_t)(*known | bit_of(event->database));
    return number;
}

static uint16_t stray_companion_kept(uint16_t *table, size_t length, const struct peer_event *event) {
    uint16_t old[MOST_CELLS];
    if (length <= MOST_CELLS) memcpy(old, table, length * sizeof *old);
    uint16_t number = peer_apply(table, length, event);
    if (number != PEER_ACCEPTED || event->kind != PEER_KIND_PREPARE) return number;
    uint16_t *row = row_of(table, event);
    row[ROW_YES] = (uint16_t)(row[ROW_YES] | old[row - table + ROW_YES]);
    return number;
}

static uint16_t result_on_some_acknowledgements(uint16_t *table, size_t length, const struct peer_event *event) {
    uint16_t number = peer_apply(table, length, event);
    if (number != PEER_NOT_SENT || event->kind != PEER_KIND_RESULT) return number;
    uint16_t *known = row_of(table, event) + sent_to(event->server) + table[HEADER_SERVERS], old = *known;
    if (old == 0) return number;
    *known = everyone(table[HEADER_DATABASES]);
    number = peer_apply(table, length, event);
    *known = old;
    return number;
}

static uint16_t refusal_changes_a_cell(uint16_t *table, size_t length, const struct peer_event *event) {
    uint16_t number = peer_apply(table, length, event);
    if (number == PEER_MUST_NOT && event->kind == PEER_KIND_WRITE) row_of(table, event)[ROW_WRITTEN] ^= 1;
    return number;
}

static uint16_t recovery_of_an_up_database(uint16_t *table, size_t length, const struct peer_event *event) {
    uint16_t number = peer_apply(table, length, event);
    return number == PEER_MUST_NOT && event->kind == PEER_KIND_RECOVERY ? PEER_ACCEPTED : number;
}

static uint16_t computes_again(uint16_t *table, size_t length, const struct peer_event *event) {
    uint16_t number = peer_apply(table, length, event);
    if (number != PEER_MUST_NOT || event->kind != PEER_KIND_COMPUTE || row_of(table, event)[ROW_OWNER] != event->server)
        return number;
    row_of(table, event)[ROW_COMPUTED] = event->value;
    return PEER_ACCEPTED;
}

static uint16_t late_prepare_votes_yes(uint16_t *table, size_t length, const struct peer_event *event) {
    uint16_t old[MOST_CELLS];
    if (length <= MOST_CELLS) memcpy(old, table, length * sizeof *old);
    uint16_t number = peer_apply(table, length, event);
    if (number != PEER_ACCEPTED || event->kind != PEER_KIND_PREPARE || event->value != 1) return number;
    uint16_t *row = row_of(table, event);
    if (row[ROW_VOTED] != old[row - table + ROW_VOTED])
        row[ROW_YES] = (uint16_t)(row[ROW_YES] | bit_of(event->database));
    return number;
}

static uint16_t ready_asks_for_a_vote(uint16_t *table, size_t length, const struct peer_event *event) {
    uint16_t old[MOST_CELLS];
    if (length <= MOST_CELLS) memcpy(old, table, length * sizeof *old);
    uint16_t number = peer_apply(table, length, event);
    if (number != PEER_ACCEPTED || event->kind != PEER_KIND_READY) return number;
    if (!(row_of(table, event)[ROW_VOTED] & bit_of(event->database))) memcpy(table, old, length * sizeof *old);
    return number;
}

static uint16_t sender_must_be_up(uint16_t *table, size_t length, const struct peer_event *event) {
    uint16_t old[MOST_CELLS];
    if (length <= MOST_CELLS) memcpy(old, table, length * sizeof *old);
    uint16_t number = peer_apply(table, length, event);
    if (number != PEER_ACCEPTED || event->kind != PEER_KIND_DECIDE || table[server_at(event->server) + SERVER_UP])
        return number;
    memcpy(table, old, length * sizeof *old);
    return PEER_PARTY_DOWN;
}

static uint16_t last_mask_unchecked(uint16_t *table, size_t length, const struct peer_event *event) {
    uint16_t number = peer_apply(table, length, event);
    if (number != PEER_OUT_OF_RANGE) return number;
    uint16_t old = table[length - 1];
    table[length - 1] = 0;
    number = peer_apply(table, length, event);
    table[length - 1] = old;
    return number;
}

static uint16_t writes_past_the_table(uint16_t *table, size_t length, const struct peer_event *event) {
    uint16_t number = peer_apply(table, length, event);
    if (number == PEER_ACCEPTED && event->kind == PEER_KIND_DECIDE) table[length] = 0;
    return number;
}

static uint16_t higher_number_first(uint16_t *table, size_t length, const struct peer_event *event) {
    uint16_t number = peer_apply(table, length, event);
    return number == PEER_PARTY_DOWN && event->kind == PEER_KIND_ISSUE ? PEER_MUST_NOT : number;
}

static const struct {
    const char *name;
    faulty_apply *apply;
} faults[] = {
    {"clean-forces-abort", clean_forces_abort},
    {"write-replaces-abort", write_replaces_abort},
    {"acknowledgement-for-another", acknowledgement_for_another},
    {"stray-companion-kept", stray_companion_kept},
    {"result-on-some-acknowledgements", result_on_some_acknowledgements},
    {"refusal-changes-a-cell", refusal_changes_a_cell},
    {"recovery-of-an-up-database", recovery_of_an_up_database},
    {"computes-again", computes_again},
    {"late-prepare-votes-yes", late_prepare_votes_yes},
    {"ready-asks-for-a-vote", ready_asks_for_a_vote},
    {"sender-must-be-up", sender_must_be_up},
    {"last-mask-unchecked", last_mask_unchecked},
    {"writes-past-the-table", writes_past_the_table},
    {"higher-number-first", higher_number_first},
};

static bool broken(const char *name) {
    const char *wanted = getenv("BREAK");
    return wanted && strcmp(wanted, name) == 0;
}

static uint16_t apply(uint16_t *table, size_t length, const struct peer_event *event) {
    for (size_t place = 0; place < sizeof faults / sizeof *faults; place++)
        if (broken(faults[place].name)) return faults[place].apply(table, length, event);
    return peer_apply(table, length, event);
}

size_t vrolkant_table_length(uint16_t clients, uint16_t servers, uint16_t databases, uint16_t attempts) {
    if (broken("more-attempts-than-there-are") && attempts == MOST_ATTEMPTS + 1) attempts--;
    return peer_table_length(clients, servers, databases, attempts);
}

uint16_t vrolkant_set_up(uint16_t *table, size_t length, uint16_t clients, uint16_t servers, uint16_t databases,
                         uint16_t attempts) {
    uint16_t number = peer_set_up(table, length, clients, servers, databases, attempts);
    if (broken("setup-refused-but-done") && number == PEER_WRONG_SIZE && length > 0) table[0] = clients;
    return number;
}

uint16_t vrolkant_apply(uint16_t *table, size_t length, uint16_t kind, uint16_t client, uint16_t attempt,
                        uint16_t server, uint16_t database, uint16_t value) {
    struct peer_event event = {kind, client, attempt, server, database, value};
    return apply(table, length, &event);
}

struct vrolkant_ran vrolkant_run(uint16_t *table, size_t length, const struct vrolkant_event *events, size_t count) {
    struct counts counts;
    struct vrolkant_ran ran = {0, look_over(table, length, &counts)};
    if (broken("empty-list-unchecked") && count == 0) ran.refusal = PEER_ACCEPTED;
    if (broken("list-unchecked") && ran.refusal == PEER_OUT_OF_RANGE) return (struct vrolkant_ran){count, PEER_ACCEPTED};
    if (broken("check-loses-its-number") && ran.refusal == PEER_OUT_OF_RANGE) ran.refusal = PEER_WRONG_SIZE;
    while (ran.refusal == PEER_ACCEPTED && ran.accepted < count) {
        const struct vrolkant_event *next = &events[ran.accepted];
        struct peer_event event = {next->kind, next->client, next->attempt, next->server, next->database, next->value};
        ran.refusal = apply(table, length, &event);
        if (ran.refusal == PEER_ACCEPTED) ran.accepted++;
    }
    if (broken("run-counts-the-refused") && ran.refusal > PEER_OUT_OF_RANGE) ran.accepted++;
    return ran;
}
