/* Plays paper 01's L1 through the C interface, event by event, and prints its listing. */
#include "vrolkant.h"

#include <stdbool.h>
#include <stdio.h>
#include <string.h>

/* The setup of L1. */
enum { CLIENTS = 1, SERVERS = 2, DATABASES = 1, ATTEMPTS = 2 };

/* Fields are named, so that those a kind does not use are 0, as they have to be. */
static const struct vrolkant_event events[] = {
    {.kind = VROLKANT_ISSUE, .client = 1, .value = 700},
    {.kind = VROLKANT_REQUEST_ARRIVES, .client = 1, .attempt = 1, .server = 1},
    {.kind = VROLKANT_COMPUTE, .client = 1, .attempt = 1, .server = 1, .value = 55},
    {.kind = VROLKANT_SUSPECT, .server = 2, .value = 1},
    {.kind = VROLKANT_CLEAN, .client = 1, .attempt = 1, .server = 2},
    {.kind = VROLKANT_DECIDE_ARRIVES, .client = 1, .attempt = 1, .server = 2, .database = 1},
    {.kind = VROLKANT_PREPARE_ARRIVES, .client = 1, .attempt = 1, .database = 1, .value = VROLKANT_YES},
    {.kind = VROLKANT_ACK_ARRIVES, .client = 1, .attempt = 1, .server = 2, .database = 1},
    {.kind = VROLKANT_RESULT_ARRIVES, .client = 1, .attempt = 1, .server = 2},
    /* the client went on to attempt 2 and sent it to server 1 alone: this one is refused */
    {.kind = VROLKANT_REQUEST_ARRIVES, .client = 1, .attempt = 2, .server = 2},
};

enum { EVENT_COUNT = sizeof events / sizeof events[0] };

/* How many cells each part of the table has; the parts lie in this order. */
enum {
    HEADER_CELLS = 4,
    SERVER_CELLS = 2,
    DATABASE_CELLS = 2,
    CLIENT_CELLS = 5,
    RESULT_CELLS = 13 + 2 * SERVERS
};

enum {
    CLIENTS_START = HEADER_CELLS + SERVERS * SERVER_CELLS + DATABASES * DATABASE_CELLS,
    RESULTS_START = CLIENTS_START + CLIENTS * CLIENT_CELLS,
    TABLE_CELLS = RESULTS_START + CLIENTS * ATTEMPTS * RESULT_CELLS
};

/* Where a client and a result keep what the listing prints. */
enum { PHASE = 1, ATTEMPT = 2, DELIVERED = 4 };
enum { OWNER = 0, OUTCOME = 1, VALUE = 2, VOTED_YES = 6, COMMITTED = 12 };

/* The engine allocates nothing: the caller owns the table. A caller that learns the counts only when it runs asks vrolkant_table_length how many
   cells to have ready; here they are constants, and the engine's length is held against them. */
static bool set_up(uint16_t table[TABLE_CELLS])
{
    size_t length = vrolkant_table_length(CLIENTS, SERVERS, DATABASES, ATTEMPTS);
    if (length != TABLE_CELLS) {
        fprintf(stderr, "play: the engine asks for %zu cells, not %d\n", length, TABLE_CELLS);
        return false;
    }
    uint16_t number = vrolkant_set_up(table, length, CLIENTS, SERVERS, DATABASES, ATTEMPTS);
    if (number != VROLKANT_ACCEPTED) {
        fprintf(stderr, "play: the setup is refused: %d\n", number);
        return false;
    }
    return true;
}

static uint16_t apply(uint16_t table[TABLE_CELLS], const struct vrolkant_event *event)
{
    return vrolkant_apply(table, TABLE_CELLS, event->kind, event->client, event->attempt, event->server, event->database, event->value);
}

/* Prints each event's place and number, and answers as vrolkant_run does. */
static struct vrolkant_ran play(uint16_t table[TABLE_CELLS])
{
    struct vrolkant_ran ran = {0, VROLKANT_ACCEPTED};
    while (ran.accepted < EVENT_COUNT) {
        ran.refusal = apply(table, &events[ran.accepted]);
        printf("%zu %d\n", ran.accepted + 1, ran.refusal);
        if (ran.refusal != VROLKANT_ACCEPTED) {
            break;
        }
        ran.accepted++;
    }
    return ran;
}

/* How many parties a mask holds. */
static int count_parties(uint16_t mask)
{
    int count = 0;
    for (; mask != 0; mask >>= 1) {
        count += mask & 1;
    }
    return count;
}

static void print_clients(const uint16_t table[TABLE_CELLS])
{
    for (int client = 1; client <= CLIENTS; client++) {
        const uint16_t *cells = table + CLIENTS_START + (client - 1) * CLIENT_CELLS;
        printf("C %d %d %d %d\n", client, cells[PHASE], cells[ATTEMPT], cells[DELIVERED]);
    }
}

static void print_results(const uint16_t table[TABLE_CELLS])
{
    const uint16_t *row = table + RESULTS_START;
    for (int client = 1; client <= CLIENTS; client++) {
        for (int attempt = 1; attempt <= ATTEMPTS; attempt++, row += RESULT_CELLS) {
            /* the listing leaves out what no server claimed */
            if (row[OWNER] != 0) {
                printf("R %d %d %d %d %d %d %d\n", client, attempt, row[OWNER], row[OUTCOME], row[VALUE],
                       count_parties(row[VOTED_YES]), count_parties(row[COMMITTED]));
            }
        }
    }
}

/* The same records by the list job, on a table of its own: the answer and every cell have to be as when they were played one by one. */
static bool runs_alike(const uint16_t played[TABLE_CELLS], struct vrolkant_ran one_by_one)
{
    uint16_t table[TABLE_CELLS];
    if (!set_up(table)) {
        return false;
    }
    struct vrolkant_ran ran = vrolkant_run(table, TABLE_CELLS, events, EVENT_COUNT);
    fprintf(stderr, "vrolkant_run: %zu accepted, refusal %d\n", ran.accepted, ran.refusal);
    return ran.accepted == one_by_one.accepted && ran.refusal == one_by_one.refusal && memcmp(table, played, sizeof table) == 0;
}

int main(void)
{
    uint16_t table[TABLE_CELLS];
    if (!set_up(table)) {
        return 1;
    }
    struct vrolkant_ran one_by_one = play(table);
    print_clients(table);
    print_results(table);
    if (!runs_alike(table, one_by_one)) {
        fprintf(stderr, "play: the list job did not do the same\n");
        return 1;
    }
    return 0;
}
