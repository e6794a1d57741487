/* The engine's jobs, as librunner.a exports them (README.md says how it is made; x86-64 Linux).
   Each function is proved to meet its contract in crates/runner_c/src/lib.rt for every table, length, count and event, refused ones too. What it is lent is
   the caller's to see to, because no contract can say it:
   - `table` points to `length` cells that may be written, `events` to `count` records, both aligned as C aligns them;
   - `events` does not overlap `table`, and no one else touches either during the call;
   - the cells lent to vrolkant_apply and vrolkant_run, and the records, are initialised. Those lent to vrolkant_set_up need not be: its answer and the
     table that it makes are the same whatever they hold.
   Where `length` or `count` is 0, nothing is read or written through the pointer beside it. No contract speaks of null pointers. As the archive is compiled,
   one beside a 0 does no harm, and nothing of the C library is called but memset. */
#ifndef VROLKANT_H
#define VROLKANT_H

#include <stddef.h>
#include <stdint.h>

#ifdef __cplusplus
extern "C" {
#endif

/* The numbers given back: always the lowest that applies. vrolkant_set_up gives 0 and 1 alone. */
enum {
    VROLKANT_ACCEPTED = 0,     /* accepted */
    VROLKANT_WRONG_SIZE = 1,   /* a count outside its range, or a table of another length */
    VROLKANT_OUT_OF_RANGE = 2, /* a cell not in range */
    VROLKANT_UNKNOWN_KIND = 3, /* no event has this kind */
    VROLKANT_WRONG_FIELD = 4,  /* a field outside its range, or not 0 where it must be */
    VROLKANT_PARTY_DOWN = 5,   /* a party that acts is down */
    VROLKANT_NOT_SENT = 6,     /* the message was not sent */
    VROLKANT_MUST_NOT = 7      /* the event must not happen now */
};

/* The kinds of event, each with the fields that it uses, all from 1 on; the others are 0. */
enum {
    VROLKANT_ISSUE = 1,              /* client, value: the request */
    VROLKANT_TIMEOUT = 2,            /* client */
    VROLKANT_REQUEST_ARRIVES = 3,    /* client, attempt, server */
    VROLKANT_COMPUTE = 4,            /* client, attempt, server, value: what was computed */
    VROLKANT_PREPARE_ARRIVES = 5,    /* client, attempt, database, value: VROLKANT_YES or VROLKANT_NO */
    VROLKANT_VOTE_ARRIVES = 6,       /* client, attempt, server, database */
    VROLKANT_READY_ARRIVES = 7,      /* client, attempt, server, database */
    VROLKANT_WRITE = 8,              /* client, attempt, server */
    VROLKANT_SUSPECT = 9,            /* server, value: the server suspected */
    VROLKANT_TRUST = 10,             /* server, value: the server trusted again */
    VROLKANT_CLEAN = 11,             /* client, attempt, server */
    VROLKANT_DECIDE_ARRIVES = 12,    /* client, attempt, server: the sender, database */
    VROLKANT_ACK_ARRIVES = 13,       /* client, attempt, server, database */
    VROLKANT_RESULT_ARRIVES = 14,    /* client, attempt, server: the sender */
    VROLKANT_SERVER_CRASHES = 15,    /* server */
    VROLKANT_DATABASE_CRASHES = 16,  /* database */
    VROLKANT_CLIENT_CRASHES = 17,    /* client */
    VROLKANT_DATABASE_RECOVERS = 18  /* database */
};

/* What a database says when its prepare arrives. */
enum { VROLKANT_YES = 1, VROLKANT_NO = 2 };

/* An event record: clients, attempts, servers and databases count from 1. A field that its kind does not use is 0. */
struct vrolkant_event {
    uint16_t kind;
    uint16_t client;
    uint16_t attempt;
    uint16_t server;
    uint16_t database;
    uint16_t value;
};

/* What the list job answers: how many events were accepted, and the number of the refusal, or 0 at the end of the list. */
struct vrolkant_ran {
    size_t accepted;
    uint16_t refusal;
};

/* How many cells the table of a setup has, or 0 where a count is outside its range: clients, servers and databases from 1 to 8, attempts from 1 to 16. */
size_t vrolkant_table_length(uint16_t clients, uint16_t servers, uint16_t databases, uint16_t attempts);

/* Sets up a fresh table: 0; or 1 and no cell changed, where a count is outside its range or `length` is not vrolkant_table_length of the counts. */
uint16_t vrolkant_set_up(uint16_t *table, size_t length, uint16_t clients, uint16_t servers, uint16_t databases, uint16_t attempts);

/* Applies one event to a table of any content: 0, or why it is refused and no cell changed. 1 and 2 are asked of the whole table each time. */
uint16_t vrolkant_apply(uint16_t *table, size_t length, uint16_t kind, uint16_t client, uint16_t attempt, uint16_t server, uint16_t database, uint16_t value);

/* Applies events in order and stops at the first refusal; the table is left as the accepted ones made it. A table that 1 or 2 refuses is refused before the
   first event, and also where the list is empty. */
struct vrolkant_ran vrolkant_run(uint16_t *table, size_t length, const struct vrolkant_event *events, size_t count);

#ifdef __cplusplus
}
#endif

#endif
