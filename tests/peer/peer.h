/* The commit engine and its listing in plain C: an independent reading of the rules to hold the proved one to. */
#ifndef PEER_H
#define PEER_H

#include <stddef.h>
#include <stdint.h>

/* The numbers given back; the lowest that applies is given. */
enum {
    PEER_ACCEPTED = 0,
    PEER_WRONG_SIZE = 1,
    PEER_OUT_OF_RANGE = 2,
    PEER_UNKNOWN_KIND = 3,
    PEER_WRONG_FIELD = 4,
    PEER_PARTY_DOWN = 5,
    PEER_NOT_SENT = 6,
    PEER_MUST_NOT = 7,
    PEER_MALFORMED = 8 /* of the listing alone */
};

/* The longest input that the listing looks at, and room enough for the output of any input. */
enum { PEER_LONGEST_INPUT = 65536, PEER_LISTING_ROOM = 131072 };

/* The kinds of event, in the order of their numbers. */
enum {
    PEER_KIND_ISSUE = 1,
    PEER_KIND_TIMEOUT,
    PEER_KIND_REQUEST,
    PEER_KIND_COMPUTE,
    PEER_KIND_PREPARE,
    PEER_KIND_VOTE,
    PEER_KIND_READY,
    PEER_KIND_WRITE,
    PEER_KIND_SUSPECT,
    PEER_KIND_TRUST,
    PEER_KIND_CLEAN,
    PEER_KIND_DECIDE,
    PEER_KIND_ACKNOWLEDGEMENT,
    PEER_KIND_RESULT,
    PEER_KIND_SERVER_CRASH,
    PEER_KIND_DATABASE_CRASH,
    PEER_KIND_CLIENT_CRASH,
    PEER_KIND_RECOVERY,
    PEER_LAST_KIND = PEER_KIND_RECOVERY
};

struct peer_event {
    uint16_t kind;
    uint16_t client;
    uint16_t attempt;
    uint16_t server;
    uint16_t database;
    uint16_t value;
};

struct peer_ran {
    size_t accepted;
    uint16_t refusal;
};

/* The number of cells of a setup, or 0 where a count is outside its range. */
size_t peer_table_length(uint16_t clients, uint16_t servers, uint16_t databases, uint16_t attempts);

uint16_t peer_set_up(uint16_t *table, size_t length, uint16_t clients, uint16_t servers, uint16_t databases,
                     uint16_t attempts);

uint16_t peer_apply(uint16_t *table, size_t length, const struct peer_event *event);

/* Applies events in order up to the first refusal. The table is looked over once: an accepted event leaves a sound one
   sound. */
struct peer_ran peer_run(uint16_t *table, size_t length, const struct peer_event *events, size_t count);

/* Writes the listing of an input and gives its length; what does not fit into the room is left out. */
size_t peer_listing(const unsigned char *input, size_t length, char *output, size_t room);

#endif
