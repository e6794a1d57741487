/* Where each cell of a table stands. Parties, clients and attempts count from 1. */
#ifndef PEER_TABLE_H
#define PEER_TABLE_H

#include <stdbool.h>
#include <stddef.h>
#include <stdint.h>

enum { MOST_CLIENTS = 8, MOST_SERVERS = 8, MOST_DATABASES = 8, MOST_ATTEMPTS = 16, MOST_CELLS = 3788 };

enum { HEADER_CLIENTS, HEADER_SERVERS, HEADER_DATABASES, HEADER_ATTEMPTS, HEADER_CELLS };
enum { SERVER_UP, SERVER_SUSPECTS, SERVER_CELLS };
enum { DATABASE_UP, DATABASE_READY, DATABASE_CELLS };
enum { CLIENT_UP, CLIENT_PHASE, CLIENT_ATTEMPT, CLIENT_REQUEST, CLIENT_DELIVERED, CLIENT_CELLS };

/* The cells of one result's row. From ROW_ACKNOWLEDGEMENTS on there are two masks for each server. */
enum {
    ROW_OWNER,
    ROW_OUTCOME,
    ROW_VALUE,
    ROW_COMPUTED,
    ROW_SENT,
    ROW_VOTED,
    ROW_YES,
    ROW_HEARD,
    ROW_HEARD_YES,
    ROW_WRITTEN,
    ROW_TERMINATING,
    ROW_DECIDED,
    ROW_COMMITTED,
    ROW_ACKNOWLEDGEMENTS
};

enum { PHASE_IDLE, PHASE_WAITING, PHASE_DELIVERED, PHASE_GIVEN_UP };
enum { OUTCOME_NONE, OUTCOME_COMMIT, OUTCOME_ABORT };

struct counts {
    uint16_t clients;
    uint16_t servers;
    uint16_t databases;
    uint16_t attempts;
};

/* The bit of a party in a mask, and the mask of the parties 1 to count. */
uint16_t bit_of(uint16_t party);
uint16_t everyone(uint16_t count);
unsigned ones(uint16_t mask);

bool counts_in_range(const struct counts *counts);
size_t length_of(const struct counts *counts);

/* The place of a party's first cell, and of a result's. */
size_t server_at(uint16_t server);
size_t database_at(const struct counts *counts, uint16_t database);
size_t client_at(const struct counts *counts, uint16_t client);
size_t row_at(const struct counts *counts, uint16_t client, uint16_t attempt);

/* The place within a row of the acknowledgements sent to a server, and of those that it knows. */
size_t sent_to(uint16_t server);
size_t known_by(const struct counts *counts, uint16_t server);

/* Takes the counts out of the header. Gives 1 or 2 for a table that is not sound, else 0. */
uint16_t look_over(const uint16_t *table, size_t length, struct counts *counts);

#endif
