/* The layout of a table, its fresh state, and whether it is sound. */
#include "table.h"

#include "peer.h"

uint16_t bit_of(uint16_t party) { return (uint16_t)(1u << (party - 1u)); }

uint16_t everyone(uint16_t count) { return (uint16_t)((1u << count) - 1u); }

unsigned ones(uint16_t mask) {
    unsigned count = 0;
    for (unsigned rest = mask; rest != 0; rest >>= 1) count += rest & 1u;
    return count;
}

static bool from_one_to(uint16_t number, uint16_t most) { return 1 <= number && number <= most; }

bool counts_in_range(const struct counts *counts) {
    return from_one_to(counts->clients, MOST_CLIENTS) && from_one_to(counts->servers, MOST_SERVERS) &&
           from_one_to(counts->databases, MOST_DATABASES) && from_one_to(counts->attempts, MOST_ATTEMPTS);
}

static size_t row_cells(const struct counts *counts) { return ROW_ACKNOWLEDGEMENTS + 2u * (size_t)counts->servers; }

size_t server_at(uint16_t server) { return HEADER_CELLS + SERVER_CELLS * (server - (size_t)1); }

size_t database_at(const struct counts *counts, uint16_t database) {
    return server_at(counts->servers) + SERVER_CELLS + DATABASE_CELLS * (database - (size_t)1);
}

size_t client_at(const struct counts *counts, uint16_t client) {
    return database_at(counts, counts->databases) + DATABASE_CELLS + CLIENT_CELLS * (client - (size_t)1);
}

size_t row_at(const struct counts *counts, uint16_t client, uint16_t attempt) {
    size_t rows_before = (client - (size_t)1) * counts->attempts + (attempt - (size_t)1);
    return client_at(counts, counts->clients) + CLIENT_CELLS + rows_before * row_cells(counts);
}

size_t sent_to(uint16_t server) { return ROW_ACKNOWLEDGEMENTS + (server - (size_t)1); }

size_t known_by(const struct counts *counts, uint16_t server) { return sent_to(server) + counts->servers; }

size_t length_of(const struct counts *counts) {
    return row_at(counts, counts->clients, counts->attempts) + row_cells(counts);
}

size_t peer_table_length(uint16_t clients, uint16_t servers, uint16_t databases, uint16_t attempts) {
    struct counts counts = {clients, servers, databases, attempts};
    return counts_in_range(&counts) ? length_of(&counts) : 0;
}

uint16_t peer_set_up(uint16_t *table, size_t length, uint16_t clients, uint16_t servers, uint16_t databases,
                     uint16_t attempts) {
    struct counts counts = {clients, servers, databases, attempts};
    if (!counts_in_range(&counts) || length != length_of(&counts)) return PEER_WRONG_SIZE;
    for (size_t place = 0; place < length; place++) table[place] = 0;
    table[HEADER_CLIENTS] = clients;
    table[HEADER_SERVERS] = servers;
    table[HEADER_DATABASES] = databases;
    table[HEADER_ATTEMPTS] = attempts;
    for (uint16_t server = 1; server <= servers; server++) table[server_at(server) + SERVER_UP] = 1;
    for (uint16_t database = 1; database <= databases; database++)
        table[database_at(&counts, database) + DATABASE_UP] = 1;
    for (uint16_t client = 1; client <= clients; client++) table[client_at(&counts, client) + CLIENT_UP] = 1;
    return PEER_ACCEPTED;
}

static bool parties_sound(const uint16_t *table, const struct counts *counts) {
    for (uint16_t server = 1; server <= counts->servers; server++) {
        const uint16_t *cells = table + server_at(server);
        if (cells[SERVER_UP] > 1 || cells[SERVER_SUSPECTS] > everyone(counts->servers)) return false;
    }
    for (uint16_t database = 1; database <= counts->databases; database++) {
        const uint16_t *cells = table + database_at(counts, database);
        if (cells[DATABASE_UP] > 1 || cells[DATABASE_READY] > 1) return false;
    }
    for (uint16_t client = 1; client <= counts->clients; client++) {
        const uint16_t *cells = table + client_at(counts, client);
        if (cells[CLIENT_UP] > 1 || cells[CLIENT_PHASE] > PHASE_GIVEN_UP) return false;
        if (cells[CLIENT_ATTEMPT] > counts->attempts) return false;
        if ((cells[CLIENT_ATTEMPT] == 0) != (cells[CLIENT_PHASE] == PHASE_IDLE)) return false;
    }
    return true;
}

/* A mask has no bit for a party that does not exist exactly if it is at most the mask of everyone. */
static bool row_sound(const uint16_t *row, const struct counts *counts) {
    uint16_t servers = everyone(counts->servers), databases = everyone(counts->databases);
    if (row[ROW_OWNER] > counts->servers || row[ROW_OUTCOME] > OUTCOME_ABORT || row[ROW_WRITTEN] > 1) return false;
    if (row[ROW_SENT] > servers || row[ROW_TERMINATING] > servers) return false;
    if (row[ROW_VOTED] > databases || row[ROW_YES] > databases) return false;
    if (row[ROW_HEARD] > databases || row[ROW_HEARD_YES] > databases) return false;
    if (row[ROW_DECIDED] > databases || row[ROW_COMMITTED] > databases) return false;
    for (size_t place = ROW_ACKNOWLEDGEMENTS; place < row_cells(counts); place++)
        if (row[place] > databases) return false;
    return true;
}

uint16_t look_over(const uint16_t *table, size_t length, struct counts *counts) {
    if (length < HEADER_CELLS) return PEER_WRONG_SIZE;
    counts->clients = table[HEADER_CLIENTS];
    counts->servers = table[HEADER_SERVERS];
    counts->databases = table[HEADER_DATABASES];
    counts->attempts = table[HEADER_ATTEMPTS];
    if (!counts_in_range(counts) || length != length_of(counts)) return PEER_WRONG_SIZE;
    if (!parties_sound(table, counts)) return PEER_OUT_OF_RANGE;
    const uint16_t *row = table + row_at(counts, 1, 1);
    for (; row < table + length; row += row_cells(counts))
        if (!row_sound(row, counts)) return PEER_OUT_OF_RANGE;
    return PEER_ACCEPTED;
}
