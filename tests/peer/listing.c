/* The listing: reads a setup line and event lines, and says what became of each event and of each result. */
#include "peer.h"
#include "table.h"

struct reader {
    const unsigned char *input;
    size_t length;
    size_t place;
};

struct writer {
    char *output;
    size_t room;
    size_t length;
};

static bool takes(struct reader *reader, unsigned char wanted) {
    if (reader->place == reader->length || reader->input[reader->place] != wanted) return false;
    reader->place++;
    return true;
}

static bool digit_next(const struct reader *reader) {
    return reader->place < reader->length && '0' <= reader->input[reader->place] && reader->input[reader->place] <= '9';
}

/* Reads a decimal of at most 65535 without a leading zero; false if there is none. */
static bool read_number(struct reader *reader, uint16_t *number) {
    if (!digit_next(reader)) return false;
    bool leading_zero = reader->input[reader->place] == '0';
    uint32_t sum = 0;
    size_t digits = 0;
    for (; digit_next(reader); digits++) {
        sum = sum * 10 + (reader->input[reader->place] - (uint32_t)'0');
        if (sum > UINT16_MAX) return false;
        reader->place++;
    }
    *number = (uint16_t)sum;
    return !(leading_zero && digits > 1);
}

/* Reads a line of exactly count numbers, one space between, ended by a newline; false if it is malformed. */
static bool read_line(struct reader *reader, uint16_t *numbers, size_t count) {
    for (size_t place = 0; place < count; place++) {
        if (place > 0 && !takes(reader, ' ')) return false;
        if (!read_number(reader, &numbers[place])) return false;
    }
    return takes(reader, '\n');
}

static void write_character(struct writer *writer, char character) {
    if (writer->length == writer->room) return;
    writer->output[writer->length++] = character;
}

static void write_number(struct writer *writer, size_t number) {
    if (number >= 10) write_number(writer, number / 10);
    write_character(writer, (char)('0' + number % 10));
}

/* Writes a line: a letter if there is one, and the numbers. */
static void write_line(struct writer *writer, char letter, const size_t *numbers, size_t count) {
    if (letter) write_character(writer, letter);
    for (size_t place = 0; place < count; place++) {
        if (letter || place > 0) write_character(writer, ' ');
        write_number(writer, numbers[place]);
    }
    write_character(writer, '\n');
}

static void write_answer(struct writer *writer, size_t place, uint16_t number) {
    const size_t numbers[] = {place, number};
    write_line(writer, 0, numbers, sizeof numbers / sizeof *numbers);
}

static void write_clients(struct writer *writer, const uint16_t *table, const struct counts *counts) {
    for (uint16_t client = 1; client <= counts->clients; client++) {
        const uint16_t *cells = table + client_at(counts, client);
        const size_t numbers[] = {client, cells[CLIENT_PHASE], cells[CLIENT_ATTEMPT], cells[CLIENT_DELIVERED]};
        write_line(writer, 'C', numbers, sizeof numbers / sizeof *numbers);
    }
}

static void write_result(struct writer *writer, const uint16_t *row, uint16_t client, uint16_t attempt) {
    if (row[ROW_OWNER] == 0) return;
    const size_t numbers[] = {client,
                              attempt,
                              row[ROW_OWNER],
                              row[ROW_OUTCOME],
                              row[ROW_VALUE],
                              ones(row[ROW_YES]),
                              ones(row[ROW_COMMITTED])};
    write_line(writer, 'R', numbers, sizeof numbers / sizeof *numbers);
}

static void write_results(struct writer *writer, const uint16_t *table, const struct counts *counts) {
    for (uint16_t client = 1; client <= counts->clients; client++)
        for (uint16_t attempt = 1; attempt <= counts->attempts; attempt++)
            write_result(writer, table + row_at(counts, client, attempt), client, attempt);
}

/* Applies the event lines up to the first refusal; what stands behind it is not looked at. */
static void list_events(struct reader *reader, struct writer *writer, uint16_t *table, size_t cells) {
    uint16_t answer = PEER_ACCEPTED;
    for (size_t place = 1; answer == PEER_ACCEPTED && reader->place < reader->length; place++) {
        uint16_t fields[6];
        if (read_line(reader, fields, sizeof fields / sizeof *fields)) {
            struct peer_event event = {fields[0], fields[1], fields[2], fields[3], fields[4], fields[5]};
            answer = peer_apply(table, cells, &event);
        } else {
            answer = PEER_MALFORMED;
        }
        write_answer(writer, place, answer);
    }
}

size_t peer_listing(const unsigned char *input, size_t length, char *output, size_t room) {
    struct reader reader = {input, length, 0};
    struct writer writer = {output, room, 0};
    uint16_t setup[HEADER_CELLS], table[MOST_CELLS];
    if (length > PEER_LONGEST_INPUT || !read_line(&reader, setup, HEADER_CELLS)) {
        write_answer(&writer, 0, PEER_MALFORMED);
        return writer.length;
    }
    struct counts counts = {setup[0], setup[1], setup[2], setup[3]};
    size_t cells = peer_table_length(counts.clients, counts.servers, counts.databases, counts.attempts);
    uint16_t refusal = peer_set_up(table, cells, counts.clients, counts.servers, counts.databases, counts.attempts);
    if (refusal) {
        write_answer(&writer, 0, refusal);
        return writer.length;
    }
    list_events(&reader, &writer, table, cells);
    write_clients(&writer, table, &counts);
    write_results(&writer, table, &counts);
    return writer.length;
}
