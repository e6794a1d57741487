/* Answers the stored tables of a folder through the C interface, in the form of the crate `lent`: lent FOLDER. */
#include "vrolkant.h"

#include <stdbool.h>
#include <stdio.h>
#include <stdlib.h>
#include <string.h>

enum { LONGEST_NAME = 4096, LONGEST_FILE = 65536, MOST_CELLS = 4000, MOST_EVENTS = 999, FIELDS = 6, LAST_NAME = 999 };

/* What stands around a lent table, to see that nothing outside it is written. */
enum { MARGIN = 16, MARK = 0x5a5a };

enum { HEADER = 4, SERVER = 2, DATABASE = 2, CLIENT = 5, ROW = 13 };

struct stored {
    size_t length;
    uint16_t cells[MOST_CELLS];
    size_t count;
    struct vrolkant_event events[MOST_EVENTS];
};

struct reader {
    const char *name;
    const char *next;
    const char *end;
};

static void fail(const char *name, const char *why) {
    fflush(stdout);
    fprintf(stderr, "%s: %s\n", name, why);
    exit(2);
}

static bool digit_next(const struct reader *reader) {
    return reader->next < reader->end && '0' <= *reader->next && *reader->next <= '9';
}

static uint16_t read_number(struct reader *reader) {
    unsigned long sum = 0;
    if (!digit_next(reader)) fail(reader->name, "a number is missing");
    for (; digit_next(reader); reader->next++) {
        sum = sum * 10 + (unsigned long)(*reader->next - '0');
        if (sum > UINT16_MAX) fail(reader->name, "a number is too large");
    }
    return (uint16_t)sum;
}

/* Reads a line of numbers, one space between; gives how many there are. */
static size_t read_line(struct reader *reader, uint16_t *numbers, size_t most) {
    size_t count = 0;
    if (reader->next < reader->end && *reader->next == '\n') {
        reader->next++;
        return 0;
    }
    for (;; reader->next++) {
        if (count == most) fail(reader->name, "a line is too long");
        numbers[count++] = read_number(reader);
        if (reader->next == reader->end) fail(reader->name, "the last line has no end");
        if (*reader->next == '\n') break;
        if (*reader->next != ' ') fail(reader->name, "no space between two numbers");
    }
    reader->next++;
    return count;
}

/* Reads the cells of a table and its events. */
static void read_stored(struct stored *stored, const char *name, FILE *file) {
    static char text[LONGEST_FILE + 1];
    size_t length = fread(text, 1, sizeof text, file);
    struct reader reader = {name, text, text + length};
    if (length == 0 || length > LONGEST_FILE) fail(name, "empty or too long");
    stored->length = read_line(&reader, stored->cells, MOST_CELLS);
    for (stored->count = 0; reader.next < reader.end; stored->count++) {
        uint16_t fields[FIELDS];
        if (stored->count == MOST_EVENTS) fail(name, "too many events");
        if (read_line(&reader, fields, FIELDS) != FIELDS) fail(name, "an event line without six numbers");
        stored->events[stored->count] =
            (struct vrolkant_event){fields[0], fields[1], fields[2], fields[3], fields[4], fields[5]};
    }
}

/* Prints a part of the table, as far as there are cells, on a line of its own, and gives the place behind it. */
static size_t print_part(const uint16_t *table, size_t length, size_t place, size_t count) {
    size_t end = count < length - place ? place + count : length;
    for (; place < end; place++) printf("%u%c", table[place], place + 1 < end ? ' ' : '\n');
    return end;
}

/* Prints every cell: the header, the servers, the databases, the clients, and each row, as the header counts them. */
static void print_cells(const uint16_t *table, size_t length) {
    size_t place = print_part(table, length, 0, HEADER);
    if (length < HEADER) return;
    size_t clients = table[0], servers = table[1], databases = table[2];
    place = print_part(table, length, place, SERVER * servers);
    place = print_part(table, length, place, DATABASE * databases);
    place = print_part(table, length, place, CLIENT * clients);
    while (place < length) place = print_part(table, length, place, ROW + 2 * servers);
}

/* The table as lent, between its margins. */
static uint16_t *lend(uint16_t *room, const struct stored *stored) {
    for (size_t place = 0; place < MARGIN; place++) room[place] = room[MARGIN + stored->length + place] = MARK;
    memcpy(room + MARGIN, stored->cells, stored->length * sizeof *room);
    return room + MARGIN;
}

/* Prints the answer and the table, and says where something outside the table was written. */
static void print_answer(char letter, size_t first, uint16_t second, const uint16_t *table, size_t length) {
    printf("%c %lu %u\n", letter, (unsigned long)first, second);
    print_cells(table, length);
    for (size_t place = 0; place < MARGIN; place++)
        if (table[-1 - (long)place] != MARK || table[length + place] != MARK) printf("written outside the table\n");
}

static void answer(const struct stored *stored) {
    static uint16_t room[MARGIN + MOST_CELLS + MARGIN];
    for (size_t place = 0; place < stored->count; place++) {
        const struct vrolkant_event *event = &stored->events[place];
        uint16_t *table = lend(room, stored);
        uint16_t number = vrolkant_apply(table, stored->length, event->kind, event->client, event->attempt,
                                         event->server, event->database, event->value);
        print_answer('E', place + 1, number, table, stored->length);
    }
    uint16_t *table = lend(room, stored);
    struct vrolkant_ran ran = vrolkant_run(table, stored->length, stored->events, stored->count);
    print_answer('L', ran.accepted, ran.refusal, table, stored->length);
}

int main(int count, char **words) {
    static struct stored stored;
    if (count != 2) {
        fprintf(stderr, "usage: lent FOLDER\n");
        return 2;
    }
    unsigned number = 1;
    for (; number <= LAST_NAME; number++) {
        char path[LONGEST_NAME];
        snprintf(path, sizeof path, "%s/%03u", words[1], number);
        FILE *file = fopen(path, "rb");
        if (!file) break;
        read_stored(&stored, path, file);
        fclose(file);
        printf("= %03u\n", number);
        answer(&stored);
    }
    if (number == 1) fail(words[1], "no stored table");
    return fflush(stdout) == 0 ? 0 : 2;
}
