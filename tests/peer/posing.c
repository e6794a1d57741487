/* The peer under the names of the library's C interface, for a program over vrolkant.h to be linked with. */
#include "peer.h"
#include "vrolkant.h"

enum { LONGEST_LIST = 999 };

uint16_t vrolkant_apply(uint16_t *table, size_t length, uint16_t kind, uint16_t client, uint16_t attempt,
                        uint16_t server, uint16_t database, uint16_t value) {
    struct peer_event event = {kind, client, attempt, server, database, value};
    return peer_apply(table, length, &event);
}

/* A longer list than there is room for gets an answer that no list has. */
struct vrolkant_ran vrolkant_run(uint16_t *table, size_t length, const struct vrolkant_event *events, size_t count) {
    static struct peer_event list[LONGEST_LIST];
    if (count > LONGEST_LIST) return (struct vrolkant_ran){count + 1, UINT16_MAX};
    for (size_t place = 0; place < count; place++)
        list[place] = (struct peer_event){events[place].kind,   events[place].client,   events[place].attempt,
                                          events[place].server, events[place].database, events[place].value};
    struct peer_ran ran = peer_run(table, length, list, count);
    return (struct vrolkant_ran){ran.accepted, ran.refusal};
}
