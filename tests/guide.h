/* Chooses events by looking at a sound table, so that most are accepted and a run gets somewhere. */
#ifndef TESTS_GUIDE_H
#define TESTS_GUIDE_H

#include "peer/peer.h"
#include "peer/table.h"
#include "random.h"

/* How a run leans. */
struct mood {
    uint16_t weights[PEER_LAST_KIND + 1]; /* how often each kind is wished for */
    uint16_t yes;                         /* of a hundred votes, those wished to be yes */
    uint16_t useful;                      /* of a hundred events, those wished to change something */
};

/* The usual weights: attempts go forward, now and then disturbed. */
extern const struct mood usual_mood;

/* All kinds alike but crashes, as suits a table that no run has made. */
extern const struct mood level_mood;

/* A mood whose disturbances are at random rare, common or left out. */
struct mood any_mood(struct random *random);

/* An event that the table's state invites. */
struct peer_event invited_event(const uint16_t *table, const struct mood *mood, struct random *random);

/* An event with every field in range, whatever the state. */
struct peer_event fitting_event(const struct counts *counts, struct random *random);

/* An event of a client's current attempt, mostly at its owner, whether or not its rule's conditions hold. */
struct peer_event tempting_event(const uint16_t *table, struct random *random);

/* An event whose fields are all by chance. */
struct peer_event wild_event(struct random *random);

/* Changes one field of an event, mostly to a number near the edge of its range. */
void spoil_event(struct peer_event *event, struct random *random);

#endif
