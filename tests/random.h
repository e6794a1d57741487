/* Random numbers that are the same on every machine for the same seed (splitmix64). */
#ifndef TESTS_RANDOM_H
#define TESTS_RANDOM_H

#include <stdbool.h>
#include <stdint.h>

struct random {
    uint64_t state;
};

static inline uint64_t random_next(struct random *random) {
    uint64_t mixed = random->state += 0x9e3779b97f4a7c15u;
    mixed = (mixed ^ (mixed >> 30)) * 0xbf58476d1ce4e5b9u;
    mixed = (mixed ^ (mixed >> 27)) * 0x94d049bb133111ebu;
    return mixed ^ (mixed >> 31);
}

/* A number from 0 to bound - 1. */
static inline uint16_t random_below(struct random *random, uint32_t bound) {
    return (uint16_t)(((random_next(random) >> 32) * bound) >> 32);
}

/* A number from least to most. */
static inline uint16_t random_from(struct random *random, uint16_t least, uint16_t most) {
    return (uint16_t)(least + random_below(random, (uint32_t)most - least + 1));
}

static inline bool random_chance(struct random *random, uint16_t percent) {
    return random_below(random, 100) < percent;
}

#endif
