/* Random numbers for the C tests, from a state that a test sets. */
#ifndef RANDOM_H
#define RANDOM_H

#include <stddef.h>
#include <stdint.h>

static uint64_t state;

/* The generator splitmix64 (Steele, Lea, Flood). */
static uint64_t bits(void) {
    uint64_t z = state += UINT64_C(0x9E3779B97F4A7C15);
    z = (z ^ z >> 30) * UINT64_C(0xBF58476D1CE4E5B9);
    z = (z ^ z >> 27) * UINT64_C(0x94D049BB133111EB);
    return z ^ z >> 31;
}

static size_t below(size_t count) {
    return (size_t)(bits() % count);
}

#endif
