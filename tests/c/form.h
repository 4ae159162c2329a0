/*
 * The saved form for the C tests, written from its clauses alone (R9.1 to R9.3, R9.8, R9.9), states
 * to save, and calls on a whole state.
 */
#ifndef FORM_H
#define FORM_H

#include "machine.h"

enum {
    VERSIONS = 2, /* they are 1 and 2 */
    REGISTERS = 32,
    FILE_AT = 209,   /* of the vector file, whole or packed */
    PACKED_AT = 213, /* of the registers that are present */
    ROOM = 2304,     /* above every size that is right */
    ALIGNMENTS = 64, /* places that are tried, one byte apart */
    UNTOUCHED = 0xA5
};

/* Numbers of no version; most have a version's in their lowest or highest bits. */
static const uint32_t NO_VERSIONS[] = {0,          3,          257,        258,
                                       0x10001,    0x10002,    0x01000000, 0x02000000,
                                       0x80000001, 0x80000002, 0xFFFFFFFE, 0xFFFFFFFF};
enum { NO_VERSIONS_COUNT = sizeof NO_VERSIONS / sizeof NO_VERSIONS[0] };

typedef struct {
    uint8_t bytes[ROOM]; /* zeros behind the size */
    size_t size;
} form;

/*
 * A state, and its forms of versions 1 and 2 byte by byte: 1.0 in the first lane of register 3, and
 * a negative zero in the last of register 31.
 */
static const machine HELD = {
    .control = RIDGECROOK_CONTROL_RESET,
    .pointer = UINT64_C(0x0102030405060708),
    .general[3] = UINT64_C(0x1112131415161718),
    .masks[7] = UINT64_C(0x2122232425262728),
    .vectors = {[193] = 0x3C, [2047] = 0x80},
};
#define BEGINS(high, low, version)                                                                 \
    [2] = high, low, version, 0, 0, 0x1F, 0x80, 1, 2, 3, 4, 5, 6, 7, 8, /* up to the pointer */    \
    [41] = 0x11, 0x12, 0x13, 0x14, 0x15, 0x16, 0x17, 0x18, /* a general register */                \
    [201] = 0x21, 0x22, 0x23, 0x24, 0x25, 0x26, 0x27, 0x28 /* a mask */
static const form BY_HAND[VERSIONS] = {
    {{BEGINS(0x08, 0xCD, 1), [402] = 0x3C, [2256] = 0x80}, 2257},
    {{BEGINS(0x01, 0x51, 2), 0x80, 0, 0, 0x08, [214] = 0x3C, [340] = 0x80}, 341},
};

/* A number, its highest byte first (R9.2). */
static inline void put(uint8_t *at, uint64_t value, size_t size) {
    for (size_t i = 0; i < size; i++) {
        at[i] = (uint8_t)(value >> 8 * (size - 1 - i));
    }
}

static inline uint64_t get(const uint8_t *at, size_t size) {
    uint64_t value = 0;
    for (size_t i = 0; i < size; i++) {
        value = value << 8 | at[i];
    }
    return value;
}

static inline void put_length(form *f) {
    put(f->bytes, f->size - 4, 4);
}

static inline int holds_only(const uint8_t *bytes, size_t size, uint8_t byte) {
    for (size_t i = 0; i < size; i++) {
        if (bytes[i] != byte) {
            return 0;
        }
    }
    return 1;
}

/* The word that says which registers are present (R9.8). */
static inline uint32_t presence(const uint8_t *vectors) {
    uint32_t word = 0;
    for (size_t i = 0; i < REGISTERS; i++) {
        const uint8_t *at = vectors + RIDGECROOK_REGISTER_SIZE * i;
        word |= (uint32_t)!holds_only(at, RIDGECROOK_REGISTER_SIZE, 0) << i;
    }
    return word;
}

static inline form form_of_numbers(uint32_t version, const machine *m) {
    form f = {{0}, FILE_AT};
    f.bytes[4] = (uint8_t)version;
    put(f.bytes + 5, m->control, 4);
    put(f.bytes + 9, m->pointer, 8);
    for (size_t i = 0; i < RIDGECROOK_GENERAL; i++) {
        put(f.bytes + 17 + 8 * i, m->general[i], 8);
    }
    for (size_t i = 0; i < RIDGECROOK_MASKS; i++) {
        put(f.bytes + 145 + 8 * i, m->masks[i], 8);
    }
    return f;
}

/* A form of version 2 that has the registers of this word, be they zero or not. */
static inline form form_with(uint32_t word, const machine *m) {
    form f = form_of_numbers(2, m);
    put(f.bytes + FILE_AT, word, 4);
    f.size = PACKED_AT;
    for (size_t i = 0; i < REGISTERS; i++) {
        if ((word >> i & 1) != 0) {
            const uint8_t *at = m->vectors + RIDGECROOK_REGISTER_SIZE * i;
            memcpy(f.bytes + f.size, at, RIDGECROOK_REGISTER_SIZE);
            f.size += RIDGECROOK_REGISTER_SIZE;
        }
    }
    put_length(&f);
    return f;
}

static inline form form_of(uint32_t version, const machine *m) {
    if (version == 2) {
        return form_with(presence(m->vectors), m);
    }
    form f = form_of_numbers(version, m);
    memcpy(f.bytes + FILE_AT, m->vectors, sizeof m->vectors);
    f.size += sizeof m->vectors;
    put_length(&f);
    return f;
}

/* The state that stands at the places of a form (R9.3), be it one that is refused or not. */
static inline machine state_in(const form *f) {
    machine m = {.control = (uint32_t)get(f->bytes + 5, 4), .pointer = get(f->bytes + 9, 8)};
    for (size_t i = 0; i < RIDGECROOK_GENERAL; i++) {
        m.general[i] = get(f->bytes + 17 + 8 * i, 8);
    }
    for (size_t i = 0; i < RIDGECROOK_MASKS; i++) {
        m.masks[i] = get(f->bytes + 145 + 8 * i, 8);
    }
    int packed = f->bytes[4] == 2;
    uint32_t word = packed ? (uint32_t)get(f->bytes + FILE_AT, 4) : UINT32_MAX;
    const uint8_t *from = f->bytes + (packed ? PACKED_AT : FILE_AT);
    for (size_t i = 0; i < REGISTERS; i++) {
        if ((word >> i & 1) != 0) {
            memcpy(m.vectors + RIDGECROOK_REGISTER_SIZE * i, from, RIDGECROOK_REGISTER_SIZE);
            from += RIDGECROOK_REGISTER_SIZE;
        }
    }
    return m;
}

static inline int same_form(const form *a, const form *b) {
    return a->size == b->size && memcmp(a->bytes, b->bytes, sizeof a->bytes) == 0;
}

/* A word for each number: each register alone, each one missing, none, all, and others. */
enum { NONE = 2 * REGISTERS, ALL, WORDS = 256 };
static inline uint32_t word_of(uint32_t number) {
    uint32_t alone = UINT32_C(1) << number % REGISTERS;
    if (number < NONE) {
        return number < REGISTERS ? alone : ~alone;
    }
    return number == NONE ? 0 : number == ALL ? UINT32_MAX : number * 0x9E3779B1;
}

/* A state in which every byte depends on its place and on the number, with that number's word. */
static inline machine numbered(uint32_t number) {
    machine m;
    uint8_t *bytes = (uint8_t *)&m;
    for (size_t i = 0; i < sizeof m; i++) {
        bytes[i] = (uint8_t)(i * 7 + i / 256 + number);
    }
    m.control &= 0xFFFF;
    for (size_t i = 0; i < REGISTERS; i++) {
        if ((word_of(number) >> i & 1) == 0) {
            memset(m.vectors + RIDGECROOK_REGISTER_SIZE * i, 0, RIDGECROOK_REGISTER_SIZE);
        }
    }
    return m;
}

/* A number whose word has 13 registers, with the first and the last missing. */
enum { SOME = 80 };

/* A length that differs from the expected one by so much; NOTHING is length 0. */
enum { NOTHING = -10000 };
static inline size_t changed(size_t expected, int by) {
    return by == NOTHING ? 0 : expected + (size_t)by;
}

/*
 * What a form may have against it that a load and a move refuse (R9.5): another length, or bits of
 * a byte that are changed, or both.
 */
typedef struct {
    int length_change;
    size_t place;
    uint8_t bits;
    uint32_t number;
} damage;
static const damage DAMAGES[] = {
    {-1, 0, 0, RIDGECROOK_BAD_SAVED},      {1, 0, 0, RIDGECROOK_BAD_SAVED},
    {-64, 0, 0, RIDGECROOK_BAD_SAVED},     {NOTHING, 0, 0, RIDGECROOK_BAD_SAVED},
    {0, 0, 0x80, RIDGECROOK_BAD_SAVED},    {0, 1, 1, RIDGECROOK_BAD_SAVED},
    {0, 2, 1, RIDGECROOK_BAD_SAVED},       {0, 3, 4, RIDGECROOK_BAD_SAVED},
    {0, 4, 1, RIDGECROOK_BAD_SAVED},       {0, 4, 2, RIDGECROOK_BAD_SAVED},
    {0, 4, 3, RIDGECROOK_BAD_SAVED},       {0, 4, 0x80, RIDGECROOK_BAD_SAVED},
    {-1, 5, 0x80, RIDGECROOK_BAD_SAVED},   {1, 6, 1, RIDGECROOK_BAD_SAVED},
    {0, 5, 0x80, RIDGECROOK_BAD_CONTROL},  {0, 6, 1, RIDGECROOK_BAD_CONTROL},
};
enum { DAMAGES_COUNT = sizeof DAMAGES / sizeof DAMAGES[0] };

/* Damages the form; returns the length to lend. */
static inline size_t spoil(form *f, const damage *with) {
    f->bytes[with->place] ^= with->bits;
    return changed(f->size, with->length_change);
}

static inline uint32_t load(const uint8_t *saved, size_t saved_length, machine *m) {
    return ridgecrook_load(saved, saved_length, m->vectors, sizeof m->vectors, m->masks,
                           m->general, &m->control, &m->pointer);
}

#endif
