/*
 * Steps as a C engineer calls them: the header, the archive, examples of docs/RULES.md, and what C
 * must keep (R8.4): null pointers with length 0, and the ends of everything that is lent.
 */
#include "machine.h" /* first, since it chooses what the system's headers declare */

#include "check.h"

#include <stddef.h>
#include <stdint.h>
#include <stdlib.h>
#include <string.h>

static void set(machine *m, int reg, int lane, uint16_t half) {
    m->vectors[RIDGECROOK_REGISTER_SIZE * reg + 2 * lane] = half & 0xFF;
    m->vectors[RIDGECROOK_REGISTER_SIZE * reg + 2 * lane + 1] = half >> 8;
}

static uint16_t get(const machine *m, int reg, int lane) {
    const uint8_t *at = m->vectors + RIDGECROOK_REGISTER_SIZE * reg + 2 * lane;
    return (uint16_t)(at[0] | at[1] << 8);
}

static void fill(machine *m, int reg, uint16_t half) {
    for (int lane = 0; lane < 32; lane++) {
        set(m, reg, lane, half);
    }
}

static ridgecrook_answer step(machine *m, const uint8_t *code, size_t code_length,
                              const uint8_t *memory, size_t memory_length) {
    return ridgecrook_step(m->vectors, sizeof m->vectors, m->masks, m->general, &m->control,
                           &m->pointer, code, code_length, memory, memory_length);
}

static int is(ridgecrook_answer answer, uint32_t number, uint32_t length) {
    return answer.number == number && answer.length == length;
}

static void check_layout(void) {
    check(sizeof(ridgecrook_answer) == 8, "a ridgecrook_answer has 8 bytes");
    check(offsetof(ridgecrook_answer, number) == 0, "number stands at 0");
    check(offsetof(ridgecrook_answer, length) == 4, "length stands at 4");
    check(RIDGECROOK_VECTORS_SIZE == 32 * RIDGECROOK_REGISTER_SIZE, "32 vector registers");
}

static const uint8_t ADD[] = {0x62, 0xF5, 0x74, 0x48, 0x58, 0xC2};      /* zmm0 = zmm1 + zmm2 */
static const uint8_t ADD_DOWN[] = {0x62, 0xF5, 0x74, 0x38, 0x58, 0xC2}; /* the same, mode 1 */
static const uint8_t ADD_MEMORY[] = {0x62, 0xF5, 0x74, 0x49, 0x58, 0x00}; /* k1, at RAX */
static const uint8_t ADD_DISP8[] = {0x62, 0xF5, 0x74, 0xC9, 0x58, 0x40, 0x01};
static const uint8_t ADD_BROADCAST[] = {0x62, 0xF5, 0x74, 0xD9, 0x58, 0x40, 0x01};
static const uint8_t COMPARE_MEMORY[] = {0x62, 0xF3, 0x74, 0x49, 0xC2, 0x10, 0x01}; /* to k2 */
static const uint8_t MULTIPLY[] = {0x62, 0xF5, 0x74, 0x48, 0x59, 0xC2};
static const uint8_t DIVIDE[] = {0x62, 0xF5, 0x74, 0x49, 0x5E, 0xC2}; /* masked by k1 */

static const struct {
    uint8_t code[7];
    size_t code_length;
    uint32_t control, number;
} REFUSALS[] = {
    {{0}, 0, 0x1F80, RIDGECROOK_CUT_SHORT},
    {{0x62}, 1, 0x1F80, RIDGECROOK_CUT_SHORT},
    {{0x62, 0xF5, 0x74, 0x48, 0x58}, 5, 0x1F80, RIDGECROOK_CUT_SHORT},
    {{0x62, 0xF5, 0x74, 0x48, 0x58, 0x40}, 6, 0x1F80, RIDGECROOK_CUT_SHORT},
    {{0x61, 0xF5, 0x74, 0x48, 0x58, 0xC2}, 6, 0x1F80, RIDGECROOK_NOT_LISTED},
    {{0x62, 0xF5, 0x74, 0x48, 0x5A, 0xC2}, 6, 0x1F80, RIDGECROOK_NOT_LISTED},
    {{0x62, 0xFD, 0x74, 0x48, 0x58, 0xC2}, 6, 0x1F80, RIDGECROOK_RESERVED},
    {{0x62, 0xF5, 0x70, 0x48, 0x58, 0xC2}, 6, 0x1F80, RIDGECROOK_RESERVED},
    {{0x62, 0xF5, 0x74, 0xC8, 0x58, 0xC2}, 6, 0x1F80, RIDGECROOK_RESERVED},
    {{0x62, 0xF5, 0x74, 0x68, 0x58, 0xC2}, 6, 0x1F80, RIDGECROOK_RESERVED},
    {{0x62, 0xF5, 0x74, 0x48, 0x58, 0xC2}, 6, 0x11F80, RIDGECROOK_BAD_CONTROL},
    {{0x62, 0xF5, 0x74, 0x48, 0x58, 0x00}, 6, 0x1F80, RIDGECROOK_OUTSIDE_MEMORY},
    {{0x62, 0xF5, 0x76, 0x48, 0x5D, 0xC2}, 6, 0x1F80, RIDGECROOK_NOT_LISTED}, /* scalar */
    {{0x62, 0xF3, 0x76, 0x48, 0xC2, 0xCA}, 7, 0x1F80, RIDGECROOK_NOT_LISTED},
    {{0x62, 0xF3, 0x74, 0x48, 0xC2, 0xCA}, 6, 0x1F80, RIDGECROOK_CUT_SHORT}, /* no immediate */
    {{0x62, 0xF3, 0x74, 0x48, 0xC2, 0x08}, 6, 0x1F80, RIDGECROOK_CUT_SHORT},
    {{0x62, 0xF3, 0x74, 0xC8, 0xC2, 0xCA}, 7, 0x1F80, RIDGECROOK_RESERVED}, /* z */
    {{0x62, 0xF3, 0x74, 0xC9, 0xC2, 0xCA}, 7, 0x1F80, RIDGECROOK_RESERVED},
    {{0x62, 0xF3, 0x74, 0xC9, 0xC2, 0xCA}, 6, 0x1F80, RIDGECROOK_RESERVED},
    {{0x62, 0x73, 0x74, 0x48, 0xC2, 0xCA}, 7, 0x1F80, RIDGECROOK_RESERVED}, /* mask 9 */
    {{0x62, 0xE3, 0x74, 0x48, 0xC2, 0xCA}, 6, 0x1F80, RIDGECROOK_RESERVED}, /* mask 17 */
    {{0x62, 0xF3, 0x74, 0x68, 0xC2, 0xCA}, 7, 0x1F80, RIDGECROOK_RESERVED}, /* length bits 3 */
    {{0x62, 0xF3, 0x74, 0x48, 0xC2, 0x08}, 7, 0x1F80, RIDGECROOK_OUTSIDE_MEMORY},
};

/* Every answer that can be had, with what it leaves: everything, if nothing else is said. */
static void check_refusals(void) {
    static const uint8_t memory[63];
    for (size_t i = 0; i < sizeof REFUSALS / sizeof REFUSALS[0]; i++) {
        machine m, before;
        blank(&m);
        fill(&m, 1, 0x3C00);
        m.control = REFUSALS[i].control;
        before = m;
        ridgecrook_answer answer = step(&m, REFUSALS[i].code, REFUSALS[i].code_length, memory, 63);
        check(is(answer, REFUSALS[i].number, 0), "the answer of a refusal, its length 0");
        check(same(&m, &before), "a refusal leaves all as before");
    }
}

static void check_sizes(void) {
    static const size_t sizes[] = {0, 1, 2047, 2049, 4096};
    for (size_t i = 0; i < sizeof sizes / sizeof sizes[0]; i++) {
        machine m;
        blank(&m);
        uint8_t *file = calloc(sizes[i] + 1, 1);
        ridgecrook_answer answer = ridgecrook_step(file, sizes[i], m.masks, m.general, &m.control,
                                                   &m.pointer, ADD, sizeof ADD, NULL, 0);
        check(is(answer, RIDGECROOK_BAD_SIZE, 0), "a vector file of another size is refused");
        free(file);
    }
}

/* Registers, without embedded rounding and with it (R7.5). */
static void check_registers(void) {
    machine m, before;
    blank(&m);
    fill(&m, 1, 0x3C00);
    fill(&m, 2, 0xBC00);
    set(&m, 2, 31, 0x4000);
    m.pointer = UINT64_MAX;
    before = m;
    check(is(step(&m, ADD, sizeof ADD, NULL, 0), RIDGECROOK_DONE, 6), "an addition is done");
    check(get(&m, 0, 0) == 0x0000 && get(&m, 0, 31) == 0x4200, "sums in the first and last lane");
    check(m.pointer == 5, "the pointer has gone on by 6, past 2 to the 64");
    check(m.control == 0x1F80, "an exact sum has no flag");
    before.pointer = m.pointer;
    memcpy(before.vectors, m.vectors, RIDGECROOK_REGISTER_SIZE);
    check(same(&m, &before), "all but the destination and the pointer stays");
    m.control = 0;
    set(&m, 2, 0, 0x0001);
    check(is(step(&m, ADD_DOWN, sizeof ADD_DOWN, NULL, 0), RIDGECROOK_DONE, 6),
          "embedded rounding is done with every exception unmasked");
    check(get(&m, 0, 0) == 0x3C00 && get(&m, 0, 30) == 0x8000, "sums in mode 1");
    check(m.control == 0, "embedded rounding flags nothing");
}

/* R6.23: 0400*3800 with UE unmasked. */
static void check_exception(void) {
    machine m, before;
    blank(&m);
    fill(&m, 0, 0x1234);
    set(&m, 1, 0, 0x0400);
    set(&m, 2, 0, 0x3800);
    m.control = 0x1780;
    before = m;
    ridgecrook_answer answer = step(&m, MULTIPLY, sizeof MULTIPLY, NULL, 0);
    check(is(answer, RIDGECROOK_EXCEPTION, 0), "an unmasked underflow");
    check(m.control == (0x1780 | RIDGECROOK_UE), "its flag is added");
    before.control = m.control;
    check(same(&m, &before), "and all else is as before");
}

/* R7.4: 1/0 in lane 0 and 1/3 in lane 1, with ZE unmasked, PE, and both. */
static void check_stages(void) {
    static const struct {
        uint32_t control, flags;
        const char *what;
    } rows[] = {
        {0x1D80, RIDGECROOK_ZE, "ZE unmasked: PE of the other lane is not added"},
        {0x0F80, RIDGECROOK_ZE | RIDGECROOK_PE, "PE unmasked: the masked ZE is added too"},
        {0x0D80, RIDGECROOK_ZE, "ZE and PE unmasked: ZE alone is added"},
    };
    for (size_t i = 0; i < sizeof rows / sizeof rows[0]; i++) {
        machine m, before;
        blank(&m);
        fill(&m, 1, 0x3C00);
        set(&m, 2, 1, 0x4200);
        m.masks[1] = 3;
        m.control = rows[i].control;
        before = m;
        ridgecrook_answer answer = step(&m, DIVIDE, sizeof DIVIDE, NULL, 0);
        before.control |= rows[i].flags;
        check(is(answer, RIDGECROOK_EXCEPTION, 0) && same(&m, &before), rows[i].what);
    }
}

/* R3.13: RAX+2 under broadcast, RAX+64 without. R5.7: memory of 1 byte and of 2. */
static void check_memory(void) {
    static const uint8_t memory[130] = {[4] = 0x00, [5] = 0x3C, [66] = 0x00, [67] = 0x40};
    machine m;
    blank(&m);
    m.masks[1] = 1;
    m.general[0] = 2;
    check(is(step(&m, ADD_BROADCAST, 7, memory, 6), RIDGECROOK_DONE, 7), "a broadcast at RAX+2");
    check(get(&m, 0, 0) == 0x3C00, "reads the word there");
    check(is(step(&m, ADD_DISP8, 7, memory, 68), RIDGECROOK_DONE, 7), "a vector at RAX+64");
    check(get(&m, 0, 0) == 0x4000, "reads the words there");
    check(is(step(&m, ADD_DISP8, 7, memory, 67), RIDGECROOK_OUTSIDE_MEMORY, 0), "one byte less");
    m.general[0] = 0;
    check(is(step(&m, ADD_MEMORY, 6, memory, 1), RIDGECROOK_OUTSIDE_MEMORY, 0), "1 byte, mask 1");
    check(is(step(&m, ADD_MEMORY, 6, memory, 2), RIDGECROOK_DONE, 6), "2 bytes, mask 1");
    m.masks[1] = 0;
    check(is(step(&m, ADD_MEMORY, 6, memory, 1), RIDGECROOK_DONE, 6), "1 byte, mask 0");
}

/* Scalar instructions on zmm0, zmm1 and zmm2, by their bytes 1, 2 and 4 (R2.1). */
typedef struct {
    uint8_t byte_1, byte_2, opcode;
    uint16_t half; /* of 3 in the destination, 9 in the first source and 4 in the second */
    int upper;     /* the register that gives lanes 1 to 7 */
    const char *what;
} scalar;

static const scalar SCALARS[] = {
    {0xF5, 0x76, 0x58, 0x4A80, 1, "vaddsh: 9 + 4"},
    {0xF5, 0x76, 0x59, 0x5080, 1, "vmulsh: 9 * 4"},
    {0xF5, 0x76, 0x5C, 0x4500, 1, "vsubsh: 9 - 4"},
    {0xF5, 0x76, 0x5E, 0x4080, 1, "vdivsh: 9 / 4"},
    {0xF5, 0x76, 0x51, 0x4000, 1, "vsqrtsh: the root of 4"},
    {0xF6, 0x75, 0x99, 0x4D40, 0, "vfmadd132sh: 3 * 4 + 9"},
    {0xF6, 0x75, 0xA9, 0x4FC0, 0, "vfmadd213sh: 9 * 3 + 4"},
    {0xF6, 0x75, 0xB9, 0x50E0, 0, "vfmadd231sh: 9 * 4 + 3"},
};

/* 3, 9 and 4 in lane 0; above it signalling NaNs, all unlike; every exception unmasked. */
static void set_scalars(machine *m) {
    static const uint16_t halves[3] = {0x4200, 0x4880, 0x4400};
    blank(m);
    for (int reg = 0; reg < 3; reg++) {
        for (int lane = 0; lane < 32; lane++) {
            set(m, reg, lane, lane == 0 ? halves[reg] : (uint16_t)(0x7D00 + 32 * reg + lane));
        }
    }
    m->control = 0;
}

/* R5.10: lane 0, lanes 1 to 7 as a register has them, 0 above; the pointer by R4.15. */
static void write_scalar(machine *m, uint16_t half, int upper, uint64_t length) {
    set(m, 0, 0, half);
    for (int lane = 1; lane < 32; lane++) {
        set(m, 0, lane, lane < 8 ? get(m, upper, lane) : 0);
    }
    m->pointer += length;
}

/* Registers, by byte 3: the length bits, z and the mask, of which bit 0 alone counts. */
static void check_scalar(const scalar *row) {
    enum { RESULT, KEPT, ZERO, REFUSED };
    static const struct {
        uint8_t byte_3;
        uint64_t mask;
        int becomes;
    } forms[] = {
        {0x08, 0, RESULT}, {0x28, 0, RESULT}, {0x48, 0, RESULT}, /* lengths, all alike */
        {0x68, 0, REFUSED}, {0x88, 1, REFUSED},                  /* length bits 3; z without k1 */
        {0x09, 1, RESULT}, {0x89, 1, RESULT},
        {0x09, UINT64_MAX - 1, KEPT}, {0x89, UINT64_MAX - 1, ZERO},
    };
    for (size_t i = 0; i < sizeof forms / sizeof forms[0]; i++) {
        const uint8_t code[] = {0x62, row->byte_1, row->byte_2, forms[i].byte_3, row->opcode, 0xC2};
        const uint16_t halves[] = {row->half, 0x4200, 0x0000};
        machine m, expected;
        set_scalars(&m);
        m.masks[1] = forms[i].mask;
        expected = m;
        ridgecrook_answer answer = step(&m, code, sizeof code, NULL, 0);
        if (forms[i].becomes == REFUSED) {
            check(is(answer, RIDGECROOK_RESERVED, 0), row->what);
        } else {
            check(is(answer, RIDGECROOK_DONE, 6), row->what);
            write_scalar(&expected, halves[forms[i].becomes], row->upper, 6);
        }
        check(same(&m, &expected), row->what);
    }
}

/* RAX + 2, here address 0 (R3.13), with memory at the end of a page, and k1 0. */
static void check_scalar_memory(const scalar *row, uint8_t *end) {
    static const struct {
        uint8_t byte_3;
        size_t code_length, held;
        uint32_t number;
    } forms[] = {
        {0x08, 7, 2, RIDGECROOK_DONE},
        {0x48, 7, 2, RIDGECROOK_DONE},
        {0x09, 7, 1, RIDGECROOK_DONE}, /* lane 0 is off */
        {0x08, 7, 1, RIDGECROOK_OUTSIDE_MEMORY},
        {0x08, 7, 0, RIDGECROOK_OUTSIDE_MEMORY},
        {0x08, 6, 2, RIDGECROOK_CUT_SHORT},
        {0x18, 7, 2, RIDGECROOK_RESERVED}, /* b (R4.10) */
        {0x19, 7, 2, RIDGECROOK_RESERVED},
        {0x18, 6, 2, RIDGECROOK_RESERVED}, /* before the byte that is missing */
        {0x68, 7, 2, RIDGECROOK_RESERVED},
    };
    for (size_t i = 0; i < sizeof forms / sizeof forms[0]; i++) {
        const uint8_t code[] = {0x62,        row->byte_1, row->byte_2, forms[i].byte_3,
                                row->opcode, 0x40,        0x01};
        const uint8_t *memory = end - forms[i].held;
        machine m, expected;
        set_scalars(&m);
        set(&m, 2, 0, 0x7D00);
        m.general[0] = UINT64_MAX - 1;
        expected = m;
        memcpy(end - forms[i].held, "\x00\x44", forms[i].held);
        ridgecrook_answer answer = step(&m, code, forms[i].code_length, memory, forms[i].held);
        int done = forms[i].number == RIDGECROOK_DONE;
        if (done) {
            write_scalar(&expected, forms[i].byte_3 == 0x09 ? 0x4200 : row->half, row->upper, 7);
        }
        check(is(answer, forms[i].number, done ? 7 : 0), row->what);
        check(same(&m, &expected), row->what);
    }
}

/* R7.5: 5/3 and -5/3 in each mode, with every exception unmasked; without b, answer 8. */
static void check_scalar_rounding(void) {
    static const uint16_t quotients[2][4] = {{0x3EAB, 0x3EAA, 0x3EAB, 0x3EAA},
                                             {0xBEAB, 0xBEAB, 0xBEAA, 0xBEAA}};
    for (int i = 0; i < 8; i++) {
        uint8_t code[] = {0x62, 0xF5, 0x76, (uint8_t)(0x18 | i % 4 << 5), 0x5E, 0xC2};
        machine m, expected;
        set_scalars(&m);
        set(&m, 1, 0, i < 4 ? 0x4500 : 0xC500);
        set(&m, 2, 0, 0x4200);
        expected = m;
        write_scalar(&expected, quotients[i / 4][i % 4], 1, 6);
        check(is(step(&m, code, sizeof code, NULL, 0), RIDGECROOK_DONE, 6), "a scalar's own mode");
        check(same(&m, &expected), "its quotient, and no flag");
        code[3] = 0x08;
        expected.control = RIDGECROOK_PE;
        check(is(step(&m, code, sizeof code, NULL, 0), RIDGECROOK_EXCEPTION, 0), "PE in lane 0");
        check(same(&m, &expected), "its flag alone is added");
    }
}

static void check_scalars(void) {
    uint8_t *end = page_end();
    for (size_t i = 0; i < sizeof SCALARS / sizeof SCALARS[0]; i++) {
        check_scalar(&SCALARS[i]);
        check_scalar_memory(&SCALARS[i], end);
    }
    check_scalar_rounding();
}

/*
 * Eight pairs for VMINPH, VMAXPH and VCMPPH: less, greater, zeros of unlike signs twice, a quiet
 * and a signalling NaN, a subnormal, equal. In every other lane both are +0.
 */
static const uint16_t FIRST[8] = {0x3C00, 0x4000, 0x0000, 0x8000, 0x7E01, 0x3C00, 0x0001, 0xFC00};
static const uint16_t SECOND[8] = {0x4000, 0x3C00, 0x8000, 0x0000, 0x3C00, 0x7D00, 0x3C00, 0xFC00};

/* The pairs in zmm1 and zmm2; old halves in zmm0, old bits in every mask. */
static void set_pairs(machine *m) {
    blank(m);
    fill(m, 0, 0x1234);
    for (int lane = 0; lane < 8; lane++) {
        set(m, 1, lane, FIRST[lane]);
        set(m, 2, lane, SECOND[lane]);
    }
    for (size_t i = 0; i < RIDGECROOK_MASKS; i++) {
        m->masks[i] = UINT64_C(0xA5A5A5A5A5A5A5A5) ^ i;
    }
}

/* Byte 3 of a form in registers, how many lanes it has, and whether it is suppression (R3.8). */
static const struct {
    uint8_t byte_3;
    int lanes, suppressed;
} FORMS[] = {
    {0x08, 8, 0},  {0x28, 16, 0}, {0x48, 32, 0}, /* length bits */
    {0x18, 32, 1}, {0x38, 32, 1}, {0x58, 32, 1}, {0x78, 32, 1},
};

/* R6.26: the second of zeros and beside a NaN, as it is. Suppressed with all unmasked (R7.5). */
static void check_minimum(uint8_t opcode, const uint16_t halves[8], const char *what) {
    for (size_t i = 0; i < sizeof FORMS / sizeof FORMS[0]; i++) {
        const uint8_t code[] = {0x62, 0xF5, 0x74, FORMS[i].byte_3, opcode, 0xC2};
        machine m, expected;
        set_pairs(&m);
        m.control = FORMS[i].suppressed ? 0 : RIDGECROOK_CONTROL_RESET;
        expected = m;
        for (int lane = 0; lane < 32; lane++) {
            set(&expected, 0, lane, lane < 8 ? halves[lane] : 0);
        }
        expected.control |= FORMS[i].suppressed ? 0 : RIDGECROOK_IE | RIDGECROOK_DE;
        expected.pointer = 6;
        check(is(step(&m, code, sizeof code, NULL, 0), RIDGECROOK_DONE, 6), what);
        check(same(&m, &expected), what);
    }
}

/* A predicate, by an immediate, and the bits of the eight pairs; the lanes above are equal. */
static const struct {
    uint8_t immediate, mask;
    int equal;
    const char *what;
} PREDICATES[] = {
    {0x00, 0x8C, 1, "EQ_OQ"},  {0x01, 0x41, 0, "LT_OS"},  {0x02, 0xCD, 1, "LE_OS"},
    {0x03, 0x30, 0, "UNORD_Q"}, {0x04, 0x73, 0, "NEQ_UQ"}, {0x05, 0xBE, 1, "NLT_US"},
    {0x06, 0x32, 0, "NLE_US"}, {0x07, 0xCF, 1, "ORD_Q"},  {0x0B, 0x00, 0, "FALSE_OQ"},
    {0x0F, 0xFF, 1, "TRUE_UQ"}, {0x1D, 0x8E, 1, "GE_OQ"},  {0x1E, 0x02, 0, "GT_OQ"},
    {0x19, 0x71, 0, "NGE_UQ"}, {0xE1, 0x41, 0, "LT_OS, bits 5 to 7"},
};

/* R5.11: each mask as destination, all 64 bits of it, under no writemask or under 0xF0F0F. */
static void check_predicate(size_t row, size_t form, size_t number, size_t writemask) {
    const uint8_t code[] = {0x62, 0xF3, 0x74, (uint8_t)(FORMS[form].byte_3 | writemask), 0xC2,
                            (uint8_t)(0xC2 | number << 3), PREDICATES[row].immediate};
    machine m, expected;
    set_pairs(&m);
    m.control = FORMS[form].suppressed ? 0 : RIDGECROOK_CONTROL_RESET;
    uint64_t on = (UINT64_C(1) << FORMS[form].lanes) - 1;
    if (writemask != 0) {
        m.masks[writemask] = UINT64_C(0xFFFFFFFF000F0F0F);
        on &= m.masks[writemask];
    }
    uint64_t above = PREDICATES[row].equal ? UINT64_C(0xFFFFFF00) : 0;
    uint32_t flags = writemask != 0 ? 0 : RIDGECROOK_IE | RIDGECROOK_DE;
    expected = m;
    expected.masks[number] = (PREDICATES[row].mask | above) & on;
    expected.control |= FORMS[form].suppressed ? 0 : flags;
    expected.pointer = 7;
    check(is(step(&m, code, sizeof code, NULL, 0), RIDGECROOK_DONE, 7), PREDICATES[row].what);
    check(same(&m, &expected), PREDICATES[row].what);
}

/* R7.4: IE or DE unmasked stops a comparison; both are added, and the mask stays. */
static void check_comparison_stops(void) {
    static const uint32_t unmasked[] = {0x1F00, 0x1E80, 0x1E00};
    for (size_t i = 0; i < sizeof unmasked / sizeof unmasked[0]; i++) {
        const uint8_t code[] = {0x62, 0xF3, 0x74, 0x08, 0xC2, 0xCA, 0x00};
        machine m, expected;
        set_pairs(&m);
        m.control = unmasked[i];
        expected = m;
        expected.control |= RIDGECROOK_IE | RIDGECROOK_DE;
        ridgecrook_answer answer = step(&m, code, sizeof code, NULL, 0);
        check(is(answer, RIDGECROOK_EXCEPTION, 0), "an unmasked exception of a comparison");
        check(same(&m, &expected), "adds its flags alone");
    }
}

/* vcmpltph k2, xmm1, [..] at the end of a page: 16 bytes, 2 under broadcast, relative to RIP. */
static void check_comparison_memory(void) {
    static const struct {
        uint8_t code[11];
        size_t length, held;
        uint32_t number;
        uint64_t mask;
    } rows[] = {
        {{0x62, 0xF3, 0x74, 0x08, 0xC2, 0x10, 0x01}, 7, 16, RIDGECROOK_DONE, 0x41},
        {{0x62, 0xF3, 0x74, 0x08, 0xC2, 0x10, 0x01}, 7, 15, RIDGECROOK_OUTSIDE_MEMORY, 0},
        {{0x62, 0xF3, 0x74, 0x08, 0xC2, 0x10, 0x01}, 6, 16, RIDGECROOK_CUT_SHORT, 0},
        {{0x62, 0xF3, 0x74, 0x18, 0xC2, 0x10, 0x01}, 7, 2, RIDGECROOK_DONE, 0xED},
        {{0x62, 0xF3, 0x74, 0x18, 0xC2, 0x10, 0x01}, 7, 1, RIDGECROOK_OUTSIDE_MEMORY, 0},
        {{0x62, 0xF3, 0x74, 0x08, 0xC2, 0x15, 0xF5, 0xFF, 0xFF, 0xFF, 0x01}, 11, 16,
         RIDGECROOK_DONE, 0x41}, /* at 0: 11 bytes before the next instruction */
        {{0x62, 0xF3, 0x74, 0x08, 0xC2, 0x15, 0xF5, 0xFF, 0xFF, 0xFF, 0x01}, 10, 16,
         RIDGECROOK_CUT_SHORT, 0},
    };
    uint8_t *end = page_end(), *code_end = page_end();
    for (size_t i = 0; i < sizeof rows / sizeof rows[0]; i++) {
        machine m, expected;
        set_pairs(&m);
        memcpy(end - rows[i].held, m.vectors + 2 * RIDGECROOK_REGISTER_SIZE, rows[i].held);
        memcpy(code_end - rows[i].length, rows[i].code, rows[i].length);
        expected = m;
        int done = rows[i].number == RIDGECROOK_DONE;
        if (done) {
            expected.masks[2] = rows[i].mask;
            expected.pointer = rows[i].length;
            expected.control |= RIDGECROOK_IE | RIDGECROOK_DE;
        }
        ridgecrook_answer answer = step(&m, code_end - rows[i].length, rows[i].length,
                                        end - rows[i].held, rows[i].held);
        check(is(answer, rows[i].number, done ? (uint32_t)rows[i].length : 0), "from memory");
        check(same(&m, &expected), "from memory, what it leaves");
    }
}

static void check_comparisons(void) {
    static const uint16_t smaller[8] = {0x3C00, 0x3C00, 0x8000, 0x0000,
                                        0x3C00, 0x7D00, 0x0001, 0xFC00};
    static const uint16_t larger[8] = {0x4000, 0x4000, 0x8000, 0x0000,
                                       0x3C00, 0x7D00, 0x3C00, 0xFC00};
    check_minimum(0x5D, smaller, "vminph");
    check_minimum(0x5F, larger, "vmaxph");
    for (size_t i = 0; i < sizeof PREDICATES / sizeof PREDICATES[0]; i++) {
        for (size_t form = 0; form < sizeof FORMS / sizeof FORMS[0]; form++) {
            size_t number = (i + form) % RIDGECROOK_MASKS;
            check_predicate(i, form, number, 0);
            check_predicate(i, form, number, 3); /* the destination itself, one time in eight */
        }
    }
    check_comparison_stops();
    check_comparison_memory();
}

/* R8.4: a null pointer with length 0 is common in C, and is not read. */
static void check_null(void) {
    machine m, before;
    blank(&m);
    before = m;
    check(is(step(&m, NULL, 0, NULL, 0), RIDGECROOK_CUT_SHORT, 0), "no code at a null pointer");
    check(same(&m, &before), "leaves all as before");
    check(is(step(&m, ADD, sizeof ADD, NULL, 0), RIDGECROOK_DONE, 6), "no memory, none needed");
    check(is(step(&m, ADD_MEMORY, 6, NULL, 0), RIDGECROOK_DONE, 6), "no memory, every lane off");
    check(is(step(&m, ADD_BROADCAST, 7, NULL, 0), RIDGECROOK_DONE, 7), "the same, broadcast");
    check(is(step(&m, COMPARE_MEMORY, 7, NULL, 0), RIDGECROOK_DONE, 7), "the same, to a mask");
    m.masks[1] = 1;
    check(is(step(&m, COMPARE_MEMORY, 7, NULL, 0), RIDGECROOK_OUTSIDE_MEMORY, 0), "to a mask");
    check(is(step(&m, ADD_MEMORY, 6, NULL, 0), RIDGECROOK_OUTSIDE_MEMORY, 0), "one lane on");
    check(is(step(&m, ADD_BROADCAST, 7, NULL, 0), RIDGECROOK_OUTSIDE_MEMORY, 0), "broadcast");
}

/*
 * Code, memory and the vector file, each at the end of what can be read and written, and then at
 * the beginning: one byte beyond would stop the program. The last word that is read ends the
 * memory; lanes whose words would begin before it are off.
 */
static void check_ends_of(const uint8_t *far, size_t size) {
    uint8_t *code = page_end(), *memory = page_end(), *vectors = page_end();
    machine m;
    int cut = 1, done = 1;
    blank(&m);
    for (size_t held = 0; held <= 64; held++) {
        m.general[4] = 16 + held - 64;
        m.masks[1] = held < 2 ? 0 : UINT64_MAX << (65 - held) / 2;
        for (size_t length = 0; length <= size; length++) {
            memcpy(code - length, far, length);
            ridgecrook_answer answer = ridgecrook_step(
                vectors - 2048, 2048, m.masks, m.general, &m.control, &m.pointer, code - length,
                length, memory - held, held);
            if (length < size) {
                cut &= is(answer, RIDGECROOK_CUT_SHORT, 0);
            } else {
                done &= is(answer, RIDGECROOK_DONE, (uint32_t)size);
            }
        }
    }
    check(cut, "every cut of the code at the end of a page");
    check(done, "every length of memory at the end of a page");
    memcpy(code - PAGE, ADD_MEMORY, sizeof ADD_MEMORY);
    ridgecrook_answer answer = ridgecrook_step(vectors - PAGE, 2048, m.masks, m.general, &m.control,
                                               &m.pointer, code - PAGE, 6, memory - PAGE, PAGE);
    check(is(answer, RIDGECROOK_DONE, 6), "buffers at the beginning of a page");
}

/* Masked by k1, at RSP-16; the second writes k2 and is as long as any (R3.14). */
static void check_ends(void) {
    static const uint8_t add[] = {0x62, 0xF5, 0x74, 0x49, 0x58, 0x84,
                                  0x24, 0xF0, 0xFF, 0xFF, 0xFF};
    static const uint8_t compare[] = {0x62, 0xF3, 0x74, 0x49, 0xC2, 0x94,
                                      0x24, 0xF0, 0xFF, 0xFF, 0xFF, 0x01};
    check_ends_of(add, sizeof add);
    check_ends_of(compare, sizeof compare);
}

int main(void) {
    check_layout();
    check_refusals();
    check_sizes();
    check_registers();
    check_exception();
    check_stages();
    check_memory();
    check_scalars();
    check_comparisons();
    check_null();
    check_ends();
    return finish();
}
