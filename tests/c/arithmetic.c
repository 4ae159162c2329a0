/* The arithmetic as a C engineer calls it (R8.1, R8.5): the header, the archive, rows for each
 * function. */
#include "check.h"
#include "ridgecrook.h"

#include <stddef.h>
#include <stdint.h>
#include <stdio.h>

static void check_layout(void) {
    check(sizeof(ridgecrook_rounded) == 4, "a ridgecrook_rounded has 4 bytes");
    check(offsetof(ridgecrook_rounded, half) == 0, "half stands at 0");
    check(offsetof(ridgecrook_rounded, flags) == 2, "flags stands at 2");
    check(offsetof(ridgecrook_rounded, number) == 3, "number stands at 3");
}

enum { ADD, SUBTRACT, MULTIPLY, DIVIDE, SQUARE_ROOT, FUSED_MULTIPLY_ADD };

static const struct {
    const char *name;
    int operands;
} OPERATIONS[] = {
    {"add", 2},    {"subtract", 2},    {"multiply", 2},
    {"divide", 2}, {"square_root", 1}, {"fused_multiply_add", 3},
};

typedef struct {
    int operation;
    uint16_t operands[3]; /* those that the operation does not have are 0 */
    uint32_t mode, underflow_unmasked;
    ridgecrook_rounded expected;
} row;

/* Short names for the table. */
enum {
    NEAREST = RIDGECROOK_NEAREST,
    DOWN = RIDGECROOK_DOWN,
    UP = RIDGECROOK_UP,
    TO_ZERO = RIDGECROOK_TOWARD_ZERO,
    IE = RIDGECROOK_IE,
    DE = RIDGECROOK_DE,
    ZE = RIDGECROOK_ZE,
    OE = RIDGECROOK_OE,
    UE = RIDGECROOK_UE,
    PE = RIDGECROOK_PE,
    DONE = RIDGECROOK_DONE,
    BAD = RIDGECROOK_BAD_MODE
};

static const row ROWS[] = {
    {ADD, {0x3C00, 0x4000}, NEAREST, 0, {0x4200, 0, DONE}},
    {ADD, {0x3C00, 0xBC00}, DOWN, 0, {0x8000, 0, DONE}},
    {ADD, {0x7BFF, 0x4C00}, NEAREST, 0, {0x7C00, OE | PE, DONE}},
    {ADD, {0x0001, 0x0001}, NEAREST, 256, {0x0002, DE | UE, DONE}},
    {ADD, {0x3C00, 0x4000}, 4, 0, {0x0000, 0, BAD}},
    {ADD, {0x7D00, 0x4000}, 256, 1, {0x0000, 0, BAD}},
    {SUBTRACT, {0x3C00, 0x4000}, NEAREST, 0, {0xBC00, 0, DONE}},
    {SUBTRACT, {0x3C00, 0xFD00}, NEAREST, 0, {0xFF00, IE, DONE}},
    {SUBTRACT, {0x0401, 0x0400}, UP, 0x80000000u, {0x0001, UE, DONE}},
    {SUBTRACT, {0x3C00, 0x4000}, 0x80000000u, 0, {0x0000, 0, BAD}},
    {MULTIPLY, {0x4000, 0xC200}, NEAREST, 0, {0xC600, 0, DONE}},
    {MULTIPLY, {0x2010, 0x1FE0}, TO_ZERO, 0, {0x03FF, UE | PE, DONE}},
    {MULTIPLY, {0x0400, 0x3800}, NEAREST, 0, {0x0200, 0, DONE}},
    {MULTIPLY, {0x0400, 0x3800}, NEAREST, 1, {0x0200, UE, DONE}},
    {MULTIPLY, {0x4000, 0xC200}, 0xFFFFFFFFu, 0, {0x0000, 0, BAD}},
    {DIVIDE, {0x3C00, 0x4200}, UP, 0, {0x3556, PE, DONE}},
    {DIVIDE, {0x4000, 0x3C00}, NEAREST, 0, {0x4000, 0, DONE}},
    {DIVIDE, {0x0001, 0x8000}, NEAREST, 0, {0xFC00, ZE, DONE}},
    {DIVIDE, {0x0400, 0x4000}, NEAREST, 2, {0x0200, UE, DONE}},
    {DIVIDE, {0x3C00, 0x4200}, 5, 0, {0x0000, 0, BAD}},
    {SQUARE_ROOT, {0x4000}, NEAREST, 0, {0x3DA8, PE, DONE}},
    {SQUARE_ROOT, {0x4000}, UP, 1, {0x3DA9, PE, DONE}},
    {SQUARE_ROOT, {0xBC00}, NEAREST, 0, {0xFE00, IE, DONE}},
    {SQUARE_ROOT, {0x4000}, 7, 0, {0x0000, 0, BAD}},
    {FUSED_MULTIPLY_ADD, {0x4000, 0x4200, 0x3C00}, NEAREST, 0, {0x4700, 0, DONE}},
    {FUSED_MULTIPLY_ADD, {0x3C01, 0x3C01, 0xBC02}, NEAREST, 0, {0x0010, 0, DONE}},
    {FUSED_MULTIPLY_ADD, {0x0400, 0x3C00, 0x8200}, NEAREST, 1, {0x0200, DE | UE, DONE}},
    {FUSED_MULTIPLY_ADD, {0x4000, 0x4200, 0x3C00}, 255, 0, {0x0000, 0, BAD}},
};

static ridgecrook_rounded call(const row *r) {
    const uint16_t *x = r->operands;
    uint32_t mode = r->mode, yes = r->underflow_unmasked;
    switch (r->operation) {
    case ADD:
        return ridgecrook_add(x[0], x[1], mode, yes);
    case SUBTRACT:
        return ridgecrook_subtract(x[0], x[1], mode, yes);
    case MULTIPLY:
        return ridgecrook_multiply(x[0], x[1], mode, yes);
    case DIVIDE:
        return ridgecrook_divide(x[0], x[1], mode, yes);
    case SQUARE_ROOT:
        return ridgecrook_square_root(x[0], mode, yes);
    default:
        return ridgecrook_fused_multiply_add(x[0], x[1], x[2], mode, yes);
    }
}

static void print_outcome(ridgecrook_rounded outcome) {
    char flags[] = "IDZOUP";
    for (int bit = 0; bit < 6; bit++) {
        if (!(outcome.flags >> bit & 1)) {
            flags[bit] = '.';
        }
    }
    printf("%04X %s %d", outcome.half, flags, outcome.number);
}

/* The line that `repeat` of the Rust tests reads too. */
static void print_failure(const row *r, ridgecrook_rounded outcome) {
    printf("%s m%u u%u", OPERATIONS[r->operation].name, (unsigned)r->mode,
           (unsigned)r->underflow_unmasked);
    for (int i = 0; i < OPERATIONS[r->operation].operands; i++) {
        printf(" %04X", r->operands[i]);
    }
    printf(" => ");
    print_outcome(outcome);
    printf(" expected ");
    print_outcome(r->expected);
    printf("\n");
}

static int same(ridgecrook_rounded a, ridgecrook_rounded b) {
    return a.half == b.half && a.flags == b.flags && a.number == b.number;
}

static void check_row(const row *r) {
    ridgecrook_rounded outcome = call(r);
    if (same(outcome, r->expected)) {
        passed++;
    } else {
        failed++;
        print_failure(r, outcome);
    }
}

/* Minimum, maximum, and a comparison by its immediate, of which the low five bits are read. */
typedef struct {
    uint16_t a, b;
    ridgecrook_rounded minimum, maximum;
    uint32_t immediate;
    ridgecrook_rounded comparison;
} compared;

enum { EQ_OQ, LT_OS, LE_OS, UNORD_Q, NEQ_UQ, TRUE_UQ = 15, LT_OQ = 17, TRUE_US = 31 };

static const compared COMPARED[] = {
    {0x3C00, 0x4000, {0x3C00, 0, DONE}, {0x4000, 0, DONE}, LT_OS, {1, 0, DONE}},
    {0x4000, 0x3C00, {0x3C00, 0, DONE}, {0x4000, 0, DONE}, LT_OS, {0, 0, DONE}},
    {0xBC00, 0xC000, {0xC000, 0, DONE}, {0xBC00, 0, DONE}, LE_OS, {0, 0, DONE}},
    {0x7BFF, 0x7C00, {0x7BFF, 0, DONE}, {0x7C00, 0, DONE}, NEQ_UQ, {1, 0, DONE}},
    /* zeros are equal, and the second is handed back */
    {0x0000, 0x8000, {0x8000, 0, DONE}, {0x8000, 0, DONE}, EQ_OQ, {1, 0, DONE}},
    {0x8000, 0x0000, {0x0000, 0, DONE}, {0x0000, 0, DONE}, LT_OS, {0, 0, DONE}},
    /* so is it beside a NaN, as it is; a comparison signals a quiet one by some predicates */
    {0x7E01, 0x3C00, {0x3C00, IE, DONE}, {0x3C00, IE, DONE}, LT_OQ, {0, 0, DONE}},
    {0x3C00, 0xFE01, {0xFE01, IE, DONE}, {0xFE01, IE, DONE}, LT_OS, {0, IE, DONE}},
    {0x7E01, 0x7D00, {0x7D00, IE, DONE}, {0x7D00, IE, DONE}, UNORD_Q, {1, IE, DONE}},
    {0x7E01, 0x7E00, {0x7E00, IE, DONE}, {0x7E00, IE, DONE}, TRUE_UQ, {1, 0, DONE}},
    {0x7E01, 0x7E00, {0x7E00, IE, DONE}, {0x7E00, IE, DONE}, TRUE_US, {1, IE, DONE}},
    /* DE, but not beside a NaN */
    {0x0001, 0x3C00, {0x0001, DE, DONE}, {0x3C00, DE, DONE}, EQ_OQ, {0, DE, DONE}},
    {0x0000, 0x8001, {0x8001, DE, DONE}, {0x0000, DE, DONE}, LT_OQ, {0, DE, DONE}},
    {0x0001, 0x7E00, {0x7E00, IE, DONE}, {0x7E00, IE, DONE}, UNORD_Q, {1, 0, DONE}},
    /* an immediate with higher bits too, which count for nothing */
    {0x3C00, 0x4000, {0x3C00, 0, DONE}, {0x4000, 0, DONE}, 0x20 | LT_OS, {1, 0, DONE}},
    {0x3C00, 0x4000, {0x3C00, 0, DONE}, {0x4000, 0, DONE}, 0x100 | EQ_OQ, {0, 0, DONE}},
    {0x3C00, 0x4000, {0x3C00, 0, DONE}, {0x4000, 0, DONE}, 0xFFFFFFE0u | LT_OQ, {1, 0, DONE}},
    {0x3C00, 0x4000, {0x3C00, 0, DONE}, {0x4000, 0, DONE}, 0x80000000u, {0, 0, DONE}},
};

/* Prints the line up to its halves where an outcome is not the expected one. */
static void check_outcome(const compared *r, const char *line, ridgecrook_rounded outcome,
                          ridgecrook_rounded expected) {
    if (same(outcome, expected)) {
        passed++;
        return;
    }
    failed++;
    printf("%s %04X %04X => ", line, r->a, r->b);
    print_outcome(outcome);
    printf(" expected ");
    print_outcome(expected);
    printf("\n");
}

static void check_compared(const compared *r) {
    char line[32];
    snprintf(line, sizeof line, "compare i%u", (unsigned)r->immediate);
    check_outcome(r, "minimum", ridgecrook_minimum(r->a, r->b), r->minimum);
    check_outcome(r, "maximum", ridgecrook_maximum(r->a, r->b), r->maximum);
    check_outcome(r, line, ridgecrook_compare(r->a, r->b, r->immediate), r->comparison);
}

int main(void) {
    check_layout();
    for (size_t i = 0; i < sizeof ROWS / sizeof ROWS[0]; i++) {
        check_row(&ROWS[i]);
    }
    for (size_t i = 0; i < sizeof COMPARED / sizeof COMPARED[0]; i++) {
        check_compared(&COMPARED[i]);
    }
    return finish();
}
