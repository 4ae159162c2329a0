/*
 * The header by itself, before any other (R8.1, R8.5, R14.9): every function and every constant of it, in a file that is C99, C11 and
 * C++ alike. The constants are held against what calls answer, so a wrong number shows.
 */
#include "ridgecrook.h"

#include "check.h"

#include <string.h>

static const uint8_t ADD[] = {0x62, 0xF5, 0x74, 0x48, 0x58, 0xC2};        /* vaddph zmm0, zmm1, zmm2 */
static const uint8_t ADD_MEMORY[] = {0x62, 0xF5, 0x74, 0x48, 0x58, 0x00}; /* vaddph zmm0, zmm1, [rax] */
static const uint8_t NO_MAP[] = {0x62, 0xFD, 0x74, 0x48, 0x58, 0xC2};     /* byte 1 bit 3 set */
static const uint8_t OTHER[] = {0x62, 0xF5, 0x74, 0x48, 0x5A, 0xC2};      /* opcode 5A */
static const uint8_t EQUAL[] = {0x62, 0xF3, 0x74, 0x48, 0xC2, 0xCA, 0};   /* vcmpeqph k1, zmm1, zmm2 */

static uint8_t vectors[RIDGECROOK_VECTORS_SIZE];
static uint64_t masks[RIDGECROOK_MASKS];
static uint64_t general[RIDGECROOK_GENERAL];
static uint32_t control = RIDGECROOK_CONTROL_RESET;
static uint64_t pointer;
static uint8_t saved[RIDGECROOK_SAVED_SIZE];
static uint8_t packed[RIDGECROOK_SAVED_LARGEST];
static uint8_t moved[RIDGECROOK_SAVED_LARGEST];

static void set_lane(size_t place, uint16_t half) {
    vectors[place] = (uint8_t)(half & 0xFF);
    vectors[place + 1] = (uint8_t)(half >> 8);
}

static uint32_t step(size_t vectors_length, const uint8_t *code, size_t code_length) {
    return ridgecrook_step(vectors, vectors_length, masks, general, &control, &pointer, code, code_length, NULL, 0).number;
}

static uint32_t save(size_t target_length) {
    return ridgecrook_save(vectors, sizeof vectors, masks, general, control, pointer, saved, target_length);
}

static size_t packed_size(void) {
    return ridgecrook_saved_size(2, vectors, sizeof vectors);
}

static uint32_t save_version(uint32_t version, size_t target_length) {
    return ridgecrook_save_version(version, vectors, sizeof vectors, masks, general, control, pointer, packed, target_length);
}

static uint32_t load(const uint8_t *form, size_t length) {
    return ridgecrook_load(form, length, vectors, sizeof vectors, masks, general, &control, &pointer);
}

static int is(ridgecrook_rounded r, unsigned half, unsigned flags) {
    return r.half == half && r.flags == flags && r.number == RIDGECROOK_DONE;
}

static void operations(void) {
    check(is(ridgecrook_add(0x3C00, 0x4000, RIDGECROOK_NEAREST, 0), 0x4200, 0), "1 + 2");
    check(is(ridgecrook_subtract(0x3C00, 0x4000, RIDGECROOK_NEAREST, 0), 0xBC00, 0), "1 - 2");
    check(is(ridgecrook_multiply(0x4000, 0x4200, RIDGECROOK_NEAREST, 0), 0x4600, 0), "2 * 3");
    check(is(ridgecrook_divide(0x4600, 0x4000, RIDGECROOK_NEAREST, 0), 0x4200, 0), "6 / 2");
    check(is(ridgecrook_square_root(0x4400, RIDGECROOK_NEAREST, 0), 0x4000, 0), "the root of 4");
    check(is(ridgecrook_fused_multiply_add(0x4000, 0x4200, 0x3C00, RIDGECROOK_NEAREST, 0), 0x4700, 0), "2 * 3 + 1");
    check(is(ridgecrook_minimum(0x3C00, 0x4000), 0x3C00, 0), "the smaller of 1 and 2");
    check(is(ridgecrook_maximum(0x3C00, 0x4000), 0x4000, 0), "the larger of 1 and 2");
    check(is(ridgecrook_compare(0x3C00, 0x4000, 17), 1, 0), "1 < 2");
    check(is(ridgecrook_compare(0x4000, 0x3C00, 17), 0, 0), "2 < 1");
}

static void modes(void) {
    check(is(ridgecrook_divide(0x3C00, 0x4200, RIDGECROOK_NEAREST, 0), 0x3555, RIDGECROOK_PE), "1 / 3, nearest");
    check(is(ridgecrook_divide(0xBC00, 0x4200, RIDGECROOK_DOWN, 0), 0xB556, RIDGECROOK_PE), "-1 / 3, down");
    check(is(ridgecrook_divide(0x3C00, 0x4200, RIDGECROOK_UP, 0), 0x3556, RIDGECROOK_PE), "1 / 3, up");
    check(is(ridgecrook_divide(0xBC00, 0x4200, RIDGECROOK_TOWARD_ZERO, 0), 0xB555, RIDGECROOK_PE), "-1 / 3, toward zero");
    check(ridgecrook_add(0, 0, RIDGECROOK_TOWARD_ZERO + 1, 0).number == RIDGECROOK_BAD_MODE, "a mode above the last");
}

static void flags(void) {
    check(is(ridgecrook_square_root(0xBC00, RIDGECROOK_NEAREST, 0), 0xFE00, RIDGECROOK_IE), "the root of -1");
    check(is(ridgecrook_minimum(0x3C00, 0x7E00), 0x7E00, RIDGECROOK_IE), "the minimum with a quiet NaN");
    check(is(ridgecrook_compare(0x0001, 0x3C00, 17), 1, RIDGECROOK_DE), "a subnormal compared");
    check(is(ridgecrook_add(0x0001, 0x0001, RIDGECROOK_NEAREST, 0), 0x0002, RIDGECROOK_DE), "subnormal operands");
    check(is(ridgecrook_divide(0x3C00, 0x0000, RIDGECROOK_NEAREST, 0), 0x7C00, RIDGECROOK_ZE), "1 / 0");
    check(is(ridgecrook_add(0x7BFF, 0x7BFF, RIDGECROOK_NEAREST, 0), 0x7C00, RIDGECROOK_OE | RIDGECROOK_PE), "overflow");
    check(is(ridgecrook_multiply(0x0400, 0x3800, RIDGECROOK_NEAREST, 1), 0x0200, RIDGECROOK_UE), "underflow, unmasked");
}

static void steps(void) {
    check(step(sizeof vectors, ADD, sizeof ADD) == RIDGECROOK_DONE && pointer == sizeof ADD, "a step");
    check(step(sizeof vectors, EQUAL, sizeof EQUAL) == RIDGECROOK_DONE && masks[1] == 0xFFFFFFFF, "a comparison, to a mask");
    check(step(sizeof vectors, EQUAL, sizeof EQUAL - 1) == RIDGECROOK_CUT_SHORT, "its immediate missing");
    check(step(RIDGECROOK_VECTORS_SIZE - 1, ADD, sizeof ADD) == RIDGECROOK_BAD_SIZE, "a vector file that is too short");
    check(step(sizeof vectors, NULL, 0) == RIDGECROOK_CUT_SHORT, "no code");
    check(step(sizeof vectors, OTHER, sizeof OTHER) == RIDGECROOK_NOT_LISTED, "another instruction");
    check(step(sizeof vectors, NO_MAP, sizeof NO_MAP) == RIDGECROOK_RESERVED, "a reserved encoding");
    check(step(sizeof vectors, ADD_MEMORY, sizeof ADD_MEMORY) == RIDGECROOK_OUTSIDE_MEMORY, "no memory");
    set_lane(RIDGECROOK_REGISTER_SIZE, 0x0001);
    control = 0x1E80;
    check(step(sizeof vectors, ADD, sizeof ADD) == RIDGECROOK_EXCEPTION && control == (0x1E80 | RIDGECROOK_DE), "DE unmasked");
    control = 0x10000;
    check(step(sizeof vectors, ADD, sizeof ADD) == RIDGECROOK_BAD_CONTROL, "a control word with bit 16");
    control = RIDGECROOK_CONTROL_RESET;
    check(RIDGECROOK_TOO_LONG == 6, "the one answer that no call gives");
}

static void saving(void) {
    check(ridgecrook_saved_size(1, vectors, sizeof vectors) == RIDGECROOK_SAVED_SIZE, "the size of version 1");
    check(save(sizeof saved) == RIDGECROOK_DONE && saved[2] == 0x08 && saved[3] == 0xCD, "a save, and its length");
    check(saved[4] == 1 && saved[7] == 0x1F && saved[8] == 0x80, "its version, and the control word after reset, saved");
    check(save(RIDGECROOK_SAVED_SIZE - 1) == RIDGECROOK_BAD_SIZE, "a target that is too short");
    check(load(saved, sizeof saved) == RIDGECROOK_DONE, "a load");
    check(load(NULL, 0) == RIDGECROOK_BAD_SAVED, "no saved form");
    control = 0x10000;
    check(save(sizeof saved) == RIDGECROOK_BAD_CONTROL, "a control word with bit 16, saved");
    control = RIDGECROOK_CONTROL_RESET;
}

static void saving_packed(void) {
    size_t size = packed_size();
    check(save_version(2, size) == RIDGECROOK_DONE && packed[3] == ((size - 4) & 0xFF) && packed[4] == 2, "version 2, saved");
    check(save_version(2, size + 1) == RIDGECROOK_BAD_SIZE, "a target that is too long");
    check(save_version(3, size) == RIDGECROOK_BAD_SAVED, "no version 3");
    set_lane(RIDGECROOK_REGISTER_SIZE, 0x4000);
    check(load(packed, size) == RIDGECROOK_DONE && vectors[RIDGECROOK_REGISTER_SIZE] == 1, "version 2, loaded");
    for (size_t place = 0; place < sizeof vectors; place += RIDGECROOK_REGISTER_SIZE) {
        set_lane(place, 0x3C00);
    }
    check(packed_size() == RIDGECROOK_SAVED_LARGEST, "no size is larger than with all registers");
}

static uint32_t move(uint32_t version, const uint8_t *source, size_t source_length, size_t target_length) {
    return ridgecrook_move(version, source, source_length, moved, target_length);
}

/* What the two above have saved, moved from the one to the other. */
static void moving(void) {
    size_t size = ridgecrook_moved_size(2, saved, sizeof saved);
    check(move(2, saved, sizeof saved, size) == RIDGECROOK_DONE && memcmp(moved, packed, size) == 0, "a move to version 2");
    check(ridgecrook_moved_size(1, packed, size) == sizeof saved, "the size of the move back");
    check(move(1, packed, size, sizeof saved) == RIDGECROOK_DONE && memcmp(moved, saved, sizeof saved) == 0, "the move back");
    check(move(1, packed, size, size) == RIDGECROOK_BAD_SIZE, "a move to a target that is too short");
    check(move(3, packed, size, size) == RIDGECROOK_BAD_SAVED, "a move to no version");
    packed[5] = 1;
    check(move(1, packed, size, sizeof saved) == RIDGECROOK_BAD_CONTROL, "a move of a control word with bit 24");
}

static int reports(const uint8_t *recording, size_t length, uint64_t report, uint64_t item) {
    ridgecrook_report r = ridgecrook_replay(recording, length);
    return r.report == report && r.item == item;
}

static void replaying(void) {
    uint8_t recording[RIDGECROOK_SAVED_SIZE + 77];
    memset(recording, 0, sizeof recording);
    memcpy(recording, saved, sizeof saved);
    uint8_t *item = recording + sizeof saved; /* a step without code */
    item[3] = 73;
    item[4] = 1;
    item[5] = RIDGECROOK_CUT_SHORT;
    memcpy(item + 9, recording + 5, 4); /* the control word, as it was saved */
    check(reports(recording, sizeof recording, RIDGECROOK_REPORT_SAME, 1), "a recording of one item");
    check(reports(recording, sizeof saved, RIDGECROOK_REPORT_SAME, 0), "and of none");
    item[5] = RIDGECROOK_DONE;
    check(reports(recording, sizeof recording, RIDGECROOK_REPORT_DIFFERS, 0), "another answer");
    check(reports(recording, sizeof recording - 1, RIDGECROOK_REPORT_BAD_ITEM, 0), "an item that is cut");
    check(reports(NULL, 0, RIDGECROOK_REPORT_BAD_STATE, 0), "no recording");
}

int main(void) {
    check(sizeof(ridgecrook_rounded) == 4 && sizeof(ridgecrook_answer) == 8, "structs without padding");
    check(sizeof(ridgecrook_report) == 16 && offsetof(ridgecrook_report, item) == 8, "two numbers of 8 bytes");
    check(RIDGECROOK_VECTORS_SIZE == 32 * RIDGECROOK_REGISTER_SIZE, "32 vector registers");
    check(sizeof masks == 64 && sizeof general == 128, "8 masks and 16 general registers");
    operations();
    modes();
    flags();
    steps();
    saving();
    saving_packed();
    moving();
    replaying();
    return finish();
}
