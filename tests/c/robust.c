/*
 * Steps, saves, loads and moves on random bytes and states, with every lent buffer against the end
 * or the beginning of pages that may be touched (R8.4): one byte beyond, and the program stops.
 * After each step it is checked that the answer is one that the header names, that a refusal left
 * all as it was, and that nothing was written but the destination, a vector or a mask register;
 * what it is to compute, other tests know. Of a save, a load and a move the answer is known, as are
 * the bytes or the state (R9.4, R9.5, R9.10), and that nothing beside these is written.
 *
 *   robust [STEPS [SEED]]     1,000,000 steps if nothing is said
 */
#include "form.h" /* first, since it chooses what the system's headers declare */

#include "check.h"
#include "random.h"

#include <inttypes.h>

enum { CODE_MOST = 24, MEMORY_MOST = 2 * PAGE };

static void fill(void *at, size_t size) {
    uint8_t *bytes = at;
    for (; size >= 8; size -= 8, bytes += 8) {
        uint64_t more = bits();
        memcpy(bytes, &more, 8);
    }
    for (; size > 0; size--) {
        *bytes++ = (uint8_t)bits();
    }
}

/* Pages, and where in them a buffer of a size stands: at their end, or at their beginning. */
typedef struct {
    uint8_t *end;
    size_t size;
} pages;

static pages new_pages(size_t count) {
    pages made = {pages_end(count), count * PAGE};
    return made;
}

static uint8_t *placed(pages in, size_t size) {
    return bits() % 4 == 0 ? in.end - in.size : in.end - size;
}

/* All that a call is lent. */
typedef struct {
    uint8_t *vectors, *code, *memory;
    uint64_t *masks, *general, *pointer;
    uint32_t *control;
    size_t vectors_length, code_length, memory_length;
} lent;

/* The expected size, but for one call in 32. */
static size_t mostly(size_t expected) {
    return bits() % 32 != 0 ? expected : below(PAGE);
}

static lent place(const pages in[7]) {
    lent all;
    all.vectors_length = mostly(RIDGECROOK_VECTORS_SIZE);
    all.code_length = bits() % 4 != 0 ? 12 : below(CODE_MOST + 1);
    all.memory_length = below(MEMORY_MOST + 1);
    all.vectors = placed(in[0], all.vectors_length);
    all.code = placed(in[1], all.code_length);
    all.memory = placed(in[2], all.memory_length);
    all.masks = (uint64_t *)(void *)placed(in[3], 8 * sizeof(uint64_t));
    all.general = (uint64_t *)(void *)placed(in[4], 16 * sizeof(uint64_t));
    all.pointer = (uint64_t *)(void *)placed(in[5], sizeof(uint64_t));
    all.control = (uint32_t *)(void *)placed(in[6], sizeof(uint32_t));
    return all;
}

/* Three in four begin like an instruction of the list, one in eight of them with a wrong bit. */
static void fill_code(uint8_t *code, size_t length) {
    static const struct {
        uint8_t map, prefix, opcode;
    } rows[] = {
        {5, 0, 0x58}, {5, 0, 0x59}, {5, 0, 0x5C}, {5, 0, 0x5E}, {5, 0, 0x51}, {6, 1, 0x98},
        {6, 1, 0xA8}, {6, 1, 0xB8}, {5, 2, 0x58}, {5, 2, 0x59}, {5, 2, 0x5C}, {5, 2, 0x5E},
        {5, 2, 0x51}, {6, 1, 0x99}, {6, 1, 0xA9}, {6, 1, 0xB9}, {5, 0, 0x5D}, {5, 0, 0x5F},
        {3, 0, 0xC2},
    };
    fill(code, length);
    if (length < 6 || bits() % 4 == 0) {
        return;
    }
    size_t row = below(sizeof rows / sizeof rows[0]);
    code[0] = 0x62;
    code[1] = (uint8_t)((code[1] & 0xF0) | rows[row].map);
    code[2] = (uint8_t)((code[2] & 0x78) | 4 | rows[row].prefix);
    if (rows[row].prefix == 0 && rows[row].opcode == 0x51) { /* no first source */
        code[2] |= 0x78;
        code[3] |= 0x08;
    }
    if (rows[row].map == 3) { /* a destination of 0 to 7 */
        code[1] |= 0x90;
    }
    if ((code[3] & 7) == 0 || rows[row].map == 3) { /* no zeroing without a mask, nor of one */
        code[3] &= 0x7F;
    }
    code[4] = rows[row].opcode;
    if (bits() % 8 == 0) {
        code[below(6)] ^= (uint8_t)(1 << below(8));
    }
}

/* An address near the memory half of the time. */
static uint64_t address(size_t memory_length) {
    return bits() % 2 == 0 ? bits() : below(memory_length + 1) - below(200);
}

static void fill_state(const lent *all) {
    fill(all->vectors, all->vectors_length);
    for (size_t i = 0; i < RIDGECROOK_MASKS; i++) {
        all->masks[i] = bits() & bits();
    }
    for (size_t i = 0; i < RIDGECROOK_GENERAL; i++) {
        all->general[i] = address(all->memory_length);
    }
    *all->pointer = address(all->memory_length);
    *all->control = (uint32_t)(bits() & 0xFFFF) | (bits() % 4 != 0 ? 0x1F80 : 0);
    if (bits() % 64 == 0) {
        *all->control |= 1u << (16 + below(16));
    }
}

/* A copy of the state, as much of the vector file as was lent. */
typedef struct {
    uint8_t vectors[PAGE];
    uint64_t masks[8], general[16], pointer;
    uint32_t control;
} copy;

static void keep(copy *kept, const lent *all) {
    memcpy(kept->vectors, all->vectors, all->vectors_length);
    memcpy(kept->masks, all->masks, sizeof kept->masks);
    memcpy(kept->general, all->general, sizeof kept->general);
    kept->pointer = *all->pointer;
    kept->control = *all->control;
}

static int masks_stay(const copy *kept, const lent *all) {
    return memcmp(kept->masks, all->masks, sizeof kept->masks) == 0;
}

static int general_stays(const copy *kept, const lent *all) {
    return memcmp(kept->general, all->general, sizeof kept->general) == 0;
}

static int vectors_stay(const copy *kept, const lent *all) {
    return memcmp(kept->vectors, all->vectors, all->vectors_length) == 0;
}

static int all_stays(const copy *kept, const lent *all) {
    return masks_stay(kept, all) && general_stays(kept, all) && vectors_stay(kept, all) &&
           kept->pointer == *all->pointer && kept->control == *all->control;
}

/* Of code that was carried out: prefix F3 is scalar, and of the fused the odd opcodes (R2.1). */
static int is_scalar(const uint8_t *code) {
    return (code[2] & 3) == 2 || ((code[2] & 3) == 1 && (code[4] & 1) == 1);
}

/* Of code that was carried out: map 3 is VCMPPH (R2.1). */
static int is_comparison(const uint8_t *code) {
    return (code[1] & 7) == 3;
}

/*
 * Of VCMPPH only the mask is written, with no bit for a lane that the writemask, as it was, has
 * off, nor for one above the length (R5.11).
 */
static int mask_is_right(const copy *kept, const lent *all) {
    size_t number = all->code[5] >> 3 & 7, writemask = all->code[3] & 7;
    int whole = all->code[5] >> 6 == 3 && (all->code[3] & 0x10) != 0;
    unsigned lanes = whole ? 32 : 8u << (all->code[3] >> 5 & 3);
    uint64_t allowed = (UINT64_C(1) << lanes) - 1;
    allowed &= writemask == 0 ? UINT64_MAX : kept->masks[writemask];
    uint64_t written = all->masks[number];
    all->masks[number] = kept->masks[number];
    int others_stay = masks_stay(kept, all);
    all->masks[number] = written;
    return others_stay && vectors_stay(kept, all) && (written & ~allowed) == 0;
}

/* Only the destination register is written (R5.9); a scalar form clears lanes 8 to 31 (R5.10). */
static int vector_is_right(const copy *kept, const lent *all) {
    static const uint8_t zeros[48];
    unsigned high = ~(unsigned)all->code[1];
    size_t number = (all->code[5] >> 3 & 7) | (high >> 4 & 8) | (high & 16);
    size_t at = RIDGECROOK_REGISTER_SIZE * number, end = at + RIDGECROOK_REGISTER_SIZE;
    return masks_stay(kept, all) && memcmp(kept->vectors, all->vectors, at) == 0 &&
           memcmp(kept->vectors + end, all->vectors + end, all->vectors_length - end) == 0 &&
           (!is_scalar(all->code) || memcmp(all->vectors + at + 16, zeros, 48) == 0);
}

static int destination_is_right(const copy *kept, const lent *all) {
    return is_comparison(all->code) ? mask_is_right(kept, all) : vector_is_right(kept, all);
}

enum { ANSWERS = RIDGECROOK_BAD_SAVED + 1 };

typedef struct {
    uint64_t answers[ANSWERS], scalar, comparison; /* of steps; the last two were carried out */
    uint64_t saves[ANSWERS], loads[ANSWERS], moves[ANSWERS];
} counts;

/* Whether a step answered and left what the header allows; counts it. */
static int step_is_right(const lent *all, copy *kept, counts *seen) {
    keep(kept, all);
    ridgecrook_answer answer = ridgecrook_step(
        all->vectors, all->vectors_length, all->masks, all->general, all->control, all->pointer,
        all->code, all->code_length, all->memory, all->memory_length);
    if (answer.number > RIDGECROOK_EXCEPTION || answer.number == RIDGECROOK_TOO_LONG) {
        return 0;
    }
    seen->answers[answer.number]++;
    int flags_added = (*all->control & ~63u) == (kept->control & ~63u) &&
                      (*all->control & kept->control) == kept->control;
    if (answer.number == RIDGECROOK_DONE) {
        seen->scalar += (uint64_t)is_scalar(all->code);
        seen->comparison += (uint64_t)is_comparison(all->code);
        return answer.length >= 6 && answer.length <= 12 && answer.length <= all->code_length &&
               *all->pointer == kept->pointer + answer.length && general_stays(kept, all) &&
               flags_added && destination_is_right(kept, all);
    }
    if (answer.number == RIDGECROOK_EXCEPTION) {
        kept->control = *all->control;
    }
    return answer.length == 0 && flags_added && all_stays(kept, all);
}

/* Some bytes of a page that are lent, and the whole page as it was before. */
typedef struct {
    pages in;
    uint8_t *at;
    size_t length;
    uint8_t kept[PAGE];
} room;

static void keep_room(room *r) {
    memcpy(r->kept, r->in.end - PAGE, PAGE);
}

/* So many bytes mostly, and any number if that is 0, in a page of random bytes. */
static void lend(room *r, size_t expected) {
    r->length = expected != 0 ? mostly(expected) : below(PAGE);
    r->at = placed(r->in, r->length);
    fill(r->in.end - PAGE, PAGE);
    keep_room(r);
}

/* Whether the page is as it was, but for what is lent where that is written. */
static int room_stays(const room *r, int written) {
    const uint8_t *page = r->in.end - PAGE;
    size_t before = (size_t)(r->at - page);
    size_t behind = written ? before + r->length : before;
    return memcmp(page, r->kept, before) == 0 &&
           memcmp(page + behind, r->kept + behind, PAGE - behind) == 0;
}

static uint32_t any_version(void) {
    return bits() % 16 != 0 ? 1 + (uint32_t)(bits() % VERSIONS)
                            : NO_VERSIONS[below(NO_VERSIONS_COUNT)];
}

static int is_version(uint32_t number) {
    return number == 1 || number == 2;
}

/* Makes about half of the registers zero, or none, or all; then often one byte is not. */
static void thin(const lent *all) {
    uint32_t word = (uint32_t)bits();
    word = bits() % 8 == 0 ? 0 : bits() % 8 == 0 ? UINT32_MAX : word;
    for (size_t i = 0; i < all->vectors_length; i++) {
        all->vectors[i] &= (uint8_t)(0 - (word >> i / RIDGECROOK_REGISTER_SIZE % REGISTERS & 1));
    }
    if (all->vectors_length != 0 && bits() % 2 == 0) {
        all->vectors[below(all->vectors_length)] = (uint8_t)bits();
    }
}

/* The state that is lent, where its vector file has its size. */
static machine state_lent(const lent *all) {
    machine m = {.control = *all->control, .pointer = *all->pointer};
    memcpy(m.vectors, all->vectors, sizeof m.vectors);
    memcpy(m.masks, all->masks, sizeof m.masks);
    memcpy(m.general, all->general, sizeof m.general);
    return m;
}

/* The form of the state that is lent; of size 0 without a version, or with a wrong vector file. */
static form form_of_lent(uint32_t version, const lent *all) {
    form none = {{0}, 0};
    if (!is_version(version) || all->vectors_length != RIDGECROOK_VECTORS_SIZE) {
        return none;
    }
    machine m = state_lent(all);
    return form_of(version, &m);
}

/* The bytes that are lent, as a form; of more than any form has, the first. */
static form form_lent(const room *r) {
    form f = {{0}, r->length};
    memcpy(f.bytes, r->at, r->length < ROOM ? r->length : ROOM);
    return f;
}

static int is_form(const room *r, const form *expected) {
    return r->length == expected->size && memcmp(r->at, expected->bytes, expected->size) == 0;
}

static uint32_t save(uint32_t version, const lent *all, const room *target) {
    if (version == 1 && bits() % 2 == 0) {
        return ridgecrook_save(all->vectors, all->vectors_length, all->masks, all->general,
                               *all->control, *all->pointer, target->at, target->length);
    }
    return ridgecrook_save_version(version, all->vectors, all->vectors_length, all->masks,
                                   all->general, *all->control, *all->pointer, target->at,
                                   target->length);
}

/* What a save is to answer, where its form has this size (R9.4). */
static uint32_t save_answer(uint32_t version, const lent *all, size_t length, size_t size) {
    if (!is_version(version)) {
        return RIDGECROOK_BAD_SAVED;
    }
    if (size == 0 || length != size) {
        return RIDGECROOK_BAD_SIZE;
    }
    return *all->control > 0xFFFF ? RIDGECROOK_BAD_CONTROL : RIDGECROOK_DONE;
}

/* A save of the state; it is counted, and *written says whether a form is there then. */
static int save_is_right(const lent *all, copy *kept, room *target, counts *seen, int *written) {
    uint32_t version = any_version();
    form to_write = form_of_lent(version, all);
    lend(target, to_write.size);
    keep(kept, all);
    size_t size = ridgecrook_saved_size(version, all->vectors, all->vectors_length);
    uint32_t number = save(version, all, target);
    uint32_t expected = save_answer(version, all, target->length, to_write.size);
    seen->saves[expected]++;
    *written = expected == RIDGECROOK_DONE;
    return size == to_write.size && number == expected && all_stays(kept, all) &&
           room_stays(target, *written) && (!*written || is_form(target, &to_write));
}

/* Spoils a form: its last 64 bytes, or a bit near its beginning, in its word, or anywhere. */
static void spoil_somewhere(const room *r) {
    size_t places[] = {below(12), below(12), FILE_AT + below(4), below(r->length)};
    if (bits() % 4 == 0) {
        memset(r->at + r->length - RIDGECROOK_REGISTER_SIZE, 0, RIDGECROOK_REGISTER_SIZE);
    } else {
        r->at[places[below(4)]] ^= (uint8_t)(1 << below(8));
    }
}

/* Makes random bytes begin like a form. */
static void pretend(const room *r) {
    if (r->length > 4) {
        put(r->at, r->length - 4, 4);
        r->at[4] = (uint8_t)any_version();
    }
}

/*
 * What a load is to answer (R9.5). Bytes are a saved form exactly where they are, length and all,
 * the form of the state that stands in them: a wrong length field or word, or a register that is
 * marked and zero, is in no form of a state.
 */
static uint32_t load_answer(const form *saved, size_t vectors_length) {
    machine held = state_in(saved);
    form again = form_of(saved->bytes[4], &held);
    if (vectors_length != RIDGECROOK_VECTORS_SIZE) {
        return RIDGECROOK_BAD_SIZE;
    }
    if (!is_version(saved->bytes[4]) || !same_form(saved, &again)) {
        return RIDGECROOK_BAD_SAVED;
    }
    return held.control > 0xFFFF ? RIDGECROOK_BAD_CONTROL : RIDGECROOK_DONE;
}

/* A load of what stands in the room over another state. */
static int load_is_right(const lent *all, copy *kept, room *source, counts *seen) {
    fill_state(all);
    keep(kept, all);
    keep_room(source);
    form saved = form_lent(source);
    uint32_t number =
        ridgecrook_load(source->at, source->length, all->vectors, all->vectors_length, all->masks,
                        all->general, all->control, all->pointer);
    uint32_t expected = load_answer(&saved, all->vectors_length);
    seen->loads[expected]++;
    if (number != expected || !room_stays(source, 0)) {
        return 0;
    }
    if (expected != RIDGECROOK_DONE) {
        return all_stays(kept, all);
    }
    machine held = state_in(&saved), loaded = state_lent(all);
    return same(&held, &loaded);
}

/* What a move is to answer where a load of its source is to answer so (R9.10). */
static uint32_t move_answer(uint32_t version, uint32_t loaded, size_t length, size_t size) {
    if (!is_version(version)) {
        return RIDGECROOK_BAD_SAVED;
    }
    if (loaded != RIDGECROOK_DONE) {
        return loaded;
    }
    return length != size ? RIDGECROOK_BAD_SIZE : RIDGECROOK_DONE;
}

/* A move of what stands in the room. */
static int move_is_right(room *source, room *target, counts *seen) {
    uint32_t version = any_version();
    form saved = form_lent(source), to_write = {{0}, 0};
    uint32_t loaded = load_answer(&saved, RIDGECROOK_VECTORS_SIZE);
    if (is_version(version) && loaded == RIDGECROOK_DONE) {
        machine held = state_in(&saved);
        to_write = form_of(version, &held);
    }
    size_t size = ridgecrook_moved_size(version, source->at, source->length);
    lend(target, to_write.size);
    uint32_t number =
        ridgecrook_move(version, source->at, source->length, target->at, target->length);
    uint32_t expected = move_answer(version, loaded, target->length, to_write.size);
    int written = expected == RIDGECROOK_DONE;
    seen->moves[expected]++;
    return size == to_write.size && number == expected && room_stays(source, 0) &&
           room_stays(target, written) && (!written || is_form(target, &to_write));
}

/*
 * A save of a state, then a load and a move of what stands in the target then: what was saved, as
 * it is or spoilt once or more, or other bytes.
 */
static int transfer_is_right(const pages in[7], copy *kept, room rooms[2], counts *seen) {
    int written;
    lent all = place(in);
    fill_state(&all);
    thin(&all);
    int right = save_is_right(&all, kept, &rooms[0], seen, &written);
    if (!written) {
        pretend(&rooms[0]);
    }
    while (written && bits() % 2 == 0) {
        spoil_somewhere(&rooms[0]);
    }
    all = place(in);
    right &= load_is_right(&all, kept, &rooms[0], seen);
    right &= move_is_right(&rooms[0], &rooms[1], seen);
    return right;
}

/* How many calls went wrong; the first of them are printed by their number. */
static uint64_t run(uint64_t steps, counts *seen) {
    static const size_t sizes[7] = {1, 1, MEMORY_MOST / PAGE, 1, 1, 1, 1};
    static copy kept;
    static room rooms[2];
    pages in[7];
    uint64_t wrong = 0;
    for (size_t i = 0; i < 7; i++) {
        in[i] = new_pages(sizes[i]);
    }
    rooms[0].in = new_pages(1);
    rooms[1].in = new_pages(1);
    fill(in[2].end - in[2].size, in[2].size);
    for (uint64_t step = 0; step < steps; step++) {
        lent all = place(in);
        fill_code(all.code, all.code_length);
        fill_state(&all);
        int right = step_is_right(&all, &kept, seen);
        if (step % 16 == 0) {
            right &= transfer_is_right(in, &kept, rooms, seen);
        }
        if (!right && wrong++ < 10) {
            printf("failed: step %" PRIu64 "\n", step);
        }
    }
    return wrong;
}

/* Prints how often each answer of a transfer was given; whether all were. */
static int transfers_reached(const char *what, const uint64_t answers[ANSWERS]) {
    uint64_t done = answers[RIDGECROOK_DONE], size = answers[RIDGECROOK_BAD_SIZE];
    uint64_t control = answers[RIDGECROOK_BAD_CONTROL], saved = answers[RIDGECROOK_BAD_SAVED];
    printf("%s answered 0, 1, 2, 10: %" PRIu64 " %" PRIu64 " %" PRIu64 " %" PRIu64 "\n", what, done,
           size, control, saved);
    return done > 0 && size > 0 && control > 0 && saved > 0;
}

int main(int count, char **arguments) {
    uint64_t steps = count > 1 ? strtoull(arguments[1], NULL, 10) : 1000000;
    state = count > 2 ? strtoull(arguments[2], NULL, 10) : 20240304;
    counts seen = {0};
    printf("%" PRIu64 " steps, seed %" PRIu64 "\n", steps, state);
    uint64_t wrong = run(steps, &seen);
    printf("answers 0 to 8:");
    for (size_t i = 0; i <= 8; i++) {
        printf(" %" PRIu64, seen.answers[i]);
    }
    printf("; scalar and done: %" PRIu64 ", comparisons: %" PRIu64 "\n", seen.scalar,
           seen.comparison);
    int reached = seen.scalar > 0 && seen.comparison > 0 &&
                  seen.answers[0] > seen.scalar + seen.comparison;
    reached &= transfers_reached("saves", seen.saves);
    reached &= transfers_reached("loads", seen.loads);
    reached &= transfers_reached("moves", seen.moves);
    check(wrong == 0 && reached, "every call answered and left what the header says");
    return finish();
}
