/*
 * Moves of a saved form from a version to a version as a C engineer uses them (R9.10 to R9.12): the
 * bytes and sizes, there and back, each refusal and what it leaves, and what C must keep (R8.4), as
 * in saved.c.
 */
#include "form.h" /* first, since it chooses what the system's headers declare */

#include "check.h"

/* Whether a move of a form that is put there writes the expected one, and leaves the source. */
static int moves(uint32_t to, const form *source, const form *expected, uint8_t *from,
                 uint8_t *target) {
    memcpy(from, source->bytes, source->size);
    memset(target, UNTOUCHED, expected->size);
    return ridgecrook_moved_size(to, from, source->size) == expected->size &&
           ridgecrook_move(to, from, source->size, target, expected->size) == RIDGECROOK_DONE &&
           memcmp(target, expected->bytes, expected->size) == 0 &&
           memcmp(from, source->bytes, source->size) == 0;
}

/* Whether all of some room but so many bytes at a place in it is untouched. */
static int rest_untouched(const uint8_t room[ROOM + ALIGNMENTS], size_t at, size_t size) {
    return holds_only(room, at, UNTOUCHED) &&
           holds_only(room + at + size, ROOM + ALIGNMENTS - at - size, UNTOUCHED);
}

/* The same at these places of larger room, of which nothing else is written. */
static int moves_at(uint32_t to, const form *source, const form *expected, size_t from_at,
                    size_t target_at) {
    uint8_t from[ROOM + ALIGNMENTS], target[ROOM + ALIGNMENTS];
    memset(from, UNTOUCHED, sizeof from);
    memset(target, UNTOUCHED, sizeof target);
    return moves(to, source, expected, from + from_at, target + target_at) &&
           rest_untouched(from, from_at, source->size) &&
           rest_untouched(target, target_at, expected->size);
}

static int moves_to(uint32_t to, const form *source, const form *expected) {
    return moves_at(to, source, expected, 0, 0);
}

/* Between the forms that were written by hand. */
static void check_bytes(void) {
    check(moves_to(2, &BY_HAND[0], &BY_HAND[1]), "from version 1 to 2");
    check(moves_to(1, &BY_HAND[1], &BY_HAND[0]), "from version 2 to 1");
    check(moves_to(1, &BY_HAND[0], &BY_HAND[0]), "a copy of version 1");
    check(moves_to(2, &BY_HAND[1], &BY_HAND[1]), "a copy of version 2");
}

/* From each version to each: with what is checked there, every move back is checked too. */
static void check_moves(void) {
    for (uint32_t from = 1; from <= VERSIONS; from++) {
        for (uint32_t to = 1; to <= VERSIONS; to++) {
            int moved = 1;
            for (uint32_t number = 0; number < WORDS; number++) {
                machine m = numbered(number);
                form source = form_of(from, &m), expected = form_of(to, &m);
                moved &= moves_to(to, &source, &expected);
            }
            check(moved, "a move gives the form of the same state");
        }
    }
}

/* A move is a load and a save of what was loaded (R9.11), and the move back gives the source. */
static void check_load_and_save(void) {
    for (uint32_t from = 1; from <= VERSIONS; from++) {
        form source = BY_HAND[from - 1], saved = {{0}, 0}, moved = {{0}, 0}, back = {{0}, 0};
        uint32_t to = VERSIONS + 1 - from;
        machine m;
        check(load(source.bytes, source.size, &m) == RIDGECROOK_DONE, "a load");
        saved.size = ridgecrook_saved_size(to, m.vectors, sizeof m.vectors);
        check(ridgecrook_save_version(to, m.vectors, sizeof m.vectors, m.masks, m.general,
                                      m.control, m.pointer, saved.bytes,
                                      saved.size) == RIDGECROOK_DONE,
              "a save in the other version");
        moved.size = ridgecrook_moved_size(to, source.bytes, source.size);
        check(ridgecrook_move(to, source.bytes, source.size, moved.bytes, moved.size) ==
                      RIDGECROOK_DONE &&
                  same_form(&moved, &saved),
              "a move has the same bytes");
        back.size = ridgecrook_moved_size(from, moved.bytes, moved.size);
        check(ridgecrook_move(from, moved.bytes, moved.size, back.bytes, back.size) ==
                      RIDGECROOK_DONE &&
                  same_form(&back, &source),
              "and moved back those of the source");
    }
}

/* A move that is answered so, has this size, and leaves all that was lent. */
static void check_refused(uint32_t version, const form *source, size_t source_length,
                          size_t target_length, size_t size, uint32_t expected) {
    uint8_t target[ROOM];
    form before = *source;
    memset(target, UNTOUCHED, sizeof target);
    uint32_t number =
        ridgecrook_move(version, source->bytes, source_length, target, target_length);
    check(number == expected, "the answer of a refused move");
    check(ridgecrook_moved_size(version, source->bytes, source_length) == size, "its size");
    check(holds_only(target, sizeof target, UNTOUCHED), "it leaves the target as it was");
    check(same_form(source, &before), "and the source");
}

/* What is wrong with the source is said before what is wrong with the target. */
static void check_refused_moves(uint32_t from, uint32_t to) {
    static const int lengths[] = {-1, 1, -4, -64, NOTHING};
    machine m = numbered(SOME);
    form source = form_of(from, &m);
    size_t expected = form_of(to, &m).size;
    for (size_t i = 0; i < sizeof lengths / sizeof lengths[0]; i++) {
        check_refused(to, &source, source.size, changed(expected, lengths[i]), expected,
                      RIDGECROOK_BAD_SIZE);
    }
    for (size_t i = 0; i < DAMAGES_COUNT; i++) {
        form spoilt = source;
        size_t length = spoil(&spoilt, &DAMAGES[i]);
        check_refused(to, &spoilt, length, expected, 0, DAMAGES[i].number);
        check_refused(to, &spoilt, length, expected - 1, 0, DAMAGES[i].number);
        check_refused(to, &spoilt, length, 0, 0, DAMAGES[i].number);
    }
}

/* No version comes before every other cause, whatever the source and the target are. */
static void check_no_version(uint32_t from) {
    machine m = numbered(SOME);
    for (size_t i = 0; i < NO_VERSIONS_COUNT; i++) {
        form source = form_of(from, &m);
        for (uint32_t to = 1; to <= VERSIONS; to++) {
            check_refused(NO_VERSIONS[i], &source, source.size, form_of(to, &m).size, 0,
                          RIDGECROOK_BAD_SAVED);
        }
        check_refused(NO_VERSIONS[i], &source, source.size, 0, 0, RIDGECROOK_BAD_SAVED);
        source.bytes[6] = 1; /* of the control word */
        check_refused(NO_VERSIONS[i], &source, source.size, source.size, 0, RIDGECROOK_BAD_SAVED);
    }
}

/* A register that is marked as present and is zero, with a control word that is looked at later. */
static void check_marked_zero(void) {
    for (uint32_t i = 0; i < REGISTERS; i++) {
        machine m = numbered(REGISTERS + i); /* all registers but this one */
        for (uint32_t to = 1; to <= VERSIONS; to++) {
            form marked = form_with(UINT32_MAX, &m), expected = form_of(to, &m);
            check_refused(to, &marked, marked.size, expected.size, 0, RIDGECROOK_BAD_SAVED);
            check_refused(to, &marked, marked.size, marked.size, 0, RIDGECROOK_BAD_SAVED);
            marked.bytes[6] = 1;
            check_refused(to, &marked, marked.size, expected.size, 0, RIDGECROOK_BAD_SAVED);
        }
    }
}

static void check_null(void) {
    uint8_t target[ROOM];
    memset(target, UNTOUCHED, sizeof target);
    for (uint32_t to = 1; to <= VERSIONS; to++) {
        const form *source = &BY_HAND[0];
        check(ridgecrook_move(to, NULL, 0, target, BY_HAND[to - 1].size) == RIDGECROOK_BAD_SAVED,
              "no source at a null pointer");
        check(ridgecrook_moved_size(to, NULL, 0) == 0, "its size");
        check(ridgecrook_move(to, source->bytes, source->size, NULL, 0) == RIDGECROOK_BAD_SIZE,
              "no target at a null pointer");
        check(ridgecrook_move(to, NULL, 0, NULL, 0) == RIDGECROOK_BAD_SAVED, "neither");
    }
    check(ridgecrook_move(3, NULL, 0, NULL, 0) == RIDGECROOK_BAD_SAVED, "nor a version");
    check(holds_only(target, sizeof target, UNTOUCHED), "the target stays");
}

/* Lengths that are right in their lower 32 bits. */
static void check_huge(void) {
    size_t above = (size_t)1 << 32;
    uint8_t *huge = huge_pages(above + PAGE);
    if (huge == NULL) {
        return;
    }
    for (uint32_t from = 1; from <= VERSIONS; from++) {
        const form *source = &BY_HAND[from - 1];
        for (uint32_t to = 1; to <= VERSIONS; to++) {
            uint8_t target[ROOM];
            size_t size = BY_HAND[to - 1].size;
            check(ridgecrook_move(to, source->bytes, source->size, huge, above + size) ==
                      RIDGECROOK_BAD_SIZE,
                  "a huge target");
            check(holds_only(huge, ROOM, 0), "stays as it was");
            memcpy(huge, source->bytes, source->size);
            memset(target, UNTOUCHED, sizeof target);
            check(ridgecrook_move(to, huge, above + source->size, target, size) ==
                          RIDGECROOK_BAD_SAVED &&
                      holds_only(target, sizeof target, UNTOUCHED),
                  "a huge source");
            check(ridgecrook_moved_size(to, huge, above + source->size) == 0, "its size");
            memset(huge, 0, ROOM);
        }
    }
    munmap(huge, above + PAGE);
}

/* Bytes need no alignment, neither those of the source nor those of the target. */
static void check_alignment(uint32_t from, uint32_t to) {
    machine m = numbered(SOME);
    form source = form_of(from, &m), expected = form_of(to, &m);
    int done = 1;
    for (size_t i = 0; i < ALIGNMENTS * ALIGNMENTS; i++) {
        done &= moves_at(to, &source, &expected, i / ALIGNMENTS, i % ALIGNMENTS);
    }
    check(done, "a move at every alignment");
}

/* The ends of the pages that sources and targets are in, and which ends of them. */
typedef struct {
    uint8_t *source, *target;
    int source_at_beginning, target_at_beginning;
} places;

static int goes_at_ends(const places *in, uint32_t to, const form *source, const form *expected) {
    return moves(to, source, expected,
                 in_page(in->source, source->size, in->source_at_beginning),
                 in_page(in->target, expected->size, in->target_at_beginning));
}

/* A target of another size at an end of a page. */
static int target_is_refused(const places *in, uint32_t to, const form *source, size_t size) {
    uint8_t *target = in_page(in->target, size, in->target_at_beginning);
    memset(target, UNTOUCHED, size);
    return ridgecrook_move(to, source->bytes, source->size, target, size) == RIDGECROOK_BAD_SIZE &&
           holds_only(target, size, UNTOUCHED);
}

/* Whether these bytes are no source, and the target is left as it was (R9.6, R9.10). */
static int is_no_source(uint32_t to, const uint8_t *from, size_t size, size_t target_size) {
    uint8_t target[ROOM];
    memset(target, UNTOUCHED, sizeof target);
    return ridgecrook_moved_size(to, from, size) == 0 &&
           ridgecrook_move(to, from, size, target, target_size) == RIDGECROOK_BAD_SAVED &&
           holds_only(target, sizeof target, UNTOUCHED);
}

/* A source of another size at an end of a page, which may count itself. */
static int source_is_refused(const places *in, uint32_t to, const form *source, size_t size,
                             size_t target_size) {
    uint8_t *from = in_page(in->source, size, in->source_at_beginning);
    memcpy(from, source->bytes, size);
    int refused = is_no_source(to, from, size, target_size);
    if (size >= 4) {
        put(from, size - 4, 4);
        refused &= is_no_source(to, from, size, target_size);
    }
    return refused;
}

static void check_ends_of(const places *in, uint32_t from, uint32_t to) {
    int done = 1, targets = 1, sources = 1;
    for (uint32_t number = 0; number < WORDS; number++) {
        machine m = numbered(number);
        form source = form_of(from, &m), expected = form_of(to, &m);
        done &= goes_at_ends(in, to, &source, &expected);
    }
    machine m = numbered(SOME);
    form source = form_of(from, &m), expected = form_of(to, &m);
    for (size_t size = 0; size <= ROOM; size++) {
        targets &= size == expected.size || target_is_refused(in, to, &source, size);
        sources &= size == source.size ||
                   source_is_refused(in, to, &source, size, expected.size);
    }
    check(done, "a move at the ends of pages");
    check(targets, "every other size of a target there is refused");
    check(sources, "every other size of a source there is refused");
}

/* One byte beyond what is lent, on either side, would stop the program. */
static void check_ends(void) {
    uint8_t *source = page_end(), *target = page_end();
    for (uint32_t from = 1; from <= VERSIONS; from++) {
        for (uint32_t to = 1; to <= VERSIONS; to++) {
            for (int side = 0; side < 4; side++) {
                places in = {source, target, side & 1, side >> 1};
                check_ends_of(&in, from, to);
            }
        }
    }
}

int main(void) {
    check_bytes();
    check_moves();
    check_load_and_save();
    for (uint32_t from = 1; from <= VERSIONS; from++) {
        for (uint32_t to = 1; to <= VERSIONS; to++) {
            check_refused_moves(from, to);
            check_alignment(from, to);
        }
        check_no_version(from);
    }
    check_marked_zero();
    check_null();
    check_huge();
    check_ends();
    return finish();
}
