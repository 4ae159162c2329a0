/*
 * Saves and loads as a C engineer uses them (R9.1 to R9.9, R9.12): bytes and sizes of both
 * versions, both round trips, each refusal and what it leaves, and what C must keep (R8.4): null
 * pointers with length 0, sizes above 2 to the 32, and the ends of all that is lent. Moves are in
 * moved.c.
 */
#include "form.h" /* first, since it chooses what the system's headers declare */

#include "check.h"

typedef uint32_t saver(const uint8_t *vectors, size_t vectors_length, const uint64_t masks[8],
                       const uint64_t general[16], uint32_t control, uint64_t pointer,
                       uint8_t *target, size_t target_length);

static uint32_t save_1(const uint8_t *vectors, size_t vectors_length, const uint64_t masks[8],
                       const uint64_t general[16], uint32_t control, uint64_t pointer,
                       uint8_t *target, size_t target_length) {
    return ridgecrook_save_version(1, vectors, vectors_length, masks, general, control, pointer,
                                   target, target_length);
}

static uint32_t save_2(const uint8_t *vectors, size_t vectors_length, const uint64_t masks[8],
                       const uint64_t general[16], uint32_t control, uint64_t pointer,
                       uint8_t *target, size_t target_length) {
    return ridgecrook_save_version(2, vectors, vectors_length, masks, general, control, pointer,
                                   target, target_length);
}

/* Every way to save, and the version that it writes. */
enum { SAVE, SAVE_IN_1, SAVE_IN_2, WAYS_COUNT };
static const struct {
    saver *save;
    uint32_t version;
} WAYS[] = {[SAVE] = {ridgecrook_save, 1}, [SAVE_IN_1] = {save_1, 1}, [SAVE_IN_2] = {save_2, 2}};

static uint32_t save(size_t way, const machine *m, uint8_t *target, size_t target_length) {
    return WAYS[way].save(m->vectors, sizeof m->vectors, m->masks, m->general, m->control,
                          m->pointer, target, target_length);
}

static size_t size_in(uint32_t version, const machine *m) {
    return ridgecrook_saved_size(version, m->vectors, sizeof m->vectors);
}

/* Whether a save writes this form and nothing behind it, and leaves the state. */
static int saves_as(size_t way, const machine *m, const form *expected) {
    machine old = *m;
    form made;
    memset(made.bytes, UNTOUCHED, sizeof made.bytes);
    made.size = size_in(WAYS[way].version, m);
    return made.size == expected->size && save(way, m, made.bytes, made.size) == RIDGECROOK_DONE &&
           memcmp(made.bytes, expected->bytes, made.size) == 0 && same(m, &old) &&
           holds_only(made.bytes + made.size, ROOM - made.size, UNTOUCHED);
}

/* Whether a load of this form, over some other state, makes this state and leaves the form. */
static int loads_as(const form *saved, const machine *expected) {
    form before = *saved;
    machine m = numbered(ALL);
    return load(saved->bytes, saved->size, &m) == RIDGECROOK_DONE && same(&m, expected) &&
           same_form(saved, &before);
}

/* Forms that were written by hand. */
static void check_bytes(void) {
    check(BY_HAND[0].size == RIDGECROOK_SAVED_SIZE, "the size of version 1");
    for (size_t way = 0; way < WAYS_COUNT; way++) {
        const form *expected = &BY_HAND[WAYS[way].version - 1];
        check(saves_as(way, &HELD, expected), "the bytes of a save");
        check(loads_as(expected, &HELD), "and a load of them");
    }
}

/* None of the registers is present, or all are, and much between: saved and loaded, both ways. */
static void check_round_trips(void) {
    for (size_t way = 0; way < WAYS_COUNT; way++) {
        int saved = 1, loaded = 1;
        for (uint32_t number = 0; number < WORDS; number++) {
            machine m = numbered(number);
            form expected = form_of(WAYS[way].version, &m);
            saved &= saves_as(way, &m, &expected);
            loaded &= loads_as(&expected, &m);
        }
        check(saved, "a state, saved and so after a load, gives the bytes of its form");
        check(loaded, "a form, loaded and so after a save, gives its state");
    }
}

/* One byte that is not 0 makes a register present (R9.8), so a register of negative zeros is. */
static void check_presence(void) {
    int alone = 1;
    for (size_t place = 0; place < RIDGECROOK_VECTORS_SIZE; place++) {
        machine m;
        blank(&m);
        m.vectors[place] = (uint8_t)(1 << place % 8);
        form expected = form_with(UINT32_C(1) << place / RIDGECROOK_REGISTER_SIZE, &m);
        alone &= saves_as(SAVE_IN_2, &m, &expected) && loads_as(&expected, &m);
    }
    check(alone, "one byte alone makes its register present");
    machine zeros;
    blank(&zeros);
    check(size_in(2, &zeros) == PACKED_AT, "no register present");
    for (size_t i = 1; i < sizeof zeros.vectors; i += 2) {
        zeros.vectors[i] = 0x80;
    }
    check(size_in(2, &zeros) == RIDGECROOK_SAVED_LARGEST, "negative zeros are present");
    form expected = form_with(UINT32_MAX, &zeros);
    check(saves_as(SAVE_IN_2, &zeros, &expected) && loads_as(&expected, &zeros),
          "saved and loaded");
}

/* No size where a save would refuse the version or the vector file, whatever else (R9.12). */
static void check_no_size(void) {
    static const int lengths[] = {-1, 1, -64, 64, NOTHING};
    uint8_t file[RIDGECROOK_VECTORS_SIZE + 64] = {1};
    for (uint32_t version = 1; version <= VERSIONS; version++) {
        for (size_t i = 0; i < sizeof lengths / sizeof lengths[0]; i++) {
            size_t length = changed(RIDGECROOK_VECTORS_SIZE, lengths[i]);
            check(ridgecrook_saved_size(version, file, length) == 0, "a wrong vector file");
        }
    }
    for (size_t i = 0; i < NO_VERSIONS_COUNT; i++) {
        check(size_in(NO_VERSIONS[i], &HELD) == 0, "the size of no version");
    }
}

/* A save that is refused, with lengths that differ so much from the expected ones. */
typedef struct {
    int vectors, target;
    uint32_t control, number;
} refused_save;

static const refused_save REFUSED_SAVES[] = {
    {-1, 0, 0x1F80, RIDGECROOK_BAD_SIZE},       {1, 0, 0x1F80, RIDGECROOK_BAD_SIZE},
    {NOTHING, 0, 0x1F80, RIDGECROOK_BAD_SIZE},  {0, -1, 0x1F80, RIDGECROOK_BAD_SIZE},
    {0, 1, 0x1F80, RIDGECROOK_BAD_SIZE},        {0, NOTHING, 0x1F80, RIDGECROOK_BAD_SIZE},
    {0, -4, 0x1F80, RIDGECROOK_BAD_SIZE},       {0, -64, 0x1F80, RIDGECROOK_BAD_SIZE},
    {0, 0, 0x10000, RIDGECROOK_BAD_CONTROL},    {0, 0, 0x80000000, RIDGECROOK_BAD_CONTROL},
    {-1, 0, 0x10000, RIDGECROOK_BAD_SIZE},      {0, 1, 0x10000, RIDGECROOK_BAD_SIZE},
    {-1, 1, 0x10000, RIDGECROOK_BAD_SIZE},
};
enum { REFUSED_SAVES_COUNT = sizeof REFUSED_SAVES / sizeof REFUSED_SAVES[0] };

/* What a refused save is lent, and what that held before. */
typedef struct {
    uint8_t file[RIDGECROOK_VECTORS_SIZE + 1], target[ROOM];
    machine m;
} lent_to_save;

static void lend_to_save(lent_to_save *all) {
    memset(all, UNTOUCHED, sizeof *all);
    all->m = numbered(SOME);
    memcpy(all->file, all->m.vectors, sizeof all->m.vectors);
}

static void check_refused_save(size_t way, const refused_save *row) {
    lent_to_save all, before;
    lend_to_save(&all);
    memcpy(&before, &all, sizeof all);
    size_t expected = form_of(WAYS[way].version, &all.m).size;
    uint32_t number = WAYS[way].save(all.file, changed(RIDGECROOK_VECTORS_SIZE, row->vectors),
                                     all.m.masks, all.m.general, row->control, all.m.pointer,
                                     all.target, changed(expected, row->target));
    check(number == row->number, "the answer of a refused save");
    check(memcmp(&all, &before, sizeof all) == 0, "it leaves all that was lent");
}

/* No version comes before every other cause. */
static void check_version_first(uint32_t version, int vectors, size_t target, uint32_t control) {
    lent_to_save all, before;
    lend_to_save(&all);
    memcpy(&before, &all, sizeof all);
    uint32_t number = ridgecrook_save_version(
        version, all.file, changed(RIDGECROOK_VECTORS_SIZE, vectors), all.m.masks, all.m.general,
        control, all.m.pointer, all.target, target);
    check(number == RIDGECROOK_BAD_SAVED, "a save in no version");
    check(memcmp(&all, &before, sizeof all) == 0, "leaves all that was lent");
}

static void check_refused_saves(void) {
    for (size_t i = 0; i < REFUSED_SAVES_COUNT; i++) {
        for (size_t way = 0; way < WAYS_COUNT; way++) {
            check_refused_save(way, &REFUSED_SAVES[i]);
        }
    }
    machine m = numbered(SOME);
    for (size_t i = 0; i < NO_VERSIONS_COUNT; i++) {
        for (uint32_t version = 1; version <= VERSIONS; version++) {
            check_version_first(NO_VERSIONS[i], 0, form_of(version, &m).size, 0x1F80);
        }
        check_version_first(NO_VERSIONS[i], -1, RIDGECROOK_SAVED_SIZE, 0x1F80);
        check_version_first(NO_VERSIONS[i], 0, 0, 0x10000);
    }
}

/* A load with these lengths that is answered so, and leaves all that was lent. */
static void check_refused_load(const form *saved, size_t saved_length, size_t vectors_length,
                               uint32_t expected) {
    uint8_t file[RIDGECROOK_VECTORS_SIZE + 1];
    form before = *saved;
    machine m = numbered(SOME + 1), old = m;
    memset(file, UNTOUCHED, sizeof file);
    uint32_t number = ridgecrook_load(saved->bytes, saved_length, file, vectors_length, m.masks,
                                      m.general, &m.control, &m.pointer);
    check(number == expected, "the answer of a refused load");
    check(same(&m, &old), "it leaves the registers as they were");
    check(same_form(saved, &before), "and the saved form");
    check(holds_only(file, sizeof file, UNTOUCHED), "and the vector file");
}

static void check_refused_loads(void) {
    static const int lengths[] = {-1, 1, NOTHING};
    machine m = numbered(SOME);
    for (uint32_t version = 1; version <= VERSIONS; version++) {
        form saved = form_of(version, &m);
        for (size_t i = 0; i < sizeof lengths / sizeof lengths[0]; i++) {
            size_t length = changed(sizeof m.vectors, lengths[i]);
            check_refused_load(&saved, saved.size, length, RIDGECROOK_BAD_SIZE);
        }
        for (size_t i = 0; i < DAMAGES_COUNT; i++) {
            form spoilt = saved;
            size_t length = spoil(&spoilt, &DAMAGES[i]);
            check_refused_load(&spoilt, length, sizeof m.vectors, DAMAGES[i].number);
            check_refused_load(&spoilt, length, sizeof m.vectors - 1, RIDGECROOK_BAD_SIZE);
        }
    }
}

/* Each bit of the word wrong, with the size as before; and a register marked that is zero. */
static void check_refused_words(void) {
    for (size_t i = 0; i < REGISTERS; i++) {
        machine m = numbered(SOME);
        form spoilt = form_of(2, &m);
        spoilt.bytes[FILE_AT + 3 - i / 8] ^= (uint8_t)(1 << i % 8);
        check_refused_load(&spoilt, spoilt.size, sizeof m.vectors, RIDGECROOK_BAD_SAVED);
        m = numbered(REGISTERS + (uint32_t)i); /* all registers but this one */
        form marked = form_with(UINT32_MAX, &m);
        check_refused_load(&marked, marked.size, sizeof m.vectors, RIDGECROOK_BAD_SAVED);
        marked.bytes[6] = 1; /* of the control word, which is looked at later */
        check_refused_load(&marked, marked.size, sizeof m.vectors, RIDGECROOK_BAD_SAVED);
    }
    machine zeros;
    blank(&zeros);
    form marked = form_with(UINT32_MAX, &zeros);
    check_refused_load(&marked, marked.size, sizeof zeros.vectors, RIDGECROOK_BAD_SAVED);
}

static void check_null(void) {
    machine m = numbered(SOME), before = m;
    uint8_t target[RIDGECROOK_SAVED_SIZE];
    memset(target, UNTOUCHED, sizeof target);
    check(load(NULL, 0, &m) == RIDGECROOK_BAD_SAVED, "no saved form at a null pointer");
    check(ridgecrook_load(BY_HAND[1].bytes, BY_HAND[1].size, NULL, 0, m.masks, m.general,
                          &m.control, &m.pointer) == RIDGECROOK_BAD_SIZE,
          "no vector file to load into");
    for (size_t way = 0; way < WAYS_COUNT; way++) {
        check(save(way, &m, NULL, 0) == RIDGECROOK_BAD_SIZE, "no target");
        check(WAYS[way].save(NULL, 0, m.masks, m.general, m.control, m.pointer, target,
                             sizeof target) == RIDGECROOK_BAD_SIZE,
              "no vector file to save");
        check(ridgecrook_saved_size(WAYS[way].version, NULL, 0) == 0, "its size");
    }
    check(ridgecrook_save_version(3, NULL, 0, m.masks, m.general, m.control, m.pointer, NULL, 0) ==
              RIDGECROOK_BAD_SAVED,
          "neither of them nor a version");
    check(same(&m, &before) && holds_only(target, sizeof target, UNTOUCHED),
          "leaves all as before");
}

/* Lengths that are right in their lower 32 bits. */
static void check_huge(void) {
    size_t above = (size_t)1 << 32;
    uint8_t *huge = huge_pages(above + PAGE);
    if (huge == NULL) {
        return;
    }
    machine m = numbered(SOME), other = numbered(ALL), before = other;
    for (size_t way = 0; way < WAYS_COUNT; way++) {
        form saved = form_of(WAYS[way].version, &m), kept = saved;
        check(save(way, &m, huge, above + saved.size) == RIDGECROOK_BAD_SIZE, "a huge target");
        check(holds_only(huge, ROOM, 0), "stays as it was");
        memcpy(huge, saved.bytes, saved.size);
        check(load(huge, above + saved.size, &other) == RIDGECROOK_BAD_SAVED, "a huge saved form");
        memcpy(huge, m.vectors, sizeof m.vectors);
        size_t length = above + sizeof m.vectors;
        check(WAYS[way].save(huge, length, other.masks, other.general, other.control, other.pointer,
                             saved.bytes, saved.size) == RIDGECROOK_BAD_SIZE,
              "a huge vector file to save");
        check(ridgecrook_saved_size(WAYS[way].version, huge, length) == 0, "its size");
        memcpy(huge, other.vectors, sizeof other.vectors);
        check(ridgecrook_load(saved.bytes, saved.size, huge, length, other.masks, other.general,
                              &other.control, &other.pointer) == RIDGECROOK_BAD_SIZE,
              "a huge vector file to load into");
        check(same(&other, &before) && same_form(&saved, &kept) &&
                  memcmp(huge, other.vectors, sizeof other.vectors) == 0,
              "leave all that was lent");
        memset(huge, 0, ROOM);
    }
    munmap(huge, above + PAGE);
}

/* Bytes need no alignment. */
static void check_alignment(void) {
    uint8_t file[RIDGECROOK_VECTORS_SIZE + ALIGNMENTS], bytes[ROOM + ALIGNMENTS];
    machine m = numbered(SOME), other = numbered(ALL);
    for (size_t way = 0; way < WAYS_COUNT; way++) {
        form expected = form_of(WAYS[way].version, &m);
        int done = 1;
        for (size_t i = 0; i < ALIGNMENTS; i++) {
            uint8_t *vectors = file + i, *target = bytes + ALIGNMENTS - 1 - i;
            memcpy(vectors, m.vectors, sizeof m.vectors);
            done &= WAYS[way].save(vectors, sizeof m.vectors, m.masks, m.general, m.control,
                                   m.pointer, target, expected.size) == RIDGECROOK_DONE &&
                    memcmp(target, expected.bytes, expected.size) == 0;
            memset(vectors, UNTOUCHED, sizeof m.vectors);
            done &= ridgecrook_load(target, expected.size, vectors, sizeof m.vectors, other.masks,
                                    other.general, &other.control,
                                    &other.pointer) == RIDGECROOK_DONE &&
                    memcmp(vectors, m.vectors, sizeof m.vectors) == 0;
        }
        check(done, "a save and a load at every alignment");
    }
}

/* What is only read may overlap: registers of both kinds out of the vector file. */
static void check_overlap(void) {
    machine m = numbered(SOME);
    uint64_t words[RIDGECROOK_VECTORS_SIZE / sizeof(uint64_t)];
    memcpy(words, m.vectors, sizeof words);
    memcpy(m.masks, words + 70, sizeof m.masks);
    memcpy(m.general, words + 66, sizeof m.general);
    for (size_t way = 0; way < WAYS_COUNT; way++) {
        form expected = form_of(WAYS[way].version, &m), made = {{0}, expected.size};
        check(WAYS[way].save((const uint8_t *)words, sizeof words, words + 70, words + 66,
                             m.control, m.pointer, made.bytes, made.size) == RIDGECROOK_DONE &&
                  same_form(&made, &expected),
              "a save of registers that overlap");
    }
}

/* What is lent, each at one end of a page beyond which nothing may be touched. */
typedef struct {
    size_t size, vectors_size;
    uint8_t *bytes, *vectors;
    uint64_t *masks, *general, *pointer;
    uint32_t *control;
} lent;

static lent lend(uint8_t *const ends[6], size_t size, size_t vectors_size, int at_beginning) {
    lent all = {
        size,
        vectors_size,
        in_page(ends[0], size, at_beginning),
        in_page(ends[1], vectors_size, at_beginning),
        (uint64_t *)(void *)in_page(ends[2], sizeof HELD.masks, at_beginning),
        (uint64_t *)(void *)in_page(ends[3], sizeof HELD.general, at_beginning),
        (uint64_t *)(void *)in_page(ends[4], sizeof HELD.pointer, at_beginning),
        (uint32_t *)(void *)in_page(ends[5], sizeof HELD.control, at_beginning),
    };
    return all;
}

/* How much of a vector file there is room for. */
static size_t file_part(const lent *all) {
    size_t whole = RIDGECROOK_VECTORS_SIZE;
    return all->vectors_size < whole ? all->vectors_size : whole;
}

/* Puts as much of a state there as there is room for; more room is untouched. */
static void put_state(const lent *all, const machine *m) {
    memset(all->vectors, UNTOUCHED, all->vectors_size);
    memcpy(all->vectors, m->vectors, file_part(all));
    memcpy(all->masks, m->masks, sizeof m->masks);
    memcpy(all->general, m->general, sizeof m->general);
    *all->control = m->control;
    *all->pointer = m->pointer;
}

static int has_state(const lent *all, const machine *m) {
    size_t part = file_part(all);
    return memcmp(all->vectors, m->vectors, part) == 0 &&
           holds_only(all->vectors + part, all->vectors_size - part, UNTOUCHED) &&
           memcmp(all->masks, m->masks, sizeof m->masks) == 0 &&
           memcmp(all->general, m->general, sizeof m->general) == 0 &&
           *all->control == m->control && *all->pointer == m->pointer;
}

static uint32_t save_lent(size_t way, const lent *all) {
    return WAYS[way].save(all->vectors, all->vectors_size, all->masks, all->general,
                          *all->control, *all->pointer, all->bytes, all->size);
}

static uint32_t load_lent(const lent *all) {
    return ridgecrook_load(all->bytes, all->size, all->vectors, all->vectors_size, all->masks,
                           all->general, all->control, all->pointer);
}

/* A save and a load of what it wrote, all of it at ends of pages. */
static int goes_at_ends(uint8_t *const ends[6], size_t way, uint32_t number, int at_beginning) {
    machine m = numbered(number), other = numbered(number + 1);
    form expected = form_of(WAYS[way].version, &m);
    lent all = lend(ends, expected.size, sizeof m.vectors, at_beginning);
    put_state(&all, &m);
    size_t size = ridgecrook_saved_size(WAYS[way].version, all.vectors, sizeof m.vectors);
    int saved = save_lent(way, &all) == RIDGECROOK_DONE &&
                memcmp(all.bytes, expected.bytes, expected.size) == 0;
    put_state(&all, &other);
    int loaded = load_lent(&all) == RIDGECROOK_DONE;
    return size == expected.size && saved && loaded && has_state(&all, &m);
}

/* A save of this state that is refused for a size, and leaves all that was lent (R9.4, R9.6). */
static int save_is_refused(const lent *all, size_t way, const machine *m) {
    put_state(all, m);
    memset(all->bytes, UNTOUCHED, all->size);
    return save_lent(way, all) == RIDGECROOK_BAD_SIZE && has_state(all, m) &&
           holds_only(all->bytes, all->size, UNTOUCHED);
}

/* A load of these bytes over another state, answered so, that leaves all (R9.5, R9.6). */
static int load_is_refused(const lent *all, const uint8_t *bytes, uint32_t expected) {
    machine other = numbered(ALL);
    put_state(all, &other);
    memcpy(all->bytes, bytes, all->size);
    return load_lent(all) == expected && has_state(all, &other) &&
           memcmp(all->bytes, bytes, all->size) == 0;
}

/* A target and a saved form of another size at an end of a page; the latter may count itself. */
static int size_is_refused(uint8_t *const ends[6], size_t way, size_t size, int at_beginning) {
    machine m = numbered(SOME);
    form cut = form_of(WAYS[way].version, &m);
    lent all = lend(ends, size, sizeof m.vectors, at_beginning);
    int refused = save_is_refused(&all, way, &m) &&
                  load_is_refused(&all, cut.bytes, RIDGECROOK_BAD_SAVED);
    if (size >= 4) {
        put(cut.bytes, size - 4, 4);
        refused &= load_is_refused(&all, cut.bytes, RIDGECROOK_BAD_SAVED);
    }
    return refused;
}

/* A vector file of another size at an end of a page. */
static int file_is_refused(uint8_t *const ends[6], size_t way, size_t size, int at_beginning) {
    machine m = numbered(SOME);
    form saved = form_of(WAYS[way].version, &m);
    lent all = lend(ends, saved.size, size, at_beginning);
    return save_is_refused(&all, way, &m) &&
           ridgecrook_saved_size(WAYS[way].version, all.vectors, size) == 0 &&
           load_is_refused(&all, saved.bytes, RIDGECROOK_BAD_SIZE);
}

static void check_ends_of(uint8_t *const ends[6], size_t way, int at_beginning) {
    int done = 1, sizes = 1, files = 1;
    machine m = numbered(SOME);
    for (uint32_t number = 0; number < WORDS; number++) {
        done &= goes_at_ends(ends, way, number, at_beginning);
    }
    for (size_t size = 0; size <= ROOM; size++) {
        if (size != form_of(WAYS[way].version, &m).size) {
            sizes &= size_is_refused(ends, way, size, at_beginning);
        }
        if (size != RIDGECROOK_VECTORS_SIZE) {
            files &= file_is_refused(ends, way, size, at_beginning);
        }
    }
    check(done, "a save and a load at the ends of pages");
    check(sizes, "every other size of a form there is refused");
    check(files, "every other size of a vector file there is refused");
}

/* One byte beyond what is lent, on either side, would stop the program. */
static void check_ends(void) {
    uint8_t *ends[6];
    for (size_t i = 0; i < 6; i++) {
        ends[i] = page_end();
    }
    for (size_t way = 0; way < WAYS_COUNT; way++) {
        check_ends_of(ends, way, 0);
        check_ends_of(ends, way, 1);
    }
}

int main(void) {
    check_bytes();
    check_round_trips();
    check_presence();
    check_no_size();
    check_refused_saves();
    check_refused_loads();
    check_refused_words();
    check_null();
    check_huge();
    check_alignment();
    check_overlap();
    check_ends();
    return finish();
}
