/*
 * Replays of recordings as a C engineer uses them (R14.9): reports on recordings that were put
 * together here by hand (R14.2, R14.7), and what C must keep (R8.4): a null pointer with length 0,
 * the ends of what is lent on both sides, a recording that may not be written, every alignment,
 * lengths above 2 to the 32, many items, and any bytes at all; and how much stack a call takes.
 *
 *   replay [RECORDINGS [SEED]]     20,000 damaged recordings if nothing is said, and one of 50 times
 *                                  so many items
 */
#include "form.h" /* first, since it chooses what the system's headers declare */

#include "check.h"
#include "random.h"

#include <inttypes.h>
#include <sys/wait.h>
#include <ucontext.h>
#include <unistd.h>

enum {
    SAME,
    DIFFERS,
    BAD_ITEM,
    BAD_STATE,
    REPORTS,
    DESTINATION = RIDGECROOK_REGISTER_SIZE,
    ITEM_LEAST = 77,
    RECORDING_MOST = 4 * PAGE
};

typedef struct {
    uint8_t bytes[RECORDING_MOST];
    size_t size;
} recording;

static int is(ridgecrook_report r, uint64_t report, uint64_t item) {
    return r.report == report && r.item == item;
}

static ridgecrook_report replay(const recording *r) {
    return ridgecrook_replay(r->bytes, r->size);
}

static void add_bytes(recording *r, const void *bytes, size_t size) {
    if (r->size + size > sizeof r->bytes) {
        printf("a recording of more than %zu bytes\n", sizeof r->bytes);
        exit(2);
    }
    if (size > 0) { /* else the pointer may be null */
        memcpy(r->bytes + r->size, bytes, size);
    }
    r->size += size;
}

static void add_number(recording *r, uint64_t value, size_t size) {
    uint8_t bytes[8];
    put(bytes, value, size);
    add_bytes(r, bytes, size);
}

/* What an item expects besides its code and memory. */
typedef struct {
    uint8_t answer;
    uint32_t control;
    uint8_t destination[DESTINATION];
} expected;

static void add_item(recording *r, const expected *e, const uint8_t *code, size_t code_length,
                     const uint8_t *memory, size_t memory_length) {
    add_number(r, 73 + code_length + memory_length, 4);
    add_number(r, 1, 1);
    add_number(r, e->answer, 1);
    add_number(r, code_length, 1);
    add_bytes(r, code, code_length);
    add_number(r, memory_length, 2);
    add_bytes(r, memory, memory_length);
    add_number(r, e->control, 4);
    add_bytes(r, e->destination, sizeof e->destination);
}

static void begin(recording *r, uint32_t version, const machine *m) {
    form f = form_of(version, m);
    r->size = 0;
    add_bytes(r, f.bytes, f.size);
}

static const uint8_t ADD[] = {0x62, 0xF5, 0x74, 0x48, 0x58, 0xC2};    /* zmm0 = zmm1 + zmm2 */
static const uint8_t COUNT[] = {0x62, 0xF5, 0x7C, 0x48, 0x58, 0xC1};  /* zmm0 = zmm0 + zmm1 */
static const uint8_t DIVIDE[] = {0x62, 0xF5, 0x74, 0x48, 0x5E, 0xC3}; /* zmm0 = zmm1 / zmm3 */
static const uint8_t LESS[] = {0x62, 0xF3, 0x74, 0x48, 0xC2, 0xCA, 1};      /* k1 = zmm1 < zmm2 */
static const uint8_t ADD_MEMORY[] = {0x62, 0xF5, 0x74, 0x48, 0x58, 0x00};   /* zmm1 + [rax] */
static const uint8_t RESERVED[] = {0x62, 0xFD, 0x74, 0x48, 0x58, 0xC2};     /* a fixed bit */
static const uint8_t ADD_ONE[] = {0x62, 0xF5, 0x76, 0x08, 0x58, 0xC2};      /* of lane 0 alone */
static const uint8_t OTHER[] = {0x90};

static void set_lanes(uint8_t *at, uint16_t half) {
    for (size_t i = 0; i < RIDGECROOK_REGISTER_SIZE; i += 2) {
        at[i] = (uint8_t)(half & 0xFF);
        at[i + 1] = (uint8_t)(half >> 8);
    }
}

/* 1 in zmm1, 2 in zmm2, 0 in zmm3; a division by zero is unmasked. */
static machine start(void) {
    machine m;
    blank(&m);
    set_lanes(m.vectors + RIDGECROOK_REGISTER_SIZE, 0x3C00);
    set_lanes(m.vectors + 2 * RIDGECROOK_REGISTER_SIZE, 0x4000);
    m.control = 0x1D80;
    return m;
}

static expected vector(uint8_t answer, uint32_t control, uint16_t half) {
    expected e = {.answer = answer, .control = control};
    set_lanes(e.destination, half);
    return e;
}

static void add_vector(recording *r, expected e, const uint8_t *code) {
    add_item(r, &e, code, 6, NULL, 0);
}

enum { ITEMS = 9 };

/* One item of each kind; where each begins, and where the last ends. */
static recording by_hand(uint32_t version, size_t places[ITEMS + 1]) {
    static const expected refused = {.control = 0x1D84};
    uint8_t two[RIDGECROOK_REGISTER_SIZE];
    machine m = start();
    recording r;
    set_lanes(two, 0x4000);
    begin(&r, version, &m);
    places[0] = r.size;
    add_vector(&r, vector(0, 0x1D80, 0x3C00), COUNT); /* 0 + 1 */
    places[1] = r.size;
    expected mask = {0, 0x1D80, {0, 0, 0, 0, 0xFF, 0xFF, 0xFF, 0xFF}};
    add_item(&r, &mask, LESS, sizeof LESS, NULL, 0);
    places[2] = r.size;
    expected sum = vector(0, 0x1D80, 0x4200); /* 1 + 2 */
    add_item(&r, &sum, ADD_MEMORY, sizeof ADD_MEMORY, two, sizeof two);
    places[3] = r.size;
    add_vector(&r, vector(8, 0x1D84, 0x4200), DIVIDE); /* 1 / 0 */
    places[4] = r.size;
    expected outside = vector(7, 0x1D84, 0x4200);
    add_item(&r, &outside, ADD_MEMORY, sizeof ADD_MEMORY, two, sizeof two - 1);
    places[5] = r.size;
    expected e = refused;
    e.answer = 5;
    add_item(&r, &e, RESERVED, sizeof RESERVED, NULL, 0);
    places[6] = r.size;
    e.answer = 4;
    add_item(&r, &e, OTHER, sizeof OTHER, two, 3);
    places[7] = r.size;
    e.answer = 3;
    add_item(&r, &e, NULL, 0, NULL, 0);
    places[8] = r.size;
    add_vector(&r, vector(0, 0x1D84, 0x4400), COUNT); /* 3 + 1 */
    places[9] = r.size;
    return r;
}

static void check_layout(void) {
    check(sizeof(ridgecrook_report) == 16, "a report has 16 bytes");
    check(offsetof(ridgecrook_report, report) == 0, "the report first");
    check(offsetof(ridgecrook_report, item) == 8, "then the item");
}

/* Of both versions: none, some and all of the items. */
static void check_same(void) {
    for (uint32_t version = 1; version <= VERSIONS; version++) {
        size_t places[ITEMS + 1];
        recording r = by_hand(version, places);
        for (size_t items = 0; items <= ITEMS; items++) {
            ridgecrook_report got = ridgecrook_replay(r.bytes, places[items]);
            check(is(got, SAME, items), "so many items agree");
        }
    }
}

/* Each item in turn with one thing wrong: byte of the item (from its end if negative), report. */
static void check_wrong_items(void) {
    static const struct {
        int place;
        uint64_t report;
    } rows[] = {{0, BAD_ITEM}, {3, BAD_ITEM},  {4, BAD_ITEM},  {5, DIFFERS},
                {-1, DIFFERS}, {-64, DIFFERS}, {-65, DIFFERS}, {-68, DIFFERS}};
    for (uint32_t version = 1; version <= VERSIONS; version++) {
        size_t places[ITEMS + 1];
        recording r = by_hand(version, places);
        for (size_t item = 0; item < ITEMS; item++) {
            for (size_t i = 0; i < sizeof rows / sizeof rows[0]; i++) {
                size_t from = rows[i].place < 0 ? places[item + 1] : places[item];
                uint8_t *at = r.bytes + from + rows[i].place;
                *at ^= 0x40;
                check(is(replay(&r), rows[i].report, item), "an item with one bit wrong");
                *at ^= 0x40;
            }
        }
        check(is(replay(&r), SAME, ITEMS), "and as it was");
    }
}

/* Well formed is asked before agreement, and nothing behind the first wrong item. */
static void check_order(void) {
    size_t places[ITEMS + 1];
    recording r = by_hand(2, places);
    r.bytes[places[3] + 5] ^= 1;
    check(is(replay(&r), DIFFERS, 3), "another answer");
    r.bytes[places[5] + 4] ^= 1;
    check(is(replay(&r), DIFFERS, 3), "a bad item behind it is not reached");
    r.bytes[places[3] + 4] ^= 1;
    check(is(replay(&r), BAD_ITEM, 3), "bad, and another answer");
    r.bytes[4] = 3;
    check(is(replay(&r), BAD_STATE, 0), "a bad state, whatever follows");
}

/* Fifteen bytes of code and 4,096 of memory, and one more of each. */
static void check_limits(void) {
    static const uint8_t memory[4097];
    uint8_t code[16] = {0};
    memcpy(code, ADD, sizeof ADD);
    machine m = start();
    expected e = vector(0, 0x1D80, 0x4200);
    for (size_t more_code = 0; more_code < 2; more_code++) {
        for (size_t more_memory = 0; more_memory < 2; more_memory++) {
            recording r;
            begin(&r, 1, &m);
            add_item(&r, &e, code, 15 + more_code, memory, 4096 + more_memory);
            int good = more_code + more_memory == 0;
            check(is(replay(&r), good ? SAME : BAD_ITEM, good ? 1 : 0), "the largest item");
        }
    }
}

static void check_bad_states(void) {
    size_t places[ITEMS + 1];
    for (uint32_t version = 1; version <= VERSIONS; version++) {
        recording r = by_hand(version, places);
        for (size_t i = 0; i < DAMAGES_COUNT; i++) {
            if (DAMAGES[i].length_change == 0) {
                r.bytes[DAMAGES[i].place] ^= DAMAGES[i].bits;
                check(is(replay(&r), BAD_STATE, 0), "a state that does not load");
                r.bytes[DAMAGES[i].place] ^= DAMAGES[i].bits;
            }
        }
    }
    uint8_t byte = 0;
    check(is(ridgecrook_replay(NULL, 0), BAD_STATE, 0), "a null pointer with length 0");
    check(is(ridgecrook_replay(&byte, 0), BAD_STATE, 0), "no bytes");
    check(is(ridgecrook_replay(&byte, 1), BAD_STATE, 0), "one byte");
}

/* The report on the first bytes of a recording without a fault, by the places of its items. */
static int cut_is_right(ridgecrook_report got, const size_t places[ITEMS + 1], size_t size) {
    if (size < places[0]) {
        return is(got, BAD_STATE, 0);
    }
    size_t item = 0;
    while (item < ITEMS && places[item + 1] <= size) {
        item++;
    }
    return is(got, places[item] == size ? SAME : BAD_ITEM, item);
}

/* Pages that may be read and not written; nothing beside them may be touched. */
static void let_write(uint8_t *pages, size_t size, int writable) {
    if (mprotect(pages, size, writable ? PROT_READ | PROT_WRITE : PROT_READ) != 0) {
        perror("mprotect");
        exit(2);
    }
}

/*
 * Cut at every place, with the end against a page that may not be touched, and with the beginning;
 * the recording may not be written either. One byte beyond, and the program stops.
 */
static void check_ends(void) {
    size_t room = RECORDING_MOST;
    uint8_t *end = pages_end(room / PAGE), *first = end - room;
    for (uint32_t version = 1; version <= VERSIONS; version++) {
        size_t places[ITEMS + 1];
        recording r = by_hand(version, places);
        int at_end = 1, at_beginning = 1;
        for (size_t size = 0; size <= r.size; size++) {
            let_write(first, room, 1);
            memcpy(end - size, r.bytes, size);
            let_write(first, room, 0);
            at_end &= cut_is_right(ridgecrook_replay(end - size, size), places, size);
        }
        let_write(first, room, 1);
        memcpy(first, r.bytes, r.size);
        let_write(first, room, 0);
        for (size_t size = 0; size <= r.size; size++) {
            at_beginning &= cut_is_right(ridgecrook_replay(first, size), places, size);
        }
        check(at_end, "every cut at the end of pages");
        check(at_beginning, "every cut at their beginning");
    }
    let_write(first, room, 1);
}

/* The same with length fields and counts that ask for more than is there. */
static void check_greedy_items(void) {
    static const uint32_t lengths[] = {0x4E,       0x50,       0x1058,     0x1059,     0xFFFF,
                                       0x10000,    0x7FFFFFFF, 0x80000000, 0xFFFFFFFB, 0xFFFFFFFC,
                                       0xFFFFFFFD, 0xFFFFFFFE, 0xFFFFFFFF};
    uint8_t *end = pages_end(RECORDING_MOST / PAGE);
    machine m = start();
    int bad = 1;
    for (size_t i = 0; i < sizeof lengths / sizeof lengths[0]; i++) {
        for (unsigned code = 0; code < 256; code++) {
            recording r;
            begin(&r, 2, &m);
            size_t at = r.size;
            add_vector(&r, vector(0, 0x1D80, 0x4200), ADD);
            put(r.bytes + at, lengths[i], 4);
            r.bytes[at + 6] = (uint8_t)code;
            memset(r.bytes + at + 13, 0xFF, 2); /* the count of memory */
            for (size_t cut = 0; cut < 3; cut++) {
                size_t size = r.size - 35 * cut;
                memcpy(end - size, r.bytes, size);
                bad &= is(ridgecrook_replay(end - size, size), BAD_ITEM, 0);
            }
        }
    }
    check(bad, "items that ask for more than is there");
    bad = 1;
    for (size_t i = 0; i < sizeof lengths / sizeof lengths[0]; i++) {
        form f = form_of(2, &m);
        put(f.bytes, lengths[i], 4);
        for (size_t size = 0; size <= f.size; size++) {
            memcpy(end - size, f.bytes, size);
            bad &= is(ridgecrook_replay(end - size, size), BAD_STATE, 0);
        }
    }
    check(bad, "states that ask for more than is there");
}

static void check_alignment(void) {
    static uint8_t bytes[RECORDING_MOST + ALIGNMENTS];
    for (uint32_t version = 1; version <= VERSIONS; version++) {
        size_t places[ITEMS + 1];
        recording r = by_hand(version, places);
        int right = 1;
        for (size_t i = 0; i < ALIGNMENTS; i++) {
            memcpy(bytes + i, r.bytes, r.size);
            right &= is(ridgecrook_replay(bytes + i, r.size), SAME, ITEMS);
            right &= memcmp(bytes + i, r.bytes, r.size) == 0;
        }
        check(right, "every alignment");
    }
}

/* Lengths that are right in their lower 32 bits: zeros behind are a bad item. */
static void check_huge(void) {
    size_t above = (size_t)1 << 32;
    uint8_t *huge = huge_pages(above + RECORDING_MOST);
    if (huge == NULL) {
        return;
    }
    check(is(ridgecrook_replay(huge, above), BAD_STATE, 0), "zeros without end");
    size_t places[ITEMS + 1];
    recording r = by_hand(2, places);
    memcpy(huge, r.bytes, r.size);
    for (size_t items = 0; items <= ITEMS; items++) {
        ridgecrook_report got = ridgecrook_replay(huge, above + places[items]);
        check(is(got, BAD_ITEM, ITEMS), "zeros behind the items");
    }
    munmap(huge, above + RECORDING_MOST);
}

/* So many items, of which the last is damaged or not. */
static void check_many(size_t items) {
    machine m = start();
    recording one;
    begin(&one, 2, &m);
    size_t front = one.size;
    expected sum = {.control = 0x1D80};
    memcpy(sum.destination, m.vectors + RIDGECROOK_REGISTER_SIZE, 16); /* lanes 1 to 7 are copied */
    sum.destination[1] = 0x42;
    add_item(&one, &sum, ADD_ONE, sizeof ADD_ONE, NULL, 0);
    size_t item = one.size - front, size = front + items * item;
    uint8_t *all = malloc(size + 1);
    if (all == NULL) {
        printf("skipped: no room for %zu items\n", items);
        return;
    }
    memcpy(all, one.bytes, front);
    for (size_t i = 0; i < items; i++) {
        memcpy(all + front + i * item, one.bytes + front, item);
    }
    all[size] = 0;
    check(is(ridgecrook_replay(all, size), SAME, items), "many items");
    check(is(ridgecrook_replay(all, size + 1), BAD_ITEM, items), "and a byte behind them");
    check(is(ridgecrook_replay(all, size - 1), BAD_ITEM, items - 1), "the last is cut");
    all[size - 1] ^= 1;
    check(is(ridgecrook_replay(all, size), DIFFERS, items - 1), "the last differs");
    all[size - item + 4] ^= 1;
    check(is(ridgecrook_replay(all, size), BAD_ITEM, items - 1), "the last is bad");
    free(all);
}

/* Changes bits, writes other bytes, or cuts; more often near the beginning of an item. */
static void damage_recording(recording *r, const size_t places[ITEMS + 1]) {
    size_t times = 1 + below(4);
    for (size_t i = 0; i < times; i++) {
        size_t at = below(2) == 0 ? below(r->size) : places[below(ITEMS)] + below(16);
        switch (below(4)) {
        case 0:
            r->bytes[at % r->size] = (uint8_t)bits();
            break;
        case 1:
            r->size = below(8) == 0 ? 1 + below(r->size) : r->size;
            break;
        default:
            r->bytes[at % r->size] ^= (uint8_t)(1 << below(8));
        }
    }
}

/*
 * Damaged recordings and random bytes at the end and at the beginning of pages that are read only:
 * the report is one that there is, its item can be there, and it is the same at both places.
 */
static void check_damaged(uint64_t count) {
    uint8_t *end = pages_end(RECORDING_MOST / PAGE), *first = end - RECORDING_MOST;
    uint64_t reports[REPORTS] = {0}, wrong = 0;
    for (uint64_t i = 0; i < count; i++) {
        size_t places[ITEMS + 1];
        recording r = by_hand(1 + (uint32_t)below(VERSIONS), places);
        damage_recording(&r, places);
        if (below(8) == 0) { /* any bytes behind the state, or from the beginning on */
            for (size_t at = below(2) == 0 ? 0 : places[0]; at < r.size; at++) {
                r.bytes[at] = (uint8_t)bits();
            }
        }
        let_write(first, RECORDING_MOST, 1);
        memcpy(end - r.size, r.bytes, r.size);
        let_write(first, RECORDING_MOST, 0);
        ridgecrook_report at_end = ridgecrook_replay(end - r.size, r.size);
        let_write(first, RECORDING_MOST, 1);
        memcpy(first, r.bytes, r.size);
        let_write(first, RECORDING_MOST, 0);
        ridgecrook_report at_beginning = ridgecrook_replay(first, r.size);
        int right = at_end.report < REPORTS && at_end.item <= r.size / ITEM_LEAST &&
                    (at_end.report != BAD_STATE || at_end.item == 0) &&
                    is(at_beginning, at_end.report, at_end.item);
        if (right) {
            reports[at_end.report]++;
        } else if (wrong++ < 10) {
            printf("failed: recording %" PRIu64 "\n", i);
        }
    }
    let_write(first, RECORDING_MOST, 1);
    printf("reports 0 to 3: %" PRIu64 " %" PRIu64 " %" PRIu64 " %" PRIu64 "\n", reports[SAME],
           reports[DIFFERS], reports[BAD_ITEM], reports[BAD_STATE]);
    int reached = 1;
    for (size_t i = 0; i < REPORTS; i++) {
        reached &= reports[i] > count / 100;
    }
    check(wrong == 0 && reached, "damaged recordings and random bytes");
}

/* gcc and clang tell in ways of their own that their address sanitizer is on. */
#if defined(__SANITIZE_ADDRESS__)
#define IS_SANITIZED 1
#elif defined(__has_feature)
#if __has_feature(address_sanitizer)
#define IS_SANITIZED 1
#endif
#endif
#ifndef IS_SANITIZED
#define IS_SANITIZED 0
#endif

enum { STACK = 4608 }; /* "some 4 KB", as the header says of a replay */
static recording on_small_stack;
static ridgecrook_report report_there;
static ucontext_t back;

static void replay_there(void) {
    report_there = replay(&on_small_stack);
}

/* The stack's end lies on a page that may not be touched. */
static int fits_stack(void) {
    ucontext_t there;
    if (getcontext(&there) != 0) {
        return 0;
    }
    there.uc_stack.ss_sp = pages_end(2) - 2 * PAGE;
    there.uc_stack.ss_size = STACK;
    there.uc_link = &back;
    makecontext(&there, replay_there, 0);
    return swapcontext(&back, &there) == 0 && is(report_there, SAME, ITEMS);
}

/*
 * In a process of its own, which stops where the stack is too small. Replays were made before, so
 * that the system's loader has found memset and memcpy: that takes more stack than they do.
 */
static void check_stack(void) {
    if (IS_SANITIZED) {
        puts("skipped: a replay on a small stack, since the sanitizer's own memset takes more");
        return;
    }
    size_t places[ITEMS + 1];
    on_small_stack = by_hand(2, places);
    fflush(stdout);
    pid_t child = fork();
    if (child == 0) {
        _exit(fits_stack() ? 0 : 1);
    }
    int status = 1;
    check(child > 0 && waitpid(child, &status, 0) == child && status == 0,
          "a replay on a stack of 4,608 bytes");
}

int main(int count, char **arguments) {
    uint64_t recordings = count > 1 ? strtoull(arguments[1], NULL, 10) : 20000;
    state = count > 2 ? strtoull(arguments[2], NULL, 10) : 20240311;
    printf("%" PRIu64 " damaged recordings, seed %" PRIu64 "\n", recordings, state);
    check_layout();
    check_same();
    check_wrong_items();
    check_order();
    check_limits();
    check_bad_states();
    check_ends();
    check_greedy_items();
    check_alignment();
    check_stack();
    check_huge();
    check_many(1);
    check_many(70000);
    check_many((size_t)recordings * 50);
    check_damaged(recordings);
    return finish();
}
