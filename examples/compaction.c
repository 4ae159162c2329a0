/*
 * The compaction of a small log, as a database's engine does it. Each record has an embedding of 73 halves and a weight. A kernel of
 * AVX512-FP16 machine code scores it against a query; a record whose score repeats an earlier one is cut. Two processes that score one
 * record differently by a single bit would cut different records, so every view of the log must come to the same bits:
 *
 *   view A   the interpreter, from a state that is zero where the kernel does not look
 *   view B   the interpreter, from a state that is filled with other bytes there
 *   view C   the processor itself, where it has the instructions
 *
 * Then an auditor scores the log with the precision exception unmasked, and the kernel stops at the first inexact lane.
 * The exit status is 0 only if everything agreed. Build and run it by `make demo`.
 */
#include "ridgecrook.h"

#include <inttypes.h>
#include <stdbool.h>
#include <stdio.h>
#include <string.h>
#include <xmmintrin.h>

/*
 * The kernel: rax is the record's address, rbx its weight's. zmm1 to zmm3 hold the query's halves 0 to 71, lane 0 of xmm4 holds the odd
 * one, 72, and lanes 1 to 7 of xmm4 are 0; k1 is 0xFF, for the tail of 8. The odd half comes first, since a scalar instruction writes its
 * whole destination (R5.10): lanes 1 to 7 as its first source has them, and 0 above. Here that starts the sums of all lanes; after
 * the others it would set lanes 8 to 31 to 0.
 */
static const uint8_t KERNEL[] = {
    0x62, 0xF5, 0x5E, 0x08, 0x59, 0x40, 0x48, /* vmulsh      xmm0, xmm4, [rax + 144]        half 72         */
    0x62, 0xF6, 0x75, 0x48, 0xB8, 0x00,       /* vfmadd231ph zmm0, zmm1, [rax]              halves 0 to 31  */
    0x62, 0xF6, 0x6D, 0x48, 0xB8, 0x40, 0x01, /* vfmadd231ph zmm0, zmm2, [rax + 64]         halves 32 to 63 */
    0x62, 0xF6, 0x65, 0x49, 0xB8, 0x40, 0x02, /* vfmadd231ph zmm0{k1}, zmm3, [rax + 128]    halves 64 to 71 */
    0x62, 0xF5, 0x7C, 0x58, 0x59, 0x03,       /* vmulph      zmm0, zmm0, word [rbx]{1to32}  by the weight   */
};

/* The same, by its offsets, to print. */
static const struct {
    size_t offset;
    const char *text;
} LISTING[] = {
    {0, "vmulsh xmm0, xmm4, [rax + 144]"},
    {7, "vfmadd231ph zmm0, zmm1, [rax]"},
    {13, "vfmadd231ph zmm0, zmm2, [rax + 64]"},
    {20, "vfmadd231ph zmm0{k1}, zmm3, [rax + 128]"},
    {27, "vmulph zmm0, zmm0, word [rbx]{1to32}"},
};

enum {
    RECORDS = 24,
    HALVES = 73,                    /* of an embedding: two whole registers, a tail of 8 and an odd one */
    RECORD_SIZE = 2 * HALVES + 2,   /* with the weight behind it */
    LOG_SIZE = RECORDS * RECORD_SIZE,
    REGISTER_SIZE = 64,
    ALL_MASKED = 0x1F80,            /* the control word at rest */
    PRECISION_UNMASKED = 0x0F80,
    RAX = 0,
    RBX = 3
};

/* What the interpreter is lent. */
typedef struct {
    uint8_t vectors[RIDGECROOK_VECTORS_SIZE];
    uint64_t masks[8];
    uint64_t general[16];
    uint32_t control;
    uint64_t pointer;
} machine;

typedef struct {
    uint8_t bytes[REGISTER_SIZE];
} score;

/* How a view scores a record; false if it could not. */
typedef bool scorer(const uint8_t *log, const uint8_t *query, size_t record, score *out);

/* ---- the log, from a fixed seed */

static uint64_t seed = 20240229;

static uint64_t next_random(void) {
    seed ^= seed << 13;
    seed ^= seed >> 7;
    seed ^= seed << 17;
    return seed;
}

/* A finite half of either sign, from 2 to the -6 up to 4. */
static uint16_t random_half(void) {
    uint64_t r = next_random();
    return (uint16_t)((r & 0x83FF) | (((r >> 20) % 8 + 9) << 10));
}

static void put_half(uint8_t *at, uint16_t half) {
    at[0] = (uint8_t)half;
    at[1] = (uint8_t)(half >> 8);
}

/* The query fills three registers, with zeros behind its last half. Some records repeat an earlier one, and must be cut. */
static void make_log(uint8_t *log, uint8_t *query) {
    for (size_t i = 0; i < 3 * REGISTER_SIZE; i += 2) {
        put_half(query + i, i < 2 * HALVES ? random_half() : 0);
    }
    for (size_t r = 0; r < RECORDS; r++) {
        uint8_t *record = log + r * RECORD_SIZE;
        for (size_t i = 0; i < RECORD_SIZE; i += 2) {
            put_half(record + i, random_half());
        }
        if (r % 7 == 5) {
            memcpy(record, log + (r - 4) * RECORD_SIZE, RECORD_SIZE);
        }
    }
}

/* ---- views A and B: the interpreter */

/* The query in zmm1 to zmm3 and xmm4, k1 for the tail; `rest` is what stands in every byte that the kernel does not read. */
static void set_up(machine *m, const uint8_t *query, size_t record, uint32_t control, uint8_t rest) {
    memset(m->vectors, rest, sizeof m->vectors);
    memset(m->masks, rest, sizeof m->masks);
    memset(m->general, rest, sizeof m->general);
    memcpy(m->vectors + REGISTER_SIZE, query, 2 * REGISTER_SIZE);
    memcpy(m->vectors + 3 * REGISTER_SIZE, query + 2 * REGISTER_SIZE, 16);
    memcpy(m->vectors + 4 * REGISTER_SIZE, query + 2 * REGISTER_SIZE + 16, 16);
    m->masks[1] = 0xFF;
    m->general[RAX] = record * RECORD_SIZE;
    m->general[RBX] = record * RECORD_SIZE + 2 * HALVES;
    m->control = control;
    m->pointer = 0;
}

/* Steps until the kernel's end, or until a step is not done. The offset that was reached is left in *at. */
static ridgecrook_answer run(machine *m, const uint8_t *log, size_t *at) {
    ridgecrook_answer answer = {RIDGECROOK_DONE, 0};
    *at = 0;
    while (*at < sizeof KERNEL) {
        answer = ridgecrook_step(m->vectors, sizeof m->vectors, m->masks, m->general, &m->control, &m->pointer, KERNEL + *at,
                                 sizeof KERNEL - *at, log, LOG_SIZE);
        if (answer.number != RIDGECROOK_DONE) {
            break;
        }
        *at += answer.length;
    }
    return answer;
}

static bool interpret(const uint8_t *log, const uint8_t *query, size_t record, uint8_t rest, score *out) {
    machine m;
    size_t at;
    set_up(&m, query, record, ALL_MASKED, rest);
    ridgecrook_answer answer = run(&m, log, &at);
    memcpy(out->bytes, m.vectors, REGISTER_SIZE);
    return answer.number == RIDGECROOK_DONE;
}

static bool view_a(const uint8_t *log, const uint8_t *query, size_t record, score *out) {
    return interpret(log, query, record, 0x00, out);
}

static bool view_b(const uint8_t *log, const uint8_t *query, size_t record, score *out) {
    return interpret(log, query, record, 0xA5, out);
}

/* ---- view C: the processor */

/* CPUID leaf 7, EDX bit 23 says that the instructions are there; XCR0, that the system keeps their registers. */
static bool processor_has_fp16(void) {
    uint32_t eax = 7, ebx = 0, ecx = 0, edx = 0;
    __asm__("cpuid" : "+a"(eax), "=b"(ebx), "+c"(ecx), "=d"(edx));
    if ((edx & (1u << 23)) == 0 || (ebx & (1u << 16)) == 0) {
        return false;
    }
    uint32_t low, high;
    __asm__("xgetbv" : "=a"(low), "=d"(high) : "c"(0));
    return (low & 0xE6) == 0xE6;
}

/*
 * The kernel's own bytes, executed, with the query's halves in zmm0 too: nothing of them may be left. gcc lets k1 be named as written
 * only where the target has mask registers; so this function has them, and may be called only after processor_has_fp16 said yes.
 * vzeroupper clears the upper parts of xmm0 to xmm15, whatever holds them.
 */
__attribute__((target("avx512f")))
static bool view_c(const uint8_t *log, const uint8_t *query, size_t record, score *out) {
    const uint8_t *address = log + record * RECORD_SIZE;
    uint64_t tail = 0xFF;
    unsigned before = _mm_getcsr();
    _mm_setcsr(ALL_MASKED);
    __asm__ volatile("vmovups   (%[query]), %%zmm0\n\t"
                     "vmovups   (%[query]), %%zmm1\n\t"
                     "vmovups 64(%[query]), %%zmm2\n\t"
                     "vmovups 128(%[query]), %%zmm3\n\t"
                     "vmovups 144(%[query]), %%xmm4\n\t"
                     "kmovq %[tail], %%k1\n\t"
                     ".byte 0x62, 0xF5, 0x5E, 0x08, 0x59, 0x40, 0x48\n\t"
                     ".byte 0x62, 0xF6, 0x75, 0x48, 0xB8, 0x00\n\t"
                     ".byte 0x62, 0xF6, 0x6D, 0x48, 0xB8, 0x40, 0x01\n\t"
                     ".byte 0x62, 0xF6, 0x65, 0x49, 0xB8, 0x40, 0x02\n\t"
                     ".byte 0x62, 0xF5, 0x7C, 0x58, 0x59, 0x03\n\t"
                     "vmovups %%zmm0, (%[out])\n\t"
                     "vzeroupper"
                     :
                     : "a"(address), "b"(address + 2 * HALVES), [query] "r"(query), [tail] "r"(tail), [out] "r"(out->bytes)
                     : "memory", "k1", "xmm0", "xmm1", "xmm2", "xmm3", "xmm4", "xmm5", "xmm6", "xmm7", "xmm8", "xmm9", "xmm10",
                       "xmm11", "xmm12", "xmm13", "xmm14", "xmm15");
    _mm_setcsr(before);
    return true;
}

/* ---- compaction */

/* Scores all records, and marks those whose score repeats an earlier one. */
static bool compact(scorer *by, const uint8_t *log, const uint8_t *query, score *scores, bool *cut) {
    for (size_t r = 0; r < RECORDS; r++) {
        if (!by(log, query, r, &scores[r])) {
            return false;
        }
        cut[r] = false;
        for (size_t e = 0; e < r; e++) {
            cut[r] |= memcmp(&scores[e], &scores[r], sizeof(score)) == 0;
        }
    }
    return true;
}

static void print_view(const char *name, const score *scores, const bool *cut) {
    size_t kept = 0;
    printf("%s\n    record   first lanes of the score\n", name);
    for (size_t r = 0; r < RECORDS; r++) {
        const uint8_t *b = scores[r].bytes;
        kept += !cut[r];
        printf("    %6zu   %02X%02X %02X%02X %02X%02X %02X%02X%s\n", r, b[1], b[0], b[3], b[2], b[5], b[4], b[7], b[6],
               cut[r] ? "   cut" : "");
    }
    printf("    %zu of %d records kept\n\n", kept, RECORDS);
}

static bool same_view(const char *name, const score *s, const bool *cut, const score *first, const bool *first_cut) {
    bool same = memcmp(s, first, RECORDS * sizeof(score)) == 0 && memcmp(cut, first_cut, RECORDS * sizeof(bool)) == 0;
    printf("%-44s %s\n", name, same ? "the same bits, the same records cut" : "DIFFERS");
    return same;
}

/* ---- the auditor */

static void print_flags(uint32_t control) {
    static const char *const NAMES[] = {"IE", "DE", "ZE", "OE", "UE", "PE"};
    for (int i = 0; i < 6; i++) {
        if (control >> i & 1) {
            printf(" %s", NAMES[i]);
        }
    }
    printf("\n");
}

/* The first record, with the precision exception unmasked: the kernel must stop, with the destination untouched. */
static bool audit(const uint8_t *log, const uint8_t *query) {
    machine m, before;
    size_t at;
    set_up(&m, query, 0, PRECISION_UNMASKED, 0x00);
    memcpy(&before, &m, sizeof m);
    ridgecrook_answer answer = run(&m, log, &at);
    bool stopped = answer.number == RIDGECROOK_EXCEPTION && answer.length == 0;
    bool untouched = at == 0 && memcmp(m.vectors, before.vectors, sizeof m.vectors) == 0 && m.pointer == before.pointer;
    printf("\nauditor, precision exception unmasked, record 0\n");
    for (size_t i = 0; i < sizeof LISTING / sizeof LISTING[0]; i++) {
        if (LISTING[i].offset == at) {
            printf("    stopped at    offset %zu, %s\n", at, LISTING[i].text);
        }
    }
    printf("    answer        %" PRIu32 "\n    flags        ", answer.number);
    print_flags(m.control);
    printf("    destination   %s\n", untouched ? "as before" : "CHANGED");
    return stopped && untouched && (m.control & RIDGECROOK_PE) != 0;
}

int main(void) {
    static uint8_t log[LOG_SIZE], query[3 * REGISTER_SIZE];
    static score a[RECORDS], b[RECORDS], c[RECORDS];
    static bool cut_a[RECORDS], cut_b[RECORDS], cut_c[RECORDS];
    make_log(log, query);
    bool good = compact(view_a, log, query, a, cut_a) && compact(view_b, log, query, b, cut_b);
    print_view("view A: the interpreter", a, cut_a);
    good &= same_view("view B: the interpreter, other bytes around", b, cut_b, a, cut_a);
    if (processor_has_fp16()) {
        good &= compact(view_c, log, query, c, cut_c);
        good &= same_view("view C: this processor", c, cut_c, a, cut_a);
    } else {
        printf("view C: skipped, this processor has no AVX512-FP16\n");
    }
    good &= audit(log, query);
    printf("\n%s\n", good ? "everything agreed" : "SOMETHING DIFFERED");
    return good ? 0 : 1;
}
