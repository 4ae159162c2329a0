/* A machine's state for the C tests, and pages behind whose ends nothing may be touched. */
#ifndef MACHINE_H
#define MACHINE_H

#ifndef _DEFAULT_SOURCE
#define _DEFAULT_SOURCE /* for MAP_ANONYMOUS */
#endif
#include "ridgecrook.h"

#include <stdint.h>
#include <stdio.h>
#include <stdlib.h>
#include <string.h>
#include <sys/mman.h>

typedef struct {
    uint8_t vectors[RIDGECROOK_VECTORS_SIZE];
    uint64_t masks[RIDGECROOK_MASKS];
    uint64_t general[RIDGECROOK_GENERAL];
    uint32_t control;
    uint64_t pointer;
} machine;

static inline void blank(machine *m) {
    memset(m, 0, sizeof *m);
    m->control = RIDGECROOK_CONTROL_RESET;
}

static inline int same(const machine *a, const machine *b) {
    return memcmp(a->vectors, b->vectors, sizeof a->vectors) == 0 &&
           memcmp(a->masks, b->masks, sizeof a->masks) == 0 &&
           memcmp(a->general, b->general, sizeof a->general) == 0 && a->control == b->control &&
           a->pointer == b->pointer;
}

enum { PAGE = 4096 };

/* The end of some pages before and behind which nothing may be read or written. */
static inline uint8_t *pages_end(size_t count) {
    size_t size = count * PAGE;
    uint8_t *all = mmap(NULL, size + 2 * PAGE, PROT_NONE, MAP_PRIVATE | MAP_ANONYMOUS, -1, 0);
    if (all == MAP_FAILED || mprotect(all + PAGE, size, PROT_READ | PROT_WRITE) != 0) {
        perror("mmap");
        exit(2);
    }
    return all + PAGE + size;
}

static inline uint8_t *page_end(void) {
    return pages_end(1);
}

/* Where bytes of a size stand in a page with this end: at its beginning, or else at its end. */
static inline uint8_t *in_page(uint8_t *end, size_t size, int at_beginning) {
    return at_beginning ? end - PAGE : end - size;
}

/* Pages that are reserved and hold zeros, or null where there are not so many addresses. */
static inline uint8_t *huge_pages(size_t size) {
    uint8_t *all = mmap(NULL, size, PROT_READ | PROT_WRITE,
                        MAP_PRIVATE | MAP_ANONYMOUS | MAP_NORESERVE, -1, 0);
    if (all == MAP_FAILED) {
        printf("skipped: no %zu bytes of addresses for the sizes above 2 to the 32\n", size);
        return NULL;
    }
    return all;
}

#endif
