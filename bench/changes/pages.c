/* What the pages alone of so many changes cost in C, for the least that an insertion does with them where each is a change of its own
   that can be taken back: two searches from the root to a leaf, for what touches the row and for its place; a copy of each page that
   changes (the leaf, page 1 and, with a third, an inner page), into memory of its own, whose page before is given back; and cells of the
   leaf that move up. Nothing is read, checked, encoded, summed, counted or answered. Prints nanoseconds for 0 to 3 copies, the best of
   seven rounds each: of changes that go to one leaf after another, and then of changes that go to any. */

#define _GNU_SOURCE
#include <inttypes.h>
#include <stdint.h>
#include <stdio.h>
#include <stdlib.h>
#include <string.h>
#include <time.h>

enum { PAGE = 4096, HEADER = 16, CELL = 46, ENTRIES = 60, CELLS = 60, LEAVES = 2300, INNER = 40, ROUNDS = 7, MOST = 3 };
enum { ROOT = LEAVES + INNER, FIRST = ROOT + 1, PAGES = FIRST + 1 };

static unsigned char *pages[PAGES];

static uint64_t now(void) {
    struct timespec time;
    clock_gettime(CLOCK_MONOTONIC, &time);
    return (uint64_t)time.tv_sec * 1000000000u + (uint64_t)time.tv_nsec;
}

static unsigned char *fresh(void) {
    unsigned char *page = malloc(PAGE);
    if (!page) exit(1);
    return page;
}

static int place_in(const unsigned char *page, const unsigned char *cell, int count) {
    int low = 0, high = count;
    while (low < high) {
        int middle = (low + high) / 2;
        if (memcmp(page + HEADER + middle * CELL, cell, CELL) < 0) low = middle + 1;
        else high = middle;
    }
    return low;
}

static void copy(int number) {
    unsigned char *page = fresh();
    memcpy(page, pages[number], PAGE);
    free(pages[number]);
    pages[number] = page;
}

/* The nanoseconds of so many changes. What the searches find is summed, so that they are not left out. */
static uint64_t spent(long changes, int is_shuffled, int copies, long *found) {
    uint32_t at = 7;
    uint64_t start = now();
    for (long k = 0; k < changes; k++) {
        at = at * 1664525 + 1013904223;
        int leaf = (int)(is_shuffled ? (at >> 8) % LEAVES : k * LEAVES / changes), inner = LEAVES + leaf * INNER / LEAVES;
        int changed[MOST] = {leaf, FIRST, inner};
        unsigned char cell[CELL] = {0};
        memcpy(cell, &at, sizeof at);
        for (int search = 0; search < 2; search++)
            *found += place_in(pages[ROOT], cell, INNER) + place_in(pages[inner], cell, ENTRIES) + place_in(pages[leaf], cell, CELLS);
        for (int copied = 0; copied < copies; copied++) copy(changed[copied]);
        memmove(pages[leaf] + HEADER + (CELLS / 2 + 1) * CELL, pages[leaf] + HEADER + CELLS / 2 * CELL, CELLS / 2 * CELL);
    }
    return now() - start;
}

int main(int argc, char **words) {
    if (argc != 2) return 2;
    long changes = atol(words[1]), found = 0;
    for (int number = 0; number < PAGES; number++) {
        pages[number] = fresh();
        for (int byte = 0; byte < PAGE; byte++) pages[number][byte] = (unsigned char)(byte * 131 + number);
    }
    for (int is_shuffled = 0; is_shuffled <= 1; is_shuffled++)
        for (int copies = 0; copies <= MOST; copies++) {
            uint64_t best = UINT64_MAX;
            for (int round = 0; round < ROUNDS; round++) {
                uint64_t taken = spent(changes, is_shuffled, copies, &found);
                if (taken < best) best = taken;
            }
            printf("%s %d %" PRIu64 "\n", is_shuffled ? "shuffled" : "ordered", copies, best);
        }
    return found < 0;
}
