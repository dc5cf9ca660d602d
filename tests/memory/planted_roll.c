/* A call on a roll, with something before it that is not to be: as planted.c, with the type LAST of what CALL takes last. */
#include "grassmunch.h"

#define NAMED(before, call) before##call
#define NAME(before, call) NAMED(before, call)

uint8_t NAME(__real_, CALL)(gm_line *roll, size_t len, gm_totals *totals, LAST last);
uint8_t NAME(__wrap_, CALL)(gm_line *roll, size_t len, gm_totals *totals, LAST last);

static inline void use(void *bytes) { __asm__ volatile("" : : "r"(bytes) : "memory"); }

uint8_t NAME(__wrap_, CALL)(gm_line *roll, size_t len, gm_totals *totals, LAST last) {
    volatile uint32_t *lines = (void *)roll, *sums = (void *)totals;
    PLANTED;
    use(&lines);
    use(&sums);
    return NAME(__real_, CALL)(roll, len, totals, last);
}
