/* A call that receives, with something before it that is not to be: tests/memory.sh says which CALL and what is PLANTED, and has to see it.
 * The linker puts this in the place of the archive's call (--wrap). */
#include "grassmunch.h"

#include <stdlib.h>

#define NAMED(before, call) before##call
#define NAME(before, call) NAMED(before, call)

gm_outcome NAME(__real_, CALL)(uint8_t *book, size_t len, uint32_t house, const uint8_t *message, size_t message_len);
gm_outcome NAME(__wrap_, CALL)(uint8_t *book, size_t len, uint32_t house, const uint8_t *message, size_t message_len);

/* The compiler is to take these bytes for used, so that it leaves none out and keeps them during the call. */
static inline void use(void *bytes) { __asm__ volatile("" : : "r"(bytes) : "memory"); }

gm_outcome NAME(__wrap_, CALL)(uint8_t *book, size_t len, uint32_t house, const uint8_t *message, size_t message_len) {
    volatile uint8_t *lent = book;
    PLANTED;
    use(&lent);
    return NAME(__real_, CALL)(book, len, house, message, message_len);
}
