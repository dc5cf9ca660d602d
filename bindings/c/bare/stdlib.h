/* See stdint.h here. */
#ifndef BARE_STDLIB_H
#define BARE_STDLIB_H
#include <stddef.h>
void *malloc(size_t size);
void free(void *from);
#endif
