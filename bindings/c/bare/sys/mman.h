/* See stdint.h here. The numbers are those of Linux. */
#ifndef BARE_SYS_MMAN_H
#define BARE_SYS_MMAN_H
#include <stddef.h>
#define PROT_NONE 0
#define PROT_READ 1
#define PROT_WRITE 2
int mprotect(void *from, size_t size, int allowed);
#endif
