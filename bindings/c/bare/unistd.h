/* See stdint.h here. */
#ifndef BARE_UNISTD_H
#define BARE_UNISTD_H
#include <stddef.h>
ptrdiff_t read(int file, void *to, size_t size);
ptrdiff_t write(int file, const void *from, size_t size);
int fsync(int file);
int close(int file);
_Noreturn void _exit(int status);
#endif
