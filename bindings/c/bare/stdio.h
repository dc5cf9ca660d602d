/* See stdint.h here. */
#ifndef BARE_STDIO_H
#define BARE_STDIO_H
#include <stddef.h>
int printf(const char *format, ...);
int snprintf(char *to, size_t size, const char *format, ...);
int rename(const char *from, const char *to);
#endif
