/* See stdint.h here. The numbers are those of Linux on x86-64. */
#ifndef BARE_FCNTL_H
#define BARE_FCNTL_H
#define O_RDONLY 0
#define O_WRONLY 1
#define O_CREAT 0100
#define O_TRUNC 01000
int open(const char *path, int flags, ...);
#endif
