/* The general functions of the kit's C library that the C programs here use, for a compiler that comes without headers. */
#ifndef TOOLS_STDLIB_H
#define TOOLS_STDLIB_H

#include <stddef.h>

unsigned long long strtoull(const char *text, char **end, int base);
char *getenv(const char *name);
void exit(int status) __attribute__((noreturn));

#endif
