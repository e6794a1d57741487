/* The memory and text functions of the kit's C library that the C programs here use, for a compiler without headers. */
#ifndef TOOLS_STRING_H
#define TOOLS_STRING_H

#include <stddef.h>

void *memcpy(void *to, const void *from, size_t count);
void *memset(void *to, int byte, size_t count);
int memcmp(const void *one, const void *other, size_t count);
int strcmp(const char *one, const char *other);

#endif
