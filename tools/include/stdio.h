/* The input and output of the kit's C library that the C programs here use, for a compiler that comes without headers. */
#ifndef TOOLS_STDIO_H
#define TOOLS_STDIO_H

#include <stddef.h>

typedef struct FILE FILE;

extern FILE *stdin, *stdout, *stderr;

FILE *fopen(const char *path, const char *mode);
int fclose(FILE *file);
int fflush(FILE *file);
size_t fread(void *room, size_t size, size_t count, FILE *file);
size_t fwrite(const void *bytes, size_t size, size_t count, FILE *file);
int printf(const char *format, ...) __attribute__((format(printf, 1, 2)));
int fprintf(FILE *file, const char *format, ...) __attribute__((format(printf, 2, 3)));
int snprintf(char *room, size_t size, const char *format, ...) __attribute__((format(printf, 3, 4)));
void perror(const char *what);

#endif
