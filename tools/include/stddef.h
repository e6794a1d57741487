/* The sizes of C11 that the C programs here use, for a compiler that comes without headers. */
#ifndef TOOLS_STDDEF_H
#define TOOLS_STDDEF_H

typedef __SIZE_TYPE__ size_t;

#define NULL ((void *)0)

#endif
