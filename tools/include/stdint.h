/* The numbers of fixed width that the C programs here use, for a compiler that comes without headers. */
#ifndef TOOLS_STDINT_H
#define TOOLS_STDINT_H

typedef __UINT16_TYPE__ uint16_t;
typedef __UINT32_TYPE__ uint32_t;
typedef __UINT64_TYPE__ uint64_t;

#define UINT16_MAX 65535

#endif
