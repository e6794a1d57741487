/* The C11 names of the truth values, for a compiler that comes without headers. */
#ifndef TOOLS_STDBOOL_H
#define TOOLS_STDBOOL_H

#define bool _Bool
#define true 1
#define false 0

#endif
