/* What include/aquiledru.h, the C example, programs/ and ask/ need of C's own headers, for a compiler that comes without headers, such as the kit's. */
#ifndef STAND_IN_STDDEF_H
#define STAND_IN_STDDEF_H
typedef __SIZE_TYPE__ size_t;
#define NULL ((void *)0)
#endif
