/* See stddef.h. The function is that of Linux's C libraries. */
#ifndef STAND_IN_ERRNO_H
#define STAND_IN_ERRNO_H
int *__errno_location(void);
#define errno (*__errno_location())
#endif
