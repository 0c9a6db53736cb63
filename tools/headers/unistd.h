/* See stddef.h. */
#ifndef STAND_IN_UNISTD_H
#define STAND_IN_UNISTD_H
int isatty(int file);
#endif
