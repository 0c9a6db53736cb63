/* See stddef.h. */
#ifndef STAND_IN_STRING_H
#define STAND_IN_STRING_H
#include <stddef.h>
size_t strlen(const char *text);
void *memcpy(void *to, const void *from, size_t n);
void *memset(void *row, int byte, size_t n);
void *memchr(const void *row, int byte, size_t n);
int strcmp(const char *a, const char *b);
char *strerror(int number);
int memcmp(const void *a, const void *b, size_t n);
#endif
