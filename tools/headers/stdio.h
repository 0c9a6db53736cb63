/* See stddef.h. */
#ifndef STAND_IN_STDIO_H
#define STAND_IN_STDIO_H
#include <stddef.h>
typedef struct _IO_FILE FILE;
extern FILE *stdin, *stdout, *stderr;
FILE *fopen(const char *name, const char *mode);
size_t fread(void *row, size_t size, size_t n, FILE *file);
size_t fwrite(const void *row, size_t size, size_t n, FILE *file);
int ferror(FILE *file);
int fclose(FILE *file);
int fputs(const char *text, FILE *file);
int fprintf(FILE *file, const char *format, ...);
int printf(const char *format, ...);
#endif
