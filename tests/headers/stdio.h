/* stdio.h for the kit's clang, which brings no C headers: what the programs in C call of the kit's C library. */
#ifndef HEADERS_STDIO_H
#define HEADERS_STDIO_H

#include <stddef.h>

#ifdef __cplusplus
extern "C" {
#endif

typedef struct _IO_FILE FILE;
extern FILE *stderr;

int printf(const char *format, ...) __attribute__((format(printf, 1, 2)));
int fprintf(FILE *file, const char *format, ...) __attribute__((format(printf, 2, 3)));
int snprintf(char *text, size_t size, const char *format, ...) __attribute__((format(printf, 3, 4)));
FILE *fopen(const char *path, const char *mode);
size_t fread(void *bytes, size_t size, size_t count, FILE *file);
size_t fwrite(const void *bytes, size_t size, size_t count, FILE *file);
int ferror(FILE *file);
int fclose(FILE *file);
int rename(const char *from, const char *to);
int remove(const char *path);
int dprintf(int file, const char *format, ...) __attribute__((format(printf, 2, 3)));
int fflush(FILE *stream);

#ifdef __cplusplus
}
#endif

#endif
