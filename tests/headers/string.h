/* string.h for the kit's clang, which brings no C headers: the functions that the programs in C call. */
#ifndef HEADERS_STRING_H
#define HEADERS_STRING_H

#include <stddef.h>

#ifdef __cplusplus
extern "C" {
#endif

void *memcpy(void *to, const void *from, size_t length);
void *memmove(void *to, const void *from, size_t length);
void *memset(void *to, int byte, size_t length);
int memcmp(const void *a, const void *b, size_t length);
void *memchr(const void *bytes, int byte, size_t length);
int strcmp(const char *a, const char *b);
size_t strlen(const char *text);
char *strerror(int number);

#ifdef __cplusplus
}
#endif

#endif
