/* unistd.h for the kit's clang, which brings no C headers: the functions that the tests in C call. */
#ifndef HEADERS_UNISTD_H
#define HEADERS_UNISTD_H

#include <stddef.h>

typedef __INTPTR_TYPE__ ssize_t;

#ifdef __cplusplus
extern "C" {
#endif

ssize_t read(int file, void *bytes, size_t length);
ssize_t write(int file, const void *bytes, size_t length);
int close(int file);
void _exit(int status) __attribute__((noreturn));

#ifdef __cplusplus
}
#endif

#endif
