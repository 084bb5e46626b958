/* stdlib.h for the kit's clang, which brings no C headers: the functions that the tests in C call. */
#ifndef HEADERS_STDLIB_H
#define HEADERS_STDLIB_H

#ifdef __cplusplus
extern "C" {
#endif

unsigned long long strtoull(const char *text, char **end, int base);
void exit(int status) __attribute__((noreturn));

#ifdef __cplusplus
}
#endif

#endif
