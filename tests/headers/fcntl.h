/* fcntl.h for the kit's clang, which brings no C headers: what the tests in C name, for x86-64 Linux. */
#ifndef HEADERS_FCNTL_H
#define HEADERS_FCNTL_H

#define O_RDONLY 0
#define O_WRONLY 1
#define O_CREAT 0100
#define O_TRUNC 01000

#ifdef __cplusplus
extern "C" {
#endif

int open(const char *name, int flags, ...);

#ifdef __cplusplus
}
#endif

#endif
