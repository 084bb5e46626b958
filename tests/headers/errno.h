/* errno.h for the kit's clang, which brings no C headers: where the kit's C library keeps errno, and the one value that is asked for. */
#ifndef HEADERS_ERRNO_H
#define HEADERS_ERRNO_H

#ifdef __cplusplus
extern "C" {
#endif

int *__errno_location(void);
#define errno (*__errno_location())
#define ENOENT 2

#ifdef __cplusplus
}
#endif

#endif
