/* sys/mman.h for the kit's clang, which brings no C headers: what the tests in C name, for x86-64 Linux. */
#ifndef HEADERS_SYS_MMAN_H
#define HEADERS_SYS_MMAN_H

#include <stddef.h>

#define PROT_NONE 0
#define PROT_READ 1
#define PROT_WRITE 2
#define MAP_PRIVATE 0x02
#define MAP_ANONYMOUS 0x20
#define MAP_FAILED ((void *)-1)

#ifdef __cplusplus
extern "C" {
#endif

void *mmap(void *near, size_t length, int protection, int flags, int file, long offset);
int mprotect(void *from, size_t length, int protection);

#ifdef __cplusplus
}
#endif

#endif
