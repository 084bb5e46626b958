/* stddef.h for the kit's clang, which brings no C headers: what include/house.h and the programs in C name. */
#ifndef HEADERS_STDDEF_H
#define HEADERS_STDDEF_H

typedef __SIZE_TYPE__ size_t;

#define offsetof(type, member) __builtin_offsetof(type, member)
#undef NULL
#ifdef __cplusplus
#define NULL __null
#else
#define NULL ((void *)0)
#endif

#endif
