/* For the toolchain's own compiler, which brings no headers: the part of the C library that programs here use. */
#ifndef LIBC_STDDEF_H
#define LIBC_STDDEF_H

typedef __SIZE_TYPE__ size_t;

#define offsetof(type, member) __builtin_offsetof(type, member)

#ifdef __cplusplus
#define NULL 0
#else
#define NULL ((void *)0)
#endif

#endif
