#ifndef LIBC_STRING_H
#define LIBC_STRING_H

#include <stddef.h>

int memcmp(const void *a, const void *b, size_t bytes);
void *memcpy(void *to, const void *from, size_t bytes);
void *memset(void *to, int byte, size_t bytes);

#endif
