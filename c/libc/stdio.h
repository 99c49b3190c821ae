#ifndef LIBC_STDIO_H
#define LIBC_STDIO_H

int printf(const char *format, ...);
int puts(const char *line);

#endif
