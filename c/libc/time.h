#ifndef LIBC_TIME_H
#define LIBC_TIME_H

#include <stddef.h>

typedef long time_t;
typedef long clock_t;

#define CLOCKS_PER_SEC 1000000L

time_t time(time_t *seconds);
clock_t clock(void);

#endif
