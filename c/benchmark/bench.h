/* What the cases of the benchmark share. */
#ifndef BENCH_H
#define BENCH_H

#include "model.h"
#include "neftolek.h"

/* Runs a case on one side, adds what it was answered to `sum`, and answers how many calls it made. */
typedef unsigned side(void);

extern unsigned long sum;

/* The three sides of a case: the archive, the model with document 01's tests, and the model that tests nothing. */
struct sides {
    side *ours, *tested, *untested;
};

/* How many times as long as each model ours may take; 0 where there is no bar. */
struct bars {
    double tested, untested;
};

/* Nanoseconds a call, of the fastest run of each side. */
struct times {
    double ours, tested, untested;
};

/* Says that something is not as it has to be; the benchmark then fails. */
void not_so(const char *what);

/* The whole table is gone through in passes, so that a slow while of the machine slows no line alone; the last pass
 * prints it. */
enum { PASSES = 12 };

extern unsigned pass;

static inline bool last_pass(void) { return pass == PASSES - 1; }

/* One line of the table; answers the fastest runs so far. */
struct times measure(const char *name, struct bars bars, struct sides sides);
void heading(const char *text);

#define SIDES(name)                                                                                                    \
    (struct sides) { name##_ours, name##_tested, name##_untested }

void measure_characters(void);
void measure_link(void);
void measure_router(void);
void measure_whole(void);

#endif
