/* The proved archive beside the model, on the same inputs in one run: nanoseconds a call, and the ratios.
 *
 * The archive tests everything that it is handed. One model tests what document 01 asks for, as a program in C would
 * write it; the other tests nothing. The sides of each case are run by turns, and of each the fastest run counts, of
 * PASSES times REPEATS. What all sides answer is summed up and has to be the same. */
#include "bench.h"

#include <stdio.h>
#include <time.h>

enum { REPEATS = 32, MOST_LINES = 60 };

unsigned long sum;
unsigned pass;

static struct times lines[MOST_LINES]; /* the fastest runs so far */
static unsigned line;

struct column {
    const char *name;
    unsigned met, missed;
};

static struct column tested = {"against the model with 01's tests", 0, 0};
static struct column untested = {"against the model that tests nothing", 0, 0};

static unsigned wrong;

/* Nanoseconds a call, over half a millisecond or more of the processor's time. */
static double time_of(side *which)
{
    unsigned long calls = 0;
    clock_t start = clock(), now;
    do {
        for (int k = 0; k < 4; k++)
            calls += which();
        now = clock();
    } while (now - start < CLOCKS_PER_SEC / 2000);
    return 1e9 * (double)(now - start) / CLOCKS_PER_SEC / (double)calls;
}

static void faster(double *best, side *which)
{
    double t = time_of(which);
    if (t < *best)
        *best = t;
}

void not_so(const char *what)
{
    printf("%s\n", what);
    wrong++;
}

static void same_answers(const char *name, side *ours, side *other)
{
    unsigned long start = sum, middle;
    unsigned calls = ours();
    middle = sum;
    if (other() != calls || sum - middle != middle - start) {
        printf("%s: ", name);
        not_so("the sides answer differently");
    }
}

/* A ratio, and whether it keeps its bar; answers how wide it was printed. */
static int against(struct column *column, double ours, double model, double bar)
{
    bool met = ours <= bar * model;
    if (bar == 0)
        return printf("  %6.2f", ours / model);
    met ? column->met++ : column->missed++;
    return printf("  %6.2f %4.1f %s", ours / model, bar, met ? "met" : "MISSED");
}

static void print_line(const char *name, struct bars bars, struct times best)
{
    printf("%-34s %8.2f %8.2f %8.2f", name, best.ours, best.tested, best.untested);
    printf("%*s", 20 - against(&tested, best.ours, best.tested, bars.tested), "");
    against(&untested, best.ours, best.untested, bars.untested);
    printf("\n");
}

struct times measure(const char *name, struct bars bars, struct sides sides)
{
    static const struct times none = {1e9, 1e9, 1e9};
    struct times best = pass == 0 ? none : lines[line];
    if (pass == 0) {
        same_answers(name, sides.ours, sides.tested);
        same_answers(name, sides.ours, sides.untested);
    }
    for (int k = 0; k < REPEATS; k++) {
        faster(&best.ours, sides.ours);
        faster(&best.tested, sides.tested);
        faster(&best.untested, sides.untested);
    }
    if (last_pass())
        print_line(name, bars, best);
    lines[line++] = best;
    return best;
}

void heading(const char *text)
{
    if (last_pass())
        printf("\n%-34s %8s %8s %8s   %-18s  %s\n", text, "ours", "tested", "untested", "ours/tested, bar",
               "ours/untested, bar");
}

static void say(struct column column)
{
    printf("bars %s: %u met, %u missed\n", column.name, column.met, column.missed);
}

int main(void)
{
    printf("nanoseconds a call\n");
    for (pass = 0; pass < PASSES; pass++) {
        line = 0;
        measure_characters();
        measure_link();
        measure_router();
        measure_whole();
    }
    printf("\n");
    say(tested);
    say(untested);
    return wrong != 0;
}
