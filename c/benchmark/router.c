/* The router: puts and takes at one port, and runs of `streams` streams, each from a full input of `places` to an
 * output of its own. */
#include "bench.h"

#include <string.h>

enum { MOST_ROUNDS = 10000 };

static unsigned places;
static uint16_t area[NEFTOLEK_ROUTER_STORES * NEFTOLEK_ROUTER_MOST];
static uint32_t router[NEFTOLEK_ROUTER_WORDS], table[NEFTOLEK_TABLE_ROWS];
static struct model_router model_router;

static struct model_places whole_area(void)
{
    struct model_places whole = {area, NEFTOLEK_ROUTER_STORES * places};
    return whole;
}

static void make_streams(unsigned streams, unsigned size)
{
    places = size;
    neftolek_router_fresh(router);
    neftolek_table_fresh(table);
    model_router_fresh(&model_router);
    for (unsigned p = 0; p < streams; p++)
        for (unsigned k = 0; k < size; k++) {
            uint16_t n = (uint16_t)(k == 0 ? (p + 3) % MODEL_PORTS : k + 1 < size ? k % 256 : MODEL_EOP);
            neftolek_router_put(router, area, NEFTOLEK_ROUTER_STORES * size, p, n);
            model_router_put(&model_router, whole_area(), p, n);
        }
}

/* Runs; the plain model, which looks at everything in every round, is left out. */

static unsigned run_ours(void)
{
    uint32_t state[NEFTOLEK_ROUTER_WORDS], out[3];
    memcpy(state, router, sizeof state);
    if (neftolek_router_run(state, area, NEFTOLEK_ROUTER_STORES * places, table, MOST_ROUNDS, out) == 0)
        sum += out[1] + out[2];
    return out[0];
}

#define RUN_MODEL(name, call)                                                                                          \
    static unsigned name(void)                                                                                         \
    {                                                                                                                  \
        struct model_router state = model_router;                                                                      \
        struct model_ran ran;                                                                                          \
        call;                                                                                                          \
        sum += ran.moved + ran.errors;                                                                                 \
        return ran.rounds;                                                                                             \
    }

RUN_MODEL(run_tested, tested_sensible_run(&state, whole_area(), table, MOST_ROUNDS, &ran))
RUN_MODEL(run_untested, ran = sensible_router_run(&state, whole_area(), table, MOST_ROUNDS))
RUN_MODEL(sets_tested, tested_sets_run(&state, whole_area(), table, MOST_ROUNDS, &ran))
RUN_MODEL(sets_untested, ran = sets_router_run(&state, whole_area(), table, MOST_ROUNDS))

/* Runs of one round that find nothing to do: they leave the state as it is, so it need not be copied. */

enum { IDLE_RUNS = 100 };

static unsigned idle_ours(void)
{
    uint32_t out[3];
    unsigned rounds = 0;
    for (unsigned k = 0; k < IDLE_RUNS; k++)
        if (neftolek_router_run(router, area, NEFTOLEK_ROUTER_STORES * places, table, MOST_ROUNDS, out) == 0)
            rounds += out[0];
    return rounds;
}

#define IDLE_MODEL(name, call)                                                                                         \
    static unsigned name(void)                                                                                         \
    {                                                                                                                  \
        struct model_ran ran;                                                                                          \
        unsigned rounds = 0;                                                                                           \
        for (unsigned k = 0; k < IDLE_RUNS; k++) {                                                                     \
            call;                                                                                                      \
            rounds += ran.rounds;                                                                                      \
        }                                                                                                              \
        return rounds;                                                                                                 \
    }

IDLE_MODEL(idle_tested, tested_sensible_run(&model_router, whole_area(), table, MOST_ROUNDS, &ran))
IDLE_MODEL(idle_untested, ran = sensible_router_run(&model_router, whole_area(), table, MOST_ROUNDS))
IDLE_MODEL(idle_sets_tested, tested_sets_run(&model_router, whole_area(), table, MOST_ROUNDS, &ran))
IDLE_MODEL(idle_sets_untested, ran = sets_router_run(&model_router, whole_area(), table, MOST_ROUNDS))

/* Puts to an empty input until it is full, and takes from an output that holds a packet until it is empty. */

static unsigned put_ours(void)
{
    uint32_t state[NEFTOLEK_ROUTER_WORDS];
    unsigned long total = 0;
    memcpy(state, router, sizeof state);
    for (unsigned k = 0; k < places; k++)
        total += neftolek_router_put(state, area, NEFTOLEK_ROUTER_STORES * places, 3, k % 256) == 0;
    sum += total;
    return places;
}

static unsigned put_tested(void)
{
    struct model_router state = model_router;
    unsigned long total = 0;
    for (unsigned k = 0; k < places; k++)
        total += tested_router_put(&state, whole_area(), 3, k % 256) == 0;
    sum += total;
    return places;
}

static unsigned put_untested(void)
{
    struct model_router state = model_router;
    for (unsigned k = 0; k < places; k++)
        model_router_put(&state, whole_area(), 3, (uint16_t)(k % 256));
    sum += places;
    return places;
}

static unsigned take_ours(void)
{
    uint32_t state[NEFTOLEK_ROUTER_WORDS], out[1];
    unsigned long total = 0;
    memcpy(state, router, sizeof state);
    for (unsigned k = 0; k < places - 1; k++)
        if (neftolek_router_take(state, area, NEFTOLEK_ROUTER_STORES * places, 3, out) == 0)
            total += out[0];
    sum += total;
    return places - 1;
}

static unsigned take_tested(void)
{
    struct model_router state = model_router;
    unsigned long total = 0;
    uint16_t n;
    for (unsigned k = 0; k < places - 1; k++)
        if (tested_router_take(&state, whole_area(), 3, &n) == 0)
            total += n;
    sum += total;
    return places - 1;
}

static unsigned take_untested(void)
{
    struct model_router state = model_router;
    unsigned long total = 0;
    for (unsigned k = 0; k < places - 1; k++)
        total += model_router_take(&state, whole_area(), 3);
    sum += total;
    return places - 1;
}

/* A packet in output 3 that fills it but for its address, on both sides. */
static void fill_output(unsigned size)
{
    static uint16_t copy[sizeof area / sizeof *area];
    struct model_places copied = {copy, NEFTOLEK_ROUTER_STORES * size};
    uint32_t out[3];
    make_streams(1, size);
    memcpy(copy, area, sizeof copy);
    model_router_run(&model_router, copied, table, MOST_ROUNDS);
    neftolek_router_run(router, area, NEFTOLEK_ROUTER_STORES * size, table, MOST_ROUNDS, out);
}

static void measure_run(const char *what, struct bars bars, unsigned streams, unsigned size)
{
    make_streams(streams, size);
    measure(what, bars, SIDES(run));
}

static const struct bars none = {0, 0};

/* The same three rounds against a model that keeps sets through the run. */
static void against_sets(void)
{
    static const struct sides idle = {idle_ours, idle_sets_tested, idle_sets_untested};
    static const struct sides streams = {run_ours, sets_tested, sets_untested};
    make_streams(0, 64);
    measure("idle: a run of one round", none, idle);
    make_streams(1, 64);
    measure("one stream, a round", none, streams);
    make_streams(MODEL_PORTS, 64);
    measure("eleven streams, a round", none, streams);
}

static void by_busy_ports(void)
{
    for (unsigned streams = 1; streams <= MODEL_PORTS; streams += 2) {
        char name[] = "00 busy ports";
        name[0] = (char)('0' + streams / 10);
        name[1] = (char)('0' + streams % 10);
        measure_run(name, none, streams, 64);
    }
}

static void by_places(unsigned streams)
{
    measure_run("9 places", none, streams, 9);
    measure_run("32 places", none, streams, 32);
    measure_run("128 places", none, streams, 128);
    measure_run("1,024 places", none, streams, 1024);
}

void measure_router(void)
{
    static const struct bars ports = {1.3, 0}, rounds = {0, 1.5};
    heading("the router");
    make_streams(0, 64);
    measure("put", ports, SIDES(put));
    fill_output(64);
    measure("take", ports, SIDES(take));
    make_streams(0, 64);
    measure("idle: a run of one round", rounds, SIDES(idle));
    measure_run("one stream, a round", rounds, 1, 64);
    measure_run("eleven streams, a round", rounds, MODEL_PORTS, 64);
    heading("the model keeping sets in a run");
    against_sets();
    heading("a round, by busy ports, 64 places");
    by_busy_ports();
    heading("a round, by places, one stream");
    by_places(1);
    heading("a round, by places, 11 streams");
    by_places(MODEL_PORTS);
}
