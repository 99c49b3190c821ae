/* Link ends: BURST calls on an end in Run, again and again. */
#include "bench.h"

#include <string.h>

enum { LINK_PLACES = 1024, BURST = 56, BURSTS = 20 };

static uint16_t rx[LINK_PLACES], tx[LINK_PLACES];
static const struct model_places rx_places = {rx, LINK_PLACES}, tx_places = {tx, LINK_PLACES};

/* In Run, credit held and given out 56, half of each store waiting. */
static const uint32_t running[NEFTOLEK_LINK_WORDS] = {5, 0, 1, 1, 0, 1, 0, 56,  56,  1,   1,   1,
                                                      1, 0, 0, 0, 900, 512, 900, 512};
static const struct model_link model_running = {
    RUN, 0, true, true, false, true, false, 56, 56, true, true, true, true, false, false, 0, {900, 512}, {900, 512}};

/* A side: bursts of a call, with the k-th call and what is added of its answer to `total`. */
#define BURSTS_OF(name, state_type, first, call, answer)                                                               \
    static unsigned name(void)                                                                                         \
    {                                                                                                                  \
        state_type;                                                                                                    \
        unsigned long total = 0;                                                                                       \
        for (unsigned burst = 0; burst < BURSTS; burst++) {                                                            \
            memcpy(&state, &first, sizeof state);                                                                      \
            for (unsigned k = 0; k < BURST; k++) {                                                                     \
                call;                                                                                                  \
                answer;                                                                                                \
            }                                                                                                          \
        }                                                                                                              \
        sum += total;                                                                                                  \
        return BURSTS * BURST;                                                                                         \
    }

#define OURS(name, words, call, answer)                                                                                \
    BURSTS_OF(name##_ours, uint32_t state[NEFTOLEK_LINK_WORDS]; uint32_t out[words], running,                          \
              if (call != 0) continue, answer)
#define TESTED(name, type, call, answer)                                                                               \
    BURSTS_OF(name##_tested, struct model_link state; type out, model_running, if (call != 0) continue, answer)
#define UNTESTED(name, type, call, answer)                                                                             \
    BURSTS_OF(name##_untested, struct model_link state; type out, model_running, out = call, answer)

/* A program looks at the kind first. */
#define OF_DISPATCH total += out.discarded + (out.sent.kind == NOTHING ? 0u : out.sent.value)
#define OF_RECEIPT total += out.discarded + (out.tick ? 1u : 0u)

static struct model_token nchar(unsigned value)
{
    struct model_token t = {GOT_NCHAR, (uint16_t)value};
    return t;
}

static const struct model_token null_token = {GOT_NULL, 0};

static uint32_t our_time[NEFTOLEK_TIME_WORDS];
static struct model_time model_time;

OURS(tick, 1, neftolek_link_tick(state, rx, LINK_PLACES, tx, LINK_PLACES, out), total += out[0])
TESTED(tick, uint32_t, tested_link_tick(&state, rx_places, tx_places, &out), total += out)
UNTESTED(tick, uint32_t, model_link_tick(&state, rx_places, tx_places), total += out)

OURS(send, 3, neftolek_link_send(state, rx, LINK_PLACES, tx, LINK_PLACES, out),
     total += out[0] + (out[1] == NEFTOLEK_NOTHING ? 0u : out[2]))
TESTED(send, struct model_dispatch, tested_link_send(&state, rx_places, tx_places, &out), OF_DISPATCH)
UNTESTED(send, struct model_dispatch, model_link_send(&state, rx_places, tx_places), OF_DISPATCH)

OURS(receive, 2, neftolek_link_receive(state, rx, LINK_PLACES, tx, LINK_PLACES, our_time, NEFTOLEK_NCHAR, k, out),
     total += out[0] + (out[1] ? 1u : 0u))
TESTED(receive, struct model_receipt,
       tested_link_receive(&state, rx_places, tx_places, &model_time, nchar(k), &out), OF_RECEIPT)
UNTESTED(receive, struct model_receipt,
         model_link_receive(&state, rx_places, tx_places, &model_time, nchar(k)), OF_RECEIPT)

OURS(receive_null, 2, neftolek_link_receive(state, rx, LINK_PLACES, tx, LINK_PLACES, our_time, NEFTOLEK_NULL, 0, out),
     total += out[0] + (out[1] ? 1u : 0u))
TESTED(receive_null, struct model_receipt,
       tested_link_receive(&state, rx_places, tx_places, &model_time, null_token, &out), OF_RECEIPT)
UNTESTED(receive_null, struct model_receipt,
         model_link_receive(&state, rx_places, tx_places, &model_time, null_token), OF_RECEIPT)

OURS(put, 1, neftolek_link_put(state, tx, LINK_PLACES, k, out), total += out[0])
TESTED(put, uint32_t, tested_link_put(&state, tx_places, k, &out), total += out)
UNTESTED(put, uint32_t, model_link_put(&state, tx_places, (uint16_t)k), total += out)

OURS(take, 2, neftolek_link_take(state, rx, LINK_PLACES, out), total += out[1])
TESTED(take, uint16_t, tested_link_take(&state, rx_places, &out), total += out)
UNTESTED(take, uint16_t, model_link_take(&state, rx_places), total += out)

OURS(control, 1, neftolek_link_control(state, rx, LINK_PLACES, tx, LINK_PLACES, 0, 1, k % 2, out), total += out[0])
TESTED(control, uint32_t, tested_link_control(&state, rx_places, tx_places, false, true, k % 2, &out), total += out)
UNTESTED(control, uint32_t, model_link_control(&state, rx_places, tx_places, false, true, k % 2), total += out)

/* From fresh with LinkStart on, through the timers of four states. */
enum { TICKS = 1000 };

static unsigned timers_ours(void)
{
    uint32_t state[NEFTOLEK_LINK_WORDS], out[1];
    unsigned long total = 0;
    neftolek_link_fresh(state);
    neftolek_link_control(state, rx, LINK_PLACES, tx, LINK_PLACES, 0, 1, 0, out);
    for (unsigned k = 0; k < TICKS; k++) {
        if (neftolek_link_tick(state, rx, LINK_PLACES, tx, LINK_PLACES, out) != 0)
            continue;
        total += state[0] + out[0];
    }
    sum += total;
    return TICKS;
}

static unsigned timers_tested(void)
{
    struct model_link state;
    uint32_t out;
    unsigned long total = 0;
    memset(&state, 0, sizeof state);
    tested_link_control(&state, rx_places, tx_places, false, true, false, &out);
    for (unsigned k = 0; k < TICKS; k++) {
        if (tested_link_tick(&state, rx_places, tx_places, &out) != 0)
            continue;
        total += state.state + out;
    }
    sum += total;
    return TICKS;
}

static unsigned timers_untested(void)
{
    struct model_link state;
    unsigned long total = 0;
    memset(&state, 0, sizeof state);
    model_link_control(&state, rx_places, tx_places, false, true, false);
    for (unsigned k = 0; k < TICKS; k++) {
        uint32_t out = model_link_tick(&state, rx_places, tx_places);
        total += state.state + out;
    }
    sum += total;
    return TICKS;
}

void measure_link(void)
{
    static const struct bars bars = {1.6, 0};
    for (unsigned k = 0; k < LINK_PLACES; k++)
        rx[k] = tx[k] = k % 32 == 31 ? MODEL_EOP : (uint16_t)(k % 256);
    heading("a link end");
    measure("tick, in Run", bars, SIDES(tick));
    measure("tick, through the timers", bars, SIDES(timers));
    measure("receive an N-Char", bars, SIDES(receive));
    measure("receive a NULL", bars, SIDES(receive_null));
    measure("send an N-Char", bars, SIDES(send));
    measure("put", bars, SIDES(put));
    measure("take", bars, SIDES(take));
    measure("control", bars, SIDES(control));
}
