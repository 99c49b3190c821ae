/* The link end: random calls on one end from fresh, from a random good record or from any words, at random sizes. */
#include "differential.h"

#include <string.h>

enum call { TICK, RECEIVE, FAULT, CONTROL, SEND, RESET, PUT, TAKE, OFFER };

#define LENT (1 | 1 << MODEL_STATE | 1 << MODEL_STORE)

struct tally link_calls[9] = {
    {"link_tick", LENT, {0}},
    {"link_receive", LENT | 1 << MODEL_CHAR, {0}},
    {"link_fault", LENT | 1 << MODEL_CHAR, {0}},
    {"link_control", LENT, {0}},
    {"link_send", LENT, {0}},
    {"link_reset", LENT, {0}},
    {"link_put", LENT | 1 << MODEL_CHAR | 1 << MODEL_FULL, {0}},
    {"link_take", LENT | 1 << MODEL_EMPTY, {0}},
    {"link_offer", 1 | 1 << MODEL_STATE | 1 << MODEL_NOTRUN, {0}}};

/* Places past the end of what is lent are compared too. */
enum { BEYOND = 4, PLACES = NEFTOLEK_LINK_MOST + 1 + BEYOND };

/* One side's end: what it is lent, and what it answered. */
struct end {
    uint32_t state[NEFTOLEK_LINK_WORDS], time[NEFTOLEK_TIME_WORDS], out[3];
    uint16_t rx[PLACES], tx[PLACES];
};

/* What a call is handed beside the end. */
struct handed {
    uint32_t rx_len, tx_len, a, b, c;
};

static struct end ours, models;

static uint32_t call_ours(enum call call, struct end *e, struct handed h)
{
    switch (call) {
    case TICK:
        return neftolek_link_tick(e->state, e->rx, h.rx_len, e->tx, h.tx_len, e->out);
    case RECEIVE:
        return neftolek_link_receive(e->state, e->rx, h.rx_len, e->tx, h.tx_len, e->time, h.a, h.b, e->out);
    case FAULT:
        return neftolek_link_fault(e->state, e->rx, h.rx_len, e->tx, h.tx_len, h.a, e->out);
    case CONTROL:
        return neftolek_link_control(e->state, e->rx, h.rx_len, e->tx, h.tx_len, h.a, h.b, h.c, e->out);
    case SEND:
        return neftolek_link_send(e->state, e->rx, h.rx_len, e->tx, h.tx_len, e->out);
    case RESET:
        return neftolek_link_reset(e->state, e->rx, h.rx_len, e->tx, h.tx_len, e->out);
    case PUT:
        return neftolek_link_put(e->state, e->tx, h.tx_len, h.a, e->out);
    case TAKE:
        return neftolek_link_take(e->state, e->rx, h.rx_len, e->out);
    default:
        return neftolek_link_offer(e->state, (uint8_t)h.a, e->out);
    }
}

static uint32_t model_sends(struct end *e, struct model_link *l, struct model_places rx, struct model_places tx)
{
    struct model_dispatch d;
    uint32_t refusal = tested_link_send(l, rx, tx, &d);
    e->out[0] = d.discarded;
    e->out[1] = d.sent.kind;
    e->out[2] = d.sent.value;
    return refusal;
}

static uint32_t model_receives(struct end *e, struct model_link *l, struct model_places rx, struct model_places tx,
                               struct handed h)
{
    struct model_receipt r = {0, false};
    struct model_time time;
    uint32_t refusal = MODEL_STATE;
    if (time_of_words(e->time, &time))
        refusal = tested_link_receive(l, rx, tx, &time, token_of(h.a, h.b), &r);
    e->out[0] = r.discarded;
    e->out[1] = r.tick;
    if (refusal == 0) {
        e->time[0] = time.count;
        e->time[1] = time.ticked;
    }
    return refusal;
}

static uint32_t model_takes(struct end *e, struct model_link *l, struct model_places rx)
{
    uint16_t n;
    uint32_t refusal = tested_link_take(l, rx, &n);
    e->out[0] = 0;
    e->out[1] = n;
    return refusal;
}

static uint32_t call_tested(enum call call, struct end *e, struct model_link *l, struct handed h)
{
    struct model_places rx = {e->rx, h.rx_len}, tx = {e->tx, h.tx_len};
    switch (call) {
    case TICK:
        return tested_link_tick(l, rx, tx, e->out);
    case RECEIVE:
        return model_receives(e, l, rx, tx, h);
    case FAULT:
        return tested_link_fault(l, rx, tx, h.a, e->out);
    case CONTROL:
        return tested_link_control(l, rx, tx, h.a, h.b, h.c, e->out);
    case SEND:
        return model_sends(e, l, rx, tx);
    case RESET:
        return tested_link_reset(l, rx, tx, e->out);
    case PUT:
        return tested_link_put(l, tx, h.a, e->out);
    case TAKE:
        return model_takes(e, l, rx);
    default:
        e->out[0] = 0;
        return tested_link_offer(l, (uint8_t)h.a);
    }
}

/* Words that are no state are refused, whatever else there is. */
static uint32_t call_model(enum call call, struct end *e, struct handed h)
{
    static const unsigned out_words[] = {1, 2, 1, 1, 3, 1, 1, 2, 1};
    struct model_link l;
    uint32_t refusal = MODEL_STATE;
    memset(e->out, 0, out_words[call] * sizeof *e->out);
    if (link_of_words(e->state, &l))
        refusal = call_tested(call, e, &l, h);
    if (refusal == 0)
        words_of_link(&l, e->state);
    return refusal;
}

static uint32_t make(enum call call, struct handed h)
{
    struct tally *t = &link_calls[call];
    uint32_t refusal;
    ours.out[0] = ours.out[1] = ours.out[2] = models.out[0] = models.out[1] = models.out[2] = 77;
    refusal = call_ours(call, &ours, h);
    answered(t, refusal, call_model(call, &models, h));
    compare(t, "out", ours.out, models.out, sizeof ours.out);
    compare(t, "state", ours.state, models.state, sizeof ours.state);
    compare(t, "time", ours.time, models.time, sizeof ours.time);
    compare(t, "receive store", ours.rx, models.rx, (h.rx_len + BEYOND) * sizeof *ours.rx);
    compare(t, "transmit store", ours.tx, models.tx, (h.tx_len + BEYOND) * sizeof *ours.tx);
    return refusal;
}

/* Which call comes next: in Run mostly traffic, elsewhere mostly what leads to Run. */
static enum call any_call(void)
{
    static const uint8_t running[] = {SEND, SEND, SEND, RECEIVE, RECEIVE, RECEIVE, PUT, PUT, PUT, TAKE, TAKE, OFFER, TICK};
    static const uint8_t coming[] = {TICK, TICK, TICK, TICK, SEND, SEND, RECEIVE, RECEIVE, CONTROL, PUT, TAKE};
    if (one_in(40))
        return (enum call)below(9);
    return (enum call)(ours.state[STATE_WORD] == RUN ? running[below(sizeof running)] : coming[below(sizeof coming)]);
}

/* Numbers for a call: tokens as they would come in this state, and now and then any. */
static struct handed any_handed(enum call call, uint32_t rx_len, uint32_t tx_len)
{
    struct handed h = {rx_len, tx_len, 0, 0, 0};
    if (call == RECEIVE && one_in(30)) {
        h.a = any_word();
        h.b = any_word();
    } else if (call == RECEIVE) {
        h.a = ours.state[STATE_WORD] == RUN
                  ? 2 + below(3)
                  : ONE_OF(1, 1, 1, 1, ours.state[STATE_WORD] == CONNECTING ? 2 : 1, 1 + below(4));
        h.b = h.a == 3 ? any_nchar() : h.a == 4 ? (one_in(2) ? (ours.time[0] + 1) % 64 : below(256)) : 0;
        if (h.a == 3 && ours.state[GIVEN_WORD] == 0 && !one_in(10))
            h.a = 1, h.b = 0;
        if (h.a == 2 && ours.state[HELD_WORD] > 48 && !one_in(10))
            h.a = 1;
    } else if (call == CONTROL) {
        h.a = one_in(10) ? any_word() : 0;
        h.b = below(2);
        h.c = one_in(2) ? below(100) : 0;
    } else if (call == FAULT) {
        h.a = one_in(5) ? any_word() : 5 + below(3);
    } else {
        h.a = call == PUT ? any_nchar() : below(256);
    }
    return h;
}

static uint32_t any_rx_len(void)
{
    return one_in(4) ? 9 + below(4088) : ONE_OF(9, 9, 10, 16, 17, 18, 33, 56, 57, 64, 65, 100, 4095, 4096);
}

static uint32_t any_tx_len(void)
{
    return one_in(4) ? 1 + below(NEFTOLEK_LINK_MOST) : ONE_OF(1, 2, 3, 8, 9, 16, 57, 64, 4095, 4096);
}

/* A record that passes STATE at these sizes, though perhaps no calls lead to it. */
static void good_record(uint32_t *w, uint32_t rx_len, uint32_t tx_len)
{
    static const uint32_t limit[6] = {64, 128, 1, 128, 128, 1};
    uint32_t reserved;
    for (int k = GOT_NULL_WORD; k <= OFFERED_WORD; k++)
        w[k] = below(2);
    w[STATE_WORD] = one_in(2) ? RUN : below(6);
    w[TIMER_WORD] = one_in(2) ? limit[w[STATE_WORD]] - 1 : below(limit[w[STATE_WORD]]);
    w[DISABLED_WORD] = one_in(8);
    w[HELD_WORD] = w[STATE_WORD] == RUN ? below(57) : 0;
    w[GIVEN_WORD] = w[STATE_WORD] >= CONNECTING ? below(rx_len > 57 ? 57 : rx_len) : 0;
    w[CODE_WORD] = w[OFFERED_WORD] ? below(256) : 0;
    reserved = w[GIVEN_WORD] || w[STORED_WORD] ? w[GIVEN_WORD] + 1 : 0;
    w[RX_FRONT_WORD] = below(rx_len);
    w[RX_LENGTH_WORD] = one_in(3) ? rx_len - reserved : below(rx_len - reserved + 1);
    w[TX_FRONT_WORD] = below(tx_len);
    w[TX_LENGTH_WORD] = one_in(3) ? tx_len : below(tx_len + 1);
}

static void begin_end(uint32_t rx_len, uint32_t tx_len)
{
    neftolek_link_fresh(ours.state);
    neftolek_time_fresh(ours.time);
    if (one_in(2))
        good_record(ours.state, rx_len, tx_len);
    if (one_in(2))
        ours.time[0] = below(64);
    for (uint32_t k = 0; k < rx_len + BEYOND; k++)
        ours.rx[k] = (uint16_t)any_nchar();
    for (uint32_t k = 0; k < tx_len + BEYOND; k++)
        ours.tx[k] = (uint16_t)(one_in(3) ? any_nchar() : k % 256);
    models = ours;
}

/* Fronts and lengths at the edges of what the sizes allow. */
static void edge_stores(uint32_t rx_len, uint32_t tx_len)
{
    uint32_t *w = ours.state;
    w[RX_FRONT_WORD] = rx_len - below(2);
    w[RX_LENGTH_WORD] = rx_len + 1 - below(3);
    w[TX_FRONT_WORD] = tx_len - below(2);
    w[TX_LENGTH_WORD] = tx_len + 1 - below(3);
    if (one_in(2))
        w[RX_FRONT_WORD] = w[TX_FRONT_WORD] = 0;
    if (one_in(2))
        w[GIVEN_WORD] = 0;
}

/* A call on damaged words or with other sizes; the end is then as it was before, unless a call that tests all of it
 * accepted it. */
static void damaged_call(uint32_t rx_len, uint32_t tx_len)
{
    uint32_t state[NEFTOLEK_LINK_WORDS], time[NEFTOLEK_TIME_WORDS];
    enum call call = (enum call)below(9);
    struct handed h = any_handed(call, rx_len, tx_len);
    memcpy(state, ours.state, sizeof state);
    memcpy(time, ours.time, sizeof time);
    switch (below(5)) {
    case 0:
        h.rx_len = one_in(2) ? below(20) : ONE_OF(0, 8, 4097, below(4098));
        h.tx_len = one_in(2) ? tx_len : ONE_OF(0, 1, 4097, below(4098));
        break;
    case 1:
        spoil(ours.time, NEFTOLEK_TIME_WORDS);
        break;
    case 2:
        edge_stores(rx_len, tx_len);
        break;
    default:
        spoil(ours.state, NEFTOLEK_LINK_WORDS);
        if (one_in(2))
            spoil(ours.state, NEFTOLEK_LINK_WORDS);
    }
    memcpy(models.state, ours.state, sizeof state);
    memcpy(models.time, ours.time, sizeof time);
    if (make(call, h) == 0 && call == RECEIVE && h.rx_len == rx_len && h.tx_len == tx_len)
        return;
    memcpy(ours.state, state, sizeof state);
    memcpy(ours.time, time, sizeof time);
    memcpy(models.state, state, sizeof state);
    memcpy(models.time, time, sizeof time);
}

void link_episode(void)
{
    uint32_t rx_len = any_rx_len(), tx_len = any_tx_len();
    begin_end(rx_len, tx_len);
    for (int k = 0; k < 700; k++) {
        enum call call = any_call();
        make(call, any_handed(call, rx_len, tx_len));
        if (one_in(50))
            damaged_call(rx_len, tx_len);
    }
}
