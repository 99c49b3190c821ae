/* Stores and the link end (document 01). */
#include "model.h"
#include "store.h"
#include "token.h"

enum event { QUIET, FAULT, FCT, NCHAR, TIMECODE, CREDIT_ERROR };

static const uint8_t limit[6] = {64, 128, 1, 128, 128, 1};

static bool enabled(const struct model_link *l)
{
    return !l->disabled && (l->start || (l->autostart && l->got_null));
}

/* The table of moves: the first that fits. */
static enum model_state next_state(const struct model_link *l, enum event e)
{
    bool four = e == FAULT || e == FCT || e == NCHAR || e == TIMECODE;
    switch (l->state) {
    case ERROR_RESET:
        return l->timer >= 64 ? ERROR_WAIT : ERROR_RESET;
    case ERROR_WAIT:
        return four ? ERROR_RESET : l->timer >= 128 ? READY : ERROR_WAIT;
    case READY:
        return four ? ERROR_RESET : enabled(l) ? STARTED : READY;
    case STARTED:
        if (four)
            return ERROR_RESET;
        if (l->got_null && l->null_sent)
            return CONNECTING;
        return l->timer >= 128 ? ERROR_RESET : STARTED;
    case CONNECTING:
        if (e == FAULT || e == NCHAR || e == TIMECODE)
            return ERROR_RESET;
        if (e == FCT)
            return RUN;
        return l->timer >= 128 ? ERROR_RESET : CONNECTING;
    default:
        return e == FAULT || e == CREDIT_ERROR || l->disabled ? ERROR_RESET : RUN;
    }
}

static void clear(struct model_link *l)
{
    l->state = ERROR_RESET;
    l->timer = 0;
    l->held = l->given = 0;
    l->got_null = l->null_sent = false;
    l->offered = false;
    l->code = 0;
}

/* "The transmit store is discarded from the front through the first end; if none is there, later puts are accepted
 * and discarded through the first end." */
static uint32_t discard_packet(struct model_link *l, struct model_places tx)
{
    uint32_t count = 0;
    while (l->tx.length > 0) {
        count++;
        if (store_take(&l->tx, tx) >= MODEL_EOP)
            return count;
    }
    l->discarding = true;
    return count;
}

/* Going to ErrorReset by a move. */
static uint32_t go_down(struct model_link *l, struct model_places rx, struct model_places tx)
{
    uint32_t discarded = 0;
    clear(l);
    if (l->stored_data)
        store_put(&l->rx, rx, MODEL_EEP);
    l->stored_data = false;
    if (l->sent_data)
        discarded = discard_packet(l, tx);
    l->sent_data = false;
    return discarded;
}

static uint32_t settle(struct model_link *l, struct model_places rx, struct model_places tx, enum event e)
{
    enum model_state next = next_state(l, e);
    if (next == l->state)
        return 0;
    if (next == ERROR_RESET)
        return go_down(l, rx, tx);
    l->state = (uint8_t)next;
    l->timer = 0;
    return 0;
}

uint32_t model_link_tick(struct model_link *l, struct model_places rx, struct model_places tx)
{
    if (l->state != READY && l->state != RUN)
        l->timer++;
    return settle(l, rx, tx, QUIET);
}

uint32_t model_link_fault(struct model_link *l, struct model_places rx, struct model_places tx, enum model_kind fault)
{
    bool ignored = l->state == ERROR_RESET || (!l->got_null && fault != DISCONNECT);
    return settle(l, rx, tx, ignored ? QUIET : FAULT);
}

uint32_t model_link_control(struct model_link *l, struct model_places rx, struct model_places tx, bool disabled,
                            bool start, bool autostart)
{
    l->disabled = disabled;
    l->start = start;
    l->autostart = autostart;
    return settle(l, rx, tx, QUIET);
}

/* Reset. */
uint32_t model_link_reset(struct model_link *l, struct model_places rx)
{
    uint32_t discarded = l->tx.length;
    clear(l);
    l->rx.front = l->rx.length = 0;
    l->tx.front = l->tx.length = 0;
    if (l->taken_data)
        store_put(&l->rx, rx, MODEL_EEP);
    l->discarding = l->put_data;
    l->stored_data = l->sent_data = false;
    return discarded;
}

static enum event got_fct(struct model_link *l)
{
    if (l->state != CONNECTING && l->state != RUN)
        return FCT;
    if (l->held + 8 > 56)
        return CREDIT_ERROR;
    l->held += 8;
    return FCT;
}

static enum event got_nchar(struct model_link *l, struct model_places rx, uint16_t n)
{
    if (l->state != RUN)
        return NCHAR;
    if (l->given == 0)
        return CREDIT_ERROR;
    l->given--;
    store_put(&l->rx, rx, n);
    l->stored_data = n < MODEL_EOP;
    return NCHAR;
}

/* "A Time-Code in Run whose low six bits are the count plus 1, modulo 64, sets the count and gives a tick out; any
 * other is dropped." */
static void got_timecode(const struct model_link *l, struct model_time *time, unsigned code)
{
    if (l->state != RUN)
        return;
    time->ticked = code % 64 == (time->count + 1u) % 64;
    if (time->ticked)
        time->count = code % 64;
}

struct model_receipt model_link_receive(struct model_link *l, struct model_places rx, struct model_places tx,
                                        struct model_time *time, struct model_token t)
{
    struct model_receipt receipt = {0, false};
    bool ignored = l->state == ERROR_RESET || (!l->got_null && t.kind != GOT_NULL);
    enum event e = QUIET;
    if (!ignored) {
        switch (t.kind) {
        case GOT_NULL:
            l->got_null = true;
            break;
        case GOT_FCT:
            e = got_fct(l);
            break;
        case GOT_NCHAR:
            e = got_nchar(l, rx, t.value);
            break;
        default:
            e = TIMECODE;
            got_timecode(l, time, t.value);
            receipt.tick = l->state == RUN && time->ticked;
        }
    }
    receipt.discarded = settle(l, rx, tx, e);
    return receipt;
}

/* "An FCT may be sent when given out is at most 48 and free places are at least given out + 9." */
static bool may_grant(const struct model_link *l, uint32_t size)
{
    return l->given <= 48 && size - l->rx.length >= l->given + 9u;
}

/* Send. */
static struct model_token choose(struct model_link *l, uint32_t rx_size, struct model_places tx)
{
    struct model_token t = {NOTHING, 0};
    if (l->state < STARTED)
        return t;
    if (l->state == RUN && l->offered) {
        t.kind = GOT_TIMECODE;
        t.value = l->code;
        l->offered = false;
        l->code = 0;
    } else if (l->state != STARTED && may_grant(l, rx_size)) {
        t.kind = GOT_FCT;
        l->given += 8;
    } else if (l->state == RUN && l->held > 0 && l->tx.length > 0) {
        t.kind = GOT_NCHAR;
        t.value = store_take(&l->tx, tx);
        l->held--;
        l->sent_data = t.value < MODEL_EOP;
    } else {
        t.kind = GOT_NULL;
        l->null_sent = true;
    }
    return t;
}

struct model_dispatch model_link_send(struct model_link *l, struct model_places rx, struct model_places tx)
{
    struct model_dispatch out;
    out.sent = choose(l, rx.size, tx);
    out.discarded = settle(l, rx, tx, QUIET);
    return out;
}

uint32_t model_link_put(struct model_link *l, struct model_places tx, uint16_t n)
{
    bool discarded = l->discarding;
    l->put_data = n < MODEL_EOP;
    if (discarded)
        l->discarding = l->put_data;
    else
        store_put(&l->tx, tx, n);
    return discarded;
}

uint16_t model_link_take(struct model_link *l, struct model_places rx)
{
    uint16_t n = store_take(&l->rx, rx);
    l->taken_data = n < MODEL_EOP;
    return n;
}

void model_link_offer(struct model_link *l, uint8_t code)
{
    l->offered = true;
    l->code = code;
}

/* The tests: STATE where it needs no size, STORE, STATE where it needs one, the rest in order. */

static bool bad_record(const struct model_link *l)
{
    bool linked = l->state == CONNECTING || l->state == RUN;
    return l->state > RUN || l->timer >= limit[l->state] || l->held > 56 || l->given > 56 ||
           (l->held > 0 && l->state != RUN) || (l->given > 0 && !linked);
}

static bool bad_receive_store(const struct model_link *l, uint32_t size)
{
    bool needs_room = l->given > 0 || l->stored_data;
    return store_bad(&l->rx, size) || (needs_room && size - l->rx.length < l->given + 1u);
}

static bool bad_receive_size(uint32_t size) { return size < 9 || size > 4096; }

static bool bad_transmit_size(uint32_t size) { return size < 1 || size > 4096; }

static unsigned stores_refusal(const struct model_link *l, struct model_places rx, struct model_places tx)
{
    if (bad_receive_size(rx.size) || bad_transmit_size(tx.size))
        return MODEL_STORE;
    return bad_receive_store(l, rx.size) || store_bad(&l->tx, tx.size) ? MODEL_STATE : 0;
}

static unsigned lent_refusal(const struct model_link *l, struct model_places rx, struct model_places tx)
{
    return bad_record(l) ? MODEL_STATE : stores_refusal(l, rx, tx);
}

unsigned tested_link_tick(struct model_link *l, struct model_places rx, struct model_places tx, uint32_t *discarded)
{
    unsigned refusal = lent_refusal(l, rx, tx);
    *discarded = refusal ? 0 : model_link_tick(l, rx, tx);
    return refusal;
}

unsigned tested_link_fault(struct model_link *l, struct model_places rx, struct model_places tx, uint32_t fault,
                           uint32_t *discarded)
{
    unsigned refusal = lent_refusal(l, rx, tx);
    if (refusal == 0 && (fault < PARITY_ERROR || fault > DISCONNECT))
        refusal = MODEL_CHAR;
    *discarded = refusal ? 0 : model_link_fault(l, rx, tx, (enum model_kind)fault);
    return refusal;
}

unsigned tested_link_control(struct model_link *l, struct model_places rx, struct model_places tx, bool disabled,
                             bool start, bool autostart, uint32_t *discarded)
{
    unsigned refusal = lent_refusal(l, rx, tx);
    *discarded = refusal ? 0 : model_link_control(l, rx, tx, disabled, start, autostart);
    return refusal;
}

unsigned tested_link_reset(struct model_link *l, struct model_places rx, struct model_places tx, uint32_t *discarded)
{
    unsigned refusal = lent_refusal(l, rx, tx);
    *discarded = refusal ? 0 : model_link_reset(l, rx);
    return refusal;
}

static unsigned receive_refusal(const struct model_link *l, struct model_places rx, struct model_places tx,
                                const struct model_time *time, struct model_token t)
{
    unsigned refusal = time->count > 63 ? MODEL_STATE : lent_refusal(l, rx, tx);
    return refusal ? refusal : token_bad(t) ? MODEL_CHAR : 0;
}

unsigned tested_link_receive(struct model_link *l, struct model_places rx, struct model_places tx,
                             struct model_time *time, struct model_token t, struct model_receipt *receipt)
{
    static const struct model_receipt none;
    unsigned refusal = receive_refusal(l, rx, tx, time, t);
    *receipt = refusal ? none : model_link_receive(l, rx, tx, time, t);
    return refusal;
}

unsigned tested_link_send(struct model_link *l, struct model_places rx, struct model_places tx,
                          struct model_dispatch *dispatch)
{
    static const struct model_dispatch none;
    unsigned refusal = lent_refusal(l, rx, tx);
    *dispatch = refusal ? none : model_link_send(l, rx, tx);
    return refusal;
}

static unsigned put_refusal(const struct model_link *l, uint32_t size, uint32_t n)
{
    if (bad_record(l))
        return MODEL_STATE;
    if (bad_transmit_size(size))
        return MODEL_STORE;
    if (store_bad(&l->tx, size))
        return MODEL_STATE;
    if (n > MODEL_EEP)
        return MODEL_CHAR;
    return !l->discarding && l->tx.length == size ? MODEL_FULL : 0;
}

unsigned tested_link_put(struct model_link *l, struct model_places tx, uint32_t n, uint32_t *discarded)
{
    unsigned refusal = put_refusal(l, tx.size, n);
    *discarded = refusal ? 0 : model_link_put(l, tx, (uint16_t)n);
    return refusal;
}

static unsigned take_refusal(const struct model_link *l, uint32_t size)
{
    if (bad_record(l))
        return MODEL_STATE;
    if (bad_receive_size(size))
        return MODEL_STORE;
    if (bad_receive_store(l, size))
        return MODEL_STATE;
    return l->rx.length == 0 ? MODEL_EMPTY : 0;
}

unsigned tested_link_take(struct model_link *l, struct model_places rx, uint16_t *n)
{
    unsigned refusal = take_refusal(l, rx.size);
    *n = refusal ? 0 : model_link_take(l, rx);
    return refusal;
}

unsigned tested_link_offer(struct model_link *l, uint8_t code)
{
    if (bad_record(l))
        return MODEL_STATE;
    if (l->state != RUN)
        return MODEL_NOTRUN;
    model_link_offer(l, code);
    return 0;
}
