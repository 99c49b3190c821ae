#include "words.h"

#include <string.h>

enum { WAITING_ESC = 5 };

static uint32_t reversed(uint32_t byte)
{
    uint32_t r = 0;
    for (int k = 0; k < 8; k++)
        r |= (byte >> k & 1) << (7 - k);
    return r;
}

/* The data bits so far at the top of eight places, and a mark below them. */
static uint32_t behind_mark(uint32_t body, unsigned count) { return (body << 1 | 1) << (7 - count) & 0xff; }

static void waiting_words(const struct model_decoder *d, uint32_t *words)
{
    words[2] = d->escape ? WAITING_ESC : d->waiting.kind;
    words[3] = d->waiting.value;
}

void words_of_decoder(const struct model_decoder *d, uint32_t words[NEFTOLEK_DECODER_WORDS])
{
    memset(words, 0, NEFTOLEK_DECODER_WORDS * sizeof *words);
    words[1] = d->ticks;
    switch (d->phase) {
    case FRESH:
    case STOPPED:
        words[0] = d->phase == FRESH ? 0 : 7;
        words[1] = 0;
        break;
    case HUNTING:
        words[0] = 1;
        words[6] = reversed(d->window);
        break;
    case AT_PARITY:
        words[0] = 2;
        waiting_words(d, words);
        break;
    case AT_FLAG:
        words[0] = 3;
        waiting_words(d, words);
        words[5] = d->parity;
        break;
    case IN_DATA:
        words[0] = 4;
        words[4] = d->escape;
        words[6] = behind_mark(d->body, d->count);
        break;
    case IN_CONTROL:
        words[0] = d->count == 0 ? 5 : 6;
        words[4] = d->escape;
        words[5] = d->body;
        break;
    }
}

static bool odd_ones(uint32_t n)
{
    bool odd = false;
    for (; n; n >>= 1)
        odd ^= n & 1;
    return odd;
}

/* Whether the ones in the body of the last character of what waits are odd in number. */
static bool body_odd(struct model_token waiting)
{
    if (waiting.kind == GOT_NCHAR)
        return waiting.value >= MODEL_EOP || odd_ones(waiting.value);
    return waiting.kind == GOT_TIMECODE && odd_ones(waiting.value);
}

static void load_waiting(const uint32_t *words, struct model_decoder *d)
{
    d->escape = words[2] == WAITING_ESC;
    d->waiting.kind = d->escape ? NOTHING : (uint16_t)words[2];
    d->waiting.value = (uint16_t)words[3];
    d->odd = body_odd(d->waiting);
}

static void load_data(uint32_t places, struct model_decoder *d)
{
    unsigned mark = 0;
    while (mark < 8 && !(places >> mark & 1))
        mark++;
    d->count = mark < 8 ? (uint8_t)(7 - mark) : 0; /* no mark: the words that are made again differ */
    d->body = (uint8_t)((places & 0xff) >> (mark + 1));
}

static bool is_token(struct model_token t)
{
    return t.kind <= GOT_TIMECODE && ((t.kind == GOT_TIMECODE && t.value <= 255) || t.kind == GOT_NCHAR || t.value == 0);
}

bool decoder_of_words(const uint32_t words[NEFTOLEK_DECODER_WORDS], struct model_decoder *d)
{
    static const uint8_t phases[8] = {FRESH, HUNTING, AT_PARITY, AT_FLAG, IN_DATA, IN_CONTROL, IN_CONTROL, STOPPED};
    uint32_t again[NEFTOLEK_DECODER_WORDS];
    memset(d, 0, sizeof *d);
    if (words[0] > 7)
        return false;
    d->phase = phases[words[0]];
    d->ticks = (uint8_t)words[1];
    d->window = (uint8_t)reversed(words[6]);
    d->parity = words[5] & 1;
    if (d->phase == AT_PARITY || d->phase == AT_FLAG)
        load_waiting(words, d);
    else
        d->escape = words[4] & 1;
    if (d->phase == IN_DATA)
        load_data(words[6], d);
    if (d->phase == IN_CONTROL) {
        d->count = words[0] == 6;
        d->body = d->count && words[5];
    }
    words_of_decoder(d, again);
    return is_token(d->waiting) && memcmp(words, again, sizeof again) == 0;
}

bool encoder_of_words(const uint32_t words[NEFTOLEK_ENCODER_WORDS], struct model_encoder *e)
{
    e->odd = words[0] == 1;
    return words[0] <= 1;
}

bool time_of_words(const uint32_t words[NEFTOLEK_TIME_WORDS], struct model_time *t)
{
    t->count = (uint8_t)words[0];
    t->ticked = words[1] == 1;
    return words[0] <= 255 && words[1] <= 1;
}

void words_of_link(const struct model_link *l, uint32_t words[NEFTOLEK_LINK_WORDS])
{
    const uint32_t made[NEFTOLEK_LINK_WORDS] = {
        l->state,      l->timer,     l->got_null,    l->null_sent,  l->disabled,   l->start,    l->autostart,
        l->held,       l->given,     l->stored_data, l->sent_data,  l->taken_data, l->put_data, l->discarding,
        l->offered,    l->code,      l->rx.front,    l->rx.length,  l->tx.front,   l->tx.length};
    memcpy(words, made, sizeof made);
}

bool link_of_words(const uint32_t words[NEFTOLEK_LINK_WORDS], struct model_link *l)
{
    uint32_t again[NEFTOLEK_LINK_WORDS];
    l->state = (uint8_t)words[STATE_WORD];
    l->timer = (uint8_t)words[TIMER_WORD];
    l->got_null = words[GOT_NULL_WORD];
    l->null_sent = words[NULL_SENT_WORD];
    l->disabled = words[DISABLED_WORD];
    l->start = words[START_WORD];
    l->autostart = words[AUTOSTART_WORD];
    l->held = (uint8_t)words[HELD_WORD];
    l->given = (uint8_t)words[GIVEN_WORD];
    l->stored_data = words[STORED_WORD];
    l->sent_data = words[SENT_WORD];
    l->taken_data = words[TAKEN_WORD];
    l->put_data = words[PUT_WORD];
    l->discarding = words[DISCARDING_WORD];
    l->offered = words[OFFERED_WORD];
    l->code = (uint8_t)words[CODE_WORD];
    l->rx.front = words[RX_FRONT_WORD];
    l->rx.length = words[RX_LENGTH_WORD];
    l->tx.front = words[TX_FRONT_WORD];
    l->tx.length = words[TX_LENGTH_WORD];
    words_of_link(l, again);
    return words[STATE_WORD] <= RUN && (l->offered || l->code == 0) && memcmp(words, again, sizeof again) == 0;
}

static void input_words(const struct model_input *in, uint32_t *words)
{
    words[0] = in->mode;
    words[1] = in->mode == WAITING ? in->ports : in->mode == ROUTED ? in->output : 0;
    words[2] = in->mode == WAITING && in->high;
}

static void output_words(const struct model_output *out, uint32_t *words)
{
    words[0] = out->owned;
    words[1] = out->owned ? out->owner : 0;
    words[2] = out->last;
}

static void store_words(const struct model_store *s, uint32_t *words)
{
    words[0] = s->front;
    words[1] = s->length;
}

void words_of_router(const struct model_router *r, uint32_t words[NEFTOLEK_ROUTER_WORDS])
{
    for (int p = 0; p < MODEL_PORTS; p++) {
        input_words(&r->inputs[p], words + INPUT_WORD(p));
        output_words(&r->outputs[p], words + OUTPUT_WORD(p));
        store_words(&r->in[p], words + IN_STORE_WORD(p));
        store_words(&r->out[p], words + OUT_STORE_WORD(p));
    }
}

bool router_of_words(const uint32_t words[NEFTOLEK_ROUTER_WORDS], struct model_router *r)
{
    uint32_t again[NEFTOLEK_ROUTER_WORDS];
    memset(r, 0, sizeof *r);
    for (int p = 0; p < MODEL_PORTS; p++) {
        const uint32_t *in = words + INPUT_WORD(p), *out = words + OUTPUT_WORD(p);
        if (in[0] > SPILLING)
            return false;
        r->inputs[p].mode = (uint8_t)in[0];
        r->inputs[p].ports = (uint16_t)in[1];
        r->inputs[p].output = in[1];
        r->inputs[p].high = in[2];
        r->outputs[p].owned = out[0];
        r->outputs[p].owner = out[1];
        r->outputs[p].last = out[2];
        memcpy(&r->in[p], words + IN_STORE_WORD(p), sizeof r->in[p]);
        memcpy(&r->out[p], words + OUT_STORE_WORD(p), sizeof r->out[p]);
    }
    words_of_router(r, again);
    return memcmp(words, again, sizeof again) == 0;
}
