/* Characters on the wire (document 01). */
#include "model.h"
#include "token.h"

/* Control bodies, the first sent bit least significant: 00 FCT, 01 EOP, 10 EEP, 11 ESC in sending order. */
enum { BODY_FCT = 0, BODY_EEP = 1, BODY_EOP = 2, BODY_ESC = 3 };

static bool odd_ones(unsigned body)
{
    body ^= body >> 4;
    body ^= body >> 2;
    body ^= body >> 1;
    return body & 1;
}

/* "P makes the ones in the previous character's body, P and the flag together odd." */
static void character(struct model_encoder *e, struct model_bits *out, unsigned flag, unsigned body)
{
    unsigned parity = 1u ^ e->odd ^ flag;
    out->bits |= (parity | flag << 1 | body << 2) << out->count;
    out->count += flag ? 4 : 10;
    e->odd = odd_ones(body);
}

struct model_bits model_encode(struct model_encoder *e, struct model_token t)
{
    struct model_bits out = {0, 0};
    switch (t.kind) {
    case GOT_NULL:
        character(e, &out, 1, BODY_ESC);
        character(e, &out, 1, BODY_FCT);
        break;
    case GOT_FCT:
        character(e, &out, 1, BODY_FCT);
        break;
    case GOT_NCHAR:
        if (t.value < 256)
            character(e, &out, 0, t.value);
        else
            character(e, &out, 1, t.value == MODEL_EOP ? BODY_EOP : BODY_EEP);
        break;
    case GOT_TIMECODE:
        character(e, &out, 1, BODY_ESC);
        character(e, &out, 0, t.value);
        break;
    }
    return out;
}

static struct model_token token(unsigned kind, unsigned value)
{
    struct model_token t;
    t.kind = (uint16_t)kind;
    t.value = (uint16_t)value;
    return t;
}

static struct model_token stop(struct model_decoder *d, unsigned report)
{
    d->phase = STOPPED;
    return token(report, 0);
}

/* "From fresh it hunts for the eight bits 01110100; on the last it reports NULL, at once." */
static struct model_token hunt(struct model_decoder *d, bool bit)
{
    d->window = (uint8_t)(d->window << 1 | bit);
    d->phase = HUNTING;
    if (d->window != 0x74)
        return token(NOTHING, 0);
    d->phase = AT_PARITY;
    d->escape = 0;
    d->odd = 0;
    d->waiting = token(NOTHING, 0);
    return token(GOT_NULL, 0);
}

/* "Parity is checked when a flag arrives. A character is reported only when the next flag has closed its parity." */
static struct model_token flag(struct model_decoder *d, bool bit)
{
    struct model_token closed = d->waiting;
    if (!(d->odd ^ d->parity ^ bit))
        return stop(d, PARITY_ERROR);
    d->phase = bit ? IN_CONTROL : IN_DATA;
    d->count = 0;
    d->body = 0;
    d->waiting = token(NOTHING, 0);
    return closed;
}

static void end_character(struct model_decoder *d, bool escape, struct model_token waiting)
{
    d->phase = AT_PARITY;
    d->odd = odd_ones(d->body);
    d->escape = escape;
    d->waiting = waiting;
}

static struct model_token control(struct model_decoder *d)
{
    static const struct model_token plain[4] = {
        {GOT_FCT, 0}, {GOT_NCHAR, MODEL_EEP}, {GOT_NCHAR, MODEL_EOP}, {NOTHING, 0}};
    if (!d->escape)
        end_character(d, d->body == BODY_ESC, plain[d->body]);
    else if (d->body == BODY_FCT)
        end_character(d, false, token(GOT_NULL, 0));
    else
        return stop(d, ESCAPE_ERROR);
    return token(NOTHING, 0);
}

struct model_token model_decoder_bit(struct model_decoder *d, bool bit)
{
    d->ticks = 0;
    switch (d->phase) {
    case FRESH:
        d->window = 0xff; /* the eight bits begin with 0, so no place before the first bit is taken for one of them */
        return hunt(d, bit);
    case HUNTING:
        return hunt(d, bit);
    case AT_PARITY:
        d->parity = bit;
        d->phase = AT_FLAG;
        break;
    case AT_FLAG:
        return flag(d, bit);
    case IN_DATA:
        d->body |= (uint8_t)(bit << d->count);
        if (++d->count == 8)
            end_character(d, false, token(d->escape ? GOT_TIMECODE : GOT_NCHAR, d->body));
        break;
    case IN_CONTROL:
        d->body |= (uint8_t)(bit << d->count);
        if (++d->count == 2)
            return control(d);
        break;
    }
    return token(NOTHING, 0);
}

/* "Nine ticks in a row without a bit, after at least one bit: disconnect." */
struct model_token model_decoder_tick(struct model_decoder *d)
{
    if (d->phase == FRESH || ++d->ticks < 9)
        return token(NOTHING, 0);
    return stop(d, DISCONNECT);
}

/* The tests. A bool has no values but its own. */

unsigned tested_encode(struct model_encoder *e, struct model_token t, struct model_bits *bits)
{
    static const struct model_bits none;
    if (token_bad(t)) {
        *bits = none;
        return MODEL_CHAR;
    }
    *bits = model_encode(e, t);
    return 0;
}

/* "A decoder or encoder field outside the values its rules give it": only what the phase uses is looked at. */
static bool bad_decoder(const struct model_decoder *d)
{
    switch (d->phase) {
    case FRESH:
    case STOPPED:
        return false;
    case HUNTING:
        return d->ticks > 8 || d->window == 0x74;
    case AT_PARITY:
    case AT_FLAG:
        return d->ticks > 8 || value_bad(d->waiting);
    case IN_DATA:
        return d->ticks > 8 || d->count > 7 || d->body >> d->count;
    case IN_CONTROL:
        return d->ticks > 8 || d->count > 1 || d->body >> d->count;
    }
    return true;
}

static unsigned decoder_refusal(const struct model_decoder *d)
{
    if (bad_decoder(d))
        return MODEL_STATE;
    return d->phase == STOPPED ? MODEL_STOPPED : 0;
}

unsigned tested_decoder_bit(struct model_decoder *d, bool bit, struct model_token *report)
{
    unsigned refusal = decoder_refusal(d);
    *report = refusal ? token(NOTHING, 0) : model_decoder_bit(d, bit);
    return refusal;
}

unsigned tested_decoder_tick(struct model_decoder *d, struct model_token *report)
{
    unsigned refusal = decoder_refusal(d);
    *report = refusal ? token(NOTHING, 0) : model_decoder_tick(d);
    return refusal;
}
