/* A whole bench: eight ends in Run, joined by pairs, data flowing both ways, a bit each 100 ns on every line. Each
 * 100 ns every end decodes a bit, ticks its decoder and its link, receives what was reported, sends and encodes when
 * its line is out of bits; its host puts an N-Char for each that was sent and takes each that was received. A call is
 * 100 ns of line time: below 100 one core keeps up with eight links. */
#include "bench.h"

#include <stdio.h>
#include <string.h>

enum { LINKS = 8, PLACES = 64, STEPS = 1000, NO_BIT = 2 };

struct token {
    uint32_t kind, value;
};

/* What every side keeps of an end beside its state. */
#define AROUND                                                                                                         \
    uint32_t bits, bits_left, put, taken, refusals, wrong;                                                             \
    uint16_t rx[PLACES], tx[PLACES]

/* Ours */

static uint32_t our_time[NEFTOLEK_TIME_WORDS];

struct ours_end {
    uint32_t decoder[NEFTOLEK_DECODER_WORDS], encoder[NEFTOLEK_ENCODER_WORDS], link[NEFTOLEK_LINK_WORDS];
    AROUND;
};

#define LENT_OURS e->link, e->rx, PLACES, e->tx, PLACES

static uint32_t ours_state(const struct ours_end *e) { return e->link[0]; }

static void ours_start(struct ours_end *e)
{
    uint32_t out[1];
    neftolek_decoder_fresh(e->decoder);
    neftolek_encoder_fresh(e->encoder);
    neftolek_link_fresh(e->link);
    e->refusals += neftolek_link_control(LENT_OURS, 0, 1, 0, out);
}

static void ours_put(struct ours_end *e, unsigned n)
{
    uint32_t out[1];
    e->refusals += neftolek_link_put(e->link, e->tx, PLACES, n, out);
}

static unsigned ours_take(struct ours_end *e)
{
    uint32_t out[2];
    e->refusals += neftolek_link_take(e->link, e->rx, PLACES, out);
    return out[1];
}

static struct token ours_send(struct ours_end *e)
{
    uint32_t out[3];
    struct token t;
    e->refusals += neftolek_link_send(LENT_OURS, out);
    t.kind = out[1];
    t.value = out[2];
    return t;
}

static void ours_encodes(struct ours_end *e, struct token t)
{
    uint32_t out[2];
    e->refusals += neftolek_encode(e->encoder, t.kind, t.value, out);
    e->bits = out[0];
    e->bits_left = out[1];
}

static struct token ours_decode(struct ours_end *e, unsigned bit)
{
    uint32_t out[2];
    struct token t;
    e->refusals += neftolek_decoder_bit(e->decoder, bit, out);
    t.kind = out[0];
    t.value = out[1];
    return t;
}

static struct token ours_silence(struct ours_end *e)
{
    uint32_t out[2];
    struct token t;
    e->refusals += neftolek_decoder_tick(e->decoder, out);
    t.kind = out[0];
    t.value = out[1];
    return t;
}

static void ours_receive(struct ours_end *e, struct token t)
{
    uint32_t out[2];
    e->refusals += neftolek_link_receive(LENT_OURS, our_time, t.kind, t.value, out);
}

static void ours_tick(struct ours_end *e)
{
    uint32_t out[1];
    e->refusals += neftolek_link_tick(LENT_OURS, out);
}

#define SIDE(x) ours_##x
#include "whole_side.h"

/* The models */

static struct model_time model_time;

static struct token token_from(struct model_token t)
{
    struct token one;
    one.kind = t.kind;
    one.value = t.value;
    return one;
}

static struct model_token token_to(struct token t)
{
    struct model_token one;
    one.kind = (uint16_t)t.kind;
    one.value = (uint16_t)t.value;
    return one;
}

static struct model_places places_of(uint16_t *at)
{
    struct model_places p = {at, PLACES};
    return p;
}

#define LENT_MODEL &e->link, places_of(e->rx), places_of(e->tx)

struct tested_end {
    struct model_decoder decoder;
    struct model_encoder encoder;
    struct model_link link;
    AROUND;
};

static uint32_t tested_state(const struct tested_end *e) { return e->link.state; }

static void tested_start(struct tested_end *e)
{
    uint32_t discarded;
    e->refusals += tested_link_control(LENT_MODEL, false, true, false, &discarded);
}

static void tested_put(struct tested_end *e, unsigned n)
{
    uint32_t discarded;
    e->refusals += tested_link_put(&e->link, places_of(e->tx), n, &discarded);
}

static unsigned tested_take(struct tested_end *e)
{
    uint16_t n;
    e->refusals += tested_link_take(&e->link, places_of(e->rx), &n);
    return n;
}

static struct token tested_send(struct tested_end *e)
{
    struct model_dispatch d;
    e->refusals += tested_link_send(LENT_MODEL, &d);
    return token_from(d.sent);
}

static void tested_encodes(struct tested_end *e, struct token t)
{
    struct model_bits out;
    e->refusals += tested_encode(&e->encoder, token_to(t), &out);
    e->bits = out.bits;
    e->bits_left = out.count;
}

static struct token tested_decode(struct tested_end *e, unsigned bit)
{
    struct model_token t;
    e->refusals += tested_decoder_bit(&e->decoder, bit, &t);
    return token_from(t);
}

static struct token tested_silence(struct tested_end *e)
{
    struct model_token t;
    e->refusals += tested_decoder_tick(&e->decoder, &t);
    return token_from(t);
}

static void tested_receive(struct tested_end *e, struct token t)
{
    struct model_receipt r;
    e->refusals += tested_link_receive(LENT_MODEL, &model_time, token_to(t), &r);
}

static void tested_tick(struct tested_end *e)
{
    uint32_t discarded;
    e->refusals += tested_link_tick(LENT_MODEL, &discarded);
}

#define SIDE(x) tested_##x
#include "whole_side.h"

struct untested_end {
    struct model_decoder decoder;
    struct model_encoder encoder;
    struct model_link link;
    AROUND;
};

static uint32_t untested_state(const struct untested_end *e) { return e->link.state; }

static void untested_start(struct untested_end *e) { model_link_control(LENT_MODEL, false, true, false); }

static void untested_put(struct untested_end *e, unsigned n)
{
    model_link_put(&e->link, places_of(e->tx), (uint16_t)n);
}

static unsigned untested_take(struct untested_end *e) { return model_link_take(&e->link, places_of(e->rx)); }

static struct token untested_send(struct untested_end *e) { return token_from(model_link_send(LENT_MODEL).sent); }

static void untested_encodes(struct untested_end *e, struct token t)
{
    struct model_bits out = model_encode(&e->encoder, token_to(t));
    e->bits = out.bits;
    e->bits_left = out.count;
}

static struct token untested_decode(struct untested_end *e, unsigned bit)
{
    return token_from(model_decoder_bit(&e->decoder, bit));
}

static struct token untested_silence(struct untested_end *e) { return token_from(model_decoder_tick(&e->decoder)); }

static void untested_receive(struct untested_end *e, struct token t)
{
    model_link_receive(LENT_MODEL, &model_time, token_to(t));
}

static void untested_tick(struct untested_end *e) { model_link_tick(LENT_MODEL); }

#define SIDE(x) untested_##x
#include "whole_side.h"

static const char *keeps_up(double nanoseconds) { return nanoseconds < 100 ? "keeps up" : "does not keep up"; }

void measure_whole(void)
{
    static const struct bars none = {0, 0};
    static const struct sides sides = {ours_whole, tested_whole, untested_whole};
    struct times times;
    if (pass == 0) {
        ours_join();
        tested_join();
        untested_join();
    }
    heading("a whole bench");
    times = measure("eight links, 100 ns of line time", none, sides);
    if (!last_pass())
        return;
    printf("one core, eight links, a bit each 100 ns: ours %s, the tested model %s, the untested model %s\n",
           keeps_up(times.ours), keeps_up(times.tested), keeps_up(times.untested));
}
