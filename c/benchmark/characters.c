/* Decoder and encoder: a bit or a token a call. */
#include "bench.h"

#include <string.h>

enum { TOKENS = 2000, NOISE = 20000 };

static struct model_token tokens[TOKENS];
static uint8_t bits[TOKENS * 14];
static unsigned bit_count;

static uint32_t random_state;

static uint32_t next_random(void)
{
    random_state = random_state * 1664525 + 1013904223;
    return random_state;
}

static struct model_token token(unsigned kind, unsigned value)
{
    struct model_token t;
    t.kind = (uint16_t)kind;
    t.value = (uint16_t)value;
    return t;
}

/* Traffic as it comes: packets of data, FCTs, NULLs, now and then a Time-Code. */
static struct model_token mixed(void)
{
    uint32_t random = next_random();
    switch (random >> 28) {
    case 0:
    case 1:
        return token(GOT_NULL, 0);
    case 2:
    case 3:
        return token(GOT_FCT, 0);
    case 4:
        return token(GOT_TIMECODE, random >> 12 & 255);
    default:
        return token(GOT_NCHAR, (random >> 20) % 258);
    }
}

static struct model_token data(void) { return token(GOT_NCHAR, next_random() >> 24); }

static struct model_token null(void) { return token(GOT_NULL, 0); }

/* A NULL and then tokens of a kind, and their bits. */
static void make_tokens(struct model_token next(void))
{
    struct model_encoder e = {false};
    random_state = 1;
    bit_count = 0;
    for (unsigned k = 0; k < TOKENS; k++) {
        struct model_bits out;
        tokens[k] = k == 0 ? null() : next();
        for (out = model_encode(&e, tokens[k]); out.count > 0; out.count--, out.bits >>= 1)
            bits[bit_count++] = out.bits & 1;
    }
}

static void make_noise(void)
{
    random_state = 1;
    for (bit_count = 0; bit_count < NOISE; bit_count++)
        bits[bit_count] = next_random() >> 31;
}

/* A program looks at the kind first: most bits report nothing. After an error it makes the decoder fresh. */

static unsigned decode_ours(void)
{
    uint32_t decoder[NEFTOLEK_DECODER_WORDS], out[2];
    unsigned long total = 0;
    neftolek_decoder_fresh(decoder);
    for (unsigned k = 0; k < bit_count; k++) {
        if (neftolek_decoder_bit(decoder, bits[k], out) != 0 || out[0] == NEFTOLEK_NOTHING)
            continue;
        total += out[0] + out[1];
        if (out[0] >= NEFTOLEK_PARITY)
            neftolek_decoder_fresh(decoder);
    }
    sum += total;
    return bit_count;
}

static unsigned decode_tested(void)
{
    struct model_decoder decoder;
    struct model_token report;
    unsigned long total = 0;
    memset(&decoder, 0, sizeof decoder);
    for (unsigned k = 0; k < bit_count; k++) {
        if (tested_decoder_bit(&decoder, bits[k], &report) != 0 || report.kind == NOTHING)
            continue;
        total += (unsigned long)report.kind + report.value;
        if (report.kind >= PARITY_ERROR)
            memset(&decoder, 0, sizeof decoder);
    }
    sum += total;
    return bit_count;
}

static unsigned decode_untested(void)
{
    struct model_decoder decoder;
    unsigned long total = 0;
    memset(&decoder, 0, sizeof decoder);
    for (unsigned k = 0; k < bit_count; k++) {
        struct model_token report = model_decoder_bit(&decoder, bits[k]);
        if (report.kind == NOTHING)
            continue;
        total += (unsigned long)report.kind + report.value;
        if (report.kind >= PARITY_ERROR)
            memset(&decoder, 0, sizeof decoder);
    }
    sum += total;
    return bit_count;
}

/* A program uses the bits and their count. */

static unsigned encode_ours(void)
{
    uint32_t encoder[NEFTOLEK_ENCODER_WORDS], out[2];
    unsigned long total = 0;
    neftolek_encoder_fresh(encoder);
    for (unsigned k = 0; k < TOKENS; k++)
        if (neftolek_encode(encoder, tokens[k].kind, tokens[k].value, out) == 0)
            total += out[0] + out[1];
    sum += total;
    return TOKENS;
}

static unsigned encode_tested(void)
{
    struct model_encoder encoder = {false};
    struct model_bits out;
    unsigned long total = 0;
    for (unsigned k = 0; k < TOKENS; k++)
        if (tested_encode(&encoder, tokens[k], &out) == 0)
            total += (unsigned long)out.bits + out.count;
    sum += total;
    return TOKENS;
}

static unsigned encode_untested(void)
{
    struct model_encoder encoder = {false};
    unsigned long total = 0;
    for (unsigned k = 0; k < TOKENS; k++) {
        struct model_bits out = model_encode(&encoder, tokens[k]);
        total += (unsigned long)out.bits + out.count;
    }
    sum += total;
    return TOKENS;
}

void measure_characters(void)
{
    static const struct bars bars = {1.0, 1.3}, none = {0, 0};
    heading("characters");
    make_tokens(mixed);
    measure("decode a bit, mixed", bars, SIDES(decode));
    measure("encode a token, mixed", bars, SIDES(encode));
    make_tokens(data);
    measure("decode a bit, data", none, SIDES(decode));
    make_tokens(null);
    measure("decode a bit, NULLs", none, SIDES(decode));
    make_noise();
    measure("decode a bit, noise", none, SIDES(decode));
}
