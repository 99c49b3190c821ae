/* Encoder and decoder: streams of random tokens, with bits spoilt, ticks between them and states damaged. */
#include "differential.h"

#include <string.h>

enum { ENCODE, BIT, TICK };

struct tally characters_calls[3] = {
    {"encode", 1 | 1 << MODEL_STATE | 1 << MODEL_CHAR, {0}},
    {"decoder_bit", 1 | 1 << MODEL_STATE | 1 << MODEL_STOPPED, {0}},
    {"decoder_tick", 1 | 1 << MODEL_STATE | 1 << MODEL_STOPPED, {0}}};

static uint32_t encoder[NEFTOLEK_ENCODER_WORDS], decoder[NEFTOLEK_DECODER_WORDS];

/* The model goes on from its own state; where the words were set from outside, it takes theirs. */
static struct model_decoder model;
static bool good; /* the words are a state */

static void take_words(void) { good = decoder_of_words(decoder, &model); }

static void fresh(void)
{
    neftolek_encoder_fresh(encoder);
    neftolek_decoder_fresh(decoder);
    take_words();
}

/* Both encoders; the bits, and their count 0 where it was refused. */
static struct model_bits encode(uint32_t kind, uint32_t value)
{
    struct tally *call = &characters_calls[ENCODE];
    struct model_encoder e;
    struct model_bits bits = {0, 0};
    uint32_t state[NEFTOLEK_ENCODER_WORDS], ours[2] = {77, 77}, models[2], refusal = MODEL_STATE;
    if (encoder_of_words(encoder, &e))
        refusal = tested_encode(&e, token_of(kind, value), &bits);
    models[0] = bits.bits;
    models[1] = bits.count;
    state[0] = refusal == 0 ? e.odd : encoder[0];
    answered(call, neftolek_encode(encoder, kind, value, ours), refusal);
    compare(call, "out", ours, models, sizeof ours);
    compare(call, "state", encoder, state, sizeof state);
    return bits;
}

/* A bit, or a tick where bit is above 1, to both decoders; the refusal. */
static uint32_t decode(uint32_t bit)
{
    struct tally *call = &characters_calls[bit > 1 ? TICK : BIT];
    struct model_token report = {NOTHING, 0};
    uint32_t state[NEFTOLEK_DECODER_WORDS], ours[2] = {77, 77}, models[2], refusal = MODEL_STATE;
    memcpy(state, decoder, sizeof state);
    if (good)
        refusal = bit > 1 ? tested_decoder_tick(&model, &report) : tested_decoder_bit(&model, bit, &report);
    if (refusal == 0)
        words_of_decoder(&model, state);
    models[0] = report.kind;
    models[1] = report.value;
    if (bit > 1)
        answered(call, neftolek_decoder_tick(decoder, ours), refusal);
    else
        answered(call, neftolek_decoder_bit(decoder, bit ? 1 + below(1000) : 0, ours), refusal);
    compare(call, "out", ours, models, sizeof ours);
    compare(call, "state", decoder, state, sizeof state);
    return refusal;
}

static void ticks(uint32_t count)
{
    for (; count > 0; count--)
        decode(2);
}

/* Words of a decoder that has any phase, most of them good. */
static void any_decoder(void)
{
    decoder[0] = below(9);
    decoder[1] = below(10);
    decoder[2] = decoder[0] == 2 || decoder[0] == 3 ? below(7) : 0;
    decoder[3] = decoder[2] == 3 || decoder[2] == 4 ? below(300) : 0;
    decoder[4] = decoder[0] > 3 ? below(2) : 0;
    decoder[5] = decoder[0] == 3 || decoder[0] == 6 ? below(2) : 0;
    decoder[6] = decoder[0] == 1 || decoder[0] == 4 ? below(257) : 0;
    if (one_in(3))
        spoil(decoder, NEFTOLEK_DECODER_WORDS);
}

/* A call on damaged words; the decoder is then as it was before, unless the call was accepted. */
static void damage(void)
{
    uint32_t before[NEFTOLEK_DECODER_WORDS];
    memcpy(before, decoder, sizeof before);
    if (one_in(2))
        spoil(decoder, NEFTOLEK_DECODER_WORDS);
    else
        any_decoder();
    take_words();
    if (decode(below(3)) != 0 || one_in(2)) {
        memcpy(decoder, before, sizeof before);
        take_words();
    }
}

static struct model_bits any_token(void)
{
    if (one_in(50)) {
        uint32_t kind = any_word();
        return encode(kind, any_word());
    }
    switch (below(5)) {
    case 0:
        return encode(NEFTOLEK_NULL, 0);
    case 1:
        return encode(NEFTOLEK_FCT, 0);
    case 2:
        return encode(NEFTOLEK_TIMECODE, below(256));
    default:
        return encode(NEFTOLEK_NCHAR, any_nchar());
    }
}

static void send(struct model_bits out)
{
    for (; out.count > 0; out.bits >>= 1, out.count--) {
        decode((out.bits & 1) ^ one_in(400));
        if (one_in(60))
            ticks(1 + below(10));
        if (one_in(100))
            damage();
    }
}

void characters_episode(void)
{
    fresh();
    ticks(below(3) * 6);
    send(encode(NEFTOLEK_NULL, 0));
    for (int k = 0; k < 60; k++) {
        if (one_in(40))
            encoder[0] = any_word();
        send(any_token());
        if (encoder[0] > 1)
            neftolek_encoder_fresh(encoder);
        if (decoder[0] == 7 && one_in(2)) {
            fresh();
            send(encode(NEFTOLEK_NULL, 0));
        }
    }
}
