/* Document 01's cases of the decoder and the encoder, and each of their refusals, through the C interface. */
#include "common.h"
#include "neftolek.h"

struct report {
    unsigned bit, kind, value;
};

/* Feeds a text of bits to a fresh decoder; the reports have to be these, at these bits, and no others. */
static void decodes_to(const char *bits, const struct report *reports, unsigned count)
{
    uint32_t decoder[NEFTOLEK_DECODER_WORDS], out[2];
    unsigned at = 0, met = 0;
    neftolek_decoder_fresh(decoder);
    for (; *bits; bits++) {
        if (*bits == ' ')
            continue;
        at++;
        SAME(neftolek_decoder_bit(decoder, *bits == '1', out), 0);
        if (out[0] == NEFTOLEK_NOTHING)
            continue;
        SAME(met < count, 1);
        if (met < count) {
            SAME(at, reports[met].bit);
            SAME(out[0], reports[met].kind);
            SAME(out[1], reports[met].value);
        }
        met++;
    }
    SAME(met, count);
}

#define DECODES_TO(bits, ...)                                                                                          \
    do {                                                                                                               \
        static const struct report reports[] = {__VA_ARGS__};                                                          \
        decodes_to(bits, reports, sizeof reports / sizeof *reports);                                                   \
    } while (0)

static void numbers_to_hold_it_to(void)
{
    DECODES_TO("01110100 0100 1010000010 0101 1111 0100", {8, NEFTOLEK_NULL, 0}, {14, NEFTOLEK_FCT, 0},
               {24, NEFTOLEK_NCHAR, 65}, {28, NEFTOLEK_NCHAR, NEFTOLEK_EOP});
    DECODES_TO("01110100 0100 00", {8, NEFTOLEK_NULL, 0}, {14, NEFTOLEK_PARITY, 0});
    DECODES_TO("01110100 0111 0111", {8, NEFTOLEK_NULL, 0}, {16, NEFTOLEK_ESCAPE, 0});
    DECODES_TO("01110100 0111 1010100000 0111", {8, NEFTOLEK_NULL, 0}, {24, NEFTOLEK_TIMECODE, 5});
    DECODES_TO("0 01110100", {9, NEFTOLEK_NULL, 0});
}

/* "Nine ticks in a row without a bit, after at least one bit: disconnect", while hunting too. */
static void disconnects(void)
{
    uint32_t decoder[NEFTOLEK_DECODER_WORDS], out[2];
    neftolek_decoder_fresh(decoder);
    for (int tick = 1; tick <= 20; tick++) {
        SAME(neftolek_decoder_tick(decoder, out), 0);
        SAME(out[0], NEFTOLEK_NOTHING);
    }
    neftolek_decoder_bit(decoder, 1, out);
    for (int tick = 1; tick <= 9; tick++) {
        SAME(neftolek_decoder_tick(decoder, out), 0);
        SAME(out[0], tick == 9 ? NEFTOLEK_DISCONNECT : NEFTOLEK_NOTHING);
    }
    SAME(neftolek_decoder_tick(decoder, out), NEFTOLEK_STOPPED);
    neftolek_decoder_fresh(decoder);
    SAME(neftolek_decoder_bit(decoder, 1, out), 0);
}

/* "Count: 4 for FCT, EOP, EEP; 8 for NULL; 10 for data; 14 for a Time-Code", and the bits of the paper's first example. */
static void encodes(void)
{
    static const struct {
        uint32_t kind, value, bits, count;
    } tokens[] = {
        {NEFTOLEK_NULL, 0, 0x2e, 8},     {NEFTOLEK_FCT, 0, 0x2, 4},
        {NEFTOLEK_NCHAR, 65, 0x105, 10}, {NEFTOLEK_NCHAR, NEFTOLEK_EOP, 0xa, 4},
        {NEFTOLEK_NULL, 0, 0x2f, 8},     {NEFTOLEK_NCHAR, NEFTOLEK_EEP, 0x6, 4},
        {NEFTOLEK_TIMECODE, 5, 0x15f, 14}};
    uint32_t encoder[NEFTOLEK_ENCODER_WORDS], out[2];
    neftolek_encoder_fresh(encoder);
    for (unsigned k = 0; k < sizeof tokens / sizeof *tokens; k++) {
        SAME(neftolek_encode(encoder, tokens[k].kind, tokens[k].value, out), 0);
        SAME(out[0], tokens[k].bits);
        SAME(out[1], tokens[k].count);
    }
}

struct wire {
    uint32_t encoder[NEFTOLEK_ENCODER_WORDS], decoder[NEFTOLEK_DECODER_WORDS];
    uint32_t kind, value; /* what the decoder has to report next; kind 0: nothing */
};

/* Sends a token over the wire, bit by bit; what waited before it is reported, once. */
static void sends(struct wire *w, uint32_t kind, uint32_t value)
{
    uint32_t bits[2], out[2];
    unsigned reports = 0;
    SAME(neftolek_encode(w->encoder, kind, value, bits), 0);
    for (; bits[1] > 0; bits[0] >>= 1, bits[1]--) {
        SAME(neftolek_decoder_bit(w->decoder, bits[0] & 1, out), 0);
        if (out[0] == NEFTOLEK_NOTHING)
            continue;
        reports++;
        SAME(out[0], w->kind);
        SAME(out[1], w->value);
    }
    SAME(reports, w->kind != NEFTOLEK_NOTHING);
    w->kind = kind;
    w->value = value;
}

/* "Encoding any list that starts with NULL from fresh and decoding it from fresh gives the list without its last." */
static void encoded_is_decoded(void)
{
    struct wire w;
    neftolek_encoder_fresh(w.encoder);
    neftolek_decoder_fresh(w.decoder);
    w.kind = NEFTOLEK_NULL; /* the first NULL is reported at once, and does not wait */
    w.value = 0;
    sends(&w, NEFTOLEK_NULL, 0);
    w.kind = NEFTOLEK_NOTHING;
    sends(&w, NEFTOLEK_FCT, 0);
    for (uint32_t value = 0; value <= NEFTOLEK_EEP; value++)
        sends(&w, NEFTOLEK_NCHAR, value);
    for (uint32_t value = 0; value <= 255; value++) {
        sends(&w, NEFTOLEK_TIMECODE, value);
        sends(&w, value % 2 ? NEFTOLEK_NULL : NEFTOLEK_FCT, 0);
    }
}

/* Every refusal of the three calls. A refused call changes nothing and answers zero. */
static void decoder_refuses(const uint32_t words[NEFTOLEK_DECODER_WORDS], uint32_t expected)
{
    uint32_t state[NEFTOLEK_DECODER_WORDS], out[2];
    for (int tick = 0; tick <= 1; tick++) {
        memcpy(state, words, sizeof state);
        out[0] = out[1] = 77;
        SAME(tick ? neftolek_decoder_tick(state, out) : neftolek_decoder_bit(state, 1, out), expected);
        if (expected == 0)
            continue;
        SAME_BYTES(state, words, sizeof state);
        SAME(out[0] | out[1], 0);
    }
}

static void decoder_rows(void)
{
    static const struct {
        uint32_t words[NEFTOLEK_DECODER_WORDS], expected;
    } rows[] = {
        {{0, 0, 0, 0, 0, 0, 0}, 0},           /* fresh */
        {{7, 0, 0, 0, 0, 0, 0}, 7},           /* stopped */
        {{8, 0, 0, 0, 0, 0, 0}, 1},           /* no phase */
        {{0xffffffff, 0, 0, 0, 0, 0, 0}, 1},
        {{0, 1, 0, 0, 0, 0, 0}, 1},           /* a fresh decoder counts no ticks */
        {{7, 0, 0, 0, 0, 0, 1}, 1},           /* words of another phase: STATE before STOPPED */
        {{1, 8, 0, 0, 0, 0, 255}, 0},
        {{1, 9, 0, 0, 0, 0, 255}, 1},         /* nine ticks: it would have stopped */
        {{1, 0, 0, 0, 0, 0, 46}, 1},          /* 01110100: it would hunt no longer */
        {{1, 0, 0, 0, 0, 0, 256}, 1},
        {{2, 0, 3, 257, 0, 0, 0}, 0},
        {{2, 0, 3, 258, 0, 0, 0}, 1},         /* no N-Char */
        {{2, 0, 4, 255, 0, 0, 0}, 0},
        {{2, 0, 4, 256, 0, 0, 0}, 1},         /* no Time-Code */
        {{2, 0, 2, 1, 0, 0, 0}, 1},           /* an FCT has no value */
        {{2, 0, 5, 0, 0, 0, 0}, 0},
        {{2, 0, 6, 0, 0, 0, 0}, 1},           /* nothing that could wait */
        {{3, 0, 0, 0, 0, 2, 0}, 1},           /* no bit */
        {{3, 0, 3, 258, 0, 1, 0}, 1},
        {{4, 0, 0, 0, 1, 0, 1}, 0},
        {{4, 0, 0, 0, 1, 0, 0}, 1},           /* no mark behind the data bits */
        {{4, 0, 0, 0, 2, 0, 128}, 1},
        {{5, 0, 0, 0, 0, 0, 0}, 0},
        {{5, 9, 0, 0, 0, 0, 0}, 1},
        {{5, 0, 0, 0, 0, 1, 0}, 1},           /* no bit of its body came yet */
        {{6, 0, 0, 0, 1, 2, 0}, 1}};
    for (unsigned k = 0; k < sizeof rows / sizeof *rows; k++)
        decoder_refuses(rows[k].words, rows[k].expected);
}

static void encoder_rows(void)
{
    static const struct {
        uint32_t state, kind, value, expected;
    } rows[] = {{0, 1, 0, 0},   {0, 0, 0, 5},   {0, 5, 0, 5},   {1, 1, 1, 5}, {0, 2, 9, 5}, {1, 3, 257, 0},
                {1, 3, 258, 5}, {0, 4, 255, 0}, {0, 4, 256, 5}, {2, 1, 0, 1}, {2, 9, 9, 1}, {0, 3, 0xffffffff, 5}};
    for (unsigned k = 0; k < sizeof rows / sizeof *rows; k++) {
        uint32_t state[NEFTOLEK_ENCODER_WORDS] = {rows[k].state}, out[2] = {77, 77};
        SAME(neftolek_encode(state, rows[k].kind, rows[k].value, out), rows[k].expected);
        if (rows[k].expected == 0)
            continue;
        SAME(state[0], rows[k].state);
        SAME(out[0] | out[1], 0);
    }
}

int main(void)
{
    numbers_to_hold_it_to();
    disconnects();
    encodes();
    encoded_is_decoded();
    decoder_rows();
    encoder_rows();
    return verdict("characters");
}
