/* The words of the C interface as the model's structs, and back. */
#ifndef WORDS_H
#define WORDS_H

#include "model.h"
#include "neftolek.h"

/* Where the words of a link end stand. */
enum {
    STATE_WORD, TIMER_WORD, GOT_NULL_WORD, NULL_SENT_WORD, DISABLED_WORD, START_WORD, AUTOSTART_WORD, HELD_WORD,
    GIVEN_WORD, STORED_WORD, SENT_WORD, TAKEN_WORD, PUT_WORD, DISCARDING_WORD, OFFERED_WORD, CODE_WORD,
    RX_FRONT_WORD, RX_LENGTH_WORD, TX_FRONT_WORD, TX_LENGTH_WORD
};

/* Where a port's words stand in those of a router: three of its input, three of its output, two of each store. */
enum {
    PORT_WORDS = 3,
    STORE_WORDS = 2,
    INPUT_WORDS = 0,
    OUTPUT_WORDS = INPUT_WORDS + MODEL_PORTS * PORT_WORDS,
    IN_STORE_WORDS = OUTPUT_WORDS + MODEL_PORTS * PORT_WORDS,
    OUT_STORE_WORDS = IN_STORE_WORDS + MODEL_PORTS * STORE_WORDS
};

#define INPUT_WORD(p) (INPUT_WORDS + (p) * PORT_WORDS)
#define OUTPUT_WORD(p) (OUTPUT_WORDS + (p) * PORT_WORDS)
#define IN_STORE_WORD(p) (IN_STORE_WORDS + (p) * STORE_WORDS)
#define OUT_STORE_WORD(p) (OUT_STORE_WORDS + (p) * STORE_WORDS)

void words_of_decoder(const struct model_decoder *d, uint32_t words[NEFTOLEK_DECODER_WORDS]);
void words_of_link(const struct model_link *l, uint32_t words[NEFTOLEK_LINK_WORDS]);
void words_of_router(const struct model_router *r, uint32_t words[NEFTOLEK_ROUTER_WORDS]);

/* False where the words are those of no state: words that the functions above do not give. */
bool decoder_of_words(const uint32_t words[NEFTOLEK_DECODER_WORDS], struct model_decoder *d);
bool encoder_of_words(const uint32_t words[NEFTOLEK_ENCODER_WORDS], struct model_encoder *e);
bool time_of_words(const uint32_t words[NEFTOLEK_TIME_WORDS], struct model_time *t);
bool link_of_words(const uint32_t words[NEFTOLEK_LINK_WORDS], struct model_link *l);
bool router_of_words(const uint32_t words[NEFTOLEK_ROUTER_WORDS], struct model_router *r);

#endif
