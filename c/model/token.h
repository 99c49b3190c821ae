/* What a token may be, shared by the model's decoder, encoder and link. */
#ifndef MODEL_TOKEN_H
#define MODEL_TOKEN_H

#include "model.h"

/* "A field outside the values its rules give it"; "N-Char above 257". */
static inline bool value_bad(struct model_token t)
{
    static const uint16_t most[] = {0, 0, 0, MODEL_EEP, 255};
    return t.kind > GOT_TIMECODE || t.value > most[t.kind];
}

static inline bool token_bad(struct model_token t) { return t.kind == NOTHING || value_bad(t); }

#endif
