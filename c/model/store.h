/* A ring of N-Chars (document 01: "Stores hold numbers"), shared by the model's link and router. */
#ifndef MODEL_STORE_H
#define MODEL_STORE_H

#include "model.h"

/* "A store's front at or past its size, or its length beyond it." */
static inline bool store_bad(const struct model_store *s, uint32_t size) { return s->front >= size || s->length > size; }

static inline uint32_t store_wrap(uint32_t at, uint32_t size) { return at < size ? at : at - size; }

static inline void store_put(struct model_store *s, struct model_places places, uint16_t n)
{
    places.at[store_wrap(s->front + s->length, places.size)] = n;
    s->length++;
}

/* "A stored number above 257 is read as 257." */
static inline uint16_t store_front(const struct model_store *s, struct model_places places)
{
    uint16_t n = places.at[s->front];
    return n > MODEL_EEP ? MODEL_EEP : n;
}

static inline uint16_t store_take(struct model_store *s, struct model_places places)
{
    uint16_t n = store_front(s, places);
    s->front = store_wrap(s->front + 1, places.size);
    s->length--;
    return n;
}

#endif
