/* The proved archive against the model, call by call, on random inputs: what the three layers' files share. */
#ifndef DIFFERENTIAL_H
#define DIFFERENTIAL_H

#include "words.h"

#include <stddef.h>

enum { REFUSALS = 11 };

/* One call of the interface: how often it was made, by what it answered. */
struct tally {
    const char *name;
    unsigned may; /* bit k: refusal k is one that the call names; all these have to be met */
    unsigned long met[REFUSALS];
};

/* Begins an episode: the random numbers that follow depend on the seed and the episode alone. (No expression draws two
 * numbers in an order that C leaves open, so that every compiler makes the same calls.) */
void begin(uint64_t seed, unsigned long episode);

uint32_t below(uint32_t limit);         /* 0 to limit - 1 */
bool one_in(uint32_t chances);
uint32_t any_word(void);                /* small numbers and edges more often than others */
uint32_t any_nchar(void);               /* mostly data and ends, now and then above 257 */
uint32_t one_of(const uint32_t *numbers, size_t count);
void spoil(uint32_t *words, uint32_t count); /* one of the words becomes any */

#define ONE_OF(...) one_of((const uint32_t[]){__VA_ARGS__}, sizeof((const uint32_t[]){__VA_ARGS__}) / sizeof(uint32_t))

/* Counts a call, and the refusals of both, which have to be the same. */
void answered(struct tally *t, uint32_t ours, uint32_t models);

/* What both left, which has to be the same; says call, seed, episode and step where it is not. */
void compare(const struct tally *t, const char *what, const void *ours, const void *models, size_t bytes);

/* An episode of some hundred calls on one state. */
void characters_episode(void);
void link_episode(void);
void router_episode(void);

extern struct tally characters_calls[3], link_calls[9], router_calls[6];

/* The token that a kind and a value name; kind NOTHING where they name none. */
struct model_token token_of(uint32_t kind, uint32_t value);

#endif
