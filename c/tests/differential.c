/* The proved archive against the model over millions of random calls, with good and with damaged states, at all sizes.
 *
 *     differential [TIMES [SEED]]    TIMES the default number of calls and bound on time; default 1 */
#include "differential.h"

#include "common.h"

#include <stdlib.h>
#include <time.h>

enum { DEFAULT_CALLS = 10000000, DEFAULT_SECONDS = 40, MOST_SHOWN = 20 };

static uint64_t seed = 20080731, random_state;
static unsigned long episode, step, calls;

void begin(uint64_t from, unsigned long number)
{
    seed = from;
    episode = number;
    step = 0;
    random_state = from * UINT64_C(0x9e3779b97f4a7c15) + number;
}

/* splitmix64 */
static uint32_t next(void)
{
    uint64_t z = random_state += UINT64_C(0x9e3779b97f4a7c15);
    z = (z ^ z >> 30) * UINT64_C(0xbf58476d1ce4e5b9);
    z = (z ^ z >> 27) * UINT64_C(0x94d049bb133111eb);
    return (uint32_t)(z >> 32);
}

uint32_t below(uint32_t limit) { return (uint32_t)((uint64_t)next() * limit >> 32); }

bool one_in(uint32_t chances) { return below(chances) == 0; }

uint32_t one_of(const uint32_t *numbers, size_t count) { return numbers[below((uint32_t)count)]; }

uint32_t any_word(void)
{
    switch (below(6)) {
    case 0:
        return below(3);
    case 1:
        return below(16);
    case 2:
        return below(300);
    case 3:
        return ONE_OF(46, 48, 49, 55, 56, 57, 63, 64, 127, 128, 129, 255, 256, 257, 258, 1024, 2047, 2048);
    case 4:
        return ONE_OF(4095, 4096, 4097, 10000, 10001, 65535, 65536, 65537, 0x7fffffff, 0x80000000u, 0xffffffffu);
    default:
        return next();
    }
}

uint32_t any_nchar(void)
{
    uint32_t r = below(100);
    if (r < 55)
        return below(256);
    if (r < 80)
        return MODEL_EOP;
    if (r < 95)
        return MODEL_EEP;
    return r < 97 ? 258 + below(1000) : any_word();
}

void spoil(uint32_t *words, uint32_t count)
{
    uint32_t which = below(count);
    words[which] = any_word();
}

struct model_token token_of(uint32_t kind, uint32_t value)
{
    static const uint32_t most[5] = {0, 0, 0, MODEL_EEP, 255};
    struct model_token t = {NOTHING, 0};
    if (kind >= GOT_NULL && kind <= GOT_TIMECODE && value <= most[kind]) {
        t.kind = (uint16_t)kind;
        t.value = (uint16_t)value;
    }
    return t;
}

static void differs(const struct tally *t, const char *what, size_t byte, uint32_t ours, uint32_t models)
{
    failures++;
    printf("%s, seed %llu, episode %lu, step %lu: %s differs at byte %lu: %lu, the model has %lu\n", t->name,
           (unsigned long long)seed, episode, step, what, (unsigned long)byte, (unsigned long)ours, (unsigned long)models);
}

void answered(struct tally *t, uint32_t ours, uint32_t models)
{
    checks++;
    step++;
    calls++;
    if (ours < REFUSALS)
        t->met[ours]++;
    if (ours != models)
        differs(t, "the refusal", 0, ours, models);
}

void compare(const struct tally *t, const char *what, const void *ours, const void *models, size_t bytes)
{
    checks++;
    if (memcmp(ours, models, bytes) == 0)
        return;
    for (size_t k = 0; k < bytes; k += 2) {
        uint16_t a, b;
        memcpy(&a, (const char *)ours + k, 2);
        memcpy(&b, (const char *)models + k, 2);
        if (a != b) {
            differs(t, what, k, a, b);
            return;
        }
    }
}

/* Each call was accepted, and refused with each number that it names, and with no other. */
static void all_met(struct tally *tallies, size_t count)
{
    for (size_t c = 0; c < count; c++) {
        printf("%-16s", tallies[c].name);
        for (unsigned k = 0; k < REFUSALS; k++)
            if (tallies[c].may >> k & 1)
                printf(" %u:%lu", k, tallies[c].met[k]);
        printf("\n");
        for (unsigned k = 0; k < REFUSALS; k++)
            SAME(tallies[c].met[k] > 0, tallies[c].may >> k & 1);
    }
}

int main(int argc, char **argv)
{
    unsigned long times = argc > 1 ? strtoul(argv[1], NULL, 10) : 1;
    uint64_t from = argc > 2 ? strtoull(argv[2], NULL, 10) : seed;
    time_t end = time(NULL) + (time_t)(times * DEFAULT_SECONDS);
    for (unsigned long e = 0; calls < times * DEFAULT_CALLS && time(NULL) < end && failures < MOST_SHOWN; e++) {
        begin(from, 3 * e);
        characters_episode();
        begin(from, 3 * e + 1);
        link_episode();
        begin(from, 3 * e + 2);
        router_episode();
    }
    all_met(characters_calls, sizeof characters_calls / sizeof *characters_calls);
    all_met(link_calls, sizeof link_calls / sizeof *link_calls);
    all_met(router_calls, sizeof router_calls / sizeof *router_calls);
    printf("%lu calls, seed %llu\n", calls, (unsigned long long)from);
    return verdict("differential");
}
