/* The router: random puts, takes, runs and rows on one router, from fresh, from a random good state, and damaged. */
#include "differential.h"

#include <string.h>

enum call { PUT, TAKE, RUN_ROUNDS, WRITE_ROW, READ_ROW, STILL_HELD, CALLS };

#define LENT (1 | 1 << MODEL_STATE | 1 << MODEL_STORE)

struct tally router_calls[6] = {
    {"router_put", LENT | 1 << MODEL_PORT | 1 << MODEL_CHAR | 1 << MODEL_FULL, {0}},
    {"router_take", LENT | 1 << MODEL_PORT | 1 << MODEL_EMPTY, {0}},
    {"router_run", LENT | 1 << MODEL_ROUNDS, {0}},
    {"router_write_row", 1 | 1 << MODEL_STATE | 1 << MODEL_ROW, {0}},
    {"router_read_row", 1 | 1 << MODEL_STATE | 1 << MODEL_ROW, {0}},
    {"router_still_held", 1 | 1 << MODEL_STATE | 1 << MODEL_PORT, {0}}};

/* Places past the end of the area are compared too. */
enum {
    STORES = NEFTOLEK_ROUTER_STORES,
    BEYOND = 4,
    MOST = STORES * (NEFTOLEK_ROUTER_MOST + 1) + BEYOND,
    OUT = MODEL_HELD
};

struct side {
    uint32_t state[NEFTOLEK_ROUTER_WORDS], table[NEFTOLEK_TABLE_ROWS], out[OUT];
    uint16_t area[MOST];
};

struct handed {
    uint32_t area_len, a, b; /* port and N-Char, limit, or row and value */
};

static struct side ours, models;

/* The model goes on from its own state; where the words were set from outside, it takes theirs. */
static struct model_router router;
static bool good; /* the words are a state */

static void take_words(void)
{
    memcpy(models.state, ours.state, sizeof models.state);
    good = router_of_words(models.state, &router);
}

static uint32_t call_ours(enum call call, struct side *s, struct handed h)
{
    switch (call) {
    case PUT:
        return neftolek_router_put(s->state, s->area, h.area_len, h.a, h.b);
    case TAKE:
        return neftolek_router_take(s->state, s->area, h.area_len, h.a, s->out);
    case RUN_ROUNDS:
        return neftolek_router_run(s->state, s->area, h.area_len, s->table, h.a, s->out);
    case WRITE_ROW:
        return neftolek_router_write_row(s->state, s->table, h.a, h.b);
    case READ_ROW:
        return neftolek_router_read_row(s->state, s->table, h.a, s->out);
    default:
        return neftolek_router_still_held(s->state, h.a, s->out);
    }
}

/* A run of the model that is not the plain one, on a copy of what the plain one is handed. */
typedef unsigned run(struct model_router *, struct model_places, const uint32_t *, uint32_t, struct model_ran *);

struct left {
    uint32_t refusal, state[NEFTOLEK_ROUTER_WORDS];
    struct model_ran ran;
    uint16_t area[MOST];
};

static void runs_on_copy(run *one, struct left *left, struct model_places area, const uint32_t *table, uint32_t limit)
{
    struct model_router copy = router;
    struct model_places places = {left->area, area.size};
    memcpy(left->area, area.at, area.size * sizeof *area.at);
    left->refusal = one(&copy, places, table, limit, &left->ran);
    words_of_router(&copy, left->state);
}

/* All runs of the model, from the same state: they have to leave and answer the same. */
static uint32_t model_runs(struct side *s, struct model_places area, uint32_t limit)
{
    static struct left plain, sensible, sets;
    const struct tally *t = &router_calls[RUN_ROUNDS];
    size_t bytes = offsetof(struct left, area) + area.size * sizeof *area.at;
    uint32_t refusal;
    runs_on_copy(tested_router_run, &plain, area, s->table, limit);
    runs_on_copy(tested_sensible_run, &sensible, area, s->table, limit);
    runs_on_copy(tested_sets_run, &sets, area, s->table, limit);
    compare(t, "the sensible model", &sensible, &plain, bytes);
    compare(t, "the model with sets", &sets, &plain, bytes);
    refusal = tested_router_run(&router, area, s->table, limit, &plain.ran);
    s->out[0] = plain.ran.rounds;
    s->out[1] = plain.ran.moved;
    s->out[2] = plain.ran.errors;
    return refusal;
}

static uint32_t model_takes(struct side *s, struct model_places area, uint32_t port)
{
    uint16_t n;
    uint32_t refusal = tested_router_take(&router, area, port, &n);
    s->out[0] = n;
    return refusal;
}

static uint32_t call_tested(enum call call, struct side *s, struct handed h)
{
    struct model_places area = {s->area, h.area_len};
    switch (call) {
    case PUT:
        return tested_router_put(&router, area, h.a, h.b);
    case TAKE:
        return model_takes(s, area, h.a);
    case RUN_ROUNDS:
        return model_runs(s, area, h.a);
    case WRITE_ROW:
        return tested_row_write(&router, s->table, h.a, h.b);
    case READ_ROW:
        return tested_row_read(&router, s->table, h.a, s->out);
    default:
        return tested_router_held(&router, h.a, s->out);
    }
}

/* Words that are no state are refused, whatever else there is. */
static uint32_t call_model(enum call call, struct side *s, struct handed h)
{
    static const unsigned out_words[] = {0, 1, 3, 0, 1, OUT};
    uint32_t refusal = MODEL_STATE;
    memset(s->out, 0, out_words[call] * sizeof *s->out);
    if (good)
        refusal = call_tested(call, s, h);
    if (refusal == 0)
        words_of_router(&router, s->state);
    return refusal;
}

static uint32_t make(enum call call, struct handed h)
{
    struct tally *t = &router_calls[call];
    uint32_t refusal;
    for (int k = 0; k < OUT; k++)
        ours.out[k] = models.out[k] = 77;
    refusal = call_ours(call, &ours, h);
    answered(t, refusal, call_model(call, &models, h));
    compare(t, "out", ours.out, models.out, sizeof ours.out);
    compare(t, "state", ours.state, models.state, sizeof ours.state);
    compare(t, "table", ours.table, models.table, sizeof ours.table);
    compare(t, "area", ours.area, models.area, (h.area_len + BEYOND) * sizeof *ours.area);
    return refusal;
}

/* Addresses of all three ranges, ends, and what is moved behind them. */
static uint32_t any_router_nchar(void)
{
    uint32_t r = below(10);
    return r < 4 ? below(MODEL_PORTS) : r == 4 ? 11 + below(21) : r < 8 ? 32 + below(8) : any_nchar();
}

static enum call any_call(void)
{
    uint32_t r = below(100);
    return r < 60 ? PUT : r < 80 ? TAKE : r < 94 ? RUN_ROUNDS : r < 97 ? WRITE_ROW : r < 98 ? READ_ROW : STILL_HELD;
}

/* Rows 32 to 39 are the ones that packets use. */
static uint32_t any_row_value(void)
{
    uint32_t ports = one_in(3) ? 1u << below(MODEL_PORTS) : any_word();
    uint32_t marks = one_in(20) ? 4 : below(4); /* invalid; or high priority, deletes its header */
    return one_in(10) ? any_word() : (ports & 0x1fffffff) | marks << 29;
}

static struct handed any_handed(enum call call, uint32_t area_len)
{
    struct handed h = {area_len, 0, 0};
    switch (call) {
    case PUT:
    case TAKE:
    case STILL_HELD:
        h.a = one_in(200) ? any_word() : below(MODEL_PORTS);
        h.b = any_router_nchar();
        break;
    case RUN_ROUNDS:
        h.a = one_in(100) ? any_word() : ONE_OF(0, 1, 1, 2, 3, 7, 30, 30, 100, one_in(8) ? 10000 : 5);
        break;
    default:
        h.a = one_in(20) ? any_word() : 32 + (one_in(2) ? below(8) : below(224));
        h.b = any_row_value();
    }
    return h;
}

/* A state that passes STATE at this size, though perhaps no calls lead to it. */
static void good_state(struct model_router *r, uint32_t places)
{
    model_router_fresh(r);
    for (uint32_t p = 0; p < MODEL_PORTS; p++) {
        struct model_input *in = &r->inputs[p];
        uint32_t o = below(MODEL_PORTS);
        in->mode = (uint8_t)below(4);
        in->ports = (uint16_t)(1 + below(2047));
        in->high = one_in(2);
        if (in->mode == ROUTED && r->outputs[o].owned)
            in->mode = IDLE;
        if (in->mode == ROUTED) {
            in->output = o;
            r->outputs[o].owned = true;
            r->outputs[o].owner = p;
        }
        r->outputs[p].last = below(MODEL_PORTS);
        r->in[p].front = below(places);
        r->in[p].length = one_in(2) ? 0 : below(places + 1);
        r->out[p].front = below(places);
        r->out[p].length = one_in(4) ? places : below(places + 1);
    }
}

static void begin_router(uint32_t places)
{
    neftolek_router_fresh(ours.state);
    neftolek_table_fresh(ours.table);
    if (one_in(2)) {
        struct model_router r;
        good_state(&r, places);
        words_of_router(&r, ours.state);
    }
    for (int row = 0; row < 40; row++) /* rows 0 to 31 are never read */
        ours.table[row] = any_row_value();
    for (uint32_t k = 0; k < STORES * places + BEYOND; k++)
        ours.area[k] = (uint16_t)any_router_nchar();
    models = ours;
    take_words();
}

/* A call on damaged words or with another area; the state is then as it was before, unless a call that tests all of it
 * accepted it. */
static void damaged_call(uint32_t area_len)
{
    uint32_t state[NEFTOLEK_ROUTER_WORDS];
    enum call call = (enum call)below(CALLS);
    struct handed h = any_handed(call, area_len);
    memcpy(state, ours.state, sizeof state);
    if (one_in(4))
        h.area_len = one_in(2) ? area_len - 1 - below(STORES) : one_in(2) ? MOST - BEYOND : below(STORES * 12);
    else
        spoil(ours.state, NEFTOLEK_ROUTER_WORDS);
    if (one_in(3)) {
        uint32_t which = below(IN_STORE_WORDS);
        ours.state[which] = below(12);
    }
    take_words();
    if (make(call, h) == 0 && call <= RUN_ROUNDS && h.area_len == area_len)
        return;
    memcpy(ours.state, state, sizeof state);
    take_words();
}

void router_episode(void)
{
    uint32_t places = one_in(20) ? 9 + below(1016) : ONE_OF(9, 9, 9, 10, 11, 16, 16, 32, 64, one_in(5) ? 1024 : 9);
    begin_router(places);
    for (int k = 0; k < 200; k++) {
        enum call call = any_call();
        make(call, any_handed(call, STORES * places));
        if (one_in(20))
            damaged_call(STORES * places);
    }
}
