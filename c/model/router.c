/* The router (document 01). */
#include "model.h"
#include "store.h"

enum { REQUESTS = 0x7fe, DELETES_HEADER = 29, HIGH_PRIORITY = 30, INVALID = 31 };

enum { STORES = 2 * MODEL_PORTS, LAST = MODEL_PORTS - 1 };

static struct model_places places_of(struct model_places area, unsigned store)
{
    struct model_places one;
    one.size = area.size / STORES;
    one.at = area.at + store * one.size;
    return one;
}

static struct model_places in_places(struct model_places area, unsigned port) { return places_of(area, port); }

static struct model_places out_places(struct model_places area, unsigned port)
{
    return places_of(area, MODEL_PORTS + port);
}

void model_router_fresh(struct model_router *r)
{
    static const struct model_router fresh;
    *r = fresh;
    for (unsigned o = 0; o < MODEL_PORTS; o++)
        r->outputs[o].last = LAST;
}

void model_table_fresh(uint32_t table[MODEL_ROWS])
{
    for (unsigned row = 0; row < MODEL_ROWS; row++)
        table[row] = MODEL_INVALID_ROW;
}

/* "A write clears bits 28..11 and 0; if then bits 10..1 are zero the row becomes 0x80000000." */
void model_row_write(uint32_t table[MODEL_ROWS], unsigned row, uint32_t value)
{
    table[row] = value & REQUESTS ? value & (0xe0000000u | REQUESTS) : MODEL_INVALID_ROW;
}

void model_router_put(struct model_router *r, struct model_places area, unsigned port, uint16_t n)
{
    store_put(&r->in[port], in_places(area, port), n);
}

uint16_t model_router_take(struct model_router *r, struct model_places area, unsigned port)
{
    return store_take(&r->out[port], out_places(area, port));
}

static void wait_for(struct model_input *in, uint32_t ports, bool high)
{
    in->mode = WAITING;
    in->ports = (uint16_t)ports;
    in->high = high;
}

/* Part 1 for an idle input with a front N-Char; true for an address error. */
static bool read_address(struct model_router *r, struct model_places area, const uint32_t *table, unsigned i)
{
    struct model_places places = in_places(area, i);
    uint16_t n = store_front(&r->in[i], places);
    if (n >= MODEL_EOP) {
        store_take(&r->in[i], places);
    } else if (n <= LAST) {
        wait_for(&r->inputs[i], 1u << n, false);
        store_take(&r->in[i], places);
    } else if (n <= 31 || table[n] >> INVALID || !(table[n] & REQUESTS)) {
        r->inputs[i].mode = SPILLING;
        return true;
    } else {
        wait_for(&r->inputs[i], table[n] & REQUESTS, table[n] >> HIGH_PRIORITY & 1);
        if (table[n] >> DELETES_HEADER & 1)
            store_take(&r->in[i], places);
    }
    return false;
}

static bool wants(const struct model_input *in, unsigned o, bool high)
{
    return in->mode == WAITING && in->high == high && in->ports >> o & 1;
}

/* Part 2 for a free output: "high priority before low, then the first in cyclic order after its last granted input". */
static bool grant(struct model_router *r, unsigned o)
{
    struct model_output *out = &r->outputs[o];
    for (int high = 1; high >= 0; high--) {
        unsigned i = out->last;
        for (unsigned k = 0; k < MODEL_PORTS; k++) {
            i = i == LAST ? 0 : i + 1;
            if (!wants(&r->inputs[i], o, high))
                continue;
            out->owned = true;
            out->owner = out->last = i;
            r->inputs[i].mode = ROUTED;
            r->inputs[i].output = o;
            return true;
        }
    }
    return false;
}

/* Part 3 for a routed input: true when it moved an N-Char. */
static bool move(struct model_router *r, struct model_places area, unsigned i)
{
    unsigned o = r->inputs[i].output;
    struct model_places places = out_places(area, o);
    uint16_t n;
    if (r->in[i].length == 0 || r->out[o].length == places.size)
        return false;
    n = store_take(&r->in[i], in_places(area, i));
    store_put(&r->out[o], places, n);
    if (n >= MODEL_EOP) {
        r->inputs[i].mode = IDLE;
        r->outputs[o].owned = false;
    }
    return true;
}

/* Part 3 for a spilling input: true when it discarded one. */
static bool spill(struct model_router *r, struct model_places area, unsigned i)
{
    if (r->in[i].length == 0)
        return false;
    if (store_take(&r->in[i], in_places(area, i)) >= MODEL_EOP)
        r->inputs[i].mode = IDLE;
    return true;
}

/* Part 3; true when it changed anything. */
static bool move_all(struct model_router *r, struct model_places area, struct model_ran *ran)
{
    bool changed = false;
    for (unsigned i = 0; i < MODEL_PORTS; i++) {
        if (r->inputs[i].mode == ROUTED && move(r, area, i)) {
            ran->moved++;
            changed = true;
        } else if (r->inputs[i].mode == SPILLING && spill(r, area, i)) {
            changed = true;
        }
    }
    return changed;
}

/* One round; true when it changed anything. */
static bool plain_round(struct model_router *r, struct model_places area, const uint32_t *table, struct model_ran *ran)
{
    bool changed = false;
    for (unsigned i = 0; i < MODEL_PORTS; i++)
        if (r->inputs[i].mode == IDLE && r->in[i].length > 0) {
            ran->errors += read_address(r, area, table, i);
            changed = true;
        }
    for (unsigned o = 0; o < MODEL_PORTS; o++)
        if (!r->outputs[o].owned && grant(r, o))
            changed = true;
    return move_all(r, area, ran) || changed;
}

struct model_ran model_router_run(struct model_router *r, struct model_places area, const uint32_t table[MODEL_ROWS],
                                  unsigned limit)
{
    struct model_ran ran = {0, 0, 0};
    bool changed = true;
    while (changed && ran.rounds < limit) {
        ran.rounds++;
        changed = plain_round(r, area, table, &ran);
    }
    return ran;
}

/* The sensible run: the pass over the inputs gathers which outputs are wanted, and only those are looked at. */

#define BIT(p) (1u << (p))

static unsigned lowest(unsigned set) { return (unsigned)__builtin_ctz(set); }

static bool sensible_round(struct model_router *r, struct model_places area, const uint32_t *table,
                           struct model_ran *ran)
{
    bool changed = false;
    unsigned wanted = 0;
    for (unsigned i = 0; i < MODEL_PORTS; i++) {
        if (r->inputs[i].mode == IDLE && r->in[i].length > 0) {
            ran->errors += read_address(r, area, table, i);
            changed = true;
        }
        if (r->inputs[i].mode == WAITING)
            wanted |= r->inputs[i].ports;
    }
    for (; wanted; wanted &= wanted - 1)
        if (!r->outputs[lowest(wanted)].owned && grant(r, lowest(wanted)))
            changed = true;
    return move_all(r, area, ran) || changed;
}

struct model_ran sensible_router_run(struct model_router *r, struct model_places area,
                                     const uint32_t table[MODEL_ROWS], unsigned limit)
{
    struct model_ran ran = {0, 0, 0};
    bool changed = true;
    while (changed && ran.rounds < limit) {
        ran.rounds++;
        changed = sensible_round(r, area, table, &ran);
    }
    return ran;
}

/* The run with sets: which inputs have something to do is kept through the run, as sets in which bit p is port p. What
 * cannot go on before the host puts or takes is in none of them. */
struct sets {
    unsigned reading;        /* idle, with a front N-Char */
    unsigned waiting, high;  /* waiting, and those of them at high priority */
    unsigned going;          /* routed or spilling */
    unsigned owned;          /* outputs */
};

/* Puts an input to the sets that it belongs to; it is in none of them. */
static void sort_in(struct sets *s, const struct model_router *r, unsigned i)
{
    switch (r->inputs[i].mode) {
    case IDLE:
        s->reading |= r->in[i].length > 0 ? BIT(i) : 0;
        break;
    case WAITING:
        s->waiting |= BIT(i);
        s->high |= r->inputs[i].high ? BIT(i) : 0;
        break;
    default:
        s->going |= BIT(i);
    }
}

static struct sets all_sets(const struct model_router *r)
{
    struct sets s = {0, 0, 0, 0, 0};
    for (unsigned p = 0; p < MODEL_PORTS; p++) {
        sort_in(&s, r, p);
        s.owned |= r->outputs[p].owned ? BIT(p) : 0;
    }
    return s;
}

static unsigned read_addresses(struct sets *s, struct model_router *r, struct model_places area, const uint32_t *table)
{
    unsigned errors = 0, todo = s->reading;
    s->reading = 0;
    for (; todo; todo &= todo - 1) {
        errors += read_address(r, area, table, lowest(todo));
        sort_in(s, r, lowest(todo));
    }
    return errors;
}

/* The waiting inputs that want an output. */
static unsigned wanting(const struct sets *s, const struct model_router *r, unsigned o)
{
    unsigned set = 0;
    for (unsigned todo = s->waiting; todo; todo &= todo - 1)
        set |= r->inputs[lowest(todo)].ports & BIT(o) ? todo & -todo : 0;
    return set;
}

static void grant_to(struct sets *s, struct model_router *r, unsigned o, unsigned i)
{
    r->outputs[o].owned = true;
    r->outputs[o].owner = r->outputs[o].last = i;
    r->inputs[i].mode = ROUTED;
    r->inputs[i].output = o;
    s->owned |= BIT(o);
    s->waiting &= ~BIT(i);
    s->high &= ~BIT(i);
    s->going |= BIT(i);
}

/* True when an output was granted. */
static bool grant_all(struct sets *s, struct model_router *r)
{
    unsigned wanted = 0, before = s->owned;
    for (unsigned todo = s->waiting; todo; todo &= todo - 1)
        wanted |= r->inputs[lowest(todo)].ports;
    for (wanted &= ~s->owned; wanted; wanted &= wanted - 1) {
        unsigned o = lowest(wanted), set = wanting(s, r, o), after;
        if (set == 0)
            continue;
        set = set & s->high ? set & s->high : set;
        after = set & ~(2 * BIT(r->outputs[o].last) - 1);
        grant_to(s, r, o, lowest(after ? after : set));
    }
    return s->owned != before;
}

/* Part 3; answers how many were moved or discarded. One that cannot go on leaves its set. */
static unsigned go_on(struct sets *s, struct model_router *r, struct model_places area, struct model_ran *ran)
{
    unsigned changes = 0;
    for (unsigned todo = s->going; todo; todo &= todo - 1) {
        unsigned i = lowest(todo);
        bool routed = r->inputs[i].mode == ROUTED, went = routed ? move(r, area, i) : spill(r, area, i);
        changes += went;
        ran->moved += routed && went;
        if (!went) {
            s->going &= ~BIT(i);
        } else if (r->inputs[i].mode == IDLE) {
            s->going &= ~BIT(i);
            s->owned &= routed ? ~BIT(r->inputs[i].output) : ~0u;
            sort_in(s, r, i);
        }
    }
    return changes;
}

struct model_ran sets_router_run(struct model_router *r, struct model_places area,
                                 const uint32_t table[MODEL_ROWS], unsigned limit)
{
    struct model_ran ran = {0, 0, 0};
    struct sets s = all_sets(r);
    bool changed = true;
    while (changed && ran.rounds < limit) {
        ran.rounds++;
        changed = s.reading != 0;
        ran.errors += s.reading ? read_addresses(&s, r, area, table) : 0;
        changed |= s.waiting && grant_all(&s, r);
        changed |= go_on(&s, r, area, &ran) > 0;
    }
    return ran;
}

void model_router_held(const struct model_router *r, unsigned port, uint32_t held[MODEL_HELD])
{
    const struct model_input *in = &r->inputs[port];
    const struct model_output *out = &r->outputs[port];
    uint32_t wanted = 0, unread = 0;
    for (unsigned i = 0; i < MODEL_PORTS; i++) {
        wanted |= (uint32_t)(r->inputs[i].mode == WAITING && r->inputs[i].ports >> port & 1) << i;
        unread |= (uint32_t)(r->in[i].length > 0) << i;
    }
    held[0] = in->mode;
    held[1] = in->mode == WAITING ? in->ports : 0;
    held[2] = in->mode == WAITING && in->high;
    held[3] = in->mode == ROUTED ? in->output : 0;
    held[4] = r->in[port].length;
    held[5] = out->owned;
    held[6] = out->owned ? out->owner : 0;
    held[7] = r->out[port].length;
    held[8] = wanted;
    held[9] = unread;
    held[10] = in->mode == IDLE && held[4] == 0 && !out->owned && held[7] == 0 && wanted == 0;
}

/* The tests. */

static bool bad_input(const struct model_router *r, unsigned i)
{
    const struct model_input *in = &r->inputs[i];
    switch (in->mode) {
    case IDLE:
    case SPILLING:
        return false;
    case WAITING:
        return in->ports == 0 || in->ports >> MODEL_PORTS;
    case ROUTED:
        return in->output > LAST || !r->outputs[in->output].owned || r->outputs[in->output].owner != i;
    }
    return true;
}

static bool bad_output(const struct model_router *r, unsigned o)
{
    const struct model_output *out = &r->outputs[o];
    if (out->last > LAST || (out->owned && out->owner > LAST))
        return true;
    return out->owned && (r->inputs[out->owner].mode != ROUTED || r->inputs[out->owner].output != o);
}

static bool bad_ports(const struct model_router *r)
{
    for (unsigned p = 0; p < MODEL_PORTS; p++)
        if (bad_input(r, p) || bad_output(r, p))
            return true;
    return false;
}

static unsigned lent_refusal(const struct model_router *r, struct model_places area)
{
    uint32_t size = area.size / STORES;
    if (bad_ports(r))
        return MODEL_STATE;
    if (area.size % STORES != 0 || size < 9 || size > 1024)
        return MODEL_STORE;
    for (unsigned p = 0; p < MODEL_PORTS; p++)
        if (store_bad(&r->in[p], size) || store_bad(&r->out[p], size))
            return MODEL_STATE;
    return 0;
}

unsigned tested_router_put(struct model_router *r, struct model_places area, uint32_t port, uint32_t n)
{
    unsigned lent = lent_refusal(r, area);
    if (lent)
        return lent;
    if (port > LAST)
        return MODEL_PORT;
    if (n > MODEL_EEP)
        return MODEL_CHAR;
    if (r->in[port].length == area.size / STORES)
        return MODEL_FULL;
    model_router_put(r, area, port, (uint16_t)n);
    return 0;
}

static unsigned take_refusal(const struct model_router *r, struct model_places area, uint32_t port)
{
    unsigned lent = lent_refusal(r, area);
    if (lent)
        return lent;
    if (port > LAST)
        return MODEL_PORT;
    return r->out[port].length == 0 ? MODEL_EMPTY : 0;
}

unsigned tested_router_take(struct model_router *r, struct model_places area, uint32_t port, uint16_t *n)
{
    unsigned refusal = take_refusal(r, area, port);
    *n = refusal ? 0 : model_router_take(r, area, port);
    return refusal;
}

static unsigned run_refusal(const struct model_router *r, struct model_places area, uint32_t limit)
{
    unsigned lent = lent_refusal(r, area);
    return lent ? lent : limit > 10000 ? MODEL_ROUNDS : 0;
}

static const struct model_ran no_run;

unsigned tested_router_run(struct model_router *r, struct model_places area, const uint32_t table[MODEL_ROWS],
                           uint32_t limit, struct model_ran *ran)
{
    unsigned refusal = run_refusal(r, area, limit);
    *ran = refusal ? no_run : model_router_run(r, area, table, limit);
    return refusal;
}

unsigned tested_sensible_run(struct model_router *r, struct model_places area, const uint32_t table[MODEL_ROWS],
                             uint32_t limit, struct model_ran *ran)
{
    unsigned refusal = run_refusal(r, area, limit);
    *ran = refusal ? no_run : sensible_router_run(r, area, table, limit);
    return refusal;
}

unsigned tested_sets_run(struct model_router *r, struct model_places area, const uint32_t table[MODEL_ROWS],
                         uint32_t limit, struct model_ran *ran)
{
    unsigned refusal = run_refusal(r, area, limit);
    *ran = refusal ? no_run : sets_router_run(r, area, table, limit);
    return refusal;
}

static unsigned row_refusal(const struct model_router *r, uint32_t row)
{
    if (bad_ports(r))
        return MODEL_STATE;
    return row < 32 || row >= MODEL_ROWS ? MODEL_ROW : 0;
}

unsigned tested_row_write(const struct model_router *r, uint32_t table[MODEL_ROWS], uint32_t row, uint32_t value)
{
    unsigned refusal = row_refusal(r, row);
    if (refusal == 0)
        model_row_write(table, row, value);
    return refusal;
}

unsigned tested_row_read(const struct model_router *r, const uint32_t table[MODEL_ROWS], uint32_t row, uint32_t *value)
{
    unsigned refusal = row_refusal(r, row);
    *value = refusal ? 0 : table[row];
    return refusal;
}

unsigned tested_router_held(const struct model_router *r, uint32_t port, uint32_t held[MODEL_HELD])
{
    unsigned refusal = bad_ports(r) ? MODEL_STATE : port > LAST ? MODEL_PORT : 0;
    if (refusal == 0)
        model_router_held(r, port, held);
    else
        for (unsigned k = 0; k < MODEL_HELD; k++)
            held[k] = 0;
    return refusal;
}
