/* Document 01's cases of the router, through the C interface. */
#include "common.h"
#include "neftolek.h"

enum { HELD = 11, PLACES = 9, AREA = NEFTOLEK_ROUTER_STORES * PLACES };

struct router {
    uint32_t state[NEFTOLEK_ROUTER_WORDS], table[NEFTOLEK_TABLE_ROWS], out[HELD];
    uint16_t area[AREA];
};

static void fresh(struct router *r)
{
    memset(r, 0, sizeof *r);
    neftolek_router_fresh(r->state);
    neftolek_table_fresh(r->table);
}

/* Puts data to an input, and EOP behind it. */
static void puts_packet(struct router *r, uint32_t port, const char *bytes, unsigned count)
{
    for (unsigned k = 0; k < count; k++)
        SAME(neftolek_router_put(r->state, r->area, AREA, port, (unsigned char)bytes[k]), 0);
    SAME(neftolek_router_put(r->state, r->area, AREA, port, NEFTOLEK_EOP), 0);
}

static void runs(struct router *r, uint32_t limit, uint32_t rounds, uint32_t moved, uint32_t errors)
{
    SAME(neftolek_router_run(r->state, r->area, AREA, r->table, limit, r->out), 0);
    SAME(r->out[0], rounds);
    SAME(r->out[1], moved);
    SAME(r->out[2], errors);
}

static void takes(struct router *r, uint32_t port, uint32_t nchar)
{
    SAME(neftolek_router_take(r->state, r->area, AREA, port, r->out), 0);
    SAME(r->out[0], nchar);
}

static void nothing_left(struct router *r, uint32_t port)
{
    SAME(neftolek_router_take(r->state, r->area, AREA, port, r->out), NEFTOLEK_EMPTY);
}

/* "Input 1 holds 3, 65, EOP: run of 10 reports 3 rounds, 2 moved; output 3 holds 65, EOP." */
static void one_packet(void)
{
    struct router r;
    fresh(&r);
    puts_packet(&r, 1, "\3A", 2);
    runs(&r, 10, 3, 2, 0);
    takes(&r, 3, 65);
    takes(&r, 3, NEFTOLEK_EOP);
    nothing_left(&r, 3);
}

/* "Input 1 holds 11, EOP: 3 rounds, 0 moved, one address error." */
static void no_such_port(void)
{
    struct router r;
    fresh(&r);
    puts_packet(&r, 1, "\13", 1);
    runs(&r, 10, 3, 0, 1);
    for (uint32_t port = 0; port <= 10; port++)
        nothing_left(&r, port);
}

static void row_becomes(struct router *r, uint32_t row, uint32_t written, uint32_t value)
{
    SAME(neftolek_router_write_row(r->state, r->table, row, written), 0);
    SAME(neftolek_router_read_row(r->state, r->table, row, r->out), 0);
    SAME(r->out[0], value);
    SAME(r->table[row], value);
}

/* "All 256 rows hold 0x80000000 at the start"; "Row 39 written 0x20000801: 0x80000000. Written 0x00000004: port 2." */
static void rows(void)
{
    struct router r;
    fresh(&r);
    for (int row = 0; row < NEFTOLEK_TABLE_ROWS; row++)
        SAME(r.table[row], 0x80000000u);
    row_becomes(&r, 39, 0x20000801, 0x80000000u);
    row_becomes(&r, 39, 0xffffffffu, 0xe00007feu);
    row_becomes(&r, 39, 0x00000004, 0x00000004);
    puts_packet(&r, 5, "'", 1); /* 39: its header is kept */
    runs(&r, 10000, 3, 2, 0);
    takes(&r, 2, 39);
    takes(&r, 2, NEFTOLEK_EOP);
}

/* "High priority before low, then the first in cyclic order after its last granted input." */
static void priority(void)
{
    struct router r;
    fresh(&r);
    row_becomes(&r, 40, 0x60000000u | 1u << 7, 0x60000080u); /* port 7, header deleted, high */
    puts_packet(&r, 1, "\7a", 2);
    puts_packet(&r, 2, "\7b", 2);
    puts_packet(&r, 9, "(c", 2);
    runs(&r, 10000, 7, 6, 0);
    takes(&r, 7, 'c');
    takes(&r, 7, NEFTOLEK_EOP);
    takes(&r, 7, 'a'); /* 9 was last: 10, 0, then 1 */
    takes(&r, 7, NEFTOLEK_EOP);
    takes(&r, 7, 'b');
    takes(&r, 7, NEFTOLEK_EOP);
}

/* A full output holds its packet back; what is taken makes room, and a port may be routed to itself. */
static void full_output(void)
{
    struct router r;
    fresh(&r);
    puts_packet(&r, 4, "\4 1234567", 8);
    runs(&r, 0, 0, 0, 0);
    runs(&r, 10000, 9, 8, 0);
    SAME(neftolek_router_put(r.state, r.area, AREA, 4, 4), 0);
    SAME(neftolek_router_put(r.state, r.area, AREA, 4, 'x'), 0);
    SAME(neftolek_router_put(r.state, r.area, AREA, 4, 'y'), 0);
    runs(&r, 10000, 2, 1, 0);
    takes(&r, 4, ' ');
    runs(&r, 10000, 2, 1, 0);
}

static void holds(struct router *r, uint32_t port, const uint32_t held[HELD])
{
    SAME(neftolek_router_still_held(r->state, port, r->out), 0);
    SAME_BYTES(r->out, held, sizeof r->out);
}

/* A stops in the middle of a packet from port 1 to port 3, and B's packet from port 2 waits: who holds what. */
static void still_held(void)
{
    static const uint32_t routed[HELD] = {2, 0, 0, 3, 0, 0, 0, 0, 0, 1 << 2, 0};
    static const uint32_t waiting[HELD] = {1, 1 << 3, 0, 0, 2, 0, 0, 0, 0, 1 << 2, 0};
    static const uint32_t owned[HELD] = {0, 0, 0, 0, 0, 1, 1, 1, 1 << 2, 1 << 2, 0};
    static const uint32_t nothing[HELD] = {0, 0, 0, 0, 0, 0, 0, 0, 0, 1 << 2, 1};
    struct router r;
    fresh(&r);
    SAME(neftolek_router_put(r.state, r.area, AREA, 1, 3), 0);
    SAME(neftolek_router_put(r.state, r.area, AREA, 1, 'a'), 0);
    puts_packet(&r, 2, "\3b", 2);
    runs(&r, 10, 2, 1, 0);
    holds(&r, 1, routed);
    holds(&r, 2, waiting);
    holds(&r, 3, owned);
    holds(&r, 4, nothing);
}

int main(void)
{
    one_packet();
    no_such_port();
    rows();
    priority();
    full_output();
    still_held();
    return verdict("router");
}
