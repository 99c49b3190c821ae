/* One side of the whole bench. SIDE(x) is the side's own x: what an end is (struct end) and the calls on it, each of
 * which counts its refusals in the end. No guard: this is included once for each side. */

/* The next N-Char that the host sends: packets of 31 data and an EOP. */
static void SIDE(host_puts)(struct SIDE(end) *e)
{
    unsigned n = e->put % 32 == 31 ? NEFTOLEK_EOP : e->put % 256;
    e->put++;
    SIDE(put)(e, n);
}

/* What the host takes has to be what its neighbour sent. */
static void SIDE(host_takes)(struct SIDE(end) *e)
{
    unsigned n = SIDE(take)(e);
    e->wrong += n != (e->taken % 32 == 31 ? NEFTOLEK_EOP : e->taken % 256);
    e->taken++;
}

/* The bit that goes out now, or NO_BIT. The next token is sent when the last one is out. */
static unsigned SIDE(bit_out)(struct SIDE(end) *e)
{
    unsigned bit;
    if (e->bits_left == 0) {
        struct token sent = SIDE(send)(e);
        if (sent.kind == NEFTOLEK_NOTHING)
            return NO_BIT;
        SIDE(encodes)(e, sent);
        if (sent.kind == NEFTOLEK_NCHAR)
            SIDE(host_puts)(e);
    }
    bit = e->bits & 1;
    e->bits >>= 1;
    e->bits_left--;
    return bit;
}

static void SIDE(reported)(struct SIDE(end) *e, struct token t)
{
    if (t.kind == NEFTOLEK_NOTHING)
        return;
    if (t.kind >= NEFTOLEK_PARITY) {
        e->wrong++;
        return;
    }
    SIDE(receive)(e, t);
    if (t.kind == NEFTOLEK_NCHAR)
        SIDE(host_takes)(e);
}

/* 100 ns: a bit on every line, and a tick. */
static void SIDE(step)(struct SIDE(end) ends[LINKS])
{
    unsigned wire[LINKS];
    for (unsigned k = 0; k < LINKS; k++)
        wire[k] = SIDE(bit_out)(&ends[k]);
    for (unsigned k = 0; k < LINKS; k++) {
        struct SIDE(end) *e = &ends[k];
        if (wire[k ^ 1] != NO_BIT)
            SIDE(reported)(e, SIDE(decode)(e, wire[k ^ 1]));
        SIDE(reported)(e, SIDE(silence)(e));
        SIDE(tick)(e);
    }
}

static struct SIDE(end) SIDE(joined)[LINKS]; /* in Run, with data flowing */

static unsigned SIDE(all_run)(const struct SIDE(end) ends[LINKS], unsigned taken)
{
    unsigned running = 0;
    for (unsigned k = 0; k < LINKS; k++)
        running += SIDE(state)(&ends[k]) == RUN && ends[k].refusals + ends[k].wrong == 0 && ends[k].taken >= taken;
    return running == LINKS;
}

static void SIDE(join)(void)
{
    for (unsigned k = 0; k < LINKS; k++) {
        SIDE(start)(&SIDE(joined)[k]);
        for (unsigned n = 0; n < PLACES / 2; n++)
            SIDE(host_puts)(&SIDE(joined)[k]);
    }
    for (unsigned k = 0; k < STEPS; k++)
        SIDE(step)(SIDE(joined));
}

static unsigned SIDE(whole)(void)
{
    struct SIDE(end) ends[LINKS];
    unsigned taken;
    memcpy(ends, SIDE(joined), sizeof ends);
    taken = ends[0].taken;
    for (unsigned k = 0; k < STEPS; k++)
        SIDE(step)(ends);
    if (!SIDE(all_run)(ends, taken + STEPS / 15))
        not_so("whole bench: an end is not in Run, or its data do not flow");
    for (unsigned k = 0; k < LINKS; k++)
        sum += ends[k].taken;
    return STEPS;
}

#undef SIDE
