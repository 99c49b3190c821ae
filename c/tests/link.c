/* Document 01's cases of the link end, through the C interface. */
#include "common.h"
#include "words.h"

struct end {
    uint32_t state[NEFTOLEK_LINK_WORDS], time[NEFTOLEK_TIME_WORDS], out[3];
    uint16_t rx[64], tx[64];
    size_t rx_len, tx_len;
};

static void fresh(struct end *e, size_t rx_len)
{
    memset(e, 0, sizeof *e);
    neftolek_link_fresh(e->state);
    neftolek_time_fresh(e->time);
    e->rx_len = rx_len;
    e->tx_len = 64;
}

static void ticks(struct end *e, int count)
{
    for (; count > 0; count--)
        SAME(neftolek_link_tick(e->state, e->rx, e->rx_len, e->tx, e->tx_len, e->out), 0);
}

static void control(struct end *e, int disabled, int start, int autostart)
{
    SAME(neftolek_link_control(e->state, e->rx, e->rx_len, e->tx, e->tx_len, disabled, start, autostart, e->out), 0);
}

static void receives(struct end *e, uint32_t kind, uint32_t value)
{
    SAME(neftolek_link_receive(e->state, e->rx, e->rx_len, e->tx, e->tx_len, e->time, kind, value, e->out), 0);
}

static void fault(struct end *e, uint32_t kind)
{
    SAME(neftolek_link_fault(e->state, e->rx, e->rx_len, e->tx, e->tx_len, kind, e->out), 0);
}

/* The token that goes out has to be this one. */
static void sends(struct end *e, uint32_t kind, uint32_t value)
{
    SAME(neftolek_link_send(e->state, e->rx, e->rx_len, e->tx, e->tx_len, e->out), 0);
    SAME(e->out[1], kind);
    SAME(e->out[2], value);
}

static void puts_one(struct end *e, uint32_t nchar, uint32_t discarded)
{
    SAME(neftolek_link_put(e->state, e->tx, e->tx_len, nchar, e->out), 0);
    SAME(e->out[0], discarded);
}

static void takes(struct end *e, uint32_t nchar)
{
    SAME(neftolek_link_take(e->state, e->rx, e->rx_len, e->out), 0);
    SAME(e->out[1], nchar);
}

/* By calls alone to Connecting, and on to Run. */
static void connecting(struct end *e, size_t rx_len)
{
    fresh(e, rx_len);
    ticks(e, 192);
    control(e, 0, 1, 0);
    receives(e, NEFTOLEK_NULL, 0);
    sends(e, NEFTOLEK_NULL, 0);
    SAME(e->state[STATE_WORD], CONNECTING);
}

static void running(struct end *e, size_t rx_len)
{
    connecting(e, rx_len);
    receives(e, NEFTOLEK_FCT, 0);
    SAME(e->state[STATE_WORD], RUN);
    SAME(e->state[HELD_WORD], 8);
}

/* "Tick 63: ErrorReset; 64: ErrorWait; 192: Ready; with LinkStart, 193: Started." */
static void tick_case(void)
{
    struct end e;
    fresh(&e, 9);
    control(&e, 0, 1, 0);
    ticks(&e, 63);
    SAME(e.state[STATE_WORD], ERROR_RESET);
    ticks(&e, 1);
    SAME(e.state[STATE_WORD], ERROR_WAIT);
    ticks(&e, 127);
    SAME(e.state[STATE_WORD], ERROR_WAIT);
    ticks(&e, 1);
    SAME(e.state[STATE_WORD], READY);
    ticks(&e, 1);
    SAME(e.state[STATE_WORD], STARTED);
    ticks(&e, 128);
    SAME(e.state[STATE_WORD], ERROR_RESET);
}

/* "Credit held 48 and FCT: 56. Held 49: credit error." */
static void held_case(void)
{
    struct end e;
    running(&e, 9);
    e.state[HELD_WORD] = 48;
    receives(&e, NEFTOLEK_FCT, 0);
    SAME(e.state[HELD_WORD], 56);
    SAME(e.state[STATE_WORD], RUN);
    e.state[HELD_WORD] = 49;
    receives(&e, NEFTOLEK_FCT, 0);
    SAME(e.state[STATE_WORD], ERROR_RESET);
    SAME(e.state[HELD_WORD], 0);
}

/* "Given out 48, free 57: FCT may go; free 56: not. Given out 49: never." */
static void given_case(void)
{
    struct end e;
    running(&e, 57);
    e.state[GIVEN_WORD] = 48;
    sends(&e, NEFTOLEK_FCT, 0);
    SAME(e.state[GIVEN_WORD], 56);
    running(&e, 56);
    e.state[GIVEN_WORD] = 48;
    sends(&e, NEFTOLEK_NULL, 0);
    running(&e, 64);
    e.state[GIVEN_WORD] = 49;
    sends(&e, NEFTOLEK_NULL, 0);
}

/* "Given out 1, N-Char: stored. Given out 0: credit error." The open packet is then closed by an EEP. */
static void nchar_case(void)
{
    struct end e;
    running(&e, 9);
    e.state[GIVEN_WORD] = 1;
    receives(&e, NEFTOLEK_NCHAR, 65);
    SAME(e.state[STATE_WORD], RUN);
    SAME(e.state[GIVEN_WORD], 0);
    SAME(e.state[RX_LENGTH_WORD], 1);
    receives(&e, NEFTOLEK_NCHAR, 66);
    SAME(e.state[STATE_WORD], ERROR_RESET);
    takes(&e, 65);
    takes(&e, NEFTOLEK_EEP);
    SAME(neftolek_link_take(e.state, e.rx, e.rx_len, e.out), NEFTOLEK_EMPTY);
}

/* "Connecting, empty receive store of 9, given out 0: first send FCT, second NULL." */
static void connecting_case(void)
{
    struct end e;
    connecting(&e, 9);
    sends(&e, NEFTOLEK_FCT, 0);
    sends(&e, NEFTOLEK_NULL, 0);
}

/* "Count 63, Time-Code 0: tick. Count 63, Time-Code 1: dropped." */
static void time_case(void)
{
    struct end e;
    running(&e, 9);
    e.time[0] = 63;
    receives(&e, NEFTOLEK_TIMECODE, 1);
    SAME(e.out[1], 0);
    SAME(e.time[0], 63);
    receives(&e, NEFTOLEK_TIMECODE, 0xc0); /* only the low six bits count */
    SAME(e.out[1], 1);
    SAME(e.time[0], 0);
    SAME(neftolek_link_offer(e.state, 5, e.out), 0);
    SAME(neftolek_link_offer(e.state, 6, e.out), 0);
    sends(&e, NEFTOLEK_TIMECODE, 6);
}

/* "Ending the discard when the store runs dry. The rest of the packet is still to come." */
static void cut_packet(void)
{
    struct end e;
    running(&e, 9);
    e.state[GIVEN_WORD] = 1; /* no FCT may go, so that N-Chars do */
    puts_one(&e, 65, 0);
    puts_one(&e, 66, 0);
    sends(&e, NEFTOLEK_NCHAR, 65);
    fault(&e, NEFTOLEK_PARITY);
    SAME(e.state[STATE_WORD], ERROR_RESET);
    SAME(e.out[0], 1);
    puts_one(&e, 67, 1);
    puts_one(&e, NEFTOLEK_EOP, 1);
    puts_one(&e, 1, 0);
    puts_one(&e, NEFTOLEK_EOP, 0);
    SAME(e.state[TX_LENGTH_WORD], 2);
}

/* Reset behind a packet of which the host has taken and put a part. */
static void reset_case(void)
{
    struct end e;
    running(&e, 9);
    e.state[GIVEN_WORD] = 8;
    receives(&e, NEFTOLEK_NCHAR, 65);
    receives(&e, NEFTOLEK_NCHAR, 66);
    takes(&e, 65);
    puts_one(&e, 1, 0);
    puts_one(&e, 2, 0);
    SAME(neftolek_link_reset(e.state, e.rx, e.rx_len, e.tx, e.tx_len, e.out), 0);
    SAME(e.out[0], 2);
    SAME(e.state[STATE_WORD], ERROR_RESET);
    takes(&e, NEFTOLEK_EEP);
    puts_one(&e, 3, 1);
    puts_one(&e, NEFTOLEK_EOP, 1);
    puts_one(&e, 4, 0);
}

int main(void)
{
    tick_case();
    held_case();
    given_case();
    nchar_case();
    connecting_case();
    time_case();
    cut_packet();
    reset_case();
    return verdict("link");
}
