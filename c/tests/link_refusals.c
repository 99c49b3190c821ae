/* Every refusal of every call on a link end, each provoked. A refused call changes nothing and answers zero. */
#include "common.h"
#include "neftolek.h"

enum { RX = 16, TX = 8, MOST = NEFTOLEK_LINK_MOST + 1 };

static uint16_t rx[MOST], tx[MOST], rx_before[MOST], tx_before[MOST];

/* All that the calls are handed: the words of the state, the lengths, the numbers, the time record. */
enum {
    END,
    STATE, TIMER, GOT_NULL, NULL_SENT, DISABLED, START, AUTOSTART, HELD, GIVEN, STORED, SENT, TAKEN, WAS_PUT,
    DISCARDING, OFFERED, CODE, RX_FRONT, RX_LENGTH, TX_FRONT, TX_LENGTH,
    RX_LEN, TX_LEN, KIND, VALUE, FAULT_KIND, NCHAR,
    TIME_COUNT, TIME_TICKED,
    WORDS
};

/* An end in Run with one N-Char waiting in each store. */
static const uint32_t good[WORDS] = {
    0,
    5, 0, 1, 1, 0, 1, 0, 8, 8, 1, 0, 0, 0, 0, 0, 0, 3, 1, 2, 1,
    RX, TX, NEFTOLEK_NULL, 0, NEFTOLEK_PARITY, 65,
    0, 0};

enum call { TICK, RECEIVE, FAULT, CONTROL, SEND, RESET, PUT, TAKE, OFFER, CALLS };

static const unsigned out_words[CALLS] = {1, 2, 1, 1, 3, 1, 1, 2, 1};

static uint32_t make(enum call call, uint32_t *w, uint32_t *out)
{
    uint32_t *state = w + STATE;
    size_t rx_len = w[RX_LEN], tx_len = w[TX_LEN];
    switch (call) {
    case TICK:
        return neftolek_link_tick(state, rx, rx_len, tx, tx_len, out);
    case RECEIVE:
        return neftolek_link_receive(state, rx, rx_len, tx, tx_len, w + TIME_COUNT, w[KIND], w[VALUE], out);
    case FAULT:
        return neftolek_link_fault(state, rx, rx_len, tx, tx_len, w[FAULT_KIND], out);
    case CONTROL:
        return neftolek_link_control(state, rx, rx_len, tx, tx_len, 0, 1, 0, out);
    case SEND:
        return neftolek_link_send(state, rx, rx_len, tx, tx_len, out);
    case RESET:
        return neftolek_link_reset(state, rx, rx_len, tx, tx_len, out);
    case PUT:
        return neftolek_link_put(state, tx, tx_len, w[NCHAR], out);
    case TAKE:
        return neftolek_link_take(state, rx, rx_len, out);
    default:
        return neftolek_link_offer(state, 5, out);
    }
}

/* Which calls a row is for: those that are lent both stores, the receive store, the transmit store; all. */
enum {
    BOTH = 1 << TICK | 1 << RECEIVE | 1 << FAULT | 1 << CONTROL | 1 << SEND | 1 << RESET,
    LENT_RX = BOTH | 1 << TAKE,
    LENT_TX = BOTH | 1 << PUT,
    ALL = BOTH | 1 << TAKE | 1 << PUT | 1 << OFFER
};

/* A row: the calls, what they answer, and what is changed of the good end, through END. */
static const struct {
    unsigned calls;
    uint32_t expected;
    struct {
        unsigned word;
        uint32_t value;
    } changes[5];
} rows[] = {
    {ALL, 0, {{END, 0}}},
    /* STATE: words that are no state */
    {ALL, NEFTOLEK_STATE, {{STATE, 6}}},
    {ALL, NEFTOLEK_STATE, {{STATE, 0xffffffff}}},
    {ALL, NEFTOLEK_STATE, {{TIMER, 256}}},
    {ALL, NEFTOLEK_STATE, {{GOT_NULL, 2}}},
    {ALL, NEFTOLEK_STATE, {{NULL_SENT, 2}}},
    {ALL, NEFTOLEK_STATE, {{DISABLED, 2}}},
    {ALL, NEFTOLEK_STATE, {{START, 2}}},
    {ALL, NEFTOLEK_STATE, {{AUTOSTART, 2}}},
    {ALL, NEFTOLEK_STATE, {{STORED, 2}}},
    {ALL, NEFTOLEK_STATE, {{SENT, 2}}},
    {ALL, NEFTOLEK_STATE, {{TAKEN, 2}}},
    {ALL, NEFTOLEK_STATE, {{WAS_PUT, 2}}},
    {ALL, NEFTOLEK_STATE, {{DISCARDING, 2}}},
    {ALL, NEFTOLEK_STATE, {{OFFERED, 2}}},
    {ALL, NEFTOLEK_STATE, {{CODE, 5}}}, /* a value where no Time-Code waits */
    {ALL, NEFTOLEK_STATE, {{OFFERED, 1}, {CODE, 256}}},
    /* either credit above 56; credit outside its states */
    {ALL, NEFTOLEK_STATE, {{HELD, 57}}},
    {ALL & ~LENT_RX, 0, {{GIVEN, 56}}}, /* put and offer do not look at the receive store */
    {ALL, NEFTOLEK_STATE, {{GIVEN, 57}}},
    {ALL, NEFTOLEK_STATE, {{STATE, 4}}}, /* held in Connecting */
    {ALL & ~(1 << OFFER), 0, {{STATE, 4}, {HELD, 0}}},
    {ALL, NEFTOLEK_STATE, {{STATE, 3}, {HELD, 0}}}, /* given out in Started */
    {ALL & ~(1 << OFFER), 0, {{STATE, 3}, {HELD, 0}, {GIVEN, 0}}},
    /* timer at or past its state's limit */
    {ALL & ~(1 << OFFER), 0, {{STATE, 0}, {TIMER, 63}, {HELD, 0}, {GIVEN, 0}}},
    {ALL, NEFTOLEK_STATE, {{STATE, 0}, {TIMER, 64}, {HELD, 0}, {GIVEN, 0}}},
    {ALL & ~(1 << OFFER), 0, {{STATE, 1}, {TIMER, 127}, {HELD, 0}, {GIVEN, 0}}},
    {ALL, NEFTOLEK_STATE, {{STATE, 1}, {TIMER, 128}, {HELD, 0}, {GIVEN, 0}}},
    {ALL, NEFTOLEK_STATE, {{STATE, 2}, {TIMER, 1}, {HELD, 0}, {GIVEN, 0}}},
    {ALL, NEFTOLEK_STATE, {{STATE, 3}, {TIMER, 128}, {HELD, 0}, {GIVEN, 0}}},
    {ALL, NEFTOLEK_STATE, {{STATE, 4}, {TIMER, 128}, {HELD, 0}, {GIVEN, 0}}},
    {ALL, NEFTOLEK_STATE, {{TIMER, 1}}}, /* Run */
    /* time count above 63 */
    {1 << RECEIVE, 0, {{TIME_COUNT, 63}}},
    {1 << RECEIVE, NEFTOLEK_STATE, {{TIME_COUNT, 64}}},
    {1 << RECEIVE, NEFTOLEK_STATE, {{TIME_COUNT, 256}}},
    {1 << RECEIVE, NEFTOLEK_STATE, {{TIME_TICKED, 2}}},
    {1 << RECEIVE, NEFTOLEK_STATE, {{TIME_COUNT, 64}, {RX_LEN, 8}}},
    /* STORE, behind STATE tests that need no size and before those that do */
    {LENT_RX, NEFTOLEK_STORE, {{RX_LEN, 8}, {RX_FRONT, 9}}},
    {LENT_RX, NEFTOLEK_STORE, {{RX_LEN, 0}}},
    {LENT_RX, 0, {{RX_LEN, NEFTOLEK_LINK_MOST}}},
    {LENT_RX, NEFTOLEK_STORE, {{RX_LEN, NEFTOLEK_LINK_MOST + 1}}},
    {LENT_TX, NEFTOLEK_STORE, {{TX_LEN, 0}}},
    {LENT_TX, 0, {{TX_LEN, NEFTOLEK_LINK_MOST}}},
    {LENT_TX, NEFTOLEK_STORE, {{TX_LEN, NEFTOLEK_LINK_MOST + 1}, {TX_FRONT, 5000}}},
    {LENT_RX, NEFTOLEK_STATE, {{RX_LEN, 8}, {GIVEN, 57}}},
    {LENT_RX, NEFTOLEK_STORE, {{RX_LEN, 8}, {GIVEN, 9}}},
    {LENT_RX, NEFTOLEK_STATE, {{RX_LEN, 9}, {GIVEN, 9}, {RX_LENGTH, 0}}},
    /* STATE: tests that need a size */
    {LENT_RX, NEFTOLEK_STATE, {{RX_FRONT, RX}}},
    {LENT_RX, NEFTOLEK_STATE, {{RX_FRONT, 0xffffffff}}},
    {LENT_RX, NEFTOLEK_STATE, {{RX_LENGTH, RX + 1}, {GIVEN, 0}, {STORED, 0}}},
    {LENT_RX, 0, {{RX_LENGTH, RX}, {GIVEN, 0}, {STORED, 0}}},
    {LENT_RX, NEFTOLEK_STATE, {{RX_LENGTH, RX}, {GIVEN, 0}}}, /* last stored data, and no place for an EEP */
    {LENT_RX, 0, {{RX_LENGTH, RX - 9}}},
    {LENT_RX, NEFTOLEK_STATE, {{RX_LENGTH, RX - 8}}}, /* given out 8 wants 9 places */
    {LENT_RX, NEFTOLEK_STATE, {{RX_LENGTH, RX - 8}, {STORED, 0}}},
    {LENT_TX, NEFTOLEK_STATE, {{TX_FRONT, TX}}},
    {LENT_TX, NEFTOLEK_STATE, {{TX_LENGTH, TX + 1}}},
    {LENT_TX, NEFTOLEK_STATE, {{TX_LENGTH, 0xffffffff}}},
    {1 << PUT, 0, {{RX_FRONT, 5000}, {RX_LENGTH, 5000}}}, /* put is not lent the receive store */
    {1 << TAKE, 0, {{TX_FRONT, 5000}, {TX_LENGTH, 5000}}},
    /* CHAR */
    {1 << PUT, 0, {{NCHAR, 257}}},
    {1 << PUT, NEFTOLEK_CHAR, {{NCHAR, 258}}},
    {1 << PUT, NEFTOLEK_CHAR, {{NCHAR, 65536}}}, /* not cut down to 16 bits */
    {1 << PUT, NEFTOLEK_CHAR, {{NCHAR, 258}, {TX_LENGTH, TX}}}, /* before FULL */
    {1 << RECEIVE, 0, {{KIND, 3}, {VALUE, 257}}},
    {1 << RECEIVE, NEFTOLEK_CHAR, {{KIND, 3}, {VALUE, 258}}},
    {1 << RECEIVE, NEFTOLEK_CHAR, {{KIND, 3}, {VALUE, 65536}}},
    {1 << RECEIVE, NEFTOLEK_CHAR, {{KIND, 4}, {VALUE, 256}}},
    {1 << RECEIVE, NEFTOLEK_CHAR, {{KIND, 0}}},
    {1 << RECEIVE, NEFTOLEK_CHAR, {{KIND, 5}}},
    {1 << RECEIVE, NEFTOLEK_CHAR, {{KIND, 257}}},
    {1 << RECEIVE, NEFTOLEK_CHAR, {{KIND, 1}, {VALUE, 1}}},
    {1 << RECEIVE, NEFTOLEK_STATE, {{KIND, 5}, {RX_FRONT, RX}}},
    {1 << FAULT, 0, {{FAULT_KIND, 7}}},
    {1 << FAULT, NEFTOLEK_CHAR, {{FAULT_KIND, 4}}},
    {1 << FAULT, NEFTOLEK_CHAR, {{FAULT_KIND, 8}}},
    {1 << FAULT, NEFTOLEK_STORE, {{FAULT_KIND, 8}, {RX_LEN, 8}}},
    /* NOTRUN, EMPTY, FULL */
    {1 << OFFER, NEFTOLEK_NOTRUN, {{STATE, 4}, {HELD, 0}}},
    {1 << OFFER, NEFTOLEK_NOTRUN, {{STATE, 0}, {HELD, 0}, {GIVEN, 0}}},
    {1 << TAKE, NEFTOLEK_EMPTY, {{RX_LENGTH, 0}}},
    {1 << PUT, NEFTOLEK_FULL, {{TX_LENGTH, TX}}},
    {1 << PUT, 0, {{TX_LENGTH, TX}, {DISCARDING, 1}}}}; /* a full store that is discarding */

static void refuses(unsigned row, enum call call, const uint32_t *before)
{
    enum { UNTOUCHED = 77 };
    uint32_t words[WORDS], out[3] = {UNTOUCHED, UNTOUCHED, UNTOUCHED}, got;
    memcpy(words, before, sizeof words);
    got = make(call, words, out);
    if (got != rows[row].expected)
        printf("row %u, call %d: ", row, call);
    SAME(got, rows[row].expected);
    for (unsigned k = 0; k < 3; k++)
        if (k >= out_words[call])
            SAME(out[k], UNTOUCHED);
        else if (rows[row].expected != 0)
            SAME(out[k], 0);
    if (rows[row].expected != 0) {
        SAME_BYTES(words, before, sizeof words);
        SAME_BYTES(rx, rx_before, sizeof rx);
        SAME_BYTES(tx, tx_before, sizeof tx);
    }
    memcpy(rx, rx_before, sizeof rx);
    memcpy(tx, tx_before, sizeof tx);
}

int main(void)
{
    for (unsigned k = 0; k < MOST; k++)
        rx[k] = tx[k] = rx_before[k] = tx_before[k] = (uint16_t)(k % 300);
    for (unsigned row = 0; row < sizeof rows / sizeof *rows; row++) {
        uint32_t words[WORDS];
        memcpy(words, good, sizeof words);
        for (unsigned c = 0; rows[row].changes[c].word != END; c++)
            words[rows[row].changes[c].word] = rows[row].changes[c].value;
        for (int call = 0; call < CALLS; call++)
            if (rows[row].calls >> call & 1)
                refuses(row, (enum call)call, words);
    }
    return verdict("link refusals");
}
