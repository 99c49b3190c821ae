/* Neftolek: SpaceWire characters, link ends and a router of eleven ports, for C and C++.
 *
 * Link with target/staticlib/libneftolek.a (`c/archive` makes it; x86-64). Every call behind this header is
 * proved to do what the specification says, whatever it is handed.
 *
 * The shape of every call:
 *   - A state is an array of 32-bit words that you own: NEFTOLEK_.._WORDS says how many. Make it with the .._fresh
 *     call, hand it to every call, copy it as you like. There is no hidden state, no allocation and no lock: calls on
 *     different states may run at the same time.
 *   - The result is 0, or the number of the refusal (below). A refused call leaves every state, store, area and table
 *     as it was, and its `out` words are zero.
 *   - `out` receives the further answers, in the order that each call names. It is always written.
 *   - Stores and areas are arrays of 16-bit places that you own and lend to each call; lengths count places, not bytes.
 *     Always lend the same places with the same state. Pointers must not be null, also where the length is 0.
 *   - What a call may change must not overlap anything else that it is handed.
 *   - Where a call takes a truth or a bit, 0 is false and anything else is true.
 *
 * Any words at all may be handed in as a state: words that no call leaves are refused as NEFTOLEK_STATE. */
#ifndef NEFTOLEK_H
#define NEFTOLEK_H

#include <stddef.h>
#include <stdint.h>

#ifdef __cplusplus
extern "C" {
#endif

/* The refusals. Each call tests, in this order, those that it names. STATE tests that need the size of a store come
 * after STORE. */
enum {
    NEFTOLEK_STATE = 1,   /* the state is none that calls leave, or does not fit its stores */
    NEFTOLEK_STORE = 2,   /* a store or the area has a size that is not allowed */
    NEFTOLEK_PORT = 3,    /* a port above 10 */
    NEFTOLEK_ROW = 4,     /* a row outside 32 to 255 */
    NEFTOLEK_CHAR = 5,    /* an N-Char above 257, or no token or no fault at all */
    NEFTOLEK_ROUNDS = 6,  /* more than 10,000 rounds */
    NEFTOLEK_STOPPED = 7, /* a bit or a tick for a decoder that has reported an error */
    NEFTOLEK_NOTRUN = 8,  /* a Time-Code offered outside Run */
    NEFTOLEK_EMPTY = 9,   /* nothing to take */
    NEFTOLEK_FULL = 10    /* no place to put to */
};

/* Words of each state. */
enum {
    NEFTOLEK_DECODER_WORDS = 7,
    NEFTOLEK_ENCODER_WORDS = 1,
    NEFTOLEK_TIME_WORDS = 2,
    NEFTOLEK_LINK_WORDS = 20,
    NEFTOLEK_ROUTER_WORDS = 110,
    NEFTOLEK_TABLE_ROWS = 256
};

/* Places that a store may have. The router's area has 22 equal stores. */
enum {
    NEFTOLEK_RECEIVE_LEAST = 9,
    NEFTOLEK_TRANSMIT_LEAST = 1,
    NEFTOLEK_LINK_MOST = 4096,
    NEFTOLEK_ROUTER_STORES = 22,
    NEFTOLEK_ROUTER_LEAST = 9,
    NEFTOLEK_ROUTER_MOST = 1024
};

/* N-Chars: 0 to 255 are data, and these two end a packet. */
enum {
    NEFTOLEK_EOP = 256, /* the end of a packet */
    NEFTOLEK_EEP = 257  /* the end of a packet that was cut off */
};

/* Kinds: what is sent and received (1 to 4, tokens), and what else a decoder reports (5 to 7, faults). */
enum {
    NEFTOLEK_NOTHING = 0,
    NEFTOLEK_NULL = 1,       /* value 0 */
    NEFTOLEK_FCT = 2,        /* value 0 */
    NEFTOLEK_NCHAR = 3,      /* value 0 to 257 */
    NEFTOLEK_TIMECODE = 4,   /* value 0 to 255 */
    NEFTOLEK_PARITY = 5,     /* parity error */
    NEFTOLEK_ESCAPE = 6,     /* escape error */
    NEFTOLEK_DISCONNECT = 7  /* nine ticks without a bit */
};

/* ---- Characters on the wire ------------------------------------------------------------------------------------- */

/* A decoder that has heard nothing. */
void neftolek_decoder_fresh(uint32_t state[NEFTOLEK_DECODER_WORDS]);

/* One bit of the line. out: the kind that is reported now, NEFTOLEK_NOTHING at most bits, and its value. A character is
 * reported two bits late, at the flag that closes its parity; the first NULL at once. After an error make it fresh.
 * Refuses: STATE, STOPPED.
 *
 *     if (neftolek_decoder_bit(decoder, bit, out) == 0 && out[0] == NEFTOLEK_NCHAR)
 *         printf("%u\n", (unsigned)out[1]); */
uint32_t neftolek_decoder_bit(uint32_t state[NEFTOLEK_DECODER_WORDS], uint32_t bit, uint32_t out[2]);

/* One tick of the clock. out: as for a bit; the ninth tick in a row behind a bit reports NEFTOLEK_DISCONNECT.
 * Refuses: STATE, STOPPED. */
uint32_t neftolek_decoder_tick(uint32_t state[NEFTOLEK_DECODER_WORDS], uint32_t out[2]);

/* An encoder before its first character. */
void neftolek_encoder_fresh(uint32_t state[NEFTOLEK_ENCODER_WORDS]);

/* The bits of a token, given as kind and value. out: the bits as a number, the first to send least significant, and
 * their count: 4 for FCT, EOP and EEP, 8 for NULL, 10 for data, 14 for a Time-Code.
 * Refuses: STATE, CHAR. */
uint32_t neftolek_encode(uint32_t state[NEFTOLEK_ENCODER_WORDS], uint32_t kind, uint32_t value, uint32_t out[2]);

/* ---- A link end -------------------------------------------------------------------------------------------------
 *
 * The host lends 9 to 4,096 places `rx` for what is received and 1 to 4,096 places `tx` for what is to be sent. In all
 * calls out[0] is how many of its host's N-Chars the call discarded.
 *
 * Where a call names STATE and STORE, it tests the record, then the sizes of the stores that it is lent, then whether
 * the record fits them. */

/* The time counter: one record, lent to every link of a bench. Word 0 is the count, word 1 whether the last Time-Code
 * gave a tick out. */
void neftolek_time_fresh(uint32_t time[NEFTOLEK_TIME_WORDS]);

/* An end in ErrorReset, controls off, both stores empty. Word 0 of a link's state is its link state: 0 ErrorReset,
 * 1 ErrorWait, 2 Ready, 3 Started, 4 Connecting, 5 Run. */
void neftolek_link_fresh(uint32_t state[NEFTOLEK_LINK_WORDS]);

/* One tick of the clock. out: discarded. Refuses: STATE, STORE. */
uint32_t neftolek_link_tick(uint32_t state[NEFTOLEK_LINK_WORDS], uint16_t *rx, size_t rx_len, const uint16_t *tx,
                            size_t tx_len, uint32_t out[1]);

/* A token came over the line. out: discarded, and 1 where a Time-Code gave a tick out. Refuses: STATE (of the time
 * record too), STORE, CHAR. */
uint32_t neftolek_link_receive(uint32_t state[NEFTOLEK_LINK_WORDS], uint16_t *rx, size_t rx_len, const uint16_t *tx,
                               size_t tx_len, uint32_t time[NEFTOLEK_TIME_WORDS], uint32_t kind, uint32_t value,
                               uint32_t out[2]);

/* The decoder reported a fault: NEFTOLEK_PARITY, NEFTOLEK_ESCAPE or NEFTOLEK_DISCONNECT. out: discarded.
 * Refuses: STATE, STORE, CHAR (any other kind). */
uint32_t neftolek_link_fault(uint32_t state[NEFTOLEK_LINK_WORDS], uint16_t *rx, size_t rx_len, const uint16_t *tx,
                             size_t tx_len, uint32_t kind, uint32_t out[1]);

/* LinkDisabled, LinkStart and AutoStart, all three at once. out: discarded. Refuses: STATE, STORE. */
uint32_t neftolek_link_control(uint32_t state[NEFTOLEK_LINK_WORDS], uint16_t *rx, size_t rx_len, const uint16_t *tx,
                               size_t tx_len, uint32_t disabled, uint32_t start, uint32_t autostart, uint32_t out[1]);

/* The token that is due. out: discarded, its kind (NEFTOLEK_NOTHING before Started) and its value; these two go to
 * neftolek_encode. Refuses: STATE, STORE. */
uint32_t neftolek_link_send(uint32_t state[NEFTOLEK_LINK_WORDS], uint16_t *rx, size_t rx_len, const uint16_t *tx,
                            size_t tx_len, uint32_t out[3]);

/* The host puts an N-Char to be sent, in any link state. out: discarded, 1 where the packet that it belongs to was cut
 * off and the N-Char is therefore discarded. Refuses: STATE, STORE, CHAR, FULL. */
uint32_t neftolek_link_put(uint32_t state[NEFTOLEK_LINK_WORDS], uint16_t *tx, size_t tx_len, uint32_t nchar,
                           uint32_t out[1]);

/* The host takes an N-Char that was received. out: discarded (0), and the N-Char. Refuses: STATE, STORE, EMPTY.
 *
 *     while (neftolek_link_take(link, rx, 64, out) == 0)
 *         use(out[1]); */
uint32_t neftolek_link_take(uint32_t state[NEFTOLEK_LINK_WORDS], const uint16_t *rx, size_t rx_len, uint32_t out[2]);

/* The host offers a Time-Code, which the next send in Run sends; a second offer replaces the first. out: discarded (0).
 * Refuses: STATE, NOTRUN. */
uint32_t neftolek_link_offer(uint32_t state[NEFTOLEK_LINK_WORDS], uint8_t code, uint32_t out[1]);

/* To ErrorReset from any state, both stores emptied, controls kept. out: discarded, the N-Chars that waited in `tx`.
 * Refuses: STATE, STORE. */
uint32_t neftolek_link_reset(uint32_t state[NEFTOLEK_LINK_WORDS], uint16_t *rx, size_t rx_len, const uint16_t *tx,
                             size_t tx_len, uint32_t out[1]);

/* ---- The router -------------------------------------------------------------------------------------------------
 *
 * Ports 0 to 10: 0 configuration, 1 to 8 links, 9 and 10 external. The host lends one area of 22 equal stores of 9 to
 * 1,024 places: the eleven input stores, then the eleven output stores. */

/* Idle inputs, free outputs, empty stores. */
void neftolek_router_fresh(uint32_t state[NEFTOLEK_ROUTER_WORDS]);

/* Every row 0x80000000: invalid. */
void neftolek_table_fresh(uint32_t table[NEFTOLEK_TABLE_ROWS]);

/* One N-Char to a port's input store. Refuses: STATE, STORE, PORT, CHAR, FULL. */
uint32_t neftolek_router_put(uint32_t state[NEFTOLEK_ROUTER_WORDS], uint16_t *area, size_t area_len, uint32_t port,
                             uint32_t nchar);

/* One N-Char from a port's output store. out: the N-Char. Refuses: STATE, STORE, PORT, EMPTY. */
uint32_t neftolek_router_take(uint32_t state[NEFTOLEK_ROUTER_WORDS], const uint16_t *area, size_t area_len,
                              uint32_t port, uint32_t out[1]);

/* Up to `limit` rounds, through the first that changes nothing. out: rounds run (that one counted), N-Chars moved from
 * an input to an output, address errors met. Refuses: STATE, STORE, ROUNDS. */
uint32_t neftolek_router_run(uint32_t state[NEFTOLEK_ROUTER_WORDS], uint16_t *area, size_t area_len,
                             const uint32_t table[NEFTOLEK_TABLE_ROWS], uint32_t limit, uint32_t out[3]);

/* Writes a row: bits 10..1 request ports 10..1, 29 deletes the header, 30 is high priority, 31 invalid; the others are
 * cleared, and a row that requests no port becomes 0x80000000. Refuses: STATE, ROW.
 *
 *     neftolek_router_write_row(router, table, 39, 1u << 2);    address 39 goes out at port 2 */
uint32_t neftolek_router_write_row(const uint32_t state[NEFTOLEK_ROUTER_WORDS], uint32_t table[NEFTOLEK_TABLE_ROWS],
                                   uint32_t row, uint32_t value);

/* Reads a row. out: its value. Refuses: STATE, ROW. */
uint32_t neftolek_router_read_row(const uint32_t state[NEFTOLEK_ROUTER_WORDS],
                                  const uint32_t table[NEFTOLEK_TABLE_ROWS], uint32_t row, uint32_t out[1]);

/* What is still held through a port, for logout. out: the input's mode (0 idle, 1 waiting, 2 routed, 3 spilling), the
 * set of ports that it waits for, whether at high priority, the output that it is routed to, how many N-Chars wait there;
 * whether the output is held (0 or 1), by which input, how many N-Chars wait there; the set of inputs that wait for this
 * output, the set of inputs with N-Chars waiting, and whether nothing is held (0 or 1). In a set bit p is port p.
 * Refuses: STATE, PORT.
 *
 *     if (neftolek_router_still_held(router, 1, out) == 0 && out[10] && out[9] == 0)
 *         what leaves port 1 from here on was put from here on */
uint32_t neftolek_router_still_held(const uint32_t state[NEFTOLEK_ROUTER_WORDS], uint32_t port, uint32_t out[11]);

#ifdef __cplusplus
}
#endif

#endif
