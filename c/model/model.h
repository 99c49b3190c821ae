/* A plain model of document 01, written from the paper and independent of the proved code.
 *
 * Each call stands twice. Those named model_.. test nothing of what they are handed: what a bench would write without
 * proofs. Those named tested_.. make document 01's tests first: they answer 0, or the number of the first refusal that
 * applies, and then leave everything as it was and their further answer zero. */
#ifndef MODEL_H
#define MODEL_H

#include <stdbool.h>
#include <stdint.h>

enum {
    MODEL_STATE = 1,
    MODEL_STORE,
    MODEL_PORT,
    MODEL_ROW,
    MODEL_CHAR,
    MODEL_ROUNDS,
    MODEL_STOPPED,
    MODEL_NOTRUN,
    MODEL_EMPTY,
    MODEL_FULL
};

/* Characters on the wire */

enum { MODEL_EOP = 256, MODEL_EEP = 257 };

/* Tokens, and beside them what else a decoder reports. */
enum model_kind { NOTHING, GOT_NULL, GOT_FCT, GOT_NCHAR, GOT_TIMECODE, PARITY_ERROR, ESCAPE_ERROR, DISCONNECT };

struct model_token {
    uint16_t kind;
    uint16_t value;
};

/* First sent least significant. */
struct model_bits {
    uint16_t bits;
    uint16_t count;
};

struct model_encoder {
    bool odd; /* the ones in the last body are odd in number */
};

enum model_phase { FRESH, HUNTING, AT_PARITY, AT_FLAG, IN_DATA, IN_CONTROL, STOPPED };

struct model_decoder {
    uint8_t phase;
    uint8_t ticks;  /* since the last bit */
    uint8_t window; /* hunting: the last eight bits, the newest least significant */
    bool parity;    /* at a flag: the parity bit before it */
    bool escape;    /* an ESC stands before this character */
    uint8_t count;  /* bits of the body so far */
    uint8_t body;   /* the bits, first least significant */
    bool odd;       /* the ones in the previous body are odd in number */
    struct model_token waiting;
};

struct model_bits model_encode(struct model_encoder *e, struct model_token t);
struct model_token model_decoder_bit(struct model_decoder *d, bool bit);
struct model_token model_decoder_tick(struct model_decoder *d);

unsigned tested_encode(struct model_encoder *e, struct model_token t, struct model_bits *bits);
unsigned tested_decoder_bit(struct model_decoder *d, bool bit, struct model_token *report);
unsigned tested_decoder_tick(struct model_decoder *d, struct model_token *report);

/* Stores: what is kept of one, and its places, which the host lends. */

struct model_store {
    uint32_t front;
    uint32_t length;
};

struct model_places {
    uint16_t *at;
    uint32_t size;
};

/* The link end */

enum model_state { ERROR_RESET, ERROR_WAIT, READY, STARTED, CONNECTING, RUN };

struct model_link {
    uint8_t state, timer;
    bool got_null, null_sent;
    bool disabled, start, autostart;
    uint8_t held, given;
    bool stored_data, sent_data, taken_data, put_data; /* the last such N-Char was data */
    bool discarding;
    bool offered;
    uint8_t code; /* the waiting Time-Code, 0 where none is offered */
    struct model_store rx, tx;
};

struct model_time {
    uint8_t count;
    bool ticked; /* the last Time-Code gave a tick out */
};

struct model_receipt {
    uint32_t discarded;
    bool tick;
};

struct model_dispatch {
    uint32_t discarded;
    struct model_token sent;
};

/* Each answers how many of its host's N-Chars it discarded; take answers the N-Char. */
uint32_t model_link_tick(struct model_link *l, struct model_places rx, struct model_places tx);
uint32_t model_link_fault(struct model_link *l, struct model_places rx, struct model_places tx, enum model_kind fault);
uint32_t model_link_control(struct model_link *l, struct model_places rx, struct model_places tx, bool disabled,
                            bool start, bool autostart);
uint32_t model_link_reset(struct model_link *l, struct model_places rx);
struct model_receipt model_link_receive(struct model_link *l, struct model_places rx, struct model_places tx,
                                        struct model_time *time, struct model_token t);
struct model_dispatch model_link_send(struct model_link *l, struct model_places rx, struct model_places tx);
uint32_t model_link_put(struct model_link *l, struct model_places tx, uint16_t n);
uint16_t model_link_take(struct model_link *l, struct model_places rx);
void model_link_offer(struct model_link *l, uint8_t code);

unsigned tested_link_tick(struct model_link *l, struct model_places rx, struct model_places tx, uint32_t *discarded);
unsigned tested_link_fault(struct model_link *l, struct model_places rx, struct model_places tx, uint32_t fault,
                           uint32_t *discarded);
unsigned tested_link_control(struct model_link *l, struct model_places rx, struct model_places tx, bool disabled,
                             bool start, bool autostart, uint32_t *discarded);
unsigned tested_link_reset(struct model_link *l, struct model_places rx, struct model_places tx, uint32_t *discarded);
unsigned tested_link_receive(struct model_link *l, struct model_places rx, struct model_places tx,
                             struct model_time *time, struct model_token t, struct model_receipt *receipt);
unsigned tested_link_send(struct model_link *l, struct model_places rx, struct model_places tx,
                          struct model_dispatch *dispatch);
unsigned tested_link_put(struct model_link *l, struct model_places tx, uint32_t n, uint32_t *discarded);
unsigned tested_link_take(struct model_link *l, struct model_places rx, uint16_t *n);
unsigned tested_link_offer(struct model_link *l, uint8_t code);

/* The router */

enum { MODEL_PORTS = 11, MODEL_ROWS = 256, MODEL_HELD = 11 };

#define MODEL_INVALID_ROW UINT32_C(0x80000000)

enum model_mode { IDLE, WAITING, ROUTED, SPILLING };

struct model_input {
    uint8_t mode;
    bool high;
    uint16_t ports;  /* waiting: bit p wants port p */
    uint32_t output; /* routed */
};

struct model_output {
    bool owned;
    uint32_t owner;
    uint32_t last; /* the last granted input */
};

struct model_router {
    struct model_input inputs[MODEL_PORTS];
    struct model_output outputs[MODEL_PORTS];
    struct model_store in[MODEL_PORTS];
    struct model_store out[MODEL_PORTS];
};

struct model_ran {
    uint32_t rounds, moved, errors;
};

/* The area has 22 equal stores: the eleven inputs, then the eleven outputs. */
void model_router_fresh(struct model_router *r);
void model_table_fresh(uint32_t table[MODEL_ROWS]);
void model_router_put(struct model_router *r, struct model_places area, unsigned port, uint16_t n);
uint16_t model_router_take(struct model_router *r, struct model_places area, unsigned port);
void model_row_write(uint32_t table[MODEL_ROWS], unsigned row, uint32_t value);

/* The run as the paper has it, which looks at every input for every output in every round; one that looks only at the
 * outputs that are wanted; and one that keeps through the run which inputs have something to do. They leave and answer
 * the same. */
struct model_ran model_router_run(struct model_router *r, struct model_places area, const uint32_t table[MODEL_ROWS],
                                  unsigned limit);
struct model_ran sensible_router_run(struct model_router *r, struct model_places area,
                                     const uint32_t table[MODEL_ROWS], unsigned limit);
struct model_ran sets_router_run(struct model_router *r, struct model_places area, const uint32_t table[MODEL_ROWS],
                                 unsigned limit);

/* What is still held through a port: its input's mode, wanted ports, high priority, output and length; whether its
 * output is owned, the owner, its length; the inputs that wait for it, those that hold N-Chars, and whether nothing is
 * held. */
void model_router_held(const struct model_router *r, unsigned port, uint32_t held[MODEL_HELD]);

unsigned tested_router_put(struct model_router *r, struct model_places area, uint32_t port, uint32_t n);
unsigned tested_router_take(struct model_router *r, struct model_places area, uint32_t port, uint16_t *n);
unsigned tested_router_run(struct model_router *r, struct model_places area, const uint32_t table[MODEL_ROWS],
                           uint32_t limit, struct model_ran *ran);
unsigned tested_sensible_run(struct model_router *r, struct model_places area, const uint32_t table[MODEL_ROWS],
                             uint32_t limit, struct model_ran *ran);
unsigned tested_sets_run(struct model_router *r, struct model_places area, const uint32_t table[MODEL_ROWS],
                         uint32_t limit, struct model_ran *ran);
unsigned tested_row_write(const struct model_router *r, uint32_t table[MODEL_ROWS], uint32_t row, uint32_t value);
unsigned tested_row_read(const struct model_router *r, const uint32_t table[MODEL_ROWS], uint32_t row,
                         uint32_t *value);
unsigned tested_router_held(const struct model_router *r, uint32_t port, uint32_t held[MODEL_HELD]);

#endif
