/* Every refusal of every call on the router, each provoked. A refused call changes nothing and answers zero. */
#include "common.h"
#include "words.h"

enum { PLACES = 9, AREA = NEFTOLEK_ROUTER_STORES * PLACES, MOST = NEFTOLEK_ROUTER_STORES * (NEFTOLEK_ROUTER_MOST + 1) };

static uint16_t area[MOST], area_before[MOST];

/* All that the calls are handed: the words of the state from 1 on, the area's length, the numbers. */
enum {
    END,
    STATE,
    INPUT_1 = STATE + INPUT_WORD(1),
    OUTPUT_3 = STATE + OUTPUT_WORD(3),
    STORE_IN_3 = STATE + IN_STORE_WORD(3),
    STORE_OUT_3 = STATE + OUT_STORE_WORD(3),
    STORE_OUT_10 = STATE + OUT_STORE_WORD(10),
    AREA_LEN = STATE + NEFTOLEK_ROUTER_WORDS, PORT, NCHAR, LIMIT, ROW,
    WORDS
};

enum call { PUT, TAKE, RUN_ROUNDS, WRITE_ROW, READ_ROW, STILL_HELD, CALLS };

enum { OUT = 11 };

static const unsigned out_words[CALLS] = {0, 1, 3, 0, 1, OUT};

static uint32_t make(enum call call, uint32_t *w, uint32_t *table, uint32_t *out)
{
    switch (call) {
    case PUT:
        return neftolek_router_put(w + STATE, area, w[AREA_LEN], w[PORT], w[NCHAR]);
    case TAKE:
        return neftolek_router_take(w + STATE, area, w[AREA_LEN], w[PORT], out);
    case RUN_ROUNDS:
        return neftolek_router_run(w + STATE, area, w[AREA_LEN], table, w[LIMIT], out);
    case WRITE_ROW:
        return neftolek_router_write_row(w + STATE, table, w[ROW], 4);
    case READ_ROW:
        return neftolek_router_read_row(w + STATE, table, w[ROW], out);
    default:
        return neftolek_router_still_held(w + STATE, w[PORT], out);
    }
}

/* Which calls a row is for. */
enum {
    HELD = 1 << STILL_HELD,
    PORTS = 1 << PUT | 1 << TAKE,
    LENT_AREA = PORTS | 1 << RUN_ROUNDS,
    ROWS = 1 << WRITE_ROW | 1 << READ_ROW,
    ALL = LENT_AREA | ROWS | HELD
};

/* A row: the calls, what they answer, and what is changed of a good state, through END. */
static const struct {
    unsigned calls;
    uint32_t expected;
    struct {
        unsigned word;
        uint32_t value;
    } changes[5];
} rows[] = {
    {ALL, 0, {{END, 0}}},
    /* STATE: words that are no state */
    {ALL, NEFTOLEK_STATE, {{INPUT_1, 4}}},
    {ALL, NEFTOLEK_STATE, {{INPUT_1 + 1, 1}}},
    {ALL, NEFTOLEK_STATE, {{INPUT_1 + 2, 1}}},
    {ALL, NEFTOLEK_STATE, {{INPUT_1, 1}, {INPUT_1 + 1, 65536}}},
    {ALL, NEFTOLEK_STATE, {{INPUT_1, 1}, {INPUT_1 + 1, 8}, {INPUT_1 + 2, 2}}},
    {ALL, NEFTOLEK_STATE, {{OUTPUT_3, 2}}},
    {ALL, NEFTOLEK_STATE, {{OUTPUT_3 + 1, 1}}},
    /* a waiting input that wants no port, or one above 10 */
    {ALL, 0, {{INPUT_1, 1}, {INPUT_1 + 1, 2047}, {INPUT_1 + 2, 1}}},
    {ALL, NEFTOLEK_STATE, {{INPUT_1, 1}, {INPUT_1 + 1, 0}}},
    {ALL, NEFTOLEK_STATE, {{INPUT_1, 1}, {INPUT_1 + 1, 2048}}},
    /* an output whose owner isn't routed to it, or the reverse */
    {ALL, 0, {{INPUT_1, 2}, {INPUT_1 + 1, 3}, {OUTPUT_3, 1}, {OUTPUT_3 + 1, 1}}},
    {ALL, NEFTOLEK_STATE, {{INPUT_1, 2}, {INPUT_1 + 1, 3}}},
    {ALL, NEFTOLEK_STATE, {{OUTPUT_3, 1}, {OUTPUT_3 + 1, 1}}},
    {ALL, NEFTOLEK_STATE, {{INPUT_1, 2}, {INPUT_1 + 1, 4}, {OUTPUT_3, 1}, {OUTPUT_3 + 1, 1}}},
    {ALL, NEFTOLEK_STATE, {{INPUT_1, 2}, {INPUT_1 + 1, 3}, {OUTPUT_3, 1}, {OUTPUT_3 + 1, 2}}},
    /* a port number above 10 */
    {ALL, NEFTOLEK_STATE, {{INPUT_1, 2}, {INPUT_1 + 1, 11}}},
    {ALL, NEFTOLEK_STATE, {{OUTPUT_3, 1}, {OUTPUT_3 + 1, 11}}},
    {ALL, NEFTOLEK_STATE, {{OUTPUT_3 + 2, 11}}},
    {ALL, NEFTOLEK_STATE, {{OUTPUT_3 + 2, 0xffffffff}}},
    {ALL, 0, {{INPUT_1, 3}}},
    /* STORE */
    {LENT_AREA, NEFTOLEK_STORE, {{AREA_LEN, AREA - NEFTOLEK_ROUTER_STORES}}},
    {LENT_AREA, NEFTOLEK_STORE, {{AREA_LEN, AREA + 1}}},
    {LENT_AREA, NEFTOLEK_STORE, {{AREA_LEN, AREA + NEFTOLEK_ROUTER_STORES - 1}, {PORT, 11}}},
    {LENT_AREA, NEFTOLEK_STORE, {{AREA_LEN, 0}}},
    {LENT_AREA, 0, {{AREA_LEN, NEFTOLEK_ROUTER_STORES * NEFTOLEK_ROUTER_MOST}}},
    {LENT_AREA, NEFTOLEK_STORE, {{AREA_LEN, MOST}}},
    {LENT_AREA, NEFTOLEK_STATE, {{AREA_LEN, 0}, {INPUT_1, 4}}},
    {LENT_AREA, NEFTOLEK_STORE, {{AREA_LEN, AREA - NEFTOLEK_ROUTER_STORES}, {STORE_IN_3, 9}}},
    /* STATE: tests that need a size; row calls and what is held are lent no area */
    {LENT_AREA, NEFTOLEK_STATE, {{STORE_IN_3, PLACES}, {PORT, 11}}},
    {LENT_AREA, NEFTOLEK_STATE, {{STORE_IN_3 + 1, PLACES + 1}, {LIMIT, 10001}}},
    {LENT_AREA, NEFTOLEK_STATE, {{STORE_OUT_3, PLACES}}},
    {LENT_AREA, NEFTOLEK_STATE, {{STORE_OUT_10 + 1, PLACES + 1}}},
    {LENT_AREA, NEFTOLEK_STATE, {{STORE_OUT_10, 0xffffffff}}},
    {ROWS | HELD, 0, {{STORE_OUT_3, 5000}}},
    /* PORT, ROW, CHAR, ROUNDS */
    {PORTS | HELD, 0, {{PORT, 10}, {STORE_OUT_10 + 1, 1}}},
    {PORTS | HELD, NEFTOLEK_PORT, {{PORT, 11}, {NCHAR, 999}}},
    {PORTS | HELD, NEFTOLEK_PORT, {{PORT, 0xffffffff}}},
    {HELD, NEFTOLEK_STATE, {{PORT, 11}, {INPUT_1, 4}}},
    {ROWS, NEFTOLEK_ROW, {{ROW, 31}}},
    {ROWS, 0, {{ROW, 32}}},
    {ROWS, 0, {{ROW, 255}}},
    {ROWS, NEFTOLEK_ROW, {{ROW, 256}}},
    {ROWS, NEFTOLEK_ROW, {{ROW, 0xffffffff}}},
    {ROWS, NEFTOLEK_STATE, {{ROW, 256}, {INPUT_1, 4}}},
    {1 << PUT, 0, {{NCHAR, 257}}},
    {1 << PUT, NEFTOLEK_CHAR, {{NCHAR, 258}, {STORE_IN_3 + 1, PLACES}}},
    {1 << PUT, NEFTOLEK_CHAR, {{NCHAR, 65536}}},
    {1 << RUN_ROUNDS, 0, {{LIMIT, 10000}}},
    {1 << RUN_ROUNDS, NEFTOLEK_ROUNDS, {{LIMIT, 10001}}},
    {1 << RUN_ROUNDS, NEFTOLEK_ROUNDS, {{LIMIT, 65536}}},
    /* EMPTY, FULL */
    {1 << TAKE, NEFTOLEK_EMPTY, {{STORE_OUT_3 + 1, 0}}},
    {1 << PUT, NEFTOLEK_FULL, {{STORE_IN_3 + 1, PLACES}}}};

/* A fresh router with one N-Char in output 3, and arguments that are good. */
static void make_good(uint32_t *w)
{
    w[END] = 0;
    neftolek_router_fresh(w + STATE);
    w[STORE_OUT_3 + 1] = 1;
    w[AREA_LEN] = AREA;
    w[PORT] = 3;
    w[NCHAR] = 65;
    w[LIMIT] = 5;
    w[ROW] = 40;
}

static void refuses(unsigned row, enum call call, const uint32_t *before)
{
    enum { UNTOUCHED = 77 };
    uint32_t table[NEFTOLEK_TABLE_ROWS], fresh[NEFTOLEK_TABLE_ROWS];
    uint32_t words[WORDS], out[OUT], got;
    for (unsigned k = 0; k < OUT; k++)
        out[k] = UNTOUCHED;
    neftolek_table_fresh(table);
    neftolek_table_fresh(fresh);
    memcpy(words, before, sizeof words);
    got = make(call, words, table, out);
    if (got != rows[row].expected)
        printf("row %u, call %d: ", row, call);
    SAME(got, rows[row].expected);
    for (unsigned k = 0; k < OUT; k++)
        if (k >= out_words[call])
            SAME(out[k], UNTOUCHED);
        else if (rows[row].expected != 0)
            SAME(out[k], 0);
    if (rows[row].expected != 0) {
        SAME_BYTES(words, before, sizeof words);
        SAME_BYTES(table, fresh, sizeof table);
        SAME_BYTES(area, area_before, sizeof area);
    }
    memcpy(area, area_before, sizeof area);
}

int main(void)
{
    for (unsigned k = 0; k < MOST; k++)
        area[k] = area_before[k] = (uint16_t)(k % 300);
    for (unsigned row = 0; row < sizeof rows / sizeof *rows; row++) {
        uint32_t words[WORDS];
        make_good(words);
        for (unsigned c = 0; rows[row].changes[c].word != END; c++)
            words[rows[row].changes[c].word] = rows[row].changes[c].value;
        for (int call = 0; call < CALLS; call++)
            if (rows[row].calls >> call & 1)
                refuses(row, (enum call)call, words);
    }
    return verdict("router refusals");
}
