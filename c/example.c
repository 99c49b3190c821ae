/* What a bench's console does with Neftolek: a capture decoded, and a packet through the router.
 *
 *     c/test compiles and runs this; what it writes has to be c/example.txt. */
#include "neftolek.h"

#include <stdio.h>

/* Lists what the bits of a capture say. */
static void decode(const char *capture)
{
    static const char *const names[] = {"nothing", "NULL", "FCT", "N-Char", "Time-Code", "parity error", "escape error"};
    uint32_t decoder[NEFTOLEK_DECODER_WORDS], out[2];
    unsigned at = 0;
    neftolek_decoder_fresh(decoder);
    for (; *capture; capture++) {
        if (*capture == ' ')
            continue;
        at++;
        if (neftolek_decoder_bit(decoder, *capture == '1', out) != 0)
            break; /* the decoder has stopped at an error */
        if (out[0] != NEFTOLEK_NOTHING)
            printf("bit %u: %s %u\n", at, names[out[0]], (unsigned)out[1]);
    }
}

/* Sends "hi" from port 1 to port 3: the first byte is the address, and is deleted on the way. */
static void route(void)
{
    static const uint32_t packet[] = {3, 'h', 'i', NEFTOLEK_EOP};
    static uint16_t area[NEFTOLEK_ROUTER_STORES * 16];
    const size_t places = sizeof area / sizeof *area;
    uint32_t router[NEFTOLEK_ROUTER_WORDS], table[NEFTOLEK_TABLE_ROWS], out[3];
    neftolek_router_fresh(router);
    neftolek_table_fresh(table);
    for (unsigned k = 0; k < 4; k++)
        if (neftolek_router_put(router, area, places, 1, packet[k]) == NEFTOLEK_FULL)
            printf("input 1 is full\n");
    neftolek_router_run(router, area, places, table, 100, out);
    printf("%u rounds, %u moved, %u address errors\n", (unsigned)out[0], (unsigned)out[1], (unsigned)out[2]);
    while (neftolek_router_take(router, area, places, 3, out) == 0)
        printf("output 3: %u\n", (unsigned)out[0]);
}

int main(void)
{
    decode("01110100 0100 1010000010 0101 1111 0100");
    route();
    return 0;
}
