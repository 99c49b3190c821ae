// The header as C++: it compiles, and its functions have the names of C.
#include "neftolek.h"

int main()
{
    uint32_t encoder[NEFTOLEK_ENCODER_WORDS], out[2];
    neftolek_encoder_fresh(encoder);
    return neftolek_encode(encoder, NEFTOLEK_FCT, 0, out) != 0 || out[0] != 2 || out[1] != 4;
}
