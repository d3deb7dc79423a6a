/* eight steps for each byte */
#define NAME crc
#include "shape.h"
SHAPE(u32 x) { u32 c = ~x; const uint8_t *p = (const uint8_t *)a; FP_LOOP(i, 12); for (int i = 0; i < 12; i++) { FP_ROUND(i);
        c ^= p[i];
        FP_LOOP(k, 8);
        for (int k = 0; k < 8; k++)
            { FP_ROUND(k); c = c & 1 ? c >> 1 ^ 0xedb88320u : c >> 1; } }
    return ~c; }
#include "frame.h"
