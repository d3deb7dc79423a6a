/* reads numbers and signs, with gotos between its states */
#define NAME parser
#include "shape.h"
SHAPE(u32 x) { u32 i = 0, v = 0, s = x, sign = 0;
FP_LOOP(loop, 19); blank: FP_ROUND(loop);
    FP_LOOP(loop2, 17);
    while (i < N && (a[i] & 7) == 7) { FP_ROUND(loop2); i++; }
    if (i >= N) goto end;
    if ((a[i] & 7) == 6) { sign ^= 1; i++; if (i < N && (a[i] & 7) < 5) goto number; goto blank; }
    if ((a[i] & 7) == 5) { s ^= 0x55; i++; goto blank; }
number:
    v = 0;
    FP_LOOP(loop3, 17);
    while (i < N && (a[i] & 7) < 5) { FP_ROUND(loop3);
        v = v * 5 + (a[i] & 7);
        if (v > 3000) goto large;
        i++; }
    s += sign ? -v : v;
    sign = 0;
    goto blank;
large:
    b[1] = v;
    s++;
end:
    return s; }
#include "frame.h"
