/* calls below calls, with loops */
#define NAME chain
#include "shape.h"
static __attribute__((noinline, noclone)) u32 least(u32 from) { u32 at = from; FP_LOOP(i, 8); for (u32 i = from; i < 8; i++)
        { FP_ROUND(i); if (a[i] < a[at]) at = i; }
    return at; }
static __attribute__((noinline, noclone)) void swap(u32 i, u32 j) { if (i != j) { u32 t = a[i]; a[i] = a[j]; a[j] = t; } }
static __attribute__((noinline, noclone)) u32 sorted(void) { u32 moved = 0; FP_LOOP(i, 8); for (u32 i = 0; i < 8; i++) { FP_ROUND(i);
        u32 at = least(i); moved += at != i; swap(i, at); }
    return moved; }
SHAPE(u32 x) { if (x & 8) return a[0]; u32 n = sorted(); return n * 16 + a[x & 7]; }
#include "frame.h"
