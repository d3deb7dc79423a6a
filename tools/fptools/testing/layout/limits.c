/* choices in one another, without a loop */
#define NAME limits
#include "shape.h"
SHAPE(u32 x) { i32 v = (i32)(x * 977) - 0x7000 + (i32)a[0], l = (i32)(b[0] & 0xff) * 16;
    i32 r = v > l ? (v > 4 * l ? 4 * l : v - (v - l) / 2) : v < -l ? (v < -4 * l ? -4 * l : v + (-l - v) / 2) : v;
    if (r > 100) { if (a[1] & 1) { b[1] = (u32)r; r -= 3; } else if (a[1] & 2) return (u32)r * 2; else r ^= 1; }
    else if (r < -100 && !(a[2] & 4)) r = -r;
    return (u32)r; }
#include "frame.h"
