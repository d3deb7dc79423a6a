/* memset and memcpy of lengths that aren't fixed */
#define NAME copies
#include "shape.h"
void *memcpy(void *, const void *, __SIZE_TYPE__);
void *memset(void *, int, __SIZE_TYPE__);
SHAPE(u32 x) { u32 n = x & 15; memcpy(b, a, 4 * n + 1); if (x & 16) memset(a, (int)n, n);
    return b[n] + a[0]; }
#include "frame.h"
