/* Each visit makes its inputs of a counter and goes through the section once. With COUNTED, for a run on another
   machine, the port is memory, and what it got in so many visits is returned as a hash, which quick_run.c computes too. */
#ifdef COUNTED
#undef MARK
#define MARK(x) __asm__ volatile("" ::: "memory") /* gcc may double a place, which no symbol can be at */
#define FOLD(hash) ((hash) = ((hash) ^ FP_PORT) * 1099511628211u)
uint64_t MAIN(NAME)(u32 visits)
#else
#define FOLD(hash) ((void)(hash))
void MAIN(NAME)(void)
#endif
{
    uint64_t hash = 1469598103934665603u;
    for (;;) {
        u32 s = seed * 1664525u + 1013904223u;
        seed = s;
        for (int i = 0; i < N; i++) {
            s = s * 1664525u + 1013904223u;
            a[i] = seed & 0x100000 ? s >> 16 : s >> 28;
            b[i] = seed & 0x40000 ? s >> 8 & 0xff : s >> 30;
        }
        in = seed >> 8 & (seed & 0x200000 ? 0xffff : 15);
        MARK(BEGIN(NAME));
        FP_PORT = shape(in);
        MARK(END(NAME));
        FOLD(hash);
#ifdef COUNTED
        if (!--visits)
            return hash;
#endif
        u32 h = 0;
        for (int i = 0; i < N; i++)
            h = h * 31 + a[i] * 7 + b[i];
        FP_PORT = h;
        FOLD(hash);
    }
}
