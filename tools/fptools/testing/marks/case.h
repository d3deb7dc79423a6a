/* The frame of a case: NAME_main calls its function f with what the port shows, several times. */
#include "flexpret.h"
#define PASTE_(a, b) a##b
#define PASTE(a, b) PASTE_(a, b)
#define APART __attribute__((noinline)) static
#define f PASTE(NAME, _f)
#ifdef __cplusplus
#define MAIN extern "C" void PASTE(NAME, _main)(void) { for (u32 r = 0; r < 60; r++) f(FP_PORT); }
#else
#define MAIN void PASTE(NAME, _main)(void) { for (u32 r = 0; r < 60; r++) f(FP_PORT); }
#endif
typedef uint32_t u32;
static volatile u32 count, tries;
static u32 a[64];
