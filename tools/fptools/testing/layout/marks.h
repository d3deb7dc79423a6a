/* The loop marks, or with UNMARKED none. */
#include "flexpret.h"
#ifdef UNMARKED
#undef FP_LOOP
#undef FP_ROUND
#define FP_LOOP(name, n)
#define FP_ROUND(name)
#endif
