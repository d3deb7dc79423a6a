/* The same by a level in the source, whatever the options say. */
#pragma GCC optimize ("O3")
#include "interchanged.c"
void none(void)
{
    FP_KEEP(0);
}
