#include "flexpret.h"

void main1(void)
{
    for (uint32_t count = 0;; count++)
        FP_PORT = count;
}
