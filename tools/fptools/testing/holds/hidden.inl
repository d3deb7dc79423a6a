/* A source of C by another suffix: two loops in one line, with one head. */
SHAPE included(uint32_t n)
{
    FP_LOOP(i, 3);
    for (uint32_t i = 0; i < (n & 3); i++) { FP_ROUND(i); while (tries++ & 31) { count += 5; } }
}
