/* Macros of a loop, in a folder that isn't beside the sources. */
#define FOREVER for (;;)
#define MY_BEGIN for (;;) {
#define MY_END }
