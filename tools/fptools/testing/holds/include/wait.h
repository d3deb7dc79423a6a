/* A macro with a loop, in a folder that isn't beside the sources. */
#define WAIT_UNTIL_EVEN() while (tries++ & 31) count += 5
