/* The frame of a shape, NAME: of its own with SECTION between two marks, else a function that is called between them. */
#include "marks.h"
#define PASTE_(a, b) a##b
#define PASTE(a, b) PASTE_(a, b)
#ifdef SECTION
#define SHAPE static inline __attribute__((always_inline)) uint32_t shape
#else
#define SHAPE static __attribute__((noinline, noclone)) uint32_t shape
#endif
#define shape PASTE(shape_, NAME)
#define N 16
typedef uint32_t u32;
typedef int32_t i32;
static u32 a[N], b[N];
static volatile u32 in, seed;
#define BEGIN(x) PASTE(x, _begin)
#define END(x) PASTE(x, _end)
#define MAIN(x) PASTE(main_, x)
#define MARK(x) FP_MARK(x)
