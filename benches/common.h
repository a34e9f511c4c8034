/* What the benchmarks share: random numbers from a fixed start, and processor time. */
#include <stdint.h>
#include <time.h>

static uint64_t state = 88172645463325252u;

static inline int random_below(uint32_t n)
{
    state ^= state << 13;
    state ^= state >> 7;
    state ^= state << 17;
    return (int)((state >> 32) % n);
}

static inline double now(void)
{
    struct timespec t;
    clock_gettime(CLOCK_PROCESS_CPUTIME_ID, &t);
    return (double)t.tv_sec + 1e-9 * (double)t.tv_nsec;
}
