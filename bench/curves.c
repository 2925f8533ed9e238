/* The same as curves.rt.txt, as one would write it in C. */
#include <stdint.h>
#include <stdio.h>
#include <stdlib.h>
#include <string.h>
#include <time.h>

#define ONE 1000000000u

typedef struct { uint64_t load, share; } point;

static __attribute__((noinline)) size_t fill(uint64_t peak, uint64_t step, const point *points, size_t count,
                                             uint32_t *cells) {
    size_t x = 0;
    for (size_t i = 1; i < count; i++) {
        point low = points[i - 1], high = points[i];
        uint64_t fall = (low.share - high.share) * 100000, gap = (high.load - low.load) * peak;
        for (; x * step * 10000 < high.load * peak; x++)
            cells[x] = (uint32_t)(low.share * 100000 - fall * (x * step * 10000 - low.load * peak) / gap);
    }
    return x;
}

static __attribute__((noinline)) size_t shave(uint32_t *cells, size_t used, size_t peak, uint64_t energy,
                                              uint64_t hours) {
    uint64_t sum = 0, most = energy * ONE;
    size_t level = 0;
    for (size_t x = 0; x < peak && x < used; x++)
        sum += cells[x];
    while (most < sum * hours) {
        sum = sum - cells[level] + (level + peak < used ? cells[level + peak] : 0);
        level++;
    }
    size_t gap = peak < used - level ? peak : used - level;
    memmove(cells + level, cells + level + gap, (used - level - gap) * sizeof *cells);
    return used - gap;
}

static uint64_t now(void) {
    struct timespec t;
    clock_gettime(CLOCK_MONOTONIC, &t);
    return (uint64_t)t.tv_sec * 1000000000u + (uint64_t)t.tv_nsec;
}

static void report(const char *name, const uint32_t *cells, size_t used, uint64_t written, uint64_t best) {
    uint64_t area = 0;
    for (size_t x = 0; x < used; x++)
        area += cells[x];
    printf("%s area %llu cells %llu ns %llu\n", name, (unsigned long long)area, (unsigned long long)written,
           (unsigned long long)best);
}

int main(void) {
    point points[64];
    uint32_t *base = calloc(65536, 4), *cells = calloc(65536, 4);
    size_t used = 0;
    for (uint64_t i = 0; i < 64; i++)
        points[i] = (point){ i * 10000 / 63, 10000 - i * 150 };
    uint64_t best = UINT64_MAX;
    for (int run = 0; run < 40; run++) {
        uint64_t start = now();
        for (int again = 0; again < 20; again++)
            used = fill(65535, 1, points, 64, cells);
        uint64_t time = now() - start;
        best = time < best ? time : best;
    }
    report("fill", cells, used, 1310700, best);
    size_t whole = fill(20000, 1, points, 64, base);
    best = UINT64_MAX;
    for (int run = 0; run < 40; run++) {
        uint64_t start = now();
        for (int again = 0; again < 100; again++) {
            memcpy(cells, base, whole * 4);
            used = shave(cells, whole, 1000, 2000000, 8760);
        }
        uint64_t time = now() - start;
        best = time < best ? time : best;
    }
    report("shave", cells, used, 2000000, best);
}
