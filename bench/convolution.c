/* The same as convolution.rt.txt, as one would write it in C: PLAIN with one 64-bit division, otherwise with
   the kernel's one 32-bit division. */
#include <stdint.h>
#include <stdio.h>
#include <stdlib.h>
#include <string.h>
#include <time.h>

#define M 10000u
#define ONE 1000000000u

typedef struct { uint32_t keep, outage, keep_share, outage_share; } weights;

static inline __attribute__((always_inline)) uint32_t mean(weights w, uint32_t up, uint32_t out) {
#ifdef PLAIN
    return (uint32_t)(((uint64_t)w.keep * up + (uint64_t)w.outage * out) / M);
#else
    uint32_t estimate = ((up >> 15) * w.keep_share + (out >> 15) * w.outage_share) >> 2;
    uint32_t rest = w.keep * up + w.outage * out - estimate * M;
    return estimate + rest / M;
#endif
}

static __attribute__((noinline)) void convolve(uint32_t *cells, size_t used, size_t capacity, uint32_t outage) {
    weights w = { M - outage, outage, ((M - outage) << 17) / M, (outage << 17) / M };
    memset(cells + used, 0, capacity * sizeof *cells);
    for (size_t x = used + capacity; x-- > capacity;)
        cells[x] = mean(w, cells[x], cells[x - capacity]);
    for (size_t x = 0; x < capacity; x++)
        cells[x] = mean(w, cells[x], ONE);
}

static uint64_t now(void) {
    struct timespec t;
    clock_gettime(CLOCK_MONOTONIC, &t);
    return (uint64_t)t.tv_sec * 1000000000u + (uint64_t)t.tv_nsec;
}

int main(void) {
    uint32_t *base = calloc(3000, 4), *cells = calloc(20000, 4);
    for (uint64_t i = 0; i < 3000; i++)
        base[i] = (uint32_t)(ONE - i % 100000 * 9999);
    uint64_t best = UINT64_MAX, written = 0, area = 0;
    size_t used = 0;
    for (int run = 0; run < 40; run++) {
        written = 0;
        uint64_t start = now();
        for (int again = 0; again < 100; again++) {
            used = 3000;
            memcpy(cells, base, used * 4);
            for (uint64_t i = 0; i < 30; i++) {
                size_t capacity = i * 37 % 190 + 10;
                convolve(cells, used, capacity, (uint32_t)(i * 131 % 1500 + 100));
                used += capacity;
                written += used;
            }
        }
        uint64_t time = now() - start;
        if (time < best)
            best = time;
    }
    for (size_t x = 0; x < used; x++)
        area += cells[x];
    printf("convolve area %llu cells %llu ns %llu\n", (unsigned long long)area, (unsigned long long)written,
           (unsigned long long)best);
}
