// Times BAD_TABLE's test on pools of 8, 64 and 1,024 frames, beside the time of merely summing the same words: one word at a time, and as the
// compiler likes. Best of many runs, in microseconds.
#include <stdint.h>
#include <stdio.h>
#include <string.h>
#include <time.h>

extern uint64_t bench_is_good(const uint64_t *pool, size_t words, uint64_t base, size_t used);

#define BASE 0x10000000ull
#define MOST 1024

static uint64_t pool[MOST * 512];

static double now(void) {
    struct timespec t;
    clock_gettime(CLOCK_MONOTONIC, &t);
    return t.tv_sec * 1e6 + t.tv_nsec / 1e3;
}

__attribute__((noinline, optimize("no-tree-vectorize", "no-unroll-loops"))) static uint64_t sum_plain(const uint64_t *p, size_t n) {
    uint64_t s = 0;
    for (size_t i = 0; i < n; i++) s += p[i];
    return s;
}

__attribute__((noinline, optimize("tree-vectorize"))) static uint64_t sum_wide(const uint64_t *p, size_t n) {
    uint64_t s = 0;
    for (size_t i = 0; i < n; i++) s += p[i];
    return s;
}

static uint64_t table(int frame) { return BASE + 4096ull * frame + 7; }

// The root, one table of 1 GiB entries, two of 2 MiB entries, and the lowest tables below them.
static void build(int frames) {
    memset(pool, 0, sizeof pool);
    pool[0] = table(1);
    pool[512] = table(2);
    pool[513] = table(3);
    for (int f = 4; f < frames; f++) pool[(2 + (f - 4) / 510) * 512 + (f - 4) % 510] = table(f);
}

static uint64_t next_random(void) {
    static uint64_t x = 88172645463325252ull;
    x ^= x << 13;
    x ^= x >> 7;
    x ^= x << 17;
    return x;
}

// Every place of the lowest tables a leaf with rights.
static void fill(int frames) {
    build(frames);
    for (int f = 4; f < frames; f++)
        for (int k = 0; k < 512; k++) {
            uint64_t r = k & 1 ? 3 : 1ull << 63 | 1;
            pool[f * 512 + k] = ((uint64_t)f * 512 + k) * 4096 | 0x200 | r | (k & 4) | (k & 8 ? 0x60 : 0);
        }
}

// Leaves of any rights and none, one place in sixteen unused.
static void mix(int frames) {
    build(frames);
    for (int f = 4; f < frames; f++)
        for (int k = 0; k < 512; k++) {
            uint64_t r = next_random();
            uint64_t w = ((uint64_t)f * 512 + k) * 4096 | 0x200 | (r & 0x60) | (r & 4);
            w |= r & 0x100000 ? 1 | (r & 2) | (r & 8) << 60 : 1ull << 63;
            pool[f * 512 + k] = (r & 0xf000000) == 0 ? 0 : w;
        }
}

static void run(const char *what, int frames) {
    double check = 1e9, plain = 1e9, wide = 1e9;
    uint64_t good = 0, sums = 0;
    size_t words = (size_t)frames * 512;
    for (int i = 0; i < 400; i++) {
        double a = now();
        good = bench_is_good(pool, words, BASE, frames);
        double b = now();
        sums += sum_plain(pool, words);
        double c = now();
        sums += sum_wide(pool, words);
        double d = now();
        if (b - a < check) check = b - a;
        if (c - b < plain) plain = c - b;
        if (d - c < wide) wide = d - c;
    }
    printf("%5d frames, %-7s good %d  check %8.2f us  sum %8.2f us (%.1f times)  vectorized sum %8.2f us (%.1f times)%s\n", frames, what, (int)good, check,
           plain, check / plain, wide, check / wide, sums == 1 ? " " : "");
}

int main(void) {
    int frames[] = {8, 64, 1024};
    for (int i = 0; i < 3; i++) {
        build(frames[i]);
        run("empty", frames[i]);
        fill(frames[i]);
        run("full", frames[i]);
        mix(frames[i]);
        run("mixed", frames[i]);
    }
    return 0;
}
