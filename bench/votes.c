/* The vote of the library beside a C vote over the same bytes, in one process and by its processor time: lists of 14, 1,000 and
   10,000 words, the median of five runs. The answers are compared in the same run. */
#define _POSIX_C_SOURCE 200809L
#include <stdbool.h>
#include <stdint.h>
#include <stdio.h>
#include <stdlib.h>
#include <time.h>

#include "../include/tsegumbar.h"

enum { RUNS = 5, MOST = 10000 };

typedef struct {
    uint16_t word;
    bool tie;
} outcome;

static uint8_t list[2 * MOST];

static double now(void)
{
    struct timespec t;
    clock_gettime(CLOCK_PROCESS_CPUTIME_ID, &t);
    return (double)t.tv_sec + (double)t.tv_nsec * 1e-9;
}

static uint16_t word_at(size_t i)
{
    uint16_t w = (uint16_t)(list[2 * i] << 8 | list[2 * i + 1]);
    return w > 65000 ? 0 : w;
}

/* as a C programmer would write it with no memory of its own: each entry that is not the winner so far is counted */
static outcome c_vote(size_t q, size_t k)
{
    outcome o = {0, false};
    bool seen = false;
    for (size_t i = 0; i < k; i++) {
        uint16_t w = word_at(i);
        size_t c = 0;
        if (seen && w == o.word)
            continue;
        for (size_t j = 0; j < k; j++)
            c += word_at(j) == w;
        if (c >= q) {
            if (seen)
                return (outcome){0, true};
            seen = true, o.word = w;
        }
    }
    return o;
}

static int ascending(const void *a, const void *b)
{
    double x = *(const double *)a, y = *(const double *)b;
    return (x > y) - (x < y);
}

static double median(double *x)
{
    qsort(x, RUNS, sizeof *x, ascending);
    return x[RUNS / 2];
}

static volatile unsigned sink;

static double timed(bool library, size_t q, size_t k, unsigned reps)
{
    double start = now();
    for (unsigned i = 0; i < reps; i++)
        sink += library ? tsegumbar_vote(q, list, 2 * k).word : c_vote(q, k).word;
    return (now() - start) / reps;
}

static void measure(const char *what, size_t q, size_t k)
{
    double a[RUNS], b[RUNS];
    tsegumbar_ballot x = tsegumbar_vote(q, list, 2 * k);
    outcome y = c_vote(q, k);
    if (x.refusal != 0 || x.word != y.word || x.tie != y.tie) {
        fprintf(stderr, "votes differ: %s, %zu of %zu\n", what, q, k);
        exit(1);
    }
    unsigned reps = 1;
    while (timed(false, q, k, reps) * reps < 0.01)
        reps *= 2;
    for (int i = 0; i < RUNS; i++) {
        a[i] = timed(true, q, k, reps);
        b[i] = timed(false, q, k, reps);
    }
    double ours = median(a), theirs = median(b);
    printf("| %zu | %s | %zu | %.2f | %.2f | %.2f |\n", k, what, q, ours * 1e6, theirs * 1e6, ours / theirs);
}

/* words 1 to `kinds`, in turn; every `lead` entries out of ten are 7 */
static void fill(size_t k, unsigned kinds, unsigned lead)
{
    for (size_t i = 0; i < k; i++) {
        unsigned w = i % 10 < lead ? 7 : 1000 + (unsigned)(i % kinds);
        list[2 * i] = (uint8_t)(w >> 8), list[2 * i + 1] = (uint8_t)w;
    }
}

int main(void)
{
    static const size_t sizes[] = {14, 1000, MOST};
    printf("| words | list | threshold | library, us | C, us | ratio |\n|---|---|---|---|---|---|\n");
    for (size_t i = 0; i < 3; i++) {
        size_t k = sizes[i];
        fill(k, 3, 8);
        measure("eight of ten equal", k * 3 / 4, k);
        fill(k, 3, 3);
        measure("four values", k / 4, k);
        fill(k, (unsigned)k, 1);
        measure("nearly all different", 2, k);
    }
    return 0;
}
