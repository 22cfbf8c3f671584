/* One exchange of the library beside the same exchange in C, in one process and by its processor time: for each layout and fault
   pattern the median of five runs, of the times and of each run's own ratio. Within a run the sides take short turns, so that a
   machine that slows down for a while slows all of them. The rows are compared in the same run. At the end, the stack that one
   exchange needs. */
#define _POSIX_C_SOURCE 200809L
#include <pthread.h>
#include <stdint.h>
#include <stdio.h>
#include <stdlib.h>
#include <string.h>
#include <time.h>

#include "../include/tsegumbar.h"

void yard_recursion(unsigned n, unsigned m, unsigned sender, uint16_t value, uint16_t faults, const uint8_t *table, uint8_t *row);
void yard_rounds(unsigned n, unsigned m, unsigned sender, uint16_t value, uint16_t faults, const uint8_t *table, uint8_t *row, uint16_t *work, uint16_t *votes);

enum { RUNS = 5, TURNS = 40, SIDES = 3, CELLS = 26404, MOST_NODES = 15 };

typedef struct {
    unsigned n, m, u;
} layout;

typedef struct {
    const layout *l;
    uint16_t faults;
    size_t table_len;
} play;

static const layout layouts[] = {{5, 1, 2}, {7, 2, 2}, {10, 3, 3}, {15, 3, 8}};
static uint8_t table[2 * CELLS];
static uint8_t ours[2 * MOST_NODES], theirs[2 * MOST_NODES];
static uint16_t work[CELLS], votes[CELLS];

static double now(void)
{
    struct timespec t;
    clock_gettime(CLOCK_PROCESS_CPUTIME_ID, &t);
    return (double)t.tv_sec + (double)t.tv_nsec * 1e-9;
}

static size_t cells(unsigned n, unsigned m)
{
    size_t size = 1, sum = 0;
    for (unsigned k = 0; k <= m; k++)
        size *= n - 1 - k, sum += size;
    return sum;
}

static void play_ours(const play *p)
{
    tsegumbar_summary s = tsegumbar_exchange(p->l->n, p->l->m, p->l->u, 0, 7, p->faults, table, p->table_len, ours, 2 * p->l->n);
    if (s.refusal != 0) {
        fprintf(stderr, "refused: %u\n", (unsigned)s.refusal);
        exit(1);
    }
}

static void play_recursion(const play *p)
{
    yard_recursion(p->l->n, p->l->m, 0, 7, p->faults, table, theirs);
}

static void play_rounds(const play *p)
{
    yard_rounds(p->l->n, p->l->m, 0, 7, p->faults, table, theirs, work, votes);
}

static double timed(void (*f)(const play *), const play *p, unsigned reps)
{
    double start = now();
    for (unsigned i = 0; i < reps; i++)
        f(p);
    return now() - start;
}

/* one run: the time of one exchange on each side */
static void run(void (*const side[SIDES])(const play *), const play *p, unsigned reps, double time[SIDES])
{
    memset(time, 0, SIDES * sizeof *time);
    for (unsigned i = 0; i < TURNS; i++)
        for (unsigned k = 0; k < SIDES; k++)
            time[k] += timed(side[k], p, reps) / reps / TURNS;
}

static int ascending(const void *a, const void *b)
{
    double x = *(const double *)a, y = *(const double *)b;
    return (x > y) - (x < y);
}

static double median(double *x)
{
    qsort(x, RUNS, sizeof *x, ascending);
    return x[RUNS / 2];
}

static void compare_rows(const play *p, void (*f)(const play *))
{
    memset(ours, 0xAA, sizeof ours);
    memset(theirs, 0xAA, sizeof theirs);
    play_ours(p);
    f(p);
    if (memcmp(ours, theirs, 2 * p->l->n) != 0) {
        fprintf(stderr, "rows differ at N=%u, m=%u, faults %04x\n", p->l->n, p->l->m, (unsigned)p->faults);
        exit(1);
    }
}

static void measure(const layout *l, const char *pattern, uint16_t faults)
{
    static void (*const side[SIDES])(const play *) = {play_ours, play_recursion, play_rounds};
    double time[SIDES][RUNS], ratio[SIDES][RUNS], one[SIDES];
    play p = {l, faults, 2 * cells(l->n, l->m)};
    compare_rows(&p, play_recursion);
    compare_rows(&p, play_rounds);
    unsigned reps = 1;
    while (timed(play_recursion, &p, reps) < 0.001)
        reps *= 2;
    for (unsigned i = 0; i < RUNS; i++) {
        run(side, &p, reps, one);
        for (unsigned k = 0; k < SIDES; k++)
            time[k][i] = one[k], ratio[k][i] = one[0] / one[k];
    }
    printf("| %u,%u,%u | %s | %.2f | %.2f | %.2f | %.2f | %.2f |\n", l->n, l->m, l->u, pattern, median(time[0]) * 1e6,
           median(time[1]) * 1e6, median(ratio[1]), median(time[2]) * 1e6, median(ratio[2]));
}

/* bits first .. first+k-1 */
static uint16_t bits(unsigned first, unsigned k)
{
    return (uint16_t)(((1u << k) - 1) << first);
}

static void *deepest(void *arg)
{
    play_ours(arg);
    return NULL;
}

static void *nothing(void *arg)
{
    return arg;
}

static size_t touched(void *(*f)(void *), play *p)
{
    enum { SIZE = 1 << 20 };
    uint8_t *stack = aligned_alloc(4096, SIZE);
    pthread_attr_t attr;
    pthread_t thread;
    size_t low = 0;
    if (stack == NULL)
        exit(1);
    memset(stack, 0xA5, SIZE);
    pthread_attr_init(&attr);
    pthread_attr_setstack(&attr, stack, SIZE);
    if (pthread_create(&thread, &attr, f, p) != 0 || pthread_join(thread, NULL) != 0)
        exit(1);
    while (low < SIZE && stack[low] == 0xA5)
        low++;
    free(stack);
    return SIZE - low;
}

int main(void)
{
    uint32_t x = 12345;
    for (size_t i = 0; i < CELLS; i++) {
        x = x * 1664525u + 1013904223u;
        table[2 * i + 1] = (uint8_t)(7 + (x >> 24) % 3); /* words 7, 8 and 9 */
    }
    printf("| N,m,u | faulty | library, us | C recursion, us | ratio | C rounds, us | ratio |\n|---|---|---|---|---|---|---|\n");
    for (size_t i = 0; i < sizeof layouts / sizeof *layouts; i++) {
        const layout *l = &layouts[i];
        measure(l, "m receivers", bits(l->n - l->m, l->m));
        measure(l, "u receivers", bits(l->n - l->u, l->u));
        measure(l, "the sender and m-1 receivers", (uint16_t)(1 | bits(l->n - l->m + 1, l->m - 1)));
        measure(l, "none", 0);
    }
    play p = {&layouts[3], bits(12, 3), 2 * cells(15, 3)};
    printf("\nstack of one exchange at N=15, m=3: %zu bytes\n", touched(deepest, &p) - touched(nothing, &p));
    return 0;
}
