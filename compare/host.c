/*
 * Answers cases through the C functions. A case is a line, and so is its answer; second/src/cases.rs says
 * how they are written. File cases are for the program `play` and are not taken here.
 *
 * A table or a list is lent so that it ends where unreadable memory begins: reading beyond it ends the
 * program. The row lies inside bytes of the case that are all written out afterwards.
 */
#define _DEFAULT_SOURCE
#include <inttypes.h>
#include <stdio.h>
#include <stdlib.h>
#include <string.h>
#include <sys/mman.h>
#include "tsegumbar.h"

static char *rest; /* what is still to be read of the case line */

static void stop(const char *what)
{
    fflush(stdout);
    fprintf(stderr, "host: %s\n", what);
    exit(2);
}

static const char *text(void)
{
    char *start = rest;
    if (start == NULL)
        stop("a case has too few fields");
    rest = strchr(start, ' ');
    if (rest != NULL)
        *rest++ = 0;
    return start;
}

static uint64_t number(uint64_t most)
{
    char *end;
    uint64_t value = strtoull(text(), &end, 10);
    if (*end != 0 || value > most)
        stop("a case has a bad number");
    return value;
}

static uint32_t number32(void) { return (uint32_t)number(UINT32_MAX); }
static uint16_t number16(void) { return (uint16_t)number(UINT16_MAX); }

/* Memory that ends where unreadable memory begins. */
struct fenced {
    uint8_t *end;
    size_t room;
};

static uint8_t *lend(struct fenced *memory, size_t len)
{
    const size_t page = 65536;
    if (memory->end == NULL || len > memory->room) {
        size_t room = (len / page + 1) * page;
        uint8_t *start = mmap(NULL, room + page, PROT_READ | PROT_WRITE, MAP_PRIVATE | MAP_ANONYMOUS, -1, 0);
        if (start == MAP_FAILED || mprotect(start + room, page, PROT_NONE) != 0)
            stop("no memory");
        memory->end = start + room;
        memory->room = room;
    }
    return memory->end - len;
}

static uint8_t digit(char c)
{
    if (c >= '0' && c <= '9')
        return (uint8_t)(c - '0');
    if (c >= 'a' && c <= 'f')
        return (uint8_t)(c - 'a' + 10);
    stop("a case has a bad digit");
    return 0;
}

/* The bytes of the next field, lent. */
static uint8_t *bytes(struct fenced *memory, size_t *len)
{
    const char *digits = text();
    *len = strcmp(digits, "-") == 0 ? 0 : strlen(digits) / 2;
    uint8_t *lent = lend(memory, *len);
    for (size_t i = 0; i < *len; i++)
        lent[i] = (uint8_t)(digit(digits[2 * i]) << 4 | digit(digits[2 * i + 1]));
    return lent;
}

static struct fenced table_memory, copy_memory, whole_memory;

static void exchange(void)
{
    uint32_t n = number32(), m = number32(), u = number32(), sender = number32();
    uint16_t value = number16(), faults = number16();
    size_t table_len, whole_len;
    uint8_t *table = bytes(&table_memory, &table_len);
    uint8_t *copy = lend(&copy_memory, table_len);
    memcpy(copy, table, table_len);
    uint8_t *whole = bytes(&whole_memory, &whole_len);
    size_t from = number(whole_len), row_len = number(whole_len - from);

    tsegumbar_summary s =
        tsegumbar_exchange(n, m, u, sender, value, faults, table, table_len, whole + from, row_len);
    printf("x %" PRIu32 " %" PRIu32 " %" PRIu32 " %" PRIu32 " %" PRIu32 " ", s.refusal, s.faults,
           s.fault_class, s.ties, s.messages);
    for (size_t i = 0; i < whole_len; i++)
        printf("%02x", whole[i]);
    printf(memcmp(copy, table, table_len) == 0 ? "\n" : " and the table is changed\n");
}


static void vote(void)
{
    size_t threshold = number(SIZE_MAX), list_len;
    uint8_t *list = bytes(&table_memory, &list_len);
    tsegumbar_ballot b = tsegumbar_vote(threshold, list, list_len);
    printf("v %" PRIu32 " %u %u\n", b.refusal, (unsigned)b.word, (unsigned)b.tie);
}

static void cell_of_route(void)
{
    uint32_t n = number32(), m = number32(), sender = number32();
    uint8_t node[4];
    for (int i = 0; i < 4; i++)
        node[i] = (uint8_t)number(UINT8_MAX);
    uint32_t len = number32();
    tsegumbar_cell c = tsegumbar_cell_of_route(n, m, sender, node[0], node[1], node[2], node[3], len);
    printf("c %" PRIu32 " %" PRIu32 "\n", c.refusal, c.cell);
}

static void route_of_cell(void)
{
    uint32_t n = number32(), m = number32(), sender = number32(), cell = number32();
    tsegumbar_route r = tsegumbar_route_of_cell(n, m, sender, cell);
    printf("r %" PRIu32 " %u %u %u %u %" PRIu32 "\n", r.refusal, (unsigned)r.nodes[0],
           (unsigned)r.nodes[1], (unsigned)r.nodes[2], (unsigned)r.nodes[3], r.len);
}

static void round_part(void)
{
    uint32_t n = number32(), m = number32();
    size_t table_len = number(SIZE_MAX);
    uint32_t round = number32();
    tsegumbar_part p = tsegumbar_round_part(n, m, lend(&table_memory, table_len), table_len, round);
    printf("p %" PRIu32 " %" PRIu32 " %" PRIu32 "\n", p.refusal, p.start, p.end);
}


int main(void)
{
    char *line = NULL;
    size_t room = 0;
    ssize_t length;
    while ((length = getline(&line, &room, stdin)) > 0) {
        if (line[length - 1] == '\n')
            line[length - 1] = 0;
        rest = line;
        const char *kind = text();
        if (strcmp(kind, "x") == 0)
            exchange();
        else if (strcmp(kind, "v") == 0)
            vote();
        else if (strcmp(kind, "c") == 0)
            cell_of_route();
        else if (strcmp(kind, "r") == 0)
            route_of_cell();
        else if (strcmp(kind, "p") == 0)
            round_part();
        else
            stop("a case of a kind that is not taken here");
        fflush(stdout);
    }
    if (ferror(stdin) || fflush(stdout) != 0)
        stop("reading or writing failed");
    free(line);
    return 0;
}
