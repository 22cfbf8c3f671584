/*
 * A small host: five nodes, m = 1, u = 2. Node 0 sends 7; nodes 3 and 4 are faulty and tell node 1 that
 * they heard 9, while node 4 tells node 2 the truth. Every answer is asked for its refusal first.
 *
 *     ./install PREFIX
 *     gcc -I PREFIX/include examples/host.c -L PREFIX/lib -ltsegumbar -o host && ./host
 *
 * or, without an installed library:
 *
 *     include/archive
 *     gcc -I include examples/host.c target/staticlib/libhost.a -o host && ./host
 */
#include <inttypes.h>
#include <stdio.h>
#include <stdlib.h>
#include "tsegumbar.h"

enum { N = 5, M = 1, U = 2, SENDER = 0, VALUE = 7, FAULTS = 1 << 3 | 1 << 4, CELLS = 16 };

static uint8_t table[2 * CELLS], row[2 * N];

static const char *reason(uint32_t refusal)
{
    switch (refusal) {
    case TSEGUMBAR_REFUSED_NODES: return "N is not 4 to 15";
    case TSEGUMBAR_REFUSED_M: return "m is not 1 to 3";
    case TSEGUMBAR_REFUSED_U: return "u is below m";
    case TSEGUMBAR_REFUSED_TOO_FEW: return "too few nodes for m and u";
    case TSEGUMBAR_REFUSED_SENDER: return "the sender is no node";
    case TSEGUMBAR_REFUSED_VALUE: return "the sender's value is reserved";
    case TSEGUMBAR_REFUSED_FAULTS: return "a faulty node is no node";
    case TSEGUMBAR_REFUSED_TABLE: return "the table has another length than 2M bytes";
    case TSEGUMBAR_REFUSED_ROW: return "the row has another length than 2N bytes";
    case TSEGUMBAR_REFUSED_ROUTE: return "these nodes are no route";
    default: return "see tsegumbar.h";
    }
}

/* Ends the program if what was asked is refused. */
static void accepted(const char *what, uint32_t refusal)
{
    if (refusal != TSEGUMBAR_ACCEPTED) {
        printf("%s refused with %" PRIu32 ": %s\n", what, refusal, reason(refusal));
        exit(1);
    }
}

/* What `teller` tells `receiver` it heard from the sender. */
static void tells(uint8_t teller, uint8_t receiver, uint16_t word)
{
    tsegumbar_cell at = tsegumbar_cell_of_route(N, M, SENDER, teller, receiver, 0, 0, 2);
    accepted("a message", at.refusal);
    tsegumbar_set_word(table, at.cell, word);
}

int main(void)
{
    tells(3, 1, 9);
    tells(4, 1, 9);
    tells(4, 2, 7);

    tsegumbar_summary s =
        tsegumbar_exchange(N, M, U, SENDER, VALUE, FAULTS, table, sizeof table, row, sizeof row);
    accepted("the exchange", s.refusal);
    for (size_t node = 0; node < N; node++) {
        uint16_t word = tsegumbar_get_word(row, node);
        if (word == TSEGUMBAR_NOT_REPORTED)
            printf("node %zu: faulty\n", node);
        else
            printf("node %zu: %u\n", node, (unsigned)word);
    }
    printf("faults %" PRIu32 ", class %" PRIu32 ", ties %" PRIu32 ", messages %" PRIu32 "\n",
           s.faults, s.fault_class, s.ties, s.messages);
    return 0;
}
