/*
 * Does the header suit C99 and C++ with warnings as errors, and do the functions have the shape that it
 * says? Every function is called on numbers that the paper works out; each wrong answer is named.
 */
#include <stdio.h>
#include <string.h>
#include "tsegumbar.h"

static int wrong = 0;

static void check(int good, const char *what)
{
    if (!good) {
        printf("header_check: wrong: %s\n", what);
        wrong = 1;
    }
}

int main(void)
{
    /* The sample: receivers 1 and 2 decide 0 and 7. Cells 10, 13, 14 are routes (3,1), (4,1), (4,2). */
    static const uint8_t decided[10] = {0, 7, 0, 0, 0, 7, 255, 255, 255, 255};
    static const uint8_t largest[2 * TSEGUMBAR_CELLS_MAX] = {0}; /* a table at N=15, m=3 */
    uint8_t table[32] = {0};
    uint8_t row[10] = {0};
    table[2 * 10 + 1] = 9;
    table[2 * 13 + 1] = 9;
    table[2 * 14 + 1] = 7;
    tsegumbar_summary s = tsegumbar_exchange(5, 1, 2, 0, 7, 0x18, table, sizeof table, row, sizeof row);
    check(s.refusal == TSEGUMBAR_ACCEPTED && s.faults == 2 && s.fault_class == 2 && s.ties == 0 &&
              s.messages == 16, "the summary of the sample");
    check(memcmp(row, decided, sizeof row) == 0, "the row of the sample");
    check(tsegumbar_get_word(row, 2) == 7 && tsegumbar_get_word(row, 3) == TSEGUMBAR_NOT_REPORTED,
          "the words of the row");

    /* Four faulty receivers, more than u: f and the class differ. */
    uint8_t other[10] = {0};
    s = tsegumbar_exchange(5, 1, 2, 0, 7, 0x1E, table, sizeof table, other, sizeof other);
    check(s.refusal == TSEGUMBAR_ACCEPTED && s.faults == 4 && s.fault_class == 3 && s.ties == 0 &&
              s.messages == 16, "the summary of four faulty nodes");
    s = tsegumbar_exchange(260, 1, 2, 0, 7, 0x18, table, sizeof table, row, sizeof row);
    check(s.refusal == TSEGUMBAR_REFUSED_NODES && s.faults == 0 && s.fault_class == 0 && s.ties == 0 &&
              s.messages == 0, "260 nodes");
    check(memcmp(row, decided, sizeof row) == 0, "the row of a refused exchange");
    check(tsegumbar_exchange(16, 0, 0, 0, 7, 0, table, 0, row, 0).refusal == TSEGUMBAR_REFUSED_NODES,
          "N=16, m=0");
    check(tsegumbar_exchange(5, 0, 2, 0, 7, 0, table, 32, row, 10).refusal == TSEGUMBAR_REFUSED_M, "m=0");
    check(tsegumbar_exchange(7, 2, 1, 0, 7, 0, table, 32, row, 10).refusal == TSEGUMBAR_REFUSED_U,
          "N=7, m=2, u=1");
    check(tsegumbar_exchange(7, 2, 3, 0, 7, 0, table, 32, row, 10).refusal == TSEGUMBAR_REFUSED_TOO_FEW,
          "N=7, m=2, u=3");
    check(tsegumbar_exchange(5, 1, 2, 5, 7, 0, table, 32, row, 10).refusal == TSEGUMBAR_REFUSED_SENDER,
          "sender 5 of 5");
    check(tsegumbar_exchange(5, 1, 2, 0, 65001, 0, table, 32, row, 10).refusal == TSEGUMBAR_REFUSED_VALUE,
          "value 65001");
    check(tsegumbar_exchange(5, 1, 2, 0, 7, 0x20, table, 32, row, 10).refusal == TSEGUMBAR_REFUSED_FAULTS,
          "fault bit 5 of 5");
    check(tsegumbar_exchange(5, 1, 2, 0, 7, 0, table, 31, row, 10).refusal == TSEGUMBAR_REFUSED_TABLE,
          "a short table");
    check(tsegumbar_exchange(5, 1, 2, 0, 7, 0, table, 32, row, 9).refusal == TSEGUMBAR_REFUSED_ROW,
          "a short row");

    /* The helpers: every word comes back, its high byte stands first, and no byte beside it changes. */
    uint8_t three[6] = {1, 1, 1, 1, 1, 1};
    int kept = 1;
    for (unsigned word = 0; word <= 65535; word++) {
        tsegumbar_set_word(three, 1, (uint16_t)word);
        kept = kept && tsegumbar_get_word(three, 1) == word && three[2] == word / 256 &&
               three[3] == word % 256 && three[0] == 1 && three[1] == 1 && three[4] == 1 && three[5] == 1;
    }
    check(kept, "a word put into a place and read from it");

    static const uint8_t p7[8] = {0, 1, 0, 2, 0, 2, 0, 3};
    static const uint8_t p9[8] = {0, 1, 0, 2, 0, 2, 0, 1};
    tsegumbar_ballot b = tsegumbar_vote(2, p7, sizeof p7);
    check(b.refusal == TSEGUMBAR_ACCEPTED && b.word == 2 && b.tie == 0, "the vote over 1,2,2,3");
    b = tsegumbar_vote(2, p9, sizeof p9);
    check(b.refusal == TSEGUMBAR_ACCEPTED && b.word == 0 && b.tie == 1, "the vote over 1,2,2,1");
    check(tsegumbar_vote(0, p9, 7).refusal == TSEGUMBAR_REFUSED_THRESHOLD, "threshold 0");
    check(tsegumbar_vote(1, p9, 7).refusal == TSEGUMBAR_REFUSED_LIST, "a list of 7 bytes");

    tsegumbar_cell c = tsegumbar_cell_of_route(4, 1, 0, 2, 1, 99, 99, 2);
    check(c.refusal == TSEGUMBAR_ACCEPTED && c.cell == 5, "the cell of (2,1)");
    c = tsegumbar_cell_of_route(4, 1, 2, 3, 0, 0, 0, 2);
    check(c.refusal == TSEGUMBAR_ACCEPTED && c.cell == 7, "the cell of (3,0), sender 2");
    c = tsegumbar_cell_of_route(4, 1, 2, 3, 2, 0, 0, 2);
    check(c.refusal == TSEGUMBAR_REFUSED_ROUTE && c.cell == 0, "a route through the sender");

    tsegumbar_route r = tsegumbar_route_of_cell(4, 1, 0, 8);
    check(r.refusal == TSEGUMBAR_ACCEPTED && r.nodes[0] == 3 && r.nodes[1] == 2 && r.nodes[2] == 0 &&
              r.nodes[3] == 0 && r.len == 2, "the route of cell 8");
    r = tsegumbar_route_of_cell(4, 1, 0, 9);
    check(r.refusal == TSEGUMBAR_REFUSED_CELL && r.nodes[0] == 0 && r.len == 0, "cell 9 of 9");
    r = tsegumbar_route_of_cell(15, 3, 0, TSEGUMBAR_CELLS_MAX - 1);
    check(r.refusal == TSEGUMBAR_ACCEPTED && r.nodes[0] == 14 && r.nodes[1] == 13 && r.nodes[2] == 12 &&
              r.nodes[3] == 11 && r.len == 4, "the last route of 15 nodes, m=3");
    r = tsegumbar_route_of_cell(15, 3, 0, TSEGUMBAR_CELLS_MAX);
    check(r.refusal == TSEGUMBAR_REFUSED_CELL && r.nodes[0] == 0 && r.len == 0, "a cell beyond the last");

    tsegumbar_part p = tsegumbar_round_part(5, 1, table, sizeof table, 1);
    check(p.refusal == TSEGUMBAR_ACCEPTED && p.start == 8 && p.end == 32, "round 1 of 5 nodes");
    p = tsegumbar_round_part(5, 1, table, sizeof table, 2);
    check(p.refusal == TSEGUMBAR_REFUSED_ROUND && p.start == 0 && p.end == 0, "round 2 of m=1");
    p = tsegumbar_round_part(15, 3, largest, sizeof largest, 3);
    check(sizeof largest == 52808 && p.refusal == TSEGUMBAR_ACCEPTED && p.start == 4760 &&
              p.end == sizeof largest, "round 3 of 15 nodes");

    return wrong;
}
