/*
 * Tsegumbar: one exchange of degradable Byzantine agreement, BYZ(m,m).
 *
 * N nodes, numbered 0 to N-1, are fully connected. One of them, the sender, tells its value to the
 * others, who relay it in m further rounds and then decide. Given the set of faulty nodes and a table
 * of every message that a faulty node could send, tsegumbar_exchange gives each fault-free node's
 * decision. Nothing is sent: a call computes what the nodes would decide.
 *
 * Words.  A word is two bytes, the HIGH byte first, on every machine; so are the words of a table, a
 * list and a row. 0 is the default value, 1 to 65,000 are ordinary values, 65,001 to 65,535 are
 * reserved. A reserved word in a table or a list counts as 0.
 *
 * Settings.  4 <= N <= 15, 1 <= m <= 3, u >= m, N > 2m+u. Every number is judged at its full width:
 * 260 nodes are refused, never taken for 4.
 *
 * Routes and cells.  A route is 1 to m+1 different node numbers, none of them the sender. The last is
 * the receiver, the one before it the teller; in a route of one number the sender is the teller. Route
 * (3,1) is what node 3 tells node 1 it heard from the sender. Every route has a cell in the table.
 * Round k (0 to m) has the routes of k+1 numbers: (N-1)(N-2)..(N-1-k) cells. Cells run round after
 * round, and inside a round in ascending order of the routes, the first number weighing most. M is the
 * number of cells:
 *
 *     N, m    4,1    5,1    7,2    10,3     15,3
 *     M         9     16    156    3,609    26,404  (the most there is: TSEGUMBAR_CELLS_MAX)
 *
 * What is lent.  Every pointer is lent for the call alone. Lengths are in bytes. The row of
 * tsegumbar_exchange is written, everything else is only read.
 *
 * The caller's duty, which no function can check:
 *   - a pointer is never NULL, not even for a length of 0;
 *   - it points to at least as many bytes as the length beside it says;
 *   - the row overlaps no other memory that is lent in the same call.
 * Anything else that is wrong is answered by a refusal.
 *
 * Refusals.  Every answer begins with `refusal`: 0 for an accepted call, else the lowest number of those
 * that apply, as listed at each function. Then every other field of the answer is 0 (a tie is false), and a
 * row keeps its bytes.
 *
 * What a call needs.  No function has variables of its own, allocates memory, or calls the C library or
 * the system: any thread may call at any time, as long as no other one writes what is lent or reads the
 * row meanwhile. The time of an exchange is about in proportion to M. A vote goes through its list once or
 * a few times where the threshold is above half of the words and one value leads; else its time may grow
 * with the square of the list.
 */
#ifndef TSEGUMBAR_H
#define TSEGUMBAR_H

#include <stdbool.h>
#include <stddef.h>
#include <stdint.h>

#ifdef __cplusplus
extern "C" {
#endif

#define TSEGUMBAR_VERSION "1.0.0"

/* M at N = 15, m = 3: 2 * TSEGUMBAR_CELLS_MAX bytes hold every table. */
#define TSEGUMBAR_CELLS_MAX      26404u

#define TSEGUMBAR_ACCEPTED           0u
#define TSEGUMBAR_REFUSED_NODES      1u  /* N < 4 or N > 15 */
#define TSEGUMBAR_REFUSED_M          2u  /* m = 0 or m > 3 */
#define TSEGUMBAR_REFUSED_U          3u  /* u < m */
#define TSEGUMBAR_REFUSED_TOO_FEW    4u  /* too few nodes: N <= 2m+u; where no u is taken, N <= 3m */
#define TSEGUMBAR_REFUSED_SENDER     5u  /* sender >= N */
#define TSEGUMBAR_REFUSED_VALUE      6u  /* the sender's value is reserved */
#define TSEGUMBAR_REFUSED_FAULTS     7u  /* a fault bit at N or above */
#define TSEGUMBAR_REFUSED_TABLE      8u  /* the table is not 2M bytes */
#define TSEGUMBAR_REFUSED_ROW        9u  /* the row is not 2N bytes */
/* 10 is given for scenario files alone, never by a function of this header. */
#define TSEGUMBAR_REFUSED_THRESHOLD 11u  /* the threshold of a vote is 0 */
#define TSEGUMBAR_REFUSED_LIST      12u  /* the list of a vote has an odd number of bytes */
#define TSEGUMBAR_REFUSED_ROUTE     13u  /* not a route, see above */
#define TSEGUMBAR_REFUSED_CELL      14u  /* cell >= M */
#define TSEGUMBAR_REFUSED_ROUND     15u  /* round > m */

/* In a row, the word of a faulty node: not reported. */
#define TSEGUMBAR_NOT_REPORTED   65535u

/* The word in a place of a table, a list or a row, as it stands. The first place is 0. Nothing is judged:
   the two bytes must be there. */
static inline uint16_t tsegumbar_get_word(const uint8_t *bytes, size_t place)
{
    return (uint16_t)((unsigned)bytes[2 * place] << 8 | bytes[2 * place + 1]);
}

/* Puts a word into such a place. */
static inline void tsegumbar_set_word(uint8_t *bytes, size_t place, uint16_t word)
{
    bytes[2 * place] = (uint8_t)(word >> 8);
    bytes[2 * place + 1] = (uint8_t)(word & 255u);
}

/* The answer of tsegumbar_exchange. */
typedef struct tsegumbar_summary {
    uint32_t refusal;
    uint32_t faults;      /* f, the number of faulty nodes */
    uint32_t fault_class; /* 1 if f <= m, 2 if m < f <= u, 3 if f > u: then nothing is guaranteed */
    uint32_t ties;        /* votes of fault-free receivers, over all levels, that met a tie */
    uint32_t messages;    /* M */
} tsegumbar_summary;

/*
 * Plays one exchange and writes the decisions.
 *
 * faults: bit i is set where node i is faulty. The sender may be faulty.
 * table:  M words, one for each cell. Only the cells of faulty tellers count; the others may hold
 *         anything.
 * row:    N words, written: a fault-free sender's value, a fault-free receiver's decision, and
 *         TSEGUMBAR_NOT_REPORTED for a faulty node. Kept as it is if the call is refused.
 *
 * Refusals: NODES, M, U, TOO_FEW, SENDER, VALUE, FAULTS, TABLE, ROW.
 */
tsegumbar_summary tsegumbar_exchange(uint32_t n, uint32_t m, uint32_t u, uint32_t sender,
                                     uint16_t value, uint16_t faults,
                                     const uint8_t *table, size_t table_len,
                                     uint8_t *row, size_t row_len);

/* The answer of tsegumbar_vote. */
typedef struct tsegumbar_ballot {
    uint32_t refusal;
    uint16_t word; /* the value voted for, or the default 0 */
    bool tie;      /* two or more values reached the threshold */
} tsegumbar_ballot;

/*
 * The vote alone: the value that at least `threshold` words of the list equal, if exactly one value has
 * that many; else 0. Words equal to 0 are counted like any other. The list may be of any length.
 *
 * threshold: a number of words.
 * list_len:  a number of bytes.
 *
 * Refusals: THRESHOLD, LIST.
 */
tsegumbar_ballot tsegumbar_vote(size_t threshold, const uint8_t *list, size_t list_len);

/* The answer of tsegumbar_cell_of_route. */
typedef struct tsegumbar_cell {
    uint32_t refusal;
    uint32_t cell; /* the place of its word in the table: bytes 2*cell (high) and 2*cell+1 (low) */
} tsegumbar_cell;

/*
 * The cell of the route of `len` numbers that begins a, b, c, d. The numbers beyond `len` are ignored.
 *
 * Refusals: NODES, M, TOO_FEW (N <= 3m), SENDER, ROUTE.
 */
tsegumbar_cell tsegumbar_cell_of_route(uint32_t n, uint32_t m, uint32_t sender,
                                       uint8_t a, uint8_t b, uint8_t c, uint8_t d, uint32_t len);

/* The answer of tsegumbar_route_of_cell. */
typedef struct tsegumbar_route {
    uint32_t refusal;
    uint8_t nodes[4]; /* 0 beyond len */
    uint32_t len;
} tsegumbar_route;

/*
 * The route of a cell.
 *
 * Refusals: NODES, M, TOO_FEW (N <= 3m), SENDER, CELL.
 */
tsegumbar_route tsegumbar_route_of_cell(uint32_t n, uint32_t m, uint32_t sender, uint32_t cell);

/* The answer of tsegumbar_round_part. */
typedef struct tsegumbar_part {
    uint32_t refusal;
    uint32_t start; /* the offset of the part's first byte in the table */
    uint32_t end;   /* the offset just after its last byte; 0, 0 if refused */
} tsegumbar_part;

/*
 * Where one round's cells stand in a table: table[start] to table[end-1].
 *
 * Refusals: NODES, M, TOO_FEW (N <= 3m), TABLE, ROUND.
 */
tsegumbar_part tsegumbar_round_part(uint32_t n, uint32_t m, const uint8_t *table, size_t table_len,
                                    uint32_t round);

#ifdef __cplusplus
}
#endif

#endif
