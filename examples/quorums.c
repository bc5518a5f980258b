/*
 * The quorums of the tree, found by asking the library alone: which sets of nodes have no node to spare, and that a table of these would answer as the
 * library does for each of the 65,536 masks. The library itself keeps no such table.
 */
#include "senna.h"
#include <stdio.h>

enum { MASKS = 65536, TABLE = 64 };

typedef uint8_t (*test)(uint16_t mask);

/* Whether a mask is a quorum that is none without any one of its nodes. */
static int is_smallest(test is_quorum, uint16_t mask)
{
    for (unsigned node = 0; node < SENNA_NODES; node++) {
        uint16_t bit = (uint16_t)(1u << node);
        if ((mask & bit) && is_quorum((uint16_t)(mask & ~bit)))
            return 0;
    }
    return is_quorum(mask);
}

static int by_table(const uint16_t *table, unsigned count, uint16_t mask)
{
    for (unsigned i = 0; i < count; i++)
        if ((table[i] & mask) == table[i])
            return 1;
    return 0;
}

/* Prints the smallest quorums of a kind and how many masks are quorums; how many of its answers differ from the table's. */
static unsigned show(const char *kind, test is_quorum)
{
    uint16_t table[TABLE];
    unsigned count = 0, quorums = 0, other = 0;
    for (unsigned mask = 0; mask <= SENNA_ALL && count < TABLE; mask++)
        if (is_smallest(is_quorum, (uint16_t)mask))
            table[count++] = (uint16_t)mask;
    printf("%u smallest %s quorums:", count, kind);
    for (unsigned i = 0; i < count; i++)
        printf("%s%u", i % 14 == 0 ? "\n  " : " ", (unsigned)table[i]);
    for (unsigned mask = 0; mask < MASKS; mask++) {
        int answer = is_quorum((uint16_t)mask);
        quorums += answer == 1;
        other += answer != by_table(table, count, (uint16_t)mask);
    }
    printf("\n%u of %u masks contain one; %u answers are other than this table's\n", quorums, (unsigned)MASKS, other);
    return other;
}

int main(void)
{
    return show("read", senna_is_read_quorum) + show("write", senna_is_write_quorum) > 0;
}
