/*
 * The number's words of include/senna.h: one for each number of the table, all of them different, and one for every number that is none.
 */
#include "check.h"

static const char *const words[] = {"ok",         "length",    "damaged",        "garbled", "stranger",  "out of turn", "no such tally",
                                    "eight open", "no quorum", "number used up", "busy",    "not ready", "pool full",   "closed",
                                    "bounds",     "tally twice"};

int main(void)
{
    unsigned number;
    check(sizeof words / sizeof words[0] == SENNA_TALLY_TWICE + 1, "a word for each number");
    for (number = 0; number <= 255; number++) {
        const char *expected = number <= SENNA_TALLY_TWICE ? words[number] : "unknown";
        check(strcmp(senna_word((uint8_t)number), expected) == 0, expected);
    }
    return closing();
}
