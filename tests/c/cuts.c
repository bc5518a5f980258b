/*
 * The example's nodes (examples/grader.c) with the power of one of them cut before each message and turn of a booking in turn: at the node that
 * books, at the root, at another participant; with the messages under way lost, or not. Whenever it is cut, the batch is booked exactly once, the
 * root's copy has its grams once, and the next batch is booked as well.
 */
#include "check.h"

/* The example's functions as they are, without what they print. */
static int silent(const char *words, ...)
{
    (void)words;
    return 0;
}

#define printf silent
#define main story
#include "../../examples/grader.c"
#undef printf
#undef main

enum { BOOKS = 5, MOMENTS = 60, STEPS = 400 };

/* The supplier's tally in the root's image. */
static int64_t tally_at_root(const station *s)
{
    const uint8_t *copy = s->nodes[0].memory.image + 1 + 22 * SUPPLIER;
    uint64_t bits = 0;
    unsigned i;
    for (i = 0; i < 8; i++) {
        bits |= (uint64_t)copy[i] << (8 * i);
    }
    return (int64_t)bits;
}

/* Books what is on the scale, and cuts the power of a node before this step. How many steps it took. */
static unsigned book(station *s, unsigned who, unsigned moment, int lost)
{
    node *n = &s->nodes[BOOKS];
    unsigned step;
    for (step = 0; at_work(n) && step < STEPS; step++) {
        if (step == moment) {
            cut_power(&s->nodes[who]);
            s->waiting = lost ? 0 : s->waiting;
            start(&s->nodes[who]);
        }
        if (s->waiting == 0) {
            take_turn(s, n);
        } else {
            deliver(s, 1);
        }
    }
    return step;
}

static void one_cut(unsigned who, unsigned moment, int lost)
{
    static station s;
    node *n = &s.nodes[BOOKS];
    int once;
    blank_station(&s);
    load_packing_hours(n, 0, MINUTES_OF_A_DAY, 1); /* they are open, and survive the cut with the rest */
    weigh(n, 12500);
    once = book(&s, who, moment, lost) < STEPS && n->memory.batch == 0 && n->memory.booked == 12500 && tally_at_root(&s) == 12500;
    check(once, "a batch is booked once, whenever the power is cut");
    weigh(n, 300);
    once = book(&s, who, STEPS, lost) < STEPS && n->memory.booked == 12800 && tally_at_root(&s) == 12800;
    check(once, "and so is the next");
}

int main(void)
{
    static const unsigned cut[] = {BOOKS, 0, 8};
    unsigned i, moment;
    for (i = 0; i < 3; i++) {
        for (moment = 0; moment < MOMENTS; moment++) {
            one_cut(cut[i], moment, 0);
            one_cut(cut[i], moment, 1);
        }
    }
    check(story() == EXIT_SUCCESS, "the example's own story");
    return closing();
}
