/*
 * Two hosts that book for the same tally and try again until both are booked, by senna_station_*. They are in lockstep: in each round both do what comes
 * next, their messages go out in turn, one host's to the lower nodes first and the other's to the higher nodes first, and all of them arrive.
 *
 * Hosts that ask all nodes at once and try again at once send each other back in every try, with new timestamps and with kept ones: each holds a copy that
 * the other needs. Hosts that follow the header are both booked within a few rounds: keep the timestamp after an abort, ask node 0 first and the others
 * once its yes has come, and wait a number of rounds that is another at each node before trying again.
 */
#include "check.h"

enum { OBJECT = 7, TRIES = 100, ROUNDS_OF_A_TRY = 3, BOUND = 40, LATEST = 8 };

/* A station's five buffers. */
typedef struct station {
    uint8_t images[SENNA_IMAGES];
    uint8_t records[SENNA_RECORDS];
    uint8_t pool[SENNA_POOL];
    uint8_t own[SENNA_OWN];
    uint8_t settings[SENNA_STATION_SETTINGS];
} station;

/* How the hosts try again: whether they keep the timestamp, ask node 0 first, and wait. */
typedef struct habit {
    int keeps, root_first, waits;
} habit;

/* A host: its node, what it has to book, in which order it sends, how many rounds it still waits, and what became of its tries. */
typedef struct host {
    uint8_t node;
    int64_t grams;
    int downwards;
    unsigned rest, tries, sent_back, booked;
} host;

static station it;
static uint8_t distances[SENNA_DISTANCES];
static uint32_t last_timestamp;

/* A step that is never refused here; it is counted only where it is. */
static void must(int holds, const char *what)
{
    if (!holds) {
        check(0, what);
    }
}

static const uint8_t *record_of(const host *h)
{
    return it.records + h->node * SENNA_RECORD;
}

static uint8_t phase_of(const host *h)
{
    return senna_coordinator_phase(record_of(h), SENNA_RECORD);
}

/* Whether node 0's yes has come: while votes are asked for, an ask to it stays due until then. */
static int root_agreed(const host *h)
{
    uint8_t message[SENNA_MESSAGE_MAX];
    senna_written due = senna_coordinator_due(record_of(h), SENNA_RECORD, h->node, 0, 0, message, sizeof message);
    must(due.number == SENNA_OK, "what is due to node 0");
    return due.length == 0;
}

/* A try begins: with the last timestamp where the one before was sent back and it is kept, else with a new one. */
static void begin(host *h, habit how)
{
    int again = how.keeps && senna_coordinator_outcome(record_of(h), SENNA_RECORD) == SENNA_ABORTED;
    uint32_t timestamp = again ? senna_coordinator_timestamp(record_of(h), SENNA_RECORD) : ++last_timestamp;
    senna_called begun = senna_station_begin(it.records, sizeof it.records, it.own, sizeof it.own, it.settings, sizeof it.settings, h->node, SENNA_ALL,
                                             distances, sizeof distances, timestamp, 0, 0);
    senna_called opened = senna_station_open_write(it.records, sizeof it.records, it.own, sizeof it.own, it.settings, sizeof it.settings, h->node, OBJECT);
    must(begun.number == SENNA_OK && opened.number == SENNA_OK, "a try begins");
    h->tries++;
}

/* The value is found: votes are asked for the sum. */
static void request(const host *h)
{
    senna_value found = senna_station_found(it.records, sizeof it.records, it.own, sizeof it.own, h->node, OBJECT);
    senna_called set = senna_station_set_value(it.records, sizeof it.records, it.own, sizeof it.own, it.settings, sizeof it.settings, h->node, OBJECT,
                                               found.value + h->grams);
    senna_called asked = senna_station_request_commit(it.records, sizeof it.records, it.own, sizeof it.own, it.settings, sizeof it.settings, h->node);
    must(found.number == SENNA_OK && set.number == SENNA_OK && asked.number == SENNA_OK, "votes are asked for");
}

/* What a host does at the begin of a round. */
static void take_turn(host *h, habit how)
{
    if (phase_of(h) == SENNA_IDLE && h->rest > 0) {
        h->rest--;
    } else if (phase_of(h) == SENNA_IDLE && !h->booked) {
        begin(h, how);
    } else if (phase_of(h) == SENNA_OPEN && senna_coordinator_is_ready(record_of(h), SENNA_RECORD, 0)) {
        request(h);
    }
}

/* The i-th of a host's sends: what is due to a node, if anything. */
static void send_one(const host *h, habit how, unsigned i)
{
    unsigned to = h->downwards ? SENNA_NODES - 1 - i : i;
    if (phase_of(h) == SENNA_VOTING && how.root_first && to != 0 && !root_agreed(h)) {
        return;
    }
    must(senna_station_send(it.records, sizeof it.records, it.pool, sizeof it.pool, it.own, sizeof it.own, h->node, (uint8_t)to, OBJECT).number == SENNA_OK,
         "a send");
}

/* Delivers the oldest message, and tells the host that it is for what it brought about. */
static void deliver_one(host *hosts, habit how)
{
    senna_waiting first = senna_station_message(it.pool, sizeof it.pool, 0);
    uint8_t to = it.pool[first.place + SENNA_TO_AT];
    senna_called got = senna_station_deliver(it.images, sizeof it.images, it.records, sizeof it.records, it.pool, sizeof it.pool, it.own, sizeof it.own, 0, 0);
    unsigned i;
    must(first.number == SENNA_OK && got.number == SENNA_OK, "a delivery");
    for (i = 0; i < 2; i++) {
        if (hosts[i].node == to && got.answer == SENNA_COMMITTED) {
            hosts[i].booked++;
        } else if (hosts[i].node == to && got.answer == SENNA_ABORTED) {
            hosts[i].sent_back++;
            hosts[i].rest = how.waits ? 1u + to : 0u;
        }
    }
}

static void one_round(host *hosts, habit how)
{
    unsigned i, at;
    take_turn(&hosts[0], how);
    take_turn(&hosts[1], how);
    for (at = 0; at < SENNA_NODES; at++) {
        for (i = 0; i < 2; i++) {
            if (phase_of(&hosts[i]) != SENNA_IDLE) {
                send_one(&hosts[i], how, at);
            }
        }
    }
    while (senna_station_waiting(it.pool, sizeof it.pool) > 0) {
        deliver_one(hosts, how);
    }
}

/* Two hosts at a blank station, the second so many rounds late; up to so many rounds. How many it took until both were booked and idle. */
static unsigned run(host *hosts, uint8_t one, uint8_t other, habit how, unsigned late, unsigned rounds)
{
    unsigned round;
    must(senna_station_blank(it.images, sizeof it.images, it.records, sizeof it.records, it.pool, sizeof it.pool, it.own, sizeof it.own, it.settings,
                             sizeof it.settings, SENNA_ALL) == SENNA_OK, "a blank station");
    memset(hosts, 0, 2 * sizeof *hosts);
    hosts[0].node = one;
    hosts[0].grams = 500;
    hosts[1].node = other;
    hosts[1].grams = 70;
    hosts[1].downwards = 1;
    hosts[1].rest = late;
    last_timestamp = 0;
    for (round = 0; round < rounds; round++) {
        if (hosts[0].booked && hosts[1].booked && phase_of(&hosts[0]) == SENNA_IDLE && phase_of(&hosts[1]) == SENNA_IDLE) {
            break;
        }
        one_round(hosts, how);
    }
    return round;
}

static habit habit_of(int keeps, int root_first, int waits)
{
    habit how;
    how.keeps = keeps;
    how.root_first = root_first;
    how.waits = waits;
    return how;
}

/* The tally in node 0's image: its low two bytes, which are enough here. */
static unsigned tally(void)
{
    const uint8_t *copy = it.images + 1 + 22 * OBJECT;
    return copy[0] + 256u * copy[1];
}

/* Both ask all nodes at once and try again at once: each is sent back in every try. */
static void in_lockstep(int keeps)
{
    host hosts[2];
    unsigned rounds = run(hosts, 4, 5, habit_of(keeps, 0, 0), 0, TRIES * ROUNDS_OF_A_TRY), i;
    check(rounds == TRIES * ROUNDS_OF_A_TRY && tally() == 0, "nothing is booked");
    for (i = 0; i < 2; i++) {
        check(hosts[i].tries == TRIES && hosts[i].sent_back == TRIES && hosts[i].booked == 0, "sent back in every try");
    }
}

/* Both follow the header, at any two nodes, one any number of rounds late: both are booked, once, and soon. The most rounds that it took. Between two, the
   order of the asks is enough; the waiting is for more of them. */
static unsigned by_the_header(int waits)
{
    host hosts[2];
    unsigned most = 0, rounds, one, other, late;
    for (one = 0; one < SENNA_NODES; one++) {
        for (other = 0; other < SENNA_NODES; other++) {
            for (late = 0; one != other && late <= LATEST; late++) {
                rounds = run(hosts, (uint8_t)one, (uint8_t)other, habit_of(1, 1, waits), late, BOUND);
                check(rounds < BOUND && hosts[0].booked == 1 && hosts[1].booked == 1 && tally() == 570, "both are booked");
                most = rounds > most ? rounds : most;
            }
        }
    }
    return most;
}

int main(void)
{
    unsigned at;
    for (at = 0; at < SENNA_NODES; at++) {
        distances[2 * at] = 1;
    }
    in_lockstep(0);
    in_lockstep(1);
    printf("both booked after at most %u rounds", by_the_header(1));
    printf(", %u without waiting\n", by_the_header(0));
    return closing();
}
