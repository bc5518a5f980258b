/*
 * A grader's host program. Each of thirteen nodes has a scale; a batch on the scale is booked by adding its grams to the supplier's tally, which
 * is one object that all nodes keep copies of. Here the thirteen nodes and the cable between them are simulated in this one program, so that it
 * can cut a node's power and switch nodes off. What a real node's program does is in the first half, down to take_turn; read that first.
 *
 * The whole of it: a node keeps three things of the library on its disk, its image (its copies of the tallies), its record (its own booking) and its
 * settings (its packing hours). take_turn looks at the record and does what comes next. So a power cut needs no code of its own: the bytes are read
 * from the disk, checked, and take_turn goes on from where they are.
 *
 * README.md beside this file has the line that compiles it.
 */
#include "senna.h"

#include <inttypes.h>
#include <stdbool.h>
#include <stdio.h>
#include <stdlib.h>
#include <string.h>

enum { SUPPLIER = 7, CABLE = 64, ROUNDS = 20, MINUTES_OF_A_DAY = 24 * 60 };

/* What a node keeps on its disk. */
typedef struct kept {
    uint8_t image[SENNA_IMAGE];       /* the library's: copies of all tallies, and who is booking on them */
    uint8_t record[SENNA_RECORD];     /* the library's: this node's own booking */
    uint8_t settings[SENNA_SETTINGS]; /* the library's: this node's packing hours */
    int64_t batch;                    /* ours: grams on the scale that are not booked yet; 0 for none */
    int64_t booked;                   /* ours: grams that this node has booked */
} kept;

/* A node: its number, what it works on, and its disk. A power cut loses all but the disk. */
typedef struct node {
    uint8_t number;
    bool on;
    kept memory;
    kept disk;
} node;

/* A message on the cable. */
typedef struct letter {
    uint8_t bytes[SENNA_MESSAGE_MAX];
    size_t length;
} letter;

/* The simulated station: the nodes, a cable that carries messages in order, timestamps that never go back, and the time on the wall. */
typedef struct station {
    node nodes[SENNA_NODES];
    letter cable[CABLE];
    size_t waiting;
    uint32_t timestamp;
    uint32_t day;    /* days since 1 January 1970; the library takes any count of days */
    uint16_t minute; /* of the week, Monday 00:00 is 0 */
} station;

/* ---- A node's program ---- */

/* For calls that cannot be refused unless this program is wrong. */
static void must(uint8_t number, const char *what)
{
    if (number != SENNA_OK) {
        printf("%s refused: %s\n", what, senna_word(number));
        exit(EXIT_FAILURE);
    }
}

/*
 * Writes memory to the disk: after every change, and before anything is sent or shown that follows from it. A real program writes a new file and
 * renames it over the old one, so that a cut leaves either the old bytes or the new ones.
 */
static void keep(node *n)
{
    n->disk = n->memory;
}

/* Puts a message on the cable. A full cable loses it, which does no harm: what is due stays due and is sent again. */
static void put(station *s, const uint8_t *bytes, size_t length)
{
    if (s->waiting < CABLE) {
        memcpy(s->cable[s->waiting].bytes, bytes, length);
        s->cable[s->waiting].length = length;
        s->waiting++;
    }
}

/* The nodes that answer, as far as this one knows. A real program sets a bit for each node that it has heard of lately. */
static uint16_t live_nodes(const station *s)
{
    unsigned live = 0;
    for (unsigned i = 0; i < SENNA_NODES; i++) {
        live |= s->nodes[i].on ? 1u << i : 0u;
    }
    return (uint16_t)live;
}

/* Appends a number of so many bytes to a list, low byte first; the list's size after it. */
static size_t append(uint8_t *list, size_t size, unsigned bytes, uint32_t number)
{
    for (; bytes > 0; bytes--, number >>= 8) {
        list[size++] = (uint8_t)number;
    }
    return size;
}

/*
 * Loads packing hours: Monday to Friday from one minute of the day to another, but not on one date. Done once, when the hours are set, and kept with
 * the rest of the settings; from then on the library turns every begin outside of them away.
 */
static void load_packing_hours(node *n, unsigned opens, unsigned closes, uint32_t closed_date)
{
    uint8_t list[SENNA_HOURS_MAX];
    size_t size = append(list, 0, 1, 5); /* five windows, each with its first minute and its end */
    for (uint32_t weekday = 0; weekday < 5; weekday++) {
        size = append(list, size, 2, weekday * MINUTES_OF_A_DAY + opens);
        size = append(list, size, 2, weekday * MINUTES_OF_A_DAY + closes);
    }
    size = append(list, size, 1, 1); /* one closed date */
    size = append(list, size, 4, closed_date);
    must(senna_load_hours(n->memory.settings, SENNA_SETTINGS, list, size), "packing hours");
    keep(n);
}

/*
 * Whether the node's last booking was sent back: voted down, made to yield, or given up. Its batch is then still on the scale, and is begun again with the
 * timestamp of its first try: the older of two bookings goes first, so whoever was sent back keeps his place before all that came after him. With a new
 * timestamp each time, a batch might be sent back for ever by younger ones. The record has the timestamp, so that a power cut does not lose the place.
 */
static bool sent_back(const node *n)
{
    return senna_coordinator_outcome(n->memory.record, SENNA_RECORD) == SENNA_ABORTED;
}

/*
 * Begins a booking of the batch on the scale, with the last timestamp where it was sent back, else with a later one than ever before, and opens the
 * supplier's tally to write it. Where it cannot begin, as outside of packing hours, the batch stays on the scale and the next turn tries again.
 */
static void begin_booking(station *s, node *n)
{
    bool again = sent_back(n);
    uint32_t timestamp = again ? senna_coordinator_timestamp(n->memory.record, SENNA_RECORD) : ++s->timestamp;
    uint8_t distances[SENNA_DISTANCES] = {0}; /* thirteen 16-bit numbers, low byte first */
    for (size_t i = 0; i < SENNA_NODES; i++) {
        distances[2 * i] = 1;
    }
    senna_called begun = senna_coordinator_begin(n->memory.record, SENNA_RECORD, n->memory.settings, SENNA_SETTINGS, n->number, live_nodes(s),
                                                 distances, sizeof distances, timestamp, s->day, s->minute);
    if (begun.number != SENNA_OK) {
        printf("node %u: cannot begin: %s\n", n->number, senna_word(begun.number));
        return;
    }
    must(senna_coordinator_open_write(n->memory.record, SENNA_RECORD, n->memory.settings, SENNA_SETTINGS, n->number, SUPPLIER).number,
         "open to write");
    keep(n);
    printf("node %u: begins booking %" PRIu32 ", %" PRId64 " g for supplier %d%s\n", n->number,
           senna_coordinator_serial(n->memory.record, SENNA_RECORD), n->memory.batch, SUPPLIER, again ? ", in its old place" : "");
}

/* The tally's value has been found: sets the new one and asks for votes. Where no write quorum is live the booking is given up for now. */
static void ask_for_votes(node *n)
{
    senna_value found = senna_coordinator_found(n->memory.record, SENNA_RECORD, n->number, SUPPLIER);
    must(found.number, "found");
    int64_t sum = found.value + n->memory.batch;
    must(senna_coordinator_set_value(n->memory.record, SENNA_RECORD, n->memory.settings, SENNA_SETTINGS, n->number, SUPPLIER, sum).number, "set value");
    senna_called asked = senna_coordinator_request_commit(n->memory.record, SENNA_RECORD, n->memory.settings, SENNA_SETTINGS, n->number);
    if (asked.number == SENNA_OK) {
        printf("node %u: found %" PRId64 " g, asks for votes on %" PRId64 " g\n", n->number, found.value, sum);
    } else {
        printf("node %u: found %" PRId64 " g, cannot ask for votes: %s; gives up\n", n->number, found.value, senna_word(asked.number));
        must(senna_coordinator_abort(n->memory.record, SENNA_RECORD, n->number).number, "abort");
    }
    keep(n);
}

/*
 * Sends every message that is due, to each node. Safe to do as often as one likes. While a booking is open, due is asked for each of its objects;
 * here it has one. Asks go to node 0 alone until its yes has come: every booking needs node 0's vote, so of two that meet, one is sent back there, before it
 * holds any copy elsewhere that the other needs. Two that ask all nodes at once can send each other back again and again, each by what it holds.
 */
static void send_due(station *s, const node *n)
{
    uint8_t message[SENNA_MESSAGE_MAX];
    uint8_t object = senna_coordinator_object(n->memory.record, SENNA_RECORD, 0);
    uint8_t phase = senna_coordinator_phase(n->memory.record, SENNA_RECORD);
    if (phase == SENNA_IDLE) {
        return;
    }
    for (uint8_t to = 0; to < SENNA_NODES; to++) {
        senna_written due = senna_coordinator_due(n->memory.record, SENNA_RECORD, n->number, to, object, message, sizeof message);
        must(due.number, "due");
        if (due.length > 0) {
            put(s, message, due.length);
            if (phase == SENNA_VOTING && to == 0) {
                return;
            }
        }
    }
}

/* A fetch, an ask or an outcome is for this node's copies. The changed image is kept before the answer is sent. */
static void receive_at_replica(station *s, node *n, const letter *l)
{
    uint8_t answer[SENNA_MESSAGE_MAX];
    senna_received got =
        senna_replica_receive(n->memory.image, SENNA_IMAGE, n->number, l->bytes, l->length, answer, sizeof answer);
    keep(n);
    if (got.number != SENNA_OK) {
        printf("node %u: a message is refused: %s\n", n->number, senna_word(got.number));
    } else if (got.length > 0) {
        put(s, answer, got.length);
    }
}

/* Any other kind is for this node's own booking. Only 'committed' means booked, and it is shown after it is kept. */
static void receive_at_coordinator(node *n, const letter *l)
{
    senna_called got = senna_coordinator_receive(n->memory.record, SENNA_RECORD, n->number, l->bytes, l->length);
    int64_t grams = n->memory.batch;
    if (got.number == SENNA_OK && got.answer == SENNA_COMMITTED) {
        n->memory.booked += grams;
        n->memory.batch = 0; /* kept together with the record: a batch is never booked twice */
    }
    keep(n);
    if (got.number != SENNA_OK) {
        printf("node %u: a message is refused: %s\n", n->number, senna_word(got.number));
    } else if (got.answer == SENNA_COMMITTED) {
        printf("node %u: %" PRId64 " g booked\n", n->number, grams);
    } else if (got.answer == SENNA_ABORTED) {
        printf("node %u: not booked, another booking goes first\n", n->number);
    } else if (got.answer == SENNA_FINISHED) {
        printf("node %u: booking %" PRIu32 " is over\n", n->number, senna_coordinator_serial(n->memory.record, SENNA_RECORD));
    }
}

/* A message came from the cable. Its first byte is its kind; a cable may bring anything, so it is checked before it is looked at. */
static void receive(station *s, node *n, const letter *l)
{
    if (senna_check_message(l->bytes, l->length) != SENNA_OK) {
        return;
    }
    switch (l->bytes[SENNA_KIND_AT]) {
    case SENNA_FETCH:
    case SENNA_ASK:
    case SENNA_OUTCOME:
        receive_at_replica(s, n, l);
        break;
    default:
        receive_at_coordinator(n, l);
        break;
    }
}

/* Starts a node from its disk, and says where its booking was. */
static void start(node *n)
{
    static const char *const phases[] = {"idle", "open", "voting", "finishing"};
    n->memory = n->disk;
    must(senna_check_image(n->memory.image, SENNA_IMAGE), "the kept image");
    must(senna_check_record(n->memory.record, SENNA_RECORD), "the kept record");
    must(senna_check_settings(n->memory.settings, SENNA_SETTINGS), "the kept settings");
    n->on = true;
    const uint8_t *record = n->memory.record;
    uint8_t phase = senna_coordinator_phase(record, SENNA_RECORD);
    if (phase == SENNA_IDLE) {
        printf("node %u: power is back; no booking was under way\n", n->number);
        return;
    }
    printf("node %u: power is back; booking %" PRIu32 " was %s", n->number, senna_coordinator_serial(record, SENNA_RECORD), phases[phase]);
    for (uint8_t i = 0; i < senna_coordinator_count(record, SENNA_RECORD); i++) {
        printf(", supplier %u to %s%s", senna_coordinator_object(record, SENNA_RECORD, i),
               senna_coordinator_mode(record, SENNA_RECORD, i) == SENNA_WRITE ? "write" : "read",
               senna_coordinator_is_ready(record, SENNA_RECORD, i) ? ", found" : "");
    }
    if (phase == SENNA_VOTING || phase == SENNA_FINISHING) {
        printf(", participants"); /* a mask: bit i for node i */
        for (unsigned i = 0; i < SENNA_NODES; i++) {
            if (senna_coordinator_participants(record, SENNA_RECORD) >> i & 1) {
                printf(" %u", i);
            }
        }
    }
    if (phase == SENNA_FINISHING) { /* in earlier phases the outcome is that of the booking before */
        printf(", %s", senna_coordinator_outcome(record, SENNA_RECORD) == SENNA_COMMITTED ? "booked" : "given up");
    }
    printf("\n");
}

/* Whether a node has anything left to do for its own scale. */
static bool at_work(const node *n)
{
    return n->on && (n->memory.batch != 0 || senna_coordinator_phase(n->memory.record, SENNA_RECORD) != SENNA_IDLE);
}

/* Does what comes next, whatever the phase, then sends what is due. A real program does this every so often, and after a message came. */
static void take_turn(station *s, node *n)
{
    uint8_t phase = senna_coordinator_phase(n->memory.record, SENNA_RECORD);
    if (phase == SENNA_IDLE) {
        begin_booking(s, n);
    } else if (phase == SENNA_OPEN && senna_coordinator_is_ready(n->memory.record, SENNA_RECORD, 0)) {
        ask_for_votes(n);
    }
    send_due(s, n);
}

/* ---- The simulation around it ---- */

/* Delivers up to so many messages. What comes to a node without power is lost. Byte 2 of a message is the node that it is for. */
static void deliver(station *s, size_t most)
{
    for (; most > 0 && s->waiting > 0; most--) {
        letter first = s->cable[0];
        s->waiting--;
        memmove(&s->cable[0], &s->cable[1], s->waiting * sizeof s->cable[0]);
        node *n = &s->nodes[first.bytes[SENNA_TO_AT]];
        if (n->on) {
            receive(s, n, &first);
        }
    }
}

/* Turns and messages until no node has anything left to do, or too long. */
static void carry_on(station *s, unsigned rounds)
{
    for (unsigned round = 0; round < rounds; round++) {
        for (size_t i = 0; i < SENNA_NODES; i++) {
            if (at_work(&s->nodes[i])) {
                take_turn(s, &s->nodes[i]);
                deliver(s, SIZE_MAX);
            }
        }
    }
}

static void weigh(node *n, int64_t grams)
{
    n->memory.batch = grams;
    keep(n);
    printf("node %u: %" PRId64 " g on the scale\n", n->number, grams);
}

/* The power of a node fails: everything in memory is gone, and what was on its way to it finds nobody. */
static void cut_power(node *n)
{
    memset(&n->memory, 0, sizeof n->memory);
    n->on = false;
    printf("node %u: power cut\n", n->number);
}

/* The time on the wall: a day, and a time of a weekday, Monday being 0. */
static void set_clock(station *s, uint32_t day, unsigned weekday, unsigned hours, unsigned minutes)
{
    static const char *const names[] = {"Monday", "Tuesday", "Wednesday", "Thursday", "Friday", "Saturday", "Sunday"};
    s->day = day;
    s->minute = (uint16_t)(weekday * MINUTES_OF_A_DAY + hours * 60 + minutes);
    printf("it is %s, day %" PRIu32 ", %02u:%02u\n", names[weekday], day, hours, minutes);
}

static void blank_station(station *s)
{
    memset(s, 0, sizeof *s);
    for (uint8_t i = 0; i < SENNA_NODES; i++) {
        node *n = &s->nodes[i];
        n->number = i;
        n->on = true;
        must(senna_blank_image(n->memory.image, SENNA_IMAGE), "blank image");
        must(senna_blank_record(n->memory.record, SENNA_RECORD), "blank record");
        must(senna_blank_settings(n->memory.settings, SENNA_SETTINGS), "blank settings");
        keep(n);
    }
}

/* Who booked for the supplier last, as a node's own copy has it. */
static void show_last_booking(const node *n)
{
    senna_author last = senna_image_author(n->memory.image, SENNA_IMAGE, SUPPLIER);
    must(last.number, "who wrote last");
    if (last.owner < SENNA_NODES) {
        printf("last for supplier %d, by node %u's copy: booking %" PRIu32 " of node %u\n", SUPPLIER, n->number, last.serial, last.owner);
    } else {
        printf("last for supplier %d, by node %u's copy: %s\n", SUPPLIER, n->number, last.owner == SENNA_NOBODY ? "nobody" : "not known");
    }
}

int main(void)
{
    static station s;
    node *three = &s.nodes[3], *five = &s.nodes[5], *eight = &s.nodes[8];
    blank_station(&s);
    show_last_booking(&s.nodes[0]);

    printf("\n-- a plain booking\n");
    weigh(five, 12500);
    carry_on(&s, ROUNDS);

    printf("\n-- power cut while votes are coming\n");
    weigh(five, 8300);
    carry_on(&s, 2);       /* begins and finds the tally's value, then asks node 0, which votes yes */
    take_turn(&s, five);   /* asks the six others for their votes */
    deliver(&s, 8);        /* six asks and two votes */
    cut_power(five);       /* not booked: four votes are missing */
    deliver(&s, SIZE_MAX); /* and find nobody */
    start(five);
    carry_on(&s, ROUNDS);

    printf("\n-- power cut after it was booked, before the others know\n");
    weigh(five, 9100);
    carry_on(&s, 3); /* begins, asks node 0, asks the others and is booked */
    cut_power(five);
    start(five);
    carry_on(&s, ROUNDS);

    printf("\n-- two nodes at once\n");
    weigh(eight, 700);
    carry_on(&s, 1); /* node 8 begins; being older it goes first */
    weigh(five, 60);
    carry_on(&s, ROUNDS);

    printf("\n-- sent back, and still before a younger one\n");
    weigh(eight, 300);
    carry_on(&s, 1); /* node 8 begins, and is the oldest */
    weigh(five, 45);
    carry_on(&s, 3); /* node 8 is booked, and node 5 is sent back */
    weigh(three, 500);
    carry_on(&s, ROUNDS); /* node 3 asks before node 5 does, but node 5 has kept its place */

    printf("\n-- no write quorum without node 0\n");
    cut_power(&s.nodes[0]);
    weigh(five, 4000);
    carry_on(&s, 3);
    start(&s.nodes[0]);
    carry_on(&s, ROUNDS);

    printf("\n-- packing hours at node 8: Monday to Friday, 06:00 to 14:00, but not on day 20812\n");
    load_packing_hours(eight, 6 * 60, 14 * 60, 20812);
    set_clock(&s, 20811, 3, 5, 59);
    weigh(eight, 1500);
    carry_on(&s, 2); /* too early, and still too early */
    set_clock(&s, 20811, 3, 6, 0);
    carry_on(&s, ROUNDS);
    set_clock(&s, 20811, 3, 13, 59);
    weigh(eight, 250);
    carry_on(&s, 1); /* begins in the last open minute */
    set_clock(&s, 20811, 3, 14, 0);
    carry_on(&s, ROUNDS); /* and goes on after closing time */
    set_clock(&s, 20812, 4, 8, 0);
    weigh(eight, 40);
    carry_on(&s, 1);
    cut_power(eight); /* the hours are on the disk with the rest */
    start(eight);
    carry_on(&s, 1);
    weigh(five, 90); /* node 5 has hours of its own: none are loaded, so all are open */
    carry_on(&s, 4);
    set_clock(&s, 20815, 0, 6, 0);
    carry_on(&s, ROUNDS);

    printf("\nbooked at node 3: %" PRId64 " g, at node 5: %" PRId64 " g, at node 8: %" PRId64 " g\n", three->memory.booked, five->memory.booked,
           eight->memory.booked);
    show_last_booking(&s.nodes[0]);
    return EXIT_SUCCESS;
}
