/*
 * Weight classes from C, through include/senna.h as a host would: the bytes of a table and of a batch as the header lays them, where the settings keep
 * them, which number comes first, 3.7 g and 6.4 g booked one after the other with the tenths that wait between, a batch aborted and booked again, one that
 * is given up because its value would be past the range; at a lone node and at a station. A refusal leaves every byte, but for that one.
 */
#include "check.h"

static_assert(SENNA_CLASS_TABLE_MAX == 2 + 2 * SENNA_BOUNDS_MAX + SENNA_CLASSES_MAX && SENNA_CLASSES_MAX == SENNA_BOUNDS_MAX + 1, "the sizes agree");
static_assert(SENNA_BATCH_MAX == 2 + 2 * SENNA_WEIGHTS_MAX, "the sizes agree");
static_assert(1 + SENNA_HOURS_MAX + SENNA_CLASS_TABLE_MAX + 1 + 2 * SENNA_CLASSES_MAX == SENNA_SETTINGS, "the sizes agree");
static_assert(SENNA_BOUNDS == 14 && SENNA_TALLY_TWICE == 15, "document 02's numbers");

enum { ME = 4, PARTY = 439, CLASSES_AT = 187, KIND_AT = 211, WAITED_AT = 212, LEFT_AT = 220 };

/* Below 53.0 g to object 10, from 53.0 g to object 11: the header's own example. One class for all, in object 7. */
static const uint8_t two[] = {1, 0x12, 0x02, 2, 10, 11};
static const uint8_t one[] = {0, 1, 7};
static const uint8_t never[] = {0, 0};

/* 3.7 g, 6.4 g, and none. */
static const uint8_t first[] = {1, 0, 37, 0}, second[] = {1, 0, 64, 0}, none[] = {0, 0};

static uint8_t distances[SENNA_DISTANCES];
static uint8_t record[SENNA_RECORD], record_before[SENNA_RECORD];
static uint8_t settings[SENNA_SETTINGS], settings_before[SENNA_SETTINGS];
static uint8_t message[SENNA_MESSAGE_MAX];

static void remember(void)
{
    memcpy(record_before, record, sizeof record);
    memcpy(settings_before, settings, sizeof settings);
}

/* The number of a call that may be refused; then nothing is altered. */
static unsigned told(senna_called c)
{
    if (c.number != SENNA_OK) {
        check(c.answer == 0, "a refusal answers 0");
        check(memcmp(record, record_before, sizeof record) == 0, "a refusal leaves the record");
        check(memcmp(settings, settings_before, sizeof settings) == 0, "a refusal leaves the settings");
    }
    check(senna_check_settings(settings, sizeof settings) == SENNA_OK, "settings stay settings");
    return c.number;
}

static unsigned load(unsigned me, const uint8_t *list, size_t size)
{
    remember();
    return told(senna_load_classes(record, sizeof record, settings, sizeof settings, (uint8_t)me, list, size));
}

static unsigned batch_at(uint32_t timestamp, unsigned minute, const uint8_t *list, size_t size)
{
    remember();
    return told(senna_coordinator_batch(record, sizeof record, settings, sizeof settings, ME, SENNA_ALL, distances, sizeof distances, timestamp, 5,
                                        (uint16_t)minute, list, size));
}

static unsigned batch(uint32_t timestamp, const uint8_t *list, size_t size)
{
    return batch_at(timestamp, 600, list, size);
}

/* The tenths that wait in a class, or 100 and the number. */
static unsigned waits(unsigned class_number)
{
    senna_called c = senna_coordinator_waiting(record, sizeof record, settings, sizeof settings, (uint8_t)class_number);
    return c.number == SENNA_OK ? (unsigned)c.answer : 100u + c.number;
}

static unsigned kind(void)
{
    senna_called c = senna_settings_kind(settings, sizeof settings);
    check(c.number == SENNA_OK, "a kind");
    return (unsigned)c.answer;
}

static unsigned ask(void)
{
    remember();
    return told(senna_coordinator_request_commit(record, sizeof record, settings, sizeof settings, ME));
}

static uint64_t deliver(senna_written w)
{
    senna_called c = senna_coordinator_receive(record, sizeof record, ME, message, w.length);
    check(w.number == SENNA_OK && c.number == SENNA_OK, "a message is taken");
    return c.answer;
}

/* The copy of node 0, which is a read quorum. */
static void copy(unsigned object, uint32_t version, int64_t value)
{
    uint32_t serial = senna_coordinator_serial(record, sizeof record), stamp = senna_coordinator_timestamp(record, sizeof record);
    uint64_t brought = deliver(senna_write_copy(message, sizeof message, 0, ME, serial, stamp, entry(object, SENNA_WRITE, version, value)));
    check(brought == SENNA_READY, "a copy of the root makes it ready");
}

/* Every participant votes yes, but the last may vote no; what the last one brought about. The tenths stay until then. */
static uint64_t votes(unsigned last, unsigned before)
{
    senna_serials rivals;
    uint32_t serial = senna_coordinator_serial(record, sizeof record), stamp = senna_coordinator_timestamp(record, sizeof record);
    unsigned node;
    memset(&rivals, 0, sizeof rivals);
    for (node = 0; node < 8; node++) {
        if ((PARTY >> node) % 2 == 1) {
            check(deliver(senna_write_vote(message, sizeof message, (uint8_t)node, ME, serial, stamp, rivals, SENNA_YES)) == SENNA_NOTHING, "a yes");
            check(waits(0) == before, "no tenth moves before the decision");
        }
    }
    return deliver(senna_write_vote(message, sizeof message, 8, ME, serial, stamp, rivals, (uint8_t)last));
}

static void dones(void)
{
    uint32_t serial = senna_coordinator_serial(record, sizeof record), stamp = senna_coordinator_timestamp(record, sizeof record);
    unsigned node, awaited = senna_coordinator_participants(record, sizeof record), before = waits(0);
    for (node = 0; node < SENNA_NODES; node++) {
        if (((awaited == 0 ? 1 : awaited) >> node) % 2 == 1) {
            deliver(senna_write_done(message, sizeof message, (uint8_t)node, ME, serial, stamp));
        }
    }
    check(senna_coordinator_phase(record, sizeof record) == SENNA_IDLE && waits(0) == before, "over, and no tenth moves after the decision");
}

/* The new value of the i-th object, as it stands in the record. */
static int64_t new_value(unsigned i)
{
    const uint8_t *at = record + 43 + 25 * i + 17;
    uint64_t bits = 0;
    unsigned k;
    for (k = 0; k < 8; k++) {
        bits |= (uint64_t)at[k] << (8 * k);
    }
    return (int64_t)bits;
}

/* Blank record and settings. */
static void blank(void)
{
    check(senna_blank_record(record, sizeof record) == SENNA_OK && senna_blank_settings(settings, sizeof settings) == SENNA_OK, "blank");
}

/* Where the bytes stand: a table, a batch, and what it leaves over. */
static void layouts(void)
{
    static const uint8_t weights[] = {4, 0, 0x11, 0x02, 0x12, 0x02, 0xcf, 0x07, 1, 0}; /* 52.9, 53.0, 199.9 and 0.1 g */
    uint8_t expected[SENNA_SETTINGS] = {0};
    blank();
    check(load(ME, two, sizeof two) == SENNA_OK, "a table");
    memcpy(expected + CLASSES_AT, two, sizeof two);
    check(memcmp(settings, expected, sizeof settings) == 0, "it is kept as it was lent, and all else is 0");
    check(kind() == SENNA_KIND_OWN && waits(0) == 0 && waits(1) == 0 && waits(2) == 106 && waits(255) == 106, "nothing waits; there is no third class");
    check(batch(1, weights, sizeof weights) == SENNA_OK && kind() == SENNA_KIND_BATCH, "a batch");
    /* 529 and 1 tenths are 53 grams; 530 and 1,999 are 252 grams and 9 tenths. */
    expected[KIND_AT] = 1;
    expected[LEFT_AT + 1] = 9;
    check(memcmp(settings, expected, sizeof settings) == 0, "the kind, and what it leaves over");
    check(senna_coordinator_phase(record, sizeof record) == SENNA_OPEN && senna_coordinator_count(record, sizeof record) == 2, "two objects are open");
    check(senna_coordinator_object(record, sizeof record, 0) == 10 && senna_coordinator_object(record, sizeof record, 1) == 11, "in the table's order");
    check(senna_coordinator_mode(record, sizeof record, 0) == SENNA_WRITE && senna_coordinator_mode(record, sizeof record, 1) == SENNA_WRITE, "to write");
    check(new_value(0) == 53 && new_value(1) == 252, "a weight on the bound is in the upper class");
    check(waits(0) == 0 && waits(1) == 0, "nothing waits before the commit");
    copy(10, 2, -60);
    check(ask() == SENNA_NOT_READY, "one object is not ready");
    copy(11, 5, 1000);
    check(ask() == SENNA_OK && new_value(0) == -7 && new_value(1) == 1252, "each value found, and its grams");
    check(votes(SENNA_YES, 0) == SENNA_COMMITTED && waits(0) == 0 && waits(1) == 9, "the tenths wait from the commit on");
    dones();
    check(settings[WAITED_AT + 1] == 0 && settings[LEFT_AT + 1] == 9, "the bytes move at the next begin");
    check(senna_coordinator_begin(record, sizeof record, settings, sizeof settings, ME, SENNA_ALL, distances, sizeof distances, 2, 5, 600).number == SENNA_OK,
          "the host's own transaction");
    check(settings[KIND_AT] == 0 && settings[WAITED_AT + 1] == 9 && settings[LEFT_AT + 1] == 0 && waits(1) == 9, "which settles them");
    check(senna_coordinator_abort(record, sizeof record, ME).number == SENNA_OK && waits(1) == 9, "and does not move them");
}

/* 3.7 g, aborted once and booked again, then 6.4 g, in one class: 3 grams and 7 tenths, then 10 grams and 1 tenth. */
static void two_batches(void)
{
    blank();
    check(batch(1, first, sizeof first) == SENNA_OUT_OF_TURN, "a batch before any table");
    check(load(ME, one, sizeof one) == SENNA_OK && batch(1, first, sizeof first) == SENNA_OK, "3.7 g");
    copy(7, 0, 0);
    check(ask() == SENNA_OK && new_value(0) == 3, "3 grams");
    check(votes(SENNA_NO, 0) == SENNA_ABORTED && waits(0) == 0, "aborted: nothing waits");
    check(load(ME, one, sizeof one) == SENNA_BUSY, "no table is loaded before its last done");
    dones();
    check(batch(0, first, sizeof first) == SENNA_OUT_OF_TURN && batch(1, first, sizeof first) == SENNA_OK, "again, with the same timestamp");
    copy(7, 0, 0);
    check(ask() == SENNA_OK && new_value(0) == 3 && votes(SENNA_YES, 0) == SENNA_COMMITTED && waits(0) == 7, "3 grams, and 7 tenths wait");
    dones();
    check(batch(1, second, sizeof second) == SENNA_OUT_OF_TURN, "which was committed with it, and may not have it again");
    check(batch(3, second, sizeof second) == SENNA_OK && waits(0) == 7, "6.4 g: with the 7 tenths 7 grams and 1 tenth");
    copy(7, 1, 3);
    check(ask() == SENNA_OK && new_value(0) == 10 && votes(SENNA_YES, 7) == SENNA_COMMITTED && waits(0) == 1, "10 grams, and 1 tenth waits");
    dones();
    check(batch(4, none, sizeof none) == SENNA_OK && new_value(0) == 0 && waits(0) == 1, "no weight adds nothing");
    check(senna_coordinator_abort(record, sizeof record, ME).number == SENNA_OK, "given up");
    dones();
    check(load(ME, two, sizeof two) == SENNA_OK && waits(0) == 0 && waits(1) == 0, "a table leaves none waiting");
}

/* The host's own calls on a batch, and past the range. */
static void on_a_batch(void)
{
    senna_called c;
    uint8_t aborted[SENNA_RECORD];
    blank();
    check(load(ME, one, sizeof one) == SENNA_OK && batch(1, first, sizeof first) == SENNA_OK, "a batch");
    remember();
    check(told(senna_coordinator_open_read(record, sizeof record, settings, sizeof settings, ME, 8)) == SENNA_OUT_OF_TURN, "an open to read");
    check(told(senna_coordinator_open_write(record, sizeof record, settings, sizeof settings, ME, 128)) == SENNA_OUT_OF_TURN, "an open to write");
    check(told(senna_coordinator_set_value(record, sizeof record, settings, sizeof settings, ME, 7, 1)) == SENNA_OUT_OF_TURN, "a value");
    check(told(senna_coordinator_set_value(record, sizeof record, settings, sizeof settings, 13, 7, 1)) == SENNA_STRANGER, "4 comes before 5");
    copy(7, UINT32_MAX, INT64_MAX);
    check(ask() == SENNA_USED_UP && senna_coordinator_phase(record, sizeof record) == SENNA_OPEN, "a version used up comes first: still open");
    check(senna_coordinator_abort(record, sizeof record, ME).number == SENNA_OK, "given up");
    dones();
    check(batch(2, first, sizeof first) == SENNA_OK, "a batch");
    copy(7, UINT32_MAX - 1, INT64_MAX - 2);
    memcpy(aborted, record, sizeof record);
    check(senna_coordinator_abort(aborted, sizeof aborted, ME).number == SENNA_OK, "what an abort leaves");
    remember();
    c = senna_coordinator_request_commit(record, sizeof record, settings, sizeof settings, ME);
    check(c.number == SENNA_USED_UP && c.answer == SENNA_ABORTED, "a value past the range: given up, and the answer says so");
    check(memcmp(record, aborted, sizeof record) == 0 && memcmp(settings, settings_before, sizeof settings) == 0, "only the record has changed");
    dones();
    check(batch(1, first, sizeof first) == SENNA_OUT_OF_TURN, "after that a lower timestamp comes too early");
    check(batch(2, first, sizeof first) == SENNA_OK, "the same batch, with the same timestamp");
    copy(7, 8, INT64_MAX - 3);
    check(ask() == SENNA_OK && new_value(0) == INT64_MAX, "up to the range's end");
}

/* Tables and batches that are none, and which number comes first. */
static void bad_lists(void)
{
    static uint8_t list[2 + 2 * (SENNA_WEIGHTS_MAX + 1)];
    static const uint8_t strange[] = {0, 1, 128}, twice[] = {1, 9, 0, 2, 5, 5}, both[] = {1, 0, 0, 2, 5, 5}, falls[] = {2, 9, 0, 8, 0, 3, 5, 6, 7};
    static const uint8_t high[] = {1, 0xd0, 0x07, 2, 5, 6}, heavy[] = {1, 0, 0xd0, 0x07}, all_of_it[] = {1, 0xcf, 0x07, 2, 0, 127};
    uint8_t eight[2 + 2 * 8 + 9];
    unsigned i;
    blank();
    check(load(ME, one, sizeof one) == SENNA_OK, "a table");
    check(load(ME, one, 0) == SENNA_LENGTH && load(ME, one, 2) == SENNA_LENGTH && load(13, two, sizeof two - 1) == SENNA_LENGTH, "a table cut short");
    check(load(13, strange, sizeof strange) == SENNA_STRANGER && load(ME, strange, sizeof strange) == SENNA_NO_SUCH_OBJECT, "object 128; 4 before 6");
    check(load(ME, twice, sizeof twice) == SENNA_TALLY_TWICE && load(ME, both, sizeof both) == SENNA_BOUNDS, "an object twice; 14 before 15");
    check(load(ME, falls, sizeof falls) == SENNA_BOUNDS && load(ME, high, sizeof high) == SENNA_BOUNDS, "bounds that fall, and one of 2,000");
    check(load(ME, never, sizeof never) == SENNA_BOUNDS && load(ME, all_of_it, sizeof all_of_it) == SENNA_OK, "no class at all; the highest bound");
    memset(eight, 0, sizeof eight);
    eight[0] = 8, eight[17] = 9;
    for (i = 0; i < 9; i++) {
        eight[i < 8 ? 1 + 2 * i : 0] = (uint8_t)(i + (i < 8)), eight[18 + i] = (uint8_t)i;
    }
    check(load(ME, eight, sizeof eight) == SENNA_BOUNDS, "eight bounds");
    check(batch(1, first, 3) == SENNA_LENGTH && batch(1, first, 0) == SENNA_LENGTH && batch(1, first, 2) == SENNA_LENGTH, "a batch cut short");
    check(batch(1, heavy, sizeof heavy) == SENNA_GARBLED && batch_at(1, 10080, first, sizeof first) == SENNA_GARBLED, "200.0 g; a minute of no week");
    list[0] = 1, list[1] = 0x10;
    check(batch(1, list, sizeof list) == SENNA_GARBLED, "4,097 weights");
    list[0] = 0;
    check(batch(0, list, SENNA_BATCH_MAX) == SENNA_OUT_OF_TURN && batch(1, list, SENNA_BATCH_MAX) == SENNA_OK, "4,096 weights");
    check(batch(0, first, sizeof first) == SENNA_BUSY, "10 comes before 5");
    check(senna_coordinator_abort(record, sizeof record, ME).number == SENNA_OK, "given up");
    dones();
    check(senna_load_hours(settings, sizeof settings, never, sizeof never) == SENNA_OK && batch(2, first, sizeof first) == SENNA_CLOSED, "always closed");
}

/* Settings that are damaged behind the hours. */
static void damaged_settings(void)
{
    static const struct {
        unsigned place, value;
    } damages[] = {{CLASSES_AT, 8}, {CLASSES_AT + 3, 1}, {CLASSES_AT + 2, 0x08}, {CLASSES_AT + 4, 128}, {CLASSES_AT + 5, 10}, {KIND_AT, 2},
                   {WAITED_AT, 10}, {WAITED_AT + 7, 255}, {LEFT_AT, 10}, {LEFT_AT + 7, 10}};
    unsigned i;
    for (i = 0; i < sizeof damages / sizeof damages[0]; i++) {
        blank();
        check(load(ME, two, sizeof two) == SENNA_OK, "sound settings");
        settings[damages[i].place] = (uint8_t)damages[i].value;
        check(senna_check_settings(settings, sizeof settings) == SENNA_DAMAGED, "damaged settings");
        memcpy(settings_before, settings, sizeof settings);
        check(senna_load_classes(record, sizeof record, settings, sizeof settings, 13, two, sizeof two).number == SENNA_DAMAGED, "a load");
        check(senna_load_hours(settings, sizeof settings, never, sizeof never) == SENNA_DAMAGED, "a load of hours");
        check(waits(0) == 102 && senna_settings_kind(settings, sizeof settings).number == SENNA_DAMAGED, "what waits");
        check(senna_coordinator_open_read(record, sizeof record, settings, sizeof settings, 13, 1).number == SENNA_DAMAGED, "an open");
        check(senna_coordinator_batch(record, sizeof record, settings, sizeof settings, ME, SENNA_ALL, distances, sizeof distances, 1, 5, 10080, first,
                                      sizeof first).number == SENNA_DAMAGED, "a batch");
        check(memcmp(settings, settings_before, sizeof settings) == 0, "a refusal leaves the settings");
    }
    check(senna_settings_kind(settings, sizeof settings - 1).number == SENNA_LENGTH, "a byte less");
    check(senna_coordinator_waiting(record, sizeof record - 1, settings, sizeof settings, 0).number == SENNA_LENGTH, "1 comes before 2");
}

/* A station's five buffers. */
static uint8_t images[SENNA_IMAGES], records[SENNA_RECORDS], pool[SENNA_POOL], own[SENNA_OWN], all[SENNA_STATION_SETTINGS];
static uint8_t records_before[SENNA_RECORDS], all_before[SENNA_STATION_SETTINGS];

static unsigned station_load(unsigned node, const uint8_t *list, size_t size)
{
    senna_called got;
    unsigned other;
    memcpy(all_before, all, sizeof all);
    got = senna_station_load_classes(records, sizeof records, own, sizeof own, all, sizeof all, (uint8_t)node, list, size);
    check(got.answer == 0, "a load answers 0");
    for (other = 0; other < SENNA_NODES; other++) {
        check((other == node && got.number == SENNA_OK) || memcmp(all + other * SENNA_SETTINGS, all_before + other * SENNA_SETTINGS, SENNA_SETTINGS) == 0,
              "only the node's settings change, and on a refusal none");
    }
    return got.number;
}

static senna_called station_batch(unsigned node, uint32_t timestamp, const uint8_t *list, size_t size)
{
    senna_called got;
    memcpy(records_before, records, sizeof records);
    memcpy(all_before, all, sizeof all);
    got = senna_station_batch(records, sizeof records, own, sizeof own, all, sizeof all, (uint8_t)node, SENNA_ALL, distances, sizeof distances, timestamp, 5,
                              600, list, size);
    check(got.number == SENNA_OK || memcmp(records, records_before, sizeof records) == 0, "a refusal leaves the records");
    check(got.number == SENNA_OK || memcmp(all, all_before, sizeof all) == 0, "a refusal leaves the settings");
    return got;
}

/* What is due to a node, there and back; what the answer brought about. */
static uint64_t there_and_back(unsigned from, unsigned to, unsigned object)
{
    senna_called c = senna_station_send(records, sizeof records, pool, sizeof pool, own, sizeof own, (uint8_t)from, (uint8_t)to, (uint8_t)object);
    check(c.number == SENNA_OK, "a send");
    c = senna_station_deliver(images, sizeof images, records, sizeof records, pool, sizeof pool, own, sizeof own, 0, 0);
    check(c.number == SENNA_OK, "a delivery there");
    c = senna_station_deliver(images, sizeof images, records, sizeof records, pool, sizeof pool, own, sizeof own, 0, 0);
    check(c.number == SENNA_OK, "a delivery back");
    return c.answer;
}

static unsigned waits_at(unsigned node)
{
    senna_called c = senna_coordinator_waiting(records + node * SENNA_RECORD, SENNA_RECORD, all + node * SENNA_SETTINGS, SENNA_SETTINGS, 0);
    return c.number == SENNA_OK ? (unsigned)c.answer : 100u + c.number;
}

/* A batch of one weight from its begin to its last done at a station; the value that the root's copy then has. */
static int64_t book(unsigned node, uint32_t timestamp, const uint8_t *list, size_t size)
{
    const uint8_t *root = images + 1 + 22 * 7;
    unsigned to;
    check(station_batch(node, timestamp, list, size).answer == 1, "a batch chooses the root");
    check(there_and_back(node, 0, 7) == SENNA_READY, "the root's copy");
    check(senna_station_request_commit(records, sizeof records, own, sizeof own, all, sizeof all, (uint8_t)node).answer == PARTY, "the participants");
    for (to = 0; to < SENNA_NODES; to++) {
        check((PARTY >> to) % 2 == 0 || there_and_back(node, to, 0) == (to == 8 ? SENNA_COMMITTED : SENNA_NOTHING), "a vote");
    }
    for (to = 0; to < SENNA_NODES; to++) {
        check((PARTY >> to) % 2 == 0 || there_and_back(node, to, 0) == (to == 8 ? SENNA_FINISHED : SENNA_NOTHING), "a done");
    }
    return root[0] | root[1] << 8;
}

/* Two nodes with tenths of their own that book in one object; off, and what still precedes it. */
static void station(void)
{
    memset(all, 0xa5, sizeof all);
    check(senna_station_blank(images, sizeof images, records, sizeof records, pool, sizeof pool, own, sizeof own, all, sizeof all, SENNA_ALL) == SENNA_OK,
          "a blank station");
    check(station_batch(4, 1, first, sizeof first).number == SENNA_OUT_OF_TURN, "a batch before any table");
    check(station_load(4, one, sizeof one) == SENNA_OK && station_load(5, one, sizeof one) == SENNA_OK, "two tables");
    check(waits_at(4) == 0 && waits_at(6) == 106, "no table at their neighbour");
    check(book(4, 1, first, sizeof first) == 3 && waits_at(4) == 7 && waits_at(5) == 0, "3.7 g at node 4");
    check(book(5, 1, second, sizeof second) == 9 && waits_at(4) == 7 && waits_at(5) == 4, "6.4 g at node 5: its tenths are its own");
    check(book(4, 2, second, sizeof second) == 16 && waits_at(4) == 1, "6.4 g at node 4");
    check(station_batch(4, 3, first, sizeof first).number == SENNA_OK, "a batch");
    check(senna_station_open_read(records, sizeof records, own, sizeof own, all, sizeof all, 4, 8).number == SENNA_OUT_OF_TURN, "an open on it");
    check(senna_station_set_value(records, sizeof records, own, sizeof own, all, sizeof all, 4, 7, 8).number == SENNA_OUT_OF_TURN, "a value on it");
    check(station_load(4, one, sizeof one) == SENNA_BUSY && station_load(13, one, sizeof one) == SENNA_STRANGER, "10; 4");
    check(senna_station_switch(own, sizeof own, 4, 0).number == SENNA_OK, "switched off");
    check(station_load(4, never, sizeof never) == SENNA_OUT_OF_TURN && station_load(4, one, 2) == SENNA_LENGTH, "5, and 1 before it");
    check(station_batch(4, 4, first, sizeof first).number == SENNA_BUSY && station_batch(4, 4, first, 3).number == SENNA_LENGTH, "10 and 1 before 5");
    check(senna_station_switch(own, sizeof own, 5, 0).number == SENNA_OK, "another one");
    check(station_batch(5, 4, first, sizeof first).number == SENNA_OUT_OF_TURN, "5 where it is off");
    all[8 * SENNA_SETTINGS + KIND_AT] = 2;
    check(station_batch(8, 1, first, sizeof first).number == SENNA_DAMAGED, "damaged settings of the node");
    check(station_load(8, one, sizeof one) == SENNA_DAMAGED, "for a load, too");
    check(senna_station_request_commit(records, sizeof records, own, sizeof own, all, sizeof all, 8).number == SENNA_DAMAGED, "and votes asked for");
    check(station_load(9, one, sizeof one) == SENNA_OK, "its neighbour's are sound");
}

int main(void)
{
    unsigned at;
    for (at = 0; at < SENNA_NODES; at++) {
        distances[2 * at] = 1;
    }
    layouts();
    two_batches();
    on_a_batch();
    bad_lists();
    damaged_settings();
    station();
    return closing();
}
