/*
 * Random bytes at every function of include/senna.h. Half of the calls are clean: right lengths, and bytes of a station that such calls keep
 * going. In the others lengths go from 0 to beyond the right one, and bytes are right, nearly right (one byte changed, or four of them 255), one
 * byte repeated, or random. After each call: no number outside the table, nothing lent altered on a refusal or where it is lent as const, nothing
 * written outside what is lent, and a refusal answers 0 beside its number, but where votes asked for on a batch have given it up; a begin and a batch
 * were accepted in packing hours, and closed outside of them; no more than 9 tenths wait.
 *
 * What is lent lies against a page that may not be touched, at its end or at its start, or in a heap block of exactly its length, so that the
 * address sanitizer and valgrind see its ends too. --calls N and --seed S: 200,000 calls and seed 1 where nothing is said. So many calls must
 * also have come to every number, to every function's acceptance, to every number of a begin, a batch and a load, to a batch given up, and to all that a
 * delivery brings about.
 */
#include "check.h"

#include <stdlib.h>

/* Every function of the header that the library has. */
#define FUNCTIONS(F)                                                                                                                               \
    F(is_read_quorum) F(is_write_quorum) F(nearest_read) F(nearest_write)                                                                          \
    F(check_message) F(check_image) F(check_record) F(check_settings) F(blank_image) F(blank_record) F(blank_settings)                             \
    F(take_in) F(image_author)                                                                                                                     \
    F(write_fetch) F(write_copy) F(write_ask) F(write_vote) F(write_outcome) F(write_done) F(write_yield)                                          \
    F(replica_receive) F(replica_answers) F(load_hours) F(load_classes) F(settings_kind) F(coordinator_waiting)                                    \
    F(coordinator_begin) F(coordinator_batch) F(coordinator_reselect) F(coordinator_open_read) F(coordinator_open_write) F(coordinator_set_value)  \
    F(coordinator_found) F(coordinator_request_commit) F(coordinator_abort) F(coordinator_receive) F(coordinator_due)                              \
    F(coordinator_phase) F(coordinator_serial) F(coordinator_timestamp) F(coordinator_outcome) F(coordinator_participants)                         \
    F(coordinator_count) F(coordinator_object) F(coordinator_mode) F(coordinator_is_ready)                                                         \
    F(station_take_in) F(station_blank) F(station_begin) F(station_batch) F(station_reselect) F(station_open_read) F(station_open_write)           \
    F(station_set_value) F(station_found) F(station_request_commit) F(station_abort)                                                               \
    F(station_load_hours) F(station_load_classes) F(station_send) F(station_deliver)                                                               \
    F(station_drop) F(station_switch) F(station_waiting) F(station_message)

#define NUMBERED(name) AT_##name,
#define NAMED(name) "senna_" #name,
enum { FUNCTIONS(NUMBERED) COUNT };
static const char *const names[] = {FUNCTIONS(NAMED)};

#define USUAL 200000ul /* calls */

enum { LENDERS = 5, ROOM = 40960, PAGE = 4096, GUARD = 64, RECENT = 16, LAST_NUMBER = SENNA_TALLY_TWICE };

/* A lent buffer: where it stands, what stood there before the call, and where its bytes came from, if the call is clean. */
typedef struct lent {
    uint8_t *pages; /* ROOM bytes between two pages that may not be touched */
    uint8_t *at;
    size_t length;
    uint8_t *heap;  /* the block, where it is one */
    uint8_t *guard; /* GUARD bytes beside it, where it is none */
    uint8_t *home;
    int writable;
    uint8_t before[ROOM];
} lent;

static lent lents[LENDERS];
static unsigned lending;

/* The station that clean calls keep going, and the last messages that were written. */
static uint8_t images[SENNA_IMAGES], records[SENNA_RECORDS], pool[SENNA_POOL], own[SENNA_OWN], settings[SENNA_STATION_SETTINGS];
static uint8_t eight_open[SENNA_RECORD], used_up[SENNA_RECORD], brim[SENNA_RECORD]; /* records that the station seldom has */
static uint8_t brim_settings[SENNA_SETTINGS];
static uint8_t recent[RECENT][SENNA_MESSAGE_MAX];
static size_t recent_length[RECENT];
static uint32_t timestamps;

static unsigned current;
static int clean;
static unsigned long taken_from[2];   /* older images taken in: of the first release, and of those with authors */
static unsigned long written_by[256]; /* copies by the owner of their author, as the library told it */
static unsigned long accepted_of[COUNT], faults_of[COUNT], numbers_of[COUNT][LAST_NUMBER + 1], brought[SENNA_FINISHED + 1], given_up;

/* ---- Random numbers (xorshift) ---- */

#define SPREAD 0x9e3779b97f4a7c15u /* times the seed: where the random numbers start */
static uint64_t state = SPREAD;

static uint64_t draw(void)
{
    state ^= state << 13;
    state ^= state >> 7;
    state ^= state << 17;
    return state;
}

static unsigned below(unsigned bound)
{
    return (unsigned)((draw() >> 20) % bound);
}

static uint8_t byte(void)
{
    return (uint8_t)below(256);
}

static void scatter(uint8_t *at, size_t length)
{
    size_t i;
    for (i = 0; i < length; i++) {
        at[i] = byte();
    }
}

/* A node, mostly one of three; an object, mostly one of four, seldom at an end of the objects that there are or were; a mask, mostly of all nodes, seldom
   of one. */
static uint8_t node(void)
{
    static const uint8_t busy[] = {0, 5, 8};
    unsigned kind = below(16);
    return kind == 0 ? byte() : kind < 10 ? busy[below(3)] : (uint8_t)below(SENNA_NODES);
}

static uint8_t object(void)
{
    static const uint8_t ends[] = {63, 64, SENNA_OBJECTS - 1, SENNA_OBJECTS, 255};
    unsigned kind = below(36);
    return kind < 2 ? byte() : kind == 2 ? ends[below(5)] : (uint8_t)below(4);
}

static uint16_t mask(void)
{
    unsigned kind = below(16);
    return (uint16_t)(kind < 2 ? below(65536) : kind == 2 ? below(SENNA_ALL + 1) : kind == 3 ? 1u << below(SENNA_NODES) : SENNA_ALL);
}

static uint32_t serial(void)
{
    unsigned kind = below(16);
    return kind == 0 ? 0 : kind == 1 ? UINT32_MAX : kind == 2 ? (uint32_t)draw() : 1 + below(9);
}

static uint32_t timestamp(void)
{
    return below(16) == 0 ? serial() : ++timestamps;
}

/* A value, now and then at the range's end. */
static int64_t value(void)
{
    return below(4) == 0 ? INT64_MAX - (int64_t)below(40) : (int64_t)draw();
}

/* A day, mostly one of four; a minute, mostly at an edge of a window that tables often have. */
static uint32_t day(void)
{
    return below(8) == 0 ? (uint32_t)draw() : below(4);
}

static uint16_t minute(void)
{
    static const uint16_t edges[] = {599, 600, 601, 699, 700, 0, 10079, 10080};
    unsigned kind = below(16);
    return (uint16_t)(kind == 0 ? below(65536) : kind < 4 ? below(SENNA_MINUTES) : edges[below(8)]);
}

/* ---- Faults, and what is lent ---- */

static void fault(const char *what)
{
    if (faults_of[current]++ == 0) {
        printf("FAILED c: %s: %s\n", names[current], what);
    }
}

static void must(int holds, const char *what)
{
    if (!holds) {
        fault(what);
    }
}

/* A length that may be wrong, where the call is not clean. */
static size_t some_length(size_t right)
{
    switch (clean ? 9 : below(10)) {
    case 0: return below((unsigned)right + 40);
    case 1: return right - (right > 0);
    case 2: return right + 1;
    case 3: return below(4) == 0 ? 0 : right;
    default: return right;
    }
}

/* Bytes that may be nearly right or all wrong, where the call is not clean. */
static void disturb(lent *l)
{
    size_t i, place;
    if (clean || l->length == 0) {
        return;
    }
    place = below(4) == 0 ? 0 : below((unsigned)l->length);
    switch (below(8)) {
    case 0: scatter(l->at, l->length); break;
    case 1: memset(l->at, byte(), l->length); break;
    case 2: l->at[place] = byte(); break;
    case 3: l->at[place] = (uint8_t)(l->at[place] ^ (1u << below(8))); break;
    case 4:
        for (i = place; i < place + 4 && i < l->length; i++) {
            l->at[i] = 255;
        }
        break;
    default: break;
    }
}

/* Gives a buffer its place: at the end of its pages, at their start, or in a heap block. */
static void put_in_place(lent *l)
{
    l->heap = NULL;
    l->guard = NULL;
    switch (below(3)) {
    case 0:
        l->at = l->pages + ROOM - l->length;
        l->guard = l->at - GUARD;
        break;
    case 1:
        l->at = l->pages;
        l->guard = l->at + l->length;
        break;
    default:
        l->at = l->heap = (uint8_t *)malloc(l->length);
        if (l->heap == NULL) {
            printf("FAILED c: no memory\n");
            exit(1);
        }
        break;
    }
    if (l->guard != NULL) {
        memset(l->guard, 0x5a, GUARD);
    }
}

/* Lends these bytes, or something like them. A written buffer of a clean call goes home if the call is accepted. */
static lent *lend(const uint8_t *right, size_t right_length, uint8_t *home, int writable)
{
    lent *l = &lents[lending++];
    size_t common;
    l->length = some_length(right_length);
    l->home = clean ? home : NULL;
    l->writable = writable;
    put_in_place(l);
    common = l->length < right_length ? l->length : right_length;
    memcpy(l->at, right, common);
    scatter(l->at + common, l->length - common);
    disturb(l);
    memcpy(l->before, l->at, l->length);
    return l;
}

static lent *lend_read(const uint8_t *right, size_t length)
{
    return lend(right, length, NULL, 0);
}

static lent *lend_write(uint8_t *right, size_t length)
{
    return lend(right, length, right, 1);
}

static lent *lend_distances(void)
{
    uint8_t distances[SENNA_DISTANCES];
    scatter(distances, sizeof distances);
    return lend_read(distances, sizeof distances);
}

/* A buffer for a message: of the smallest size that will do, or larger. */
static lent *lend_out(void)
{
    uint8_t garbage[SENNA_MESSAGE_MAX + 9];
    scatter(garbage, sizeof garbage);
    return lend(garbage, SENNA_MESSAGE_MAX + (below(2) ? below(10) : 0), NULL, 1);
}

/* A table of packing hours: always open, open from 600 to 699, or of any sound windows; with few dates, or many. */
static lent *lend_table(void)
{
    static const uint8_t open_once[] = {0x58, 0x02, 0xbc, 0x02}, open_always[] = {0, 0, 0x60, 0x27};
    uint8_t list[SENNA_HOURS_MAX];
    unsigned i, size = 1, count = below(8) == 0 ? below(SENNA_WINDOWS + 1) : 1, dates = below(4) == 0 ? below(SENNA_DATES + 1) : below(2);
    list[0] = (uint8_t)count;
    for (i = 0; i < count; i++, size += 4) {
        unsigned start = below(SENNA_MINUTES), end = start + 1 + below(SENNA_MINUTES - start);
        const uint8_t any[] = {(uint8_t)start, (uint8_t)(start >> 8), (uint8_t)end, (uint8_t)(end >> 8)};
        memcpy(list + size, below(4) == 0 ? any : below(2) ? open_once : open_always, 4);
    }
    list[size++] = (uint8_t)dates;
    for (i = 0; i < dates; i++, size += 4) {
        uint32_t date = day();
        const uint8_t bytes[] = {(uint8_t)date, (uint8_t)(date >> 8), (uint8_t)(date >> 16), (uint8_t)(date >> 24)};
        memcpy(list + size, bytes, 4);
    }
    if (below(8) == 0) {
        list[below(2) ? 0 : below(size)] = byte();
    }
    return lend_read(list, size - (below(16) == 0));
}

/* A table of weight classes: of few bounds, or as many as there may be, in the objects that are booked; now and then with a fault. */
static lent *lend_classes(void)
{
    uint8_t list[SENNA_CLASS_TABLE_MAX];
    unsigned i, size = 1, count = below(4) == 0 ? below(SENNA_BOUNDS_MAX + 1) : below(3), bound = 0;
    list[0] = (uint8_t)count;
    for (i = 0; i < count; i++, size += 2) {
        bound += 1 + below(200);
        list[size] = (uint8_t)bound, list[size + 1] = (uint8_t)(bound >> 8);
    }
    list[size++] = (uint8_t)(count + 1);
    for (i = 0; i <= count; i++) {
        list[size++] = (uint8_t)i;
    }
    switch (below(8)) {
    case 0: list[below(size)] = byte(); break;
    case 1: list[size - 1] = (uint8_t)(count == 0 ? SENNA_OBJECTS - below(2) : 0); break; /* an object twice, the last one, or none */
    case 2: list[1] = 0, list[2] = below(2) ? 0 : list[2]; break;
    default: break;
    }
    return lend_read(list, size - (below(16) == 0));
}

/* A batch: few weights, none, as many as there may be, or more; now and then too heavy. */
static lent *lend_batch(void)
{
    static uint8_t list[SENNA_BATCH_MAX + 2];
    unsigned i, kind = below(32), count = kind == 0 ? SENNA_WEIGHTS_MAX : kind == 1 ? SENNA_WEIGHTS_MAX + 1 : below(6);
    list[0] = (uint8_t)count, list[1] = (uint8_t)(count >> 8);
    for (i = 0; i < count; i++) {
        unsigned weight = kind == 2 && i == 0 ? 2000 + below(63536) : below(2000);
        list[2 + 2 * i] = (uint8_t)weight, list[3 + 2 * i] = (uint8_t)(weight >> 8);
    }
    return lend_read(list, 2 + 2 * count);
}

/* Whether a batch of the length that it says is too long or too heavy. */
static int is_garbled(const lent *l)
{
    size_t i;
    int heavy = l->length > SENNA_BATCH_MAX;
    for (i = 2; i + 1 < l->length; i += 2) {
        heavy |= (l->at[i] | l->at[i + 1] << 8) > 1999;
    }
    return heavy;
}

/* Where a node's settings stand, or any where it is none. */
static uint8_t *settings_of(unsigned at)
{
    return settings + (at < SENNA_NODES ? at : below(SENNA_NODES)) * SENNA_SETTINGS;
}

/* Whether settings that are sound are open on a day at a minute. */
static int is_open(const uint8_t *s, uint32_t on, unsigned at)
{
    unsigned i, dates = 2 + 4u * s[1];
    int has = 0;
    for (i = 0; i < s[dates]; i++) {
        const uint8_t *d = s + dates + 1 + 4 * i;
        if (on == ((uint32_t)d[0] | (uint32_t)d[1] << 8 | (uint32_t)d[2] << 16 | (uint32_t)d[3] << 24)) {
            return s[0] == 0;
        }
    }
    for (i = 0; i < s[1]; i++) {
        const uint8_t *w = s + 2 + 4 * i;
        has |= (w[0] | w[1] << 8) <= (int)at && (int)at < (w[2] | w[3] << 8);
    }
    return s[0] == 0 || has;
}

/* A message that waits in the station or was written lately. */
static lent *lend_message(void)
{
    size_t waiting = senna_station_waiting(pool, sizeof pool);
    unsigned i = below(RECENT);
    if (waiting > 0 && below(2)) {
        senna_waiting w = senna_station_message(pool, sizeof pool, (uint8_t)below((unsigned)waiting));
        return lend_read(pool + w.place, w.length);
    }
    return lend_read(recent[i], recent_length[i]);
}

/* ---- What must hold after a call ---- */

/* Whatever the answer: nothing is written outside, and what is const is as it was. On a refusal everything is. */
static void settle(int refused)
{
    unsigned i;
    size_t g;
    for (i = 0; i < lending; i++) {
        lent *l = &lents[i];
        for (g = 0; l->guard != NULL && g < GUARD; g++) {
            must(l->guard[g] == 0x5a, "a byte beside a lent buffer is written");
        }
        if (refused || !l->writable) {
            must(memcmp(l->at, l->before, l->length) == 0, refused ? "a refusal alters a lent byte" : "a const buffer is altered");
        } else if (l->home != NULL) {
            memcpy(l->home, l->at, l->length);
        }
        free(l->heap);
    }
    lending = 0;
}

static void counts(unsigned number)
{
    must(number <= LAST_NUMBER, "a number outside the table");
    must(strcmp(senna_word((uint8_t)number), "unknown") != 0, "a number without a word");
    if (number <= LAST_NUMBER) {
        numbers_of[current][number]++;
    }
    accepted_of[current] += number == SENNA_OK;
}

static void answered(unsigned number)
{
    counts(number);
    settle(number != SENNA_OK);
}

/* A function that gives a value and never refuses: everything lent to it is as it was. */
static void gave(uint64_t value, uint64_t most)
{
    must(value <= most, "a value that it cannot have");
    accepted_of[current] += value != 0;
    settle(1);
}

static void chose(senna_choice c)
{
    must(c.mask <= SENNA_ALL && (c.number == SENNA_OK || (c.mask == 0 && c.sum == 0)), "a choice");
    answered(c.number);
}

static void called(senna_called c)
{
    must(c.number == SENNA_OK || c.answer == 0, "a refusal answers 0");
    answered(c.number);
}

/* A begin or a batch, with the settings of its node, if it is one: accepted where they are open, and closed where they are not. */
static void begun(senna_called c, const uint8_t *s, uint32_t on, unsigned at, int garbled)
{
    must(c.number != SENNA_OK || (at < SENNA_MINUTES && is_open(s, on, at) && !garbled), "a begin outside packing hours, or of a garbled batch");
    must(c.number != SENNA_CLOSED || (at < SENNA_MINUTES && !is_open(s, on, at)), "a begin that is closed in packing hours");
    must(c.number != SENNA_GARBLED || at >= SENNA_MINUTES || garbled, "a minute of the week is refused");
    must(c.number != SENNA_OK || senna_check_settings(s, SENNA_SETTINGS) == SENNA_OK, "settings stay settings");
    called(c);
}

/* Votes asked for. A batch that is given up is the one refusal that alters something: the record. */
static void asked(senna_called c)
{
    if (c.number == SENNA_USED_UP && c.answer == SENNA_ABORTED) {
        given_up++;
        counts(c.number);
        settle(0);
        return;
    }
    called(c);
}

/* A call that brings something about. */
static void delivered(senna_called c)
{
    must(c.answer <= SENNA_FINISHED, "what a delivery brings about");
    if (c.number == SENNA_OK && c.answer <= SENNA_FINISHED) {
        brought[c.answer]++;
    }
    called(c);
}

static void valued(senna_value v)
{
    must(v.number == SENNA_OK || v.value == 0, "a refusal has value 0");
    answered(v.number);
}

/* A record, or an image, after a call on it is one. */
static void record_stays(const lent *l, unsigned number)
{
    must(number != SENNA_OK || senna_check_record(l->at, l->length) == SENNA_OK, "a record stays one");
}

/* A message at the front of a buffer: well formed, and the bytes behind it are as they were. */
static void message_at(const lent *l, unsigned number, size_t length)
{
    must(number == SENNA_OK || length == 0, "a refusal has length 0");
    must(length <= SENNA_MESSAGE_MAX && length <= l->length, "the length of a message");
    if (length <= l->length) {
        must(memcmp(l->at + length, l->before + length, l->length - length) == 0, "a byte behind a message is written");
    }
    if (length > 0 && length <= SENNA_MESSAGE_MAX) {
        unsigned i = below(RECENT);
        must(senna_check_message(l->at, length) == SENNA_OK, "a message is well formed");
        memcpy(recent[i], l->at, length);
        recent_length[i] = length;
    }
}

static void wrote(const lent *l, senna_written w)
{
    message_at(l, w.number, w.length);
    answered(w.number);
}

/* ---- The calls ---- */

static senna_entry an_entry(void)
{
    return entry(object(), below(12) == 0 ? byte() : below(2), serial(), (int64_t)draw());
}

/* Entries, mostly ascending, and reads mostly without a value. */
static senna_entries some_entries(void)
{
    senna_entries e;
    unsigned i;
    e.count = below(12) == 0 ? byte() : (uint8_t)below(SENNA_ENTRIES + 1);
    for (i = 0; i < SENNA_ENTRIES; i++) {
        e.entry[i] = an_entry();
        if (below(24) != 0) {
            e.entry[i].object = (uint8_t)(16 * i + below(16));
            e.entry[i].mode = (uint8_t)below(2);
            e.entry[i].value = e.entry[i].mode == SENNA_READ ? 0 : e.entry[i].value;
        }
    }
    return e;
}

static senna_serials some_rivals(void)
{
    senna_serials r;
    unsigned i;
    for (i = 0; i < SENNA_NODES; i++) {
        r.serial[i] = below(6) == 0 ? serial() : 0;
    }
    return r;
}

static void call_quorum(void)
{
    lent *d;
    switch (current) {
    case AT_is_read_quorum: gave(senna_is_read_quorum(mask()), 1); break;
    case AT_is_write_quorum: gave(senna_is_write_quorum(mask()), 1); break;
    case AT_nearest_read: d = lend_distances(); chose(senna_nearest_read(mask(), d->at, d->length, node())); break;
    default: d = lend_distances(); chose(senna_nearest_write(mask(), d->at, d->length, node())); break;
    }
}

static void call_check(void)
{
    unsigned at = below(SENNA_NODES);
    lent *l;
    switch (current) {
    case AT_check_message: l = lend_message(); answered(senna_check_message(l->at, l->length)); break;
    case AT_check_image: l = lend_read(images + at * SENNA_IMAGE, SENNA_IMAGE); answered(senna_check_image(l->at, l->length)); break;
    case AT_check_record: l = lend_read(records + at * SENNA_RECORD, SENNA_RECORD); answered(senna_check_record(l->at, l->length)); break;
    case AT_check_settings: l = lend_read(settings_of(at), SENNA_SETTINGS); answered(senna_check_settings(l->at, l->length)); break;
    case AT_blank_settings: l = lend(settings, SENNA_SETTINGS, NULL, 1); answered(senna_blank_settings(l->at, l->length)); break;
    case AT_blank_image: l = lend(images, SENNA_IMAGE, NULL, 1); answered(senna_blank_image(l->at, l->length)); break;
    default: l = lend(records, SENNA_RECORD, NULL, 1); answered(senna_blank_record(l->at, l->length)); break;
    }
}

enum { OLDER_OBJECTS = 64 };

/* An image as an older release had it: half of the copies, of 17 bytes, without their authors, or of 22. Answers its length. */
static size_t make_older(uint8_t *old, const uint8_t *image, unsigned width)
{
    unsigned t;
    old[0] = image[0] == SENNA_OBJECTS ? (uint8_t)OLDER_OBJECTS : image[0];
    for (t = 0; t < OLDER_OBJECTS; t++) {
        memcpy(old + 1 + width * t, image + 1 + 22 * t, width);
    }
    memcpy(old + 1 + width * OLDER_OBJECTS, image + 1 + 22 * SENNA_OBJECTS, 1 + 9 * SENNA_NODES);
    return width == 22 ? SENNA_IMAGE_1527 : SENNA_IMAGE_1207;
}

/* Whether the objects that an older image does not have are blank. */
static int rest_is_blank(const uint8_t *image)
{
    unsigned at, place;
    int all = 1;
    for (at = 22 * OLDER_OBJECTS; at < 22 * SENNA_OBJECTS; at++) {
        place = at % 22; /* in a copy: 12 the holder, 17 the author's owner */
        all &= image[1 + at] == (place == 12 || place == 17 ? SENNA_NOBODY : 0);
    }
    return all;
}

/* An older image taken in is an image, which is the older one with more objects, and with authors. It is taken home, now and then, where nothing is lost
   by it: who wrote last is then unknown. */
static void call_take_in(uint8_t *node_image)
{
    uint8_t right[SENNA_IMAGE_1527], again[SENNA_IMAGE_1527];
    unsigned number, width = below(2) ? 22 : 17;
    size_t length = make_older(right, node_image, width);
    lent *old = lend_read(right, length);
    lent *l = lend(node_image, SENNA_IMAGE, below(8) == 0 && rest_is_blank(node_image) ? node_image : NULL, 1);
    number = senna_take_in(old->at, old->length, l->at, l->length);
    if (number == SENNA_OK) {
        must(make_older(again, l->at, width) == old->length && memcmp(again, old->at, length) == 0, "what is taken in is as it was");
        must(l->at[0] == SENNA_OBJECTS && rest_is_blank(l->at), "the other objects are blank");
        must(senna_check_image(l->at, l->length) == SENNA_OK, "what is taken in is an image");
        taken_from[width == 22]++;
    }
    answered(number);
}

/* An older image taken in; who wrote a copy last. */
static void call_image(void)
{
    uint8_t *node_image = images + below(SENNA_NODES) * SENNA_IMAGE;
    senna_author a;
    lent *l;
    if (current == AT_take_in) {
        call_take_in(node_image);
        return;
    }
    l = lend_read(node_image, SENNA_IMAGE);
    a = senna_image_author(l->at, l->length, object());
    must(a.number == SENNA_OK || (a.owner == 0 && a.serial == 0), "a refusal has owner and serial 0");
    must(a.number != SENNA_OK || (a.owner < SENNA_NODES ? a.serial > 0 : a.owner >= SENNA_UNKNOWN && a.serial == 0), "an author");
    written_by[a.owner] += a.number == SENNA_OK;
    answered(a.number);
}

static void call_write(void)
{
    lent *l = lend_out();
    uint8_t a = node(), b = node(), word = below(12) == 0 ? byte() : (uint8_t)below(2);
    uint32_t s = serial(), t = serial();
    senna_entries some = some_entries();
    senna_serials rivals = some_rivals();
    if (current == AT_write_outcome && word == SENNA_ABORT && below(4) != 0) {
        some.count = 0;
    }
    if (current == AT_write_vote && word == SENNA_NO && below(4) != 0) {
        memset(&rivals, 0, sizeof rivals);
    }
    switch (current) {
    case AT_write_fetch: wrote(l, senna_write_fetch(l->at, l->length, a, b, s, t, object(), word)); break;
    case AT_write_copy: wrote(l, senna_write_copy(l->at, l->length, a, b, s, t, an_entry())); break;
    case AT_write_ask: wrote(l, senna_write_ask(l->at, l->length, a, b, s, t, some)); break;
    case AT_write_vote: wrote(l, senna_write_vote(l->at, l->length, a, b, s, t, rivals, word)); break;
    case AT_write_outcome: wrote(l, senna_write_outcome(l->at, l->length, a, b, s, t, some, word)); break;
    case AT_write_done: wrote(l, senna_write_done(l->at, l->length, a, b, s, t)); break;
    default: wrote(l, senna_write_yield(l->at, l->length, a, s, t, b, serial())); break;
    }
}

/* A replica's image is not taken home: its messages are random, and the station's own deliveries keep the station going. */
static void call_replica(void)
{
    lent *m = lend_message(), *image, *out;
    uint8_t me = m->length > 2 && below(8) != 0 ? m->at[2] : node();
    const uint8_t *right = images + (me < SENNA_NODES ? me : 0u) * SENNA_IMAGE;
    senna_received r;
    image = lend(right, SENNA_IMAGE, NULL, current == AT_replica_receive);
    if (current == AT_replica_answers) {
        gave(senna_replica_answers(image->at, image->length, me, m->at, m->length), 1);
        return;
    }
    out = lend_out();
    r = senna_replica_receive(image->at, image->length, me, m->at, m->length, out->at, out->length);
    must(r.number != SENNA_OK || senna_check_image(image->at, image->length) == SENNA_OK, "an image stays one");
    message_at(out, r.number, r.length);
    answered(r.number);
}

/* A table for a lone node; what its settings say. */
static void call_settings(void)
{
    uint8_t me = node(), *home = settings_of(me);
    lent *s = lend(home, SENNA_SETTINGS, home, current == AT_load_hours || current == AT_load_classes), *r, *table;
    unsigned number;
    senna_called c;
    switch (current) {
    case AT_load_hours:
        table = lend_table();
        number = senna_load_hours(s->at, s->length, table->at, table->length);
        must(number != SENNA_OK || senna_check_settings(s->at, s->length) == SENNA_OK, "settings stay settings");
        answered(number);
        return;
    case AT_load_classes:
        r = lend_read(records + (me < SENNA_NODES ? me : 0u) * SENNA_RECORD, SENNA_RECORD);
        table = lend_classes();
        c = senna_load_classes(r->at, r->length, s->at, s->length, me, table->at, table->length);
        must(c.answer == 0 && (c.number != SENNA_OK || senna_check_settings(s->at, s->length) == SENNA_OK), "settings stay settings");
        break;
    case AT_settings_kind:
        c = senna_settings_kind(s->at, s->length);
        must(c.answer <= SENNA_KIND_BATCH, "a kind");
        break;
    default:
        r = lend_read(records + (me < SENNA_NODES ? me : 0u) * SENNA_RECORD, SENNA_RECORD);
        c = senna_coordinator_waiting(r->at, r->length, s->at, s->length, below(8) == 0 ? byte() : (uint8_t)below(3));
        must(c.answer <= 9, "the tenths that wait");
        break;
    }
    called(c);
}

/* A record of the station, with the number of its node, or of the two others. What does not belong together is not taken home. */
static lent *lend_record(uint8_t *me)
{
    unsigned at = node() % SENNA_NODES, kind = below(32);
    uint8_t *home = records + at * SENNA_RECORD;
    *me = kind == 0 ? byte() : (uint8_t)at;
    if (kind == 1 || kind == 2) {
        return lend(kind == 1 ? eight_open : used_up, SENNA_RECORD, NULL, 1);
    }
    return lend(home, SENNA_RECORD, kind == 0 || (current == AT_coordinator_abort && below(8) != 0) ? NULL : home, 1);
}

/* A batch whose value stands at the range's end, and whose votes are asked for. */
static void call_brim(void)
{
    lent *r = lend(brim, SENNA_RECORD, NULL, 1), *s = lend_read(brim_settings, SENNA_SETTINGS);
    senna_called c = senna_coordinator_request_commit(r->at, r->length, s->at, s->length, below(8) == 0 ? byte() : 3);
    must(!clean || c.number == SENNA_STRANGER || (c.number == SENNA_USED_UP && c.answer == SENNA_ABORTED), "a batch past the range is given up");
    record_stays(r, c.answer == SENNA_ABORTED ? SENNA_OK : c.number);
    asked(c);
}

static void call_coordinator(void)
{
    uint8_t me;
    lent *r = lend_record(&me), *other, *s, *list;
    uint32_t on = day();
    uint16_t at = minute();
    senna_called c;
    switch (current) {
    case AT_coordinator_begin:
    case AT_coordinator_batch:
        other = lend_distances();
        s = lend_write(settings_of(me), SENNA_SETTINGS);
        s->home = r->home == NULL ? NULL : s->home; /* both, or none */
        if (current == AT_coordinator_begin) {
            c = senna_coordinator_begin(r->at, r->length, s->at, s->length, me, mask(), other->at, other->length, timestamp(), on, at);
            record_stays(r, c.number);
            begun(c, s->at, on, at, 0);
            return;
        }
        list = lend_batch();
        c = senna_coordinator_batch(r->at, r->length, s->at, s->length, me, mask(), other->at, other->length, timestamp(), on, at, list->at,
                                    list->length);
        record_stays(r, c.number);
        begun(c, s->at, on, at, is_garbled(list));
        return;
    case AT_coordinator_reselect:
        other = lend_distances();
        c = senna_coordinator_reselect(r->at, r->length, me, mask(), other->at, other->length);
        break;
    case AT_coordinator_open_read:
        s = lend_read(settings_of(me), SENNA_SETTINGS);
        c = senna_coordinator_open_read(r->at, r->length, s->at, s->length, me, object());
        break;
    case AT_coordinator_open_write:
        s = lend_read(settings_of(me), SENNA_SETTINGS);
        c = senna_coordinator_open_write(r->at, r->length, s->at, s->length, me, object());
        break;
    case AT_coordinator_set_value:
        s = lend_read(settings_of(me), SENNA_SETTINGS);
        c = senna_coordinator_set_value(r->at, r->length, s->at, s->length, me, object(), value());
        break;
    case AT_coordinator_request_commit:
        s = lend_read(settings_of(me), SENNA_SETTINGS);
        c = senna_coordinator_request_commit(r->at, r->length, s->at, s->length, me);
        record_stays(r, c.answer == SENNA_ABORTED ? SENNA_OK : c.number);
        asked(c);
        return;
    case AT_coordinator_abort: c = senna_coordinator_abort(r->at, r->length, me); break;
    default:
        other = lend_message();
        r->home = NULL; /* a message of an invented transaction would spoil the station's story */
        c = senna_coordinator_receive(r->at, r->length, me, other->at, other->length);
        must(c.answer <= SENNA_FINISHED, "what a delivery brings about");
        break;
    }
    record_stays(r, c.number);
    called(c);
}

/* Functions that leave a record as it is. */
static void call_record(void)
{
    uint8_t me, i = below(8) == 0 ? byte() : (uint8_t)below(3);
    lent *r = lend_record(&me), *out;
    r->writable = 0;
    switch (current) {
    case AT_coordinator_found: valued(senna_coordinator_found(r->at, r->length, me, object())); break;
    case AT_coordinator_due:
        out = lend_out();
        wrote(out, senna_coordinator_due(r->at, r->length, me, node(), object(), out->at, out->length));
        break;
    case AT_coordinator_phase: gave(senna_coordinator_phase(r->at, r->length), SENNA_FINISHING); break;
    case AT_coordinator_serial: gave(senna_coordinator_serial(r->at, r->length), UINT32_MAX); break;
    case AT_coordinator_timestamp: gave(senna_coordinator_timestamp(r->at, r->length), UINT32_MAX); break;
    case AT_coordinator_outcome: gave(senna_coordinator_outcome(r->at, r->length), SENNA_ABORTED); break;
    case AT_coordinator_participants: gave(senna_coordinator_participants(r->at, r->length), SENNA_ALL); break;
    case AT_coordinator_count: gave(senna_coordinator_count(r->at, r->length), SENNA_ENTRIES); break;
    case AT_coordinator_object: gave(senna_coordinator_object(r->at, r->length, i), SENNA_OBJECTS - 1); break;
    case AT_coordinator_mode: gave(senna_coordinator_mode(r->at, r->length, i), SENNA_WRITE); break;
    default: gave(senna_coordinator_is_ready(r->at, r->length, i), 1); break;
    }
}

/* The host's calls at a station's node. */
static void call_host(void)
{
    lent *r = lend_write(records, SENNA_RECORDS), *o = lend_read(own, SENNA_OWN), *d, *s, *list;
    uint8_t at = node();
    uint32_t today = day();
    uint16_t now = minute();
    senna_called c;
    s = current == AT_station_begin || current == AT_station_batch ? lend_write(settings, SENNA_STATION_SETTINGS)
                                                                   : lend_read(settings, SENNA_STATION_SETTINGS);
    switch (current) {
    case AT_station_begin:
        d = lend_distances();
        c = senna_station_begin(r->at, r->length, o->at, o->length, s->at, s->length, at, mask(), d->at, d->length, timestamp(), today, now);
        begun(c, s->at + (at < SENNA_NODES ? at * SENNA_SETTINGS : 0), today, now, 0);
        break;
    case AT_station_batch:
        d = lend_distances();
        list = lend_batch();
        c = senna_station_batch(r->at, r->length, o->at, o->length, s->at, s->length, at, mask(), d->at, d->length, timestamp(), today, now, list->at,
                                list->length);
        begun(c, s->at + (at < SENNA_NODES ? at * SENNA_SETTINGS : 0), today, now, is_garbled(list));
        break;
    case AT_station_reselect:
        d = lend_distances();
        called(senna_station_reselect(r->at, r->length, o->at, o->length, at, mask(), d->at, d->length));
        break;
    case AT_station_open_read:
        called(senna_station_open_read(r->at, r->length, o->at, o->length, s->at, s->length, at, object()));
        break;
    case AT_station_open_write:
        called(senna_station_open_write(r->at, r->length, o->at, o->length, s->at, s->length, at, object()));
        break;
    case AT_station_set_value:
        called(senna_station_set_value(r->at, r->length, o->at, o->length, s->at, s->length, at, object(), value()));
        break;
    case AT_station_found:
        r->writable = 0;
        valued(senna_station_found(r->at, r->length, o->at, o->length, at, object()));
        break;
    case AT_station_request_commit:
        asked(senna_station_request_commit(r->at, r->length, o->at, o->length, s->at, s->length, at));
        break;
    default:
        r->home = below(8) == 0 ? r->home : NULL;
        called(senna_station_abort(r->at, r->length, o->at, o->length, at));
        break;
    }
}

/* A table for a station's node. */
static void call_station_load(void)
{
    lent *o = lend_read(own, SENNA_OWN), *s = lend_write(settings, SENNA_STATION_SETTINGS), *r, *table;
    uint8_t at = node();
    senna_called c;
    if (current == AT_station_load_hours) {
        table = lend_table();
        c = senna_station_load_hours(o->at, o->length, s->at, s->length, at, table->at, table->length);
    } else {
        r = lend_read(records, SENNA_RECORDS);
        table = lend_classes();
        c = senna_station_load_classes(r->at, r->length, o->at, o->length, s->at, s->length, at, table->at, table->length);
    }
    must(c.number != SENNA_OK || senna_check_settings(s->at + at * SENNA_SETTINGS, SENNA_SETTINGS) == SENNA_OK, "settings stay settings");
    called(c);
}

/* A send of something that is due, where a few tries find it. */
static void call_send(void)
{
    lent *r = lend_read(records, SENNA_RECORDS), *p = lend_write(pool, SENNA_POOL), *o = lend_read(own, SENNA_OWN);
    uint8_t from = node(), to = node(), it = object(), message[SENNA_MESSAGE_MAX];
    unsigned tries;
    for (tries = 0; clean && tries < 40; tries++) {
        from = node(), to = node(), it = object();
        if (from < SENNA_NODES
            && senna_coordinator_due(records + from * SENNA_RECORD, SENNA_RECORD, from, to, it, message, sizeof message).length > 0) {
            break;
        }
    }
    called(senna_station_send(r->at, r->length, p->at, p->length, o->at, o->length, from, to, it));
}

/* A new station now and then. */
static void call_blank(void)
{
    lent *i, *r, *p, *o, *s;
    clean = clean && below(64) == 0;
    i = lend_write(images, SENNA_IMAGES);
    r = lend_write(records, SENNA_RECORDS);
    p = lend_write(pool, SENNA_POOL);
    o = lend_write(own, SENNA_OWN);
    s = lend_write(settings, SENNA_STATION_SETTINGS);
    answered(senna_station_blank(i->at, i->length, r->at, r->length, p->at, p->length, o->at, o->length, s->at, s->length, mask()));
}

/* A station's older images taken in at once: each is then what it was. */
static void call_take_all_in(void)
{
    static uint8_t right[SENNA_NODES * SENNA_IMAGE_1527], again[SENNA_IMAGE_1527];
    unsigned number, at, width = below(2) ? 22 : 17;
    size_t length = 0;
    lent *old, *l;
    for (at = 0; at < SENNA_NODES; at++) {
        length += make_older(right + length, images + at * SENNA_IMAGE, width);
    }
    old = lend_read(right, length);
    l = lend(images, SENNA_IMAGES, NULL, 1);
    number = senna_station_take_in(old->at, old->length, l->at, l->length);
    for (at = 0; number == SENNA_OK && at < SENNA_NODES; at++) {
        size_t one = make_older(again, l->at + at * SENNA_IMAGE, width);
        must(one * SENNA_NODES == old->length && memcmp(again, old->at + at * one, one) == 0, "what is taken in is as it was");
        must(senna_check_image(l->at + at * SENNA_IMAGE, SENNA_IMAGE) == SENNA_OK && rest_is_blank(l->at + at * SENNA_IMAGE), "each is an image");
    }
    answered(number);
}

static void call_station(void)
{
    size_t waiting = senna_station_waiting(pool, sizeof pool);
    uint8_t k = waiting > 0 && below(16) != 0 ? (uint8_t)below((unsigned)waiting) : byte();
    lent *i, *r, *p, *o;
    senna_waiting w;
    switch (current) {
    case AT_station_send: call_send(); break;
    case AT_station_deliver:
        i = lend_write(images, SENNA_IMAGES), r = lend_write(records, SENNA_RECORDS);
        p = lend_write(pool, SENNA_POOL), o = lend_read(own, SENNA_OWN);
        delivered(senna_station_deliver(i->at, i->length, r->at, r->length, p->at, p->length, o->at, o->length, k, below(5) == 0 ? byte() : 0));
        break;
    case AT_station_drop: p = lend_write(pool, SENNA_POOL); called(senna_station_drop(p->at, p->length, k)); break;
    case AT_station_switch: o = lend_write(own, SENNA_OWN); called(senna_station_switch(o->at, o->length, node(), below(8) != 0)); break;
    case AT_station_waiting: p = lend_read(pool, SENNA_POOL); gave(senna_station_waiting(p->at, p->length), SENNA_WAITING); break;
    default:
        p = lend_read(pool, SENNA_POOL);
        w = senna_station_message(p->at, p->length, k);
        must(w.number == SENNA_OK || (w.place == 0 && w.length == 0), "a refusal has place and length 0");
        must(w.length <= SENNA_MESSAGE_MAX && w.place + w.length <= SENNA_POOL, "a waiting message lies in the pool");
        answered(w.number);
        break;
    }
}

static void one_call(void)
{
    /* Sends and deliveries more often, so that transactions get to their end. */
    unsigned kind = below(100);
    current = below(COUNT);
    if (kind < 45) {
        current = kind < 20 ? AT_station_send : AT_station_deliver;
    }
    clean = below(2) == 0;
    if (current <= AT_nearest_write) {
        call_quorum();
    } else if (current <= AT_blank_settings) {
        call_check();
    } else if (current <= AT_image_author) {
        call_image();
    } else if (current <= AT_write_yield) {
        call_write();
    } else if (current <= AT_replica_answers) {
        call_replica();
    } else if (current <= AT_coordinator_waiting) {
        call_settings();
    } else if (current == AT_coordinator_request_commit && below(8) == 0) {
        call_brim();
    } else if (current == AT_coordinator_found || (current >= AT_coordinator_due && current <= AT_coordinator_is_ready)) {
        call_record();
    } else if (current <= AT_coordinator_receive) {
        call_coordinator();
    } else if (current == AT_station_take_in) {
        call_take_all_in();
    } else if (current == AT_station_blank) {
        call_blank();
    } else if (current <= AT_station_abort) {
        call_host();
    } else if (current <= AT_station_load_classes) {
        call_station_load();
    } else {
        call_station();
    }
}

/* A batch of node 3 that adds 1 gram to an object whose value is the highest there is. */
static void prepare_brim(const uint8_t *distances)
{
    static const uint8_t table[] = {0, 1, 9}, weights[] = {1, 0, 10, 0};
    uint8_t message[SENNA_MESSAGE_MAX];
    senna_called c = senna_load_classes(brim, SENNA_RECORD, brim_settings, SENNA_SETTINGS, 3, table, sizeof table);
    senna_written w;
    check(c.number == SENNA_OK, "a table of classes");
    c = senna_coordinator_batch(brim, SENNA_RECORD, brim_settings, SENNA_SETTINGS, 3, SENNA_ALL, distances, SENNA_DISTANCES, 1, 0, 0, weights, sizeof weights);
    check(c.number == SENNA_OK, "a batch");
    w = senna_write_copy(message, sizeof message, 0, 3, 1, 1, entry(9, SENNA_WRITE, 4, INT64_MAX));
    c = senna_coordinator_receive(brim, SENNA_RECORD, 3, message, w.length);
    check(c.number == SENNA_OK && c.answer == SENNA_READY, "its copy");
}

/* A record with eight objects open, and one whose last serial is the last there is. Every distance is 1, so that the root is nearest, whoever asks. */
static void prepare_records(void)
{
    uint8_t distances[SENNA_DISTANCES] = {0}, blank[SENNA_SETTINGS] = {0}, i;
    senna_called c;
    for (i = 0; i < SENNA_NODES; i++) {
        distances[2 * i] = 1;
    }
    c = senna_coordinator_begin(eight_open, SENNA_RECORD, blank, SENNA_SETTINGS, 3, SENNA_ALL, distances, sizeof distances, 1, 0, 0);
    check(c.number == SENNA_OK && c.answer == 1, "begin");
    for (i = 0; i < SENNA_ENTRIES; i++) {
        check(senna_coordinator_open_read(eight_open, SENNA_RECORD, blank, SENNA_SETTINGS, 3, (uint8_t)(20 + i)).number == SENNA_OK, "open");
    }
    memset(used_up, 255, 4);
    used_up[4] = 1; /* the last timestamp */
    used_up[8] = SENNA_COMMITTED;
    check(senna_check_record(used_up, SENNA_RECORD) == SENNA_OK, "a record at its last serial");
    prepare_brim(distances);
}

static void prepare(void)
{
    unsigned i;
    prepare_records();
    for (i = 0; i < LENDERS; i++) {
        uint8_t *all = (uint8_t *)mmap(NULL, ROOM + 2 * PAGE, PROT_NONE, MAP_PRIVATE | MAP_ANONYMOUS, -1, 0);
        if (all == (uint8_t *)MAP_FAILED || mprotect(all + PAGE, ROOM, PROT_READ | PROT_WRITE) != 0) {
            printf("FAILED c: no pages\n");
            exit(1);
        }
        lents[i].pages = all + PAGE;
    }
    for (i = 0; i < RECENT; i++) {
        senna_written w = senna_write_done(recent[i], SENNA_MESSAGE_MAX, 1, 2, 3, 4);
        recent_length[i] = w.length;
    }
    i = senna_station_blank(images, SENNA_IMAGES, records, SENNA_RECORDS, pool, SENNA_POOL, own, SENNA_OWN, settings, SENNA_STATION_SETTINGS, SENNA_ALL);
    check(i == SENNA_OK, "a station");
}

/* Functions, and as masks the numbers that each may have and of those the ones that so many calls must come to. */
static const struct {
    unsigned function, may, must;
} reached[] = {
    {AT_coordinator_begin, 0x273f, 0x273f}, {AT_station_begin, 0x273f, 0x253f}, {AT_load_hours, 0x7, 0x7},    {AT_station_load_hours, 0x37, 0x37},
    {AT_check_settings, 0x7, 0x7},          {AT_blank_settings, 0x3, 0x3},      {AT_station_blank, 0x13, 0x13},
    {AT_coordinator_batch, 0x273f, 0x253f}, {AT_station_batch, 0x273f, 0x253f}, {AT_load_classes, 0xc457, 0xc457},
    {AT_station_load_classes, 0xc477, 0xc477}, {AT_coordinator_waiting, 0x47, 0x47}, {AT_settings_kind, 0x7, 0x7},
    {AT_coordinator_request_commit, 0xb37, 0xa37}, {AT_station_request_commit, 0xb37, 0x837},
    {AT_nearest_read, 0x113, 0x113},        {AT_nearest_write, 0x113, 0x113},   {AT_take_in, 0x7, 0x7},       {AT_image_author, 0x47, 0x47},
    {AT_station_take_in, 0x7, 0x7},
};

static void report_reached(void)
{
    unsigned i, number;
    for (i = 0; i < sizeof reached / sizeof reached[0]; i++) {
        const unsigned long *seen = numbers_of[reached[i].function];
        for (number = 0; number <= LAST_NUMBER; number++) {
            check(seen[number] == 0 ? (reached[i].must >> number & 1) == 0 : (reached[i].may >> number & 1) != 0, names[reached[i].function]);
        }
    }
}

/* What is printed and counted after so many calls. */
static void report(unsigned long calls)
{
    int enough = calls >= USUAL;
    unsigned i, number;
    for (i = 0; i < COUNT; i++) {
        check(faults_of[i] == 0 && (!enough || accepted_of[i] > 0), names[i]);
    }
    for (number = 0; number <= LAST_NUMBER; number++) {
        unsigned long seen = 0;
        for (i = 0; i < COUNT; i++) {
            seen += numbers_of[i][number];
        }
        printf("%lu %s%s", seen, senna_word((uint8_t)number), number < LAST_NUMBER ? ", " : "\n");
        check(!enough || seen > 0, senna_word((uint8_t)number));
    }
    if (enough) {
        report_reached();
    }
    for (i = 0; enough && i <= SENNA_FINISHED; i++) {
        check(brought[i] > 0, "each thing that a delivery brings about");
    }
    check(!enough || given_up > 0, "a batch that is given up");
    for (i = 0, number = 0; i < SENNA_NODES; i++) {
        number += written_by[i] > 0;
    }
    check(!enough || (number > 0 && written_by[SENNA_NOBODY] > 0 && written_by[SENNA_UNKNOWN] > 0), "authors of each sort");
    check(!enough || (taken_from[0] > 0 && taken_from[1] > 0), "images of each older length");
    printf("%lu calls of %d functions, %lu committed, %lu batches given up\n", calls, COUNT, brought[SENNA_COMMITTED], given_up);
}

int main(int count, char **words)
{
    unsigned long calls = USUAL, done;
    int i;
    for (i = 1; i + 1 < count; i += 2) {
        unsigned long given = strtoul(words[i + 1], NULL, 10);
        if (strcmp(words[i], "--calls") == 0) {
            calls = given;
        } else if (strcmp(words[i], "--seed") == 0 && given > 0) {
            state = given * SPREAD;
        }
    }
    prepare();
    for (done = 0; done < calls; done++) {
        one_call();
    }
    report(calls);
    return closing();
}
