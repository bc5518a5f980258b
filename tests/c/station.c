/*
 * A whole station driven from C through include/senna.h, as a host would: one booking from begin through committed to idle with every node on,
 * every message read where it waits; a node switched off; and buffers that are no station, of which a step alters no byte.
 */
#include "check.h"

static_assert(SENNA_IMAGES == 38155 && SENNA_IMAGES == SENNA_NODES * SENNA_IMAGE && SENNA_RECORDS == SENNA_NODES * SENNA_RECORD, "the sizes agree");
static_assert(SENNA_POOL == 1 + SENNA_WAITING * (1 + SENNA_MESSAGE_MAX) && SENNA_STATION_SETTINGS == SENNA_NODES * SENNA_SETTINGS, "the sizes agree");
static_assert(sizeof(senna_waiting) == 3 * sizeof(size_t) && offsetof(senna_waiting, place) == sizeof(size_t), "the layout that the library returns");

enum { ME = 5, OBJECT = 7, PARTY = 439 };

/* A station's five buffers. */
typedef struct station {
    uint8_t images[SENNA_IMAGES];
    uint8_t records[SENNA_RECORDS];
    uint8_t pool[SENNA_POOL];
    uint8_t own[SENNA_OWN];
    uint8_t settings[SENNA_STATION_SETTINGS];
} station;

static station it;
static station before;
static uint8_t distances[SENNA_DISTANCES];

static void refused(senna_called got, unsigned number, const char *what)
{
    check(got.number == number && got.answer == 0, what);
    check(memcmp(&it, &before, sizeof it) == 0, "a refusal leaves every byte");
}

static void taken(senna_called got, uint64_t answer, const char *what)
{
    check(got.number == SENNA_OK && got.answer == answer, what);
    memcpy(&before, &it, sizeof it);
}

static senna_called begin(unsigned node, uint32_t timestamp)
{
    return senna_station_begin(it.records, sizeof it.records, it.own, sizeof it.own, it.settings, sizeof it.settings, (uint8_t)node, SENNA_ALL,
                               distances, sizeof distances, timestamp, 0, 600);
}

/* A blank station, of buffers of which two may have another length. */
static uint8_t blank(size_t records_length, size_t settings_length, unsigned on)
{
    return senna_station_blank(it.images, sizeof it.images, it.records, records_length, it.pool, sizeof it.pool, it.own, sizeof it.own, it.settings,
                               settings_length, (uint16_t)on);
}

static senna_called send_to(unsigned to, unsigned object)
{
    return senna_station_send(it.records, sizeof it.records, it.pool, sizeof it.pool, it.own, sizeof it.own, ME, (uint8_t)to, (uint8_t)object);
}

static senna_called deliver(unsigned k, unsigned kept)
{
    return senna_station_deliver(it.images, sizeof it.images, it.records, sizeof it.records, it.pool, sizeof it.pool, it.own, sizeof it.own,
                                 (uint8_t)k, (uint8_t)kept);
}

/* So many messages wait, and the last of them is of this kind and goes from one node to another. */
static void last_is(size_t count, unsigned kind, unsigned from, unsigned to)
{
    senna_waiting w = senna_station_message(it.pool, sizeof it.pool, (uint8_t)(count - 1));
    check(senna_station_waiting(it.pool, sizeof it.pool) == count, "how many wait");
    check(w.number == SENNA_OK && senna_check_message(it.pool + w.place, w.length) == SENNA_OK, "what waits is a message");
    check(it.pool[w.place] == kind && it.pool[w.place + 1] == from && it.pool[w.place + 2] == to, "the last message");
}

/* What is due to a node, there and back, by way of a kept delivery that is repeated; the answer's delivery brings this about. */
static void there_and_back(unsigned node, unsigned object, unsigned kind, uint64_t brought)
{
    taken(send_to(node, object), 0, "a send");
    last_is(1, kind, ME, node);
    taken(deliver(0, 1), 0, "a kept delivery");
    last_is(2, kind + 1, node, ME);
    taken(deliver(0, 2), 0, "and again");
    taken(senna_station_drop(it.pool, sizeof it.pool, 0), 0, "a drop");
    taken(deliver(0, 0), brought, "an answer");
    if (senna_station_waiting(it.pool, sizeof it.pool) == 1) {
        taken(deliver(0, 0), 0, "the same answer again");
    }
    check(senna_station_waiting(it.pool, sizeof it.pool) == 0, "nothing waits");
}

/* One booking that writes an object: found at the root, voted for by the party, committed, and done. */
static void one_booking(void)
{
    senna_value found;
    unsigned node;
    memset(&it, 0xa5, sizeof it);
    check(blank(sizeof it.records, sizeof it.settings, SENNA_ALL) == SENNA_OK, "a blank station");
    memcpy(&before, &it, sizeof it);
    refused(deliver(0, 0), SENNA_OUT_OF_TURN, "nothing waits yet");
    taken(begin(ME, 3), 1, "begin chooses the root");
    refused(begin(ME, 4), SENNA_BUSY, "a second begin");
    taken(senna_station_open_write(it.records, sizeof it.records, it.own, sizeof it.own, it.settings, sizeof it.settings, ME, OBJECT), 0, "open to write");
    taken(senna_station_set_value(it.records, sizeof it.records, it.own, sizeof it.own, it.settings, sizeof it.settings, ME, OBJECT, -250), 0, "a new value");
    found = senna_station_found(it.records, sizeof it.records, it.own, sizeof it.own, ME, OBJECT);
    check(found.number == SENNA_NOT_READY && found.value == 0, "nothing came yet");
    there_and_back(0, OBJECT, 1, SENNA_READY);
    found = senna_station_found(it.records, sizeof it.records, it.own, sizeof it.own, ME, OBJECT);
    check(found.number == SENNA_OK && found.value == 0, "the blank value is found");
    taken(senna_station_request_commit(it.records, sizeof it.records, it.own, sizeof it.own, it.settings, sizeof it.settings, ME), PARTY, "the participants");
    for (node = 0; node < SENNA_NODES; node++) {
        if ((PARTY >> node) % 2 == 1) {
            there_and_back(node, 0, 3, node == 8 ? SENNA_COMMITTED : SENNA_NOTHING);
        }
    }
    for (node = 0; node < SENNA_NODES; node++) {
        if ((PARTY >> node) % 2 == 1) {
            there_and_back(node, 0, 5, node == 8 ? SENNA_FINISHED : SENNA_NOTHING);
        }
    }
    check(senna_coordinator_phase(it.records + ME * SENNA_RECORD, SENNA_RECORD) == SENNA_IDLE, "idle again");
    check(senna_coordinator_outcome(it.records + ME * SENNA_RECORD, SENNA_RECORD) == SENNA_COMMITTED, "committed");
    for (node = 0; node < SENNA_NODES; node++) {
        const uint8_t *copy = it.images + node * SENNA_IMAGE + 1 + 22 * OBJECT;
        senna_author last = senna_image_author(it.images + node * SENNA_IMAGE, SENNA_IMAGE, OBJECT);
        int wrote = (PARTY >> node) % 2 == 1;
        check(copy[0] == (wrote ? 0x06 : 0) && copy[7] == (wrote ? 0xff : 0) && copy[8] == (wrote ? 1 : 0), "the copies of the party, no others");
        check(last.number == SENNA_OK && last.owner == (wrote ? ME : SENNA_NOBODY) && last.serial == (wrote ? 1u : 0u), "written last by this booking");
    }
}

/* The last object there is, and the first that there is not. */
static void last_object(void)
{
    taken(begin(2, 20), 1, "a booking at node 2");
    refused(senna_station_open_write(it.records, sizeof it.records, it.own, sizeof it.own, it.settings, sizeof it.settings, 2, 128),
            SENNA_NO_SUCH_OBJECT, "object 128 to write");
    refused(senna_station_open_read(it.records, sizeof it.records, it.own, sizeof it.own, it.settings, sizeof it.settings, 2, 255),
            SENNA_NO_SUCH_OBJECT, "object 255 to read");
    taken(senna_station_open_write(it.records, sizeof it.records, it.own, sizeof it.own, it.settings, sizeof it.settings, 2, 127), 0, "object 127 to write");
    refused(senna_station_set_value(it.records, sizeof it.records, it.own, sizeof it.own, it.settings, sizeof it.settings, 2, 128, 5),
            SENNA_NO_SUCH_OBJECT, "a value of object 128");
    taken(senna_station_set_value(it.records, sizeof it.records, it.own, sizeof it.own, it.settings, sizeof it.settings, 2, 127, 5), 0, "of object 127");
    refused(senna_station_send(it.records, sizeof it.records, it.pool, sizeof it.pool, it.own, sizeof it.own, 2, 0, 128), SENNA_NO_SUCH_OBJECT,
            "a send of object 128");
    taken(senna_station_abort(it.records, sizeof it.records, it.own, sizeof it.own, 2), 0, "given up");
}

/* The older images of a station: thirteen of 64 copies of 17 or 22 bytes, as the present images say. Answers their length. */
static size_t make_older(uint8_t *old, unsigned width)
{
    size_t length = 0;
    unsigned node, object;
    for (node = 0; node < SENNA_NODES; node++) {
        const uint8_t *image = it.images + node * SENNA_IMAGE;
        old[length++] = 64;
        for (object = 0; object < 64; object++, length += width) {
            memcpy(old + length, image + 1 + 22 * object, width);
        }
        memcpy(old + length, image + SENNA_IMAGE - 118, 118); /* the count of the owners, and the owners */
        length += 118;
    }
    return length;
}

/* A refusal: this number, and every byte stays. */
static void not_taken(const uint8_t *old, size_t old_length, size_t images_length, unsigned number, const char *what)
{
    check(senna_station_take_in(old, old_length, it.images, images_length) == number, what);
    check(memcmp(&it, &before, sizeof it) == 0, "a refusal leaves every byte");
}

/* All images taken in at once, from both older lengths: what was booked is there, with its author where the images had one. */
static void taken_in(unsigned width)
{
    static uint8_t old[SENNA_NODES * SENNA_IMAGE_1527 + 1];
    size_t length = make_older(old, width), one = length / SENNA_NODES;
    unsigned node, owner = width == 22 ? ME : SENNA_UNKNOWN;
    uint32_t serial = width == 22 ? 1 : 0;
    check(length == SENNA_NODES * (width == 22 ? SENNA_IMAGE_1527 : SENNA_IMAGE_1207), "thirteen older images");
    for (node = 0; node < SENNA_NODES; node++) {
        old[node * one + 1 + 63 * width + 12] ^= 1;
        not_taken(old, length, sizeof it.images, SENNA_DAMAGED, "one of thirteen is damaged");
        not_taken(old, length, sizeof it.images - 1, SENNA_LENGTH, "1 before 2");
        old[node * one + 1 + 63 * width + 12] ^= 1;
    }
    not_taken(old, length - 1, sizeof it.images, SENNA_LENGTH, "a byte short");
    not_taken(old, length + 1, sizeof it.images, SENNA_LENGTH, "a byte long");
    not_taken(old, one, SENNA_IMAGE, SENNA_LENGTH, "one image alone");
    memset(it.images, 0xa5, sizeof it.images);
    check(senna_station_take_in(old, length, it.images, sizeof it.images) == SENNA_OK, "all are taken in");
    for (node = 0; node < SENNA_NODES; node++) {
        const uint8_t *image = it.images + node * SENNA_IMAGE;
        uint8_t alone[SENNA_IMAGE];
        senna_author last = senna_image_author(image, SENNA_IMAGE, OBJECT);
        int wrote = (PARTY >> node) % 2 == 1;
        check(senna_take_in(old + node * one, one, alone, sizeof alone) == SENNA_OK && memcmp(alone, image, sizeof alone) == 0, "as each alone");
        check(last.number == SENNA_OK && last.owner == (wrote ? owner : SENNA_NOBODY) && last.serial == (wrote ? serial : 0u), "who wrote it last");
    }
    memcpy(before.images, it.images, sizeof it.images);
    check(memcmp(&it, &before, sizeof it) == 0, "only the images change");
}

/* A node that is off, and the buffers of a step that has nothing to do with them. */
static void off_and_on(void)
{
    taken(begin(ME, 9), 1, "a second booking");
    taken(senna_station_open_read(it.records, sizeof it.records, it.own, sizeof it.own, it.settings, sizeof it.settings, ME, OBJECT), 0, "open to read");
    taken(send_to(0, OBJECT), 0, "a fetch");
    taken(senna_station_switch(it.own, sizeof it.own, 0, 0), 0, "the root is switched off");
    taken(senna_station_switch(it.own, sizeof it.own, 0, 0), 0, "and again");
    check(it.own[0] == 0xfe && it.own[1] == 0x1f, "all but the root are on");
    taken(deliver(0, 1), 0, "a kept message does nothing there");
    check(senna_station_waiting(it.pool, sizeof it.pool) == 1, "and it still waits");
    refused(begin(0, 9), SENNA_OUT_OF_TURN, "a call at a node that is off");
    refused(begin(13, 9), SENNA_STRANGER, "a call at no node");
    refused(senna_station_switch(it.own, sizeof it.own, 13, 1), SENNA_STRANGER, "no node is switched");
    taken(senna_station_reselect(it.records, sizeof it.records, it.own, sizeof it.own, ME, SENNA_ALL - 1, distances, sizeof distances), 6,
          "a fresh look without the root");
    taken(senna_station_switch(it.own, sizeof it.own, 0, 255), 0, "the root is switched on");
    taken(senna_station_abort(it.records, sizeof it.records, it.own, sizeof it.own, ME), 0, "given up");
    taken(deliver(0, 0), 0, "the fetch comes late");
    last_is(1, 2, 0, ME);
    refused(senna_station_drop(it.pool, sizeof it.pool, 1), SENNA_OUT_OF_TURN, "no such message waits");
}

/* Buffers that are no station. */
static void bad_buffers(void)
{
    uint8_t count;
    unsigned place = 1 + ME * SENNA_RECORD;
    refused(senna_station_deliver(it.images, sizeof it.images - 1, it.records, sizeof it.records, it.pool, sizeof it.pool, it.own,
                                  sizeof it.own, 0, 0), SENNA_LENGTH, "images a byte short");
    refused(senna_station_deliver(it.images, sizeof it.images, it.records, sizeof it.records, it.pool, sizeof it.pool, it.own,
                                  1, 0, 0), SENNA_LENGTH, "a mask of one byte");
    refused(senna_station_begin(it.records, sizeof it.records, it.own, sizeof it.own, it.settings, sizeof it.settings, 1, SENNA_ALL, distances, 25,
                                1, 0, 600), SENNA_LENGTH, "25 bytes of distances");
    refused(senna_station_begin(it.records, sizeof it.records, it.own, sizeof it.own, it.settings, SENNA_SETTINGS, 1, SENNA_ALL, distances,
                                sizeof distances, 1, 0, 600), SENNA_LENGTH, "one node's settings");
    refused(senna_station_drop(it.pool, sizeof it.pool - 1, 0), SENNA_LENGTH, "a pool a byte short");
    check(blank(sizeof it.records - 1, sizeof it.settings, SENNA_ALL) == SENNA_LENGTH, "records a byte short");
    check(blank(sizeof it.records, sizeof it.settings - 1, SENNA_ALL) == SENNA_LENGTH, "settings a byte short");
    check(blank(sizeof it.records, sizeof it.settings, SENNA_ALL + 1) == SENNA_STRANGER, "a mask of more than there are");
    check(memcmp(&it, &before, sizeof it) == 0, "a refusal leaves every byte");
    refused(deliver(1, 0), SENNA_OUT_OF_TURN, "no such message waits");
    count = it.pool[0];
    it.pool[0] = before.pool[0] = 129;
    refused(deliver(0, 0), SENNA_DAMAGED, "a pool of 129 messages");
    refused(send_to(0, 0), SENNA_DAMAGED, "a send to a pool of 129 messages");
    check(senna_station_waiting(it.pool, sizeof it.pool) == 0, "nothing waits in it");
    check(senna_station_message(it.pool, sizeof it.pool, 0).number == SENNA_DAMAGED, "nor is anything to see");
    it.pool[0] = before.pool[0] = count;
    it.own[1] = before.own[1] = 0x3f;
    refused(begin(1, 1), SENNA_DAMAGED, "a mask of fourteen nodes");
    it.own[1] = before.own[1] = 0x1f;
    it.records[place + 8] = before.records[place + 8] = 9;
    refused(begin(ME, 99), SENNA_DAMAGED, "a damaged record");
    refused(begin(ME + 13, 99), SENNA_STRANGER, "of no node");
    refused(send_to(13, 0), SENNA_DAMAGED, "a send from a damaged record");
    taken(begin(1, 1), 1, "its neighbour's is sound");
}

int main(void)
{
    unsigned at;
    for (at = 0; at < SENNA_NODES; at++) {
        distances[2 * at] = 1;
    }
    one_booking();
    taken_in(22);
    off_and_on();
    bad_buffers();
    last_object();
    taken_in(17);
    return closing();
}
