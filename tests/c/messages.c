/*
 * The C functions for messages and images, called through include/senna.h as a host would: each kind is written, checked, damaged and
 * checked again; so is the blank image; every refusal; and that only the lent bytes are touched. Also valid C++, which shows that the
 * header is.
 */
#include "check.h"

static_assert(sizeof(senna_entry) == 16, "the layout that the library takes");
static_assert(offsetof(senna_entry, object) == 0 && offsetof(senna_entry, mode) == 1, "the layout that the library takes");
static_assert(offsetof(senna_entry, version) == 4 && offsetof(senna_entry, value) == 8, "the layout that the library takes");
static_assert(sizeof(senna_entries) == 136 && offsetof(senna_entries, count) == 128, "the layout that the library takes");
static_assert(sizeof(senna_serials) == 52, "the layout that the library takes");
static_assert(sizeof(senna_written) == 2 && offsetof(senna_written, length) == 1, "the layout that the library returns");
static_assert(SENNA_MESSAGE_MIN == 12 + 3 && SENNA_MESSAGE_MAX == 12 + 3 + 14 * SENNA_ENTRIES + 1, "the sizes agree");
static_assert(SENNA_OBJECTS == 128 && SENNA_IMAGE == 2935 && SENNA_IMAGE == 1 + 22 * SENNA_OBJECTS + 1 + 9 * SENNA_NODES, "the sizes agree");

static void check_number(unsigned got, unsigned number, const char *what)
{
    check(got == number, what);
    if (got != number) {
        printf("  got %u, expected %u\n", got, number);
    }
}

static const uint32_t LAST = 4294967295u;

/* What every buffer is filled with before a call. */
enum { FILL = 0xa5, SIZE = 300 };

static int filled(const uint8_t *bytes, size_t count)
{
    size_t at;
    for (at = 0; at < count; at++) {
        if (bytes[at] != FILL) {
            return 0;
        }
    }
    return 1;
}

/* The objects first, first + 1, .., read and written by turns. */
static senna_entries entries(unsigned count, unsigned first)
{
    senna_entries list;
    unsigned at;
    memset(&list, 255, sizeof list);
    for (at = 0; at < count && at < SENNA_ENTRIES; at++) {
        list.entry[at] = at % 2 == 0 ? entry(first + at, 0, LAST, 0) : entry(first + at, 1, LAST - 1, INT64_MIN);
    }
    list.count = (uint8_t)count;
    return list;
}

static senna_serials no_rivals(void)
{
    senna_serials rivals;
    memset(&rivals, 0, sizeof rivals);
    return rivals;
}

/* A call wrote exactly these bytes to the front of a filled buffer, and what it wrote is a message. */
static void check_written(senna_written got, const uint8_t *out, const uint8_t *bytes, size_t length, const char *what)
{
    check_number(got.number, SENNA_OK, what);
    check_number(got.length, (unsigned)length, what);
    check(memcmp(out, bytes, length) == 0, what);
    check(filled(out + length, SIZE - length), what);
    check_number(senna_check_message(out, length), SENNA_OK, what);
}

/* A call refused and left the buffer as it was. */
static void check_refused(senna_written got, const uint8_t *out, unsigned number, const char *what)
{
    check_number(got.number, number, what);
    check_number(got.length, 0, what);
    check(filled(out, SIZE), what);
}

/* A message with one byte changed, cut short, and with a byte more. */
static void check_damaged(const uint8_t *message, size_t length, size_t place, unsigned byte, const char *what)
{
    uint8_t copy[SENNA_MESSAGE_MAX + 1];
    memset(copy, 0, sizeof copy);
    memcpy(copy, message, length);
    copy[place] = (uint8_t)byte;
    check_number(senna_check_message(copy, length), SENNA_GARBLED, what);
    copy[place] = message[place];
    check_number(senna_check_message(copy, length), SENNA_OK, what);
    check_number(senna_check_message(copy, length - 1), length == SENNA_MESSAGE_MIN ? SENNA_LENGTH : SENNA_GARBLED, what);
    check_number(senna_check_message(copy, length + 1), length == SENNA_MESSAGE_MAX ? SENNA_LENGTH : SENNA_GARBLED, what);
}

/* Each kind, with its bytes written out here. */
static void check_kinds(void)
{
    static const uint8_t fetch[] = {1, 4, 7, 4, 0x44, 0x33, 0x22, 0x11, 0x88, 0x77, 0x66, 0x55, 1,
                                    127, 1, 0, 0, 0, 0, 0, 0, 0, 0, 0, 0, 0, 0, 0, 0};
    static const uint8_t copy[] = {2, 9, 0, 0, 1, 0, 0, 0, 2, 0, 0, 0, 1, 5, 0, 4, 3, 2, 1, 0xfe, 255, 255, 255, 255, 255, 255, 255, 0, 0};
    static const uint8_t ask[] = {3, 3, 8, 3, 7, 0, 0, 0, 6, 0, 0, 0, 2,
                                  10, 0, 255, 255, 255, 255, 0, 0, 0, 0, 0, 0, 0, 0,
                                  11, 1, 0xfe, 255, 255, 255, 0, 0, 0, 0, 0, 0, 0, 0x80, 0, 0};
    static const uint8_t vote[] = {4, 12, 3, 3, 9, 0, 0, 0, 8, 0, 0, 0, 0, 2, 0, 1, 0, 0, 0, 11, 0, 1, 0, 0, 1, 1};
    static const uint8_t no[] = {4, 12, 3, 3, 9, 0, 0, 0, 8, 0, 0, 0, 0, 0, 1, 0};
    static const uint8_t commit[] = {5, 3, 8, 3, 7, 0, 0, 0, 6, 0, 0, 0, 1, 10, 0, 255, 255, 255, 255, 0, 0, 0, 0, 0, 0, 0, 0, 0, 1, 1};
    static const uint8_t aborts[] = {5, 3, 8, 3, 7, 0, 0, 0, 6, 0, 0, 0, 0, 0, 1, 0};
    static const uint8_t done[] = {6, 1, 1, 1, 255, 255, 255, 255, 1, 0, 0, 0, 0, 0, 0};
    static const uint8_t yield[] = {7, 2, 6, 2, 1, 0, 0, 0, 1, 0, 0, 0, 0, 1, 6, 0, 0, 0, 1, 0};
    uint8_t out[SIZE];
    senna_serials rivals = no_rivals();
    senna_written got;

    memset(out, FILL, sizeof out);
    got = senna_write_fetch(out, sizeof out, 7, 4, 0x11223344, 0x55667788, 127, 1);
    check_written(got, out, fetch, sizeof fetch, "a fetch");
    check_damaged(out, got.length, 15, 1, "a fetch whose version is not 0");
    check_damaged(out, got.length, 19, 1, "a fetch whose value is not 0");
    check_damaged(out, got.length, 13, 128, "object 128");
    check_damaged(out, got.length, 13, 255, "object 255");
    check_damaged(out, got.length, 14, 2, "mode 2");
    check_damaged(out, got.length, 1, 5, "a fetch that is not from the owner");
    check_damaged(out, got.length, 2, 13, "a fetch to node 13");
    check_damaged(out, got.length, 12, 0, "a fetch with count 0");
    check_damaged(out, got.length, 12, 2, "a fetch with count 2");

    memset(out, FILL, sizeof out);
    got = senna_write_copy(out, sizeof out, 9, 0, 1, 2, entry(5, 0, 0x01020304, -2));
    check_written(got, out, copy, sizeof copy, "a copy");
    check_damaged(out, got.length, 1, 13, "a copy from node 13");
    check_damaged(out, got.length, 2, 1, "a copy that is not to the owner");
    check_damaged(out, got.length, 4, 0, "serial 0");
    check_damaged(out, got.length, 8, 0, "stamp 0");

    memset(out, FILL, sizeof out);
    got = senna_write_ask(out, sizeof out, 8, 3, 7, 6, entries(2, 10));
    check_written(got, out, ask, sizeof ask, "an ask");
    check_damaged(out, got.length, 27, 10, "an object twice");
    check_damaged(out, got.length, 27, 9, "objects that descend");
    check_damaged(out, got.length, 29, 255, "a write's version at the last");
    check_damaged(out, got.length, 19, 1, "a read's value not 0");

    memset(out, FILL, sizeof out);
    rivals.serial[0] = 1;
    rivals.serial[11] = 256;
    got = senna_write_vote(out, sizeof out, 12, 3, 9, 8, rivals, 1);
    check_written(got, out, vote, sizeof vote, "a yes with two rivals");
    check_damaged(out, got.length, 14, 3, "a rival that is the owner");
    check_damaged(out, got.length, 14, 11, "a rival twice");
    check_damaged(out, got.length, 19, 13, "rival 13");
    check_damaged(out, got.length, 15, 0, "a rival's serial 0");
    check_damaged(out, got.length, 25, 0, "a no with rivals");
    check_damaged(out, got.length, 25, 2, "word 2");

    memset(out, FILL, sizeof out);
    got = senna_write_vote(out, sizeof out, 12, 3, 9, 8, no_rivals(), 0);
    check_written(got, out, no, sizeof no, "a no");
    check_damaged(out, got.length, 2, 4, "a vote that is not to the owner");
    check_damaged(out, got.length, 14, 0, "a vote whose count of words is 0");

    memset(out, FILL, sizeof out);
    got = senna_write_outcome(out, sizeof out, 8, 3, 7, 6, entries(1, 10), 1);
    check_written(got, out, commit, sizeof commit, "a commit");
    check_damaged(out, got.length, 29, 0, "an abort with entries");
    check_damaged(out, got.length, 1, 4, "a commit that is not from the owner");

    memset(out, FILL, sizeof out);
    got = senna_write_outcome(out, sizeof out, 8, 3, 7, 6, entries(0, 0), 0);
    check_written(got, out, aborts, sizeof aborts, "an abort");
    check_damaged(out, got.length, 15, 1, "a commit without entries");

    memset(out, FILL, sizeof out);
    got = senna_write_done(out, sizeof out, 1, 1, LAST, 1);
    check_written(got, out, done, sizeof done, "a done");
    check_damaged(out, got.length, 2, 2, "a done that is not to the owner");
    check_damaged(out, got.length, 0, 7, "a done made a yield");
    check_damaged(out, got.length, 0, 0, "kind 0");
    check_damaged(out, got.length, 0, 8, "kind 8");

    memset(out, FILL, sizeof out);
    got = senna_write_yield(out, sizeof out, 2, 1, 1, 6, 1 << 24);
    check_written(got, out, yield, sizeof yield, "a yield");
    check_damaged(out, got.length, 14, 2, "a yield whose rival is the owner");
    check_damaged(out, got.length, 1, 3, "a yield that is not from the owner");
    check_damaged(out, got.length, 2, 5, "a yield that is not to the rival's owner");
    check_damaged(out, got.length, 18, 0, "a yield with the rival's serial 0");
}

/* Whether a call found its message garbled and left the buffer as it was. */
static int refuses(senna_written got, const uint8_t *out)
{
    return got.number == SENNA_GARBLED && got.length == 0 && filled(out, SIZE);
}

/* Every count of entries: 1 to 8 are written, and more are refused without a byte written, also where the first eight would do. */
static void check_counts(void)
{
    uint8_t out[SIZE];
    senna_written got;
    unsigned count;
    int asks = 1, commits = 1, aborts = 1;
    for (count = 1; count <= SENNA_ENTRIES; count++) {
        size_t length = 15 + 14 * (size_t)count;
        memset(out, FILL, sizeof out);
        got = senna_write_ask(out, sizeof out, 12, 12, LAST, LAST, entries(count, 56));
        asks &= got.number == SENNA_OK && got.length == length && out[12] == count;
        asks &= filled(out + length, SIZE - length) && senna_check_message(out, length) == SENNA_OK;
        got = senna_write_outcome(out, sizeof out, 12, 12, LAST, LAST, entries(count, 56), 1);
        commits &= got.number == SENNA_OK && got.length == length + 1 && out[12] == count;
        commits &= filled(out + length + 1, SIZE - length - 1) && senna_check_message(out, length + 1) == SENNA_OK;
    }
    check(asks, "an ask of 1 to 8 entries");
    check(commits, "a commit of 1 to 8 entries");
    check_number(got.length, SENNA_MESSAGE_MAX, "the longest message has 128 bytes");
    memset(out, FILL, sizeof out);
    for (count = SENNA_ENTRIES + 1; count <= 255; count++) {
        asks &= refuses(senna_write_ask(out, SIZE, 12, 12, LAST, LAST, entries(count, 56)), out);
        commits &= refuses(senna_write_outcome(out, SIZE, 12, 12, LAST, LAST, entries(count, 56), 1), out);
        aborts &= refuses(senna_write_outcome(out, SIZE, 12, 12, LAST, LAST, entries(count, 56), 0), out);
    }
    check(asks, "an ask of more than 8 entries is refused");
    check(commits, "a commit of more than 8 entries is refused");
    check(aborts, "an abort of more than 8 entries is refused");
}

/* A vote with every rival at once. */
static void check_longest(void)
{
    uint8_t out[SIZE];
    senna_serials rivals;
    senna_written got;
    unsigned node;
    memset(&rivals, 255, sizeof rivals);
    for (node = 0; node < SENNA_NODES; node++) {
        rivals.serial[node] = 0;
        memset(out, FILL, sizeof out);
        got = senna_write_vote(out, sizeof out, 5, (uint8_t)node, 1, 1, rivals, 1);
        check(got.number == SENNA_OK && got.length == 76 && out[13] == 12, "a vote with all others as rivals");
        check_number(senna_check_message(out, got.length), SENNA_OK, "a vote with all others as rivals is a message");
        rivals.serial[node] = 1;
    }
}

/* Every call with a buffer that is too small, and with what no message may have. */
static void check_refusals(void)
{
    static const size_t small[] = {0, 1, 15, 29, 127};
    uint8_t out[SIZE];
    senna_serials rivals = no_rivals();
    senna_entries list;
    size_t at;
    rivals.serial[4] = 1;
    memset(out, FILL, sizeof out);
    for (at = 0; at < sizeof small / sizeof small[0]; at++) {
        size_t size = small[at];
        check_refused(senna_write_fetch(out, size, 1, 2, 3, 4, 5, 1), out, SENNA_LENGTH, "a small buffer: fetch");
        check_refused(senna_write_copy(out, size, 1, 2, 3, 4, entry(1, 1, 1, 1)), out, SENNA_LENGTH, "a small buffer: copy");
        check_refused(senna_write_ask(out, size, 1, 2, 3, 4, entries(1, 1)), out, SENNA_LENGTH, "a small buffer: ask");
        check_refused(senna_write_vote(out, size, 1, 2, 3, 4, rivals, 1), out, SENNA_LENGTH, "a small buffer: vote");
        check_refused(senna_write_outcome(out, size, 1, 2, 3, 4, entries(1, 1), 1), out, SENNA_LENGTH, "a small buffer: outcome");
        check_refused(senna_write_done(out, size, 1, 2, 3, 4), out, SENNA_LENGTH, "a small buffer: done");
        check_refused(senna_write_yield(out, size, 1, 2, 3, 4, 5), out, SENNA_LENGTH, "a small buffer: yield");
        check_refused(senna_write_done(out, size, 13, 2, 3, 4), out, SENNA_LENGTH, "a small buffer goes before what is garbled");
    }
    check_refused(senna_write_fetch(out, SIZE, 13, 2, 3, 4, 5, 1), out, SENNA_GARBLED, "a fetch to node 13");
    check_refused(senna_write_fetch(out, SIZE, 1, 13, 3, 4, 5, 1), out, SENNA_GARBLED, "a fetch of owner 13");
    check_refused(senna_write_fetch(out, SIZE, 1, 2, 0, 4, 5, 1), out, SENNA_GARBLED, "a fetch of serial 0");
    check_refused(senna_write_fetch(out, SIZE, 1, 2, 3, 0, 5, 1), out, SENNA_GARBLED, "a fetch of stamp 0");
    check_refused(senna_write_fetch(out, SIZE, 1, 2, 3, 4, 128, 1), out, SENNA_GARBLED, "a fetch of object 128");
    check_refused(senna_write_fetch(out, SIZE, 1, 2, 3, 4, 5, 2), out, SENNA_GARBLED, "a fetch of mode 2");
    check_refused(senna_write_copy(out, SIZE, 1, 2, 3, 4, entry(128, 1, 1, 1)), out, SENNA_GARBLED, "a copy of object 128");
    check_refused(senna_write_copy(out, SIZE, 1, 2, 3, 4, entry(1, 2, 1, 1)), out, SENNA_GARBLED, "a copy of mode 2");
    check_refused(senna_write_copy(out, SIZE, 13, 2, 3, 4, entry(1, 1, 1, 1)), out, SENNA_GARBLED, "a copy from node 13");
    check_refused(senna_write_ask(out, SIZE, 1, 2, 3, 4, entries(0, 1)), out, SENNA_GARBLED, "an ask without entries");
    check_refused(senna_write_ask(out, SIZE, 1, 2, 3, 4, entries(2, 127)), out, SENNA_GARBLED, "an ask with object 128");
    list = entries(3, 1);
    list.entry[2].object = 2;
    check_refused(senna_write_ask(out, SIZE, 1, 2, 3, 4, list), out, SENNA_GARBLED, "an ask with an object twice");
    check_refused(senna_write_outcome(out, SIZE, 1, 2, 3, 4, list, 1), out, SENNA_GARBLED, "a commit with an object twice");
    list = entries(3, 1);
    list.entry[0].value = 1;
    check_refused(senna_write_ask(out, SIZE, 1, 2, 3, 4, list), out, SENNA_GARBLED, "an ask in which a read has a value");
    check_refused(senna_write_outcome(out, SIZE, 1, 2, 3, 4, list, 1), out, SENNA_GARBLED, "a commit in which a read has a value");
    list = entries(3, 1);
    list.entry[1].version = LAST;
    check_refused(senna_write_ask(out, SIZE, 1, 2, 3, 4, list), out, SENNA_GARBLED, "an ask with a write's version at the last");
    check_refused(senna_write_outcome(out, SIZE, 1, 2, 3, 4, list, 1), out, SENNA_GARBLED, "a commit with a write's version at the last");
    check_refused(senna_write_vote(out, SIZE, 1, 4, 3, 4, rivals, 1), out, SENNA_GARBLED, "a vote whose rival is the owner");
    check_refused(senna_write_vote(out, SIZE, 1, 2, 3, 4, rivals, 0), out, SENNA_GARBLED, "a no with a rival");
    check_refused(senna_write_vote(out, SIZE, 1, 2, 3, 4, rivals, 2), out, SENNA_GARBLED, "a vote of word 2");
    check_refused(senna_write_outcome(out, SIZE, 1, 2, 3, 4, entries(1, 1), 0), out, SENNA_GARBLED, "an abort with an entry");
    check_refused(senna_write_outcome(out, SIZE, 1, 2, 3, 4, entries(0, 1), 1), out, SENNA_GARBLED, "a commit without entries");
    check_refused(senna_write_outcome(out, SIZE, 1, 2, 3, 4, entries(1, 1), 2), out, SENNA_GARBLED, "an outcome of word 2");
    check_refused(senna_write_done(out, SIZE, 1, 2, 0, 4), out, SENNA_GARBLED, "a done of serial 0");
    check_refused(senna_write_yield(out, SIZE, 2, 3, 4, 2, 5), out, SENNA_GARBLED, "a yield whose rival is the owner");
    check_refused(senna_write_yield(out, SIZE, 2, 3, 4, 13, 5), out, SENNA_GARBLED, "a yield to node 13");
    check_refused(senna_write_yield(out, SIZE, 2, 3, 4, 1, 0), out, SENNA_GARBLED, "a yield with the rival's serial 0");
}

/* Lengths that no message has. */
static void check_lengths(void)
{
    uint8_t bytes[SIZE];
    size_t length;
    int all = 1;
    memset(bytes, 0, sizeof bytes);
    check_number(senna_write_done(bytes, sizeof bytes, 1, 2, 3, 4).length, SENNA_MESSAGE_MIN, "the shortest message has 15 bytes");
    for (length = 0; length <= sizeof bytes; length++) {
        unsigned number = length < SENNA_MESSAGE_MIN || length > SENNA_MESSAGE_MAX ? SENNA_LENGTH : SENNA_GARBLED;
        all &= senna_check_message(bytes, length) == (length == SENNA_MESSAGE_MIN ? SENNA_OK : number);
    }
    check(all, "a done with zeros behind it, of every length");
}

/* A byte of the image changed, then as it was. */
static void check_changed(uint8_t *image, size_t place, unsigned byte, unsigned number, const char *what)
{
    uint8_t was = image[place];
    image[place] = (uint8_t)byte;
    check_number(senna_check_image(image, SENNA_IMAGE), number, what);
    image[place] = was;
}

/* The places of an image's fields. */
static size_t copy_at(unsigned object)
{
    return 1 + 22 * (size_t)object;
}

static size_t owner_at(unsigned node)
{
    return 1 + 22 * SENNA_OBJECTS + 1 + 9 * (size_t)node;
}

static void check_images(void)
{
    enum { ROOM = 3100 };
    static uint8_t image[ROOM];
    size_t length;
    unsigned at;
    int all = 1;
    memset(image, FILL, sizeof image);
    for (length = 0; length <= ROOM; length++) {
        if (length != SENNA_IMAGE) {
            all &= senna_blank_image(image, length) == SENNA_LENGTH && filled(image, ROOM);
        }
    }
    check(all, "a blank image of every other length is refused and alters nothing");
    check_number(senna_blank_image(image, SENNA_IMAGE), SENNA_OK, "a blank image");
    check(filled(image + SENNA_IMAGE, ROOM - SENNA_IMAGE), "a blank image alters nothing behind it");
    for (all = 1, at = 0; at < SENNA_IMAGE; at++) {
        unsigned place = at >= 1 && at < owner_at(0) - 1 ? (at - 1) % 22 : 0; /* in a copy: 12 the holder, 17 the author's owner */
        unsigned expected = at == 0 ? 128 : at == owner_at(0) - 1 ? 13 : place == 12 || place == 17 ? SENNA_NOBODY : 0;
        all &= image[at] == expected;
    }
    check(all, "each byte of the blank image");
    for (all = 1, length = 0; length <= ROOM; length++) {
        all &= senna_check_image(image, length) == (length == SENNA_IMAGE ? SENNA_OK : SENNA_LENGTH);
    }
    check(all, "a blank image of every length");

    /* Owner 3 held with object 127, owner 12 listed with object 0, owner 5 refused. */
    image[owner_at(3)] = image[owner_at(3) + 5] = 1;
    image[owner_at(3) + 4] = 2;
    image[owner_at(12)] = image[owner_at(12) + 8] = 1;
    image[owner_at(12) + 4] = 1;
    image[owner_at(5) + 3] = image[owner_at(5) + 5] = 255;
    image[owner_at(5) + 4] = 3;
    image[copy_at(127) + 12] = 3;
    image[copy_at(0) + 14] = image[copy_at(0) + 16] = 16;
    check_number(senna_check_image(image, SENNA_IMAGE), SENNA_OK, "an image with a holder, a listed and a refused owner");
    check_changed(image, copy_at(7), 200, SENNA_OK, "any value");
    check_changed(image, copy_at(7) + 11, 200, SENNA_OK, "any version");
    check_changed(image, 0, 127, SENNA_DAMAGED, "count 127");
    check_changed(image, 0, 64, SENNA_DAMAGED, "the count of an older image");
    check_changed(image, owner_at(0) - 1, 14, SENNA_DAMAGED, "count 14");
    check_changed(image, copy_at(7) + 12, 3, SENNA_OK, "a second copy held by owner 3");
    check_changed(image, copy_at(7) + 12, 13, SENNA_DAMAGED, "holder 13");
    check_changed(image, copy_at(7) + 12, 254, SENNA_DAMAGED, "holder 254");
    check_changed(image, copy_at(7) + 12, 0, SENNA_DAMAGED, "a holder who is over");
    check_changed(image, copy_at(7) + 12, 12, SENNA_DAMAGED, "a holder who is listed");
    check_changed(image, copy_at(7) + 12, 5, SENNA_DAMAGED, "a holder who is refused");
    check_changed(image, copy_at(7) + 14, 16, SENNA_OK, "a second copy with owner 12 as reader");
    check_changed(image, copy_at(7) + 13, 1, SENNA_DAMAGED, "a reader who is over");
    check_changed(image, copy_at(7) + 13, 8, SENNA_DAMAGED, "a reader who is held");
    check_changed(image, copy_at(7) + 15, 8, SENNA_DAMAGED, "a writer who is held");
    check_changed(image, copy_at(7) + 15, 32, SENNA_DAMAGED, "a writer who is refused");
    check_changed(image, copy_at(7) + 14, 32, SENNA_DAMAGED, "readers above 8191");
    check_changed(image, copy_at(7) + 16, 32, SENNA_DAMAGED, "writers above 8191");
    check_changed(image, copy_at(7) + 17, SENNA_UNKNOWN, SENNA_OK, "an unknown author");
    check_changed(image, copy_at(7) + 17, 0, SENNA_DAMAGED, "an author with serial 0");
    check_changed(image, copy_at(7) + 17, 12, SENNA_DAMAGED, "author 12 with serial 0");
    check_changed(image, copy_at(7) + 17, 13, SENNA_DAMAGED, "author 13");
    check_changed(image, copy_at(7) + 17, 253, SENNA_DAMAGED, "author 253");
    check_changed(image, copy_at(7) + 18, 1, SENNA_DAMAGED, "nobody with a serial");
    check_changed(image, copy_at(7) + 21, 1, SENNA_DAMAGED, "nobody with a great serial");
    check_changed(image, owner_at(5) + 4, 0, SENNA_OK, "the refused owner made over");
    check_changed(image, owner_at(5) + 4, 4, SENNA_DAMAGED, "state 4");
    check_changed(image, owner_at(5) + 5, 0, SENNA_DAMAGED, "stamp 0 with a serial");
    check_changed(image, owner_at(5) + 3, 0, SENNA_DAMAGED, "serial 0 with a stamp");
    check_changed(image, owner_at(0) + 4, 3, SENNA_DAMAGED, "serial and stamp 0, refused");
    check_changed(image, owner_at(3) + 4, 0, SENNA_DAMAGED, "the holder made over");
    check_changed(image, owner_at(12) + 4, 2, SENNA_DAMAGED, "the listed owner made held");
    check_number(senna_check_image(image, SENNA_IMAGE), SENNA_OK, "the image as it was");
}

/*
 * Messages and images at the end and at the start of a page between pages that may not be touched, and while they are checked the page
 * may only be read: a wrong write, or a read beyond the lent bytes, ends this program, which counts as a failure.
 */
static void check_touches(void)
{
    size_t page = (size_t)sysconf(_SC_PAGESIZE);
    uint8_t *pages = (uint8_t *)mmap(NULL, 3 * page, PROT_READ | PROT_WRITE, MAP_PRIVATE | MAP_ANONYMOUS, -1, 0);
    uint8_t *middle, *end;
    senna_written first, last;
    size_t length;
    int all = 1, last_of_page;
    if (pages == (uint8_t *)MAP_FAILED) {
        check(0, "three pages of memory");
        return;
    }
    middle = pages + page;
    end = middle + page;
    check(mprotect(pages, page, PROT_NONE) == 0, "a page before that may not be touched");
    check(mprotect(end, page, PROT_NONE) == 0, "a page after that may not be touched");
    for (length = 0; length < SENNA_MESSAGE_MAX; length++) {
        all &= senna_write_done(end - length, length, 1, 2, 3, 4).number == SENNA_LENGTH;
    }
    check(all, "every small buffer at the end of a page");
    first = senna_write_outcome(middle, SENNA_MESSAGE_MAX, 1, 2, 3, 4, entries(8, 5), 1);
    last = senna_write_outcome(end - SENNA_MESSAGE_MAX, SENNA_MESSAGE_MAX, 1, 2, 3, 4, entries(8, 5), 1);
    check_number(first.length, SENNA_MESSAGE_MAX, "the longest message at the start of a page");
    check_number(last.length, SENNA_MESSAGE_MAX, "the longest message at the end of a page");
    check_number(senna_blank_image(middle + 1001, SENNA_IMAGE), SENNA_OK, "a blank image at an odd address");
    check(mprotect(middle, page, PROT_READ) == 0, "a page that may only be read");
    check_number(senna_check_message(middle, SENNA_MESSAGE_MAX), SENNA_OK, "a message at the start of a page");
    check_number(senna_check_message(end - SENNA_MESSAGE_MAX, SENNA_MESSAGE_MAX), SENNA_OK, "a message at the end of a page");
    check_number(senna_check_image(middle + 1001, SENNA_IMAGE), SENNA_OK, "an image at an odd address");

    /* Messages cut short, each at the end of the page, so that what their counts promise is not there. */
    for (all = 1, length = SENNA_MESSAGE_MIN; length < SENNA_MESSAGE_MAX; length++) {
        all &= mprotect(middle, page, PROT_READ | PROT_WRITE) == 0;
        memcpy(end - length, middle, length);
        all &= mprotect(middle, page, PROT_READ) == 0;
        all &= senna_check_message(end - length, length) == SENNA_GARBLED;
    }
    check(all, "a message cut to every length at the end of a page");
    for (all = 1, length = 0; length < SENNA_MESSAGE_MIN; length++) {
        all &= senna_check_message(end - length, length) == SENNA_LENGTH;
        all &= senna_check_image(end - length, length) == SENNA_LENGTH;
        all &= senna_blank_image(end - length, length) == SENNA_LENGTH;
    }
    check(all, "messages and images too short at the end of a page that may only be read");

    for (last_of_page = 0; last_of_page < 2; last_of_page++) {
        uint8_t *at = last_of_page ? end - SENNA_IMAGE : middle;
        check(mprotect(middle, page, PROT_READ | PROT_WRITE) == 0, "the page may be written");
        check_number(senna_blank_image(at, SENNA_IMAGE), SENNA_OK, "a blank image at the start of a page, and at its end");
        check(mprotect(middle, page, PROT_READ) == 0, "the page may only be read");
        check_number(senna_check_image(at, SENNA_IMAGE), SENNA_OK, "an image at the start of a page, and at its end");
    }
    munmap(pages, 3 * page);
}

int main(void)
{
    setvbuf(stdout, NULL, _IOLBF, BUFSIZ);
    check_kinds();
    check_counts();
    check_longest();
    check_refusals();
    check_lengths();
    check_images();
    check_touches();
    return closing();
}
