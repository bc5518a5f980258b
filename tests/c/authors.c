/*
 * Who wrote last, called through include/senna.h as a host would: one booking on a blank image, whose author is looked at after each of its messages;
 * images of both older lengths that are taken in, with every byte written out here; damaged ones, and other lengths, of which no byte is altered.
 */
#include "check.h"

static_assert(sizeof(senna_author) == 8 && offsetof(senna_author, owner) == 1 && offsetof(senna_author, serial) == 4,
              "the layout that the library returns");
static_assert(SENNA_IMAGE_1207 == 1 + 17 * 64 + 1 + 9 * SENNA_NODES && SENNA_IMAGE_1527 == 1 + 22 * 64 + 1 + 9 * SENNA_NODES, "the sizes agree");

enum { ME = 7, OBJECT = 5, FILL = 0xa5 };

/* Where a copy's fields stand, and where the owners begin. An older image has OLD_OBJECTS copies. */
enum { VERSION = 8, HOLDER = 12, WRITERS = 15, AUTHOR = 17, COPY = 22, OWNERS = 2818, OLD_OBJECTS = 64 };

static uint8_t image[SENNA_IMAGE];
static uint8_t answer[SENNA_MESSAGE_MAX];
static uint8_t expected[SENNA_IMAGE];

/* The older image, its length, the bytes of its copies, and where its owners begin: of the first release, or with authors. */
static uint8_t old[SENNA_IMAGE_1527];
static size_t old_length;
static unsigned old_copy, old_owners;

static void choose(int with_authors)
{
    old_length = with_authors ? SENNA_IMAGE_1527 : SENNA_IMAGE_1207;
    old_copy = with_authors ? 22 : 17;
    old_owners = with_authors ? 1410 : 1090;
}

/* The object's last writer, by the call and by the bytes themselves. */
static void author_is(unsigned object, unsigned owner, uint32_t serial, const char *what)
{
    senna_author got = senna_image_author(image, SENNA_IMAGE, (uint8_t)object);
    const uint8_t *at = image + 1 + COPY * object + AUTHOR;
    uint32_t stored = (uint32_t)at[1] | (uint32_t)at[2] << 8 | (uint32_t)at[3] << 16 | (uint32_t)at[4] << 24;
    check(got.number == SENNA_OK && got.owner == owner && got.serial == serial, what);
    check(at[0] == owner && stored == serial, what);
}

static void author_refused(size_t length, unsigned object, unsigned number, const char *what)
{
    senna_author got = senna_image_author(image, length, (uint8_t)object);
    check(got.number == number && got.owner == 0 && got.serial == 0, what);
}

/* A message to this node is taken, and answered with this kind. */
static void deliver(const uint8_t *message, senna_written written, unsigned kind, const char *what)
{
    senna_received got = senna_replica_receive(image, SENNA_IMAGE, ME, message, written.length, answer, sizeof answer);
    check(written.number == SENNA_OK && got.number == SENNA_OK && got.length > 0 && answer[SENNA_KIND_AT] == kind, what);
}

static senna_entries writes(unsigned object, uint32_t version, int64_t value)
{
    senna_entries e;
    memset(&e, 0, sizeof e);
    e.entry[0] = entry(object, SENNA_WRITE, version, value);
    e.count = 1;
    return e;
}

/* One booking of an owner that writes an object, up to its vote; the outcome is then sent by the caller. */
static void book(unsigned owner, uint32_t serial, senna_entries e)
{
    uint8_t m[SENNA_MESSAGE_MAX];
    uint8_t o = (uint8_t)owner, object = e.entry[0].object;
    deliver(m, senna_write_fetch(m, sizeof m, ME, o, serial, serial, object, SENNA_WRITE), SENNA_COPY, "a fetch");
    deliver(m, senna_write_ask(m, sizeof m, ME, o, serial, serial, e), SENNA_VOTE, "an ask");
}

static void settle(unsigned owner, uint32_t serial, senna_entries e, unsigned word)
{
    uint8_t m[SENNA_MESSAGE_MAX];
    deliver(m, senna_write_outcome(m, sizeof m, ME, (uint8_t)owner, serial, serial, e, (uint8_t)word), SENNA_DONE, "an outcome");
}

/* A booking step by step, one that is given up, and one by another owner. */
static void check_bookings(void)
{
    senna_entries none = writes(OBJECT, 0, 0), two;
    unsigned object;
    none.count = 0;
    check(senna_blank_image(image, SENNA_IMAGE) == SENNA_OK, "blank");
    for (object = 0; object < SENNA_OBJECTS; object++) {
        author_is(object, SENNA_NOBODY, 0, "blank is written by nobody");
    }
    book(4, 70000, writes(OBJECT, 0, 300));
    author_is(OBJECT, SENNA_NOBODY, 0, "a fetch and a yes write nothing");
    settle(4, 70000, writes(OBJECT, 0, 300), SENNA_COMMIT);
    author_is(OBJECT, 4, 70000, "a commit writes its name");
    author_is(OBJECT - 1, SENNA_NOBODY, 0, "and to no copy beside it");
    author_is(OBJECT + 1, SENNA_NOBODY, 0, "on either side");
    book(12, 1, writes(OBJECT, 1, 500));
    settle(12, 1, none, SENNA_ABORT);
    author_is(OBJECT, 4, 70000, "an abort leaves the name");
    book(12, 2, writes(OBJECT, 1, 500));
    settle(12, 2, writes(OBJECT, 1, 500), SENNA_COMMIT);
    author_is(OBJECT, 12, 2, "the last writer's name");
    settle(4, 70000, writes(OBJECT, 0, 300), SENNA_COMMIT);
    author_is(OBJECT, 12, 2, "a late commit writes nothing");
    book(8, 3, writes(OBJECT, 2, 600));
    two = writes(OBJECT, 2, 600);
    two.entry[1] = entry(OBJECT + 2, SENNA_WRITE, 0, 600);
    two.count = 2;
    settle(8, 3, two, SENNA_COMMIT);
    author_is(OBJECT, 8, 3, "a commit of two writes both names");
    author_is(OBJECT + 2, 8, 3, "also where its owner does not hold the copy");
    author_refused(SENNA_IMAGE - 1, OBJECT, SENNA_LENGTH, "a byte short");
    author_refused(SENNA_IMAGE_1207, OBJECT, SENNA_LENGTH, "the first length");
    author_refused(SENNA_IMAGE_1527, OBJECT, SENNA_LENGTH, "the second length");
    book(9, 1, writes(127, 0, 4));
    settle(9, 1, writes(127, 0, 4), SENNA_COMMIT);
    author_is(127, 9, 1, "the last object's name");
    author_refused(SENNA_IMAGE, 128, SENNA_NO_SUCH_OBJECT, "object 128");
    author_refused(SENNA_IMAGE, 255, SENNA_NO_SUCH_OBJECT, "object 255");
    author_refused(0, 255, SENNA_LENGTH, "1 before 6");
    image[1 + COPY * 126 + AUTHOR] = 13;
    author_refused(SENNA_IMAGE, OBJECT, SENNA_DAMAGED, "another copy is damaged");
    image[1 + COPY * 126 + AUTHOR + 4] = 1;
    author_refused(SENNA_IMAGE, OBJECT, SENNA_DAMAGED, "author 13 with a serial");
    image[1 + COPY * 126 + AUTHOR] = 253;
    author_refused(SENNA_IMAGE, OBJECT, SENNA_DAMAGED, "author 253 with a serial");
    author_refused(SENNA_IMAGE, SENNA_OBJECTS, SENNA_DAMAGED, "2 before 6");
}

/* An older image: object 5 has value -2 and version 256, owner 3 is held and holds object 63 at version 0, owner 12 is listed. With authors, object 5 was
   written last by transaction 8 of node 2. */
static void make_old(void)
{
    static const uint8_t value[] = {0xfe, 255, 255, 255, 255, 255, 255, 255, 0, 1, 0, 0};
    unsigned object;
    memset(old, 0, sizeof old);
    old[0] = OLD_OBJECTS;
    old[old_owners - 1] = SENNA_NODES;
    for (object = 0; object < OLD_OBJECTS; object++) {
        uint8_t *copy = old + 1 + old_copy * object;
        copy[HOLDER] = SENNA_NOBODY;
        if (old_copy > AUTHOR) {
            copy[AUTHOR] = object == OBJECT ? 2 : SENNA_NOBODY;
            copy[AUTHOR + 1] = object == OBJECT ? 8 : 0;
        }
    }
    memcpy(old + 1 + old_copy * OBJECT, value, sizeof value);
    old[1 + old_copy * OBJECT + WRITERS + 1] = 16;
    old[1 + old_copy * 63 + HOLDER] = 3;
    old[old_owners + 9 * 3] = old[old_owners + 9 * 3 + 5] = 1;
    old[old_owners + 9 * 3 + 4] = 2;
    old[old_owners + 9 * 12 + 3] = old[old_owners + 9 * 12 + 8] = 1;
    old[old_owners + 9 * 12 + 4] = 1;
}

/* What it must become: the objects that it does not have are blank. */
static void make_expected(void)
{
    unsigned object;
    memset(expected, 0, sizeof expected);
    expected[0] = SENNA_OBJECTS;
    expected[OWNERS - 1] = SENNA_NODES;
    for (object = 0; object < SENNA_OBJECTS; object++) {
        uint8_t *copy = expected + 1 + COPY * object;
        copy[HOLDER] = SENNA_NOBODY;
        copy[AUTHOR] = object == OBJECT ? SENNA_UNKNOWN : SENNA_NOBODY;
        if (object < OLD_OBJECTS) {
            memcpy(copy, old + 1 + old_copy * object, old_copy);
        }
    }
    memcpy(expected + OWNERS, old + old_owners, 9 * SENNA_NODES);
}

static void check_taken_in(int with_authors)
{
    uint8_t before[sizeof old];
    unsigned owner = with_authors ? 2 : SENNA_UNKNOWN, serial = with_authors ? 8 : 0;
    choose(with_authors);
    make_old();
    make_expected();
    memcpy(before, old, sizeof old);
    memset(image, FILL, sizeof image);
    check(senna_take_in(old, old_length, image, sizeof image) == SENNA_OK, "an older image is taken in");
    check(memcmp(image, expected, sizeof image) == 0, "every byte of what it becomes");
    check(memcmp(old, before, sizeof old) == 0, "the older image is as it was");
    check(senna_check_image(image, sizeof image) == SENNA_OK, "what it becomes is an image");
    author_is(OBJECT, owner, serial, "who wrote it is as it was, or unknown");
    author_is(0, SENNA_NOBODY, 0, "nobody wrote it");
    author_is(63, SENNA_NOBODY, 0, "held, and written by nobody");
    author_is(64, SENNA_NOBODY, 0, "an object that is new");
    author_is(127, SENNA_NOBODY, 0, "the last one that is new");
    settle(3, 1, writes(63, 0, 9), SENNA_COMMIT);
    author_is(63, 3, 1, "what was held is committed: the first name");
    book(6, 1, writes(OBJECT, 256, 9));
    author_is(OBJECT, owner, serial, "still as it was");
    settle(6, 1, writes(OBJECT, 256, 9), SENNA_COMMIT);
    author_is(OBJECT, 6, 1, "the next commit tells who");
    book(6, 2, writes(64, 0, 9));
    settle(6, 2, writes(64, 0, 9), SENNA_COMMIT);
    author_is(64, 6, 2, "a new object is booked");
}

/* A refusal: this number, and every byte stays. */
static void not_taken(size_t lent, size_t length, unsigned number, const char *what)
{
    static uint8_t from[SENNA_IMAGE + 1], to[SENNA_IMAGE + 1];
    size_t at;
    memset(from, 0, sizeof from);
    memcpy(from, old, sizeof old);
    memset(to, FILL, sizeof to);
    check(senna_take_in(from, lent, to, length) == number, what);
    for (at = 0; at < sizeof to && to[at] == FILL; at++) {
    }
    check(at == sizeof to && memcmp(from, old, sizeof old) == 0, "a refusal leaves every byte");
}

static void check_refusals(int with_authors)
{
    size_t length;
    choose(with_authors);
    make_old();
    for (length = 0; length <= SENNA_IMAGE + 1; length++) {
        if (length != SENNA_IMAGE_1207 && length != SENNA_IMAGE_1527) {
            not_taken(length, SENNA_IMAGE, SENNA_LENGTH, "another length of the older image");
        }
        if (length != SENNA_IMAGE) {
            not_taken(old_length, length, SENNA_LENGTH, "another length of the image");
        }
    }
    not_taken(with_authors ? SENNA_IMAGE_1207 : SENNA_IMAGE_1527, SENNA_IMAGE, SENNA_DAMAGED, "as long as the other older image");
    old[0] = SENNA_OBJECTS;
    not_taken(old_length, SENNA_IMAGE, SENNA_DAMAGED, "the present count");
    old[0] = 63;
    not_taken(old_length, SENNA_IMAGE, SENNA_DAMAGED, "count 63");
    not_taken(old_length, SENNA_IMAGE - 1, SENNA_LENGTH, "1 before 2");
    make_old();
    old[old_owners - 1] = 12;
    not_taken(old_length, SENNA_IMAGE, SENNA_DAMAGED, "count 12");
    make_old();
    old[1 + old_copy * 7 + HOLDER] = 13;
    not_taken(old_length, SENNA_IMAGE, SENNA_DAMAGED, "holder 13");
    old[1 + old_copy * 7 + HOLDER] = SENNA_UNKNOWN;
    not_taken(old_length, SENNA_IMAGE, SENNA_DAMAGED, "an unknown holder");
    old[1 + old_copy * 7 + HOLDER] = 0;
    not_taken(old_length, SENNA_IMAGE, SENNA_DAMAGED, "a holder who is over");
    make_old();
    old[1 + old_copy * 63 + WRITERS + 1] = 32;
    not_taken(old_length, SENNA_IMAGE, SENNA_DAMAGED, "writers above 8191");
    make_old();
    old[old_owners + 9 * 12 + 4] = 3;
    not_taken(old_length, SENNA_IMAGE, SENNA_DAMAGED, "a writer who is refused");
    make_old();
    old[old_owners + 9 * 0 + 5] = 1;
    not_taken(old_length, SENNA_IMAGE, SENNA_DAMAGED, "a stamp with serial 0");
    make_old();
    old[1 + old_copy * OBJECT + VERSION + 3] = 255;
    check(senna_take_in(old, old_length, image, sizeof image) == SENNA_OK, "any version");
    if (with_authors) {
        old[1 + old_copy * 63 + AUTHOR] = 13;
        not_taken(old_length, SENNA_IMAGE, SENNA_DAMAGED, "author 13");
        old[1 + old_copy * 63 + AUTHOR] = 12;
        not_taken(old_length, SENNA_IMAGE, SENNA_DAMAGED, "author 12 with serial 0");
        old[1 + old_copy * 63 + AUTHOR + 4] = 1;
        check(senna_take_in(old, old_length, image, sizeof image) == SENNA_OK, "author 12 with a serial");
    }
}

int main(void)
{
    check_bookings();
    check_taken_in(0);
    check_taken_in(1);
    check_refusals(0);
    check_refusals(1);
    return closing();
}
