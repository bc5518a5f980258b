/*
 * The replica, called through include/senna.h as a host would: one transaction on a blank image from its fetch to its done, with every byte
 * that changes written out here; two conflicting ones; every refusal. Also valid C++, which shows that the header is.
 */
#include "check.h"

static_assert(sizeof(senna_received) == 2 && offsetof(senna_received, length) == 1, "the layout that the library returns");

/* What every answer buffer is filled with before a call, and its size. */
enum { FILL = 0xa5, SIZE = 160 };

/* Where the parts of object 5 and of the owners 4 and 5 stand in an image. */
enum { OBJECT_5 = 1 + 22 * 5, OWNER_4 = 2818 + 9 * 4, OWNER_5 = 2818 + 9 * 5 };

/* The node under test, its image, what the image should be, and the answer. */
enum { ME = 7 };
static uint8_t image[SENNA_IMAGE];
static uint8_t expected[SENNA_IMAGE];
static uint8_t answer[SIZE];

static void check_number(unsigned got, unsigned number, const char *what)
{
    check(got == number, what);
    if (got != number) {
        printf("  got %u, expected %u\n", got, number);
    }
}

/* The answer buffer is these bytes and then as it was filled; the image is as expected. */
static void check_left(const uint8_t *bytes, size_t length, const char *what)
{
    size_t at;
    check(memcmp(answer, bytes, length) == 0, what);
    for (at = length; at < SIZE && answer[at] == FILL; at++) {
    }
    check(at == SIZE, what);
    check(memcmp(image, expected, SENNA_IMAGE) == 0, what);
    check_number(senna_check_image(image, SENNA_IMAGE), SENNA_OK, what);
}

/* A delivery that is answered with these bytes, or with none. */
static void deliver(const uint8_t *message, size_t length, const uint8_t *bytes, size_t answered, const char *what)
{
    senna_received got;
    check_number(senna_check_message(message, length), SENNA_OK, what);
    check_number(senna_replica_answers(image, SENNA_IMAGE, ME, message, length), answered > 0, what);
    memset(answer, FILL, SIZE);
    got = senna_replica_receive(image, SENNA_IMAGE, ME, message, length, answer, SIZE);
    check_number(got.number, SENNA_OK, what);
    check_number(got.length, (unsigned)answered, what);
    check_left(bytes, answered, what);
}

/* A delivery that is refused: nothing is foretold, and nothing changes. */
static void refuse(uint8_t *bytes, size_t image_length, unsigned me, const uint8_t *message, size_t length, size_t size, unsigned number,
                   const char *what)
{
    senna_received got;
    memset(answer, FILL, SIZE);
    got = senna_replica_receive(bytes, image_length, (uint8_t)me, message, length, answer, size);
    check_number(got.number, number, what);
    check_number(got.length, 0, what);
    check_left(answer, 0, what);
}

/* Object 5 read and written by owner 4: serial 2, stamp 9, version 0 found, new value -2. */
static const uint8_t fetch[] = {1, 4, 7, 4, 2, 0, 0, 0, 9, 0, 0, 0, 1, 5, 1, 0, 0, 0, 0, 0, 0, 0, 0, 0, 0, 0, 0, 0, 0};
static const uint8_t ask[] = {3, 4, 7, 4, 2, 0, 0, 0, 9, 0, 0, 0, 1, 5, 1, 0, 0, 0, 0, 0xfe, 255, 255, 255, 255, 255, 255, 255, 0, 0};
static const uint8_t commit[] = {5, 4, 7, 4, 2, 0, 0, 0, 9, 0, 0, 0, 1, 5, 1, 0, 0, 0, 0, 0xfe, 255, 255, 255, 255, 255, 255, 255, 0, 1, 1};
static const uint8_t aborts[] = {5, 4, 7, 4, 3, 0, 0, 0, 9, 0, 0, 0, 0, 0, 1, 0};
static const uint8_t copy[] = {2, 7, 4, 4, 2, 0, 0, 0, 9, 0, 0, 0, 1, 5, 1, 0, 0, 0, 0, 0, 0, 0, 0, 0, 0, 0, 0, 0, 0};
static const uint8_t yes[] = {4, 7, 4, 4, 2, 0, 0, 0, 9, 0, 0, 0, 0, 0, 1, 1};
static const uint8_t done[] = {6, 7, 4, 4, 2, 0, 0, 0, 9, 0, 0, 0, 0, 0, 0};
static const uint8_t done_3[] = {6, 7, 4, 4, 3, 0, 0, 0, 9, 0, 0, 0, 0, 0, 0};

static void begin_blank(void)
{
    check_number(senna_blank_image(image, SENNA_IMAGE), SENNA_OK, "blank");
    memcpy(expected, image, SENNA_IMAGE);
}

/* The whole life of one transaction. */
static void check_commit(void)
{
    static const uint8_t value[] = {0xfe, 255, 255, 255, 255, 255, 255, 255, 1, 0, 0, 0};
    begin_blank();
    expected[OWNER_4] = 2;
    expected[OWNER_4 + 4] = 1;
    expected[OWNER_4 + 5] = 9;
    expected[OBJECT_5 + 15] = 16;
    deliver(fetch, sizeof fetch, copy, sizeof copy, "a fetch lists the owner among the writers");
    deliver(fetch, sizeof fetch, copy, sizeof copy, "and again");
    refuse(image, SENNA_IMAGE, ME, commit, sizeof commit, SIZE, SENNA_OUT_OF_TURN, "a commit of a listed one");
    expected[OWNER_4 + 4] = 2;
    expected[OBJECT_5 + 15] = 0;
    expected[OBJECT_5 + 12] = 4;
    deliver(ask, sizeof ask, yes, sizeof yes, "yes holds the written copy");
    deliver(ask, sizeof ask, yes, sizeof yes, "yes again");
    deliver(fetch, sizeof fetch, answer, 0, "no copy once held");
    expected[OWNER_4 + 4] = 0;
    expected[OBJECT_5 + 12] = 255;
    memcpy(expected + OBJECT_5, value, sizeof value);
    expected[OBJECT_5 + 17] = 4;
    expected[OBJECT_5 + 18] = 2;
    deliver(commit, sizeof commit, done, sizeof done, "a commit takes value and version plus 1, and its name");
    deliver(commit, sizeof commit, done, sizeof done, "a late commit is done");
    deliver(ask, sizeof ask, answer, 0, "a late ask holds nothing");
    expected[OWNER_4] = 3;
    deliver(aborts, sizeof aborts, done_3, sizeof done_3, "an early abort makes its serial the last");
    deliver(ask, sizeof ask, answer, 0, "and what came before it is late");
}

/* Two equal stamps, owners 4 and 5: 4 is older. */
static void check_conflict(void)
{
    static const uint8_t fetch_5[] = {1, 5, 7, 5, 1, 0, 0, 0, 9, 0, 0, 0, 1, 5, 0, 0, 0, 0, 0, 0, 0, 0, 0, 0, 0, 0, 0, 0, 0};
    static const uint8_t copy_5[] = {2, 7, 5, 5, 1, 0, 0, 0, 9, 0, 0, 0, 1, 5, 0, 0, 0, 0, 0, 0, 0, 0, 0, 0, 0, 0, 0, 0, 0};
    static const uint8_t ask_5[] = {3, 5, 7, 5, 1, 0, 0, 0, 9, 0, 0, 0, 1, 5, 0, 0, 0, 0, 0, 0, 0, 0, 0, 0, 0, 0, 0, 0, 0};
    static const uint8_t no_5[] = {4, 7, 5, 5, 1, 0, 0, 0, 9, 0, 0, 0, 0, 0, 1, 0};
    static const uint8_t yes_over_5[] = {4, 7, 4, 4, 2, 0, 0, 0, 9, 0, 0, 0, 0, 1, 5, 1, 0, 0, 0, 1, 1};
    uint8_t both[SENNA_IMAGE];
    uint8_t both_expected[SENNA_IMAGE];
    begin_blank();
    expected[OWNER_4] = 2;
    expected[OWNER_4 + 4] = 1;
    expected[OWNER_4 + 5] = 9;
    expected[OBJECT_5 + 15] = 16;
    deliver(fetch, sizeof fetch, copy, sizeof copy, "4 would write");
    expected[OWNER_5] = 1;
    expected[OWNER_5 + 4] = 1;
    expected[OWNER_5 + 5] = 9;
    expected[OBJECT_5 + 13] = 32;
    deliver(fetch_5, sizeof fetch_5, copy_5, sizeof copy_5, "5 would read");
    memcpy(both, image, SENNA_IMAGE);
    memcpy(both_expected, expected, SENNA_IMAGE);
    expected[OWNER_5 + 4] = 3;
    expected[OBJECT_5 + 13] = 0;
    deliver(ask_5, sizeof ask_5, no_5, sizeof no_5, "the older writer stands against the reader");
    deliver(ask_5, sizeof ask_5, no_5, sizeof no_5, "no again");
    memcpy(image, both, SENNA_IMAGE);
    memcpy(expected, both_expected, SENNA_IMAGE);
    expected[OWNER_4 + 4] = 2;
    expected[OBJECT_5 + 12] = 4;
    expected[OBJECT_5 + 15] = 0;
    deliver(ask, sizeof ask, yes_over_5, sizeof yes_over_5, "the older one names the younger");
    expected[OWNER_5 + 4] = 3;
    expected[OBJECT_5 + 13] = 0;
    deliver(ask_5, sizeof ask_5, no_5, sizeof no_5, "a held copy is not read");
}

/* Every refusal, one at a time, and the lowest number of several. */
static void check_refusals(void)
{
    uint8_t message[SENNA_MESSAGE_MAX + 1];
    begin_blank();
    memset(message, 0, sizeof message);
    memcpy(message, fetch, sizeof fetch);
    refuse(image, SENNA_IMAGE, ME, fetch, sizeof fetch, SENNA_MESSAGE_MAX - 1, SENNA_LENGTH, "a buffer under 128");
    refuse(image, SENNA_IMAGE - 1, ME, fetch, sizeof fetch, SIZE, SENNA_LENGTH, "an image under 2935");
    refuse(image, SENNA_IMAGE_1527, ME, fetch, sizeof fetch, SIZE, SENNA_LENGTH, "an image of half the objects");
    refuse(image, SENNA_IMAGE_1207, ME, fetch, sizeof fetch, SIZE, SENNA_LENGTH, "an image of an older length");
    refuse(image, SENNA_IMAGE, ME, message, SENNA_MESSAGE_MIN - 1, SIZE, SENNA_LENGTH, "a message under 15");
    refuse(image, SENNA_IMAGE, ME, message, SENNA_MESSAGE_MAX + 1, SIZE, SENNA_LENGTH, "a message above 128");
    refuse(image, SENNA_IMAGE, ME, message, sizeof fetch + 1, SIZE, SENNA_GARBLED, "a byte left over");
    refuse(image, SENNA_IMAGE, ME + 1, fetch, sizeof fetch, SIZE, SENNA_STRANGER, "another node");
    refuse(image, SENNA_IMAGE, 255, fetch, sizeof fetch, SIZE, SENNA_STRANGER, "no node");
    refuse(image, SENNA_IMAGE, 4, copy, sizeof copy, SIZE, SENNA_OUT_OF_TURN, "a kind for the other end");
    refuse(image, SENNA_IMAGE, ME, copy, sizeof copy, SIZE, SENNA_STRANGER, "4 before 5");
    refuse(image, SENNA_IMAGE, ME, commit, sizeof commit, SIZE, SENNA_OUT_OF_TURN, "a commit above the last");
    check_number(senna_replica_answers(image, SENNA_IMAGE, ME, commit, sizeof commit), 0, "no answer foretold on a refusal");
    check_number(senna_replica_answers(image, SENNA_IMAGE - 1, ME, fetch, sizeof fetch), 0, "nor for another length");
}

/* A damaged image. */
static void check_damaged(void)
{
    senna_received got;
    begin_blank();
    image[OBJECT_5 + 12] = 3;
    memcpy(expected, image, SENNA_IMAGE);
    memset(answer, FILL, SIZE);
    got = senna_replica_receive(image, SENNA_IMAGE, ME, fetch, sizeof fetch - 1, answer, SIZE);
    check_number(got.number, SENNA_DAMAGED, "a holder who is over; 2 before 3");
    check_number(got.length, 0, "a holder who is over");
    check(memcmp(image, expected, SENNA_IMAGE) == 0 && answer[0] == FILL, "a holder who is over");
}

int main(void)
{
    check_commit();
    check_conflict();
    check_refusals();
    check_damaged();
    return closing();
}
