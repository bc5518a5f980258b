/*
 * The C functions for quorums, called through include/senna.h as a host would: the marked cases, the asker, every refusal, and that only the lent
 * bytes are touched. Also valid C++, which shows that the header is.
 */
#include "check.h"

static_assert(sizeof(senna_choice) == 8, "the layout that the library returns");
static_assert(offsetof(senna_choice, number) == 0, "the layout that the library returns");
static_assert(offsetof(senna_choice, mask) == 2, "the layout that the library returns");
static_assert(offsetof(senna_choice, sum) == 4, "the layout that the library returns");
static_assert(SENNA_DISTANCES == 2 * SENNA_NODES && SENNA_ALL == (1 << SENNA_NODES) - 1, "the sizes agree");

static void check_choice(senna_choice got, unsigned number, unsigned mask, unsigned sum, const char *what)
{
    int holds = got.number == number && got.mask == mask && got.sum == sum;
    check(holds, what);
    if (!holds) {
        printf("  got %u %u %lu, expected %u %u %u\n", got.number, got.mask, (unsigned long)got.sum, number, mask, sum);
    }
}

/* Thirteen distances of 1, but for node 0. */
static void fill(uint8_t *distances, unsigned root_distance)
{
    unsigned node;
    for (node = 0; node < SENNA_NODES; node++) {
        unsigned distance = node == 0 ? root_distance : 1;
        distances[2 * node] = (uint8_t)(distance % 256);
        distances[2 * node + 1] = (uint8_t)(distance / 256);
    }
}

static void check_numbers(void)
{
    static const int numbers[] = {SENNA_OK, SENNA_LENGTH, SENNA_DAMAGED, SENNA_GARBLED, SENNA_STRANGER, SENNA_OUT_OF_TURN,
                                  SENNA_NO_SUCH_OBJECT, SENNA_EIGHT_OPEN, SENNA_NO_QUORUM, SENNA_USED_UP, SENNA_BUSY,
                                  SENNA_NOT_READY, SENNA_POOL_FULL};
    int count = (int)(sizeof numbers / sizeof numbers[0]);
    int at;
    check(count == 13, "there are the numbers 0 to 12");
    for (at = 0; at < count; at++) {
        check(numbers[at] == at, "the numbers are 0 to 12, in this order");
    }
}

static void check_membership(void)
{
    check(senna_is_read_quorum(1) == 1, "the root is a read quorum");
    check(senna_is_read_quorum(6) == 1, "{1, 2} is a read quorum");
    check(senna_is_read_quorum(432) == 1, "{4, 5, 7, 8} is a read quorum");
    check(senna_is_read_quorum(2) == 0, "{1} is no read quorum");
    check(senna_is_read_quorum(0) == 0, "the empty set is no read quorum");
    check(senna_is_read_quorum(0xe000) == 0, "bits 13 to 15 make no read quorum");
    check(senna_is_read_quorum(0xe001) == 1, "bits 13 to 15 unmake no read quorum");
    check(senna_is_write_quorum(439) == 1, "{0, 1, 2, 4, 5, 7, 8} is a write quorum");
    check(senna_is_write_quorum(6925) == 1, "{0, 2, 3, 8, 9, 11, 12} is a write quorum");
    check(senna_is_write_quorum(438) == 0, "without the root there is no write quorum");
    check(senna_is_write_quorum(8190) == 0, "all but the root are no write quorum");
    check(senna_is_write_quorum(SENNA_ALL) == 1, "all nodes are a write quorum");
    check(senna_is_write_quorum(0) == 0, "the empty set is no write quorum");
    check(senna_is_write_quorum(0xe000) == 0, "bits 13 to 15 make no write quorum");
    check(senna_is_write_quorum(0xe000 | 439) == 1, "bits 13 to 15 unmake no write quorum");
}

/* Document 01's marked cases that are about quorums; they stand with asker 0. */
static void check_marked(void)
{
    uint8_t d[SENNA_DISTANCES];
    fill(d, 1);
    check_choice(senna_nearest_read(8191, d, sizeof d, 0), SENNA_OK, 1, 1, "all live, distances 1: read 1");
    check_choice(senna_nearest_write(8191, d, sizeof d, 0), SENNA_OK, 439, 7, "all live, distances 1: write 439");
    check_choice(senna_nearest_read(8190, d, sizeof d, 0), SENNA_OK, 6, 2, "live 8190: read 6");
    check_choice(senna_nearest_write(8190, d, sizeof d, 0), SENNA_NO_QUORUM, 0, 0, "live 8190: no write");
    check_choice(senna_nearest_read(8188, d, sizeof d, 0), SENNA_OK, 12, 2, "live 8188: read 12");
    check_choice(senna_nearest_read(8176, d, sizeof d, 0), SENNA_OK, 432, 4, "live 8176: read 432");
    check_choice(senna_nearest_write(8191 - 16 - 32, d, sizeof d, 0), SENNA_OK, 3469, 7, "nodes 4 and 5 down: write 3469");
    fill(d, 2);
    check_choice(senna_nearest_read(8191, d, sizeof d, 0), SENNA_OK, 1, 2, "distance 2 at node 0: read 1");
    fill(d, 9);
    check_choice(senna_nearest_read(8191, d, sizeof d, 0), SENNA_OK, 6, 2, "distance 9 at node 0: read 6");
    check_choice(senna_nearest_read(0, d, sizeof d, 0), SENNA_NO_QUORUM, 0, 0, "live 0: no read");
    check_choice(senna_nearest_write(0, d, sizeof d, 0), SENNA_NO_QUORUM, 0, 0, "live 0: no write");
}

/* Of equal sums a set with the asker comes first, then the lowest mask; never before a lesser sum. */
static void check_askers(void)
{
    static const unsigned reads[SENNA_NODES] = {6, 6, 6, 10, 6, 6, 6, 6, 6, 6, 6, 6, 6};
    static const unsigned writes[SENNA_NODES] = {439, 439, 439, 3131, 439, 439, 471, 439, 439, 695, 3131, 3131, 5179};
    uint8_t d[SENNA_DISTANCES];
    uint8_t asker;
    fill(d, 1);
    for (asker = 0; asker < SENNA_NODES; asker++) {
        check_choice(senna_nearest_read(8191, d, sizeof d, asker), SENNA_OK, 1, 1, "the root alone is nearer than any other set");
        check_choice(senna_nearest_read(8190, d, sizeof d, asker), SENNA_OK, reads[asker], 2, "the root off: of the halls the asker first");
        check_choice(senna_nearest_write(8191, d, sizeof d, asker), SENNA_OK, writes[asker], 7, "all live: a write quorum with the asker");
    }
    check_choice(senna_nearest_read(8190 - 8, d, sizeof d, 3), SENNA_OK, 6, 2, "the asker is not live");
    d[2 * 3] = 2;
    check_choice(senna_nearest_read(8190, d, sizeof d, 3), SENNA_OK, 6, 2, "the asker is farther");
    check_choice(senna_nearest_write(8191, d, sizeof d, 3), SENNA_OK, 439, 7, "the asker is farther");
}

/* The low byte of a distance comes first, and a sum goes beyond 16 bits. */
static void check_bytes(void)
{
    uint8_t d[SENNA_DISTANCES];
    fill(d, 256);
    check_choice(senna_nearest_read(1, d, sizeof d, 0), SENNA_OK, 1, 256, "distance 256 is the bytes 0 and 1");
    memset(d, 255, sizeof d);
    check_choice(senna_nearest_read(8190, d, sizeof d, 0), SENNA_OK, 6, 2 * 65535, "the greatest distances: read 6");
    check_choice(senna_nearest_write(8191, d, sizeof d, 0), SENNA_OK, 439, 7 * 65535, "the greatest distances: write 439");
}

/* Each number, and that the lowest that fits is given. */
static void check_refusals(void)
{
    uint8_t d[64];
    size_t length;
    unsigned live, asker;
    memset(d, 0, sizeof d);
    for (length = 0; length <= sizeof d; length++) {
        if (length == SENNA_DISTANCES) {
            continue;
        }
        check_choice(senna_nearest_read(SENNA_ALL, d, length, 0), SENNA_LENGTH, 0, 0, "another length: read");
        check_choice(senna_nearest_write(SENNA_ALL, d, length, 0), SENNA_LENGTH, 0, 0, "another length: write");
        check_choice(senna_nearest_read(65535, d, length, 0), SENNA_LENGTH, 0, 0, "another length goes before a stranger: read");
        check_choice(senna_nearest_write(65535, d, length, 0), SENNA_LENGTH, 0, 0, "another length goes before a stranger: write");
        check_choice(senna_nearest_read(SENNA_ALL, d, length, 13), SENNA_LENGTH, 0, 0, "another length goes before an asker that is no node: read");
        check_choice(senna_nearest_write(SENNA_ALL, d, length, 255), SENNA_LENGTH, 0, 0, "another length goes before an asker that is no node: write");
        check_choice(senna_nearest_read(0, d, length, 0), SENNA_LENGTH, 0, 0, "another length goes before no quorum: read");
        check_choice(senna_nearest_write(0, d, length, 0), SENNA_LENGTH, 0, 0, "another length goes before no quorum: write");
    }
    for (live = SENNA_ALL + 1; live <= 65535; live += 4095) {
        check_choice(senna_nearest_read((uint16_t)live, d, SENNA_DISTANCES, 0), SENNA_STRANGER, 0, 0, "a mask above 8191: read");
        check_choice(senna_nearest_write((uint16_t)live, d, SENNA_DISTANCES, 0), SENNA_STRANGER, 0, 0, "a mask above 8191: write");
    }
    check_choice(senna_nearest_read(8192, d, SENNA_DISTANCES, 0), SENNA_STRANGER, 0, 0, "a stranger goes before no quorum: read");
    check_choice(senna_nearest_write(8192, d, SENNA_DISTANCES, 0), SENNA_STRANGER, 0, 0, "a stranger goes before no quorum: write");
    for (asker = SENNA_NODES; asker <= 255; asker++) {
        check_choice(senna_nearest_read(SENNA_ALL, d, SENNA_DISTANCES, (uint8_t)asker), SENNA_STRANGER, 0, 0, "an asker above 12: read");
        check_choice(senna_nearest_write(SENNA_ALL, d, SENNA_DISTANCES, (uint8_t)asker), SENNA_STRANGER, 0, 0, "an asker above 12: write");
        check_choice(senna_nearest_read(0, d, SENNA_DISTANCES, (uint8_t)asker), SENNA_STRANGER, 0, 0, "such an asker goes before no quorum: read");
        check_choice(senna_nearest_write(0, d, SENNA_DISTANCES, (uint8_t)asker), SENNA_STRANGER, 0, 0, "such an asker goes before no quorum: write");
    }
}

/*
 * The distances at the end and then at the start of a page that may only be read, between pages that may not be touched: a write, or a
 * read beyond the lent bytes, ends this program, which counts as a failure. The end of the page has them at an odd address.
 */
static void check_touches(void)
{
    size_t page = (size_t)sysconf(_SC_PAGESIZE);
    uint8_t *pages = (uint8_t *)mmap(NULL, 3 * page, PROT_READ | PROT_WRITE, MAP_PRIVATE | MAP_ANONYMOUS, -1, 0);
    uint8_t *middle;
    size_t length;
    if (pages == (uint8_t *)MAP_FAILED) {
        check(0, "three pages of memory");
        return;
    }
    middle = pages + page;
    fill(middle, 1);
    fill(middle + page - SENNA_DISTANCES, 1);
    fill(middle + 101, 1);
    check(mprotect(pages, page, PROT_NONE) == 0, "a page before that may not be touched");
    check(mprotect(middle, page, PROT_READ) == 0, "a page that may only be read");
    check(mprotect(middle + page, page, PROT_NONE) == 0, "a page after that may not be touched");
    check_choice(senna_nearest_read(8190, middle, SENNA_DISTANCES, 0), SENNA_OK, 6, 2, "read at the start of a page");
    check_choice(senna_nearest_write(8191, middle, SENNA_DISTANCES, 0), SENNA_OK, 439, 7, "write at the start of a page");
    check_choice(senna_nearest_read(8190, middle + page - SENNA_DISTANCES, SENNA_DISTANCES, 0), SENNA_OK, 6, 2, "read at the end of a page");
    check_choice(senna_nearest_write(8191, middle + page - SENNA_DISTANCES, SENNA_DISTANCES, 0), SENNA_OK, 439, 7,
                 "write at the end of a page");
    check_choice(senna_nearest_read(8190, middle + 101, SENNA_DISTANCES, 0), SENNA_OK, 6, 2, "read at an odd address");
    check_choice(senna_nearest_write(8191, middle + 101, SENNA_DISTANCES, 0), SENNA_OK, 439, 7, "write at an odd address");
    for (length = 0; length < SENNA_DISTANCES; length++) {
        const uint8_t *last = middle + page - length;
        check_choice(senna_nearest_read(8191, last, length, 0), SENNA_LENGTH, 0, 0, "too short at the end of a page: read");
        check_choice(senna_nearest_write(8191, last, length, 0), SENNA_LENGTH, 0, 0, "too short at the end of a page: write");
    }
    munmap(pages, 3 * page);
}

int main(void)
{
    setvbuf(stdout, NULL, _IOLBF, BUFSIZ);
    check_numbers();
    check_membership();
    check_marked();
    check_askers();
    check_bytes();
    check_refusals();
    check_touches();
    return closing();
}
