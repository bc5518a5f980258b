/*
 * The C functions for a coordinator's record, called through include/senna.h as a host would: one transaction from begin to the last done, with
 * the answers of the other nodes written by the library's own writers; the refusals on the way; which timestamps are taken after each cause of an
 * abort; damaged bytes; and that a refusal leaves them.
 */
#include "check.h"

static_assert(sizeof(senna_called) == 16 && offsetof(senna_called, answer) == 8, "the layout that the library returns");
static_assert(sizeof(senna_value) == 16 && offsetof(senna_value, value) == 8, "the layout that the library returns");
static_assert(SENNA_RECORD == 12 + 2 * SENNA_NODES + 5 + 25 * SENNA_ENTRIES + 6 + 4 * SENNA_NODES, "the sizes agree");

/* The participants are chosen by node 3: 0, 1, 4, 5, itself, 10 and 11. */
enum { ME = 3, OBJECT = 127, OTHER = 7, PARTY = 3131, LAST = 11 };

static uint8_t record[SENNA_RECORD];
static uint8_t before[SENNA_RECORD];
static uint8_t settings[SENNA_SETTINGS]; /* blank: all hours are open, no batch; hours.c and classes.c have the others */
static uint8_t message[SENNA_MESSAGE_MAX];
static uint8_t distances[SENNA_DISTANCES];

static void refused(senna_called got, unsigned number, const char *what)
{
    check(got.number == number && got.answer == 0, what);
    check(memcmp(record, before, sizeof record) == 0, "a refusal leaves every byte");
}

static void taken(senna_called got, uint64_t answer, const char *what)
{
    check(got.number == SENNA_OK && got.answer == answer, what);
    check(senna_check_record(record, sizeof record) == SENNA_OK, "a record stays one");
    memcpy(before, record, sizeof record);
}

static senna_called begin(unsigned me, unsigned live, size_t size, uint32_t timestamp)
{
    return senna_coordinator_begin(record, sizeof record, settings, sizeof settings, (uint8_t)me, (uint16_t)live, distances, size, timestamp, 9, 10079);
}

static senna_called deliver(senna_written w)
{
    check(w.number == SENNA_OK, "the answer is written");
    return senna_coordinator_receive(record, sizeof record, ME, message, w.length);
}

static senna_written due(unsigned node, unsigned object)
{
    memset(message, 0xa5, sizeof message);
    return senna_coordinator_due(record, sizeof record, ME, (uint8_t)node, (uint8_t)object, message, sizeof message);
}

/* One transaction that reads one object and writes another, with node 0 as the read quorum. */
static void one_transaction(void)
{
    senna_serials rivals;
    unsigned node;
    senna_value found;
    memset(&rivals, 0, sizeof rivals);
    check(senna_blank_record(record, sizeof record) == SENNA_OK, "a blank record");
    memcpy(before, record, sizeof record);
    check(senna_blank_settings(settings, sizeof settings) == SENNA_OK, "blank settings");
    refused(begin(ME, SENNA_ALL, 25, 5), SENNA_LENGTH, "25 bytes of distances");
    refused(begin(13, SENNA_ALL, sizeof distances, 5), SENNA_STRANGER, "node 13");
    refused(begin(ME, 0, sizeof distances, 5), SENNA_NO_QUORUM, "nobody is live");
    taken(begin(ME, SENNA_ALL, sizeof distances, 5), 1, "begin chooses the root");
    refused(begin(ME, SENNA_ALL, sizeof distances, 9), SENNA_BUSY, "a second begin");
    refused(senna_coordinator_request_commit(record, sizeof record, settings, sizeof settings, ME), SENNA_NOT_READY, "no object yet");
    taken(senna_coordinator_open_write(record, sizeof record, settings, sizeof settings, ME, OBJECT), 0, "open to write");
    taken(senna_coordinator_open_read(record, sizeof record, settings, sizeof settings, ME, OTHER), 0, "open to read");
    refused(senna_coordinator_open_read(record, sizeof record, settings, sizeof settings, ME, OBJECT), SENNA_NO_SUCH_OBJECT, "opened twice");
    refused(senna_coordinator_open_read(record, sizeof record, settings, sizeof settings, ME, 128), SENNA_NO_SUCH_OBJECT, "object 128 to read");
    refused(senna_coordinator_open_write(record, sizeof record, settings, sizeof settings, ME, 255), SENNA_NO_SUCH_OBJECT, "object 255 to write");
    refused(senna_coordinator_set_value(record, sizeof record, settings, sizeof settings, ME, 128, 1), SENNA_NO_SUCH_OBJECT, "a value of object 128");
    refused(senna_coordinator_set_value(record, sizeof record, settings, sizeof settings, ME, OTHER, 1), SENNA_NO_SUCH_OBJECT, "a value set on a read");
    taken(senna_coordinator_set_value(record, sizeof record, settings, sizeof settings, ME, OBJECT, -6), 0, "a new value");
    check(senna_coordinator_count(record, sizeof record) == 2, "two objects");
    check(senna_coordinator_object(record, sizeof record, 0) == OBJECT && senna_coordinator_mode(record, sizeof record, 0) == 1, "the first");
    check(senna_coordinator_is_ready(record, sizeof record, 0) == 0, "not ready yet");
    check(due(0, OBJECT).length == 29 && message[0] == 1 && message[2] == 0 && message[13] == OBJECT && message[14] == 1, "a fetch to the root");
    check(due(1, OBJECT).length == 0 && message[0] == 0xa5, "nothing is due to another");
    taken(deliver(senna_write_copy(message, sizeof message, 0, ME, 1, 5, entry(OBJECT, 1, 8, -90))), SENNA_READY, "the copy makes it ready");
    taken(deliver(senna_write_copy(message, sizeof message, 0, ME, 1, 5, entry(OTHER, 0, 2, 11))), SENNA_READY, "and the other");
    taken(deliver(senna_write_copy(message, sizeof message, 0, ME, 1, 5, entry(OBJECT, 1, 9, 0))), SENNA_NOTHING, "a late copy changes nothing");
    found = senna_coordinator_found(record, sizeof record, ME, OBJECT);
    check(found.number == SENNA_OK && found.value == -90, "the value found");
    check(memcmp(record, before, sizeof record) == 0, "found leaves every byte");
    taken(senna_coordinator_request_commit(record, sizeof record, settings, sizeof settings, ME), PARTY, "the participants");
    check(senna_coordinator_participants(record, sizeof record) == PARTY, "and they are kept");
    check(due(0, 0).length == 43 && message[0] == 3 && message[12] == 2 && message[13] == OTHER && message[27] == OBJECT, "an ask, ascending");
    check(message[29] == 8 && message[33] == 0xfa && message[40] == 0xff, "with the version found and the new value");
    rivals.serial[6] = 77;
    for (node = 0; node < SENNA_NODES; node++) {
        if ((PARTY >> node) % 2 == 1) {
            taken(deliver(senna_write_vote(message, sizeof message, (uint8_t)node, ME, 1, 5, rivals, 1)),
                  node == LAST ? SENNA_COMMITTED : SENNA_NOTHING, "a yes");
        }
    }
    check(due(0, 0).length == 44 && message[0] == 5 && message[43] == 1, "a commit with the entries");
    check(due(6, 0).length == 20 && message[0] == 7 && message[14] == 6 && message[15] == 77, "a yield to the rival's owner");
    for (node = 0; node < SENNA_NODES; node++) {
        if ((PARTY >> node) % 2 == 1) {
            taken(deliver(senna_write_done(message, sizeof message, (uint8_t)node, ME, 1, 5)), node == LAST ? SENNA_FINISHED : SENNA_NOTHING, "a done");
        }
    }
    check(senna_coordinator_phase(record, sizeof record) == SENNA_IDLE, "idle again");
    check(senna_coordinator_outcome(record, sizeof record) == SENNA_COMMITTED, "committed");
    check(senna_coordinator_serial(record, sizeof record) == 1 && senna_coordinator_timestamp(record, sizeof record) == 5, "the lasting part");
    refused(begin(ME, SENNA_ALL, sizeof distances, 5), SENNA_OUT_OF_TURN, "the same timestamp");
}

/* What aborts a transaction. */
enum cause { GIVEN_UP_AT_ONCE, GIVEN_UP, A_YIELD, A_NO, CAUSES };

/* The transaction under way, which has just begun, is aborted and brought to its last done. */
static void sent_back(unsigned cause, uint32_t serial, uint32_t timestamp)
{
    senna_serials none;
    unsigned node, told = cause == A_NO ? PARTY : 1;
    memset(&none, 0, sizeof none);
    if (cause == GIVEN_UP_AT_ONCE) {
        taken(senna_coordinator_abort(record, sizeof record, ME), 0, "given up, with nobody contacted");
        return;
    }
    taken(senna_coordinator_open_write(record, sizeof record, settings, sizeof settings, ME, OBJECT), 0, "open to write");
    if (cause == GIVEN_UP) {
        taken(senna_coordinator_abort(record, sizeof record, ME), 0, "given up, with the root contacted");
    } else if (cause == A_YIELD) {
        taken(deliver(senna_write_yield(message, sizeof message, 8, 1, 1, ME, serial)), SENNA_ABORTED, "a yield");
    } else {
        taken(senna_coordinator_set_value(record, sizeof record, settings, sizeof settings, ME, OBJECT, 1), 0, "a new value");
        taken(deliver(senna_write_copy(message, sizeof message, 0, ME, serial, timestamp, entry(OBJECT, 1, 8, 0))), SENNA_READY, "its copy");
        taken(senna_coordinator_request_commit(record, sizeof record, settings, sizeof settings, ME), PARTY, "the participants");
        taken(deliver(senna_write_vote(message, sizeof message, 0, ME, serial, timestamp, none, 0)), SENNA_ABORTED, "a no");
    }
    refused(begin(ME, SENNA_ALL, sizeof distances, timestamp), SENNA_BUSY, "not before the last done");
    for (node = 0; node < SENNA_NODES; node++) {
        if ((told >> node) % 2 == 1) {
            taken(deliver(senna_write_done(message, sizeof message, (uint8_t)node, ME, serial, timestamp)), told >> node == 1 ? SENNA_FINISHED : SENNA_NOTHING,
                  "a done");
        }
    }
}

/* After an abort, whatever the cause, the last timestamp is taken again and a lower one is not; late messages of an earlier try do nothing to a later one.
   The record is that of the transaction above: its serial is 1, its timestamp 5, and it was committed. */
static void turns(void)
{
    uint32_t serial = 2;
    unsigned cause;
    refused(begin(ME, SENNA_ALL, sizeof distances, 0), SENNA_OUT_OF_TURN, "no timestamp is 0, after a commit");
    taken(begin(ME, SENNA_ALL, sizeof distances, 7), 1, "a later timestamp");
    for (cause = 0; cause < CAUSES; cause++, serial++) {
        sent_back(cause, serial, 7);
        check(senna_coordinator_phase(record, sizeof record) == SENNA_IDLE, "idle again");
        check(senna_coordinator_outcome(record, sizeof record) == SENNA_ABORTED && senna_coordinator_timestamp(record, sizeof record) == 7, "sent back");
        refused(begin(ME, SENNA_ALL, sizeof distances, 0), SENNA_OUT_OF_TURN, "no timestamp is 0, after an abort");
        refused(begin(ME, SENNA_ALL, sizeof distances, 6), SENNA_OUT_OF_TURN, "one below the last");
        taken(begin(ME, SENNA_ALL, sizeof distances, 7), 1, "the last timestamp again");
        check(senna_coordinator_serial(record, sizeof record) == serial + 1, "with a serial of its own");
        taken(deliver(senna_write_yield(message, sizeof message, 8, 1, 1, ME, serial)), SENNA_NOTHING, "a yield to the try before");
    }
    taken(senna_coordinator_abort(record, sizeof record, ME), 0, "given up");
    taken(begin(ME, SENNA_ALL, sizeof distances, 8), 1, "or one above the last");
    senna_blank_record(record, sizeof record);
    memcpy(before, record, sizeof record);
    refused(begin(ME, SENNA_ALL, sizeof distances, 0), SENNA_OUT_OF_TURN, "no timestamp is 0, at first");
}

/* Bytes that are no record. */
static void damaged(void)
{
    senna_blank_record(record, sizeof record);
    check(senna_check_record(record, sizeof record - 1) == SENNA_LENGTH, "a byte less");
    record[9] = 4;
    memcpy(before, record, sizeof record);
    check(senna_check_record(record, sizeof record) == SENNA_DAMAGED, "a phase above 3");
    refused(senna_coordinator_abort(record, sizeof record, ME), SENNA_DAMAGED, "a damaged record");
    refused(senna_coordinator_receive(record, sizeof record, ME, message, 14), SENNA_LENGTH, "a short message to a damaged record");
    refused(senna_coordinator_receive(record, sizeof record, ME, message, 15), SENNA_DAMAGED, "a garbled message to a damaged record");
    check(senna_coordinator_phase(record, sizeof record) == 0, "an accessor gives 0");
    check(senna_coordinator_due(record, sizeof record, ME, 0, 0, message, 127).number == SENNA_LENGTH, "the buffer's length comes first");
    check(due(0, 0).number == SENNA_DAMAGED && message[0] == 0xa5, "nothing is written for a damaged record");
}

int main(void)
{
    unsigned at;
    for (at = 0; at < SENNA_NODES; at++) {
        distances[2 * at] = 1;
    }
    one_transaction();
    turns();
    damaged();
    return closing();
}
