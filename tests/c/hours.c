/*
 * Packing hours from C, through include/senna.h as a host would: the bytes of a table as the header lays them, blank settings, a table loaded and
 * another in its place, begins at the edges of its windows and on its closed dates, which number comes first, and settings that are damaged; at a lone
 * node and at a station. A refusal leaves every byte.
 */
#include "check.h"

static_assert(SENNA_STATION_SETTINGS == SENNA_NODES * SENNA_SETTINGS, "the sizes agree");
static_assert(SENNA_HOURS_MAX == 2 + 4 * SENNA_WINDOWS + 4 * SENNA_DATES && 1 + SENNA_HOURS_MAX + 41 == SENNA_SETTINGS, "the sizes agree");

enum { ME = 3, DAY = 20815, OPENS = 6 * 60, CLOSES = 14 * 60 };

/* Monday 06:00 to 14:00, closed on day 20,815: the header's own example. */
static const uint8_t monday[] = {1, 0x68, 0x01, 0x48, 0x03, 1, 0x4f, 0x51, 0, 0};
static const uint8_t always[] = {1, 0, 0, 0x60, 0x27, 0};
static const uint8_t never[] = {0, 0};

static uint8_t distances[SENNA_DISTANCES];
static uint8_t record[SENNA_RECORD], record_before[SENNA_RECORD];
static uint8_t settings[SENNA_SETTINGS], settings_before[SENNA_SETTINGS];

/* A lone node's begin; its number. On a refusal nothing is altered, and it is given up where it is accepted, so that the next may begin. */
static unsigned begin(uint32_t timestamp, uint32_t day, unsigned minute)
{
    senna_called got;
    memcpy(record_before, record, sizeof record);
    memcpy(settings_before, settings, sizeof settings);
    got = senna_coordinator_begin(record, sizeof record, settings, sizeof settings, ME, SENNA_ALL, distances, sizeof distances, timestamp, day,
                                  (uint16_t)minute);
    check(got.answer == (got.number == SENNA_OK ? 1u : 0u), "the root, or nothing");
    check(memcmp(settings, settings_before, sizeof settings) == 0, "a begin leaves settings in which nothing waits");
    if (got.number == SENNA_OK) {
        check(senna_coordinator_abort(record, sizeof record, ME).number == SENNA_OK, "given up");
    } else {
        check(memcmp(record, record_before, sizeof record) == 0, "a refusal leaves the record");
    }
    return got.number;
}

static unsigned load(const uint8_t *list, size_t size)
{
    unsigned number;
    memcpy(settings_before, settings, sizeof settings);
    number = senna_load_hours(settings, sizeof settings, list, size);
    check(number == SENNA_OK || memcmp(settings, settings_before, sizeof settings) == 0, "a table that is refused keeps the one before");
    check(senna_check_settings(settings, sizeof settings) == SENNA_OK, "settings stay settings");
    return number;
}

static void one_node(void)
{
    uint32_t t = 0;
    memset(settings, 0xa5, sizeof settings);
    check(senna_check_settings(settings, sizeof settings) == SENNA_DAMAGED, "any bytes are no settings");
    check(senna_blank_settings(settings, sizeof settings - 1) == SENNA_LENGTH && settings[0] == 0xa5, "a byte less");
    check(senna_blank_settings(settings, sizeof settings) == SENNA_OK, "blank settings");
    check(senna_blank_record(record, sizeof record) == SENNA_OK, "a blank record");
    check(begin(++t, DAY, 0) == SENNA_OK && begin(++t, 0, 10079) == SENNA_OK, "all hours are open before a table is loaded");
    check(begin(t + 1, 0, 10080) == SENNA_GARBLED && begin(t + 1, 0, 65535) == SENNA_GARBLED, "a minute that no week has");
    check(load(monday, sizeof monday) == SENNA_OK, "a table");
    check(settings[0] == 1 && memcmp(settings + 1, monday, sizeof monday) == 0 && settings[11] == 0, "it is kept as it was lent");
    check(begin(t + 1, DAY - 1, OPENS - 1) == SENNA_CLOSED, "before the first minute");
    check(begin(++t, DAY - 1, OPENS) == SENNA_OK, "the first minute is open");
    check(begin(++t, DAY + 1, CLOSES - 1) == SENNA_OK, "the last minute is open");
    check(begin(t + 1, DAY + 1, CLOSES) == SENNA_CLOSED, "the end minute is closed");
    check(begin(t + 1, DAY, OPENS) == SENNA_CLOSED && begin(t + 1, DAY, 0) == SENNA_CLOSED, "a closed date");
    check(begin(t + 1, DAY, 10080) == SENNA_GARBLED, "3 comes before 13");
    check(begin(t - 1, DAY, OPENS) == SENNA_OUT_OF_TURN, "5 comes before 13");
    check(begin(t, DAY, OPENS) == SENNA_CLOSED, "after an abort the last timestamp is in turn, and closed");
    check(begin(t + 1, 0x4f51, OPENS) == SENNA_OK, "a closed date with its bytes in another order is open");
    check(load(never, sizeof never) == SENNA_OK && begin(t + 2, 0, OPENS) == SENNA_CLOSED, "no window: always closed");
    check(load(always, sizeof always) == SENNA_OK && begin(t + 2, DAY, 10079) == SENNA_OK, "one window of the whole week: always open");
}

/* Tables that are none. */
static void bad_tables(void)
{
    uint8_t list[2 + 4 * 255 + 4 * 255];
    unsigned i;
    check(load(monday, sizeof monday) == SENNA_OK, "a table");
    check(load(monday, 0) == SENNA_LENGTH && load(monday, 1) == SENNA_LENGTH && load(monday, sizeof monday - 1) == SENNA_LENGTH, "a table cut short");
    memcpy(list, monday, sizeof monday);
    list[sizeof monday] = 0;
    check(load(list, sizeof monday + 1) == SENNA_LENGTH, "a byte more");
    list[4] = list[2], list[3] = list[1];
    check(load(list, sizeof monday) == SENNA_DAMAGED, "an end at its start");
    list[3] = 0x61, list[4] = 0x27;
    check(load(list, sizeof monday) == SENNA_DAMAGED && load(list, sizeof monday - 1) == SENNA_LENGTH, "an end at 10,081; 1 comes before 2");
    list[3] = 0x60;
    check(load(list, sizeof monday) == SENNA_OK, "an end at 10,080");
    memset(list, 0, sizeof list);
    for (i = 0; i < 255; i++) {
        list[3 + 4 * i] = 1; /* windows of minute 0 */
    }
    list[0] = SENNA_WINDOWS, list[1 + 4 * SENNA_WINDOWS] = SENNA_DATES;
    check(load(list, SENNA_HOURS_MAX) == SENNA_OK, "as many as there may be");
    list[1 + 4 * SENNA_WINDOWS] = SENNA_DATES + 1;
    check(load(list, SENNA_HOURS_MAX + 4) == SENNA_DAMAGED && load(list, SENNA_HOURS_MAX) == SENNA_LENGTH, "33 dates");
    list[1 + 4 * SENNA_WINDOWS] = 0, list[0] = SENNA_WINDOWS + 1;
    check(load(list, 2 + 4 * (SENNA_WINDOWS + 1)) == SENNA_DAMAGED, "fifteen windows");
    list[0] = 255, list[1 + 4 * 255] = 255;
    check(load(list, sizeof list) == SENNA_DAMAGED && load(list, sizeof list - 1) == SENNA_LENGTH, "as many as a byte can say");
}

/* Settings that are damaged: every call that is lent them says so, and leaves them. */
static void damaged_settings(void)
{
    static const struct {
        unsigned place, value;
    } damages[] = {{0, 2}, {0, 255}, {1, SENNA_WINDOWS + 1}, {6, SENNA_DATES + 1}, {3, 0xff}, {5, 0x28}, {4, 0x68}};
    unsigned i;
    for (i = 0; i < sizeof damages / sizeof damages[0]; i++) {
        check(senna_blank_settings(settings, sizeof settings) == SENNA_OK && load(monday, sizeof monday) == SENNA_OK, "sound settings");
        settings[damages[i].place] = (uint8_t)damages[i].value;
        if (damages[i].place == 4) {
            settings[5] = 0x01; /* the end is the start */
        }
        check(senna_check_settings(settings, sizeof settings) == SENNA_DAMAGED, "damaged settings");
        check(begin(100 + i, 0, OPENS) == SENNA_DAMAGED && begin(100 + i, 0, 10080) == SENNA_DAMAGED, "a begin with damaged settings");
        memcpy(settings_before, settings, sizeof settings);
        check(senna_load_hours(settings, sizeof settings, monday, sizeof monday) == SENNA_DAMAGED, "a load to damaged settings");
        check(senna_load_hours(settings, sizeof settings, monday, 3) == SENNA_LENGTH, "1 comes before 2");
        settings[0] = settings_before[0] = damages[i].place == 0 ? 2 : 0; /* not loaded, and damaged still */
        check(senna_check_settings(settings, sizeof settings) == SENNA_DAMAGED, "the lists are looked at where none is loaded, too");
        check(memcmp(settings, settings_before, sizeof settings) == 0, "a refusal leaves the settings");
    }
    check(senna_blank_settings(settings, sizeof settings) == SENNA_OK, "blank settings");
    memset(settings + 3, 0xa5, 184);  /* behind the lists of the hours */
    memset(settings + 189, 0xa5, 22); /* and behind those of the classes */
    check(senna_check_settings(settings, sizeof settings) == SENNA_OK && begin(200, 0, OPENS) == SENNA_OK, "what stands behind the lists does not matter");
    check(load(monday, sizeof monday) == SENNA_OK && settings[11] == 0 && settings[186] == 0 && settings[189] == 0xa5, "a load fills up with zeros");
}

/* A station's five buffers. */
static uint8_t images[SENNA_IMAGES], records[SENNA_RECORDS], pool[SENNA_POOL], own[SENNA_OWN], all[SENNA_STATION_SETTINGS];
static uint8_t records_before[SENNA_RECORDS], all_before[SENNA_STATION_SETTINGS];

static unsigned station_begin(unsigned node, uint32_t timestamp, unsigned minute)
{
    senna_called got;
    memcpy(records_before, records, sizeof records);
    memcpy(all_before, all, sizeof all);
    got = senna_station_begin(records, sizeof records, own, sizeof own, all, sizeof all, (uint8_t)node, SENNA_ALL, distances, sizeof distances,
                              timestamp, 5, (uint16_t)minute);
    check(memcmp(all, all_before, sizeof all) == 0, "a begin leaves settings in which nothing waits");
    check(got.number == SENNA_OK || memcmp(records, records_before, sizeof records) == 0, "a refusal leaves the records");
    return got.number;
}

static unsigned station_load(unsigned node, const uint8_t *list, size_t size)
{
    senna_called got;
    unsigned other;
    memcpy(all_before, all, sizeof all);
    got = senna_station_load_hours(own, sizeof own, all, sizeof all, (uint8_t)node, list, size);
    check(got.answer == 0, "a load answers 0");
    for (other = 0; other < SENNA_NODES; other++) {
        check((other == node && got.number == SENNA_OK) || memcmp(all + other * SENNA_SETTINGS, all_before + other * SENNA_SETTINGS, SENNA_SETTINGS) == 0,
              "only the node's settings change, and on a refusal none");
    }
    return got.number;
}

/* Each node has hours of its own; an open booking goes on after closing time. */
static void station(void)
{
    memset(all, 0xa5, sizeof all);
    check(senna_station_blank(images, sizeof images, records, sizeof records, pool, sizeof pool, own, sizeof own, all, sizeof all, SENNA_ALL) == SENNA_OK,
          "a blank station");
    check(station_load(4, monday, sizeof monday) == SENNA_OK && station_load(5, never, sizeof never) == SENNA_OK, "two tables");
    check(station_begin(4, 1, OPENS - 1) == SENNA_CLOSED && station_begin(5, 1, OPENS) == SENNA_CLOSED, "closed at both");
    check(station_begin(6, 1, OPENS - 1) == SENNA_OK && station_begin(4, 1, OPENS) == SENNA_OK, "open at their neighbour, and at its first minute");
    check(station_begin(4, 2, CLOSES) == SENNA_BUSY, "10 comes before 13");
    check(station_load(4, never, sizeof never) == SENNA_OK, "a table while a booking is open");
    check(senna_station_open_read(records, sizeof records, own, sizeof own, all, sizeof all, 4, 7).number == SENNA_OK, "which goes on");
    check(senna_station_send(records, sizeof records, pool, sizeof pool, own, sizeof own, 4, 0, 7).number == SENNA_OK, "a fetch");
    check(senna_station_abort(records, sizeof records, own, sizeof own, 4).number == SENNA_OK, "and is given up");
    check(station_load(13, never, sizeof never) == SENNA_STRANGER && station_load(13, never, 1) == SENNA_LENGTH, "4, and 1 before it");
    check(senna_station_switch(own, sizeof own, 7, 0).number == SENNA_OK && station_load(7, monday, sizeof monday) == SENNA_OUT_OF_TURN, "a node that is off");
    check(station_load(7, monday, 9) == SENNA_LENGTH && station_begin(7, 1, 10080) == SENNA_GARBLED, "1 and 3 come before 5");
    check(station_begin(7, 1, OPENS) == SENNA_OUT_OF_TURN && station_begin(13, 1, 10080) == SENNA_GARBLED && station_begin(13, 1, 1) == SENNA_STRANGER,
          "5 where it is off; 3 comes before 4");
    all[8 * SENNA_SETTINGS] = 2;
    check(station_begin(8, 1, 10080) == SENNA_DAMAGED && station_load(8, monday, sizeof monday) == SENNA_DAMAGED, "damaged settings of the node");
    check(station_begin(9, 1, 0) == SENNA_OK, "its neighbour's are sound");
    check(senna_station_load_hours(own, 1, all, sizeof all, 9, never, sizeof never).number == SENNA_LENGTH, "a mask of one byte");
    check(senna_station_load_hours(own, sizeof own, all, SENNA_SETTINGS, 0, never, sizeof never).number == SENNA_LENGTH, "one node's settings");
    own[1] = 0x3f;
    check(station_load(9, never, sizeof never) == SENNA_DAMAGED, "a mask of fourteen nodes");
}

int main(void)
{
    unsigned at;
    for (at = 0; at < SENNA_NODES; at++) {
        distances[2 * at] = 1;
    }
    one_node();
    bad_tables();
    damaged_settings();
    station();
    return closing();
}
