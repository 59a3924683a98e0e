/* Prints what the header's functions give, for tests/all/c.rs to compare: the version, the texts, the texts of answers, the events, sizes and places, limits, an answer out of bytes. */
#include <inttypes.h>
#include <stdio.h>

#include "level_archive.h"

static uint8_t event[LEVEL_ARCHIVE_EVENT_BYTES];

/* What answers tell a GET, a READ and a PUT: every number, and waits. The bytes behind the text stay. */
static void print_answer_texts(void) {
    static const level_archive_answer waits[] = {
        {3, 0, 0, 0, 0}, {3, 1, 0, 0, 9}, {3, 2, 0, 0, 10}, {3, 3, 0, 0, 101}, {3, 99, 0, 0, 999}, {3, 255, 0, 0, UINT64_MAX}};
    static const uint8_t codes[3] = {LEVEL_ARCHIVE_EVENT_GET, LEVEL_ARCHIVE_EVENT_READ, LEVEL_ARCHIVE_EVENT_PUT};
    level_archive_answer answer = {0, 0, 0, 0, 0};
    char text[LEVEL_ARCHIVE_TOLD_BYTES + 1];
    int code, place;
    for (code = 0; code < 3; code++) {
        event[0] = codes[code];
        for (place = 0; place < 256 + 6; place++) {
            answer.number = (uint8_t)place;
            if (place == 3) continue;
            memset(text, 'x', sizeof text);
            level_archive_told(text, event, place < 256 ? answer : waits[place - 256]);
            printf("%s%s\n", text, text[LEVEL_ARCHIVE_TOLD_BYTES] == 'x' ? "" : ": too long");
        }
    }
}

static void print_event(void) {
    int place;
    for (place = 0; place < LEVEL_ARCHIVE_EVENT_BYTES; place++) printf("%02x", event[place]);
    printf("\n");
    memset(event, 0xa5, sizeof event); /* the next one must write every byte */
}

static void print_events(void) {
    static const uint8_t keys[9] = {7, 6, 5, 4, 3, 2, 1, 0, 0};
    static const uint8_t eight[8] = {1, 2, 3, 4, 5, 6, 7, 8};
    level_archive_event_open(event, 15, 3);
    print_event();
    level_archive_event_close(event, 14);
    print_event();
    level_archive_event_clock(event, 2, 1, UINT64_C(0x0102030405060708));
    print_event();
    level_archive_event_get(event, 13, 63);
    print_event();
    level_archive_event_put(event, 12, 62, LEVEL_ARCHIVE_ESTIMATED, LEVEL_ARCHIVE_LOWEST_LEVEL);
    print_event();
    level_archive_event_begin(event, 11, 3, keys, 3);
    print_event();
    level_archive_event_begin(event, 11, 3, eight, 8);
    print_event();
    level_archive_event_read(event, 10, 61);
    print_event();
    level_archive_event_end(event, 9);
    print_event();
    level_archive_event_beat(event, 1, 2);
    print_event();
    level_archive_event_deliver(event, 3, 2, 1);
    print_event();
}

static void print_answer(void) {
    static const uint8_t answers[2 * LEVEL_ARCHIVE_ANSWER_BYTES] = {
        9, 9, 9, 9, 9, 9, 9, 9, 9, 9, 9, 9, 9, 9, 9, 9, 1, 3, 2, 0, 0xb0, 0x3c, 0xff, 0xff, 0xff, 0xff, 0xff, 0xff, 0xff, 0xff, 0, 0};
    const level_archive_answer a = level_archive_answer_at(answers, 1);
    printf("%d %d %d %" PRId32 " %" PRIu64 "\n", a.number, a.source, a.quality, a.level, a.stamp);
}

int main(void) {
    int number;
    printf("%s %d\n", LEVEL_ARCHIVE_VERSION, LEVEL_ARCHIVE_VERSION_NUMBER);
    for (number = 0; number < 256; number++) printf("%d %s\n", number, level_archive_text((uint8_t)number));
    print_answer_texts();
    print_events();
    printf("%d %d %d ", (int)sizeof(level_archive_answer), (int)offsetof(level_archive_answer, level), (int)offsetof(level_archive_answer, stamp));
    printf("%d %d %d\n", LEVEL_ARCHIVE_TABLE_BYTES, LEVEL_ARCHIVE_EVENT_BYTES, LEVEL_ARCHIVE_ANSWER_BYTES);
    printf("%d %d %d %d ", LEVEL_ARCHIVE_MOST_SITES, LEVEL_ARCHIVE_MOST_PARTITIONS, LEVEL_ARCHIVE_LAST_SESSION, LEVEL_ARCHIVE_LAST_KEY);
    printf("%d %" PRIu64 " ", LEVEL_ARCHIVE_PAGE_KEYS, LEVEL_ARCHIVE_LAST_TIME);
    printf("%d %d\n", LEVEL_ARCHIVE_LOWEST_LEVEL, LEVEL_ARCHIVE_HIGHEST_LEVEL);
    print_answer();
    return 0;
}
