/*
 * Damaged input to the exported functions, from C: the clear number, and nothing
 * changed. All bytes lent end at a page that may not be touched and, in a second
 * round, begin behind one, so that a byte too far ends the program.
 *
 * In order: lent bytes, the checks, lengths, numbers, fields, null pointers.
 */
#define _DEFAULT_SOURCE
#include <stdio.h>
#include <stdlib.h>
#include <sys/mman.h>

#include "level_archive.h"

enum { TABLE = LEVEL_ARCHIVE_TABLE_BYTES, EVENT = LEVEL_ARCHIVE_EVENT_BYTES, ROOM = 1 << 20, PAGE = 4096 };

static unsigned long checks;
static int at_the_end;

/* ---- lent bytes, between two pages that may not be touched */

typedef struct { uint8_t *first; } room;

static room new_room(void) {
    room r = {(uint8_t *)mmap(NULL, ROOM + 2 * PAGE, PROT_NONE, MAP_PRIVATE | MAP_ANONYMOUS, -1, 0)};
    if (r.first == MAP_FAILED || mprotect(r.first + PAGE, ROOM, PROT_READ | PROT_WRITE) != 0) {
        printf("no room\n");
        exit(1);
    }
    r.first += PAGE;
    return r;
}

static uint8_t *lent(room r, size_t length) { return at_the_end ? r.first + ROOM - length : r.first; }

static room tables, events, answers;
static uint8_t before[ROOM];

/* ---- the checks */

static void must(int holds, const char *what, size_t one, size_t other) {
    checks++;
    if (holds) return;
    printf("%s: %zu %zu\n", what, one, other);
    exit(1);
}

static int is_only(level_archive_answer a, int number) {
    return a.number == number && a.source == 0 && a.quality == 0 && a.level == 0 && a.stamp == 0;
}

/* A table of 2 sites and 3 partitions that holds something, or as much of it as the length has. */
static uint8_t *table_of(size_t length) {
    static uint8_t whole[TABLE];
    uint8_t event[EVENT], *table = lent(tables, length);
    level_archive_setup(whole, TABLE, 2, 3);
    level_archive_event_open(event, 0, 0);
    level_archive_step(whole, TABLE, event, EVENT);
    level_archive_event_clock(event, 0, 1, 9);
    level_archive_step(whole, TABLE, event, EVENT);
    level_archive_event_put(event, 0, 61, LEVEL_ARCHIVE_MEASURED, 1250);
    must(level_archive_step(whole, TABLE, event, EVENT).stamp == 9, "the table's PUT", 0, 0);
    memset(table, 0, length);
    memcpy(table, whole, length < TABLE ? length : TABLE);
    memcpy(before, table, length);
    return table;
}

/* A step is refused with the number, and no byte of the table changes. */
static void refused(uint8_t *table, size_t length, const uint8_t *event, size_t event_length, int number) {
    const level_archive_answer a = level_archive_step(table, length, event, event_length);
    must(is_only(a, number), "a step's number", a.number, (size_t)number);
    must(table == NULL || memcmp(table, before, length) == 0, "a step changed the table", length, event_length);
}

static uint8_t *event_of(const uint8_t bytes[EVENT], size_t length) {
    uint8_t *event = lent(events, length);
    memset(event, 0, length);
    memcpy(event, bytes, length < EVENT ? length : EVENT);
    return event;
}

/* ---- lengths */

static const size_t LENGTHS[] = {0, 1, 15, 16, 17, 31, 33, 63, 64, 65, 57343, 57345, 65536};
enum { LENGTHS_COUNT = sizeof LENGTHS / sizeof LENGTHS[0] };

static void lengths(void) {
    uint8_t open[EVENT], *table;
    int i;
    level_archive_event_open(open, 1, 1);
    for (i = 0; i < LENGTHS_COUNT; i++) {
        table = table_of(LENGTHS[i]);
        refused(table, LENGTHS[i], event_of(open, EVENT), EVENT, 23);
        must(is_only(level_archive_setup(table, LENGTHS[i], 2, 2), 23), "setup's length", LENGTHS[i], 2);
        must(is_only(level_archive_setup(table, LENGTHS[i], 0, 9), 23), "23 before 11", LENGTHS[i], 9);
        must(memcmp(table, before, LENGTHS[i]) == 0, "setup changed the table", LENGTHS[i], 0);
        refused(table_of(TABLE), TABLE, event_of(open, LENGTHS[i]), LENGTHS[i], 23);
    }
    refused(table_of(TABLE), TABLE, event_of(open, TABLE), TABLE, 23);
}

/* As many pieces are answered as there is room for, and not a byte more is written. */
static void run_lengths(void) {
    uint8_t open[EVENT], *room_given;
    size_t length, given, answered, i;
    level_archive_event_open(open, 1, 1);
    for (length = 0; length <= 3 * EVENT; length++)
        for (given = 0; given <= 50; given++) {
            answered = (length + 31) / 32 < given / 16 ? (length + 31) / 32 : given / 16;
            room_given = lent(answers, given);
            memset(room_given, 0xa5, given);
            must(level_archive_run(table_of(TABLE), TABLE, event_of(open, length), length, room_given, given) == answered, "run", length, given);
            for (i = 16 * answered; i < given; i++) must(room_given[i] == 0xa5, "run wrote too far", length, given);
            if (answered == 3) must(room_given[0] == 0 && room_given[16] == 10 && room_given[32] == (length == 96 ? 10 : 23), "run's answers", length, given);
        }
}

/* ---- numbers and codes */

static void numbers(void) {
    static const uint32_t wrong[] = {0, 5, 255, 256, 260, UINT32_MAX};
    uint8_t *table = table_of(TABLE);
    size_t i;
    for (i = 0; i < sizeof wrong / sizeof wrong[0]; i++) {
        must(is_only(level_archive_setup(table, TABLE, wrong[i], 2), 11), "setup's sites", wrong[i], 2);
        must(is_only(level_archive_setup(table, TABLE, 2, wrong[i]), 11), "setup's partitions", 2, wrong[i]);
    }
    must(memcmp(table, before, TABLE) == 0, "setup changed the table", 0, 0);
}

static void codes(void) {
    uint8_t bytes[EVENT] = {0}, *table = table_of(TABLE);
    int code;
    for (code = 0; code < 256; code++) {
        bytes[0] = (uint8_t)code;
        if (code < 1 || code > 10) refused(table, TABLE, event_of(bytes, EVENT), EVENT, 10);
    }
}

/* ---- fields: one at a time, out of range or not zero where the code does not use it */

typedef struct { int first, length; uint64_t too_large; } field;

/* site, partition, session, key, quality, from, count, time, level, the first page key, the others, the last four bytes */
static const field FIELDS[] = {{1, 1, 2}, {2, 1, 3}, {3, 1, 16}, {4, 1, 64}, {5, 1, 3}, {6, 1, 2}, {7, 1, 9}, {8, 8, UINT64_C(1) << 48},
                               {16, 4, 1000001}, {20, 1, 64}, {21, 7, 1}, {28, 4, 1}};
enum { FIELDS_COUNT = sizeof FIELDS / sizeof FIELDS[0] };

/* R31: which of FIELDS each code uses (BEGIN here with one key). */
static const char *USED[10] = {"s-s---------", "--s---------", "sp-----t----", "--sk--------", "--skq---l---",
                               "-ps---c--k--", "--sk--------", "--s---------", "sp----------", "sp---f------"};

/* An event of the code with zeros, and what it must have: from 1 to 0, a page of one key. */
static void lawful(uint8_t bytes[EVENT], int code) {
    memset(bytes, 0, EVENT);
    bytes[0] = (uint8_t)code;
    bytes[6] = code == 10;
    bytes[7] = code == 6;
}

static void fields(void) {
    uint8_t bytes[EVENT], *table;
    level_archive_answer a;
    int code, i, byte, b;
    uint64_t number;
    for (code = 1; code <= 10; code++) {
        lawful(bytes, code);
        a = level_archive_step(table_of(TABLE), TABLE, event_of(bytes, EVENT), EVENT);
        must(a.number != 10 && a.number != 11, "a lawful event's number", (size_t)code, a.number);
        table = table_of(TABLE);
        for (i = 0; i < FIELDS_COUNT; i++) {
            const int used = USED[code - 1][i] != '-';
            for (byte = 0; byte < (used ? 1 : FIELDS[i].length); byte++) {
                lawful(bytes, code);
                number = used ? FIELDS[i].too_large : UINT64_C(1) << (8 * byte);
                for (b = 0; b < FIELDS[i].length; b++) bytes[FIELDS[i].first + b] = (uint8_t)(number >> (8 * b));
                refused(table, TABLE, event_of(bytes, EVENT), EVENT, 11);
            }
        }
    }
}

/* ---- null pointers, with length 0 */

static void null_pointers(void) {
    uint8_t open[EVENT], *table = table_of(TABLE), *given = lent(answers, 32);
    level_archive_event_open(open, 1, 1);
    memset(given, 0xa5, 32);
    must(is_only(level_archive_setup(NULL, 0, 2, 2), 23), "setup of null", 0, 0);
    refused(NULL, 0, open, EVENT, 23);
    refused(NULL, 0, NULL, 0, 23);
    refused(table, TABLE, NULL, 0, 23);
    must(level_archive_run(table, TABLE, NULL, 0, given, 32) == 0 && given[0] == 0xa5, "run of no events", 0, 0);
    must(level_archive_run(table, TABLE, open, EVENT, NULL, 0) == 0, "run without room", 0, 0);
    must(memcmp(table, before, TABLE) == 0, "run changed the table", 0, 0);
    must(level_archive_run(NULL, 0, open, EVENT, given, 32) == 1, "run of no table", 0, 0);
    must(is_only(level_archive_answer_at(given, 0), 23) && given[16] == 0xa5, "its answer", 0, 0);
}

int main(void) {
    tables = new_room();
    events = new_room();
    answers = new_room();
    for (at_the_end = 0; at_the_end < 2; at_the_end++) {
        lengths();
        run_lengths();
        numbers();
        codes();
        fields();
        null_pointers();
    }
    printf("%lu checks, all hold\n", checks);
    return 0;
}
