/*
 * An archive of two sites. A level is written at site 0 and read at site 1: before
 * and after it has travelled. From the repository's folder:
 *
 *     make library
 *     cc -std=c99 -Iinclude examples/c/two_sites.c target/staticlib/libarchive.a -o two_sites
 *     ./two_sites
 */
#include <inttypes.h>
#include <stdio.h>

#include "level_archive.h"

static uint8_t table[LEVEL_ARCHIVE_TABLE_BYTES];

static void step(const char *what, const uint8_t event[LEVEL_ARCHIVE_EVENT_BYTES]) {
    const level_archive_answer answer = level_archive_step(table, sizeof table, event, LEVEL_ARCHIVE_EVENT_BYTES);
    char text[LEVEL_ARCHIVE_TOLD_BYTES];
    level_archive_told(text, event, answer); /* names the site and the stamp that an event waits for */
    if (answer.number == LEVEL_ARCHIVE_VALUE)
        printf("%-30s %" PRId32 " mm, site %d at %" PRIu64 "\n", what, answer.level, answer.source, answer.stamp);
    else
        printf("%-30s %s\n", what, text);
}

int main(void) {
    enum { DESK = 0, OFFICE = 1, GAUGE = 7 }; /* two sessions and a key */
    const level_archive_answer made = level_archive_setup(table, sizeof table, 2, 1);
    uint8_t event[LEVEL_ARCHIVE_EVENT_BYTES];

    printf("%-30s %s\n", "set up 2 sites, 1 partition", level_archive_text(made.number));
    level_archive_event_open(event, DESK, 0);
    step("the desk opens at site 0", event);
    level_archive_event_open(event, OFFICE, 1);
    step("the office opens at site 1", event);

    level_archive_event_put(event, DESK, GAUGE, LEVEL_ARCHIVE_MEASURED, 1250);
    step("the desk writes too early", event); /* its node's clock still stands at 0 */
    level_archive_event_clock(event, 0, 0, 100);
    step("the clock of site 0 moves", event);
    level_archive_event_put(event, DESK, GAUGE, LEVEL_ARCHIVE_MEASURED, 1250);
    step("the desk writes", event);
    level_archive_event_get(event, DESK, GAUGE);
    step("the desk reads", event);

    level_archive_event_get(event, OFFICE, GAUGE);
    step("the office reads", event); /* the update is still on its way */
    level_archive_event_deliver(event, 0, 1, 0);
    step("the update arrives at site 1", event);
    level_archive_event_get(event, OFFICE, GAUGE);
    step("the office reads", event);
    level_archive_event_deliver(event, 0, 1, 0);
    step("nothing more is on its way", event);
    return 0;
}
