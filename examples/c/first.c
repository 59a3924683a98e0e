/*
 * The shortest program: an archive of two sites, and one event. From the repository's folder:
 *
 *     make library
 *     cc -std=c99 -Iinclude examples/c/first.c target/staticlib/libarchive.a -o first
 *     ./first
 */
#include <stdio.h>

#include "level_archive.h"

int main(void) {
    static uint8_t table[LEVEL_ARCHIVE_TABLE_BYTES], event[LEVEL_ARCHIVE_EVENT_BYTES];
    level_archive_answer answer = level_archive_setup(table, sizeof table, 2, 1); /* 2 sites, 1 partition */
    level_archive_event_open(event, 0, 0); /* fills the event: session 0 opens at site 0 */
    if (answer.number == LEVEL_ARCHIVE_DONE) answer = level_archive_step(table, sizeof table, event, sizeof event);
    puts(level_archive_text(answer.number)); /* done */
    return answer.number;
}
