/*
 * The level archive for C (C99) and C++ programs.
 *
 * In order: version, lengths and limits, the events' codes, the numbers given back,
 * an answer and its words, the three proved functions, the functions that fill an
 * event's 32 bytes (level_archive_event_open and so on), an answer out of
 * `level_archive_run`'s bytes.
 *
 * Link target/staticlib/libarchive.a, which `make library` writes:
 *
 *     cc -std=c99 -Iinclude program.c target/staticlib/libarchive.a -o program
 */
#ifndef LEVEL_ARCHIVE_H
#define LEVEL_ARCHIVE_H

#include <stddef.h>
#include <stdint.h>
#include <string.h>

#ifdef __cplusplus
extern "C" {
#endif

/* ---- the version of this header */

#define LEVEL_ARCHIVE_VERSION "0.3.0"
#define LEVEL_ARCHIVE_VERSION_NUMBER 300 /* 10,000 major + 100 minor + patch */

/* ---- lengths and limits */

#define LEVEL_ARCHIVE_TABLE_BYTES 57344
#define LEVEL_ARCHIVE_EVENT_BYTES 32
#define LEVEL_ARCHIVE_ANSWER_BYTES 16 /* of an answer that level_archive_run writes */

#define LEVEL_ARCHIVE_MOST_SITES 4      /* 1 to 4, numbered from 0 */
#define LEVEL_ARCHIVE_MOST_PARTITIONS 4 /* 1 to 4, numbered from 0; key k lives on partition k mod their number */
#define LEVEL_ARCHIVE_LAST_SESSION 15   /* sessions are 0 to 15 */
#define LEVEL_ARCHIVE_LAST_KEY 63       /* keys (gauges) are 0 to 63 */
#define LEVEL_ARCHIVE_PAGE_KEYS 8       /* on one page, at most */
#define LEVEL_ARCHIVE_LAST_TIME UINT64_C(281474976710655) /* 2^48 - 1, of times and stamps */
#define LEVEL_ARCHIVE_LOWEST_LEVEL (-50000)               /* mm from datum */
#define LEVEL_ARCHIVE_HIGHEST_LEVEL 1000000               /* mm from datum */

enum { /* qualities */
    LEVEL_ARCHIVE_MEASURED = 0,
    LEVEL_ARCHIVE_CORRECTED = 1,
    LEVEL_ARCHIVE_ESTIMATED = 2
};

/* ---- the events' codes */

enum {
    LEVEL_ARCHIVE_EVENT_OPEN = 1,    /* a session begins at a site */
    LEVEL_ARCHIVE_EVENT_CLOSE = 2,   /* a session ends, page or no page */
    LEVEL_ARCHIVE_EVENT_CLOCK = 3,   /* a node's clock is set, never back */
    LEVEL_ARCHIVE_EVENT_GET = 4,     /* the newest record of a key is shown */
    LEVEL_ARCHIVE_EVENT_PUT = 5,     /* a level is recorded and sent to the other sites */
    LEVEL_ARCHIVE_EVENT_BEGIN = 6,   /* a page is opened, to be read as of one moment */
    LEVEL_ARCHIVE_EVENT_READ = 7,    /* a key of the page is shown */
    LEVEL_ARCHIVE_EVENT_END = 8,     /* the page, read, is closed */
    LEVEL_ARCHIVE_EVENT_BEAT = 9,    /* a node tells the other sites its clock */
    LEVEL_ARCHIVE_EVENT_DELIVER = 10 /* the front message of a channel reaches its node */
};

/* ---- the numbers given back; a refusal (10 to 24) and a wait change no byte of the table */

enum {
    LEVEL_ARCHIVE_DONE = 0,           /* done; of a PUT, source and stamp are filled */
    LEVEL_ARCHIVE_VALUE = 1,          /* a reading: source, quality, level and stamp are filled */
    LEVEL_ARCHIVE_NOTHING = 2,        /* nothing is recorded of this key */
    LEVEL_ARCHIVE_WAIT = 3,           /* GET, PUT, READ: the same event may be served later; source and stamp say what it waits for */
    LEVEL_ARCHIVE_UNKNOWN_CODE = 10,  /* the event's code is not 1 to 10 */
    LEVEL_ARCHIVE_OUT_OF_RANGE = 11,  /* a used field out of range, or an unused one not zero; for setup, a number not 1 to 4 */
    LEVEL_ARCHIVE_NOT_OPEN = 12,      /* the session is not open */
    LEVEL_ARCHIVE_ALREADY_OPEN = 13,  /* OPEN: the session is already open */
    LEVEL_ARCHIVE_PAGE_OPEN = 14,     /* GET, PUT, BEGIN: a page is open */
    LEVEL_ARCHIVE_NO_PAGE = 15,       /* READ, END: no page is open */
    LEVEL_ARCHIVE_NOT_ON_PAGE = 16,   /* READ: the key is not on the page, or was already read */
    LEVEL_ARCHIVE_KEY_TWICE = 17,     /* BEGIN: the same key twice */
    LEVEL_ARCHIVE_UNREAD = 18,        /* END: a key of the page is unread */
    LEVEL_ARCHIVE_BEFORE_CLOCK = 19,  /* CLOCK: the time is before the clock */
    LEVEL_ARCHIVE_CHANNEL_EMPTY = 20, /* DELIVER: no message waits */
    LEVEL_ARCHIVE_CHANNEL_FULL = 21,  /* PUT, BEAT: an outgoing channel holds 8 messages */
    LEVEL_ARCHIVE_NODE_FULL = 22,     /* PUT, DELIVER of an update: the node holds 32 records */
    LEVEL_ARCHIVE_WRONG_LENGTH = 23,  /* the table is not 57,344 bytes, or the event is not 32 */
    LEVEL_ARCHIVE_ILL_FORMED = 24     /* the table is not well formed */
};

/* The number in words. What a wait waits for, level_archive_told says. */
static inline const char *level_archive_text(uint8_t number) {
    switch (number) {
    case LEVEL_ARCHIVE_DONE: return "done";
    case LEVEL_ARCHIVE_VALUE: return "a reading";
    case LEVEL_ARCHIVE_NOTHING: return "nothing recorded";
    case LEVEL_ARCHIVE_WAIT: return "wait, then try again";
    case LEVEL_ARCHIVE_UNKNOWN_CODE: return "the event's code is not 1 to 10";
    case LEVEL_ARCHIVE_OUT_OF_RANGE: return "a number is out of range, or a field that is not used is not zero";
    case LEVEL_ARCHIVE_NOT_OPEN: return "the session is not open";
    case LEVEL_ARCHIVE_ALREADY_OPEN: return "the session is already open";
    case LEVEL_ARCHIVE_PAGE_OPEN: return "a page is open";
    case LEVEL_ARCHIVE_NO_PAGE: return "no page is open";
    case LEVEL_ARCHIVE_NOT_ON_PAGE: return "the key is not on the page, or was already read";
    case LEVEL_ARCHIVE_KEY_TWICE: return "the same key stands twice on the page";
    case LEVEL_ARCHIVE_UNREAD: return "a key of the page is unread";
    case LEVEL_ARCHIVE_BEFORE_CLOCK: return "the time is before the clock";
    case LEVEL_ARCHIVE_CHANNEL_EMPTY: return "the channel is empty";
    case LEVEL_ARCHIVE_CHANNEL_FULL: return "an outgoing channel holds 8 messages";
    case LEVEL_ARCHIVE_NODE_FULL: return "the node holds 32 records";
    case LEVEL_ARCHIVE_WRONG_LENGTH: return "the table is not 57,344 bytes, or the event is not 32";
    case LEVEL_ARCHIVE_ILL_FORMED: return "the table is not well formed";
    default: return "no number of the archive";
    }
}

/*
 * ---- an answer; what its number does not fill is zero
 *
 * A GET or READ that waits: source is the lowest-numbered site that the node has not
 * heard far enough, stamp is the stamp up to which the node must have heard it; a GET
 * never waits for its own site. A PUT that waits: source is the session's own site,
 * stamp is the stamp that its node's clock must pass (greater, not equal).
 */

typedef struct level_archive_answer {
    uint8_t number;  /* see above */
    uint8_t source;  /* the site at which it was written; of a wait, the site that is waited for */
    uint8_t quality; /* 0 measured, 1 corrected, 2 estimated */
    int32_t level;   /* mm from datum */
    uint64_t stamp;  /* its stamp at the source; of a wait, the stamp needed */
} level_archive_answer;

/* Writes a text at a place, without its final zero, and gives the place behind it. */
static inline char *level_archive_write_text(char *at, const char *text) {
    while (*text != 0) *at++ = *text++;
    return at;
}

/* Writes a number, 1 to 20 digits, and gives the place behind it. */
static inline char *level_archive_write_number(char *at, uint64_t number) {
    uint64_t unit = 1;
    while (number / unit >= 10) unit *= 10;
    for (; unit > 0; unit /= 10) *at++ = (char)('0' + number / unit % 10);
    return at;
}

#define LEVEL_ARCHIVE_TOLD_BYTES 80 /* has room for every text of this header, with its final zero */

/*
 * Writes what an answer tells its event: of a GET or READ that waits "waits for site 0
 * up to 101", of a PUT that waits "waits until the clock of site 0 has passed 100", and
 * for every other answer the text of its number.
 */
static inline void level_archive_told(char text[LEVEL_ARCHIVE_TOLD_BYTES],
                                      const uint8_t event[LEVEL_ARCHIVE_EVENT_BYTES], level_archive_answer answer) {
    const int put = event[0] == LEVEL_ARCHIVE_EVENT_PUT;
    if (answer.number == LEVEL_ARCHIVE_WAIT) {
        text = level_archive_write_text(text, put ? "waits until the clock of site " : "waits for site ");
        text = level_archive_write_number(text, answer.source);
        text = level_archive_write_text(text, put ? " has passed " : " up to ");
        text = level_archive_write_number(text, answer.stamp);
    } else {
        text = level_archive_write_text(text, level_archive_text(answer.number));
    }
    *text = 0;
}

/*
 * ---- the three proved functions
 *
 * Each is proved for every length and all bytes: it ends, stays inside the bytes
 * that are lent to it and keeps no pointer. Lent means: as many bytes as the length
 * says may be read there (and written, where the pointer is not const), nobody else
 * touches them during the call, and the table and the answers overlap nothing. A null
 * pointer is fine with length 0 alone. There is no state beside the table: calls on
 * different tables may run at once.
 *
 * A table that a version before 0.3.0 left keeps no newest records: if it holds a
 * record, it is refused with 24.
 */

/* Makes a table empty, whatever lay in it, for 1 to 4 sites and partitions. 0, 23 or 11. */
level_archive_answer level_archive_setup(uint8_t *table, size_t table_length, uint32_t sites, uint32_t partitions);

/* One event. The whole table is checked first (23, 24). */
level_archive_answer level_archive_step(uint8_t *table, size_t table_length, const uint8_t *event, size_t event_length);

/*
 * Many events, in pieces of 32 bytes: what level_archive_step gives one by one, with
 * one check of the table. A shorter last piece gets 23. Each answer goes into 16 bytes
 * of `answers`; as many pieces are stepped as there is room for, and their number is
 * given back.
 */
size_t level_archive_run(uint8_t *table, size_t table_length, const uint8_t *events, size_t events_length,
                         uint8_t *answers, size_t answers_length);

/*
 * ---- the ten events: each function fills an event's 32 bytes and does nothing else
 *
 * Numbers out of range may be written; level_archive_step refuses them with 11.
 */

/* Any event's first fields; the others are made zero. */
static inline void level_archive_event_fields(uint8_t event[LEVEL_ARCHIVE_EVENT_BYTES], uint8_t code, uint8_t site,
                                              uint8_t partition, uint8_t session, uint8_t key) {
    memset(event, 0, LEVEL_ARCHIVE_EVENT_BYTES);
    event[0] = code;
    event[1] = site;
    event[2] = partition;
    event[3] = session;
    event[4] = key;
}

/* OPEN: a session begins at a site. */
static inline void level_archive_event_open(uint8_t event[LEVEL_ARCHIVE_EVENT_BYTES], uint8_t session, uint8_t site) {
    level_archive_event_fields(event, LEVEL_ARCHIVE_EVENT_OPEN, site, 0, session, 0);
}

/* CLOSE: a session ends, page or no page. */
static inline void level_archive_event_close(uint8_t event[LEVEL_ARCHIVE_EVENT_BYTES], uint8_t session) {
    level_archive_event_fields(event, LEVEL_ARCHIVE_EVENT_CLOSE, 0, 0, session, 0);
}

/* CLOCK: a node's clock is set, never back. */
static inline void level_archive_event_clock(uint8_t event[LEVEL_ARCHIVE_EVENT_BYTES], uint8_t site, uint8_t partition,
                                             uint64_t time) {
    int byte;
    level_archive_event_fields(event, LEVEL_ARCHIVE_EVENT_CLOCK, site, partition, 0, 0);
    for (byte = 0; byte < 8; byte++) event[8 + byte] = (uint8_t)(time >> (8 * byte));
}

/* GET: the newest record of a key is shown. */
static inline void level_archive_event_get(uint8_t event[LEVEL_ARCHIVE_EVENT_BYTES], uint8_t session, uint8_t key) {
    level_archive_event_fields(event, LEVEL_ARCHIVE_EVENT_GET, 0, 0, session, key);
}

/* PUT: a level, in mm from datum, is recorded and sent to the other sites. */
static inline void level_archive_event_put(uint8_t event[LEVEL_ARCHIVE_EVENT_BYTES], uint8_t session, uint8_t key,
                                           uint8_t quality, int32_t level) {
    int byte;
    level_archive_event_fields(event, LEVEL_ARCHIVE_EVENT_PUT, 0, 0, session, key);
    event[5] = quality;
    for (byte = 0; byte < 4; byte++) event[16 + byte] = (uint8_t)((uint32_t)level >> (8 * byte));
}

/* BEGIN: a page of 1 to 8 different keys is opened, a partition's node its coordinator. Beyond 8, no key is read. */
static inline void level_archive_event_begin(uint8_t event[LEVEL_ARCHIVE_EVENT_BYTES], uint8_t session,
                                             uint8_t partition, const uint8_t *keys, uint8_t count) {
    int place;
    level_archive_event_fields(event, LEVEL_ARCHIVE_EVENT_BEGIN, 0, partition, session, 0);
    event[7] = count;
    for (place = 0; place < count && place < LEVEL_ARCHIVE_PAGE_KEYS; place++) event[20 + place] = keys[place];
}

/* READ: a key of the page is shown. */
static inline void level_archive_event_read(uint8_t event[LEVEL_ARCHIVE_EVENT_BYTES], uint8_t session, uint8_t key) {
    level_archive_event_fields(event, LEVEL_ARCHIVE_EVENT_READ, 0, 0, session, key);
}

/* END: the page, read, is closed. */
static inline void level_archive_event_end(uint8_t event[LEVEL_ARCHIVE_EVENT_BYTES], uint8_t session) {
    level_archive_event_fields(event, LEVEL_ARCHIVE_EVENT_END, 0, 0, session, 0);
}

/* BEAT: a node tells the other sites its clock. */
static inline void level_archive_event_beat(uint8_t event[LEVEL_ARCHIVE_EVENT_BYTES], uint8_t site, uint8_t partition) {
    level_archive_event_fields(event, LEVEL_ARCHIVE_EVENT_BEAT, site, partition, 0, 0);
}

/* DELIVER: the front message of the channel between two sites arrives. */
static inline void level_archive_event_deliver(uint8_t event[LEVEL_ARCHIVE_EVENT_BYTES], uint8_t from, uint8_t to,
                                               uint8_t partition) {
    level_archive_event_fields(event, LEVEL_ARCHIVE_EVENT_DELIVER, to, partition, 0, 0);
    event[6] = from;
}

/* ---- an answer out of level_archive_run's bytes: 0 number, 1 source, 2 quality, 3 zero, 4-7 level, 8-15 stamp, little-endian */

static inline level_archive_answer level_archive_answer_at(const uint8_t *answers, size_t place) {
    const uint8_t *bytes = answers + LEVEL_ARCHIVE_ANSWER_BYTES * place;
    level_archive_answer answer = {bytes[0], bytes[1], bytes[2], 0, 0};
    uint32_t level = 0;
    int byte;
    for (byte = 0; byte < 4; byte++) level |= (uint32_t)bytes[4 + byte] << (8 * byte);
    memcpy(&answer.level, &level, sizeof level);
    for (byte = 0; byte < 8; byte++) answer.stamp |= (uint64_t)bytes[8 + byte] << (8 * byte);
    return answer;
}

#ifdef __cplusplus
}
#endif

#endif
