/* Reads the release records that `tesla` writes: docs/FORMATS.md, Release record.

   One header in C99, which also C++ takes. It allocates nothing and keeps nothing between two calls.

   A record is read from bytes that the caller has:

       size_t used;
       struct tesla_release record;
       while (tesla_take(TESLA_PLAIN, bytes, size, &used, &record) == TESLA_RECORD) {
           ...
           bytes += used;
           size -= used;
       }

   or from a file or a named pipe, into room that the caller has:

       unsigned char room[TESLA_MOST];
       enum tesla_result result;
       while ((result = tesla_read(TESLA_PLAIN, file, room, &record)) == TESLA_RECORD)
           ...

   The payload of a record is in the caller's bytes or room, and is there as long as these aren't changed. */
#ifndef TESLA_RELEASE_H
#define TESLA_RELEASE_H

#include <stddef.h>
#include <stdint.h>
#include <stdio.h>

/* What wrote the records: what stands before each. */
enum tesla_form {
    TESLA_PLAIN, /* `receive` and `replay`: nothing */
    TESLA_ROLL,  /* `roll`: the number of the epoch */
    TESLA_EARLY, /* `early`: whether a packet was given, or a message was accepted on arrival */
    TESLA_FOLLOW /* a follower: the same, and the number of the epoch */
};

enum tesla_result {
    TESLA_RECORD,    /* a record was read */
    TESLA_END,       /* there are no more bytes: the last record was whole */
    TESLA_CUT,       /* the bytes end within a record */
    TESLA_NO_RECORD, /* the bytes are no record of this form */
    TESLA_FAILED     /* the file couldn't be read: errno says why */
};

/* The limits of the fields. */
#define TESLA_MOST_PAYLOAD 1200
#define TESLA_MOST_INTERVAL 1048576
#define TESLA_MOST_CHAIN 7
#define TESLA_MOST_EPOCH 15 /* of `roll`; a follower's may be any number */
/* The chain of a message that a follower accepted on arrival: none has proved it. */
#define TESLA_NO_CHAIN 255
/* The most bytes of a record of any form. */
#define TESLA_MOST (5 + 17 + TESLA_MOST_PAYLOAD)

struct tesla_release {
    uint64_t position; /* how many packets were given before; of a follower: how many records there were before */
    uint32_t epoch;    /* of `roll` and of a follower: the epoch that gave it; else 0 */
    uint32_t interval;
    uint16_t number;  /* its number within the interval */
    uint16_t length;  /* the bytes of the payload */
    uint8_t chain;    /* the least chain that proved it */
    uint8_t accepted; /* 1 where it was accepted on arrival, and then of `early` position and chain are 0; else 0 */
    const unsigned char *payload;
};

/* A number of so many bytes, the highest first. */
static inline uint64_t tesla_number(const unsigned char *bytes, size_t count)
{
    uint64_t number = 0;
    size_t at;
    for (at = 0; at < count; at++)
        number = number << 8 | bytes[at];
    return number;
}

/* How many bytes stand before the payload, where `mark` is the first byte of the record. */
static inline size_t tesla_head(enum tesla_form form, unsigned char mark)
{
    if (form == TESLA_PLAIN)
        return 17;
    if (form == TESLA_FOLLOW)
        return 22;
    return form == TESLA_EARLY && mark == 1 ? 9 : 18;
}

/* Whether the first byte of a record is its kind: 0 where a packet was given, 1 where a message was accepted on arrival. */
static inline int tesla_has_kind(enum tesla_form form)
{
    return form == TESLA_EARLY || form == TESLA_FOLLOW;
}

/* Whether the fields of a head, whose first byte is `mark`, are within their limits. */
static inline int tesla_fits(enum tesla_form form, unsigned char mark, const struct tesla_release *record)
{
    if (tesla_has_kind(form) && mark > 1)
        return 0;
    if (form == TESLA_ROLL && record->epoch > TESLA_MOST_EPOCH)
        return 0;
    if (form == TESLA_FOLLOW && record->accepted ? record->chain != TESLA_NO_CHAIN : record->chain > TESLA_MOST_CHAIN)
        return 0;
    return record->length <= TESLA_MOST_PAYLOAD && record->interval >= 1 && record->interval <= TESLA_MOST_INTERVAL;
}

/* Reads the head of a record. Says whether it is one. */
static inline int tesla_is_head(enum tesla_form form, const unsigned char *bytes, struct tesla_release *record)
{
    size_t head = tesla_head(form, bytes[0]);
    int is_short = head == 9;
    const unsigned char *name = bytes + head - (is_short ? 8 : 9);
    record->accepted = tesla_has_kind(form) && bytes[0] == 1;
    record->epoch = form == TESLA_ROLL ? bytes[0] : (uint32_t)(form == TESLA_FOLLOW ? tesla_number(bytes + 1, 4) : 0);
    record->position = is_short ? 0 : tesla_number(name - 8, 8);
    record->interval = (uint32_t)tesla_number(name, 4);
    record->number = (uint16_t)tesla_number(name + 4, 2);
    record->chain = (uint8_t)(is_short ? 0 : name[6]);
    record->length = (uint16_t)tesla_number(bytes + head - 2, 2);
    record->payload = bytes + head;
    return tesla_fits(form, bytes[0], record);
}

/* Reads the record with which `size` bytes begin. At TESLA_RECORD `used` says how many of them are the record's. At
   TESLA_CUT more bytes are needed: where they are still to come, call it again with these and those. */
static inline enum tesla_result tesla_take(enum tesla_form form, const unsigned char *bytes, size_t size, size_t *used,
                                           struct tesla_release *record)
{
    size_t head;
    *used = 0;
    if (size == 0)
        return TESLA_END;
    head = tesla_head(form, bytes[0]);
    if (size < head)
        return TESLA_CUT;
    if (!tesla_is_head(form, bytes, record))
        return TESLA_NO_RECORD;
    if (size - head < record->length)
        return TESLA_CUT;
    *used = head + record->length;
    return TESLA_RECORD;
}

/* Why a file gave fewer bytes than were asked for. */
static inline enum tesla_result tesla_short(FILE *file, enum tesla_result at_end)
{
    return ferror(file) ? TESLA_FAILED : at_end;
}

/* Reads the next record of a file into room of TESLA_MOST bytes. Waits for the bytes of a pipe, and answers as soon as a
   record is whole. */
static inline enum tesla_result tesla_read(enum tesla_form form, FILE *file, unsigned char *room, struct tesla_release *record)
{
    size_t head;
    if (fread(room, 1, 1, file) != 1)
        return tesla_short(file, TESLA_END);
    head = tesla_head(form, room[0]);
    if (fread(room + 1, 1, head - 1, file) != head - 1)
        return tesla_short(file, TESLA_CUT);
    if (!tesla_is_head(form, room, record))
        return TESLA_NO_RECORD;
    if (fread(room + head, 1, record->length, file) != record->length)
        return tesla_short(file, TESLA_CUT);
    return TESLA_RECORD;
}

#endif
