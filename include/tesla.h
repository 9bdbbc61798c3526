/* libtesla: receivers and senders of TESLA streams (RFC 4082) for C99 and C++11.
 *
 * A slot is 16 bytes of the caller, begun with {0}. A call that opens fills it, and a close empties it and gives all memory
 * back. No call but an opening and the making of a setup takes memory, and none waits, prints or reads a clock: datagrams and
 * readings are passed in.
 *
 * What isn't checked: a pointer has to point to what its type says, and a length to be that of the bytes. A slot is never
 * copied or written, and has one call at a time: threads that share one hold a lock of their own around each call. malloc,
 * realloc and free come from one allocator. No call is made from a signal handler, or from a forked child of a process with
 * threads. The inline functions below refuse NULL, but for bytes of length 0, which may have none.
 */
#ifndef TESLA_H
#define TESLA_H

#include <stddef.h>
#include <stdint.h>

#ifdef __cplusplus
extern "C" {
#endif

/* Major, minor and patch of this header, in 8 bits each; tesla_version() tells those of the library. */
#define TESLA_VERSION 0x000100

/* What calls answer. At any status but TESLA_OK, TESLA_EMPTY and TESLA_OVER a slot is as it was. */
#define TESLA_OK 0
#define TESLA_REFUSED 1    /* the text, the message or the disclosure is refused: why is told */
#define TESLA_BAD_NUMBER 2 /* a number is outside its limits: its place is told */
#define TESLA_NO_MEMORY 3
#define TESLA_WRONG_SLOT 4 /* full where it should be empty, or it doesn't hold what the call is for */
#define TESLA_SPENT 5      /* 2^64 - 1 calls were made of this receiver, or 2^63 of this follower */
#define TESLA_EMPTY 6      /* no packet waits now */
#define TESLA_OVER 7       /* no packet waits, and every ingest has ended */
#define TESLA_NULL 8       /* a pointer is NULL: of the functions below alone */
#define TESLA_TOO_SMALL 9  /* the text doesn't fit in the room: its size is told */

/* Why an opening is refused. For TESLA_REFUSED the first refused line, from 1 on, or 0 for the whole text, and its kind; for
 * TESLA_BAD_NUMBER line is 4 for the capacity, 5 for the quota and 6 for the ingests, and kind is 0. */
typedef struct tesla_refusal {
    uint32_t line;
    uint32_t kind;
} tesla_refusal;

#define TESLA_BAD_LINE 1
#define TESLA_BAD_DECIMAL 2 /* the kind BadNumber */
#define TESLA_BAD_HEX 3
#define TESLA_NO_CHAIN 4
#define TESLA_TOO_MANY_CHAINS 5
#define TESLA_DELAYS_NOT_RISING 6
#define TESLA_INDEX_PAST_LAST 7
#define TESLA_LIMIT_PASSED 8
#define TESLA_TOO_LONG 9
#define TESLA_EQUAL_COMMITMENTS 10 /* of a follower alone: the line of the first chain whose commitment a chain before has */

/* The verdict on a datagram. chains is the chain for TESLA_BADKEY, the set of safe chains for TESLA_KEPT, with bit c for chain
 * c, and for TESLA_FUTURE 1 where there is a bound; number is the stream for TESLA_FOREIGN, and the bound for TESLA_FUTURE. */
typedef struct tesla_verdict {
    uint32_t kind;
    uint32_t chains;
    uint64_t number;
} tesla_verdict;

#define TESLA_MALFORMED 0
#define TESLA_FOREIGN 1
#define TESLA_MISFIT 2
#define TESLA_FUTURE 3
#define TESLA_BADKEY 4
#define TESLA_LATE 5
#define TESLA_REPEAT 6
#define TESLA_FULL 7
#define TESLA_KEPT 8
#define TESLA_KEYS 9

/* A packet that is given: how many were given before it, its interval and number, the bytes of its payload, and the chain that
 * proved it. */
typedef struct tesla_head {
    uint64_t position;
    uint32_t interval;
    uint16_t number;
    uint16_t length;
    uint32_t chain;
} tesla_head;

/* Room for a payload, which stands at its start. */
typedef struct tesla_payload {
    uint8_t bytes[1200];
} tesla_payload;

/* How many arrivals there were, how many had each verdict, and how many packets were given. */
typedef struct tesla_report {
    uint64_t arrivals, malformed, foreign, misfit, future, badkey, late, repeat, full, kept, keys, given;
} tesla_report;

/* A slot for a receiver: tesla_receiver it = {0}; */
typedef struct tesla_receiver {
    uint64_t full;
    void *at;
} tesla_receiver;

/* A slot for a sender: tesla_sender it = {0}; */
typedef struct tesla_sender {
    uint64_t full;
    void *at;
} tesla_sender;

/* Why no sender is opened, or no setup is made. text is 1 for the text of the setup and 2 for that of the seeds, and line its
 * first refused line, from 1 on, or 0 for the whole text; the seed of chain k has line k + 2. kind is a kind of tesla_refusal
 * for the setup, and one of the next for the seeds; chain is that of a wrong seed, and else 0. For TESLA_BAD_NUMBER line is the
 * place of the field of tesla_parameters, and the others are 0. */
typedef struct tesla_sender_refusal {
    uint32_t text;
    uint32_t line;
    uint32_t kind;
    uint32_t chain;
} tesla_sender_refusal;

#define TESLA_SEEDS_BAD_LINE 16
#define TESLA_SEEDS_BAD_HEX 17
#define TESLA_SEEDS_WRONG_COUNT 18 /* there are more seeds than chains, or fewer */
#define TESLA_SEEDS_TOO_LONG 19
#define TESLA_WRONG_SEED 32 /* the seed doesn't give the key of the setup */

/* Why a message or a disclosure isn't accepted: the first kind that applies, and its number. */
typedef struct tesla_cause {
    uint32_t kind;
    uint64_t number;
} tesla_cause;

#define TESLA_PAYLOAD_TOO_LONG 1 /* the payload has this many bytes, more than 1200 */
#define TESLA_TOO_EARLY 2        /* this reading is before the start, or in interval 0 */
#define TESLA_PAST_LAST 3        /* the reading is in this interval, after the last one */
#define TESLA_BACKWARD 4         /* the last accepted call was of this interval, which is after that of the reading */
#define TESLA_INTERVAL_FULL 5    /* the 65536 numbers of this interval are used */
#define TESLA_NOTHING_DUE 6      /* no chain has a key to disclose yet; the number is 0 */

/* Room for a frame, which stands at its start. */
typedef struct tesla_datagram {
    uint8_t bytes[2048];
} tesla_datagram;
/* A slot for a follower: the live epochs of a feed whose streams hand over one to the next. tesla_follower it = {0}; */
typedef struct tesla_follower {
    uint64_t full;
    void *at;
} tesla_follower;

/* The verdict of a follower on a datagram: the number of the epoch to which it went, kind, chains and number as of
 * tesla_verdict, and what becomes of its message before its key is disclosed. */
typedef struct tesla_follow_verdict {
    uint32_t epoch;
    uint32_t kind;
    uint32_t chains;
    uint32_t acceptance;
    uint64_t number;
} tesla_follow_verdict;

#define TESLA_UNPROMISED 0 /* no authentic message before promised it, or it is none */
#define TESLA_ACCEPTED 1   /* it was promised: it is accepted now, and waits to be taken */
#define TESLA_UNQUEUED 2   /* it was promised, and there was no place for it */

/* A record that a follower gives: its kind, the number of its epoch, how many records were given before it, the interval and
 * the number of its message, the bytes of its payload, and the chain that proved it, 255 in one of TESLA_EARLY. A message that
 * was given early comes once more when it is released. */
typedef struct tesla_record {
    uint32_t kind;
    uint32_t epoch;
    uint64_t position;
    uint32_t interval;
    uint16_t number;
    uint16_t length;
    uint32_t chain;
} tesla_record;

#define TESLA_RELEASED 0
#define TESLA_EARLY 1

/* The counts of all epochs together, each of which stands still at 2^64 - 1; how many epochs were opened, and how many are
 * open; how many records were early, how many promised messages found no place, how many packets were held and not given in
 * epochs when these were closed, and how many records were given. */
typedef struct tesla_follow_report {
    tesla_report counts;
    uint64_t epochs, open_epochs, early, unqueued, dropped, records;
} tesla_follow_report;

/* A chain of a setup: its delay in intervals, and the index and the key that it commits to. */
typedef struct tesla_chain {
    uint32_t delay;
    uint32_t index;
    uint8_t key[32];
} tesla_chain;

/* What a setup says: the stream, the microseconds at which interval 0 begins and those of an interval, the last interval, the
 * version, the bytes of a tag, and how many chains; places of rows behind the last chain are zeros. */
typedef struct tesla_setup {
    uint64_t stream, start, interval;
    uint32_t last, version, tag_length, chains;
    tesla_chain rows[8];
} tesla_setup;

/* What a setup is made of beside its seeds, as fields of tesla_setup, and the limits of each. start and stream are any numbers.
 * delays has a delay for each chain, each above the one before; places behind the last chain aren't read. The places of the
 * fields are 3 to 7 for those from interval to chains, and 8 + k for the delay of chain k. */
typedef struct tesla_parameters {
    uint64_t stream, start;
    uint64_t interval;   /* 1000 to 3600000000 microseconds */
    uint32_t last;       /* 1 to 1048576 */
    uint32_t version;    /* 1 or 2 */
    uint32_t tag_length; /* 16 in version 1, 10 to 32 in version 2 */
    uint32_t chains;     /* 1 to 4 in version 1, 1 to 8 in version 2 */
    uint32_t delays[8];  /* 1 to 4096 */
} tesla_parameters;

/* No text of a setup is longer. */
#define TESLA_MOST_SETUP 4096

/* The head of a frame: its stream, of a message its interval, its number and the bytes of its payload, its version and kind, of
 * a message the bytes of a tag, and how many keys it tells. */
typedef struct tesla_frame {
    uint64_t stream;
    uint32_t interval;
    uint16_t number;
    uint16_t length;
    uint32_t version, kind, tag_length, keys;
} tesla_frame;

#define TESLA_MESSAGE 0
#define TESLA_DISCLOSURE 1

/* The key that a sender and a receiver share for their exchange of times. */
typedef struct tesla_shared_key {
    uint8_t bytes[32];
} tesla_shared_key;

/* Why an exchange has no lag: the first that applies. */
#define TESLA_LAG_BAD_ASK 1   /* the ask isn't "TASK", 1 and a time of 8 bytes, the highest first */
#define TESLA_LAG_MALFORMED 2 /* the reply isn't 53 bytes that begin with "TREP" and 1 */
#define TESLA_LAG_BAD_TAG 3   /* the reply wasn't made under this key */
#define TESLA_LAG_OTHER_ASK 4 /* the reply is to another ask */
#define TESLA_LAG_TOO_LARGE 5 /* the lag doesn't fit in 64 bits with a sign */

/* The functions of the library. They take no NULL, but for bytes of length 0; the inline functions below do. */
uint32_t tesla_version(void);
uint32_t tesla_receiver_open(tesla_receiver *slot, const uint8_t *text, size_t length, int64_t lag, uint32_t capacity,
                             uint32_t quota, uint8_t ingests, tesla_refusal *refusal);
uint32_t tesla_receiver_arrive(tesla_receiver *slot, uint8_t ingest, uint64_t reading, const uint8_t *datagram, size_t length,
                               tesla_verdict *verdict);
uint32_t tesla_receiver_take(tesla_receiver *slot, uint8_t releaser, tesla_payload *payload, tesla_head *head);
uint32_t tesla_receiver_end(tesla_receiver *slot, uint8_t ingest);
uint32_t tesla_receiver_report(tesla_receiver *slot, tesla_report *report);
uint32_t tesla_receiver_waiting(tesla_receiver *slot, uint64_t *count);
uint32_t tesla_receiver_close(tesla_receiver *slot);
uint32_t tesla_sender_open(tesla_sender *slot, const uint8_t *setup, size_t setup_length, const uint8_t *seeds,
                           size_t seeds_length, tesla_sender_refusal *refusal);
uint32_t tesla_sender_message(tesla_sender *slot, uint64_t reading, const uint8_t *payload, size_t length,
                              tesla_datagram *into, size_t *written, tesla_cause *cause);
uint32_t tesla_sender_disclose(tesla_sender *slot, uint64_t reading, tesla_datagram *into, size_t *written,
                               tesla_cause *cause);
uint32_t tesla_sender_begin_at(tesla_sender *slot, uint64_t interval);
uint32_t tesla_sender_make_next(tesla_sender *slot);
uint32_t tesla_sender_interval_at(tesla_sender *slot, uint64_t reading, uint64_t *interval);
uint32_t tesla_sender_close(tesla_sender *slot);
uint32_t tesla_follower_open(tesla_follower *slot, const uint8_t *text, size_t length, int64_t lag, uint32_t capacity,
                             uint32_t quota, uint8_t ingests, tesla_refusal *refusal);
uint32_t tesla_follower_arrive(tesla_follower *slot, uint8_t ingest, uint64_t reading, const uint8_t *datagram, size_t length,
                               tesla_follow_verdict *verdict);
uint32_t tesla_follower_take(tesla_follower *slot, uint8_t releaser, tesla_payload *payload, tesla_record *record);
uint32_t tesla_follower_end(tesla_follower *slot, uint8_t ingest);
uint32_t tesla_follower_report(tesla_follower *slot, tesla_follow_report *report);
uint32_t tesla_follower_waiting(tesla_follower *slot, uint64_t *count);
uint32_t tesla_follower_close(tesla_follower *slot);
uint32_t tesla_setup_read(const uint8_t *text, size_t length, tesla_setup *setup, tesla_refusal *refusal);
uint32_t tesla_setup_make(const tesla_parameters *parameters, const uint8_t *seeds, size_t seeds_length, uint8_t *room,
                          size_t room_length, size_t *size, tesla_sender_refusal *refusal);
uint32_t tesla_frame_read(const uint8_t *datagram, size_t length, tesla_frame *frame);
uint32_t tesla_lag_of(const tesla_shared_key *key, const uint8_t *ask, size_t ask_length, const uint8_t *reply,
                      size_t reply_length, uint32_t drift, int64_t *lag, uint32_t *kind);

/* Opens a receiver into an empty slot, of the setup that the bytes spell, for a sender's clock that is ahead by lag
 * microseconds at most. capacity is 1 to 65536 packets, quota 1 to capacity packets of one interval, ingests 1 at least. The
 * first of TESLA_WRONG_SLOT, TESLA_BAD_NUMBER, TESLA_REFUSED and TESLA_NO_MEMORY that applies is told. */
static inline uint32_t tesla_open(tesla_receiver *slot, const uint8_t *text, size_t length, int64_t lag, uint32_t capacity,
                                  uint32_t quota, uint8_t ingests, tesla_refusal *refusal) {
    if (!slot || !refusal || (!text && length)) return TESLA_NULL;
    return tesla_receiver_open(slot, text, length, lag, capacity, quota, ingests, refusal);
}

/* Judges a datagram that came to an ingest at this reading of the receiver's clock, in microseconds. */
static inline uint32_t tesla_arrive(tesla_receiver *slot, uint8_t ingest, uint64_t reading, const uint8_t *datagram,
                                    size_t length, tesla_verdict *verdict) {
    if (!slot || !verdict || (!datagram && length)) return TESLA_NULL;
    return tesla_receiver_arrive(slot, ingest, reading, datagram, length, verdict);
}

/* Gives the next authentic packet; the bytes behind its payload stay. TESLA_EMPTY and TESLA_OVER give none. */
static inline uint32_t tesla_take(tesla_receiver *slot, uint8_t releaser, tesla_payload *payload, tesla_head *head) {
    if (!slot || !payload || !head) return TESLA_NULL;
    return tesla_receiver_take(slot, releaser, payload, head);
}

/* Ends an ingest; one that isn't below the number of ingests counts for nothing. */
static inline uint32_t tesla_end(tesla_receiver *slot, uint8_t ingest) {
    return slot ? tesla_receiver_end(slot, ingest) : TESLA_NULL;
}

/* Tells the counts of all calls so far. */
static inline uint32_t tesla_tell_report(tesla_receiver *slot, tesla_report *report) {
    return slot && report ? tesla_receiver_report(slot, report) : TESLA_NULL;
}

/* Tells how many released packets wait to be taken. */
static inline uint32_t tesla_tell_waiting(tesla_receiver *slot, uint64_t *count) {
    return slot && count ? tesla_receiver_waiting(slot, count) : TESLA_NULL;
}

/* Closes the receiver and gives its memory back; an empty slot stays empty. */
static inline uint32_t tesla_close(tesla_receiver *slot) {
    return slot ? tesla_receiver_close(slot) : TESLA_NULL;
}

/* Opens a sender into an empty slot, of the setup and the seeds that the bytes spell: as many seeds as the setup has chains, of
 * which each gives the key of the setup. It takes as many evaluations of HMAC as all chains have keys together. The first of
 * TESLA_WRONG_SLOT, TESLA_REFUSED and TESLA_NO_MEMORY that applies is told. */
static inline uint32_t tesla_send_open(tesla_sender *slot, const uint8_t *setup, size_t setup_length, const uint8_t *seeds,
                                       size_t seeds_length, tesla_sender_refusal *refusal) {
    if (!slot || !refusal || (!setup && setup_length) || (!seeds && seeds_length)) return TESLA_NULL;
    return tesla_sender_open(slot, setup, setup_length, seeds, seeds_length, refusal);
}

/* Makes the frame of a message of at most 1200 bytes at this reading of the sender's clock, in microseconds, and tells its
 * length; the bytes behind it stay. TESLA_REFUSED tells the cause, and then nothing else has changed. */
static inline uint32_t tesla_send_message(tesla_sender *slot, uint64_t reading, const uint8_t *payload, size_t length,
                                          tesla_datagram *into, size_t *written, tesla_cause *cause) {
    if (!slot || !into || !written || !cause || (!payload && length)) return TESLA_NULL;
    return tesla_sender_message(slot, reading, payload, length, into, written, cause);
}

/* Makes the frame that tells the keys that are due at this reading of the sender's clock, as tesla_send_message does that of a
 * message. */
static inline uint32_t tesla_send_disclose(tesla_sender *slot, uint64_t reading, tesla_datagram *into, size_t *written,
                                           tesla_cause *cause) {
    if (!slot || !into || !written || !cause) return TESLA_NULL;
    return tesla_sender_disclose(slot, reading, into, written, cause);
}

/* Goes on to an interval: from here on the sender answers as if its last accepted call were of that interval. A sender that was
 * opened again, of the same seeds, never sends for an interval in which the one before it did: it goes on to a later one.
 * TESLA_BAD_NUMBER: the interval is before that of the last accepted call. */
static inline uint32_t tesla_send_begin_at(tesla_sender *slot, uint64_t interval) {
    return slot ? tesla_sender_begin_at(slot, interval) : TESLA_NULL;
}

/* Makes the keys of the interval after that of the last accepted call, where there is one, so that a first message there waits
 * for no key. Nothing else changes. */
static inline uint32_t tesla_send_make_next(tesla_sender *slot) {
    return slot ? tesla_sender_make_next(slot) : TESLA_NULL;
}

/* Tells the interval of a reading of the sender's clock: 0 before the start. */
static inline uint32_t tesla_send_interval_at(tesla_sender *slot, uint64_t reading, uint64_t *interval) {
    return slot && interval ? tesla_sender_interval_at(slot, reading, interval) : TESLA_NULL;
}

/* Closes the sender and gives its memory back; an empty slot stays empty. */
static inline uint32_t tesla_send_close(tesla_sender *slot) {
    return slot ? tesla_sender_close(slot) : TESLA_NULL;
}

/* Opens a follower into an empty slot, as tesla_open does a receiver, of the setup of the first stream, in which no two
 * commitments may be equal. capacity is 1 to 4096: the packets of each epoch, and the messages that wait. The memory of all
 * epochs, of which three are open at most, is taken here. */
static inline uint32_t tesla_follow_open(tesla_follower *slot, const uint8_t *text, size_t length, int64_t lag,
                                         uint32_t capacity, uint32_t quota, uint8_t ingests, tesla_refusal *refusal) {
    if (!slot || !refusal || (!text && length)) return TESLA_NULL;
    return tesla_follower_open(slot, text, length, lag, capacity, quota, ingests, refusal);
}

/* Judges a datagram that came to an ingest at this reading of the receiver's clock, in microseconds: in the open epoch of its
 * stream, and in the oldest where there is none. TESLA_SPENT: 2^63 calls were made of this follower. */
static inline uint32_t tesla_follow_arrive(tesla_follower *slot, uint8_t ingest, uint64_t reading, const uint8_t *datagram,
                                           size_t length, tesla_follow_verdict *verdict) {
    if (!slot || !verdict || (!datagram && length)) return TESLA_NULL;
    return tesla_follower_arrive(slot, ingest, reading, datagram, length, verdict);
}

/* Gives the next record; the bytes behind its payload stay. A released packet that hands over to a stream that isn't known
 * opens the next epoch. TESLA_EMPTY and TESLA_OVER give none. */
static inline uint32_t tesla_follow_take(tesla_follower *slot, uint8_t releaser, tesla_payload *payload, tesla_record *record) {
    if (!slot || !payload || !record) return TESLA_NULL;
    return tesla_follower_take(slot, releaser, payload, record);
}

/* Ends an ingest in all epochs; one that isn't below the number of ingests counts for nothing. */
static inline uint32_t tesla_follow_end(tesla_follower *slot, uint8_t ingest) {
    return slot ? tesla_follower_end(slot, ingest) : TESLA_NULL;
}

/* Tells the counts of all calls so far. */
static inline uint32_t tesla_follow_tell_report(tesla_follower *slot, tesla_follow_report *report) {
    return slot && report ? tesla_follower_report(slot, report) : TESLA_NULL;
}

/* Tells how many messages and packets wait to be taken. */
static inline uint32_t tesla_follow_tell_waiting(tesla_follower *slot, uint64_t *count) {
    return slot && count ? tesla_follower_waiting(slot, count) : TESLA_NULL;
}

/* Closes the follower and gives its memory back; an empty slot stays empty. */
static inline uint32_t tesla_follow_close(tesla_follower *slot) {
    return slot ? tesla_follower_close(slot) : TESLA_NULL;
}

/* Reads a setup. TESLA_REFUSED tells the line and the kind; what isn't told stays. */
static inline uint32_t tesla_read_setup(const uint8_t *text, size_t length, tesla_setup *setup, tesla_refusal *refusal) {
    if (!setup || !refusal || (!text && length)) return TESLA_NULL;
    return tesla_setup_read(text, length, setup, refusal);
}

/* Makes the setup of these parameters and of the seeds that the bytes spell, as many as there are chains: each chain commits to
 * the key of index 0 to which its seed leads. Its text is written at the start of the room, and its size told; the bytes behind
 * it stay. It takes time in proportion to the lengths of the chains, last evaluations of HMAC for each: a second or two for a
 * chain of a million keys. The memory that it takes is given back. The first of TESLA_BAD_NUMBER, TESLA_REFUSED,
 * TESLA_NO_MEMORY and TESLA_TOO_SMALL that applies is told, and the room stays; the last tells the size of the text, which is
 * at most TESLA_MOST_SETUP. The seeds are the sender's secret: what is read of them isn't wiped from memory. */
static inline uint32_t tesla_make_setup(const tesla_parameters *parameters, const uint8_t *seeds, size_t seeds_length,
                                        uint8_t *room, size_t room_length, size_t *size, tesla_sender_refusal *refusal) {
    if (!parameters || !size || !refusal || (!seeds && seeds_length) || (!room && room_length)) return TESLA_NULL;
    return tesla_setup_make(parameters, seeds, seeds_length, room, room_length, size, refusal);
}

/* Reads the head of a frame, which proves nothing of it. TESLA_REFUSED: the datagram is no frame. */
static inline uint32_t tesla_read_frame(const uint8_t *datagram, size_t length, tesla_frame *frame) {
    if (!frame || (!datagram && length)) return TESLA_NULL;
    return tesla_frame_read(datagram, length, frame);
}

/* Tells by how many microseconds the sender's clock is ahead at most, which an opening takes as lag: from a receiver's ask, the
 * sender's reply to it under the key that both share, and the microseconds that the clocks drift apart until the next exchange.
 * TESLA_REFUSED tells the kind, and the lag stays. */
static inline uint32_t tesla_tell_lag(const tesla_shared_key *key, const uint8_t *ask, size_t ask_length, const uint8_t *reply,
                                      size_t reply_length, uint32_t drift, int64_t *lag, uint32_t *kind) {
    if (!key || !lag || !kind || (!ask && ask_length) || (!reply && reply_length)) return TESLA_NULL;
    return tesla_lag_of(key, ask, ask_length, reply, reply_length, drift, lag, kind);
}

#ifdef __cplusplus
}
#endif

#endif
