/* Gives release records by interval and number: docs/operating/RECEIVING.md, The order of messages.

   One header in C99, which also C++ takes, beside tesla_release.h. It allocates nothing, and reads no clock and no file.

   A record is given at once where it has the number behind the one that was given last, in the same interval. Any other
   waits, since an earlier one may still come: until that came, until it has waited for so long, or until the room is full.
   Then the numbers that lack before it are given up. Of a follower's records those of an epoch come before those of the next.

       static struct tesla_held room[4096];
       struct tesla_order order;
       struct tesla_gap gap;
       tesla_order_open(&order, room, 4096, 500000);
       while (tesla_read(TESLA_PLAIN, file, bytes, &record) == TESLA_RECORD) {
           if (tesla_order_put(&order, &record, now) == TESLA_LATE)
               ...
           while ((step = tesla_order_next(&order, TESLA_FOLLOWING, now, &record, &gap)) != TESLA_NONE)
               ...
       }

   Times are in microseconds of any clock that can't be set. */
#ifndef TESLA_ORDER_H
#define TESLA_ORDER_H

#include <string.h>

#include "tesla_release.h"

/* A record that waits. The fields are for the functions below. */
struct tesla_held {
    struct tesla_release record; /* its payload stands below */
    uint64_t came;
    uint64_t turn;         /* how many were taken before */
    size_t place;          /* of the place in the heap that has this number: whose record it is */
    size_t before, behind; /* the ones that came before and behind it, or the next free one; `most` where there is none */
    unsigned char payload[TESLA_MOST_PAYLOAD];
};

/* What waits, and how many records were given, were given up, and came late. */
struct tesla_order {
    uint64_t given, lost, late;
    struct tesla_held *room;
    size_t most, count, oldest, newest, unused;
    uint64_t wait, turn;
    uint32_t epoch, interval; /* of the record that was given last; the interval is 0 where none was */
    uint16_t number;
};

/* Numbers of an interval, from the first to the last, for which no record is waited any more. */
struct tesla_gap {
    uint32_t epoch, interval;
    uint16_t first, last;
};

enum tesla_step {
    TESLA_NONE, /* nothing is to be given, or the record was taken */
    TESLA_GIVE, /* a record is given */
    TESLA_GAP,  /* numbers are given up, and the next call gives the record behind them */
    TESLA_LATE, /* a record came behind its place, or a second time, and isn't given */
    TESLA_FULL  /* there is no room for a record: tesla_order_next wasn't called until it answered TESLA_NONE */
};

/* What may be given. */
enum tesla_which {
    TESLA_FOLLOWING, /* a record that has the number behind the last one; and the first one where the room is full */
    TESLA_DUE,       /* also the first one, where any has waited for long enough */
    TESLA_ALL        /* the first one, since nothing comes any more */
};

/* Begins with room for `most` records, at least 1, of which all but one may wait, each for so many microseconds at most. */
static inline void tesla_order_open(struct tesla_order *order, struct tesla_held *room, size_t most, uint64_t wait)
{
    size_t at;
    memset(order, 0, sizeof *order);
    order->room = room;
    order->most = order->oldest = order->newest = most;
    order->wait = wait;
    for (at = 0; at < most; at++)
        room[at].behind = at + 1;
}

/* Where a name stands to another: below 0 before it, 0 where they are the same, above 0 behind it. */
static inline int tesla_order_names(uint32_t epoch, uint32_t interval, uint16_t number, const struct tesla_release *other)
{
    if (epoch != other->epoch)
        return epoch < other->epoch ? -1 : 1;
    if (interval != other->interval)
        return interval < other->interval ? -1 : 1;
    return (int)number - (int)other->number;
}

/* Whether the record of one place comes before that of another. */
static inline int tesla_order_before(const struct tesla_order *order, size_t one, size_t other)
{
    const struct tesla_held *a = &order->room[one], *b = &order->room[other];
    int names = tesla_order_names(a->record.epoch, a->record.interval, a->record.number, &b->record);
    return names != 0 ? names < 0 : a->turn < b->turn;
}

/* Puts a place where it belongs in the heap, from `at` upwards or downwards. */
static inline void tesla_order_up(struct tesla_order *order, size_t at, size_t place)
{
    while (at > 0 && tesla_order_before(order, place, order->room[(at - 1) / 2].place)) {
        order->room[at].place = order->room[(at - 1) / 2].place;
        at = (at - 1) / 2;
    }
    order->room[at].place = place;
}

static inline void tesla_order_down(struct tesla_order *order, size_t at, size_t place)
{
    size_t next;
    while ((next = 2 * at + 1) < order->count) {
        if (next + 1 < order->count && tesla_order_before(order, order->room[next + 1].place, order->room[next].place))
            next++;
        if (!tesla_order_before(order, order->room[next].place, place))
            break;
        order->room[at].place = order->room[next].place;
        at = next;
    }
    order->room[at].place = place;
}

/* Takes a record that came at this time. TESLA_NONE where it was taken, TESLA_LATE, or TESLA_FULL. Its payload is copied. */
static inline enum tesla_step tesla_order_put(struct tesla_order *order, const struct tesla_release *record, uint64_t now)
{
    size_t place = order->unused;
    struct tesla_held *held;
    if (tesla_order_names(order->epoch, order->interval, order->number, record) >= 0) {
        order->late++;
        return TESLA_LATE;
    }
    if (order->count == order->most)
        return TESLA_FULL;
    held = &order->room[place];
    order->unused = held->behind;
    held->record = *record;
    memcpy(held->payload, record->payload, record->length);
    held->record.payload = held->payload;
    held->came = now;
    held->turn = order->turn++;
    held->before = order->newest;
    held->behind = order->most;
    if (order->newest == order->most)
        order->oldest = place;
    else
        order->room[order->newest].behind = place;
    order->newest = place;
    tesla_order_up(order, order->count++, place);
    return TESLA_NONE;
}

/* When the first of those that wait has waited for long enough; UINT64_MAX where none waits. */
static inline uint64_t tesla_order_due(const struct tesla_order *order)
{
    uint64_t came;
    if (order->count == 0)
        return UINT64_MAX;
    came = order->room[order->oldest].came;
    return came > UINT64_MAX - order->wait ? UINT64_MAX : came + order->wait;
}

/* Takes the first record out. */
static inline struct tesla_release tesla_order_pop(struct tesla_order *order)
{
    size_t place = order->room[0].place;
    struct tesla_held *held = &order->room[place];
    order->count--;
    if (order->count > 0)
        tesla_order_down(order, 0, order->room[order->count].place);
    if (held->before == order->most)
        order->oldest = held->behind;
    else
        order->room[held->before].behind = held->behind;
    if (held->behind == order->most)
        order->newest = held->before;
    else
        order->room[held->behind].before = held->before;
    held->behind = order->unused;
    order->unused = place;
    return held->record;
}

/* The next record that may be given, the gap before it, or one that is late; TESLA_NONE where there is none. Call it behind
   each tesla_order_put, until it answers TESLA_NONE. The payload of the record is there until the next tesla_order_put. */
static inline enum tesla_step tesla_order_next(struct tesla_order *order, enum tesla_which which, uint64_t now,
                                               struct tesla_release *record, struct tesla_gap *gap)
{
    const struct tesla_release *first;
    uint32_t number;
    int same;
    if (order->count == 0)
        return TESLA_NONE;
    first = &order->room[order->room[0].place].record;
    same = first->epoch == order->epoch && first->interval == order->interval;
    number = same ? order->number + UINT32_C(1) : 0;
    if (!(same && first->number == number) && order->count < order->most
        && which != TESLA_ALL && !(which == TESLA_DUE && tesla_order_due(order) <= now))
        return TESLA_NONE;
    if (number < first->number) {
        gap->epoch = first->epoch;
        gap->interval = first->interval;
        gap->first = (uint16_t)number;
        gap->last = (uint16_t)(first->number - 1);
        order->lost += first->number - number;
        order->epoch = first->epoch;
        order->interval = first->interval;
        order->number = gap->last;
        return TESLA_GAP;
    }
    *record = tesla_order_pop(order);
    if (number > record->number) {
        order->late++;
        return TESLA_LATE;
    }
    order->epoch = record->epoch;
    order->interval = record->interval;
    order->number = record->number;
    order->given++;
    return TESLA_GIVE;
}

#endif
