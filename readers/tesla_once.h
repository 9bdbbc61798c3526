/* Tells the first record of each name: docs/operating/LOOKING.md, What a follower wrote.

   One header in C99, which also C++ takes, beside tesla_release.h. It allocates nothing, and reads no file.

   A message that a follower accepted on arrival and released later has two records of one name, which is its epoch, its
   interval and its number. As many names are known as there is room for: those that came last. A record whose name is
   known is a further one.

       static struct tesla_known room[TESLA_MOST_NAMES];
       struct tesla_once once;
       tesla_once_open(&once, room, TESLA_MOST_NAMES);
       while (tesla_read(TESLA_FOLLOW, file, bytes, &record) == TESLA_RECORD)
           if (tesla_once_is_first(&once, &record))
               ...

   A further record doesn't make its name newer: the names are forgotten in the order in which their first records came. */
#ifndef TESLA_ONCE_H
#define TESLA_ONCE_H

#include "tesla_release.h"

/* How many names the examples know. That many take 4 MB. */
#define TESLA_MOST_NAMES 200000

/* A name that is known. The fields are for the functions below. */
struct tesla_known {
    uint32_t epoch, interval;
    uint32_t newest; /* of the list that has the number of this place: the name that came last; `most` where it is empty */
    uint32_t before; /* the name of the same list that came before; `most` where there is none */
    uint16_t number;
};

/* Which names are known. */
struct tesla_once {
    struct tesla_known *room;
    uint32_t most, count;
    uint32_t next; /* the place of the next name: where the room is full, that of the oldest one */
};

/* Begins with room for `most` names, at least 1, of which none is known. */
static inline void tesla_once_open(struct tesla_once *once, struct tesla_known *room, uint32_t most)
{
    uint32_t at;
    once->room = room;
    once->most = most;
    once->count = once->next = 0;
    for (at = 0; at < most; at++)
        room[at].newest = most;
}

/* The list in which a name stands. */
static inline uint32_t tesla_once_list(const struct tesla_once *once, uint32_t epoch, uint32_t interval, uint16_t number)
{
    uint64_t mixed = ((uint64_t)epoch << 32 | interval) * UINT64_C(0x9e3779b97f4a7c15) + number;
    mixed = (mixed ^ mixed >> 32) * UINT64_C(0x9e3779b97f4a7c15);
    return (uint32_t)((mixed ^ mixed >> 32) % once->most);
}

/* Forgets the oldest name, which is the last of its list. */
static inline void tesla_once_forget(struct tesla_once *once)
{
    const struct tesla_known *oldest = &once->room[once->next];
    uint32_t *link = &once->room[tesla_once_list(once, oldest->epoch, oldest->interval, oldest->number)].newest;
    while (*link != once->next)
        link = &once->room[*link].before;
    *link = once->most;
    once->count--;
}

/* Whether no record of this name is known. From then on it is known, and the oldest name is forgotten where there is no room. */
static inline int tesla_once_is_first(struct tesla_once *once, const struct tesla_release *record)
{
    uint32_t list = tesla_once_list(once, record->epoch, record->interval, record->number), at;
    struct tesla_known *known;
    for (at = once->room[list].newest; at != once->most; at = once->room[at].before)
        if (once->room[at].epoch == record->epoch && once->room[at].interval == record->interval
            && once->room[at].number == record->number)
            return 0;
    if (once->count == once->most)
        tesla_once_forget(once);
    known = &once->room[once->next];
    known->epoch = record->epoch;
    known->interval = record->interval;
    known->number = record->number;
    known->before = once->room[list].newest;
    once->room[list].newest = once->next;
    once->next = once->next + 1 == once->most ? 0 : once->next + 1;
    once->count++;
    return 1;
}

#endif
