/* What the parts of the player in C share. */
#ifndef PLAYER_H
#define PLAYER_H

#include "told.h"
#include <assert.h>
#include <pthread.h>
#include <stdlib.h>
#include <string.h>

/* Whether memory is counted now, how often it was asked for, how many blocks are held, and the number of the request that fails. */
extern int counts;
extern long asked, live, fails;

/* A call of the library, in which memory is counted. */
#define counted(call) ({ counts = 1; uint32_t status_ = (call); counts = 0; status_; })

/* Records that are played one after the other, by one thread or by several under one lock. */
struct play {
    pthread_mutex_t lock;
    const uint8_t *records;
    size_t at, length;
    unsigned long entries;
    FILE *out, *shown;
    /* Plays the record that is next, and answers how many bytes it has; 0 ends all. */
    size_t (*one)(struct play *);
    union {
        tesla_receiver receiver;
        tesla_sender sender;
        tesla_follower follower;
    };
};

uint8_t *read_whole(const char *name, size_t *length);
FILE *opened(const char *name);
/* Tells a refusal or nothing, the memory of an opening, and ends. */
void end_refused(uint32_t status, const char *text, uint32_t line, uint32_t kind);
void play_all(struct play *play);
/* Tells what memory an opening took, what was taken behind it, and what is left. */
void tell_memory(long opening, long later);

int replay(char **words);
int send_all(char **words);
int follow(char **words);
int read_setup(char **words);
int make_setup(char **words);
int read_frames(char **words);
int read_lag(char **words);

#endif
