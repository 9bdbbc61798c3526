/* What the players in C and in C++ share: bytes of records, and what they tell in the words of the program. */
#ifndef TOLD_H
#define TOLD_H

#include "tesla.h"
#include <inttypes.h>
#include <stdio.h>
#include <stdlib.h>
#include <string.h>

static inline uint64_t big(const uint8_t *at, int bytes) {
    uint64_t value = 0;
    for (int i = 0; i < bytes; i++) value = value << 8 | at[i];
    return value;
}

static inline uint8_t *put(uint8_t *at, uint64_t value, int bytes) {
    while (bytes--) *at++ = (uint8_t)(value >> (8 * bytes));
    return at;
}

/* The name of a kind of a refused text. */
static inline const char *kind_name(uint32_t kind) {
    static const char *const setups[] = {"BadLine", "BadNumber", "BadHex", "NoChain", "TooManyChains", "DelaysNotRising",
                                         "IndexPastLast", "LimitPassed", "TooLong", "EqualCommitments"};
    static const char *const seeds[] = {"BadLine", "BadHex", "WrongCount", "TooLong"};
    if (1 <= kind && kind <= 10) return setups[kind - 1];
    if (16 <= kind && kind <= 19) return seeds[kind - 16];
    return kind == TESLA_WRONG_SEED ? "WrongSeed" : "?";
}

/* The name of a cause, as `send` tells it of a record of its script. */
static inline const char *cause_name(uint32_t kind) {
    static const char *const causes[] = {"?", "?", "Early", "Over", "Backward", "IntervalFull", "?"};
    return causes[kind < 7 ? kind : 0];
}

/* An answer to an arrival, as `show` prints it. */
static inline void tell_verdict(FILE *shown, uint32_t kind, uint32_t chains, uint64_t number) {
    static const char *const names[] = {"Malformed", "Foreign", "Misfit", "Future", "BadKey", "Late", "Repeat", "Full", "Kept", "Keys"};
    fputs(kind < 10 ? names[kind] : "?", shown);
    if (kind == TESLA_FOREIGN) fprintf(shown, " %" PRIu64, number);
    if (kind == TESLA_FUTURE && chains) fprintf(shown, " %" PRIu64, number);
    if (kind == TESLA_FUTURE && !chains) fputs(" none", shown);
    if (kind == TESLA_BADKEY || kind == TESLA_KEPT) fprintf(shown, " %" PRIu32, chains);
}

/* The name of the message that a datagram brings, as `show` prints it. */
static inline void tell_name(FILE *shown, uint32_t status, const tesla_frame *frame) {
    if (status == TESLA_OK && frame->kind == TESLA_MESSAGE) fprintf(shown, " %" PRIu32 "/%u", frame->interval, frame->number);
    else fputs(" -", shown);
}

/* The head of a frame in a line of its own. */
static inline void tell_frame(uint32_t status, const tesla_frame *it) {
    if (status != TESLA_OK) puts("none");
    else if (it->kind == TESLA_MESSAGE)
        printf("message %016" PRIx64 " %" PRIu32 " %u %u version %" PRIu32 " tag %" PRIu32 " keys %" PRIu32 "\n", it->stream, it->interval,
               it->number, it->length, it->version, it->tag_length, it->keys);
    else printf("disclosure %016" PRIx64 " version %" PRIu32 " keys %" PRIu32 "\n", it->stream, it->version, it->keys);
}

/* What a setup says, in lines of which `info` prints the first ones so. */
static inline void tell_setup(const tesla_setup *it) {
    printf("stream %016" PRIx64 "\nversion %" PRIu32 "\ntag %" PRIu32 "\ninterval %" PRIu64 "\nlast %" PRIu32 "\nstart %" PRIu64 "\n", it->stream,
           it->version, it->tag_length, it->interval, it->last, it->start);
    for (uint32_t k = 0; k < it->chains; k++) {
        printf("chain %" PRIu32 " delay %" PRIu32 " index %" PRIu32 " key ", k, it->rows[k].delay, it->rows[k].index);
        for (int i = 0; i < 32; i++) printf("%02x", it->rows[k].key[i]);
        putchar('\n');
    }
}

/* The parameters of a setup, of words: version, stream, start, interval, last interval, bytes of a tag, and delays with commas between. */
static inline tesla_parameters parameters_of(char **words) {
    tesla_parameters it;
    memset(&it, 0, sizeof it);
    it.version = (uint32_t)strtoul(words[0], NULL, 10);
    it.stream = strtoull(words[1], NULL, 16);
    it.start = strtoull(words[2], NULL, 10);
    it.interval = strtoull(words[3], NULL, 10);
    it.last = (uint32_t)strtoul(words[4], NULL, 10);
    it.tag_length = (uint32_t)strtoul(words[5], NULL, 10);
    for (char *at = words[6]; *at; it.chains++) {
        uint32_t delay = (uint32_t)strtoul(at, &at, 10);
        if (it.chains < 8) it.delays[it.chains] = delay;
        if (*at == ',') at++;
    }
    return it;
}

/* What an exchange of times comes to, as `lag` tells it. */
static inline void tell_lag(uint32_t status, int64_t lag, uint32_t kind) {
    static const char *const kinds[] = {"?", "ask 0 BadAsk", "reply Malformed", "reply BadTag", "reply OtherAsk", "TooLarge"};
    if (status == TESLA_OK) printf("lag %" PRId64 "\n", lag);
    else printf("refused %s\n", kinds[kind < 6 ? kind : 0]);
}

static inline void tell_report(const tesla_report *report) {
    static const char *const names[] = {"arrivals", "malformed", "foreign", "misfit", "future", "badkey", "late", "repeat", "full", "kept", "keys", "given"};
    const uint64_t *told = &report->arrivals;
    for (int i = 0; i < 12; i++) printf("%s %" PRIu64 "\n", names[i], told[i]);
}

#endif
