/* embedded: what libtesla takes in C.
 *
 *   embedded replay SETUP LAG CAPACITY CAPTURE OUT   does what `tesla replay` does
 *   embedded receive SETUP LAG CAPACITY CAPTURE      calls a receiver for each record of the capture, in memory
 *   embedded follow SETUP LAG CAPACITY CAPTURE       the same of a follower
 *   embedded send SETUP SECRET SCRIPT                calls a sender for each record of the script, in memory
 *
 * The last three print how many calls they made and the nanoseconds of processor time that all of them took; what takes memory for a
 * capture or a script stands before. A status that shouldn't come ends it. */
#include "tesla.h"
#include <stdio.h>
#include <stdlib.h>
#include <string.h>
#include <time.h>

static uint64_t big(const uint8_t *at, int bytes) {
    uint64_t value = 0;
    for (int i = 0; i < bytes; i++) value = value << 8 | at[i];
    return value;
}

static uint8_t *put(uint8_t *at, uint64_t value, int bytes) {
    while (bytes--) *at++ = (uint8_t)(value >> (8 * bytes));
    return at;
}

static void fail(const char *what, uint32_t status) {
    fprintf(stderr, "%s: status %u\n", what, (unsigned)status);
    exit(3);
}

static uint8_t *read_whole(const char *name, size_t *length) {
    FILE *file = fopen(name, "rb");
    if (!file || fseek(file, 0, SEEK_END)) fail(name, 0);
    *length = (size_t)ftell(file);
    rewind(file);
    uint8_t *bytes = malloc(*length + 1);
    if (!bytes || fread(bytes, 1, *length, file) != *length) fail(name, 0);
    fclose(file);
    return bytes;
}

static uint64_t nanoseconds(void) {
    struct timespec now;
    clock_gettime(CLOCK_PROCESS_CPUTIME_ID, &now);
    return (uint64_t)now.tv_sec * 1000000000 + (uint64_t)now.tv_nsec;
}

static void tell(uint64_t calls, uint64_t since) {
    printf("calls %llu\nns %llu\n", (unsigned long long)calls, (unsigned long long)(nanoseconds() - since));
}

static void open_receiver(tesla_receiver *it, char **words) {
    size_t length;
    uint8_t *setup = read_whole(words[0], &length);
    tesla_refusal refusal;
    uint32_t capacity = (uint32_t)atol(words[2]), status = tesla_open(it, setup, length, atoll(words[1]), capacity, capacity, 1, &refusal);
    if (status != TESLA_OK) fail(words[0], status);
    free(setup);
}

static uint32_t write_next(tesla_receiver *it, FILE *out) {
    tesla_payload payload;
    tesla_head head;
    uint32_t status = tesla_take(it, 0, &payload, &head);
    if (status != TESLA_OK) return status;
    uint8_t record[17];
    put(put(put(put(put(record, head.position, 8), head.interval, 4), head.number, 2), head.chain, 1), head.length, 2);
    fwrite(record, 1, sizeof record, out);
    fwrite(payload.bytes, 1, head.length, out);
    return status;
}

/* Plays a capture that is read in pieces, as the program reads it. */
static int replay(char **words) {
    static const char *names[] = {"arrivals", "malformed", "foreign", "misfit", "future", "badkey", "late", "repeat", "full", "kept", "keys", "given"};
    tesla_receiver it = {0};
    open_receiver(&it, words);
    FILE *capture = fopen(words[3], "rb"), *out = fopen(words[4], "wb");
    uint8_t head[10], datagram[2048];
    if (!capture || !out || fread(head, 1, 5, capture) != 5) fail(words[3], 0);
    for (int kind; (kind = getc(capture)) != EOF;) {
        if (kind == 2) {
            write_next(&it, out);
            continue;
        }
        tesla_verdict verdict;
        if (fread(head, 1, sizeof head, capture) != sizeof head) fail(words[3], 0);
        size_t length = (size_t)big(head + 8, 2);
        if (length > sizeof datagram || fread(datagram, 1, length, capture) != length) fail(words[3], 0);
        uint32_t status = tesla_arrive(&it, 0, big(head, 8), datagram, length, &verdict);
        if (status != TESLA_OK) fail("arrival", status);
    }
    tesla_end(&it, 0);
    while (write_next(&it, out) == TESLA_OK) {}
    tesla_report report;
    if (tesla_tell_report(&it, &report) != TESLA_OK || fclose(out)) fail(words[4], 0);
    const uint64_t *told = &report.arrivals;
    for (int i = 0; i < 12; i++) printf("%s %llu\n", names[i], (unsigned long long)told[i]);
    tesla_close(&it);
    return 0;
}

static int receive(char **words) {
    tesla_receiver it = {0};
    tesla_verdict verdict;
    tesla_payload payload;
    tesla_head head;
    size_t length;
    uint8_t *capture = read_whole(words[3], &length);
    open_receiver(&it, words);
    uint64_t calls = 0, since = nanoseconds();
    for (size_t at = 5; at < length; calls++) {
        const uint8_t *record = capture + at;
        uint32_t status = *record == 2 ? tesla_take(&it, 0, &payload, &head)
                                       : tesla_arrive(&it, 0, big(record + 1, 8), record + 11, big(record + 9, 2), &verdict);
        if (status != TESLA_OK && status != TESLA_EMPTY) fail("call", status);
        at += *record == 2 ? 1 : 11 + big(record + 9, 2);
    }
    tell(calls, since);
    return 0;
}

static int follow(char **words) {
    tesla_follower it = {0};
    tesla_follow_verdict verdict;
    tesla_refusal refusal;
    tesla_payload payload;
    tesla_record record;
    size_t length, setup_length;
    uint8_t *capture = read_whole(words[3], &length), *setup = read_whole(words[0], &setup_length);
    uint32_t capacity = (uint32_t)atol(words[2]), status = tesla_follow_open(&it, setup, setup_length, atoll(words[1]), capacity, capacity, 1, &refusal);
    if (status != TESLA_OK) fail(words[0], status);
    uint64_t calls = 0, since = nanoseconds();
    for (size_t at = 5; at < length; calls++) {
        const uint8_t *next = capture + at;
        status = *next == 2 ? tesla_follow_take(&it, 0, &payload, &record)
                            : tesla_follow_arrive(&it, 0, big(next + 1, 8), next + 11, big(next + 9, 2), &verdict);
        if (status != TESLA_OK && status != TESLA_EMPTY) fail("call", status);
        at += *next == 2 ? 1 : 11 + big(next + 9, 2);
    }
    tell(calls, since);
    return 0;
}

static int send_all(char **words) {
    tesla_sender it = {0};
    tesla_sender_refusal refusal;
    tesla_datagram frame;
    tesla_cause cause;
    size_t length, setup_length, secret_length, written;
    uint8_t *script = read_whole(words[2], &length), *setup = read_whole(words[0], &setup_length), *secret = read_whole(words[1], &secret_length);
    uint32_t status = tesla_send_open(&it, setup, setup_length, secret, secret_length, &refusal);
    if (status != TESLA_OK) fail(words[0], status);
    uint64_t calls = 0, since = nanoseconds();
    for (size_t at = 5; at < length; calls++) {
        const uint8_t *next = script + at;
        status = *next == 2 ? tesla_send_disclose(&it, big(next + 1, 8), &frame, &written, &cause)
                            : tesla_send_message(&it, big(next + 1, 8), next + 11, big(next + 9, 2), &frame, &written, &cause);
        if (status != TESLA_OK) fail("call", status);
        at += *next == 2 ? 9 : 11 + big(next + 9, 2);
    }
    tell(calls, since);
    return 0;
}

int main(int count, char **words) {
    static const struct {
        const char *name;
        int words;
        int (*part)(char **words);
    } parts[] = {{"replay", 7, replay}, {"receive", 6, receive}, {"follow", 6, follow}, {"send", 5, send_all}};
    for (size_t i = 0; i < sizeof parts / sizeof *parts; i++)
        if (count == parts[i].words && !strcmp(words[1], parts[i].name)) return parts[i].part(words + 2);
    fprintf(stderr, "no such words\n");
    return 1;
}
