/* Plays a capture to a receiver, as `tesla replay` does, and tells each answer as `tesla show` does. */
#include "player.h"

static uint32_t give(struct play *play) {
    tesla_payload payload;
    tesla_head head;
    uint32_t status = counted(tesla_take(&play->receiver, 0, &payload, &head));
    fprintf(play->shown, "%lu take 0 ", play->entries++);
    if (status != TESLA_OK) {
        fputs(status == TESLA_OVER ? "Over\n" : "Empty\n", play->shown);
        return status;
    }
    fprintf(play->shown, "Given %" PRIu64 " %" PRIu32 " %u %" PRIu32 " %u\n", head.position, head.interval, head.number, head.chain, head.length);
    uint8_t record[17];
    put(put(put(put(put(record, head.position, 8), head.interval, 4), head.number, 2), head.chain, 1), head.length, 2);
    fwrite(record, 1, sizeof record, play->out);
    fwrite(payload.bytes, 1, head.length, play->out);
    return status;
}

static size_t replay_one(struct play *play) {
    const uint8_t *record = play->records + play->at;
    if (*record == 2) {
        give(play);
        return 1;
    }
    tesla_verdict verdict;
    tesla_frame frame;
    size_t bytes = big(record + 9, 2);
    assert(counted(tesla_arrive(&play->receiver, 0, big(record + 1, 8), record + 11, bytes, &verdict)) == TESLA_OK);
    fprintf(play->shown, "%lu arrival 0 %" PRIu64 " ", play->entries++, big(record + 1, 8));
    tell_verdict(play->shown, verdict.kind, verdict.chains, verdict.number);
    tell_name(play->shown, counted(tesla_read_frame(record + 11, bytes, &frame)), &frame);
    fputc('\n', play->shown);
    return 11 + bytes;
}

static void try_wrong_calls(tesla_receiver *it, const uint8_t *setup, size_t length) {
    tesla_refusal refusal = {0};
    tesla_verdict verdict;
    assert(tesla_arrive(it, 0, 0, setup, 0, &verdict) == TESLA_WRONG_SLOT && tesla_arrive(NULL, 0, 0, setup, 0, &verdict) == TESLA_NULL);
    assert(tesla_open(it, setup, length, 0, 0, 1, 1, &refusal) == TESLA_BAD_NUMBER && refusal.line == 4);
    assert(tesla_open(it, setup, length, 0, 65537, 1, 1, &refusal) == TESLA_BAD_NUMBER && refusal.line == 4);
    assert(tesla_open(it, setup, length, 0, 9, 0, 1, &refusal) == TESLA_BAD_NUMBER && refusal.line == 5);
    assert(tesla_open(it, setup, length, 0, 9, 10, 1, &refusal) == TESLA_BAD_NUMBER && refusal.line == 5);
    assert(tesla_open(it, setup, length, 0, 9, 9, 0, &refusal) == TESLA_BAD_NUMBER && refusal.line == 6);
}

int replay(char **words) {
    static_assert(sizeof(tesla_receiver) == 16 && sizeof(tesla_refusal) == 8 && sizeof(tesla_verdict) == 16, "sizes");
    static_assert(sizeof(tesla_head) == 24 && sizeof(tesla_payload) == 1200 && sizeof(tesla_report) == 96, "sizes");
    struct play play = {.at = 5, .one = replay_one};
    tesla_receiver *it = &play.receiver;
    tesla_refusal refusal = {0};
    size_t length;
    uint8_t *setup = read_whole(words[0], &length), *capture = read_whole(words[4], &play.length);
    play.records = capture;
    try_wrong_calls(it, setup, length);
    uint32_t status = counted(tesla_open(it, setup, length, atoll(words[1]), (uint32_t)atol(words[2]), (uint32_t)atol(words[3]), 1, &refusal));
    assert(status || tesla_open(it, setup, length, 0, 1, 1, 1, &refusal) == TESLA_WRONG_SLOT);
    if (status) assert(it->full == 0 && tesla_close(it) == TESLA_OK);
    if (status) end_refused(status, "setup", refusal.line, refusal.kind);
    free(setup);
    long opening = asked;
    play.out = opened(words[5]), play.shown = opened(words[6]);
    play_all(&play);
    uint64_t waiting;
    assert(counted(tesla_end(it, 0)) == TESLA_OK && counted(tesla_tell_waiting(it, &waiting)) == TESLA_OK);
    fprintf(play.shown, "%lu end 0\n", play.entries++);
    while (give(&play) == TESLA_OK) waiting--;
    tesla_report report;
    assert(waiting == 0 && counted(tesla_tell_report(it, &report)) == TESLA_OK);
    long later = asked - opening;
    assert(counted(tesla_close(it)) == TESLA_OK && it->full == 0 && tesla_close(it) == TESLA_OK);
    fclose(play.out), fclose(play.shown), free(capture);
    tell_report(&report);
    tell_memory(opening, later);
    return 0;
}
