/* Plays a capture to a follower: it writes its records as `tesla follow` does, and tells each answer to an arrival with the epoch
 * before it and with what becomes of the message behind it. */
#include "player.h"

static uint32_t give(struct play *play) {
    tesla_payload payload;
    tesla_record it;
    uint32_t status = counted(tesla_follow_take(&play->follower, 0, &payload, &it));
    if (status != TESLA_OK) return status;
    uint8_t record[22];
    put(put(put(put(put(put(put(record, it.kind, 1), it.epoch, 4), it.position, 8), it.interval, 4), it.number, 2), it.chain, 1), it.length, 2);
    fwrite(record, 1, sizeof record, play->out);
    fwrite(payload.bytes, 1, it.length, play->out);
    return status;
}

static size_t follow_one(struct play *play) {
    static const char *const acceptances[] = {"Unpromised", "Queued", "Unqueued"};
    const uint8_t *record = play->records + play->at;
    if (*record == 2) {
        give(play);
        return 1;
    }
    tesla_follow_verdict it;
    size_t bytes = big(record + 9, 2);
    assert(counted(tesla_follow_arrive(&play->follower, 0, big(record + 1, 8), record + 11, bytes, &it)) == TESLA_OK);
    fprintf(play->shown, "%" PRIu32 " ", it.epoch);
    tell_verdict(play->shown, it.kind, it.chains, it.number);
    fprintf(play->shown, " %s\n", acceptances[it.acceptance]);
    return 11 + bytes;
}

static void try_wrong_calls(tesla_follower *it, const uint8_t *setup, size_t length) {
    tesla_refusal refusal = {0};
    tesla_follow_verdict verdict;
    assert(tesla_follow_arrive(it, 0, 0, setup, 0, &verdict) == TESLA_WRONG_SLOT);
    assert(tesla_follow_arrive(NULL, 0, 0, setup, 0, &verdict) == TESLA_NULL);
    assert(tesla_follow_open(it, setup, length, 0, 4097, 1, 1, &refusal) == TESLA_BAD_NUMBER && refusal.line == 4);
    assert(tesla_follow_open(it, setup, length, 0, 9, 10, 1, &refusal) == TESLA_BAD_NUMBER && refusal.line == 5);
    assert(tesla_follow_open(it, setup, length, 0, 9, 9, 0, &refusal) == TESLA_BAD_NUMBER && refusal.line == 6);
}

/* What is opened as another kind isn't what a call is for. */
static void try_other_kinds(tesla_follower *it) {
    tesla_receiver receiver = {it->full, it->at};
    tesla_sender sender = {it->full, it->at};
    assert(tesla_end(&receiver, 0) == TESLA_WRONG_SLOT && tesla_close(&receiver) == TESLA_WRONG_SLOT);
    assert(tesla_send_make_next(&sender) == TESLA_WRONG_SLOT && tesla_send_close(&sender) == TESLA_WRONG_SLOT);
    it->full = receiver.full, it->at = receiver.at;
}

int follow(char **words) {
    static_assert(sizeof(tesla_follower) == 16 && sizeof(tesla_follow_verdict) == 24, "sizes");
    static_assert(sizeof(tesla_record) == 32 && sizeof(tesla_follow_report) == 144, "sizes");
    struct play play = {.at = 5, .one = follow_one};
    tesla_follower *it = &play.follower;
    tesla_refusal refusal = {0};
    size_t length;
    uint8_t *setup = read_whole(words[0], &length), *capture = read_whole(words[4], &play.length);
    play.records = capture;
    try_wrong_calls(it, setup, length);
    uint32_t status = counted(tesla_follow_open(it, setup, length, atoll(words[1]), (uint32_t)atol(words[2]), (uint32_t)atol(words[3]), 1, &refusal));
    if (status) assert(it->full == 0 && tesla_follow_close(it) == TESLA_OK);
    if (status) end_refused(status, "setup", refusal.line, refusal.kind);
    free(setup);
    long opening = asked;
    try_other_kinds(it);
    play.out = opened(words[5]), play.shown = opened(words[6]);
    play_all(&play);
    uint64_t waiting;
    assert(counted(tesla_follow_end(it, 0)) == TESLA_OK && counted(tesla_follow_tell_waiting(it, &waiting)) == TESLA_OK);
    while (give(&play) == TESLA_OK) waiting--;
    tesla_follow_report report;
    assert(waiting == 0 && counted(tesla_follow_tell_report(it, &report)) == TESLA_OK);
    assert(report.records == report.early + report.counts.given && report.open_epochs == (report.epochs < 3 ? report.epochs : 3));
    long later = asked - opening;
    assert(counted(tesla_follow_close(it)) == TESLA_OK && it->full == 0 && tesla_follow_close(it) == TESLA_OK);
    fclose(play.out), fclose(play.shown), free(capture);
    printf("epochs %" PRIu64 "\n", report.epochs);
    tell_report(&report.counts);
    printf("early %" PRIu64 "\nunqueued %" PRIu64 "\ndropped %" PRIu64 "\n", report.early, report.unqueued, report.dropped);
    tell_memory(opening, later);
    return 0;
}
