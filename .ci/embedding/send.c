/* Plays a script to a sender, as `tesla send` does. With BEGIN=N in the environment it first goes on to interval N, and with AHEAD it
 * makes the keys of the next interval behind each call. */
#include "player.h"

static tesla_setup setup_told;
static int is_refused;

/* The interval of a reading, as the setup says. */
static uint64_t interval_of(uint64_t reading) {
    return reading < setup_told.start ? 0 : (reading - setup_told.start) / setup_told.interval;
}

/* Writes a frame as an arrival with a take behind it. */
static void write_frame(FILE *out, uint64_t reading, const tesla_datagram *frame, size_t length) {
    uint8_t head[11] = {1};
    put(put(head + 1, reading, 8), length, 2);
    fwrite(head, 1, sizeof head, out);
    fwrite(frame->bytes, 1, length, out);
    fputc(2, out);
}

static size_t send_one(struct play *play) {
    const uint8_t *record = play->records + play->at;
    tesla_sender *it = &play->sender;
    uint64_t reading = big(record + 1, 8), interval;
    size_t length = *record == 1 ? big(record + 9, 2) : 0, written = 0;
    tesla_datagram frame;
    tesla_cause cause = {0, 0};
    assert(counted(tesla_send_interval_at(it, reading, &interval)) == TESLA_OK && interval == interval_of(reading));
    uint32_t status = *record == 1 ? counted(tesla_send_message(it, reading, record + 11, length, &frame, &written, &cause))
                                   : counted(tesla_send_disclose(it, reading, &frame, &written, &cause));
    assert((status == TESLA_OK && written <= sizeof frame && !cause.kind) || (status == TESLA_REFUSED && !written));
    if (status == TESLA_REFUSED && cause.kind != TESLA_NOTHING_DUE) {
        printf("refused script %zu %s\n", play->at, cause_name(cause.kind));
        is_refused = 1;
        return 0;
    }
    if (status == TESLA_OK) {
        write_frame(play->out, reading, &frame, written);
        play->entries++;
        assert(interval == 0 || tesla_send_begin_at(it, interval - 1) == TESLA_BAD_NUMBER);
    }
    if (getenv("AHEAD")) assert(counted(tesla_send_make_next(it)) == TESLA_OK);
    return (*record == 1 ? 11 : 9) + length;
}

static void try_wrong_calls(tesla_sender *it, const uint8_t *setup, size_t length) {
    tesla_datagram frame;
    tesla_cause cause = {0, 0};
    size_t written = 7;
    assert(tesla_send_message(it, 0, setup, 0, &frame, &written, &cause) == TESLA_WRONG_SLOT && written == 7);
    assert(tesla_send_message(NULL, 0, setup, 0, &frame, &written, &cause) == TESLA_NULL);
    assert(tesla_send_disclose(it, 0, &frame, NULL, &cause) == TESLA_NULL && tesla_send_begin_at(it, 1) == TESLA_WRONG_SLOT);
    (void)length;
}

/* Calls of an open sender that are refused whatever it sent. */
static void try_long_payload(tesla_sender *it) {
    static const uint8_t payload[1201];
    tesla_datagram frame;
    tesla_cause cause = {0, 0};
    size_t written = 7;
    assert(tesla_send_message(it, 0, payload, sizeof payload, &frame, &written, &cause) == TESLA_REFUSED);
    assert(cause.kind == TESLA_PAYLOAD_TOO_LONG && cause.number == sizeof payload && written == 7);
}

int send_all(char **words) {
    static_assert(sizeof(tesla_sender) == 16 && sizeof(tesla_sender_refusal) == 16 && sizeof(tesla_cause) == 16, "sizes");
    static_assert(sizeof(tesla_datagram) == 2048, "sizes");
    struct play play = {.at = 5, .one = send_one};
    tesla_sender *it = &play.sender;
    tesla_sender_refusal refusal = {0, 0, 0, 0};
    tesla_refusal other;
    size_t setup_length, seeds_length;
    uint8_t *setup = read_whole(words[0], &setup_length), *seeds = read_whole(words[1], &seeds_length);
    uint8_t *script = read_whole(words[2], &play.length);
    play.records = script;
    try_wrong_calls(it, setup, setup_length);
    uint32_t status = counted(tesla_send_open(it, setup, setup_length, seeds, seeds_length, &refusal));
    if (status) assert(it->full == 0 && tesla_send_close(it) == TESLA_OK);
    assert(refusal.kind != TESLA_WRONG_SEED || refusal.line == refusal.chain + 2);
    if (status) end_refused(status, refusal.text == 1 ? "setup" : "seeds", refusal.line, refusal.kind);
    assert(tesla_send_open(it, setup, setup_length, seeds, seeds_length, &refusal) == TESLA_WRONG_SLOT);
    assert(tesla_read_setup(setup, setup_length, &setup_told, &other) == TESLA_OK);
    free(setup), free(seeds);
    long opening = asked;
    try_long_payload(it);
    if (getenv("BEGIN")) assert(counted(tesla_send_begin_at(it, (uint64_t)atoll(getenv("BEGIN")))) == TESLA_OK);
    play.out = opened(words[3]);
    fwrite("TCAP\1", 1, 5, play.out);
    play_all(&play);
    long later = asked - opening;
    assert(counted(tesla_send_close(it)) == TESLA_OK && it->full == 0 && tesla_send_close(it) == TESLA_OK);
    fclose(play.out), free(script);
    if (!is_refused) printf("frames %lu\n", play.entries);
    tell_memory(opening, later);
    return is_refused ? 3 : 0;
}
