/* The calls that keep nothing: what a setup says, the heads of the frames of a capture, and the lag of an exchange. */
#include "player.h"

int read_setup(char **words) {
    static_assert(sizeof(tesla_setup) == 360 && sizeof(tesla_chain) == 40, "sizes");
    size_t length;
    uint8_t *text = read_whole(words[0], &length);
    tesla_setup setup;
    tesla_refusal refusal;
    memset(&setup, 0xaa, sizeof setup);
    assert(tesla_read_setup(text, length, NULL, &refusal) == TESLA_NULL && tesla_read_setup(NULL, 1, &setup, &refusal) == TESLA_NULL);
    uint32_t status = counted(tesla_read_setup(text, length, &setup, &refusal));
    free(text);
    if (status) end_refused(status, "setup", refusal.line, refusal.kind);
    for (uint32_t k = setup.chains; k < 8; k++)
        for (size_t i = 0; i < sizeof *setup.rows; i++) assert(((uint8_t *)&setup.rows[k])[i] == 0);
    tell_setup(&setup);
    tell_memory(asked, 0);
    return 0;
}

int make_setup(char **words) {
    static_assert(sizeof(tesla_parameters) == 72, "sizes");
    size_t length, size = 77;
    uint8_t *seeds = read_whole(words[0], &length), room[TESLA_MOST_SETUP];
    tesla_parameters parameters = parameters_of(words + 1);
    tesla_sender_refusal refusal;
    memset(room, 0xaa, sizeof room);
    assert(tesla_make_setup(NULL, seeds, length, room, sizeof room, &size, &refusal) == TESLA_NULL);
    uint32_t status = counted(tesla_make_setup(&parameters, seeds, length, room, sizeof room, &size, &refusal));
    for (size_t i = status ? 0 : size; i < sizeof room; i++) assert(room[i] == 0xaa);
    if (status) {
        free(seeds);
        end_refused(status, "seeds", refusal.line, refusal.kind);
    }
    size_t small = 77;
    uint8_t none[1] = {0xaa};
    assert(tesla_make_setup(&parameters, seeds, length, none, size - 1 < 1 ? size - 1 : 1, &small, &refusal) == TESLA_TOO_SMALL);
    assert(small == size && none[0] == 0xaa);
    free(seeds);
    FILE *made = opened(words[8]);
    fwrite(room, 1, size, made);
    fclose(made);
    printf("chains %" PRIu32 "\n", parameters.chains);
    tell_memory(asked, 0);
    return 0;
}

int read_frames(char **words) {
    static_assert(sizeof(tesla_frame) == 32, "sizes");
    size_t length;
    uint8_t *capture = read_whole(words[0], &length);
    tesla_frame frame;
    assert(tesla_read_frame(NULL, 1, &frame) == TESLA_NULL && tesla_read_frame(NULL, 0, &frame) == TESLA_REFUSED);
    for (size_t at = 5; at < length; at++) {
        if (capture[at] == 2) continue;
        size_t bytes = big(capture + at + 9, 2);
        uint32_t status = counted(tesla_read_frame(capture + at + 11, bytes, &frame));
        assert(status == TESLA_OK || status == TESLA_REFUSED);
        tell_frame(status, &frame);
        at += 10 + bytes;
    }
    free(capture);
    tell_memory(asked, 0);
    return 0;
}

int read_lag(char **words) {
    static_assert(sizeof(tesla_shared_key) == 32, "sizes");
    size_t ask_length, reply_length, key_length;
    uint8_t *ask = read_whole(words[0], &ask_length), *reply = read_whole(words[1], &reply_length), *key = read_whole(words[2], &key_length);
    tesla_shared_key shared;
    int64_t lag = 77;
    uint32_t kind = 77;
    assert(key_length == sizeof shared);
    memcpy(&shared, key, sizeof shared);
    uint32_t status = counted(tesla_tell_lag(&shared, ask, ask_length, reply, reply_length, (uint32_t)atoll(words[3]), &lag, &kind));
    assert((status == TESLA_OK && kind == 77) || (status == TESLA_REFUSED && lag == 77));
    tell_lag(status, lag, kind);
    free(ask), free(reply), free(key);
    tell_memory(asked, 0);
    return 0;
}
