// The player of player.c through tesla.hpp, which moves what it opened meanwhile; it counts no memory, and has one thread.
#include "tesla.hpp"
#include "told.h"
#include <cstdio>
#include <cstdlib>
#include <cstring>
#include <type_traits>
#include <utility>
#include <vector>

template <class It> struct is_moved {
    static constexpr bool value = !std::is_copy_constructible<It>::value && !std::is_copy_assignable<It>::value &&
                                  std::is_nothrow_move_constructible<It>::value && std::is_nothrow_move_assignable<It>::value;
};
static_assert(is_moved<tesla::receiver>::value && is_moved<tesla::sender>::value && is_moved<tesla::follower>::value, "they are moved");

using octets = std::vector<std::uint8_t>;

static octets read_whole(const char *name) {
    octets held;
    std::FILE *file = std::fopen(name, "rb");
    for (int it; file && (it = std::fgetc(file)) != EOF;) held.push_back(static_cast<std::uint8_t>(it));
    if (file) std::fclose(file);
    return held;
}

// A file that is written.
struct output {
    std::FILE *file;
    explicit output(const char *name) : file(std::fopen(name, "wb")) {
        if (!file) std::exit(9);
    }
    output(const output &) = delete;
    output &operator=(const output &) = delete;
    ~output() { std::fclose(file); }
    void number(std::uint64_t value, int bytes) {
        while (bytes--) std::fputc(static_cast<int>(value >> (8 * bytes) & 255), file);
    }
    void text(tesla::bytes it) { std::fwrite(it.data(), 1, it.size(), file); }
};

static int refused(std::uint32_t status, const char *text, std::uint32_t line, std::uint32_t kind) {
    if (status == TESLA_REFUSED) std::printf("refused %s %" PRIu32 " %s\n", text, line, kind_name(kind));
    return status != TESLA_REFUSED ? 60 + static_cast<int>(status) : std::strcmp(text, "setup") ? 3 : 2;
}

// Opens a receiver or a follower of the words; refusals are told.
template <class It> static int open_of(It &it, char **words) {
    octets setup = read_whole(words[0]);
    tesla_refusal refusal;
    std::uint32_t status = it.open(setup, std::atoll(words[1]), static_cast<std::uint32_t>(std::atol(words[2])),
                                   static_cast<std::uint32_t>(std::atol(words[3])), 1, refusal);
    return status == TESLA_OK ? 0 : refused(status, "setup", refusal.line, refusal.kind);
}

// Plays a capture to what was opened, which is moved before each record and behind it.
template <class It, class Arrive, class Give> static int play(It &first, const octets &capture, Arrive arrive, Give give) {
    It it, other = std::move(first);
    for (std::size_t at = 5; at < capture.size();) {
        it = std::move(other);
        if (other.end(0) != TESLA_WRONG_SLOT) return 8;
        if (capture[at] == 2) {
            give(it);
            at++;
        } else {
            const std::uint8_t *record = capture.data() + at;
            std::size_t bytes = big(record + 9, 2);
            if (!arrive(it, big(record + 1, 8), tesla::bytes(record + 11, bytes))) return 8;
            at += 11 + bytes;
        }
        other = It(std::move(it));
    }
    first = std::move(other);
    return first.end(0) == TESLA_OK ? 0 : 8;
}

static int replay(char **words) {
    tesla::receiver receiver;
    if (int status = open_of(receiver, words)) return status;
    octets capture = read_whole(words[4]);
    output out(words[5]), shown(words[6]);
    unsigned long entries = 0;
    auto give = [&](tesla::receiver &it) {
        tesla::packet packet;
        std::uint32_t status = it.take(0, packet);
        std::fprintf(shown.file, "%lu take 0 ", entries++);
        if (status != TESLA_OK) std::fputs(status == TESLA_OVER ? "Over\n" : "Empty\n", shown.file);
        if (status != TESLA_OK) return false;
        const tesla_head &head = packet.head;
        std::fprintf(shown.file, "Given %" PRIu64 " %" PRIu32 " %u %" PRIu32 " %u\n", head.position, head.interval, head.number, head.chain, head.length);
        out.number(head.position, 8), out.number(head.interval, 4), out.number(head.number, 2), out.number(head.chain, 1);
        out.number(packet.text().size(), 2), out.text(packet.text());
        return true;
    };
    auto arrive = [&](tesla::receiver &it, std::uint64_t reading, tesla::bytes datagram) {
        tesla_verdict verdict;
        tesla_frame frame;
        if (it.arrive(0, reading, datagram, verdict) != TESLA_OK) return false;
        std::fprintf(shown.file, "%lu arrival 0 %" PRIu64 " ", entries++, reading);
        tell_verdict(shown.file, verdict.kind, verdict.chains, verdict.number);
        tell_name(shown.file, tesla::read_frame(datagram, frame), &frame);
        std::fputc('\n', shown.file);
        return true;
    };
    if (int status = play(receiver, capture, arrive, give)) return status;
    std::fprintf(shown.file, "%lu end 0\n", entries++);
    std::uint64_t waiting;
    if (receiver.waiting(waiting) != TESLA_OK) return 8;
    while (give(receiver)) waiting--;
    tesla_report report;
    if (waiting || receiver.report(report) != TESLA_OK) return 8;
    tell_report(&report);
    return 0;
}

static int follow(char **words) {
    static const char *const acceptances[] = {"Unpromised", "Queued", "Unqueued"};
    tesla::follower follower;
    if (int status = open_of(follower, words)) return status;
    octets capture = read_whole(words[4]);
    output out(words[5]), shown(words[6]);
    auto give = [&](tesla::follower &it) {
        tesla::record record;
        if (it.take(0, record) != TESLA_OK) return false;
        const tesla_record &head = record.head;
        out.number(head.kind, 1), out.number(head.epoch, 4), out.number(head.position, 8), out.number(head.interval, 4);
        out.number(head.number, 2), out.number(head.chain, 1), out.number(record.text().size(), 2), out.text(record.text());
        return true;
    };
    auto arrive = [&](tesla::follower &it, std::uint64_t reading, tesla::bytes datagram) {
        tesla_follow_verdict verdict;
        if (it.arrive(0, reading, datagram, verdict) != TESLA_OK) return false;
        std::fprintf(shown.file, "%" PRIu32 " ", verdict.epoch);
        tell_verdict(shown.file, verdict.kind, verdict.chains, verdict.number);
        std::fprintf(shown.file, " %s\n", acceptances[verdict.acceptance]);
        return true;
    };
    if (int status = play(follower, capture, arrive, give)) return status;
    std::uint64_t waiting;
    if (follower.waiting(waiting) != TESLA_OK) return 8;
    while (give(follower)) waiting--;
    tesla_follow_report report;
    if (waiting || follower.report(report) != TESLA_OK) return 8;
    std::printf("epochs %" PRIu64 "\n", report.epochs);
    tell_report(&report.counts);
    std::printf("early %" PRIu64 "\nunqueued %" PRIu64 "\ndropped %" PRIu64 "\n", report.early, report.unqueued, report.dropped);
    return 0;
}

// Makes the frame of a record of a script, and answers the status and the bytes of the record.
static std::uint32_t send_one(tesla::sender &it, const std::uint8_t *record, tesla::frame &frame, tesla_cause &cause, std::size_t &bytes) {
    std::uint64_t reading = big(record + 1, 8);
    if (*record != 1) {
        bytes = 9;
        return it.disclose(reading, frame, cause);
    }
    bytes = 11 + big(record + 9, 2);
    return it.message(reading, tesla::bytes(record + 11, bytes - 11), frame, cause);
}

static int send_all(char **words) {
    octets setup = read_whole(words[0]), seeds = read_whole(words[1]), script = read_whole(words[2]);
    tesla::sender it, other;
    tesla_sender_refusal refusal;
    std::uint32_t status = other.open(setup, seeds, refusal);
    if (status != TESLA_OK) return refused(status, refusal.text == 1 ? "setup" : "seeds", refusal.line, refusal.kind);
    const char *begin = std::getenv("BEGIN");
    if (begin && other.begin_at(static_cast<std::uint64_t>(std::atoll(begin))) != TESLA_OK) return 8;
    output out(words[3]);
    std::fputs("TCAP\1", out.file);
    unsigned long frames = 0;
    for (std::size_t at = 5, bytes; at < script.size(); at += bytes) {
        it = std::move(other);
        tesla::frame frame;
        tesla_cause cause;
        std::uint64_t interval;
        const std::uint8_t *record = script.data() + at;
        if (other.make_next() != TESLA_WRONG_SLOT || it.interval_at(big(record + 1, 8), interval) != TESLA_OK) return 8;
        status = send_one(it, record, frame, cause, bytes);
        if (status == TESLA_REFUSED && cause.kind != TESLA_NOTHING_DUE) {
            std::printf("refused script %zu %s\n", at, cause_name(cause.kind));
            return 3;
        }
        if (status == TESLA_OK) {
            out.number(1, 1), out.number(big(record + 1, 8), 8), out.number(frame.length, 2), out.text(frame.text()), out.number(2, 1);
            frames++;
        }
        if (std::getenv("AHEAD") && it.make_next() != TESLA_OK) return 8;
        other = tesla::sender(std::move(it));
    }
    std::printf("frames %lu\n", frames);
    return 0;
}

static int read_setup(char **words) {
    tesla_setup setup;
    tesla_refusal refusal;
    std::uint32_t status = tesla::read_setup(read_whole(words[0]), setup, refusal);
    if (status != TESLA_OK) return refused(status, "setup", refusal.line, refusal.kind);
    tell_setup(&setup);
    return 0;
}

static int read_frames(char **words) {
    octets capture = read_whole(words[0]);
    for (std::size_t at = 5; at < capture.size(); at++) {
        if (capture[at] == 2) continue;
        std::size_t bytes = big(capture.data() + at + 9, 2);
        tesla_frame frame;
        std::uint32_t status = tesla::read_frame(tesla::bytes(capture.data() + at + 11, bytes), frame);
        tell_frame(status, &frame);
        at += 10 + bytes;
    }
    return 0;
}

static int make_setup(char **words) {
    octets seeds = read_whole(words[0]);
    tesla_parameters parameters = parameters_of(words + 1);
    std::uint8_t room[TESLA_MOST_SETUP];
    std::size_t size = 0;
    tesla_sender_refusal refusal;
    std::uint32_t status = tesla::make_setup(parameters, seeds, room, size, refusal);
    if (status != TESLA_OK) return refused(status, "seeds", refusal.line, refusal.kind);
    output(words[8]).text(tesla::bytes(room, size));
    std::printf("chains %" PRIu32 "\n", parameters.chains);
    return 0;
}

static int read_lag(char **words) {
    octets ask = read_whole(words[0]), reply = read_whole(words[1]), key = read_whole(words[2]);
    tesla_shared_key shared;
    std::int64_t lag = 0;
    std::uint32_t kind = 0;
    if (key.size() != sizeof shared.bytes) return 9;
    std::memcpy(shared.bytes, key.data(), sizeof shared.bytes);
    std::uint32_t status = tesla::lag_of(shared, ask, reply, static_cast<std::uint32_t>(std::atoll(words[3])), lag, kind);
    tell_lag(status, lag, kind);
    return 0;
}

int main(int count, char **words) {
    static const struct {
        const char *name;
        int words;
        int (*part)(char **words);
    } parts[] = {{"replay", 9, replay}, {"send", 6, send_all}, {"follow", 9, follow}, {"setup", 3, read_setup}, {"make", 11, make_setup},
                 {"frames", 3, read_frames}, {"lag", 6, read_lag}};
    for (const auto &it : parts)
        if (1 < count && !std::strcmp(words[1], it.name) && count == it.words) return it.part(words + 2);
    return 9;
}
