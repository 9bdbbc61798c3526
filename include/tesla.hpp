// libtesla for C++11 and later: classes that close what they opened. They can be moved and not copied, throw nothing, and answer
// the statuses of tesla.h, which says what each call does and what its caller owes.
#ifndef TESLA_HPP
#define TESLA_HPP

#include "tesla.h"
#include <cstddef>
#include <cstdint>
#if __cplusplus >= 202002L
#include <version>
#endif
#ifdef __cpp_lib_span
#include <span>
#endif

namespace tesla {

#ifdef __cpp_lib_span
using bytes = std::span<const std::uint8_t>;
#else
// Bytes of somebody else, as std::span<const std::uint8_t> of C++20.
class bytes {
public:
    bytes() noexcept : at_(nullptr), size_(0) {}
    bytes(const std::uint8_t *at, std::size_t size) noexcept : at_(at), size_(size) {}
    template <class Container> bytes(const Container &it) noexcept : at_(it.data()), size_(it.size()) {}
    const std::uint8_t *data() const noexcept { return at_; }
    std::size_t size() const noexcept { return size_; }
    const std::uint8_t *begin() const noexcept { return at_; }
    const std::uint8_t *end() const noexcept { return at_ + size_; }

private:
    const std::uint8_t *at_;
    std::size_t size_;
};
#endif

// A slot that is closed when it goes. Moving one empties it, and closes what the other held.
template <class Slot, std::uint32_t (*close_it)(Slot *)> class held {
public:
    held() noexcept : slot_() {}
    held(held &&other) noexcept : slot_(other.slot_) { other.slot_ = Slot(); }
    held &operator=(held &&other) noexcept {
        if (this != &other) {
            close();
            slot_ = other.slot_;
            other.slot_ = Slot();
        }
        return *this;
    }
    held(const held &) = delete;
    held &operator=(const held &) = delete;
    ~held() { close(); }
    void close() noexcept { close_it(&slot_); }

protected:
    Slot slot_;
};

// A packet or a record that was taken: its head, and its payload, which the next take into it writes over.
template <class Head> struct taken {
    Head head;
    tesla_payload payload;
    bytes text() const noexcept { return bytes(payload.bytes, head.length); }
};

using packet = taken<tesla_head>;
using record = taken<tesla_record>;

// A frame that was made, which the next one into it writes over.
struct frame {
    std::size_t length = 0;
    tesla_datagram room;
    bytes text() const noexcept { return bytes(room.bytes, length); }
};

class receiver : public held<tesla_receiver, tesla_receiver_close> {
public:
    std::uint32_t open(bytes setup, std::int64_t lag, std::uint32_t capacity, std::uint32_t quota, std::uint8_t ingests,
                       tesla_refusal &refusal) noexcept {
        return tesla_open(&slot_, setup.data(), setup.size(), lag, capacity, quota, ingests, &refusal);
    }
    std::uint32_t arrive(std::uint8_t ingest, std::uint64_t reading, bytes datagram, tesla_verdict &verdict) noexcept {
        return tesla_arrive(&slot_, ingest, reading, datagram.data(), datagram.size(), &verdict);
    }
    std::uint32_t take(std::uint8_t releaser, packet &given) noexcept {
        return tesla_take(&slot_, releaser, &given.payload, &given.head);
    }
    std::uint32_t end(std::uint8_t ingest) noexcept { return tesla_end(&slot_, ingest); }
    std::uint32_t report(tesla_report &report) noexcept { return tesla_tell_report(&slot_, &report); }
    std::uint32_t waiting(std::uint64_t &count) noexcept { return tesla_tell_waiting(&slot_, &count); }
};

class sender : public held<tesla_sender, tesla_sender_close> {
public:
    std::uint32_t open(bytes setup, bytes seeds, tesla_sender_refusal &refusal) noexcept {
        return tesla_send_open(&slot_, setup.data(), setup.size(), seeds.data(), seeds.size(), &refusal);
    }
    std::uint32_t message(std::uint64_t reading, bytes payload, frame &into, tesla_cause &cause) noexcept {
        return tesla_send_message(&slot_, reading, payload.data(), payload.size(), &into.room, &into.length, &cause);
    }
    std::uint32_t disclose(std::uint64_t reading, frame &into, tesla_cause &cause) noexcept {
        return tesla_send_disclose(&slot_, reading, &into.room, &into.length, &cause);
    }
    std::uint32_t begin_at(std::uint64_t interval) noexcept { return tesla_send_begin_at(&slot_, interval); }
    std::uint32_t make_next() noexcept { return tesla_send_make_next(&slot_); }
    std::uint32_t interval_at(std::uint64_t reading, std::uint64_t &interval) noexcept {
        return tesla_send_interval_at(&slot_, reading, &interval);
    }
};

class follower : public held<tesla_follower, tesla_follower_close> {
public:
    std::uint32_t open(bytes setup, std::int64_t lag, std::uint32_t capacity, std::uint32_t quota, std::uint8_t ingests,
                       tesla_refusal &refusal) noexcept {
        return tesla_follow_open(&slot_, setup.data(), setup.size(), lag, capacity, quota, ingests, &refusal);
    }
    std::uint32_t arrive(std::uint8_t ingest, std::uint64_t reading, bytes datagram, tesla_follow_verdict &verdict) noexcept {
        return tesla_follow_arrive(&slot_, ingest, reading, datagram.data(), datagram.size(), &verdict);
    }
    std::uint32_t take(std::uint8_t releaser, record &given) noexcept {
        return tesla_follow_take(&slot_, releaser, &given.payload, &given.head);
    }
    std::uint32_t end(std::uint8_t ingest) noexcept { return tesla_follow_end(&slot_, ingest); }
    std::uint32_t report(tesla_follow_report &report) noexcept { return tesla_follow_tell_report(&slot_, &report); }
    std::uint32_t waiting(std::uint64_t &count) noexcept { return tesla_follow_tell_waiting(&slot_, &count); }
};

// The calls that keep nothing.
inline std::uint32_t read_setup(bytes text, tesla_setup &setup, tesla_refusal &refusal) noexcept {
    return tesla_read_setup(text.data(), text.size(), &setup, &refusal);
}
// The text is the first size bytes of the room.
inline std::uint32_t make_setup(const tesla_parameters &parameters, bytes seeds, std::uint8_t (&room)[TESLA_MOST_SETUP], std::size_t &size,
                                tesla_sender_refusal &refusal) noexcept {
    return tesla_make_setup(&parameters, seeds.data(), seeds.size(), room, sizeof room, &size, &refusal);
}
inline std::uint32_t read_frame(bytes datagram, tesla_frame &frame) noexcept {
    return tesla_read_frame(datagram.data(), datagram.size(), &frame);
}
inline std::uint32_t lag_of(const tesla_shared_key &key, bytes ask, bytes reply, std::uint32_t drift, std::int64_t &lag,
                            std::uint32_t &kind) noexcept {
    return tesla_tell_lag(&key, ask.data(), ask.size(), reply.data(), reply.size(), drift, &lag, &kind);
}

} // namespace tesla

#endif
