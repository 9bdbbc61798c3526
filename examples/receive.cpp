// Prints the authentic messages that come to a multicast group, as receive.c: receive SETUP LAG GROUP PORT INTERFACE
//
// To build it: g++ -std=c++17 -O2 -o receive receive.cpp $(pkg-config --cflags --libs libtesla)
#include "clocks.h"
#include "groups.h"
#include "tesla.hpp"
#include <array>
#include <cerrno>
#include <csignal>
#include <iostream>
#include <sys/epoll.h>
#include <sys/signalfd.h>
#include <unistd.h>

namespace {

constexpr std::uint32_t capacity = 4096;

// A descriptor that is closed when it goes.
class descriptor {
public:
    explicit descriptor(int number) : number_(number) {
        if (number < 0) ended_by("descriptor");
    }
    descriptor(const descriptor &) = delete;
    descriptor &operator=(const descriptor &) = delete;
    ~descriptor() { ::close(number_); }
    int number() const { return number_; }

private:
    int number_;
};

void print(const tesla::packet &it) {
    std::cout << it.head.interval << '/' << it.head.number << ' ';
    std::cout.write(reinterpret_cast<const char *>(it.text().data()), static_cast<std::streamsize>(it.text().size())) << '\n';
}

// Judges all that waits at the link, and prints what that releases.
void take_in(tesla::receiver &receiver, const descriptor &link) {
    std::array<std::uint8_t, 2048> datagram;
    ssize_t length;
    while ((length = recv(link.number(), datagram.data(), datagram.size(), MSG_DONTWAIT)) >= 0) {
        tesla_verdict verdict;
        tesla::packet packet;
        tesla::bytes text(datagram.data(), static_cast<std::size_t>(length));
        if (receiver.arrive(0, receiver_reading(), text, verdict) != TESLA_OK) return;
        while (receiver.take(0, packet) == TESLA_OK) print(packet);
    }
    if (errno != EAGAIN && errno != EINTR) std::perror("recv");
    std::cout.flush();
}

tesla::receiver opened(const char *name, const char *lag) {
    std::array<unsigned char, 4097> text;
    tesla::receiver receiver;
    tesla_refusal refusal{};
    const tesla::bytes setup(text.data(), read_text(name, text.data()));
    if (auto status = receiver.open(setup, std::atoll(lag), capacity, capacity, 1, refusal)) {
        std::cerr << name << ": status " << status << ", line " << refusal.line << ", kind " << refusal.kind << '\n';
        std::exit(2);
    }
    return receiver;
}

// A descriptor that is ready once one of the signals has come that end the program.
int stop_signals() {
    sigset_t signals;
    sigemptyset(&signals);
    sigaddset(&signals, SIGINT);
    sigaddset(&signals, SIGTERM);
    sigprocmask(SIG_BLOCK, &signals, nullptr);
    return signalfd(-1, &signals, 0);
}

void watch(const descriptor &poll, const descriptor &it) {
    epoll_event event{};
    event.events = EPOLLIN;
    event.data.fd = it.number();
    if (epoll_ctl(poll.number(), EPOLL_CTL_ADD, it.number(), &event)) ended_by("epoll");
}

} // namespace

int main(int count, char **words) {
    if (count != 6) {
        std::cerr << "usage: receive SETUP LAG GROUP PORT INTERFACE\n";
        return 1;
    }
    receiver_reading();
    tesla::receiver receiver = opened(words[1], words[2]);
    const descriptor stop(stop_signals()), link(joined(words[3], words[4], words[5])), poll(epoll_create1(0));
    watch(poll, stop);
    watch(poll, link);
    for (epoll_event event{}; event.data.fd != stop.number();) {
        if (epoll_wait(poll.number(), &event, 1, -1) == 1 && event.data.fd == link.number()) take_in(receiver, link);
    }
    tesla_report report;
    if (receiver.report(report) == TESLA_OK)
        std::cerr << "arrivals " << report.arrivals << " late " << report.late << " given " << report.given << '\n';
    return 0;
}
