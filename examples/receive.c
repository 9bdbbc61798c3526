/* Prints the authentic messages that come to a multicast group: receive SETUP LAG GROUP PORT INTERFACE
 *
 * A line has the interval of a message, its number in it, and its text. LAG is by how many microseconds the sender's clock is ahead
 * of this machine's at most. It runs until SIGINT or SIGTERM comes, and then tells on standard error what came. To build it:
 *     gcc -O2 -o receive receive.c $(pkg-config --cflags --libs libtesla)
 */
#include "clocks.h"
#include "groups.h"
#include "tesla.h"
#include <errno.h>
#include <inttypes.h>
#include <signal.h>
#include <sys/epoll.h>
#include <sys/signalfd.h>

enum { CAPACITY = 4096 };

static void print(const tesla_head *head, const tesla_payload *payload) {
    printf("%" PRIu32 "/%u ", head->interval, head->number);
    fwrite(payload->bytes, 1, head->length, stdout);
    putchar('\n');
}

/* Judges all that waits at the link, and prints what that releases. */
static void take_in(tesla_receiver *receiver, int link) {
    uint8_t datagram[2048];
    ssize_t length;
    while ((length = recv(link, datagram, sizeof datagram, MSG_DONTWAIT)) >= 0) {
        tesla_verdict verdict;
        tesla_payload payload;
        tesla_head head;
        if (tesla_arrive(receiver, 0, receiver_reading(), datagram, (size_t)length, &verdict) != TESLA_OK) return;
        while (tesla_take(receiver, 0, &payload, &head) == TESLA_OK) print(&head, &payload);
    }
    if (errno != EAGAIN && errno != EINTR) perror("recv");
    fflush(stdout);
}

static void open_receiver(tesla_receiver *receiver, const char *name, const char *lag) {
    unsigned char text[4097];
    tesla_refusal refusal = {0, 0};
    uint32_t status = tesla_open(receiver, text, read_text(name, text), atoll(lag), CAPACITY, CAPACITY, 1, &refusal);
    if (status == TESLA_OK) return;
    fprintf(stderr, "%s: status %" PRIu32 ", line %" PRIu32 ", kind %" PRIu32 "\n", name, status, refusal.line, refusal.kind);
    exit(2);
}

/* A descriptor that is ready once one of the signals has come that end the program. */
static int stop_signals(void) {
    sigset_t signals;
    sigemptyset(&signals);
    sigaddset(&signals, SIGINT);
    sigaddset(&signals, SIGTERM);
    sigprocmask(SIG_BLOCK, &signals, NULL);
    return signalfd(-1, &signals, 0);
}

static void watch(int poll, int descriptor) {
    struct epoll_event event = {.events = EPOLLIN, .data.fd = descriptor};
    if (epoll_ctl(poll, EPOLL_CTL_ADD, descriptor, &event)) ended_by("epoll");
}

int main(int count, char **words) {
    if (count != 6) {
        fprintf(stderr, "usage: receive SETUP LAG GROUP PORT INTERFACE\n");
        return 1;
    }
    receiver_reading();
    tesla_receiver receiver = {0};
    open_receiver(&receiver, words[1], words[2]);
    int stop = stop_signals(), link = joined(words[3], words[4], words[5]), poll = epoll_create1(0);
    watch(poll, stop);
    watch(poll, link);
    for (struct epoll_event event = {0}; event.data.fd != stop;) {
        if (epoll_wait(poll, &event, 1, -1) == 1 && event.data.fd == link) take_in(&receiver, link);
    }
    tesla_report report;
    if (tesla_tell_report(&receiver, &report) == TESLA_OK)
        fprintf(stderr, "arrivals %" PRIu64 " late %" PRIu64 " given %" PRIu64 "\n", report.arrivals, report.late, report.given);
    tesla_close(&receiver);
    return 0;
}
