/* datagrams: what feeding sends and counts over 127.0.0.1, and what the bare machine takes for it.
 *
 *   datagrams blast PORT COUNT BYTES RATE   sends so many a second; each begins with its number and the time
 *   datagrams take PORT QUIET FILE          a line of each in FILE, until behind the first it was quiet for so
 *                                         many tenths of a second
 *   datagrams receive PORT QUIET            receives one after the other, and does nothing else
 *   datagrams send PORT COUNT BYTES         sends one after the other, and does nothing else
 *   datagrams clock COUNT                   reads the clock
 *   datagrams wake COUNT MS                 rests so often until the clock shows the next multiple
 *
 * A line is the time of the datagram by the system, microseconds; its kind; the interval of a data frame, or the index of
 * the first key of a disclosure; and the number and the time in a message. Prints `name value` in lines; `ns` is the
 * processor time of the whole process for each. At most 5,000,000 datagrams and 60 seconds. */
#define _GNU_SOURCE
#include <arpa/inet.h>
#include <errno.h>
#include <poll.h>
#include <stdint.h>
#include <stdio.h>
#include <stdlib.h>
#include <string.h>
#include <sys/prctl.h>
#include <sys/resource.h>
#include <sys/socket.h>
#include <time.h>
#include <unistd.h>

#define BATCH 64
#define MOST 5000000ull
#define LONGEST 60000000ull
typedef uint64_t u64;

static u64 clock_us(clockid_t id) {
    struct timespec t;
    clock_gettime(id, &t);
    return (u64)t.tv_sec * 1000000 + (u64)t.tv_nsec / 1000;
}

static void told(const char *name, u64 count) {
    struct timespec t;
    clock_gettime(CLOCK_PROCESS_CPUTIME_ID, &t);
    double ns = 1e9 * (double)t.tv_sec + (double)t.tv_nsec;
    printf("%s %llu\nns %.0f\n", name, (unsigned long long)count, count ? ns / (double)count : 0);
}

static int opened(const char *port, int bound) {
    struct sockaddr_in at = {.sin_family = AF_INET, .sin_port = htons((uint16_t)atoi(port)),
                             .sin_addr.s_addr = htonl(INADDR_LOOPBACK)};
    int fd = socket(AF_INET, SOCK_DGRAM, 0), room = 256 << 20;
    if (fd < 0 || (bound ? bind : connect)(fd, (struct sockaddr *)&at, sizeof at)) perror("datagrams"), exit(1);
    /* one that loses nothing, where that is allowed */
    if (bound && setsockopt(fd, SOL_SOCKET, SO_RCVBUFFORCE, &room, sizeof room))
        setsockopt(fd, SOL_SOCKET, SO_RCVBUF, &room, sizeof room);
    return fd;
}

static void send_all(const char *port, u64 count, size_t bytes) {
    static const unsigned char b[2048];
    int fd = opened(port, 0);
    for (u64 k = 0; k < count; k++)
        if (send(fd, b, bytes, 0) != (ssize_t)bytes) perror("datagrams"), exit(1);
    told("sent", count);
}

/* So many a second. One that was held up sends at most twice as many a second until it has caught up. */
static void blast(const char *port, u64 count, size_t bytes, double rate) {
    static unsigned char b[BATCH][2048];
    struct iovec v[BATCH];
    struct mmsghdr m[BATCH];
    int fd = opened(port, 0);
    double left = 1;
    u64 sent = 0, began = clock_us(CLOCK_MONOTONIC), before = began, longest = began + LONGEST;
    memset(m, 0, sizeof m);
    prctl(PR_SET_TIMERSLACK, 1);
    for (int k = 0; k < BATCH; k++) {
        v[k] = (struct iovec){b[k], bytes};
        m[k].msg_hdr.msg_iov = v + k;
        m[k].msg_hdr.msg_iovlen = 1;
    }
    while (sent < count && before < longest) {
        u64 now = clock_us(CLOCK_MONOTONIC), due = (u64)((double)(now - began) * rate / 1e6) + 1;
        left += 2 * rate * (double)(now - before) / 1e6;
        if (left > BATCH) left = BATCH;
        before = now;
        if (due > count) due = count;
        int n = due - sent < (u64)left ? (int)(due - sent) : (int)left;
        if (n <= 0) {
            double us = 1e6 * (double)(sent + 1) / rate - (double)(now - began);
            struct timespec rest = {0, us < 20 ? 20000 : us > 100000 ? 100000000 : (long)(us * 1000)};
            nanosleep(&rest, NULL);
            continue;
        }
        u64 real = clock_us(CLOCK_REALTIME);
        for (int k = 0; k < n; k++) {
            u64 head[2] = {sent + (u64)k, real};
            memcpy(b[k], head, sizeof head < bytes ? sizeof head : bytes);
        }
        int got = sendmmsg(fd, m, (unsigned)n, 0);
        if (got < 0 && errno != EINTR && errno != ECONNREFUSED) perror("datagrams"), exit(1);
        if (got > 0) sent += (u64)got, left -= got;
    }
    printf("took_us %llu\n", (unsigned long long)(clock_us(CLOCK_MONOTONIC) - began));
    told("sent", sent);
}

struct line { u64 at, number, sent; uint32_t interval; unsigned char kind; };

static uint32_t big(const unsigned char *b) { return (uint32_t)b[0] << 24 | (uint32_t)b[1] << 16 | (uint32_t)b[2] << 8 | b[3]; }

static struct line line_of(const unsigned char *b, u64 at) {
    struct line l = {.at = at, .kind = b[5], .interval = big(b + (b[5] == 1 ? 14 : 16))};
    if (b[5] == 1) memcpy(&l.number, b + 22, 8), memcpy(&l.sent, b + 30, 8);
    return l;
}

static u64 stamp(struct msghdr *h) {
    for (struct cmsghdr *c = CMSG_FIRSTHDR(h); c; c = CMSG_NXTHDR(h, c))
        if (c->cmsg_type == SCM_TIMESTAMPNS) {
            struct timespec t;
            memcpy(&t, CMSG_DATA(c), sizeof t);
            return (u64)t.tv_sec * 1000000 + (u64)t.tv_nsec / 1000;
        }
    return clock_us(CLOCK_REALTIME);
}

/* It never waits for a datagram, so that no sender has to wake it. */
static void take(const char *port, int most, const char *name) {
    static unsigned char b[BATCH][2048], control[BATCH][64];
    struct iovec v[BATCH];
    struct mmsghdr m[BATCH];
    struct line *lines = malloc(MOST * sizeof *lines);
    int fd = opened(port, 1), on = 1;
    u64 n = 0, last = clock_us(CLOCK_MONOTONIC);
    setsockopt(fd, SOL_SOCKET, SO_TIMESTAMPNS, &on, sizeof on);
    while (clock_us(CLOCK_MONOTONIC) - last < (n ? (u64)most * 100000 : LONGEST) && n + BATCH < MOST) {
        for (int k = 0; k < BATCH; k++) {
            v[k] = (struct iovec){b[k], sizeof b[k]};
            m[k].msg_hdr = (struct msghdr){.msg_iov = v + k, .msg_iovlen = 1, .msg_control = control[k],
                                           .msg_controllen = sizeof control[k]};
        }
        int got = recvmmsg(fd, m, BATCH, MSG_DONTWAIT, NULL);
        if (got < 0) {
            usleep(500);
            continue;
        }
        last = clock_us(CLOCK_MONOTONIC);
        for (int k = 0; k < got; k++) lines[n++] = line_of(b[k], stamp(&m[k].msg_hdr));
    }
    FILE *f = fopen(name, "w");
    if (!f) perror(name), exit(1);
    for (u64 k = 0; k < n; k++)
        fprintf(f, "%llu %u %u %llu %llu\n", (unsigned long long)lines[k].at, lines[k].kind, lines[k].interval,
                (unsigned long long)lines[k].number, (unsigned long long)lines[k].sent);
    if (fclose(f)) perror(name), exit(1);
    told("taken", n);
}

static void receive(const char *port, int most) {
    static unsigned char b[2048];
    struct timeval limit = {0, 100000};
    int fd = opened(port, 1);
    u64 n = 0;
    setsockopt(fd, SOL_SOCKET, SO_RCVTIMEO, &limit, sizeof limit);
    for (int quiet = 0; quiet < most;)
        if (recv(fd, b, sizeof b, 0) >= 0) n++, quiet = 0;
        else if (errno != EINTR) quiet++;
    told("received", n);
}

/* How late it is there at most: what the system alone takes, since it was asked for whole milliseconds. */
static void wake(u64 count, u64 us) {
    u64 latest = 0;
    for (u64 k = 0; k < count; k++) {
        u64 now = clock_us(CLOCK_REALTIME), due = (now / us + 1) * us;
        poll(NULL, 0, (int)((due - now + 999) / 1000));
        u64 then = clock_us(CLOCK_REALTIME);
        if (then > due && then - due > latest) latest = then - due;
    }
    told("woken", count);
    printf("latest_us %llu\n", (unsigned long long)latest);
}

int main(int argc, char **argv) {
    const char *word = argc > 1 ? argv[1] : "";
    u64 count = argc > 3 ? strtoull(argv[3], NULL, 10) : 0, bytes = argc > 4 ? strtoull(argv[4], NULL, 10) : 0;
    if (count > MOST || bytes > 2048) return 1;
    if (argc == 6 && !strcmp(word, "blast") && atof(argv[5]) > 0) blast(argv[2], count, bytes, atof(argv[5]));
    else if (argc == 5 && !strcmp(word, "send")) send_all(argv[2], count, bytes);
    else if (argc == 5 && !strcmp(word, "take")) take(argv[2], atoi(argv[3]), argv[4]);
    else if (argc == 4 && !strcmp(word, "receive")) receive(argv[2], atoi(argv[3]));
    else if (argc == 4 && !strcmp(word, "wake")) wake(strtoull(argv[2], NULL, 10), 1000 * count);
    else if (argc == 3 && !strcmp(word, "clock")) {
        u64 sum = 0;
        count = strtoull(argv[2], NULL, 10);
        for (u64 k = 0; k < count; k++) sum += clock_us(CLOCK_REALTIME) & 1;
        told("read", count + (sum == ~0ull));
    } else return 1;
    return 0;
}
