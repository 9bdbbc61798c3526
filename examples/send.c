/* Sends each line of standard input to a multicast group as a message of a stream: send SETUP SECRET GROUP PORT INTERFACE
 *
 * It begins with the interval behind that of its start, so that it can be started again with the same seeds. In each interval it also
 * tells the keys that are due, which receivers wait for. When the input has ended it goes on until all keys of the last message are
 * told. To build it:
 *     gcc -O2 -o send send.c $(pkg-config --cflags --libs libtesla)
 */
#include "clocks.h"
#include "groups.h"
#include "tesla.h"
#include <inttypes.h>
#include <poll.h>

static tesla_setup setup;
static tesla_sender sender;
static int post;

static uint64_t interval_of(uint64_t reading) {
    uint64_t interval = 0;
    tesla_send_interval_at(&sender, reading, &interval);
    return interval;
}

static void open_sender(const char *setup_name, const char *secret_name) {
    unsigned char text[4097], seeds[4097];
    tesla_refusal refusal = {0, 0};
    tesla_sender_refusal why = {0, 0, 0, 0};
    size_t length = read_text(setup_name, text), seeds_length = read_text(secret_name, seeds);
    uint32_t status = tesla_send_open(&sender, text, length, seeds, seeds_length, &why);
    memset(seeds, 0, sizeof seeds);
    if (status == TESLA_OK && tesla_read_setup(text, length, &setup, &refusal) == TESLA_OK) return;
    fprintf(stderr, "status %" PRIu32 ": text %" PRIu32 ", line %" PRIu32 ", kind %" PRIu32 "\n", status, why.text, why.line, why.kind);
    exit(2);
}

static void hand(const tesla_datagram *frame, size_t length) {
    if (send(post, frame->bytes, length, 0) < 0) perror("send");
}

/* Sends a line as a message, and answers whether another one can be sent. */
static int send_line(uint64_t reading, const char *line) {
    tesla_datagram frame;
    tesla_cause cause;
    size_t written, length = strcspn(line, "\n");
    if (tesla_send_message(&sender, reading, (const uint8_t *)line, length, &frame, &written, &cause) == TESLA_OK) {
        hand(&frame, written);
        return 1;
    }
    fprintf(stderr, "not sent: cause %" PRIu32 ", number %" PRIu64 "\n", cause.kind, cause.number);
    return cause.kind != TESLA_PAST_LAST;
}

/* Tells the keys that are due, and makes those of the next interval. */
static void disclose(uint64_t reading) {
    tesla_datagram frame;
    tesla_cause cause;
    size_t written;
    if (tesla_send_disclose(&sender, reading, &frame, &written, &cause) == TESLA_OK) hand(&frame, written);
    tesla_send_make_next(&sender);
}

/* Waits until something can be read, if anything should, or a reading has come; answers whether something can be read. */
static int can_read(int reads, uint64_t until) {
    uint64_t now = sender_reading();
    struct pollfd input = {.fd = reads ? 0 : -1, .events = POLLIN};
    return now < until && poll(&input, 1, (int)((until - now) / 1000) + 1) > 0;
}

int main(int count, char **words) {
    if (count != 6) {
        fprintf(stderr, "usage: send SETUP SECRET GROUP PORT INTERFACE\n");
        return 1;
    }
    sender_reading();
    open_sender(words[1], words[2]);
    post = aimed(words[3], words[4], words[5]);
    setvbuf(stdin, NULL, _IONBF, 0);
    uint64_t first = interval_of(sender_reading()) + 1, next = first, end = UINT64_MAX;
    tesla_send_begin_at(&sender, first);
    while (next <= end) {
        if (can_read(next > first && end == UINT64_MAX, setup.start + next * setup.interval)) {
            char line[1202];
            uint64_t last = interval_of(sender_reading()) + setup.rows[setup.chains - 1].delay;
            if (!fgets(line, sizeof line, stdin) || !send_line(sender_reading(), line)) end = last;
        } else if (sender_reading() >= setup.start + next * setup.interval) {
            disclose(sender_reading());
            next = interval_of(sender_reading()) + 1;
        }
    }
    tesla_send_close(&sender);
    return 0;
}
