/* Puts records in order, at times that lines tell: orders WAIT PLACES

   Each line of standard input is `put TIME INTERVAL NUMBER`, with an epoch behind it where that isn't 0, `past TIME`, or `end`.
   A line tells what follows from it: I/N a record that is given, -I/N-M numbers that are given up, !I/N one that is late, with
   the epoch and a colon before I where it isn't 0; and behind `due` when the next is due. At the end there are the counts. */
#include <inttypes.h>
#include <stdlib.h>
#include <string.h>

#include "tesla_order.h"

static void tell_start(char mark, uint32_t epoch, uint32_t interval)
{
    if (mark != ' ')
        putchar(mark);
    if (epoch != 0)
        printf("%" PRIu32 ":", epoch);
    printf("%" PRIu32 "/", interval);
}

static void tell(char mark, const struct tesla_release *record)
{
    tell_start(mark, record->epoch, record->interval);
    printf("%u ", (unsigned)record->number);
    if (record->length != 2 || record->payload[0] != (record->interval & 255) || record->payload[1] != (record->number & 255))
        printf("with another payload ");
}

static void tell_next(struct tesla_order *order, enum tesla_which which, uint64_t now)
{
    struct tesla_release record;
    struct tesla_gap gap;
    enum tesla_step step;
    while ((step = tesla_order_next(order, which, now, &record, &gap)) != TESLA_NONE) {
        if (step == TESLA_GAP) {
            tell_start('-', gap.epoch, gap.interval);
            printf("%u-%u ", (unsigned)gap.first, (unsigned)gap.last);
        } else
            tell(step == TESLA_LATE ? '!' : ' ', &record);
    }
}

int main(int count, char **words)
{
    char line[100];
    struct tesla_order order;
    struct tesla_held *room;
    size_t most;
    if (count != 3)
        return 3;
    most = (size_t)strtoul(words[2], NULL, 10);
    room = (struct tesla_held *)malloc(most * sizeof *room);
    if (room == NULL)
        return 3;
    tesla_order_open(&order, room, most, strtoull(words[1], NULL, 10));
    while (fgets(line, sizeof line, stdin) != NULL) {
        uint64_t now = 0;
        unsigned interval = 0, number = 0, epoch = 0;
        if (sscanf(line, "put %" SCNu64 " %u %u %u", &now, &interval, &number, &epoch) >= 3) {
            unsigned char payload[2];
            struct tesla_release record;
            enum tesla_step step;
            memset(&record, 0, sizeof record);
            payload[0] = (unsigned char)(interval & 255);
            payload[1] = (unsigned char)(number & 255);
            record.epoch = epoch;
            record.interval = interval;
            record.number = (uint16_t)number;
            record.length = 2;
            record.payload = payload;
            step = tesla_order_put(&order, &record, now);
            if (step == TESLA_FULL)
                printf("full ");
            if (step == TESLA_LATE)
                tell('!', &record);
            payload[0] = payload[1] = 0;
            tell_next(&order, TESLA_FOLLOWING, now);
        } else if (sscanf(line, "past %" SCNu64, &now) == 1)
            tell_next(&order, TESLA_DUE, now);
        else
            tell_next(&order, TESLA_ALL, 0);
        if (tesla_order_due(&order) == UINT64_MAX)
            printf("due never\n");
        else
            printf("due %" PRIu64 "\n", tesla_order_due(&order));
    }
    printf("given %" PRIu64 " gave up %" PRIu64 " late %" PRIu64 "\n", order.given, order.lost, order.late);
    free(room);
    return 0;
}
