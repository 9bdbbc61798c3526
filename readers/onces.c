/* Tells which names come for the first time: onces PLACES

   Each line of standard input is `EPOCH INTERVAL NUMBER`. A line tells `first` or `further`. */
#include <stdlib.h>
#include <string.h>

#include "tesla_once.h"

int main(int count, char **words)
{
    char line[100];
    struct tesla_once once;
    struct tesla_known *room;
    uint32_t most;
    if (count != 2)
        return 3;
    most = (uint32_t)strtoul(words[1], NULL, 10);
    room = (struct tesla_known *)malloc(most * sizeof *room);
    if (room == NULL)
        return 3;
    tesla_once_open(&once, room, most);
    while (fgets(line, sizeof line, stdin) != NULL) {
        unsigned epoch, interval, number;
        struct tesla_release record;
        if (sscanf(line, "%u %u %u", &epoch, &interval, &number) != 3)
            return 3;
        memset(&record, 0, sizeof record);
        record.epoch = epoch;
        record.interval = interval;
        record.number = (uint16_t)number;
        puts(tesla_once_is_first(&once, &record) ? "first" : "further");
    }
    free(room);
    return 0;
}
