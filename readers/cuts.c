/* Reads the first bytes of a file as release records, for every number of them: cuts FILE plain|roll|early|follow

   The file is read into memory; for each number of its first bytes these are copied into memory of that size, read from
   there by tesla_take, and by tesla_read as a file. A line tells for each the records that came and what came behind them. */
#define _POSIX_C_SOURCE 200809L
#include <stdlib.h>
#include <string.h>

#include "tesla_release.h"

static const char *const results[] = {"record", "end", "cut", "no record", "failed"};

static enum tesla_result taken(enum tesla_form form, const unsigned char *bytes, size_t size, int *count)
{
    struct tesla_release record;
    enum tesla_result result;
    size_t used;
    *count = 0;
    while ((result = tesla_take(form, bytes, size, &used, &record)) == TESLA_RECORD) {
        if (record.payload + record.length != bytes + used)
            exit(3);
        bytes += used;
        size -= used;
        ++*count;
    }
    return used == 0 ? result : TESLA_FAILED;
}

static enum tesla_result read_all(enum tesla_form form, unsigned char *bytes, size_t size, int *count)
{
    struct tesla_release record;
    enum tesla_result result;
    unsigned char *room = (unsigned char *)malloc(TESLA_MOST);
    FILE *file = size == 0 ? fopen("/dev/null", "rb") : fmemopen(bytes, size, "rb");
    if (room == NULL || file == NULL)
        exit(3);
    *count = 0;
    while ((result = tesla_read(form, file, room, &record)) == TESLA_RECORD)
        ++*count;
    fclose(file);
    free(room);
    return result;
}

static enum tesla_form form_named(const char *word)
{
    static const char *const names[] = {"plain", "roll", "early", "follow"};
    int at = 0;
    while (strcmp(word, names[at]) != 0)
        if (++at == 4)
            exit(3);
    return (enum tesla_form)at;
}

int main(int count, char **words)
{
    static unsigned char whole[65536];
    size_t size, most;
    FILE *file;
    if (count != 3 || (file = fopen(words[1], "rb")) == NULL)
        return 3;
    most = fread(whole, 1, sizeof whole, file);
    fclose(file);
    for (size = 0; size <= most; size++) {
        enum tesla_form form = form_named(words[2]);
        enum tesla_result by_take, by_read;
        int took, did_read;
        unsigned char *bytes = (unsigned char *)malloc(size == 0 ? 1 : size);
        if (bytes == NULL)
            return 3;
        memcpy(bytes, whole, size);
        by_take = taken(form, bytes, size, &took);
        by_read = read_all(form, bytes, size, &did_read);
        printf("%zu take %d %s read %d %s\n", size, took, results[by_take], did_read, results[by_read]);
        free(bytes);
    }
    return 0;
}
