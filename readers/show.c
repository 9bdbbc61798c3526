/* Prints what the program released, one line for each record, as it comes: show FILE [roll|early|follow [once]]
                                                                           show FILE,.. [follow [once]] order SECONDS [PLACES]

   FILE is what `tesla receive` or `tesla replay` writes, or a named pipe that `receive` writes to; with `roll` or `early` what
   that command writes, and with `follow` what a follower writes. A line has the position, the interval, the number and the
   chain, and behind a colon the payload, in which every byte that is no printable character of ASCII stands as \x and two
   digits, and \ as \\. Of `roll` the epoch stands before it; of `early` a message that was accepted on arrival has `early`
   instead of position and chain. Of a follower the kind and the epoch stand before it: the kind is 0 where a packet was
   released, and 1 where a message was accepted on arrival, and then the chain is 255.

   With `once` each message comes once, with its first record: the last 200,000 messages are known, of all files together.

   With `order` the records of all files, which are the sinks of one receiver in their order, come by interval and number, and
   of a follower by epoch before that. One that doesn't follow the one before waits for those before it, at most so many
   seconds, as 0.5, while nothing can be read; fewer than PLACES wait, 2 to 65,536, and 4,096 if not said. Standard error tells
   what was given up, as `gave up 3/1` or `gave up 3/1 to 3/4`, each record that came behind its place and isn't printed, as
   `late 3/1`, and at the end how many of each there were. Of a follower the epoch stands before a name, as 2/3/1.

   The status is 0 where the last record was whole, 1 where a file ends within a record, 2 where something else stands in it, 3
   where it can't be read, and 4 where a line can't be written. Of several files it is that of the first that went wrong. */
#define _POSIX_C_SOURCE 200809L
#include <errno.h>
#include <fcntl.h>
#include <inttypes.h>
#include <poll.h>
#include <stdlib.h>
#include <string.h>
#include <time.h>
#include <unistd.h>

#include "tesla_once.h"
#include "tesla_order.h"

#define MOST_FILES 32
#define MOST_PLACES 65536

static const char *const said[] = {"", "", "the file ends within a record", "something else than a record", "read fault"};
static const int statuses[] = {0, 0, 1, 2, 3};

/* What the words want: records of this form, and where `once` has room the first of each name alone. */
static enum tesla_form form = TESLA_PLAIN;
static struct tesla_once once;
static struct tesla_known known[TESLA_MOST_NAMES];

/* Whether a record is printed, which is asked once for each. */
static int is_wanted(const struct tesla_release *record)
{
    return once.most == 0 || tesla_once_is_first(&once, record);
}

/* Prints a line. It answers 0 where it can't be written. */
static int show(const struct tesla_release *record)
{
    size_t at;
    if (form == TESLA_FOLLOW)
        printf("%u ", (unsigned)record->accepted);
    if (form == TESLA_FOLLOW || form == TESLA_ROLL)
        printf("%" PRIu32 " ", record->epoch);
    if (form == TESLA_EARLY && record->accepted)
        printf("early %" PRIu32 " %u: ", record->interval, (unsigned)record->number);
    else
        printf("%" PRIu64 " %" PRIu32 " %u %u: ", record->position, record->interval, (unsigned)record->number,
               (unsigned)record->chain);
    for (at = 0; at < record->length; at++) {
        unsigned char byte = record->payload[at];
        if (byte == '\\')
            printf("\\\\");
        else if (byte >= ' ' && byte <= '~')
            putchar(byte);
        else
            printf("\\x%02x", byte);
    }
    putchar('\n');
    if (fflush(stdout) != 0 || ferror(stdout)) {
        perror("standard output");
        return 0;
    }
    return 1;
}

/* Prints the records of one file, as they come. */
static int show_file(const char *name)
{
    enum tesla_result result;
    struct tesla_release record;
    unsigned char room[TESLA_MOST];
    FILE *file = fopen(name, "rb");
    if (file == NULL) {
        perror(name);
        return 3;
    }
    while ((result = tesla_read(form, file, room, &record)) == TESLA_RECORD)
        if (is_wanted(&record) && !show(&record))
            return 4;
    fclose(file);
    if (result != TESLA_END)
        fprintf(stderr, "%s\n", said[result]);
    return statuses[result];
}

/* A file that is read, and what was read of it and not taken yet. */
struct input {
    const char *name;
    int file;
    size_t size;
    unsigned char bytes[65536];
};

static struct input inputs[MOST_FILES];
static struct tesla_held places[MOST_PLACES];

/* The microseconds of a clock that can't be set. */
static uint64_t clock_now(void)
{
    struct timespec now;
    clock_gettime(CLOCK_MONOTONIC, &now);
    return (uint64_t)now.tv_sec * 1000000 + (uint64_t)now.tv_nsec / 1000;
}

/* Tells the name of a message behind a word. */
static void tell_name(const char *word, uint32_t epoch, uint32_t interval, uint16_t number)
{
    fprintf(stderr, "%s ", word);
    if (form == TESLA_FOLLOW)
        fprintf(stderr, "%" PRIu32 "/", epoch);
    fprintf(stderr, "%" PRIu32 "/%u", interval, (unsigned)number);
}

static void tell_late(const struct tesla_release *record)
{
    tell_name("late", record->epoch, record->interval, record->number);
    fprintf(stderr, "\n");
}

/* Prints what may be given. It answers 0 where a line can't be written. */
static int show_next(struct tesla_order *order, enum tesla_which which, uint64_t now)
{
    struct tesla_release record;
    struct tesla_gap gap;
    enum tesla_step step;
    while ((step = tesla_order_next(order, which, now, &record, &gap)) != TESLA_NONE) {
        if (step == TESLA_GIVE && !show(&record))
            return 0;
        if (step == TESLA_LATE)
            tell_late(&record);
        if (step == TESLA_GAP) {
            tell_name("gave up", gap.epoch, gap.interval, gap.first);
            if (gap.first < gap.last)
                tell_name(" to", gap.epoch, gap.interval, gap.last);
            fprintf(stderr, "\n");
        }
    }
    return 1;
}

/* Takes the whole records that were read of a file. The last answer is TESLA_END or TESLA_CUT, unless something is wrong. */
static enum tesla_result take_records(struct tesla_order *order, struct input *input)
{
    size_t at = 0, used;
    uint64_t now = clock_now();
    struct tesla_release record;
    enum tesla_result result;
    while ((result = tesla_take(form, input->bytes + at, input->size - at, &used, &record)) == TESLA_RECORD) {
        at += used;
        if (!is_wanted(&record))
            continue;
        if (tesla_order_put(order, &record, now) == TESLA_LATE)
            tell_late(&record);
        if (!show_next(order, TESLA_FOLLOWING, now))
            exit(4);
    }
    memmove(input->bytes, input->bytes + at, input->size - at);
    input->size -= at;
    return result;
}

/* Reads what can be read of a file. It answers TESLA_RECORD where more may come, else how the file ended. */
static enum tesla_result read_some(struct tesla_order *order, struct input *input)
{
    ssize_t count = read(input->file, input->bytes + input->size, sizeof input->bytes - input->size);
    if (count < 0)
        return errno == EINTR ? TESLA_RECORD : TESLA_FAILED;
    if (count == 0)
        return input->size == 0 ? TESLA_END : TESLA_CUT;
    input->size += (size_t)count;
    return take_records(order, input) == TESLA_NO_RECORD ? TESLA_NO_RECORD : TESLA_RECORD;
}

/* How many milliseconds there are until the first that waits has waited for long enough; -1 where none waits. */
static int patience(const struct tesla_order *order)
{
    uint64_t due = tesla_order_due(order), now = clock_now();
    if (due == UINT64_MAX)
        return -1;
    return due <= now ? 0 : (int)((due - now + 999) / 1000 > 86400000 ? 86400000 : (due - now + 999) / 1000);
}

/* Reads all files that can be read. It answers the status of the first that went wrong, else 0. */
static int read_ready(struct tesla_order *order, struct pollfd *asked, size_t count)
{
    size_t at;
    int status = 0;
    for (at = 0; at < count; at++) {
        enum tesla_result result;
        if (asked[at].fd < 0 || asked[at].revents == 0 || (result = read_some(order, &inputs[at])) == TESLA_RECORD)
            continue;
        if (result != TESLA_END)
            fprintf(stderr, "%s: %s\n", inputs[at].name, said[result]);
        status = status != 0 ? status : statuses[result];
        close(inputs[at].file);
        asked[at].fd = -1;
    }
    return status;
}

/* Whether a file isn't at its end. */
static int any_open(const struct pollfd *asked, size_t count)
{
    size_t at;
    for (at = 0; at < count; at++)
        if (asked[at].fd >= 0)
            return 1;
    return 0;
}

/* Prints the records of all files by interval and number. */
static int show_ordered(size_t count, uint64_t wait, size_t most)
{
    static struct tesla_order order;
    struct pollfd asked[MOST_FILES];
    size_t at;
    int status = 0;
    tesla_order_open(&order, places, most, wait);
    for (at = 0; at < count; at++) {
        inputs[at].file = open(inputs[at].name, O_RDONLY);
        if (inputs[at].file < 0) {
            perror(inputs[at].name);
            return 3;
        }
        asked[at].fd = inputs[at].file;
        asked[at].events = POLLIN;
        asked[at].revents = 0;
    }
    while (any_open(asked, count)) {
        int ready = poll(asked, (nfds_t)count, patience(&order)), came;
        if (ready == 0 && !show_next(&order, TESLA_DUE, clock_now()))
            return 4;
        came = ready > 0 ? read_ready(&order, asked, count) : 0;
        status = status != 0 ? status : came;
    }
    if (!show_next(&order, TESLA_ALL, 0))
        return 4;
    fprintf(stderr, "given %" PRIu64 ", gave up %" PRIu64 ", late %" PRIu64 "\n", order.given, order.lost, order.late);
    return status;
}

/* The names of files with a comma between two; 0 where there are too many. */
static size_t split(char *word)
{
    size_t count = 0;
    for (;;) {
        char *comma = strchr(word, ',');
        if (count == MOST_FILES || *word == '\0' || comma == word)
            return 0;
        inputs[count++].name = word;
        if (comma == NULL)
            return count;
        *comma = '\0';
        word = comma + 1;
    }
}

/* Seconds, up to a day, in microseconds; UINT64_MAX where the word is none. */
static uint64_t seconds_of(const char *word)
{
    char *end;
    double seconds = strtod(word, &end);
    if (*word == '\0' || *end != '\0' || word[strspn(word, "0123456789.")] != '\0' || seconds > 86400)
        return UINT64_MAX;
    return (uint64_t)(seconds * 1000000);
}

/* Reads the words for the records that are wanted, and answers how many they are. */
static int read_form(int count, char **words)
{
    if (count == 1 && strcmp(words[0], "roll") == 0)
        form = TESLA_ROLL;
    if (count == 1 && strcmp(words[0], "early") == 0)
        form = TESLA_EARLY;
    if (count == 0 || strcmp(words[0], "follow") != 0)
        return form == TESLA_PLAIN ? 0 : 1;
    form = TESLA_FOLLOW;
    if (count == 1 || strcmp(words[1], "once") != 0)
        return 1;
    tesla_once_open(&once, known, TESLA_MOST_NAMES);
    return 2;
}

int main(int count, char **words)
{
    uint64_t wait;
    size_t files, most = 4096;
    int at = count < 2 ? 0 : 2 + read_form(count - 2, words + 2);
    if (at > 0 && count == at)
        return show_file(words[1]);
    if (count - at == 3)
        most = strspn(words[at + 2], "0123456789") == strlen(words[at + 2]) ? (size_t)strtoul(words[at + 2], NULL, 10) : 0;
    if (at == 0 || (count - at != 2 && count - at != 3) || strcmp(words[at], "order") != 0
        || (wait = seconds_of(words[at + 1])) == UINT64_MAX || most < 2 || most > MOST_PLACES || (files = split(words[1])) == 0) {
        fprintf(stderr, "usage: show FILE [roll|early|follow [once]]\n"
                        "       show FILE,.. [follow [once]] order SECONDS [PLACES]\n");
        return 3;
    }
    return show_ordered(files, wait, most);
}
