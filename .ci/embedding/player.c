/* Plays recordings to libtesla as the program does, by a first word:
 *     replay SETUP LAG CAPACITY QUOTA CAPTURE OUT SHOWN       send SETUP SECRET SCRIPT CAPTURE
 *     follow SETUP LAG CAPACITY QUOTA CAPTURE OUT SHOWN       setup SETUP     frames CAPTURE     lag ASK REPLY KEY DRIFT
 *     make SECRET VERSION STREAM START INTERVAL LAST TAG DELAYS OUT, DELAYS with commas between
 * With FAIL=N in the environment the N-th allocation of the library fails, and with THREADS=N so many threads play under one lock,
 * each the record that is next. At its end it tells on standard error how often memory was asked for at the opening and after it,
 * and how many blocks weren't given back. */
#include "player.h"

int counts;
long asked, live, fails;
void *__real_malloc(size_t size);
void *__real_realloc(void *at, size_t size);
void __real_free(void *at);

void *__wrap_malloc(size_t size) {
    if (!counts) return __real_malloc(size);
    if (++asked == fails) return NULL;
    live++;
    return __real_malloc(size);
}

void *__wrap_realloc(void *at, size_t size) {
    if (!counts) return __real_realloc(at, size);
    if (++asked == fails) return NULL;
    if (!at) live++;
    return __real_realloc(at, size);
}

void __wrap_free(void *at) {
    if (counts && at) live--;
    __real_free(at);
}

uint8_t *read_whole(const char *name, size_t *length) {
    FILE *file = fopen(name, "rb");
    if (!file) exit(9);
    size_t room = 1 << 16;
    uint8_t *bytes = malloc(room);
    *length = 0;
    for (size_t got; (got = fread(bytes + *length, 1, room - *length, file)) > 0;) {
        *length += got;
        if (*length == room) bytes = realloc(bytes, room *= 2);
    }
    fclose(file);
    return bytes;
}

FILE *opened(const char *name) {
    FILE *file = fopen(name, "wb");
    if (!file) exit(9);
    return file;
}

void tell_memory(long opening, long later) {
    fprintf(stderr, "opening %ld after %ld left %ld\n", opening, later, live);
}

void end_refused(uint32_t status, const char *text, uint32_t line, uint32_t kind) {
    if (status == TESLA_REFUSED) printf("refused %s %" PRIu32 " %s\n", text, line, kind_name(kind));
    tell_memory(asked, 0);
    exit(status != TESLA_REFUSED ? 60 + (int)status : strcmp(text, "setup") ? 3 : 2);
}

static void *play_next(void *of) {
    struct play *play = of;
    for (size_t bytes = 1; bytes;) {
        pthread_mutex_lock(&play->lock);
        bytes = play->at < play->length ? play->one(play) : 0;
        play->at += bytes;
        if (!bytes) play->length = play->at;
        pthread_mutex_unlock(&play->lock);
    }
    return NULL;
}

void play_all(struct play *play) {
    int threads = getenv("THREADS") ? atoi(getenv("THREADS")) : 0;
    pthread_t made[16];
    assert(threads <= 16 && pthread_mutex_init(&play->lock, NULL) == 0);
    for (int i = 0; i < threads; i++) assert(pthread_create(&made[i], NULL, play_next, play) == 0);
    for (int i = 0; i < threads; i++) assert(pthread_join(made[i], NULL) == 0);
    if (!threads) play_next(play);
}

int main(int count, char **words) {
    static const struct {
        const char *name;
        int words;
        int (*part)(char **words);
    } parts[] = {{"replay", 9, replay}, {"send", 6, send_all}, {"follow", 9, follow}, {"setup", 3, read_setup}, {"make", 11, make_setup},
                 {"frames", 3, read_frames}, {"lag", 6, read_lag}};
    fails = getenv("FAIL") ? atol(getenv("FAIL")) : 0;
    for (size_t i = 0; i < sizeof parts / sizeof *parts && tesla_version() == TESLA_VERSION; i++)
        if (1 < count && !strcmp(words[1], parts[i].name) && count == parts[i].words) return parts[i].part(words + 2);
    return 9;
}
