/* A date that can be set while a program runs. DATE names a file of 8 bytes, which the program reads at each reading of the date:
   by how many microseconds the date is ahead of the machine's, as a number of 64 bits in the machine's order. The least such number
   says that the date can't be read. Built as a shared library, and named in LD_PRELOAD. */
#define _GNU_SOURCE
#include <errno.h>
#include <fcntl.h>
#include <stdint.h>
#include <stdlib.h>
#include <sys/mman.h>
#include <sys/syscall.h>
#include <time.h>
#include <unistd.h>

static volatile const int64_t *ahead;

__attribute__((constructor)) static void open_date(void)
{
    int file = open(getenv("DATE"), O_RDONLY);
    void *held = mmap(NULL, sizeof *ahead, PROT_READ, MAP_SHARED, file, 0);

    if (file < 0 || held == MAP_FAILED)
        _exit(99);
    ahead = held;
    close(file);
}

int clock_gettime(clockid_t clock, struct timespec *time)
{
    int status = (int)syscall(SYS_clock_gettime, clock, time);
    int64_t by = ahead ? *ahead : 0;
    int64_t micros;

    if (clock != CLOCK_REALTIME || status)
        return status;
    if (by == INT64_MIN) {
        errno = EINVAL;
        return -1;
    }
    micros = (int64_t)time->tv_sec * 1000000 + time->tv_nsec / 1000 + by;
    time->tv_sec = micros / 1000000;
    time->tv_nsec = micros % 1000000 * 1000;
    return 0;
}
