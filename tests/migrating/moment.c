/* Preloaded into the libraries that are asked, none of which can be told the moment: it is the one that MOMENT names, in seconds since
 * 1970-01-01T00:00:00Z. The monotonic clock is left alone. */
#define _GNU_SOURCE
#include <dlfcn.h>
#include <stdlib.h>
#include <sys/time.h>
#include <time.h>

static time_t moment(void)
{
    const char *word = getenv("MOMENT");
    if (word == NULL)
        abort();
    return (time_t)strtoll(word, NULL, 10);
}

time_t time(time_t *now)
{
    time_t found = moment();
    if (now != NULL)
        *now = found;
    return found;
}

int gettimeofday(struct timeval *restrict now, void *restrict zone)
{
    (void)zone;
    now->tv_sec = moment();
    now->tv_usec = 0;
    return 0;
}

int clock_gettime(clockid_t clock, struct timespec *now)
{
    static int (*other)(clockid_t, struct timespec *);
    if (clock == CLOCK_REALTIME) {
        now->tv_sec = moment();
        now->tv_nsec = 0;
        return 0;
    }
    if (other == NULL)
        *(void **)&other = dlsym(RTLD_NEXT, "clock_gettime");
    return other(clock, now);
}
