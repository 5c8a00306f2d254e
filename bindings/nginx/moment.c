/* Preloaded into nginx by the tests: the moment, in seconds since 1970-01-01T00:00:00Z, is the one that MOMENT names, or that stands in the file which it
 * names by a path from /. nginx asks gettimeofday for it; its timers go by the monotonic clock, which is left alone. */
#include <fcntl.h>
#include <stdlib.h>
#include <sys/time.h>
#include <unistd.h>

static time_t moment;
static int file = -1;

/* (at once, since nginx takes the variable from its workers, which may be another user's) */
__attribute__((constructor)) static void read_moment(void)
{
    const char *word = getenv("MOMENT");
    if (word == NULL)
        abort();
    if (*word == '/' && (file = open(word, O_RDONLY)) < 0)
        abort();
    moment = (time_t)strtoll(word, NULL, 10);
}

int gettimeofday(struct timeval *restrict now, void *restrict zone)
{
    (void)zone;
    /* (it has nothing while the tests write it) */
    char text[32] = "";
    if (file >= 0 && pread(file, text, sizeof text - 1, 0) > 0)
        moment = (time_t)strtoll(text, NULL, 10);
    now->tv_sec = moment;
    now->tv_usec = 0;
    return 0;
}
