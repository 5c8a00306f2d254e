/* rates THREADS SECONDS NAME BURST [remember]: so many threads, each with a validator on the same documents, judge the token of this name and take its
 * payload, in bursts of so many seconds with pauses between them. It prints how many calls a second they made in a burst in which no thread was switched out
 * or began late, the median of these bursts, and how many there were. */
#define _GNU_SOURCE
#include <fowharimu.h>
#include <pthread.h>
#include <string.h>
#include <sys/resource.h>
#include <time.h>

#include "octets.h"

enum { THREADS_MOST = 64, CALLS = 16, BURSTS_MOST = 10000 };

/* How long a pause is, in seconds. Bursts begin where the clock is a multiple of a burst and a pause: so threads and processes begin together. */
static const double PAUSE = 0.02;

static octets policy, keys, token;
static double burst, end;

typedef struct task {
    pthread_t thread;
    fow_validator validator;
    double rates[BURSTS_MOST]; /* 0 where the thread was disturbed */
    char apart[256];
} task;

static double now(void)
{
    struct timespec it;
    clock_gettime(CLOCK_REALTIME, &it);
    return (double)it.tv_sec + (double)it.tv_nsec * 1e-9;
}

static long switched_out(void)
{
    struct rusage it;
    getrusage(RUSAGE_THREAD, &it);
    return it.ru_nivcsw;
}

static void wait_until(double moment)
{
    struct timespec it = { (time_t)moment, (long)((moment - (double)(time_t)moment) * 1e9) };
    clock_nanosleep(CLOCK_REALTIME, TIMER_ABSTIME, &it, NULL);
}

/* The calls a second of a burst that begins at this moment; 0 where the thread was disturbed. */
static double rate_of(task *mine, double start)
{
    fow_report report;
    uint8_t out[MOST];
    size_t written;
    long calls = 0, before = switched_out();
    double began = now();
    bool is_late = began - start > burst / 8;
    while (now() < start + burst) {
        for (int i = 0; i < CALLS; i++) {
            CHECK(fow_judge(&mine->validator, token.at, token.len, NOW, &report) == FOW_OK);
            CHECK(fow_accepted_payload(&mine->validator, out, sizeof out, &written) == FOW_OK);
        }
        calls += CALLS;
    }
    double length = now() - began;
    return is_late || switched_out() != before ? 0 : (double)calls / length;
}

static void *judge(void *at)
{
    task *mine = at;
    double period = burst + PAUSE;
    for (long n = (long)(now() / period) + 1, i = 0; i < BURSTS_MOST && (double)n * period < end; n++, i++) {
        wait_until((double)n * period);
        mine->rates[n % BURSTS_MOST] = rate_of(mine, (double)n * period);
    }
    return NULL;
}

static int compare(const void *a, const void *b)
{
    double x = *(const double *)a, y = *(const double *)b;
    return (x > y) - (x < y);
}

/* Prints the median of the bursts in which no thread was disturbed. */
static void print_rates(const task *tasks, int threads)
{
    static double rates[BURSTS_MOST];
    int count = 0;
    for (int i = 0; i < BURSTS_MOST; i++) {
        double sum = 0;
        bool is_calm = true;
        for (int n = 0; n < threads; n++) {
            sum += tasks[n].rates[i];
            is_calm = is_calm && tasks[n].rates[i] > 0;
        }
        if (is_calm)
            rates[count++] = sum;
    }
    qsort(rates, (size_t)count, sizeof *rates, compare);
    printf("%.0f %d\n", count == 0 ? 0 : rates[count / 2], count);
}

int main(int count, char **words)
{
    static task tasks[THREADS_MOST];
    CHECK(count == 5 || (count == 6 && strcmp(words[5], "remember") == 0));
    int threads = atoi(words[1]);
    double seconds = atof(words[2]);
    burst = atof(words[4]);
    CHECK(threads >= 1 && threads <= THREADS_MOST && seconds > 0 && burst > 0);
    read_named(&policy, words[3], "policy");
    read_named(&keys, words[3], "keys");
    read_named(&token, words[3], "jwt");
    fow_validator first = FOW_VALIDATOR_INIT;
    uint32_t fault;
    CHECK(fow_open(&first, policy.at, policy.len, keys.at, keys.len, &fault) == FOW_OK);
    for (int i = 0; i < threads; i++) {
        tasks[i].validator = (fow_validator)FOW_VALIDATOR_INIT;
        CHECK(fow_open_beside(&tasks[i].validator, &first) == FOW_OK);
        CHECK(fow_remember(&tasks[i].validator, count == 6 ? 100 : 0, 4096) == FOW_OK);
    }
    end = now() + seconds;
    for (int i = 0; i < threads; i++)
        CHECK(pthread_create(&tasks[i].thread, NULL, judge, &tasks[i]) == 0);
    for (int i = 0; i < threads; i++) {
        pthread_join(tasks[i].thread, NULL);
        fow_close(&tasks[i].validator);
    }
    fow_close(&first);
    print_rates(tasks, threads);
    return 0;
}
