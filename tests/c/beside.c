/* beside HMAC RSA ROUNDS: eight threads with validators on the same documents open beside one another, judge and close, in an order
 * that each draws for itself. Those that the others were opened beside are closed first, over and over. */
#include <fowharimu.h>
#include <pthread.h>

#include "octets.h"

enum { THREADS = 8, SETS = 2, SEATS = 3 };

static octets policy[SETS], keys[SETS], token[SETS], forged[SETS];

/* The validator of each set of documents that a thread opens others beside, which one has to itself for so long. */
static fow_validator common[SETS];
static pthread_mutex_t turn = PTHREAD_MUTEX_INITIALIZER;

typedef struct task {
    int rounds;
    uint32_t drawn;
    fow_validator seats[SETS][SEATS];
} task;

/* A number below `most` (xorshift). */
static uint32_t draw(task *mine, uint32_t most)
{
    mine->drawn ^= mine->drawn << 13;
    mine->drawn ^= mine->drawn >> 17;
    mine->drawn ^= mine->drawn << 5;
    return mine->drawn % most;
}

/* Judges a token as it must be. */
static void judge(fow_validator *seat, int set)
{
    fow_report report;
    static _Thread_local uint8_t out[MOST];
    size_t written;
    for (int n = 0; n < 2; n++) {
        const octets *it = n == 0 ? &token[set] : &forged[set];
        uint32_t verdict = fow_judge(seat, it->at, it->len, NOW, &report);
        CHECK(verdict == (n == 0 ? FOW_OK : FOW_REFUSED));
    }
    CHECK(fow_accepted_payload(seat, out, sizeof out, &written) == FOW_ABSENT);
    CHECK(fow_payload(seat, token[set].at, token[set].len, out, sizeof out, &written) == FOW_OK && written > 0);
}

static void *work(void *at)
{
    task *mine = at;
    for (int i = 0; i < mine->rounds; i++) {
        int set = (int)draw(mine, SETS);
        fow_validator *seat = &mine->seats[set][draw(mine, SEATS)], *next = &mine->seats[set][draw(mine, SEATS)];
        switch (draw(mine, 8)) {
        case 0:
            fow_close(seat);
            break;
        case 1:
            if (seat != next && seat->held)
                CHECK(fow_open_beside(next, seat) == FOW_OK);
            break;
        case 2:
            if (!seat->held)
                break;
            CHECK(pthread_mutex_lock(&turn) == 0);
            fow_close(&common[set]);
            CHECK(fow_open_beside(&common[set], seat) == FOW_OK);
            CHECK(pthread_mutex_unlock(&turn) == 0);
            break;
        default:
            if (!seat->held) {
                CHECK(pthread_mutex_lock(&turn) == 0);
                CHECK(fow_open_beside(seat, &common[set]) == FOW_OK);
                CHECK(pthread_mutex_unlock(&turn) == 0);
            }
            judge(seat, set);
        }
    }
    for (int set = 0; set < SETS; set++)
        for (int k = 0; k < SEATS; k++)
            fow_close(&mine->seats[set][k]);
    return NULL;
}

int main(int argc, char **argv)
{
    static task tasks[THREADS];
    pthread_t threads[THREADS];
    CHECK(argc == 4);
    for (int set = 0; set < SETS; set++) {
        uint32_t fault;
        read_named(&policy[set], argv[set + 1], "policy");
        read_named(&keys[set], argv[set + 1], "keys");
        forged[set] = *read_named(&token[set], argv[set + 1], "jwt");
        forged[set].at[forged[set].len - 10] ^= 1;
        CHECK(fow_open(&common[set], policy[set].at, policy[set].len, keys[set].at, keys[set].len, &fault) == FOW_OK);
    }
    for (int i = 0; i < THREADS; i++) {
        tasks[i].rounds = atoi(argv[3]);
        tasks[i].drawn = 2463534242u + (uint32_t)i;
        CHECK(pthread_create(&threads[i], NULL, work, &tasks[i]) == 0);
    }
    for (int i = 0; i < THREADS; i++)
        CHECK(pthread_join(threads[i], NULL) == 0);
    for (int set = 0; set < SETS; set++)
        fow_close(&common[set]);
    puts("eight threads beside one another as they must be");
    return 0;
}
