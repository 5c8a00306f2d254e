/* threads HMAC RSA: eight threads, each with a validator of its own that another thread opened, judge at the same time. */
#include <fowharimu.h>
#include <pthread.h>

#include "octets.h"

enum { THREADS = 8, ROUNDS = 500 };

typedef struct task {
    fow_validator validator;
    const octets *token;
    uint32_t verdict;
} task;

static void *judge_often(void *at)
{
    task *mine = at;
    fow_report report;
    for (int i = 0; i < ROUNDS; i++)
        mine->verdict |= fow_judge(&mine->validator, mine->token->at, mine->token->len, NOW, &report);
    return NULL;
}

int main(int argc, char **argv)
{
    static octets policy[2], keys[2], token[2];
    static task tasks[THREADS];
    pthread_t threads[THREADS];
    CHECK(argc == 3);
    for (int k = 0; k < 2; k++) {
        read_named(&policy[k], argv[k + 1], "policy");
        read_named(&keys[k], argv[k + 1], "keys");
        read_named(&token[k], argv[k + 1], "jwt");
    }
    for (int i = 0; i < THREADS; i++) {
        uint32_t fault;
        int k = i % 2;
        tasks[i].token = &token[k];
        CHECK(fow_open(&tasks[i].validator, policy[k].at, policy[k].len, keys[k].at, keys[k].len, &fault) == FOW_OK);
        CHECK(pthread_create(&threads[i], NULL, judge_often, &tasks[i]) == 0);
    }
    for (int i = 0; i < THREADS; i++) {
        CHECK(pthread_join(threads[i], NULL) == 0);
        fow_close(&tasks[i].validator);
        CHECK(tasks[i].verdict == FOW_OK);
    }
    puts("eight threads as they must be");
    return 0;
}
