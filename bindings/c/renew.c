/* renew NAME KEYS ..: exchanges key sets while threads judge. NAME is the name of a token with its key set and policy, and each KEYS a file with
 * another set that has its key. Who has keys at a URL fetches them by a client of its own, as docs/REMOTE-KEYS.md says, and does here what it does with the
 * octets: a new set is a new validator, beside which each thread opens its own when it judges next. No token is judged by a mixture. */
#include <fowharimu.h>
#include <pthread.h>

#include "octets.h"

enum { THREADS = 8, ROUNDS = 100, MOST_SETS = 8 };

/* The documents that are in use, and how many sets were taken before them. */
typedef struct keys {
    pthread_mutex_t lock;
    fow_validator documents;
    unsigned taken;
} keys;

/* What one thread judges with. */
typedef struct seat {
    fow_validator validator;
    unsigned taken;
} seat;

static octets policy, token;
static keys all = { .lock = PTHREAD_MUTEX_INITIALIZER };
static volatile int is_over;

/* Takes a new key set. Where it is refused, or has a secret in it, the old one stays. */
static bool is_taken(keys *by, const octets *set)
{
    fow_validator newer = FOW_VALIDATOR_INIT, older;
    uint32_t fault;
    if (fow_open(&newer, policy.at, policy.len, set->at, set->len, &fault) != FOW_OK || !fow_documents_are_public(&newer)) {
        fow_close(&newer);
        return false;
    }
    pthread_mutex_lock(&by->lock);
    older = by->documents;
    by->documents = newer;
    by->taken++;
    pthread_mutex_unlock(&by->lock);
    /* (what threads opened beside it holds the documents on, until they judge next) */
    fow_close(&older);
    return true;
}

/* Judges by the documents that are in use when it begins. */
static uint32_t judge(keys *by, seat *it, fow_report *report)
{
    uint32_t status = FOW_OK;
    pthread_mutex_lock(&by->lock);
    if (it->taken != by->taken)
        status = fow_open_beside(&it->validator, &by->documents);
    if (status == FOW_OK)
        it->taken = by->taken;
    pthread_mutex_unlock(&by->lock);
    if (status != FOW_OK)
        return status;
    return fow_judge(&it->validator, token.at, token.len, NOW, report);
}

static void *judge_on(void *count)
{
    seat mine = { FOW_VALIDATOR_INIT, 0 };
    fow_report report;
    while (!__atomic_load_n(&is_over, __ATOMIC_SEQ_CST)) {
        CHECK(judge(&all, &mine, &report) == FOW_OK);
        ++*(long *)count;
    }
    fow_close(&mine.validator);
    return NULL;
}

int main(int argc, char **argv)
{
    static octets sets[MOST_SETS];
    static const octets none = { .at = "{}", .len = 2 };
    static const octets secret = { .at = "{\"keys\":[{\"kty\":\"oct\",\"k\":\"AAAA\"}]}", .len = 36 };
    pthread_t threads[THREADS];
    long counts[THREADS] = { 0 }, count = 0;
    int sets_len = argc - 1;
    CHECK(argc >= 2 && sets_len <= MOST_SETS);
    read_named(&policy, argv[1], "policy");
    read_named(&token, argv[1], "jwt");
    read_named(&sets[0], argv[1], "keys");
    for (int i = 2; i < argc; i++) {
        FILE *stream = fopen(argv[i], "rb");
        CHECK(stream != NULL);
        sets[i - 1].len = fread(sets[i - 1].at, 1, MOST, stream);
        fclose(stream);
    }
    CHECK(is_taken(&all, &sets[0]));
    for (int i = 0; i < THREADS; i++)
        CHECK(pthread_create(&threads[i], NULL, judge_on, &counts[i]) == 0);
    for (int i = 0; i < ROUNDS; i++) {
        CHECK(is_taken(&all, &sets[i % sets_len]));
        CHECK(!is_taken(&all, &none) && !is_taken(&all, &secret));
    }
    __atomic_store_n(&is_over, 1, __ATOMIC_SEQ_CST);
    for (int i = 0; i < THREADS; i++) {
        CHECK(pthread_join(threads[i], NULL) == 0);
        count += counts[i];
    }
    fow_close(&all.documents);
    printf("%ld judged while %d sets were taken\n", count, ROUNDS);
    return 0;
}
