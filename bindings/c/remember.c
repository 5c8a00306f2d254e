/* remember HMAC RSA: tokens that come again. Linked with --wrap=malloc,--wrap=realloc,--wrap=free, by which it tells what a kept token takes. */
#include <fowharimu.h>
#include <malloc.h>

#include "octets.h"

/* How many octets are held. */
static size_t held;

void *__real_malloc(size_t size);
void *__real_realloc(void *block, size_t size);
void __real_free(void *block);

void *__wrap_malloc(size_t size)
{
    void *block = __real_malloc(size);
    held += malloc_usable_size(block);
    return block;
}

void *__wrap_realloc(void *block, size_t size)
{
    held -= malloc_usable_size(block);
    void *moved = __real_realloc(block, size);
    held += malloc_usable_size(moved != NULL ? moved : block);
    return moved;
}

void __wrap_free(void *block)
{
    held -= malloc_usable_size(block);
    __real_free(block);
}

static octets policy, keys, token;
static fow_validator validator = FOW_VALIDATOR_INIT;
static fow_report report;

static void open_named(const char *name)
{
    uint32_t fault;
    read_named(&policy, name, "policy");
    read_named(&keys, name, "keys");
    read_named(&token, name, "jwt");
    CHECK(fow_open(&validator, policy.at, policy.len, keys.at, keys.len, &fault) == FOW_OK);
}

/* Whether a judging answers this, and whether out of the memory. */
static bool says(uint32_t verdict, bool is_remembered, int64_t now)
{
    return fow_judge(&validator, token.at, token.len, now, &report) == verdict && report.verdict == verdict
        && fow_remembered(&validator) == is_remembered;
}

/* The token is remembered, at each moment by its claims. */
static void check_moments(const char *hmac)
{
    fow_report first;
    uint8_t payload[MOST], again[MOST];
    size_t len, again_len;
    int64_t exp = 0;
    fow_state state;
    fow_try tried;
    CHECK(fow_remember(&validator, 10, 4096) == FOW_NOT_OPEN && !fow_remembered(&validator));
    open_named(hmac);
    CHECK(says(FOW_OK, false, NOW) && says(FOW_OK, false, NOW));
    CHECK(fow_remember(&validator, 10, 4096) == FOW_OK);
    CHECK(says(FOW_OK, false, NOW));
    first = report;
    CHECK(fow_accepted_payload(&validator, payload, sizeof payload, &len) == FOW_OK);
    CHECK(says(FOW_OK, true, NOW) && memcmp(&first, &report, sizeof report) == 0 && report.tries == 1 && report.work == 295);
    CHECK(fow_accepted_payload(&validator, again, sizeof again, &again_len) == FOW_OK);
    CHECK(again_len == len && memcmp(payload, again, len) == 0);
    CHECK(fow_number(&validator, (const uint8_t *)"exp", 3, &exp) == FOW_OK && exp == NOW + 1);
    CHECK(fow_state_of(&validator, 0, &state) == FOW_OK && state.state == FOW_STATE_VERIFIED && state.key == 0);
    CHECK(fow_state_of(&validator, 1, &state) == FOW_ABSENT);
    CHECK(fow_try_of(&validator, 0, &tried) == FOW_OK && tried.cost == 295 && fow_try_of(&validator, 1, &tried) == FOW_ABSENT);
    CHECK(says(FOW_REFUSED, true, NOW + 1) && report.fault == FOW_CLAIM_EXPIRED && report.tries == 1 && report.work == 295);
    CHECK(fow_number(&validator, (const uint8_t *)"exp", 3, &exp) == FOW_ABSENT);
    CHECK(fow_accepted_payload(&validator, again, sizeof again, &again_len) == FOW_ABSENT);
    CHECK(says(FOW_OK, true, NOW) && says(FOW_OK, true, INT64_MIN) && says(FOW_REFUSED, true, INT64_MAX) && says(FOW_OK, true, NOW));
    fow_close(&validator);
    CHECK(!fow_remembered(&validator));
}

/* What empties it: another size, the same size, documents that are read anew. A validator beside has its own. */
static void check_ends(const char *hmac)
{
    fow_validator beside = FOW_VALIDATOR_INIT;
    open_named(hmac);
    CHECK(fow_remember(&validator, 10, 4096) == FOW_OK && says(FOW_OK, false, NOW) && says(FOW_OK, true, NOW));
    CHECK(fow_open_beside(&beside, &validator) == FOW_OK && says(FOW_OK, true, NOW));
    CHECK(fow_judge(&beside, token.at, token.len, NOW, &report) == FOW_OK && !fow_remembered(&beside));
    CHECK(fow_judge(&beside, token.at, token.len, NOW, &report) == FOW_OK && !fow_remembered(&beside));
    CHECK(fow_remember(&validator, 10, 4096) == FOW_OK && says(FOW_OK, false, NOW) && says(FOW_OK, true, NOW));
    CHECK(fow_remember(&validator, 0, 4096) == FOW_OK && says(FOW_OK, false, NOW) && says(FOW_OK, false, NOW));
    CHECK(fow_remember(&validator, 10, token.len - 1) == FOW_OK && says(FOW_OK, false, NOW) && says(FOW_OK, false, NOW));
    CHECK(fow_remember(&validator, SIZE_MAX, token.len) == FOW_OK && says(FOW_OK, false, NOW) && says(FOW_OK, true, NOW));
    open_named(hmac);
    CHECK(says(FOW_OK, false, NOW) && says(FOW_OK, false, NOW));
    fow_close(&beside);
    fow_close(&validator);
}

/* A token by a public key is remembered as well, and none whose signature is another. */
static void check_public(const char *rsa)
{
    open_named(rsa);
    CHECK(fow_remember(&validator, 10, 4096) == FOW_OK && says(FOW_OK, false, NOW));
    CHECK(says(FOW_OK, true, NOW) && says(FOW_REFUSED, true, NOW + 1) && says(FOW_OK, true, NOW));
    token.at[token.len - 10] ^= 1;
    CHECK(says(FOW_REFUSED, false, NOW) && report.fault == FOW_SIG_BAD_SIGNATURE && says(FOW_REFUSED, false, NOW));
    token.at[token.len - 10] ^= 1;
    CHECK(says(FOW_OK, true, NOW) && fow_remember(&validator, 10, 4096) == FOW_OK && says(FOW_OK, false, NOW));
    fow_close(&validator);
}

/* Issues the token of a user, with so many claims beside `exp`. */
static void issue_for(int user, int claims)
{
    static char text[MOST];
    size_t written;
    int len = sprintf(text, "{\"exp\":%d,\"sub\":\"user %07d\"", NOW + 1, user);
    for (int i = 0; i < claims; i++)
        len += sprintf(text + len, ",\"claim%02d\":\"a value that is %02d\"", i, i);
    len += sprintf(text + len, "}");
    CHECK(fow_issue(&validator, FOW_HS256, FOW_COMPACT, 0, (const uint8_t *)"", 0, (const uint8_t *)text, (size_t)len, token.at, MOST, &written,
              &report)
        == FOW_OK);
    token.len = written;
}

/* Opens the key of a name under a policy that asks for the algorithm alone. */
static void open_lenient(const char *hmac)
{
    static const uint8_t lenient[] = "{\"algs\":[\"HS256\"]}";
    uint32_t fault;
    read_named(&keys, hmac, "keys");
    CHECK(fow_open(&validator, lenient, sizeof lenient - 1, keys.at, keys.len, &fault) == FOW_OK);
}

/* The least used goes first. */
static void check_order(const char *hmac)
{
    static const int users[] = { 1, 2, 1, 3, 1, 2 };
    static const bool remembered[] = { false, false, true, false, true, false };
    open_lenient(hmac);
    CHECK(fow_remember(&validator, 2, 4096) == FOW_OK);
    for (size_t i = 0; i < sizeof users / sizeof *users; i++) {
        issue_for(users[i], 0);
        CHECK(says(FOW_OK, remembered[i], NOW));
    }
    fow_close(&validator);
}

/* Another token isn't taken for one that is remembered, wherever the two part. */
static void check_other_octets(const char *hmac)
{
    open_lenient(hmac);
    CHECK(fow_remember(&validator, 1000, 4096) == FOW_OK);
    issue_for(1, 0);
    CHECK(says(FOW_OK, false, NOW));
    for (size_t i = 0; i < token.len; i++) {
        token.at[i] ^= 1;
        CHECK(fow_judge(&validator, token.at, token.len, NOW, &report) == FOW_REFUSED && !fow_remembered(&validator));
        token.at[i] ^= 1;
    }
    CHECK(fow_judge(&validator, token.at, token.len - 1, NOW, &report) == FOW_REFUSED && !fow_remembered(&validator));
    CHECK(says(FOW_OK, true, NOW));
    fow_close(&validator);
}

/* Many tokens that are refused push none out, and many that are accepted take no more than the memory's room. */
static void check_histories(const char *hmac)
{
    enum { REFUSED = 1000000, ACCEPTED = 100000 };
    static octets good;
    open_lenient(hmac);
    CHECK(fow_remember(&validator, 2, 4096) == FOW_OK);
    issue_for(1, 0);
    good = token;
    CHECK(says(FOW_OK, false, NOW));
    for (int i = 0; i < REFUSED; i++) {
        char changed[9];
        sprintf(changed, "%08d", i);
        memcpy(token.at + token.len - 20, changed, 8);
        CHECK(says(FOW_REFUSED, false, NOW) && report.fault == FOW_SIG_BAD_SIGNATURE);
    }
    token = good;
    CHECK(says(FOW_OK, true, NOW) && fow_remember(&validator, 1000, 4096) == FOW_OK);
    size_t full = 0;
    for (int i = 0; i < ACCEPTED; i++) {
        issue_for(i, 0);
        CHECK(says(FOW_OK, false, NOW));
        if (i == 2000)
            full = held;
    }
    CHECK(held <= full);
    fow_close(&validator);
}

/* What a kept token takes: the difference between a memory that keeps many and one that keeps none. */
static void tell_size(const char *hmac, int claims)
{
    enum { TOKENS = 1000 };
    open_lenient(hmac);
    issue_for(0, claims);
    CHECK(says(FOW_OK, false, NOW) && fow_remember(&validator, TOKENS, 4096) == FOW_OK && says(FOW_OK, false, NOW));
    size_t before = held;
    for (int i = 1; i <= TOKENS; i++) {
        issue_for(i, claims);
        CHECK(says(FOW_OK, false, NOW));
    }
    printf("a kept token of %zu octets with %d claims takes %zu octets\n", token.len, claims + 2, (held - before) / (TOKENS - 1));
    fow_close(&validator);
}

int main(int argc, char **argv)
{
    CHECK(argc == 3);
    check_moments(argv[1]);
    check_ends(argv[1]);
    check_public(argv[2]);
    check_order(argv[1]);
    check_other_octets(argv[1]);
    check_histories(argv[1]);
    tell_size(argv[1], 2);
    tell_size(argv[1], 24);
    CHECK(held == 0);
    puts("each token that comes again is judged as it must be");
    return 0;
}
