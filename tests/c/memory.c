/* memory HMAC RSA ED25519: refuses each allocation of each call in turn. Each has to answer FOW_OUT_OF_MEMORY or what it answers with memory,
 * and no block may be left. Linked with --wrap=malloc,--wrap=realloc,--wrap=free. */
#include <fowharimu.h>
#include <string.h>

#include "octets.h"

/* How many allocations are still granted, none where negative is no limit; how many were asked for; how many blocks are held. */
static long granted = -1, asked_for, held;

void *__real_malloc(size_t size);
void *__real_realloc(void *block, size_t size);
void __real_free(void *block);

static int is_granted(void)
{
    asked_for++;
    return granted < 0 || granted-- > 0;
}

void *__wrap_malloc(size_t size)
{
    if (!is_granted()) {
        granted = 0;
        return NULL;
    }
    void *block = __real_malloc(size);
    held += block != NULL;
    return block;
}

void *__wrap_realloc(void *block, size_t size)
{
    if (!is_granted()) {
        granted = 0;
        return NULL;
    }
    void *moved = __real_realloc(block, size);
    held += block == NULL && moved != NULL;
    return moved;
}

void __wrap_free(void *block)
{
    held -= block != NULL;
    __real_free(block);
}

static octets policy, keys, token;
static uint8_t out[MOST];
static fow_validator validator = FOW_VALIDATOR_INIT;

/* The calls, each of which answers its status. They leave the validator with what it holds, or open it. */
static uint32_t open_it(void)
{
    uint32_t fault;
    return fow_open(&validator, policy.at, policy.len, keys.at, keys.len, &fault);
}

/* A second validator on the same documents, which is opened anew where it is open. */
static fow_validator second = FOW_VALIDATOR_INIT;

static uint32_t open_beside(void)
{
    return fow_open_beside(&second, &validator);
}

static uint32_t judge_it(void)
{
    fow_report report;
    return fow_judge(&validator, token.at, token.len, NOW, &report);
}

static uint32_t remember_some(void)
{
    return fow_remember(&validator, 2, 4096);
}

static uint32_t member_of_policy(void)
{
    static const uint8_t refused[] = "{\"algs\":[\"HS256\"],\"isuers\":[\"joe\"]}";
    size_t written;
    return fow_refused_member(refused, sizeof refused - 1, out, sizeof out, &written);
}

static uint32_t header_of_it(void)
{
    size_t written;
    return fow_unverified_header(&validator, token.at, token.len, 0, out, sizeof out, &written);
}

static uint32_t payload_of_it(void)
{
    size_t written;
    return fow_payload(&validator, token.at, token.len, out, sizeof out, &written);
}

/* (it takes no memory) */
static uint32_t payload_of_the_accepted(void)
{
    size_t written;
    long asked = asked_for;
    uint32_t status = fow_accepted_payload(&validator, out, sizeof out, &written);
    CHECK(asked_for == asked);
    return status;
}

static uint32_t issuer_of_it(void)
{
    size_t written;
    return fow_unverified_issuer(&validator, token.at, token.len, out, sizeof out, &written);
}

static uint32_t text_of_document(void)
{
    static const uint8_t document[] = "{\"issuer\":\"https://a.example\",\"jwks_uri\":\"https://a.example/keys\"}";
    size_t written;
    return fow_text_member(document, sizeof document - 1, (const uint8_t *)"jwks_uri", 8, out, sizeof out, &written);
}

/* Calls that take no memory. */
static uint32_t policy_of_it(void)
{
    uint32_t limit;
    size_t written;
    fow_documents_are_public(&validator);
    uint32_t status = fow_sole_issuer(&validator, out, sizeof out, &written);
    return fow_token_limit(&validator, &limit) == FOW_OK ? status : FOW_NOT_OPEN;
}

static uint32_t claim_of_it(void)
{
    size_t written;
    return fow_claim(&validator, (const uint8_t *)"iss", 3, out, sizeof out, &written);
}

static uint32_t issue_it(void)
{
    size_t written;
    fow_report report;
    return fow_issue(&validator, FOW_HS256, FOW_GENERAL, 0, (const uint8_t *)"JWT", 3, (const uint8_t *)"{\"iss\":\"joe\"}", 13, out,
        sizeof out, &written, &report);
}

/* An access rule, which is opened anew where it is open. */
static fow_access access = FOW_ACCESS_INIT;

static uint32_t open_access(void)
{
    static const uint8_t rule[] = "{\"scopes\":[\"read\"],\"scope_claim\":\"/a/b\",\"claims\":{\"/a~1b\":[\"x\",true,7],\"iss\":[\"joe\"]}}";
    uint32_t fault;
    return fow_access_open(&access, rule, sizeof rule - 1, &fault);
}

static uint32_t claim_of_rule(void)
{
    static const uint8_t refused[] = "{\"claims\":{\"iss\":[\"joe\",1.5]}}";
    size_t written;
    return fow_access_refused(refused, sizeof refused - 1, out, sizeof out, &written);
}

static uint32_t hold_access(void)
{
    uint32_t denial;
    return fow_denied(&validator, &access, &denial);
}

static uint32_t name_denied(void)
{
    size_t written;
    return fow_denied_name(&validator, &access, out, sizeof out, &written);
}

static uint32_t expect_text(void)
{
    uint32_t unmet;
    return fow_expect_text(&validator, (const uint8_t *)"/iss", 4, (const uint8_t *)"joe", 3, &unmet);
}

static uint32_t expect_half_hash(void)
{
    uint32_t unmet;
    return fow_expect_half_hash(&validator, token.at, token.len, 0, (const uint8_t *)"iss", 3, out, 100, &unmet);
}

/* A memory of tokens that count once, which is opened anew where it is open, and a token with `jti` and `exp`. */
static fow_once once = FOW_ONCE_INIT;

static uint32_t open_once(void)
{
    return fow_once_open(&once, 64, 0, 0);
}

static uint32_t take_it(void)
{
    uint32_t taken;
    return fow_once_take(&once, &validator, NOW, &taken);
}

static void judge_one_with_jti(int number)
{
    char claims[64];
    fow_report report;
    int len = snprintf(claims, sizeof claims, "{\"jti\":\"%d\",\"exp\":1300819380}", number);
    CHECK(fow_issue(&validator, FOW_HS256, FOW_COMPACT, 0, out, 0, (const uint8_t *)claims, (size_t)len, token.at, sizeof token.at, &token.len,
              &report) == FOW_OK);
    CHECK(judge_it() == FOW_OK);
}

/* Refuses each allocation of a call in turn, and then all after it, until the call needs no more. */
static void refuse_each(const char *name, uint32_t (*call)(void), uint32_t right)
{
    long refused = 0;
    for (;; refused++) {
        granted = refused;
        uint32_t status = call();
        int was_enough = granted >= 0 && status == right;
        granted = -1;
        CHECK(status == right || status == FOW_OUT_OF_MEMORY);
        if (status == right && was_enough)
            break;
        CHECK(refused < 10000);
    }
    printf("%s: %ld allocations refused in turn\n", name, refused);
}

/* Refuses each allocation of a judging in turn that keeps the token in an empty memory, until it is kept: where it isn't, it is judged as ever.
 * Then each of a judging out of the memory is refused, after which the token is still remembered. */
static void refuse_keeping(const char *name, const char *again, uint32_t (*judge)(void))
{
    long refused = 0;
    bool is_kept = false;
    for (; !is_kept; refused++) {
        CHECK(fow_remember(&validator, 2, 4096) == FOW_OK);
        granted = refused;
        uint32_t status = judge();
        granted = -1;
        CHECK(status == FOW_OK || status == FOW_OUT_OF_MEMORY);
        is_kept = judge() == FOW_OK && fow_remembered(&validator);
        CHECK(refused < 10000);
    }
    printf("%s: %ld allocations refused in turn\n", name, refused - 1);
    refuse_each(again, judge, FOW_OK);
    CHECK(fow_remembered(&validator));
    CHECK(fow_remember(&validator, 0, 0) == FOW_OK);
}

/* The calls on a token that is accepted. */
static void refuse_on(const char *name)
{
    read_named(&policy, name, "policy");
    read_named(&keys, name, "keys");
    read_named(&token, name, "jwt");
    long before = held;
    refuse_each("fow_open", open_it, FOW_OK);
    refuse_each("fow_open_beside", open_beside, FOW_OK);
    refuse_each("fow_open_beside, opened anew", open_beside, FOW_OK);
    refuse_each("fow_judge", judge_it, FOW_OK);
    refuse_each("fow_payload", payload_of_it, FOW_OK);
    refuse_each("fow_unverified_header", header_of_it, FOW_OK);
    refuse_each("fow_unverified_issuer", issuer_of_it, FOW_OK);
    long asked = asked_for;
    policy_of_it();
    CHECK(asked_for == asked);
    CHECK(judge_it() == FOW_OK);
    CHECK(payload_of_the_accepted() == FOW_OK);
    refuse_each("fow_claim", claim_of_it, FOW_OK);
    refuse_each("fow_remember", remember_some, FOW_OK);
    refuse_keeping("fow_judge, over a memory", "fow_judge, out of a memory", judge_it);
    fow_close(&validator);

    /* (the second holds the documents on) */
    validator = second;
    second = (fow_validator)FOW_VALIDATOR_INIT;
    refuse_each("fow_judge, beside", judge_it, FOW_OK);
    fow_close(&validator);
    CHECK(held == before);
}

int main(int argc, char **argv)
{
    CHECK(argc == 4);
    long nothing = held;
    refuse_on(argv[2]);
    refuse_on(argv[3]);
    refuse_on(argv[1]);
    refuse_each("fow_refused_member", member_of_policy, FOW_OK);
    refuse_each("fow_access_refused", claim_of_rule, FOW_OK);
    refuse_each("fow_text_member", text_of_document, FOW_OK);
    CHECK(open_it() == FOW_OK);
    long before = held;
    refuse_each("fow_issue", issue_it, FOW_OK);
    CHECK(held == before);
    refuse_each("fow_access_open", open_access, FOW_OK);
    refuse_each("fow_access_open, opened anew", open_access, FOW_OK);
    CHECK(judge_it() == FOW_OK);
    long asked = asked_for;
    refuse_each("fow_denied", hold_access, FOW_DENIED);
    refuse_each("fow_denied_name", name_denied, FOW_OK);
    refuse_each("fow_expect_text", expect_text, FOW_OK);
    CHECK(asked_for == asked);
    refuse_each("fow_expect_half_hash", expect_half_hash, FOW_NOT_EXPECTED);
    fow_access_close(&access);

    /* (where memory is refused, the token isn't taken, and is new the next time) */
    refuse_each("fow_once_open", open_once, FOW_OK);
    refuse_each("fow_once_open, opened anew", open_once, FOW_OK);
    for (int i = 0; i < 64; i++) {
        judge_one_with_jti(i);
        refuse_each("fow_once_take", take_it, FOW_OK);
        CHECK(take_it() == FOW_REFUSED);
    }
    fow_once_close(&once);
    fow_close(&validator);
    CHECK(held == nothing);
    printf("%ld allocations, nothing is left\n", asked_for);
    return 0;
}
