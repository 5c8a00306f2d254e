/* possession CASES: proofs of possession, and how a token is bound. CASES is tests/possession/cases.jsonl, whose first line has the policy and the key set by which
 * its access tokens are accepted. Linked with --wrap=malloc,--wrap=realloc. */
#include <fowharimu.h>
#include <string.h>

#include "octets.h"

enum { LINE = 65536, MOMENT = 1700000000, LIFE = 65 };

static const char policy[] = "{\"algs\":[\"ES256\",\"ES384\",\"ES512\",\"RS256\",\"PS256\",\"EdDSA\"],\"typ\":\"dpop+jwt\",\"required\":[\"jti\",\"htm\",\"htu\",\"iat\"],"
                             "\"max_age\":60,\"leeway\":5}";
static fow_validator validator = FOW_VALIDATOR_INIT;
static fow_possession possession = FOW_POSSESSION_INIT;
static fow_once once = FOW_ONCE_INIT;

/* How many allocations are still granted; none where negative is no limit. */
static long granted = -1;

void *__real_malloc(size_t size);
void *__real_realloc(void *block, size_t size);

static int is_granted(void)
{
    if (granted < 0)
        return 1;
    if (granted == 0)
        return 0;
    granted--;
    return 1;
}

void *__wrap_malloc(size_t size)
{
    return is_granted() ? __real_malloc(size) : NULL;
}

void *__wrap_realloc(void *block, size_t size)
{
    return is_granted() ? __real_realloc(block, size) : NULL;
}

static const uint8_t *at(const char *text)
{
    return (const uint8_t *)text;
}

/* The secret of nonces, of the octets 0 to 31. */
static uint8_t secret[80];

enum { PERIOD = 300 };

/* What fow_shown says of the token that was accepted last, with the proof that is kept. */
static uint32_t shown(fow_validator *by, const uint8_t *der, size_t der_len, uint32_t *fault)
{
    uint32_t ways = 77, status = fow_shown(by, &possession, der, der_len, &ways, fault);
    CHECK(status == FOW_OK || ways == FOW_BOUND_NOT);
    return status;
}

static uint32_t fresh(int64_t now)
{
    return fow_possession_fresh(&possession, secret, FOW_NONCE_SECRET_LEN, PERIOD, now);
}

/* A row of the cases. */
typedef struct row {
    char name[64], answer[64], proof[LINE], method[64], uri[256], nonce[64], token[1024], claims[512];
    int64_t now;
} row;

/* A text of a line, none where it is null. */
static void text_in(const char *line, const char *name, char *text, size_t room)
{
    size_t written = 0;
    uint32_t status = fow_text_member(at(line), strlen(line), at(name), strlen(name), (uint8_t *)text, room - 1, &written);
    CHECK(status == FOW_OK || status == FOW_ABSENT);
    text[status == FOW_OK ? written : 0] = 0;
}

/* An object of the first line, as it stands there. No text in it has braces. */
static const char *object_in(const char *line, const char *name, size_t *len)
{
    const char *from = strstr(line, name);
    int depth = 0;
    CHECK(from != NULL && (from = strchr(from, '{')) != NULL);
    for (*len = 0; *len == 0 || depth > 0; ++*len) {
        CHECK(from[*len] != 0);
        depth += (from[*len] == '{') - (from[*len] == '}');
    }
    return from;
}

/* Opens the validator by the documents of the first line. */
static void open_validator(const char *path)
{
    static char line[LINE];
    size_t policy_len, keys_len;
    uint32_t fault;
    FILE *cases = fopen(path, "r");
    CHECK(cases != NULL && fgets(line, sizeof line, cases) != NULL);
    fclose(cases);
    const char *access_policy = object_in(line, "\"access_policy\": ", &policy_len), *keys = object_in(line, "\"access_keys\": ", &keys_len);
    CHECK(fow_open(&validator, at(access_policy), policy_len, at(keys), keys_len, &fault) == FOW_OK);
}

static void row_in(const char *line, row *it)
{
    text_in(line, "name", it->name, sizeof it->name);
    text_in(line, "answer", it->answer, sizeof it->answer);
    text_in(line, "proof", it->proof, sizeof it->proof);
    text_in(line, "method", it->method, sizeof it->method);
    text_in(line, "uri", it->uri, sizeof it->uri);
    text_in(line, "nonce", it->nonce, sizeof it->nonce);
    text_in(line, "token", it->token, sizeof it->token);
    text_in(line, "claims", it->claims, sizeof it->claims);
    const char *now = strstr(line, "\"now\": ");
    CHECK(now != NULL);
    it->now = strtoll(now + strlen("\"now\": "), NULL, 10);
}

static uint32_t judge_access(const char *token, int64_t now)
{
    fow_report report;
    return fow_judge(&validator, at(token), strlen(token), now, &report);
}

/* Judges the proof of a row: the status, and the fault at its place. */
static uint32_t judge(const row *it, fow_validator *by, int64_t now, uint32_t *fault)
{
    return fow_possession_judge(&possession, by, at(it->proof), strlen(it->proof), at(it->method), strlen(it->method), at(it->uri), strlen(it->uri),
        at(it->nonce), strlen(it->nonce), at(it->token), strlen(it->token), now, fault);
}

static uint32_t thumbprint(char *text)
{
    size_t written = 0;
    uint32_t status = fow_possession_thumbprint(&possession, (uint8_t *)text, FOW_THUMBPRINT_LEN, &written);
    CHECK(status != FOW_OK || written == FOW_THUMBPRINT_LEN);
    text[status == FOW_OK ? FOW_THUMBPRINT_LEN : 0] = 0;
    return status;
}

/* A row is answered as it says; where its access token is none that can be accepted, there is none to stand beside. */
static void check_row(const row *it)
{
    char text[FOW_THUMBPRINT_LEN + 1];
    uint32_t fault = 77;
    bool is_accepted = *it->token == 0 || judge_access(it->token, it->now) == FOW_OK;
    uint32_t status = judge(it, &validator, it->now, &fault);
    bool is_held = strcmp(it->answer, "held") == 0;
    if (!is_accepted) {
        CHECK(status == FOW_ABSENT && fault == FOW_NO_FAULT);
    } else if (is_held) {
        CHECK(status == FOW_OK && fault == FOW_NO_FAULT);
        CHECK(thumbprint(text) == FOW_OK);
        CHECK(*it->token == 0 || strstr(it->claims, text) != NULL);
    } else {
        if (status != FOW_REFUSED || strcmp(fow_fault_name(fault), it->answer) != 0)
            fprintf(stderr, "%s: %s, and not %s\n", it->name, fow_fault_name(fault), it->answer);
        CHECK(status == FOW_REFUSED && strcmp(fow_fault_name(fault), it->answer) == 0);
    }
    CHECK(status == FOW_OK || thumbprint(text) == FOW_ABSENT);
}

/* All rows; the first is given back, and the one whose nonce is made by time. */
static void check_rows(const char *path, row *first, row *timely)
{
    static char line[LINE];
    static row it;
    int rows = 0, apart = 0;
    FILE *cases = fopen(path, "r");
    CHECK(cases != NULL && fgets(line, sizeof line, cases) != NULL);
    for (; fgets(line, sizeof line, cases) != NULL; rows++) {
        row_in(line, &it);
        if (rows == 0)
            *first = it;
        if (strcmp(it.name, "nonce-by-time") == 0)
            *timely = it;
        check_row(&it);
        apart += *it.token != 0 && judge_access(it.token, it.now) != FOW_OK;
    }
    fclose(cases);
    CHECK(rows > 150 && apart == 2);
    printf("%d proofs\n", rows);
}

/* Documents that are no policy for proofs. */
static void check_policies(void)
{
    static const struct {
        const char *document;
        uint32_t fault;
    } rows[] = {
        { "{", FOW_POLICY_JSON },
        { "{\"algs\":[]}", FOW_POLICY_NO_ALGORITHM },
        { "{\"algs\":[\"ES256\"],\"required\":[\"jti\",\"htm\",\"htu\",\"iat\"],\"max_age\":60}", FOW_PROOF_TYP },
        { "{\"algs\":[\"ES256\",\"HS256\"],\"typ\":\"dpop+jwt\",\"required\":[\"jti\",\"htm\",\"htu\",\"iat\"],\"max_age\":60}", FOW_PROOF_SHARED_SECRET },
        { "{\"algs\":[\"ES256\"],\"typ\":\"dpop+jwt\",\"required\":[\"jti\",\"htm\",\"iat\"],\"max_age\":60}", FOW_PROOF_REQUIRED },
        { "{\"algs\":[\"ES256\"],\"typ\":\"dpop+jwt\",\"required\":[\"jti\",\"htm\",\"htu\",\"iat\"]}", FOW_PROOF_MAX_AGE },
    };
    for (size_t i = 0; i < sizeof rows / sizeof *rows; i++) {
        uint32_t fault = 77;
        CHECK(fow_possession_open(&possession, at(rows[i].document), strlen(rows[i].document), &fault) == FOW_REFUSED && fault == rows[i].fault);
    }
}

/* Nonces by time. What they are is from Python's hmac. */
static void check_nonces(void)
{
    static const struct {
        size_t secret_len;
        uint32_t period;
        int64_t now;
        const char *nonce;
    } rows[] = {
        { 32, PERIOD, 0, "nwzZuUCX_kkpkY0riUKzRDlXQmGjXcUBY_BsZ9TkiJk" },
        { 32, PERIOD, -1, "nwzZuUCX_kkpkY0riUKzRDlXQmGjXcUBY_BsZ9TkiJk" },
        { 32, PERIOD, INT64_MIN, "nwzZuUCX_kkpkY0riUKzRDlXQmGjXcUBY_BsZ9TkiJk" },
        { 32, PERIOD, 299, "nwzZuUCX_kkpkY0riUKzRDlXQmGjXcUBY_BsZ9TkiJk" },
        { 32, PERIOD, 300, "xDLgWcN47vf-LxGBpAUINvUeCFb9dJN76BeE-g76ehw" },
        { 32, PERIOD, MOMENT, "fdsa7SV0-mwnIO2JHyjPzqPl9f-EmyECOeNtXhUDeWk" },
        { 32, 1, INT64_MAX, "I60pAzZyU4s8N5IdW3x52VgJN8dgGKu8eKwa-6IKAY0" },
        { 32, UINT32_MAX, INT64_MAX, "l6L_HiRaa0fIY78b3UqbSafsQKY91RP-96-nvN_ZUTY" },
    };
    uint8_t out[FOW_NONCE_LEN + 1];
    size_t written = 7;
    for (size_t i = 0; i < sizeof secret; i++)
        secret[i] = (uint8_t)i;
    for (size_t i = 0; i < sizeof rows / sizeof *rows; i++) {
        memset(out, '!', sizeof out);
        CHECK(fow_nonce(secret, rows[i].secret_len, rows[i].period, rows[i].now, out, sizeof out, &written) == FOW_OK && written == FOW_NONCE_LEN);
        CHECK(memcmp(out, rows[i].nonce, FOW_NONCE_LEN) == 0 && out[FOW_NONCE_LEN] == '!');
    }
    /* (longer than a block of the hash) */
    CHECK(fow_nonce(secret, sizeof secret, PERIOD, MOMENT, out, sizeof out, &written) == FOW_OK);
    CHECK(memcmp(out, "sO-0I1_O_XCj40Yb9NavjEuQ3DitLh0WezmFYjwkEJU", FOW_NONCE_LEN) == 0);
    memset(out, '!', sizeof out);
    written = 7;
    CHECK(fow_nonce(secret, FOW_NONCE_SECRET_LEN - 1, PERIOD, MOMENT, out, sizeof out, &written) == FOW_REFUSED && written == 7);
    CHECK(fow_nonce(secret, 0, PERIOD, MOMENT, out, sizeof out, &written) == FOW_REFUSED);
    CHECK(fow_nonce(secret, FOW_NONCE_SECRET_LEN, 0, MOMENT, out, sizeof out, &written) == FOW_REFUSED && written == 7);
    CHECK(fow_nonce(secret, FOW_NONCE_SECRET_LEN, PERIOD, MOMENT, out, FOW_NONCE_LEN - 1, &written) == FOW_TOO_SHORT && written == 7);
    CHECK(out[0] == '!');
}

/* The nonce of a proof that is kept, at both borders of the periods in which it is good. */
static void check_fresh(const row *timely)
{
    static const struct {
        int64_t now;
        uint32_t status;
    } rows[] = {
        { INT64_MIN, FOW_NOT_EXPECTED }, { 0, FOW_NOT_EXPECTED }, { 1699999799, FOW_NOT_EXPECTED }, { 1699999800, FOW_OK }, { MOMENT, FOW_OK },
        { 1700000099, FOW_OK }, { 1700000100, FOW_OK }, { 1700000399, FOW_OK }, { 1700000400, FOW_NOT_EXPECTED }, { INT64_MAX, FOW_NOT_EXPECTED },
    };
    uint32_t fault, taken;
    CHECK(judge_access(timely->token, MOMENT) == FOW_OK);
    CHECK(judge(timely, &validator, MOMENT, &fault) == FOW_OK);
    for (size_t i = 0; i < sizeof rows / sizeof *rows; i++)
        CHECK(fresh(rows[i].now) == rows[i].status);
    CHECK(fow_possession_fresh(&possession, secret, FOW_NONCE_SECRET_LEN + 1, PERIOD, MOMENT) == FOW_NOT_EXPECTED);
    CHECK(fow_possession_fresh(&possession, secret, FOW_NONCE_SECRET_LEN, PERIOD + 1, MOMENT) == FOW_NOT_EXPECTED);
    CHECK(fow_possession_fresh(&possession, secret, FOW_NONCE_SECRET_LEN - 1, PERIOD, MOMENT) == FOW_REFUSED);
    CHECK(fow_possession_fresh(&possession, secret, FOW_NONCE_SECRET_LEN, 0, MOMENT) == FOW_REFUSED);
    /* (it stays kept, and isn't taken yet) */
    CHECK(fow_once_open(&once, 2, 2, 0) == FOW_OK);
    CHECK(fow_possession_take(&possession, &once, MOMENT, &taken) == FOW_OK && fresh(MOMENT) == FOW_OK);
}

/* The names of the algorithms of the policy that is held. */
static void check_algs(void)
{
    static const char names[] = "ES256 ES384 ES512 RS256 PS256 EdDSA";
    uint8_t out[sizeof names];
    size_t written = 7;
    memset(out, '!', sizeof out);
    CHECK(fow_possession_algs(&possession, out, sizeof names - 2, &written) == FOW_TOO_SHORT && written == 7 && out[0] == '!');
    CHECK(fow_possession_algs(&possession, out, 0, &written) == FOW_TOO_SHORT);
    CHECK(fow_possession_algs(&possession, out, sizeof out, &written) == FOW_OK && written == sizeof names - 1);
    CHECK(memcmp(out, names, written) == 0 && out[written] == '!');
    CHECK(fow_possession_algs(&possession, out, written, &written) == FOW_OK && written == sizeof names - 1);
}

/* How the proof of the first row is held. The mark is from Python's hashlib. */
static void check_entry(const row *good)
{
    static const uint8_t wanted[FOW_MARK_LEN] = {
        0xb1, 0xa5, 0xba, 0x46, 0xcb, 0x14, 0x6f, 0x0b, 0x4e, 0x4a, 0xc1, 0x5d, 0x59, 0x68, 0xb2, 0x03,
        0xbc, 0xaa, 0xe1, 0x63, 0x75, 0xcf, 0x7c, 0x1e, 0x55, 0x7e, 0xe8, 0x16, 0xc5, 0xd2, 0x9d, 0x41,
    };
    fow_entry entry;
    uint32_t fault;
    CHECK(judge_access(good->token, MOMENT) == FOW_OK);
    CHECK(judge(good, &validator, MOMENT, &fault) == FOW_OK);
    CHECK(fow_possession_entry(&possession, &entry) == FOW_OK && memcmp(entry.mark, wanted, FOW_MARK_LEN) == 0);
    CHECK(entry.moment == MOMENT && entry.grace == LIFE && entry.issued == MOMENT - 5);
}

/* Handles that hold nothing, and a validator that has accepted nothing. */
static void check_none(const row *it)
{
    fow_validator none = FOW_VALIDATOR_INIT;
    char text[FOW_THUMBPRINT_LEN + 1];
    uint8_t out[64];
    size_t written = 7;
    fow_entry entry = { .moment = 7 };
    uint32_t fault = 77, taken = 77;
    CHECK(judge(it, &validator, MOMENT, &fault) == FOW_NOT_OPEN && fault == FOW_NO_FAULT);
    CHECK(fresh(MOMENT) == FOW_NOT_OPEN && fow_possession_fresh(&possession, secret, 1, 0, MOMENT) == FOW_NOT_OPEN);
    CHECK(fow_possession_algs(&possession, out, sizeof out, &written) == FOW_NOT_OPEN && written == 7);
    CHECK(fow_possession_entry(&possession, &entry) == FOW_NOT_OPEN && entry.moment == 7);
    CHECK(fow_possession_take(&possession, &once, MOMENT, &taken) == FOW_NOT_OPEN && taken == FOW_TAKEN_NOTHING);
    CHECK(thumbprint(text) == FOW_NOT_OPEN);
    check_policies();
    CHECK(thumbprint(text) == FOW_NOT_OPEN);
    CHECK(fow_possession_open(&possession, at(policy), sizeof policy - 1, &fault) == FOW_OK && fault == FOW_NO_FAULT);
    CHECK(thumbprint(text) == FOW_ABSENT);
    CHECK(fresh(MOMENT) == FOW_ABSENT && fow_possession_fresh(&possession, secret, 1, PERIOD, MOMENT) == FOW_REFUSED);
    CHECK(fow_possession_entry(&possession, &entry) == FOW_ABSENT && entry.moment == 7);
    CHECK(judge(it, &none, MOMENT, &fault) == FOW_NOT_OPEN);
    CHECK(judge(it, &validator, MOMENT, &fault) == FOW_ABSENT);
    CHECK(fow_possession_take(&possession, &once, MOMENT, &taken) == FOW_NOT_OPEN);
    CHECK(fow_once_open(&once, 2, 2, 0) == FOW_OK);
    CHECK(fow_possession_take(&possession, &once, MOMENT, &taken) == FOW_ABSENT && taken == FOW_TAKEN_NOTHING);
    fault = 77;
    CHECK(shown(&none, at("a"), 1, &fault) == FOW_NOT_OPEN && fault == FOW_NO_FAULT);
    fault = 77;
    CHECK(shown(&validator, at("a"), 1, &fault) == FOW_ABSENT && fault == FOW_NO_FAULT);
}

/* A proof beside the wrong token, and after it nothing is kept. */
static void check_tokens(const row *good)
{
    static row it;
    fow_validator none = FOW_VALIDATOR_INIT;
    char text[FOW_THUMBPRINT_LEN + 1];
    uint32_t fault, taken;
    it = *good;
    CHECK(judge_access(it.token, MOMENT) == FOW_OK);
    CHECK(judge(&it, &validator, MOMENT, &fault) == FOW_OK && thumbprint(text) == FOW_OK);
    /* (a refused policy leaves what is held) */
    check_policies();
    CHECK(thumbprint(text) == FOW_OK);
    CHECK(judge(&it, &none, MOMENT, &fault) == FOW_NOT_OPEN && thumbprint(text) == FOW_ABSENT);
    CHECK(judge(&it, &validator, MOMENT, &fault) == FOW_OK);
    CHECK(judge_access("a.b.c", MOMENT) == FOW_REFUSED);
    CHECK(judge(&it, &validator, MOMENT, &fault) == FOW_ABSENT && thumbprint(text) == FOW_ABSENT);
    CHECK(fow_possession_take(&possession, &once, MOMENT, &taken) == FOW_ABSENT);
    /* (another token than the one that was accepted, by its payload) */
    CHECK(judge_access(it.token, MOMENT) == FOW_OK);
    memset(strchr(it.token, '.') + 1, 'A', 4);
    CHECK(judge(&it, &validator, MOMENT, &fault) == FOW_ABSENT);
    strcpy(it.token, "a");
    CHECK(judge(&it, &validator, MOMENT, &fault) == FOW_ABSENT);
    /* (no token, and no validator) */
    *it.token = 0;
    CHECK(judge(&it, &none, MOMENT, &fault) == FOW_OK && thumbprint(text) == FOW_OK);
    CHECK(strstr(it.claims, text) != NULL);
    size_t written = 7;
    CHECK(fow_possession_thumbprint(&possession, (uint8_t *)text, FOW_THUMBPRINT_LEN - 1, &written) == FOW_TOO_SHORT && written == 7);
}

/* Octets that aren't UTF-8. */
static void check_octets(const row *good)
{
    static row it;
    uint32_t fault = 77;
    it = *good;
    *it.token = 0;
    strcpy(it.nonce, "\xff");
    CHECK(judge(&it, &validator, MOMENT, &fault) == FOW_REFUSED && fault == FOW_PROOF_OTHER_NONCE);
    strcpy(it.uri, "https://\xc3");
    CHECK(judge(&it, &validator, MOMENT, &fault) == FOW_REFUSED && fault == FOW_PROOF_OTHER_URI);
    strcpy(it.method, "\x80");
    CHECK(judge(&it, &validator, MOMENT, &fault) == FOW_REFUSED && fault == FOW_PROOF_OTHER_METHOD);
}

/* A proof counts once, until it is too old. */
static void check_once(const row *good)
{
    uint32_t fault, taken = 77;
    CHECK(judge_access(good->token, MOMENT) == FOW_OK);
    CHECK(judge(good, &validator, MOMENT, &fault) == FOW_OK);
    CHECK(fow_possession_take(&possession, &once, MOMENT, &taken) == FOW_OK && taken == FOW_TAKEN_NEW);
    CHECK(fow_possession_take(&possession, &once, MOMENT, &taken) == FOW_REFUSED && taken == FOW_TAKEN_SEEN);
    CHECK(judge(good, &validator, MOMENT + LIFE, &fault) == FOW_OK);
    CHECK(fow_possession_take(&possession, &once, MOMENT + LIFE, &taken) == FOW_REFUSED && taken == FOW_TAKEN_SEEN);
    CHECK(judge(good, &validator, MOMENT + LIFE + 1, &fault) == FOW_REFUSED && fault == FOW_CLAIM_TOO_OLD);
    CHECK(fow_possession_take(&possession, &once, MOMENT + LIFE + 1, &taken) == FOW_ABSENT);
    CHECK(judge(good, &validator, MOMENT, &fault) == FOW_OK);
    CHECK(fow_possession_take(&possession, &once, MOMENT + LIFE + 1, &taken) == FOW_REFUSED && taken == FOW_TAKEN_LATE);
}

/* Two policies over one memory, the second with a greater age: a proof that the first one took isn't new to it. */
static void check_ages(const row *good)
{
    static const char older[] = "{\"algs\":[\"ES256\"],\"typ\":\"dpop+jwt\",\"required\":[\"jti\",\"htm\",\"htu\",\"iat\"],\"max_age\":300,\"leeway\":5}";
    uint32_t fault, taken = 77;
    fow_validator none = FOW_VALIDATOR_INIT;
    fow_possession second = FOW_POSSESSION_INIT;
    fow_once both = FOW_ONCE_INIT;
    CHECK(fow_possession_open(&second, at(older), sizeof older - 1, &fault) == FOW_OK && fow_once_open(&both, 9, 9, 0) == FOW_OK);
    CHECK(judge_access(good->token, MOMENT) == FOW_OK);
    CHECK(judge(good, &validator, MOMENT, &fault) == FOW_OK);
    CHECK(fow_possession_take(&possession, &both, MOMENT, &taken) == FOW_OK && taken == FOW_TAKEN_NEW);
    CHECK(fow_possession_judge(&second, &none, at(good->proof), strlen(good->proof), at(good->method), strlen(good->method), at(good->uri), strlen(good->uri),
              at(""), 0, at(""), 0, MOMENT + LIFE + 1, &fault) == FOW_OK);
    CHECK(fow_possession_take(&second, &both, MOMENT + LIFE + 1, &taken) == FOW_REFUSED && taken == FOW_TAKEN_SEEN);
    fow_possession_close(&second);
    fow_once_close(&both);
}

/* Tokens of these claims, by what was shown: no proof (the proof of `key`, where that isn't NULL), and the certificate `0\x03\x02\x01\x00`, whose digest OpenSSL gives. */
static void check_bound(const row *good)
{
#define DIGEST "tWCDPW94evRhE7lqrU3VtdGuANzMac8wzJK-1lHFZhc"
    static const uint8_t der[] = { 0x30, 3, 2, 1, 0 }, other[] = { 0x30, 3, 2, 1, 1 };
    char key[FOW_THUMBPRINT_LEN + 1] = "", claims[256];
    /* What `cnf` is, `%s` being the thumbprint of the key; what is said with nothing shown, with the key, with the certificate, with both. */
    static const struct {
        const char *cnf;
        uint32_t nothing, by_key, by_certificate, by_both;
    } rows[] = {
        { "\"jkt\":\"a\",\"x5t#S256\":\"" DIGEST "\"", FOW_NO_FAULT, FOW_NO_FAULT, FOW_NO_FAULT, FOW_NO_FAULT },
        { "\"cnf\":{\"kid\":\"a\"}", FOW_BINDING_UNKNOWN, FOW_BINDING_UNKNOWN, FOW_BINDING_UNKNOWN, FOW_BINDING_UNKNOWN },
        { "\"cnf\":{}", FOW_BINDING_UNKNOWN, FOW_BINDING_UNKNOWN, FOW_BINDING_UNKNOWN, FOW_BINDING_UNKNOWN },
        { "\"cnf\":\"a\"", FOW_BINDING_UNKNOWN, FOW_BINDING_UNKNOWN, FOW_BINDING_UNKNOWN, FOW_BINDING_UNKNOWN },
        { "\"cnf\":null", FOW_BINDING_UNKNOWN, FOW_BINDING_UNKNOWN, FOW_BINDING_UNKNOWN, FOW_BINDING_UNKNOWN },
        { "\"cnf\":{\"jkt\":\"%s\",\"kid\":\"a\"}", FOW_BINDING_UNKNOWN, FOW_BINDING_UNKNOWN, FOW_BINDING_UNKNOWN, FOW_BINDING_UNKNOWN },
        { "\"cnf\":{\"jkt\":\"%s\"}", FOW_BINDING_OTHER_KEY, FOW_NO_FAULT, FOW_BINDING_OTHER_KEY, FOW_NO_FAULT },
        { "\"cnf\":{\"jkt\":\"a\"}", FOW_BINDING_OTHER_KEY, FOW_BINDING_OTHER_KEY, FOW_BINDING_OTHER_KEY, FOW_BINDING_OTHER_KEY },
        { "\"cnf\":{\"jkt\":7}", FOW_BINDING_OTHER_KEY, FOW_BINDING_OTHER_KEY, FOW_BINDING_OTHER_KEY, FOW_BINDING_OTHER_KEY },
        { "\"cnf\":{\"x5t#S256\":\"" DIGEST "\"}", FOW_BINDING_OTHER_CERTIFICATE, FOW_BINDING_OTHER_CERTIFICATE, FOW_NO_FAULT, FOW_NO_FAULT },
        { "\"cnf\":{\"x5t#S256\":\"" DIGEST "=\"}", FOW_BINDING_OTHER_CERTIFICATE, FOW_BINDING_OTHER_CERTIFICATE, FOW_BINDING_OTHER_CERTIFICATE, FOW_BINDING_OTHER_CERTIFICATE },
        { "\"cnf\":{\"x5t#S256\":[\"" DIGEST "\"]}", FOW_BINDING_OTHER_CERTIFICATE, FOW_BINDING_OTHER_CERTIFICATE, FOW_BINDING_OTHER_CERTIFICATE, FOW_BINDING_OTHER_CERTIFICATE },
        { "\"cnf\":{\"jkt\":\"%s\",\"x5t#S256\":\"" DIGEST "\"}", FOW_BINDING_OTHER_KEY, FOW_BINDING_OTHER_CERTIFICATE, FOW_BINDING_OTHER_KEY, FOW_NO_FAULT },
    };
    static uint8_t token[1024];
    fow_possession none = FOW_POSSESSION_INIT;
    uint32_t ways, fault;
    CHECK(judge_access(good->token, MOMENT) == FOW_OK && judge(good, &validator, MOMENT, &fault) == FOW_OK && thumbprint(key) == FOW_OK);
    for (size_t i = 0; i < sizeof rows / sizeof *rows; i++) {
        size_t written;
        fow_report report;
        char cnf[224];
        uint32_t bound = i == 0 ? FOW_BOUND_NOT : (strstr(rows[i].cnf, "jkt") ? FOW_BOUND_KEY : 0) + (strstr(rows[i].cnf, "x5t") ? FOW_BOUND_CERTIFICATE : 0);
        CHECK(snprintf(cnf, sizeof cnf, rows[i].cnf, key) < (int)sizeof cnf && snprintf(claims, sizeof claims, "{%s}", cnf) < (int)sizeof claims);
        CHECK(fow_issue(&validator, FOW_HS256, FOW_COMPACT, 0, at(""), 0, at(claims), strlen(claims), token, sizeof token, &written, &report) == FOW_OK);
        CHECK(fow_judge(&validator, token, written, MOMENT, &report) == FOW_OK);
#define SAYS(possession, der, len, wanted) \
    CHECK(fow_shown(&validator, possession, der, len, &ways, &fault) == ((wanted) == FOW_NO_FAULT ? FOW_OK : FOW_REFUSED) && fault == (wanted)); \
    CHECK(ways == ((wanted) == FOW_NO_FAULT ? bound : FOW_BOUND_NOT))
        SAYS(&none, der, 0, rows[i].nothing);
        SAYS(&possession, der, 0, rows[i].by_key);
        SAYS(&none, der, sizeof der, rows[i].by_certificate);
        SAYS(&possession, der, sizeof der, rows[i].by_both);
        SAYS(&none, other, sizeof other, rows[i].nothing);
    }
    CHECK(thumbprint(key) == FOW_OK);
}

/* One client that makes a key for each proof, beside another's first proof: the owner is the access token's, so its share is used up, and nobody else's. The proofs are
 * of the row, whose access token has no owner; so the memory is filled by tokens of one subject, and the proof gets in. */
static void check_flood(const row *good)
{
    fow_once shared = FOW_ONCE_INIT;
    static uint8_t token[512];
    uint32_t fault, taken;
    CHECK(fow_once_open(&shared, 4, 2, 0) == FOW_OK);
    for (int i = 0; i < 4; i++) {
        char claims[96];
        size_t written;
        fow_report report;
        int len = snprintf(claims, sizeof claims, "{\"iss\":\"i\",\"sub\":\"ann\",\"jti\":\"%d\",\"exp\":%d}", i, MOMENT + 600);
        CHECK(fow_issue(&validator, FOW_HS256, FOW_COMPACT, 0, at(""), 0, at(claims), (size_t)len, token, sizeof token, &written, &report) == FOW_OK);
        CHECK(fow_judge(&validator, token, written, MOMENT, &report) == FOW_OK);
        CHECK(fow_once_take(&shared, &validator, MOMENT, &taken) == (i < 2 ? FOW_OK : FOW_REFUSED) && taken == (i < 2 ? FOW_TAKEN_NEW : FOW_TAKEN_OWN_FULL));
    }
    CHECK(judge_access(good->token, MOMENT) == FOW_OK && judge(good, &validator, MOMENT, &fault) == FOW_OK);
    CHECK(fow_possession_take(&possession, &shared, MOMENT, &taken) == FOW_OK);
    fow_once_close(&shared);
}

/* The calls that take memory, on a row. */
static const row *asked;

static uint32_t open_it(void)
{
    uint32_t fault;
    return fow_possession_open(&possession, at(policy), sizeof policy - 1, &fault);
}

static uint32_t judge_it(void)
{
    uint32_t fault;
    return judge(asked, &validator, MOMENT, &fault);
}

static uint32_t take_it(void)
{
    uint32_t taken;
    return fow_possession_take(&possession, &once, MOMENT, &taken);
}

static uint32_t shown_it(void)
{
    uint32_t fault;
    return shown(&validator, at("a"), 1, &fault);
}

/* Refuses each allocation of a call in turn, and then all after it, until the call needs no more. */
static void refuse_each(const char *name, uint32_t (*call)(void), uint32_t right)
{
    long refused = 0;
    for (bool was_enough = false; !was_enough; refused++) {
        granted = refused;
        uint32_t status = call();
        was_enough = status == right;
        granted = -1;
        CHECK(status == right || status == FOW_OUT_OF_MEMORY);
        CHECK(refused < 10000);
    }
    printf("%s: %ld allocations refused in turn\n", name, refused - 1);
}

static void check_memory(const row *good)
{
    asked = good;
    CHECK(judge_access(good->token, MOMENT) == FOW_OK);
    refuse_each("fow_possession_open", open_it, FOW_OK);
    refuse_each("fow_possession_judge", judge_it, FOW_OK);
    /* (these take no memory) */
    uint8_t out[64];
    size_t written;
    fow_entry entry;
    granted = 0;
    CHECK(fow_possession_algs(&possession, out, sizeof out, &written) == FOW_OK);
    CHECK(fow_nonce(secret, FOW_NONCE_SECRET_LEN, PERIOD, MOMENT, out, sizeof out, &written) == FOW_OK);
    CHECK(fresh(MOMENT) == FOW_NOT_EXPECTED);
    CHECK(fow_possession_entry(&possession, &entry) == FOW_OK);
    granted = -1;
    CHECK(fow_once_open(&once, 2, 2, 0) == FOW_OK);
    refuse_each("fow_possession_take", take_it, FOW_OK);
    CHECK(take_it() == FOW_REFUSED);
    static const char bound[] = "{\"cnf\":{\"x5t#S256\":\"a\"}}";
    static uint8_t token[256];
    fow_report report;
    CHECK(fow_issue(&validator, FOW_HS256, FOW_COMPACT, 0, at(""), 0, at(bound), sizeof bound - 1, token, sizeof token, &written, &report) == FOW_OK);
    CHECK(fow_judge(&validator, token, written, MOMENT, &report) == FOW_OK);
    refuse_each("fow_shown", shown_it, FOW_REFUSED);
}

int main(int argc, char **argv)
{
    static row first, timely;
    CHECK(argc == 2);
    open_validator(argv[1]);
    strcpy(first.token, "a");
    check_nonces();
    check_none(&first);
    check_algs();
    check_rows(argv[1], &first, &timely);
    check_tokens(&first);
    check_octets(&first);
    check_once(&first);
    check_ages(&first);
    check_fresh(&timely);
    check_entry(&first);
    check_bound(&first);
    check_flood(&first);
    check_memory(&first);
    fow_once_close(&once);
    fow_possession_close(&possession);
    fow_possession_close(&possession);
    fow_close(&validator);
    return 0;
}
