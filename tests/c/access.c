/* access HMAC: access rules that are read, refused, and held against the claims of a token. HMAC is the name of a token with its key set and
 * policy: that of RFC 7515, appendix A.1, whose claims are `iss`, `exp` and `http://example.com/is_root`. */
#include <fowharimu.h>
#include <string.h>

#include "octets.h"

static octets policy, keys, token;
static fow_validator validator = FOW_VALIDATOR_INIT;
static uint8_t out[MOST];

static uint32_t open_rule(fow_access *access, const char *rule, uint32_t *fault)
{
    return fow_access_open(access, (const uint8_t *)rule, strlen(rule), fault);
}

/* Whether `out` has this text, where that was written. */
static bool is_written(uint32_t status, size_t written, const char *text)
{
    return status == FOW_OK && written == strlen(text) && memcmp(out, text, written) == 0;
}

/* Each call on a rule that holds nothing, and on a validator that does. */
static void check_unopened(fow_access *access)
{
    uint32_t denial = 7;
    size_t written = 7;
    fow_validator none = FOW_VALIDATOR_INIT;
    CHECK(fow_denied(&validator, access, &denial) == FOW_NOT_OPEN && denial == FOW_NO_FAULT);
    CHECK(fow_denied_name(&validator, access, out, sizeof out, &written) == FOW_NOT_OPEN);
    CHECK(fow_access_scope(access, 0, out, sizeof out, &written) == FOW_NOT_OPEN);
    CHECK(fow_denied(&none, access, &denial) == FOW_NOT_OPEN);
    CHECK(open_rule(access, "{}", &denial) == FOW_OK);
    CHECK(fow_denied(&none, access, &denial) == FOW_NOT_OPEN);
    CHECK(fow_denied_name(&none, access, out, sizeof out, &written) == FOW_NOT_OPEN);
    CHECK(written == 7);
    fow_access_close(access);
    fow_access_close(access);
}

/* Rules that are refused, each with the member or the claim that its fault speaks of. What is held stays. */
static void check_refused(fow_access *access)
{
    static const struct {
        const char *rule;
        uint32_t fault;
        const char *name;
    } rows[] = {
        { "", FOW_ACCESS_JSON, NULL },
        { "[]", FOW_ACCESS_JSON, NULL },
        { "\xff", FOW_ACCESS_JSON, NULL },
        { "{\"scopes\":[],\"scopes\":[]}", FOW_ACCESS_NAME_TWICE, NULL },
        { "{\"scope\":[]}", FOW_ACCESS_MEMBER, "scope" },
        { "{\"sc\\u006fpe\":[]}", FOW_ACCESS_MEMBER, "scope" },
        { "{\"scopes\":\"read\"}", FOW_ACCESS_MEMBER, "scopes" },
        { "{\"scopes\":[\"read write\"]}", FOW_ACCESS_RANGE, "scopes" },
        { "{\"scope_claim\":\"/a~2\"}", FOW_ACCESS_RANGE, "scope_claim" },
        { "{\"claims\":{\"a\":[1.5]}}", FOW_ACCESS_CLAIM, "a" },
        { "{\"claims\":{\"a\":\"x\"}}", FOW_ACCESS_CLAIM, "a" },
        { "{\"claims\":{\"a\":[]}}", FOW_ACCESS_CLAIM_RANGE, "a" },
        { "{\"claims\":{\"/~\":[\"x\"]}}", FOW_ACCESS_CLAIM_RANGE, "/~" },
    };
    uint32_t fault = 0, denial = 0;
    size_t written = 0;
    CHECK(open_rule(access, "{\"scopes\":[\"read\",\"write\"]}", &fault) == FOW_OK && fault == FOW_NO_FAULT);
    for (size_t i = 0; i < sizeof rows / sizeof rows[0]; i++) {
        const uint8_t *rule = (const uint8_t *)rows[i].rule;
        size_t len = strlen(rows[i].rule);
        CHECK(fow_access_open(access, rule, len, &fault) == FOW_REFUSED && fault == rows[i].fault);
        uint32_t status = fow_access_refused(rule, len, out, sizeof out, &written);
        CHECK(rows[i].name == NULL ? status == FOW_ABSENT : is_written(status, written, rows[i].name));
        CHECK(rows[i].name == NULL || fow_access_refused(rule, len, out, strlen(rows[i].name) - 1, &written) == FOW_TOO_SHORT);
        CHECK(fow_denied(&validator, access, &denial) == FOW_DENIED && denial == FOW_DENIED_SCOPE_MISSING);
    }
    CHECK(fow_access_refused((const uint8_t *)"{}", 2, out, sizeof out, &written) == FOW_ABSENT);

    /* (one octet more than a rule may have) */
    memset(out, ' ', sizeof out);
    memcpy(out, "{}", 2);
    CHECK(fow_access_open(access, out, sizeof out, &fault) == FOW_OK);
    uint8_t *longer = calloc(sizeof out + 1, 1);
    CHECK(longer != NULL);
    CHECK(fow_access_open(access, longer, sizeof out + 1, &fault) == FOW_REFUSED && fault == FOW_ACCESS_TOO_LONG);
    CHECK(fow_denied(&validator, access, &denial) == FOW_OK);
    free(longer);
    fow_access_close(access);
}

/* Rules that are held against the claims of the token, with the scope or the claim of each denial. */
static void check_denied(fow_access *access)
{
    static const struct {
        const char *rule;
        uint32_t denial;
        const char *name;
    } rows[] = {
        { "{}", FOW_NO_FAULT, NULL },
        { "{\"claims\":{\"iss\":[\"ann\",\"joe\"],\"exp\":[1300819380]}}", FOW_NO_FAULT, NULL },
        { "{\"claims\":{\"http://example.com/is_root\":[true]}}", FOW_NO_FAULT, NULL },
        { "{\"claims\":{\"http://example.com/is_root\":[\"true\",1]}}", FOW_DENIED_CLAIM_NOT_ALLOWED, "http://example.com/is_root" },
        { "{\"claims\":{\"/http:~1~1example.com~1is_root\":[true]}}", FOW_NO_FAULT, NULL },
        { "{\"claims\":{\"sub\":[\"ann\"],\"iss\":[\"joe\"]}}", FOW_DENIED_CLAIM_MISSING, "sub" },
        { "{\"claims\":{\"exp\":[\"1300819380\"]}}", FOW_DENIED_CLAIM_NOT_ALLOWED, "exp" },
        { "{\"absent\":[\"sub\",\"iss\"]}", FOW_DENIED_CLAIM_PRESENT, "iss" },
        { "{\"only\":{\"iss\":[\"ann\"]},\"absent\":[\"sub\"]}", FOW_DENIED_CLAIM_HAS_OTHER, "iss" },
        { "{\"objects\":[\"iss\"]}", FOW_DENIED_CLAIM_NOT_OBJECT, "iss" },
        { "{\"ages\":{\"iss\":1}}", FOW_DENIED_CLAIM_NOT_DATE, "iss" },
        { "{\"ages\":{\"exp\":1}}", FOW_DENIED_CLAIM_LATER, "exp" },
        { "{\"ascii\":{\"iss\":2}}", FOW_DENIED_CLAIM_NOT_ASCII, "iss" },
        { "{\"ascii\":{\"iss\":3},\"only\":{\"iss\":[\"ann\",\"joe\"]}}", FOW_NO_FAULT, NULL },
        { "{\"scopes\":[\"write\",\"read\"],\"claims\":{\"iss\":[\"ann\"]}}", FOW_DENIED_SCOPE_MISSING, "write" },
        { "{\"scopes\":[\"joe\"],\"scope_claim\":\"iss\"}", FOW_NO_FAULT, NULL },
    };
    for (size_t i = 0; i < sizeof rows / sizeof rows[0]; i++) {
        uint32_t fault = 0, denial = 7;
        size_t written = 7;
        CHECK(open_rule(access, rows[i].rule, &fault) == FOW_OK);
        uint32_t status = fow_denied(&validator, access, &denial);
        CHECK(denial == rows[i].denial && status == (denial == FOW_NO_FAULT ? FOW_OK : FOW_DENIED));
        status = fow_denied_name(&validator, access, out, sizeof out, &written);
        CHECK(rows[i].name == NULL ? status == FOW_ABSENT : is_written(status, written, rows[i].name));
        CHECK(rows[i].name == NULL || fow_denied_name(&validator, access, out, strlen(rows[i].name) - 1, &written) == FOW_TOO_SHORT);
    }
    fow_access_close(access);
}

static void check_scopes(fow_access *access)
{
    uint32_t fault;
    size_t written = 0;
    CHECK(open_rule(access, "{\"scopes\":[\"write\",\"read\"]}", &fault) == FOW_OK);
    uint32_t status = fow_access_scope(access, 0, out, 5, &written);
    CHECK(is_written(status, written, "write"));
    status = fow_access_scope(access, 1, out, 4, &written);
    CHECK(is_written(status, written, "read"));
    CHECK(fow_access_scope(access, 1, out, 3, &written) == FOW_TOO_SHORT);
    CHECK(fow_access_scope(access, 2, out, sizeof out, &written) == FOW_ABSENT);
    CHECK(fow_access_scope(access, UINT32_MAX, out, sizeof out, &written) == FOW_ABSENT);
    fow_access_close(access);
}

/* A claim of 700,000 octets: a token as long as one may be. The scope that is asked for stands last, and behind two spaces. */
static void check_long(fow_access *access)
{
    enum { LONG = 700000 };
    static const char policy_text[] = "{\"algs\":[\"HS256\"],\"limit\":1048576,\"work\":1000000000}";
    static uint8_t claims[LONG + 64], issued[1 << 20];
    fow_validator longer = FOW_VALIDATOR_INIT;
    fow_report report;
    uint32_t fault, denial;
    size_t written;
    CHECK(fow_open(&longer, (const uint8_t *)policy_text, sizeof policy_text - 1, keys.at, keys.len, &fault) == FOW_OK);
    CHECK(open_rule(access, "{\"scopes\":[\"read\",\"a\"],\"claims\":{\"scope\":[\"b\",\"read\"]}}", &fault) == FOW_OK);
    for (int doubled = 0; doubled < 2; doubled++) {
        size_t len = (size_t)sprintf((char *)claims, "{\"scope\":\"");
        for (int i = 0; i < LONG / 2; i++, len += 2)
            memcpy(claims + len, "a ", 2);
        len += (size_t)sprintf((char *)claims + len, "%sread\"}", doubled ? " " : "");
        CHECK(fow_issue(&longer, FOW_HS256, FOW_COMPACT, 0, policy.at, 0, claims, len, issued, sizeof issued, &written, &report) == FOW_OK);
        CHECK(fow_judge(&longer, issued, written, NOW, &report) == FOW_OK);
        CHECK(fow_denied(&longer, access, &denial) == (doubled ? FOW_DENIED : FOW_OK));
    }
    fow_close(&longer);
    fow_access_close(access);
}

int main(int argc, char **argv)
{
    CHECK(argc == 2);
    fow_access access = FOW_ACCESS_INIT;
    fow_report report;
    uint32_t fault = 0, denial = 7;
    size_t written;
    read_named(&policy, argv[1], "policy");
    read_named(&keys, argv[1], "keys");
    read_named(&token, argv[1], "jwt");
    CHECK(fow_open(&validator, policy.at, policy.len, keys.at, keys.len, &fault) == FOW_OK);

    /* (nothing was judged yet, and then a token was refused) */
    CHECK(open_rule(&access, "{}", &fault) == FOW_OK);
    CHECK(fow_denied(&validator, &access, &denial) == FOW_ABSENT && denial == FOW_NO_FAULT);
    CHECK(fow_judge(&validator, token.at, token.len, NOW + 3600, &report) == FOW_REFUSED);
    CHECK(fow_denied(&validator, &access, &denial) == FOW_ABSENT);
    CHECK(fow_denied_name(&validator, &access, out, sizeof out, &written) == FOW_ABSENT);
    fow_access_close(&access);

    CHECK(fow_judge(&validator, token.at, token.len, NOW, &report) == FOW_OK);
    check_unopened(&access);
    check_refused(&access);
    check_denied(&access);
    check_scopes(&access);
    check_long(&access);
    CHECK(strcmp(fow_fault_name(FOW_DENIED_CLAIM_NOT_ALLOWED), "ClaimNotAllowed") == 0);
    CHECK(strcmp(fow_fault_name(FOW_DENIED_CLAIM_NOT_ASCII), "ClaimNotAscii") == 0 && strcmp(fow_fault_name(1011), "") == 0);
    fow_close(&validator);
    return 0;
}
