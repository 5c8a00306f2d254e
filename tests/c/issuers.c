/* issuers: what is told of the issuer that a token names, of what a policy and a key set allow, and of texts in JSON. The rows are by RFC 7515,
 * section 7, RFC 7519, section 4.1.1, and RFC 8259. */
#include <fowharimu.h>
#include <string.h>

#include "octets.h"

#define RSA_KEY "{\"kty\":\"RSA\",\"n\":\"rHl2JrZ4Nn7Ck1xWdFv3\",\"e\":\"AQAB\"}"
#define SECRET "{\"kty\":\"oct\",\"k\":\"AAAAAAAAAAAAAAAAAAAAAAAAAAAAAAAAAAAAAAAAAAA\"}"

static uint8_t out[MOST];

static const uint8_t *at(const char *text)
{
    return (const uint8_t *)text;
}

static void open_on(fow_validator *validator, const char *policy, const char *keys)
{
    uint32_t fault;
    CHECK(fow_open(validator, at(policy), strlen(policy), at(keys), strlen(keys), &fault) == FOW_OK);
}

/* Whether `out` has this text, where that was written. */
static bool is_written(uint32_t status, size_t written, const char *text)
{
    return status == FOW_OK && written == strlen(text) && memcmp(out, text, written) == 0;
}

/* The token with this payload, and a signature that nobody made, in compact, flattened or general form. */
static size_t token_of(const char *payload, uint32_t form, char *token)
{
    static const char *const shapes[] = {
        "e30.%s.AA",
        "{\"payload\":\"%s\",\"protected\":\"e30\",\"signature\":\"AA\"}",
        "{\"payload\":\"%s\",\"signatures\":[{\"protected\":\"e30\",\"signature\":\"AA\"},{\"protected\":\"e30\",\"signature\":\"\"}]}",
    };
    char text[MOST];
    text[encode(at(payload), strlen(payload), text)] = 0;
    return (size_t)snprintf(token, MOST, shapes[form], text);
}

/* The issuer that payloads name, in each of the three forms. */
static void check_issuers(fow_validator *validator)
{
    static const struct {
        const char *payload, *issuer;
    } rows[] = {
        { "{\"iss\":\"https://a.example\"}", "https://a.example" },
        { "{\"sub\":\"eve\",\"iss\":\"joe\",\"exp\":1}", "joe" },
        { " { \"iss\" : \"joe\" } ", "joe" },
        { "{\"iss\":\"\"}", "" },
        { "{\"i\\u0073s\":\"j\\u006f\\u00e9\"}", "jo\xc3\xa9" },
        { "{\"iss\":\"a\\\"b\\\\\"}", "a\"b\\" },
        { "{\"iss\":5}", NULL },
        { "{\"iss\":null}", NULL },
        { "{\"iss\":[\"joe\"]}", NULL },
        { "{\"iss\":{\"iss\":\"joe\"}}", NULL },
        { "{\"a\":{\"iss\":\"joe\"}}", NULL },
        { "{\"Iss\":\"joe\",\"iss \":\"joe\"}", NULL },
        { "{\"iss\":\"joe\",\"iss\":\"joe\"}", NULL },
        { "{\"iss\":\"joe\",\"a\":{\"b\":1,\"b\":1}}", NULL },
        { "{\"iss\":\"joe\"", NULL },
        { "{\"iss\":\"\xff\"}", NULL },
        { "{}", NULL },
        { "[\"iss\",\"joe\"]", NULL },
        { "\"joe\"", NULL },
        { "", NULL },
    };
    static char token[MOST];
    for (size_t i = 0; i < sizeof rows / sizeof rows[0]; i++)
        for (uint32_t form = 0; form < 3; form++) {
            size_t len = token_of(rows[i].payload, form, token), written = 7;
            uint32_t status = fow_unverified_issuer(validator, at(token), len, out, sizeof out, &written);
            if (rows[i].issuer == NULL) {
                CHECK(status == FOW_UNNAMED && written == 7);
                continue;
            }
            CHECK(is_written(status, written, rows[i].issuer) && written <= len);
            CHECK(fow_unverified_issuer(validator, at(token), len, out, written, &written) == FOW_OK);
            CHECK(written == 0 || fow_unverified_issuer(validator, at(token), len, out, written - 1, &written) == FOW_TOO_SHORT);
        }
}

/* Octets that are no token under a policy. */
static void check_no_tokens(void)
{
    static const char *const rows[] = { "", "x", "e30.e30", "e30.e30.AA.AA", "e30.e30.AA.AA.AA", "e30.~.AA", "W10.e30.AA", "{", "{}", "e30.e30.AA\n" };
    fow_validator validator = FOW_VALIDATOR_INIT;
    static char token[MOST];
    size_t written = 7;
    open_on(&validator, "{\"algs\":[\"RS256\"],\"limit\":31,\"max_signatures\":1}", "{\"keys\":[]}");
    for (size_t i = 0; i < sizeof rows / sizeof rows[0]; i++)
        CHECK(fow_unverified_issuer(&validator, at(rows[i]), strlen(rows[i]), out, sizeof out, &written) == FOW_ABSENT);
    /* (31 octets, and one more) */
    size_t len = token_of("{\"iss\":\"1234567\"}", 0, token);
    CHECK(len == 30 && fow_unverified_issuer(&validator, at(token), len, out, sizeof out, &written) == FOW_OK && written == 7);
    len = token_of("{\"iss\":\"12345678\"}", 0, token);
    CHECK(len == 31 && fow_unverified_issuer(&validator, at(token), len, out, sizeof out, &written) == FOW_OK && written == 8);
    len = token_of("{\"iss\":\"123456789\"}", 0, token);
    CHECK(len == 33 && fow_unverified_issuer(&validator, at(token), len, out, sizeof out, &written) == FOW_ABSENT);
    open_on(&validator, "{\"algs\":[\"RS256\"],\"max_signatures\":1}", "{\"keys\":[]}");
    len = token_of("{\"iss\":\"joe\"}", 2, token);
    CHECK(fow_unverified_issuer(&validator, at(token), len, out, sizeof out, &written) == FOW_ABSENT);
    fow_close(&validator);
}

/* The issuer and the limit of policies. */
static void check_policies(void)
{
    static const struct {
        const char *policy, *issuer;
        uint32_t limit;
    } rows[] = {
        { "{\"algs\":[\"RS256\"]}", NULL, 8192 },
        { "{\"algs\":[\"RS256\"],\"issuers\":[],\"limit\":1}", NULL, 1 },
        { "{\"algs\":[\"RS256\"],\"issuers\":[\"joe\"],\"limit\":1048576}", "joe", 1048576 },
        { "{\"algs\":[\"RS256\"],\"issuers\":[\"\"]}", "", 8192 },
        { "{\"algs\":[\"RS256\"],\"issuers\":[\"\\u00e9\\/\"]}", "\xc3\xa9/", 8192 },
        { "{\"algs\":[\"RS256\"],\"issuers\":[\"joe\",\"eve\"]}", NULL, 8192 },
    };
    fow_validator validator = FOW_VALIDATOR_INIT;
    for (size_t i = 0; i < sizeof rows / sizeof rows[0]; i++) {
        uint32_t limit = 0;
        size_t written = 0;
        open_on(&validator, rows[i].policy, "{\"keys\":[]}");
        uint32_t status = fow_sole_issuer(&validator, out, sizeof out, &written);
        CHECK(rows[i].issuer == NULL ? status == FOW_ABSENT : is_written(status, written, rows[i].issuer));
        CHECK(written == 0 || fow_sole_issuer(&validator, out, written - 1, &written) == FOW_TOO_SHORT);
        CHECK(fow_token_limit(&validator, &limit) == FOW_OK && limit == rows[i].limit);
    }
    fow_close(&validator);
}

/* Policies and key sets that everyone may read, and others. */
static void check_public(void)
{
    static const struct {
        const char *algs, *keys;
        bool is_public;
    } rows[] = {
        { "\"RS256\"", "", true },
        { "\"RS256\",\"PS512\",\"ES256\"", RSA_KEY, true },
        { "\"RS256\"", RSA_KEY "," RSA_KEY, true },
        { "\"HS256\"", "", false },
        { "\"HS256\"", RSA_KEY, false },
        { "\"RS256\",\"HS512\"", RSA_KEY, false },
        { "\"HS384\",\"RS256\"", RSA_KEY, false },
        { "\"RS256\"", SECRET, false },
        { "\"RS256\"", SECRET "," RSA_KEY, false },
        { "\"RS256\"", RSA_KEY "," SECRET, false },
        { "\"RS256\"", "{\"use\":\"enc\"," "\"kty\":\"oct\",\"k\":\"AA\"}", false },
        /* (an entry that is no key is skipped, and lets nobody sign) */
        { "\"RS256\"", "{\"kty\":\"oct\"},5," RSA_KEY, true },
    };
    fow_validator validator = FOW_VALIDATOR_INIT;
    for (size_t i = 0; i < sizeof rows / sizeof rows[0]; i++) {
        char policy[256], keys[1024];
        snprintf(policy, sizeof policy, "{\"algs\":[%s]}", rows[i].algs);
        snprintf(keys, sizeof keys, "{\"keys\":[%s]}", rows[i].keys);
        open_on(&validator, policy, keys);
        CHECK(fow_documents_are_public(&validator) == rows[i].is_public);
    }
    fow_close(&validator);
}

/* Texts in documents. */
static void check_texts(void)
{
    static const struct {
        const char *document, *name, *text;
    } rows[] = {
        { "{\"issuer\":\"https://a.example\",\"jwks_uri\":\"https://a.example/keys\"}", "jwks_uri", "https://a.example/keys" },
        { "{\"issuer\":\"https://a.example\",\"jwks_uri\":\"https://a.example/keys\"}", "issuer", "https://a.example" },
        { "{\"jwks_uri\":\"https:\\/\\/a\\u002eexample\"}", "jwks_uri", "https://a.example" },
        { "{\"\":\"x\"}", "", "x" },
        { "{\"a\":\"\"}", "a", "" },
        { "{\"\xc3\xa9\":\"x\"}", "\xc3\xa9", "x" },
        { "{\"a\":\"x\"}", "\xff", NULL },
        { "{\"a\":\"x\"}", "b", NULL },
        { "{\"a\":\"x\"}", "A", NULL },
        { "{\"a\":\"x\"}", "", NULL },
        { "{\"a\":5}", "a", NULL },
        { "{\"a\":[\"x\"]}", "a", NULL },
        { "{\"b\":{\"a\":\"x\"}}", "a", NULL },
        { "{\"a\":\"x\",\"a\":\"x\"}", "a", NULL },
        { "{\"a\":\"x\"}}", "a", NULL },
        { "[\"a\",\"x\"]", "a", NULL },
        { "", "a", NULL },
    };
    for (size_t i = 0; i < sizeof rows / sizeof rows[0]; i++) {
        const char *document = rows[i].document, *name = rows[i].name;
        size_t written = 0, len = strlen(document), name_len = strlen(name);
        uint32_t status = fow_text_member(at(document), len, at(name), name_len, out, sizeof out, &written);
        CHECK(rows[i].text == NULL ? status == FOW_ABSENT : is_written(status, written, rows[i].text));
        CHECK(written == 0 || fow_text_member(at(document), len, at(name), name_len, out, written - 1, &written) == FOW_TOO_SHORT);
    }
}

/* A validator that holds nothing. */
static void check_unopened(void)
{
    fow_validator none = FOW_VALIDATOR_INIT;
    uint32_t limit = 7;
    size_t written = 7;
    CHECK(fow_unverified_issuer(&none, out, 0, out + 1, 1, &written) == FOW_NOT_OPEN && written == 7);
    CHECK(fow_sole_issuer(&none, out, sizeof out, &written) == FOW_NOT_OPEN && written == 7);
    CHECK(fow_token_limit(&none, &limit) == FOW_NOT_OPEN && limit == 7);
    CHECK(!fow_documents_are_public(&none));
}

int main(void)
{
    fow_validator validator = FOW_VALIDATOR_INIT;
    fow_report report;
    char token[MOST];
    open_on(&validator, "{\"algs\":[\"RS256\"],\"limit\":1048576}", "{\"keys\":[]}");
    check_issuers(&validator);
    /* (the validator judges on as before) */
    size_t len = token_of("{}", 0, token);
    CHECK(fow_judge(&validator, at(token), len, NOW, &report) == FOW_REFUSED && report.fault == FOW_SIG_ALG_MISSING);
    fow_close(&validator);
    check_no_tokens();
    check_policies();
    check_public();
    check_texts();
    check_unopened();
    printf("issuers, limits and texts as they must be\n");
    return 0;
}
