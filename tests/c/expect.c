/* expect HMAC: what one call knows of the claims of the token that was accepted last. HMAC is the name of a token with its key set and policy: that of
 * RFC 7515, appendix A.1, by whose key the other tokens are issued. */
#include <fowharimu.h>
#include <string.h>

#include "octets.h"

static const char policy[] = "{\"algs\":[\"HS256\",\"HS384\",\"HS512\"],\"max_signatures\":2}";
/* A code and its `c_hash` by SHA-256 (OpenID Connect Core 1.0, appendix A.4), and by SHA-384 and SHA-512, as Python's hashlib has them. */
static const char code[] = "Qcb0Orv1zh30vL1MPRsbm-diHiMwcLyZvn1arpZv-Jxf_11jnpEX3Tgfvk";
#define BY_SHA256 "LDktKdoQak3Pk0cnXxCltA"
#define BY_SHA384 "Mq-knyaEMtWGfnBi2POEZb1kiLx10_DF"
#define BY_SHA512 "E9z1C-c0Az4eTEzE0Nm3OQ3BS2BhMgxuP7x5JAQj1_4"
static octets keys, token;
static fow_validator validator = FOW_VALIDATOR_INIT;

static const uint8_t *at(const char *text)
{
    return (const uint8_t *)text;
}

/* Issues a token with these claims. */
static void issue(uint32_t alg, uint32_t form, const char *claims)
{
    fow_report report;
    CHECK(fow_issue(&validator, alg, form, 0, at(""), 0, at(claims), strlen(claims), token.at, sizeof token.at - 1, &token.len, &report) == FOW_OK);
    token.at[token.len] = 0;
}

static uint32_t judge(int64_t now)
{
    fow_report report;
    return fow_judge(&validator, token.at, token.len, now, &report);
}

static void accept(uint32_t alg, const char *claims)
{
    issue(alg, FOW_COMPACT, claims);
    CHECK(judge(NOW) == FOW_OK);
}

/* Holds a text against a claim: the status, with what is said of the claim ten times beside. */
static uint32_t text_of(fow_validator *by, const char *claim, const char *text)
{
    uint32_t unmet = 77;
    uint32_t status = fow_expect_text(by, at(claim), strlen(claim), at(text), strlen(text), &unmet);
    CHECK((status == FOW_NOT_EXPECTED) == (unmet != FOW_UNMET_NOTHING));
    return status + 10 * unmet;
}

/* The same of the hash of a text. */
static uint32_t hash_of(fow_validator *by, uint32_t signature, const char *claim, const char *text)
{
    uint32_t unmet = 77;
    uint32_t status = fow_expect_half_hash(by, token.at, token.len, signature, at(claim), strlen(claim), at(text), strlen(text), &unmet);
    CHECK((status == FOW_NOT_EXPECTED) == (unmet != FOW_UNMET_NOTHING));
    return status + 10 * unmet;
}

enum { ABSENT = FOW_NOT_EXPECTED + 10 * FOW_UNMET_ABSENT, OTHER = FOW_NOT_EXPECTED + 10 * FOW_UNMET_OTHER };

/* A validator that holds nothing, and one that has accepted nothing. */
static void check_none(void)
{
    fow_validator none = FOW_VALIDATOR_INIT;
    issue(FOW_HS256, FOW_COMPACT, "{\"nonce\":\"n\",\"c_hash\":\"" BY_SHA256 "\",\"exp\":1300819380}");
    CHECK(text_of(&none, "nonce", "n") == FOW_NOT_OPEN);
    CHECK(hash_of(&none, 0, "c_hash", code) == FOW_NOT_OPEN);
    CHECK(text_of(&validator, "nonce", "n") == FOW_ABSENT);
    CHECK(hash_of(&validator, 0, "c_hash", code) == FOW_ABSENT);
    CHECK(judge(NOW) == FOW_OK);
    CHECK(text_of(&validator, "nonce", "n") == FOW_OK);
    CHECK(hash_of(&validator, 0, "c_hash", code) == FOW_OK);
    /* (the same token is refused when it has expired, and nothing is left of its acceptance) */
    CHECK(judge(NOW + 3600) == FOW_REFUSED);
    CHECK(text_of(&validator, "nonce", "n") == FOW_ABSENT);
    CHECK(hash_of(&validator, 0, "c_hash", code) == FOW_ABSENT);
}

/* Texts by name and by pointer: the claim is that very text. */
static void check_texts(void)
{
    static const uint8_t octets[] = { 0xff, 'n' };
    static const char *others[] = { "", "n", "n-0S6_WzA2M", "n-0S6_WzA2Mj ", "N-0S6_WzA2Mj", "\"n-0S6_WzA2Mj\"" };
    uint32_t unmet = 77;
    accept(FOW_HS256, "{\"nonce\":\"n-0S6_WzA2Mj\",\"sub\":\"\\u00e9\",\"empty\":\"\",\"list\":[\"n\"],\"one\":1,\"null\":null,"
                      "\"deep\":{\"a/b\":{\"c\":\"d\"}},\"/x\":\"y\"}");
    CHECK(text_of(&validator, "nonce", "n-0S6_WzA2Mj") == FOW_OK);
    for (size_t i = 0; i < sizeof others / sizeof *others; i++)
        CHECK(text_of(&validator, "nonce", others[i]) == OTHER);
    CHECK(text_of(&validator, "sub", "\xc3\xa9") == FOW_OK);
    CHECK(text_of(&validator, "empty", "") == FOW_OK);
    CHECK(text_of(&validator, "list", "n") == OTHER);
    CHECK(text_of(&validator, "one", "1") == OTHER);
    CHECK(text_of(&validator, "null", "") == OTHER);
    CHECK(text_of(&validator, "none", "n") == ABSENT);
    CHECK(text_of(&validator, "", "") == ABSENT);
    CHECK(text_of(&validator, "Nonce", "n-0S6_WzA2Mj") == ABSENT);
    CHECK(text_of(&validator, "/nonce", "n-0S6_WzA2Mj") == FOW_OK);
    CHECK(text_of(&validator, "/deep/a~1b/c", "d") == FOW_OK);
    CHECK(text_of(&validator, "/deep/a~1b/c", "e") == OTHER);
    CHECK(text_of(&validator, "/deep/a~1b", "d") == OTHER);
    CHECK(text_of(&validator, "/deep/a/b/c", "d") == ABSENT);
    CHECK(text_of(&validator, "/x", "y") == ABSENT);
    CHECK(text_of(&validator, "/~2", "y") == ABSENT);
    /* (octets that aren't UTF-8, in the name or in the text) */
    CHECK(fow_expect_text(&validator, octets, 2, at("n"), 1, &unmet) == FOW_REFUSED && unmet == FOW_UNMET_NOTHING);
    CHECK(fow_expect_text(&validator, at("nonce"), 5, octets, 2, &unmet) == FOW_REFUSED);
    CHECK(fow_expect_half_hash(&validator, token.at, token.len, 0, octets, 2, at(code), 1, &unmet) == FOW_REFUSED);
    /* (the claims are those of the last token, whatever the one before had) */
    accept(FOW_HS256, "{\"sub\":\"n-0S6_WzA2Mj\"}");
    CHECK(text_of(&validator, "nonce", "n-0S6_WzA2Mj") == ABSENT);
    CHECK(text_of(&validator, "sub", "n-0S6_WzA2Mj") == FOW_OK);
}

/* The hash is that of the signature's algorithm, and of the whole octets. */
static void check_hashes(void)
{
    static const struct {
        uint32_t alg;
        const char *claims;
    } rows[] = {
        { FOW_HS256, "{\"c_hash\":\"" BY_SHA256 "\",\"nonce\":\"n\"}" },
        { FOW_HS384, "{\"c_hash\":\"" BY_SHA384 "\",\"nonce\":\"n\"}" },
        { FOW_HS512, "{\"c_hash\":\"" BY_SHA512 "\",\"nonce\":\"n\"}" },
    };
    for (int by = 0; by < 3; by++) {
        for (int is = 0; is < 3; is++) {
            accept(rows[by].alg, rows[is].claims);
            CHECK(hash_of(&validator, 0, "c_hash", code) == (by == is ? FOW_OK : OTHER));
        }
        accept(rows[by].alg, rows[by].claims);
        CHECK(hash_of(&validator, 0, "/c_hash", code) == FOW_OK);
        CHECK(hash_of(&validator, 0, "c_hash", code + 1) == OTHER);
        CHECK(hash_of(&validator, 0, "c_hash", "") == OTHER);
        CHECK(hash_of(&validator, 0, "nonce", code) == OTHER);
        CHECK(hash_of(&validator, 0, "at_hash", code) == ABSENT);
        CHECK(hash_of(&validator, 1, "c_hash", code) == FOW_ABSENT);
        CHECK(hash_of(&validator, UINT32_MAX, "c_hash", code) == FOW_ABSENT);
    }
}

/* Another token than the one that was accepted last, and octets that are none. */
static void check_another(void)
{
    accept(FOW_HS256, "{\"c_hash\":\"" BY_SHA256 "\"}");
    issue(FOW_HS256, FOW_COMPACT, "{\"c_hash\":\"" BY_SHA256 "\",\"a\":1}");
    CHECK(hash_of(&validator, 0, "c_hash", code) == FOW_ABSENT);
    token.len--;
    CHECK(hash_of(&validator, 0, "c_hash", code) == FOW_ABSENT);
    token.len = 0;
    CHECK(hash_of(&validator, 0, "c_hash", code) == FOW_ABSENT);
    issue(FOW_HS256, FOW_COMPACT, "{\"c_hash\":\"" BY_SHA256 "\"}");
    CHECK(hash_of(&validator, 0, "c_hash", code) == FOW_OK);
    /* (a token that is remembered is held as one that is judged anew) */
    CHECK(fow_remember(&validator, 8, 4096) == FOW_OK);
    for (int i = 0; i < 3; i++) {
        CHECK(judge(NOW) == FOW_OK && fow_remembered(&validator) == (i > 0));
        CHECK(hash_of(&validator, 0, "c_hash", code) == FOW_OK);
        CHECK(text_of(&validator, "c_hash", BY_SHA256) == FOW_OK);
    }
    CHECK(fow_remember(&validator, 0, 0) == FOW_OK);
}

/* The member `signatures` of a token in general form, without its brackets. */
static const char *signature_in(const octets *general)
{
    char *begins = strstr((char *)general->at, "\"signatures\":[");
    CHECK(begins != NULL);
    char *ends = strchr(begins, ']');
    CHECK(ends != NULL);
    *ends = 0;
    return begins + strlen("\"signatures\":[");
}

/* A token with two signatures: the hash is that of the one that verified, by its number. */
static void check_signatures(void)
{
    static const char claims[] = "{\"c_hash\":\"" BY_SHA512 "\"}", *payload = "{\"payload\":\"";
    static octets first, second;
    fow_report report;
    char encoded[128] = { 0 };
    encode(at(claims), strlen(claims), encoded);
    issue(FOW_HS256, FOW_GENERAL, "{\"a\":1}");
    first = token;
    issue(FOW_HS512, FOW_GENERAL, claims);
    second = token;
    /* (the first signature is one of another payload, and doesn't verify) */
    token.len = (size_t)snprintf((char *)token.at, sizeof token.at, "%s%s\",\"signatures\":[%s,%s]}", payload, encoded, signature_in(&first), signature_in(&second));
    CHECK(fow_judge(&validator, token.at, token.len, NOW, &report) == FOW_OK && report.signature == 1);
    CHECK(hash_of(&validator, report.signature, "c_hash", code) == FOW_OK);
    CHECK(hash_of(&validator, 0, "c_hash", code) == FOW_ABSENT);
    CHECK(hash_of(&validator, 2, "c_hash", code) == FOW_ABSENT);
}

int main(int argc, char **argv)
{
    uint32_t fault;
    CHECK(argc == 2);
    read_named(&keys, argv[1], "keys");
    CHECK(fow_open(&validator, at(policy), sizeof policy - 1, keys.at, keys.len, &fault) == FOW_OK);
    check_none();
    check_texts();
    check_hashes();
    check_another();
    check_signatures();
    fow_close(&validator);
    return 0;
}
