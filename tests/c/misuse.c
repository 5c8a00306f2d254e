/* misuse HMAC RSA: calls that have nothing to answer. HMAC and RSA are names of tokens with their key sets and policies. */
#include <fowharimu.h>
#include <string.h>

#include "octets.h"

static octets policy, keys, token;

static void open_named(fow_validator *validator, const char *name)
{
    uint32_t fault = 0;
    read_named(&policy, name, "policy");
    read_named(&keys, name, "keys");
    read_named(&token, name, "jwt");
    CHECK(fow_open(validator, policy.at, policy.len, keys.at, keys.len, &fault) == FOW_OK);
}

/* Each call on a validator that holds nothing. */
static void check_unopened(fow_validator *validator)
{
    uint8_t out[64] = { 0 };
    size_t written = 7;
    fow_report report;
    fow_state state;
    fow_try tried;
    CHECK(fow_judge(validator, out, 0, NOW, &report) == FOW_NOT_OPEN);
    CHECK(report.verdict == FOW_NOT_OPEN && report.tries == 0);
    CHECK(fow_state_of(validator, 0, &state) == FOW_NOT_OPEN);
    CHECK(fow_try_of(validator, 0, &tried) == FOW_NOT_OPEN);
    CHECK(fow_refused_claim(validator, out, sizeof out, &written) == FOW_NOT_OPEN);
    CHECK(fow_payload(validator, out, 0, out + 1, sizeof out - 1, &written) == FOW_NOT_OPEN);
    CHECK(fow_accepted_payload(validator, out, sizeof out, &written) == FOW_NOT_OPEN);
    CHECK(fow_unverified_header(validator, out, 0, 0, out + 1, sizeof out - 1, &written) == FOW_NOT_OPEN);
    CHECK(fow_claim(validator, (const uint8_t *)"iss", 3, out, sizeof out, &written) == FOW_NOT_OPEN);
    int64_t number;
    CHECK(fow_number(validator, (const uint8_t *)"exp", 3, &number) == FOW_NOT_OPEN);
    CHECK(fow_issue(validator, FOW_HS256, FOW_COMPACT, 0, out, 0, (const uint8_t *)"{}", 2, out, sizeof out, &written, &report)
        == FOW_NOT_OPEN);
    fow_validator second = FOW_VALIDATOR_INIT;
    CHECK(fow_open_beside(&second, validator) == FOW_NOT_OPEN);
    CHECK(fow_judge(&second, out, 0, NOW, &report) == FOW_NOT_OPEN);
    fow_close(validator);
    fow_close(validator);
}

/* A validator that is opened beside another holds its documents alone, and stays as it is where the other holds nothing. */
static void check_beside(const char *hmac, const char *rsa)
{
    fow_validator one = FOW_VALIDATOR_INIT, two = FOW_VALIDATOR_INIT, none = FOW_VALIDATOR_INIT;
    fow_report report;
    uint8_t out[MOST];
    size_t written;
    open_named(&two, hmac);
    open_named(&one, rsa);
    CHECK(fow_judge(&one, token.at, token.len, NOW, &report) == FOW_OK);

    /* (of the second, other documents are held, which are let go) */
    CHECK(fow_judge(&two, token.at, token.len, NOW, &report) == FOW_REFUSED && report.fault == FOW_SIG_ALG_NOT_ALLOWED);
    CHECK(fow_open_beside(&two, &none) == FOW_NOT_OPEN);
    CHECK(fow_judge(&two, token.at, token.len, NOW, &report) == FOW_REFUSED && report.fault == FOW_SIG_ALG_NOT_ALLOWED);
    CHECK(fow_open_beside(&two, &one) == FOW_OK);
    CHECK(fow_number(&two, (const uint8_t *)"exp", 3, &(int64_t){ 0 }) == FOW_ABSENT);

    /* (the first to be opened goes first, and the documents stay) */
    fow_close(&one);
    CHECK(fow_accepted_payload(&two, out, sizeof out, &written) == FOW_ABSENT);
    CHECK(fow_judge(&two, token.at, token.len, NOW, &report) == FOW_OK);
    CHECK(fow_accepted_payload(&two, out, sizeof out, &written) == FOW_OK);
    CHECK(fow_open_beside(&one, &two) == FOW_OK);
    fow_close(&two);
    CHECK(fow_judge(&one, token.at, token.len, NOW, &report) == FOW_OK);
    fow_close(&one);
}

/* Documents that are refused leave what is held as it was. */
static void check_refused_documents(const char *name)
{
    fow_validator validator = FOW_VALIDATOR_INIT;
    fow_report report;
    uint32_t fault = 0;
    CHECK(fow_open(&validator, policy.at, 0, keys.at, 0, &fault) == FOW_REFUSED && fault == FOW_POLICY_JSON);
    open_named(&validator, name);
    CHECK(fow_open(&validator, policy.at, policy.len, keys.at, keys.len - 2, &fault) == FOW_REFUSED && fault == FOW_KEYS_JSON);
    CHECK(fow_judge(&validator, token.at, token.len, NOW, &report) == FOW_OK);
    fow_close(&validator);
}

/* The member for which a policy is refused, and none of a policy that stands or is refused for something else. */
static void check_members(void)
{
    const struct {
        const char *policy, *name;
    } cases[] = {
        { "{\"algs\":[\"HS256\"],\"isuers\":[\"joe\"]}", "isuers" },
        { "{\"algs\":[\"HS256\"],\"is\\u0073ur\":1}", "issur" },
        { "{\"algs\":[\"HS256\"],\"leeway\":\"5\"}", "leeway" },
        { "{\"algs\":[\"HS256\"],\"limit\":99999999}", "limit" },
        { "{\"algs\":[\"HS256\"]}", NULL },
        { "{\"algs\":[]}", NULL },
        { "[", NULL },
    };
    uint8_t out[64];
    size_t written;
    for (size_t i = 0; i < sizeof cases / sizeof *cases; i++) {
        const uint8_t *at = (const uint8_t *)cases[i].policy;
        size_t len = strlen(cases[i].policy);
        uint32_t status = fow_refused_member(at, len, out, sizeof out, &written);
        CHECK(status == (cases[i].name == NULL ? FOW_ABSENT : FOW_OK));
        if (cases[i].name == NULL)
            continue;
        CHECK(written == strlen(cases[i].name) && memcmp(out, cases[i].name, written) == 0);
        CHECK(fow_refused_member(at, len, out, written - 1, &written) == FOW_TOO_SHORT);
    }
}

/* Octets that are no token; a token that is too long. */
static void check_no_token(const char *name)
{
    static uint8_t zeros[2000000];
    uint8_t out[64];
    size_t written;
    fow_validator validator = FOW_VALIDATOR_INIT;
    fow_report report;
    open_named(&validator, name);
    CHECK(fow_judge(&validator, zeros, 0, NOW, &report) == FOW_REFUSED && report.fault == FOW_FORM_EMPTY);
    CHECK(fow_judge(&validator, zeros, sizeof zeros, NOW, &report) == FOW_REFUSED && report.fault == FOW_TEXT_TOO_LONG);
    CHECK(fow_judge(&validator, zeros, 3, NOW, &report) == FOW_REFUSED && report.fault == FOW_FORM_SEGMENTS);
    CHECK(fow_payload(&validator, zeros, 3, out, sizeof out, &written) == FOW_ABSENT);
    CHECK(fow_accepted_payload(&validator, out, sizeof out, &written) == FOW_ABSENT);
    CHECK(fow_unverified_header(&validator, zeros, 3, 0, out, sizeof out, &written) == FOW_ABSENT);
    CHECK(fow_claim(&validator, (const uint8_t *)"iss", 3, out, sizeof out, &written) == FOW_ABSENT);
    fow_close(&validator);
}

/* What is issued is accepted, and no other algorithm or form is taken. It has the `typ` that is asked for, and none otherwise. */
static void check_issuing(const char *name)
{
    const uint8_t typ[] = "at+jwt", no_text[] = { 0xff };
    const uint8_t claims[] = "{\"iss\":\"joe\",\"exp\":1300819380}";
    size_t claims_len = sizeof claims - 1, written, header_len;
    uint8_t out[4096], header[64];
    fow_validator validator = FOW_VALIDATOR_INIT;
    fow_report report;
    open_named(&validator, name);
    for (uint32_t form = FOW_COMPACT; form <= FOW_FLATTENED; form++) {
        CHECK(fow_issue(&validator, FOW_HS256, form, 0, typ, 6, claims, claims_len, out, sizeof out, &written, &report) == FOW_OK);
        CHECK(fow_judge(&validator, out, written, NOW, &report) == FOW_OK);
    }
    CHECK(fow_issue(&validator, FOW_HS256, FOW_COMPACT, 0, typ, 6, claims, claims_len, out, sizeof out, &written, &report) == FOW_OK);
    CHECK(fow_unverified_header(&validator, out, written, 0, header, sizeof header, &header_len) == FOW_OK);
    CHECK(header_len == 30 && memcmp(header, "{\"alg\":\"HS256\",\"typ\":\"at+jwt\"}", header_len) == 0);
    CHECK(fow_unverified_header(&validator, out, written, 0, header, header_len - 1, &header_len) == FOW_TOO_SHORT);
    CHECK(fow_unverified_header(&validator, out, written, 1, header, sizeof header, &header_len) == FOW_ABSENT);
    CHECK(fow_issue(&validator, FOW_HS256, FOW_COMPACT, 0, typ, 0, claims, claims_len, out, sizeof out, &written, &report) == FOW_OK);
    CHECK(fow_unverified_header(&validator, out, written, 0, header, sizeof header, &header_len) == FOW_OK);
    CHECK(header_len == 15 && memcmp(header, "{\"alg\":\"HS256\"}", header_len) == 0);
    CHECK(fow_issue(&validator, FOW_HS256, FOW_COMPACT, 0, no_text, 1, claims, claims_len, out, sizeof out, &written, &report) == FOW_ABSENT);
    CHECK(fow_issue(&validator, FOW_HS256, FOW_COMPACT, 9, typ, 0, claims, claims_len, out, sizeof out, &written, &report) == FOW_REFUSED);
    CHECK(report.fault == FOW_ISSUE_NO_KEY);
    CHECK(fow_issue(&validator, FOW_RS256, FOW_COMPACT, 0, typ, 0, claims, claims_len, out, sizeof out, &written, &report) == FOW_ABSENT);
    CHECK(fow_issue(&validator, 99, FOW_COMPACT, 0, typ, 0, claims, claims_len, out, sizeof out, &written, &report) == FOW_ABSENT);
    CHECK(fow_issue(&validator, FOW_HS256, 9, 0, typ, 0, claims, claims_len, out, sizeof out, &written, &report) == FOW_ABSENT);
    fow_close(&validator);
}

int main(int argc, char **argv)
{
    fow_validator never = FOW_VALIDATOR_INIT;
    CHECK(argc == 3 && fow_abi() == FOW_ABI && strchr(fow_version(), '.') != NULL);
    check_unopened(&never);
    check_refused_documents(argv[1]);
    check_members();
    check_no_token(argv[1]);
    check_issuing(argv[1]);
    check_beside(argv[1], argv[2]);
    puts("each misuse is answered as it must be");
    return 0;
}
