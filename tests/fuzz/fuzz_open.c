/* A policy, a line feed, a key set. What is opened issues and judges tokens; what is refused leaves an open validator as it was. */
#include "harness.h"

static area policies, sets, rooms;
static uint8_t token[1 << 20];

/* A validator that holds documents of the harness holds them on where others are refused, and nothing is held where nothing was. */
static void check_kept(fow_validator *kept, fow_validator *validator)
{
    static const char hs256[] = "eyJhbGciOiJIUzI1NiJ9.e30.AAAA";
    fow_report report;
    CHECK(fow_judge(validator, at(hs256), 0, NOW, &report) == FOW_NOT_OPEN);
    CHECK(fow_judge(kept, at(hs256), sizeof hs256 - 1, NOW, &report) == FOW_REFUSED);
    CHECK(report.fault == FOW_SIG_BAD_SIGNATURE && report.tries == SECRETS);
}

/* The name of the member for which the policy is refused, where it is refused for one. */
static void check_member(const uint8_t *policy, size_t len, uint32_t fault)
{
    size_t written = 0, again = 0;
    uint32_t status = fow_refused_member(policy, len, area_end(&rooms, len), len, &written);
    CHECK(status == (fault == FOW_POLICY_MEMBER || fault == FOW_POLICY_RANGE ? FOW_OK : FOW_ABSENT));
    if (status == FOW_ABSENT)
        return;
    CHECK(written <= len);
    CHECK(fow_refused_member(policy, len, area_end(&rooms, written), written, &again) == FOW_OK && again == written);
    if (written != 0)
        CHECK(fow_refused_member(policy, len, area_end(&rooms, written - 1), written - 1, &again) == FOW_TOO_SHORT);
}

/* The text of this member of a document, where it is a JSON object that has one. */
static void check_text(const uint8_t *document, size_t len, const char *name)
{
    size_t written = 0, again = 0;
    uint32_t status = fow_text_member(document, len, at(name), strlen(name), area_end(&rooms, len), len, &written);
    CHECK(status == FOW_OK || status == FOW_ABSENT);
    if (status == FOW_ABSENT)
        return;
    CHECK(written <= len);
    CHECK(fow_text_member(document, len, at(name), strlen(name), area_end(&rooms, written), written, &again) == FOW_OK && again == written);
    if (written != 0)
        CHECK(fow_text_member(document, len, at(name), strlen(name), area_end(&rooms, written - 1), written - 1, &again) == FOW_TOO_SHORT);
}

/* What is told of the policy and the keys that are held. */
static void check_terms(fow_validator *validator)
{
    uint32_t limit = 0;
    size_t written = 0;
    CHECK(fow_token_limit(validator, &limit) == FOW_OK && limit >= 1 && limit <= sizeof token);
    uint32_t status = fow_sole_issuer(validator, token, 65536, &written);
    CHECK(status == FOW_OK || status == FOW_ABSENT);
    fow_documents_are_public(validator);
}

/* Tokens that the first keys sign are judged. */
static void check_issued(fow_validator *validator)
{
    static const char claims[] = "{\"iss\":\"joe\",\"exp\":1300819380}";
    fow_report report;
    size_t written;
    for (uint32_t way = 0; way < 9; way++) {
        uint32_t status = fow_issue(validator, FOW_HS256 + way / 3, FOW_COMPACT, way % 3, at(""), 0, at(claims), sizeof claims - 1, token,
            sizeof token, &written, &report);
        CHECK(status == FOW_OK || (status == FOW_REFUSED && (report.fault == FOW_ISSUE_NO_KEY || report.fault == FOW_ISSUE_KEY_UNFIT)));
        if (status != FOW_OK)
            continue;
        uint32_t verdict = fow_judge(validator, token, written, NOW, &report);
        check_report(verdict, &report, MOST_KEYS);
        check_states(validator, &report);
        check_tries(validator, &report, MOST_KEYS);
    }
}

/* Tokens that nobody signed are refused. */
static void check_unsigned(fow_validator *validator)
{
    static const char *const tokens[] = { "eyJhbGciOiJFUzI1NiJ9.e30.AAAA", "eyJhbGciOiJSUzI1NiJ9.e30.AAAA", "eyJhbGciOiJFZERTQSJ9.e30.AAAA",
        "eyJhbGciOiJQUzUxMiJ9.e30.AAAA", "eyJhbGciOiJFUzUxMiJ9.e30.", "eyJhbGciOiJIUzI1NiIsImtpZCI6ImEifQ.e30.AAAA" };
    fow_report report;
    for (size_t i = 0; i < sizeof tokens / sizeof *tokens; i++) {
        size_t len = strlen(tokens[i]);
        uint32_t verdict = fow_judge(validator, at(tokens[i]), len, NOW, &report);
        check_report(verdict, &report, MOST_KEYS);
        CHECK(verdict == FOW_REFUSED);
    }
}

int LLVMFuzzerTestOneInput(const uint8_t *data, size_t size)
{
    static fow_validator kept = FOW_VALIDATOR_INIT;
    static char set[65536];
    static size_t set_len;
    static const char good[] = "{\"algs\":[\"HS256\"]}";
    fow_validator validator = FOW_VALIDATOR_INIT;
    uint32_t fault = 0, again = 0;
    if (set_len == 0)
        set_len = put_secrets(set);
    CHECK(fow_open(&kept, at(good), sizeof good - 1, at(set), set_len, &fault) == FOW_OK);
    const uint8_t *line = memchr(data, '\n', size);
    size_t policy_len = line == NULL ? size : (size_t)(line - data), keys_len = line == NULL ? 0 : size - policy_len - 1;
    const uint8_t *policy = area_put(&policies, data, policy_len, size & 1);
    const uint8_t *keys = area_put(&sets, line == NULL ? data : line + 1, keys_len, size & 2);
    uint32_t status = fow_open(&validator, policy, policy_len, keys, keys_len, &fault);
    CHECK(status == FOW_OK || (status == FOW_REFUSED && fault >= FOW_POLICY_JSON && fault <= FOW_KEYS_TOO_LONG && fow_fault_name(fault)[0] != 0));
    CHECK(fow_open_prepared(&kept, policy, policy_len, keys, keys_len, size & 3, &again) == status && (status == FOW_OK || again == fault));
    cover_outcome(status == FOW_OK ? 0 : fault);
    check_member(policy, policy_len, status == FOW_OK ? FOW_NO_FAULT : fault);
    check_text(policy, policy_len, "mode");
    check_text(keys, keys_len, "");
    if (status == FOW_REFUSED) {
        check_kept(&kept, &validator);
    } else {
        check_terms(&validator);
        check_issued(&validator);
        check_unsigned(&validator);
    }
    fow_close(&validator);
    fow_close(&validator);
    return 0;
}
