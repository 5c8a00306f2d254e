/* An access rule, a line feed, and claims, which the library issues and judges before the rule is held against them. */
#include "harness.h"

enum { MOST_INPUT = 60000 };

static area rules, rooms, tokens;
static fow_access access_rule = FOW_ACCESS_INIT;

/* A rule that is refused has a fault of rules, whose name is written in just enough room, and leaves what was held. */
static void check_refused(const uint8_t *rule, size_t len, uint32_t status, uint32_t fault)
{
    size_t written = 0, again = 0;
    bool is_named = fault >= FOW_ACCESS_MEMBER && fault <= FOW_ACCESS_CLAIM_RANGE;
    CHECK(status == FOW_REFUSED && fault >= FOW_ACCESS_JSON && fault <= FOW_ACCESS_TOO_LONG);
    uint8_t *out = area_end(&rooms, len + 1);
    uint32_t named = fow_access_refused(rule, len, out, len + 1, &written);
    CHECK(named == (is_named ? FOW_OK : FOW_ABSENT));
    if (!is_named)
        return;
    CHECK(written <= len && fow_access_refused(rule, len, area_end(&rooms, written), written, &again) == FOW_OK && again == written);
    CHECK(written == 0 || fow_access_refused(rule, len, area_end(&rooms, written - 1), written - 1, &again) == FOW_TOO_SHORT);
}

/* Each scope is one or more of the characters of RFC 6749, section 3.3, and there are no more than the document has room for. */
static void check_scopes(size_t len)
{
    size_t written = 0, all = 0;
    uint8_t *out = area_end(&rooms, len);
    for (uint32_t n = 0; fow_access_scope(&access_rule, n, out, len, &written) == FOW_OK; n++) {
        CHECK(written > 0 && (all += written + 3) <= len);
        for (size_t i = 0; i < written; i++)
            CHECK(out[i] >= 0x21 && out[i] <= 0x7e && out[i] != '"' && out[i] != '\\');
    }
}

/* What is said of claims is said twice, and tells which scope or claim is meant exactly where it is a denial. */
static void check_held(fow_validator *validator, size_t len)
{
    uint32_t denial = 7, again = 7;
    size_t written = 0;
    uint32_t status = fow_denied(validator, &access_rule, &denial);
    CHECK(status == FOW_OK || status == FOW_DENIED);
    CHECK(status == FOW_OK ? denial == FOW_NO_FAULT : is_of(denial, 10));
    CHECK(fow_denied(validator, &access_rule, &again) == status && again == denial);
    uint8_t *out = area_end(&rooms, len);
    CHECK(fow_denied_name(validator, &access_rule, out, len, &written) == (status == FOW_OK ? FOW_ABSENT : FOW_OK));
    CHECK(status == FOW_OK || written <= len);
    CHECK(status == FOW_OK || written == 0
        || fow_denied_name(validator, &access_rule, area_end(&rooms, written - 1), written - 1, &written) == FOW_TOO_SHORT);
    cover_outcome(status << 16 | denial);
}

int LLVMFuzzerTestOneInput(const uint8_t *data, size_t size)
{
    static const char met[] = "{\"claims\":{\"no such claim\":[1]}}";
    static uint8_t token[1 << 18];
    fow_report report;
    uint32_t fault = 0, denial = 0;
    size_t written = 0;
    open_fixed();
    if (size > MOST_INPUT)
        return 0;
    fixed *it = &table[0];
    const uint8_t *line = memchr(data, '\n', size);
    size_t len = line == NULL ? size : (size_t)(line - data);
    const uint8_t *rule = area_put(&rules, data, len, 0);
    CHECK(fow_access_open(&access_rule, at(met), sizeof met - 1, &fault) == FOW_OK);
    uint32_t status = fow_access_open(&access_rule, rule, len, &fault);
    if (status != FOW_OK)
        check_refused(rule, len, status, fault);
    else
        check_scopes(len);
    const uint8_t *claims = line == NULL ? at("{}") : line + 1;
    size_t claims_len = line == NULL ? 2 : size - len - 1;
    if (fow_issue(&it->validator, FOW_HS256, FOW_COMPACT, 0, at(""), 0, claims, claims_len, token, sizeof token, &written, &report) != FOW_OK)
        return 0;
    if (fow_judge(&it->validator, area_put(&tokens, token, written, 0), written, NOW, &report) != FOW_OK) {
        CHECK(fow_denied(&it->validator, &access_rule, &denial) == FOW_ABSENT && denial == FOW_NO_FAULT);
        return 0;
    }
    if (status == FOW_OK)
        check_held(&it->validator, len);
    else
        CHECK(memmem(claims, claims_len, "no such claim", 13) != NULL || fow_denied(&it->validator, &access_rule, &denial) == FOW_DENIED
            || memchr(claims, '\\', claims_len) != NULL);
    return 0;
}
