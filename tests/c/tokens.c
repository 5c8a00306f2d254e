/* tokens NAME ..: judges the token NAME.jwt by NAME.keys and NAME.policy, which has to be accepted, and the same with an octet of its
 * signature changed, which has to be refused. A token by Ed448, of which there is no verifier, is refused. The token of RFC 8037, appendix A.4, whose payload is no object, has to verify and then
 * to be refused for its claims. */
#include <fowharimu.h>
#include <string.h>

#include "octets.h"

static int has_no_claims(const char *name)
{
    return strstr(name, "rfc8037-a4") != NULL;
}

/* Whether the payload and its claims can be had of the accepted token. */
static void check_claims(fow_validator *validator, const octets *token)
{
    uint8_t out[MOST];
    size_t written = 0;
    CHECK(fow_payload(validator, token->at, token->len, out, sizeof out, &written) == FOW_OK);
    CHECK(written > 2 && out[0] == '{' && out[written - 1] == '}');
    CHECK(fow_payload(validator, token->at, token->len, out, written - 1, &written) == FOW_TOO_SHORT);
    uint8_t kept[MOST];
    size_t kept_len = 0;
    CHECK(fow_accepted_payload(validator, kept, sizeof kept, &kept_len) == FOW_OK);
    CHECK(kept_len == written && memcmp(kept, out, written) == 0);
    CHECK(fow_accepted_payload(validator, kept, written - 1, &kept_len) == FOW_TOO_SHORT && kept_len == written);
    CHECK(fow_claim(validator, (const uint8_t *)"iss", 3, out, sizeof out, &written) == FOW_OK);
    CHECK(written == 5 && memcmp(out, "\"joe\"", 5) == 0);
    CHECK(fow_claim(validator, (const uint8_t *)"none", 4, out, sizeof out, &written) == FOW_ABSENT);
    int64_t exp = 0;
    CHECK(fow_number(validator, (const uint8_t *)"exp", 3, &exp) == FOW_OK && exp == 1300819380);
    CHECK(fow_number(validator, (const uint8_t *)"iss", 3, &exp) == FOW_ABSENT);
}

static void check_states(fow_validator *validator, const fow_report *report)
{
    fow_state state;
    fow_try tried;
    CHECK(fow_state_of(validator, 0, &state) == FOW_OK);
    CHECK(state.state == FOW_STATE_VERIFIED && state.key == report->key);
    CHECK(fow_state_of(validator, 1, &state) == FOW_ABSENT);
    CHECK(report->tries == 1 && fow_try_of(validator, 0, &tried) == FOW_OK);
    CHECK(tried.signature == 0 && tried.key == 0 && tried.cost == report->work);
    CHECK(fow_try_of(validator, 1, &tried) == FOW_ABSENT);
}

/* Of EdDSA with Ed448 the library has no verifier. */
static int is_of_ed448(const char *name)
{
    const char *last = strrchr(name, '/') == NULL ? name : strrchr(name, '/') + 1;
    return strcmp(last, "Ed448") == 0;
}

/* The token's key behind others that didn't make the signature: each is tried in turn, and the last is named. */
static void check_behind_others(const char *name, octets *policy, octets *keys, const octets *token)
{
    enum { OTHERS = 5 };
    static char set[MOST];
    fow_validator validator = FOW_VALIDATOR_INIT;
    fow_report report;
    uint32_t fault;
    const char *member = strstr((char *)keys->at, "\"n\":\"") != NULL ? "\"n\":\"" : "\"x\":\"";
    if (strstr((char *)keys->at, member) == NULL)
        return;
    size_t len = other_keys(set, sizeof set, keys, member, OTHERS) - 2;
    read_named(keys, name, "keys");
    const char *key = strstr((char *)keys->at, "[{") + 1;
    len += (size_t)sprintf(set + len, ",%.*s]}", (int)(strstr(key, "}]") + 1 - key), key);
    CHECK(fow_open(&validator, policy->at, policy->len, (const uint8_t *)set, len, &fault) == FOW_OK);
    CHECK(fow_judge(&validator, token->at, token->len, NOW, &report) == FOW_OK);
    CHECK(report.key == OTHERS && report.tries == OTHERS + 1);
    fow_close(&validator);
}

static void check_token(const char *name)
{
    static octets policy, keys, token;
    fow_validator validator = FOW_VALIDATOR_INIT;
    fow_report report;
    uint32_t fault = 0;
    read_named(&policy, name, "policy");
    read_named(&keys, name, "keys");
    read_named(&token, name, "jwt");
    CHECK(fow_open(&validator, policy.at, policy.len, keys.at, keys.len, &fault) == FOW_OK);

    uint32_t verdict = fow_judge(&validator, token.at, token.len, NOW, &report);
    if (is_of_ed448(name)) {
        CHECK(verdict == FOW_REFUSED && report.fault == FOW_SIG_BAD_SIGNATURE);
    } else if (has_no_claims(name)) {
        CHECK(verdict == FOW_REFUSED && report.fault == FOW_CLAIM_CLAIMS_SHAPE);
    } else {
        CHECK(verdict == FOW_OK && report.signature == 0 && report.key == 0 && report.fault == FOW_NO_FAULT);
        check_states(&validator, &report);
        check_claims(&validator, &token);
        CHECK(fow_judge(&validator, token.at, token.len, NOW + 1, &report) == FOW_REFUSED);
        CHECK(report.fault == FOW_CLAIM_EXPIRED);
        CHECK(fow_judge(&validator, token.at, token.len, NOW, &report) == FOW_OK);
        check_behind_others(name, &policy, &keys, &token);
    }

    /* The first character of the signature text: another octet, whatever the algorithm. */
    size_t first = token.len;
    while (token.at[first - 1] != '.')
        first--;
    token.at[first] = token.at[first] == 'A' ? 'B' : 'A';
    CHECK(fow_judge(&validator, token.at, token.len, NOW, &report) == FOW_REFUSED);
    CHECK(report.fault == FOW_SIG_BAD_SIGNATURE && report.signature == 0);
    fow_close(&validator);
}

int main(int argc, char **argv)
{
    for (int i = 1; i < argc; i++)
        check_token(argv[i]);
    printf("%d tokens as they must be\n", argc - 1);
    return 0;
}
