/* around: the token of a request, what is answered to it, and when keys by URL are fetched, and from where. The rows are by RFC 6750,
 * sections 2.1 and 3, and RFC 9449, section 7. */
#include <fowharimu.h>
#include <string.h>

#include "octets.h"

static const uint8_t *at(const char *text)
{
    return (const uint8_t *)text;
}

/* What values of `Authorization` carry, by the schemes that are taken. */
static void check_credentials(void)
{
    static const struct {
        uint32_t schemes;
        const char *value;
        uint32_t status, scheme;
        size_t from, to;
    } rows[] = {
        { FOW_BEARER, "Bearer a.b.c", FOW_OK, FOW_BEARER, 7, 12 },
        { FOW_BEARER, "  bEARER   a.b.c=\t", FOW_OK, FOW_BEARER, 11, 17 },
        { FOW_BEARER, "", FOW_ABSENT, FOW_NO_SCHEME, 1, 2 },
        { FOW_BEARER, "Basic YW5uOmFubg==", FOW_ABSENT, FOW_NO_SCHEME, 1, 2 },
        { FOW_BEARER, "Bearer\ta.b.c", FOW_ABSENT, FOW_NO_SCHEME, 1, 2 },
        { FOW_BEARER, "DPoP a.b.c", FOW_ABSENT, FOW_NO_SCHEME, 1, 2 },
        { FOW_BEARER, "Bearer", FOW_REFUSED, FOW_BEARER, 1, 2 },
        { FOW_BEARER, "Bearer a.b.c, Bearer a.b.c", FOW_REFUSED, FOW_BEARER, 1, 2 },
        { FOW_DPOP, "DPoP a.b.c", FOW_OK, FOW_DPOP, 5, 10 },
        { FOW_DPOP, " dpop  a.b.c= ", FOW_OK, FOW_DPOP, 7, 13 },
        { FOW_DPOP, "DPoP a.b.c, DPoP a.b.c", FOW_REFUSED, FOW_DPOP, 1, 2 },
        { FOW_DPOP, "Bearer a.b.c", FOW_ABSENT, FOW_NO_SCHEME, 1, 2 },
        { FOW_BEARER | FOW_DPOP, "Bearer a.b.c", FOW_OK, FOW_BEARER, 7, 12 },
        { FOW_BEARER | FOW_DPOP, "DPoP a.b.c", FOW_OK, FOW_DPOP, 5, 10 },
        { FOW_BEARER | FOW_DPOP, "DPoP", FOW_REFUSED, FOW_DPOP, 1, 2 },
        { FOW_NO_SCHEME, "Bearer a.b.c", FOW_ABSENT, FOW_NO_SCHEME, 1, 2 },
        { 4, "Bearer a.b.c", FOW_ABSENT, FOW_NO_SCHEME, 1, 2 },
        { UINT32_MAX, "DPoP a.b.c", FOW_ABSENT, FOW_NO_SCHEME, 1, 2 },
    };
    for (size_t row = 0; row < sizeof rows / sizeof *rows; row++) {
        uint32_t scheme = 7;
        size_t from = 1, to = 2;
        CHECK(fow_credentials(rows[row].schemes, at(rows[row].value), strlen(rows[row].value), &scheme, &from, &to) == rows[row].status);
        CHECK(scheme == rows[row].scheme && from == rows[row].from && to == rows[row].to);
    }
}

/* Whether a challenge has this text, and is written only where there is room for all of it. */
static void check_challenge(uint32_t scheme, uint32_t challenge, const char *text)
{
    uint8_t out[MOST];
    size_t written = 7, wanted = strlen(text);
    CHECK(fow_challenge(scheme, challenge, at("a realm"), 7, at("read write"), 10, at("ES256"), 5, out, wanted, &written) == FOW_OK);
    CHECK(written == wanted && memcmp(out, text, wanted) == 0);
    if (wanted > 0) {
        written = 7;
        memset(out, '.', wanted);
        CHECK(fow_challenge(scheme, challenge, at("a realm"), 7, at("read write"), 10, at("ES256"), 5, out, wanted - 1, &written) == FOW_TOO_SHORT);
        CHECK(written == 7 && out[0] == '.');
    }
}

/* What each outcome is answered with: where only Bearer is taken, and where both are, and the token came by DPoP. */
static void check_replies(void)
{
    static const struct {
        uint32_t outcome, status;
        const char *alone, *bearer, *dpop;
    } rows[] = {
        { FOW_UNANSWERED, 500, "", "", "" },
        { FOW_ADMITTED, 200, "", "", "" },
        { FOW_SEVERAL, 400, "Bearer error=\"invalid_request\"", "Bearer error=\"invalid_request\"", "DPoP algs=\"ES256\", error=\"invalid_request\"" },
        { FOW_NO_TOKEN, 401, "Bearer realm=\"a realm\"", "Bearer realm=\"a realm\"", "DPoP algs=\"ES256\"" },
        { FOW_MALFORMED, 401, "Bearer error=\"invalid_token\"", "Bearer realm=\"a realm\"", "DPoP algs=\"ES256\", error=\"invalid_token\"" },
        { FOW_NOT_ACCEPTED, 401, "Bearer error=\"invalid_token\"", "Bearer realm=\"a realm\"", "DPoP algs=\"ES256\", error=\"invalid_token\"" },
        { FOW_SCOPE_MISSING, 403, "Bearer error=\"insufficient_scope\", scope=\"read write\"", "",
            "DPoP algs=\"ES256\", error=\"insufficient_scope\", scope=\"read write\"" },
        { FOW_NOT_GRANTED, 403, "Bearer error=\"insufficient_scope\"", "", "DPoP algs=\"ES256\", error=\"insufficient_scope\"" },
        { FOW_KEYS_TOO_OLD, 503, "", "", "" },
        { FOW_PROOF_REFUSED, 401, "Bearer error=\"invalid_dpop_proof\"", "Bearer realm=\"a realm\"", "DPoP algs=\"ES256\", error=\"invalid_dpop_proof\"" },
        { FOW_NONCE_WANTED, 401, "Bearer error=\"use_dpop_nonce\"", "Bearer realm=\"a realm\"", "DPoP algs=\"ES256\", error=\"use_dpop_nonce\"" },
        { FOW_PATH_FORM, 400, "", "", "" },
        { FOW_SHARE_USED_UP, 429, "", "", "" },
        { FOW_MEMORY_FULL, 503, "", "", "" },
        { 14, 500, "", "", "" },
        { UINT32_MAX, 500, "", "", "" },
    };
    for (size_t row = 0; row < sizeof rows / sizeof *rows; row++) {
        fow_reply alone = { 7, 7, 7 }, both = { 7, 7, 7 };
        fow_reply_to(FOW_BEARER, FOW_BEARER, rows[row].outcome, &alone);
        fow_reply_to(FOW_BEARER | FOW_DPOP, FOW_DPOP, rows[row].outcome, &both);
        CHECK(alone.status == rows[row].status && alone.dpop == FOW_NO_CHALLENGE && both.status == rows[row].status);
        check_challenge(FOW_BEARER, alone.bearer, rows[row].alone);
        check_challenge(FOW_BEARER, both.bearer, rows[row].bearer);
        check_challenge(FOW_DPOP, both.dpop, rows[row].dpop);
        /* where no scheme is taken there is no challenge, and so no 401 (RFC 9110, section 15.5.2) */
        static const uint32_t no_schemes[] = { FOW_NO_SCHEME, 4, UINT32_MAX };
        for (size_t at = 0; at < sizeof no_schemes / sizeof *no_schemes; at++) {
            fow_reply none = { 7, 7, 7 };
            fow_reply_to(no_schemes[at], FOW_BEARER, rows[row].outcome, &none);
            CHECK(none.status == (rows[row].status == 401 ? 500 : rows[row].status));
            CHECK(none.bearer == FOW_NO_CHALLENGE && none.dpop == FOW_NO_CHALLENGE);
        }
    }
    /* of no scheme there is no challenge, and of an unknown number none */
    check_challenge(FOW_NO_SCHEME, FOW_REALM, "");
    check_challenge(3, FOW_INVALID_TOKEN, "");
    check_challenge(FOW_DPOP, 8, "");
}

/* What an answer on a proof makes of its request. */
static void check_proof_outcomes(void)
{
    static const struct {
        uint32_t status, fault, outcome;
    } rows[] = {
        { FOW_OK, 0, FOW_ADMITTED },
        { FOW_OK, FOW_PROOF_OTHER_KEY, FOW_ADMITTED },
        { FOW_NOT_EXPECTED, 0, FOW_NONCE_WANTED },
        { FOW_REFUSED, FOW_PROOF_OTHER_NONCE, FOW_NONCE_WANTED },
        { FOW_REFUSED, FOW_PROOF_OTHER_KEY, FOW_NOT_ACCEPTED },
        { FOW_REFUSED, FOW_PROOF_OTHER_URI, FOW_PROOF_REFUSED },
        { FOW_REFUSED, FOW_PROOF_PATH_FORM, FOW_PATH_FORM },
        { FOW_REFUSED, 0, FOW_PROOF_REFUSED },
        { FOW_REFUSED, UINT32_MAX, FOW_PROOF_REFUSED },
        { FOW_ABSENT, FOW_PROOF_OTHER_NONCE, FOW_UNANSWERED },
        { FOW_NOT_OPEN, 0, FOW_UNANSWERED },
        { FOW_OUT_OF_MEMORY, 0, FOW_UNANSWERED },
        { UINT32_MAX, 0, FOW_UNANSWERED },
    };
    for (size_t row = 0; row < sizeof rows / sizeof *rows; row++) {
        CHECK(fow_proof_outcome(rows[row].status, rows[row].fault) == rows[row].outcome);
    }
}

/* What can't be quoted is written nowhere. */
static void check_quoting(void)
{
    static const char *const hostile[] = { "a\"b", "a\\b", "a\r\nSet-Cookie: b", "\x7f", "\xc3\xa9", "a\tb" };
    for (size_t row = 0; row < sizeof hostile / sizeof *hostile; row++) {
        uint8_t out[MOST] = { '.' };
        size_t written = 7, len = strlen(hostile[row]);
        const uint8_t *text = at(hostile[row]), *none = at("");
        CHECK(!fow_quotable(text, len));
        CHECK(fow_challenge(FOW_BEARER, FOW_REALM, text, len, none, 0, none, 0, out, MOST, &written) == FOW_REFUSED);
        CHECK(fow_challenge(FOW_BEARER, FOW_SCOPES, none, 0, text, len, none, 0, out, MOST, &written) == FOW_REFUSED);
        CHECK(fow_challenge(FOW_DPOP, FOW_REALM, none, 0, none, 0, text, len, out, MOST, &written) == FOW_REFUSED);
        CHECK(written == 7 && out[0] == '.');
    }
    CHECK(fow_quotable(at(""), 0) && fow_quotable(at("a realm, with ~!"), 16));
}

/* A run of fetches, by a clock of its own. */
static void check_renewal(void)
{
    fow_renewal keys;
    fow_renewal_answer answer;
    fow_renewal_begin(&keys, 600, 30, 3600, 5, 1000);
    CHECK(fow_renewal_due(&keys) == 0 && fow_renewal_quiet_for(&keys) == 0);
    fow_renewal_ask(&keys, 1000, FOW_ASKER_TOKEN, 0, &answer);
    CHECK(answer.has_keys == 0 && answer.fetch == FOW_FETCH_BEGINS && answer.ticket == 1);
    CHECK(fow_renewal_wait(&keys, 1000, 1, 11) && !fow_renewal_wait(&keys, 1000, 1, 11));
    CHECK(fow_renewal_wait(&keys, 1001, 1, 12) && fow_renewal_wait(&keys, 1001, 1, 13) && fow_renewal_wait(&keys, 1001, 1, 14));
    CHECK(!fow_renewal_wait(&keys, 1001, 1, 15));
    fow_renewal_ask(&keys, 1002, FOW_ASKER_OWNER, 0, &answer);
    CHECK(answer.fetch == FOW_FETCH_UNDER_WAY && answer.ticket == 1 && answer.left == 3);
    CHECK(!fow_renewal_took(&keys, 1003, 2) && fow_renewal_took(&keys, 1003, 1) && !fow_renewal_failed(&keys, 1003, 1));
    CHECK(fow_renewal_quiet_for(&keys) == 597);
    fow_renewal_ask(&keys, 1029, FOW_ASKER_REFUSED, 1, &answer);
    CHECK(answer.has_keys == 1 && answer.keys == 1 && answer.fetch == FOW_NO_FETCH);
    fow_renewal_ask(&keys, 1030, FOW_ASKER_REFUSED, 1, &answer);
    CHECK(answer.fetch == FOW_FETCH_BEGINS && answer.ticket == 2);
    CHECK(fow_renewal_failed(&keys, 1031, 2));
    fow_renewal_ask(&keys, 4599, FOW_ASKER_WAITED, 0, &answer);
    CHECK(answer.has_keys == 1);
    fow_renewal_ask(&keys, 4600, FOW_ASKER_WAITED, 0, &answer);
    CHECK(answer.has_keys == 0 && answer.fetch == FOW_NO_FETCH);
    /* (a token that was refused before there were any keys) */
    fow_renewal_begin(&keys, 600, 30, 3600, 5, 1000);
    fow_renewal_ask(&keys, 1000, FOW_ASKER_REFUSED, 0, &answer);
    CHECK(answer.has_keys == 0 && answer.fetch == FOW_FETCH_BEGINS && answer.ticket == 1);
    /* (the greatest time is over as any other is) */
    fow_renewal_begin(&keys, 5, 1, 10, UINT64_MAX, 0);
    fow_renewal_ask(&keys, 0, FOW_ASKER_TOKEN, 0, &answer);
    CHECK(answer.fetch == FOW_FETCH_BEGINS && answer.ticket == 1);
    fow_renewal_ask(&keys, UINT64_MAX - 1, FOW_ASKER_OWNER, 0, &answer);
    CHECK(answer.fetch == FOW_FETCH_UNDER_WAY && answer.ticket == 1);
    fow_renewal_ask(&keys, UINT64_MAX, FOW_ASKER_OWNER, 0, &answer);
    CHECK(answer.fetch == FOW_FETCH_BEGINS && answer.ticket == 2);
}

/* Each call ends, whatever numbers stand in the struct. */
static void check_any_numbers(void)
{
    fow_renewal keys;
    fow_renewal_answer answer;
    for (int octet = 0; octet < 256; octet++) {
        memset(&keys, octet, sizeof keys);
        fow_renewal_ask(&keys, UINT64_MAX, (uint64_t)octet, 1, &answer);
        (void)fow_renewal_wait(&keys, 0, answer.ticket, UINT64_MAX);
        (void)fow_renewal_took(&keys, 0, answer.ticket);
        (void)fow_renewal_failed(&keys, UINT64_MAX, answer.ticket);
        (void)fow_renewal_due(&keys);
        (void)fow_renewal_quiet_for(&keys);
    }
}

/* Which URLs are taken, and their parts. */
static void check_urls(void)
{
    static const struct {
        const char *url;
        bool allows_http;
        uint32_t status, https, port;
        size_t host, host_end, target;
    } rows[] = {
        { "https://a.example/keys", false, FOW_OK, 1, 443, 8, 17, 17 },
        { "HTTP://[::1]:8080?x", true, FOW_OK, 0, 8080, 7, 12, 17 },
        { "http://a.example/keys", false, FOW_REFUSED, 7, 7, 7, 7, 7 },
        { "https://u@a.example/keys", false, FOW_REFUSED, 7, 7, 7, 7, 7 },
        { "https://a.example/keys#x", false, FOW_REFUSED, 7, 7, 7, 7, 7 },
        { "https://a.example:65536/", false, FOW_REFUSED, 7, 7, 7, 7, 7 },
        { "", false, FOW_REFUSED, 7, 7, 7, 7, 7 },
    };
    for (size_t row = 0; row < sizeof rows / sizeof *rows; row++) {
        fow_url it = { 7, 7, 7, 7, 7 };
        CHECK(fow_url_of(at(rows[row].url), strlen(rows[row].url), rows[row].allows_http, &it) == rows[row].status);
        CHECK(it.https == rows[row].https && it.port == rows[row].port);
        CHECK(it.host == rows[row].host && it.host_end == rows[row].host_end && it.target == rows[row].target);
    }
}

/* Whether so many octets of a text were written. */
static bool is_text(const char *text, const uint8_t *out, size_t written)
{
    return written == strlen(text) && memcmp(out, text, written) == 0;
}

/* Where redirections lead, and where metadata stand; nothing is written where it fails. */
static void check_redirections(void)
{
    uint8_t out[80] = { 0 }, before[80];
    size_t written = 0;
    const char *url = "https://a:8443/x/keys?y";
    CHECK(fow_redirected(at(url), strlen(url), at("new"), 3, out, sizeof out, &written) == FOW_OK && is_text("https://a:8443/x/new", out, written));
    CHECK(fow_redirected(at(url), strlen(url), at("//A:8443"), 8, out, sizeof out, &written) == FOW_OK && is_text("https://A:8443", out, written));
    memcpy(before, out, sizeof out);
    CHECK(fow_redirected(at(url), strlen(url), at("/"), 1, out, 14, &written) == FOW_TOO_SHORT && written == 14);
    CHECK(fow_redirected(at(url), strlen(url), at("//a/"), 4, out, sizeof out, &written) == FOW_REFUSED && written == 14);
    CHECK(fow_redirected(at(url), strlen(url), at(""), 0, out, sizeof out, &written) == FOW_REFUSED);
    CHECK(fow_redirected(at(url), strlen(url), at("./new"), 5, out, sizeof out, &written) == FOW_REFUSED);
    CHECK(memcmp(out, before, sizeof out) == 0);
    CHECK(fow_redirected(at("https://./a"), 11, at("b"), 1, out, sizeof out, &written) == FOW_OK && is_text("https://./b", out, written));
    CHECK(fow_redirected(at("https://./a"), 11, at("https://./b"), 11, out, sizeof out, &written) == FOW_REFUSED);
    CHECK(fow_redirected(at("x"), 1, at("/"), 1, out, sizeof out, &written) == FOW_REFUSED);
    const char *issuer = "https://a/x/";
    CHECK(fow_metadata_url(FOW_ASKED_OPENID, at(issuer), strlen(issuer), out, sizeof out, &written) == FOW_OK);
    CHECK(is_text("https://a/x/.well-known/openid-configuration", out, written));
    CHECK(fow_metadata_url(FOW_ASKED_OAUTH, at(issuer), strlen(issuer), out, sizeof out, &written) == FOW_OK);
    CHECK(is_text("https://a/.well-known/oauth-authorization-server/x", out, written));
    memcpy(before, out, sizeof out);
    CHECK(fow_metadata_url(FOW_ASKED_OAUTH, at("https://a?x"), 11, out, sizeof out, &written) == FOW_REFUSED);
    CHECK(fow_metadata_url(FOW_ASKED_OAUTH, at(issuer), strlen(issuer), out, 4, &written) == FOW_TOO_SHORT);
    CHECK(memcmp(out, before, sizeof out) == 0);
}

/* The URL of keys, by metadata. */
static void check_metadata(void)
{
    static const struct {
        const char *metadata;
        uint32_t status;
    } rows[] = {
        { "{\"issuer\":\"https://a\",\"jwks_uri\":\"https://a/keys\"}", FOW_OK },
        { "{\"issuer\":\"https://a\"}", FOW_ABSENT },
        { "{\"issuer\":\"https://a\",\"jwks_uri\":5}", FOW_ABSENT },
        { "{\"issuer\":\"https://a/\",\"jwks_uri\":\"https://a/keys\"}", FOW_REFUSED },
        { "{\"issuer\":\"https://\",\"jwks_uri\":\"https://a/keys\"}", FOW_REFUSED },
        { "{\"issuer\":\"https://a\",\"issuer\":\"https://a\",\"jwks_uri\":\"https://a/keys\"}", FOW_REFUSED },
        { "[]", FOW_REFUSED },
        { "", FOW_REFUSED },
    };
    for (size_t row = 0; row < sizeof rows / sizeof *rows; row++) {
        uint8_t out[80];
        size_t written = 0, len = strlen(rows[row].metadata);
        CHECK(fow_keys_url(at(rows[row].metadata), len, at("https://a"), 9, out, sizeof out, &written) == rows[row].status);
        CHECK(rows[row].status != FOW_OK || is_text("https://a/keys", out, written));
        CHECK(rows[row].status != FOW_OK || fow_keys_url(at(rows[row].metadata), len, at("https://a"), 9, out, 13, &written) == FOW_TOO_SHORT);
    }
}

/* What follows on an answer. */
static void check_steps(void)
{
    static const struct {
        uint32_t asked, status, redirections, step, most;
    } rows[] = {
        { FOW_ASKED_KEYS, 200, 0, FOW_STEP_TAKE, 4194304 },
        { FOW_ASKED_KEYS, 201, 0, FOW_STEP_FAIL, 0 },
        { FOW_ASKED_KEYS, 302, 4, FOW_STEP_FOLLOW, 0 },
        { FOW_ASKED_KEYS, 302, 5, FOW_STEP_TOO_OFTEN, 0 },
        { FOW_ASKED_KEYS, 404, 0, FOW_STEP_FAIL, 0 },
        { FOW_ASKED_OPENID, 404, 0, FOW_STEP_ASK_OAUTH, 0 },
        { FOW_ASKED_OAUTH, 404, 0, FOW_STEP_FAIL, 0 },
        { UINT32_MAX, 404, 0, FOW_STEP_FAIL, 0 },
    };
    for (size_t row = 0; row < sizeof rows / sizeof *rows; row++) {
        fow_next next = { 7, 7 };
        fow_next_step(rows[row].asked, rows[row].status, rows[row].redirections, &next);
        CHECK(next.step == rows[row].step && next.most == rows[row].most);
    }
}

int main(void)
{
    check_credentials();
    check_replies();
    check_proof_outcomes();
    check_quoting();
    check_renewal();
    check_any_numbers();
    check_urls();
    check_redirections();
    check_metadata();
    check_steps();
    return 0;
}
