/* An octet that names a call around a verdict, one of numbers, and three texts with line feeds between them. */
#include "harness.h"

enum { TEXTS = 3, MOST_INPUT = 4096, SHORT_NONCE = FOW_NONCE_LEN - 1 };

typedef struct text {
    const uint8_t *at;
    size_t len;
} text;

static area areas[TEXTS], rooms;

/* Whether octets have just this front, by no case of letters. */
static int has_front(text it, const char *front)
{
    return it.len >= strlen(front) && strncasecmp((const char *)it.at, front, strlen(front)) == 0;
}

/* The token of a request is of the characters of RFC 6750, section 2.1, and stands behind optional white space (RFC 9110, section 5.5), a scheme that is taken, and spaces. */
static void check_credentials(uint32_t schemes, text value)
{
    static const char characters[] = "ABCDEFGHIJKLMNOPQRSTUVWXYZabcdefghijklmnopqrstuvwxyz0123456789-._~+/=";
    uint32_t scheme = 77;
    size_t from = 7, to = 7;
    uint32_t status = fow_credentials(schemes, value.at, value.len, &scheme, &from, &to);
    cover_outcome(1 << 16 | status << 8 | scheme);
    if (status == FOW_ABSENT)
        CHECK(scheme == FOW_NO_SCHEME);
    else
        CHECK((scheme == FOW_BEARER || scheme == FOW_DPOP) && (schemes & scheme) != 0 && (status == FOW_OK || status == FOW_REFUSED));
    CHECK(status == FOW_OK || (from == 7 && to == 7));
    if (status != FOW_OK)
        return;
    const char *name = scheme == FOW_BEARER ? "Bearer" : "DPoP";
    size_t begin = 0;
    while (begin < value.len && (value.at[begin] == ' ' || value.at[begin] == '\t'))
        begin++;
    text rest = { value.at + begin, value.len - begin };
    CHECK(has_front(rest, name) && begin + strlen(name) < from && from < to && to <= value.len);
    for (size_t i = begin + strlen(name); i < from; i++)
        CHECK(value.at[i] == ' ');
    for (size_t i = from; i < to; i++)
        CHECK(value.at[i] != 0 && strchr(characters, value.at[i]) != NULL);
}

/* Only who is admitted is let through, and a scheme that isn't taken has no challenge. */
static void check_reply(uint32_t schemes, uint32_t shown, uint32_t outcome)
{
    fow_reply reply = { 7, 7, 7 };
    fow_reply_to(schemes, shown, outcome, &reply);
    cover_outcome(2 << 16 | (reply.status & 511) << 6 | reply.bearer << 3 | reply.dpop);
    CHECK((reply.status == 200) == (outcome == FOW_ADMITTED));
    CHECK(reply.bearer <= FOW_USE_DPOP_NONCE && reply.dpop <= FOW_USE_DPOP_NONCE);
    CHECK(reply.bearer == FOW_NO_CHALLENGE || schemes == FOW_BEARER || schemes == (FOW_BEARER | FOW_DPOP));
    CHECK(reply.dpop == FOW_NO_CHALLENGE || schemes == FOW_DPOP || schemes == (FOW_BEARER | FOW_DPOP));
    CHECK((fow_proof_outcome(shown, outcome) == FOW_ADMITTED) == (shown == FOW_OK));
}

/* A challenge is refused where one of its texts can't be quoted, is of printable octets, and is written with just enough room. */
static void check_challenge(uint32_t scheme, uint32_t kind, const text *texts)
{
    size_t room = 128, written = 7, again = 7;
    int is_quotable = 1;
    for (int i = 0; i < TEXTS; i++) {
        is_quotable &= fow_quotable(texts[i].at, texts[i].len);
        room += texts[i].len;
    }
    uint8_t *out = area_end(&rooms, room);
    uint32_t status = fow_challenge(scheme, kind, texts[0].at, texts[0].len, texts[1].at, texts[1].len, texts[2].at, texts[2].len, out, room, &written);
    CHECK(status == (is_quotable ? FOW_OK : FOW_REFUSED));
    if (status != FOW_OK)
        return;
    CHECK(written <= room);
    for (size_t i = 0; i < written; i++)
        CHECK(out[i] >= 0x20 && out[i] < 0x7f);
    for (size_t less = 0; less < 2 && less <= written; less++)
        CHECK(fow_challenge(scheme, kind, texts[0].at, texts[0].len, texts[1].at, texts[1].len, texts[2].at, texts[2].len, area_end(&rooms, written - less),
                  written - less, &again)
            == (less ? FOW_TOO_SHORT : FOW_OK));
}

/* A nonce asks for a secret of some length and a period, and is the same all through that. */
static void check_nonce(text secret, uint32_t period, int64_t now)
{
    uint8_t nonce[FOW_NONCE_LEN];
    size_t written = 7;
    int is_good = secret.len >= FOW_NONCE_SECRET_LEN && period != 0;
    uint8_t *out = area_end(&rooms, FOW_NONCE_LEN);
    CHECK(fow_nonce(secret.at, secret.len, period, now, out, FOW_NONCE_LEN, &written) == (is_good ? FOW_OK : FOW_REFUSED));
    if (!is_good)
        return;
    CHECK(written == FOW_NONCE_LEN);
    memcpy(nonce, out, FOW_NONCE_LEN);
    int64_t begin = now < 0 ? 0 : now - now % period;
    CHECK(fow_nonce(secret.at, secret.len, period, begin, out, FOW_NONCE_LEN, &written) == FOW_OK && memcmp(out, nonce, FOW_NONCE_LEN) == 0);
    CHECK(fow_nonce(secret.at, secret.len, period, now, area_end(&rooms, SHORT_NONCE), SHORT_NONCE, &written) == FOW_TOO_SHORT);
}

/* The parts of a URL stand in it one behind another. */
static void check_url(text url, bool allows_http)
{
    fow_url parts = { 7, 7, 7, 7, 7 };
    uint32_t status = fow_url_of(url.at, url.len, allows_http, &parts);
    cover_outcome(3 << 16 | status << 1 | (status == FOW_OK && parts.https));
    CHECK(status == FOW_OK || status == FOW_REFUSED);
    if (status != FOW_OK)
        return;
    CHECK(parts.https == 1 || (parts.https == 0 && allows_http));
    CHECK(has_front(url, parts.https ? "https://" : "http://") && parts.host == (parts.https ? 8 : 7));
    CHECK(parts.host < parts.host_end && parts.host_end <= parts.target && parts.target <= url.len && parts.port <= 65535);
    CHECK(memchr(url.at, '@', parts.target) == NULL && memchr(url.at, '#', url.len) == NULL);
}

/* A redirection leads to a URL of the same origin, and the URL of metadata begins with its issuer's origin. */
static void check_led(text url, text location)
{
    fow_url from, to;
    size_t room = url.len + location.len + 1, written = 7;
    uint8_t *out = area_end(&rooms, room);
    uint32_t status = fow_redirected(url.at, url.len, location.at, location.len, out, room, &written);
    cover_outcome(4 << 16 | status);
    CHECK(status == FOW_OK || status == FOW_REFUSED);
    if (status != FOW_OK)
        return;
    CHECK(written <= room && fow_url_of(url.at, url.len, true, &from) == FOW_OK && fow_url_of(out, written, true, &to) == FOW_OK);
    CHECK(from.https == to.https && from.port == to.port && from.host_end - from.host == to.host_end - to.host);
    CHECK(strncasecmp((const char *)url.at + from.host, (const char *)out + to.host, to.host_end - to.host) == 0);
}

/* The URLs that metadata have to do with: each is written with just enough room. */
static void check_metadata(text issuer, text metadata, uint32_t asked)
{
    size_t room = issuer.len + metadata.len + 64, written = 7, again = 7;
    uint8_t *out = area_end(&rooms, room);
    uint32_t status = fow_metadata_url(asked, issuer.at, issuer.len, out, room, &written);
    CHECK(status == FOW_OK || status == FOW_REFUSED);
    if (status == FOW_OK) {
        CHECK(written <= room && memchr(issuer.at, '?', issuer.len) == NULL);
        CHECK(fow_metadata_url(asked, issuer.at, issuer.len, area_end(&rooms, written - 1), written - 1, &again) == FOW_TOO_SHORT);
    }
    status = fow_keys_url(metadata.at, metadata.len, issuer.at, issuer.len, out, room, &written);
    cover_outcome(5 << 16 | status);
    CHECK(status == FOW_OK || status == FOW_REFUSED || status == FOW_ABSENT);
    CHECK(status != FOW_OK || written <= metadata.len);
    CHECK(status != FOW_OK || written == 0
        || fow_keys_url(metadata.at, metadata.len, issuer.at, issuer.len, area_end(&rooms, written - 1), written - 1, &again) == FOW_TOO_SHORT);
}

/* The next text of the input, at the end of what can be touched, or behind what can't be. */
static text next_text(const uint8_t **data, size_t *size, area *to, int at_front)
{
    const uint8_t *line = memchr(*data, '\n', *size);
    size_t len = line == NULL ? *size : (size_t)(line - *data), used = line == NULL ? len : len + 1;
    text it = { area_put(to, *data, len, at_front), len };
    *data += used;
    *size -= used;
    return it;
}

int LLVMFuzzerTestOneInput(const uint8_t *data, size_t size)
{
    text texts[TEXTS];
    if (size < 2 || size > MOST_INPUT)
        return 0;
    uint8_t what = data[0], number = data[1];
    data += 2;
    size -= 2;
    for (int i = 0; i < TEXTS; i++)
        texts[i] = next_text(&data, &size, &areas[i], what & 128);
    int64_t now = (int64_t)((uint64_t)number << (what & 64 ? 56 : 8));
    switch (what % 7) {
    case 0: check_credentials(number & 7, texts[0]); break;
    case 1: check_reply(number & 3, number >> 2 & 3, number >> 4); break;
    case 2: check_challenge(number & 3, number >> 2 & 15, texts); break;
    case 3: check_nonce(texts[0], (uint32_t)texts[1].len * 60, now); break;
    case 4: check_url(texts[0], number & 1); break;
    case 5: check_led(texts[0], texts[1]); break;
    default: check_metadata(texts[0], texts[1], number & 3); break;
    }
    return 0;
}
