/* Three octets that choose a validator, a form and a key; then a protected header, a line feed, and claims. The harness spells and signs them by
 * OpenSSL's HMAC, so that what comes behind a good signature is reached. */
#include "harness.h"

enum { MOST_INPUT = 60000, PART = 1 << 17 };

static area tokens;
static char token[1 << 20], payload[PART], protected[PART], tag[128];
static size_t payload_len;

/* Spells and signs a protected header over the payload; 0 where its `alg` isn't one of HMAC it is signed as HS256. Gives the lengths. */
static void sign(const uint8_t *header, size_t header_len, uint32_t key, size_t *protected_len, size_t *tag_len)
{
    static char input[2 * PART + 1];
    int which = memmem(header, header_len, "HS384", 5) ? 1 : memmem(header, header_len, "HS512", 5) ? 2 : 0;
    size_t n = *protected_len = encode(header, header_len, protected);
    memcpy(input, protected, n);
    input[n++] = '.';
    memcpy(input + n, payload, payload_len);
    *tag_len = put_tag(key, which, input, n + payload_len, tag);
}

/* Writes the token in a form: 0 compact, 1 flattened, 2 general with a second signature by the next key. */
static size_t put_token(uint32_t form, const uint8_t *header, size_t header_len, uint32_t key)
{
    static const char other[] = "{\"alg\":\"HS256\"}";
    size_t protected_len, tag_len, len;
    sign(header, header_len, key, &protected_len, &tag_len);
    int p = (int)protected_len, q = (int)payload_len, t = (int)tag_len;
    if (form == 0)
        return (size_t)sprintf(token, "%.*s.%.*s.%.*s", p, protected, q, payload, t, tag);
    if (form == 1)
        return (size_t)sprintf(token, "{\"protected\":\"%.*s\",\"payload\":\"%.*s\",\"signature\":\"%.*s\"}", p, protected, q, payload, t, tag);
    len = (size_t)sprintf(token, "{\"payload\":\"%.*s\",\"signatures\":[{\"protected\":\"%.*s\",\"signature\":\"%.*s\"},", q, payload, p, protected, t, tag);
    sign(at(other), sizeof other - 1, (key + 1) % SECRETS, &protected_len, &tag_len);
    return len + (size_t)sprintf(token + len, "{\"protected\":\"%.*s\",\"signature\":\"%.*s\"}]}", (int)protected_len, protected, (int)tag_len, tag);
}

/* An accepted token's dates hold (RFC 7519, sections 4.1.4 and 4.1.5), and each moment has a verdict. */
static void check_dates(fixed *it, const uint8_t *octets, size_t len)
{
    static const int64_t moments[] = { INT64_MIN, 0, INT64_MAX };
    int64_t number, leeway = it == &table[1] ? 60 : 0;
    fow_report report;
    if (fow_number(&it->validator, at("exp"), 3, &number) == FOW_OK)
        CHECK(NOW < (__int128)number + leeway);
    if (fow_number(&it->validator, at("nbf"), 3, &number) == FOW_OK)
        CHECK((__int128)NOW + leeway >= number);
    for (size_t i = 0; i < sizeof moments / sizeof *moments; i++) {
        uint32_t verdict = fow_judge(&it->validator, octets, len, moments[i], &report);
        check_report(verdict, &report, it->keys);
    }
    CHECK(fow_judge(&it->validator, octets, len, NOW, &report) == FOW_OK);
}

int LLVMFuzzerTestOneInput(const uint8_t *data, size_t size)
{
    static const int with_secrets[] = { 0, 1, 2, 3, 8, 9 };
    fow_report first, second;
    open_fixed();
    if (size < 4 || size > MOST_INPUT)
        return 0;
    fixed *it = &table[with_secrets[data[0] % 6]];
    uint32_t form = data[1] % 3, key = data[2] % SECRETS;
    int at_front = data[2] & 128;
    data += 3;
    size -= 3;
    const uint8_t *line = memchr(data, '\n', size);
    size_t header_len = line == NULL ? size : (size_t)(line - data);
    payload_len = line == NULL ? 0 : encode(line + 1, size - header_len - 1, payload);
    size_t len = put_token(form, data, header_len, key);
    const uint8_t *octets = area_put(&tokens, token, len, at_front);
    uint32_t verdict = fow_judge(&it->validator, octets, len, NOW, &first);
    check_judged(it, verdict, &first);
    CHECK(fow_judge(&it->validator, octets, len, NOW, &second) == verdict && is_same(&first, &second));
    check_getters(&it->validator, octets, len, &first);
    if (verdict != FOW_OK)
        return 0;
    check_hmac(it, octets, len, &first);
    check_dates(it, octets, len);
    if (form == 0)
        check_mutants(it, octets, len);
    return 0;
}
