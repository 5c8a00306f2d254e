/* What the harnesses share: areas with an end that can't be touched, validators that stay open, and looks at what the library answers. Each
 * harness is one file, so what one of them doesn't use is no fault. */
#ifndef HARNESS_H
#define HARNESS_H
#define _GNU_SOURCE
#define OPENSSL_SUPPRESS_DEPRECATED
#include <fowharimu.h>
#include <openssl/evp.h>
#include <openssl/hmac.h>
#include <stdio.h>
#include <stdlib.h>
#include <string.h>
#include <sys/mman.h>

#define CHECK(holds) \
    do { \
        if (!(holds)) { \
            fprintf(stderr, "%s:%d: not so: %s\n", __FILE__, __LINE__, #holds); \
            abort(); \
        } \
    } while (0)

enum { NOW = 1300819379, ROOM = 1 << 22, PAGE = 4096, MOST_SIGNATURES = 32, MOST_KEYS = 1024 };

/* Tells libFuzzer of an outcome, which leads it as a place in the code does (cover.c). */
void cover_outcome(uint32_t outcome);

/* ---- Octets whose end is the end of what can be touched: a read or a write past it is a crash. */

typedef struct area {
    uint8_t *at;
} area;

static inline uint8_t *area_front(area *it)
{
    if (it->at == NULL) {
        it->at = mmap(NULL, ROOM + 2 * PAGE, PROT_NONE, MAP_PRIVATE | MAP_ANONYMOUS | MAP_NORESERVE, -1, 0);
        CHECK(it->at != MAP_FAILED && mprotect(it->at + PAGE, ROOM, PROT_READ | PROT_WRITE) == 0);
    }
    return it->at + PAGE;
}

/* The last `size` octets of the area. */
static inline uint8_t *area_end(area *it, size_t size)
{
    CHECK(size <= ROOM);
    return area_front(it) + ROOM - size;
}

/* Copies octets to the end of the area, or to its front, before which nothing can be touched. */
static inline const uint8_t *area_put(area *it, const void *octets, size_t size, int at_front)
{
    uint8_t *to = at_front ? area_front(it) : area_end(it, size);
    if (size != 0)
        memcpy(to, octets, size);
    return to;
}

static inline const uint8_t *at(const char *text)
{
    return (const uint8_t *)text;
}

/* base64url (RFC 4648, section 5) without padding; gives how many characters these are. */
static inline size_t encode(const uint8_t *octets, size_t len, char *out)
{
    static const char characters[] = "ABCDEFGHIJKLMNOPQRSTUVWXYZabcdefghijklmnopqrstuvwxyz0123456789-_";
    size_t written = 0;
    for (size_t bit = 0; bit < 8 * len; bit += 6) {
        unsigned pair = (unsigned)octets[bit / 8] << 8 | (bit / 8 + 1 < len ? octets[bit / 8 + 1] : 0);
        out[written++] = characters[pair >> (10 - bit % 8) & 63];
    }
    return written;
}

/* Undoes \uXXXX wherever it stands, which is enough for base64url in JSON. */
static inline size_t unescape(const uint8_t *from, size_t size, uint8_t *to)
{
    size_t len = 0;
    for (size_t i = 0; i < size; i++) {
        unsigned code;
        char hex[5] = { 0 };
        if (from[i] == '\\' && i + 5 < size && from[i + 1] == 'u') {
            memcpy(hex, from + i + 2, 4);
            if (sscanf(hex, "%4x", &code) == 1 && code < 128) {
                to[len++] = (uint8_t)code;
                i += 5;
                continue;
            }
        }
        to[len++] = from[i];
    }
    return len;
}

/* ---- Validators that stay open */

/* The secrets of the first keys of each set that has secrets. */
static const struct secret {
    const char *rest;
    size_t size;
} secrets[] = { { ",\"kid\":\"a\"", 64 }, { ",\"kid\":\"b\"", 48 }, { "", 200 } };
enum { SECRETS = 3, LONGEST_SECRET = 200 };

static inline void put_secret(uint32_t number, uint8_t *to)
{
    for (size_t i = 0; i < secrets[number].size; i++)
        to[i] = (uint8_t)(number * 41 + i * 7 + 1);
}

/* Writes the key set of the secrets. */
static inline size_t put_secrets(char *to)
{
    uint8_t octets[LONGEST_SECRET];
    size_t len = (size_t)sprintf(to, "{\"keys\":[");
    for (uint32_t i = 0; i < SECRETS; i++) {
        put_secret(i, octets);
        len += (size_t)sprintf(to + len, "%s{\"kty\":\"oct\"%s,\"k\":\"", i ? "," : "", secrets[i].rest);
        len += encode(octets, secrets[i].size, to + len);
        len += (size_t)sprintf(to + len, "\"}");
    }
    return len + (size_t)sprintf(to + len, "]}");
}

/* A validator with what is known of it. Its set is SECRETS, ALL, or a name in tests/tokens. */
typedef struct fixed {
    const char *policy, *set;
    uint32_t keys;
    fow_validator validator;
    char *keys_text;
    size_t keys_len;
} fixed;

static fixed table[] = {
    { .policy = "{\"algs\":[\"HS256\",\"HS384\",\"HS512\"]}", .set = "SECRETS" },
    { .policy = "{\"algs\":[\"HS256\",\"HS512\"],\"mode\":\"all\",\"max_signatures\":32,\"limit\":65536,\"audiences\":[\"shop\",\"\"],\"issuers\":[\"joe\",\"\"],"
                "\"required\":[\"exp\",\"sub\",\"x y\"],\"leeway\":60,\"max_age\":600,\"line_feed\":true}", .set = "SECRETS" },
    { .policy = "{\"version\":2,\"algs\":[\"HS256\"],\"typ\":\"JWT\",\"need_kid\":true,\"understood\":[\"exp\",\"urn:x\"],\"max_calls\":2,\"work\":2000}", .set = "SECRETS" },
    { .policy = "{\"algs\":[\"HS384\"],\"thumb_kid\":true,\"limit\":1048576,\"max_signatures\":1}", .set = "SECRETS" },
    { .policy = "{\"algs\":[\"RS256\"],\"issuers\":[\"joe\"],\"required\":[\"exp\"]}", .set = "RS256" },
    { .policy = "{\"algs\":[\"ES256\"],\"issuers\":[\"joe\"],\"required\":[\"exp\"]}", .set = "ES256" },
    { .policy = "{\"algs\":[\"EdDSA\"]}", .set = "Ed25519" },
    { .policy = "{\"algs\":[\"PS256\",\"RS384\",\"PS512\"]}", .set = "PS256" },
    { .policy = "{\"algs\":[\"ES384\",\"ES512\",\"EdDSA\",\"PS384\",\"RS512\",\"RS256\",\"ES256\",\"HS256\"],\"mode\":\"any\",\"max_signatures\":32,\"limit\":65536}", .set = "ALL" },
    { .policy = "{\"version\":2,\"algs\":[\"ES384\",\"ES512\",\"EdDSA\",\"PS256\",\"RS256\",\"ES256\",\"HS256\"],\"mode\":\"all\",\"max_calls\":9}", .set = "ALL" },
};
enum { FIXED = sizeof table / sizeof *table, FIRST_OF_ALL = 8, SET_ROOM = 1 << 17 };

static inline size_t read_file(const char *name, const char *end, char *to, size_t room)
{
    char path[4096];
    const char *folder = getenv("FOW_TOKENS");
    snprintf(path, sizeof path, "%s/%s.%s", folder == NULL ? "tests/tokens" : folder, name, end);
    FILE *in = fopen(path, "rb");
    CHECK(in != NULL);
    size_t len = fread(to, 1, room, in);
    fclose(in);
    return len;
}

/* Writes the objects of a key set's list, in a row. */
static inline size_t put_inner(const char *set, size_t len, char *to)
{
    const char *from = memchr(set, '[', len), *end = memrchr(set, ']', len);
    size_t inner = (size_t)(end - from - 1);
    memcpy(to, from + 1, inner);
    return inner;
}

/* Writes the set of all kinds of keys: the secrets, and each public key that a token of the repository has. */
static inline void fill_all(fixed *it)
{
    static const char *const names[] = { "RS256", "ES256", "ES384", "ES512", "Ed25519", "Ed448" };
    char one[65536];
    size_t len = (size_t)sprintf(it->keys_text, "{\"keys\":["), n = put_secrets(one);
    len += put_inner(one, n, it->keys_text + len);
    it->keys = SECRETS;
    for (size_t i = 0; i < sizeof names / sizeof *names; i++) {
        it->keys_text[len++] = ',';
        n = read_file(names[i], "keys", one, sizeof one);
        len += put_inner(one, n, it->keys_text + len);
        it->keys++;
    }
    it->keys_len = len + (size_t)sprintf(it->keys_text + len, "]}");
}

static inline void open_one(fixed *it)
{
    uint32_t fault = 0;
    it->keys_text = calloc(1, SET_ROOM);
    if (strcmp(it->set, "SECRETS") == 0) {
        it->keys_len = put_secrets(it->keys_text);
        it->keys = SECRETS;
    } else if (strcmp(it->set, "ALL") == 0) {
        fill_all(it);
    } else {
        it->keys_len = read_file(it->set, "keys", it->keys_text, SET_ROOM);
        it->keys = 1;
    }
    CHECK(fow_open(&it->validator, at(it->policy), strlen(it->policy), at(it->keys_text), it->keys_len, &fault) == FOW_OK);
}

/* The validators of the table, opened at the first call. */
static inline void open_fixed(void)
{
    if (table[0].keys_text == NULL)
        for (size_t i = 0; i < FIXED; i++)
            open_one(&table[i]);
}

/* ---- What the library says, beside what the header says that it may say */

/* Whether a fault is one of this hundred, in which a group of the header's numbers lies. */
static inline int is_of(uint32_t fault, uint32_t hundred)
{
    return fault / 100 == hundred && fow_fault_name(fault)[0] != 0;
}

/* Whether a fault is one for which a token can be refused. */
static inline int is_of_token(uint32_t fault)
{
    return fault == FOW_TEXT_TOO_LONG || is_of(fault, 4) || fault == FOW_WORK_EXCEEDED
        || fault == FOW_CALLS_EXCEEDED || (is_of(fault, 6) && fault != FOW_SIG_NO_VERIFIER) || is_of(fault, 7);
}

static inline uint32_t packed(const fow_report *report)
{
    uint64_t tries = report->tries > 7 ? 7 : report->tries;
    return report->verdict | report->fault << 2 | report->part << 12 | report->claim << 14 | (report->signature & 7) << 18
        | (report->key & 7) << 21 | (uint32_t)tries << 24;
}

/* Each number of a report lies in the header's range, and those that its fault doesn't speak of are 0. */
static inline void check_report(uint32_t verdict, const fow_report *report, uint32_t keys)
{
    uint32_t fault = report->fault;
    CHECK(report->verdict == verdict);
    CHECK(verdict == FOW_OK || verdict == FOW_REFUSED);
    CHECK(verdict == FOW_REFUSED ? is_of_token(fault) : fault == FOW_NO_FAULT);
    CHECK((fow_fault_name(fault)[0] != 0) == (fault != FOW_NO_FAULT));
    CHECK((report->part != FOW_NO_PART) == (fault == FOW_FORM_BASE64) && report->part <= FOW_PART_SIGNATURE);
    CHECK((report->claim != FOW_NO_CLAIM) == (fault == FOW_CLAIM_KIND || fault == FOW_CLAIM_DATE || fault == FOW_CLAIM_MISSING));
    CHECK((report->claim == FOW_CLAIM_BY_NAME) == (fault == FOW_CLAIM_MISSING) && report->claim <= FOW_CLAIM_BY_NAME);
    CHECK(report->signature < MOST_SIGNATURES && report->key < keys && report->tries <= MOST_SIGNATURES * (uint64_t)keys);
    if (fault > FOW_NO_FAULT && fault < FOW_WORK_EXCEEDED)
        CHECK(report->tries == 0 && report->work == 0 && report->key == 0);
    if (fault == FOW_TEXT_TOO_LONG || (fault >= FOW_FORM_EMPTY && fault < FOW_FORM_BASE64) || report->part == FOW_PART_PAYLOAD)
        CHECK(report->signature == 0);
    cover_outcome(packed(report));
}

/* The states of a judging agree with its report. */
static inline void check_states(fow_validator *validator, const fow_report *report)
{
    fow_state state;
    uint32_t n = 0, verified = 0;
    for (; fow_state_of(validator, n, &state) == FOW_OK; n++) {
        CHECK(n < MOST_SIGNATURES && state.state >= FOW_STATE_BARRED && state.state <= FOW_STATE_STOPPED);
        CHECK((state.fault != 0) == (state.state == FOW_STATE_BARRED));
        CHECK(state.fault == 0 || is_of(state.fault, 6));
        verified += state.state == FOW_STATE_VERIFIED;
        if (report->verdict == FOW_OK && n == report->signature)
            CHECK(state.state == FOW_STATE_VERIFIED && state.key == report->key);
        cover_outcome(0x80000000u | n << 16 | state.state << 10 | (state.fault & 63));
    }
    CHECK(fow_state_of(validator, n, &state) == FOW_ABSENT && fow_state_of(validator, UINT32_MAX, &state) == FOW_ABSENT);
    CHECK(report->verdict != FOW_OK || verified != 0);
}

/* The tries of a judging are in order, no pair twice, and cost what its report says. */
static inline void check_tries(fow_validator *validator, const fow_report *report, uint32_t keys)
{
    fow_try tried = { 0 };
    uint64_t work = 0, last = 0;
    for (uint64_t n = 0; n < report->tries; n++) {
        CHECK(fow_try_of(validator, n, &tried) == FOW_OK && tried.signature < MOST_SIGNATURES && tried.key < keys);
        uint64_t place = 1 + (uint64_t)tried.signature * MOST_KEYS + tried.key;
        CHECK(place > last);
        last = place;
        work += tried.cost;
    }
    CHECK(report->work == work);
    CHECK(fow_try_of(validator, report->tries, &tried) == FOW_ABSENT && fow_try_of(validator, UINT64_MAX, &tried) == FOW_ABSENT);
}

static inline void check_judged(fixed *it, uint32_t verdict, const fow_report *report)
{
    check_report(verdict, report, it->keys);
    check_states(&it->validator, report);
    check_tries(&it->validator, report, it->keys);
}

static inline int is_same(const fow_report *one, const fow_report *other)
{
    return one->work == other->work && one->tries == other->tries && one->verdict == other->verdict && one->fault == other->fault
        && one->part == other->part && one->signature == other->signature && one->key == other->key && one->claim == other->claim;
}

/* ---- An accepted token by HMAC, computed anew */

/* Writes the signing input that the payload and a protected header spell. */
static inline size_t put_input(fow_validator *validator, const uint8_t *token, size_t len, uint32_t signature, char *to)
{
    static uint8_t octets[ROOM];
    size_t written, n;
    CHECK(fow_unverified_header(validator, token, len, signature, octets, sizeof octets, &written) == FOW_OK);
    n = encode(octets, written, to);
    to[n++] = '.';
    CHECK(fow_payload(validator, token, len, octets, sizeof octets, &written) == FOW_OK);
    return n + encode(octets, written, to + n);
}

/* Writes the tag of a signing input, in base64url: which of HS256, HS384 and HS512 it is by, from 0. */
static inline size_t put_tag(uint32_t key, int which, const char *input, size_t len, char *to)
{
    const EVP_MD *const digests[] = { EVP_sha256(), EVP_sha384(), EVP_sha512() };
    uint8_t secret[LONGEST_SECRET], tag[EVP_MAX_MD_SIZE];
    unsigned tag_len = 0;
    put_secret(key, secret);
    CHECK(HMAC(digests[which], secret, (int)secrets[key].size, at(input), len, tag, &tag_len) != NULL);
    return encode(tag, tag_len, to);
}

/* The tag that OpenSSL makes of an accepted token with the secret that its report names stands in the token, by one of the three digests. */
static inline void check_hmac(fixed *it, const uint8_t *token, size_t len, const fow_report *report)
{
    static char input[ROOM], tag[128];
    static uint8_t plain[ROOM];
    size_t n = put_input(&it->validator, token, len, report->signature, input), plain_len = unescape(token, len, plain);
    int is_found = 0;
    for (int which = 0; which < 3; which++) {
        size_t tag_len = put_tag(report->key, which, input, n, tag);
        is_found |= memmem(plain, plain_len, tag, tag_len) != NULL;
    }
    CHECK(is_found && report->work != 0);
}

/* No token that differs in one bit from an accepted one in compact form is accepted. */
static inline void check_mutants(fixed *it, const uint8_t *token, size_t len)
{
    enum { MUTANTS = 4 };
    static uint32_t seed = 1;
    uint8_t *copy = malloc(len);
    fow_report report;
    CHECK(copy != NULL);
    for (int i = 0; i < MUTANTS; i++) {
        memcpy(copy, token, len);
        seed = seed * 1664525u + 1013904223u;
        copy[(seed >> 8) % len] ^= (uint8_t)(1 << (seed >> 4 & 7));
        CHECK(fow_judge(&it->validator, copy, len, NOW, &report) != FOW_OK);
    }
    free(copy);
}

/* ---- Getters */

/* A call that writes octets. */
typedef uint32_t getter(fow_validator *validator, const uint8_t *token, size_t len, const char *name, uint8_t *out, size_t room, size_t *written);

static inline uint32_t get_payload(fow_validator *validator, const uint8_t *token, size_t len, const char *name, uint8_t *out, size_t room, size_t *written)
{
    (void)name;
    return fow_payload(validator, token, len, out, room, written);
}

static inline uint32_t get_accepted(fow_validator *validator, const uint8_t *token, size_t len, const char *name, uint8_t *out, size_t room, size_t *written)
{
    (void)token, (void)len, (void)name;
    return fow_accepted_payload(validator, out, room, written);
}

static inline uint32_t get_header(fow_validator *validator, const uint8_t *token, size_t len, const char *name, uint8_t *out, size_t room, size_t *written)
{
    return fow_unverified_header(validator, token, len, (uint32_t)atoi(name), out, room, written);
}

static inline uint32_t get_refused(fow_validator *validator, const uint8_t *token, size_t len, const char *name, uint8_t *out, size_t room, size_t *written)
{
    (void)token, (void)len, (void)name;
    return fow_refused_claim(validator, out, room, written);
}

static inline uint32_t get_claim(fow_validator *validator, const uint8_t *token, size_t len, const char *name, uint8_t *out, size_t room, size_t *written)
{
    (void)token, (void)len;
    return fow_claim(validator, at(name), strlen(name), out, room, written);
}

/* What a call writes with ample room it writes with just enough, and one octet less is too short; it writes nothing past its room. */
static inline uint32_t check_getter(getter *get, fow_validator *validator, const uint8_t *token, size_t len, const char *name, size_t most)
{
    static area rooms;
    static uint8_t copy[ROOM];
    size_t written = 0, again = 0;
    uint8_t *out = area_end(&rooms, most);
    uint32_t status = get(validator, token, len, name, out, most, &written);
    CHECK(status == FOW_OK || status == FOW_ABSENT);
    if (status == FOW_ABSENT)
        return status;
    CHECK(written <= most);
    memcpy(copy, out, written);
    out = area_end(&rooms, written);
    CHECK(get(validator, token, len, name, out, written, &again) == FOW_OK && again == written && memcmp(out, copy, written) == 0);
    if (written != 0)
        CHECK(get(validator, token, len, name, area_end(&rooms, written - 1), written - 1, &again) == FOW_TOO_SHORT);
    return status;
}

/* Each call that says something of a token that was judged. Of one that isn't accepted no claim is told. */
static inline void check_getters(fow_validator *validator, const uint8_t *token, size_t len, const fow_report *report)
{
    static const char *const names[] = { "exp", "iss", "sub", "aud", "nbf", "iat", "jti", "", "x", "\xff\xfe", "http://example.com/is_root" };
    static const char *const signatures[] = { "0", "1", "2" };
    check_getter(get_payload, validator, token, len, "", len + 8);
    CHECK(check_getter(get_accepted, validator, token, len, "", len + 8) == (report->verdict == FOW_OK ? FOW_OK : FOW_ABSENT));
    for (size_t i = 0; i < sizeof signatures / sizeof *signatures; i++)
        check_getter(get_header, validator, token, len, signatures[i], len + 8);
    CHECK(check_getter(get_refused, validator, token, len, "", 65536) == FOW_ABSENT || report->fault == FOW_CLAIM_MISSING);
    for (size_t i = 0; i < sizeof names / sizeof *names; i++) {
        int64_t number;
        uint32_t claim = check_getter(get_claim, validator, token, len, names[i], 6 * len + 64);
        uint32_t status = fow_number(validator, at(names[i]), strlen(names[i]), &number);
        CHECK(status == FOW_OK || status == FOW_ABSENT);
        CHECK(report->verdict == FOW_OK || (claim == FOW_ABSENT && status == FOW_ABSENT));
    }
}
#endif
