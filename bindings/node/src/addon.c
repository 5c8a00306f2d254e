/* The functions of fowharimu.h for Node, by Node-API 8 (Node 18 and above). index.js makes classes of them; nothing else calls them.
 *
 * Each thread of workers loads it for itself, and what one opens no other sees. What a call is handed is copied before the library reads it: so
 * another thread that shares a buffer can't change it meanwhile. */
#define NAPI_VERSION 8
#include "around.h"
#include <fowharimu.h>
#include <stdlib.h>
#include <string.h>

/* A validator, and the octets of the token that it was handed last. `told` is what the garbage collector is told of its size. */
typedef struct held {
    fow_validator validator;
    uint8_t *token;
    size_t len;
    int64_t told;
} held;

/* An access rule. */
typedef struct rule {
    fow_access access;
    int64_t told;
} rule;

/* A policy for proofs of possession, and the proof that was accepted last. */
typedef struct proofs {
    fow_possession possession;
    int64_t told;
} proofs;

/* Octets at an address that isn't NULL, which are to be freed. */
typedef struct octets {
    uint8_t *at;
    size_t len;
} octets;

/* How many numbers a report has. */
enum { NUMBERS = 8 };

static void close_held(held *it)
{
    fow_close(&it->validator);
    free(it->token);
    it->token = NULL;
    it->len = 0;
}

static void finalize(napi_env env, void *at, void *hint)
{
    held *it = at;
    int64_t now = 0;
    (void)hint;
    napi_adjust_external_memory(env, -it->told, &now);
    close_held(it);
    free(it);
}

static void finalize_rule(napi_env env, void *at, void *hint)
{
    rule *it = at;
    int64_t now = 0;
    (void)hint;
    napi_adjust_external_memory(env, -it->told, &now);
    fow_access_close(&it->access);
    free(it);
}

static void finalize_once(napi_env env, void *at, void *hint)
{
    (void)env;
    (void)hint;
    fow_once_close(at);
    free(at);
}

static void finalize_proofs(napi_env env, void *at, void *hint)
{
    proofs *it = at;
    int64_t now = 0;
    (void)hint;
    napi_adjust_external_memory(env, -it->told, &now);
    fow_possession_close(&it->possession);
    free(it);
}

static napi_value fail(napi_env env, const char *code, const char *what)
{
    napi_throw_error(env, code, what);
    return NULL;
}

static napi_value lack_memory(napi_env env)
{
    return fail(env, "ERR_MEMORY_ALLOCATION_FAILED", "an allocation was refused");
}

static napi_value mistake(napi_env env, const char *what)
{
    napi_throw_type_error(env, "ERR_INVALID_ARG_TYPE", what);
    return NULL;
}

static napi_value number(napi_env env, double value)
{
    napi_value result = NULL;
    napi_create_double(env, value, &result);
    return result;
}

/* Puts a code unit of UTF-16 behind what is at `to`, as three octets or fewer. */
static size_t put_unit(uint8_t *to, unsigned unit)
{
    if (unit < 0x80) {
        to[0] = (uint8_t)unit;
        return 1;
    }
    if (unit < 0x800) {
        to[0] = (uint8_t)(0xc0 | unit >> 6);
        to[1] = (uint8_t)(0x80 | (unit & 0x3f));
        return 2;
    }
    to[0] = (uint8_t)(0xe0 | unit >> 12);
    to[1] = (uint8_t)(0x80 | (unit >> 6 & 0x3f));
    to[2] = (uint8_t)(0x80 | (unit & 0x3f));
    return 3;
}

/* The octets of a text in which a surrogate stands alone, which UTF-8 doesn't have: each code unit for itself, which the library refuses. */
static bool read_units(napi_env env, napi_value value, octets *out)
{
    size_t len = 0;
    napi_get_value_string_utf16(env, value, NULL, 0, &len);
    char16_t *units = malloc((len + 1) * sizeof *units);
    uint8_t *more = realloc(out->at, 3 * len + 1);
    out->at = more == NULL ? out->at : more;
    out->len = 0;
    if (units != NULL && more != NULL) {
        napi_get_value_string_utf16(env, value, units, len + 1, &len);
        for (size_t i = 0; i < len; i++)
            out->len += put_unit(out->at + out->len, units[i]);
    }
    free(units);
    return units != NULL && more != NULL;
}

/* Whether the octets have the character U+FFFD, by which Node writes a surrogate that stands alone. */
static bool has_replaced(const octets *it)
{
    static const uint8_t replaced[] = { 0xef, 0xbf, 0xbd };
    for (size_t i = 0; i + sizeof replaced <= it->len; i++) {
        const uint8_t *at = memchr(it->at + i, replaced[0], it->len - i - 2);
        if (at == NULL)
            return false;
        i = (size_t)(at - it->at);
        if (memcmp(at, replaced, sizeof replaced) == 0)
            return true;
    }
    return false;
}

/* Whether a surrogate stands alone among these code units. */
static bool is_lone(const char16_t *units, size_t len)
{
    for (size_t i = 0; i < len; i++) {
        bool is_pair = i + 1 < len && units[i] >= 0xd800 && units[i] < 0xdc00 && units[i + 1] >= 0xdc00 && units[i + 1] < 0xe000;
        if (!is_pair && units[i] >= 0xd800 && units[i] < 0xe000)
            return true;
        i += is_pair;
    }
    return false;
}

/* Whether a surrogate stands alone in a text; memory that is refused is told by *is_refused. */
static bool has_lone(napi_env env, napi_value value, bool *is_refused)
{
    size_t len = 0;
    napi_get_value_string_utf16(env, value, NULL, 0, &len);
    char16_t *units = malloc((len + 1) * sizeof *units);
    *is_refused = units == NULL;
    if (units == NULL)
        return false;
    napi_get_value_string_utf16(env, value, units, len + 1, &len);
    bool result = is_lone(units, len);
    free(units);
    return result;
}

/* The octets of a text. */
static bool read_text(napi_env env, napi_value value, octets *out)
{
    bool is_refused = false;
    napi_get_value_string_utf8(env, value, NULL, 0, &out->len);
    out->at = malloc(out->len + 1);
    if (out->at == NULL)
        return lack_memory(env), false;
    napi_get_value_string_utf8(env, value, (char *)out->at, out->len + 1, &out->len);
    if (!has_replaced(out) || (!has_lone(env, value, &is_refused) && !is_refused))
        return true;
    if (!is_refused && read_units(env, value, out))
        return true;
    free(out->at);
    return lack_memory(env), false;
}

/* The octets of a text or of a Uint8Array. Where it is neither, or memory is refused, that is thrown. */
static bool read_octets(napi_env env, napi_value value, octets *out)
{
    napi_typedarray_type kind = napi_int8_array;
    napi_valuetype type = napi_undefined;
    bool is_array = false;
    void *at = NULL;
    if (napi_typeof(env, value, &type) == napi_ok && type == napi_string)
        return read_text(env, value, out);
    if (napi_is_typedarray(env, value, &is_array) == napi_ok && is_array)
        napi_get_typedarray_info(env, value, &kind, &out->len, &at, NULL, NULL);
    if (kind != napi_uint8_array)
        return mistake(env, "a string or a Uint8Array is wanted"), false;
    out->at = malloc(out->len + 1);
    if (out->at == NULL)
        return lack_memory(env), false;
    if (out->len != 0)
        memcpy(out->at, at, out->len);
    return true;
}

/* The octets of so many texts or Uint8Arrays. Where that can't be, it is thrown, and nothing is to be freed. */
static bool read_each(napi_env env, const napi_value *values, octets *out, size_t count)
{
    for (size_t i = 0; i < count; i++) {
        if (read_octets(env, values[i], &out[i]))
            continue;
        while (i-- > 0)
            free(out[i].at);
        return false;
    }
    return true;
}

static held *held_of(napi_env env, napi_value value)
{
    void *at = NULL;
    if (napi_get_value_external(env, value, &at) != napi_ok)
        mistake(env, "a validator is wanted");
    return at;
}

static rule *rule_of(napi_env env, napi_value value)
{
    void *at = NULL;
    if (napi_get_value_external(env, value, &at) != napi_ok)
        mistake(env, "an access rule is wanted");
    return at;
}

static fow_once *once_of(napi_env env, napi_value value)
{
    void *at = NULL;
    if (napi_get_value_external(env, value, &at) != napi_ok)
        mistake(env, "a memory of tokens is wanted");
    return at;
}

static proofs *proofs_of(napi_env env, napi_value value)
{
    void *at = NULL;
    if (napi_get_value_external(env, value, &at) != napi_ok)
        mistake(env, "a policy for proofs is wanted");
    return at;
}

/* Keeps a token's octets in the validator, since fow_payload reads them again. */
static bool keep_token(napi_env env, held *it, napi_value value)
{
    octets token;
    if (!read_octets(env, value, &token))
        return false;
    free(it->token);
    it->token = token.at;
    it->len = token.len;
    return true;
}

/* The words of a call, and the validator that the first of them is; NULL where there is none, and then that is thrown. */
static held *arguments(napi_env env, napi_callback_info info, size_t wanted, napi_value *out)
{
    size_t count = wanted;
    napi_get_cb_info(env, info, &count, out, NULL, NULL);
    return count < wanted ? (held *)mistake(env, "an argument is missing") : held_of(env, out[0]);
}

/* The numbers of an array to which a report is written; NULL where it isn't such an array, and then that is thrown. */
static double *numbers_of(napi_env env, napi_value value)
{
    napi_typedarray_type kind = napi_int8_array;
    size_t len = 0;
    void *at = NULL;
    napi_get_typedarray_info(env, value, &kind, &len, &at, NULL, NULL);
    return kind == napi_float64_array && len == NUMBERS ? at : (double *)mistake(env, "a report is wanted");
}

static void put_report(double *out, const fow_report *from)
{
    const double all[NUMBERS] = { from->verdict, from->fault, from->part, from->signature, from->key, from->claim, (double)from->work,
        (double)from->tries };
    memcpy(out, all, sizeof all);
}

/* A moment: a number that index.js has looked at, or a bigint of 64 bits. */
static bool read_moment(napi_env env, napi_value value, int64_t *now)
{
    bool is_whole = false;
    if (napi_get_value_bigint_int64(env, value, now, &is_whole) == napi_ok)
        return is_whole;
    return napi_get_value_int64(env, value, now) == napi_ok;
}

/* What a function wrote, as a text; undefined where it wrote none. */
static napi_value text_of(napi_env env, uint32_t status, uint8_t *room, size_t len)
{
    napi_value result = NULL;
    if (status == FOW_OK)
        napi_create_string_utf8(env, (char *)room, len, &result);
    free(room);
    return status == FOW_OUT_OF_MEMORY ? lack_memory(env) : result;
}

/* open(policy, keys): a validator, or the number of a fault. */
static napi_value open_validator(napi_env env, napi_callback_info info)
{
    napi_value given[2], result = NULL;
    size_t count = 2;
    octets policy, keys;
    uint32_t fault = FOW_NO_FAULT;
    int64_t now = 0;
    napi_get_cb_info(env, info, &count, given, NULL, NULL);
    if (count < 2)
        return mistake(env, "an argument is missing");
    if (!read_octets(env, given[0], &policy))
        return NULL;
    if (!read_octets(env, given[1], &keys))
        return free(policy.at), NULL;
    held *it = calloc(1, sizeof *it);
    uint32_t status = it == NULL ? FOW_OUT_OF_MEMORY
                                 : fow_open(&it->validator, policy.at, policy.len, keys.at, keys.len, &fault);
    free(policy.at);
    free(keys.at);
    if (status == FOW_OK && napi_create_external(env, it, finalize, NULL, &result) == napi_ok) {
        it->told = (int64_t)(policy.len + 2 * keys.len + 32768);
        napi_adjust_external_memory(env, it->told, &now);
        return result;
    }
    if (it != NULL)
        close_held(it);
    free(it);
    return status == FOW_REFUSED ? number(env, fault) : lack_memory(env);
}

/* remember(validator, tokens, octets): remembers so many tokens of so many octets from now on. */
static napi_value remember(napi_env env, napi_callback_info info)
{
    napi_value given[3];
    uint32_t tokens = 0, most = 0;
    held *it = arguments(env, info, 3, given);
    if (it == NULL)
        return NULL;
    if (napi_get_value_uint32(env, given[1], &tokens) != napi_ok || napi_get_value_uint32(env, given[2], &most) != napi_ok)
        return mistake(env, "two numbers are wanted");
    return fow_remember(&it->validator, tokens, most) == FOW_OK ? NULL : lack_memory(env);
}

/* remembered(validator): whether the last verdict came out of the memory. */
static napi_value remembered(napi_env env, napi_callback_info info)
{
    napi_value given[1], result = NULL;
    held *it = arguments(env, info, 1, given);
    if (it != NULL)
        napi_get_boolean(env, fow_remembered(&it->validator), &result);
    return result;
}

/* judge(validator, token, now, report): the verdict; the report is written to. */
static napi_value judge(napi_env env, napi_callback_info info)
{
    napi_value given[4];
    int64_t now = 0;
    double *out;
    fow_report report = { 0 };
    held *it = arguments(env, info, 4, given);
    if (it == NULL || (out = numbers_of(env, given[3])) == NULL)
        return NULL;
    if (!read_moment(env, given[2], &now))
        return mistake(env, "a moment is wanted");
    if (!keep_token(env, it, given[1]))
        return NULL;
    uint32_t verdict = fow_judge(&it->validator, it->token, it->len, now, &report);
    put_report(out, &report);
    return number(env, verdict);
}

/* payload(validator): that of the token that was accepted last; undefined where the last verdict was no acceptance. */
static napi_value payload(napi_env env, napi_callback_info info)
{
    napi_value given[1];
    size_t len = 0;
    held *it = arguments(env, info, 1, given);
    if (it == NULL || it->token == NULL)
        return NULL;
    uint8_t *room = malloc(it->len + 1);
    if (room == NULL)
        return lack_memory(env);
    uint32_t status = fow_accepted_payload(&it->validator, room, it->len + 1, &len);
    return text_of(env, status, room, len);
}

/* header(validator, token, signature): undefined where there is none. */
static napi_value header(napi_env env, napi_callback_info info)
{
    napi_value given[3];
    size_t len = 0;
    uint32_t signature = 0;
    octets token;
    held *it = arguments(env, info, 3, given);
    if (it == NULL || !read_octets(env, given[1], &token))
        return NULL;
    napi_get_value_uint32(env, given[2], &signature);
    uint8_t *room = malloc(token.len + 1);
    uint32_t status = room == NULL ? FOW_OUT_OF_MEMORY
                                   : fow_unverified_header(&it->validator, token.at, token.len, signature, room, token.len + 1, &len);
    free(token.at);
    return text_of(env, status, room, len);
}

/* named(validator, token): the issuer that a token names; null where it names none, undefined where it is no token. */
static napi_value named(napi_env env, napi_callback_info info)
{
    napi_value given[2], none = NULL;
    size_t len = 0;
    octets token;
    held *it = arguments(env, info, 2, given);
    if (it == NULL || !read_octets(env, given[1], &token))
        return NULL;
    uint8_t *room = malloc(token.len + 1);
    uint32_t status = room == NULL ? FOW_OUT_OF_MEMORY : fow_unverified_issuer(&it->validator, token.at, token.len, room, token.len + 1, &len);
    free(token.at);
    if (status == FOW_UNNAMED)
        napi_get_null(env, &none);
    napi_value text = text_of(env, status, room, len);
    return status == FOW_UNNAMED ? none : text;
}

/* soleIssuer(validator): undefined where the policy allows any, or several. It stands in a policy, which has at most 65,536 octets. */
static napi_value sole_issuer(napi_env env, napi_callback_info info)
{
    napi_value given[1];
    size_t len = 0;
    held *it = arguments(env, info, 1, given);
    if (it == NULL)
        return NULL;
    uint8_t *room = malloc(65536);
    uint32_t status = room == NULL ? FOW_OUT_OF_MEMORY : fow_sole_issuer(&it->validator, room, 65536, &len);
    return text_of(env, status, room, len);
}

/* tokenLimit(validator): the greatest number of octets of a token. */
static napi_value token_limit(napi_env env, napi_callback_info info)
{
    napi_value given[1];
    uint32_t limit = 0;
    held *it = arguments(env, info, 1, given);
    if (it == NULL || fow_token_limit(&it->validator, &limit) != FOW_OK)
        return NULL;
    return number(env, limit);
}

/* isPublic(validator): whether everyone may read the keys. */
static napi_value is_public(napi_env env, napi_callback_info info)
{
    napi_value given[1], result = NULL;
    held *it = arguments(env, info, 1, given);
    if (it != NULL)
        napi_get_boolean(env, fow_documents_are_public(&it->validator), &result);
    return result;
}

/* textMember(document, name): the text of a member of a JSON object; undefined where there is none. */
static napi_value text_member(napi_env env, napi_callback_info info)
{
    napi_value given[2];
    octets document, name;
    size_t count = 2, len = 0;
    napi_get_cb_info(env, info, &count, given, NULL, NULL);
    if (count < 2)
        return mistake(env, "an argument is missing");
    if (!read_octets(env, given[0], &document))
        return NULL;
    if (!read_octets(env, given[1], &name))
        return free(document.at), NULL;
    uint8_t *room = malloc(document.len + 1);
    uint32_t status = room == NULL ? FOW_OUT_OF_MEMORY
                                   : fow_text_member(document.at, document.len, name.at, name.len, room, document.len + 1, &len);
    free(document.at);
    free(name.at);
    return text_of(env, status, room, len);
}

/* Issues claims in as much room as the token needs. */
static uint32_t issue_into(held *it, const uint32_t *how, const octets *typ, const octets *claims, octets *out, fow_report *report)
{
    uint32_t status = FOW_TOO_SHORT;
    for (size_t room = 2 * claims->len + 2 * typ->len + 1024; status == FOW_TOO_SHORT; room *= 2) {
        uint8_t *more = realloc(out->at, room);
        if (more == NULL)
            return FOW_OUT_OF_MEMORY;
        out->at = more;
        status = fow_issue(&it->validator, how[0], how[1], how[2], typ->at, typ->len, claims->at, claims->len, out->at, room, &out->len,
            report);
    }
    return status;
}

/* issue(validator, alg, form, key, typ, claims, report): a token, or undefined where the report says why there is none. */
static napi_value issue(napi_env env, napi_callback_info info)
{
    napi_value given[7];
    uint32_t how[3] = { 0 };
    octets typ, claims, token = { NULL, 0 };
    fow_report report = { 0 };
    double *out;
    held *it = arguments(env, info, 7, given);
    if (it == NULL || (out = numbers_of(env, given[6])) == NULL || !read_octets(env, given[4], &typ))
        return NULL;
    if (!read_octets(env, given[5], &claims))
        return free(typ.at), NULL;
    for (int i = 0; i < 3; i++)
        napi_get_value_uint32(env, given[i + 1], &how[i]);
    uint32_t status = issue_into(it, how, &typ, &claims, &token, &report);
    free(typ.at);
    free(claims.at);
    report.verdict = status;
    put_report(out, &report);
    return text_of(env, status, token.at, token.len);
}

/* An array of three numbers. */
static napi_value three(napi_env env, double first, double second, double third)
{
    const double all[3] = { first, second, third };
    napi_value result = NULL;
    napi_create_array_with_length(env, 3, &result);
    for (uint32_t i = 0; i < 3; i++)
        napi_set_element(env, result, i, number(env, all[i]));
    return result;
}

/* state(validator, n): [state, fault, key], or undefined. */
static napi_value state(napi_env env, napi_callback_info info)
{
    napi_value given[2];
    uint32_t n = 0;
    fow_state said;
    held *it = arguments(env, info, 2, given);
    if (it == NULL)
        return NULL;
    napi_get_value_uint32(env, given[1], &n);
    if (fow_state_of(&it->validator, n, &said) != FOW_OK)
        return NULL;
    return three(env, said.state, said.fault, said.key);
}

/* tried(validator, n): [signature, key, cost], or undefined. */
static napi_value tried(napi_env env, napi_callback_info info)
{
    napi_value given[2];
    uint32_t n = 0;
    fow_try said;
    held *it = arguments(env, info, 2, given);
    if (it == NULL)
        return NULL;
    napi_get_value_uint32(env, given[1], &n);
    if (fow_try_of(&it->validator, n, &said) != FOW_OK)
        return NULL;
    return three(env, said.signature, said.key, (double)said.cost);
}

/* refusedClaim(validator): undefined where no claim was found missing by its name. A name stands in a policy, which has at most 65,536 octets. */
static napi_value refused_claim(napi_env env, napi_callback_info info)
{
    napi_value given[1];
    size_t len = 0;
    held *it = arguments(env, info, 1, given);
    if (it == NULL)
        return NULL;
    uint8_t *room = malloc(65536);
    if (room == NULL)
        return lack_memory(env);
    uint32_t status = fow_refused_claim(&it->validator, room, 65536, &len);
    return text_of(env, status, room, len);
}

/* refusedMember(policy): undefined where the policy is refused for none. */
static napi_value refused_member(napi_env env, napi_callback_info info)
{
    napi_value given[1];
    octets policy;
    size_t count = 1, len = 0;
    napi_get_cb_info(env, info, &count, given, NULL, NULL);
    if (count < 1 || !read_octets(env, given[0], &policy))
        return NULL;
    uint8_t *room = malloc(policy.len + 1);
    uint32_t status = room == NULL ? FOW_OUT_OF_MEMORY : fow_refused_member(policy.at, policy.len, room, policy.len + 1, &len);
    free(policy.at);
    return text_of(env, status, room, len);
}

/* openAccess(rule): an access rule, or the number of a fault. */
static napi_value open_access(napi_env env, napi_callback_info info)
{
    napi_value given[1], result = NULL;
    size_t count = 1;
    octets document;
    uint32_t fault = FOW_NO_FAULT;
    int64_t now = 0;
    napi_get_cb_info(env, info, &count, given, NULL, NULL);
    if (count < 1)
        return mistake(env, "an argument is missing");
    if (!read_octets(env, given[0], &document))
        return NULL;
    rule *it = calloc(1, sizeof *it);
    uint32_t status = it == NULL ? FOW_OUT_OF_MEMORY : fow_access_open(&it->access, document.at, document.len, &fault);
    free(document.at);
    if (status == FOW_OK && napi_create_external(env, it, finalize_rule, NULL, &result) == napi_ok) {
        it->told = (int64_t)(8 * document.len + 1024);
        napi_adjust_external_memory(env, it->told, &now);
        return result;
    }
    if (it != NULL)
        fow_access_close(&it->access);
    free(it);
    return status == FOW_REFUSED ? number(env, fault) : lack_memory(env);
}

/* refusedInAccess(rule): the member or the claim for which it is refused; undefined where it is refused for none. */
static napi_value refused_in_access(napi_env env, napi_callback_info info)
{
    napi_value given[1];
    octets document;
    size_t count = 1, len = 0;
    napi_get_cb_info(env, info, &count, given, NULL, NULL);
    if (count < 1 || !read_octets(env, given[0], &document))
        return NULL;
    uint8_t *room = malloc(document.len + 1);
    uint32_t status = room == NULL ? FOW_OUT_OF_MEMORY : fow_access_refused(document.at, document.len, room, document.len + 1, &len);
    free(document.at);
    return text_of(env, status, room, len);
}

/* scope(access, n): a scope that the rule asks for; undefined where there is none. It stands in a rule, which has at most 65,536 octets. */
static napi_value scope(napi_env env, napi_callback_info info)
{
    napi_value given[2];
    size_t count = 2, len = 0;
    uint32_t n = 0;
    rule *it;
    napi_get_cb_info(env, info, &count, given, NULL, NULL);
    if (count < 2)
        return mistake(env, "an argument is missing");
    if ((it = rule_of(env, given[0])) == NULL)
        return NULL;
    napi_get_value_uint32(env, given[1], &n);
    uint8_t *room = malloc(65536);
    uint32_t status = room == NULL ? FOW_OUT_OF_MEMORY : fow_access_scope(&it->access, n, room, 65536, &len);
    return text_of(env, status, room, len);
}

/* denied(validator, access): why the rule denies the token that was judged last; 0 where the claims meet it. Everything else is thrown. */
static napi_value denied(napi_env env, napi_callback_info info)
{
    napi_value given[2];
    uint32_t denial = FOW_NO_FAULT;
    rule *access;
    held *it = arguments(env, info, 2, given);
    if (it == NULL || (access = rule_of(env, given[1])) == NULL)
        return NULL;
    uint32_t status = fow_denied(&it->validator, &access->access, &denial);
    if (status == FOW_OK)
        return number(env, FOW_NO_FAULT);
    return status == FOW_DENIED ? number(env, denial) : fail(env, NULL, "no token is accepted, or no access rule is open");
}

/* What came of an expectation: 0 where it is met, and else its number of enum fow_unmet. Everything else is thrown. */
static napi_value said_of(napi_env env, uint32_t status, uint32_t unmet)
{
    if (status == FOW_OK)
        return number(env, FOW_UNMET_NOTHING);
    if (status == FOW_NOT_EXPECTED)
        return number(env, unmet);
    if (status == FOW_REFUSED)
        return mistake(env, "what is expected, and the claim's name, have to be texts without lone surrogates");
    return status == FOW_OUT_OF_MEMORY ? lack_memory(env) : fail(env, NULL, "no token is accepted");
}

/* The validator of a call expect..(validator, claim, text, signature), and the octets of the claim's name and of the text, which are to be freed; NULL where
 * they aren't there, and then that is thrown. */
static held *expectation(napi_env env, napi_callback_info info, octets *claim, octets *text, uint32_t *signature)
{
    napi_value given[4];
    held *it = arguments(env, info, 4, given);
    if (it == NULL || napi_get_value_uint32(env, given[3], signature) != napi_ok || !read_octets(env, given[1], claim))
        return NULL;
    if (read_octets(env, given[2], text))
        return it;
    free(claim->at);
    return NULL;
}

/* expectText(validator, claim, text, signature): holds a text against a claim of the token that was judged last; see said_of. */
static napi_value expect_text(napi_env env, napi_callback_info info)
{
    octets claim, text;
    uint32_t signature = 0, unmet = FOW_UNMET_OTHER;
    held *it = expectation(env, info, &claim, &text, &signature);
    if (it == NULL)
        return NULL;
    uint32_t status = fow_expect_text(&it->validator, claim.at, claim.len, text.at, text.len, &unmet);
    free(claim.at);
    free(text.at);
    return said_of(env, status, unmet);
}

/* expectHalfHash(validator, claim, text, signature): holds the half of a text's hash against it, by the algorithm of that signature; see said_of. */
static napi_value expect_half_hash(napi_env env, napi_callback_info info)
{
    octets claim, text;
    uint32_t signature = 0, unmet = FOW_UNMET_OTHER;
    held *it = expectation(env, info, &claim, &text, &signature);
    if (it == NULL)
        return NULL;
    uint32_t status = fow_expect_half_hash(&it->validator, it->token, it->len, signature, claim.at, claim.len, text.at, text.len, &unmet);
    free(claim.at);
    free(text.at);
    return said_of(env, status, unmet);
}

/* deniedName(validator, access): the scope or the claim of a denial. It stands in a rule, which has at most 65,536 octets. */
static napi_value denied_name(napi_env env, napi_callback_info info)
{
    napi_value given[2];
    size_t len = 0;
    rule *access;
    held *it = arguments(env, info, 2, given);
    if (it == NULL || (access = rule_of(env, given[1])) == NULL)
        return NULL;
    uint8_t *room = malloc(65536);
    uint32_t status = room == NULL ? FOW_OUT_OF_MEMORY : fow_denied_name(&it->validator, &access->access, room, 65536, &len);
    return text_of(env, status, room, len);
}

static napi_value close_access(napi_env env, napi_callback_info info)
{
    napi_value given[1];
    size_t count = 1;
    rule *it;
    napi_get_cb_info(env, info, &count, given, NULL, NULL);
    if (count == 1 && (it = rule_of(env, given[0])) != NULL)
        fow_access_close(&it->access);
    return NULL;
}

/* openOnce(tokens, share, opened): a memory of so many tokens that count once, of each owner's at most that share, opened at that moment. index.js has looked at the
 * numbers. */
static napi_value open_once(napi_env env, napi_callback_info info)
{
    napi_value given[3], result = NULL;
    uint32_t tokens = 0, share = 0;
    int64_t opened = 0;
    size_t count = 3;
    napi_get_cb_info(env, info, &count, given, NULL, NULL);
    if (count < 3 || napi_get_value_uint32(env, given[0], &tokens) != napi_ok || napi_get_value_uint32(env, given[1], &share) != napi_ok
        || !read_moment(env, given[2], &opened) || opened < 0)
        return mistake(env, "a number is wanted");
    fow_once *it = calloc(1, sizeof *it);
    if (it == NULL)
        return lack_memory(env);
    if (fow_once_open(it, tokens, share, (uint64_t)opened) == FOW_OK && napi_create_external(env, it, finalize_once, NULL, &result) == napi_ok)
        return result;
    fow_once_close(it);
    free(it);
    return lack_memory(env);
}

/* taken(once, validator, now): what became of the token that was accepted last, at the moment of that verdict, by its number of enum fow_taken. Everything
 * else is thrown. */
static napi_value taken(napi_env env, napi_callback_info info)
{
    napi_value given[3];
    uint32_t said = FOW_TAKEN_NOTHING;
    int64_t now = 0;
    size_t count = 3;
    fow_once *once;
    held *it;
    napi_get_cb_info(env, info, &count, given, NULL, NULL);
    if (count < 3)
        return mistake(env, "an argument is missing");
    if ((once = once_of(env, given[0])) == NULL || (it = held_of(env, given[1])) == NULL)
        return NULL;
    if (!read_moment(env, given[2], &now))
        return mistake(env, "a moment is wanted");
    uint32_t status = fow_once_take(once, &it->validator, now, &said);
    if (status == FOW_OK || status == FOW_REFUSED)
        return number(env, said);
    return status == FOW_OUT_OF_MEMORY ? lack_memory(env) : fail(env, NULL, "no token is accepted, or no memory of tokens is open");
}

static napi_value close_once(napi_env env, napi_callback_info info)
{
    napi_value given[1];
    size_t count = 1;
    fow_once *it;
    napi_get_cb_info(env, info, &count, given, NULL, NULL);
    if (count == 1 && (it = once_of(env, given[0])) != NULL)
        fow_once_close(it);
    return NULL;
}

/* openProofs(policy): a policy for proofs of possession, or the number of a fault. */
static napi_value open_proofs(napi_env env, napi_callback_info info)
{
    napi_value given[1], result = NULL;
    size_t count = 1;
    octets policy;
    uint32_t fault = FOW_NO_FAULT;
    int64_t now = 0;
    napi_get_cb_info(env, info, &count, given, NULL, NULL);
    if (count < 1)
        return mistake(env, "an argument is missing");
    if (!read_octets(env, given[0], &policy))
        return NULL;
    proofs *it = calloc(1, sizeof *it);
    uint32_t status = it == NULL ? FOW_OUT_OF_MEMORY : fow_possession_open(&it->possession, policy.at, policy.len, &fault);
    free(policy.at);
    if (status == FOW_OK && napi_create_external(env, it, finalize_proofs, NULL, &result) == napi_ok) {
        it->told = (int64_t)(8 * policy.len + 1024);
        napi_adjust_external_memory(env, it->told, &now);
        return result;
    }
    if (it != NULL)
        fow_possession_close(&it->possession);
    free(it);
    return status == FOW_REFUSED ? number(env, fault) : lack_memory(env);
}

/* proofFault(proofs, validator, proof, method, uri, nonce, now): why the proof is none for this request with the token that was accepted last, at the moment of that verdict;
 * 0 where it is one. An empty nonce is none. Everything else is thrown. */
static napi_value proof_fault(napi_env env, napi_callback_info info)
{
    enum { PROOF, METHOD, URI, NONCE, TEXTS };
    napi_value given[TEXTS + 3];
    octets it[TEXTS];
    uint32_t fault = FOW_NO_FAULT;
    int64_t now = 0;
    size_t count = TEXTS + 3;
    proofs *by;
    held *beside;
    napi_get_cb_info(env, info, &count, given, NULL, NULL);
    if (count < TEXTS + 3)
        return mistake(env, "an argument is missing");
    if ((by = proofs_of(env, given[0])) == NULL || (beside = held_of(env, given[1])) == NULL)
        return NULL;
    if (!read_moment(env, given[TEXTS + 2], &now))
        return mistake(env, "a moment is wanted");
    if (!read_each(env, given + 2, it, TEXTS))
        return NULL;
    uint32_t status = fow_possession_judge(&by->possession, &beside->validator, it[PROOF].at, it[PROOF].len, it[METHOD].at, it[METHOD].len, it[URI].at,
        it[URI].len, it[NONCE].at, it[NONCE].len, beside->token, beside->len, now, &fault);
    for (size_t i = 0; i < TEXTS; i++)
        free(it[i].at);
    if (status == FOW_OK)
        return number(env, FOW_NO_FAULT);
    if (status == FOW_REFUSED)
        return number(env, fault);
    return status == FOW_OUT_OF_MEMORY ? lack_memory(env) : fail(env, NULL, "no token is accepted, or no policy for proofs is open");
}

/* proofFresh(proofs, secret, period, now): what is said of the nonce of the proof that was accepted last. */
static napi_value proof_fresh(napi_env env, napi_callback_info info)
{
    napi_value given[4];
    size_t count = 4, len = 0;
    void *secret = NULL;
    uint32_t period = 0;
    int64_t now = 0;
    proofs *it;
    napi_get_cb_info(env, info, &count, given, NULL, NULL);
    if (count < 4)
        return mistake(env, "an argument is missing");
    if ((it = proofs_of(env, given[0])) == NULL)
        return NULL;
    if (napi_get_typedarray_info(env, given[1], NULL, &len, &secret, NULL, NULL) != napi_ok || !read_moment(env, given[3], &now))
        return mistake(env, "a secret and a moment are wanted");
    napi_get_value_uint32(env, given[2], &period);
    return number(env, fow_possession_fresh(&it->possession, len == 0 ? (const uint8_t *)"" : secret, len, period, now));
}

/* proofAlgs(proofs, room): the names of the algorithms of the policy, which have fewer octets than its document. */
static napi_value proof_algs(napi_env env, napi_callback_info info)
{
    napi_value given[2], result = NULL;
    size_t count = 2, written = 0;
    uint32_t room = 0;
    proofs *it;
    napi_get_cb_info(env, info, &count, given, NULL, NULL);
    if (count < 2)
        return mistake(env, "an argument is missing");
    if ((it = proofs_of(env, given[0])) == NULL)
        return NULL;
    napi_get_value_uint32(env, given[1], &room);
    uint8_t *out = malloc((size_t)room + 1);
    if (out == NULL)
        return lack_memory(env);
    if (fow_possession_algs(&it->possession, out, room, &written) == FOW_OK)
        napi_create_string_latin1(env, (const char *)out, written, &result);
    else
        fail(env, NULL, "no policy for proofs is open");
    free(out);
    return result;
}

/* proofTaken(once, proofs, now): what became of the proof that was accepted last, as taken. */
static napi_value proof_taken(napi_env env, napi_callback_info info)
{
    napi_value given[3];
    uint32_t said = FOW_TAKEN_NOTHING;
    int64_t now = 0;
    size_t count = 3;
    fow_once *once;
    proofs *it;
    napi_get_cb_info(env, info, &count, given, NULL, NULL);
    if (count < 3)
        return mistake(env, "an argument is missing");
    if ((once = once_of(env, given[0])) == NULL || (it = proofs_of(env, given[1])) == NULL)
        return NULL;
    if (!read_moment(env, given[2], &now))
        return mistake(env, "a moment is wanted");
    uint32_t status = fow_possession_take(&it->possession, once, now, &said);
    if (status == FOW_OK || status == FOW_REFUSED)
        return number(env, said);
    return status == FOW_OUT_OF_MEMORY ? lack_memory(env) : fail(env, NULL, "no proof is accepted, or no memory of tokens is open");
}

static napi_value close_proofs(napi_env env, napi_callback_info info)
{
    napi_value given[1];
    size_t count = 1;
    proofs *it;
    napi_get_cb_info(env, info, &count, given, NULL, NULL);
    if (count == 1 && (it = proofs_of(env, given[0])) != NULL)
        fow_possession_close(&it->possession);
    return NULL;
}

/* shown(validator, proofs, der): how the token that was accepted last is bound, by the sum of enum fow_binding, where each way is shown by the proof that is kept and this
 * certificate; else the number of the fault. `proofs` is null where there is none, and an empty `der` is none. Everything else is thrown. */
static napi_value shown(napi_env env, napi_callback_info info)
{
    napi_value given[3];
    octets der;
    uint32_t ways = FOW_BOUND_NOT, fault = FOW_NO_FAULT;
    napi_valuetype kind = napi_undefined;
    fow_possession none = FOW_POSSESSION_INIT, *possession = &none;
    held *it = arguments(env, info, 3, given);
    if (it == NULL || napi_typeof(env, given[1], &kind) != napi_ok)
        return NULL;
    if (kind != napi_null) {
        proofs *kept = proofs_of(env, given[1]);
        if (kept == NULL)
            return NULL;
        possession = &kept->possession;
    }
    if (!read_octets(env, given[2], &der))
        return NULL;
    uint32_t status = fow_shown(&it->validator, possession, der.at, der.len, &ways, &fault);
    free(der.at);
    if (status == FOW_OK || status == FOW_REFUSED)
        return number(env, status == FOW_OK ? ways : fault);
    return status == FOW_OUT_OF_MEMORY ? lack_memory(env) : fail(env, NULL, "no token is accepted");
}

static napi_value fault_name(napi_env env, napi_callback_info info)
{
    napi_value given[1], result = NULL;
    uint32_t fault = 0;
    size_t count = 1;
    napi_get_cb_info(env, info, &count, given, NULL, NULL);
    if (count == 1)
        napi_get_value_uint32(env, given[0], &fault);
    napi_create_string_utf8(env, fow_fault_name(fault), NAPI_AUTO_LENGTH, &result);
    return result;
}

static napi_value close_validator(napi_env env, napi_callback_info info)
{
    napi_value given[1];
    held *it = arguments(env, info, 1, given);
    if (it != NULL)
        close_held(it);
    return NULL;
}

/* The numbers of the interface that this file was compiled for and that the library has, and the library's version. */
static void put_numbers(napi_env env, napi_value exports)
{
    napi_value version = NULL;
    napi_create_string_utf8(env, fow_version(), NAPI_AUTO_LENGTH, &version);
    napi_set_named_property(env, exports, "madeFor", number(env, FOW_ABI));
    napi_set_named_property(env, exports, "loaded", number(env, fow_abi()));
    napi_set_named_property(env, exports, "version", version);
}

/* Puts a function among the exports, by its name. */
static void put(napi_env env, napi_value exports, const named_call *it)
{
    napi_value function = NULL;
    napi_create_function(env, it->name, NAPI_AUTO_LENGTH, it->call, NULL, &function);
    napi_set_named_property(env, exports, it->name, function);
}

NAPI_MODULE_INIT()
{
    static const named_call all[] = {
        { "open", open_validator }, { "judge", judge }, { "payload", payload }, { "header", header },
        { "issue", issue }, { "state", state }, { "tried", tried }, { "refusedClaim", refused_claim }, { "refusedMember", refused_member },
        { "faultName", fault_name }, { "close", close_validator }, { "openAccess", open_access }, { "refusedInAccess", refused_in_access },
        { "remember", remember }, { "remembered", remembered }, { "scope", scope }, { "denied", denied }, { "deniedName", denied_name }, { "closeAccess", close_access },
        { "expectText", expect_text }, { "expectHalfHash", expect_half_hash },
        { "named", named }, { "soleIssuer", sole_issuer }, { "tokenLimit", token_limit }, { "isPublic", is_public }, { "textMember", text_member },
        { "openOnce", open_once }, { "taken", taken }, { "closeOnce", close_once },
        { "openProofs", open_proofs }, { "proofFault", proof_fault }, { "proofTaken", proof_taken }, { "proofFresh", proof_fresh }, { "proofAlgs", proof_algs }, { "closeProofs", close_proofs },
        { "shown", shown },
    };
    for (size_t i = 0; i < sizeof all / sizeof *all; i++)
        put(env, exports, &all[i]);
    for (const named_call *it = around; it->name != NULL; it++)
        put(env, exports, it);
    put_numbers(env, exports);
    return exports;
}
