/* The token of a request, what is answered to it, and when keys by URL are fetched, and from where: the functions of fowharimu.h for Node, which renewal.js,
 * requests.js and urls.js call, and nothing else. Texts are of one octet a character, as node:http gives those of headers. */
#define NAPI_VERSION 8
#include "around.h"
#include <fowharimu.h>
#include <stdlib.h>
#include <string.h>

/* At most so many octets has a challenge beside what it quotes, and the URL of metadata beside its issuer. */
enum { MOST_BESIDE = 64, MOST_BESIDE_ISSUER = 64, MOST_ARGUMENTS = 6 };

static napi_value mistake(napi_env env, const char *what)
{
    napi_throw_type_error(env, "ERR_INVALID_ARG_TYPE", what);
    return NULL;
}

static napi_value lack_memory(napi_env env)
{
    napi_throw_error(env, "ERR_MEMORY_ALLOCATION_FAILED", "an allocation was refused");
    return NULL;
}

static napi_value truth(napi_env env, bool value)
{
    napi_value result = NULL;
    napi_get_boolean(env, value, &result);
    return result;
}

static napi_value number(napi_env env, double value)
{
    napi_value result = NULL;
    napi_create_double(env, value, &result);
    return result;
}

/* An array of numbers. */
static napi_value numbers(napi_env env, const uint64_t *said, uint32_t count)
{
    napi_value result = NULL;
    napi_create_array_with_length(env, count, &result);
    for (uint32_t i = 0; i < count; i++)
        napi_set_element(env, result, i, number(env, (double)said[i]));
    return result;
}

/* The octets of a text, at an address that isn't NULL and is to be freed; NULL where it is none, and an exception is thrown. A character that no octet has
 * is 255, which no token, realm, scope or URL may have. */
static uint8_t *octets_of(napi_env env, napi_value value, size_t *len)
{
    if (napi_get_value_string_utf16(env, value, NULL, 0, len) != napi_ok) {
        mistake(env, "a text is needed");
        return NULL;
    }
    char16_t *units = malloc((*len + 1) * sizeof *units);
    uint8_t *octets = malloc(*len + 1);
    if (units == NULL || octets == NULL) {
        free(units);
        free(octets);
        lack_memory(env);
        return NULL;
    }
    napi_get_value_string_utf16(env, value, units, *len + 1, len);
    for (size_t i = 0; i < *len; i++)
        octets[i] = units[i] > 0xff ? 0xff : (uint8_t)units[i];
    free(units);
    return octets;
}

static napi_value text_of(napi_env env, const uint8_t *octets, size_t len)
{
    napi_value result = NULL;
    napi_create_string_latin1(env, (const char *)octets, len, &result);
    return result;
}

/* The arguments, of which there are so many; false where one is missing, and an exception is thrown. */
static bool arguments(napi_env env, napi_callback_info info, size_t wanted, napi_value *given)
{
    size_t count = MOST_ARGUMENTS;
    napi_get_cb_info(env, info, &count, given, NULL, NULL);
    if (count < wanted)
        mistake(env, "an argument is missing");
    return count >= wanted;
}

/* credentials(schemes, value): the status of fow_credentials, the scheme, and the token's places in the value of the one header Authorization. */
static napi_value credentials(napi_env env, napi_callback_info info)
{
    napi_value given[MOST_ARGUMENTS];
    uint32_t schemes = FOW_NO_SCHEME, scheme = FOW_NO_SCHEME;
    size_t len = 0, from = 0, to = 0;
    uint8_t *value;
    if (!arguments(env, info, 2, given) || (value = octets_of(env, given[1], &len)) == NULL)
        return NULL;
    napi_get_value_uint32(env, given[0], &schemes);
    uint32_t status = fow_credentials(schemes, value, len, &scheme, &from, &to);
    free(value);
    const uint64_t said[] = { status, scheme, from, to };
    return numbers(env, said, sizeof said / sizeof *said);
}

/* replyTo(schemes, shown, outcome): the status that a request is answered with, and the challenges of Bearer and of DPoP. */
static napi_value reply_to(napi_env env, napi_callback_info info)
{
    napi_value given[MOST_ARGUMENTS];
    uint32_t schemes = FOW_NO_SCHEME, shown = FOW_NO_SCHEME, outcome = FOW_UNANSWERED;
    fow_reply reply;
    if (!arguments(env, info, 3, given))
        return NULL;
    napi_get_value_uint32(env, given[0], &schemes);
    napi_get_value_uint32(env, given[1], &shown);
    napi_get_value_uint32(env, given[2], &outcome);
    fow_reply_to(schemes, shown, outcome, &reply);
    const uint64_t said[] = { reply.status, reply.bearer, reply.dpop };
    return numbers(env, said, sizeof said / sizeof *said);
}

/* challenge(scheme, kind, realm, scopes, algs): the text of a challenge; an empty text where there is none. All three can be quoted. */
static napi_value challenge(napi_env env, napi_callback_info info)
{
    enum { REALM, SCOPES, ALGS, TEXTS };
    napi_value given[MOST_ARGUMENTS], result = NULL;
    uint32_t scheme = FOW_NO_SCHEME, kind = FOW_NO_CHALLENGE;
    uint8_t *texts[TEXTS] = { NULL }, *out = NULL;
    size_t lengths[TEXTS] = { 0 }, room = MOST_BESIDE, written = 0, read = 0;
    if (!arguments(env, info, 2 + TEXTS, given))
        return NULL;
    napi_get_value_uint32(env, given[0], &scheme);
    napi_get_value_uint32(env, given[1], &kind);
    for (; read < TEXTS && (texts[read] = octets_of(env, given[2 + read], &lengths[read])) != NULL; read++)
        room += lengths[read];
    if (read == TEXTS && (out = malloc(room)) == NULL)
        lack_memory(env);
    if (out != NULL) {
        uint32_t status = fow_challenge(
            scheme, kind, texts[REALM], lengths[REALM], texts[SCOPES], lengths[SCOPES], texts[ALGS], lengths[ALGS], out, room, &written);
        result = status == FOW_OK ? text_of(env, out, written) : mistake(env, "a realm, a scope or an algorithm can't be quoted");
    }
    for (size_t i = 0; i < TEXTS; i++)
        free(texts[i]);
    free(out);
    return result;
}

/* nonce(secret, period, now): the nonce of a moment; undefined where the secret is too short or the period is 0. */
static napi_value nonce(napi_env env, napi_callback_info info)
{
    napi_value given[MOST_ARGUMENTS], result = NULL;
    void *secret = NULL;
    size_t len = 0, written = 0;
    uint32_t period = 0;
    int64_t now = 0;
    uint8_t out[FOW_NONCE_LEN];
    if (!arguments(env, info, 3, given))
        return NULL;
    if (napi_get_typedarray_info(env, given[0], NULL, &len, &secret, NULL, NULL) != napi_ok)
        return mistake(env, "a secret is needed");
    napi_get_value_uint32(env, given[1], &period);
    /* (a moment is a number, or a bigint) */
    bool is_whole = false;
    if (napi_get_value_int64(env, given[2], &now) != napi_ok)
        napi_get_value_bigint_int64(env, given[2], &now, &is_whole);
    const uint8_t *octets = len == 0 ? (const uint8_t *)"" : secret;
    if (fow_nonce(octets, len, period, now, out, sizeof out, &written) == FOW_OK)
        return text_of(env, out, written);
    napi_get_undefined(env, &result);
    return result;
}

/* proofOutcome(status, fault): the number of enum fow_outcome of what was said of a proof. */
static napi_value proof_outcome(napi_env env, napi_callback_info info)
{
    napi_value given[MOST_ARGUMENTS];
    uint32_t status = FOW_NOT_OPEN, fault = FOW_NO_FAULT;
    if (!arguments(env, info, 2, given))
        return NULL;
    napi_get_value_uint32(env, given[0], &status);
    napi_get_value_uint32(env, given[1], &fault);
    return number(env, fow_proof_outcome(status, fault));
}

/* takenOutcome(ofProof, status, taken): the number of enum fow_outcome of what was said of a token that counts once, or of a proof where ofProof isn't 0. */
static napi_value taken_outcome(napi_env env, napi_callback_info info)
{
    napi_value given[MOST_ARGUMENTS];
    uint32_t of_proof = 0, status = FOW_NOT_OPEN, taken = FOW_TAKEN_NOTHING;
    if (!arguments(env, info, 3, given))
        return NULL;
    napi_get_value_uint32(env, given[0], &of_proof);
    napi_get_value_uint32(env, given[1], &status);
    napi_get_value_uint32(env, given[2], &taken);
    return number(env, fow_taken_outcome(of_proof, status, taken));
}

/* quotable(text): whether a realm or scopes can be quoted as they are. */
static napi_value quotable(napi_env env, napi_callback_info info)
{
    napi_value given[MOST_ARGUMENTS];
    size_t len = 0;
    uint8_t *text;
    if (!arguments(env, info, 1, given) || (text = octets_of(env, given[0], &len)) == NULL)
        return NULL;
    napi_value result = truth(env, fow_quotable(text, len));
    free(text);
    return result;
}

/* A whole number of 64 bits: of one that is less than 0, or none, 0, and of a greater one the greatest. */
static uint64_t whole(napi_env env, napi_value value)
{
    double given = 0;
    napi_get_value_double(env, value, &given);
    if (!(given >= 1))
        return 0;
    return given >= 18446744073709551616.0 ? UINT64_MAX : (uint64_t)given;
}

/* The numbers of a renewal, in a BigUint64Array of just as many; NULL where it is none, and an exception is thrown. */
static fow_renewal *renewal_of(napi_env env, napi_value value)
{
    napi_typedarray_type type = napi_uint8_array;
    size_t count = 0;
    void *at = NULL;
    bool is_array = false;
    napi_is_typedarray(env, value, &is_array);
    if (is_array)
        napi_get_typedarray_info(env, value, &type, &count, &at, NULL, NULL);
    if (is_array && type == napi_biguint64_array && count * sizeof(uint64_t) == sizeof(fow_renewal))
        return at;
    mistake(env, "a renewal is needed");
    return NULL;
}

/* The renewal of a call with so many arguments, the first of which it is. */
static fow_renewal *renewal(napi_env env, napi_callback_info info, size_t wanted, napi_value *given)
{
    return arguments(env, info, wanted, given) ? renewal_of(env, given[0]) : NULL;
}

/* renewalBegin(state, refreshAfter, cooldown, maxAge, timeout, now) */
static napi_value renewal_begin(napi_env env, napi_callback_info info)
{
    napi_value given[MOST_ARGUMENTS];
    fow_renewal *it = renewal(env, info, 6, given);
    if (it != NULL)
        fow_renewal_begin(it, whole(env, given[1]), whole(env, given[2]), whole(env, given[3]), whole(env, given[4]), whole(env, given[5]));
    return NULL;
}

/* renewalAsk(state, now, asker, keys): has_keys, keys, fetch, ticket, and for how long nobody need ask. */
static napi_value renewal_ask(napi_env env, napi_callback_info info)
{
    napi_value given[MOST_ARGUMENTS];
    fow_renewal_answer answer;
    fow_renewal *it = renewal(env, info, 4, given);
    if (it == NULL)
        return NULL;
    fow_renewal_ask(it, whole(env, given[1]), whole(env, given[2]), whole(env, given[3]), &answer);
    const uint64_t said[] = { answer.has_keys, answer.keys, answer.fetch, answer.ticket, fow_renewal_quiet_for(it) };
    return numbers(env, said, 5);
}

/* renewalTook(state, now, ticket): whether the keys of that fetch count. */
static napi_value renewal_took(napi_env env, napi_callback_info info)
{
    napi_value given[MOST_ARGUMENTS];
    fow_renewal *it = renewal(env, info, 3, given);
    return it == NULL ? NULL : truth(env, fow_renewal_took(it, whole(env, given[1]), whole(env, given[2])));
}

/* renewalFailed(state, now, ticket): whether that fetch was under way. */
static napi_value renewal_failed(napi_env env, napi_callback_info info)
{
    napi_value given[MOST_ARGUMENTS];
    fow_renewal *it = renewal(env, info, 3, given);
    return it == NULL ? NULL : truth(env, fow_renewal_failed(it, whole(env, given[1]), whole(env, given[2])));
}

/* renewalWait(state, now, ticket, name): whether a token of this name may wait for that fetch. */
static napi_value renewal_wait(napi_env env, napi_callback_info info)
{
    napi_value given[MOST_ARGUMENTS];
    fow_renewal *it = renewal(env, info, 4, given);
    return it == NULL ? NULL : truth(env, fow_renewal_wait(it, whole(env, given[1]), whole(env, given[2]), whole(env, given[3])));
}

/* urlOf(url, allowsHttp): https, port, host, host_end and target of a URL; undefined where it is none. */
static napi_value url_of(napi_env env, napi_callback_info info)
{
    napi_value given[MOST_ARGUMENTS];
    fow_url parts;
    size_t len = 0;
    bool allows_http = false;
    uint8_t *url;
    if (!arguments(env, info, 2, given) || (url = octets_of(env, given[0], &len)) == NULL)
        return NULL;
    napi_get_value_bool(env, given[1], &allows_http);
    uint32_t status = fow_url_of(url, len, allows_http, &parts);
    free(url);
    if (status != FOW_OK)
        return NULL;
    const uint64_t said[] = { parts.https, parts.port, parts.host, parts.host_end, parts.target };
    return numbers(env, said, 5);
}

/* What a call wrote, as a text; else its status. */
static napi_value written_or(napi_env env, uint32_t status, const uint8_t *out, size_t written)
{
    if (status == FOW_OUT_OF_MEMORY)
        return lack_memory(env);
    return status == FOW_OK ? text_of(env, out, written) : number(env, status);
}

/* A function that writes a text by two others, which has at most one octet more than they. */
typedef uint32_t by_two(const uint8_t *first, size_t first_len, const uint8_t *second, size_t second_len, uint8_t *out, size_t out_len, size_t *written);

/* What it writes; else its status. */
static napi_value written_by(napi_env env, napi_callback_info info, by_two *call)
{
    napi_value given[MOST_ARGUMENTS], result = NULL;
    size_t first_len = 0, second_len = 0, written = 0;
    if (!arguments(env, info, 2, given))
        return NULL;
    uint8_t *first = octets_of(env, given[0], &first_len);
    uint8_t *second = first == NULL ? NULL : octets_of(env, given[1], &second_len);
    size_t room = first_len + second_len + 1;
    uint8_t *out = second == NULL ? NULL : malloc(room);
    if (out != NULL) {
        uint32_t status = call(first, first_len, second, second_len, out, room, &written);
        result = written_or(env, status, out, written);
    } else if (second != NULL) {
        lack_memory(env);
    }
    free(first);
    free(second);
    free(out);
    return result;
}

/* redirected(url, location): the URL to which a redirection leads; else the status. */
static napi_value redirected(napi_env env, napi_callback_info info)
{
    return written_by(env, info, fow_redirected);
}

/* keysUrl(metadata, issuer): the URL of an issuer's keys, as its metadata tell it; else the status. */
static napi_value keys_url(napi_env env, napi_callback_info info)
{
    return written_by(env, info, fow_keys_url);
}

/* metadataUrl(asked, issuer): the URL of these metadata; else the status. */
static napi_value metadata_url(napi_env env, napi_callback_info info)
{
    napi_value given[MOST_ARGUMENTS], result = NULL;
    size_t len = 0, written = 0;
    uint32_t asked = FOW_ASKED_OPENID;
    uint8_t *issuer;
    if (!arguments(env, info, 2, given) || (issuer = octets_of(env, given[1], &len)) == NULL)
        return NULL;
    napi_get_value_uint32(env, given[0], &asked);
    uint8_t *out = malloc(len + MOST_BESIDE_ISSUER);
    if (out == NULL) {
        lack_memory(env);
    } else {
        uint32_t status = fow_metadata_url(asked, issuer, len, out, len + MOST_BESIDE_ISSUER, &written);
        result = written_or(env, status, out, written);
    }
    free(issuer);
    free(out);
    return result;
}

/* nextStep(asked, status, redirections): step and most of what follows on an answer. */
static napi_value next_step(napi_env env, napi_callback_info info)
{
    napi_value given[MOST_ARGUMENTS];
    uint32_t of_call[3] = { 0 };
    fow_next next;
    if (!arguments(env, info, 3, given))
        return NULL;
    for (size_t i = 0; i < 3; i++)
        napi_get_value_uint32(env, given[i], &of_call[i]);
    fow_next_step(of_call[0], of_call[1], of_call[2], &next);
    const uint64_t said[] = { next.step, next.most };
    return numbers(env, said, 2);
}

const named_call around[] = {
    { "credentials", credentials }, { "replyTo", reply_to }, { "challenge", challenge }, { "quotable", quotable },
    { "nonce", nonce }, { "proofOutcome", proof_outcome }, { "takenOutcome", taken_outcome },
    { "renewalBegin", renewal_begin }, { "renewalAsk", renewal_ask }, { "renewalTook", renewal_took }, { "renewalFailed", renewal_failed },
    { "renewalWait", renewal_wait }, { "urlOf", url_of }, { "redirected", redirected }, { "keysUrl", keys_url },
    { "metadataUrl", metadata_url }, { "nextStep", next_step }, { NULL, NULL },
};
