/* The functions of fowharimu.h for Java, by JNI. Native.java declares them, and says what they do; nothing else calls them.
 *
 * PACKAGE is the package of Native.java, with slashes: who builds this takes it from there. What a call is handed is copied before the library
 * reads it: so another thread that has the array can't change it meanwhile. */
#include "around.h"
#include <fowharimu.h>
#include <stdlib.h>

#ifndef PACKAGE
#error "PACKAGE has to be the package of Native.java, as \"org/example/fowharimu\""
#endif

/* How many numbers a report has. */
enum { NUMBERS = 8 };

/* A validator, and the octets of the token that it was handed last. An access rule is a fow_access, and nothing beside. */
typedef struct held {
    fow_validator validator;
    uint8_t *token;
    size_t len, room;
} held;

/* Octets at an address that isn't NULL, which are to be freed; NULL where memory is refused. */
typedef struct octets {
    uint8_t *at;
    size_t len;
} octets;

static held *at(jlong it)
{
    return (held *)(intptr_t)it;
}

static octets copied(JNIEnv *env, jbyteArray from)
{
    octets to = { NULL, (size_t)(*env)->GetArrayLength(env, from) };
    to.at = malloc(to.len + 1);
    if (to.at != NULL)
        (*env)->GetByteArrayRegion(env, from, 0, (jsize)to.len, (jbyte *)to.at);
    return to;
}

/* Keeps a token's octets in the validator, whose room serves the next one. */
static bool keep_token(JNIEnv *env, held *it, jbyteArray token)
{
    size_t len = (size_t)(*env)->GetArrayLength(env, token);
    if (it->room < len + 1) {
        free(it->token);
        it->room = 0;
        it->token = malloc(len + len / 2 + 64);
        if (it->token == NULL)
            return false;
        it->room = len + len / 2 + 64;
    }
    it->len = len;
    (*env)->GetByteArrayRegion(env, token, 0, (jsize)len, (jbyte *)it->token);
    return true;
}

static void lack_memory(JNIEnv *env)
{
    jclass class = (*env)->FindClass(env, "java/lang/OutOfMemoryError");
    if (class != NULL)
        (*env)->ThrowNew(env, class, "fowharimu: an allocation was refused");
}

/* What a function wrote, and NULL where it wrote none. Of memory that is refused OutOfMemoryError is thrown. */
static jbyteArray array_of(JNIEnv *env, uint32_t status, uint8_t *room, size_t len)
{
    jbyteArray result = NULL;
    if (status == FOW_OK && (result = (*env)->NewByteArray(env, (jsize)len)) != NULL)
        (*env)->SetByteArrayRegion(env, result, 0, (jsize)len, (const jbyte *)room);
    free(room);
    if (status == FOW_OUT_OF_MEMORY)
        lack_memory(env);
    return result;
}

static void put_report(JNIEnv *env, jlongArray out, const fow_report *from)
{
    const jlong all[NUMBERS] = { from->verdict, from->fault, from->part, from->signature, from->key, from->claim, (jlong)from->work,
        (jlong)from->tries };
    (*env)->SetLongArrayRegion(env, out, 0, NUMBERS, all);
}

static jintArray JNICALL interfaces(JNIEnv *env, jclass class)
{
    (void)class;
    const jint both[2] = { FOW_ABI, (jint)fow_abi() };
    jintArray out = (*env)->NewIntArray(env, 2);
    if (out != NULL)
        (*env)->SetIntArrayRegion(env, out, 0, 2, both);
    return out;
}

static jstring JNICALL version(JNIEnv *env, jclass class)
{
    (void)class;
    return (*env)->NewStringUTF(env, fow_version());
}

static jlong JNICALL open_validator(JNIEnv *env, jclass class, jbyteArray policy, jbyteArray keys, jintArray out)
{
    (void)class;
    uint32_t fault = FOW_NO_FAULT, status = FOW_OUT_OF_MEMORY;
    octets first = copied(env, policy), second = copied(env, keys);
    held *it = calloc(1, sizeof *it);
    if (first.at != NULL && second.at != NULL && it != NULL)
        status = fow_open(&it->validator, first.at, first.len, second.at, second.len, &fault);
    free(first.at);
    free(second.at);
    if (status == FOW_OK)
        return (jlong)(intptr_t)it;
    free(it);
    jint said = status == FOW_REFUSED ? (jint)fault : 0;
    (*env)->SetIntArrayRegion(env, out, 0, 1, &said);
    return 0;
}

static jlong JNICALL open_beside(JNIEnv *env, jclass class, jlong another)
{
    (void)env;
    (void)class;
    held *it = calloc(1, sizeof *it);
    if (it != NULL && fow_open_beside(&it->validator, &at(another)->validator) == FOW_OK)
        return (jlong)(intptr_t)it;
    free(it);
    return 0;
}

static jint JNICALL remember(JNIEnv *env, jclass class, jlong it, jint tokens, jint octets)
{
    (void)env;
    (void)class;
    return (jint)fow_remember(&at(it)->validator, (size_t)tokens, (size_t)octets);
}

static jboolean JNICALL remembered(JNIEnv *env, jclass class, jlong it)
{
    (void)env;
    (void)class;
    return fow_remembered(&at(it)->validator) ? JNI_TRUE : JNI_FALSE;
}

static void JNICALL close_validator(JNIEnv *env, jclass class, jlong it)
{
    (void)env;
    (void)class;
    fow_close(&at(it)->validator);
    free(at(it)->token);
    free(at(it));
}

static jint JNICALL judge(JNIEnv *env, jclass class, jlong v, jbyteArray token, jlong now, jlongArray out)
{
    (void)class;
    held *it = at(v);
    fow_report report = { 0 };
    if (!keep_token(env, it, token))
        return FOW_OUT_OF_MEMORY;
    uint32_t verdict = fow_judge(&it->validator, it->token, it->len, now, &report);
    put_report(env, out, &report);
    return (jint)verdict;
}

static jbyteArray JNICALL payload(JNIEnv *env, jclass class, jlong v)
{
    (void)class;
    held *it = at(v);
    size_t len = 0;
    uint8_t *room = malloc(it->len + 1);
    uint32_t status = room == NULL ? FOW_OUT_OF_MEMORY : fow_accepted_payload(&it->validator, room, it->len + 1, &len);
    return array_of(env, status, room, len);
}

static jbyteArray JNICALL header(JNIEnv *env, jclass class, jlong it, jbyteArray token, jint signature)
{
    (void)class;
    size_t len = 0;
    octets from = copied(env, token);
    uint8_t *room = malloc(from.len + 1);
    uint32_t status = from.at == NULL || room == NULL ? FOW_OUT_OF_MEMORY
                                                      : fow_unverified_header(&at(it)->validator, from.at, from.len, (uint32_t)signature,
                                                            room, from.len + 1, &len);
    free(from.at);
    return array_of(env, status, room, len);
}

/* The issuer that a token names, and the status, which is written to `out`. */
static jbyteArray JNICALL named(JNIEnv *env, jclass class, jlong it, jbyteArray token, jintArray out)
{
    (void)class;
    size_t len = 0;
    octets from = copied(env, token);
    uint8_t *room = malloc(from.len + 1);
    uint32_t status = from.at == NULL || room == NULL
        ? FOW_OUT_OF_MEMORY
        : fow_unverified_issuer(&at(it)->validator, from.at, from.len, room, from.len + 1, &len);
    free(from.at);
    const jint said = (jint)status;
    (*env)->SetIntArrayRegion(env, out, 0, 1, &said);
    return array_of(env, status, room, len);
}

/* (an issuer stands in a policy, which has at most 65,536 octets) */
static jbyteArray JNICALL sole_issuer(JNIEnv *env, jclass class, jlong it)
{
    (void)class;
    size_t len = 0;
    uint8_t *room = malloc(65536);
    uint32_t status = room == NULL ? FOW_OUT_OF_MEMORY : fow_sole_issuer(&at(it)->validator, room, 65536, &len);
    return array_of(env, status, room, len);
}

static jint JNICALL token_limit(JNIEnv *env, jclass class, jlong it)
{
    (void)env;
    (void)class;
    uint32_t limit = 0;
    fow_token_limit(&at(it)->validator, &limit);
    return (jint)limit;
}

static jboolean JNICALL is_public(JNIEnv *env, jclass class, jlong it)
{
    (void)env;
    (void)class;
    return fow_documents_are_public(&at(it)->validator) ? JNI_TRUE : JNI_FALSE;
}

static jbyteArray JNICALL text_member(JNIEnv *env, jclass class, jbyteArray document, jbyteArray name)
{
    (void)class;
    size_t len = 0;
    octets from = copied(env, document), sought = copied(env, name);
    uint8_t *room = malloc(from.len + 1);
    uint32_t status = from.at == NULL || sought.at == NULL || room == NULL
        ? FOW_OUT_OF_MEMORY
        : fow_text_member(from.at, from.len, sought.at, sought.len, room, from.len + 1, &len);
    free(from.at);
    free(sought.at);
    return array_of(env, status, room, len);
}

/* Issues claims in as much room as the token needs. */
static uint32_t issue_into(held *it, const jint *how, const octets *type, const octets *claims, octets *out, fow_report *report)
{
    uint32_t status = FOW_TOO_SHORT;
    for (size_t room = 2 * claims->len + 2 * type->len + 1024; status == FOW_TOO_SHORT; room *= 2) {
        uint8_t *more = realloc(out->at, room);
        if (more == NULL)
            return FOW_OUT_OF_MEMORY;
        out->at = more;
        status = fow_issue(&it->validator, (uint32_t)how[0], (uint32_t)how[1], (uint32_t)how[2], type->at, type->len, claims->at, claims->len,
            out->at, room, &out->len, report);
    }
    return status;
}

static jbyteArray JNICALL issue(JNIEnv *env, jclass class, jlong it, jint alg, jint form, jint key, jbyteArray type, jbyteArray claims,
    jlongArray report)
{
    (void)class;
    const jint how[3] = { alg, form, key };
    octets first = copied(env, type), second = copied(env, claims), token = { NULL, 0 };
    fow_report said = { 0 };
    said.verdict = first.at == NULL || second.at == NULL ? FOW_OUT_OF_MEMORY : issue_into(at(it), how, &first, &second, &token, &said);
    free(first.at);
    free(second.at);
    put_report(env, report, &said);
    return array_of(env, said.verdict, token.at, token.len);
}

static jboolean JNICALL state(JNIEnv *env, jclass class, jlong it, jint signature, jintArray out)
{
    (void)class;
    fow_state said;
    if (fow_state_of(&at(it)->validator, (uint32_t)signature, &said) != FOW_OK)
        return JNI_FALSE;
    const jint all[3] = { (jint)said.state, (jint)said.fault, (jint)said.key };
    (*env)->SetIntArrayRegion(env, out, 0, 3, all);
    return JNI_TRUE;
}

static jboolean JNICALL tried(JNIEnv *env, jclass class, jlong it, jlong n, jlongArray out)
{
    (void)class;
    fow_try said;
    if (fow_try_of(&at(it)->validator, (uint64_t)n, &said) != FOW_OK)
        return JNI_FALSE;
    const jlong all[3] = { said.signature, said.key, (jlong)said.cost };
    (*env)->SetLongArrayRegion(env, out, 0, 3, all);
    return JNI_TRUE;
}

/* (a name stands in a policy, which has at most 65,536 octets) */
static jbyteArray JNICALL refused_claim(JNIEnv *env, jclass class, jlong it)
{
    (void)class;
    size_t len = 0;
    uint8_t *room = malloc(65536);
    uint32_t status = room == NULL ? FOW_OUT_OF_MEMORY : fow_refused_claim(&at(it)->validator, room, 65536, &len);
    return array_of(env, status, room, len);
}

static jbyteArray JNICALL refused_member(JNIEnv *env, jclass class, jbyteArray policy)
{
    (void)class;
    size_t len = 0;
    octets from = copied(env, policy);
    uint8_t *room = malloc(from.len + 1);
    uint32_t status = from.at == NULL || room == NULL ? FOW_OUT_OF_MEMORY
                                                      : fow_refused_member(from.at, from.len, room, from.len + 1, &len);
    free(from.at);
    return array_of(env, status, room, len);
}

static fow_access *rule_at(jlong access)
{
    return (fow_access *)(intptr_t)access;
}

static jlong JNICALL open_access(JNIEnv *env, jclass class, jbyteArray rule, jintArray out)
{
    (void)class;
    uint32_t fault = FOW_NO_FAULT, status = FOW_OUT_OF_MEMORY;
    octets from = copied(env, rule);
    fow_access *access = calloc(1, sizeof *access);
    if (from.at != NULL && access != NULL)
        status = fow_access_open(access, from.at, from.len, &fault);
    free(from.at);
    if (status == FOW_OK)
        return (jlong)(intptr_t)access;
    free(access);
    jint said = status == FOW_REFUSED ? (jint)fault : 0;
    (*env)->SetIntArrayRegion(env, out, 0, 1, &said);
    return 0;
}

static void JNICALL close_access(JNIEnv *env, jclass class, jlong access)
{
    (void)env;
    (void)class;
    fow_access_close(rule_at(access));
    free(rule_at(access));
}

static jbyteArray JNICALL access_refused(JNIEnv *env, jclass class, jbyteArray rule)
{
    (void)class;
    size_t len = 0;
    octets from = copied(env, rule);
    uint8_t *room = malloc(from.len + 1);
    uint32_t status = from.at == NULL || room == NULL ? FOW_OUT_OF_MEMORY
                                                      : fow_access_refused(from.at, from.len, room, from.len + 1, &len);
    free(from.at);
    return array_of(env, status, room, len);
}

/* (scopes and names stand in a rule, which has at most 65,536 octets) */
static jbyteArray JNICALL access_scope(JNIEnv *env, jclass class, jlong access, jint number)
{
    (void)class;
    size_t len = 0;
    uint8_t *room = malloc(65536);
    uint32_t status = room == NULL ? FOW_OUT_OF_MEMORY : fow_access_scope(rule_at(access), (uint32_t)number, room, 65536, &len);
    return array_of(env, status, room, len);
}

static jint JNICALL denied(JNIEnv *env, jclass class, jlong it, jlong access, jlongArray out)
{
    (void)class;
    uint32_t denial = FOW_NO_FAULT;
    uint32_t status = fow_denied(&at(it)->validator, rule_at(access), &denial);
    jlong said = status == FOW_DENIED ? (jlong)denial : 0;
    (*env)->SetLongArrayRegion(env, out, 0, 1, &said);
    return (jint)status;
}

static jbyteArray JNICALL denied_name(JNIEnv *env, jclass class, jlong it, jlong access)
{
    (void)class;
    size_t len = 0;
    uint8_t *room = malloc(65536);
    uint32_t status = room == NULL ? FOW_OUT_OF_MEMORY : fow_denied_name(&at(it)->validator, rule_at(access), room, 65536, &len);
    return array_of(env, status, room, len);
}

static fow_once *once_at(jlong once)
{
    return (fow_once *)(intptr_t)once;
}

static jlong JNICALL open_once(JNIEnv *env, jclass class, jint tokens, jint share, jlong opened)
{
    (void)env;
    (void)class;
    fow_once *once = calloc(1, sizeof *once);
    if (once != NULL && fow_once_open(once, (size_t)tokens, (size_t)share, (uint64_t)opened) == FOW_OK)
        return (jlong)(intptr_t)once;
    free(once);
    return 0;
}

/* How an expectation is held against a claim, with the token and the number of its signature that verified. */
typedef uint32_t holding(held *it, jint signature, octets claim, octets text, uint32_t *unmet);

static uint32_t hold_text(held *it, jint signature, octets claim, octets text, uint32_t *unmet)
{
    (void)signature;
    return fow_expect_text(&it->validator, claim.at, claim.len, text.at, text.len, unmet);
}

static uint32_t hold_half_hash(held *it, jint signature, octets claim, octets text, uint32_t *unmet)
{
    return fow_expect_half_hash(&it->validator, it->token, it->len, (uint32_t)signature, claim.at, claim.len, text.at, text.len, unmet);
}

/* Holds an expectation, writes what isn't met, and gives the status. */
static jint expect(JNIEnv *env, held *it, holding *hold, jint signature, jbyteArray claim, jbyteArray text, jintArray out)
{
    uint32_t unmet = FOW_UNMET_NOTHING, status = FOW_OUT_OF_MEMORY;
    octets name = copied(env, claim), wanted = copied(env, text);
    if (name.at != NULL && wanted.at != NULL)
        status = hold(it, signature, name, wanted, &unmet);
    free(name.at);
    free(wanted.at);
    jint said = (jint)unmet;
    (*env)->SetIntArrayRegion(env, out, 0, 1, &said);
    return (jint)status;
}

static jint JNICALL expect_text(JNIEnv *env, jclass class, jlong it, jbyteArray claim, jbyteArray text, jintArray out)
{
    (void)class;
    return expect(env, at(it), hold_text, 0, claim, text, out);
}

static jint JNICALL expect_half_hash(JNIEnv *env, jclass class, jlong it, jint signature, jbyteArray claim, jbyteArray text, jintArray out)
{
    (void)class;
    return expect(env, at(it), hold_half_hash, signature, claim, text, out);
}

static jint JNICALL take_once(JNIEnv *env, jclass class, jlong once, jlong it, jlong now, jintArray out)
{
    (void)class;
    uint32_t taken = FOW_TAKEN_NOTHING;
    uint32_t status = fow_once_take(once_at(once), &at(it)->validator, now, &taken);
    jint said = (jint)taken;
    (*env)->SetIntArrayRegion(env, out, 0, 1, &said);
    return (jint)status;
}

static void JNICALL close_once(JNIEnv *env, jclass class, jlong once)
{
    (void)env;
    (void)class;
    fow_once_close(once_at(once));
    free(once_at(once));
}

static fow_possession *proofs_at(jlong proofs)
{
    return (fow_possession *)(intptr_t)proofs;
}

static jlong JNICALL open_proofs(JNIEnv *env, jclass class, jbyteArray policy, jintArray out)
{
    (void)class;
    uint32_t fault = FOW_NO_FAULT, status = FOW_OUT_OF_MEMORY;
    octets from = copied(env, policy);
    fow_possession *proofs = calloc(1, sizeof *proofs);
    if (from.at != NULL && proofs != NULL)
        status = fow_possession_open(proofs, from.at, from.len, &fault);
    free(from.at);
    if (status == FOW_OK)
        return (jlong)(intptr_t)proofs;
    free(proofs);
    jint said = status == FOW_REFUSED ? (jint)fault : 0;
    (*env)->SetIntArrayRegion(env, out, 0, 1, &said);
    return 0;
}

/* A proof and its request, each to be freed. */
typedef struct shown {
    octets proof, method, uri, nonce;
} shown;

static uint32_t judge_shown(fow_possession *proofs, held *it, const shown *by, int64_t now, uint32_t *fault)
{
    if (by->proof.at == NULL || by->method.at == NULL || by->uri.at == NULL || by->nonce.at == NULL)
        return FOW_OUT_OF_MEMORY;
    return fow_possession_judge(proofs, &it->validator, by->proof.at, by->proof.len, by->method.at, by->method.len, by->uri.at, by->uri.len,
        by->nonce.at, by->nonce.len, it->token, it->len, now, fault);
}

static jint JNICALL judge_proof(JNIEnv *env, jclass class, jlong proofs, jlong it, jbyteArray proof, jbyteArray method, jbyteArray uri, jbyteArray nonce,
    jlong now, jintArray out)
{
    (void)class;
    uint32_t fault = FOW_NO_FAULT;
    shown by = { copied(env, proof), copied(env, method), copied(env, uri), copied(env, nonce) };
    uint32_t status = judge_shown(proofs_at(proofs), at(it), &by, now, &fault);
    free(by.proof.at);
    free(by.method.at);
    free(by.uri.at);
    free(by.nonce.at);
    jint said = (jint)fault;
    (*env)->SetIntArrayRegion(env, out, 0, 1, &said);
    return (jint)status;
}

static jint JNICALL take_proof(JNIEnv *env, jclass class, jlong once, jlong proofs, jlong now, jintArray out)
{
    (void)class;
    uint32_t taken = FOW_TAKEN_NOTHING;
    uint32_t status = fow_possession_take(proofs_at(proofs), once_at(once), now, &taken);
    jint said = (jint)taken;
    (*env)->SetIntArrayRegion(env, out, 0, 1, &said);
    return (jint)status;
}

static jint JNICALL fresh_proof(JNIEnv *env, jclass class, jlong proofs, jbyteArray given, jint period, jlong now)
{
    (void)class;
    octets secret = copied(env, given);
    uint32_t status = FOW_OUT_OF_MEMORY;
    if (secret.at != NULL)
        status = fow_possession_fresh(proofs_at(proofs), secret.at, secret.len, (uint32_t)period, now);
    free(secret.at);
    return (jint)status;
}

static jbyteArray JNICALL proof_algs(JNIEnv *env, jclass class, jlong proofs, jint room)
{
    (void)class;
    size_t written = 0;
    jbyteArray result = NULL;
    uint8_t *out = malloc((size_t)room + 1);
    if (out != NULL && fow_possession_algs(proofs_at(proofs), out, (size_t)room, &written) == FOW_OK)
        result = (*env)->NewByteArray(env, (jsize)written);
    if (result != NULL)
        (*env)->SetByteArrayRegion(env, result, 0, (jsize)written, (const jbyte *)out);
    free(out);
    return result;
}

static void JNICALL close_proofs(JNIEnv *env, jclass class, jlong proofs)
{
    (void)env;
    (void)class;
    fow_possession_close(proofs_at(proofs));
    free(proofs_at(proofs));
}

/* With no proof, where the address is 0. */
static jint JNICALL shown_ways(JNIEnv *env, jclass class, jlong it, jlong proofs, jbyteArray der, jintArray out)
{
    (void)class;
    fow_possession none = FOW_POSSESSION_INIT;
    octets from = copied(env, der);
    uint32_t ways = FOW_BOUND_NOT, fault = FOW_NO_FAULT;
    uint32_t status = from.at == NULL ? FOW_OUT_OF_MEMORY
                                      : fow_shown(&at(it)->validator, proofs == 0 ? &none : proofs_at(proofs), from.at, from.len, &ways, &fault);
    jint said[] = { (jint)ways, (jint)fault };
    free(from.at);
    (*env)->SetIntArrayRegion(env, out, 0, 2, said);
    return (jint)status;
}

static jstring JNICALL fault_name(JNIEnv *env, jclass class, jint fault)
{
    (void)class;
    return (*env)->NewStringUTF(env, fow_fault_name((uint32_t)fault));
}

/* Gives Native.java its functions. */
JNIEXPORT jint JNICALL JNI_OnLoad(JavaVM *vm, void *reserved)
{
    const JNINativeMethod all[] = {
        ROW("interfaces", "()[I", interfaces),
        ROW("version", "()Ljava/lang/String;", version),
        ROW("open", "([B[B[I)J", open_validator),
        ROW("openBeside", "(J)J", open_beside),
        ROW("remember", "(JII)I", remember),
        ROW("remembered", "(J)Z", remembered),
        ROW("close", "(J)V", close_validator),
        ROW("judge", "(J[BJ[J)I", judge),
        ROW("payload", "(J)[B", payload),
        ROW("header", "(J[BI)[B", header),
        ROW("issue", "(JIII[B[B[J)[B", issue),
        ROW("state", "(JI[I)Z", state),
        ROW("tried", "(JJ[J)Z", tried),
        ROW("refusedClaim", "(J)[B", refused_claim),
        ROW("refusedMember", "([B)[B", refused_member),
        ROW("openAccess", "([B[I)J", open_access),
        ROW("closeAccess", "(J)V", close_access),
        ROW("accessRefused", "([B)[B", access_refused),
        ROW("accessScope", "(JI)[B", access_scope),
        ROW("denied", "(JJ[J)I", denied),
        ROW("deniedName", "(JJ)[B", denied_name),
        ROW("expectText", "(J[B[B[I)I", expect_text),
        ROW("expectHalfHash", "(JI[B[B[I)I", expect_half_hash),
        ROW("openOnce", "(IIJ)J", open_once),
        ROW("takeOnce", "(JJJ[I)I", take_once),
        ROW("closeOnce", "(J)V", close_once),
        ROW("openProofs", "([B[I)J", open_proofs),
        ROW("judgeProof", "(JJ[B[B[B[BJ[I)I", judge_proof),
        ROW("takeProof", "(JJJ[I)I", take_proof),
        ROW("freshProof", "(J[BIJ)I", fresh_proof),
        ROW("proofAlgs", "(JI)[B", proof_algs),
        ROW("closeProofs", "(J)V", close_proofs),
        ROW("shown", "(JJ[B[I)I", shown_ways),
        ROW("faultName", "(I)Ljava/lang/String;", fault_name),
        ROW("named", "(J[B[I)[B", named),
        ROW("soleIssuer", "(J)[B", sole_issuer),
        ROW("tokenLimit", "(J)I", token_limit),
        ROW("isPublic", "(J)Z", is_public),
        ROW("textMember", "([B[B)[B", text_member),
    };
    JNIEnv *env = NULL;
    (void)reserved;
    if ((*vm)->GetEnv(vm, (void **)&env, JNI_VERSION_10) != JNI_OK)
        return JNI_ERR;
    jclass class = (*env)->FindClass(env, PACKAGE "/Native");
    if (class == NULL || (*env)->RegisterNatives(env, class, all, sizeof all / sizeof *all) != 0 || register_around(env, class) != 0)
        return JNI_ERR;
    return JNI_VERSION_10;
}
