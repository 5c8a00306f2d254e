/* The token of a request, what is answered to it, and when keys by URL are fetched, and from where: the functions of fowharimu.h for Java, by JNI.
 * Native.java declares them, and says what they do; nothing else calls them. */
#include "around.h"
#include <fowharimu.h>
#include <stdlib.h>

/* At most so many octets has a challenge beside what it quotes, and the URL of metadata beside its issuer. */
enum { MOST_BESIDE = 64, MOST_BESIDE_ISSUER = 64, ANSWERS = 5, NUMBERS = sizeof(fow_renewal) / sizeof(uint64_t) };

/* A renewal, and its numbers as they cross. */
typedef union numbers {
    fow_renewal renewal;
    jlong all[NUMBERS];
} numbers;

static void lack_memory(JNIEnv *env)
{
    jclass class = (*env)->FindClass(env, "java/lang/OutOfMemoryError");
    if (class != NULL)
        (*env)->ThrowNew(env, class, "fowharimu: an allocation was refused");
}

/* A copy of octets, which is to be freed, at an address that isn't NULL; NULL where memory is refused, and an exception is thrown. */
static uint8_t *copied(JNIEnv *env, jbyteArray from, size_t *len)
{
    *len = (size_t)(*env)->GetArrayLength(env, from);
    uint8_t *to = malloc(*len + 1);
    if (to == NULL)
        lack_memory(env);
    else
        (*env)->GetByteArrayRegion(env, from, 0, (jsize)*len, (jbyte *)to);
    return to;
}

/* An array of numbers; NULL where memory is refused, and an exception is thrown. */
static jintArray numbers_of(JNIEnv *env, const jint *said, jsize count)
{
    jintArray out = (*env)->NewIntArray(env, count);
    if (out != NULL)
        (*env)->SetIntArrayRegion(env, out, 0, count, said);
    return out;
}

/* An array of octets; NULL as above. */
static jbyteArray octets_of(JNIEnv *env, const uint8_t *octets, size_t len)
{
    jbyteArray out = (*env)->NewByteArray(env, (jsize)len);
    if (out != NULL)
        (*env)->SetByteArrayRegion(env, out, 0, (jsize)len, (const jbyte *)octets);
    return out;
}

static jintArray JNICALL credentials(JNIEnv *env, jclass class, jint schemes, jbyteArray given)
{
    (void)class;
    uint32_t scheme = FOW_NO_SCHEME;
    size_t len, from = 0, to = 0;
    uint8_t *value = copied(env, given, &len);
    if (value == NULL)
        return NULL;
    uint32_t status = fow_credentials((uint32_t)schemes, value, len, &scheme, &from, &to);
    free(value);
    const jint said[] = { (jint)status, (jint)scheme, (jint)from, (jint)to };
    return numbers_of(env, said, sizeof said / sizeof *said);
}

static jintArray JNICALL reply_to(JNIEnv *env, jclass class, jint schemes, jint shown, jint outcome)
{
    (void)class;
    fow_reply reply;
    fow_reply_to((uint32_t)schemes, (uint32_t)shown, (uint32_t)outcome, &reply);
    const jint said[] = { (jint)reply.status, (jint)reply.bearer, (jint)reply.dpop };
    return numbers_of(env, said, sizeof said / sizeof *said);
}

static jbyteArray JNICALL challenge(
    JNIEnv *env, jclass class, jint scheme, jint kind, jbyteArray given_realm, jbyteArray given_scopes, jbyteArray given_algs)
{
    enum { REALM, SCOPES, ALGS, TEXTS };
    (void)class;
    const jbyteArray given[TEXTS] = { given_realm, given_scopes, given_algs };
    uint8_t *texts[TEXTS] = { NULL }, *out = NULL;
    size_t lengths[TEXTS] = { 0 }, room = MOST_BESIDE, written = 0, read = 0;
    jbyteArray result = NULL;
    for (; read < TEXTS && (texts[read] = copied(env, given[read], &lengths[read])) != NULL; read++)
        room += lengths[read];
    if (read == TEXTS && (out = malloc(room)) == NULL)
        lack_memory(env);
    if (out != NULL
        && fow_challenge((uint32_t)scheme, (uint32_t)kind, texts[REALM], lengths[REALM], texts[SCOPES], lengths[SCOPES], texts[ALGS], lengths[ALGS], out,
               room, &written)
            == FOW_OK)
        result = octets_of(env, out, written);
    for (size_t i = 0; i < TEXTS; i++)
        free(texts[i]);
    free(out);
    return result;
}

static jbyteArray JNICALL nonce(JNIEnv *env, jclass class, jbyteArray given, jint period, jlong now)
{
    (void)class;
    size_t len, written = 0;
    uint8_t out[FOW_NONCE_LEN];
    uint8_t *secret = copied(env, given, &len);
    if (secret == NULL)
        return NULL;
    uint32_t status = fow_nonce(secret, len, (uint32_t)period, (int64_t)now, out, sizeof out, &written);
    free(secret);
    return status == FOW_OK ? octets_of(env, out, written) : NULL;
}

static jint JNICALL proof_outcome(JNIEnv *env, jclass class, jint status, jint fault)
{
    (void)env;
    (void)class;
    return (jint)fow_proof_outcome((uint32_t)status, (uint32_t)fault);
}

static jint JNICALL taken_outcome(JNIEnv *env, jclass class, jboolean of_proof, jint status, jint taken)
{
    (void)env;
    (void)class;
    return (jint)fow_taken_outcome(of_proof != JNI_FALSE, (uint32_t)status, (uint32_t)taken);
}

static jboolean JNICALL quotable(JNIEnv *env, jclass class, jbyteArray given)
{
    (void)class;
    size_t len;
    uint8_t *text = copied(env, given, &len);
    bool is_quotable = text != NULL && fow_quotable(text, len);
    free(text);
    return is_quotable ? JNI_TRUE : JNI_FALSE;
}

static numbers read_renewal(JNIEnv *env, jlongArray state)
{
    numbers it = { 0 };
    (*env)->GetLongArrayRegion(env, state, 0, NUMBERS, it.all);
    return it;
}

static void put_renewal(JNIEnv *env, jlongArray state, const numbers *it)
{
    (*env)->SetLongArrayRegion(env, state, 0, NUMBERS, it->all);
}

static void JNICALL renewal_begin(
    JNIEnv *env, jclass class, jlongArray state, jlong refresh_after, jlong cool_down, jlong max_age, jlong timeout, jlong now)
{
    (void)class;
    numbers it;
    fow_renewal_begin(&it.renewal, (uint64_t)refresh_after, (uint64_t)cool_down, (uint64_t)max_age, (uint64_t)timeout, (uint64_t)now);
    put_renewal(env, state, &it);
}

static void JNICALL renewal_ask(JNIEnv *env, jclass class, jlongArray state, jlong now, jint asker, jlong keys, jlongArray out)
{
    (void)class;
    fow_renewal_answer answer;
    numbers it = read_renewal(env, state);
    fow_renewal_ask(&it.renewal, (uint64_t)now, (uint64_t)asker, (uint64_t)keys, &answer);
    put_renewal(env, state, &it);
    const uint64_t quiet = fow_renewal_quiet_for(&it.renewal);
    const jlong said[ANSWERS] = { (jlong)answer.has_keys, (jlong)answer.keys, (jlong)answer.fetch, (jlong)answer.ticket,
        quiet > INT64_MAX ? INT64_MAX : (jlong)quiet };
    (*env)->SetLongArrayRegion(env, out, 0, ANSWERS, said);
}

static jboolean JNICALL renewal_took(JNIEnv *env, jclass class, jlongArray state, jlong now, jlong ticket)
{
    (void)class;
    numbers it = read_renewal(env, state);
    bool counts = fow_renewal_took(&it.renewal, (uint64_t)now, (uint64_t)ticket);
    put_renewal(env, state, &it);
    return counts ? JNI_TRUE : JNI_FALSE;
}

static jboolean JNICALL renewal_failed(JNIEnv *env, jclass class, jlongArray state, jlong now, jlong ticket)
{
    (void)class;
    numbers it = read_renewal(env, state);
    bool counts = fow_renewal_failed(&it.renewal, (uint64_t)now, (uint64_t)ticket);
    put_renewal(env, state, &it);
    return counts ? JNI_TRUE : JNI_FALSE;
}

static jboolean JNICALL renewal_wait(JNIEnv *env, jclass class, jlongArray state, jlong now, jlong ticket, jlong name)
{
    (void)class;
    numbers it = read_renewal(env, state);
    bool waits = fow_renewal_wait(&it.renewal, (uint64_t)now, (uint64_t)ticket, (uint64_t)name);
    put_renewal(env, state, &it);
    return waits ? JNI_TRUE : JNI_FALSE;
}

static jboolean JNICALL is_url(JNIEnv *env, jclass class, jbyteArray given, jboolean allows_http)
{
    (void)class;
    size_t len;
    fow_url parts;
    uint8_t *url = copied(env, given, &len);
    bool is_taken = url != NULL && fow_url_of(url, len, allows_http == JNI_TRUE, &parts) == FOW_OK;
    free(url);
    return is_taken ? JNI_TRUE : JNI_FALSE;
}

/* What a call wrote, which is freed; NULL where it wrote nothing, and where memory was refused an exception is thrown. */
static jbyteArray written_or_none(JNIEnv *env, uint32_t status, uint8_t *out, size_t written)
{
    jbyteArray result = NULL;
    if (status == FOW_OUT_OF_MEMORY)
        lack_memory(env);
    else if (status == FOW_OK && (result = (*env)->NewByteArray(env, (jsize)written)) != NULL)
        (*env)->SetByteArrayRegion(env, result, 0, (jsize)written, (const jbyte *)out);
    free(out);
    return result;
}

/* A function that writes a text by two others, which has at most one octet more than they. */
typedef uint32_t by_two(const uint8_t *first, size_t first_len, const uint8_t *second, size_t second_len, uint8_t *out, size_t out_len, size_t *written);

/* What it writes; NULL where that is nothing. */
static jbyteArray written_by(JNIEnv *env, by_two *call, jbyteArray given_first, jbyteArray given_second, uint32_t *status)
{
    size_t first_len = 0, second_len = 0, written = 0;
    uint8_t *first = copied(env, given_first, &first_len);
    uint8_t *second = first == NULL ? NULL : copied(env, given_second, &second_len);
    uint8_t *out = second == NULL ? NULL : malloc(first_len + second_len + 1);
    *status = out == NULL ? FOW_OUT_OF_MEMORY : call(first, first_len, second, second_len, out, first_len + second_len + 1, &written);
    free(first);
    free(second);
    return (*env)->ExceptionCheck(env) ? NULL : written_or_none(env, *status, out, written);
}

static jbyteArray JNICALL redirected(JNIEnv *env, jclass class, jbyteArray url, jbyteArray location)
{
    (void)class;
    uint32_t status;
    return written_by(env, fow_redirected, url, location, &status);
}

static jbyteArray JNICALL keys_url(JNIEnv *env, jclass class, jbyteArray metadata, jbyteArray issuer, jintArray out)
{
    (void)class;
    uint32_t status;
    jbyteArray url = written_by(env, fow_keys_url, metadata, issuer, &status);
    const jint said[1] = { (jint)status };
    if (!(*env)->ExceptionCheck(env))
        (*env)->SetIntArrayRegion(env, out, 0, 1, said);
    return url;
}

static jbyteArray JNICALL metadata_url(JNIEnv *env, jclass class, jint asked, jbyteArray given)
{
    (void)class;
    size_t len = 0, written = 0;
    uint8_t *issuer = copied(env, given, &len);
    if (issuer == NULL)
        return NULL;
    uint8_t *out = malloc(len + MOST_BESIDE_ISSUER);
    uint32_t status = out == NULL ? FOW_OUT_OF_MEMORY : fow_metadata_url((uint32_t)asked, issuer, len, out, len + MOST_BESIDE_ISSUER, &written);
    free(issuer);
    return written_or_none(env, status, out, written);
}

static jintArray JNICALL next_step(JNIEnv *env, jclass class, jint asked, jint status, jint redirections)
{
    (void)class;
    fow_next next;
    fow_next_step((uint32_t)asked, (uint32_t)status, (uint32_t)redirections, &next);
    const jint said[2] = { (jint)next.step, (jint)next.most };
    jintArray out = (*env)->NewIntArray(env, 2);
    if (out != NULL)
        (*env)->SetIntArrayRegion(env, out, 0, 2, said);
    return out;
}

jint register_around(JNIEnv *env, jclass class)
{
    const JNINativeMethod all[] = {
        ROW("credentials", "(I[B)[I", credentials),
        ROW("replyTo", "(III)[I", reply_to),
        ROW("challenge", "(II[B[B[B)[B", challenge),
        ROW("nonce", "([BIJ)[B", nonce),
        ROW("proofOutcome", "(II)I", proof_outcome),
        ROW("takenOutcome", "(ZII)I", taken_outcome),
        ROW("isQuotable", "([B)Z", quotable),
        ROW("renewalBegin", "([JJJJJJ)V", renewal_begin),
        ROW("renewalAsk", "([JJIJ[J)V", renewal_ask),
        ROW("renewalTook", "([JJJ)Z", renewal_took),
        ROW("renewalFailed", "([JJJ)Z", renewal_failed),
        ROW("renewalWait", "([JJJJ)Z", renewal_wait),
        ROW("isUrl", "([BZ)Z", is_url),
        ROW("redirected", "([B[B)[B", redirected),
        ROW("keysUrl", "([B[B[I)[B", keys_url),
        ROW("metadataUrl", "(I[B)[B", metadata_url),
        ROW("nextStep", "(III)[I", next_step),
    };
    return (*env)->RegisterNatives(env, class, all, sizeof all / sizeof *all);
}
