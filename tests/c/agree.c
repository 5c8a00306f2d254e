/* agree [SEED]: the library is asked about tokens that OpenSSL signs here by keys of its own, always the same by one seed, and has to say what is expected:
 * good signatures, their other spellings, forged ones, and keys that aren't taken. Where OpenSSL takes the key, it is asked too, and has to say the same. Of
 * Ed448, for which the library has no verifier, each is refused. */
#define OPENSSL_SUPPRESS_DEPRECATED /* (RAND_set_rand_method, by which the seed is fixed) */
#include <fowharimu.h>
#include <openssl/bn.h>
#include <openssl/core_names.h>
#include <openssl/crypto.h>
#include <openssl/ec.h>
#include <openssl/ecdsa.h>
#include <openssl/evp.h>
#include <openssl/obj_mac.h>
#include <openssl/param_build.h>
#include <openssl/rand.h>
#include <openssl/rsa.h>

#include "octets.h"

/* ---- numbers from a seed (xorshift), also for OpenSSL's keys and salts */

static uint64_t drawn = 88172645463325252u;

static uint8_t draw(void)
{
    drawn ^= drawn << 13;
    drawn ^= drawn >> 7;
    drawn ^= drawn << 17;
    return (uint8_t)(drawn >> 24);
}

static int draw_octets(unsigned char *out, int count)
{
    for (int i = 0; i < count; i++)
        out[i] = draw();
    return 1;
}

static int is_ready(void)
{
    return 1;
}

static const RAND_METHOD fixed = { NULL, draw_octets, NULL, NULL, draw_octets, is_ready };

/* ---- a token, its key set, and what both say of it */

/* An algorithm, and whether the library has a proved verifier for it. */
typedef struct algorithm {
    const char *name;
    const EVP_MD *(*digest)(void);
    int is_pss, is_proved;
} algorithm;

static const algorithm rsa[] = {
    { "RS256", EVP_sha256, 0, 1 },
    { "RS384", EVP_sha384, 0, 1 },
    { "RS512", EVP_sha512, 0, 1 },
    { "PS256", EVP_sha256, 1, 1 },
    { "PS384", EVP_sha384, 1, 1 },
    { "PS512", EVP_sha512, 1, 1 },
};

/* What is signed, and by which key set it is judged; the key of that set as OpenSSL has it, where it takes it. */
typedef struct asking {
    const algorithm *alg;
    EVP_PKEY *key;
    char keys[MOST], input[4096];
    size_t input_len;
} asking;

static long cases, wrong, asked;

static int is_as(const fow_report *report, int is_good)
{
    return is_good ? report->verdict == FOW_OK : report->verdict == FOW_REFUSED && report->fault == FOW_SIG_BAD_SIGNATURE;
}

/* Has OpenSSL sign or verify by this algorithm. */
static void set_padding(const algorithm *alg, EVP_PKEY_CTX *context)
{
    if (alg->is_pss)
        CHECK(EVP_PKEY_CTX_set_rsa_padding(context, RSA_PKCS1_PSS_PADDING) == 1
            && EVP_PKEY_CTX_set_rsa_pss_saltlen(context, RSA_PSS_SALTLEN_DIGEST) == 1);
}

/* The two numbers of a signature by ECDSA as OpenSSL takes them; 0 where the octets aren't two of this size. */
static size_t pair_as_der(const uint8_t *signature, size_t len, size_t half, uint8_t *der)
{
    if (len != 2 * half)
        return 0;
    ECDSA_SIG *pair = ECDSA_SIG_new();
    CHECK(ECDSA_SIG_set0(pair, BN_bin2bn(signature, (int)half, NULL), BN_bin2bn(signature + half, (int)half, NULL)) == 1);
    int der_len = i2d_ECDSA_SIG(pair, &der);
    CHECK(der_len > 0);
    ECDSA_SIG_free(pair);
    return (size_t)der_len;
}

/* What OpenSSL says of a signature. It doesn't look at the length for PSS (RFC 8017, section 8.1.2, step 1). */
static int is_valid(const asking *it, const uint8_t *signature, size_t len)
{
    uint8_t der[160];
    EVP_PKEY_CTX *inner;
    if (EVP_PKEY_get_base_id(it->key) == EVP_PKEY_RSA && len != (size_t)EVP_PKEY_get_size(it->key))
        return 0;
    if (EVP_PKEY_get_base_id(it->key) == EVP_PKEY_EC) {
        len = pair_as_der(signature, len, (size_t)(EVP_PKEY_get_bits(it->key) + 7) / 8, der);
        signature = der;
    }
    if (len == 0)
        return 0;
    EVP_MD_CTX *context = EVP_MD_CTX_new();
    CHECK(EVP_DigestVerifyInit(context, &inner, it->alg->digest == NULL ? NULL : it->alg->digest(), NULL, it->key) == 1);
    set_padding(it->alg, inner);
    int said = EVP_DigestVerify(context, signature, len, (const uint8_t *)it->input, it->input_len);
    EVP_MD_CTX_free(context);
    return said == 1;
}

/* Judges the input with a signature. */
static void compare(const asking *it, const char *what, const uint8_t *signature, size_t signature_len, int is_good)
{
    static uint8_t token[MOST];
    char policy[64];
    fow_validator validator = FOW_VALIDATOR_INIT;
    fow_report report;
    uint32_t fault;
    memcpy(token, it->input, it->input_len);
    size_t len = it->input_len;
    token[len++] = '.';
    len += encode(signature, signature_len, (char *)token + len);
    int policy_len = sprintf(policy, "{\"algs\":[\"%s\"],\"limit\":65536}", it->alg->name);
    CHECK(fow_open(&validator, (uint8_t *)policy, (size_t)policy_len, (const uint8_t *)it->keys, strlen(it->keys), &fault) == FOW_OK);
    fow_judge(&validator, token, len, NOW, &report);
    cases++;
    asked += it->key != NULL;
    if (it->key != NULL && is_valid(it, signature, signature_len) != is_good) {
        wrong++;
        printf("%s, %s: OpenSSL says otherwise than %s\n%s\n", it->alg->name, what, is_good ? "accepted" : "refused", it->keys);
    }
    if (!is_as(&report, is_good && it->alg->is_proved)) {
        wrong++;
        printf("%s, %s: %u %s, expected %s\n%s\n", it->alg->name, what, report.verdict, fow_fault_name(report.fault), is_good ? "accepted" : "refused",
            it->keys);
    }
    fow_close(&validator);
}

/* The signing input of this number. */
static void write_numbered(asking *it, const algorithm *alg, unsigned number)
{
    char text[64];
    it->alg = alg;
    size_t len = (size_t)sprintf(text, "{\"alg\":\"%s\"}", alg->name);
    it->input_len = encode((uint8_t *)text, len, it->input);
    it->input[it->input_len++] = '.';
    len = (size_t)sprintf(text, "{\"jti\":\"%u\"}", number);
    it->input_len += encode((uint8_t *)text, len, it->input + it->input_len);
}

/* A signing input of its own, each time it is called. */
static void write_input(asking *it, const algorithm *alg)
{
    static unsigned count;
    write_numbered(it, alg, count++);
}

/* Signs the input of an asking; the size of the signature. */
static size_t sign(const asking *it, EVP_PKEY *key, uint8_t *signature, size_t room)
{
    EVP_PKEY_CTX *inner;
    EVP_MD_CTX *context = EVP_MD_CTX_new();
    CHECK(EVP_DigestSignInit(context, &inner, it->alg->digest == NULL ? NULL : it->alg->digest(), NULL, key) == 1);
    set_padding(it->alg, inner);
    CHECK(EVP_DigestSign(context, signature, &room, (const uint8_t *)it->input, it->input_len) == 1);
    EVP_MD_CTX_free(context);
    return room;
}

/* Octets that are no signature whatever the key: of each of these lengths zeros, ones and others. */
static void compare_constants(const asking *it, size_t len)
{
    const size_t lens[] = { 0, 1, len / 2, len - 1, len, len + 1, 2 * len };
    for (size_t i = 0; i < sizeof lens / sizeof *lens; i++)
        for (int fill = 0; fill < 4; fill++) {
            uint8_t octets[4096] = { 0 };
            memset(octets, fill == 2 ? 255 : 0, lens[i]);
            if (fill == 3)
                draw_octets(octets, (int)lens[i]);
            if (fill == 1 && lens[i] != 0)
                octets[lens[i] - 1] = 1;
            compare(it, "constant", octets, lens[i], 0);
        }
}

/* Signatures with one bit changed. */
static void compare_changed(const asking *it, const uint8_t *signature, size_t len, int count)
{
    uint8_t other[4096];
    for (int i = 0; i < count; i++) {
        size_t bit = (draw() | (size_t)draw() << 8) % (8 * len);
        memcpy(other, signature, len);
        other[bit / 8] ^= (uint8_t)(1 << bit % 8);
        compare(it, "one bit changed", other, len, 0);
    }
}

/* ---- RSA */

static EVP_PKEY *rsa_key(unsigned bits, const char *exponent)
{
    EVP_PKEY *key = NULL;
    BIGNUM *e = NULL;
    EVP_PKEY_CTX *context = EVP_PKEY_CTX_new_from_name(NULL, "RSA", NULL);
    CHECK(BN_dec2bn(&e, exponent) != 0 && EVP_PKEY_keygen_init(context) == 1);
    CHECK(EVP_PKEY_CTX_set_rsa_keygen_bits(context, (int)bits) == 1 && EVP_PKEY_CTX_set1_rsa_keygen_pubexp(context, e) == 1);
    CHECK(EVP_PKEY_keygen(context, &key) == 1);
    BN_free(e);
    EVP_PKEY_CTX_free(context);
    return key;
}

/* The key set of a modulus and an exponent, which so many zeros lead. */
static void write_rsa_key(asking *it, const BIGNUM *n, const BIGNUM *e, size_t zeros)
{
    uint8_t octets[2048] = { 0 };
    char *at = it->keys + sprintf(it->keys, "{\"keys\":[{\"kty\":\"RSA\",\"n\":\"");
    at += encode(octets, zeros + (size_t)BN_bn2bin(n, octets + zeros), at);
    at += sprintf(at, "\",\"e\":\"");
    memset(octets, 0, zeros);
    at += encode(octets, zeros + (size_t)BN_bn2bin(e, octets + zeros), at);
    strcpy(at, "\"}]}");
}

/* Other octets that spell the same number, or one that is as much modulo n. */
static void compare_spellings(const asking *it, const uint8_t *signature, size_t len, const BIGNUM *n)
{
    uint8_t other[2048] = { 0 };
    memcpy(other + 1, signature, len);
    compare(it, "a zero before the signature", other, len + 1, 0);
    compare(it, "a zero behind it", other + 1, len + 1, 0);
    if (signature[0] == 0)
        compare(it, "without the zero that leads it", signature + 1, len - 1, 0);
    BIGNUM *number = BN_bin2bn(signature, (int)len, NULL);
    CHECK(BN_add(number, number, n) == 1);
    if ((size_t)BN_num_bytes(number) <= len) {
        CHECK(BN_bn2binpad(number, other, (int)len) == (int)len);
        compare(it, "n more", other, len, 0);
    }
    CHECK(BN_bn2binpad(n, other, (int)len) == (int)len);
    compare(it, "n itself", other, len, 0);
    BN_free(number);
}

/* Signs an encoded message as it stands, by the private key. */
static void compare_encoded(const asking *it, const char *what, EVP_PKEY *key, const uint8_t *encoded, size_t len)
{
    uint8_t signature[2048];
    size_t signature_len = sizeof signature;
    EVP_PKEY_CTX *context = EVP_PKEY_CTX_new_from_pkey(NULL, key, NULL);
    CHECK(EVP_PKEY_sign_init(context) == 1 && EVP_PKEY_CTX_set_rsa_padding(context, RSA_NO_PADDING) == 1);
    if (EVP_PKEY_sign(context, signature, &signature_len, encoded, len) == 1)
        compare(it, what, signature, signature_len, 0);
    EVP_PKEY_CTX_free(context);
}

/* Encodings that whoever has a key with a small exponent needs no private key for: each rule of the padding is broken in turn. */
static void compare_paddings(const asking *it, EVP_PKEY *key, const uint8_t *signature, size_t len)
{
    uint8_t right[2048], other[2048];
    size_t right_len = sizeof right;
    EVP_PKEY_CTX *context = EVP_PKEY_CTX_new_from_pkey(NULL, key, NULL);
    CHECK(EVP_PKEY_encrypt_init(context) == 1 && EVP_PKEY_CTX_set_rsa_padding(context, RSA_NO_PADDING) == 1);
    CHECK(EVP_PKEY_encrypt(context, right, &right_len, signature, len) == 1 && right_len == len);
    EVP_PKEY_CTX_free(context);
    const size_t places[] = { 0, 1, 2, 3, 5, 9, 10, 11, 12, len / 2, len - 70, len - 52, len - 33, len - 20, len - 2, len - 1 };
    for (size_t i = 0; i < sizeof places / sizeof *places; i++) {
        memcpy(other, right, len);
        other[places[i]] ^= i % 3 == 0 ? 1 : i % 3 == 1 ? 0x80 : 0xff;
        compare_encoded(it, "another encoding", key, other, len);
    }
    memset(other, 0xff, len);
    memcpy(other, "\0\1", 2);
    compare_encoded(it, "padding without an end", key, other, len);
    memcpy(other, "\0\1\xff\xff\0", 5);
    compare_encoded(it, "padding too short", key, other, len);
    memset(other, 0, len);
    compare_encoded(it, "an encoding of zeros", key, other, len);
    memcpy(other, right, len);
    memmove(other + 2, other + 10, len - 10);
    compare_encoded(it, "octets behind the digest", key, other, len);
}

/* Where a zero leads the signature it has another spelling, if its length isn't looked at: such a message is looked for. */
static void compare_leading_zero(asking *it, EVP_PKEY *key, const BIGNUM *n)
{
    uint8_t signature[2048];
    for (int tries = 0; tries < 2000; tries++) {
        write_input(it, &rsa[3]);
        size_t len = sign(it, key, signature, sizeof signature);
        if (signature[0] == 0) {
            compare_spellings(it, signature, len, n);
            return;
        }
    }
    CHECK(!"no signature begins with a zero");
}

static void compare_rsa(unsigned bits, const char *exponent, int is_taken, int messages)
{
    static asking it;
    uint8_t signature[2048];
    BIGNUM *n = NULL, *e = NULL;
    EVP_PKEY *key = rsa_key(bits, exponent);
    CHECK(EVP_PKEY_get_bn_param(key, OSSL_PKEY_PARAM_RSA_N, &n) == 1 && EVP_PKEY_get_bn_param(key, OSSL_PKEY_PARAM_RSA_E, &e) == 1);
    for (size_t a = 0; a < sizeof rsa / sizeof *rsa; a++)
        for (int m = 0; m < messages; m++) {
            write_input(&it, &rsa[a]);
            write_rsa_key(&it, n, e, (size_t)m % 3);
            it.key = is_taken ? key : NULL;
            size_t len = sign(&it, key, signature, sizeof signature);
            compare(&it, "signed", signature, len, is_taken);
            compare_spellings(&it, signature, len, n);
            compare_changed(&it, signature, len, 3);
            if (m == 0) {
                compare_constants(&it, len);
                if (is_taken && bits <= 2057)
                    compare_paddings(&it, key, signature, len);
            }
        }
    if (is_taken && bits == 2048 && strcmp(exponent, "65537") == 0)
        compare_leading_zero(&it, key, n);
    BN_free(n);
    BN_free(e);
    EVP_PKEY_free(key);
}

/* ---- EdDSA */

static const algorithm ed25519 = { "EdDSA", NULL, 0, 1 }, ed448 = { "EdDSA", NULL, 0, 0 };

static void write_okp_key(asking *it, const char *curve, const uint8_t *x, size_t len)
{
    char *at = it->keys + sprintf(it->keys, "{\"keys\":[{\"kty\":\"OKP\",\"crv\":\"%s\",\"x\":\"", curve);
    at += encode(x, len, at);
    strcpy(at, "\"}]}");
}

/* The group order of Ed25519 and of Ed448, the least significant octet first, and p of both. */
static const char *const orders[] = { "1000000000000000000000000000000014def9dea2f79cd65812631a5cf5d3ed",
    "3fffffffffffffffffffffffffffffffffffffffffffffffffffffff7cca23e9c44edb49aed63690216cc2728dc58f552378c292ab5844f3" };
static const char *const fields[] = { "7fffffffffffffffffffffffffffffffffffffffffffffffffffffffffffffed",
    "fffffffffffffffffffffffffffffffffffffffffffffffffffffffeffffffffffffffffffffffffffffffffffffffffffffffffffffffff" };

/* S with so many times the order more, where it has room, and S of the order itself. */
static void compare_orders(const asking *it, const uint8_t *signature, size_t half, const char *order)
{
    uint8_t other[128];
    BIGNUM *l = NULL, *s = BN_lebin2bn(signature + half, (int)half, NULL);
    CHECK(BN_hex2bn(&l, order) != 0);
    memcpy(other, signature, 2 * half);
    CHECK(BN_bn2lebinpad(l, other + half, (int)half) == (int)half);
    compare(it, "S is the order", other, 2 * half, 0);
    for (int i = 0; i < 7; i++) {
        CHECK(BN_add(s, s, l) == 1);
        if (BN_bn2lebinpad(s, other + half, (int)half) == (int)half)
            compare(it, "S and the order", other, 2 * half, 0);
    }
    BN_free(l);
    BN_free(s);
}

/* Keys of small order, under which R = A's multiples and S = 0 hold of many messages; y of p and more; and octets that spell no point. */
static void compare_weak_keys(asking *it, const char *curve, size_t half, const char *p)
{
    static const char *const smalls[] = { "00", "01", "05fc536d880238b13933c6d305acdfd5f098eff289f4c345b027b2c28f95e826",
        "7a03ac9277fdc74ec6cc392cfa53202a0f67100d760b3cba4fd84d3d706a17c7" };
    uint8_t x[64], signature[128] = { 0 };
    BIGNUM *y = NULL, *field = NULL;
    CHECK(BN_hex2bn(&field, p) != 0);
    for (int i = 0; i < 26; i++)
        for (int sign = 0; sign < 2; sign++) {
            if (i < 4)
                CHECK(BN_hex2bn(&y, smalls[half == 32 || i < 2 ? i : 0]) != 0);
            else /* p - 1, p, p + 1 .. */
                CHECK(BN_copy(y, field) != NULL && (i == 4 ? BN_sub_word(y, 1) : BN_add_word(y, (BN_ULONG)i - 5)) == 1);
            if (BN_bn2lebinpad(y, x, (int)half) != (int)half)
                continue;
            x[half - 1] |= (uint8_t)(sign << 7);
            write_okp_key(it, curve, x, half);
            memset(signature, 0, sizeof signature);
            for (int m = 0; m < 3; m++) {
                write_input(it, it->alg);
                compare(it, "a weak key, R of zeros", signature, 2 * half, 0);
                memcpy(signature, x, half);
                compare(it, "a weak key, R of its octets", signature, 2 * half, 0);
                memset(signature, 0, half);
                signature[0] = 1;
                compare(it, "a weak key, R neutral", signature, 2 * half, 0);
                signature[0] = 0;
            }
        }
    BN_free(y);
    BN_free(field);
}

/* A key of mixed order, aB and a point of order 8, and signatures made by a: they hold where k modulo the group's order is a multiple of 8, and the
 * verifiers have to reduce it alike (RFC 8032, section 6). */
static void compare_mixed_order(asking *it)
{
    static const char key[] = "7404f7f1f2ba43bd0d7942da06fdd730cf4ca4e94d10a70528484102e7b9c831";
    static const struct {
        int jti, is_good;
        const char *signature;
    } cases[] = {
        { 0, 0, "72e6529f8c273f1fc66688cf15ab63195702c173034b6346c210131b799791277e0fc310b1d4eb1e5948fa4f4b2ea845d5e83c00d3cd89b077cc88969162c300" },
        { 1, 0, "5c0c9c44a868c1fd977193e6668801245d542b1f38f4cad5473392afa0f7832c025914e10c08bb06c08233ad5d1594e4063ba7573149cd3fe5d8bfccbc7d4502" },
        { 28, 1, "efb24f69d21105c7d5efcce06847994ace0120d97fcb241deff84dea4f3f321ccf4df70bc68b272dc00e4ea2625090eb40e9033b290c5a8e892388013bdc6205" },
        { 33, 1, "f43b1bc151b10d3500e9fc2971c506fa9dd1a3cab41461a9b627ab4e9d028d242a992255271eebaeab53b7ca6d1b27e05516850d84cb2cd87b09d8a10eacc106" },
        { 48, 1, "4ea47c5b2af0a92cc26f510fe9d48b7aca519226317f9d37df9c49e10269ce5b7c4ed080997e744c568d155cddcf92e1b9544fce366f456e14e81bf873fc9007" },
    };
    uint8_t x[32], signature[64];
    size_t len;
    CHECK(OPENSSL_hexstr2buf_ex(x, sizeof x, &len, key, 0) == 1 && len == sizeof x);
    write_okp_key(it, "Ed25519", x, sizeof x);
    for (size_t i = 0; i < sizeof cases / sizeof *cases; i++) {
        CHECK(OPENSSL_hexstr2buf_ex(signature, sizeof signature, &len, cases[i].signature, 0) == 1 && len == sizeof signature);
        write_numbered(it, &ed25519, (unsigned)cases[i].jti);
        compare(it, "a key of mixed order", signature, sizeof signature, cases[i].is_good);
    }
}

static void compare_eddsa(const algorithm *alg, const char *curve, size_t half, int which, int keys)
{
    static asking it;
    uint8_t secret[64], x[64], signature[128];
    for (int i = 0; i < keys; i++) {
        size_t x_len = sizeof x;
        draw_octets(secret, (int)half);
        EVP_PKEY *key = EVP_PKEY_new_raw_private_key_ex(NULL, half == 32 ? "ED25519" : "ED448", NULL, secret, half);
        CHECK(key != NULL && EVP_PKEY_get_raw_public_key(key, x, &x_len) == 1 && x_len == half);
        write_okp_key(&it, curve, x, half);
        it.key = key;
        write_input(&it, alg);
        size_t len = sign(&it, key, signature, sizeof signature);
        compare(&it, "signed", signature, len, 1);
        compare(&it, "an octet less", signature, len - 1, 0);
        compare_changed(&it, signature, len, 12);
        compare_orders(&it, signature, half, orders[which]);
        if (i == 0)
            compare_constants(&it, len);
        it.key = NULL;
        x[draw() % half] ^= (uint8_t)(1 << draw() % 8);
        write_okp_key(&it, curve, x, half);
        compare(&it, "another key, or none", signature, len, 0);
        EVP_PKEY_free(key);
    }
    compare_weak_keys(&it, curve, half, fields[which]);
    if (half == 32)
        compare_mixed_order(&it);
}

/* ---- ECDSA */

typedef struct ec_curve {
    algorithm alg;
    const char *name;
    int number;
    size_t half;
} ec_curve;

static const ec_curve ec[] = {
    { { "ES256", EVP_sha256, 0, 1 }, "P-256", NID_X9_62_prime256v1, 32 },
    { { "ES384", EVP_sha384, 0, 1 }, "P-384", NID_secp384r1, 48 },
    { { "ES512", EVP_sha512, 0, 1 }, "P-521", NID_secp521r1, 66 },
};

/* The numbers that the cases of a curve are made of. */
typedef struct ec_numbers {
    BIGNUM *p, *n, *x, *y, *d, *r, *s;
    BN_CTX *context;
} ec_numbers;

static void write_ec_key(asking *it, const ec_curve *curve, const BIGNUM *x, const BIGNUM *y)
{
    uint8_t octets[128];
    char *at = it->keys + sprintf(it->keys, "{\"keys\":[{\"kty\":\"EC\",\"crv\":\"%s\",\"x\":\"", curve->name);
    CHECK(BN_bn2binpad(x, octets, (int)curve->half) == (int)curve->half);
    at += encode(octets, curve->half, at);
    at += sprintf(at, "\",\"y\":\"");
    CHECK(BN_bn2binpad(y, octets, (int)curve->half) == (int)curve->half);
    at += encode(octets, curve->half, at);
    strcpy(at, "\"}]}");
}

/* A key whose d is drawn. */
static EVP_PKEY *ec_key(const ec_curve *curve, ec_numbers *is)
{
    uint8_t point[133];
    EVP_PKEY *key = NULL;
    EC_GROUP *group = EC_GROUP_new_by_curve_name(curve->number);
    EC_POINT *q = EC_POINT_new(group);
    OSSL_PARAM_BLD *build = OSSL_PARAM_BLD_new();
    EVP_PKEY_CTX *context = EVP_PKEY_CTX_new_from_name(NULL, "EC", NULL);
    CHECK(EC_GROUP_get_curve(group, is->p, NULL, NULL, is->context) == 1 && BN_copy(is->n, EC_GROUP_get0_order(group)) != NULL);
    CHECK(BN_priv_rand_range(is->d, is->n) == 1 && EC_POINT_mul(group, q, is->d, NULL, NULL, is->context) == 1);
    CHECK(EC_POINT_get_affine_coordinates(group, q, is->x, is->y, is->context) == 1);
    size_t len = EC_POINT_point2oct(group, q, POINT_CONVERSION_UNCOMPRESSED, point, sizeof point, is->context);
    CHECK(OSSL_PARAM_BLD_push_utf8_string(build, OSSL_PKEY_PARAM_GROUP_NAME, curve->name, 0) == 1
        && OSSL_PARAM_BLD_push_octet_string(build, OSSL_PKEY_PARAM_PUB_KEY, point, len) == 1
        && OSSL_PARAM_BLD_push_BN(build, OSSL_PKEY_PARAM_PRIV_KEY, is->d) == 1);
    OSSL_PARAM *params = OSSL_PARAM_BLD_to_param(build);
    CHECK(EVP_PKEY_fromdata_init(context) == 1 && EVP_PKEY_fromdata(context, &key, EVP_PKEY_KEYPAIR, params) == 1);
    OSSL_PARAM_free(params);
    OSSL_PARAM_BLD_free(build);
    EVP_PKEY_CTX_free(context);
    EC_POINT_free(q);
    EC_GROUP_free(group);
    return key;
}

static void compare_pair(const asking *it, const ec_curve *curve, const char *what, const BIGNUM *r, const BIGNUM *s, int is_good)
{
    uint8_t joined[132];
    if (BN_bn2binpad(r, joined, (int)curve->half) == (int)curve->half
        && BN_bn2binpad(s, joined + curve->half, (int)curve->half) == (int)curve->half)
        compare(it, what, joined, 2 * curve->half, is_good);
}

/* r and s out of their range; s taken from n, which JOSE allows; and an r for which the sum is the point at infinity: -e / d. */
static void compare_pairs(const asking *it, const ec_curve *curve, ec_numbers *is)
{
    uint8_t digest[EVP_MAX_MD_SIZE];
    unsigned len;
    BIGNUM *zero = BN_new(), *other = BN_new();
    CHECK(BN_sub(other, is->n, is->s) == 1);
    compare_pair(it, curve, "n - s", is->r, other, 1);
    CHECK(BN_add(other, is->n, is->r) == 1);
    compare_pair(it, curve, "n + r", other, is->s, 0);
    CHECK(BN_add(other, is->n, is->s) == 1);
    compare_pair(it, curve, "n + s", is->r, other, 0);
    const BIGNUM *const out[] = { zero, BN_value_one(), is->n, is->p };
    for (int i = 0; i < 4; i++)
        for (int k = 0; k < 4; k++)
            compare_pair(it, curve, "no pair", out[i], out[k], 0);
    for (int i = 0; i < 4; i++) {
        compare_pair(it, curve, "another s", is->r, out[i], 0);
        compare_pair(it, curve, "another r", out[i], is->s, 0);
    }
    CHECK(EVP_Digest(it->input, it->input_len, digest, &len, curve->alg.digest(), NULL) == 1);
    CHECK(BN_bin2bn(digest, (int)len, zero) != NULL && BN_mod_inverse(other, is->d, is->n, is->context) != NULL);
    CHECK(BN_mod_mul(other, other, zero, is->n, is->context) == 1 && BN_sub(other, is->n, other) == 1);
    compare_pair(it, curve, "the point at infinity", other, is->s, 0);
    BN_free(zero);
    BN_free(other);
}

/* Keys that are no points, or are spelled by p more: a coordinate of P-521 has room for that. */
static void compare_points(asking *it, const ec_curve *curve, const ec_numbers *is)
{
    BIGNUM *other = BN_new();
    CHECK(BN_add(other, is->x, BN_value_one()) == 1);
    write_ec_key(it, curve, other, is->y);
    compare_pair(it, curve, "a point off the curve", is->r, is->s, 0);
    BN_zero(other);
    write_ec_key(it, curve, other, other);
    compare_pair(it, curve, "a point of zeros", is->r, is->s, 0);
    for (int i = 0; i < 2; i++) {
        CHECK(BN_add(other, i == 0 ? is->x : is->y, is->p) == 1);
        if ((size_t)BN_num_bytes(other) > curve->half)
            continue;
        write_ec_key(it, curve, i == 0 ? other : is->x, i == 0 ? is->y : other);
        compare_pair(it, curve, "a coordinate and p", is->r, is->s, 0);
    }
    BN_free(other);
}

static void compare_ecdsa(const ec_curve *curve, int keys)
{
    static asking it;
    uint8_t der[160], joined[132];
    ec_numbers is = { BN_new(), BN_new(), BN_new(), BN_new(), BN_new(), NULL, NULL, BN_CTX_new() };
    for (int i = 0; i < keys; i++) {
        EVP_PKEY *key = ec_key(curve, &is);
        write_ec_key(&it, curve, is.x, is.y);
        it.key = key;
        write_input(&it, &curve->alg);
        size_t len = sign(&it, key, der, sizeof der);
        const uint8_t *at = der;
        ECDSA_SIG *pair = d2i_ECDSA_SIG(NULL, &at, (long)len);
        is.r = BN_dup(ECDSA_SIG_get0_r(pair));
        is.s = BN_dup(ECDSA_SIG_get0_s(pair));
        compare_pair(&it, curve, "signed", is.r, is.s, 1);
        compare(&it, "DER", der, len, 0);
        CHECK(BN_bn2binpad(is.r, joined, (int)curve->half) > 0 && BN_bn2binpad(is.s, joined + curve->half, (int)curve->half) > 0);
        compare_changed(&it, joined, 2 * curve->half, 8);
        compare_pairs(&it, curve, &is);
        if (i == 0)
            compare_constants(&it, 2 * curve->half);
        it.key = NULL;
        compare_points(&it, curve, &is);
        BN_free(is.r);
        BN_free(is.s);
        ECDSA_SIG_free(pair);
        EVP_PKEY_free(key);
    }
    BIGNUM *const numbers[] = { is.p, is.n, is.x, is.y, is.d };
    for (size_t i = 0; i < sizeof numbers / sizeof *numbers; i++)
        BN_free(numbers[i]);
    BN_CTX_free(is.context);
}

static void say(const char *kind)
{
    static long before;
    printf("%s: %ld cases\n", kind, cases - before);
    before = cases;
}

int main(int count, char **words)
{
    if (count > 1)
        drawn ^= strtoull(words[1], NULL, 10);
    CHECK(RAND_set_rand_method(&fixed) == 1);
    compare_rsa(1536, "65537", 0, 1);
    compare_rsa(2047, "65537", 0, 1);
    compare_rsa(2048, "3", 1, 6);
    compare_rsa(2048, "65537", 1, 6);
    compare_rsa(2048, "18446744073709551557", 1, 3);
    compare_rsa(2048, "18446744073709551629", 0, 1); /* 65 bits */
    compare_rsa(2049, "17", 1, 5);
    compare_rsa(2050, "65537", 1, 3);
    compare_rsa(2056, "65537", 1, 3);
    compare_rsa(2057, "3", 1, 3);
    compare_rsa(3072, "65537", 1, 1);
    say("RSA");
    compare_eddsa(&ed25519, "Ed25519", 32, 0, 40);
    say("Ed25519");
    compare_eddsa(&ed448, "Ed448", 57, 1, 6);
    say("Ed448");
    for (size_t i = 0; i < sizeof ec / sizeof *ec; i++) {
        compare_ecdsa(&ec[i], 12);
        say(ec[i].alg.name);
    }
    printf("%ld cases, OpenSSL asked too of %ld, %ld not as they must be\n", cases, asked, wrong);
    return wrong != 0;
}
