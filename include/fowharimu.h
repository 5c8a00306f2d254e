/* Fowharimu for C and C++: validates JSON Web Tokens (RFC 7519) signed as JWS (RFC 7515).
 *
 *     fow_validator validator = FOW_VALIDATOR_INIT;
 *     fow_report report;
 *     uint32_t fault;
 *     if (fow_abi() != FOW_ABI) { ... the library that was loaded has another interface than this header }
 *     if (fow_open(&validator, policy, policy_len, keys, keys_len, &fault) != FOW_OK) { ... }
 *     if (fow_judge(&validator, token, token_len, now, &report) == FOW_OK) { ... it is accepted; every other verdict is none ... }
 *     ... the next token ...
 *     fow_close(&validator);
 *
 * Every signature, in every caller, is verified by proved code. What is proved is said function by function below, and exactly by the clauses in crates/jwt_c/src. Besides, of each call that writes to `out`: with
 * any status but FOW_OK it writes nothing, neither there nor to *written, and with FOW_OK what stands behind its octets stays as it was. That
 * FOW_OUT_OF_MEMORY comes only where memory was refused is tested, and isn't proved. All of it holds for callers that keep to these premises, which C
 * can't check:
 *
 *  - A fow_validator is zeroed before its first use (FOW_VALIDATOR_INIT), is changed by these functions alone, and is used by one
 *    call at a time. It isn't copied while it holds something, but may be moved: assigned to another place, after which the old one
 *    isn't used until it is zeroed. Another thread may use it after a lock or a join. Validators
 *    that were opened beside one another (fow_open_beside) may be used by as many threads at once. The same holds of a fow_access
 *    (FOW_ACCESS_INIT) and of a fow_possession (FOW_POSSESSION_INIT), which each thread opens for itself, and of a fow_once
 *    (FOW_ONCE_INIT), which threads share under a lock.
 *  - A pointer with a length beside it is to so many readable octets (const) or writable octets (else), fewer than 2^63. It
 *    isn't NULL, even where the length is 0: hand in the address of any octet then. Every other pointer is to one readable and
 *    writable value of its type, and isn't NULL.
 *  - What a call writes to doesn't overlap with what it is handed, nor with the validator, the access rule and the memory.
 *  - A bool is 0 or 1.
 *  - malloc, realloc and free are those of one allocator, and no call is made from a signal handler.
 *
 * A validator, an access rule or a memory that was never opened, or was closed, is no error: a call answers FOW_NOT_OPEN then. Nothing is leaked where
 * memory is refused. Each call ends. Nothing is promised of time, or of keys that are left in memory. An open validator keeps
 * what reading a token needs from one fow_judge to the next: 16 KiB, and room that grows with the longest token that was judged.
 *
 * A thread that calls these functions has at least 128 KiB of stack: JSON may nest 127 levels deep in a token, a
 * policy, a key set and claims, and who reads it calls itself for each. (Tested: tests/c/stack.c.) */
#ifndef FOWHARIMU_H
#define FOWHARIMU_H

#include <stdbool.h>
#include <stddef.h>
#include <stdint.h>

#ifdef __cplusplus
extern "C" {
#endif

/* The number of this interface. It grows with each change of a struct, of a number, or of what a call means, and with each call that goes: so a
 * program that was compiled with this header asks whether the library that it loaded has the same. */
#define FOW_ABI 5

/* The number of the interface that the library has: FOW_ABI of the header that it was built with. It needs no validator. It is C, and tested. */
uint32_t fow_abi(void);

/* The library's version, such as "0.1.0". It isn't to be freed. It is C, and tested. */
const char *fow_version(void);

/* How many keys fow_open prepares at most. */
#define FOW_PREPARED 16

/* A policy, a key set, and the last report. The members are private. */
typedef struct fow_validator {
    void *at;
    bool held;
} fow_validator;

#define FOW_VALIDATOR_INIT { NULL, false }

/* What a call answers. Take each but FOW_OK for a refusal. No status is 2. */
enum fow_status {
    FOW_OK = 0,            /* done; of a verdict: the token is accepted */
    FOW_REFUSED = 1,       /* refused, for the fault that is named */
    FOW_OUT_OF_MEMORY = 3, /* an allocation was refused */
    FOW_NOT_OPEN = 4,      /* the validator, or what stands beside it, holds nothing */
    FOW_TOO_SHORT = 5,     /* what is to be written has more octets than there is room for */
    FOW_ABSENT = 6,        /* there is no such thing */
    FOW_DENIED = 7,        /* of fow_denied alone: the accepted token may not do this */
    FOW_UNNAMED = 8,       /* of fow_unverified_issuer alone: the token names no issuer */
    FOW_NOT_EXPECTED = 9   /* of fow_expect_text, fow_expect_half_hash and fow_possession_fresh alone: the accepted token, or proof, hasn't what is expected of it */
};

/* Why something is refused: one number for each name that the program `jwt` prints. fow_fault_name gives the name. */
enum fow_fault {
    FOW_NO_FAULT = 0,

    /* why a policy is refused */
    FOW_POLICY_JSON = 101,         /* no JSON text in UTF-8, or no object */
    FOW_POLICY_NAME_TWICE = 102,   /* a name stands twice in one object, at any depth */
    FOW_POLICY_MEMBER = 103,       /* a member is unknown, or of another kind; fow_refused_member names it */
    FOW_POLICY_RANGE = 104,        /* a member's value is out of its range; fow_refused_member names it */
    FOW_POLICY_NO_ALGORITHM = 105, /* the list `algs` is absent or empty */
    FOW_POLICY_TOO_LONG = 106,     /* more than 65,536 octets */

    /* why a key set is refused */
    FOW_KEYS_JSON = 201,          /* no JSON text in UTF-8 */
    FOW_KEYS_NOT_KEY_SET = 202,   /* no object, or one without a list `keys` */
    FOW_KEYS_NAME_TWICE = 203,    /* a name stands twice in one object, at any depth */
    FOW_KEYS_TOO_MANY_KEYS = 204, /* more than 1,024 entries */
    FOW_KEYS_TOO_LONG = 205,      /* more than 4,194,304 octets */

    /* why octets aren't read as a token */
    FOW_TEXT_READ = 301,     /* the source failed; it doesn't come from these functions */
    FOW_TEXT_TOO_LONG = 302, /* more octets than the policy's `limit` */

    /* why octets are no signed token (RFC 7515, section 7) */
    FOW_FORM_EMPTY = 401,               /* there are no octets */
    FOW_FORM_ENCRYPTED = 402,           /* an encrypted token (RFC 7516) */
    FOW_FORM_SEGMENTS = 403,            /* compact form with another number of periods than two and four */
    FOW_FORM_JSON = 404,                /* it begins as an object, and is no JSON text */
    FOW_FORM_NAME_TWICE = 405,          /* a name is doubled in an object of the JSON form */
    FOW_FORM_MEMBERS = 406,             /* a member is missing, of another kind, or not to be there */
    FOW_FORM_TOO_MANY_SIGNATURES = 407, /* more signatures than the policy allows */
    FOW_FORM_BASE64 = 408,              /* a text is no base64url; the part, and where it isn't the payload its signature */
    FOW_FORM_HEADER = 409,              /* the protected header of this signature is no object text */
    FOW_FORM_UNPROTECTED_KIND = 410,    /* the member `header` of this signature is no object */
    FOW_FORM_NAMES_OVERLAP = 411,       /* a name is in both headers of this signature */

    /* a ceiling was reached before this signature was tried with this key */
    FOW_WORK_EXCEEDED = 501,  /* the octets of HMAC would exceed the policy's `work` */
    FOW_CALLS_EXCEEDED = 502, /* there were as many tries as the policy's `max_calls`, or 64 where it names none */

    /* why this signature isn't verified */
    FOW_SIG_ALG_MISSING = 601,     /* the protected header has no text `alg` */
    FOW_SIG_ALG_NONE = 602,        /* `alg` is `none` */
    FOW_SIG_ALG_UNKNOWN = 603,     /* `alg` is unknown */
    FOW_SIG_ALG_NOT_ALLOWED = 604, /* `alg` isn't among the policy's `algs` */
    FOW_SIG_NO_VERIFIER = 605,     /* no verifier names `alg`; it doesn't come from fow_judge, whose verifiers name each */
    FOW_SIG_KEY_URL = 606,         /* the header has `jku` or `x5u` */
    FOW_SIG_ENC_HEADER = 607,      /* the header has `enc` */
    FOW_SIG_UNENCODED = 608,       /* the header has `b64` (RFC 7797) */
    FOW_SIG_CRIT_SHAPE = 609,      /* `crit` has another shape than RFC 7515, section 4.1.11, gives it */
    FOW_SIG_CRIT_UNKNOWN = 610,    /* a name in `crit` isn't among the policy's `understood` */
    FOW_SIG_TYP_SHAPE = 611,       /* `typ` or `cty` is no text */
    FOW_SIG_TYP_MISMATCH = 612,    /* `typ` isn't the policy's */
    FOW_SIG_NESTED = 613,          /* `cty` says that the payload is a token again */
    FOW_SIG_KID_SHAPE = 614,       /* `kid` is no text */
    FOW_SIG_KID_MISSING = 615,     /* the policy has `need_kid`, and there is no `kid` */
    FOW_SIG_NO_KEY = 616,          /* no key of the set is eligible */
    FOW_SIG_BAD_SIGNATURE = 617,   /* no eligible key verified it */

    /* why claims are refused (RFC 7519, section 4) */
    FOW_CLAIM_CLAIMS_SHAPE = 701, /* the payload is no object text */
    FOW_CLAIM_KIND = 702,         /* this registered claim has another kind */
    FOW_CLAIM_DATE = 703,         /* this date is no whole number of 64 bits */
    FOW_CLAIM_MISSING = 704,      /* a claim that the policy asks for is absent; fow_refused_claim names it */
    FOW_CLAIM_ISSUER = 705,       /* `iss` isn't among the policy's `issuers` */
    FOW_CLAIM_AUDIENCE = 706,     /* `aud` names no audience of the policy */
    FOW_CLAIM_EXPIRED = 707,      /* the moment is at or after `exp` and the leeway */
    FOW_CLAIM_NOT_YET = 708,      /* the moment and the leeway are before `nbf` */
    FOW_CLAIM_ISSUED_LATER = 709, /* `iat` is later than the moment and the leeway */
    FOW_CLAIM_TOO_OLD = 710,      /* the moment is later than `iat`, the policy's `max_age` and the leeway */

    /* why nothing is issued; pairs of an algorithm and a key are numbered from 0 */
    FOW_ISSUE_NO_KEY = 801,              /* there is no such key */
    FOW_ISSUE_TOO_MANY_SIGNATURES = 802, /* more than 32 keys */
    FOW_ISSUE_ALG_NOT_HMAC = 803,        /* the algorithm isn't HMAC; it doesn't come from fow_issue, which answers FOW_ABSENT */
    FOW_ISSUE_KEY_UNFIT = 804,           /* the key of this signature doesn't suit the algorithm, or may not sign */
    FOW_ISSUE_TOO_LONG = 805,            /* the token would have more than 1,048,576 octets */
    FOW_ISSUE_SPENT = 806,               /* the HMAC of this signature would cost more than 10^12 octets */

    /* why an access rule is refused; fow_access_refused names the member or the claim */
    FOW_ACCESS_JSON = 901,        /* no JSON text in UTF-8, or no object */
    FOW_ACCESS_NAME_TWICE = 902,  /* a name stands twice in one object, at any depth */
    FOW_ACCESS_MEMBER = 903,      /* a member is unknown, or of another kind */
    FOW_ACCESS_RANGE = 904,       /* a scope is no scope token, or the name of the claim that carries scopes no JSON Pointer (RFC 6901) */
    FOW_ACCESS_CLAIM = 905,       /* what is asked of this claim is of another kind */
    FOW_ACCESS_CLAIM_RANGE = 906, /* what is asked of this claim is the empty list or no number from 0 to 2^32 - 1, or its name begins with `/` and is no JSON Pointer */
    FOW_ACCESS_TOO_LONG = 907,    /* more than 65,536 octets */

    /* why an accepted token is denied; fow_denied_name names the scope or the claim */
    FOW_DENIED_SCOPE_MISSING = 1001,     /* this scope isn't granted */
    FOW_DENIED_CLAIM_MISSING = 1002,     /* this claim is absent */
    FOW_DENIED_CLAIM_NOT_ALLOWED = 1003, /* this claim has no value that is allowed */
    FOW_DENIED_CLAIM_PRESENT = 1004,     /* this claim is there, and isn't to be */
    FOW_DENIED_CLAIM_HAS_OTHER = 1005,   /* this claim has a value that isn't allowed */
    FOW_DENIED_CLAIM_NOT_OBJECT = 1006,  /* this claim is no object */
    FOW_DENIED_CLAIM_NOT_DATE = 1007,    /* this claim is no date: no whole number */
    FOW_DENIED_CLAIM_LATER = 1008,       /* this claim is a date later than the moment and the leeway */
    FOW_DENIED_CLAIM_TOO_OLD = 1009,     /* this claim is a date that is too long ago */
    FOW_DENIED_CLAIM_NOT_ASCII = 1010,   /* this claim is no text of ASCII, or has too many octets */

    /* why a policy isn't one for proofs of possession; why it is no policy is said by the faults of a policy */
    FOW_PROOF_TYP = 1101,           /* its `typ` isn't `dpop+jwt` */
    FOW_PROOF_SHARED_SECRET = 1102, /* one of its `algs` is HMAC */
    FOW_PROOF_REQUIRED = 1103,      /* `jti`, `htm`, `htu` or `iat` isn't in its `required` */
    FOW_PROOF_MAX_AGE = 1104,       /* it has no `max_age` */

    /* why a token has no key of its own that may prove anything; why it is no token, or isn't accepted by that key, is said by the faults of a token */
    FOW_PROOF_NOT_COMPACT = 1201,    /* it isn't in compact form */
    FOW_PROOF_KEY_MISSING = 1202,    /* the protected header has no member `jwk` that is an object */
    FOW_PROOF_KEY_PRIVATE = 1203,    /* the key in the header has a member of a private or of a shared key */
    FOW_PROOF_KEY_UNREADABLE = 1204, /* the key in the header can't be read */

    /* why a proof of possession is none for this request */
    FOW_PROOF_OTHER_METHOD = 1301,       /* `htm` isn't the request's method */
    FOW_PROOF_OTHER_URI = 1302,          /* `htu` isn't the request's URI, or one of the two has no normal form */
    FOW_PROOF_OTHER_NONCE = 1303,        /* `nonce` isn't the one that was asked for */
    FOW_PROOF_OTHER_ACCESS_TOKEN = 1304, /* `ath` isn't the hash of the access token that came with it */
    FOW_PROOF_OTHER_KEY = 1305,          /* the access token that came with it is bound to another key, or to none */
    FOW_PROOF_PATH_FORM = 1306,          /* the request's own path can be read in more ways than one */

    /* why a token may not be used by whoever sent it */
    FOW_BINDING_UNKNOWN = 1401,          /* it is bound in a way that isn't known: `cnf` is no object, is empty, or has a member that is neither `jkt` nor `x5t#S256` */
    FOW_BINDING_OTHER_KEY = 1402,        /* it is bound to a key, and no proof of it is kept */
    FOW_BINDING_OTHER_CERTIFICATE = 1403 /* it is bound to a certificate, and this one isn't it, or none was shown */
};

/* The part of a token that FOW_FORM_BASE64 names. */
enum fow_part { FOW_NO_PART = 0, FOW_PART_PAYLOAD = 1, FOW_PART_PROTECTED = 2, FOW_PART_SIGNATURE = 3 };

/* The registered claim that FOW_CLAIM_KIND and FOW_CLAIM_DATE name. FOW_CLAIM_MISSING always has FOW_CLAIM_BY_NAME, also where a
 * registered claim such as `exp` is missing: fow_refused_claim gives the name. */
enum fow_claim_number {
    FOW_NO_CLAIM = 0,
    FOW_ISS = 1,
    FOW_SUB = 2,
    FOW_AUD = 3,
    FOW_EXP = 4,
    FOW_NBF = 5,
    FOW_IAT = 6,
    FOW_JTI = 7,
    FOW_CLAIM_BY_NAME = 8
};

/* The report on a token. A number that neither the verdict nor the fault names is 0. */
typedef struct fow_report {
    uint64_t work;      /* the octets that were fed to HMAC */
    uint64_t tries;     /* the tries of a key on a signature that were made; fow_try_of gives each */
    uint32_t verdict;   /* enum fow_status: FOW_OK accepted, FOW_REFUSED, FOW_OUT_OF_MEMORY, FOW_NOT_OPEN */
    uint32_t fault;     /* enum fow_fault: of FOW_REFUSED why */
    uint32_t part;      /* enum fow_part */
    uint32_t signature; /* a signature's number in the token, from 0: the one that was verified or refused */
    uint32_t key;       /* a key's number among the readable keys of the set, from 0: the one that verified */
    uint32_t claim;     /* enum fow_claim_number */
} fow_report;

/* What became of a signature. */
enum fow_state_number {
    FOW_STATE_BARRED = 1,        /* no key was tried on it, for this fault */
    FOW_STATE_NO_KEY = 2,        /* no key is eligible */
    FOW_STATE_BAD_SIGNATURE = 3, /* each eligible key was tried, and none verified it */
    FOW_STATE_VERIFIED = 4,      /* this key verified it, the first that is eligible and does */
    FOW_STATE_NOT_REACHED = 5,   /* the run ended before it */
    FOW_STATE_STOPPED = 6        /* the run stopped at one of its pairs */
};

typedef struct fow_state {
    uint32_t state; /* enum fow_state_number */
    uint32_t fault; /* enum fow_fault: of FOW_STATE_BARRED why */
    uint32_t key;   /* of FOW_STATE_VERIFIED the key */
} fow_state;

/* The try of a key on a signature. */
typedef struct fow_try {
    uint64_t cost;      /* the octets that were fed to HMAC for it; 0 for a public key */
    uint32_t signature; /* the signature's number, from 0 */
    uint32_t key;       /* the key's number, from 0 */
} fow_try;

enum fow_alg {
    FOW_HS256 = 1,
    FOW_HS384 = 2,
    FOW_HS512 = 3,
    FOW_RS256 = 4,
    FOW_RS384 = 5,
    FOW_RS512 = 6,
    FOW_PS256 = 7,
    FOW_PS384 = 8,
    FOW_PS512 = 9,
    FOW_ES256 = 10, /* as JOSE allows, ECDSA takes (r, n - s) beside (r, s): such a token has two spellings */
    FOW_ES384 = 11,
    FOW_ES512 = 12,
    FOW_EDDSA = 13
};

/* The form of a token (RFC 7515, section 7). */
enum fow_form { FOW_COMPACT = 1, FOW_GENERAL = 2, FOW_FLATTENED = 3 };

/* Reads a policy and a key set. Their octets aren't needed any more after the call.
 *
 * Proved: FOW_OK: the policy, with that ceiling, and the key set that these octets spell are held from now on. FOW_REFUSED: *fault
 * says why the first of the two that is refused is refused. Where the answer isn't FOW_OK, the validator holds what it held.
 *
 * Each try of a public key costs a verification, some 40 us with RSA of 2,048 bits, and up to 1 ms with 8,192: `max_calls` in the policy bounds how many
 * are made for one token. Where the policy has no `max_calls`, and allows an algorithm with public keys, 64 are made at most, and then the token is refused
 * for FOW_CALLS_EXCEEDED; otherwise a token of 32 signatures could have each key of the set tried on each of them.
 *
 * It prepares at most FOW_PREPARED keys: see fow_open_prepared. */
uint32_t fow_open(fow_validator *validator, const uint8_t *policy, size_t policy_len, const uint8_t *keys, size_t keys_len,
    uint32_t *fault);

/* Reads a policy and a key set as fow_open does, and prepares at most `most` keys: the first ones of the set that are of P-256, P-384, P-521 or Ed25519. A signature by a prepared key is verified in about a third of the time. With 0 none
 * is prepared.
 *
 * A key costs about 0.7 ms and 64 KB on P-256, 3 ms and 144 KB on P-384, 5 ms and 295 KB on P-521, and 0.3 ms and 140 KB on Ed25519; the first
 * key of a curve costs as much again, for the base point of the curve. RSA and HMAC keys cost nothing. Validators that are opened beside this one
 * (fow_open_beside) share what is prepared. No verdict depends on it. A key for whose preparing memory is refused stays unprepared, and that
 * isn't answered FOW_OUT_OF_MEMORY. (Tested: tests/c/prepared.c.)
 *
 * Proved: FOW_OK: the policy and the key set that these octets spell are held from now on. FOW_REFUSED: *fault
 * says why the first of the two that is refused is refused. Where the answer isn't FOW_OK, the validator holds what it held. */
uint32_t fow_open_prepared(fow_validator *validator, const uint8_t *policy, size_t policy_len, const uint8_t *keys, size_t keys_len,
    size_t most, uint32_t *fault);

/* Opens a validator beside another one: on the policy and the key set that the other holds, which aren't read again. The two may be used
 * at the same time by two threads, and closed in any order: the policy and the key set are freed when the last of those that hold them
 * is closed or opened anew. Each has its own last judging. While this call runs, it has both to itself.
 *
 * Proved: FOW_OK: the policy and the key set that the other holds are held from now on. FOW_NOT_OPEN: the other
 * holds nothing. Where the answer isn't FOW_OK, the validator holds what it held. The other holds what it held. */
uint32_t fow_open_beside(fow_validator *validator, fow_validator *another);

/* Writes the name of the member for which a policy is refused (FOW_POLICY_MEMBER, FOW_POLICY_RANGE), in UTF-8, with JSON escapes undone.
 * It reads the policy's octets again, and needs no validator.
 *
 * Proved: FOW_OK: `out` begins with that name, which has *written octets. FOW_ABSENT: the policy stands, or is refused for another
 * fault. */
uint32_t fow_refused_member(const uint8_t *policy, size_t policy_len, uint8_t *out, size_t out_len, size_t *written);

/* Frees what is held. It may be called twice, and before anything was opened. Proved: the validator holds nothing. */
void fow_close(fow_validator *validator);

/* Judges a token at a moment, in seconds since 1970-01-01T00:00:00Z, by HMAC and by this library's own verifiers of RSA (RFC 7518, sections 3.3 and
 * 3.5), of ECDSA (section 3.4; SEC 1, section 4.1.4; FIPS 186-5, section 6.4.2) and of Ed25519 (RFC 8037, section 3.1), which are proved. It needs no
 * other library. It answers the verdict, which *report has too.
 *
 * RSA's keys have 2,048 to 8,192 bits. A signature by Ed25519 (RFC 8032, section 5.1.7) has an S below the group order and an R that is, octet by
 * octet, the encoding of [S]B - [k]A, and under a key of small order none is accepted. A signature by Ed448 is refused: FOW_SIG_BAD_SIGNATURE.
 *
 * Proved: what is accepted or refused, and all that *report says of it, is the verdict of validate's contract on these octets under the
 * policy, the key set, the moment and these verifiers. FOW_NOT_OPEN: nothing is held, and else it is never answered. Where the answer isn't
 * FOW_OK, no claims and no payload are kept. The policy and the key set stay. */
uint32_t fow_judge(fow_validator *validator, const uint8_t *token, size_t token_len, int64_t now, fow_report *report);

/* Remembers accepted tokens from now on: at most `tokens`, none longer than `octets` octets. The least used goes first. With 0 tokens nothing is remembered, as after fow_open and fow_open_beside.
 * This call forgets the tokens remembered so far. A validator that is opened beside another has a memory of its own.
 *
 * A remembered token is found by all its octets, and only its claims are checked again: nothing is hashed, and no signature is verified. The report has the
 * tries and the work of the judging that accepted it, and the verdict on its claims at the new moment; fow_remembered says that nothing was
 * paid now. Only accepted tokens in compact form are remembered, so only other accepted tokens push one out.
 *
 * Accepted tokens, their claims and their payloads lie in memory until they go, and aren't wiped.
 * One of 179 octets takes some 950 octets in all, one of 1,300 with 26 claims some 4,200. Where there is no memory to keep one, it isn't kept, and the verdict
 * is the same. A kept token that has expired is refused by its claims, and stays until others push it out.
 *
 * Proved: FOW_OK: so many tokens of so many octets are remembered from now on, none yet, and nothing else has changed. FOW_NOT_OPEN: nothing is
 * held. Where the answer isn't FOW_OK, the validator holds what it held. And of every judging: it remembers nothing new but its own token, where it
 * answers FOW_OK. A verdict is the one that fow_judge's contract says, remembered or not. It is remembered only where the memory holds all octets of the token. (That it is remembered, and that the least used goes first, is tested.) */
uint32_t fow_remember(fow_validator *validator, size_t tokens, size_t octets);

/* Whether the last verdict came out of a memory: then nothing was tried and nothing paid for it, though fow_try_of gives the tries that were paid
 * when the token was accepted. Proved: after an acceptance or a refusal it is true only where the memory held all octets of the token. It is false
 * where nothing is held. The validator holds what it held. (That it is true of each verdict out of a memory, and that nothing was tried then, is tested.) */
bool fow_remembered(fow_validator *validator);

/* What became of signature `signature` of the token that was judged last. Proved: FOW_OK: that is what is kept of it, which
 * after an acceptance or a refusal is what validate's report says. FOW_ABSENT: exactly where that has no such signature. FOW_NOT_OPEN:
 * nothing is held. The validator holds what it held. */
uint32_t fow_state_of(fow_validator *validator, uint32_t signature, fow_state *state);

/* Try `n`, from 0, of the last judging. Proved as with fow_state_of. */
uint32_t fow_try_of(fow_validator *validator, uint64_t n, fow_try *tried);

/* The name of the claim that the last judging found missing (FOW_CLAIM_MISSING), as the policy spells it.
 *
 * Proved: FOW_OK: `out` begins with that name, which has *written octets. FOW_ABSENT: it found none missing, or one whose name is empty.
 * FOW_NOT_OPEN: nothing is held. The validator holds what it held. */
uint32_t fow_refused_claim(fow_validator *validator, uint8_t *out, size_t out_len, size_t *written);

/* Writes the octets of the payload of the token that was accepted last, which were kept when it was judged: nothing is read again, and it takes no
 * memory. A payload has fewer octets than its token.
 *
 * Proved: FOW_OK: `out` begins with the payload of the token that was accepted last, which has *written octets. FOW_ABSENT: exactly where the last
 * verdict was no acceptance, or no token was judged yet. FOW_NOT_OPEN: nothing is held. The validator holds what it held. */
uint32_t fow_accepted_payload(fow_validator *validator, uint8_t *out, size_t out_len, size_t *written);

/* Writes the octets of the payload of a token, whether it was judged or not: judge it first. It reads the token again; fow_accepted_payload doesn't.
 *
 * Proved: FOW_OK: `out` begins with the payload, which has *written octets. FOW_ABSENT: the octets are no token under the
 * policy. FOW_NOT_OPEN: nothing is held. The validator holds what it held. */
uint32_t fow_payload(fow_validator *validator, const uint8_t *token, size_t token_len, uint8_t *out, size_t out_len,
    size_t *written);

/* Writes the octets of the protected header of signature `signature` of a token, whether it was judged or not. Nobody vouches for
 * them: a header says what anyone wrote, and may be looked at to find a key, never to trust the token.
 *
 * Proved: FOW_OK: `out` begins with the octets that the protected text of that signature spells, which are *written; of a token in
 * JSON form that has none, 0. FOW_ABSENT: the octets are no token under the policy, or it has no such signature. FOW_NOT_OPEN: nothing is
 * held. The validator holds what it held. */
uint32_t fow_unverified_header(fow_validator *validator, const uint8_t *token, size_t token_len, uint32_t signature, uint8_t *out,
    size_t out_len, size_t *written);

/* Writes the issuer that a token names, whether it was judged or not: the text of `iss` in its payload (RFC 7519, section 4.1.1), in UTF-8, with
 * JSON escapes undone. Nobody vouches for it: it may choose which validator judges the token, where the policy of each allows exactly the issuer
 * under which it is found (fow_sole_issuer), and nothing else. It is read within the limits of this validator's policy. The token's length is room
 * enough.
 *
 * Proved: FOW_OK: `out` begins with that text, which has *written octets. FOW_ABSENT: the octets are no token under the policy, and fow_judge says
 * why. FOW_UNNAMED: the payload is no text of one JSON object in which no name stands twice, or it has no text `iss`. FOW_NOT_OPEN: nothing is
 * held. The validator holds what it held. */
uint32_t fow_unverified_issuer(fow_validator *validator, const uint8_t *token, size_t token_len, uint8_t *out, size_t out_len, size_t *written);

/* Writes the issuer that the policy allows, where its `issuers` has exactly one text. It takes no memory. A policy has at most 65,536 octets, which
 * are room enough.
 *
 * Proved: FOW_OK: `out` begins with that text, which has *written octets. FOW_ABSENT: the policy allows any issuer, or several. FOW_NOT_OPEN:
 * nothing is held. What is held stays. */
uint32_t fow_sole_issuer(fow_validator *validator, uint8_t *out, size_t out_len, size_t *written);

/* The greatest number of octets of a token that the policy takes, which is its `limit`. Proved: FOW_OK: *limit is that number. FOW_NOT_OPEN: nothing
 * is held. What is held stays. */
uint32_t fow_token_limit(fow_validator *validator, uint32_t *limit);

/* Whether policy and key set are fit for keys that everyone may read, such as those at a URL: no algorithm of the policy's `algs` is HMAC, and no
 * readable key of the set is of kind `oct`. Else who reads the keys may sign by one (RFC 8725, section 2.1). A policy alone is looked at over the key
 * set {"keys":[]}. It takes no memory.
 *
 * Proved: true exactly where that is so; false where nothing is held. What is held stays. */
bool fow_documents_are_public(fow_validator *validator);

/* Writes the text of a member of a JSON object, such as `jwks_uri` of the metadata of an issuer (OpenID Connect Discovery 1.0, section 3), in UTF-8,
 * with JSON escapes undone. It needs no validator. The length of the document is room enough.
 *
 * Proved: FOW_OK: `out` begins with that text, which has *written octets. FOW_ABSENT: the octets aren't the text of one JSON object in which no name
 * stands twice, it has no such member, the member is no text, or the name isn't in UTF-8. */
uint32_t fow_text_member(const uint8_t *document, size_t document_len, const uint8_t *name, size_t name_len, uint8_t *out, size_t out_len,
    size_t *written);

/* Writes a claim of the token that was accepted last, by its name in UTF-8, as compact JSON text: of a text or a list of texts. A claim of
 * another kind stands in what fow_accepted_payload writes.
 *
 * Proved: FOW_OK: `out` begins with that text, which has *written octets. FOW_ABSENT: the last verdict was no acceptance, the
 * payload has no such claim, or it is of another kind. FOW_NOT_OPEN: nothing is held. The validator holds what it held. */
uint32_t fow_claim(fow_validator *validator, const uint8_t *name, size_t name_len, uint8_t *out, size_t out_len,
    size_t *written);

/* A claim of the token that was accepted last that is a whole number of 64 signed bits, such as `exp`. Proved: FOW_OK: *number
 * is that number. FOW_ABSENT: there is none, as with fow_claim. FOW_NOT_OPEN: nothing is held. The validator holds what it held. */
uint32_t fow_number(fow_validator *validator, const uint8_t *name, size_t name_len, int64_t *number);

/* An access rule: which scopes and which values of claims an accepted token has to have. It is a document of its own (docs/ACCESS.md), so
 * one policy may stand for a service and one rule for each of its parts. The members are private. */
typedef struct fow_access {
    void *at;
    bool held;
} fow_access;

#define FOW_ACCESS_INIT { NULL, false }

/* Reads an access rule, of at most 65,536 octets, which aren't needed after the call.
 *
 * Proved: FOW_OK: the rule that these octets say is held from now on. FOW_REFUSED: *fault says why it is refused, the first cause. Where the
 * answer isn't FOW_OK, the fow_access holds what it held. */
uint32_t fow_access_open(fow_access *access, const uint8_t *rule, size_t rule_len, uint32_t *fault);

/* Writes the name of the member, or of the claim, for which a rule is refused, in UTF-8, with JSON escapes undone. It reads the rule's
 * octets again, and needs no fow_access.
 *
 * Proved: FOW_OK: `out` begins with that name, which has *written octets. FOW_ABSENT: the rule stands, or is refused for a fault that speaks
 * of none. */
uint32_t fow_access_refused(const uint8_t *rule, size_t rule_len, uint8_t *out, size_t out_len, size_t *written);

/* Writes a scope that a rule asks for, by its number from 0 in the order of the document: what a challenge has in its `scope` where it says
 * insufficient_scope (RFC 6750, section 3.1), with a space between two. A scope has no space, no quotation mark and no backslash.
 *
 * Proved: FOW_OK: `out` begins with that scope, which has *written octets. FOW_ABSENT: there is none of this number. FOW_NOT_OPEN: nothing is
 * held. What is held stays. */
uint32_t fow_access_scope(fow_access *access, uint32_t number, uint8_t *out, size_t out_len, size_t *written);

/* Frees what is held. It may be called twice, and before anything was opened. Proved: nothing is held. */
void fow_access_close(fow_access *access);

/* Holds a rule against the claims of the token that was accepted last, at the moment of that verdict, with the policy's leeway. It takes no
 * memory. A service answers 403 to FOW_DENIED, and 401 to a token that isn't accepted (RFC 6750, section 3.1). It may be asked of as many rules
 * as there are, until the next token is judged.
 *
 * Proved: FOW_OK: the claims meet the rule. FOW_DENIED: they don't, and *denial says which demand is the first that they don't meet: scopes in
 * the order of the rule, then claims in ascending octet order of their names, then what `absent`, `only`, `objects`, `ages` and `ascii` ask.
 * FOW_ABSENT: the last verdict was no acceptance. FOW_NOT_OPEN: the validator or the rule holds nothing. Both hold what they held. */
uint32_t fow_denied(fow_validator *validator, fow_access *access, uint32_t *denial);

/* Writes the scope that isn't granted, or the name of the claim that isn't as the rule asks, in UTF-8, for the first demand that isn't met.
 *
 * Proved: FOW_OK: `out` begins with it, and it has *written octets. FOW_ABSENT: the claims meet the rule, or the last verdict was no
 * acceptance. FOW_NOT_OPEN: as of fow_denied. Both hold what they held. */
uint32_t fow_denied_name(fow_validator *validator, fow_access *access, uint8_t *out, size_t out_len, size_t *written);

/* Why a claim isn't what is expected of it. */
enum fow_unmet {
    FOW_UNMET_NOTHING = 0, /* the status says what else */
    FOW_UNMET_ABSENT = 1,  /* the claim is absent, or an object that it would stand in is */
    FOW_UNMET_OTHER = 2    /* the claim is there, and is another text, or no text */
};

/* Holds what one call knows against a claim of the token that was accepted last: the `nonce` of a login, the subject or the session of a user. The claim is
 * named as in an access rule: by its name, or by a JSON Pointer, which begins with `/` (RFC 6901). A list that holds the text isn't the text. It takes no
 * memory. Ask one expectation after another, and let through nothing but FOW_OK.
 *
 * Proved: FOW_OK: the claim is that very text, octet by octet. FOW_NOT_EXPECTED: it isn't, and *unmet says whether it is absent. FOW_REFUSED: the name or the
 * text isn't in UTF-8. FOW_ABSENT: the last verdict was no acceptance. FOW_NOT_OPEN: nothing is held. The validator holds what it held. */
uint32_t fow_expect_text(fow_validator *validator, const uint8_t *claim, size_t claim_len, const uint8_t *text, size_t text_len, uint32_t *unmet);

/* Holds the half of a hash against a claim of the token that was accepted last: with `at_hash` the octets are the access token, with `c_hash` the code
 * (OpenID Connect Core 1.0, sections 3.1.3.6 and 3.3.2.11). `token` is that token once more, and `signature` the number of the signature that verified, as its
 * report has it: its algorithm says the hash, which is SHA-512 for EdDSA. The token is read again.
 *
 * Proved: FOW_OK: the claim is base64url of the left half of the octets' hash by that algorithm. FOW_NOT_EXPECTED: it isn't, and *unmet says whether it is
 * absent. FOW_REFUSED: the name isn't in UTF-8. FOW_ABSENT: the last verdict was no acceptance, or this token has another payload than the one that was
 * accepted, or that signature didn't verify. FOW_NOT_OPEN: nothing is held. The validator holds what it held. */
uint32_t fow_expect_half_hash(fow_validator *validator, const uint8_t *token, size_t token_len, uint32_t signature, const uint8_t *claim, size_t claim_len,
    const uint8_t *octets, size_t octets_len, uint32_t *unmet);

/* A memory of tokens that count once, by their issuer and `jti` (RFC 7519, section 4.1.7): what keeps a token that was caught from being shown again, as
 * DPoP proofs, client assertions (RFC 7523) and logout tokens ask for. It is asked behind the verdict, with each token that was accepted and that no access
 * rule denies, as the last step before the request is let through. It takes some 190 octets for each token that it holds, and 310 where that has a `sub`. The members are private.
 *
 * One memory lets a token in once. A process that has one of its own lets each token in once a process, and several processes or machines need one store
 * that they share. Such a store has to do in one step what fow_once_take does (fow_once_entry, docs/ONCE.md); and where it can't be asked, or has no room, the token
 * is refused.
 *
 * It may be asked about by as many validators as there are, whatever their policies: what it has let go of is FOW_TAKEN_LATE to all of them from then on, also to one
 * with a longer `leeway`. A fow_once is used by one call at a time: the lock that threads need is the caller's. Take it for the call alone. */
typedef struct fow_once {
    void *at;
    bool held;
} fow_once;

#define FOW_ONCE_INIT { NULL, false }

/* What became of a token that is asked about. */
enum fow_taken {
    FOW_TAKEN_NOTHING = 0, /* nothing was taken, for another reason than those below; the status says it */
    FOW_TAKEN_NEW = 1,     /* it wasn't taken before, and is held from now on */
    FOW_TAKEN_SEEN = 2,    /* it was taken before */
    FOW_TAKEN_LATE = 3,    /* its last moment has passed by the greatest moment that the memory was told, or the memory has let go of what has its `exp`: nobody can say */
    FOW_TAKEN_FULL = 4,    /* as many tokens as there is room for are held, and none of them has passed: everybody waits */
    FOW_TAKEN_NO_ID = 5,   /* it has no `jti` */
    FOW_TAKEN_NO_END = 6,  /* it has no `exp`, so it would have to be held for ever */
    FOW_TAKEN_AHEAD = 7,   /* its `iat` is further ahead of now than the leeway, so nobody can say when it is accepted for the first time */
    FOW_TAKEN_OWN_FULL = 8, /* its owner has as many as one owner may, and none of them has passed: this owner waits, and nobody else */
    FOW_TAKEN_BEFORE = 9   /* it was issued before this memory was opened, or says no `iat`: it may have been taken by the memory that was there before */
};

/* Makes an empty memory for at most so many tokens. Room is needed for as many as are accepted within the lifetime of one: where it is too small, tokens that
 * are good are refused.
 *
 * `share` is how many one owner may have at a time, so that one client can't fill the memory for everybody; 0 is a sixteenth of `tokens`, and one at least. The owner
 * of a token is its issuer and `sub`; a token without `sub` has none, and no share.
 *
 * `opened` is the moment from which on the memory knows everything: what may have been accepted before it, by its `iat` and the leeway, is FOW_TAKEN_BEFORE, and so is a
 * token without `iat`. Hand in the second after this one (time(NULL) + 1): then a restart refuses some tokens, and lets none in twice. With 0 it lets in each
 * token once more: choose that where tokens live so long that a restart may not refuse them, such as links in mails, or keep a store that outlives the process.
 *
 * Proved: FOW_OK: the memory is held from now on, is empty, has room for so many and that share, and is opened at that moment. FOW_REFUSED: `tokens` is 0. Where the
 * answer isn't FOW_OK, the fow_once holds what it held. */
uint32_t fow_once_open(fow_once *once, size_t tokens, size_t share, uint64_t opened);

/* Takes the token that was accepted last. `now` is the moment of that verdict, and no other: the greatest moment that was told is the one that is meant, so
 * that a clock that goes back lets nothing in again. So one moment far in the future closes the memory: each token is FOW_TAKEN_LATE then, until it is opened
 * anew. A moment before 1970 counts as 0. What a service answers says fow_taken_outcome; it lets through nothing but FOW_OK.
 *
 * Proved: FOW_OK: it wasn't taken before, and is held from now on until `exp` and the policy's leeway; *taken is FOW_TAKEN_NEW. FOW_REFUSED: *taken says
 * why it isn't taken, and nothing new is held. FOW_ABSENT: the last verdict was no acceptance. FOW_NOT_OPEN: the validator or the memory holds nothing. No
 * token is taken twice: of two that are new for one issuer and `jti` the second has the later `exp`, and the same claims are never new twice, under whatever
 * policies. What counts in the memory stays. The validator holds what it held. */
uint32_t fow_once_take(fow_once *once, fow_validator *validator, int64_t now, uint32_t *taken);

/* How many octets the mark has by which a token that counts once is held. */
#define FOW_MARK_LEN 32

/* How a token or a proof that counts once is held. A store that several processes share keeps of each what stands here, and beside them four numbers: `opened`, as
 * of fow_once_open; `latest`, the greatest moment that it was told; `span`, the greatest `grace`; and `horizon`, which is 0 at first. It answers, in one step: Before
 * where `issued` is before `opened`; Late where `moment` is before `horizon`, or `moment` + `grace` before `latest`; else Seen where it has the mark; and else it may let go of
 * one whose `moment` + `span` is before `latest`, the one with the least moment, by which `horizon` becomes at least that moment + 1; it refuses where there is no
 * room, or where the owner has its share; else it keeps the entry, and the token is new (docs/ONCE.md). */
typedef struct fow_entry {
    uint8_t mark[FOW_MARK_LEN];  /* the digest of issuer and `jti`; of a proof, of the thumbprint of its key and its `jti`. No issuer and an empty one have one mark */
    uint8_t owner[FOW_MARK_LEN]; /* by which its owner's share is counted, where `owned` is 1 */
    uint64_t owned;              /* 1: it has an owner; 0: it has none, and no share */
    uint64_t moment;             /* what it has of itself, whatever the policy: `exp` of a token, `iat` of a proof; before 1970 it is 0 */
    uint64_t grace;              /* how many seconds behind that moment it is accepted: the policy's leeway, and of a proof its `max_age` as well */
    uint64_t issued;             /* the earliest moment at which it may have been accepted: `iat` less the leeway; 0 where there is no `iat` */
} fow_entry;

/* Tells how the token that was accepted last is held, for a store that several processes share, and takes nothing. `now` is the moment of that verdict.
 *
 * Proved: FOW_OK: *entry is how fow_once_take holds it. FOW_REFUSED: it can't be held, and *lacks says why: FOW_TAKEN_NO_ID, FOW_TAKEN_NO_END or FOW_TAKEN_AHEAD.
 * FOW_ABSENT: the last verdict was no acceptance. FOW_NOT_OPEN: nothing is held. The validator holds what it held, and *entry isn't written unless the answer is
 * FOW_OK. */
uint32_t fow_once_entry(fow_validator *validator, int64_t now, fow_entry *entry, uint32_t *lacks);

/* Frees what is held. It may be called twice, and before anything was opened. What was taken is forgotten: a token may come again in the memory that is opened
 * next. Proved: nothing is held. */
void fow_once_close(fow_once *once);

/* A policy for proofs of possession (DPoP, RFC 9449), and the proof that was accepted last. A token that is bound to a key works only beside a proof by that
 * key, one for each request. The members are private.
 *
 *     fow_possession possession = FOW_POSSESSION_INIT;
 *     if (fow_possession_open(&possession, policy, policy_len, &fault) != FOW_OK) { ... }
 *     ... fow_judge accepts the access token; then, with the value of the request's only header `DPoP`:
 *     if (fow_possession_judge(&possession, &validator, proof, proof_len, method, method_len, uri, uri_len, nonce, nonce_len, token, token_len, now, &fault) != FOW_OK) { ... }
 *     if (fow_shown(&validator, &possession, NULL, 0, &ways, &fault) != FOW_OK) { ... }
 *     if (fow_possession_take(&possession, &once, now, &taken) != FOW_OK) { ... }
 *     fow_possession_close(&possession);
 *
 * A fow_possession is used by one call at a time. */
typedef struct fow_possession {
    void *at;
    bool held;
} fow_possession;

#define FOW_POSSESSION_INIT { NULL, false }

/* Reads a policy for proofs, of at most 65,536 octets, which aren't needed after the call: its `typ` is `dpop+jwt`, it names no HMAC, `jti`, `htm`, `htu` and
 * `iat` are in `required`, and it has a `max_age` (docs/POSSESSION.md). It is another policy than the one for access tokens.
 *
 * Proved: FOW_OK: the policy that these octets say is held from now on, it is one for proofs, and no proof is kept. FOW_REFUSED: *fault says why it is
 * refused: a fault of a policy, or the first of FOW_PROOF_TYP, FOW_PROOF_SHARED_SECRET, FOW_PROOF_REQUIRED and FOW_PROOF_MAX_AGE. Where the answer isn't
 * FOW_OK, the fow_possession holds what it held. */
uint32_t fow_possession_open(fow_possession *possession, const uint8_t *policy, size_t policy_len, uint32_t *fault);

/* Judges a proof to a request by the proved verifiers (RFC 9449, section 4.3), and keeps what it shows until the next one is judged. `proof` is the value of the
 * request's header `DPoP`: refuse a request that has more than one (step 1). `method` is the request's, by case. `uri` is the one that the client sees, with scheme and
 * host, which behind a proxy come from your configuration and never from a header that a stranger can write, and with the path as it came in the line of the request,
 * before anything has decoded it; its query and fragment aren't looked at. `nonce` is the
 * one that you asked for, and where nonce_len is 0 none was. `token` is the access token that came with the proof, once more, and the claims that it is
 * bound by are those that `validator` accepted last, so judge the access token before. Where token_len is 0 none came, as in a request for one
 * (section 5): then `ath` and `cnf` aren't looked at, nor is the validator, which may hold nothing.
 *
 * The URI and `htu` are compared by their normal forms (RFC 3986, sections 6.2.2 and 6.2.3), without query and fragment. A text has one where it begins with
 * `http://` or `https://`, in any case; where up to the next slash stand a host that isn't empty, and nothing, a colon, or a colon and digits, and no `@`; and where
 * two hexadecimal digits stand behind each percent sign. Nothing else of it is looked at, such as which octets a host has, or how great the port is.
 *
 * The path has to be one of which every reader makes the same, else nobody can say for what the proof is: empty, or its own normal form, with no empty segment but the last and
 * no dot segment, also where what stands behind a `;` is left out; with each octet that may stand for itself as itself, the others in percent-encoding by capital digits,
 * and none of these a slash, a backslash, a percent sign, a semicolon or a control.
 *
 * A proof that is accepted may come again: let the request through only where fow_possession_take answers FOW_OK as well. What a service answers to another status says
 * fow_proof_outcome: 400 to FOW_PROOF_PATH_FORM; 401 to each other FOW_REFUSED, with `DPoP error="use_dpop_nonce"` to FOW_PROOF_OTHER_NONCE (section 9),
 * `error="invalid_token"` to FOW_PROOF_OTHER_KEY, else `error="invalid_dpop_proof"`.
 *
 * Proved: FOW_OK: the octets are a proof to this request at this moment, of the key that the access token is bound to, and it is kept. FOW_REFUSED: they aren't, and
 * *fault is the first cause: a fault of a token, FOW_PROOF_NOT_COMPACT to FOW_PROOF_KEY_UNREADABLE, FOW_PROOF_OTHER_KEY, which costs no verification, a fault of a token
 * again, where the policy doesn't accept it by the key in its own header, FOW_PROOF_OTHER_METHOD, FOW_PROOF_PATH_FORM, FOW_PROOF_OTHER_URI to
 * FOW_PROOF_OTHER_ACCESS_TOKEN; ahead of these, where the method, the URI or the nonce isn't in UTF-8, FOW_PROOF_OTHER_METHOD, FOW_PROOF_OTHER_URI or
 * FOW_PROOF_OTHER_NONCE. FOW_ABSENT: the last verdict was no acceptance, or this token has another payload than the
 * one that was accepted. FOW_NOT_OPEN: the fow_possession holds nothing, or a token came and the validator does. With any status but FOW_OK no proof is kept. The
 * policy for proofs stays. The validator holds what it held. */
uint32_t fow_possession_judge(fow_possession *possession, fow_validator *validator, const uint8_t *proof, size_t proof_len, const uint8_t *method,
    size_t method_len, const uint8_t *uri, size_t uri_len, const uint8_t *nonce, size_t nonce_len, const uint8_t *token, size_t token_len, int64_t now,
    uint32_t *fault);

/* Takes the proof that was accepted last (RFC 9449, section 11.1). `now` is the moment of that verdict, and no other, as with fow_once_take. Proofs have a fow_once of
 * their own, or one that they share with tokens: a proof is known by the thumbprint of its key and its `jti`, so a stranger can't use up the `jti` of another's. Its owner
 * is that of the access token that it came with, since keys cost nothing; where none came, it is its key.
 *
 * Proved: FOW_OK: it wasn't taken before, and is held from now on until its `iat`, the policy's `max_age` and its leeway; *taken is FOW_TAKEN_NEW. FOW_REFUSED: *taken
 * says why it isn't taken, and nothing new is held. FOW_ABSENT: no proof is kept. FOW_NOT_OPEN: the
 * fow_possession or the memory holds nothing. What counts in the memory stays. The fow_possession holds what it held. */
uint32_t fow_possession_take(fow_possession *possession, fow_once *once, int64_t now, uint32_t *taken);

/* How many octets the thumbprint of a key has. */
#define FOW_THUMBPRINT_LEN 43

/* Writes the thumbprint of the key of the proof that was accepted last (RFC 7638), by SHA-256 as base64url, of FOW_THUMBPRINT_LEN octets: what a token endpoint
 * writes as `jkt` into the `cnf` of the token that it binds (RFC 9449, section 6.1).
 *
 * Proved: FOW_OK: `out` begins with that thumbprint, which has *written octets. FOW_ABSENT: no proof is kept. FOW_NOT_OPEN: nothing is held. The fow_possession
 * holds what it held. */
uint32_t fow_possession_thumbprint(fow_possession *possession, uint8_t *out, size_t out_len, size_t *written);

/* Tells how the proof that was accepted last is held, for a store that several processes share, and takes nothing, as fow_once_entry.
 *
 * Proved: FOW_OK: *entry is how fow_possession_take holds it. FOW_ABSENT: no proof is kept. FOW_NOT_OPEN: nothing is held. The fow_possession holds what it held, and
 * *entry isn't written unless the answer is FOW_OK. */
uint32_t fow_possession_entry(fow_possession *possession, fow_entry *entry);

/* Writes the names of the algorithms of the policy for proofs, with a space between two: what a challenge says as `algs` (RFC 9449, section 7.1). It takes no memory.
 *
 * Proved: FOW_OK: `out` begins with those names, which have *written octets. FOW_TOO_SHORT: out_len is less than they have. FOW_NOT_OPEN: nothing is held. The
 * fow_possession holds what it held. */
uint32_t fow_possession_algs(fow_possession *possession, uint8_t *out, size_t out_len, size_t *written);

/* How many octets a nonce has, and how many the secret has at least that it is made of. */
#define FOW_NONCE_LEN 43
#define FOW_NONCE_SECRET_LEN 32

/* Writes the nonce that a service asks for at this moment, for its header `DPoP-Nonce` (RFC 9449, sections 8 and 9), of FOW_NONCE_LEN octets. Nonces come of a secret and of the time,
 * and nothing is kept of them: each period of `period` seconds from 1970 on has one, base64url of HMAC-SHA-256, under the secret, of the period's number as 8 octets, the most
 * significant first. A moment before 1970 falls in the first period. Processes that share a secret ask for the same nonces. The secret is random, serves for nothing else, and is
 * replaced with care: the nonces of another secret are wrong from then on, and clients ask once more. It needs no fow_possession, and takes no memory.
 *
 * Proved: FOW_OK: `out` begins with that nonce, and *written is FOW_NONCE_LEN. FOW_REFUSED: secret_len is less than FOW_NONCE_SECRET_LEN, or `period` is 0.
 * FOW_TOO_SHORT: out_len is less than FOW_NONCE_LEN. */
uint32_t fow_nonce(const uint8_t *secret, size_t secret_len, uint32_t period, int64_t now, uint8_t *out, size_t out_len, size_t *written);

/* Whether the `nonce` of the proof that was accepted last is that of the period of `now`, or of the one before: so a nonce is good for one period at least, and for less than two. A
 * service asks behind fow_possession_judge, to which it hands in no nonce, and ahead of fow_possession_take: the proof stays kept, and isn't taken yet. It answers 401 with
 * `DPoP error="use_dpop_nonce"` and the header `DPoP-Nonce` to FOW_NOT_EXPECTED (section 9). It takes no memory.
 *
 * Proved: FOW_OK: it is. FOW_NOT_EXPECTED: the proof has another one, or none. FOW_REFUSED: secret_len is less than FOW_NONCE_SECRET_LEN, or `period` is 0; this is said
 * ahead of FOW_ABSENT. FOW_ABSENT: no proof is kept. FOW_NOT_OPEN: nothing is held. The fow_possession holds what it held. */
uint32_t fow_possession_fresh(fow_possession *possession, const uint8_t *secret, size_t secret_len, uint32_t period, int64_t now);

/* Frees what is held. It may be called twice, and before anything was opened. Proved: nothing is held. */
void fow_possession_close(fow_possession *possession);

/* How a token is bound (RFC 7800): the sum of those that hold. */
enum fow_binding {
    FOW_BOUND_NOT = 0,        /* there is no `cnf` */
    FOW_BOUND_KEY = 1,        /* with the thumbprint of a key, `jkt` */
    FOW_BOUND_CERTIFICATE = 2 /* with the digest of a certificate, `x5t#S256` */
};

/* Whether each way in which the token that was accepted last is bound, by its claim `cnf` (RFC 7800, section 3.1), was shown: the key of `jkt` by the proof that
 * `possession` keeps (RFC 9449, section 6.1), the certificate of `x5t#S256` by its DER, as whoever ended TLS has it (RFC 8705, section 3.1); where der_len is 0, none was
 * shown. That the client holds the certificate's key is shown by TLS, and not asked here. Ask it behind each verdict that accepts, also where no proof and no
 * certificate came: with an empty `possession` a token that is bound to a key is refused, so that nobody uses it as a bearer's. A service that takes no token of bearers
 * refuses one whose *ways is FOW_BOUND_NOT.
 *
 * Proved: FOW_OK: the token has no `cnf`; or `cnf` is an object with a member, and each of its members is one of these two and was shown; *ways
 * is the sum of enum fow_binding. FOW_REFUSED: *fault is the first
 * of FOW_BINDING_UNKNOWN, FOW_BINDING_OTHER_KEY and FOW_BINDING_OTHER_CERTIFICATE. FOW_ABSENT: the last verdict was no acceptance. FOW_NOT_OPEN: `validator`
 * holds nothing. With any status but FOW_OK *ways is FOW_BOUND_NOT. The validator and the proof stay as they are. */
uint32_t fow_shown(fow_validator *validator, fow_possession *possession, const uint8_t *der, size_t der_len, uint32_t *ways, uint32_t *fault);

/* Issues the claims as a token signed by HMAC: `alg` is FOW_HS256, FOW_HS384 or FOW_HS512, `form` is enum fow_form, and `typ` the
 * protected header's `typ` in UTF-8, such as `at+jwt`; where typ_len is 0, it has none. In compact and flattened form key `key` of
 * the set signs; in general form each readable key, in order, and `key` isn't looked at.
 *
 * Proved: FOW_OK: `out` begins with the token that the contract of issuing gives for these claims, which has *written octets.
 * FOW_REFUSED: *report has the fault, with the signature or the claim that it speaks of. FOW_ABSENT: there is no such algorithm
 * or form, or `typ` isn't in UTF-8. FOW_NOT_OPEN: nothing is held. *report is written for FOW_REFUSED alone. The validator holds what it held. */
uint32_t fow_issue(fow_validator *validator, uint32_t alg, uint32_t form, uint32_t key, const uint8_t *typ, size_t typ_len,
    const uint8_t *claims, size_t claims_len, uint8_t *out, size_t out_len, size_t *written, fow_report *report);

/* The schemes of the header `Authorization`. Which ones a service takes is the sum of those that it takes; any other number takes none. */
enum fow_scheme {
    FOW_NO_SCHEME = 0,
    FOW_BEARER = 1, /* RFC 6750 */
    FOW_DPOP = 2    /* RFC 9449, section 7.1: beside the token the request has a proof, see fow_possession_judge */
};

/* The token of a request (RFC 6750, section 2.1; RFC 9449, section 7.1), in the value of its one header `Authorization`, by the schemes that the service
 * takes. Of several such headers nothing is read: the outcome is FOW_SEVERAL. *from and *to are written for FOW_OK alone.
 *
 * Proved: FOW_OK: the value carries a token of the taken scheme *scheme, from the octet *from up to the octet *to. FOW_ABSENT: its scheme is none of
 * `schemes`, and *scheme is FOW_NO_SCHEME. FOW_REFUSED: its scheme is *scheme, which is taken, and it carries no token in any way. */
uint32_t fow_credentials(uint32_t schemes, const uint8_t *value, size_t value_len, uint32_t *scheme, size_t *from, size_t *to);

/* What is known of a request and its token. Any other number is FOW_UNANSWERED. */
enum fow_outcome {
    FOW_UNANSWERED = 0,    /* nothing can be said of the token */
    FOW_ADMITTED = 1,      /* it is accepted, its claims meet the access rule, where there is one, and so does its proof, where there is one */
    FOW_SEVERAL = 2,       /* there is more than one header `Authorization` */
    FOW_NO_TOKEN = 3,      /* there is none, or its scheme is none that is taken */
    FOW_MALFORMED = 4,     /* what stands behind the scheme is no b64token */
    FOW_NOT_ACCEPTED = 5,  /* it is refused, is bound to a key or certificate that wasn't shown, or counts once and isn't new */
    FOW_SCOPE_MISSING = 6, /* a scope that the access rule asks for is missing */
    FOW_NOT_GRANTED = 7,   /* the claims don't meet the access rule otherwise */
    FOW_KEYS_TOO_OLD = 8,  /* the keys are too old */
    FOW_PROOF_REFUSED = 9, /* there is no header `DPoP`, or several, or its proof isn't one for this request, or isn't new */
    FOW_NONCE_WANTED = 10, /* the proof has no nonce, or another than the one that is asked for */
    FOW_PATH_FORM = 11,    /* the path of the request can be read in more ways than one */
    FOW_SHARE_USED_UP = 12, /* whose token or proof it is has as many held as one owner may have */
    FOW_MEMORY_FULL = 13   /* there is no room for one more token, or proof, that counts once */
};

/* The challenge that is sent in `WWW-Authenticate`. Any other number is FOW_NO_CHALLENGE. */
enum fow_challenge_kind {
    FOW_NO_CHALLENGE = 0,       /* no such header is sent */
    FOW_REALM = 1,              /* Bearer realm="..", DPoP algs="..", and no error, since no token was shown */
    FOW_INVALID_REQUEST = 2,    /* Bearer error="invalid_request", DPoP algs="..", error="invalid_request" */
    FOW_INVALID_TOKEN = 3,      /* error="invalid_token" */
    FOW_INSUFFICIENT_SCOPE = 4, /* error="insufficient_scope" */
    FOW_SCOPES = 5,             /* the same, with scope=".." */
    FOW_INVALID_DPOP_PROOF = 6, /* error="invalid_dpop_proof" */
    FOW_USE_DPOP_NONCE = 7      /* error="use_dpop_nonce"; the answer has a header `DPoP-Nonce` as well (fow_nonce) */
};

/* What is answered to a request. */
typedef struct fow_reply {
    uint32_t status; /* of HTTP; 200 where the request is let through */
    uint32_t bearer; /* the challenge of the scheme Bearer: enum fow_challenge_kind */
    uint32_t dpop;   /* the challenge of the scheme DPoP, in a header `WWW-Authenticate` of its own, behind that of Bearer */
} fow_reply;

/* What is answered to a request, where this is known of it (enum fow_outcome). `schemes` are those that the service takes, and `shown` is the one that
 * fow_credentials found, FOW_NO_SCHEME where it found none.
 *
 * Proved: the status and the challenge of each scheme are those of the outcome (RFC 6750, section 3.1; RFC 9449, section 7.1), 200 comes for FOW_ADMITTED
 * alone, a scheme that isn't taken has no challenge, and an error of a token or a proof stands in the challenge of the scheme that was shown. Each 401 has
 * at least one challenge (RFC 9110, section 15.5.2): where no scheme is taken, 500 comes in its place. */
void fow_reply_to(uint32_t schemes, uint32_t shown, uint32_t outcome, fow_reply *reply);

/* The outcome of a request by what fow_possession_judge or fow_possession_fresh answered of its proof; `fault` is that of fow_possession_judge, else 0. A request whose
 * proof is no cause to refuse it is FOW_ADMITTED so far: ask each of the two calls that you make.
 *
 * Proved: it is FOW_ADMITTED exactly where the status is FOW_OK. Of FOW_NOT_EXPECTED it is FOW_NONCE_WANTED. Of FOW_REFUSED it is FOW_NONCE_WANTED where the
 * fault is FOW_PROOF_OTHER_NONCE, FOW_NOT_ACCEPTED where it is FOW_PROOF_OTHER_KEY, FOW_PATH_FORM where it is FOW_PROOF_PATH_FORM, else FOW_PROOF_REFUSED. Of any other
 * status it is FOW_UNANSWERED. */
uint32_t fow_proof_outcome(uint32_t status, uint32_t fault);

/* The outcome of a request by what fow_once_take answered of its token, or fow_possession_take of its proof, where `of_proof` isn't 0: 401 to what isn't new, 429 to whose
 * share is used up, 503 where the memory is full.
 *
 * Proved: it is FOW_ADMITTED exactly where the status is FOW_OK. Of FOW_REFUSED it is FOW_MEMORY_FULL where `taken` is FOW_TAKEN_FULL, FOW_SHARE_USED_UP where it is
 * FOW_TAKEN_OWN_FULL, else FOW_NOT_ACCEPTED, of a proof FOW_PROOF_REFUSED. Of any other status it is FOW_UNANSWERED. */
uint32_t fow_taken_outcome(uint32_t of_proof, uint32_t status, uint32_t taken);

/* Whether a realm, a scope or the names of algorithms can stand in a challenge as they are. A service asks when it is set up. Proved: true exactly where
 * each octet is a printable one of ASCII, and neither a quotation mark nor a backslash (RFC 9110, section 5.6.4). */
bool fow_quotable(const uint8_t *text, size_t text_len);

/* Writes a challenge (enum fow_challenge_kind) of the scheme FOW_BEARER or FOW_DPOP; of any other number there is none, and its text is empty. `realm` is
 * that of the service, which stands in a challenge of Bearer alone. `scope` is what a token needs, with a space between two. `algs` is what
 * fow_possession_algs wrote, for each challenge of DPoP, and empty for Bearer.
 *
 * Proved: FOW_OK: `out` begins with the challenge's text, which has *written octets. FOW_REFUSED: the realm, the scope or the algorithms can't be quoted. */
uint32_t fow_challenge(uint32_t scheme, uint32_t challenge, const uint8_t *realm, size_t realm_len, const uint8_t *scope, size_t scope_len,
    const uint8_t *algs, size_t algs_len, uint8_t *out, size_t out_len, size_t *written);

/* Keys by URL: when they are fetched, until when they are used, and who waits for a fetch. Nothing here opens a socket, reads a clock, takes memory or a
 * lock. The struct is the caller's, who makes one call on it at a time, and reads the clock under the lock that it holds for that: moments out of order make
 * ages grow too fast. Times and moments are milliseconds, of any clock; a time of UINT64_MAX is over after 584 million years. Whatever numbers stand in the
 * struct, each call ends; what is proved is proved of one that these calls alone have changed. It may stand in memory that processes share.
 *
 * What happened is told by these calls: a fetch begins where fow_renewal_ask says so, and ends where fow_renewal_took or fow_renewal_failed is called. Its
 * ticket is its number, and that of its keys. */
typedef struct fow_renewal {
    uint64_t refresh_after, cool_down, max_age, timeout;
    uint64_t heard, keys_age, keys_ticket, begun_age, ticket, is_open;
    uint64_t waiting, first, second, third, fourth;
} fow_renewal;

/* What a fow_renewal answers. */
typedef struct fow_renewal_answer {
    uint64_t has_keys; /* 1: the keys of the ticket `keys` are to be used; 0: there are none, or they are too old */
    uint64_t keys;
    uint64_t fetch;  /* enum fow_fetch */
    uint64_t ticket; /* of the fetch */
    uint64_t left;   /* of one that is under way: the milliseconds until its deadline */
} fow_renewal_answer;

/* What becomes of fetches. */
enum fow_fetch {
    FOW_NO_FETCH = 0,       /* none is wanted, or none may begin yet */
    FOW_FETCH_BEGINS = 1,   /* whoever is told so makes it, within its timeout, and tells how it ended */
    FOW_FETCH_UNDER_WAY = 2 /* somebody else does */
};

/* Who asks. Any other number is FOW_ASKER_TOKEN. */
enum fow_asker {
    FOW_ASKER_TOKEN = 0,   /* a token that comes */
    FOW_ASKER_REFUSED = 1, /* a token that was refused for want of a key, or by a bad signature, by the keys of a ticket */
    FOW_ASKER_OWNER = 2,   /* whoever runs the service, whatever the cool-down */
    FOW_ASKER_WAITED = 3   /* whoever has waited for a fetch: it wants no other, and is told which keys there are */
};

/* No keys, and no fetch yet. Proved: nothing has happened so far, and the times are these. */
void fow_renewal_begin(fow_renewal *renewal, uint64_t refresh_after, uint64_t cool_down, uint64_t max_age, uint64_t timeout, uint64_t now);

/* Which keys are to be used, and whether a fetch begins. `keys` is looked at for FOW_ASKER_REFUSED alone: it is the ticket of the keys by which the token
 * was refused, and 0 where there were none.
 *
 * Proved: keys are named exactly where their fetch began less than max_age ago, and they are those that were taken last. A fetch begins exactly where it is
 * wanted, none is under way, and, unless the owner asks, every fetch so far began at least a cool_down ago. */
void fow_renewal_ask(fow_renewal *renewal, uint64_t now, uint64_t asker, uint64_t keys, fow_renewal_answer *answer);

/* The fetch with this ticket gave keys, which were read and may be used. Proved: they count, and are those to be used from now on, exactly where that fetch
 * is under way; else they are to be dropped, and nothing changes. */
bool fow_renewal_took(fow_renewal *renewal, uint64_t now, uint64_t ticket);

/* The fetch with this ticket gave none. Proved: it counts exactly where that fetch is under way, which it isn't any more. The keys stay as they are. */
bool fow_renewal_failed(fow_renewal *renewal, uint64_t now, uint64_t ticket);

/* A token would wait for the fetch with this ticket. `name` is a number of its `kid`, by any hash: two that have one number count as one. Who may not
 * wait is answered at once, since anyone can send tokens for which a key is lacking.
 *
 * Proved: it may wait exactly where that fetch is under way, fewer than four wait for it, and none of them under this name. It waits from now on, until the
 * fetch ends. */
bool fow_renewal_wait(fow_renewal *renewal, uint64_t now, uint64_t ticket, uint64_t name);

/* When the next fetch is due, for a timer or a `Retry-After`. Proved: after exactly so many milliseconds more a token that comes begins a fetch; 0 where it
 * does now. */
uint64_t fow_renewal_due(const fow_renewal *renewal);

/* For how long nobody need ask: whoever keeps this time beside the keys takes no lock and makes no call for a token until then, or until a call that is no
 * question for a token. Proved: for exactly so many milliseconds more the keys are used, and a token that comes begins no fetch. */
uint64_t fow_renewal_quiet_for(const fow_renewal *renewal);

/* From which URLs keys and metadata are fetched, and what follows on an answer. Nothing here opens a socket: the caller asks for the URL, octet by octet
 * as it is written, by TLS and with a deadline of its own, and follows no redirection that isn't said here. */

/* Where the parts of a URL stand, in octets from its beginning. A target that doesn't begin with a slash is sent with one before it. */
typedef struct fow_url {
    uint32_t https; /* 1: its scheme is https; 0: it is http */
    uint32_t port;  /* that of the scheme where the URL names none */
    size_t host, host_end;
    size_t target; /* path and query, which last to the end */
} fow_url;

/* What is asked for. Any other number is FOW_ASKED_KEYS. */
enum fow_asked {
    FOW_ASKED_KEYS = 0,   /* a key set */
    FOW_ASKED_OPENID = 1, /* the metadata of OpenID Connect Discovery 1.0, section 4 */
    FOW_ASKED_OAUTH = 2   /* those of RFC 8414, section 3 */
};

/* What follows on an answer. */
enum fow_step {
    FOW_STEP_FAIL = 0,      /* the fetch failed, by this status */
    FOW_STEP_TAKE = 1,      /* its content is taken */
    FOW_STEP_FOLLOW = 2,    /* the URL is asked that fow_redirected writes; where it writes none, the fetch failed */
    FOW_STEP_ASK_OAUTH = 3, /* FOW_ASKED_OAUTH is asked for */
    FOW_STEP_TOO_OFTEN = 4  /* the fetch failed, since it redirects too often */
};

/* What follows on an answer, and how many octets of it are taken at most: one that has more is a failed fetch. */
typedef struct fow_next {
    uint32_t step; /* enum fow_step */
    uint32_t most;
} fow_next;

/* The parts of a URL from which something may be fetched (RFC 3986, section 3): https, or http where that is allowed; a host, which is a name or an address
 * in brackets; a port up to 65,535, or none; path and query of octets that a URL may have; and neither a name nor a password before the host, nor a
 * fragment.
 *
 * Proved: FOW_OK: it is such a URL, and *parts has its parts. FOW_REFUSED: it is none. */
uint32_t fow_url_of(const uint8_t *url, size_t url_len, bool allows_http, fow_url *parts);

/* Writes the URL to which a redirection leads: `url` was asked, and `location` is the value of the first `Location` of its answer, or empty where it has
 * none: a whole URL or a reference (RFC 3986, section 5). Room for both and one octet more is enough.
 *
 * Proved: FOW_OK: `out` begins with the URL, which has *written octets and the scheme, host and port of the one that was asked. FOW_REFUSED: it leads
 * elsewhere, or to no URL, or has a part `.` or `..` between two slashes or at an end, as a segment of its path or as its host. */
uint32_t fow_redirected(const uint8_t *url, size_t url_len, const uint8_t *location, size_t location_len, uint8_t *out, size_t out_len,
    size_t *written);

/* Writes the URL of the metadata of an issuer (enum fow_asked; any other number than FOW_ASKED_OAUTH is FOW_ASKED_OPENID). The second metadata are asked for
 * where fow_next_step says so of the first.
 *
 * Proved: FOW_OK: `out` begins with the URL, which has *written octets. FOW_REFUSED: the issuer is no URL, or has a query (RFC 8414, section 2). */
uint32_t fow_metadata_url(uint32_t asked, const uint8_t *issuer, size_t issuer_len, uint8_t *out, size_t out_len, size_t *written);

/* Writes the URL of an issuer's keys, as its metadata tell it. It is looked at by fow_url_of before it is asked.
 *
 * Proved: FOW_OK: the `issuer` of the metadata is this one, octet by octet, and `out` begins with the text `jwks_uri`, which has *written octets.
 * FOW_REFUSED: it is another one, or the octets are no JSON object. FOW_ABSENT: it is this one, and there is no such text. */
uint32_t fow_keys_url(const uint8_t *metadata, size_t metadata_len, const uint8_t *issuer, size_t issuer_len, uint8_t *out, size_t out_len,
    size_t *written);

/* What follows on an answer of this status, where so many redirections were followed since that was asked for (enum fow_asked).
 *
 * Proved: a status of 200 is taken, and none else, and at most 4,194,304 octets of it. Of 301, 302, 303, 307 and 308 five are followed, and no more.
 * FOW_ASKED_OAUTH is asked for exactly where FOW_ASKED_OPENID is answered by 404. */
void fow_next_step(uint32_t asked, uint32_t status, uint32_t redirections, fow_next *next);

/* The name of a fault, as the program `jwt` prints it, such as `Expired`; empty where no fault has this number. It isn't to be freed.
 * It is C, and tested. */
const char *fow_fault_name(uint32_t fault);

#ifdef __cplusplus
}
#endif
#endif
