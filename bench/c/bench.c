/* bench HMAC RSA [EC]: the least time of a call, in microseconds of processor time, on a token by HMAC and one by RS256, of tokens that are remembered, and of an
 * access rule. With one by ES256
 * this and that by RS256 are also judged by 1,024 keys of which none made the signature, where a caller says so without cryptography. */
#include <fowharimu.h>
#include <time.h>

#include "octets.h"

enum { ROUNDS = 400, KEYS = 1024, KEYS_MOST = 1 << 20 };

static octets policy, keys, token;

static double moment(void)
{
    struct timespec now;
    clock_gettime(CLOCK_PROCESS_CPUTIME_ID, &now);
    return (double)now.tv_sec * 1e6 + (double)now.tv_nsec * 1e-3;
}

#define TIME(label, times, call) \
    do { \
        double least = 1e18; \
        for (int round = 0; round < ROUNDS; round++) { \
            double from = moment(); \
            for (int i = 0; i < (times); i++) { \
                call; \
            } \
            double took = (moment() - from) / (times); \
            if (took < least) \
                least = took; \
        } \
        printf("%s %.3f\n", label, least); \
    } while (0)

static void open_named(fow_validator *validator, const char *name)
{
    uint32_t fault;
    read_named(&policy, name, "policy");
    read_named(&keys, name, "keys");
    read_named(&token, name, "jwt");
    CHECK(fow_open(validator, policy.at, policy.len, keys.at, keys.len, &fault) == FOW_OK);
}

/* Judges the token, and writes its payload. */
static void validate(fow_validator *validator)
{
    static uint8_t out[MOST];
    fow_report report;
    size_t written;
    CHECK(fow_judge(validator, token.at, token.len, NOW, &report) == FOW_OK);
    CHECK(fow_accepted_payload(validator, out, sizeof out, &written) == FOW_OK);
}

static void time_hmac(const char *name)
{
    fow_validator validator = FOW_VALIDATOR_INIT;
    fow_report report;
    open_named(&validator, name);
    TIME("HS256 verdict", 200, CHECK(fow_judge(&validator, token.at, token.len, NOW, &report) == FOW_OK));
    TIME("HS256 claims", 200, validate(&validator));
    fow_close(&validator);
}

static void time_rsa(const char *name)
{
    fow_validator validator = FOW_VALIDATOR_INIT;
    fow_report report;
    open_named(&validator, name);
    TIME("RS256 verdict", 20, CHECK(fow_judge(&validator, token.at, token.len, NOW, &report) == FOW_OK));
    TIME("RS256 claims", 20, validate(&validator));
    fow_close(&validator);
}

/* A token that is remembered, and with its payload. */
static void time_remembered(const char *label, const char *claims, const char *name)
{
    fow_validator validator = FOW_VALIDATOR_INIT;
    fow_report report;
    open_named(&validator, name);
    CHECK(fow_remember(&validator, 1000, 4096) == FOW_OK);
    TIME(label, 200, CHECK(fow_judge(&validator, token.at, token.len, NOW, &report) == FOW_OK));
    CHECK(fow_remembered(&validator));
    TIME(claims, 200, validate(&validator));
    CHECK(fow_remembered(&validator));
    fow_close(&validator);
}

/* The tokens of 1,000 users in turn, each with so many claims beside `exp` and `sub`: judged each time, and remembered. */
static void time_users(const char *name, int claims)
{
    enum { USERS = 1000, ROOM = 2048 };
    static const char lenient[] = "{\"algs\":[\"HS256\"]}";
    static uint8_t issued[USERS][ROOM];
    static size_t lengths[USERS];
    static char text[MOST], label[100];
    fow_validator validator = FOW_VALIDATOR_INIT;
    fow_report report;
    uint32_t fault;
    read_named(&keys, name, "keys");
    CHECK(fow_open(&validator, (const uint8_t *)lenient, sizeof lenient - 1, keys.at, keys.len, &fault) == FOW_OK);
    for (int user = 0; user < USERS; user++) {
        int len = sprintf(text, "{\"exp\":%d,\"sub\":\"user %07d\"", NOW + 1, user);
        for (int i = 0; i < claims; i++)
            len += sprintf(text + len, ",\"claim%02d\":\"a value that is %02d\"", i, i);
        len += sprintf(text + len, "}");
        CHECK(fow_issue(&validator, FOW_HS256, FOW_COMPACT, 0, (const uint8_t *)"", 0, (const uint8_t *)text, (size_t)len, issued[user], ROOM,
                  &lengths[user], &report)
            == FOW_OK);
    }
    for (int remembers = 0; remembers < 2; remembers++) {
        size_t user = 0;
        CHECK(fow_remember(&validator, remembers ? USERS : 0, ROOM) == FOW_OK);
        sprintf(label, "HS256 verdict, %zu octets, 1,000 users in turn%s", lengths[0], remembers ? ", remembered" : "");
        TIME(label, USERS, CHECK(fow_judge(&validator, issued[user], lengths[user], NOW, &report) == FOW_OK); user = (user + 1) % USERS);
        CHECK(fow_remembered(&validator) == (remembers == 1));
    }
    fow_close(&validator);
}

/* The access token of RFC 9068, section 3, by HS256, and an access rule for its scopes and its client. */
static void time_access(const char *name)
{
    static const char policy_text[] = "{\"algs\":[\"HS256\"],\"typ\":\"at+jwt\",\"issuers\":[\"https://authorization-server.example.com/\"],"
                                      "\"audiences\":[\"https://rs.example.com/\"],\"required\":[\"sub\",\"exp\"]}";
    static const char claims[] = "{\"iss\":\"https://authorization-server.example.com/\",\"sub\":\"5ba552d67\",\"aud\":\"https://rs.example.com/\","
                                 "\"exp\":1639528912,\"iat\":1618354090,\"jti\":\"dbe39bf3a3ba4238a513f51d6e1691c4\","
                                 "\"client_id\":\"s6BhdRkqt3\",\"scope\":\"openid profile reademail\"}";
    static const char rule[] = "{\"scopes\":[\"openid\",\"reademail\"],\"claims\":{\"client_id\":[\"s6BhdRkqt3\"]}}";
    static uint8_t issued[4096];
    const int64_t now = 1618354090;
    fow_validator validator = FOW_VALIDATOR_INIT;
    fow_access access = FOW_ACCESS_INIT;
    fow_report report;
    uint32_t fault, denial;
    size_t written;
    read_named(&keys, name, "keys");
    CHECK(fow_open(&validator, (const uint8_t *)policy_text, sizeof policy_text - 1, keys.at, keys.len, &fault) == FOW_OK);
    CHECK(fow_issue(&validator, FOW_HS256, FOW_COMPACT, 0, (const uint8_t *)"at+jwt", 6, (const uint8_t *)claims, sizeof claims - 1, issued,
              sizeof issued, &written, &report)
        == FOW_OK);
    TIME("RFC 9068 verdict", 200, CHECK(fow_judge(&validator, issued, written, now, &report) == FOW_OK));
    TIME("RFC 9068 fow_access_open", 200, CHECK(fow_access_open(&access, (const uint8_t *)rule, sizeof rule - 1, &fault) == FOW_OK));
    TIME("RFC 9068 fow_denied", 2000, CHECK(fow_denied(&validator, &access, &denial) == FOW_OK));
    fow_access_close(&access);
    fow_close(&validator);
}

/* Each key is tried, so the policy allows as many calls. */
static void time_many(const char *label, const char *name, const char *member, const char *alg)
{
    static char set[KEYS_MOST];
    fow_validator validator = FOW_VALIDATOR_INIT;
    fow_report report;
    uint32_t fault;
    policy.len = (size_t)sprintf((char *)policy.at, "{\"version\":2,\"algs\":[\"%s\"],\"max_calls\":%d}", alg, KEYS);
    read_named(&keys, name, "keys");
    read_named(&token, name, "jwt");
    size_t len = other_keys(set, KEYS_MOST, &keys, member, KEYS);
    CHECK(fow_open(&validator, policy.at, policy.len, (const uint8_t *)set, len, &fault) == FOW_OK);
    TIME(label, 1, fow_judge(&validator, token.at, token.len, NOW, &report));
    CHECK(report.verdict == FOW_REFUSED && report.fault == FOW_SIG_BAD_SIGNATURE && report.tries == KEYS);
    fow_close(&validator);
}

int main(int argc, char **argv)
{
    CHECK(argc == 3 || argc == 4);
    time_hmac(argv[1]);
    time_rsa(argv[2]);
    time_remembered("HS256 verdict, remembered", "HS256 claims, remembered", argv[1]);
    time_remembered("RS256 verdict, remembered", "RS256 claims, remembered", argv[2]);
    time_users(argv[1], 2);
    time_users(argv[1], 24);
    time_access(argv[1]);
    if (argc == 4) {
        time_many("RS256: 1,024 keys that are denied", argv[2], "\"n\":\"", "RS256");
        time_many("ES256: 1,024 keys that are denied", argv[3], "\"x\":\"", "ES256");
    }
    return 0;
}
