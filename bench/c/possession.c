/* possession: the least time of a call around proofs of possession, in microseconds of processor time, on the first row of CASES, tests/possession/cases.jsonl. What a proof costs beside
 * its signature is told as the difference of two whole calls: a proof that holds, and a token by the same key with the least header and claims, from which is taken what a token costs
 * that is refused before its signature is looked at.
 *
 *     cc -O2 -std=gnu11 -Iinclude -Ibindings/c -o build/tests/bench-possession bench/c/possession.c build/libfowharimu.a
 *     build/tests/bench-possession tests/possession/cases.jsonl
 */
#include <fowharimu.h>
#include <string.h>
#include <time.h>

#include "octets.h"

enum { ROUNDS = 600, LINE = 65536 };

static const uint8_t *at(const char *text)
{
    return (const uint8_t *)text;
}

static double moment(void)
{
    struct timespec now;
    clock_gettime(CLOCK_PROCESS_CPUTIME_ID, &now);
    return (double)now.tv_sec * 1e6 + (double)now.tv_nsec * 1e-3;
}

#define LEAST(least, times, call) \
    double least = 1e18; \
    for (int round = 0; round < ROUNDS; round++) { \
        double from = moment(); \
        for (int i = 0; i < (times); i++) { \
            call; \
        } \
        double took = (moment() - from) / (times); \
        if (took < least) \
            least = took; \
    }

static char line[LINE], proof[LINE], method[64], uri[256], token[1024], first[LINE];

static void text_in(const char *from, const char *name, char *text, size_t room)
{
    size_t written = 0;
    CHECK(fow_text_member(at(from), strlen(from), at(name), strlen(name), (uint8_t *)text, room - 1, &written) == FOW_OK);
    text[written] = 0;
}

/* The token of RFC 7515, appendix A.3, whose header has `alg` alone, and its key with a `kid` that the token hasn't and is asked for. */
static const char least_token[] = "eyJhbGciOiJFUzI1NiJ9.eyJpc3MiOiJqb2UiLA0KICJleHAiOjEzMDA4MTkzODAsDQogImh0dHA6Ly9leGFtcGxlLmNvbS9pc19yb290Ijp0cnVlfQ."
                                  "DtEhU3ljbEg8L38VWAfUAqOyKAM6-Xx-F4GawxaepmXFCgfTjDxw5djxLa8ISlSApmWQxfKTUJqPP3-Kg6NU1Q";
static const char key[] = "{\"keys\":[{\"kty\":\"EC\",\"crv\":\"P-256\",\"x\":\"f83OJ3D2xF1Bg8vub9tLe1gHMzV76e8Tus9uPHvRVEU\","
                          "\"y\":\"x_FEzRu9m36HLN_tue659LNpXW6pCyStikYjKIWI5a0\"}]}";
static const char policy[] = "{\"algs\":[\"ES256\"]}", asks_kid[] = "{\"version\":2,\"algs\":[\"ES256\"],\"need_kid\":true}";

int main(int count, char **words)
{
    static const char proofs[] = "{\"algs\":[\"ES256\"],\"typ\":\"dpop+jwt\",\"required\":[\"jti\",\"htm\",\"htu\",\"iat\"],\"max_age\":60}";
    static const char access[] = "{\"algs\":[\"HS256\"]}", secret[] = "a secret of more than 32 octets, for nonces";
    enum { NOW_OF_ROW = 1700000000, NOW_OF_TOKEN = 1300819370 };
    fow_validator bearer = FOW_VALIDATOR_INIT, by_key = FOW_VALIDATOR_INIT, by_kid = FOW_VALIDATOR_INIT;
    fow_possession possession = FOW_POSSESSION_INIT;
    fow_report report;
    uint32_t fault;
    char keys[2048];
    uint8_t out[FOW_NONCE_LEN];
    size_t written;
    FILE *cases = fopen(count > 1 ? words[1] : "", "r");
    CHECK(cases != NULL && fgets(first, sizeof first, cases) != NULL && fgets(line, sizeof line, cases) != NULL);
    fclose(cases);
    text_in(line, "proof", proof, sizeof proof);
    text_in(line, "method", method, sizeof method);
    text_in(line, "uri", uri, sizeof uri);
    text_in(line, "token", token, sizeof token);
    const char *set = strstr(first, "\"access_keys\": ");
    CHECK(set != NULL);
    snprintf(keys, sizeof keys, "%s", set + strlen("\"access_keys\": "));
    *strrchr(keys, '}') = 0;
    CHECK(fow_open(&bearer, at(access), sizeof access - 1, at(keys), strlen(keys), &fault) == FOW_OK);
    CHECK(fow_open_prepared(&by_key, at(policy), sizeof policy - 1, at(key), sizeof key - 1, 0, &fault) == FOW_OK);
    CHECK(fow_open_prepared(&by_kid, at(asks_kid), sizeof asks_kid - 1, at(key), sizeof key - 1, 0, &fault) == FOW_OK);
    CHECK(fow_possession_open(&possession, at(proofs), sizeof proofs - 1, &fault) == FOW_OK);
    CHECK(fow_judge(&bearer, at(token), strlen(token), NOW_OF_ROW, &report) == FOW_OK);
    LEAST(held, 2, CHECK(fow_possession_judge(&possession, &bearer, at(proof), strlen(proof), at(method), strlen(method), at(uri), strlen(uri), at(""), 0,
                             at(token), strlen(token), NOW_OF_ROW, &fault) == FOW_OK));
    LEAST(whole, 2, CHECK(fow_judge(&by_key, at(least_token), sizeof least_token - 1, NOW_OF_TOKEN, &report) == FOW_OK));
    LEAST(unread, 100, CHECK(fow_judge(&by_kid, at(least_token), sizeof least_token - 1, NOW_OF_TOKEN, &report) == FOW_REFUSED));
    LEAST(nonce, 100, CHECK(fow_nonce(at(secret), sizeof secret - 1, 60, NOW_OF_ROW, out, sizeof out, &written) == FOW_OK));
    LEAST(fresh, 100, CHECK(fow_possession_fresh(&possession, at(secret), sizeof secret - 1, 60, NOW_OF_ROW) == FOW_NOT_EXPECTED));
    printf("a proof %.1f\nits signature %.1f\nbeside its signature %.1f\na nonce %.2f\nwhether it is fresh %.2f\n", held, whole - unread, held - whole + unread, nonce, fresh);
    return 0;
}
