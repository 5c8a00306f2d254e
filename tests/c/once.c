/* once HMAC ROWS: memories of tokens that count once, asked about the token that was accepted last. HMAC is the name of a token with its key set and policy:
 * that of RFC 7515, appendix A.1, which has no `jti`. The other tokens are issued by its key. */
#include <fowharimu.h>
#include <string.h>

#include "octets.h"

enum { LEEWAY = 60 };

static const char policy[] = "{\"algs\":[\"HS256\"],\"leeway\":60}";
static octets keys, token;
static fow_validator validator = FOW_VALIDATOR_INIT;

/* Issues a token with these claims, and judges it at a moment: the verdict. */
static uint32_t judge(fow_validator *by, const char *claims, int64_t now)
{
    static uint8_t issued[MOST];
    size_t written;
    fow_report report;
    CHECK(fow_issue(by, FOW_HS256, FOW_COMPACT, 0, (const uint8_t *)"", 0, (const uint8_t *)claims, strlen(claims), issued, sizeof issued,
              &written, &report) == FOW_OK);
    return fow_judge(by, issued, written, now, &report);
}

/* Judges a token with these claims, which is accepted, and takes it: what became of it. */
static uint32_t take(fow_once *once, const char *claims, int64_t now)
{
    uint32_t taken = 77;
    CHECK(judge(&validator, claims, now) == FOW_OK);
    uint32_t status = fow_once_take(once, &validator, now, &taken);
    CHECK(status == (taken == FOW_TAKEN_NEW ? FOW_OK : FOW_REFUSED));
    return taken;
}

/* How the token that was accepted last is held: by one mark for its issuer and `jti`, by its own moment, for the leeway behind it. */
static void check_entries(void)
{
    fow_entry entry = { .moment = 7 }, other;
    uint32_t lacks = 77;
    fow_validator none = FOW_VALIDATOR_INIT;
    CHECK(fow_once_entry(&none, 900, &entry, &lacks) == FOW_NOT_OPEN && entry.moment == 7);
    CHECK(judge(&validator, "{\"jti\":\"a\",\"exp\":1000}", 2000) == FOW_REFUSED);
    CHECK(fow_once_entry(&validator, 2000, &entry, &lacks) == FOW_ABSENT && lacks == FOW_TAKEN_NOTHING);
    CHECK(judge(&validator, "{\"iss\":\"i\",\"exp\":1000}", 900) == FOW_OK);
    CHECK(fow_once_entry(&validator, 900, &entry, &lacks) == FOW_REFUSED && lacks == FOW_TAKEN_NO_ID);
    CHECK(judge(&validator, "{\"iss\":\"i\",\"jti\":\"a\"}", 900) == FOW_OK);
    CHECK(fow_once_entry(&validator, 900, &entry, &lacks) == FOW_REFUSED && lacks == FOW_TAKEN_NO_END);
    CHECK(judge(&validator, "{\"iss\":\"i\",\"jti\":\"a\",\"exp\":1000,\"iat\":961}", 900) == FOW_OK);
    CHECK(fow_once_entry(&validator, 900, &entry, &lacks) == FOW_REFUSED && lacks == FOW_TAKEN_AHEAD && entry.moment == 7);
    CHECK(judge(&validator, "{\"iss\":\"i\",\"jti\":\"a\",\"exp\":1000}", 900) == FOW_OK);
    CHECK(fow_once_entry(&validator, 900, &entry, &lacks) == FOW_OK && lacks == FOW_TAKEN_NOTHING);
    CHECK(entry.moment == 1000 && entry.grace == LEEWAY && entry.issued == 0 && entry.owned == 0);
    CHECK(judge(&validator, "{\"sub\":\"s\",\"iss\":\"i\",\"jti\":\"a\",\"iat\":900,\"exp\":1001}", 900) == FOW_OK);
    CHECK(fow_once_entry(&validator, 900, &other, &lacks) == FOW_OK && other.moment == 1001 && other.issued == 900 - LEEWAY && other.owned == 1);
    CHECK(memcmp(entry.mark, other.mark, FOW_MARK_LEN) == 0);
    /* (a subject is an owner as a `jti` is a mark) */
    CHECK(judge(&validator, "{\"iss\":\"i\",\"jti\":\"s\",\"exp\":1000}", 900) == FOW_OK);
    CHECK(fow_once_entry(&validator, 900, &entry, &lacks) == FOW_OK && memcmp(entry.mark, other.owner, FOW_MARK_LEN) == 0);
    CHECK(judge(&validator, "{\"iss\":\"ia\",\"jti\":\"\",\"exp\":-100}", -200) == FOW_OK);
    /* (an `exp` before 1970 counts as 0) */
    CHECK(fow_once_entry(&validator, -200, &other, &lacks) == FOW_OK && other.moment == 0);
    CHECK(memcmp(entry.mark, other.mark, FOW_MARK_LEN) != 0);
    /* (no issuer, and an empty one) */
    CHECK(judge(&validator, "{\"jti\":\"a\",\"exp\":1000}", 900) == FOW_OK);
    CHECK(fow_once_entry(&validator, 900, &entry, &lacks) == FOW_OK);
    CHECK(judge(&validator, "{\"iss\":\"\",\"jti\":\"a\",\"exp\":1000}", 900) == FOW_OK);
    CHECK(fow_once_entry(&validator, 900, &other, &lacks) == FOW_OK);
    CHECK(memcmp(entry.mark, other.mark, FOW_MARK_LEN) == 0);
}

/* A memory and a validator that hold nothing, and a validator that has accepted nothing. */
static void check_none(fow_once *once)
{
    uint32_t taken = 77;
    fow_report report;
    fow_validator none = FOW_VALIDATOR_INIT;
    CHECK(fow_once_take(once, &validator, NOW, &taken) == FOW_NOT_OPEN && taken == FOW_TAKEN_NOTHING);
    CHECK(fow_once_open(once, 0, 0, 0) == FOW_REFUSED);
    CHECK(fow_once_take(once, &validator, NOW, &taken) == FOW_NOT_OPEN);
    CHECK(fow_once_open(once, SIZE_MAX, 0, 0) == FOW_OK);
    CHECK(fow_once_take(once, &none, NOW, &taken) == FOW_NOT_OPEN);
    taken = 77;
    CHECK(fow_once_take(once, &validator, NOW, &taken) == FOW_ABSENT && taken == FOW_TAKEN_NOTHING);
    CHECK(judge(&validator, "{\"jti\":\"a\",\"exp\":1300819380}", NOW + 3600) == FOW_REFUSED);
    CHECK(fow_once_take(once, &validator, NOW + 3600, &taken) == FOW_ABSENT);
    CHECK(fow_judge(&validator, token.at, token.len, NOW, &report) == FOW_OK);
    CHECK(fow_once_take(once, &validator, NOW, &taken) == FOW_REFUSED && taken == FOW_TAKEN_NO_ID);
    CHECK(take(once, "{\"jti\":\"a\"}", NOW) == FOW_TAKEN_NO_END);
    CHECK(take(once, "{\"jti\":\"a\",\"exp\":1300819380,\"iat\":1300819440}", NOW) == FOW_TAKEN_AHEAD);
    /* (the refused token was not taken) */
    CHECK(take(once, "{\"jti\":\"a\",\"exp\":1300819380}", NOW) == FOW_TAKEN_NEW);
    fow_once_close(once);
    fow_once_close(once);
}

/* A token is let in once, by issuer and `jti`, until `exp` and the leeway. */
static void check_once(fow_once *once)
{
    static const char one[] = "{\"iss\":\"i\",\"jti\":\"a\",\"exp\":1000}", two[] = "{\"iss\":\"j\",\"jti\":\"a\",\"exp\":1000}";
    static const char three[] = "{\"iss\":\"i\",\"jti\":\"b\",\"sub\":\"a\",\"exp\":5000}";
    CHECK(fow_once_open(once, 2, 2, 0) == FOW_OK);
    CHECK(take(once, one, 900) == FOW_TAKEN_NEW);
    CHECK(take(once, one, 900) == FOW_TAKEN_SEEN);
    CHECK(take(once, one, 1000 + LEEWAY - 1) == FOW_TAKEN_SEEN);
    CHECK(take(once, two, 900) == FOW_TAKEN_NEW);
    CHECK(take(once, three, 1000 + LEEWAY) == FOW_TAKEN_FULL);
    CHECK(fow_once_open(once, 0, 0, 0) == FOW_REFUSED);
    CHECK(take(once, three, 1000 + LEEWAY + 1) == FOW_TAKEN_NEW);
    CHECK(take(once, three, 4000) == FOW_TAKEN_SEEN);
    /* (the clock has gone back) */
    CHECK(take(once, one, 900) == FOW_TAKEN_LATE);
    CHECK(take(once, "{\"jti\":\"c\",\"exp\":9223372036854775807}", INT64_MAX) == FOW_TAKEN_NEW);
    CHECK(take(once, three, 1000) == FOW_TAKEN_LATE);
    fow_once_close(once);
    CHECK(fow_once_open(once, 2, 2, 0) == FOW_OK);
    CHECK(take(once, one, 900) == FOW_TAKEN_NEW);
    fow_once_close(once);
}

/* A token that is remembered is accepted again, and taken no more; a second validator shares the memory. */
static void check_beside(fow_once *once)
{
    static const char claims[] = "{\"iss\":\"i\",\"jti\":\"a\",\"exp\":1000}";
    uint32_t taken;
    fow_validator second = FOW_VALIDATOR_INIT;
    CHECK(fow_once_open(once, 1000, 0, 0) == FOW_OK);
    CHECK(fow_remember(&validator, 8, 4096) == FOW_OK);
    CHECK(take(once, claims, 900) == FOW_TAKEN_NEW);
    CHECK(take(once, claims, 901) == FOW_TAKEN_SEEN && fow_remembered(&validator));
    CHECK(fow_open_beside(&second, &validator) == FOW_OK);
    CHECK(judge(&second, claims, 902) == FOW_OK);
    CHECK(fow_once_take(once, &second, 902, &taken) == FOW_REFUSED && taken == FOW_TAKEN_SEEN);
    fow_close(&second);
    CHECK(fow_remember(&validator, 0, 0) == FOW_OK);
    fow_once_close(once);
}

/* What became of a token, by its name in the rows. */
static uint32_t taken_named(const char *name)
{
    static const char *const names[] = { "NOTHING", "NEW", "SEEN", "LATE", "FULL", "NO_ID", "NO_END", "AHEAD", "OWN_FULL", "BEFORE" };
    for (uint32_t i = 1; i < sizeof names / sizeof *names; i++)
        if (strcmp(name, names[i]) == 0)
            return i;
    CHECK(!"no such answer");
    return 0;
}

/* Takes a token as a row says, under a policy with that leeway. */
static void take_row(fow_once *once, const char *leeway, int64_t now, const char *claims, const char *answer)
{
    char text[96];
    uint32_t fault, taken = 77;
    fow_validator by = FOW_VALIDATOR_INIT;
    int len = snprintf(text, sizeof text, "{\"algs\":[\"HS256\"],\"leeway\":%s}", leeway);
    CHECK(fow_open(&by, (const uint8_t *)text, (size_t)len, keys.at, keys.len, &fault) == FOW_OK);
    CHECK(judge(&by, claims, now) == FOW_OK);
    uint32_t status = fow_once_take(once, &by, now, &taken), outcome = fow_taken_outcome(0, status, taken);
    if (taken != taken_named(answer))
        fprintf(stderr, "%s at %lld: %u\n", claims, (long long)now, taken);
    CHECK(taken == taken_named(answer) && status == (taken == FOW_TAKEN_NEW ? FOW_OK : FOW_REFUSED));
    CHECK(outcome == (taken == FOW_TAKEN_NEW ? FOW_ADMITTED : taken == FOW_TAKEN_FULL ? FOW_MEMORY_FULL : taken == FOW_TAKEN_OWN_FULL ? FOW_SHARE_USED_UP : FOW_NOT_ACCEPTED));
    fow_close(&by);
}

/* The rows of tests/once/takes.tsv. */
static void check_rows(fow_once *once, const char *path)
{
    char line[1024];
    int rows = 0;
    FILE *file = fopen(path, "r");
    CHECK(file != NULL);
    while (fgets(line, sizeof line, file)) {
        char *parts[6];
        int count = 0;
        for (char *part = strtok(line, "\t\n"); part && count < 6; part = strtok(NULL, "\t\n"))
            parts[count++] = part;
        if (count == 0 || line[0] == '#')
            continue;
        if (count == 5 && strcmp(parts[1], "open") == 0)
            CHECK(fow_once_open(once, strtoul(parts[2], NULL, 10), strtoul(parts[3], NULL, 10), strtoull(parts[4], NULL, 10)) == FOW_OK);
        else {
            CHECK(count == 6 && strcmp(parts[1], "take") == 0);
            take_row(once, parts[2], strtoll(parts[3], NULL, 10), parts[4], parts[5]);
        }
        rows++;
    }
    fclose(file);
    CHECK(rows > 40);
    fow_once_close(once);
}

/* Many tokens in a memory that is a tenth as large: each is let in once while it is held. */
static void check_many(fow_once *once)
{
    enum { ROOM = 100, LIFE = 50 };
    char claims[96];
    CHECK(fow_once_open(once, ROOM, 0, 0) == FOW_OK);
    for (int i = 0; i < 10 * ROOM; i++) {
        CHECK(snprintf(claims, sizeof claims, "{\"iss\":\"i\",\"jti\":\"%d\",\"exp\":%d}", i, i + LIFE - LEEWAY) < (int)sizeof claims);
        CHECK(take(once, claims, i) == FOW_TAKEN_NEW);
        CHECK(take(once, claims, i) == FOW_TAKEN_SEEN);
    }
    fow_once_close(once);
}

int main(int argc, char **argv)
{
    CHECK(argc == 3);
    fow_once once = FOW_ONCE_INIT;
    uint32_t fault;
    read_named(&keys, argv[1], "keys");
    read_named(&token, argv[1], "jwt");
    CHECK(fow_open(&validator, (const uint8_t *)policy, sizeof policy - 1, keys.at, keys.len, &fault) == FOW_OK);
    check_none(&once);
    check_entries();
    check_once(&once);
    check_beside(&once);
    check_rows(&once, argv[2]);
    check_many(&once);
    fow_close(&validator);
    return 0;
}
