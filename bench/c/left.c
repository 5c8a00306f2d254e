/* left: how many copies of a secret, and of its text in a key set, lie in what this program can write: while a validator is open, and once it was used and is closed. Its own copies
 * are wiped, and what is looked for is kept inverted, so that each copy is one of the library's. bench/timing compiles it, and runs it. */
#define _GNU_SOURCE
#include <fowharimu.h>
#include <string.h>

#include "octets.h"

enum { SECRET = 32, TEXT = 43 };

static uint8_t inverted_secret[SECRET], inverted_text[TEXT];

static const uint8_t *at(const char *text)
{
    return (const uint8_t *)text;
}

/* How often these octets, inverted, stand between two addresses. */
static unsigned found_in(const uint8_t *from, const uint8_t *to, const uint8_t *inverted, size_t len)
{
    unsigned count = 0;
    for (; from + len <= to; from++) {
        size_t i = 0;
        while (i < len && (from[i] ^ inverted[i]) == 0xff)
            i++;
        count += i == len;
    }
    return count;
}

static void look(const char *when)
{
    static char line[4096];
    unsigned secrets = 0, texts = 0;
    FILE *maps = fopen("/proc/self/maps", "r");
    CHECK(maps != NULL);
    while (fgets(line, sizeof line, maps) != NULL) {
        uintptr_t from, to;
        char kind[8];
        CHECK(sscanf(line, "%lx-%lx %7s", &from, &to, kind) == 3);
        if (kind[0] == 'r' && kind[1] == 'w') {
            secrets += found_in((const uint8_t *)from, (const uint8_t *)to, inverted_secret, SECRET);
            texts += found_in((const uint8_t *)from, (const uint8_t *)to, inverted_text, TEXT);
        }
    }
    fclose(maps);
    printf("%s\t%u\t%u\n", when, secrets, texts);
}

static void open_by_a_secret(fow_validator *validator)
{
    static const char policy[] = "{\"algs\":[\"HS256\"]}";
    uint8_t secret[SECRET];
    char text[TEXT + 1], keys[128];
    uint32_t fault;
    for (size_t i = 0; i < SECRET; i++)
        inverted_secret[i] = (uint8_t)~(secret[i] = (uint8_t)(i * i * 7 + 31 * i + 5));
    text[encode(secret, SECRET, text)] = 0;
    for (size_t i = 0; i < TEXT; i++)
        inverted_text[i] = (uint8_t)~text[i];
    int len = snprintf(keys, sizeof keys, "{\"keys\":[{\"kty\":\"oct\",\"k\":\"%s\"}]}", text);
    CHECK(fow_open(validator, at(policy), sizeof policy - 1, at(keys), (size_t)len, &fault) == FOW_OK);
    explicit_bzero(secret, sizeof secret);
    explicit_bzero(text, sizeof text);
    explicit_bzero(keys, sizeof keys);
}

int main(void)
{
    static const char claims[] = "{\"iss\":\"joe\"}";
    fow_validator validator = FOW_VALIDATOR_INIT;
    fow_report report;
    uint8_t out[512];
    size_t written;
    open_by_a_secret(&validator);
    look("open");
    CHECK(fow_issue(&validator, FOW_HS256, FOW_COMPACT, 0, at(""), 0, at(claims), sizeof claims - 1, out, sizeof out, &written, &report) == FOW_OK);
    CHECK(fow_judge(&validator, out, written, NOW, &report) == FOW_OK);
    look("used");
    fow_close(&validator);
    look("closed");
    return 0;
}
