/* Validates a token: validate POLICY KEYS TOKEN [NOW]
 *
 * POLICY, KEYS and TOKEN are files; NOW is in seconds since 1970-01-01T00:00:00Z, and the clock's moment where it is left out. Prints
 * the claims, or why the token is refused. Ends with 0 where it is accepted, 1 where it isn't, 2 for wrong words, 3 for a file that
 * can't be read, 4 where another library was loaded than the program was compiled for. */
#include <errno.h>
#include <fowharimu.h>
#include <inttypes.h>
#include <stdio.h>
#include <stdlib.h>
#include <time.h>

/* The most octets that a file may have: those of the longest key set, and one more. */
enum { MOST = 4194305 };

typedef struct octets {
    uint8_t *at;
    size_t len;
} octets;

static octets read_file(const char *name)
{
    octets file = { malloc(MOST), 0 };
    FILE *stream = fopen(name, "rb");
    if (file.at != NULL && stream != NULL)
        file.len = fread(file.at, 1, MOST, stream);
    if (file.at == NULL || stream == NULL || ferror(stream)) {
        fprintf(stderr, "validate: %s can't be read\n", name);
        exit(3);
    }
    fclose(stream);
    return file;
}

static void print_refusal(const char *what, const fow_report *report)
{
    if (report->fault != FOW_NO_FAULT)
        printf("%s: %s, signature %" PRIu32 "\n", what, fow_fault_name(report->fault), report->signature);
    else
        printf("%s: status %" PRIu32 "\n", what, report->verdict);
}

/* The moment that a word names; the program ends with 2 where it names none that 64 bits have. */
static int64_t moment_of(const char *word)
{
    char *end;
    errno = 0;
    long long moment = strtoll(word, &end, 10);
    if (errno != 0 || end == word || *end != '\0') {
        fprintf(stderr, "validate: %s is no moment\n", word);
        exit(2);
    }
    return moment;
}

static void print_claims(fow_validator *validator, octets token)
{
    size_t len = 0;
    uint8_t *payload = malloc(token.len + 1);
    if (payload != NULL && fow_accepted_payload(validator, payload, token.len + 1, &len) == FOW_OK)
        printf("%.*s\n", (int)len, (const char *)payload);
    free(payload);
}

int main(int argc, char **argv)
{
    if (argc < 4 || argc > 5) {
        fprintf(stderr, "usage: validate POLICY KEYS TOKEN [NOW]\n");
        return 2;
    }
    if (fow_abi() != FOW_ABI) {
        fprintf(stderr, "validate: the library %s has interface %" PRIu32 ", and this program was compiled for %d\n", fow_version(), fow_abi(),
            FOW_ABI);
        return 4;
    }
    octets policy = read_file(argv[1]), keys = read_file(argv[2]), token = read_file(argv[3]);
    int64_t now = argc == 5 ? moment_of(argv[4]) : (int64_t)time(NULL);
    fow_validator validator = FOW_VALIDATOR_INIT;
    fow_report report = { 0 };

    uint32_t verdict = fow_open(&validator, policy.at, policy.len, keys.at, keys.len, &report.fault);
    if (verdict != FOW_OK) {
        report.verdict = verdict;
        print_refusal("not opened", &report);
    } else {
        verdict = fow_judge(&validator, token.at, token.len, now, &report);
        if (verdict == FOW_OK)
            print_claims(&validator, token);
        else
            print_refusal("refused", &report);
    }

    fow_close(&validator);
    free(policy.at);
    free(keys.at);
    free(token.at);
    return verdict == FOW_OK ? 0 : 1;
}
