/* prepared NAME ..: judges the token NAME.jwt by NAME.keys and NAME.policy by the proved verifiers, with no key prepared, one, sixteen, as fow_open
 * does, and where memory is refused for each table: the verdicts are the same, and so are those of a validator that is opened beside. Of
 * ECDSA and Ed25519 keys alone tables are made, once for all that are beside one another, and none is left at the end. Linked with
 * --wrap=malloc,--wrap=realloc,--wrap=free. */
#include <fowharimu.h>
#include <string.h>

#include "octets.h"

/* From so many octets on a block is a table: nothing else of a small token has as many. */
enum { TABLE = 32768 };

/* Whether tables are refused; how many were asked for; how many blocks are held. */
static bool refuses;
static long tables, held;

void *__real_malloc(size_t size);
void *__real_realloc(void *block, size_t size);
void __real_free(void *block);

static bool is_granted(size_t size)
{
    if (size < TABLE)
        return true;
    tables++;
    return !refuses;
}

void *__wrap_malloc(size_t size)
{
    void *block = is_granted(size) ? __real_malloc(size) : NULL;
    held += block != NULL;
    return block;
}

void *__wrap_realloc(void *block, size_t size)
{
    void *moved = is_granted(size) ? __real_realloc(block, size) : NULL;
    held += block == NULL && moved != NULL;
    return moved;
}

void __wrap_free(void *block)
{
    held -= block != NULL;
    __real_free(block);
}

static octets policy, keys, token, forged;

/* The verdicts on the token and on one with another signature. */
static void check_verdicts(fow_validator *validator)
{
    fow_report report;
    CHECK(fow_judge(validator, token.at, token.len, NOW, &report) == FOW_OK && report.tries == 1);
    CHECK(fow_judge(validator, forged.at, forged.len, NOW, &report) == FOW_REFUSED);
    CHECK(report.fault == FOW_SIG_BAD_SIGNATURE && report.tries == 1);
}

/* Judges by an open validator, and by one beside it, for which no table is made. Says how many tables were asked for. */
static long check_open(fow_validator *validator)
{
    fow_validator beside = FOW_VALIDATOR_INIT;
    long asked_for = tables;
    CHECK(fow_open_beside(&beside, validator) == FOW_OK);
    check_verdicts(validator);
    fow_close(validator);
    check_verdicts(&beside);
    fow_close(&beside);
    CHECK(tables == asked_for && held == 0);
    tables = 0;
    return asked_for;
}

static long check_prepared(size_t most)
{
    fow_validator validator = FOW_VALIDATOR_INIT;
    uint32_t fault;
    CHECK(fow_open_prepared(&validator, policy.at, policy.len, keys.at, keys.len, most, &fault) == FOW_OK);
    return check_open(&validator);
}

static bool begins(const char *name, const char *with)
{
    const char *last = strrchr(name, '/');
    return strncmp(last ? last + 1 : name, with, strlen(with)) == 0;
}

static void check_named(const char *name)
{
    fow_validator validator = FOW_VALIDATOR_INIT;
    uint32_t fault;
    bool has_tables = begins(name, "ES") || begins(name, "Ed25519");
    read_named(&policy, name, "policy");
    read_named(&keys, name, "keys");
    read_named(&token, name, "jwt");
    forged = token;
    size_t first = forged.len;
    while (forged.at[first - 1] != '.')
        first--;
    forged.at[first] = forged.at[first] == 'A' ? 'B' : 'A';

    CHECK(check_prepared(0) == 0);
    long asked_for = check_prepared(FOW_PREPARED);
    CHECK(has_tables == (asked_for > 0));
    CHECK(check_prepared(1) == asked_for);
    CHECK(check_prepared(SIZE_MAX) == asked_for);
    CHECK(fow_open(&validator, policy.at, policy.len, keys.at, keys.len, &fault) == FOW_OK);
    CHECK(check_open(&validator) == asked_for);

    /* (a refusal leaves what was held, and its tables) */
    CHECK(fow_open_prepared(&validator, policy.at, policy.len, keys.at, keys.len, FOW_PREPARED, &fault) == FOW_OK);
    CHECK(fow_open_prepared(&validator, policy.at, policy.len, policy.at, policy.len, FOW_PREPARED, &fault) == FOW_REFUSED);
    CHECK(fault == FOW_KEYS_NOT_KEY_SET && check_open(&validator) == asked_for);

    refuses = true;
    CHECK(has_tables == (check_prepared(FOW_PREPARED) > 0));
    refuses = false;
}

int main(int argc, char **argv)
{
    for (int i = 1; i < argc; i++)
        check_named(argv[i]);
    printf("%d tokens with keys prepared as they must be\n", argc - 1);
    return 0;
}
