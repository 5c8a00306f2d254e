/* several: several issuers, each with a policy and keys of its own. It reads a command a line, words parted by tabs, and answers a line, as
 * tests/issuers/run says:
 *
 *     issuers ISSUER POLICY KEYS ..    takes the files of each issuer: `opened`, or `misused`
 *     validate TOKEN NOW               `accepted`, or the name of the fault
 *
 * A token is judged by the validator of the issuer that it names, which nobody has verified by then: so the policy of each allows exactly the issuer
 * under which it stands, and checks it again. The policy with the least limit says what is a token. */
#include <fowharimu.h>

#include "octets.h"

enum { MOST_ISSUERS = 16, LINE = 65536 };

/* The validator of an issuer. */
typedef struct entry {
    const char *issuer;
    fow_validator validator;
} entry;

typedef struct issuers {
    entry all[MOST_ISSUERS];
    size_t count;
    entry *reader; /* the one whose policy says what is a token */
} issuers;

static int compare(const char *one, size_t one_len, const char *other)
{
    size_t other_len = strlen(other), both = one_len < other_len ? one_len : other_len;
    int order = memcmp(one, other, both);
    return order != 0 ? order : (one_len > other_len) - (one_len < other_len);
}

/* Puts a validator under its issuer. It is refused where its policy doesn't allow exactly that one. */
static bool is_put(issuers *to, const char *issuer, const octets *policy, const octets *keys)
{
    uint8_t sole[MOST];
    size_t len;
    uint32_t fault, limit, least;
    entry *it = &to->all[to->count];
    CHECK(to->count < MOST_ISSUERS);
    CHECK(fow_open(&it->validator, policy->at, policy->len, keys->at, keys->len, &fault) == FOW_OK);
    it->issuer = issuer;
    to->count++;
    if (fow_sole_issuer(&it->validator, sole, sizeof sole, &len) != FOW_OK || compare((const char *)sole, len, issuer) != 0)
        return false;
    CHECK(fow_token_limit(&it->validator, &limit) == FOW_OK);
    if (to->reader == NULL) {
        to->reader = it;
        return true;
    }
    CHECK(fow_token_limit(&to->reader->validator, &least) == FOW_OK);
    if (limit < least || (limit == least && strcmp(issuer, to->reader->issuer) < 0))
        to->reader = it;
    return true;
}

/* What judges a token: the reader, where it is none, and else the validator under the issuer that it names; NULL where there is none. */
static entry *chosen(issuers *from, const octets *token)
{
    static uint8_t named[MOST];
    size_t len = 0;
    uint32_t status = fow_unverified_issuer(&from->reader->validator, token->at, token->len, named, sizeof named, &len);
    if (status == FOW_ABSENT)
        return from->reader;
    for (size_t i = 0; status == FOW_OK && i < from->count; i++)
        if (compare((const char *)named, len, from->all[i].issuer) == 0)
            return &from->all[i];
    CHECK(status == FOW_OK || status == FOW_UNNAMED);
    return NULL;
}

/* The name of the fault of a token; empty where it is accepted. */
static const char *fault_of(issuers *by, const octets *token, int64_t now)
{
    fow_report report;
    entry *it = chosen(by, token);
    if (it == NULL)
        return fow_fault_name(FOW_CLAIM_ISSUER);
    uint32_t verdict = fow_judge(&it->validator, token->at, token->len, now, &report);
    CHECK(verdict == FOW_OK || verdict == FOW_REFUSED);
    return fow_fault_name(report.fault);
}

static void close_all(issuers *it)
{
    for (size_t i = 0; i < it->count; i++)
        fow_close(&it->all[i].validator);
    memset(it, 0, sizeof *it);
}

static octets *read_file(octets *file, const char *path)
{
    FILE *stream = fopen(path, "rb");
    CHECK(stream != NULL);
    file->len = fread(file->at, 1, MOST, stream);
    fclose(stream);
    return file;
}

static bool are_opened(issuers *to)
{
    static octets policy, keys;
    bool are_right = true;
    const char *issuer;
    while ((issuer = strtok(NULL, "\t")) != NULL) {
        read_file(&policy, strtok(NULL, "\t"));
        read_file(&keys, strtok(NULL, "\t"));
        are_right = is_put(to, issuer, &policy, &keys) && are_right;
    }
    return are_right && to->count > 0;
}

int main(void)
{
    static issuers all;
    static octets token;
    static char lines[2][LINE];
    while (fgets(lines[1], LINE, stdin) != NULL) {
        lines[1][strcspn(lines[1], "\n")] = 0;
        if (strncmp(lines[1], "issuers", 7) == 0) {
            /* (the names of the issuers stand in the line) */
            close_all(&all);
            memcpy(lines[0], lines[1], LINE);
            strtok(lines[0], "\t");
            puts(are_opened(&all) ? "opened" : "misused");
        } else {
            strtok(lines[1], "\t");
            read_file(&token, strtok(NULL, "\t"));
            const char *fault = fault_of(&all, &token, strtoll(strtok(NULL, "\t"), NULL, 10));
            puts(*fault == 0 ? "accepted" : fault);
        }
        fflush(stdout);
    }
    close_all(&all);
    return 0;
}
