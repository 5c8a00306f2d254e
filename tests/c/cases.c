/* cases [-remember] FILE: answers each case of a table, as tests/cases/make writes it. A line of the table is `open POLICY KEYS`, `judge NAME NOW TOKEN`, `deny NAME NOW RULE TOKEN` or `issue NAME ALG FORM KEY TYP CLAIMS`,
 * with texts in hexadecimal, and `-` for one without octets. A line of the answer has what tests/cases/README.md says. With
 * -remember tokens are remembered: each is judged at several moments and again, and each report has to be the one without a memory. */
#define _POSIX_C_SOURCE 200809L
#include <fowharimu.h>
#include <inttypes.h>

#include "octets.h"

typedef struct text {
    uint8_t *at;
    size_t len, room;
} text;

static fow_validator validator = FOW_VALIDATOR_INIT;
static uint32_t opened = FOW_NOT_OPEN, open_fault;
static fow_access access_rule = FOW_ACCESS_INIT;
static text policy, keys, token, rule, typ, claims, out;

/* With -remember: a validator beside, which remembers nothing, and how many verdicts came out of the memory. */
static fow_validator plain = FOW_VALIDATOR_INIT;
static bool remembers;
static uint64_t remembered;

static void reserve(text *it, size_t room)
{
    if (it->room < room) {
        it->at = realloc(it->at, room);
        CHECK(it->at != NULL);
        it->room = room;
    }
}

static unsigned digit(char of)
{
    static const char digits[] = "0123456789abcdef";
    const char *at = strchr(digits, of);
    CHECK(of != 0 && at != NULL);
    return (unsigned)(at - digits);
}

/* The next word of a line, which ends with a space or the line. */
static char *next_word(char **line)
{
    char *word = *line, *end = word + strcspn(word, " \n");
    CHECK(end != word);
    *line = *end == ' ' ? end + 1 : end;
    *end = 0;
    return word;
}

/* Reads the next word as hexadecimal. The octets have an address, also where there are none. */
static void read_hex(char **line, text *it)
{
    const char *word = next_word(line);
    size_t len = strcmp(word, "-") == 0 ? 0 : strlen(word);
    CHECK(len % 2 == 0);
    reserve(it, len / 2 + 1);
    for (size_t i = 0; i < len; i += 2)
        it->at[i / 2] = (uint8_t)(digit(word[i]) << 4 | digit(word[i + 1]));
    it->len = len / 2;
}

static uint32_t read_number(char **line)
{
    return (uint32_t)strtoul(next_word(line), NULL, 10);
}

static void print_hex(const uint8_t *at, size_t len)
{
    if (len == 0)
        putchar('-');
    for (size_t i = 0; i < len; i++)
        printf("%02x", at[i]);
}

/* A fault's name, after what it is a fault of. */
static void print_fault(uint32_t fault)
{
    static const char *const kinds[] = { "", "policy", "keys", "text", "form", "ceiling", "signature", "claims", "issue", "access", "denied" };
    CHECK(fault / 100 < sizeof kinds / sizeof kinds[0]);
    if (fault == FOW_NO_FAULT)
        printf("\t-");
    else
        printf("\t%s.%s", kinds[fault / 100], fow_fault_name(fault));
}

static const char *verdict_of(uint32_t status)
{
    static const char *const names[] = { "accepted", "refused", "asks", "memory", "closed", "short", "absent", "denied" };
    CHECK(status < sizeof names / sizeof names[0]);
    return names[status];
}

/* The name of the claim that a report speaks of, in hexadecimal. */
static void print_claim(uint32_t claim)
{
    static const char *const names[] = { "", "iss", "sub", "aud", "exp", "nbf", "iat", "jti" };
    uint8_t name[1024];
    size_t written = 0;
    putchar('\t');
    if (claim < FOW_CLAIM_BY_NAME)
        print_hex((const uint8_t *)names[claim], strlen(names[claim]));
    else if (fow_refused_claim(&validator, name, sizeof name, &written) == FOW_OK)
        print_hex(name, written);
    else
        putchar('-');
}

static void print_states(void)
{
    fow_state state;
    putchar('\t');
    for (uint32_t i = 0; fow_state_of(&validator, i, &state) == FOW_OK; i++)
        printf("%s%" PRIu32 "/%s/%" PRIu32, i == 0 ? "" : ",", state.state, fow_fault_name(state.fault), state.key);
}

static void print_tries(uint64_t tries)
{
    fow_try tried;
    putchar('\t');
    for (uint64_t i = 0; i < tries; i++) {
        CHECK(fow_try_of(&validator, i, &tried) == FOW_OK);
        printf("%s%" PRIu32 "/%" PRIu32 "/%" PRIu64, i == 0 ? "" : ",", tried.signature, tried.key, tried.cost);
    }
}

/* Of a policy or key set that is refused: the fault, and the member that it speaks of. */
static void print_not_opened(const char *name)
{
    size_t written = 0;
    reserve(&out, policy.len + 1);
    printf("%s\t%s", name, verdict_of(opened));
    print_fault(open_fault);
    printf("\t0\t0\t0\t");
    if (open_fault / 100 == 1 && fow_refused_member(policy.at, policy.len, out.at, out.room, &written) == FOW_OK)
        print_hex(out.at, written);
    else
        putchar('-');
    printf("\t0\t\t\t-\n");
}

/* What is kept of a judging is the same with a memory and without. */
static void check_kept_alike(uint64_t tries)
{
    static text one, other;
    fow_state states[2];
    fow_try tried[2];
    size_t written[2] = { 0, 0 };
    uint32_t status = FOW_OK;
    reserve(&one, token.len + 65536);
    reserve(&other, token.len + 65536);
    memset(states, 0, sizeof states);
    memset(tried, 0, sizeof tried);
    for (uint32_t i = 0; status == FOW_OK; i++) {
        status = fow_state_of(&validator, i, &states[0]);
        CHECK(status == fow_state_of(&plain, i, &states[1]) && memcmp(&states[0], &states[1], sizeof states[0]) == 0);
    }
    for (uint64_t i = 0; i <= tries; i++) {
        status = fow_try_of(&validator, i, &tried[0]);
        CHECK(status == fow_try_of(&plain, i, &tried[1]) && memcmp(&tried[0], &tried[1], sizeof tried[0]) == 0);
    }
    status = fow_refused_claim(&validator, one.at, one.room, &written[0]);
    CHECK(status == fow_refused_claim(&plain, other.at, other.room, &written[1]));
    CHECK(written[0] == written[1] && memcmp(one.at, other.at, written[0]) == 0);
    for (const char *const *name = (const char *const[]){ "iss", "aud", "sub", NULL }; *name != NULL; name++) {
        status = fow_claim(&validator, (const uint8_t *)*name, 3, one.at, one.room, &written[0]);
        CHECK(status == fow_claim(&plain, (const uint8_t *)*name, 3, other.at, other.room, &written[1]));
        CHECK(status != FOW_OK || (written[0] == written[1] && memcmp(one.at, other.at, written[0]) == 0));
    }
}

/* The sum, or the number of 64 bits that comes nearest. */
static int64_t moved(int64_t now, int64_t by)
{
    if (by > 0)
        return now > INT64_MAX - by ? INT64_MAX : now + by;
    return now < INT64_MIN - by ? INT64_MIN : now + by;
}

/* Judges at the moment, at others, and at the moment again: with a memory and without, which has to be the same. */
static void judge_often(int64_t now)
{
    enum { FAR = 1000000000 };
    const int64_t moments[] = { now, now, moved(now, FAR), moved(now, -FAR), now };
    for (size_t i = 0; i < sizeof moments / sizeof *moments; i++) {
        fow_report one = { 0 }, other = { 0 };
        fow_judge(&validator, token.at, token.len, moments[i], &one);
        fow_judge(&plain, token.at, token.len, moments[i], &other);
        CHECK(memcmp(&one, &other, sizeof one) == 0 && !fow_remembered(&plain));
        check_kept_alike(one.tries);
        remembered += fow_remembered(&validator);
    }
}

static void judge_token(int64_t now, fow_report *report)
{
    if (remembers)
        judge_often(now);
    fow_judge(&validator, token.at, token.len, now, report);
}

/* What is said of the token that was judged just now; `denial` where it is accepted and the rule that is held denies it. */
static void print_judged(const char *name, const fow_report *report, uint32_t denial)
{
    size_t written = 0;
    reserve(&out, token.len + rule.len + 1);
    printf("%s\t%s", name, verdict_of(denial == FOW_NO_FAULT ? report->verdict : FOW_DENIED));
    print_fault(denial == FOW_NO_FAULT ? report->fault : denial);
    printf("\t%" PRIu32 "\t%" PRIu32 "\t%" PRIu32, report->part, report->signature, report->key);
    if (denial == FOW_NO_FAULT) {
        print_claim(report->claim);
    } else {
        CHECK(fow_denied_name(&validator, &access_rule, out.at, out.room, &written) == FOW_OK);
        putchar('\t');
        print_hex(out.at, written);
    }
    printf("\t%" PRIu64, report->work);
    print_states();
    print_tries(report->tries);
    putchar('\t');
    if (report->verdict == FOW_OK && denial == FOW_NO_FAULT) {
        CHECK(fow_accepted_payload(&validator, out.at, out.room, &written) == FOW_OK);
        print_hex(out.at, written);
    } else {
        putchar('-');
    }
    putchar('\n');
}

static void answer_judge(char *line)
{
    const char *name = next_word(&line);
    int64_t now = strtoll(next_word(&line), NULL, 10);
    fow_report report = { 0 };
    read_hex(&line, &token);
    if (opened != FOW_OK) {
        print_not_opened(name);
        return;
    }
    judge_token(now, &report);
    print_judged(name, &report, FOW_NO_FAULT);
}

/* Of an access rule that is refused: the fault, and the member or the claim that it speaks of. */
static void print_rule_refused(const char *name, uint32_t status, uint32_t fault)
{
    size_t written = 0;
    reserve(&out, rule.len + 1);
    printf("%s\t%s", name, verdict_of(status));
    print_fault(fault);
    printf("\t0\t0\t0\t");
    if (fow_access_refused(rule.at, rule.len, out.at, out.room, &written) == FOW_OK)
        print_hex(out.at, written);
    else
        putchar('-');
    printf("\t0\t\t\t-\n");
}

static void answer_deny(char *line)
{
    const char *name = next_word(&line);
    int64_t now = strtoll(next_word(&line), NULL, 10);
    fow_report report = { 0 };
    uint32_t fault = FOW_NO_FAULT, denial = FOW_NO_FAULT;
    read_hex(&line, &rule);
    read_hex(&line, &token);
    CHECK(opened == FOW_OK);
    uint32_t status = fow_access_open(&access_rule, rule.at, rule.len, &fault);
    if (status != FOW_OK) {
        print_rule_refused(name, status, fault);
        return;
    }
    judge_token(now, &report);
    status = fow_denied(&validator, &access_rule, &denial);
    CHECK(status == (report.verdict != FOW_OK ? FOW_ABSENT : denial == FOW_NO_FAULT ? FOW_OK : FOW_DENIED));
    print_judged(name, &report, denial);
}

static void answer_issue(char *line)
{
    const char *name = next_word(&line);
    uint32_t alg = read_number(&line), form = read_number(&line), key = read_number(&line);
    fow_report report = { 0 };
    size_t written = 0;
    read_hex(&line, &typ);
    read_hex(&line, &claims);
    reserve(&out, 1 << 21);
    CHECK(opened == FOW_OK);
    uint32_t status = fow_issue(&validator, alg, form, key, typ.at, typ.len, claims.at, claims.len, out.at, out.room, &written, &report);
    printf("%s\t%s", name, verdict_of(status));
    print_fault(status == FOW_REFUSED ? report.fault : FOW_NO_FAULT);
    printf("\t0\t%" PRIu32 "\t0", status == FOW_REFUSED ? report.signature : 0);
    print_claim(status == FOW_REFUSED && report.claim < FOW_CLAIM_BY_NAME ? report.claim : FOW_NO_CLAIM);
    printf("\t0\t\t\t");
    print_hex(out.at, status == FOW_OK ? written : 0);
    putchar('\n');
}

static void open_documents(char *line)
{
    read_hex(&line, &policy);
    read_hex(&line, &keys);
    /* (a validator that isn't opened holds what it held) */
    fow_close(&validator);
    open_fault = FOW_NO_FAULT;
    opened = fow_open(&validator, policy.at, policy.len, keys.at, keys.len, &open_fault);
    if (remembers && opened == FOW_OK)
        CHECK(fow_remember(&validator, 100, SIZE_MAX) == FOW_OK && fow_open_beside(&plain, &validator) == FOW_OK);
}

static void answer_line(char *line)
{
    const char *what = next_word(&line);
    if (strcmp(what, "open") == 0)
        open_documents(line);
    else if (strcmp(what, "judge") == 0)
        answer_judge(line);
    else if (strcmp(what, "deny") == 0)
        answer_deny(line);
    else
        answer_issue(line);
}

int main(int argc, char **argv)
{
    char *line = NULL;
    size_t room = 0;
    remembers = argc == 3 && strcmp(argv[1], "-remember") == 0;
    argv += remembers;
    CHECK(argc - remembers == 2);
    FILE *table = fopen(argv[1], "rb");
    CHECK(table != NULL);
    while (getline(&line, &room, table) > 0)
        answer_line(line);
    CHECK(!ferror(table));
    fclose(table);
    free(line);
    for (text *const *it = (text *const[]){ &policy, &keys, &token, &rule, &typ, &claims, &out, NULL }; *it != NULL; it++)
        free((*it)->at);
    fow_access_close(&access_rule);
    fow_close(&validator);
    fow_close(&plain);
    CHECK(!remembers || remembered > 0);
    return 0;
}
