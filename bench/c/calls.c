/* calls WORKLOAD COUNT: makes one call of the library so many times, to be timed from outside. On standard input are a line with the policy, a line with the key set, and the token, which
 * are read once. It prints how many calls answered FOW_OK, the octets that HMAC was fed in all, and the tries in all: so none can be left out. Behind these stand the KiB of memory
 * that the process held at most. bench/common.py compiles it. */
#include <fowharimu.h>

#include "octets.h"

typedef struct span {
    const uint8_t *at;
    size_t len;
} span;

static uint8_t given[8 << 20], claims[1 << 20], out[1 << 20];
static span policy, keys, token;
static size_t claims_len, written;
static fow_validator validator = FOW_VALIDATOR_INIT;

static uint32_t open_anew(size_t most)
{
    uint32_t fault;
    return fow_open_prepared(&validator, policy.at, policy.len, keys.at, keys.len, most, &fault);
}

static uint32_t judge(fow_report *report)
{
    return fow_judge(&validator, token.at, token.len, NOW, report);
}

static uint32_t payload(fow_report *report)
{
    (void)report;
    return fow_payload(&validator, token.at, token.len, out, sizeof out, &written);
}

static uint32_t read_anew(fow_report *report)
{
    (void)report;
    return open_anew(0);
}

static uint32_t issue(fow_report *report)
{
    return fow_issue(&validator, FOW_HS256, FOW_COMPACT, 0, claims, 0, claims, claims_len, out, sizeof out, &written, report);
}

/* Each workload: its name, how many keys are prepared before, and its call. */
static const struct {
    const char *name;
    size_t most;
    uint32_t (*call)(fow_report *);
} workloads[] = { { "judge", 0, judge }, { "prepared", FOW_PREPARED, judge }, { "payload", 0, payload }, { "open", 0, read_anew }, { "issue", 0, issue } };

/* The octets before the next line feed. */
static span line(span *rest)
{
    const uint8_t *feed = memchr(rest->at, '\n', rest->len);
    CHECK(feed != NULL);
    span found = { rest->at, (size_t)(feed - rest->at) };
    *rest = (span) { feed + 1, rest->len - found.len - 1 };
    return found;
}

/* By the kernel's high-water mark. */
static unsigned long most_memory(void)
{
    char text[256];
    unsigned long found = 0;
    FILE *status = fopen("/proc/self/status", "r");
    CHECK(status != NULL);
    while (fgets(text, sizeof text, status) != NULL)
        sscanf(text, "VmHWM: %lu", &found);
    fclose(status);
    return found;
}

int main(int argc, char **argv)
{
    unsigned long which = 0, accepted = 0, work = 0, tries = 0;
    CHECK(argc == 3);
    while (strcmp(argv[1], workloads[which].name) != 0)
        CHECK(++which < sizeof workloads / sizeof *workloads);
    token = (span) { given, fread(given, 1, sizeof given, stdin) };
    policy = line(&token);
    keys = line(&token);
    CHECK(open_anew(workloads[which].most) == FOW_OK);
    if (workloads[which].call == issue)
        CHECK(fow_payload(&validator, token.at, token.len, claims, sizeof claims, &claims_len) == FOW_OK);
    for (unsigned long count = strtoul(argv[2], NULL, 10); count > 0; count--) {
        fow_report report = { 0 };
        uint32_t status = workloads[which].call(&report);
        CHECK(status == FOW_OK || status == FOW_REFUSED);
        accepted += status == FOW_OK;
        work += report.work;
        tries += report.tries;
    }
    printf("%lu %lu %lu %lu\n", accepted, work, tries, most_memory());
    return 0;
}
