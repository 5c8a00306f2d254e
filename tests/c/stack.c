/* stack NAME ..: each call in a thread whose stack has 128 KiB: on these tokens, and on JSON that nests deep in the payload and the protected
 * header of a token and of a proof of possession, in one in JSON form, in a policy, in an access rule, in a key set and in claims to issue. The stack is painted before: so it is told how much
 * of it was touched at most, of which the thread itself takes some 2,000 octets. */
#define _GNU_SOURCE
#include <fowharimu.h>
#include <pthread.h>
#include <sys/mman.h>

#include "octets.h"

enum { STACK = 131072, PAGE = 4096, PAINT = 0xa5, ROOM = 1 << 20 };

/* So much has to be left. A proof of possession leaves the least, some 7,400 octets, since it is read below more calls than a token; every other call
 * leaves 11,000. */
enum { LEFT = 4096 };

/* The policies, key sets and claims may nest 127 levels deep, the object itself among them: one more is refused. */
static const int depths[] = { 1, 60, 126, 127, 1000, 20000 };
static const char *const opens[] = { "[", "{\"a\":", "[{\"a\":", "[[[1,2],{\"a\":" };
static const char *const closes[] = { "]", "}", "}]", "}]]" };
enum { DEPTHS = sizeof depths / sizeof *depths, KINDS = sizeof opens / sizeof *opens };

static uint8_t *stack;
static octets policy, keys, token;
static uint8_t out[ROOM];
static char text[ROOM], nested[ROOM];
static size_t text_len, nested_len;
static fow_validator hmac = FOW_VALIDATOR_INIT;
static fow_access rule = FOW_ACCESS_INIT;
static fow_possession possession = FOW_POSSESSION_INIT;
static const char proofs[] = "{\"algs\":[\"ES256\"],\"typ\":\"dpop+jwt\",\"required\":[\"jti\",\"htm\",\"htu\",\"iat\"],\"max_age\":60,\"limit\":1048576}";
static const char rule_text[] = "{\"scopes\":[\"read\"],\"scope_claim\":\"/x/a\",\"claims\":{\"x\":[7]}}";
static const char wide[] = "{\"algs\":[\"HS256\"],\"limit\":1048576,\"work\":1000000000000}";

static const uint8_t *at(const char *octets)
{
    return (const uint8_t *)octets;
}

/* Runs a call in a thread with so much stack, and gives how much of it was touched. */
static size_t touched_by(void *(*call)(void *))
{
    pthread_attr_t small;
    pthread_t thread;
    memset(stack, PAINT, STACK);
    CHECK(pthread_attr_init(&small) == 0 && pthread_attr_setstack(&small, stack, STACK) == 0);
    CHECK(pthread_create(&thread, &small, call, NULL) == 0 && pthread_join(thread, NULL) == 0);
    pthread_attr_destroy(&small);
    size_t untouched = 0;
    while (untouched < STACK && stack[untouched] == PAINT)
        untouched++;
    return STACK - untouched;
}

static void *call_each(void *unused)
{
    fow_validator validator = FOW_VALIDATOR_INIT;
    fow_report report;
    size_t written;
    uint32_t fault;
    CHECK(fow_open(&validator, policy.at, policy.len, keys.at, keys.len, &fault) == FOW_OK);
    CHECK(fow_judge(&validator, token.at, token.len, NOW, &report) == FOW_OK);
    CHECK(fow_payload(&validator, token.at, token.len, out, sizeof out, &written) == FOW_OK);
    CHECK(fow_accepted_payload(&validator, out, sizeof out, &written) <= FOW_ABSENT);
    fow_issue(&validator, FOW_HS256, FOW_GENERAL, 0, at("JWT"), 3, at("{}"), 2, out, sizeof out, &written, &report);
    fow_validator second = FOW_VALIDATOR_INIT;
    CHECK(fow_open_beside(&second, &validator) == FOW_OK);
    fow_close(&validator);
    fow_close(&second);
    return unused;
}

static void *judge_text(void *unused)
{
    fow_report report;
    uint32_t denial;
    size_t written;
    int64_t number;
    fow_judge(&hmac, at(text), text_len, NOW, &report);
    fow_denied(&hmac, &rule, &denial);
    fow_denied_name(&hmac, &rule, out, sizeof out, &written);
    fow_payload(&hmac, at(text), text_len, out, sizeof out, &written);
    fow_unverified_header(&hmac, at(text), text_len, 0, out, sizeof out, &written);
    fow_unverified_issuer(&hmac, at(text), text_len, out, sizeof out, &written);
    fow_claim(&hmac, at("x"), 1, out, sizeof out, &written);
    fow_expect_text(&hmac, at("x"), 1, at("x"), 1, &denial);
    fow_expect_half_hash(&hmac, at(text), text_len, 0, at("x"), 1, at("x"), 1, &denial);
    fow_number(&hmac, at("x"), 1, &number);
    fow_possession_judge(&possession, &hmac, at(text), text_len, at("GET"), 3, at("https://a/b/../c"), 16, at("n"), 1, at(text), text_len, NOW, &denial);
    fow_possession_judge(&possession, &hmac, at(text), text_len, at("GET"), 3, at("https://a/b/../c"), 16, at("n"), 1, at(""), 0, NOW, &denial);
    return unused;
}

static void *open_policy(void *unused)
{
    fow_validator validator = FOW_VALIDATOR_INIT;
    uint32_t fault;
    size_t written;
    CHECK(fow_open(&validator, at(nested), nested_len, keys.at, keys.len, &fault) == FOW_REFUSED);
    CHECK(fow_possession_open(&possession, at(nested), nested_len, &fault) == FOW_REFUSED);
    fow_refused_member(at(nested), nested_len, out, sizeof out, &written);
    fow_text_member(at(nested), nested_len, at("x"), 1, out, sizeof out, &written);
    fow_close(&validator);
    return unused;
}

static void *open_access(void *unused)
{
    fow_access access = FOW_ACCESS_INIT;
    uint32_t fault;
    size_t written;
    CHECK(fow_access_open(&access, at(nested), nested_len, &fault) == FOW_REFUSED);
    fow_access_refused(at(nested), nested_len, out, sizeof out, &written);
    fow_access_close(&access);
    return unused;
}

static void *open_keys(void *unused)
{
    fow_validator validator = FOW_VALIDATOR_INIT;
    uint32_t fault;
    fow_open(&validator, at(wide), sizeof wide - 1, at(nested), nested_len, &fault);
    fow_close(&validator);
    return unused;
}

static void *issue_claims(void *unused)
{
    fow_report report;
    size_t written;
    for (uint32_t form = FOW_COMPACT; form <= FOW_FLATTENED; form++)
        fow_issue(&hmac, FOW_HS256, form, 0, at("JWT"), 3, at(nested), nested_len, out, sizeof out, &written, &report);
    return unused;
}

/* Writes an object at `nested` that begins with `front` and has a member that nests so deep, by the brackets of that kind; without its end
 * where `is_cut`. */
static void nest(const char *front, int depth, int kind, bool is_cut)
{
    nested_len = (size_t)sprintf(nested, "{%s\"x\":", front);
    for (int i = 0; i < depth; i++)
        nested_len += (size_t)sprintf(nested + nested_len, "%s", opens[kind]);
    if (is_cut)
        return;
    nested[nested_len++] = '7';
    for (int i = 0; i < depth; i++)
        nested_len += (size_t)sprintf(nested + nested_len, "%s", closes[kind]);
    nested[nested_len++] = '}';
}

/* What nests as the claims of a token that is signed; nothing where it isn't issued. */
static void put_payload(void)
{
    fow_report report;
    if (fow_issue(&hmac, FOW_HS256, FOW_COMPACT, 0, at(""), 0, at(nested), nested_len, (uint8_t *)text, sizeof text, &text_len, &report) != FOW_OK)
        text_len = 0;
}

static void put_header(void)
{
    text_len = encode(at(nested), nested_len, text);
    text_len += (size_t)sprintf(text + text_len, ".e30.AAAA");
}

static void put_form(void)
{
    memcpy(text, nested, nested_len);
    text_len = nested_len;
}

/* Where JSON nests: what stands before it, how it is made a token, and the call. */
static const struct {
    const char *name, *front;
    void (*put)(void);
    void *(*call)(void *);
} places[] = {
    { "payload", "", put_payload, judge_text },
    { "protected header", "\"alg\":\"HS256\",", put_header, judge_text },
    { "JSON form", "\"payload\":\"e30\",\"signature\":\"AA\",", put_form, judge_text },
    { "policy", "\"algs\":[\"HS256\"],", NULL, open_policy },
    { "access rule", "\"claims\":{\"a\":[1]},", NULL, open_access },
    { "key set", "\"keys\":[],", NULL, open_keys },
    { "claims to issue", "", NULL, issue_claims },
};

static size_t touched_in(size_t place)
{
    size_t most = 0;
    for (int way = 0; way < 2 * DEPTHS * KINDS; way++) {
        nest(places[place].front, depths[way / 2 / KINDS], way / 2 % KINDS, way % 2);
        if (places[place].put != NULL)
            places[place].put();
        size_t touched = touched_by(places[place].call);
        most = touched > most ? touched : most;
    }
    printf("%s: %zu octets of stack\n", places[place].name, most);
    return most;
}

int main(int argc, char **argv)
{
    size_t most = 0;
    uint32_t fault;
    CHECK(argc > 1);
    /* (a page that can't be touched lies below) */
    stack = mmap(NULL, STACK + PAGE, PROT_READ | PROT_WRITE, MAP_PRIVATE | MAP_ANONYMOUS, -1, 0);
    CHECK(stack != MAP_FAILED && mprotect(stack, PAGE, PROT_NONE) == 0);
    stack += PAGE;
    for (int i = 1; i < argc; i++) {
        read_named(&policy, argv[i], "policy");
        read_named(&keys, argv[i], "keys");
        read_named(&token, argv[i], "jwt");
        size_t touched = touched_by(call_each);
        most = touched > most ? touched : most;
    }
    printf("tokens: %zu octets of stack\n", most);
    read_named(&keys, argv[1], "keys");
    CHECK(fow_open(&hmac, at(wide), sizeof wide - 1, keys.at, keys.len, &fault) == FOW_OK);
    CHECK(fow_access_open(&rule, at(rule_text), sizeof rule_text - 1, &fault) == FOW_OK);
    CHECK(fow_possession_open(&possession, at(proofs), sizeof proofs - 1, &fault) == FOW_OK);
    for (size_t place = 0; place < sizeof places / sizeof *places; place++) {
        size_t touched = touched_in(place);
        most = touched > most ? touched : most;
    }
    fow_possession_close(&possession);
    fow_access_close(&rule);
    fow_close(&hmac);
    CHECK(most + LEFT <= STACK);
    printf("128 KiB of stack do: %zu octets are left at least\n", STACK - most);
    return 0;
}
