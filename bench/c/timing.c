/* timing: whether the time of a call depends on a secret, as far as that shows here. In the manner of dudect (Reparaz, Balasch, Verbauwhede, 2017): of two classes of inputs
 * one is drawn at random for each call, the ticks of the call are counted, and the means of the classes are compared by Welch's t, over all calls and over the shortest ones
 * alone, which other work on the machine disturbs least. Each line has the greatest |t| of these. Where it stays below 4.5 nothing shows; a control, a call with a comparison behind it
 * that stops at the first difference, has to be far above. bench/timing compiles it, and runs it.
 *
 *     timing COUNT              so many calls of each kind
 *     timing COUNT KIND CLASS   so many calls of one kind (0 to 3), all of one class (0 or 1), and prints nothing: for who counts their instructions
 */
#include <fowharimu.h>
#include <math.h>
#include <x86intrin.h>

#include "octets.h"

enum { TAG = 32, WARM = 1000 };

static const char header_and_claims[] = "eyJhbGciOiJIUzI1NiJ9.eyJpc3MiOiJqb2UiLCJzdWIiOiJhbm4iLCJleHAiOjEzMDA4MTkzODB9";
static const char claims[] = "{\"iss\":\"joe\",\"sub\":\"ann\",\"exp\":1300819380}";
/* The shares of the calls, the shortest first, that are compared. */
static const double shares[] = { 0.1, 0.25, 0.5, 0.75, 0.9, 0.99, 1 };

typedef struct call {
    double ticks;
    int class;
} call;

static fow_validator by = FOW_VALIDATOR_INIT;
static uint8_t good[TAG];
static char token[sizeof header_and_claims + 64];
static size_t token_len;
static uint8_t shown[TAG];

static const uint8_t *at(const char *text)
{
    return (const uint8_t *)text;
}

/* xorshift64, by Marsaglia: what is drawn isn't secret. */
static uint64_t drawn(void)
{
    static uint64_t state = 88172645463325252u;
    state ^= state << 13;
    state ^= state >> 7;
    state ^= state << 17;
    return state;
}

static void draw(uint8_t *octets, size_t len)
{
    for (size_t i = 0; i < len; i++)
        octets[i] = (uint8_t)(drawn() >> 24);
}

static uint64_t ticks(void)
{
    unsigned where;
    _mm_lfence();
    uint64_t now = __rdtscp(&where);
    _mm_lfence();
    return now;
}

/* Opens the validator anew by this secret: where the one before lay in memory. */
static void open_by(const uint8_t *secret)
{
    static const char policy[] = "{\"algs\":[\"HS256\"]}";
    char text[64], keys[128];
    uint32_t fault;
    text[encode(secret, 32, text)] = 0;
    snprintf(keys, sizeof keys, "{\"keys\":[{\"kty\":\"oct\",\"k\":\"%s\"}]}", text);
    fow_close(&by);
    CHECK(fow_open(&by, at(policy), sizeof policy - 1, at(keys), strlen(keys), &fault) == FOW_OK);
}

/* Reads a tag in base64url. */
static void tag_of(const uint8_t *text)
{
    static const char characters[] = "ABCDEFGHIJKLMNOPQRSTUVWXYZabcdefghijklmnopqrstuvwxyz0123456789-_";
    for (size_t i = 0; i < 43; i++) {
        unsigned bits = (unsigned)(strchr(characters, text[i]) - characters) << 10 >> (6 * i % 8);
        good[6 * i / 8] |= (uint8_t)(bits >> 8);
        if (6 * i / 8 + 1 < TAG)
            good[6 * i / 8 + 1] |= (uint8_t)bits;
    }
}

/* Writes the token with this tag where each token stands, and the tag beside it. */
static void show(const uint8_t *tag)
{
    memcpy(shown, tag, TAG);
    memcpy(token, header_and_claims, sizeof header_and_claims - 1);
    token[sizeof header_and_claims - 1] = '.';
    token_len = sizeof header_and_claims + encode(shown, TAG, token + sizeof header_and_claims);
}

static void judge(void)
{
    fow_report report;
    CHECK(fow_judge(&by, at(token), token_len, NOW, &report) == FOW_REFUSED);
}

static int stops(void)
{
    for (volatile int i = 0; i < TAG; i++) {
        if (shown[i] != good[i])
            return 0;
    }
    return 1;
}

/* A tag with one wrong bit in its first octet, or in its last. */
static void first_or_last(int class)
{
    uint8_t tag[TAG];
    memcpy(tag, good, TAG);
    tag[class ? TAG - 1 : 0] ^= 1;
    show(tag);
}

/* A tag with one wrong bit in its last octet, or a random one. */
static void last_or_random(int class)
{
    uint8_t tags[2][TAG];
    memcpy(tags[0], good, TAG);
    tags[0][TAG - 1] ^= 1;
    draw(tags[1], TAG);
    show(tags[class]);
}

static double judged(int class)
{
    (void)class;
    uint64_t from = ticks();
    judge();
    return (double)(ticks() - from);
}

static double judged_and_stops(int class)
{
    (void)class;
    uint64_t from = ticks();
    judge();
    CHECK(!stops());
    return (double)(ticks() - from);
}

static double issued(int class)
{
    static uint8_t out[512];
    size_t written;
    fow_report report;
    (void)class;
    uint64_t from = ticks();
    CHECK(fow_issue(&by, FOW_HS256, FOW_COMPACT, 0, at(""), 0, at(claims), sizeof claims - 1, out, sizeof out, &written, &report) == FOW_OK);
    return (double)(ticks() - from);
}

/* A secret of zeros, or a random one. */
static void zeros_or_random(int class)
{
    static const uint8_t zeros[32];
    uint8_t secret[32];
    draw(secret, sizeof secret);
    open_by(class ? secret : zeros);
    /* (so that what reading the secret has left in the processor's caches isn't measured) */
    issued(class);
    issued(class);
}

static int in_order(const void *one, const void *other)
{
    double a = ((const call *)one)->ticks, b = ((const call *)other)->ticks;
    return (a > b) - (a < b);
}

/* Welch's t of the two classes among the first calls. */
static double welch(const call *calls, size_t count)
{
    double n[2] = { 0 }, mean[2] = { 0 }, squares[2] = { 0 };
    for (size_t i = 0; i < count; i++) {
        int class = calls[i].class;
        double off = calls[i].ticks - mean[class];
        n[class]++;
        mean[class] += off / n[class];
        squares[class] += off * (calls[i].ticks - mean[class]);
    }
    double spread = squares[0] / (n[0] - 1) / n[0] + squares[1] / (n[1] - 1) / n[1];
    return spread > 0 ? (mean[0] - mean[1]) / sqrt(spread) : 0;
}

/* A kind of calls: what is made ready for a call of a class, and the call. */
typedef struct kind {
    const char *name;
    void (*prepare)(int);
    double (*run)(int);
} kind;

static const kind kinds[] = {
    { "the tag: wrong in the first octet, or in the last", first_or_last, judged },
    { "the tag: wrong in the last octet, or random", last_or_random, judged },
    { "the control: a comparison behind the first that stops", first_or_last, judged_and_stops },
    { "issuing: by a secret of zeros, or by random ones", zeros_or_random, issued },
};

static void measure(const kind *it, call *calls, size_t count)
{
    double most = 0;
    for (size_t i = 0; i < WARM + count; i++) {
        int class = (int)(drawn() >> 40 & 1);
        it->prepare(class);
        double took = it->run(class);
        if (i >= WARM)
            calls[i - WARM] = (call){ took, class };
    }
    qsort(calls, count, sizeof *calls, in_order);
    for (size_t i = 0; i < sizeof shares / sizeof *shares; i++)
        most = fmax(most, fabs(welch(calls, (size_t)(shares[i] * (double)count))));
    printf("%s\t%zu\t%.0f\t%.1f\n", it->name, count, calls[count / 2].ticks, most);
    fflush(stdout);
}

int main(int argc, char **argv)
{
    static const uint8_t zeros[32];
    uint8_t out[512];
    size_t written, count = argc > 1 ? strtoul(argv[1], NULL, 10) : 0;
    fow_report report;
    CHECK((argc == 2 || argc == 4) && count >= 1 && count <= 100000000);
    open_by(zeros);
    CHECK(fow_issue(&by, FOW_HS256, FOW_COMPACT, 0, at(""), 0, at(claims), sizeof claims - 1, out, sizeof out, &written, &report) == FOW_OK);
    CHECK(memcmp(out, header_and_claims, sizeof header_and_claims - 1) == 0 && written == sizeof header_and_claims + 43);
    tag_of(out + sizeof header_and_claims);
    if (argc == 4) {
        const kind *it = &kinds[strtoul(argv[2], NULL, 10) % (sizeof kinds / sizeof *kinds)];
        for (size_t i = 0; i < count; i++) {
            it->prepare(*argv[3] == '1');
            it->run(*argv[3] == '1');
        }
        return 0;
    }
    call *calls = malloc(count * sizeof *calls);
    CHECK(calls != NULL);
    for (size_t i = 0; i < sizeof kinds / sizeof *kinds; i++)
        measure(&kinds[i], calls, count);
    free(calls);
    return 0;
}
