/* Calls in any order on two validators, two holders of proofs and two memories, four octets each, beside a model of what they hold. The tokens and proofs are rows of
 * tests/possession/cases.jsonl, which seeds.py writes for this: the file that FOW_PROOFS names has a line of policies, one of the key set, and of each row its method, URI, token
 * and proof, with tabs between them. */
#include "harness.h"

enum { BOTH = 2, MOST_ROWS = 64, LINE_ROOM = 16384, MOMENT = 1700000000, NONE = -1, SECRET_ROOM = 40 };

typedef struct text {
    const uint8_t *at;
    size_t len;
} text;

typedef struct row {
    text method, uri, token, proof;
} row;

/* What one of each kind of handle is known to hold. */
typedef struct held {
    fow_validator validator;
    fow_possession possession;
    fow_once once;
    bool has_validator, has_policy, has_once;
    int accepted; /* the row whose token was accepted last, or NONE */
    bool is_kept; /* whether a proof is */
} held;

/* A call: what the four octets say, with the handles that it is made on. */
typedef struct call {
    uint8_t what, choice, place, change;
    held *one, *other;
    const row *row;
} call;

static row rows[MOST_ROWS];
static int row_count;
static text access_policy, proof_policy, keys;
static held both[BOTH];
static int64_t moment;
static area methods, uris, tokens, proofs, rooms;

static text field(char **line)
{
    size_t len = strcspn(*line, "\t\n");
    text it = { (const uint8_t *)*line, len };
    *line += len + ((*line)[len] != 0);
    return it;
}

static void begin(void)
{
    static char lines[MOST_ROWS + 2][LINE_ROOM];
    const char *name = getenv("FOW_PROOFS");
    FILE *in = fopen(name == NULL ? "build/fuzz/seeds/proofs" : name, "r");
    CHECK(in != NULL);
    for (int i = 0; i < MOST_ROWS + 2 && fgets(lines[i], LINE_ROOM, in) != NULL; i++) {
        char *at_line = lines[i];
        if (i == 0) {
            access_policy = field(&at_line);
            proof_policy = field(&at_line);
        } else if (i == 1) {
            keys = field(&at_line);
        } else {
            row *it = &rows[row_count++];
            it->method = field(&at_line);
            it->uri = field(&at_line);
            it->token = field(&at_line);
            it->proof = field(&at_line);
        }
    }
    fclose(in);
    CHECK(row_count > 8);
}

/* A text at the end of what can be touched, with an octet changed where that is said. */
static text placed(area *to, text it, const call *c, int is_changed)
{
    uint8_t *copy = area_end(to, it.len);
    area_put(to, it.at, it.len, 0);
    if (is_changed && it.len > 0)
        copy[c->place * it.len / 256] ^= (uint8_t)(1 << (c->change & 7));
    return (text){ copy, it.len };
}

static int has_same_octets(text one, text other)
{
    return one.len == other.len && memcmp(one.at, other.at, one.len) == 0;
}

static void open_validator(const call *c)
{
    uint32_t fault;
    CHECK(fow_open(&c->one->validator, access_policy.at, access_policy.len, keys.at, keys.len, &fault) == FOW_OK);
    c->one->has_validator = true;
    c->one->accepted = NONE;
}

static void judge_token(const call *c)
{
    fow_report report;
    text token = placed(&tokens, c->row->token, c, c->change & 8);
    uint32_t status = fow_judge(&c->one->validator, token.at, token.len, moment, &report);
    CHECK((status == FOW_NOT_OPEN) == !c->one->has_validator);
    CHECK(status != FOW_OK || has_same_octets(token, c->row->token));
    c->one->accepted = status == FOW_OK ? (int)(c->row - rows) : NONE;
}

/* A policy for proofs, whole or with an octet changed: one that is refused leaves what was held. */
static void open_possession(const call *c)
{
    uint32_t fault = 77;
    text policy = placed(&proofs, proof_policy, c, c->change & 8);
    uint32_t status = fow_possession_open(&c->one->possession, policy.at, policy.len, &fault);
    CHECK(status == FOW_OK ? fault == FOW_NO_FAULT : status == FOW_REFUSED && fault != FOW_NO_FAULT);
    CHECK(status == FOW_OK || (c->change & 8) != 0);
    if (status == FOW_OK) {
        c->one->has_policy = true;
        c->one->is_kept = false;
    }
}

/* What is kept of a proof that is accepted, in just enough room. */
static void check_kept(const call *c, text proof)
{
    fow_entry entry;
    size_t written = 7;
    int is_of_a_row = 0;
    size_t signed_len = (size_t)((const uint8_t *)memrchr(proof.at, '.', proof.len) - proof.at);
    for (int i = 0; i < row_count; i++)
        is_of_a_row |= rows[i].proof.len > signed_len && memcmp(rows[i].proof.at, proof.at, signed_len + 1) == 0;
    CHECK(is_of_a_row);
    CHECK(fow_possession_thumbprint(&c->one->possession, area_end(&rooms, FOW_THUMBPRINT_LEN), FOW_THUMBPRINT_LEN, &written) == FOW_OK && written == FOW_THUMBPRINT_LEN);
    CHECK(fow_possession_thumbprint(&c->one->possession, area_end(&rooms, FOW_THUMBPRINT_LEN - 1), FOW_THUMBPRINT_LEN - 1, &written) == FOW_TOO_SHORT);
    CHECK(fow_possession_entry(&c->one->possession, &entry) == FOW_OK && (int64_t)(entry.moment + entry.grace) >= moment);
}

static void judge_proof(const call *c)
{
    static const text none = { (const uint8_t *)"", 0 };
    uint32_t fault = 77;
    text method = placed(&methods, c->row->method, c, (c->change & 56) == 8), uri = placed(&uris, c->row->uri, c, (c->change & 56) == 16);
    text token = placed(&tokens, c->change & 64 ? none : c->row->token, c, (c->change & 56) == 24), proof = placed(&proofs, c->row->proof, c, (c->change & 56) == 32);
    uint32_t status = fow_possession_judge(&c->one->possession, &c->other->validator, proof.at, proof.len, method.at, method.len, uri.at, uri.len, none.at, 0,
        token.at, token.len, moment, &fault);
    cover_outcome(1 << 16 | status << 12 | fault);
    CHECK((status == FOW_NOT_OPEN) == (!c->one->has_policy || (token.len > 0 && !c->other->has_validator)));
    CHECK(status == FOW_REFUSED ? fault != FOW_NO_FAULT : fault == FOW_NO_FAULT);
    CHECK((fow_proof_outcome(status, fault) == FOW_ADMITTED) == (status == FOW_OK));
    CHECK(token.len == 0 || c->other->accepted != NONE || status == FOW_ABSENT || status == FOW_NOT_OPEN);
    if (!c->one->has_policy)
        return;
    c->one->is_kept = status == FOW_OK;
    if (status == FOW_OK)
        check_kept(c, proof);
}

/* A proof is taken once, where one is kept, and its entry is told exactly then. */
static void take_proof(const call *c)
{
    fow_entry entry;
    uint32_t taken = 77, again = 77;
    uint32_t told = fow_possession_entry(&c->one->possession, &entry);
    uint32_t status = fow_possession_take(&c->one->possession, &c->other->once, moment, &taken);
    cover_outcome(2 << 16 | status << 4 | taken);
    CHECK(told == (!c->one->has_policy ? FOW_NOT_OPEN : c->one->is_kept ? FOW_OK : FOW_ABSENT));
    CHECK((status == FOW_NOT_OPEN) == (!c->one->has_policy || !c->other->has_once));
    CHECK(status == FOW_NOT_OPEN || (status == FOW_ABSENT) == !c->one->is_kept);
    if (status == FOW_OK)
        CHECK(taken == FOW_TAKEN_NEW && fow_possession_take(&c->one->possession, &c->other->once, moment, &again) == FOW_REFUSED && again == FOW_TAKEN_SEEN);
    else if (status == FOW_REFUSED)
        CHECK(taken == FOW_TAKEN_SEEN || taken == FOW_TAKEN_LATE || taken == FOW_TAKEN_BEFORE || taken == FOW_TAKEN_FULL || taken == FOW_TAKEN_OWN_FULL);
    else
        CHECK(taken == FOW_TAKEN_NOTHING);
}

static void open_once(const call *c)
{
    size_t count = c->choice & 3;
    uint32_t status = fow_once_open(&c->one->once, count, c->choice >> 2 & 3, c->choice & 16 ? (uint64_t)moment : 0);
    CHECK(status == (count == 0 ? FOW_REFUSED : FOW_OK));
    c->one->has_once |= status == FOW_OK;
}

static void take_token(const call *c)
{
    fow_entry entry;
    uint32_t taken = 77, lacks = 77;
    uint32_t status = fow_once_take(&c->one->once, &c->other->validator, moment, &taken);
    uint32_t told = fow_once_entry(&c->other->validator, moment, &entry, &lacks);
    cover_outcome(3 << 16 | status << 8 | taken << 4 | told);
    CHECK((status == FOW_NOT_OPEN) == (!c->one->has_once || !c->other->has_validator));
    CHECK(status == FOW_NOT_OPEN || (status == FOW_ABSENT) == (c->other->accepted == NONE));
    CHECK((told == FOW_NOT_OPEN) == !c->other->has_validator);
    CHECK(status != FOW_OK || (taken == FOW_TAKEN_NEW && told == FOW_OK));
}

/* The nonce of a proof is asked for with a secret that is long enough, and a period. */
static void ask_nonce(const call *c)
{
    size_t len = 28 + (c->choice & 7);
    uint8_t *secret = area_end(&rooms, len);
    memset(secret, c->place, len);
    uint32_t status = fow_possession_fresh(&c->one->possession, secret, len, c->change, moment);
    cover_outcome(4 << 16 | status);
    if (!c->one->has_policy)
        CHECK(status == FOW_NOT_OPEN);
    else if (len < FOW_NONCE_SECRET_LEN || c->change == 0)
        CHECK(status == FOW_REFUSED);
    else
        CHECK(c->one->is_kept ? status == FOW_OK || status == FOW_NOT_EXPECTED : status == FOW_ABSENT);
}

/* Whether each way in which the token that was accepted last is bound is shown, by a proof that may be kept and a certificate that it isn't bound to. */
static void ask_binding(const call *c)
{
    uint32_t ways = 77, fault = 77;
    uint32_t status = fow_shown(&c->one->validator, &c->other->possession, c->row->proof.at, c->place, &ways, &fault);
    cover_outcome(5 << 16 | status << 11 | fault);
    CHECK((status == FOW_NOT_OPEN) == !c->one->has_validator);
    CHECK(status == FOW_NOT_OPEN || (status == FOW_ABSENT) == (c->one->accepted == NONE));
    CHECK(status == FOW_REFUSED ? fault >= FOW_BINDING_UNKNOWN && fault <= FOW_BINDING_OTHER_CERTIFICATE : fault == FOW_NO_FAULT);
    CHECK(status == FOW_OK ? ways <= 3 : ways == FOW_BOUND_NOT);
}

/* What is expected of the claims of the token that was accepted last. */
static void expect(const call *c)
{
    static const char *const claims[] = { "sub", "cnf", "at_hash", "", "no such claim" };
    const char *claim = claims[c->choice % 5];
    uint32_t unmet = 77, unmet_hash = 77;
    text octets = placed(&rooms, c->row->token, c, c->change & 8);
    uint32_t status = fow_expect_text(&c->one->validator, at(claim), strlen(claim), octets.at, octets.len, &unmet);
    uint32_t hashed = fow_expect_half_hash(&c->one->validator, c->row->token.at, c->row->token.len, c->place & 1, at(claim), strlen(claim), octets.at, octets.len, &unmet_hash);
    cover_outcome(6 << 16 | status << 12 | hashed << 4 | unmet_hash);
    CHECK((status == FOW_NOT_OPEN) == !c->one->has_validator && (hashed == FOW_NOT_OPEN) == !c->one->has_validator);
    CHECK(status != FOW_OK && hashed != FOW_OK);
}

static void write_algs(const call *c)
{
    size_t written = 7, again = 7;
    uint32_t status = fow_possession_algs(&c->one->possession, area_end(&rooms, 512), 512, &written);
    CHECK(status == (c->one->has_policy ? FOW_OK : FOW_NOT_OPEN));
    CHECK(status != FOW_OK || fow_possession_algs(&c->one->possession, area_end(&rooms, written - 1), written - 1, &again) == FOW_TOO_SHORT);
}

static void close_one(const call *c)
{
    if (c->choice & 1) {
        fow_close(&c->one->validator);
        c->one->has_validator = false;
        c->one->accepted = NONE;
    }
    if (c->choice & 2) {
        fow_possession_close(&c->one->possession);
        c->one->has_policy = c->one->is_kept = false;
    }
    if (c->choice & 4) {
        fow_once_close(&c->one->once);
        c->one->has_once = false;
    }
}

/* Another moment: some seconds later or earlier, or one at the ends of what there is. */
static void move(const call *c)
{
    moment = c->choice & 1 ? MOMENT + (int64_t)c->place - 128 : (int64_t)((uint64_t)c->place << 56 | c->change);
}

static void make(const call *c)
{
    static void (*const calls[])(const call *)
        = { open_validator, judge_token, judge_token, open_possession, judge_proof, judge_proof, judge_proof, take_proof, open_once, take_token, ask_nonce, ask_binding, expect, write_algs, close_one, move };
    calls[c->what & 15](c);
}

int LLVMFuzzerTestOneInput(const uint8_t *data, size_t size)
{
    if (row_count == 0)
        begin();
    moment = MOMENT;
    for (int i = 0; i < BOTH; i++)
        both[i].accepted = NONE;
    for (size_t i = 0; i + 4 <= size; i += 4) {
        call c = { data[i], data[i + 1], data[i + 2], data[i + 3], &both[data[i] >> 7], &both[data[i] >> 6 & 1], &rows[data[i + 1] % row_count] };
        make(&c);
    }
    for (int i = 0; i < BOTH; i++) {
        call c = { 14, 7, 0, 0, &both[i], &both[i], rows };
        make(&c);
    }
    return 0;
}
