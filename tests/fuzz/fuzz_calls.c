/* Calls in any order on two validators, four octets each, beside a model of what the two hold. */
#include "harness.h"

enum { DOCUMENTS = 3, TOKENS = 7, BOTH = 2, HMAC_TOKEN = 5, CHANGED_TOKEN = 6, KEYS = 16, NONE = -1, TOKEN_ROOM = 4096 };

/* What a validator is known to hold. */
typedef struct model {
    fow_validator validator;
    bool is_open;
    bool is_accepted;             /* whether the last judging accepted */
    bool remembers;               /* whether tokens are to be remembered */
    uint32_t kept[TOKENS];        /* the key, from 1, by which fow_judge accepted it since then, or 0 */
} model;

/* A call: what the four octets say. */
typedef struct call {
    uint8_t what, rest;
    int token;
    uint32_t signature, key;
    const uint8_t *octets;
    size_t len, room;
    uint8_t *out;
} call;

static fixed *documents[DOCUMENTS];
static struct {
    uint8_t at[TOKEN_ROOM];
    size_t len;
} tokens[TOKENS];
static area token_area, rooms;

static void begin(void)
{
    static const char *const names[] = { "RS256", "ES256", "Ed25519", "Ed448", "PS256" };
    static const char hs256[] = "eyJhbGciOiJIUzI1NiJ9.e30.AAAA";
    open_fixed();
    documents[0] = &table[8];
    documents[1] = &table[4];
    documents[2] = &table[0];
    for (int i = 0; i < HMAC_TOKEN; i++)
        tokens[i].len = read_file(names[i], "jwt", (char *)tokens[i].at, TOKEN_ROOM);
    memcpy(tokens[HMAC_TOKEN].at, hs256, tokens[HMAC_TOKEN].len = sizeof hs256 - 1);
    tokens[CHANGED_TOKEN] = tokens[0];
    tokens[CHANGED_TOKEN].at[tokens[0].len - 20] ^= 1;
}

static void forget_all(model *it)
{
    it->is_accepted = false;
}

/* What a validator remembers that was opened just now, or is told how much it is to remember. */
static void remember_none(model *it, bool remembers)
{
    memset(it->kept, 0, sizeof it->kept);
    it->remembers = remembers;
}

static void open_it(model *it, const call *c)
{
    const fixed *d = documents[c->token % DOCUMENTS];
    uint32_t fault;
    CHECK(fow_open(&it->validator, at(d->policy), strlen(d->policy), at(d->keys_text), d->keys_len, &fault) == FOW_OK);
    it->is_open = true;
    forget_all(it);
    remember_none(it, false);
}

static void open_refused(model *it, const call *c)
{
    const fixed *d = documents[c->token % DOCUMENTS];
    uint32_t fault;
    size_t cut = 3 + c->rest % 60;
    CHECK(fow_open(&it->validator, at(d->policy), strlen(d->policy), at(d->keys_text), d->keys_len - cut, &fault) == FOW_REFUSED);
}

static void open_beside(model *it, model *another)
{
    uint32_t status = fow_open_beside(&it->validator, &another->validator);
    CHECK(status == (another->is_open ? FOW_OK : FOW_NOT_OPEN));
    if (status == FOW_OK) {
        it->is_open = true;
        forget_all(it);
        remember_none(it, false);
    }
}

static void close_it(model *it)
{
    fow_close(&it->validator);
    it->is_open = false;
    forget_all(it);
    remember_none(it, false);
}

/* What is remembered was accepted by that key since then; and what is accepted may be remembered from now on. */
static void check_remembered(model *it, int token, uint32_t verdict, const fow_report *report)
{
    bool is_remembered = fow_remembered(&it->validator);
    CHECK(!is_remembered || (it->remembers && token != NONE && it->kept[token] != 0));
    CHECK(!is_remembered || (verdict == FOW_OK && report->key + 1 == it->kept[token]));
    if (verdict == FOW_OK && it->remembers)
        it->kept[token] = report->key + 1;
}

static void remember(model *it, const call *c)
{
    size_t tokens = c->key % 4;
    uint32_t status = fow_remember(&it->validator, tokens, c->room);
    CHECK(status == (it->is_open ? FOW_OK : FOW_NOT_OPEN));
    if (status == FOW_OK)
        remember_none(it, tokens != 0);
}

/* Judges a token, or octets that are none where `token` is NONE. None is accepted that no key signed. */
static void judge(model *it, int token, const uint8_t *octets, size_t len)
{
    fow_report report;
    uint32_t verdict = fow_judge(&it->validator, octets, len, NOW, &report);
    it->is_accepted = verdict == FOW_OK;
    if (!it->is_open) {
        CHECK(verdict == FOW_NOT_OPEN && report.verdict == FOW_NOT_OPEN && report.fault == 0 && report.tries == 0 && report.work == 0);
        return;
    }
    check_report(verdict, &report, KEYS);
    check_states(&it->validator, &report);
    check_tries(&it->validator, &report, KEYS);
    CHECK(token != NONE || verdict == FOW_REFUSED);
    check_remembered(it, token, verdict, &report);
    CHECK(verdict != FOW_OK || (token != HMAC_TOKEN && token != CHANGED_TOKEN && report.signature == 0));
}

static void get_claims(model *it, const call *c)
{
    int64_t number;
    size_t written;
    uint32_t status = fow_claim(&it->validator, at("iss"), 3, c->out, c->room, &written);
    CHECK(status == (!it->is_open ? FOW_NOT_OPEN : !it->is_accepted ? FOW_ABSENT : c->room < 5 ? FOW_TOO_SHORT : FOW_OK));
    status = fow_number(&it->validator, at("exp"), 3, &number);
    CHECK(status == (!it->is_open ? FOW_NOT_OPEN : !it->is_accepted ? FOW_ABSENT : FOW_OK) && (status != FOW_OK || number == NOW + 1));
}

static void get_others(model *it, const call *c)
{
    size_t written;
    uint32_t limit;
    fow_state state;
    fow_try tried;
    uint32_t status = fow_state_of(&it->validator, c->key, &state);
    CHECK(it->is_open ? status == FOW_OK || status == FOW_ABSENT : status == FOW_NOT_OPEN);
    status = fow_try_of(&it->validator, c->key, &tried);
    CHECK(it->is_open ? status == FOW_OK || status == FOW_ABSENT : status == FOW_NOT_OPEN);
    fow_payload(&it->validator, c->octets, c->len, c->out, c->room, &written);
    status = fow_accepted_payload(&it->validator, c->out, c->room, &written);
    CHECK(!it->is_open ? status == FOW_NOT_OPEN : !it->is_accepted ? status == FOW_ABSENT : status == FOW_OK || status == FOW_TOO_SHORT);
    fow_unverified_header(&it->validator, c->octets, c->len, c->signature, c->out, c->room, &written);
    status = fow_unverified_issuer(&it->validator, c->octets, c->len, c->out, c->room, &written);
    CHECK(it->is_open ? status != FOW_NOT_OPEN : status == FOW_NOT_OPEN);
    status = fow_sole_issuer(&it->validator, c->out, c->room, &written);
    CHECK(it->is_open ? status != FOW_NOT_OPEN : status == FOW_NOT_OPEN);
    CHECK(fow_token_limit(&it->validator, &limit) == (it->is_open ? FOW_OK : FOW_NOT_OPEN));
    CHECK(it->is_open || !fow_documents_are_public(&it->validator));
}

/* Judges a token that is cut at its last period or before, and so is none. */
static void judge_cut(model *it, const call *c)
{
    const uint8_t *last = memrchr(c->octets, '.', c->len);
    size_t cut = c->rest % (size_t)(last - c->octets + 1);
    judge(it, NONE, area_put(&token_area, tokens[c->token].at, cut, c->rest & 4), cut);
}

static void run(model *it, model *another, const call *c)
{
    switch (c->what % 11) {
    case 0: case 1: open_it(it, c); break;
    case 2: open_refused(it, c); break;
    case 3: open_beside(it, another); break;
    case 4: if (c->rest & 1) close_it(it); break;
    case 5: case 6: case 7: judge(it, c->token, c->octets, c->len); break;
    case 8: get_claims(it, c); break;
    case 9: get_others(it, c); judge_cut(it, c); break;
    case 10: remember(it, c); break;
    }
}

static call call_of(const uint8_t *octets)
{
    call c = { .what = octets[0] & 127, .rest = octets[3], .token = octets[1] % TOKENS };
    c.signature = octets[2] >> 6 ? 0 : octets[2] & 3;
    c.key = octets[2] % 12;
    c.len = tokens[c.token].len;
    c.room = octets[3] & 2 ? octets[3] * 4u : TOKEN_ROOM;
    c.octets = area_put(&token_area, tokens[c.token].at, c.len, octets[3] & 4);
    c.out = area_end(&rooms, c.room);
    return c;
}

int LLVMFuzzerTestOneInput(const uint8_t *data, size_t size)
{
    static model both[BOTH];
    if (documents[0] == NULL)
        begin();
    memset(both, 0, sizeof both);
    for (size_t i = 0; i + 3 < size; i += 4) {
        call c = call_of(data + i);
        run(&both[data[i] >> 7], &both[1 - (data[i] >> 7)], &c);
    }
    for (int i = 0; i < BOTH; i++)
        fow_close(&both[i].validator);
    return 0;
}
