/* Four octets (algorithm, form, key, where the texts lie), a typ, a line feed, claims: what is issued is judged, and its tag is that of OpenSSL's
 * HMAC; with too little room nothing is written past it. */
#include "harness.h"

static area claim_area, type_area, rooms;

/* What is asked for. */
typedef struct order {
    uint32_t alg, form, key;
    const uint8_t *typ, *claims;
    size_t typ_len, claims_len;
} order;

static uint32_t issue(fixed *it, const order *o, size_t room, size_t *written, fow_report *report)
{
    return fow_issue(&it->validator, o->alg, o->form, o->key, o->typ, o->typ_len, o->claims, o->claims_len, area_end(&rooms, room), room, written, report);
}

/* Why nothing is issued; where something is, the report isn't written. */
static void check_refusal(const order *o, uint32_t status, const fow_report *report)
{
    uint32_t fault = report->fault;
    CHECK(status == FOW_OK || status == FOW_REFUSED || status == FOW_ABSENT);
    if (o->alg < FOW_HS256 || o->alg > FOW_HS512 || o->form < FOW_COMPACT || o->form > FOW_FLATTENED)
        CHECK(status == FOW_ABSENT);
    if (status != FOW_REFUSED) {
        CHECK(report->verdict == 0xa5a5a5a5);
        return;
    }
    CHECK((fault >= FOW_CLAIM_CLAIMS_SHAPE && fault <= FOW_CLAIM_DATE) || fault == FOW_ISSUE_NO_KEY || fault == FOW_ISSUE_KEY_UNFIT
        || fault == FOW_ISSUE_TOO_LONG);
    CHECK(report->verdict == FOW_REFUSED && report->tries == 0 && report->work == 0 && report->part == FOW_NO_PART && report->key == 0);
    CHECK((report->claim != FOW_NO_CLAIM) == (fault == FOW_CLAIM_KIND || fault == FOW_CLAIM_DATE) && report->claim < FOW_CLAIM_BY_NAME);
    cover_outcome(fault | report->claim << 10 | o->form << 16 | o->alg << 20);
}

/* A token that was issued is the same with just enough room, and accepted but for its dates and the like. */
static void check_token(fixed *it, const order *o, const uint8_t *token, size_t len)
{
    fow_report report;
    size_t again;
    CHECK(issue(it, o, len, &again, &report) == FOW_OK && again == len && memcmp(token, area_end(&rooms, len), len) == 0);
    CHECK(issue(it, o, len - 1, &again, &report) == FOW_TOO_SHORT);
    uint32_t verdict = fow_judge(&it->validator, token, len, NOW, &report);
    check_judged(it, verdict, &report);
    CHECK(verdict == FOW_OK || (is_of(report.fault, 7) && report.fault >= FOW_CLAIM_ISSUER));
    if (verdict == FOW_OK)
        check_hmac(it, token, len, &report);
    if (verdict == FOW_OK && o->form == FOW_COMPACT)
        check_mutants(it, token, len);
    CHECK(fow_judge(&it->validator, token, len, NOW, &report) == verdict);
    check_getters(&it->validator, token, len, &report);
}

int LLVMFuzzerTestOneInput(const uint8_t *data, size_t size)
{
    static fixed it = { .policy = "{\"algs\":[\"HS256\",\"HS384\",\"HS512\"],\"limit\":1048576,\"max_signatures\":32,\"work\":1000000000000}", .set = "SECRETS" };
    static uint8_t token[ROOM];
    fow_report report;
    if (it.keys_text == NULL)
        open_one(&it);
    if (size < 4)
        return 0;
    const uint8_t *text = data + 4, *line = memchr(text, '\n', size - 4);
    order o = { .alg = data[0] < 14 ? data[0] : 1u + data[0] % 3, .form = data[1] % 5, .key = data[2] % 4 };
    o.typ_len = line == NULL ? size - 4 : (size_t)(line - text);
    o.claims_len = line == NULL ? 0 : size - 5 - o.typ_len;
    o.typ = area_put(&type_area, text, o.typ_len, data[3] & 1);
    o.claims = area_put(&claim_area, line == NULL ? text : line + 1, o.claims_len, data[3] & 2);
    size_t room = 65536 + 8 * size, written = 0;
    memset(&report, 0xa5, sizeof report);
    uint32_t status = issue(&it, &o, room, &written, &report);
    check_refusal(&o, status, &report);
    if (status != FOW_OK)
        return 0;
    CHECK(written <= room);
    memcpy(token, area_end(&rooms, room), written);
    check_token(&it, &o, token, written);
    return 0;
}
