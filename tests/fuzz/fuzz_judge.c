/* An octet that chooses a validator, then a token. */
#include "harness.h"

static area tokens;

int LLVMFuzzerTestOneInput(const uint8_t *data, size_t size)
{
    open_fixed();
    if (size == 0)
        return 0;
    fixed *it = &table[data[0] % FIXED];
    size_t len = size - 1;
    const uint8_t *token = area_put(&tokens, data + 1, len, data[0] & 128);
    fow_report first, second;
    uint32_t verdict = fow_judge(&it->validator, token, len, NOW, &first);
    check_judged(it, verdict, &first);
    CHECK(fow_judge(&it->validator, token, len, NOW, &second) == verdict && is_same(&first, &second));
    check_getters(&it->validator, token, len, &second);
    if (verdict != FOW_OK)
        return 0;
    if (second.work != 0 && second.key < SECRETS)
        check_hmac(it, token, len, &second);
    /* (of a token in JSON form much may change that nobody signed, and a final line feed may be dropped) */
    if (memchr("{\t\r\n ", token[0], 5) == NULL && token[len - 1] != '\n')
        check_mutants(it, token, len);
    return 0;
}
