
/* What a request expects of its token's claims: jwt_expect. */

#include "ngx_http_fowharimu.h"


static ngx_int_t ngx_http_fowharimu_claim_pointer(ngx_conf_t *cf,
    ngx_str_t *name, ngx_str_t *pointer);
static ngx_int_t ngx_http_fowharimu_expect_one(ngx_http_request_t *r,
    ngx_http_fowharimu_judged_t *judged,
    ngx_http_fowharimu_expectation_t *expectation);


/* "jwt_expect claim value" */

char *
ngx_http_fowharimu_set_expected(ngx_conf_t *cf, ngx_command_t *cmd, void *conf)
{
    ngx_http_fowharimu_loc_conf_t *lcf = conf;

    ngx_str_t                         *value;
    ngx_http_compile_complex_value_t   ccv;
    ngx_http_fowharimu_expectation_t  *expectation;

    if (lcf->expected == NGX_CONF_UNSET_PTR) {
        lcf->expected = ngx_array_create(cf->pool, 2,
                                    sizeof(ngx_http_fowharimu_expectation_t));
        if (lcf->expected == NULL) {
            return NGX_CONF_ERROR;
        }
    }

    value = cf->args->elts;

    expectation = ngx_array_push(lcf->expected);
    if (expectation == NULL) {
        return NGX_CONF_ERROR;
    }

    expectation->name = value[1];

    if (ngx_http_fowharimu_claim_pointer(cf, &value[1], &expectation->claim)
        != NGX_OK)
    {
        return NGX_CONF_ERROR;
    }

    ngx_memzero(&ccv, sizeof(ngx_http_compile_complex_value_t));

    ccv.cf = cf;
    ccv.value = &value[2];
    ccv.complex_value = &expectation->value;

    return ngx_http_compile_complex_value(&ccv) == NGX_OK ? NGX_CONF_OK
                                                          : NGX_CONF_ERROR;
}


/*
 * A claim as the library takes it: a name that begins with a slash becomes the
 * JSON Pointer to it (RFC 6901), which it would be taken for.
 */

static ngx_int_t
ngx_http_fowharimu_claim_pointer(ngx_conf_t *cf, ngx_str_t *name,
    ngx_str_t *pointer)
{
    u_char      c, *p;
    ngx_uint_t  i;

    *pointer = *name;

    if (name->len == 0 || name->data[0] != '/') {
        return NGX_OK;
    }

    p = ngx_pnalloc(cf->pool, 1 + 2 * name->len);
    if (p == NULL) {
        return NGX_ERROR;
    }

    pointer->data = p;
    *p++ = '/';

    for (i = 0; i < name->len; i++) {
        c = name->data[i];

        if (c == '~' || c == '/') {
            *p++ = '~';
            c = (c == '~') ? '0' : '1';
        }

        *p++ = c;
    }

    pointer->len = p - pointer->data;

    return NGX_OK;
}


/*
 * Whether the claims of a token that was accepted just now are what the request
 * expects.  NGX_DECLINED: they aren't.
 */

ngx_int_t
ngx_http_fowharimu_is_expected(ngx_http_request_t *r,
    ngx_http_fowharimu_loc_conf_t *lcf, ngx_http_fowharimu_judged_t *judged)
{
    ngx_int_t                          rc;
    ngx_uint_t                         i;
    ngx_http_fowharimu_expectation_t  *expectation;

    if (lcf->expected == NULL) {
        return NGX_OK;
    }

    expectation = lcf->expected->elts;

    for (i = 0; i < lcf->expected->nelts; i++) {
        rc = ngx_http_fowharimu_expect_one(r, judged, &expectation[i]);

        if (rc != NGX_OK) {
            return rc;
        }
    }

    return NGX_OK;
}


/* (a value that is empty is absent in nginx: nothing is expected by it) */

static ngx_int_t
ngx_http_fowharimu_expect_one(ngx_http_request_t *r,
    ngx_http_fowharimu_judged_t *judged,
    ngx_http_fowharimu_expectation_t *expectation)
{
    uint32_t   status, unmet;
    ngx_str_t  value;

    if (ngx_http_complex_value(r, &expectation->value, &value) != NGX_OK) {
        return NGX_ERROR;
    }

    unmet = FOW_UNMET_NOTHING;

    status = value.len
             ? fow_expect_text(&judged->validator->handle,
                               expectation->claim.data, expectation->claim.len,
                               value.data, value.len, &unmet)
             : FOW_NOT_EXPECTED;

    switch (status) {

    case FOW_OK:
        return NGX_OK;

    case FOW_NOT_EXPECTED:
    case FOW_REFUSED:
        ngx_log_error(NGX_LOG_INFO, r->connection->log, 0,
                      "jwt: the claim \"%V\" isn't as \"jwt_expect\" says%s",
                      &expectation->name,
                      value.len ? "" : ", whose value is empty");
        return NGX_DECLINED;

    default:
        return NGX_ERROR;
    }
}
