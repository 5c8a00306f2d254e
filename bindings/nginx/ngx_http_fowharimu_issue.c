
/*
 * A token of the gateway's own, in place of the client's: short-lived, for the
 * audience behind it, with some claims of the token that was accepted.
 */

#include "ngx_http_fowharimu.h"


static ngx_int_t ngx_http_fowharimu_compose(ngx_http_request_t *r,
    ngx_http_fowharimu_loc_conf_t *lcf, ngx_http_fowharimu_judged_t *judged,
    ngx_str_t *claims);
static ngx_str_t *ngx_http_fowharimu_issued_claims(
    ngx_http_fowharimu_loc_conf_t *lcf, ngx_uint_t *count);
static ngx_int_t ngx_http_fowharimu_put_claim(
    ngx_http_fowharimu_validator_t *validator, ngx_str_t *name, u_char **p,
    u_char *last);
static time_t ngx_http_fowharimu_expiry(ngx_http_fowharimu_issue_t *issue,
    ngx_http_fowharimu_judged_t *judged);
static char *ngx_http_fowharimu_set_lifetime(ngx_conf_t *cf, ngx_str_t *value,
    ngx_http_fowharimu_issue_t *issue);
static char *ngx_http_fowharimu_open_issue(ngx_conf_t *cf, ngx_str_t *value,
    ngx_http_fowharimu_issue_t *issue);
static char *ngx_http_fowharimu_set_head(ngx_conf_t *cf, ngx_str_t *value,
    ngx_http_fowharimu_issue_t *issue);
static char *ngx_http_fowharimu_try_issue(ngx_conf_t *cf, ngx_str_t *file,
    ngx_http_fowharimu_issue_t *issue);
static void ngx_http_fowharimu_close_issue(void *data);


/* the policy beside the keys that sign; nothing is judged by it */
static ngx_str_t  ngx_http_fowharimu_signing_policy =
    ngx_string("{\"algs\":[\"HS256\",\"HS384\",\"HS512\"]}");

/* what is taken over from the token that was accepted, where nothing is said */
static ngx_str_t  ngx_http_fowharimu_default_claims[] = {
    ngx_string("sub"), ngx_string("scope")
};

static u_char  ngx_http_fowharimu_no_typ[] = "";


/* NULL, or the name of the fault for which there is none */

const char *
ngx_http_fowharimu_issue(ngx_http_request_t *r,
    ngx_http_fowharimu_loc_conf_t *lcf, ngx_http_fowharimu_judged_t *judged)
{
    size_t                       len;
    u_char                      *p;
    uint32_t                     status;
    ngx_str_t                    claims, token;
    fow_report                   report;
    ngx_http_fowharimu_issue_t  *issue;

    issue = lcf->issue;

    if (ngx_http_fowharimu_compose(r, lcf, judged, &claims) != NGX_OK) {
        return "OutOfMemory";
    }

    /* its head and its tag are those of the token that was tried */

    len = issue->length + ngx_base64_encoded_length(claims.len);

    token.data = ngx_pnalloc(r->pool, sizeof("Bearer ") - 1 + len);
    if (token.data == NULL) {
        return "OutOfMemory";
    }

    p = ngx_cpymem(token.data, "Bearer ", sizeof("Bearer ") - 1);

    status = fow_issue(&issue->handle, issue->alg, FOW_COMPACT, 0,
                       ngx_http_fowharimu_no_typ, 0, claims.data, claims.len, p,
                       len, &token.len, &report);

    if (status != FOW_OK) {
        return status == FOW_REFUSED ? fow_fault_name(report.fault)
                                     : "OutOfMemory";
    }

    token.len += sizeof("Bearer ") - 1;
    judged->issued = token;

    (void) ngx_pfree(r->pool, claims.data);

    return NULL;
}


/*
 * A claim's compact text is no longer than the payload that it is in, and each
 * is named once: all of them are no longer than the token, their names aside.
 */

static ngx_int_t
ngx_http_fowharimu_compose(ngx_http_request_t *r,
    ngx_http_fowharimu_loc_conf_t *lcf, ngx_http_fowharimu_judged_t *judged,
    ngx_str_t *claims)
{
    size_t                       len;
    u_char                      *p, *last;
    ngx_str_t                   *name;
    ngx_uint_t                   i, count;
    ngx_http_fowharimu_issue_t  *issue;

    issue = lcf->issue;
    name = ngx_http_fowharimu_issued_claims(lcf, &count);

    len = issue->head.len + sizeof(",\"iat\":,\"exp\":}") + 2 * NGX_INT64_LEN
          + judged->token.len;

    for (i = 0; i < count; i++) {
        len += sizeof(",\"\":") + 6 * name[i].len + NGX_INT64_LEN;
    }

    claims->data = ngx_pnalloc(r->pool, len);
    if (claims->data == NULL) {
        return NGX_ERROR;
    }

    last = claims->data + len;
    p = ngx_cpymem(claims->data, issue->head.data, issue->head.len);
    p = ngx_slprintf(p, last, ",\"iat\":%T,\"exp\":%T", judged->moment,
                     ngx_http_fowharimu_expiry(issue, judged));

    for (i = 0; i < count; i++) {

        if (ngx_http_fowharimu_put_claim(judged->validator, &name[i], &p, last)
            != NGX_OK)
        {
            return NGX_ERROR;
        }
    }

    *p++ = '}';
    claims->len = p - claims->data;

    return NGX_OK;
}


static ngx_str_t *
ngx_http_fowharimu_issued_claims(ngx_http_fowharimu_loc_conf_t *lcf,
    ngx_uint_t *count)
{
    if (lcf->issued) {
        *count = lcf->issued->nelts;
        return lcf->issued->elts;
    }

    *count = sizeof(ngx_http_fowharimu_default_claims) / sizeof(ngx_str_t);

    return ngx_http_fowharimu_default_claims;
}


/* it is left out where it is absent, or is no text, number or list of texts */

static ngx_int_t
ngx_http_fowharimu_put_claim(ngx_http_fowharimu_validator_t *validator,
    ngx_str_t *name, u_char **p, u_char *last)
{
    size_t     len;
    u_char    *to;
    int64_t    number;
    uint32_t   status;

    to = *p;
    *to++ = ',';
    to = ngx_http_fowharimu_put_text(to, name, 0);
    *to++ = ':';

    status = fow_claim(&validator->handle, name->data, name->len, to,
                       last - to - 1, &len);

    if (status == FOW_OK) {
        *p = to + len;
        return NGX_OK;
    }

    if (status != FOW_ABSENT) {
        return NGX_ERROR;
    }

    status = fow_number(&validator->handle, name->data, name->len, &number);

    if (status == FOW_OK) {
        *p = ngx_slprintf(to, last - 1, "%L", number);
        return NGX_OK;
    }

    return status == FOW_ABSENT ? NGX_OK : NGX_ERROR;
}


/* it lives no longer than the token that was accepted */

static time_t
ngx_http_fowharimu_expiry(ngx_http_fowharimu_issue_t *issue,
    ngx_http_fowharimu_judged_t *judged)
{
    time_t   expiry;
    int64_t  number;

    expiry = judged->moment + issue->lifetime;

    if (fow_number(&judged->validator->handle, (u_char *) "exp",
                   sizeof("exp") - 1, &number)
        == FOW_OK
        && number < (int64_t) expiry)
    {
        /* (within the leeway it may have expired) */
        expiry = ngx_max((time_t) number, judged->moment + 1);
    }

    return expiry;
}


/* "jwt_issue keys issuer audience [lifetime=time]", or "jwt_issue off" */

char *
ngx_http_fowharimu_set_issue(ngx_conf_t *cf, ngx_command_t *cmd, void *conf)
{
    ngx_http_fowharimu_loc_conf_t *lcf = conf;

    char                            *rv;
    ngx_str_t                       *value;
    ngx_pool_cleanup_t              *cln;
    ngx_http_fowharimu_issue_t      *issue;
    ngx_http_fowharimu_main_conf_t  *mcf;

    if (lcf->issue != NGX_CONF_UNSET_PTR) {
        return "is duplicate";
    }

    cln = ngx_pool_cleanup_add(cf->pool, sizeof(ngx_http_fowharimu_issue_t));
    if (cln == NULL) {
        return NGX_CONF_ERROR;
    }

    issue = cln->data;
    ngx_memzero(issue, sizeof(ngx_http_fowharimu_issue_t));
    cln->handler = ngx_http_fowharimu_close_issue;

    lcf->issue = issue;
    value = cf->args->elts;

    if (cf->args->nelts == 2) {

        if (ngx_strcmp(value[1].data, "off") != 0) {
            return "takes \"off\", or a file of keys, an issuer and an "
                   "audience";
        }

        issue->off = 1;

        return NGX_CONF_OK;
    }

    mcf = ngx_http_conf_get_module_main_conf(cf, ngx_http_fowharimu_module);
    mcf->changes = 1;

    rv = ngx_http_fowharimu_set_lifetime(cf, value, issue);

    if (rv == NGX_CONF_OK) {
        rv = ngx_http_fowharimu_open_issue(cf, value, issue);
    }

    if (rv == NGX_CONF_OK) {
        rv = ngx_http_fowharimu_set_head(cf, value, issue);
    }

    return rv == NGX_CONF_OK
           ? ngx_http_fowharimu_try_issue(cf, &value[1], issue) : rv;
}


static char *
ngx_http_fowharimu_set_lifetime(ngx_conf_t *cf, ngx_str_t *value,
    ngx_http_fowharimu_issue_t *issue)
{
    ngx_str_t  text;

    issue->lifetime = NGX_HTTP_FOWHARIMU_LIFETIME;

    if (cf->args->nelts < 5) {
        return NGX_CONF_OK;
    }

    text = value[4];

    if (ngx_strncmp(text.data, "lifetime=", sizeof("lifetime=") - 1) != 0) {
        return "has an invalid parameter: it takes \"lifetime=\" and a time";
    }

    text.len -= sizeof("lifetime=") - 1;
    text.data += sizeof("lifetime=") - 1;
    issue->lifetime = ngx_parse_time(&text, 1);

    if (issue->lifetime == (time_t) NGX_ERROR || issue->lifetime == 0) {
        return "has an invalid \"lifetime\": it is a second at least";
    }

    return NGX_CONF_OK;
}


static char *
ngx_http_fowharimu_open_issue(ngx_conf_t *cf, ngx_str_t *value,
    ngx_http_fowharimu_issue_t *issue)
{
    uint32_t   fault, status;
    ngx_str_t  keys;

    if (ngx_http_fowharimu_compare(cf) != NGX_OK
        || ngx_http_fowharimu_read_file(cf, &value[1],
                                        NGX_HTTP_FOWHARIMU_MAX_KEYS, &keys,
                                        NULL)
           != NGX_OK)
    {
        return NGX_CONF_ERROR;
    }

    fault = FOW_NO_FAULT;
    status = fow_open(&issue->handle, ngx_http_fowharimu_signing_policy.data,
                      ngx_http_fowharimu_signing_policy.len, keys.data,
                      keys.len, &fault);

    if (status == FOW_OK) {
        return NGX_CONF_OK;
    }

    ngx_conf_log_error(NGX_LOG_EMERG, cf, 0, "\"%V\" is refused: %s", &value[1],
                       status == FOW_REFUSED ? fow_fault_name(fault)
                                             : "OutOfMemory");

    return NGX_CONF_ERROR;
}


/* an octet becomes six at most */

static char *
ngx_http_fowharimu_set_head(ngx_conf_t *cf, ngx_str_t *value,
    ngx_http_fowharimu_issue_t *issue)
{
    u_char  *p;

    p = ngx_pnalloc(cf->pool, sizeof("{\"iss\":\"\",\"aud\":\"\"")
                              + 6 * (value[2].len + value[3].len));
    if (p == NULL) {
        return NGX_CONF_ERROR;
    }

    issue->head.data = p;

    p = ngx_cpymem(p, "{\"iss\":", sizeof("{\"iss\":") - 1);
    p = ngx_http_fowharimu_put_text(p, &value[2], 0);
    p = ngx_cpymem(p, ",\"aud\":", sizeof(",\"aud\":") - 1);
    p = ngx_http_fowharimu_put_text(p, &value[3], 0);

    issue->head.len = p - issue->head.data;

    return NGX_CONF_OK;
}


/* a token by the first key: the algorithm is the first that the key suits */

static char *
ngx_http_fowharimu_try_issue(ngx_conf_t *cf, ngx_str_t *file,
    ngx_http_fowharimu_issue_t *issue)
{
    u_char     *claims, *out;
    size_t      len, size;
    uint32_t    status;
    fow_report  report;

    ngx_memzero(&report, sizeof(fow_report));

    /* (a kid is no longer than the file) */

    size = 2 * NGX_HTTP_FOWHARIMU_MAX_KEYS;
    out = ngx_alloc(size, cf->log);
    claims = ngx_pnalloc(cf->temp_pool, issue->head.len + 1);

    if (out == NULL || claims == NULL) {
        ngx_free(out);
        return NGX_CONF_ERROR;
    }

    ngx_memcpy(claims, issue->head.data, issue->head.len);
    claims[issue->head.len] = '}';

    for (issue->alg = FOW_HS256; issue->alg <= FOW_HS512; issue->alg++) {
        status = fow_issue(&issue->handle, issue->alg, FOW_COMPACT, 0,
                           ngx_http_fowharimu_no_typ, 0, claims,
                           issue->head.len + 1, out, size, &len, &report);

        if (status == FOW_OK) {
            issue->length = len;
            ngx_free(out);
            return NGX_CONF_OK;
        }

        if (status != FOW_REFUSED || report.fault != FOW_ISSUE_KEY_UNFIT) {
            break;
        }
    }

    ngx_free(out);

    ngx_conf_log_error(NGX_LOG_EMERG, cf, 0,
                       "\"jwt_issue\" can't sign by the first key of \"%V\": "
                       "%s", file,
                       status == FOW_REFUSED ? fow_fault_name(report.fault)
                                             : "OutOfMemory");

    return NGX_CONF_ERROR;
}


/* "jwt_issue_claims claim ..." */

char *
ngx_http_fowharimu_set_issued(ngx_conf_t *cf, ngx_command_t *cmd, void *conf)
{
    ngx_http_fowharimu_loc_conf_t *lcf = conf;

    ngx_str_t   *value, *name;
    ngx_uint_t   i, k;

    static ngx_str_t  own[] = {
        ngx_string("iss"), ngx_string("aud"), ngx_string("iat"),
        ngx_string("exp"), ngx_null_string
    };

    if (lcf->issued != NGX_CONF_UNSET_PTR) {
        return "is duplicate";
    }

    lcf->issued = ngx_array_create(cf->pool, 4, sizeof(ngx_str_t));
    if (lcf->issued == NULL) {
        return NGX_CONF_ERROR;
    }

    value = cf->args->elts;

    for (i = 1; i < cf->args->nelts; i++) {

        for (k = 0; own[k].len; k++) {
            if (own[k].len == value[i].len
                && ngx_memcmp(own[k].data, value[i].data, own[k].len) == 0)
            {
                return "names a claim that \"jwt_issue\" gives itself";
            }
        }

        for (k = 1; k < i; k++) {
            if (value[k].len == value[i].len
                && ngx_memcmp(value[k].data, value[i].data, value[k].len) == 0)
            {
                return "names a claim twice";
            }
        }

        name = ngx_array_push(lcf->issued);
        if (name == NULL) {
            return NGX_CONF_ERROR;
        }

        *name = value[i];
    }

    return NGX_CONF_OK;
}


static void
ngx_http_fowharimu_close_issue(void *data)
{
    ngx_http_fowharimu_issue_t  *issue = data;

    fow_close(&issue->handle);
}
