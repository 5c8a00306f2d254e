
/* Access rules: jwt_access and jwt_require. */

#include "ngx_http_fowharimu.h"


static ngx_int_t ngx_http_fowharimu_rule_text(ngx_conf_t *cf, ngx_str_t *value,
    ngx_uint_t n, ngx_str_t *document);
static ngx_uint_t ngx_http_fowharimu_is_whole(ngx_str_t *value);
static ngx_http_fowharimu_rule_t *ngx_http_fowharimu_open_rule(ngx_conf_t *cf,
    ngx_str_t *name, ngx_str_t *document);
static ngx_int_t ngx_http_fowharimu_set_scopes(ngx_conf_t *cf,
    ngx_http_fowharimu_rule_t *rule, ngx_str_t *document);
static void ngx_http_fowharimu_close_rule(void *data);


char *
ngx_http_fowharimu_access(ngx_conf_t *cf, ngx_command_t *cmd, void *conf)
{
    ngx_http_fowharimu_loc_conf_t *lcf = conf;

    ngx_str_t                       *value, document;
    ngx_http_fowharimu_rule_t       *rule;
    ngx_http_fowharimu_main_conf_t  *mcf;

    if (lcf->rule != NGX_CONF_UNSET_PTR) {
        return "is duplicate";
    }

    value = cf->args->elts;

    if (ngx_http_fowharimu_read_file(cf, &value[1],
                                     NGX_HTTP_FOWHARIMU_MAX_ACCESS, &document, NULL)
        != NGX_OK)
    {
        return NGX_CONF_ERROR;
    }

    rule = ngx_http_fowharimu_open_rule(cf, &value[1], &document);

    if (rule == NULL
        || ngx_http_fowharimu_set_scopes(cf, rule, &document) != NGX_OK)
    {
        return NGX_CONF_ERROR;
    }

    mcf = ngx_http_conf_get_module_main_conf(cf, ngx_http_fowharimu_module);
    mcf->named = 1;

    lcf->rule = rule;

    return NGX_CONF_OK;
}


/* a rule of one claim, since lines may name the same claim */

char *
ngx_http_fowharimu_require(ngx_conf_t *cf, ngx_command_t *cmd, void *conf)
{
    ngx_http_fowharimu_loc_conf_t *lcf = conf;

    ngx_str_t                  *value, document;
    ngx_http_fowharimu_rule_t  *rule, **demand;

    if (lcf->demands == NGX_CONF_UNSET_PTR) {
        lcf->demands = ngx_array_create(cf->pool, 2,
                                        sizeof(ngx_http_fowharimu_rule_t *));
        if (lcf->demands == NULL) {
            return NGX_CONF_ERROR;
        }
    }

    value = cf->args->elts;

    if (ngx_http_fowharimu_rule_text(cf, &value[1], cf->args->nelts - 2,
                                     &document)
        != NGX_OK)
    {
        return NGX_CONF_ERROR;
    }

    rule = ngx_http_fowharimu_open_rule(cf, &value[0], &document);
    if (rule == NULL) {
        return NGX_CONF_ERROR;
    }

    rule->claim = value[1];

    demand = ngx_array_push(lcf->demands);
    if (demand == NULL) {
        return NGX_CONF_ERROR;
    }

    *demand = rule;

    return NGX_CONF_OK;
}


/*
 * The document of a rule that asks for one of n values of a claim, the texts
 * that stand behind its name, or of the numbers that they spell.  Of "scope",
 * which carries scopes, a word is enough by the rule's own meaning.
 */

static ngx_int_t
ngx_http_fowharimu_rule_text(ngx_conf_t *cf, ngx_str_t *value, ngx_uint_t n,
    ngx_str_t *document)
{
    size_t      len;
    u_char     *p;
    ngx_uint_t  i;

    /* an octet becomes six at most, and a text stands as a number too */

    len = sizeof("{\"claims\":{\"/~1\":[]}}") + 6 * value[0].len;

    for (i = 1; i <= n; i++) {
        len += sizeof("\"\",,") + 7 * value[i].len;
    }

    p = ngx_pnalloc(cf->temp_pool, len);
    if (p == NULL) {
        return NGX_ERROR;
    }

    document->data = p;

    p = ngx_cpymem(p, "{\"claims\":{", sizeof("{\"claims\":{") - 1);
    p = ngx_http_fowharimu_put_text(p, &value[0], 1);
    *p++ = ':';
    *p++ = '[';

    for (i = 1; i <= n; i++) {

        if (i > 1) {
            *p++ = ',';
        }

        p = ngx_http_fowharimu_put_text(p, &value[i], 0);

        if (ngx_http_fowharimu_is_whole(&value[i])) {
            *p++ = ',';
            p = ngx_cpymem(p, value[i].data, value[i].len);
        }
    }

    p = ngx_cpymem(p, "]}}", sizeof("]}}") - 1);

    document->len = p - document->data;

    return NGX_OK;
}


/*
 * Writes a text in JSON.  The name of a claim that begins with a slash is
 * written as the JSON Pointer to it (RFC 6901), which a rule would take it for.
 */

u_char *
ngx_http_fowharimu_put_text(u_char *p, ngx_str_t *text, ngx_uint_t pointer)
{
    u_char      c;
    ngx_uint_t  i;

    pointer = pointer && text->len && text->data[0] == '/';

    *p++ = '"';

    if (pointer) {
        *p++ = '/';
    }

    for (i = 0; i < text->len; i++) {
        c = text->data[i];

        if (pointer && (c == '~' || c == '/')) {
            *p++ = '~';
            *p++ = (c == '~') ? '0' : '1';

        } else if (c == '"' || c == '\\') {
            *p++ = '\\';
            *p++ = c;

        } else if (c < 0x20) {
            p = ngx_sprintf(p, "\\u%04xd", (int) c);

        } else {
            *p++ = c;
        }
    }

    *p++ = '"';

    return p;
}


/* whether the library would spell some whole number of 64 signed bits so */

static ngx_uint_t
ngx_http_fowharimu_is_whole(ngx_str_t *value)
{
    size_t      len;
    u_char     *p;
    ngx_uint_t  i, negative;

    p = value->data;
    len = value->len;
    negative = len && *p == '-';

    if (negative) {
        p++;
        len--;
    }

    if (len == 0 || len > 19 || (*p == '0' && (len > 1 || negative))) {
        return 0;
    }

    for (i = 0; i < len; i++) {
        if (p[i] < '0' || p[i] > '9') {
            return 0;
        }
    }

    return len < 19
           || ngx_memcmp(p, negative ? "9223372036854775808"
                                     : "9223372036854775807", 19)
              <= 0;
}


/* opens the rule of a document; what is said of one that is refused names it */

static ngx_http_fowharimu_rule_t *
ngx_http_fowharimu_open_rule(ngx_conf_t *cf, ngx_str_t *name,
    ngx_str_t *document)
{
    uint32_t                    fault, status;
    ngx_str_t                   member;
    ngx_pool_cleanup_t         *cln;
    ngx_http_fowharimu_rule_t  *rule;

    if (ngx_http_fowharimu_compare(cf) != NGX_OK) {
        return NULL;
    }

    cln = ngx_pool_cleanup_add(cf->pool, sizeof(ngx_http_fowharimu_rule_t));
    if (cln == NULL) {
        return NULL;
    }

    rule = cln->data;
    ngx_memzero(rule, sizeof(ngx_http_fowharimu_rule_t));
    cln->handler = ngx_http_fowharimu_close_rule;

    fault = FOW_NO_FAULT;
    status = fow_access_open(&rule->handle, document->data, document->len,
                             &fault);

    if (status == FOW_OK) {
        return rule;
    }

    /* a name is no longer than the document that it is in */

    member.len = 0;
    member.data = ngx_pnalloc(cf->temp_pool, document->len + 1);

    if (member.data
        && fow_access_refused(document->data, document->len, member.data,
                              document->len + 1, &member.len)
           == FOW_OK)
    {
        ngx_conf_log_error(NGX_LOG_EMERG, cf, 0,
                           "\"%V\" is refused: %s of \"%V\"", name,
                           fow_fault_name(fault), &member);
        return NULL;
    }

    ngx_conf_log_error(NGX_LOG_EMERG, cf, 0, "\"%V\" is refused: %s", name,
                       status == FOW_REFUSED ? fow_fault_name(fault)
                                             : "OutOfMemory");

    return NULL;
}


/* RFC 6750, section 3.1: the scopes that are necessary */

static ngx_int_t
ngx_http_fowharimu_set_scopes(ngx_conf_t *cf,
    ngx_http_fowharimu_rule_t *rule, ngx_str_t *document)
{
    size_t     len;
    u_char    *p, *last;
    uint32_t   n, status;

    /* all scopes with spaces are shorter than the document that has them */

    p = ngx_pnalloc(cf->pool, document->len);
    if (p == NULL) {
        return NGX_ERROR;
    }

    rule->scopes.data = p;
    last = p + document->len;

    for (n = 0; p < last; n++) {
        status = fow_access_scope(&rule->handle, n, p, last - p, &len);

        if (status == FOW_ABSENT) {
            break;
        }

        if (status != FOW_OK || len >= (size_t) (last - p)) {
            return NGX_ERROR;
        }

        p += len;
        *p++ = ' ';
    }

    rule->scopes.len = p - rule->scopes.data - (n ? 1 : 0);

    return NGX_OK;
}


static void
ngx_http_fowharimu_close_rule(void *data)
{
    ngx_http_fowharimu_rule_t  *rule = data;

    fow_access_close(&rule->handle);
}
