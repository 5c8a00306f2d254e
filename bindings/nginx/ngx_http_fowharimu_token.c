
/*
 * Where the token of a request is.  It is looked for in what the client sent,
 * whatever of it goes on, and stands there once: what is behind nginx may take
 * the other one of two.
 */

#include "ngx_http_fowharimu.h"


static ngx_int_t ngx_http_fowharimu_authorization(ngx_http_request_t *r,
    ngx_http_fowharimu_loc_conf_t *lcf, ngx_str_t *token, uint32_t *scheme);
static ngx_int_t ngx_http_fowharimu_header(ngx_http_request_t *r,
    ngx_str_t *name, ngx_str_t *token);
static ngx_int_t ngx_http_fowharimu_cookie(ngx_http_request_t *r,
    ngx_str_t *name, ngx_str_t *token);
static ngx_int_t ngx_http_fowharimu_argument(ngx_http_request_t *r,
    ngx_str_t *name, ngx_str_t *token);
static ngx_int_t ngx_http_fowharimu_variable(ngx_http_request_t *r,
    ngx_int_t index, ngx_str_t *token);
static ngx_uint_t ngx_http_fowharimu_find_named(ngx_str_t *list,
    const char *separators, ngx_str_t *name, ngx_str_t *value);
static ngx_uint_t ngx_http_fowharimu_is_named(u_char *p, u_char *last,
    ngx_str_t *name);
static u_char *ngx_http_fowharimu_value_of(u_char *p, u_char *last,
    ngx_str_t *name);
static ngx_uint_t ngx_http_fowharimu_next_octet(u_char **p, u_char *last,
    u_char *c);
static u_char ngx_http_fowharimu_fold_name(u_char c);
static u_char ngx_http_fowharimu_fold_key(u_char c);
static uint32_t ngx_http_fowharimu_credentials(
    ngx_http_fowharimu_loc_conf_t *lcf, ngx_str_t *value, uint32_t *scheme,
    size_t *from, size_t *to);
static ngx_uint_t ngx_http_fowharimu_has_scheme(
    ngx_http_fowharimu_loc_conf_t *lcf, ngx_str_t *value);


/*
 * NGX_DECLINED: there is no token; NGX_ABORT: it stands twice.  The scheme is
 * that of "Authorization"; whoever has a token elsewhere bears it.
 */

ngx_int_t
ngx_http_fowharimu_token(ngx_http_request_t *r,
    ngx_http_fowharimu_loc_conf_t *lcf, ngx_str_t *token, uint32_t *scheme)
{
    ngx_int_t                    rc;
    ngx_http_fowharimu_place_t  *place;

    ngx_str_null(token);
    *scheme = FOW_NO_SCHEME;

    place = lcf->token;

    if (place == NULL || place->kind == NGX_HTTP_FOWHARIMU_BEARER) {
        return ngx_http_fowharimu_authorization(r, lcf, token, scheme);
    }

    *scheme = FOW_BEARER;

    switch (place->kind) {

    case NGX_HTTP_FOWHARIMU_HEADER:
        rc = ngx_http_fowharimu_header(r, &place->name, token);
        break;

    case NGX_HTTP_FOWHARIMU_COOKIE:
        rc = ngx_http_fowharimu_cookie(r, &place->name, token);
        break;

    case NGX_HTTP_FOWHARIMU_ARGUMENT:
        rc = ngx_http_fowharimu_argument(r, &place->name, token);
        break;

    default: /* NGX_HTTP_FOWHARIMU_VARIABLE */
        rc = ngx_http_fowharimu_variable(r, place->index, token);
        break;
    }

    return rc == NGX_OK && token->len == 0 ? NGX_DECLINED : rc;
}


/*
 * The credentials of a scheme that is taken, RFC 6750, section 2.1, RFC 9449,
 * section 7.1: NGX_DECLINED where there are none, NGX_ABORT of several headers,
 * NGX_BUSY of a token that is no b64token.
 */

static ngx_int_t
ngx_http_fowharimu_authorization(ngx_http_request_t *r,
    ngx_http_fowharimu_loc_conf_t *lcf, ngx_str_t *token, uint32_t *scheme)
{
    size_t            from, to;
    ngx_str_t         value;
    ngx_uint_t        i;
    ngx_list_part_t  *part;
    ngx_table_elt_t  *h;

    ngx_str_null(&value);

    part = &ngx_http_fowharimu_sent_headers(r)->part;
    i = 0;

    while ((h = ngx_http_fowharimu_next_header(&part, &i)) != NULL) {

        if (!ngx_http_fowharimu_is_header(h, "Authorization")) {
            continue;
        }

        if (value.data) {
            return NGX_ABORT;
        }

        value = h->value;
    }

    switch (ngx_http_fowharimu_credentials(lcf, &value, scheme, &from, &to)) {

    case FOW_OK:
        token->data = value.data + from;
        token->len = to - from;
        return NGX_OK;

    case FOW_ABSENT:
        return NGX_DECLINED;

    default:
        return NGX_BUSY;
    }
}


static uint32_t
ngx_http_fowharimu_credentials(ngx_http_fowharimu_loc_conf_t *lcf,
    ngx_str_t *value, uint32_t *scheme, size_t *from, size_t *to)
{
    return fow_credentials((uint32_t) lcf->schemes,
                           value->len ? value->data : (u_char *) "", value->len,
                           scheme, from, to);
}


static ngx_uint_t
ngx_http_fowharimu_has_scheme(ngx_http_fowharimu_loc_conf_t *lcf,
    ngx_str_t *value)
{
    size_t    from, to;
    uint32_t  scheme;

    return ngx_http_fowharimu_credentials(lcf, value, &scheme, &from, &to)
           != FOW_ABSENT;
}


static ngx_int_t
ngx_http_fowharimu_header(ngx_http_request_t *r, ngx_str_t *name,
    ngx_str_t *token)
{
    ngx_uint_t        i;
    ngx_list_part_t  *part;
    ngx_table_elt_t  *h;

    part = &ngx_http_fowharimu_sent_headers(r)->part;
    i = 0;

    while ((h = ngx_http_fowharimu_next_header(&part, &i)) != NULL) {

        if (!ngx_http_fowharimu_is_same_header(&h->key, name)) {
            continue;
        }

        if (token->data) {
            return NGX_ABORT;
        }

        *token = h->value;
    }

    return token->data ? NGX_OK : NGX_DECLINED;
}


static ngx_int_t
ngx_http_fowharimu_cookie(ngx_http_request_t *r, ngx_str_t *name,
    ngx_str_t *token)
{
    ngx_uint_t        i, count;
    ngx_list_part_t  *part;
    ngx_table_elt_t  *h;

    part = &ngx_http_fowharimu_sent_headers(r)->part;
    i = 0;
    count = 0;

    while ((h = ngx_http_fowharimu_next_header(&part, &i)) != NULL) {

        if (ngx_http_fowharimu_is_header(h, "Cookie")) {
            count += ngx_http_fowharimu_find_named(&h->value, ";,", name,
                                                   token);
        }
    }

    while (token->len && token->data[token->len - 1] == ' ') {
        token->len--;
    }

    return count > 1 ? NGX_ABORT : token->data ? NGX_OK : NGX_DECLINED;
}


static ngx_int_t
ngx_http_fowharimu_argument(ngx_http_request_t *r, ngx_str_t *name,
    ngx_str_t *token)
{
    ngx_uint_t  count;

    count = ngx_http_fowharimu_find_named(ngx_http_fowharimu_sent_args(r),
                                          "&;", name, token);

    return count > 1 ? NGX_ABORT : token->data ? NGX_OK : NGX_DECLINED;
}


static ngx_int_t
ngx_http_fowharimu_variable(ngx_http_request_t *r, ngx_int_t index,
    ngx_str_t *token)
{
    ngx_http_variable_value_t  *v;

    v = ngx_http_get_flushed_variable(r, index);

    if (v == NULL) {
        return NGX_ERROR;
    }

    if (v->not_found) {
        return NGX_DECLINED;
    }

    token->len = v->len;
    token->data = v->data;

    return NGX_OK;
}


/*
 * How many members of a list have that name, as somebody behind nginx may read
 * it.  They are parted by the first separator, and by some readers by the
 * second; the value is that of one that is spelled as the name is, up to the
 * first separator.
 */

static ngx_uint_t
ngx_http_fowharimu_find_named(ngx_str_t *list, const char *separators,
    ngx_str_t *name, ngx_str_t *value)
{
    u_char      *p, *last, *end, *start;
    ngx_uint_t   count, is_first;

    count = 0;
    is_first = 1;
    last = list->data + list->len;

    for (p = list->data; p < last; p = end + 1) {

        for (end = p; end < last; end++) {
            if (*end == separators[0] || *end == separators[1]) {
                break;
            }
        }

        if (ngx_http_fowharimu_is_named(p, end, name)) {
            count++;
            start = ngx_http_fowharimu_value_of(p, end, name);

            if (start && is_first) {
                value->data = start;
                start = ngx_strlchr(start, last, separators[0]);
                value->len = (start ? start : last) - value->data;
            }
        }

        is_first = end < last && *end == separators[0];
    }

    return count;
}


/*
 * Whether a member has that name as PHP folds it: unescaped, behind spaces,
 * with a space, a dot and an opening bracket as "_", up to a NUL or to the
 * bracket of an array; and in any case of its letters, as nginx looks for it.
 */

static ngx_uint_t
ngx_http_fowharimu_is_named(u_char *p, u_char *last, ngx_str_t *name)
{
    u_char  c;
    size_t  n;

    n = 0;

    while (ngx_http_fowharimu_next_octet(&p, last, &c)) {

        if (n == 0 && (c == ' ' || (c >= '\t' && c <= '\r'))) {
            continue;
        }

        if (n == name->len) {

            if (c == '\0' || c == '[') {
                return 1;
            }

            if (c != ' ' && c != '\t') {
                return 0;
            }

            continue;
        }

        if (ngx_http_fowharimu_fold_name(c)
            != ngx_http_fowharimu_fold_name(name->data[n]))
        {
            return 0;
        }

        n++;
    }

    return n == name->len;
}


/* the next octet of a member's name, unescaped; 0: there is none */

static ngx_uint_t
ngx_http_fowharimu_next_octet(u_char **p, u_char *last, u_char *c)
{
    ngx_int_t  value;

    if (*p == last || **p == '=') {
        return 0;
    }

    *c = *(*p)++;

    if (*c == '+') {
        *c = ' ';

    } else if (*c == '%' && last - *p >= 2) {
        value = ngx_hextoi(*p, 2);

        if (value != NGX_ERROR) {
            *c = (u_char) value;
            *p += 2;
        }
    }

    return 1;
}


static u_char
ngx_http_fowharimu_fold_name(u_char c)
{
    return c == ' ' || c == '.' || c == '[' ? '_' : ngx_tolower(c);
}


/* where the value of a member begins that is spelled so, in any case */

static u_char *
ngx_http_fowharimu_value_of(u_char *p, u_char *last, ngx_str_t *name)
{
    while (p < last && *p == ' ') {
        p++;
    }

    if ((size_t) (last - p) < name->len
        || ngx_strncasecmp(p, name->data, name->len) != 0)
    {
        return NULL;
    }

    p += name->len;

    while (p < last && *p == ' ') {
        p++;
    }

    if (p == last || *p != '=') {
        return NULL;
    }

    p++;

    while (p < last && *p == ' ') {
        p++;
    }

    return p;
}


/* the members of a list, but for those of that name */

ngx_int_t
ngx_http_fowharimu_without(ngx_http_request_t *r, ngx_str_t *list,
    u_char separator, ngx_str_t *name, ngx_str_t *rest)
{
    u_char  *p, *last, *end, *dst;

    *rest = *list;
    last = list->data + list->len;

    dst = ngx_pnalloc(r->pool, list->len + 1);
    if (dst == NULL) {
        return NGX_ERROR;
    }

    rest->data = dst;

    for (p = list->data; p < last; p = end + 1) {
        end = ngx_strlchr(p, last, separator);

        if (end == NULL) {
            end = last;
        }

        if (ngx_http_fowharimu_is_named(p, end, name)) {
            continue;
        }

        if (dst > rest->data) {
            *dst++ = separator;

        } else {
            while (p < end && *p == ' ') {
                p++;
            }
        }

        dst = ngx_cpymem(dst, p, end - p);
    }

    rest->len = dst - rest->data;

    return NGX_OK;
}


/* the next one of a list of headers, from its part and the number 0 on */

ngx_table_elt_t *
ngx_http_fowharimu_next_header(ngx_list_part_t **part, ngx_uint_t *i)
{
    ngx_table_elt_t  *h;

    while (*i >= (*part)->nelts) {

        if ((*part)->next == NULL) {
            return NULL;
        }

        *part = (*part)->next;
        *i = 0;
    }

    h = (*part)->elts;

    return &h[(*i)++];
}


ngx_uint_t
ngx_http_fowharimu_is_header(ngx_table_elt_t *header, const char *name)
{
    return header->key.len == ngx_strlen(name)
           && ngx_strncasecmp(header->key.data, (u_char *) name,
                              header->key.len)
              == 0;
}


/*
 * Whether what is behind nginx may read both as one header: CGI, WSGI and PHP
 * know no case, and take "_" for "-", some each sign that is no letter and no
 * digit.
 */

ngx_uint_t
ngx_http_fowharimu_is_same_header(ngx_str_t *key, ngx_str_t *name)
{
    size_t  n;

    if (key->len != name->len) {
        return 0;
    }

    for (n = 0; n < key->len; n++) {
        if (ngx_http_fowharimu_fold_key(key->data[n])
            != ngx_http_fowharimu_fold_key(name->data[n]))
        {
            return 0;
        }
    }

    return 1;
}


static u_char
ngx_http_fowharimu_fold_key(u_char c)
{
    c = ngx_tolower(c);

    return (c >= 'a' && c <= 'z') || (c >= '0' && c <= '9') ? c : '-';
}


/* whether it carries the token or its proof, and nothing else */

ngx_uint_t
ngx_http_fowharimu_is_token_header(ngx_table_elt_t *header,
    ngx_http_fowharimu_loc_conf_t *lcf)
{
    ngx_http_fowharimu_place_t  *place;

    static ngx_str_t  proof = ngx_string("DPoP");

    place = lcf->token;

    if ((lcf->schemes & FOW_DPOP)
        && ngx_http_fowharimu_is_same_header(&header->key, &proof))
    {
        return 1;
    }

    if (place == NULL || place->kind == NGX_HTTP_FOWHARIMU_BEARER) {
        return ngx_http_fowharimu_is_header(header, "Authorization")
               && ngx_http_fowharimu_has_scheme(lcf, &header->value);
    }

    return place->kind == NGX_HTTP_FOWHARIMU_HEADER
           && ngx_http_fowharimu_is_same_header(&header->key, &place->name);
}


/*
 * The headers as the client sent them: a subrequest has those of the request
 * that it belongs to, which may have been changed before it was made.
 */

ngx_list_t *
ngx_http_fowharimu_sent_headers(ngx_http_request_t *r)
{
    ngx_http_request_t        *owner;
    ngx_http_fowharimu_ctx_t  *ctx;

    for (owner = r; owner; owner = owner->parent) {
        ctx = ngx_http_fowharimu_find_ctx(r, owner);

        if (ctx && ctx->changed) {
            return &ctx->headers;
        }
    }

    return &r->headers_in.headers;
}


/* the arguments, with a token that was taken away from what goes on */

ngx_str_t *
ngx_http_fowharimu_sent_args(ngx_http_request_t *r)
{
    ngx_http_fowharimu_ctx_t  *ctx;

    ctx = ngx_http_fowharimu_find_ctx(r, r);

    if (ctx && ctx->cut && r->args.len == ctx->stripped.len
        && ngx_memcmp(r->args.data, ctx->stripped.data, r->args.len) == 0)
    {
        return &ctx->args;
    }

    return &r->args;
}


/* "bearer", or a variable: of a header, a cookie or an argument by its name */

char *
ngx_http_fowharimu_set_token(ngx_conf_t *cf, ngx_command_t *cmd, void *conf)
{
    ngx_http_fowharimu_loc_conf_t *lcf = conf;

    ngx_str_t                   *value, name;
    ngx_uint_t                   i;
    ngx_http_fowharimu_place_t  *place;

    static const struct {
        ngx_str_t                  prefix;
        ngx_http_fowharimu_kind_e  kind;
    } places[] = {
        { ngx_string("http_"), NGX_HTTP_FOWHARIMU_HEADER },
        { ngx_string("cookie_"), NGX_HTTP_FOWHARIMU_COOKIE },
        { ngx_string("arg_"), NGX_HTTP_FOWHARIMU_ARGUMENT },
    };

    if (lcf->token != NGX_CONF_UNSET_PTR) {
        return "is duplicate";
    }

    value = cf->args->elts;
    name = value[1];

    place = ngx_pcalloc(cf->pool, sizeof(ngx_http_fowharimu_place_t));
    if (place == NULL) {
        return NGX_CONF_ERROR;
    }

    lcf->token = place;

    if (ngx_strcmp(name.data, "bearer") == 0) {
        return NGX_CONF_OK;
    }

    if (name.len < 2 || name.data[0] != '$') {
        ngx_conf_log_error(NGX_LOG_EMERG, cf, 0,
                           "invalid variable name \"%V\"", &name);
        return NGX_CONF_ERROR;
    }

    name.len--;
    name.data++;

    for (i = 0; i < sizeof(places) / sizeof(places[0]); i++) {

        if (name.len > places[i].prefix.len
            && ngx_strncasecmp(name.data, places[i].prefix.data,
                               places[i].prefix.len)
               == 0)
        {
            place->kind = places[i].kind;
            place->name.len = name.len - places[i].prefix.len;
            place->name.data = name.data + places[i].prefix.len;

            return NGX_CONF_OK;
        }
    }

    place->kind = NGX_HTTP_FOWHARIMU_VARIABLE;
    place->index = ngx_http_get_variable_index(cf, &name);

    return place->index == NGX_ERROR ? NGX_CONF_ERROR : NGX_CONF_OK;
}
