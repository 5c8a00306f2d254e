
/*
 * What of a request goes on: the headers of jwt_header and jwt_issue in place
 * of those that the client sent, and with jwt_strip no token.
 */

#include "ngx_http_fowharimu.h"


static ngx_int_t ngx_http_fowharimu_change_headers(ngx_http_request_t *r,
    ngx_http_fowharimu_loc_conf_t *lcf, ngx_http_fowharimu_ctx_t *ctx,
    ngx_http_fowharimu_judged_t *judged);
static ngx_int_t ngx_http_fowharimu_copy_header(ngx_http_request_t *r,
    ngx_http_fowharimu_loc_conf_t *lcf, ngx_table_elt_t *header,
    ngx_http_fowharimu_judged_t *judged);
static ngx_uint_t ngx_http_fowharimu_is_written(
    ngx_http_fowharimu_loc_conf_t *lcf, ngx_table_elt_t *header);
static ngx_int_t ngx_http_fowharimu_write_headers(ngx_http_request_t *r,
    ngx_http_fowharimu_loc_conf_t *lcf, ngx_http_fowharimu_judged_t *judged);
static ngx_int_t ngx_http_fowharimu_write_header(ngx_http_request_t *r,
    ngx_http_fowharimu_header_t *line, ngx_str_t *value);
static ngx_int_t ngx_http_fowharimu_point_at_headers(ngx_http_request_t *r);
static ngx_int_t ngx_http_fowharimu_cut_args(ngx_http_request_t *r,
    ngx_http_fowharimu_loc_conf_t *lcf, ngx_http_fowharimu_ctx_t *ctx);
static ngx_int_t ngx_http_fowharimu_restore(ngx_http_request_t *r);
static ngx_int_t ngx_http_fowharimu_set_name(ngx_conf_t *cf,
    ngx_http_fowharimu_header_t *line, ngx_str_t *name);
static ngx_array_t *ngx_http_fowharimu_join_headers(ngx_conf_t *cf,
    ngx_array_t *outer, ngx_array_t *inner);


/* what jwt_issue writes */
static ngx_http_fowharimu_header_t  ngx_http_fowharimu_authorization = {
    ngx_string("Authorization"), (u_char *) "authorization", 0, 0,
    ngx_null_string
};


/*
 * The last handler before the content's: behind try_files, which may lead
 * elsewhere, and in each location, since "satisfy any" passes over the access
 * phase, and "jwt" may be off.
 */

ngx_int_t
ngx_http_fowharimu_change_handler(ngx_http_request_t *r)
{
    ngx_http_fowharimu_ctx_t       *ctx;
    ngx_http_fowharimu_judged_t    *judged;
    ngx_http_fowharimu_loc_conf_t  *lcf;

    lcf = ngx_http_get_module_loc_conf(r, ngx_http_fowharimu_module);

    if (lcf->headers == NULL && !lcf->strip && lcf->issue == NULL) {

        /* (what a location before a redirect wrote is no worse than nothing) */

        return lcf->enable ? ngx_http_fowharimu_restore(r) : NGX_DECLINED;
    }

    judged = ngx_http_fowharimu_accepted_here(r, lcf);

    ctx = ngx_http_fowharimu_own_ctx(r);

    if (ctx == NULL
        || ngx_http_fowharimu_change_headers(r, lcf, ctx, judged) != NGX_OK
        || ngx_http_fowharimu_cut_args(r, lcf, ctx) != NGX_OK)
    {
        return NGX_HTTP_INTERNAL_SERVER_ERROR;
    }

    return NGX_DECLINED;
}


static ngx_int_t
ngx_http_fowharimu_change_headers(ngx_http_request_t *r,
    ngx_http_fowharimu_loc_conf_t *lcf, ngx_http_fowharimu_ctx_t *ctx,
    ngx_http_fowharimu_judged_t *judged)
{
    ngx_uint_t        i;
    ngx_list_part_t  *part;
    ngx_table_elt_t  *h;

    /* (it is only read from now on, so that its last part doesn't matter) */

    ctx->headers = *ngx_http_fowharimu_sent_headers(r);
    ctx->changed = 1;

    if (ngx_list_init(&r->headers_in.headers, r->pool, 20,
                      sizeof(ngx_table_elt_t))
        != NGX_OK)
    {
        return NGX_ERROR;
    }

    part = &ctx->headers.part;
    i = 0;

    while ((h = ngx_http_fowharimu_next_header(&part, &i)) != NULL) {

        if (!ngx_http_fowharimu_is_written(lcf, h)
            && ngx_http_fowharimu_copy_header(r, lcf, h, judged) != NGX_OK)
        {
            return NGX_ERROR;
        }
    }

    if (ngx_http_fowharimu_write_headers(r, lcf, judged) != NGX_OK) {
        return NGX_ERROR;
    }

    return ngx_http_fowharimu_point_at_headers(r);
}


/* a header of the client's, without the token where that doesn't go on */

static ngx_int_t
ngx_http_fowharimu_copy_header(ngx_http_request_t *r,
    ngx_http_fowharimu_loc_conf_t *lcf, ngx_table_elt_t *header,
    ngx_http_fowharimu_judged_t *judged)
{
    ngx_str_t         value;
    ngx_uint_t        strips;
    ngx_table_elt_t  *h;

    value = header->value;
    strips = lcf->enable && (lcf->strip || lcf->issue);

    if (strips && ngx_http_fowharimu_is_token_header(header, lcf)) {
        return NGX_OK;
    }

    if (judged && judged->issued.len
        && ngx_http_fowharimu_is_header(header, "Authorization"))
    {
        return NGX_OK;
    }

    if (strips && lcf->token && lcf->token->kind == NGX_HTTP_FOWHARIMU_COOKIE
        && ngx_http_fowharimu_is_header(header, "Cookie"))
    {
        if (ngx_http_fowharimu_without(r, &header->value, ';',
                                       &lcf->token->name, &value)
            != NGX_OK)
        {
            return NGX_ERROR;
        }

        if (value.len == 0) {
            return NGX_OK;
        }
    }

    h = ngx_list_push(&r->headers_in.headers);
    if (h == NULL) {
        return NGX_ERROR;
    }

    *h = *header;
    h->value = value;

    return NGX_OK;
}


/* whether a line stands for this header, or for one that may be read as it */

static ngx_uint_t
ngx_http_fowharimu_is_written(ngx_http_fowharimu_loc_conf_t *lcf,
    ngx_table_elt_t *header)
{
    ngx_uint_t                    i;
    ngx_http_fowharimu_header_t  *line;

    if (lcf->headers == NULL) {
        return 0;
    }

    line = lcf->headers->elts;

    for (i = 0; i < lcf->headers->nelts; i++) {

        if (ngx_http_fowharimu_is_same_header(&header->key, &line[i].name)) {
            return 1;
        }
    }

    return 0;
}


/* what is empty isn't written: there is no such header then */

static ngx_int_t
ngx_http_fowharimu_write_headers(ngx_http_request_t *r,
    ngx_http_fowharimu_loc_conf_t *lcf, ngx_http_fowharimu_judged_t *judged)
{
    ngx_str_t                     value;
    ngx_uint_t                    i, count;
    ngx_http_fowharimu_header_t  *line;

    line = lcf->headers ? lcf->headers->elts : NULL;
    count = lcf->headers ? lcf->headers->nelts : 0;

    for (i = 0; i < count; i++) {
        ngx_str_null(&value);

        if (judged && judged->claims) {
            value = judged->claims[line[i].claim];
        }

        if (value.len == 0) {
            value = line[i].otherwise;
        }

        if (ngx_http_fowharimu_write_header(r, &line[i], &value) != NGX_OK) {
            return NGX_ERROR;
        }
    }

    if (judged == NULL) {
        return NGX_OK;
    }

    return ngx_http_fowharimu_write_header(r, &ngx_http_fowharimu_authorization,
                                           &judged->issued);
}


static ngx_int_t
ngx_http_fowharimu_write_header(ngx_http_request_t *r,
    ngx_http_fowharimu_header_t *line, ngx_str_t *value)
{
    ngx_table_elt_t  *h;

    if (value->len == 0) {
        return NGX_OK;
    }

    h = ngx_list_push(&r->headers_in.headers);
    if (h == NULL) {
        return NGX_ERROR;
    }

    ngx_memzero(h, sizeof(ngx_table_elt_t));

    h->hash = ngx_hash_key(line->lowcase, line->name.len);
    h->key = line->name;
    h->lowcase_key = line->lowcase;
    h->value = *value;

    return NGX_OK;
}


/* nginx's own pointers at those that may be others now */

static ngx_int_t
ngx_http_fowharimu_point_at_headers(ngx_http_request_t *r)
{
    ngx_uint_t         i;
    ngx_list_part_t   *part;
    ngx_table_elt_t   *h, **cookie;

    r->headers_in.authorization = NULL;

#if (nginx_version >= 1023000)
    r->headers_in.cookie = NULL;
    cookie = &r->headers_in.cookie;
#else
    if (ngx_array_init(&r->headers_in.cookies, r->pool, 2,
                       sizeof(ngx_table_elt_t *))
        != NGX_OK)
    {
        return NGX_ERROR;
    }
#endif

    part = &r->headers_in.headers.part;
    i = 0;

    while ((h = ngx_http_fowharimu_next_header(&part, &i)) != NULL) {

        if (ngx_http_fowharimu_is_header(h, "Authorization")) {
            r->headers_in.authorization = h;
            continue;
        }

        if (!ngx_http_fowharimu_is_header(h, "Cookie")) {
            continue;
        }

#if (nginx_version >= 1023000)
        h->next = NULL;
        *cookie = h;
        cookie = &h->next;
#else
        cookie = ngx_array_push(&r->headers_in.cookies);
        if (cookie == NULL) {
            return NGX_ERROR;
        }

        *cookie = h;
#endif
    }

    return NGX_OK;
}


/* $args and what a proxy makes the line of, $request_uri too */

static ngx_int_t
ngx_http_fowharimu_cut_args(ngx_http_request_t *r,
    ngx_http_fowharimu_loc_conf_t *lcf, ngx_http_fowharimu_ctx_t *ctx)
{
    u_char     *query;
    ngx_str_t   args, rest, uri, *name;

    if (!lcf->enable || !(lcf->strip || lcf->issue) || lcf->token == NULL
        || lcf->token->kind != NGX_HTTP_FOWHARIMU_ARGUMENT)
    {
        return NGX_OK;
    }

    name = &lcf->token->name;
    args = *ngx_http_fowharimu_sent_args(r);

    if (ngx_http_fowharimu_without(r, &args, '&', name, &rest) != NGX_OK) {
        return NGX_ERROR;
    }

    ctx->args = args;
    ctx->stripped = rest;
    ctx->cut = 1;
    r->args = rest;

    uri = r->unparsed_uri;
    query = ngx_strlchr(uri.data, uri.data + uri.len, '?');

    if (query == NULL) {
        return NGX_OK;
    }

    args.data = query + 1;
    args.len = uri.data + uri.len - args.data;

    if (ngx_http_fowharimu_without(r, &args, '&', name, &rest) != NGX_OK) {
        return NGX_ERROR;
    }

    uri.len = query - uri.data;

    r->unparsed_uri.data = ngx_pnalloc(r->pool, uri.len + 1 + rest.len);
    if (r->unparsed_uri.data == NULL) {
        return NGX_ERROR;
    }

    query = ngx_cpymem(r->unparsed_uri.data, uri.data, uri.len);

    if (rest.len) {
        *query++ = '?';
        query = ngx_cpymem(query, rest.data, rest.len);
    }

    r->unparsed_uri.len = query - r->unparsed_uri.data;

    return NGX_OK;
}


/*
 * A location before a redirect may have changed something for its own verdict;
 * this one, which judges too, changes nothing.
 */

static ngx_int_t
ngx_http_fowharimu_restore(ngx_http_request_t *r)
{
    ngx_list_part_t           *part;
    ngx_http_fowharimu_ctx_t  *ctx;

    ctx = ngx_http_fowharimu_find_ctx(r, r);

    if (ctx == NULL) {
        return NGX_DECLINED;
    }

    r->args = *ngx_http_fowharimu_sent_args(r);
    ctx->cut = 0;

    if (!ctx->changed) {
        return NGX_DECLINED;
    }

    r->headers_in.headers = ctx->headers;
    ctx->changed = 0;

    part = &r->headers_in.headers.part;

    while (part->next) {
        part = part->next;
    }

    r->headers_in.headers.last = part;

    return ngx_http_fowharimu_point_at_headers(r) == NGX_OK
           ? NGX_DECLINED : NGX_HTTP_INTERNAL_SERVER_ERROR;
}


/* "jwt_header name claim [default]" */

char *
ngx_http_fowharimu_set_header(ngx_conf_t *cf, ngx_command_t *cmd, void *conf)
{
    ngx_http_fowharimu_loc_conf_t *lcf = conf;

    ngx_int_t                        claim;
    ngx_str_t                       *value;
    ngx_uint_t                       i;
    ngx_http_fowharimu_header_t     *line;
    ngx_http_fowharimu_main_conf_t  *mcf;

    mcf = ngx_http_conf_get_module_main_conf(cf, ngx_http_fowharimu_module);
    value = cf->args->elts;

    if (lcf->headers == NULL) {
        lcf->headers = ngx_array_create(cf->pool, 2,
                                        sizeof(ngx_http_fowharimu_header_t));
        if (lcf->headers == NULL) {
            return NGX_CONF_ERROR;
        }
    }

    line = lcf->headers->elts;

    for (i = 0; i < lcf->headers->nelts; i++) {

        if (ngx_http_fowharimu_is_same_header(&value[1], &line[i].name)) {
            return "is duplicate";
        }
    }

    line = ngx_array_push(lcf->headers);
    claim = ngx_http_fowharimu_note_claim(mcf, &value[2]);

    if (line == NULL || claim == NGX_ERROR) {
        return NGX_CONF_ERROR;
    }

    ngx_memzero(line, sizeof(ngx_http_fowharimu_header_t));
    line->claim = claim;

    if (cf->args->nelts > 3) {
        line->otherwise = value[3];
    }

    for (i = 0; i < line->otherwise.len; i++) {
        if (line->otherwise.data[i] < 0x20 || line->otherwise.data[i] == 0x7f) {
            return "has a default with a control character";
        }
    }

    mcf->changes = 1;

    return ngx_http_fowharimu_set_name(cf, line, &value[1]) == NGX_OK
           ? NGX_CONF_OK
           : "has a name that no claim may have: it is of letters, digits and "
             "hyphens, and isn't one by which a request is read";
}


static ngx_int_t
ngx_http_fowharimu_set_name(ngx_conf_t *cf, ngx_http_fowharimu_header_t *line,
    ngx_str_t *name)
{
    u_char      c;
    ngx_uint_t  i;

    static ngx_str_t  others[] = {
        ngx_string("authorization"), ngx_string("connection"),
        ngx_string("content-length"), ngx_string("content-type"),
        ngx_string("cookie"), ngx_string("expect"), ngx_string("host"),
        ngx_string("keep-alive"), ngx_string("te"), ngx_string("trailer"),
        ngx_string("transfer-encoding"), ngx_string("upgrade"),
        ngx_null_string
    };

    line->name = *name;
    line->lowcase = ngx_pnalloc(cf->pool, name->len);

    if (line->lowcase == NULL || name->len == 0) {
        return NGX_ERROR;
    }

    ngx_strlow(line->lowcase, name->data, name->len);

    for (i = 0; i < name->len; i++) {
        c = line->lowcase[i];

        if (!(c >= 'a' && c <= 'z') && !(c >= '0' && c <= '9') && c != '-') {
            return NGX_ERROR;
        }
    }

    for (i = 0; others[i].len; i++) {

        if (ngx_http_fowharimu_is_same_header(name, &others[i])) {
            return NGX_ERROR;
        }
    }

    return NGX_OK;
}


char *
ngx_http_fowharimu_set_strip(ngx_conf_t *cf, ngx_command_t *cmd, void *conf)
{
    ngx_http_fowharimu_main_conf_t  *mcf;

    mcf = ngx_http_conf_get_module_main_conf(cf, ngx_http_fowharimu_module);
    mcf->changes = 1;

    return ngx_conf_set_flag_slot(cf, cmd, conf);
}


/*
 * The lines of the outer levels hold at each inner one: what an inner one says
 * is added to them, or stands in place of the line for the same header.
 */

char *
ngx_http_fowharimu_merge_changes(ngx_conf_t *cf,
    ngx_http_fowharimu_loc_conf_t *prev, ngx_http_fowharimu_loc_conf_t *conf)
{
    ngx_conf_merge_value(conf->strip, prev->strip, 0);
    ngx_conf_merge_ptr_value(conf->issue, prev->issue, NULL);
    ngx_conf_merge_ptr_value(conf->issued, prev->issued, NULL);

    if (conf->issue && conf->issue->off) {
        conf->issue = NULL;
    }

    if (conf->headers == NULL) {
        conf->headers = prev->headers;

    } else if (prev->headers) {
        conf->headers = ngx_http_fowharimu_join_headers(cf, prev->headers,
                                                        conf->headers);
        if (conf->headers == NULL) {
            return NGX_CONF_ERROR;
        }
    }

    if (conf->enable && (conf->strip || conf->issue) && conf->token
        && conf->token->kind == NGX_HTTP_FOWHARIMU_VARIABLE)
    {
        ngx_log_error(NGX_LOG_EMERG, cf->log, 0,
                      "\"jwt_strip\" and \"jwt_issue\" can't take away the "
                      "token of a variable: \"jwt_token\" names a header, a "
                      "cookie or an argument by $http_, $cookie_ or $arg_");
        return NGX_CONF_ERROR;
    }

    return NGX_CONF_OK;
}


static ngx_array_t *
ngx_http_fowharimu_join_headers(ngx_conf_t *cf, ngx_array_t *outer,
    ngx_array_t *inner)
{
    ngx_uint_t                    i, k;
    ngx_array_t                  *joined;
    ngx_http_fowharimu_header_t  *line, *own, *to;

    line = outer->elts;
    own = inner->elts;

    joined = ngx_array_create(cf->pool, outer->nelts + inner->nelts,
                              sizeof(ngx_http_fowharimu_header_t));
    if (joined == NULL) {
        return NULL;
    }

    for (i = 0; i < outer->nelts + inner->nelts; i++) {

        for (k = 0; i < outer->nelts && k < inner->nelts; k++) {

            if (ngx_http_fowharimu_is_same_header(&own[k].name,
                                                  &line[i].name))
            {
                break;
            }
        }

        if (i < outer->nelts && k < inner->nelts) {
            continue;
        }

        to = ngx_array_push(joined);
        if (to == NULL) {
            return NULL;
        }

        *to = i < outer->nelts ? line[i] : own[i - outer->nelts];
    }

    return joined;
}
