
/*
 * Judges the JSON Web Token of a request by the library Fowharimu, in the
 * access phase or where a variable is read before.  README.md beside this file
 * documents the directives.
 *
 * Documents are read, and validators opened, with the configuration, by the
 * master process.  A worker has them by fork: its copy of that memory is its
 * own, and it handles one request at a time, so a validator is never used by
 * two calls at once.
 */

#include "ngx_http_fowharimu.h"


static ngx_int_t ngx_http_fowharimu_init(ngx_conf_t *cf);
static ngx_int_t ngx_http_fowharimu_add_handlers(ngx_conf_t *cf);
static ngx_int_t ngx_http_fowharimu_put_first(ngx_array_t *handlers,
    ngx_http_handler_pt handler);
static void ngx_http_fowharimu_warn_of_methods(ngx_conf_t *cf);
static void *ngx_http_fowharimu_create_main_conf(ngx_conf_t *cf);
static void *ngx_http_fowharimu_create_loc_conf(ngx_conf_t *cf);
static void ngx_http_fowharimu_say_nothing(ngx_http_fowharimu_loc_conf_t *lcf);
static ngx_uint_t ngx_http_fowharimu_says_something(
    ngx_http_fowharimu_loc_conf_t *conf);
static char *ngx_http_fowharimu_merge_loc_conf(ngx_conf_t *cf, void *parent,
    void *child);
static char *ngx_http_fowharimu_merge_grounds(ngx_conf_t *cf,
    ngx_http_fowharimu_loc_conf_t *prev, ngx_http_fowharimu_loc_conf_t *conf);
static ngx_http_fowharimu_issuers_t *ngx_http_fowharimu_copy_issuers(
    ngx_conf_t *cf, ngx_http_fowharimu_issuers_t *issuers);
static ngx_int_t ngx_http_fowharimu_note_methods(ngx_conf_t *cf,
    ngx_http_core_loc_conf_t *clcf, ngx_http_fowharimu_loc_conf_t *conf);
static void *ngx_http_fowharimu_conf_of(ngx_conf_t *cf,
    ngx_http_conf_ctx_t *ctx, const char *name);
static ngx_uint_t ngx_http_fowharimu_is_open(ngx_conf_t *cf);
static ngx_uint_t ngx_http_fowharimu_is_answered(void *conf);
static size_t ngx_http_fowharimu_code_size(u_char *p, size_t rest);
static char *ngx_http_fowharimu_enable(ngx_conf_t *cf, ngx_command_t *cmd,
    void *conf);
static char *ngx_http_fowharimu_policy(ngx_conf_t *cf, ngx_command_t *cmd,
    void *conf);
static char *ngx_http_fowharimu_keys(ngx_conf_t *cf, ngx_command_t *cmd,
    void *conf);
static char *ngx_http_fowharimu_issuer(ngx_conf_t *cf, ngx_command_t *cmd,
    void *conf);
static char *ngx_http_fowharimu_remember(ngx_conf_t *cf, ngx_command_t *cmd,
    void *conf);
static char *ngx_http_fowharimu_set_answer(ngx_conf_t *cf, ngx_command_t *cmd,
    void *conf);


#define NGX_HTTP_FOWHARIMU_CONF                                              \
    (NGX_HTTP_MAIN_CONF|NGX_HTTP_SRV_CONF|NGX_HTTP_LOC_CONF                  \
     |NGX_HTTP_LMT_CONF)


static ngx_command_t  ngx_http_fowharimu_commands[] = {

    { ngx_string("jwt"),
      NGX_HTTP_FOWHARIMU_CONF|NGX_CONF_FLAG,
      ngx_http_fowharimu_enable,
      NGX_HTTP_LOC_CONF_OFFSET,
      offsetof(ngx_http_fowharimu_loc_conf_t, enable),
      NULL },

    { ngx_string("jwt_policy"),
      NGX_HTTP_FOWHARIMU_CONF|NGX_CONF_TAKE1,
      ngx_http_fowharimu_policy,
      NGX_HTTP_LOC_CONF_OFFSET,
      0,
      NULL },

    { ngx_string("jwt_keys"),
      NGX_HTTP_FOWHARIMU_CONF|NGX_CONF_TAKE12,
      ngx_http_fowharimu_keys,
      NGX_HTTP_LOC_CONF_OFFSET,
      0,
      NULL },

    { ngx_string("jwt_issuer"),
      NGX_HTTP_FOWHARIMU_CONF|NGX_CONF_TAKE3|NGX_CONF_TAKE4,
      ngx_http_fowharimu_issuer,
      NGX_HTTP_LOC_CONF_OFFSET,
      0,
      NULL },

    { ngx_string("jwt_token"),
      NGX_HTTP_FOWHARIMU_CONF|NGX_CONF_TAKE1,
      ngx_http_fowharimu_set_token,
      NGX_HTTP_LOC_CONF_OFFSET,
      0,
      NULL },

    { ngx_string("jwt_access"),
      NGX_HTTP_FOWHARIMU_CONF|NGX_CONF_TAKE1,
      ngx_http_fowharimu_access,
      NGX_HTTP_LOC_CONF_OFFSET,
      0,
      NULL },

    { ngx_string("jwt_require"),
      NGX_HTTP_FOWHARIMU_CONF|NGX_CONF_2MORE,
      ngx_http_fowharimu_require,
      NGX_HTTP_LOC_CONF_OFFSET,
      0,
      NULL },

    { ngx_string("jwt_expect"),
      NGX_HTTP_FOWHARIMU_CONF|NGX_CONF_TAKE2,
      ngx_http_fowharimu_set_expected,
      NGX_HTTP_LOC_CONF_OFFSET,
      0,
      NULL },

    { ngx_string("jwt_once"),
      NGX_HTTP_FOWHARIMU_CONF|NGX_CONF_TAKE123,
      ngx_http_fowharimu_set_once,
      NGX_HTTP_LOC_CONF_OFFSET,
      0,
      NULL },

    { ngx_string("jwt_dpop"),
      NGX_HTTP_FOWHARIMU_CONF|NGX_CONF_TAKE1,
      ngx_http_fowharimu_set_dpop,
      NGX_HTTP_LOC_CONF_OFFSET,
      0,
      NULL },

    { ngx_string("jwt_dpop_policy"),
      NGX_HTTP_FOWHARIMU_CONF|NGX_CONF_TAKE1,
      ngx_http_fowharimu_set_proofs,
      NGX_HTTP_LOC_CONF_OFFSET,
      0,
      NULL },

    { ngx_string("jwt_dpop_origin"),
      NGX_HTTP_FOWHARIMU_CONF|NGX_CONF_TAKE1,
      ngx_http_fowharimu_set_origin,
      NGX_HTTP_LOC_CONF_OFFSET,
      0,
      NULL },

    { ngx_string("jwt_dpop_once"),
      NGX_HTTP_FOWHARIMU_CONF|NGX_CONF_TAKE123,
      ngx_http_fowharimu_set_proof_once,
      NGX_HTTP_LOC_CONF_OFFSET,
      0,
      NULL },

    { ngx_string("jwt_dpop_nonce"),
      NGX_HTTP_FOWHARIMU_CONF|NGX_CONF_TAKE12,
      ngx_http_fowharimu_set_nonce,
      NGX_HTTP_LOC_CONF_OFFSET,
      0,
      NULL },

    { ngx_string("jwt_certificate"),
      NGX_HTTP_FOWHARIMU_CONF|NGX_CONF_TAKE1,
      ngx_http_fowharimu_set_certificate,
      NGX_HTTP_LOC_CONF_OFFSET,
      0,
      NULL },

    { ngx_string("jwt_remember"),
      NGX_HTTP_FOWHARIMU_CONF|NGX_CONF_TAKE12,
      ngx_http_fowharimu_remember,
      NGX_HTTP_LOC_CONF_OFFSET,
      0,
      NULL },

    { ngx_string("jwt_header"),
      NGX_HTTP_FOWHARIMU_CONF|NGX_CONF_TAKE2|NGX_CONF_TAKE3,
      ngx_http_fowharimu_set_header,
      NGX_HTTP_LOC_CONF_OFFSET,
      0,
      NULL },

    { ngx_string("jwt_strip"),
      NGX_HTTP_FOWHARIMU_CONF|NGX_CONF_FLAG,
      ngx_http_fowharimu_set_strip,
      NGX_HTTP_LOC_CONF_OFFSET,
      offsetof(ngx_http_fowharimu_loc_conf_t, strip),
      NULL },

    { ngx_string("jwt_issue"),
      NGX_HTTP_FOWHARIMU_CONF|NGX_CONF_TAKE1|NGX_CONF_TAKE3|NGX_CONF_TAKE4,
      ngx_http_fowharimu_set_issue,
      NGX_HTTP_LOC_CONF_OFFSET,
      0,
      NULL },

    { ngx_string("jwt_issue_claims"),
      NGX_HTTP_FOWHARIMU_CONF|NGX_CONF_1MORE,
      ngx_http_fowharimu_set_issued,
      NGX_HTTP_LOC_CONF_OFFSET,
      0,
      NULL },

    { ngx_string("jwt_claim_set"),
      NGX_HTTP_MAIN_CONF|NGX_CONF_TAKE2|NGX_CONF_TAKE3,
      ngx_http_fowharimu_claim_set,
      NGX_HTTP_MAIN_CONF_OFFSET,
      0,
      NULL },

    { ngx_string("jwt_answer"),
      NGX_HTTP_LOC_CONF|NGX_CONF_NOARGS|NGX_CONF_TAKE1,
      ngx_http_fowharimu_set_answer,
      NGX_HTTP_LOC_CONF_OFFSET,
      0,
      NULL },

      ngx_null_command
};


static ngx_http_module_t  ngx_http_fowharimu_module_ctx = {
    ngx_http_fowharimu_add_variables,      /* preconfiguration */
    ngx_http_fowharimu_init,               /* postconfiguration */

    ngx_http_fowharimu_create_main_conf,   /* create main configuration */
    NULL,                                  /* init main configuration */

    NULL,                                  /* create server configuration */
    NULL,                                  /* merge server configuration */

    ngx_http_fowharimu_create_loc_conf,    /* create location configuration */
    ngx_http_fowharimu_merge_loc_conf      /* merge location configuration */
};


ngx_module_t  ngx_http_fowharimu_module = {
    NGX_MODULE_V1,
    &ngx_http_fowharimu_module_ctx,        /* module context */
    ngx_http_fowharimu_commands,           /* module directives */
    NGX_HTTP_MODULE,                       /* module type */
    NULL,                                  /* init master */
    ngx_http_fowharimu_note_variables,     /* init module */
    ngx_http_fowharimu_init_process,       /* init process */
    NULL,                                  /* init thread */
    NULL,                                  /* exit thread */
    NULL,                                  /* exit process */
    NULL,                                  /* exit master */
    NGX_MODULE_V1_PADDING
};


static ngx_int_t
ngx_http_fowharimu_init(ngx_conf_t *cf)
{
    ngx_http_fowharimu_main_conf_t  *mcf;

    mcf = ngx_http_conf_get_module_main_conf(cf, ngx_http_fowharimu_module);

    if (!mcf->enabled && mcf->named) {
        ngx_log_error(NGX_LOG_WARN, cf->log, 0,
                      "\"jwt\" is on nowhere: no token is asked for");
    }

    ngx_http_fowharimu_warn_of_methods(cf);

    if (mcf->enabled && ngx_http_fowharimu_derive_variables(cf) != NGX_OK) {
        return NGX_ERROR;
    }

    return mcf->enabled || mcf->changes ? ngx_http_fowharimu_add_handlers(cf)
                                        : NGX_OK;
}


static ngx_int_t
ngx_http_fowharimu_add_handlers(ngx_conf_t *cf)
{
    ngx_http_handler_pt             *h;
    ngx_http_core_main_conf_t       *cmcf;
    ngx_http_fowharimu_main_conf_t  *mcf;

    mcf = ngx_http_conf_get_module_main_conf(cf, ngx_http_fowharimu_module);
    cmcf = ngx_http_conf_get_module_main_conf(cf, ngx_http_core_module);

    h = ngx_array_push(&cmcf->phases[NGX_HTTP_ACCESS_PHASE].handlers);
    if (h == NULL) {
        return NGX_ERROR;
    }

    *h = ngx_http_fowharimu_access_handler;

    h = ngx_array_push(&cmcf->phases[NGX_HTTP_PREACCESS_PHASE].handlers);
    if (h == NULL) {
        return NGX_ERROR;
    }

    *h = ngx_http_fowharimu_subrequest_handler;

    /* (the handlers of a phase run from the last to the first) */

    return mcf->changes
           ? ngx_http_fowharimu_put_first(
                           &cmcf->phases[NGX_HTTP_PRECONTENT_PHASE].handlers,
                           ngx_http_fowharimu_change_handler)
           : NGX_OK;
}


static ngx_int_t
ngx_http_fowharimu_put_first(ngx_array_t *handlers, ngx_http_handler_pt handler)
{
    ngx_http_handler_pt  *h;

    if (ngx_array_push(handlers) == NULL) {
        return NGX_ERROR;
    }

    h = handlers->elts;

    ngx_memmove(&h[1], &h[0],
                (handlers->nelts - 1) * sizeof(ngx_http_handler_pt));

    h[0] = handler;

    return NGX_OK;
}


/* "auth_request" asks by GET, whatever the client's method is */

static void
ngx_http_fowharimu_warn_of_methods(ngx_conf_t *cf)
{
    ngx_str_t                       *asked, *limited;
    ngx_uint_t                       i, k;
    ngx_http_fowharimu_main_conf_t  *mcf;

    mcf = ngx_http_conf_get_module_main_conf(cf, ngx_http_fowharimu_module);

    limited = mcf->limited.elts;
    asked = mcf->asked.elts;

    for (i = 0; i < mcf->limited.nelts; i++) {

        for (k = 0; k < mcf->asked.nelts; k++) {

            if (ngx_memn2cmp(limited[i].data, asked[k].data, limited[i].len,
                             asked[k].len)
                == 0)
            {
                ngx_log_error(NGX_LOG_WARN, cf->log, 0,
                              "location \"%V\" has directives of \"jwt\" in "
                              "\"limit_except\", and \"auth_request\" asks it "
                              "by GET, whatever the client's method is",
                              &limited[i]);
                break;
            }
        }
    }
}


static void *
ngx_http_fowharimu_create_main_conf(ngx_conf_t *cf)
{
    ngx_http_fowharimu_main_conf_t  *mcf;

    mcf = ngx_pcalloc(cf->pool, sizeof(ngx_http_fowharimu_main_conf_t));
    if (mcf == NULL) {
        return NULL;
    }

    if (ngx_array_init(&mcf->claims, cf->pool, 4, sizeof(ngx_str_t)) != NGX_OK
        || ngx_array_init(&mcf->asked, cf->pool, 4, sizeof(ngx_str_t)) != NGX_OK
        || ngx_array_init(&mcf->limited, cf->pool, 4, sizeof(ngx_str_t))
           != NGX_OK
        || ngx_array_init(&mcf->openings, cf->pool, 4,
                          sizeof(ngx_http_fowharimu_opening_t *))
           != NGX_OK
        || ngx_array_init(&mcf->indexes, cf->pool, 4, sizeof(ngx_uint_t))
           != NGX_OK
        || ngx_array_init(&mcf->watches, cf->pool, 4,
                          sizeof(ngx_http_fowharimu_watch_t *))
           != NGX_OK)
    {
        return NULL;
    }

    return mcf;
}


static void *
ngx_http_fowharimu_create_loc_conf(ngx_conf_t *cf)
{
    ngx_http_fowharimu_loc_conf_t  *lcf;

    lcf = ngx_palloc(cf->pool, sizeof(ngx_http_fowharimu_loc_conf_t));
    if (lcf == NULL) {
        return NULL;
    }

    ngx_http_fowharimu_say_nothing(lcf);

    return lcf;
}


/* (with zeros between the members: one that says nothing is told by its octets) */

static void
ngx_http_fowharimu_say_nothing(ngx_http_fowharimu_loc_conf_t *lcf)
{
    ngx_memzero(lcf, sizeof(ngx_http_fowharimu_loc_conf_t));

    /*
     * set by ngx_memzero():
     *
     *     lcf->open = 0;
     *     lcf->answer = 0;
     *     lcf->file = NULL;
     *     lcf->line = 0;
     *     lcf->grounds = { { 0, NULL }, { 0, NULL }, NULL, NULL };
     *     lcf->issuers = NULL;
     *     lcf->headers = NULL;
     *     lcf->origin = { 0, NULL };
     */

    lcf->enable = NGX_CONF_UNSET;
    lcf->token = NGX_CONF_UNSET_PTR;
    lcf->strip = NGX_CONF_UNSET;
    lcf->issue = NGX_CONF_UNSET_PTR;
    lcf->issued = NGX_CONF_UNSET_PTR;
    lcf->rule = NGX_CONF_UNSET_PTR;
    lcf->demands = NGX_CONF_UNSET_PTR;
    lcf->expected = NGX_CONF_UNSET_PTR;
    lcf->once = NGX_CONF_UNSET_PTR;
    lcf->schemes = NGX_CONF_UNSET_UINT;
    lcf->proofs = NGX_CONF_UNSET_PTR;
    lcf->proof_once = NGX_CONF_UNSET_PTR;
    lcf->nonce = NGX_CONF_UNSET_PTR;
    lcf->certificate = NGX_CONF_UNSET_PTR;
    lcf->tokens = NGX_CONF_UNSET;
    lcf->octets = NGX_CONF_UNSET_SIZE;
}


/* whether a directive of this module stands at this very level */

static ngx_uint_t
ngx_http_fowharimu_says_something(ngx_http_fowharimu_loc_conf_t *conf)
{
    ngx_http_fowharimu_loc_conf_t  nothing;

    ngx_http_fowharimu_say_nothing(&nothing);

    return ngx_memcmp(conf, &nothing, sizeof(ngx_http_fowharimu_loc_conf_t))
           != 0;
}


static char *
ngx_http_fowharimu_merge_loc_conf(ngx_conf_t *cf, void *parent, void *child)
{
    ngx_http_fowharimu_loc_conf_t *prev = parent;
    ngx_http_fowharimu_loc_conf_t *conf = child;

    ngx_http_core_loc_conf_t        *clcf;
    ngx_http_fowharimu_main_conf_t  *mcf;

    clcf = ngx_http_conf_get_module_loc_conf(cf, ngx_http_core_module);

    if (ngx_http_fowharimu_note_methods(cf, clcf, conf) != NGX_OK) {
        return NGX_CONF_ERROR;
    }

    /* a "return" beside "limit_except" answers each method */

    conf->open = ngx_http_fowharimu_is_open(cf)
                 || (clcf->lmt_excpt && prev->open);

    if (conf->answer && clcf->handler != ngx_http_fowharimu_answer_handler) {
        ngx_log_error(NGX_LOG_EMERG, cf->log, 0,
                      "\"jwt_answer\" stands beside another directive that "
                      "answers in location \"%V\"", &clcf->name);
        return NGX_CONF_ERROR;
    }

    /* an "if" or "limit_except" answers as its location does */

    if (clcf->noname && conf->answer == 0) {
        conf->answer = prev->answer;

        if (clcf->lmt_excpt && clcf->handler == NULL && conf->answer) {
            clcf->handler = ngx_http_fowharimu_answer_handler;
        }
    }

    if (ngx_http_fowharimu_merge_grounds(cf, prev, conf) != NGX_CONF_OK) {
        return NGX_CONF_ERROR;
    }

    if (conf->enable == NGX_CONF_UNSET) {
        conf->file = prev->file;
        conf->line = prev->line;
    }

    ngx_conf_merge_value(conf->enable, prev->enable, 0);
    ngx_conf_merge_ptr_value(conf->token, prev->token, NULL);
    ngx_conf_merge_ptr_value(conf->rule, prev->rule, NULL);
    ngx_conf_merge_ptr_value(conf->demands, prev->demands, NULL);
    ngx_conf_merge_ptr_value(conf->expected, prev->expected, NULL);
    ngx_conf_merge_ptr_value(conf->once, prev->once, NULL);

    if (ngx_http_fowharimu_merge_changes(cf, prev, conf) != NGX_CONF_OK
        || ngx_http_fowharimu_merge_possession(cf, prev, conf) != NGX_CONF_OK)
    {
        return NGX_CONF_ERROR;
    }

    if (!conf->enable) {
        return NGX_CONF_OK;
    }

    if (conf->grounds.validator == NULL && conf->issuers == NULL) {
        ngx_log_error(NGX_LOG_EMERG, cf->log, 0,
                      "no \"%s\" is defined for the \"jwt\" directive "
                      "in %s:%ui",
                      conf->grounds.policy.data ? "jwt_keys" : "jwt_policy",
                      conf->file, conf->line);
        return NGX_CONF_ERROR;
    }

    if (conf->open) {
        ngx_log_error(NGX_LOG_EMERG, cf->log, 0,
                      "a \"return\" answers before \"jwt\" is asked, which "
                      "is on by %s:%ui: say \"jwt_answer\" in its place, or "
                      "\"jwt off\" beside it", conf->file, conf->line);
        return NGX_CONF_ERROR;
    }

    mcf = ngx_http_conf_get_module_main_conf(cf, ngx_http_fowharimu_module);
    mcf->enabled = 1;

    return NGX_CONF_OK;
}


/*
 * The documents of a level are opened once for all that inherit them.  A level
 * with issuers of its own has no other policy and keys, and the other way round.
 */

static char *
ngx_http_fowharimu_merge_grounds(ngx_conf_t *cf,
    ngx_http_fowharimu_loc_conf_t *prev, ngx_http_fowharimu_loc_conf_t *conf)
{
    ngx_uint_t                     own, is_alike;
    ngx_http_fowharimu_grounds_t  *grounds;

    grounds = &conf->grounds;
    own = grounds->policy.data || grounds->keys.data;

    if (conf->issuers && own) {
        ngx_log_error(NGX_LOG_EMERG, cf->log, 0,
                      "\"jwt_issuer\" stands beside \"jwt_policy\" or "
                      "\"jwt_keys\"");
        return NGX_CONF_ERROR;
    }

    if (ngx_http_fowharimu_open(cf, prev) != NGX_OK) {
        return NGX_CONF_ERROR;
    }

    is_alike = conf->tokens == NGX_CONF_UNSET;

    if (conf->issuers == NULL && !own && prev->issuers) {
        conf->issuers = is_alike
                        ? prev->issuers
                        : ngx_http_fowharimu_copy_issuers(cf, prev->issuers);
        if (conf->issuers == NULL) {
            return NGX_CONF_ERROR;
        }
    }

    if (conf->issuers == NULL) {

        if (!own && is_alike) {
            grounds->validator = prev->grounds.validator;
        }

        if (grounds->policy.data == NULL) {
            grounds->policy = prev->grounds.policy;
        }

        if (grounds->keys.data == NULL) {
            grounds->keys = prev->grounds.keys;
            grounds->file = prev->grounds.file;
        }
    }

    ngx_conf_merge_value(conf->tokens, prev->tokens,
                         NGX_HTTP_FOWHARIMU_TOKENS);
    ngx_conf_merge_size_value(conf->octets, prev->octets,
                              NGX_HTTP_FOWHARIMU_OCTETS);

    return ngx_http_fowharimu_open(cf, conf) == NGX_OK ? NGX_CONF_OK
                                                       : NGX_CONF_ERROR;
}


/* the same issuers, which aren't open yet */

static ngx_http_fowharimu_issuers_t *
ngx_http_fowharimu_copy_issuers(ngx_conf_t *cf,
    ngx_http_fowharimu_issuers_t *issuers)
{
    ngx_uint_t                     i;
    ngx_http_fowharimu_issuer_t   *from, *to;
    ngx_http_fowharimu_issuers_t  *copy;

    copy = ngx_pcalloc(cf->pool, sizeof(ngx_http_fowharimu_issuers_t));

    if (copy == NULL
        || ngx_array_init(&copy->all, cf->pool, issuers->all.nelts,
                          sizeof(ngx_http_fowharimu_issuer_t))
           != NGX_OK)
    {
        return NULL;
    }

    from = issuers->all.elts;

    for (i = 0; i < issuers->all.nelts; i++) {
        to = ngx_array_push(&copy->all);
        if (to == NULL) {
            return NULL;
        }

        *to = from[i];
        to->grounds.validator = NULL;
    }

    return copy;
}


/*
 * Whether each request here is answered by a "return" of a success, of this
 * level or of the server: nginx does so in phases before this module is asked.
 */

static ngx_uint_t
ngx_http_fowharimu_is_open(ngx_conf_t *cf)
{
    ngx_http_core_srv_conf_t   *cscf;

    static const char  rewrite[] = "ngx_http_rewrite_module";

    cscf = ngx_http_conf_get_module_srv_conf(cf, ngx_http_core_module);

    return ngx_http_fowharimu_is_answered(
                             ngx_http_fowharimu_conf_of(cf, cf->ctx, rewrite))
           || ngx_http_fowharimu_is_answered(
                          ngx_http_fowharimu_conf_of(cf, cscf->ctx, rewrite));
}


/* what a module of nginx has at this level, by the module's name */

static void *
ngx_http_fowharimu_conf_of(ngx_conf_t *cf, ngx_http_conf_ctx_t *ctx,
    const char *name)
{
    ngx_uint_t      i;
    ngx_module_t  **modules;

    modules = cf->cycle->modules;

    for (i = 0; ctx && modules[i]; i++) {

        if (ngx_strcmp(modules[i]->name, name) == 0) {
            return ctx->loc_conf[modules[i]->ctx_index];
        }
    }

    return NULL;
}


/*
 * Notes whom "auth_request" asks, whose configuration begins with that place,
 * and the locations whose "limit_except" has a directive of this module, before
 * that level inherits any.
 */

static ngx_int_t
ngx_http_fowharimu_note_methods(ngx_conf_t *cf, ngx_http_core_loc_conf_t *clcf,
    ngx_http_fowharimu_loc_conf_t *conf)
{
    u_char                          *args;
    ngx_str_t                       *uri, *noted;
    ngx_http_fowharimu_main_conf_t  *mcf;

    mcf = ngx_http_conf_get_module_main_conf(cf, ngx_http_fowharimu_module);

    if (clcf->lmt_excpt && ngx_http_fowharimu_says_something(conf)) {
        noted = ngx_array_push(&mcf->limited);
        if (noted == NULL) {
            return NGX_ERROR;
        }

        *noted = clcf->name;
    }

    uri = ngx_http_fowharimu_conf_of(cf, cf->ctx,
                                     "ngx_http_auth_request_module");

    if (uri && uri->len) {
        noted = ngx_array_push(&mcf->asked);
        if (noted == NULL) {
            return NGX_ERROR;
        }

        *noted = *uri;

        args = ngx_strlchr(uri->data, uri->data + uri->len, '?');

        if (args) {
            noted->len = args - uri->data;
        }
    }

    return NGX_OK;
}


/*
 * Walks over what ngx_http_rewrite_module does here, whose configuration begins
 * with the array of its codes, to a "return" that each request comes to.  What
 * stands within an "if" is left out, and behind a "rewrite" or "break" nothing
 * is looked at.
 */

static ngx_uint_t
ngx_http_fowharimu_is_answered(void *conf)
{
    size_t                          size;
    u_char                         *p, *last;
    ngx_array_t                    *codes;
    ngx_http_script_return_code_t  *code;

    codes = conf ? *(ngx_array_t **) conf : NULL;

    if (codes == NULL) {
        return 0;
    }

    p = codes->elts;
    last = p + codes->nelts;

    while ((size_t) (last - p) >= sizeof(ngx_http_script_code_pt)) {

        if (*(ngx_http_script_code_pt *) p == ngx_http_script_return_code) {

            if ((size_t) (last - p) < sizeof(ngx_http_script_return_code_t)) {
                return 0;
            }

            code = (ngx_http_script_return_code_t *) p;

            return code->status >= NGX_HTTP_OK
                   && code->status < NGX_HTTP_SPECIAL_RESPONSE;
        }

        size = ngx_http_fowharimu_code_size(p, last - p);

        if (size == 0 || size > (size_t) (last - p)) {
            return 0;
        }

        p += size;
    }

    return 0;
}


/*
 * The octets of a code behind which the next is run, of an "if" its block too;
 * 0 where none is.  A code that isn't known here has no more than its function,
 * as the end of a value that nginx 1.22.1 of Debian has beside its header.
 */

static size_t
ngx_http_fowharimu_code_size(u_char *p, size_t rest)
{
    ngx_uint_t                    i;
    ngx_http_script_code_pt       code;
    ngx_http_script_copy_code_t  *copy;

    static const struct {
        ngx_http_script_code_pt   code;
        size_t                    size;
    } sizes[] = {
        { ngx_http_script_value_code, sizeof(ngx_http_script_value_code_t) },
        { ngx_http_script_complex_value_code,
          sizeof(ngx_http_script_complex_value_code_t) },
        { ngx_http_script_copy_var_code, sizeof(ngx_http_script_var_code_t) },
        { ngx_http_script_copy_capture_code,
          sizeof(ngx_http_script_copy_capture_code_t) },
        { ngx_http_script_set_var_code, sizeof(ngx_http_script_var_code_t) },
        { ngx_http_script_var_set_handler_code,
          sizeof(ngx_http_script_var_handler_code_t) },
        { ngx_http_script_var_code, sizeof(ngx_http_script_var_code_t) },
        { ngx_http_script_file_code, sizeof(ngx_http_script_file_code_t) },
    };

    code = *(ngx_http_script_code_pt *) p;

    if (code == ngx_http_script_if_code) {
        return rest < sizeof(ngx_http_script_if_code_t)
               ? 0 : ((ngx_http_script_if_code_t *) p)->next;
    }

    if (code == ngx_http_script_copy_code) {

        if (rest < sizeof(ngx_http_script_copy_code_t)) {
            return 0;
        }

        copy = (ngx_http_script_copy_code_t *) p;

        return ngx_align(sizeof(ngx_http_script_copy_code_t) + copy->len,
                         sizeof(uintptr_t));
    }

#if (NGX_PCRE)

    /* (one that isn't the condition of an "if" is a "rewrite") */

    if (code == ngx_http_script_regex_start_code) {
        return rest >= sizeof(ngx_http_script_regex_code_t)
               && ((ngx_http_script_regex_code_t *) p)->test
               ? sizeof(ngx_http_script_regex_code_t) : 0;
    }

#endif

    if (code == NULL || code == ngx_http_script_break_code) {
        return 0;
    }

    for (i = 0; i < sizeof(sizes) / sizeof(sizes[0]); i++) {
        if (code == sizes[i].code) {
            return sizes[i].size;
        }
    }

    return sizeof(ngx_http_script_code_pt);
}


static char *
ngx_http_fowharimu_enable(ngx_conf_t *cf, ngx_command_t *cmd, void *conf)
{
    ngx_http_fowharimu_loc_conf_t  *lcf = conf;

    lcf->file = cf->conf_file->file.name.data;
    lcf->line = cf->conf_file->line;

    return ngx_conf_set_flag_slot(cf, cmd, conf);
}


static char *
ngx_http_fowharimu_policy(ngx_conf_t *cf, ngx_command_t *cmd, void *conf)
{
    ngx_http_fowharimu_loc_conf_t *lcf = conf;

    ngx_str_t  *value;

    if (lcf->grounds.policy.data) {
        return "is duplicate";
    }

    value = cf->args->elts;

    return ngx_http_fowharimu_read_policy(cf, &value[1], &lcf->grounds);
}


static char *
ngx_http_fowharimu_keys(ngx_conf_t *cf, ngx_command_t *cmd, void *conf)
{
    ngx_http_fowharimu_loc_conf_t *lcf = conf;

    ngx_str_t  *value;

    if (lcf->grounds.keys.data) {
        return "is duplicate";
    }

    value = cf->args->elts;

    return ngx_http_fowharimu_read_keys(cf, &value[1],
                                        cf->args->nelts > 2 ? &value[2] : NULL,
                                        &lcf->grounds);
}


static char *
ngx_http_fowharimu_issuer(ngx_conf_t *cf, ngx_command_t *cmd, void *conf)
{
    ngx_http_fowharimu_loc_conf_t *lcf = conf;

    char                         *rv;
    ngx_str_t                    *value;
    ngx_uint_t                    i;
    ngx_http_fowharimu_issuer_t  *issuer;

    value = cf->args->elts;

    if (lcf->issuers == NULL) {
        lcf->issuers = ngx_pcalloc(cf->pool,
                                   sizeof(ngx_http_fowharimu_issuers_t));

        if (lcf->issuers == NULL
            || ngx_array_init(&lcf->issuers->all, cf->pool, 2,
                              sizeof(ngx_http_fowharimu_issuer_t))
               != NGX_OK)
        {
            return NGX_CONF_ERROR;
        }
    }

    issuer = lcf->issuers->all.elts;

    for (i = 0; i < lcf->issuers->all.nelts; i++) {

        if (issuer[i].name.len == value[1].len
            && ngx_memcmp(issuer[i].name.data, value[1].data, value[1].len) == 0)
        {
            return "is duplicate";
        }
    }

    issuer = ngx_array_push(&lcf->issuers->all);
    if (issuer == NULL) {
        return NGX_CONF_ERROR;
    }

    ngx_memzero(issuer, sizeof(ngx_http_fowharimu_issuer_t));
    issuer->name = value[1];

    rv = ngx_http_fowharimu_read_policy(cf, &value[2], &issuer->grounds);

    if (rv != NGX_CONF_OK) {
        return rv;
    }

    return ngx_http_fowharimu_read_keys(cf, &value[3],
                                        cf->args->nelts > 4 ? &value[4] : NULL,
                                        &issuer->grounds);
}


/* "jwt_remember off", or a number of tokens and the size of the longest */

static char *
ngx_http_fowharimu_remember(ngx_conf_t *cf, ngx_command_t *cmd, void *conf)
{
    ngx_http_fowharimu_loc_conf_t *lcf = conf;

    ssize_t     octets;
    ngx_int_t   tokens;
    ngx_str_t  *value;

    if (lcf->tokens != NGX_CONF_UNSET) {
        return "is duplicate";
    }

    value = cf->args->elts;
    octets = NGX_HTTP_FOWHARIMU_OCTETS;
    tokens = 0;

    if (cf->args->nelts == 3 || ngx_strcmp(value[1].data, "off") != 0) {

        tokens = ngx_atoi(value[1].data, value[1].len);

        if (cf->args->nelts == 3) {
            octets = ngx_parse_size(&value[2]);
        }
    }

    if (tokens == NGX_ERROR || octets == NGX_ERROR) {
        ngx_conf_log_error(NGX_LOG_EMERG, cf, 0,
                           "\"jwt_remember\" takes \"off\", or a number of "
                           "tokens and the size of the longest");
        return NGX_CONF_ERROR;
    }

    lcf->tokens = tokens;
    lcf->octets = octets;

    return NGX_CONF_OK;
}


static char *
ngx_http_fowharimu_set_answer(ngx_conf_t *cf, ngx_command_t *cmd, void *conf)
{
    ngx_http_fowharimu_loc_conf_t *lcf = conf;

    ngx_str_t                 *value;
    ngx_http_core_loc_conf_t  *clcf;

    if (lcf->answer) {
        return "is duplicate";
    }

    clcf = ngx_http_conf_get_module_loc_conf(cf, ngx_http_core_module);

    if (clcf->handler) {
        return "stands beside another directive that answers";
    }

    value = cf->args->elts;

    if (cf->args->nelts == 1 || ngx_strcmp(value[1].data, "204") == 0) {
        lcf->answer = NGX_HTTP_NO_CONTENT;

    } else if (ngx_strcmp(value[1].data, "200") == 0) {
        lcf->answer = NGX_HTTP_OK;

    } else {
        ngx_conf_log_error(NGX_LOG_EMERG, cf, 0,
                           "invalid value \"%V\" in \"jwt_answer\" directive, "
                           "it must be \"200\" or \"204\"", &value[1]);
        return NGX_CONF_ERROR;
    }

    clcf->handler = ngx_http_fowharimu_answer_handler;

    return NGX_CONF_OK;
}
