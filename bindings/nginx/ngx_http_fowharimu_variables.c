
/* The variables $jwt_..., what is made of them, and jwt_claim_set. */

#include "ngx_http_fowharimu.h"


/* a variable that a "map" or another directive defines, as that has it */
typedef struct {
    ngx_http_get_variable_pt  get_handler;
    uintptr_t                 data;
} ngx_http_fowharimu_derived_t;


/* of "jwt_claim_set" */
typedef struct {
    ngx_uint_t                claim;        /* its number */
    ngx_str_t                 otherwise;    /* where it is absent or empty */
} ngx_http_fowharimu_set_t;


static ngx_int_t ngx_http_fowharimu_text_variable(ngx_http_request_t *r,
    ngx_http_variable_value_t *v, uintptr_t data);
static ngx_int_t ngx_http_fowharimu_token_variable(ngx_http_request_t *r,
    ngx_http_variable_value_t *v, uintptr_t data);
static ngx_int_t ngx_http_fowharimu_number_variable(ngx_http_request_t *r,
    ngx_http_variable_value_t *v, uintptr_t data);
static ngx_int_t ngx_http_fowharimu_claim_variable(ngx_http_request_t *r,
    ngx_http_variable_value_t *v, uintptr_t data);
static ngx_int_t ngx_http_fowharimu_set_variable(ngx_http_request_t *r,
    ngx_http_variable_value_t *v, uintptr_t data);
static ngx_int_t ngx_http_fowharimu_derived_variable(ngx_http_request_t *r,
    ngx_http_variable_value_t *v, uintptr_t data);
static ngx_http_fowharimu_judged_t *ngx_http_fowharimu_read_judged(
    ngx_http_request_t *r);
static void ngx_http_fowharimu_set_value(ngx_http_variable_value_t *v,
    ngx_str_t *text);
static ngx_str_t *ngx_http_fowharimu_claim_of(
    ngx_http_fowharimu_judged_t *judged, ngx_uint_t claim);
static ngx_uint_t ngx_http_fowharimu_is_own(ngx_http_variable_t *v);


/* how often a variable of this module was asked for, by this worker */
static ngx_uint_t  ngx_http_fowharimu_reads;


static ngx_http_variable_t  ngx_http_fowharimu_vars[] = {

    { ngx_string("jwt_verdict"), NULL, ngx_http_fowharimu_text_variable,
      offsetof(ngx_http_fowharimu_judged_t, verdict),
      NGX_HTTP_VAR_NOCACHEABLE, 0 },

    { ngx_string("jwt_fault"), NULL, ngx_http_fowharimu_text_variable,
      offsetof(ngx_http_fowharimu_judged_t, fault),
      NGX_HTTP_VAR_NOCACHEABLE, 0 },

    { ngx_string("jwt_payload"), NULL, ngx_http_fowharimu_text_variable,
      offsetof(ngx_http_fowharimu_judged_t, payload),
      NGX_HTTP_VAR_NOCACHEABLE, 0 },

    { ngx_string("jwt_issued"), NULL, ngx_http_fowharimu_text_variable,
      offsetof(ngx_http_fowharimu_judged_t, issued),
      NGX_HTTP_VAR_NOCACHEABLE, 0 },

    { ngx_string("jwt_token"), NULL, ngx_http_fowharimu_token_variable, 0,
      NGX_HTTP_VAR_NOCACHEABLE, 0 },

    { ngx_string("jwt_tries"), NULL, ngx_http_fowharimu_number_variable, 0,
      NGX_HTTP_VAR_NOCACHEABLE, 0 },

    { ngx_string("jwt_work"), NULL, ngx_http_fowharimu_number_variable, 1,
      NGX_HTTP_VAR_NOCACHEABLE, 0 },

    { ngx_string("jwt_remembered"), NULL, ngx_http_fowharimu_number_variable, 2,
      NGX_HTTP_VAR_NOCACHEABLE, 0 },

    { ngx_string(NGX_HTTP_FOWHARIMU_PREFIX), NULL,
      ngx_http_fowharimu_claim_variable, 0,
      NGX_HTTP_VAR_NOCACHEABLE|NGX_HTTP_VAR_PREFIX, 0 },

      ngx_http_null_variable
};


static ngx_int_t
ngx_http_fowharimu_text_variable(ngx_http_request_t *r,
    ngx_http_variable_value_t *v, uintptr_t data)
{
    ngx_http_fowharimu_judged_t  *judged;

    judged = ngx_http_fowharimu_read_judged(r);

    ngx_http_fowharimu_set_value(v, judged ? (ngx_str_t *)
                                             ((char *) judged + data) : NULL);

    return NGX_OK;
}


/* the token that was accepted; as a header's value it has no line's end */

static ngx_int_t
ngx_http_fowharimu_token_variable(ngx_http_request_t *r,
    ngx_http_variable_value_t *v, uintptr_t data)
{
    ngx_str_t                    *token;
    ngx_uint_t                    i;
    ngx_http_fowharimu_judged_t  *judged;

    judged = ngx_http_fowharimu_read_judged(r);
    token = judged && judged->status == NGX_OK ? &judged->token : NULL;

    for (i = 0; token && i < token->len; i++) {
        if (token->data[i] < 0x20 || token->data[i] == 0x7f) {
            token = NULL;
        }
    }

    ngx_http_fowharimu_set_value(v, token);

    return NGX_OK;
}


static ngx_int_t
ngx_http_fowharimu_number_variable(ngx_http_request_t *r,
    ngx_http_variable_value_t *v, uintptr_t data)
{
    uint64_t                      number;
    ngx_str_t                     text;
    ngx_http_fowharimu_judged_t  *judged;

    judged = ngx_http_fowharimu_read_judged(r);

    if (judged == NULL) {
        ngx_http_fowharimu_set_value(v, NULL);
        return NGX_OK;
    }

    number = data == 0 ? judged->tries
             : data == 1 ? judged->work : judged->remembered;

    text.data = judged->digits[data];
    text.len = ngx_sprintf(text.data, "%uL", number) - text.data;

    ngx_http_fowharimu_set_value(v, &text);

    return NGX_OK;
}


/* $jwt_claim_NAME */

static ngx_int_t
ngx_http_fowharimu_claim_variable(ngx_http_request_t *r,
    ngx_http_variable_value_t *v, uintptr_t data)
{
    ngx_str_t                       *var, *name;
    ngx_uint_t                       i;
    ngx_http_fowharimu_main_conf_t  *mcf;

    var = (ngx_str_t *) data;

    mcf = ngx_http_get_module_main_conf(r, ngx_http_fowharimu_module);
    name = mcf->claims.elts;

    for (i = 0; i < mcf->claims.nelts; i++) {

        if (name[i].len == var->len - (sizeof(NGX_HTTP_FOWHARIMU_PREFIX) - 1)
            && ngx_memcmp(name[i].data,
                          var->data + sizeof(NGX_HTTP_FOWHARIMU_PREFIX) - 1,
                          name[i].len)
               == 0)
        {
            break;
        }
    }

    ngx_http_fowharimu_set_value(v, i == mcf->claims.nelts ? NULL
           : ngx_http_fowharimu_claim_of(ngx_http_fowharimu_read_judged(r), i));

    return NGX_OK;
}


static ngx_int_t
ngx_http_fowharimu_set_variable(ngx_http_request_t *r,
    ngx_http_variable_value_t *v, uintptr_t data)
{
    ngx_http_fowharimu_set_t *set = (ngx_http_fowharimu_set_t *) data;

    ngx_str_t  *claim;

    claim = ngx_http_fowharimu_claim_of(ngx_http_fowharimu_read_judged(r),
                                        set->claim);

    if (set->otherwise.data && (claim == NULL || claim->len == 0)) {
        claim = &set->otherwise;
    }

    ngx_http_fowharimu_set_value(v, claim);

    return NGX_OK;
}


/*
 * A value that was made of a variable of this module is no more kept than that:
 * a "map" without "volatile" would lend the claims of one token to the requests
 * and subrequests of another.
 */

static ngx_int_t
ngx_http_fowharimu_derived_variable(ngx_http_request_t *r,
    ngx_http_variable_value_t *v, uintptr_t data)
{
    ngx_http_fowharimu_derived_t *derived = (void *) data;

    ngx_int_t   rc;
    ngx_uint_t  reads;

    reads = ngx_http_fowharimu_reads;

    rc = derived->get_handler(r, v, derived->data);

    if (reads != ngx_http_fowharimu_reads) {
        v->no_cacheable = 1;
    }

    return rc;
}


static ngx_http_fowharimu_judged_t *
ngx_http_fowharimu_read_judged(ngx_http_request_t *r)
{
    ngx_http_fowharimu_reads++;

    return ngx_http_fowharimu_judged(r);
}


/* of a text that is absent there is no value */

static void
ngx_http_fowharimu_set_value(ngx_http_variable_value_t *v, ngx_str_t *text)
{
    if (text == NULL || text->data == NULL) {
        v->not_found = 1;
        return;
    }

    v->len = text->len;
    v->valid = 1;
    v->no_cacheable = 0;
    v->not_found = 0;
    v->data = text->data;
}


static ngx_str_t *
ngx_http_fowharimu_claim_of(ngx_http_fowharimu_judged_t *judged,
    ngx_uint_t claim)
{
    return judged && judged->claims ? &judged->claims[claim] : NULL;
}


/* what was read for another request, or before the token was judged anew */

void
ngx_http_fowharimu_forget_variables(ngx_http_request_t *r)
{
    ngx_uint_t                      *index, i;
    ngx_http_fowharimu_main_conf_t  *mcf;

    mcf = ngx_http_get_module_main_conf(r, ngx_http_fowharimu_module);
    index = mcf->indexes.elts;

    for (i = 0; i < mcf->indexes.nelts; i++) {

        if (r->variables[index[i]].no_cacheable) {
            r->variables[index[i]].valid = 0;
            r->variables[index[i]].not_found = 0;
        }
    }
}


/* notes the module's variables with what may be made of them, and the claims */

ngx_int_t
ngx_http_fowharimu_note_variables(ngx_cycle_t *cycle)
{
    ngx_str_t                        name;
    ngx_uint_t                      *index, i;
    ngx_http_variable_t             *v;
    ngx_http_core_main_conf_t       *cmcf;
    ngx_http_fowharimu_main_conf_t  *mcf;

    cmcf = ngx_http_cycle_get_module_main_conf(cycle, ngx_http_core_module);
    mcf = ngx_http_cycle_get_module_main_conf(cycle, ngx_http_fowharimu_module);

    if (cmcf == NULL || mcf == NULL || !mcf->enabled) {
        return NGX_OK;
    }

    v = cmcf->variables.elts;

    for (i = 0; i < cmcf->variables.nelts; i++) {

        if (v[i].get_handler == ngx_http_fowharimu_claim_variable) {
            name = v[i].name;
            name.len -= sizeof(NGX_HTTP_FOWHARIMU_PREFIX) - 1;
            name.data += sizeof(NGX_HTTP_FOWHARIMU_PREFIX) - 1;

            if (ngx_http_fowharimu_note_claim(mcf, &name) == NGX_ERROR) {
                return NGX_ERROR;
            }
        }

        if (v[i].get_handler == ngx_http_fowharimu_text_variable
            && v[i].data == offsetof(ngx_http_fowharimu_judged_t, payload))
        {
            mcf->payload = 1;
        }

        if (!ngx_http_fowharimu_is_own(&v[i])
            && v[i].get_handler != ngx_http_fowharimu_derived_variable)
        {
            continue;
        }

        index = ngx_array_push(&mcf->indexes);
        if (index == NULL) {
            return NGX_ERROR;
        }

        *index = i;
    }

    return NGX_OK;
}


static ngx_uint_t
ngx_http_fowharimu_is_own(ngx_http_variable_t *v)
{
    return v->get_handler == ngx_http_fowharimu_text_variable
           || v->get_handler == ngx_http_fowharimu_token_variable
           || v->get_handler == ngx_http_fowharimu_number_variable
           || v->get_handler == ngx_http_fowharimu_claim_variable
           || v->get_handler == ngx_http_fowharimu_set_variable;
}


/*
 * Puts ngx_http_fowharimu_derived_variable() before the variables that
 * directives define, but for those that are set by a function, which is handed
 * what else is noted of the variable.
 */

ngx_int_t
ngx_http_fowharimu_derive_variables(ngx_conf_t *cf)
{
    ngx_uint_t                     i;
    ngx_hash_key_t                *key;
    ngx_http_variable_t           *v;
    ngx_http_core_main_conf_t     *cmcf;
    ngx_http_fowharimu_derived_t  *derived;

    cmcf = ngx_http_conf_get_module_main_conf(cf, ngx_http_core_module);
    key = cmcf->variables_keys->keys.elts;

    for (i = 0; i < cmcf->variables_keys->keys.nelts; i++) {
        v = key[i].value;

        if (v->get_handler == NULL || v->set_handler
            || !(v->flags & NGX_HTTP_VAR_CHANGEABLE)
            || (v->flags & NGX_HTTP_VAR_NOCACHEABLE)
            || ngx_http_fowharimu_is_own(v))
        {
            continue;
        }

        derived = ngx_palloc(cf->pool, sizeof(ngx_http_fowharimu_derived_t));
        if (derived == NULL) {
            return NGX_ERROR;
        }

        derived->get_handler = v->get_handler;
        derived->data = v->data;

        v->get_handler = ngx_http_fowharimu_derived_variable;
        v->data = (uintptr_t) derived;
    }

    return NGX_OK;
}


/* the number of a claim among those that are kept of a token */

ngx_int_t
ngx_http_fowharimu_note_claim(ngx_http_fowharimu_main_conf_t *mcf,
    ngx_str_t *name)
{
    ngx_str_t   *noted;
    ngx_uint_t   i;

    noted = mcf->claims.elts;

    for (i = 0; i < mcf->claims.nelts; i++) {

        if (noted[i].len == name->len
            && ngx_memcmp(noted[i].data, name->data, name->len) == 0)
        {
            return i;
        }
    }

    noted = ngx_array_push(&mcf->claims);
    if (noted == NULL) {
        return NGX_ERROR;
    }

    *noted = *name;

    return i;
}


ngx_int_t
ngx_http_fowharimu_add_variables(ngx_conf_t *cf)
{
    ngx_http_variable_t  *var, *v;

    for (v = ngx_http_fowharimu_vars; v->name.len; v++) {
        var = ngx_http_add_variable(cf, &v->name, v->flags);
        if (var == NULL) {
            return NGX_ERROR;
        }

        var->get_handler = v->get_handler;
        var->data = v->data;
    }

    return NGX_OK;
}


/* "jwt_claim_set $variable claim [default]" */

char *
ngx_http_fowharimu_claim_set(ngx_conf_t *cf, ngx_command_t *cmd, void *conf)
{
    ngx_http_fowharimu_main_conf_t *mcf = conf;

    ngx_int_t                  claim;
    ngx_str_t                 *value;
    ngx_http_variable_t       *v;
    ngx_http_fowharimu_set_t  *set;

    value = cf->args->elts;

    if (value[1].len < 2 || value[1].data[0] != '$') {
        ngx_conf_log_error(NGX_LOG_EMERG, cf, 0,
                           "invalid variable name \"%V\"", &value[1]);
        return NGX_CONF_ERROR;
    }

    value[1].len--;
    value[1].data++;

    v = ngx_http_add_variable(cf, &value[1], NGX_HTTP_VAR_NOCACHEABLE);
    if (v == NULL) {
        return NGX_CONF_ERROR;
    }

    set = ngx_pcalloc(cf->pool, sizeof(ngx_http_fowharimu_set_t));
    claim = ngx_http_fowharimu_note_claim(mcf, &value[2]);

    if (set == NULL || claim == NGX_ERROR) {
        return NGX_CONF_ERROR;
    }

    set->claim = claim;

    if (cf->args->nelts > 3) {
        set->otherwise = value[3];
    }

    v->get_handler = ngx_http_fowharimu_set_variable;
    v->data = (uintptr_t) set;

    return NGX_CONF_OK;
}
