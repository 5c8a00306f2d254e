
/* What becomes of a request: its token, the verdict, the rules, the answer. */

#include "ngx_http_fowharimu.h"


static ngx_int_t ngx_http_fowharimu_is_accepted(ngx_http_request_t *r);
static void ngx_http_fowharimu_judge(ngx_http_request_t *r,
    ngx_http_fowharimu_loc_conf_t *lcf, ngx_http_fowharimu_ctx_t *ctx);
static ngx_uint_t ngx_http_fowharimu_is_judged_so(
    ngx_http_fowharimu_judged_t *judged, ngx_http_fowharimu_loc_conf_t *lcf,
    ngx_int_t found, ngx_str_t *token);
static ngx_uint_t ngx_http_fowharimu_is_same_conf(
    ngx_http_fowharimu_loc_conf_t *one, ngx_http_fowharimu_loc_conf_t *other);
static ngx_int_t ngx_http_fowharimu_verdict(ngx_http_request_t *r,
    ngx_http_fowharimu_loc_conf_t *lcf, ngx_http_fowharimu_judged_t *judged);
static ngx_int_t ngx_http_fowharimu_judge_token(ngx_http_request_t *r,
    ngx_http_fowharimu_loc_conf_t *lcf, ngx_http_fowharimu_judged_t *judged);
static ngx_int_t ngx_http_fowharimu_choose(ngx_http_request_t *r,
    ngx_http_fowharimu_loc_conf_t *lcf, ngx_http_fowharimu_judged_t *judged);
static ngx_http_fowharimu_validator_t *ngx_http_fowharimu_validator_of(
    ngx_http_fowharimu_issuers_t *issuers, ngx_str_t *name);
static ngx_int_t ngx_http_fowharimu_accepted(ngx_http_request_t *r,
    ngx_http_fowharimu_loc_conf_t *lcf, ngx_http_fowharimu_judged_t *judged);
static ngx_int_t ngx_http_fowharimu_meets_rules(ngx_http_request_t *r,
    ngx_http_fowharimu_loc_conf_t *lcf, ngx_http_fowharimu_judged_t *judged);
static ngx_int_t ngx_http_fowharimu_taken(ngx_http_request_t *r,
    ngx_http_fowharimu_judged_t *judged);
static void ngx_http_fowharimu_forget(ngx_http_request_t *r,
    ngx_http_fowharimu_judged_t *judged);
static ngx_int_t ngx_http_fowharimu_permit(ngx_http_request_t *r,
    ngx_http_fowharimu_judged_t *judged, ngx_http_fowharimu_rule_t *rule);
static void ngx_http_fowharimu_log_denial(ngx_http_request_t *r,
    ngx_http_fowharimu_judged_t *judged, ngx_http_fowharimu_rule_t *rule,
    uint32_t denial);
static ngx_int_t ngx_http_fowharimu_keep_claims(ngx_http_request_t *r,
    ngx_http_fowharimu_judged_t *judged, ngx_str_t *room);
static ngx_int_t ngx_http_fowharimu_keep_claim(ngx_http_request_t *r,
    ngx_str_t *claim, ngx_str_t *kept);
static ngx_uint_t ngx_http_fowharimu_is_trimmed(ngx_str_t *text);
static ngx_int_t ngx_http_fowharimu_keep_payload(ngx_http_request_t *r,
    ngx_http_fowharimu_judged_t *judged, ngx_str_t *room);
static ngx_int_t ngx_http_fowharimu_claim(
    ngx_http_fowharimu_validator_t *validator, ngx_str_t *name,
    ngx_str_t *claim);
static ngx_int_t ngx_http_fowharimu_read_text(u_char **p, u_char *last,
    ngx_str_t *text);
static ngx_int_t ngx_http_fowharimu_refuse_token(ngx_http_request_t *r,
    ngx_http_fowharimu_judged_t *judged, const char *fault);
static ngx_int_t ngx_http_fowharimu_refuse_for(ngx_http_request_t *r,
    ngx_http_fowharimu_judged_t *judged, uint32_t outcome, const char *fault);
static ngx_int_t ngx_http_fowharimu_answer(ngx_http_fowharimu_judged_t *judged,
    uint32_t outcome);
static ngx_int_t ngx_http_fowharimu_refuse(ngx_http_request_t *r,
    ngx_http_fowharimu_judged_t *judged);
static ngx_table_elt_t *ngx_http_fowharimu_send_challenge(
    ngx_http_request_t *r, ngx_http_fowharimu_judged_t *judged, uint32_t scheme,
    uint32_t challenge);
static ngx_int_t ngx_http_fowharimu_challenge(ngx_http_request_t *r,
    ngx_http_fowharimu_judged_t *judged, uint32_t scheme, uint32_t challenge,
    ngx_str_t *text);
static void ngx_http_fowharimu_drop_challenges(ngx_http_request_t *r);
static ngx_int_t ngx_http_fowharimu_fail(ngx_http_request_t *r,
    ngx_http_fowharimu_judged_t *judged, const char *fault);
static void ngx_http_fowharimu_set_text(ngx_str_t *text, const char *value);
static void ngx_http_fowharimu_cleanup(void *data);


ngx_int_t
ngx_http_fowharimu_access_handler(ngx_http_request_t *r)
{
    ngx_http_fowharimu_ctx_t       *ctx;
    ngx_http_fowharimu_loc_conf_t  *lcf;

    lcf = ngx_http_get_module_loc_conf(r, ngx_http_fowharimu_module);

    if (!lcf->enable) {
        return NGX_DECLINED;
    }

    ctx = ngx_http_fowharimu_own_ctx(r);
    if (ctx == NULL) {
        return NGX_HTTP_INTERNAL_SERVER_ERROR;
    }

    /* (what a variable had judged before: values that are asked may differ) */

    if (lcf->expected || lcf->certificate) {
        ctx->last.conf = NULL;
    }

    ngx_http_fowharimu_judge(r, lcf, ctx);

    if (ctx->last.status == NGX_OK) {
        ctx->last.status = ngx_http_fowharimu_taken(r, &ctx->last);
    }

    if (ctx->last.status != NGX_OK) {
        return ngx_http_fowharimu_refuse(r, &ctx->last);
    }

    ctx->last.passed = 1;

    return NGX_OK;
}


/*
 * nginx takes a subrequest past the access phase.  Here it is judged like any
 * other request, so that a page which is open lends nobody one that isn't.
 */

ngx_int_t
ngx_http_fowharimu_subrequest_handler(ngx_http_request_t *r)
{
    ngx_int_t  rc;

    if (r == r->main) {
        return NGX_DECLINED;
    }

    rc = ngx_http_fowharimu_access_handler(r);

    return rc == NGX_OK ? NGX_DECLINED : rc;
}


/* the content of a location with "jwt_answer", for every method */

ngx_int_t
ngx_http_fowharimu_answer_handler(ngx_http_request_t *r)
{
    ngx_int_t                       rc;
    ngx_str_t                       type;
    ngx_http_complex_value_t        nothing;
    ngx_http_fowharimu_loc_conf_t  *lcf;

    if (!ngx_http_fowharimu_is_accepted(r)) {

        ngx_log_error(NGX_LOG_ERR, r->connection->log, 0,
                      "jwt: \"jwt_answer\" refuses: no token was accepted "
                      "here");

        rc = ngx_http_discard_request_body(r);

        return rc == NGX_OK ? NGX_HTTP_FORBIDDEN : rc;
    }

    lcf = ngx_http_get_module_loc_conf(r, ngx_http_fowharimu_module);

    ngx_str_null(&type);
    ngx_memzero(&nothing, sizeof(ngx_http_complex_value_t));

    return ngx_http_send_response(r, lcf->answer, &type, &nothing);
}


/*
 * Whether the location that answers has accepted the token of this request
 * itself: the module's context is another one for each subrequest, and nginx
 * clears it where a request is redirected within it.
 */

static ngx_int_t
ngx_http_fowharimu_is_accepted(ngx_http_request_t *r)
{
    ngx_http_fowharimu_ctx_t       *ctx;
    ngx_http_fowharimu_loc_conf_t  *lcf;

    ctx = ngx_http_get_module_ctx(r, ngx_http_fowharimu_module);
    lcf = ngx_http_get_module_loc_conf(r, ngx_http_fowharimu_module);

    return ctx && ctx->last.passed && lcf->enable
           && ngx_http_fowharimu_is_same_conf(ctx->last.conf, lcf);
}


/*
 * What is known of the token, for a variable: where it wasn't judged in this
 * location, it is judged now, in whatever phase; but for a request whose headers
 * nginx didn't read to their end, and where the answer has gone.  Of a location
 * where "jwt" is off it is what is known from before, of a subrequest what is
 * known of the main one.
 */

ngx_http_fowharimu_judged_t *
ngx_http_fowharimu_judged(ngx_http_request_t *r)
{
    ngx_http_fowharimu_ctx_t       *ctx;
    ngx_http_fowharimu_loc_conf_t  *lcf;

    lcf = ngx_http_get_module_loc_conf(r, ngx_http_fowharimu_module);

    if (lcf->enable && !r->header_sent
        && r->main->http_state != NGX_HTTP_READING_REQUEST_STATE)
    {
        ctx = ngx_http_fowharimu_own_ctx(r);

        if (ctx == NULL || ctx->under_way) {
            return NULL;
        }

        if (!ctx->last.passed
            || !ngx_http_fowharimu_is_same_conf(ctx->last.conf, lcf))
        {
            ngx_http_fowharimu_judge(r, lcf, ctx);
        }

        return &ctx->last;
    }

    ctx = ngx_http_fowharimu_find_ctx(r, r);

    if ((ctx == NULL || ctx->last.conf == NULL) && r != r->main) {
        ctx = ngx_http_fowharimu_find_ctx(r, r->main);
    }

    return ctx && ctx->last.conf ? &ctx->last : NULL;
}


/* the same, where this location accepts the token; else NULL */

ngx_http_fowharimu_judged_t *
ngx_http_fowharimu_accepted_here(ngx_http_request_t *r,
    ngx_http_fowharimu_loc_conf_t *lcf)
{
    ngx_http_fowharimu_judged_t  *judged;

    judged = lcf->enable ? ngx_http_fowharimu_judged(r) : NULL;

    if (judged && !judged->passed
        && (lcf->once || (judged->scheme == FOW_DPOP && lcf->proof_once)))
    {
        return NULL;
    }

    return judged && judged->status == NGX_OK
           && ngx_http_fowharimu_is_same_conf(judged->conf, lcf)
           ? judged : NULL;
}


/* judges the token of a request, unless it was judged so within this second */

static void
ngx_http_fowharimu_judge(ngx_http_request_t *r,
    ngx_http_fowharimu_loc_conf_t *lcf, ngx_http_fowharimu_ctx_t *ctx)
{
    uint32_t                      scheme;
    ngx_int_t                     found;
    ngx_str_t                     token;
    ngx_http_fowharimu_judged_t  *judged;

    judged = &ctx->last;

    /* (the token may be a variable that asks for what is known of the token) */

    ctx->under_way = 1;
    found = ngx_http_fowharimu_token(r, lcf, &token, &scheme);
    ctx->under_way = 0;

    if (ngx_http_fowharimu_is_judged_so(judged, lcf, found, &token)) {
        return;
    }

    ngx_memzero(judged, sizeof(ngx_http_fowharimu_judged_t));

    judged->conf = lcf;
    judged->moment = ngx_time();
    judged->found = found;
    judged->scheme = scheme;
    judged->token = token;

    ngx_http_fowharimu_forget_variables(r);

    /* (and so may the values of "jwt_expect" and "jwt_certificate") */

    ctx->under_way = 1;
    judged->status = ngx_http_fowharimu_verdict(r, lcf, judged);
    ctx->under_way = 0;
}


static ngx_uint_t
ngx_http_fowharimu_is_judged_so(ngx_http_fowharimu_judged_t *judged,
    ngx_http_fowharimu_loc_conf_t *lcf, ngx_int_t found, ngx_str_t *token)
{
    return judged->conf
           && ngx_http_fowharimu_is_same_conf(judged->conf, lcf)
           && judged->moment == ngx_time()
           && judged->found == found
           && judged->token.len == token->len
           && (token->len == 0
               || ngx_memcmp(judged->token.data, token->data, token->len) == 0);
}


/* whether a token is judged alike by both, as within a location and its "if" */

static ngx_uint_t
ngx_http_fowharimu_is_same_conf(ngx_http_fowharimu_loc_conf_t *one,
    ngx_http_fowharimu_loc_conf_t *other)
{
    return one == other
           || (one->grounds.validator == other->grounds.validator
               && one->issuers == other->issuers
               && one->token == other->token
               && one->rule == other->rule
               && one->demands == other->demands
               && one->expected == other->expected
               && one->once == other->once
               && ngx_http_fowharimu_is_same_possession(one, other)
               && one->issue == other->issue
               && one->issued == other->issued);
}


static ngx_int_t
ngx_http_fowharimu_verdict(ngx_http_request_t *r,
    ngx_http_fowharimu_loc_conf_t *lcf, ngx_http_fowharimu_judged_t *judged)
{
    ngx_uint_t  kind;

    static const char  *twice[] = {
        "HeaderTwice", "HeaderTwice", "CookieTwice", "ArgumentTwice"
    };

    kind = lcf->token ? lcf->token->kind : NGX_HTTP_FOWHARIMU_BEARER;

    switch (judged->found) {

    case NGX_OK:
        return ngx_http_fowharimu_judge_token(r, lcf, judged);

    case NGX_BUSY:
        return ngx_http_fowharimu_refuse_token(r, judged, "Form");

    case NGX_DECLINED:
        ngx_str_set(&judged->verdict, "absent");
        return ngx_http_fowharimu_answer(judged, FOW_NO_TOKEN);

    case NGX_ABORT:
        ngx_str_set(&judged->verdict, "refused");
        ngx_http_fowharimu_set_text(&judged->fault, twice[kind]);
        return ngx_http_fowharimu_answer(judged, FOW_SEVERAL);

    default:
        return ngx_http_fowharimu_fail(r, judged, "NoVariable");
    }
}


static ngx_int_t
ngx_http_fowharimu_judge_token(ngx_http_request_t *r,
    ngx_http_fowharimu_loc_conf_t *lcf, ngx_http_fowharimu_judged_t *judged)
{
    ngx_int_t                        rc;
    const char                      *fault;
    fow_report                       report;
    ngx_http_fowharimu_validator_t  *validator;

    fault = ngx_http_fowharimu_find_proof(r, judged);

    if (fault) {
        return ngx_http_fowharimu_refuse_for(r, judged, FOW_PROOF_REFUSED,
                                             fault);
    }

    rc = ngx_http_fowharimu_choose(r, lcf, judged);

    if (rc == NGX_DECLINED) {
        return ngx_http_fowharimu_refuse_token(r, judged,
                                            fow_fault_name(FOW_CLAIM_ISSUER));
    }

    if (rc != NGX_OK) {
        return ngx_http_fowharimu_fail(r, judged, "OutOfMemory");
    }

    validator = judged->validator;
    ngx_memzero(&report, sizeof(fow_report));

    (void) fow_judge(&validator->handle, judged->token.data,
                     judged->token.len, (int64_t) judged->moment, &report);

    /* the report of a token that is remembered has what was paid before */

    judged->remembered = fow_remembered(&validator->handle);
    judged->tries = judged->remembered ? 0 : report.tries;
    judged->work = judged->remembered ? 0 : report.work;

    switch (report.verdict) {

    case FOW_OK:
        return ngx_http_fowharimu_accepted(r, lcf, judged);

    case FOW_REFUSED:
        return ngx_http_fowharimu_refuse_token(r, judged,
                                               fow_fault_name(report.fault));

    case FOW_OUT_OF_MEMORY:
        return ngx_http_fowharimu_fail(r, judged, "OutOfMemory");

    default:
        return ngx_http_fowharimu_fail(r, judged, "NotOpen");
    }
}


/*
 * The validator that judges the token.  With "jwt_issuer" it is that of the
 * issuer which the token names, and nobody has verified: its policy allows that
 * issuer alone.  What is no token is judged by the reader, which says why.
 * NGX_DECLINED: there is none of that issuer.
 */

static ngx_int_t
ngx_http_fowharimu_choose(ngx_http_request_t *r,
    ngx_http_fowharimu_loc_conf_t *lcf, ngx_http_fowharimu_judged_t *judged)
{
    uint32_t                       status;
    ngx_str_t                      name, *token;
    ngx_http_fowharimu_issuers_t  *issuers;

    token = &judged->token;
    issuers = lcf->issuers;

    if (issuers == NULL) {
        judged->validator = lcf->grounds.validator;
        return NGX_OK;
    }

    /* an issuer's text is no longer than the token that it is in */

    name.len = 0;
    name.data = ngx_pnalloc(r->pool, token->len + 1);
    if (name.data == NULL) {
        return NGX_ERROR;
    }

    status = fow_unverified_issuer(&issuers->reader->handle, token->data,
                                   token->len, name.data, token->len + 1,
                                   &name.len);

    judged->validator = status == FOW_ABSENT ? issuers->reader
                     : status == FOW_OK
                     ? ngx_http_fowharimu_validator_of(issuers, &name) : NULL;

    (void) ngx_pfree(r->pool, name.data);

    if (judged->validator) {
        return NGX_OK;
    }

    return status == FOW_OK || status == FOW_UNNAMED ? NGX_DECLINED : NGX_ERROR;
}


static ngx_http_fowharimu_validator_t *
ngx_http_fowharimu_validator_of(ngx_http_fowharimu_issuers_t *issuers,
    ngx_str_t *name)
{
    ngx_uint_t                    i;
    ngx_http_fowharimu_issuer_t  *issuer;

    issuer = issuers->all.elts;

    for (i = 0; i < issuers->all.nelts; i++) {

        if (issuer[i].name.len == name->len
            && ngx_memcmp(issuer[i].name.data, name->data, name->len) == 0)
        {
            return issuer[i].grounds.validator;
        }
    }

    return NULL;
}


/* of a token that the validator has accepted just now */

static ngx_int_t
ngx_http_fowharimu_accepted(ngx_http_request_t *r,
    ngx_http_fowharimu_loc_conf_t *lcf, ngx_http_fowharimu_judged_t *judged)
{
    uint32_t                         outcome, taken;
    ngx_int_t                        rc;
    ngx_str_t                        room;
    const char                      *fault;
    ngx_http_fowharimu_main_conf_t  *mcf;

    mcf = ngx_http_get_module_main_conf(r, ngx_http_fowharimu_module);

    rc = ngx_http_fowharimu_meets_rules(r, lcf, judged);

    if (rc != NGX_OK) {
        return rc;
    }

    rc = ngx_http_fowharimu_is_expected(r, lcf, judged);

    if (rc != NGX_OK) {
        return rc == NGX_DECLINED
               ? ngx_http_fowharimu_refuse_token(r, judged, "NotExpected")
               : ngx_http_fowharimu_fail(r, judged, "OutOfMemory");
    }

    outcome = ngx_http_fowharimu_held(r, lcf, judged, &fault);

    if (outcome != FOW_ADMITTED) {
        return outcome == FOW_UNANSWERED
               ? ngx_http_fowharimu_fail(r, judged, fault)
               : ngx_http_fowharimu_refuse_for(r, judged, outcome, fault);
    }

    taken = lcf->once ? ngx_http_fowharimu_entry(judged) : FOW_TAKEN_NEW;

    if (taken != FOW_TAKEN_NEW) {
        return ngx_http_fowharimu_refuse_token(r, judged,
                                         ngx_http_fowharimu_taken_name(taken));
    }

    fault = lcf->issue ? ngx_http_fowharimu_issue(r, lcf, judged) : NULL;

    if (fault) {
        return ngx_http_fowharimu_fail(r, judged, fault);
    }

    /* without room where nothing names a claim or the payload */

    if (mcf->claims.nelts == 0 && !mcf->payload) {
        ngx_str_set(&judged->verdict, "accepted");
        return NGX_OK;
    }

    /* a claim's compact text is no longer than the payload that it is in */

    room.len = judged->token.len + NGX_INT64_LEN;
    room.data = ngx_pnalloc(r->pool, room.len);
    if (room.data == NULL) {
        return ngx_http_fowharimu_fail(r, judged, "OutOfMemory");
    }

    if (ngx_http_fowharimu_keep_claims(r, judged, &room) != NGX_OK
        || ngx_http_fowharimu_keep_payload(r, judged, &room) != NGX_OK)
    {
        return ngx_http_fowharimu_fail(r, judged, "OutOfMemory");
    }

    (void) ngx_pfree(r->pool, room.data);

    ngx_str_set(&judged->verdict, "accepted");

    return NGX_OK;
}


/*
 * Of a token that is accepted, in the access phase: its proof is taken, and it
 * itself last, so that a proof that came before uses up no token.
 */

static ngx_int_t
ngx_http_fowharimu_taken(ngx_http_request_t *r,
    ngx_http_fowharimu_judged_t *judged)
{
    uint32_t     taken, of_proof;
    const char  *fault;

    taken = FOW_TAKEN_NEW;
    of_proof = judged->scheme == FOW_DPOP && judged->conf->proof_once;

    if (of_proof) {
        taken = ngx_http_fowharimu_take_proof(r, judged);
    }

    if (taken == FOW_TAKEN_NEW && judged->conf->once) {
        of_proof = 0;
        taken = ngx_http_fowharimu_take(r, judged);
    }

    if (taken == FOW_TAKEN_NEW) {
        return NGX_OK;
    }

    ngx_http_fowharimu_forget(r, judged);

    fault = ngx_http_fowharimu_taken_name(taken);

    return taken == NGX_HTTP_FOWHARIMU_NO_MEMORY
           ? ngx_http_fowharimu_fail(r, judged, fault)
           : ngx_http_fowharimu_refuse_for(r, judged,
                            fow_taken_outcome(of_proof, FOW_REFUSED, taken),
                            fault);
}


/* what was made of a token that isn't accepted any longer */

static void
ngx_http_fowharimu_forget(ngx_http_request_t *r,
    ngx_http_fowharimu_judged_t *judged)
{
    ngx_http_fowharimu_forget_variables(r);

    judged->claims = NULL;
    ngx_str_null(&judged->payload);
    ngx_str_null(&judged->issued);
}


static ngx_int_t
ngx_http_fowharimu_meets_rules(ngx_http_request_t *r,
    ngx_http_fowharimu_loc_conf_t *lcf, ngx_http_fowharimu_judged_t *judged)
{
    ngx_int_t                    rc;
    ngx_uint_t                   i;
    ngx_http_fowharimu_rule_t  **demand;

    if (lcf->rule) {
        rc = ngx_http_fowharimu_permit(r, judged, lcf->rule);

        if (rc != NGX_OK) {
            return rc;
        }
    }

    if (lcf->demands == NULL) {
        return NGX_OK;
    }

    demand = lcf->demands->elts;

    for (i = 0; i < lcf->demands->nelts; i++) {
        rc = ngx_http_fowharimu_permit(r, judged, demand[i]);

        if (rc != NGX_OK) {
            return rc;
        }
    }

    return NGX_OK;
}


/* whether the claims of that token meet a rule: the library says so */

static ngx_int_t
ngx_http_fowharimu_permit(ngx_http_request_t *r,
    ngx_http_fowharimu_judged_t *judged, ngx_http_fowharimu_rule_t *rule)
{
    uint32_t  denial;

    denial = FOW_NO_FAULT;

    switch (fow_denied(&judged->validator->handle, &rule->handle, &denial)) {

    case FOW_OK:
        return NGX_OK;

    case FOW_DENIED:
        break;

    default:
        return ngx_http_fowharimu_fail(r, judged, "NotOpen");
    }

    ngx_str_set(&judged->verdict, "forbidden");

    if (rule->claim.data == NULL) {
        ngx_http_fowharimu_set_text(&judged->fault, fow_fault_name(denial));
    }

    ngx_http_fowharimu_log_denial(r, judged, rule, denial);

    judged->scopes = &rule->scopes;

    return ngx_http_fowharimu_answer(judged,
                                     denial == FOW_DENIED_SCOPE_MISSING
                                     ? FOW_SCOPE_MISSING : FOW_NOT_GRANTED);
}


static void
ngx_http_fowharimu_log_denial(ngx_http_request_t *r,
    ngx_http_fowharimu_judged_t *judged, ngx_http_fowharimu_rule_t *rule,
    uint32_t denial)
{
    size_t     len;
    u_char     room[256];
    ngx_str_t  name;

    if (rule->claim.data) {
        ngx_log_error(NGX_LOG_INFO, r->connection->log, 0,
                      "jwt: the claim \"%V\" isn't as \"jwt_require\" asks",
                      &rule->claim);
        return;
    }

    len = 0;

    /* (a longer name is left out) */

    if (fow_denied_name(&judged->validator->handle, &rule->handle, room,
                        sizeof(room), &len)
        != FOW_OK)
    {
        len = 0;
    }

    name.len = len;
    name.data = room;

    ngx_log_error(NGX_LOG_INFO, r->connection->log, 0,
                  "jwt: the token is denied: %s \"%V\"",
                  fow_fault_name(denial), &name);
}


/*
 * The claims that variables name are kept with the request: the validator may
 * have judged another one when they are asked for.
 */

static ngx_int_t
ngx_http_fowharimu_keep_claims(ngx_http_request_t *r,
    ngx_http_fowharimu_judged_t *judged, ngx_str_t *room)
{
    ngx_int_t                        rc;
    ngx_str_t                       *name, claim;
    ngx_uint_t                       i;
    ngx_http_fowharimu_main_conf_t  *mcf;

    mcf = ngx_http_get_module_main_conf(r, ngx_http_fowharimu_module);

    if (mcf->claims.nelts == 0) {
        return NGX_OK;
    }

    judged->claims = ngx_pcalloc(r->pool,
                                 mcf->claims.nelts * sizeof(ngx_str_t));
    if (judged->claims == NULL) {
        return NGX_ERROR;
    }

    name = mcf->claims.elts;

    for (i = 0; i < mcf->claims.nelts; i++) {
        claim = *room;
        rc = ngx_http_fowharimu_claim(judged->validator, &name[i], &claim);

        if (rc == NGX_OK) {
            rc = ngx_http_fowharimu_keep_claim(r, &claim, &judged->claims[i]);
        }

        if (rc == NGX_ERROR) {
            judged->claims = NULL;
            return NGX_ERROR;
        }
    }

    return NGX_OK;
}


/*
 * A text is kept without its quotation marks.  It isn't where it has a control
 * character, which would break a header, or a space at an end, which is no part
 * of a header's value (RFC 9110, section 5.5): it would arrive as another text.
 * A list in JSON has brackets at its ends, and its control characters escaped,
 * but for 0x7f, which breaks no header.
 */

static ngx_int_t
ngx_http_fowharimu_keep_claim(ngx_http_request_t *r, ngx_str_t *claim,
    ngx_str_t *kept)
{
    u_char     *p;
    ngx_str_t   text;

    text = *claim;
    p = claim->data;

    if (*p == '"') {

        if (ngx_http_fowharimu_read_text(&p, p + claim->len, &text) != NGX_OK) {
            return NGX_DECLINED;
        }

        if (!ngx_http_fowharimu_is_trimmed(&text)) {
            return NGX_DECLINED;
        }
    }

    kept->data = ngx_pstrdup(r->pool, &text);
    if (kept->data == NULL) {
        return NGX_ERROR;
    }

    kept->len = text.len;

    return NGX_OK;
}


/*
 * Whether a text has no space at an end, and none of the signs that Unicode has
 * for spaces and ends of lines, which some readers take away as well.
 */

static ngx_uint_t
ngx_http_fowharimu_is_trimmed(ngx_str_t *text)
{
    size_t      len;
    u_char     *last;
    ngx_uint_t  i;

    static const char  *spaces[] = {
        " ", "\302\205", "\302\240", "\341\232\200", "\342\200\200",
        "\342\200\201", "\342\200\202", "\342\200\203", "\342\200\204",
        "\342\200\205", "\342\200\206", "\342\200\207", "\342\200\210",
        "\342\200\211", "\342\200\212", "\342\200\213", "\342\200\250",
        "\342\200\251", "\342\200\257", "\342\201\237", "\343\200\200",
        "\357\273\277"
    };

    last = text->data + text->len;

    for (i = 0; i < sizeof(spaces) / sizeof(spaces[0]); i++) {
        len = ngx_strlen(spaces[i]);

        if (text->len >= len
            && (ngx_memcmp(text->data, spaces[i], len) == 0
                || ngx_memcmp(last - len, spaces[i], len) == 0))
        {
            return 0;
        }
    }

    return 1;
}


/* the octets of the payload, which the token may spell otherwise */

static ngx_int_t
ngx_http_fowharimu_keep_payload(ngx_http_request_t *r,
    ngx_http_fowharimu_judged_t *judged, ngx_str_t *room)
{
    size_t                           len;
    ngx_str_t                        payload, kept;
    ngx_http_fowharimu_main_conf_t  *mcf;

    mcf = ngx_http_get_module_main_conf(r, ngx_http_fowharimu_module);

    if (!mcf->payload) {
        return NGX_OK;
    }

    if (fow_accepted_payload(&judged->validator->handle, room->data, room->len,
                             &len)
        != FOW_OK)
    {
        return NGX_ERROR;
    }

    payload.len = len;
    payload.data = room->data;

    kept.data = ngx_pnalloc(r->pool, ngx_base64_encoded_length(len));
    if (kept.data == NULL) {
        return NGX_ERROR;
    }

    ngx_encode_base64url(&kept, &payload);

    judged->payload = kept;

    return NGX_OK;
}


/*
 * Writes a claim of the token that was accepted last into the room that is
 * handed in: a text or a list of texts in JSON, or a number.  NGX_DECLINED:
 * there is none, or it is of another kind.
 */

static ngx_int_t
ngx_http_fowharimu_claim(ngx_http_fowharimu_validator_t *validator,
    ngx_str_t *name, ngx_str_t *claim)
{
    size_t    len;
    int64_t   number;
    uint32_t  status;

    status = fow_claim(&validator->handle, name->data, name->len, claim->data,
                       claim->len, &len);

    if (status == FOW_OK) {
        claim->len = len;
        return NGX_OK;
    }

    if (status != FOW_ABSENT) {
        return NGX_ERROR;
    }

    status = fow_number(&validator->handle, name->data, name->len, &number);

    if (status == FOW_OK) {
        claim->len = ngx_sprintf(claim->data, "%L", number) - claim->data;
        return NGX_OK;
    }

    return status == FOW_ABSENT ? NGX_DECLINED : NGX_ERROR;
}


/*
 * Reads a text in JSON's compact form, at its quotation mark, and undoes its
 * escapes in place.  NGX_DECLINED: it has a control character.
 */

static ngx_int_t
ngx_http_fowharimu_read_text(u_char **p, u_char *last, ngx_str_t *text)
{
    u_char     *src, *dst;
    ngx_int_t   rc;

    rc = NGX_OK;
    src = *p + 1;
    dst = src;
    text->data = src;

    while (src < last && *src != '"') {

        if (*src == '\\' && src + 1 < last) {
            src++;

            if (*src != '"' && *src != '\\') {
                rc = NGX_DECLINED;
            }

        } else if (*src < 0x20 || *src == 0x7f) {
            rc = NGX_DECLINED;
        }

        *dst++ = *src++;
    }

    text->len = dst - text->data;
    *p = src < last ? src + 1 : last;

    return rc;
}


static ngx_int_t
ngx_http_fowharimu_refuse_token(ngx_http_request_t *r,
    ngx_http_fowharimu_judged_t *judged, const char *fault)
{
    return ngx_http_fowharimu_refuse_for(r, judged, FOW_NOT_ACCEPTED, fault);
}


static ngx_int_t
ngx_http_fowharimu_refuse_for(ngx_http_request_t *r,
    ngx_http_fowharimu_judged_t *judged, uint32_t outcome, const char *fault)
{
    ngx_str_set(&judged->verdict, "refused");
    ngx_http_fowharimu_set_text(&judged->fault, fault);

    ngx_log_error(NGX_LOG_INFO, r->connection->log, 0,
                  outcome == FOW_NOT_ACCEPTED
                  ? "jwt: the token is refused: %V"
                  : "jwt: the proof is refused: %V", &judged->fault);

    return ngx_http_fowharimu_answer(judged, outcome);
}


/* what a request is answered of whose token this is known: RFC 6750, RFC 9449 */

static ngx_int_t
ngx_http_fowharimu_answer(ngx_http_fowharimu_judged_t *judged, uint32_t outcome)
{
    fow_reply  reply;

    fow_reply_to((uint32_t) judged->conf->schemes, judged->scheme, outcome,
                 &reply);

    judged->bearer = reply.bearer;
    judged->dpop = reply.dpop;

    return reply.status;
}


/*
 * RFC 6750, section 3, RFC 9449, section 7.1; challenges of an earlier refusal
 * go.  "auth_request" of nginx before 1.23 hands on one of two: that of the
 * scheme which was shown.
 */

static ngx_int_t
ngx_http_fowharimu_refuse(ngx_http_request_t *r,
    ngx_http_fowharimu_judged_t *judged)
{
    ngx_table_elt_t  *bearer, *dpop, *first;

    if (judged->bearer == FOW_NO_CHALLENGE && judged->dpop == FOW_NO_CHALLENGE)
    {
        return judged->status;
    }

    ngx_http_fowharimu_drop_challenges(r);

    bearer = NULL;
    dpop = NULL;

    if (judged->bearer != FOW_NO_CHALLENGE) {
        bearer = ngx_http_fowharimu_send_challenge(r, judged, FOW_BEARER,
                                                   judged->bearer);
        if (bearer == NULL) {
            return NGX_HTTP_INTERNAL_SERVER_ERROR;
        }
    }

    if (judged->dpop != FOW_NO_CHALLENGE) {
        dpop = ngx_http_fowharimu_send_challenge(r, judged, FOW_DPOP,
                                                 judged->dpop);
        if (dpop == NULL) {
            return NGX_HTTP_INTERNAL_SERVER_ERROR;
        }
    }

    first = bearer ? bearer : dpop;

#if (nginx_version >= 1023000)
    if (bearer) {
        bearer->next = dpop;
    }
#else
    if (dpop && judged->scheme == FOW_DPOP) {
        first = dpop;
    }
#endif

    r->headers_out.www_authenticate = first;

    return ngx_http_fowharimu_offer_nonce(r, judged) == NGX_OK
           ? judged->status : NGX_HTTP_INTERNAL_SERVER_ERROR;
}


/* those that this module wrote, by their scheme, with the nonce beside them */

static void
ngx_http_fowharimu_drop_challenges(ngx_http_request_t *r)
{
    ngx_uint_t        i;
    ngx_list_part_t  *part;
    ngx_table_elt_t  *h;

    part = &r->headers_out.headers.part;
    i = 0;

    while ((h = ngx_http_fowharimu_next_header(&part, &i)) != NULL) {

        if (h->hash == 0) {
            continue;
        }

        if (ngx_http_fowharimu_is_header(h, "DPoP-Nonce")
            || (ngx_http_fowharimu_is_header(h, "WWW-Authenticate")
                && (ngx_strncmp(h->value.data, "Bearer ", 7) == 0
                    || ngx_strncmp(h->value.data, "DPoP ", 5) == 0)))
        {
            h->hash = 0;
        }
    }
}


static ngx_table_elt_t *
ngx_http_fowharimu_send_challenge(ngx_http_request_t *r,
    ngx_http_fowharimu_judged_t *judged, uint32_t scheme, uint32_t challenge)
{
    ngx_str_t  text;

    static ngx_str_t  name = ngx_string("WWW-Authenticate");

    return ngx_http_fowharimu_challenge(r, judged, scheme, challenge, &text)
           == NGX_OK ? ngx_http_fowharimu_send_header(r, &name, &text) : NULL;
}


/* NULL: no memory */

ngx_table_elt_t *
ngx_http_fowharimu_send_header(ngx_http_request_t *r, ngx_str_t *name,
    ngx_str_t *value)
{
    ngx_table_elt_t  *h;

    h = ngx_list_push(&r->headers_out.headers);
    if (h == NULL) {
        return NULL;
    }

#if (nginx_version >= 1023000)
    h->next = NULL;
#endif
    h->hash = 1;
    h->key = *name;
    h->value = *value;
    h->lowcase_key = NULL;

    return h;
}


/* the text of a challenge, which the library writes */

static ngx_int_t
ngx_http_fowharimu_challenge(ngx_http_request_t *r,
    ngx_http_fowharimu_judged_t *judged, uint32_t scheme, uint32_t challenge,
    ngx_str_t *text)
{
    size_t     room;
    ngx_str_t  scopes, algs;

    static ngx_str_t  none = ngx_string(""), realm = ngx_string("jwt");

    scopes = judged->scopes ? *judged->scopes : none;
    algs = scheme == FOW_DPOP ? judged->conf->proofs->algs : none;
    room = realm.len + scopes.len + algs.len + NGX_HTTP_FOWHARIMU_BESIDE_QUOTED;

    text->data = ngx_pnalloc(r->pool, room);
    if (text->data == NULL) {
        return NGX_ERROR;
    }

    return fow_challenge(scheme, challenge, realm.data, realm.len, scopes.data,
                         scopes.len, algs.data, algs.len, text->data, room,
                         &text->len)
           == FOW_OK ? NGX_OK : NGX_ERROR;
}


/* no verdict could be had: the request isn't let through */

static ngx_int_t
ngx_http_fowharimu_fail(ngx_http_request_t *r,
    ngx_http_fowharimu_judged_t *judged, const char *fault)
{
    ngx_str_set(&judged->verdict, "failed");
    ngx_http_fowharimu_set_text(&judged->fault, fault);

    ngx_log_error(NGX_LOG_ERR, r->connection->log, 0,
                  "jwt: the token can't be judged: %V", &judged->fault);

    return NGX_HTTP_INTERNAL_SERVER_ERROR;
}


static void
ngx_http_fowharimu_set_text(ngx_str_t *text, const char *value)
{
    text->len = ngx_strlen(value);
    text->data = (u_char *) value;
}


/* what is known of a request's token, and of what goes on; NULL: no memory */

ngx_http_fowharimu_ctx_t *
ngx_http_fowharimu_own_ctx(ngx_http_request_t *r)
{
    ngx_pool_cleanup_t        *cln;
    ngx_http_fowharimu_ctx_t  *ctx;

    ctx = ngx_http_get_module_ctx(r, ngx_http_fowharimu_module);

    if (ctx) {
        return ctx;
    }

    ctx = ngx_http_fowharimu_find_ctx(r, r);

    if (ctx == NULL) {
        cln = ngx_pool_cleanup_add(r->pool, sizeof(ngx_http_fowharimu_ctx_t));
        if (cln == NULL) {
            return NULL;
        }

        cln->handler = ngx_http_fowharimu_cleanup;
        ctx = cln->data;

        ngx_memzero(ctx, sizeof(ngx_http_fowharimu_ctx_t));
        ctx->request = r;
    }

    /* (a location before an internal redirect may have let it through) */

    ctx->last.passed = 0;

    ngx_http_set_ctx(r, ctx, ngx_http_fowharimu_module);

    return ctx;
}


/* an internal redirect clears module contexts; the pool's cleanups stay */

ngx_http_fowharimu_ctx_t *
ngx_http_fowharimu_find_ctx(ngx_http_request_t *r, ngx_http_request_t *owner)
{
    ngx_pool_cleanup_t        *cln;
    ngx_http_fowharimu_ctx_t  *ctx;

    for (cln = r->pool->cleanup; cln; cln = cln->next) {

        if (cln->handler != ngx_http_fowharimu_cleanup) {
            continue;
        }

        ctx = cln->data;

        if (ctx->request == owner) {
            return ctx;
        }
    }

    return NULL;
}


static void
ngx_http_fowharimu_cleanup(void *data)
{
    /* it marks a context: the pool has nothing else to free */
}
