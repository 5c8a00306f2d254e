
/*
 * Who sends a token holds the key that it is bound to: proofs of possession
 * (DPoP, RFC 9449) and client certificates (RFC 8705).  What a proof is worth
 * says the library; the URI is the configured origin and the path that the
 * client asked for.
 */

#include "ngx_http_fowharimu.h"


/* the lines around a certificate (RFC 7468, section 5) */
#define NGX_HTTP_FOWHARIMU_BEGIN  "-----BEGIN CERTIFICATE-----"
#define NGX_HTTP_FOWHARIMU_END    "-----END CERTIFICATE-----"

/* the longest file with the secret of nonces, in octets */
#define NGX_HTTP_FOWHARIMU_MAX_SECRET  4096


static void ngx_http_fowharimu_close_proofs(void *data);
static ngx_uint_t ngx_http_fowharimu_is_origin(ngx_str_t *origin);
static const char *ngx_http_fowharimu_own_proof(ngx_http_request_t *r,
    ngx_str_t *proof);
static uint32_t ngx_http_fowharimu_proves(ngx_http_request_t *r,
    ngx_http_fowharimu_loc_conf_t *lcf, ngx_http_fowharimu_judged_t *judged,
    const char **fault);
static uint32_t ngx_http_fowharimu_judge_proof(ngx_http_request_t *r,
    ngx_http_fowharimu_loc_conf_t *lcf, ngx_http_fowharimu_judged_t *judged,
    uint32_t *fault);
static void ngx_http_fowharimu_method(ngx_http_request_t *r,
    ngx_str_t *method);
static ngx_int_t ngx_http_fowharimu_uri(ngx_http_request_t *r,
    ngx_str_t *origin, ngx_str_t *uri);
static uint32_t ngx_http_fowharimu_is_shown(ngx_http_request_t *r,
    ngx_http_fowharimu_loc_conf_t *lcf, ngx_http_fowharimu_judged_t *judged,
    const char **fault);
static ngx_int_t ngx_http_fowharimu_der(ngx_pool_t *pool, ngx_str_t *pem,
    ngx_str_t *der);


/* "jwt_dpop on", "only", or "off": the schemes that are taken */

char *
ngx_http_fowharimu_set_dpop(ngx_conf_t *cf, ngx_command_t *cmd, void *conf)
{
    ngx_http_fowharimu_loc_conf_t *lcf = conf;

    ngx_str_t   *value;
    ngx_uint_t   i;

    static const struct {
        ngx_str_t  name;
        uint32_t   schemes;
    } words[] = {
        { ngx_string("off"), FOW_BEARER },
        { ngx_string("on"), FOW_BEARER|FOW_DPOP },
        { ngx_string("only"), FOW_DPOP },
    };

    if (lcf->schemes != NGX_CONF_UNSET_UINT) {
        return "is duplicate";
    }

    value = cf->args->elts;

    for (i = 0; i < sizeof(words) / sizeof(words[0]); i++) {

        if (ngx_strcmp(value[1].data, words[i].name.data) == 0) {
            lcf->schemes = words[i].schemes;
            return NGX_CONF_OK;
        }
    }

    return "takes \"on\", \"only\" or \"off\"";
}


/* "jwt_dpop_policy file" */

char *
ngx_http_fowharimu_set_proofs(ngx_conf_t *cf, ngx_command_t *cmd, void *conf)
{
    ngx_http_fowharimu_loc_conf_t *lcf = conf;

    uint32_t                      fault, status;
    ngx_str_t                    *value, document;
    ngx_pool_cleanup_t           *cln;
    ngx_http_fowharimu_proofs_t  *proofs;

    if (lcf->proofs != NGX_CONF_UNSET_PTR) {
        return "is duplicate";
    }

    value = cf->args->elts;

    if (ngx_http_fowharimu_compare(cf) != NGX_OK
        || ngx_http_fowharimu_read_file(cf, &value[1],
                                        NGX_HTTP_FOWHARIMU_MAX_POLICY,
                                        &document, NULL)
           != NGX_OK)
    {
        return NGX_CONF_ERROR;
    }

    cln = ngx_pool_cleanup_add(cf->pool, sizeof(ngx_http_fowharimu_proofs_t));
    if (cln == NULL) {
        return NGX_CONF_ERROR;
    }

    proofs = cln->data;
    ngx_memzero(proofs, sizeof(ngx_http_fowharimu_proofs_t));
    cln->handler = ngx_http_fowharimu_close_proofs;
    lcf->proofs = proofs;

    fault = FOW_NO_FAULT;
    status = fow_possession_open(&proofs->handle, document.data, document.len,
                                 &fault);

    if (status != FOW_OK) {
        ngx_conf_log_error(NGX_LOG_EMERG, cf, 0, "\"%V\" is refused: %s",
                           &value[1], status == FOW_REFUSED
                           ? fow_fault_name(fault) : "OutOfMemory");
        return NGX_CONF_ERROR;
    }

    /* the names of its algorithms are no longer than the document */

    proofs->algs.data = ngx_pnalloc(cf->pool, document.len + 1);
    if (proofs->algs.data == NULL) {
        return NGX_CONF_ERROR;
    }

    return fow_possession_algs(&proofs->handle, proofs->algs.data,
                               document.len + 1, &proofs->algs.len)
           == FOW_OK ? NGX_CONF_OK : NGX_CONF_ERROR;
}


static void
ngx_http_fowharimu_close_proofs(void *data)
{
    ngx_http_fowharimu_proofs_t *proofs = data;

    fow_possession_close(&proofs->handle);
}


/* "jwt_dpop_origin https://api.example" */

char *
ngx_http_fowharimu_set_origin(ngx_conf_t *cf, ngx_command_t *cmd, void *conf)
{
    ngx_http_fowharimu_loc_conf_t *lcf = conf;

    ngx_str_t  *value;

    if (lcf->origin.data) {
        return "is duplicate";
    }

    value = cf->args->elts;

    if (!ngx_http_fowharimu_is_origin(&value[1])) {
        return "takes a scheme and a host, as \"https://api.example\", and no "
               "path";
    }

    lcf->origin = value[1];

    return NGX_CONF_OK;
}


/* (whether its host is one says the library, of each proof) */

static ngx_uint_t
ngx_http_fowharimu_is_origin(ngx_str_t *origin)
{
    u_char  *p, *last;

    last = origin->data + origin->len;

    if (ngx_strncasecmp(origin->data, (u_char *) "https://", 8) == 0) {
        p = origin->data + 8;

    } else if (ngx_strncasecmp(origin->data, (u_char *) "http://", 7) == 0) {
        p = origin->data + 7;

    } else {
        return 0;
    }

    if (p == last) {
        return 0;
    }

    for ( /* void */ ; p < last; p++) {
        if (*p <= ' ' || *p >= 0x7f || *p == '/' || *p == '?' || *p == '#'
            || *p == '@' || *p == '\\')
        {
            return 0;
        }
    }

    return 1;
}


/*
 * "jwt_dpop_once zone=name[:size] [share=number] [since=start|ever]", or
 * "jwt_dpop_once off"
 */

char *
ngx_http_fowharimu_set_proof_once(ngx_conf_t *cf, ngx_command_t *cmd,
    void *conf)
{
    ngx_http_fowharimu_loc_conf_t *lcf = conf;

    return ngx_http_fowharimu_set_zone(cf, &lcf->proof_once);
}


/* "jwt_dpop_nonce file [time]" */

char *
ngx_http_fowharimu_set_nonce(ngx_conf_t *cf, ngx_command_t *cmd, void *conf)
{
    ngx_http_fowharimu_loc_conf_t *lcf = conf;

    time_t                       period;
    ngx_str_t                   *value, secret;
    ngx_http_fowharimu_nonce_t  *nonce;

    if (lcf->nonce != NGX_CONF_UNSET_PTR) {
        return "is duplicate";
    }

    value = cf->args->elts;

    if (cf->args->nelts == 2 && ngx_strcmp(value[1].data, "off") == 0) {
        lcf->nonce = NULL;
        return NGX_CONF_OK;
    }

    period = NGX_HTTP_FOWHARIMU_PERIOD;

    if (cf->args->nelts == 3) {
        period = ngx_parse_time(&value[2], 1);

        if (period == (time_t) NGX_ERROR || period < 1 || period > 86400) {
            return "takes a time of a second to a day";
        }
    }

    if (ngx_http_fowharimu_read_file(cf, &value[1],
                                     NGX_HTTP_FOWHARIMU_MAX_SECRET, &secret,
                                     NULL)
        != NGX_OK)
    {
        return NGX_CONF_ERROR;
    }

    if (secret.len < FOW_NONCE_SECRET_LEN
        || secret.len > NGX_HTTP_FOWHARIMU_MAX_SECRET)
    {
        return "takes a file of 32 to 4096 octets, which nobody can guess";
    }

    nonce = ngx_pcalloc(cf->pool, sizeof(ngx_http_fowharimu_nonce_t));
    if (nonce == NULL) {
        return NGX_CONF_ERROR;
    }

    nonce->period = (uint32_t) period;
    nonce->secret.len = secret.len;
    nonce->secret.data = ngx_pstrdup(cf->pool, &secret);
    if (nonce->secret.data == NULL) {
        return NGX_CONF_ERROR;
    }

    lcf->nonce = nonce;

    return NGX_CONF_OK;
}


/* "jwt_certificate value", or "jwt_certificate off" */

char *
ngx_http_fowharimu_set_certificate(ngx_conf_t *cf, ngx_command_t *cmd,
    void *conf)
{
    ngx_http_fowharimu_loc_conf_t *lcf = conf;

    ngx_str_t                         *value;
    ngx_http_compile_complex_value_t   ccv;

    if (lcf->certificate != NGX_CONF_UNSET_PTR) {
        return "is duplicate";
    }

    value = cf->args->elts;

    if (ngx_strcmp(value[1].data, "off") == 0) {
        lcf->certificate = NULL;
        return NGX_CONF_OK;
    }

    lcf->certificate = ngx_palloc(cf->pool, sizeof(ngx_http_complex_value_t));
    if (lcf->certificate == NULL) {
        return NGX_CONF_ERROR;
    }

    ngx_memzero(&ccv, sizeof(ngx_http_compile_complex_value_t));

    ccv.cf = cf;
    ccv.value = &value[1];
    ccv.complex_value = lcf->certificate;

    return ngx_http_compile_complex_value(&ccv) == NGX_OK ? NGX_CONF_OK
                                                          : NGX_CONF_ERROR;
}


char *
ngx_http_fowharimu_merge_possession(ngx_conf_t *cf,
    ngx_http_fowharimu_loc_conf_t *prev, ngx_http_fowharimu_loc_conf_t *conf)
{
    const char  *lacks;

    ngx_conf_merge_uint_value(conf->schemes, prev->schemes, FOW_BEARER);
    ngx_conf_merge_ptr_value(conf->proofs, prev->proofs, NULL);
    ngx_conf_merge_str_value(conf->origin, prev->origin, "");
    ngx_conf_merge_ptr_value(conf->nonce, prev->nonce, NULL);
    ngx_conf_merge_ptr_value(conf->certificate, prev->certificate, NULL);

    if (conf->proof_once == NGX_CONF_UNSET_PTR) {
        conf->proof_once = prev->proof_once;
    }

    if (!conf->enable || !(conf->schemes & FOW_DPOP)) {
        return NGX_CONF_OK;
    }

    lacks = conf->proofs == NULL ? "jwt_dpop_policy"
            : conf->origin.len == 0 ? "jwt_dpop_origin"
            : conf->proof_once == NGX_CONF_UNSET_PTR ? "jwt_dpop_once" : NULL;

    if (lacks) {
        ngx_log_error(NGX_LOG_EMERG, cf->log, 0,
                      "no \"%s\" is defined for \"jwt_dpop\", where \"jwt\" "
                      "is on by %s:%ui", lacks, conf->file, conf->line);
        return NGX_CONF_ERROR;
    }

    if (conf->token && conf->token->kind != NGX_HTTP_FOWHARIMU_BEARER) {
        ngx_log_error(NGX_LOG_EMERG, cf->log, 0,
                      "\"jwt_dpop\" takes the token of \"Authorization\" "
                      "alone, and \"jwt_token\" names another place, where "
                      "\"jwt\" is on by %s:%ui", conf->file, conf->line);
        return NGX_CONF_ERROR;
    }

    return NGX_CONF_OK;
}


/* whether both ask the same of whoever sends a token */

ngx_uint_t
ngx_http_fowharimu_is_same_possession(ngx_http_fowharimu_loc_conf_t *one,
    ngx_http_fowharimu_loc_conf_t *other)
{
    return one->schemes == other->schemes
           && one->proofs == other->proofs
           && one->origin.data == other->origin.data
           && one->proof_once == other->proof_once
           && one->nonce == other->nonce
           && one->certificate == other->certificate;
}


/*
 * The one proof of a request whose token stands behind "DPoP" (RFC 9449,
 * section 4.3, step 1).  It gives why there is none, and NULL where there is.
 */

const char *
ngx_http_fowharimu_find_proof(ngx_http_request_t *r,
    ngx_http_fowharimu_judged_t *judged)
{
    return judged->scheme == FOW_DPOP
           ? ngx_http_fowharimu_own_proof(r, &judged->proof) : NULL;
}


static const char *
ngx_http_fowharimu_own_proof(ngx_http_request_t *r, ngx_str_t *proof)
{
    ngx_uint_t        i;
    ngx_list_part_t  *part;
    ngx_table_elt_t  *h;

    ngx_str_null(proof);

    part = &ngx_http_fowharimu_sent_headers(r)->part;
    i = 0;

    while ((h = ngx_http_fowharimu_next_header(&part, &i)) != NULL) {

        if (!ngx_http_fowharimu_is_header(h, "DPoP")) {
            continue;
        }

        if (proof->data) {
            return "ProofTwice";
        }

        *proof = h->value;

        if (proof->data == NULL) {
            proof->data = (u_char *) "";
        }
    }

    return proof->data ? NULL : "ProofMissing";
}


/*
 * The outcome of a request whose token was accepted just now, by who sends it
 * (enum fow_outcome), with its fault where that isn't FOW_ADMITTED.
 */

uint32_t
ngx_http_fowharimu_held(ngx_http_request_t *r,
    ngx_http_fowharimu_loc_conf_t *lcf, ngx_http_fowharimu_judged_t *judged,
    const char **fault)
{
    uint32_t  outcome;

    outcome = judged->scheme == FOW_DPOP
              ? ngx_http_fowharimu_proves(r, lcf, judged, fault) : FOW_ADMITTED;

    return outcome == FOW_ADMITTED
           ? ngx_http_fowharimu_is_shown(r, lcf, judged, fault) : outcome;
}


static uint32_t
ngx_http_fowharimu_proves(ngx_http_request_t *r,
    ngx_http_fowharimu_loc_conf_t *lcf, ngx_http_fowharimu_judged_t *judged,
    const char **fault)
{
    uint32_t  status, number;

    number = FOW_NO_FAULT;
    status = ngx_http_fowharimu_judge_proof(r, lcf, judged, &number);

    *fault = status == FOW_REFUSED ? fow_fault_name(number) : "OutOfMemory";

    if (status == FOW_OK && lcf->nonce) {
        status = fow_possession_fresh(&lcf->proofs->handle,
                                      lcf->nonce->secret.data,
                                      lcf->nonce->secret.len,
                                      lcf->nonce->period,
                                      (int64_t) judged->moment);

        *fault = status == FOW_NOT_EXPECTED
                 ? fow_fault_name(FOW_PROOF_OTHER_NONCE) : "OutOfMemory";
    }

    if (status == FOW_OK && lcf->proof_once) {
        *fault = "OutOfMemory";
        status = fow_possession_entry(&lcf->proofs->handle,
                                      &judged->proof_entry);
    }

    return fow_proof_outcome(status, number);
}


static uint32_t
ngx_http_fowharimu_judge_proof(ngx_http_request_t *r,
    ngx_http_fowharimu_loc_conf_t *lcf, ngx_http_fowharimu_judged_t *judged,
    uint32_t *fault)
{
    uint32_t    status;
    ngx_str_t   uri, method;

    if (ngx_http_fowharimu_uri(r, &lcf->origin, &uri) != NGX_OK) {
        return FOW_OUT_OF_MEMORY;
    }

    ngx_http_fowharimu_method(r, &method);

    status = fow_possession_judge(&lcf->proofs->handle,
                                  &judged->validator->handle,
                                  judged->proof.data, judged->proof.len,
                                  method.data, method.len,
                                  uri.data, uri.len, (u_char *) "", 0,
                                  judged->token.data, judged->token.len,
                                  (int64_t) judged->moment, fault);

    (void) ngx_pfree(r->pool, uri.data);

    return status;
}


/* of the client's own request line: "error_page" makes GET of any method */

static void
ngx_http_fowharimu_method(ngx_http_request_t *r, ngx_str_t *method)
{
    u_char  *p;

    *method = r->main->request_line;

    p = ngx_strlchr(method->data, method->data + method->len, ' ');

    if (p) {
        method->len = p - method->data;
    }
}


/*
 * As the client asked for it, whatever nginx made of that.  What is behind "#"
 * belongs to the path for who is behind nginx, and would be none of it for the
 * library.
 */

static ngx_int_t
ngx_http_fowharimu_uri(ngx_http_request_t *r, ngx_str_t *origin, ngx_str_t *uri)
{
    u_char     *p;
    size_t      i;
    ngx_str_t  *path;

    path = &r->main->unparsed_uri;

    uri->data = ngx_pnalloc(r->pool, origin->len + 3 * path->len + 1);
    if (uri->data == NULL) {
        return NGX_ERROR;
    }

    p = ngx_cpymem(uri->data, origin->data, origin->len);

    /* (a path that isn't there could else go on with the host's name) */

    if (path->len == 0 || path->data[0] != '/') {
        *p++ = '/';
    }

    for (i = 0; i < path->len && path->data[i] != '?'; i++) {

        if (path->data[i] == '#') {
            p = ngx_cpymem(p, "%23", 3);

        } else {
            *p++ = path->data[i];
        }
    }

    uri->len = p - uri->data;

    return NGX_OK;
}


/*
 * Each way in which a token is bound has to be shown: by the proof of this very
 * request, or by the client's certificate.  One that is bound and comes as a
 * bearer's is nobody's who just has it (section 7.2).
 */

static uint32_t
ngx_http_fowharimu_is_shown(ngx_http_request_t *r,
    ngx_http_fowharimu_loc_conf_t *lcf, ngx_http_fowharimu_judged_t *judged,
    const char **fault)
{
    uint32_t         ways, number;
    ngx_str_t        pem, der;
    fow_possession   none = FOW_POSSESSION_INIT, *proof;

    *fault = "OutOfMemory";
    ngx_str_set(&der, "");

    if (lcf->certificate
        && (ngx_http_complex_value(r, lcf->certificate, &pem) != NGX_OK
            || ngx_http_fowharimu_der(r->pool, &pem, &der) != NGX_OK))
    {
        return FOW_UNANSWERED;
    }

    proof = judged->scheme == FOW_DPOP ? &lcf->proofs->handle : &none;

    switch (fow_shown(&judged->validator->handle, proof, der.data, der.len,
                      &ways, &number))
    {

    case FOW_OK:
        break;

    case FOW_REFUSED:
        *fault = proof == &none && lcf->certificate == NULL
                 ? "Bound" : fow_fault_name(number);

        return FOW_NOT_ACCEPTED;

    default:
        return FOW_UNANSWERED;
    }

    if (lcf->certificate && !(ways & FOW_BOUND_CERTIFICATE)) {
        *fault = "OtherCertificate";
        return FOW_NOT_ACCEPTED;
    }

    return FOW_ADMITTED;
}


/*
 * the DER of the first certificate of a text in PEM; of no octets where there
 * is none
 */

static ngx_int_t
ngx_http_fowharimu_der(ngx_pool_t *pool, ngx_str_t *pem, ngx_str_t *der)
{
    u_char     *p, *last;
    ngx_str_t   text;

    ngx_str_set(der, "");

    p = ngx_strnstr(pem->data, NGX_HTTP_FOWHARIMU_BEGIN, pem->len);
    if (p == NULL) {
        return NGX_OK;
    }

    p += sizeof(NGX_HTTP_FOWHARIMU_BEGIN) - 1;

    last = ngx_strnstr(p, NGX_HTTP_FOWHARIMU_END, pem->data + pem->len - p);
    if (last == NULL) {
        return NGX_OK;
    }

    text.len = 0;

    text.data = ngx_pnalloc(pool, last - p);
    der->data = ngx_pnalloc(pool, ngx_base64_decoded_length(last - p));

    if (text.data == NULL || der->data == NULL) {
        return NGX_ERROR;
    }

    for ( /* void */ ; p < last; p++) {

        if (*p != CR && *p != LF) {
            text.data[text.len++] = *p;
        }
    }

    if (ngx_decode_base64(der, &text) != NGX_OK) {
        der->len = 0;
    }

    return NGX_OK;
}


/* "DPoP-Nonce" of now, beside a challenge that asks for it (section 8) */

ngx_int_t
ngx_http_fowharimu_offer_nonce(ngx_http_request_t *r,
    ngx_http_fowharimu_judged_t *judged)
{
    u_char                      *text;
    size_t                       len;
    ngx_http_fowharimu_nonce_t  *nonce;

    static ngx_str_t  name = ngx_string("DPoP-Nonce"),
                      cache = ngx_string("Cache-Control"),
                      no_store = ngx_string("no-store");

    ngx_str_t  value;

    nonce = judged->conf->nonce;

    if (nonce == NULL || judged->dpop != FOW_USE_DPOP_NONCE) {
        return NGX_OK;
    }

    text = ngx_pnalloc(r->pool, FOW_NONCE_LEN);
    if (text == NULL) {
        return NGX_ERROR;
    }

    if (fow_nonce(nonce->secret.data, nonce->secret.len, nonce->period,
                  (int64_t) judged->moment, text, FOW_NONCE_LEN, &len)
        != FOW_OK)
    {
        return NGX_ERROR;
    }

    value.len = len;
    value.data = text;

    return ngx_http_fowharimu_send_header(r, &name, &value) != NULL
           && ngx_http_fowharimu_send_header(r, &cache, &no_store) != NULL
           ? NGX_OK : NGX_ERROR;
}
