
/* Policies and key sets: read with the configuration, and the validators on them. */

#include "ngx_http_fowharimu.h"


static ngx_int_t ngx_http_fowharimu_open_issuers(ngx_conf_t *cf,
    ngx_http_fowharimu_loc_conf_t *lcf);
static ngx_int_t ngx_http_fowharimu_names(ngx_conf_t *cf,
    ngx_http_fowharimu_issuer_t *issuer);
static ngx_int_t ngx_http_fowharimu_open_grounds(ngx_conf_t *cf,
    ngx_http_fowharimu_loc_conf_t *lcf, ngx_http_fowharimu_grounds_t *grounds);
static ngx_http_fowharimu_opening_t *ngx_http_fowharimu_new_opening(
    ngx_conf_t *cf, ngx_http_fowharimu_loc_conf_t *lcf,
    ngx_http_fowharimu_grounds_t *grounds);
static ngx_int_t ngx_http_fowharimu_open_validator(ngx_conf_t *cf,
    ngx_http_fowharimu_opening_t *opening);
static ngx_int_t ngx_http_fowharimu_is_readable(ngx_conf_t *cf,
    ngx_str_t *name);
static void ngx_http_fowharimu_close(void *data);
static char *ngx_http_fowharimu_check(ngx_conf_t *cf, ngx_str_t *name,
    ngx_str_t *policy, ngx_str_t *keys);
static char *ngx_http_fowharimu_refuse_member(ngx_conf_t *cf, ngx_str_t *name,
    ngx_str_t *policy, uint32_t fault);


/* by these each document is tried alone, where the configuration names it */
static ngx_str_t  ngx_http_fowharimu_some_policy =
    ngx_string("{\"algs\":[\"HS256\"]}");
static ngx_str_t  ngx_http_fowharimu_no_keys = ngx_string("{\"keys\":[]}");


/* opens the validators of a level that aren't open yet */

ngx_int_t
ngx_http_fowharimu_open(ngx_conf_t *cf, ngx_http_fowharimu_loc_conf_t *lcf)
{
    /* (nothing is merged into the outermost level) */

    if (lcf->tokens == NGX_CONF_UNSET) {
        lcf->tokens = NGX_HTTP_FOWHARIMU_TOKENS;
        lcf->octets = NGX_HTTP_FOWHARIMU_OCTETS;
    }

    return lcf->issuers
           ? ngx_http_fowharimu_open_issuers(cf, lcf)
           : ngx_http_fowharimu_open_grounds(cf, lcf, &lcf->grounds);
}


uint32_t
ngx_http_fowharimu_open_documents(fow_validator *handle, ngx_str_t *policy,
    ngx_str_t *keys, uint32_t *fault)
{
    return fow_open(handle, policy->data, policy->len, keys->data, keys->len,
                    fault);
}


/*
 * The policy of each allows exactly the issuer under which it stands.  That
 * with the least limit says what is a token; of those with the same limit it is
 * the policy of the first issuer, in the order of their octets.
 */

static ngx_int_t
ngx_http_fowharimu_open_issuers(ngx_conf_t *cf,
    ngx_http_fowharimu_loc_conf_t *lcf)
{
    uint32_t                      limit, least;
    ngx_str_t                    *first;
    ngx_uint_t                    i;
    ngx_http_fowharimu_issuer_t  *issuer;

    if (lcf->issuers->reader) {
        return NGX_OK;
    }

    issuer = lcf->issuers->all.elts;
    first = NULL;
    least = 0;

    for (i = 0; i < lcf->issuers->all.nelts; i++) {

        if (ngx_http_fowharimu_open_grounds(cf, lcf, &issuer[i].grounds)
            != NGX_OK
            || ngx_http_fowharimu_names(cf, &issuer[i]) != NGX_OK
            || fow_token_limit(&issuer[i].grounds.validator->handle, &limit)
               != FOW_OK)
        {
            return NGX_ERROR;
        }

        if (first == NULL || limit < least
            || (limit == least
                && ngx_memn2cmp(issuer[i].name.data, first->data,
                                issuer[i].name.len, first->len)
                   < 0))
        {
            first = &issuer[i].name;
            least = limit;
            lcf->issuers->reader = issuer[i].grounds.validator;
        }
    }

    return NGX_OK;
}


/* whether the policy allows exactly that issuer */

static ngx_int_t
ngx_http_fowharimu_names(ngx_conf_t *cf, ngx_http_fowharimu_issuer_t *issuer)
{
    ngx_str_t  name;

    name.len = 0;
    name.data = ngx_pnalloc(cf->temp_pool, NGX_HTTP_FOWHARIMU_MAX_POLICY);
    if (name.data == NULL) {
        return NGX_ERROR;
    }

    if (fow_sole_issuer(&issuer->grounds.validator->handle, name.data,
                        NGX_HTTP_FOWHARIMU_MAX_POLICY, &name.len)
        == FOW_OK
        && name.len == issuer->name.len
        && ngx_memcmp(name.data, issuer->name.data, name.len) == 0)
    {
        return NGX_OK;
    }

    ngx_log_error(NGX_LOG_EMERG, cf->log, 0,
                  "the policy of \"jwt_issuer %V\" has to name that issuer in "
                  "\"issuers\", and no other", &issuer->name);

    return NGX_ERROR;
}


/* opens a validator where there are both documents and it isn't open yet */

static ngx_int_t
ngx_http_fowharimu_open_grounds(ngx_conf_t *cf,
    ngx_http_fowharimu_loc_conf_t *lcf, ngx_http_fowharimu_grounds_t *grounds)
{
    ngx_http_fowharimu_opening_t  *opening;

    if (grounds->validator || grounds->policy.data == NULL
        || grounds->keys.data == NULL)
    {
        return NGX_OK;
    }

    if (ngx_http_fowharimu_compare(cf) != NGX_OK) {
        return NGX_ERROR;
    }

    opening = ngx_http_fowharimu_new_opening(cf, lcf, grounds);

    if (opening == NULL
        || ngx_http_fowharimu_open_validator(cf, opening) != NGX_OK)
    {
        return NGX_ERROR;
    }

    grounds->validator = opening->validator;

    return grounds->file
           ? ngx_http_fowharimu_watch(cf, grounds->file, opening) : NGX_OK;
}


static ngx_http_fowharimu_opening_t *
ngx_http_fowharimu_new_opening(ngx_conf_t *cf,
    ngx_http_fowharimu_loc_conf_t *lcf, ngx_http_fowharimu_grounds_t *grounds)
{
    ngx_pool_cleanup_t               *cln;
    ngx_http_fowharimu_opening_t     *opening;
    ngx_http_fowharimu_validator_t   *validator;

    opening = ngx_pcalloc(cf->pool, sizeof(ngx_http_fowharimu_opening_t));
    cln = ngx_pool_cleanup_add(cf->pool,
                               sizeof(ngx_http_fowharimu_validator_t));

    if (opening == NULL || cln == NULL) {
        return NULL;
    }

    validator = cln->data;
    ngx_memzero(validator, sizeof(ngx_http_fowharimu_validator_t));
    cln->handler = ngx_http_fowharimu_close;

    opening->policy = grounds->policy;
    opening->keys = grounds->keys;
    opening->tokens = lcf->tokens;
    opening->octets = lcf->octets;
    opening->validator = validator;

    return opening;
}


/* documents that are open already aren't read again */

static ngx_int_t
ngx_http_fowharimu_open_validator(ngx_conf_t *cf,
    ngx_http_fowharimu_opening_t *opening)
{
    uint32_t                          fault, status;
    ngx_uint_t                        i;
    fow_validator                    *handle;
    ngx_http_fowharimu_opening_t    **other;
    ngx_http_fowharimu_main_conf_t   *mcf;

    mcf = ngx_http_conf_get_module_main_conf(cf, ngx_http_fowharimu_module);
    handle = &opening->validator->handle;
    other = mcf->openings.elts;
    fault = FOW_NO_FAULT;

    for (i = 0; i < mcf->openings.nelts; i++) {

        if (ngx_memn2cmp(other[i]->policy.data, opening->policy.data,
                         other[i]->policy.len, opening->policy.len)
            == 0
            && ngx_memn2cmp(other[i]->keys.data, opening->keys.data,
                            other[i]->keys.len, opening->keys.len)
               == 0)
        {
            break;
        }
    }

    if (i < mcf->openings.nelts) {
        status = fow_open_beside(handle, &other[i]->validator->handle);

    } else {
        status = ngx_http_fowharimu_open_documents(handle, &opening->policy,
                                                   &opening->keys, &fault);
    }

    if (status != FOW_OK) {
        /* each document was taken alone, so it is memory that is wanting */
        ngx_conf_log_error(NGX_LOG_EMERG, cf, 0,
                           "\"jwt_policy\" and \"jwt_keys\" can't be opened: "
                           "%s", fault ? fow_fault_name(fault) : "OutOfMemory");
        return NGX_ERROR;
    }

    if (fow_remember(handle, opening->tokens, opening->octets) != FOW_OK) {
        ngx_conf_log_error(NGX_LOG_EMERG, cf, 0,
                           "\"jwt_remember\" lacks memory");
        return NGX_ERROR;
    }

    other = ngx_array_push(&mcf->openings);
    if (other == NULL) {
        return NGX_ERROR;
    }

    *other = opening;

    return NGX_OK;
}


/*
 * Whether the workers' user can read the file: it is opened as that user, with
 * its groups, where this is root.
 */

static ngx_int_t
ngx_http_fowharimu_is_readable(ngx_conf_t *cf, ngx_str_t *name)
{
    int               count;
    gid_t            *groups, group;
    uid_t             user;
    char             *username;
    ngx_fd_t          fd;
    ngx_err_t         err;
    struct passwd    *pwd;
    ngx_core_conf_t  *ccf;

    if (geteuid() != 0) {
        return NGX_OK;
    }

    ccf = (ngx_core_conf_t *) ngx_get_conf(cf->cycle->conf_ctx,
                                           ngx_core_module);
    username = ccf->username;
    user = ccf->user;
    group = ccf->group;

    if (ccf->user == (ngx_uid_t) NGX_CONF_UNSET_UINT) {
        /* (the default, which nginx takes where no "user" stands) */
        pwd = getpwnam(NGX_USER);
        if (pwd == NULL) {
            return NGX_ERROR;
        }

        username = NGX_USER;
        user = pwd->pw_uid;
        group = pwd->pw_gid;
    }

    count = getgroups(0, NULL);
    if (count == -1) {
        return NGX_ERROR;
    }

    groups = ngx_palloc(cf->temp_pool, (count + 1) * sizeof(gid_t));

    if (groups == NULL || getgroups(count, groups) != count) {
        return NGX_ERROR;
    }

    err = 0;

    if (initgroups(username, group) == -1 || setegid(group) == -1
        || seteuid(user) == -1)
    {
        err = ngx_errno;

    } else {
        fd = ngx_open_file(name->data, NGX_FILE_RDONLY|NGX_FILE_NONBLOCK,
                           NGX_FILE_OPEN, 0);

        if (fd == NGX_INVALID_FILE) {
            err = ngx_errno;

        } else {
            (void) ngx_close_file(fd);
        }
    }

    if (seteuid(0) == -1 || setegid(getgid()) == -1
        || setgroups(count, groups) == -1)
    {
        return NGX_ERROR;
    }

    if (err) {
        ngx_conf_log_error(NGX_LOG_EMERG, cf, err,
                           "\"%V\" is looked at again, and the workers' user "
                           "\"%s\" can't read it", name, username);
        return NGX_ERROR;
    }

    return NGX_OK;
}


/* whether the library has the interface that the module was compiled for */

ngx_int_t
ngx_http_fowharimu_compare(ngx_conf_t *cf)
{
    if (fow_abi() == FOW_ABI) {
        return NGX_OK;
    }

    ngx_conf_log_error(NGX_LOG_EMERG, cf, 0,
                       "the library %s has interface %uD, and this module "
                       "was compiled for %d", fow_version(), fow_abi(),
                       FOW_ABI);

    return NGX_ERROR;
}


static void
ngx_http_fowharimu_close(void *data)
{
    ngx_http_fowharimu_validator_t  *validator = data;

    fow_close(&validator->handle);
}


char *
ngx_http_fowharimu_read_policy(ngx_conf_t *cf, ngx_str_t *name,
    ngx_http_fowharimu_grounds_t *grounds)
{
    if (ngx_http_fowharimu_read_file(cf, name, NGX_HTTP_FOWHARIMU_MAX_POLICY,
                                     &grounds->policy, NULL)
        != NGX_OK)
    {
        return NGX_CONF_ERROR;
    }

    return ngx_http_fowharimu_check(cf, name, &grounds->policy,
                                    &ngx_http_fowharimu_no_keys);
}


/* "recheck=30s": each worker looks at the file again, each so many seconds */

char *
ngx_http_fowharimu_read_keys(ngx_conf_t *cf, ngx_str_t *name,
    ngx_str_t *recheck, ngx_http_fowharimu_grounds_t *grounds)
{
    ngx_int_t                    interval;
    ngx_str_t                    text;
    ngx_http_fowharimu_stamp_t   stamp;

    interval = 0;

    if (recheck) {
        if (recheck->len < sizeof("recheck=") - 1
            || ngx_strncmp(recheck->data, "recheck=", sizeof("recheck=") - 1)
               != 0)
        {
            return "has an invalid parameter: it takes \"recheck=\" and a time";
        }

        text.len = recheck->len - (sizeof("recheck=") - 1);
        text.data = recheck->data + sizeof("recheck=") - 1;
        interval = ngx_parse_time(&text, 0);

        if (interval == NGX_ERROR || interval < 1000) {
            return "has an invalid \"recheck\": it is a second at least";
        }
    }

    if (ngx_http_fowharimu_read_file(cf, name, NGX_HTTP_FOWHARIMU_MAX_KEYS,
                                     &grounds->keys, &stamp)
        != NGX_OK)
    {
        return NGX_CONF_ERROR;
    }

    if (interval) {
        grounds->file = ngx_pcalloc(cf->pool,
                                    sizeof(ngx_http_fowharimu_file_t));
        if (grounds->file == NULL) {
            return NGX_CONF_ERROR;
        }

        grounds->file->name = *name;
        grounds->file->interval = interval;
        grounds->file->stamp = stamp;

        if (ngx_http_fowharimu_is_readable(cf, name) != NGX_OK) {
            return NGX_CONF_ERROR;
        }
    }

    return ngx_http_fowharimu_check(cf, name, &ngx_http_fowharimu_some_policy,
                                    &grounds->keys);
}


/*
 * Reads at most one octet past the longest document, which the library then
 * says is too long.  The octets live as long as the configuration is read.
 */

ngx_int_t
ngx_http_fowharimu_read_file(ngx_conf_t *cf, ngx_str_t *name, size_t max,
    ngx_str_t *document, ngx_http_fowharimu_stamp_t *stamp)
{
    size_t           size;
    ngx_fd_t         fd;
    ngx_int_t        rc;
    ngx_file_info_t  fi;

    if (ngx_conf_full_name(cf->cycle, name, 1) != NGX_OK) {
        return NGX_ERROR;
    }

    fd = ngx_open_file(name->data, NGX_FILE_RDONLY|NGX_FILE_NONBLOCK,
                       NGX_FILE_OPEN, 0);

    if (fd == NGX_INVALID_FILE) {
        ngx_conf_log_error(NGX_LOG_EMERG, cf, ngx_errno,
                           ngx_open_file_n " \"%V\" failed", name);
        return NGX_ERROR;
    }

    rc = NGX_ERROR;

    if (ngx_fd_info(fd, &fi) == NGX_FILE_ERROR) {
        ngx_conf_log_error(NGX_LOG_EMERG, cf, ngx_errno,
                           ngx_fd_info_n " \"%V\" failed", name);
        goto done;
    }

    if (!ngx_is_file(&fi)) {
        ngx_conf_log_error(NGX_LOG_EMERG, cf, 0,
                           "\"%V\" is not a regular file", name);
        goto done;
    }

    if (stamp) {
        ngx_http_fowharimu_set_stamp(stamp, &fi);
    }

    size = ngx_min((size_t) ngx_file_size(&fi), max + 1);

    document->data = ngx_palloc(cf->temp_pool, size + 1);
    if (document->data == NULL) {
        goto done;
    }

    rc = ngx_http_fowharimu_read_fd(fd, size, document);

    if (rc != NGX_OK) {
        ngx_conf_log_error(NGX_LOG_EMERG, cf, ngx_errno,
                           ngx_read_fd_n " \"%V\" failed", name);
    }

done:

    if (ngx_close_file(fd) == NGX_FILE_ERROR) {
        ngx_conf_log_error(NGX_LOG_ALERT, cf, ngx_errno,
                           ngx_close_file_n " \"%V\" failed", name);
    }

    return rc;
}


/* whether the library takes the document of that file, with the other one */

static char *
ngx_http_fowharimu_check(ngx_conf_t *cf, ngx_str_t *name, ngx_str_t *policy,
    ngx_str_t *keys)
{
    uint32_t                         fault, status;
    fow_validator                    validator = FOW_VALIDATOR_INIT;
    ngx_http_fowharimu_main_conf_t  *mcf;

    mcf = ngx_http_conf_get_module_main_conf(cf, ngx_http_fowharimu_module);
    mcf->named = 1;

    fault = FOW_NO_FAULT;
    status = ngx_http_fowharimu_open_documents(&validator, policy, keys,
                                               &fault);
    fow_close(&validator);

    if (status == FOW_OK) {
        return NGX_CONF_OK;
    }

    if (fault == FOW_POLICY_MEMBER || fault == FOW_POLICY_RANGE) {
        return ngx_http_fowharimu_refuse_member(cf, name, policy, fault);
    }

    ngx_conf_log_error(NGX_LOG_EMERG, cf, 0, "\"%V\" is refused: %s", name,
                       status == FOW_REFUSED ? fow_fault_name(fault)
                                             : "OutOfMemory");

    return NGX_CONF_ERROR;
}


/* a member's name is no longer than the document that it is in */

static char *
ngx_http_fowharimu_refuse_member(ngx_conf_t *cf, ngx_str_t *name,
    ngx_str_t *policy, uint32_t fault)
{
    ngx_str_t  member;

    member.len = 0;
    member.data = ngx_pnalloc(cf->temp_pool, policy->len + 1);

    if (member.data == NULL
        || fow_refused_member(policy->data, policy->len, member.data,
                              policy->len + 1, &member.len)
           != FOW_OK)
    {
        ngx_conf_log_error(NGX_LOG_EMERG, cf, 0, "\"%V\" is refused: %s",
                           name, fow_fault_name(fault));
        return NGX_CONF_ERROR;
    }

    ngx_conf_log_error(NGX_LOG_EMERG, cf, 0, "\"%V\" is refused: %s of \"%V\"",
                       name, fow_fault_name(fault), &member);

    return NGX_CONF_ERROR;
}
