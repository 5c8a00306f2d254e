
/* Files of keys that a worker looks at again. */

#include "ngx_http_fowharimu.h"


static void ngx_http_fowharimu_unwatch(void *data);
static void ngx_http_fowharimu_look(ngx_event_t *event);
static ngx_uint_t ngx_http_fowharimu_look_again(
    ngx_http_fowharimu_watch_t *watch, ngx_log_t *log);
static ngx_uint_t ngx_http_fowharimu_look_at(ngx_http_fowharimu_watch_t *watch,
    ngx_fd_t fd, ngx_log_t *log);
static void ngx_http_fowharimu_miss(ngx_http_fowharimu_watch_t *watch,
    ngx_err_t err, ngx_log_t *log);
static void ngx_http_fowharimu_exchange(ngx_http_fowharimu_watch_t *watch,
    ngx_str_t *keys, ngx_log_t *log);
static uint32_t ngx_http_fowharimu_open_newer(
    ngx_http_fowharimu_watch_t *watch, ngx_str_t *keys, fow_validator *newer,
    uint32_t *fault);
static const char *ngx_http_fowharimu_refused_keys(
    ngx_http_fowharimu_watch_t *watch, fow_validator *newer, uint32_t status,
    uint32_t fault);
static ngx_http_fowharimu_watch_t *ngx_http_fowharimu_find_watch(
    ngx_conf_t *cf, ngx_http_fowharimu_file_t *file, ngx_str_t *policy);
static ngx_http_fowharimu_watch_t *ngx_http_fowharimu_new_watch(
    ngx_conf_t *cf, ngx_http_fowharimu_file_t *file, ngx_str_t *policy);


/*
 * Has each worker look at the file of the keys again.  The workers' user has to
 * be able to read it, so that no secret may stand in it.
 */

ngx_int_t
ngx_http_fowharimu_watch(ngx_conf_t *cf, ngx_http_fowharimu_file_t *file,
    ngx_http_fowharimu_opening_t *opening)
{
    ngx_http_fowharimu_watch_t     *watch;
    ngx_http_fowharimu_opening_t  **place;

    if (!fow_documents_are_public(&opening->validator->handle)) {
        ngx_log_error(NGX_LOG_EMERG, cf->log, 0,
                      "\"%V\" is looked at again, and is no file of public "
                      "keys: \"algs\" in the policy has an HMAC algorithm, or "
                      "the set a key of kty oct", &file->name);
        return NGX_ERROR;
    }

    watch = ngx_http_fowharimu_find_watch(cf, file, &opening->policy);

    if (watch == NULL) {
        watch = ngx_http_fowharimu_new_watch(cf, file, &opening->policy);
        if (watch == NULL) {
            return NGX_ERROR;
        }
    }

    place = ngx_array_push(&watch->openings);
    if (place == NULL) {
        return NGX_ERROR;
    }

    *place = opening;

    watch->file.interval = ngx_min(watch->file.interval, file->interval);

    return NGX_OK;
}


/* one for a file and a policy: it is read once for all that stand on both */

static ngx_http_fowharimu_watch_t *
ngx_http_fowharimu_find_watch(ngx_conf_t *cf, ngx_http_fowharimu_file_t *file,
    ngx_str_t *policy)
{
    ngx_uint_t                        i;
    ngx_http_fowharimu_watch_t      **watch;
    ngx_http_fowharimu_main_conf_t   *mcf;

    mcf = ngx_http_conf_get_module_main_conf(cf, ngx_http_fowharimu_module);
    watch = mcf->watches.elts;

    for (i = 0; i < mcf->watches.nelts; i++) {

        if (ngx_memn2cmp(watch[i]->file.name.data, file->name.data,
                         watch[i]->file.name.len, file->name.len)
            == 0
            && ngx_memn2cmp(watch[i]->policy.data, policy->data,
                            watch[i]->policy.len, policy->len)
               == 0)
        {
            return watch[i];
        }
    }

    return NULL;
}


static ngx_http_fowharimu_watch_t *
ngx_http_fowharimu_new_watch(ngx_conf_t *cf, ngx_http_fowharimu_file_t *file,
    ngx_str_t *policy)
{
    ngx_pool_cleanup_t               *cln;
    ngx_http_fowharimu_watch_t       *watch, **place;
    ngx_http_fowharimu_main_conf_t   *mcf;

    mcf = ngx_http_conf_get_module_main_conf(cf, ngx_http_fowharimu_module);

    place = ngx_array_push(&mcf->watches);
    cln = ngx_pool_cleanup_add(cf->pool, sizeof(ngx_http_fowharimu_watch_t));

    if (place == NULL || cln == NULL) {
        return NULL;
    }

    watch = cln->data;
    ngx_memzero(watch, sizeof(ngx_http_fowharimu_watch_t));
    cln->handler = ngx_http_fowharimu_unwatch;
    *place = watch;

    watch->file = *file;
    watch->policy.len = policy->len;
    watch->policy.data = ngx_pstrdup(cf->pool, policy);

    if (watch->policy.data == NULL
        || ngx_array_init(&watch->openings, cf->pool, 2,
                          sizeof(ngx_http_fowharimu_opening_t *))
           != NGX_OK)
    {
        return NULL;
    }

    return watch;
}


static void
ngx_http_fowharimu_unwatch(void *data)
{
    ngx_http_fowharimu_watch_t  *watch = data;

    if (watch->event.timer_set) {
        ngx_del_timer(&watch->event);
    }
}


/* each worker looks at the files by itself */

ngx_int_t
ngx_http_fowharimu_init_process(ngx_cycle_t *cycle)
{
    ngx_uint_t                        i;
    ngx_http_fowharimu_watch_t      **watch;
    ngx_http_fowharimu_main_conf_t   *mcf;

    mcf = ngx_http_cycle_get_module_main_conf(cycle, ngx_http_fowharimu_module);

    if (mcf == NULL
        || (ngx_process != NGX_PROCESS_WORKER
            && ngx_process != NGX_PROCESS_SINGLE))
    {
        return NGX_OK;
    }

    watch = mcf->watches.elts;

    for (i = 0; i < mcf->watches.nelts; i++) {
        watch[i]->event.handler = ngx_http_fowharimu_look;
        watch[i]->event.data = watch[i];
        watch[i]->event.log = cycle->log;

        /* (a worker that is to go doesn't wait for it) */
        watch[i]->event.cancelable = 1;

        /*
         * At once: a worker in the place of one that died begins with the keys
         * of the configuration, which may be older than the file.
         */
        ngx_add_timer(&watch[i]->event, 1);
    }

    return NGX_OK;
}


/*
 * One file is read at a time: the next one waits until what has come meanwhile
 * is served.
 */

static void
ngx_http_fowharimu_look(ngx_event_t *event)
{
    ngx_http_fowharimu_watch_t  *watch = event->data;

    static ngx_msec_t  read;

    if (read == ngx_current_msec) {
        ngx_add_timer(event, 1);
        return;
    }

    if (ngx_http_fowharimu_look_again(watch, event->log)) {
        read = ngx_current_msec;
    }

    ngx_add_timer(event, watch->file.interval);
}


/* whether the file was read */

static ngx_uint_t
ngx_http_fowharimu_look_again(ngx_http_fowharimu_watch_t *watch, ngx_log_t *log)
{
    ngx_fd_t    fd;
    ngx_uint_t  read;

    fd = ngx_open_file(watch->file.name.data,
                       NGX_FILE_RDONLY|NGX_FILE_NONBLOCK, NGX_FILE_OPEN, 0);

    if (fd == NGX_INVALID_FILE) {
        ngx_http_fowharimu_miss(watch, ngx_errno, log);
        return 0;
    }

    read = ngx_http_fowharimu_look_at(watch, fd, log);

    if (ngx_close_file(fd) == NGX_FILE_ERROR) {
        ngx_log_error(NGX_LOG_ALERT, log, ngx_errno,
                      ngx_close_file_n " \"%V\" failed", &watch->file.name);
    }

    return read;
}


/*
 * What hasn't changed since the last look isn't read, and isn't told again.
 * What memory was refused for is read at the next look.
 */

static ngx_uint_t
ngx_http_fowharimu_look_at(ngx_http_fowharimu_watch_t *watch, ngx_fd_t fd,
    ngx_log_t *log)
{
    size_t                       size;
    ngx_str_t                    keys;
    ngx_file_info_t              fi;
    ngx_http_fowharimu_stamp_t   stamp;

    if (ngx_fd_info(fd, &fi) == NGX_FILE_ERROR || !ngx_is_file(&fi)) {
        ngx_http_fowharimu_miss(watch, 0, log);
        return 0;
    }

    ngx_http_fowharimu_set_stamp(&stamp, &fi);

    if (!watch->missing
        && ngx_memcmp(&stamp, &watch->file.stamp,
                      sizeof(ngx_http_fowharimu_stamp_t)) == 0)
    {
        return 0;
    }

    size = ngx_min((size_t) ngx_file_size(&fi), NGX_HTTP_FOWHARIMU_MAX_KEYS + 1);

    keys.data = ngx_alloc(size + 1, log);
    if (keys.data == NULL) {
        return 0;
    }

    watch->missing = 0;
    watch->file.stamp = stamp;

    if (ngx_http_fowharimu_read_fd(fd, size, &keys) == NGX_OK) {
        ngx_http_fowharimu_exchange(watch, &keys, log);

    } else {
        ngx_http_fowharimu_miss(watch, ngx_errno, log);
    }

    ngx_free(keys.data);

    return 1;
}


static void
ngx_http_fowharimu_miss(ngx_http_fowharimu_watch_t *watch, ngx_err_t err,
    ngx_log_t *log)
{
    if (!watch->missing) {
        watch->missing = 1;
        ngx_log_error(NGX_LOG_ERR, log, err,
                      "jwt: the keys stay as they were: \"%V\" can't be read",
                      &watch->file.name);
    }
}


ngx_int_t
ngx_http_fowharimu_read_fd(ngx_fd_t fd, size_t size, ngx_str_t *document)
{
    ssize_t  n;

    for (document->len = 0; document->len < size; document->len += n) {
        n = ngx_read_fd(fd, document->data + document->len,
                        size - document->len);

        if (n == NGX_FILE_ERROR) {
            return NGX_ERROR;
        }

        if (n == 0) {
            break;
        }
    }

    return NGX_OK;
}


/*
 * Takes new keys in place of the old ones, where they aren't refused.  No call
 * on a validator is under way: a worker does one thing at a time.
 */

static void
ngx_http_fowharimu_exchange(ngx_http_fowharimu_watch_t *watch,
    ngx_str_t *keys, ngx_log_t *log)
{
    uint32_t                        fault, status;
    const char                     *why;
    ngx_uint_t                      i;
    fow_validator                  *newer;
    ngx_http_fowharimu_opening_t  **opening;

    newer = ngx_calloc(watch->openings.nelts * sizeof(fow_validator), log);

    fault = FOW_NO_FAULT;
    status = newer ? ngx_http_fowharimu_open_newer(watch, keys, newer, &fault)
                   : FOW_OUT_OF_MEMORY;

    if (status != FOW_OK && status != FOW_REFUSED) {
        /* as if it had never been looked at */
        ngx_memzero(&watch->file.stamp, sizeof(ngx_http_fowharimu_stamp_t));
    }

    why = ngx_http_fowharimu_refused_keys(watch, newer, status, fault);
    opening = watch->openings.elts;

    for (i = 0; newer && i < watch->openings.nelts; i++) {

        if (why) {
            fow_close(&newer[i]);
            continue;
        }

        fow_close(&opening[i]->validator->handle);
        opening[i]->validator->handle = newer[i];
    }

    ngx_free(newer);

    if (why) {
        ngx_log_error(NGX_LOG_ERR, log, 0,
                      "jwt: the keys stay as they were: \"%V\" is refused: %s",
                      &watch->file.name, why);
        return;
    }

    ngx_log_error(NGX_LOG_NOTICE, log, 0, "jwt: new keys of \"%V\" are taken",
                  &watch->file.name);
}


/* the documents are read for the first, and the others stand beside it */

static uint32_t
ngx_http_fowharimu_open_newer(ngx_http_fowharimu_watch_t *watch,
    ngx_str_t *keys, fow_validator *newer, uint32_t *fault)
{
    uint32_t                        status;
    ngx_uint_t                      i;
    ngx_http_fowharimu_opening_t  **opening;

    opening = watch->openings.elts;

    for (i = 0; i < watch->openings.nelts; i++) {

        status = i ? fow_open_beside(&newer[i], &newer[0])
                   : ngx_http_fowharimu_open_documents(&newer[0],
                                                       &watch->policy, keys,
                                                       fault);

        if (status == FOW_OK) {
            status = fow_remember(&newer[i], opening[i]->tokens,
                                  opening[i]->octets);
        }

        if (status != FOW_OK) {
            return status;
        }
    }

    return FOW_OK;
}


/* why the new keys aren't taken, or NULL */

static const char *
ngx_http_fowharimu_refused_keys(ngx_http_fowharimu_watch_t *watch,
    fow_validator *newer, uint32_t status, uint32_t fault)
{
    if (status == FOW_REFUSED) {
        return fow_fault_name(fault);
    }

    if (status != FOW_OK) {
        return "OutOfMemory";
    }

    if (!fow_documents_are_public(&newer[0])) {
        return "a key of kty oct";
    }

    return NULL;
}


void
ngx_http_fowharimu_set_stamp(ngx_http_fowharimu_stamp_t *stamp,
    ngx_file_info_t *fi)
{
    /* (with what stands between its members, since it is compared whole) */
    ngx_memzero(stamp, sizeof(ngx_http_fowharimu_stamp_t));

    stamp->mtime = ngx_file_mtime(fi);
    stamp->size = ngx_file_size(fi);
    stamp->uniq = ngx_file_uniq(fi);
#if (NGX_LINUX)
    stamp->nsec = fi->st_mtim.tv_nsec;
#endif
}
