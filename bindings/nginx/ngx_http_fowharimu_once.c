
/*
 * Tokens that count once: jwt_once.  How a token is held, by which mark, owner
 * and times, says the library.  The zone holds that for all workers.
 */

#include "ngx_http_fowharimu.h"


/* whoever has several tokens, as far as they are held: an issuer's subject */
typedef struct {
    ngx_rbtree_node_t                by_name;
    ngx_rbtree_t                     own;       /* what it has, by moment */
    ngx_rbtree_node_t                own_sentinel;
    ngx_uint_t                       number;
    u_char                           name[FOW_MARK_LEN];
} ngx_http_fowharimu_owner_t;


/* a token that was taken */
typedef struct {
    ngx_rbtree_node_t                by_mark;
    ngx_rbtree_node_t                by_moment;
    ngx_rbtree_node_t                by_own;    /* among its owner's */
    uint64_t                         moment;
    ngx_http_fowharimu_owner_t      *owner;     /* NULL where it has none */
    u_char                           mark[FOW_MARK_LEN];
} ngx_http_fowharimu_taken_t;


/* what stands in a zone */
typedef struct {
    ngx_rbtree_t                     marks;
    ngx_rbtree_node_t                marks_sentinel;
    ngx_rbtree_t                     turns;
    ngx_rbtree_node_t                turns_sentinel;
    ngx_rbtree_t                     owners;
    ngx_rbtree_node_t                owners_sentinel;
    uint64_t                         opened;
    uint64_t                         latest;    /* moment that was told */
    uint64_t                         span;      /* longest grace that was told */
    uint64_t                         horizon;   /* behind what was let go */
    ngx_uint_t                       share;     /* of one owner */
    uint64_t                         behind;    /* as of then, and one more, */
    uint64_t                         full;      /* these errors were told */
} ngx_http_fowharimu_memory_t;


/* what a configuration says of a zone */
typedef struct {
    ngx_uint_t                       share;     /* 0 where it says none */
    ngx_flag_t                       ever;      /* "since=ever" */
} ngx_http_fowharimu_zone_t;


/* what the slab takes for a token, or for an owner */
#define NGX_HTTP_FOWHARIMU_SLOT  256

/* by how many seconds workers may differ, since each keeps a time of its own */
#define NGX_HTTP_FOWHARIMU_APART  5

/* the seconds after which an error of a zone is told again */
#define NGX_HTTP_FOWHARIMU_AGAIN  3600


static char *ngx_http_fowharimu_set_words(ngx_conf_t *cf,
    ngx_http_fowharimu_zone_t *said);
static ngx_int_t ngx_http_fowharimu_init_zone(ngx_shm_zone_t *zone,
    void *data);
static void ngx_http_fowharimu_insert_mark(ngx_rbtree_node_t *temp,
    ngx_rbtree_node_t *node, ngx_rbtree_node_t *sentinel);
static void ngx_http_fowharimu_insert_name(ngx_rbtree_node_t *temp,
    ngx_rbtree_node_t *node, ngx_rbtree_node_t *sentinel);
static void ngx_http_fowharimu_insert_turn(ngx_rbtree_node_t *temp,
    ngx_rbtree_node_t *node, ngx_rbtree_node_t *sentinel);
static void ngx_http_fowharimu_insert_own(ngx_rbtree_node_t *temp,
    ngx_rbtree_node_t *node, ngx_rbtree_node_t *sentinel);
static void ngx_http_fowharimu_hang(ngx_rbtree_node_t **p,
    ngx_rbtree_node_t *temp, ngx_rbtree_node_t *node,
    ngx_rbtree_node_t *sentinel);
static ngx_http_fowharimu_ctx_t *ngx_http_fowharimu_main_ctx(
    ngx_http_request_t *r);
static uint32_t ngx_http_fowharimu_take_once(ngx_http_request_t *r,
    ngx_http_fowharimu_held_t **held, ngx_shm_zone_t *zone, fow_entry *entry,
    time_t now);
static uint32_t ngx_http_fowharimu_take_entry(ngx_log_t *log,
    ngx_shm_zone_t *zone, fow_entry *entry, time_t now);
static uint64_t ngx_http_fowharimu_behind(ngx_http_fowharimu_memory_t *memory,
    time_t now);
static ngx_uint_t ngx_http_fowharimu_tells(ngx_http_fowharimu_memory_t *memory,
    uint64_t *told);
static uint32_t ngx_http_fowharimu_take_locked(ngx_slab_pool_t *pool,
    fow_entry *entry, time_t now);
static uint32_t ngx_http_fowharimu_put(ngx_slab_pool_t *pool,
    fow_entry *entry);
static ngx_http_fowharimu_taken_t *ngx_http_fowharimu_find_taken(
    ngx_http_fowharimu_memory_t *memory, u_char *mark);
static ngx_http_fowharimu_owner_t *ngx_http_fowharimu_find_owner(
    ngx_http_fowharimu_memory_t *memory, u_char *name);
static ngx_http_fowharimu_owner_t *ngx_http_fowharimu_add_owner(
    ngx_slab_pool_t *pool, u_char *name);
static ngx_uint_t ngx_http_fowharimu_is_own_full(ngx_slab_pool_t *pool,
    fow_entry *entry);
static ngx_uint_t ngx_http_fowharimu_has_passed(
    ngx_http_fowharimu_memory_t *memory, ngx_http_fowharimu_taken_t *taken);
static void ngx_http_fowharimu_drop(ngx_slab_pool_t *pool,
    ngx_http_fowharimu_taken_t *taken);
static void ngx_http_fowharimu_drop_passed(ngx_slab_pool_t *pool);


/*
 * "jwt_once zone=name[:size] [share=number] [since=start|ever]", or
 * "jwt_once off"
 */

char *
ngx_http_fowharimu_set_once(ngx_conf_t *cf, ngx_command_t *cmd, void *conf)
{
    ngx_http_fowharimu_loc_conf_t *lcf = conf;

    return ngx_http_fowharimu_set_zone(cf, &lcf->once);
}


/* the zone that a directive names, NULL where it says "off" */

char *
ngx_http_fowharimu_set_zone(ngx_conf_t *cf, ngx_shm_zone_t **zone)
{
    char                       *rv;
    u_char                     *p;
    ssize_t                     size;
    ngx_str_t                  *value, name, s;
    ngx_http_fowharimu_zone_t  *said;

    if (*zone != NGX_CONF_UNSET_PTR) {
        return "is duplicate";
    }

    value = cf->args->elts;

    if (ngx_strcmp(value[1].data, "off") == 0) {
        *zone = NULL;
        return cf->args->nelts == 2 ? NGX_CONF_OK
                                    : "takes \"off\", and nothing more";
    }

    if (ngx_strncmp(value[1].data, "zone=", 5) != 0 || value[1].len == 5) {
        return "takes \"off\", or \"zone=name:size\"";
    }

    name.data = value[1].data + 5;
    name.len = value[1].len - 5;
    size = 0;

    p = (u_char *) ngx_strchr(name.data, ':');

    if (p) {
        s.data = p + 1;
        s.len = name.data + name.len - s.data;
        name.len = p - name.data;
        size = ngx_parse_size(&s);

        if (size < (ssize_t) (8 * ngx_pagesize) || name.len == 0) {
            return "takes a zone of at least eight pages of memory";
        }
    }

    if (size == 0 && cf->args->nelts > 2) {
        return "takes \"share\" and \"since\" beside the size of the zone";
    }

    *zone = ngx_shared_memory_add(cf, &name, size, &ngx_http_fowharimu_module);
    if (*zone == NULL) {
        return NGX_CONF_ERROR;
    }

    said = (*zone)->data;

    if (said == NULL) {
        said = ngx_pcalloc(cf->pool, sizeof(ngx_http_fowharimu_zone_t));
        if (said == NULL) {
            return NGX_CONF_ERROR;
        }
    }

    rv = ngx_http_fowharimu_set_words(cf, said);
    if (rv != NGX_CONF_OK) {
        return rv;
    }

    (*zone)->data = said;
    (*zone)->init = ngx_http_fowharimu_init_zone;

    return NGX_CONF_OK;
}


/* "share=number" and "since=start|ever" */

static char *
ngx_http_fowharimu_set_words(ngx_conf_t *cf, ngx_http_fowharimu_zone_t *said)
{
    ngx_int_t    n;
    ngx_str_t   *value;
    ngx_uint_t   i;

    value = cf->args->elts;

    for (i = 2; i < cf->args->nelts; i++) {

        if (ngx_strncmp(value[i].data, "share=", 6) == 0) {

            n = ngx_atoi(value[i].data + 6, value[i].len - 6);
            if (n < 1) {
                return "takes a share of one or more";
            }

            said->share = n;
            continue;
        }

        if (ngx_strcmp(value[i].data, "since=start") == 0) {
            said->ever = 0;
            continue;
        }

        if (ngx_strcmp(value[i].data, "since=ever") == 0) {
            said->ever = 1;
            continue;
        }

        return "takes \"share=number\", \"since=start\" and \"since=ever\"";
    }

    return NGX_CONF_OK;
}


/*
 * What a zone holds, and its numbers, stay over a reload that leaves it as large
 * as it is.  A new one is opened at the second after its creation: what was
 * issued before may have been taken by the one that was there before.
 */

static ngx_int_t
ngx_http_fowharimu_init_zone(ngx_shm_zone_t *zone, void *data)
{
    ngx_slab_pool_t              *pool;
    ngx_http_fowharimu_zone_t    *said;
    ngx_http_fowharimu_memory_t  *memory;

    pool = (ngx_slab_pool_t *) zone->shm.addr;
    said = zone->data;
    memory = data || zone->shm.exists ? pool->data : NULL;

    if (memory == NULL) {
        memory = ngx_slab_calloc(pool, sizeof(ngx_http_fowharimu_memory_t));
        if (memory == NULL) {
            return NGX_ERROR;
        }

        ngx_rbtree_init(&memory->marks, &memory->marks_sentinel,
                        ngx_http_fowharimu_insert_mark);
        ngx_rbtree_init(&memory->turns, &memory->turns_sentinel,
                        ngx_http_fowharimu_insert_turn);
        ngx_rbtree_init(&memory->owners, &memory->owners_sentinel,
                        ngx_http_fowharimu_insert_name);

        memory->opened = said->ever || ngx_time() < 0
                         ? 0 : (uint64_t) ngx_time() + 1;

        pool->data = memory;
        pool->log_nomem = 0;
    }

    memory->share = said->share
                    ? said->share
                    : ngx_max(1, zone->shm.size / NGX_HTTP_FOWHARIMU_SLOT / 16);

    return NGX_OK;
}


/* the names of what became of a token: enum fow_taken */

const char *
ngx_http_fowharimu_taken_name(uint32_t taken)
{
    static const char *const  names[] = {
        "OutOfMemory", "", "Seen", "Late", "Full", "NoId", "NoEnd", "Ahead",
        "OwnFull", "Before"
    };

    return names[taken];
}


/*
 * How the library would hold the token that was accepted just now.  It gives why
 * it can't be, and FOW_TAKEN_NEW where it can.
 */

uint32_t
ngx_http_fowharimu_entry(ngx_http_fowharimu_judged_t *judged)
{
    uint32_t  lacks;

    lacks = FOW_TAKEN_NOTHING;

    switch (fow_once_entry(&judged->validator->handle,
                           (int64_t) judged->moment, &judged->entry, &lacks))
    {

    case FOW_OK:
        return FOW_TAKEN_NEW;

    case FOW_REFUSED:
        return lacks;

    default:
        return NGX_HTTP_FOWHARIMU_NO_MEMORY;
    }
}


/*
 * Takes the token of a request that was let through otherwise, at the moment of
 * its verdict.  It gives what became of it: FOW_TAKEN_NEW where it is taken, by
 * this request: a redirect within nginx and a subrequest don't take it again.
 */

uint32_t
ngx_http_fowharimu_take(ngx_http_request_t *r,
    ngx_http_fowharimu_judged_t *judged)
{
    ngx_http_fowharimu_ctx_t  *main;

    main = ngx_http_fowharimu_main_ctx(r);

    return main ? ngx_http_fowharimu_take_once(r, &main->tokens,
                                               judged->conf->once,
                                               &judged->entry, judged->moment)
                : NGX_HTTP_FOWHARIMU_NO_MEMORY;
}


/* the same of the proof that came with it */

uint32_t
ngx_http_fowharimu_take_proof(ngx_http_request_t *r,
    ngx_http_fowharimu_judged_t *judged)
{
    ngx_http_fowharimu_ctx_t  *main;

    main = ngx_http_fowharimu_main_ctx(r);

    return main ? ngx_http_fowharimu_take_once(r, &main->proofs,
                                               judged->conf->proof_once,
                                               &judged->proof_entry,
                                               judged->moment)
                : NGX_HTTP_FOWHARIMU_NO_MEMORY;
}


static ngx_http_fowharimu_ctx_t *
ngx_http_fowharimu_main_ctx(ngx_http_request_t *r)
{
    ngx_http_fowharimu_ctx_t  *main;

    main = ngx_http_fowharimu_find_ctx(r, r->main);

    return main ? main : ngx_http_fowharimu_own_ctx(r->main);
}


/* unless this request has taken it already, in that zone */

static uint32_t
ngx_http_fowharimu_take_once(ngx_http_request_t *r,
    ngx_http_fowharimu_held_t **held, ngx_shm_zone_t *zone, fow_entry *entry,
    time_t now)
{
    uint32_t                    taken;
    ngx_http_fowharimu_held_t  *one;

    for (one = *held; one; one = one->next) {

        if (one->zone == zone
            && ngx_memcmp(one->mark, entry->mark, FOW_MARK_LEN) == 0)
        {
            return FOW_TAKEN_NEW;
        }
    }

    one = ngx_palloc(r->main->pool, sizeof(ngx_http_fowharimu_held_t));
    if (one == NULL) {
        return NGX_HTTP_FOWHARIMU_NO_MEMORY;
    }

    taken = ngx_http_fowharimu_take_entry(r->connection->log, zone, entry, now);

    if (taken == FOW_TAKEN_NEW) {
        one->zone = zone;
        ngx_memcpy(one->mark, entry->mark, FOW_MARK_LEN);
        one->next = *held;
        *held = one;
    }

    return taken;
}


/*
 * What a zone can't do for a while, whatever the request, is told as an error:
 * not for each request, since it is strangers who send them.
 */

static uint32_t
ngx_http_fowharimu_take_entry(ngx_log_t *log, ngx_shm_zone_t *zone,
    fow_entry *entry, time_t now)
{
    uint32_t                      taken;
    uint64_t                      behind;
    ngx_uint_t                    full;
    ngx_slab_pool_t              *pool;
    ngx_http_fowharimu_memory_t  *memory;

    pool = (ngx_slab_pool_t *) zone->shm.addr;
    memory = pool->data;

    ngx_shmtx_lock(&pool->mutex);

    taken = ngx_http_fowharimu_take_locked(pool, entry, now);

    behind = ngx_http_fowharimu_behind(memory, now);

    if (behind && !ngx_http_fowharimu_tells(memory, &memory->behind)) {
        behind = 0;
    }

    full = taken == FOW_TAKEN_FULL
           && ngx_http_fowharimu_tells(memory, &memory->full);

    ngx_shmtx_unlock(&pool->mutex);

    if (behind) {
        ngx_log_error(NGX_LOG_ERR, log, 0,
                      "jwt: the clock is %uL seconds behind a moment that the "
                      "zone \"%V\" has seen: until then it refuses as Late "
                      "what ends before", behind, &zone->shm.name);
    }

    if (full) {
        ngx_log_error(NGX_LOG_ERR, log, 0,
                      "jwt: the zone \"%V\" is full: it refuses what counts "
                      "once until something in it has ended",
                      &zone->shm.name);
    }

    if (taken == FOW_TAKEN_BEFORE) {
        ngx_log_error(NGX_LOG_INFO, log, 0,
                      "jwt: it was issued before this memory was opened, the "
                      "zone \"%V\", or says no \"iat\"", &zone->shm.name);
    }

    return taken;
}


/* by how many seconds, where it is more than workers differ by */

static uint64_t
ngx_http_fowharimu_behind(ngx_http_fowharimu_memory_t *memory, time_t now)
{
    uint64_t  moment;

    moment = now > 0 ? (uint64_t) now : 0;

    return memory->latest > moment
           && memory->latest - moment > NGX_HTTP_FOWHARIMU_APART
           ? memory->latest - moment : 0;
}


/* whether an error is told now; 0 stands where it never was */

static ngx_uint_t
ngx_http_fowharimu_tells(ngx_http_fowharimu_memory_t *memory, uint64_t *told)
{
    if (*told && memory->latest + 1 - *told < NGX_HTTP_FOWHARIMU_AGAIN) {
        return 0;
    }

    *told = memory->latest + 1;

    return 1;
}


/* as jwt_once of the library does, step by step */

static uint32_t
ngx_http_fowharimu_take_locked(ngx_slab_pool_t *pool, fow_entry *entry,
    time_t now)
{
    ngx_http_fowharimu_memory_t  *memory;

    memory = pool->data;

    if (now > 0 && (uint64_t) now > memory->latest) {
        memory->latest = now;
    }

    if (entry->grace > memory->span) {
        memory->span = entry->grace;
    }

    if (entry->issued < memory->opened) {
        return FOW_TAKEN_BEFORE;
    }

    /* (a moment has 63 bits, and a grace 33) */

    if (entry->moment < memory->horizon
        || entry->moment + entry->grace < memory->latest)
    {
        return FOW_TAKEN_LATE;
    }

    if (ngx_http_fowharimu_find_taken(memory, entry->mark)) {
        return FOW_TAKEN_SEEN;
    }

    if (ngx_http_fowharimu_is_own_full(pool, entry)) {
        return FOW_TAKEN_OWN_FULL;
    }

    ngx_http_fowharimu_drop_passed(pool);

    return ngx_http_fowharimu_put(pool, entry);
}


static uint32_t
ngx_http_fowharimu_put(ngx_slab_pool_t *pool, fow_entry *entry)
{
    ngx_http_fowharimu_owner_t   *owner;
    ngx_http_fowharimu_taken_t   *taken;
    ngx_http_fowharimu_memory_t  *memory;

    memory = pool->data;
    owner = NULL;

    taken = ngx_slab_alloc_locked(pool, sizeof(ngx_http_fowharimu_taken_t));
    if (taken == NULL) {
        return FOW_TAKEN_FULL;
    }

    if (entry->owned) {
        owner = ngx_http_fowharimu_find_owner(memory, entry->owner);

        if (owner == NULL) {
            owner = ngx_http_fowharimu_add_owner(pool, entry->owner);
        }

        if (owner == NULL) {
            ngx_slab_free_locked(pool, taken);
            return FOW_TAKEN_FULL;
        }
    }

    taken->moment = entry->moment;
    taken->owner = owner;
    ngx_memcpy(taken->mark, entry->mark, FOW_MARK_LEN);

    taken->by_mark.key = 0;
    taken->by_moment.key = 0;
    taken->by_own.key = 0;

    ngx_rbtree_insert(&memory->marks, &taken->by_mark);
    ngx_rbtree_insert(&memory->turns, &taken->by_moment);

    if (owner) {
        ngx_rbtree_insert(&owner->own, &taken->by_own);
        owner->number++;
    }

    return FOW_TAKEN_NEW;
}


static ngx_http_fowharimu_taken_t *
ngx_http_fowharimu_find_taken(ngx_http_fowharimu_memory_t *memory,
    u_char *mark)
{
    ngx_int_t                    rc;
    ngx_rbtree_node_t           *node;
    ngx_http_fowharimu_taken_t  *taken;

    node = memory->marks.root;

    while (node != &memory->marks_sentinel) {

        taken = ngx_rbtree_data(node, ngx_http_fowharimu_taken_t, by_mark);
        rc = ngx_memcmp(mark, taken->mark, FOW_MARK_LEN);

        if (rc == 0) {
            return taken;
        }

        node = rc < 0 ? node->left : node->right;
    }

    return NULL;
}


static ngx_http_fowharimu_owner_t *
ngx_http_fowharimu_find_owner(ngx_http_fowharimu_memory_t *memory,
    u_char *name)
{
    ngx_int_t                    rc;
    ngx_rbtree_node_t           *node;
    ngx_http_fowharimu_owner_t  *owner;

    node = memory->owners.root;

    while (node != &memory->owners_sentinel) {

        owner = ngx_rbtree_data(node, ngx_http_fowharimu_owner_t, by_name);
        rc = ngx_memcmp(name, owner->name, FOW_MARK_LEN);

        if (rc == 0) {
            return owner;
        }

        node = rc < 0 ? node->left : node->right;
    }

    return NULL;
}


static ngx_http_fowharimu_owner_t *
ngx_http_fowharimu_add_owner(ngx_slab_pool_t *pool, u_char *name)
{
    ngx_http_fowharimu_owner_t   *owner;
    ngx_http_fowharimu_memory_t  *memory;

    memory = pool->data;

    owner = ngx_slab_alloc_locked(pool, sizeof(ngx_http_fowharimu_owner_t));
    if (owner == NULL) {
        return NULL;
    }

    owner->number = 0;
    owner->by_name.key = 0;
    ngx_memcpy(owner->name, name, FOW_MARK_LEN);

    ngx_rbtree_init(&owner->own, &owner->own_sentinel,
                    ngx_http_fowharimu_insert_own);
    ngx_rbtree_insert(&memory->owners, &owner->by_name);

    return owner;
}


/* its own passed one goes first */

static ngx_uint_t
ngx_http_fowharimu_is_own_full(ngx_slab_pool_t *pool, fow_entry *entry)
{
    ngx_rbtree_node_t            *node;
    ngx_http_fowharimu_owner_t   *owner;
    ngx_http_fowharimu_taken_t   *taken;
    ngx_http_fowharimu_memory_t  *memory;

    memory = pool->data;

    owner = entry->owned ? ngx_http_fowharimu_find_owner(memory, entry->owner)
                         : NULL;

    if (owner == NULL || owner->number < memory->share) {
        return 0;
    }

    node = ngx_rbtree_min(owner->own.root, &owner->own_sentinel);
    taken = ngx_rbtree_data(node, ngx_http_fowharimu_taken_t, by_own);

    if (!ngx_http_fowharimu_has_passed(memory, taken)) {
        return 1;
    }

    ngx_http_fowharimu_drop(pool, taken);

    /* (a reload may have made the share less than what it has) */

    owner = ngx_http_fowharimu_find_owner(memory, entry->owner);

    return owner && owner->number >= memory->share;
}


static ngx_uint_t
ngx_http_fowharimu_has_passed(ngx_http_fowharimu_memory_t *memory,
    ngx_http_fowharimu_taken_t *taken)
{
    return taken->moment + memory->span < memory->latest;
}


/* drops what has passed, the earliest first, and no more than two */

static void
ngx_http_fowharimu_drop_passed(ngx_slab_pool_t *pool)
{
    ngx_uint_t                    n;
    ngx_rbtree_node_t            *node;
    ngx_http_fowharimu_taken_t   *taken;
    ngx_http_fowharimu_memory_t  *memory;

    memory = pool->data;

    for (n = 0; n < 2 && memory->turns.root != &memory->turns_sentinel; n++) {

        node = ngx_rbtree_min(memory->turns.root, &memory->turns_sentinel);
        taken = ngx_rbtree_data(node, ngx_http_fowharimu_taken_t, by_moment);

        if (!ngx_http_fowharimu_has_passed(memory, taken)) {
            return;
        }

        ngx_http_fowharimu_drop(pool, taken);
    }
}


/* what has its moment, or an earlier one, is late from then on */

static void
ngx_http_fowharimu_drop(ngx_slab_pool_t *pool,
    ngx_http_fowharimu_taken_t *taken)
{
    ngx_http_fowharimu_owner_t   *owner;
    ngx_http_fowharimu_memory_t  *memory;

    memory = pool->data;
    owner = taken->owner;

    if (taken->moment + 1 > memory->horizon) {
        memory->horizon = taken->moment + 1;
    }

    ngx_rbtree_delete(&memory->marks, &taken->by_mark);
    ngx_rbtree_delete(&memory->turns, &taken->by_moment);

    if (owner) {
        ngx_rbtree_delete(&owner->own, &taken->by_own);
        owner->number--;

        if (owner->number == 0) {
            ngx_rbtree_delete(&memory->owners, &owner->by_name);
            ngx_slab_free_locked(pool, owner);
        }
    }

    ngx_slab_free_locked(pool, taken);
}


static void
ngx_http_fowharimu_insert_mark(ngx_rbtree_node_t *temp,
    ngx_rbtree_node_t *node, ngx_rbtree_node_t *sentinel)
{
    ngx_rbtree_node_t           **p;
    ngx_http_fowharimu_taken_t   *one, *other;

    one = ngx_rbtree_data(node, ngx_http_fowharimu_taken_t, by_mark);

    for ( ;; ) {
        other = ngx_rbtree_data(temp, ngx_http_fowharimu_taken_t, by_mark);
        p = ngx_memcmp(one->mark, other->mark, FOW_MARK_LEN) < 0
            ? &temp->left : &temp->right;

        if (*p == sentinel) {
            break;
        }

        temp = *p;
    }

    ngx_http_fowharimu_hang(p, temp, node, sentinel);
}


static void
ngx_http_fowharimu_insert_name(ngx_rbtree_node_t *temp,
    ngx_rbtree_node_t *node, ngx_rbtree_node_t *sentinel)
{
    ngx_rbtree_node_t           **p;
    ngx_http_fowharimu_owner_t   *one, *other;

    one = ngx_rbtree_data(node, ngx_http_fowharimu_owner_t, by_name);

    for ( ;; ) {
        other = ngx_rbtree_data(temp, ngx_http_fowharimu_owner_t, by_name);
        p = ngx_memcmp(one->name, other->name, FOW_MARK_LEN) < 0
            ? &temp->left : &temp->right;

        if (*p == sentinel) {
            break;
        }

        temp = *p;
    }

    ngx_http_fowharimu_hang(p, temp, node, sentinel);
}


static void
ngx_http_fowharimu_insert_turn(ngx_rbtree_node_t *temp,
    ngx_rbtree_node_t *node, ngx_rbtree_node_t *sentinel)
{
    ngx_rbtree_node_t           **p;
    ngx_http_fowharimu_taken_t   *one, *other;

    one = ngx_rbtree_data(node, ngx_http_fowharimu_taken_t, by_moment);

    for ( ;; ) {
        other = ngx_rbtree_data(temp, ngx_http_fowharimu_taken_t, by_moment);
        p = one->moment < other->moment ? &temp->left : &temp->right;

        if (*p == sentinel) {
            break;
        }

        temp = *p;
    }

    ngx_http_fowharimu_hang(p, temp, node, sentinel);
}


static void
ngx_http_fowharimu_insert_own(ngx_rbtree_node_t *temp,
    ngx_rbtree_node_t *node, ngx_rbtree_node_t *sentinel)
{
    ngx_rbtree_node_t           **p;
    ngx_http_fowharimu_taken_t   *one, *other;

    one = ngx_rbtree_data(node, ngx_http_fowharimu_taken_t, by_own);

    for ( ;; ) {
        other = ngx_rbtree_data(temp, ngx_http_fowharimu_taken_t, by_own);
        p = one->moment < other->moment ? &temp->left : &temp->right;

        if (*p == sentinel) {
            break;
        }

        temp = *p;
    }

    ngx_http_fowharimu_hang(p, temp, node, sentinel);
}


static void
ngx_http_fowharimu_hang(ngx_rbtree_node_t **p, ngx_rbtree_node_t *temp,
    ngx_rbtree_node_t *node, ngx_rbtree_node_t *sentinel)
{
    *p = node;
    node->parent = temp;
    node->left = sentinel;
    node->right = sentinel;
    ngx_rbt_red(node);
}
