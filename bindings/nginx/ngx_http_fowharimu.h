
/* What the sources of the module share. */

#ifndef _NGX_HTTP_FOWHARIMU_H_INCLUDED_
#define _NGX_HTTP_FOWHARIMU_H_INCLUDED_

#include <ngx_config.h>
#include <ngx_core.h>
#include <ngx_http.h>

#include <fowharimu.h>


/* the longest documents that the library reads, in octets */
#define NGX_HTTP_FOWHARIMU_MAX_POLICY  65536
#define NGX_HTTP_FOWHARIMU_MAX_KEYS    4194304
#define NGX_HTTP_FOWHARIMU_MAX_ACCESS  65536

/* how many tokens of how many octets are remembered, where nothing is said */
#define NGX_HTTP_FOWHARIMU_TOKENS      1000
#define NGX_HTTP_FOWHARIMU_OCTETS      4096

/* how long a token of "jwt_issue" lives, in seconds, where nothing is said */
#define NGX_HTTP_FOWHARIMU_LIFETIME    60

/* why a token, or a proof, that counts once can't be taken, beside fow_taken */
#define NGX_HTTP_FOWHARIMU_NO_MEMORY   0

/* how long a nonce for proofs is offered, in seconds, where nothing is said */
#define NGX_HTTP_FOWHARIMU_PERIOD      60

/* the most octets that a challenge has beside what it quotes */
#define NGX_HTTP_FOWHARIMU_BESIDE_QUOTED  64


/* where the token of a request is */
typedef enum {
    NGX_HTTP_FOWHARIMU_BEARER = 0,              /* in "Authorization" */
    NGX_HTTP_FOWHARIMU_HEADER,
    NGX_HTTP_FOWHARIMU_COOKIE,
    NGX_HTTP_FOWHARIMU_ARGUMENT,
    NGX_HTTP_FOWHARIMU_VARIABLE
} ngx_http_fowharimu_kind_e;


typedef struct {
    ngx_http_fowharimu_kind_e        kind;
    ngx_str_t                        name;      /* of a header, .. */
    ngx_int_t                        index;     /* of a variable */
} ngx_http_fowharimu_place_t;


typedef struct {
    fow_validator                    handle;
} ngx_http_fowharimu_validator_t;


/* by what it is seen that a file has changed */
typedef struct {
    time_t                           mtime;
    long                             nsec;
    off_t                            size;
    ngx_file_uniq_t                  uniq;
} ngx_http_fowharimu_stamp_t;


/* a file of keys that is looked at again */
typedef struct {
    ngx_str_t                        name;
    ngx_msec_t                       interval;
    ngx_http_fowharimu_stamp_t       stamp;
} ngx_http_fowharimu_file_t;


/* a policy and a key set, and the validator on them */
typedef struct {
    ngx_str_t                        policy;    /* the document's octets */
    ngx_str_t                        keys;
    ngx_http_fowharimu_file_t       *file;      /* that is looked at again */
    ngx_http_fowharimu_validator_t  *validator;
} ngx_http_fowharimu_grounds_t;


/* what a worker looks at again, and the policy that stands beside it */
typedef struct {
    ngx_event_t                      event;
    ngx_http_fowharimu_file_t        file;
    ngx_str_t                        policy;
    ngx_array_t                      openings;  /* by pointers */
    unsigned                         missing:1; /* and the log has it */
} ngx_http_fowharimu_watch_t;


/* a validator with the documents that it was opened on */
typedef struct {
    ngx_str_t                        policy;
    ngx_str_t                        keys;
    ngx_int_t                        tokens;    /* that are remembered */
    size_t                           octets;
    ngx_http_fowharimu_validator_t  *validator;
} ngx_http_fowharimu_opening_t;


typedef struct {
    ngx_str_t                        name;
    ngx_http_fowharimu_grounds_t     grounds;
} ngx_http_fowharimu_issuer_t;


/* those of "jwt_issuer", and the one whose policy says what is a token */
typedef struct {
    ngx_array_t                      all;       /* ngx_http_fowharimu_issuer_t */
    ngx_http_fowharimu_validator_t  *reader;
} ngx_http_fowharimu_issuers_t;


/* an access rule: the document of a file, or what a "jwt_require" asks for */
typedef struct {
    fow_access                       handle;
    ngx_str_t                        claim;     /* that "jwt_require" names */
    ngx_str_t                        scopes;    /* with a space between two */
} ngx_http_fowharimu_rule_t;


/* the tokens or the proofs that a main request has taken, each in its zone */
typedef struct ngx_http_fowharimu_held_s  ngx_http_fowharimu_held_t;

struct ngx_http_fowharimu_held_s {
    ngx_shm_zone_t                  *zone;
    u_char                           mark[FOW_MARK_LEN];
    ngx_http_fowharimu_held_t       *next;
};


/* a policy for proofs of possession, with the names of its algorithms */
typedef struct {
    fow_possession                   handle;
    ngx_str_t                        algs;
} ngx_http_fowharimu_proofs_t;


/* "jwt_dpop_nonce" */
typedef struct {
    ngx_str_t                        secret;
    uint32_t                         period;    /* in seconds */
} ngx_http_fowharimu_nonce_t;


/* a line "jwt_expect" */
typedef struct {
    ngx_str_t                        name;      /* of a claim */
    ngx_str_t                        claim;     /* or a JSON Pointer to it */
    ngx_http_complex_value_t         value;
} ngx_http_fowharimu_expectation_t;


/* a line "jwt_header" */
typedef struct {
    ngx_str_t                        name;
    u_char                          *lowcase;
    ngx_uint_t                       hash;
    ngx_uint_t                       claim;     /* its number */
    ngx_str_t                        otherwise; /* where it is absent */
} ngx_http_fowharimu_header_t;


/* "jwt_issue": who signs, and what is always said, as it stands in JSON */
typedef struct {
    fow_validator                    handle;
    uint32_t                         alg;
    ngx_str_t                        head;
    size_t                           length;    /* of a token that was tried */
    time_t                           lifetime;
    unsigned                         off:1;
} ngx_http_fowharimu_issue_t;


typedef struct {
    ngx_array_t                      claims;    /* ngx_str_t: named somewhere */
    ngx_array_t                      indexes;   /* ngx_uint_t: of variables */
    ngx_array_t                      watches;   /* by pointers */
    ngx_array_t                      openings;  /* by pointers */
    ngx_array_t                      asked;     /* ngx_str_t: "auth_request" */
    ngx_array_t                      limited;   /* ngx_str_t: locations */
    unsigned                         named:1;   /* some document is */
    unsigned                         enabled:1;
    unsigned                         payload:1; /* a variable names it */
    unsigned                         changes:1; /* what goes on */
} ngx_http_fowharimu_main_conf_t;


typedef struct {
    ngx_flag_t                       enable;
    ngx_uint_t                       open;      /* a "return" answers before */
    ngx_uint_t                       answer;    /* the status of "jwt_answer" */
    u_char                          *file;      /* where it was enabled */
    ngx_uint_t                       line;
    ngx_http_fowharimu_grounds_t     grounds;   /* of "jwt_policy", "jwt_keys" */
    ngx_http_fowharimu_issuers_t    *issuers;
    ngx_http_fowharimu_place_t      *token;
    ngx_flag_t                       strip;     /* the token doesn't go on */
    ngx_array_t                     *headers;   /* of "jwt_header" */
    ngx_http_fowharimu_issue_t      *issue;
    ngx_array_t                     *issued;    /* ngx_str_t: its claims */
    ngx_http_fowharimu_rule_t       *rule;      /* of "jwt_access" */
    ngx_array_t                     *demands;   /* such rules, by pointers */
    ngx_array_t                     *expected;  /* of "jwt_expect" */
    ngx_shm_zone_t                  *once;      /* of "jwt_once" */
    ngx_uint_t                       schemes;   /* the sum of enum fow_scheme */
    ngx_http_fowharimu_proofs_t     *proofs;    /* of "jwt_dpop_policy" */
    ngx_str_t                        origin;
    ngx_shm_zone_t                  *proof_once;
    ngx_http_fowharimu_nonce_t      *nonce;
    ngx_http_complex_value_t        *certificate;
    ngx_int_t                        tokens;    /* that are remembered */
    size_t                           octets;    /* of the longest of them */
} ngx_http_fowharimu_loc_conf_t;


/* what is known of a token; an empty text is absent */
typedef struct {
    ngx_http_fowharimu_loc_conf_t   *conf;      /* by which it was judged */
    ngx_http_fowharimu_validator_t  *validator;
    time_t                           moment;
    ngx_int_t                        found;     /* as the token was looked for */
    ngx_int_t                        status;    /* NGX_OK: it is accepted */
    uint32_t                         scheme;    /* that was shown */
    uint32_t                         bearer;    /* enum fow_challenge_kind */
    uint32_t                         dpop;
    ngx_str_t                       *scopes;    /* of the rule, if any */
    ngx_str_t                        token;
    ngx_str_t                        proof;     /* of the scheme "DPoP" */
    ngx_str_t                        verdict;
    ngx_str_t                        fault;
    ngx_str_t                        payload;   /* in base64url */
    ngx_str_t                        issued;    /* with the scheme "Bearer" */
    uint64_t                         tries;     /* that were paid */
    uint64_t                         work;
    uint64_t                         remembered;
    fow_entry                        entry;     /* with "jwt_once" */
    fow_entry                        proof_entry;
    u_char                           digits[3][NGX_INT64_LEN];
    ngx_str_t                       *claims;    /* in the order of the names */
    unsigned                         passed:1;  /* the access phase, by it */
} ngx_http_fowharimu_judged_t;


/* of a request or subrequest; an internal redirect doesn't end it */
typedef struct {
    ngx_http_request_t              *request;
    ngx_http_fowharimu_judged_t      last;
    ngx_list_t                       headers;   /* as they were sent */
    ngx_str_t                        args;
    ngx_str_t                        stripped;  /* the same without the token */
    ngx_http_fowharimu_held_t       *tokens;    /* that it has taken */
    ngx_http_fowharimu_held_t       *proofs;    /* (both of a main request) */
    unsigned                         under_way:1;
    unsigned                         changed:1; /* others go on than .headers */
    unsigned                         cut:1;     /* .stripped go on */
} ngx_http_fowharimu_ctx_t;

/* what the name of a variable with a claim begins with */
#define NGX_HTTP_FOWHARIMU_PREFIX  "jwt_claim_"


ngx_int_t ngx_http_fowharimu_access_handler(ngx_http_request_t *r);
ngx_int_t ngx_http_fowharimu_subrequest_handler(ngx_http_request_t *r);
ngx_int_t ngx_http_fowharimu_answer_handler(ngx_http_request_t *r);
ngx_http_fowharimu_judged_t *ngx_http_fowharimu_judged(ngx_http_request_t *r);
ngx_http_fowharimu_judged_t *ngx_http_fowharimu_accepted_here(
    ngx_http_request_t *r, ngx_http_fowharimu_loc_conf_t *lcf);
ngx_http_fowharimu_ctx_t *ngx_http_fowharimu_find_ctx(ngx_http_request_t *r,
    ngx_http_request_t *owner);
ngx_http_fowharimu_ctx_t *ngx_http_fowharimu_own_ctx(ngx_http_request_t *r);
ngx_int_t ngx_http_fowharimu_token(ngx_http_request_t *r,
    ngx_http_fowharimu_loc_conf_t *lcf, ngx_str_t *token, uint32_t *scheme);
ngx_table_elt_t *ngx_http_fowharimu_next_header(ngx_list_part_t **part,
    ngx_uint_t *i);
ngx_uint_t ngx_http_fowharimu_is_header(ngx_table_elt_t *header,
    const char *name);
ngx_uint_t ngx_http_fowharimu_is_same_header(ngx_str_t *key, ngx_str_t *name);
ngx_uint_t ngx_http_fowharimu_is_token_header(ngx_table_elt_t *header,
    ngx_http_fowharimu_loc_conf_t *lcf);
ngx_int_t ngx_http_fowharimu_without(ngx_http_request_t *r, ngx_str_t *list,
    u_char separator, ngx_str_t *name, ngx_str_t *rest);
ngx_list_t *ngx_http_fowharimu_sent_headers(ngx_http_request_t *r);
ngx_str_t *ngx_http_fowharimu_sent_args(ngx_http_request_t *r);
char *ngx_http_fowharimu_set_expected(ngx_conf_t *cf, ngx_command_t *cmd,
    void *conf);
ngx_int_t ngx_http_fowharimu_is_expected(ngx_http_request_t *r,
    ngx_http_fowharimu_loc_conf_t *lcf, ngx_http_fowharimu_judged_t *judged);
char *ngx_http_fowharimu_set_once(ngx_conf_t *cf, ngx_command_t *cmd,
    void *conf);
char *ngx_http_fowharimu_set_zone(ngx_conf_t *cf, ngx_shm_zone_t **zone);
uint32_t ngx_http_fowharimu_entry(ngx_http_fowharimu_judged_t *judged);
uint32_t ngx_http_fowharimu_take(ngx_http_request_t *r,
    ngx_http_fowharimu_judged_t *judged);
uint32_t ngx_http_fowharimu_take_proof(ngx_http_request_t *r,
    ngx_http_fowharimu_judged_t *judged);
const char *ngx_http_fowharimu_taken_name(uint32_t taken);
char *ngx_http_fowharimu_set_dpop(ngx_conf_t *cf, ngx_command_t *cmd,
    void *conf);
char *ngx_http_fowharimu_set_proofs(ngx_conf_t *cf, ngx_command_t *cmd,
    void *conf);
char *ngx_http_fowharimu_set_origin(ngx_conf_t *cf, ngx_command_t *cmd,
    void *conf);
char *ngx_http_fowharimu_set_proof_once(ngx_conf_t *cf, ngx_command_t *cmd,
    void *conf);
char *ngx_http_fowharimu_set_nonce(ngx_conf_t *cf, ngx_command_t *cmd,
    void *conf);
char *ngx_http_fowharimu_set_certificate(ngx_conf_t *cf, ngx_command_t *cmd,
    void *conf);
char *ngx_http_fowharimu_merge_possession(ngx_conf_t *cf,
    ngx_http_fowharimu_loc_conf_t *prev, ngx_http_fowharimu_loc_conf_t *conf);
ngx_uint_t ngx_http_fowharimu_is_same_possession(
    ngx_http_fowharimu_loc_conf_t *one, ngx_http_fowharimu_loc_conf_t *other);
const char *ngx_http_fowharimu_find_proof(ngx_http_request_t *r,
    ngx_http_fowharimu_judged_t *judged);
uint32_t ngx_http_fowharimu_held(ngx_http_request_t *r,
    ngx_http_fowharimu_loc_conf_t *lcf, ngx_http_fowharimu_judged_t *judged,
    const char **fault);
ngx_int_t ngx_http_fowharimu_offer_nonce(ngx_http_request_t *r,
    ngx_http_fowharimu_judged_t *judged);
ngx_table_elt_t *ngx_http_fowharimu_send_header(ngx_http_request_t *r,
    ngx_str_t *name, ngx_str_t *value);
char *ngx_http_fowharimu_set_token(ngx_conf_t *cf, ngx_command_t *cmd,
    void *conf);
ngx_int_t ngx_http_fowharimu_change_handler(ngx_http_request_t *r);
char *ngx_http_fowharimu_set_header(ngx_conf_t *cf, ngx_command_t *cmd,
    void *conf);
char *ngx_http_fowharimu_set_strip(ngx_conf_t *cf, ngx_command_t *cmd,
    void *conf);
char *ngx_http_fowharimu_merge_changes(ngx_conf_t *cf,
    ngx_http_fowharimu_loc_conf_t *prev, ngx_http_fowharimu_loc_conf_t *conf);
char *ngx_http_fowharimu_set_issue(ngx_conf_t *cf, ngx_command_t *cmd,
    void *conf);
char *ngx_http_fowharimu_set_issued(ngx_conf_t *cf, ngx_command_t *cmd,
    void *conf);
const char *ngx_http_fowharimu_issue(ngx_http_request_t *r,
    ngx_http_fowharimu_loc_conf_t *lcf, ngx_http_fowharimu_judged_t *judged);
void ngx_http_fowharimu_forget_variables(ngx_http_request_t *r);
ngx_int_t ngx_http_fowharimu_derive_variables(ngx_conf_t *cf);
ngx_int_t ngx_http_fowharimu_note_variables(ngx_cycle_t *cycle);
ngx_int_t ngx_http_fowharimu_note_claim(ngx_http_fowharimu_main_conf_t *mcf,
    ngx_str_t *name);
ngx_int_t ngx_http_fowharimu_add_variables(ngx_conf_t *cf);
ngx_int_t ngx_http_fowharimu_open(ngx_conf_t *cf,
    ngx_http_fowharimu_loc_conf_t *lcf);
uint32_t ngx_http_fowharimu_open_documents(fow_validator *handle,
    ngx_str_t *policy, ngx_str_t *keys, uint32_t *fault);
ngx_int_t ngx_http_fowharimu_watch(ngx_conf_t *cf,
    ngx_http_fowharimu_file_t *file, ngx_http_fowharimu_opening_t *opening);
ngx_int_t ngx_http_fowharimu_init_process(ngx_cycle_t *cycle);
ngx_int_t ngx_http_fowharimu_read_fd(ngx_fd_t fd, size_t size,
    ngx_str_t *document);
void ngx_http_fowharimu_set_stamp(ngx_http_fowharimu_stamp_t *stamp,
    ngx_file_info_t *fi);
ngx_int_t ngx_http_fowharimu_compare(ngx_conf_t *cf);
char *ngx_http_fowharimu_read_policy(ngx_conf_t *cf, ngx_str_t *name,
    ngx_http_fowharimu_grounds_t *grounds);
char *ngx_http_fowharimu_read_keys(ngx_conf_t *cf, ngx_str_t *name,
    ngx_str_t *recheck, ngx_http_fowharimu_grounds_t *grounds);
ngx_int_t ngx_http_fowharimu_read_file(ngx_conf_t *cf, ngx_str_t *name,
    size_t max, ngx_str_t *document, ngx_http_fowharimu_stamp_t *stamp);
char *ngx_http_fowharimu_access(ngx_conf_t *cf, ngx_command_t *cmd,
    void *conf);
char *ngx_http_fowharimu_require(ngx_conf_t *cf, ngx_command_t *cmd,
    void *conf);
u_char *ngx_http_fowharimu_put_text(u_char *p, ngx_str_t *text,
    ngx_uint_t pointer);
char *ngx_http_fowharimu_claim_set(ngx_conf_t *cf, ngx_command_t *cmd,
    void *conf);


extern ngx_module_t  ngx_http_fowharimu_module;


#endif
