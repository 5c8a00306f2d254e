//! The functions of `fowharimu.h`, as they stand there. The crate `fowharimu` is safe.
#![allow(non_camel_case_types)]

use std::os::raw::{c_char, c_void};

/// The number of the interface that stands here.
pub const FOW_ABI: u32 = 5;

pub const FOW_OK: u32 = 0;
pub const FOW_REFUSED: u32 = 1;
pub const FOW_OUT_OF_MEMORY: u32 = 3;
pub const FOW_NOT_OPEN: u32 = 4;
pub const FOW_TOO_SHORT: u32 = 5;
pub const FOW_ABSENT: u32 = 6;
pub const FOW_DENIED: u32 = 7;
pub const FOW_UNNAMED: u32 = 8;
pub const FOW_NOT_EXPECTED: u32 = 9;

pub const FOW_NO_FETCH: u64 = 0;
pub const FOW_FETCH_BEGINS: u64 = 1;
pub const FOW_FETCH_UNDER_WAY: u64 = 2;

pub const FOW_ASKER_TOKEN: u64 = 0;
pub const FOW_ASKER_REFUSED: u64 = 1;
pub const FOW_ASKER_OWNER: u64 = 2;
pub const FOW_ASKER_WAITED: u64 = 3;

pub const FOW_ASKED_KEYS: u32 = 0;
pub const FOW_ASKED_OPENID: u32 = 1;
pub const FOW_ASKED_OAUTH: u32 = 2;

pub const FOW_STEP_FAIL: u32 = 0;
pub const FOW_STEP_TAKE: u32 = 1;
pub const FOW_STEP_FOLLOW: u32 = 2;
pub const FOW_STEP_ASK_OAUTH: u32 = 3;
pub const FOW_STEP_TOO_OFTEN: u32 = 4;

pub const FOW_UNMET_NOTHING: u32 = 0;
pub const FOW_UNMET_ABSENT: u32 = 1;
pub const FOW_UNMET_OTHER: u32 = 2;

pub const FOW_TAKEN_NOTHING: u32 = 0;
pub const FOW_TAKEN_NEW: u32 = 1;
pub const FOW_TAKEN_SEEN: u32 = 2;
pub const FOW_TAKEN_LATE: u32 = 3;
pub const FOW_TAKEN_FULL: u32 = 4;
pub const FOW_TAKEN_NO_ID: u32 = 5;
pub const FOW_TAKEN_NO_END: u32 = 6;
pub const FOW_TAKEN_AHEAD: u32 = 7;
pub const FOW_TAKEN_OWN_FULL: u32 = 8;
pub const FOW_TAKEN_BEFORE: u32 = 9;

pub const FOW_BOUND_NOT: u32 = 0;
pub const FOW_BOUND_KEY: u32 = 1;
pub const FOW_BOUND_CERTIFICATE: u32 = 2;

pub const FOW_THUMBPRINT_LEN: usize = 43;

/// A policy, a key set, what was told of signatures, and the last report.
#[repr(C)]
#[derive(Debug)]
pub struct fow_validator {
    pub at: *mut c_void,
    pub held: bool,
}

/// An access rule.
#[repr(C)]
#[derive(Debug)]
pub struct fow_access {
    pub at: *mut c_void,
    pub held: bool,
}

/// A memory of tokens that count once.
#[repr(C)]
#[derive(Debug)]
pub struct fow_once {
    pub at: *mut c_void,
    pub held: bool,
}

/// A policy for proofs of possession, and the proof that was accepted last.
#[repr(C)]
#[derive(Debug)]
pub struct fow_possession {
    pub at: *mut c_void,
    pub held: bool,
}

/// What is said of a token.
#[repr(C)]
#[derive(Clone, Copy, Debug, Default)]
pub struct fow_report {
    pub work: u64,
    pub tries: u64,
    pub verdict: u32,
    pub fault: u32,
    pub part: u32,
    pub signature: u32,
    pub key: u32,
    pub claim: u32,
}

/// What is answered to a request.
#[repr(C)]
#[derive(Clone, Copy, Debug, Default)]
pub struct fow_reply {
    pub status: u32,
    pub bearer: u32,
    pub dpop: u32,
}

pub const FOW_NO_SCHEME: u32 = 0;
pub const FOW_BEARER: u32 = 1;
pub const FOW_DPOP: u32 = 2;

pub const FOW_USE_DPOP_NONCE: u32 = 7;

pub const FOW_PROOF_OTHER_NONCE: u32 = 1303;

pub const FOW_NONCE_LEN: usize = 43;

/// What stands of the fetches of keys by URL. A caller hands it to the calls, and looks at none of it.
#[repr(C)]
#[derive(Clone, Copy, Debug, Default)]
pub struct fow_renewal {
    pub refresh_after: u64,
    pub cool_down: u64,
    pub max_age: u64,
    pub timeout: u64,
    pub heard: u64,
    pub keys_age: u64,
    pub keys_ticket: u64,
    pub begun_age: u64,
    pub ticket: u64,
    pub is_open: u64,
    pub waiting: u64,
    pub first: u64,
    pub second: u64,
    pub third: u64,
    pub fourth: u64,
}

/// Which keys are to be used, and what becomes of fetches.
#[repr(C)]
#[derive(Clone, Copy, Debug, Default)]
pub struct fow_renewal_answer {
    pub has_keys: u64,
    pub keys: u64,
    pub fetch: u64,
    pub ticket: u64,
    pub left: u64,
}

/// Where the parts of a URL stand.
#[repr(C)]
#[derive(Clone, Copy, Debug, Default)]
pub struct fow_url {
    pub https: u32,
    pub port: u32,
    pub host: usize,
    pub host_end: usize,
    pub target: usize,
}

/// What follows on an answer.
#[repr(C)]
#[derive(Clone, Copy, Debug, Default)]
pub struct fow_next {
    pub step: u32,
    pub most: u32,
}

extern "C" {
    pub fn fow_abi() -> u32;

    pub fn fow_version() -> *const c_char;

    pub fn fow_open(
        validator: *mut fow_validator,
        policy: *const u8,
        policy_len: usize,
        keys: *const u8,
        keys_len: usize,
        fault: *mut u32,
    ) -> u32;

    pub fn fow_open_prepared(
        validator: *mut fow_validator,
        policy: *const u8,
        policy_len: usize,
        keys: *const u8,
        keys_len: usize,
        most: usize,
        fault: *mut u32,
    ) -> u32;

    pub fn fow_open_beside(validator: *mut fow_validator, another: *mut fow_validator) -> u32;

    pub fn fow_refused_member(
        policy: *const u8,
        policy_len: usize,
        out: *mut u8,
        out_len: usize,
        written: *mut usize,
    ) -> u32;

    pub fn fow_remember(validator: *mut fow_validator, tokens: usize, octets: usize) -> u32;

    pub fn fow_remembered(validator: *mut fow_validator) -> bool;

    pub fn fow_close(validator: *mut fow_validator);

    pub fn fow_accepted_payload(
        validator: *mut fow_validator,
        out: *mut u8,
        out_len: usize,
        written: *mut usize,
    ) -> u32;

    pub fn fow_unverified_header(
        validator: *mut fow_validator,
        token: *const u8,
        token_len: usize,
        signature: u32,
        out: *mut u8,
        out_len: usize,
        written: *mut usize,
    ) -> u32;

    pub fn fow_unverified_issuer(
        validator: *mut fow_validator,
        token: *const u8,
        token_len: usize,
        out: *mut u8,
        out_len: usize,
        written: *mut usize,
    ) -> u32;

    pub fn fow_sole_issuer(
        validator: *mut fow_validator,
        out: *mut u8,
        out_len: usize,
        written: *mut usize,
    ) -> u32;

    pub fn fow_token_limit(validator: *mut fow_validator, limit: *mut u32) -> u32;

    pub fn fow_documents_are_public(validator: *mut fow_validator) -> bool;

    pub fn fow_text_member(
        document: *const u8,
        document_len: usize,
        name: *const u8,
        name_len: usize,
        out: *mut u8,
        out_len: usize,
        written: *mut usize,
    ) -> u32;

    pub fn fow_url_of(
        url: *const u8,
        url_len: usize,
        allows_http: bool,
        parts: *mut fow_url,
    ) -> u32;

    pub fn fow_redirected(
        url: *const u8,
        url_len: usize,
        location: *const u8,
        location_len: usize,
        out: *mut u8,
        out_len: usize,
        written: *mut usize,
    ) -> u32;

    pub fn fow_metadata_url(
        asked: u32,
        issuer: *const u8,
        issuer_len: usize,
        out: *mut u8,
        out_len: usize,
        written: *mut usize,
    ) -> u32;

    pub fn fow_keys_url(
        metadata: *const u8,
        metadata_len: usize,
        issuer: *const u8,
        issuer_len: usize,
        out: *mut u8,
        out_len: usize,
        written: *mut usize,
    ) -> u32;

    pub fn fow_next_step(asked: u32, status: u32, redirections: u32, next: *mut fow_next);

    pub fn fow_renewal_begin(
        renewal: *mut fow_renewal,
        refresh_after: u64,
        cool_down: u64,
        max_age: u64,
        timeout: u64,
        now: u64,
    );

    pub fn fow_renewal_ask(
        renewal: *mut fow_renewal,
        now: u64,
        asker: u64,
        keys: u64,
        answer: *mut fow_renewal_answer,
    );

    pub fn fow_renewal_took(renewal: *mut fow_renewal, now: u64, ticket: u64) -> bool;

    pub fn fow_renewal_failed(renewal: *mut fow_renewal, now: u64, ticket: u64) -> bool;

    pub fn fow_renewal_wait(renewal: *mut fow_renewal, now: u64, ticket: u64, name: u64) -> bool;

    pub fn fow_renewal_due(renewal: *const fow_renewal) -> u64;

    pub fn fow_renewal_quiet_for(renewal: *const fow_renewal) -> u64;

    pub fn fow_refused_claim(
        validator: *mut fow_validator,
        out: *mut u8,
        out_len: usize,
        written: *mut usize,
    ) -> u32;

    pub fn fow_credentials(
        schemes: u32,
        value: *const u8,
        value_len: usize,
        scheme: *mut u32,
        from: *mut usize,
        to: *mut usize,
    ) -> u32;

    pub fn fow_reply_to(schemes: u32, shown: u32, outcome: u32, reply: *mut fow_reply);

    pub fn fow_proof_outcome(status: u32, fault: u32) -> u32;

    pub fn fow_taken_outcome(of_proof: u32, status: u32, taken: u32) -> u32;

    pub fn fow_nonce(
        secret: *const u8,
        secret_len: usize,
        period: u32,
        now: i64,
        out: *mut u8,
        out_len: usize,
        written: *mut usize,
    ) -> u32;

    pub fn fow_quotable(text: *const u8, text_len: usize) -> bool;

    pub fn fow_challenge(
        scheme: u32,
        challenge: u32,
        realm: *const u8,
        realm_len: usize,
        scope: *const u8,
        scope_len: usize,
        algs: *const u8,
        algs_len: usize,
        out: *mut u8,
        out_len: usize,
        written: *mut usize,
    ) -> u32;

    pub fn fow_access_open(
        access: *mut fow_access,
        rule: *const u8,
        rule_len: usize,
        fault: *mut u32,
    ) -> u32;

    pub fn fow_access_refused(
        rule: *const u8,
        rule_len: usize,
        out: *mut u8,
        out_len: usize,
        written: *mut usize,
    ) -> u32;

    pub fn fow_access_scope(
        access: *mut fow_access,
        number: u32,
        out: *mut u8,
        out_len: usize,
        written: *mut usize,
    ) -> u32;

    pub fn fow_access_close(access: *mut fow_access);

    pub fn fow_denied(
        validator: *mut fow_validator,
        access: *mut fow_access,
        denial: *mut u32,
    ) -> u32;

    pub fn fow_denied_name(
        validator: *mut fow_validator,
        access: *mut fow_access,
        out: *mut u8,
        out_len: usize,
        written: *mut usize,
    ) -> u32;

    pub fn fow_expect_text(
        validator: *mut fow_validator,
        claim: *const u8,
        claim_len: usize,
        text: *const u8,
        text_len: usize,
        unmet: *mut u32,
    ) -> u32;

    pub fn fow_expect_half_hash(
        validator: *mut fow_validator,
        token: *const u8,
        token_len: usize,
        signature: u32,
        claim: *const u8,
        claim_len: usize,
        octets: *const u8,
        octets_len: usize,
        unmet: *mut u32,
    ) -> u32;

    pub fn fow_once_open(once: *mut fow_once, tokens: usize, share: usize, opened: u64) -> u32;

    pub fn fow_once_take(
        once: *mut fow_once,
        validator: *mut fow_validator,
        now: i64,
        taken: *mut u32,
    ) -> u32;

    pub fn fow_once_close(once: *mut fow_once);

    pub fn fow_possession_open(
        possession: *mut fow_possession,
        policy: *const u8,
        policy_len: usize,
        fault: *mut u32,
    ) -> u32;

    pub fn fow_possession_judge(
        possession: *mut fow_possession,
        validator: *mut fow_validator,
        proof: *const u8,
        proof_len: usize,
        method: *const u8,
        method_len: usize,
        uri: *const u8,
        uri_len: usize,
        nonce: *const u8,
        nonce_len: usize,
        token: *const u8,
        token_len: usize,
        now: i64,
        fault: *mut u32,
    ) -> u32;

    pub fn fow_possession_take(
        possession: *mut fow_possession,
        once: *mut fow_once,
        now: i64,
        taken: *mut u32,
    ) -> u32;

    pub fn fow_possession_thumbprint(
        possession: *mut fow_possession,
        out: *mut u8,
        out_len: usize,
        written: *mut usize,
    ) -> u32;

    pub fn fow_possession_algs(
        possession: *mut fow_possession,
        out: *mut u8,
        out_len: usize,
        written: *mut usize,
    ) -> u32;

    pub fn fow_possession_fresh(
        possession: *mut fow_possession,
        secret: *const u8,
        secret_len: usize,
        period: u32,
        now: i64,
    ) -> u32;

    pub fn fow_possession_close(possession: *mut fow_possession);

    pub fn fow_shown(
        validator: *mut fow_validator,
        possession: *mut fow_possession,
        der: *const u8,
        der_len: usize,
        ways: *mut u32,
        fault: *mut u32,
    ) -> u32;

    pub fn fow_fault_name(fault: u32) -> *const c_char;

    pub fn fow_judge(
        validator: *mut fow_validator,
        token: *const u8,
        token_len: usize,
        now: i64,
        report: *mut fow_report,
    ) -> u32;
}
