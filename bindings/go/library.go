package fowharimu

/*
#include <stdlib.h>
#include <fowharimu.h>

// A validator.
typedef struct held {
	fow_validator validator;
} held;

// The octets of a text, at an address that isn't NULL.
static const uint8_t *at(_GoString_ text)
{
	return _GoStringLen(text) == 0 ? (const uint8_t *)"" : (const uint8_t *)_GoStringPtr(text);
}

static uint32_t held_open(held *it, _GoString_ policy, _GoString_ keys, uint32_t *fault)
{
	return fow_open(&it->validator, at(policy), _GoStringLen(policy), at(keys), _GoStringLen(keys), fault);
}

static uint32_t held_open_beside(held *it, held *another)
{
	return fow_open_beside(&it->validator, &another->validator);
}

static uint32_t held_remember(held *it, size_t tokens, size_t octets)
{
	return fow_remember(&it->validator, tokens, octets);
}

static bool held_remembered(held *it)
{
	return fow_remembered(&it->validator);
}

static fow_report held_judge(held *it, _GoString_ token, int64_t now)
{
	fow_report report = { 0 };
	fow_judge(&it->validator, at(token), _GoStringLen(token), now, &report);
	return report;
}

// A report, and where the token is accepted what fow_accepted_payload returns and how much it wrote.
typedef struct validated {
	fow_report report;
	uint32_t status;
	size_t written;
} validated;

static validated held_validate(held *it, _GoString_ token, int64_t now, uint8_t *out, size_t room)
{
	validated said = { .report = held_judge(it, token, now) };
	if (said.report.verdict == FOW_OK)
		said.status = fow_accepted_payload(&it->validator, out, room, &said.written);
	return said;
}

static uint32_t held_header(held *it, _GoString_ token, uint32_t signature, uint8_t *out, size_t room, size_t *written)
{
	return fow_unverified_header(&it->validator, at(token), _GoStringLen(token), signature, out, room, written);
}

static uint32_t held_issuer(held *it, _GoString_ token, uint8_t *out, size_t room, size_t *written)
{
	return fow_unverified_issuer(&it->validator, at(token), _GoStringLen(token), out, room, written);
}

static uint32_t text_member(_GoString_ document, _GoString_ name, uint8_t *out, size_t room, size_t *written)
{
	return fow_text_member(at(document), _GoStringLen(document), at(name), _GoStringLen(name), out, room, written);
}

static uint32_t held_issue(held *it, uint32_t alg, uint32_t form, uint32_t key, _GoString_ typ, _GoString_ claims, uint8_t *out,
	size_t room, size_t *written, fow_report *report)
{
	return fow_issue(&it->validator, alg, form, key, at(typ), _GoStringLen(typ), at(claims), _GoStringLen(claims), out, room,
		written, report);
}

static uint32_t refused_member(_GoString_ policy, uint8_t *out, size_t room, size_t *written)
{
	return fow_refused_member(at(policy), _GoStringLen(policy), out, room, written);
}

static uint32_t access_open(fow_access *it, _GoString_ rule, uint32_t *fault)
{
	return fow_access_open(it, at(rule), _GoStringLen(rule), fault);
}

static uint32_t access_refused(_GoString_ rule, uint8_t *out, size_t room, size_t *written)
{
	return fow_access_refused(at(rule), _GoStringLen(rule), out, room, written);
}

static void access_free(fow_access *it)
{
	fow_access_close(it);
	free(it);
}

static void held_free(held *it)
{
	fow_close(&it->validator);
	free(it);
}
*/
import "C"

import (
	"math"
	"unsafe"
)

// What a call of the library answers.
const (
	statusOK          = C.FOW_OK
	statusRefused     = C.FOW_REFUSED
	statusOutOfMemory = C.FOW_OUT_OF_MEMORY
	statusTooShort    = C.FOW_TOO_SHORT
	statusAbsent      = C.FOW_ABSENT
	statusDenied      = C.FOW_DENIED
	statusUnnamed     = C.FOW_UNNAMED
)

// scopeMissing is the number of the denial that speaks of a scope.
const scopeMissing = C.FOW_DENIED_SCOPE_MISSING

// claimByName is the number of a claim that has no number of its own.
const claimByName = C.FOW_CLAIM_BY_NAME

// held is what the library holds. It lies in C's memory, and is used by one call at a time.
type held struct {
	at *C.held
}

// verdict is what the library says of a token first.
type verdict struct {
	status, fault, part, signature, key, claim int
	work, tries                                uint64
}

// open reads a policy and a key set, and answers the status and the fault.
func (h *held) open(policy, keys []byte) (status, fault int) {
	h.at = (*C.held)(C.calloc(1, C.sizeof_held))
	if h.at == nil {
		return statusOutOfMemory, 0
	}
	var number C.uint32_t
	status = int(C.held_open(h.at, string(policy), string(keys), &number))
	return status, int(number)
}

// compare gives a *LibraryError where the library that was loaded has another interface than this package was compiled for, and else nil.
func compare() error {
	if loaded := C.fow_abi(); loaded != C.FOW_ABI {
		return &LibraryError{MadeFor: C.FOW_ABI, Loaded: int(loaded), Version: C.GoString(C.fow_version())}
	}
	return nil
}

// openBeside holds the documents of another, without reading them again, and answers the status.
func (h *held) openBeside(another *held) (status int) {
	h.at = (*C.held)(C.calloc(1, C.sizeof_held))
	if h.at == nil {
		return statusOutOfMemory
	}
	return int(C.held_open_beside(h.at, another.at))
}

// remember has the library remember tokens from now on, and answers the status.
func (h *held) remember(m memory) (status int) {
	return int(C.held_remember(h.at, C.size_t(m.tokens), C.size_t(m.octets)))
}

// remembered says whether the last verdict came out of the memory.
func (h *held) remembered() bool {
	return bool(C.held_remembered(h.at))
}

func (h *held) judge(token string, now int64) verdict {
	return verdictOf(C.held_judge(h.at, token, C.int64_t(now)))
}

func verdictOf(report C.fow_report) verdict {
	return verdict{
		status:    int(report.verdict),
		fault:     int(report.fault),
		part:      int(report.part),
		signature: int(report.signature),
		key:       int(report.key),
		claim:     int(report.claim),
		work:      uint64(report.work),
		tries:     uint64(report.tries),
	}
}

// validate judges a token, and where it is accepted gives the octets of its payload too, and the status of that: in one call of C, since each takes
// Go some time.
func (h *held) validate(token string, now int64) (verdict, []byte, int) {
	// A payload has fewer octets than its token.
	out := make([]byte, len(token)+1)
	said := C.held_validate(h.at, token, C.int64_t(now), (*C.uint8_t)(unsafe.Pointer(&out[0])), C.size_t(len(out)))
	return verdictOf(said.report), out[:said.written], int(said.status)
}

// header gives the octets of a protected header that nobody vouches for, and the status. No signature has a number that 32 bits don't have.
func (h *held) header(token string, signature int) ([]byte, int) {
	if !has32Bits(signature) {
		return nil, statusAbsent
	}
	return writtenTo(len(token)+1, func(out *C.uint8_t, room C.size_t, written *C.size_t) C.uint32_t {
		return C.held_header(h.at, token, C.uint32_t(signature), out, room, written)
	})
}

// issuer gives the issuer that a token names, for which nobody vouches, and the status: absent where it is no token, and unnamed where it names none.
func (h *held) issuer(token string) (string, int) {
	issuer, status := writtenTo(len(token)+1, func(out *C.uint8_t, room C.size_t, written *C.size_t) C.uint32_t {
		return C.held_issuer(h.at, token, out, room, written)
	})
	return string(issuer), status
}

// terms gives what is told of the documents that are held.
func (h *held) terms() terms {
	issuer, status := writtenTo(256, func(out *C.uint8_t, room C.size_t, written *C.size_t) C.uint32_t {
		return C.fow_sole_issuer(&h.at.validator, out, room, written)
	})
	var limit C.uint32_t
	C.fow_token_limit(&h.at.validator, &limit)
	return terms{string(issuer), status == statusOK, int(limit), bool(C.fow_documents_are_public(&h.at.validator))}
}

// memberOf gives the text of a member of a JSON object, and whether there is one. The error is ErrOutOfMemory.
func memberOf(document []byte, name string) (string, bool, error) {
	text, status := writtenTo(len(document)+1, func(out *C.uint8_t, room C.size_t, written *C.size_t) C.uint32_t {
		return C.text_member(string(document), name, out, room, written)
	})
	member, err := textOf(text, status)
	return member, status == statusOK, err
}

// issue gives a token, the status, and what is said where it is refused. An algorithm or a form that isn't one of the constants is absent, and no
// key has a number that 32 bits don't have.
func (h *held) issue(how Issuing, claims string) (token []byte, status int, said verdict) {
	if how.Algorithm < HS256 || how.Algorithm > HS512 || how.Form < Compact || how.Form > Flattened {
		return nil, statusAbsent, verdict{}
	}
	if !has32Bits(how.Key) {
		return nil, statusRefused, verdict{fault: C.FOW_ISSUE_NO_KEY}
	}
	var report C.fow_report
	token, status = writtenTo(2*len(claims)+1024, func(out *C.uint8_t, room C.size_t, written *C.size_t) C.uint32_t {
		return C.held_issue(h.at, C.uint32_t(how.Algorithm+1), C.uint32_t(how.Form+1), C.uint32_t(how.Key), how.Type, claims, out, room,
			written, &report)
	})
	return token, status, verdictOf(report)
}

// has32Bits says whether a number is one that the library takes, and isn't wrapped.
func has32Bits(number int) bool {
	return number >= 0 && uint64(number) <= math.MaxUint32
}

// refusedClaim gives the name of the claim that was found missing; it is empty where none was. The error is ErrOutOfMemory.
func (h *held) refusedClaim() (string, error) {
	return textOf(writtenTo(256, func(out *C.uint8_t, room C.size_t, written *C.size_t) C.uint32_t {
		return C.fow_refused_claim(&h.at.validator, out, room, written)
	}))
}

// refusedMember gives the name of the member for which a policy is refused; it is empty where it is refused for none. The error is
// ErrOutOfMemory.
func refusedMember(policy []byte) (string, error) {
	return textOf(writtenTo(256, func(out *C.uint8_t, room C.size_t, written *C.size_t) C.uint32_t {
		return C.refused_member(string(policy), out, room, written)
	}))
}

// rule is an access rule that the library holds. It lies in C's memory, and is used by one call at a time.
type rule struct {
	at *C.fow_access
}

// open reads a rule, and answers the status and the fault.
func (r *rule) open(document []byte) (status, fault int) {
	r.at = (*C.fow_access)(C.calloc(1, C.sizeof_fow_access))
	if r.at == nil {
		return statusOutOfMemory, 0
	}
	var number C.uint32_t
	status = int(C.access_open(r.at, string(document), &number))
	return status, int(number)
}

// scope gives the scope of this number, and the status.
func (r *rule) scope(number int) (string, int) {
	text, status := writtenTo(256, func(out *C.uint8_t, room C.size_t, written *C.size_t) C.uint32_t {
		return C.fow_access_scope(r.at, C.uint32_t(number), out, room, written)
	})
	return string(text), status
}

// denied holds the rule against the claims of the token that was accepted last, and answers the status and the denial.
func (r *rule) denied(h *held) (status, denial int) {
	var number C.uint32_t
	status = int(C.fow_denied(&h.at.validator, r.at, &number))
	return status, int(number)
}

// deniedName gives the scope or the claim of the denial, and the status.
func (r *rule) deniedName(h *held) (string, int) {
	text, status := writtenTo(256, func(out *C.uint8_t, room C.size_t, written *C.size_t) C.uint32_t {
		return C.fow_denied_name(&h.at.validator, r.at, out, room, written)
	})
	return string(text), status
}

// close frees what is held. It may be called twice.
func (r *rule) close() {
	if r.at != nil {
		C.access_free(r.at)
		r.at = nil
	}
}

// refusedInRule gives the name of the member, or of the claim, for which a rule is refused; it is empty where it is refused for none. The
// error is ErrOutOfMemory.
func refusedInRule(document []byte) (string, error) {
	return textOf(writtenTo(256, func(out *C.uint8_t, room C.size_t, written *C.size_t) C.uint32_t {
		return C.access_refused(string(document), out, room, written)
	}))
}

// textOf gives a text that was written, which is empty where there is none. Want of memory isn't told as an empty text.
func textOf(octets []byte, status int) (string, error) {
	if status != statusOK && status != statusAbsent {
		return "", ErrOutOfMemory
	}
	return string(octets), nil
}

// state gives what became of a signature, and whether there is one of this number.
func (h *held) state(number int) (SignatureState, bool) {
	var state C.fow_state
	if C.fow_state_of(&h.at.validator, C.uint32_t(number), &state) != statusOK {
		return SignatureState{}, false
	}
	return SignatureState{State: State(state.state), Fault: faultName(int(state.fault)), Key: int(state.key)}, true
}

// try gives a try of the last judging, and whether there is one of this number.
func (h *held) try(number uint64) (Try, bool) {
	var tried C.fow_try
	if C.fow_try_of(&h.at.validator, C.uint64_t(number), &tried) != statusOK {
		return Try{}, false
	}
	return Try{Signature: int(tried.signature), Key: int(tried.key), Cost: uint64(tried.cost)}, true
}

// close frees what is held. It may be called twice.
func (h *held) close() {
	if h.at != nil {
		C.held_free(h.at)
		h.at = nil
	}
}

// faultName is the name of a fault, which is empty for 0.
func faultName(fault int) string {
	return C.GoString(C.fow_fault_name(C.uint32_t(fault)))
}

// writtenTo gives what a call writes, in as much room as it needs and at least this, and its status.
func writtenTo(room int, call func(*C.uint8_t, C.size_t, *C.size_t) C.uint32_t) ([]byte, int) {
	for {
		out := make([]byte, room)
		var written C.size_t
		status := call((*C.uint8_t)(unsafe.Pointer(&out[0])), C.size_t(room), &written)
		if status == statusOK {
			return out[:written], statusOK
		}
		if status != statusTooShort {
			return nil, int(status)
		}
		room *= 2
	}
}
