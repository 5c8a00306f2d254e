package fowharimu

/*
#include <stdlib.h>
#include <fowharimu.h>

// The octets of a text, at an address that isn't NULL.
static const uint8_t *octets_of(_GoString_ text)
{
	return _GoStringLen(text) == 0 ? (const uint8_t *)"" : (const uint8_t *)_GoStringPtr(text);
}

static uint32_t possession_open(fow_possession *it, _GoString_ policy, uint32_t *fault)
{
	return fow_possession_open(it, octets_of(policy), _GoStringLen(policy), fault);
}

static uint32_t possession_judge(fow_possession *it, fow_validator *validator, _GoString_ proof, _GoString_ method, _GoString_ uri, _GoString_ nonce,
	_GoString_ token, int64_t now, uint32_t *fault)
{
	return fow_possession_judge(it, validator, octets_of(proof), _GoStringLen(proof), octets_of(method), _GoStringLen(method), octets_of(uri),
		_GoStringLen(uri), octets_of(nonce), _GoStringLen(nonce), octets_of(token), _GoStringLen(token), now, fault);
}

static void possession_free(fow_possession *it)
{
	fow_possession_close(it);
	free(it);
}

// With no proof, where it is NULL.
static uint32_t shown(fow_validator *validator, fow_possession *possession, _GoString_ der, uint32_t *ways, uint32_t *fault)
{
	fow_possession none = FOW_POSSESSION_INIT;
	return fow_shown(validator, possession ? possession : &none, octets_of(der), _GoStringLen(der), ways, fault);
}
*/
import "C"

import (
	"errors"
	"runtime"
	"time"
	"unsafe"
)

// ErrProof says that what ValidateWith is handed isn't one proof of one request: a nonce is empty, or two proofs stand in one call.
var ErrProof = errors.New("fowharimu: no proof of one request: a nonce isn't empty, and a request has one proof")

// NotHeldError is the Refusal of a token that is accepted, and whose sender hasn't shown that the key is theirs that it is bound to. Fault is why the proof is none
// for this request, such as OtherUri (docs/POSSESSION.md of the repository); OtherCertificate, where the token isn't bound to this certificate, or is bound to one that
// wasn't shown; OtherKey, where it is bound to a key as well; Unknown, where it is bound in a way that isn't known; Bound, where it is bound, and came as a bearer's.
type NotHeldError struct {
	Fault string
	// Outcome is what a service answers a request with this token.
	Outcome Outcome
}

func (e *NotHeldError) Error() string {
	return "fowharimu: the sender of the token doesn't hold its key: " + e.Fault
}

// FaultName is the fault.
func (e *NotHeldError) FaultName() string { return e.Fault }

// Proofs is a policy for proofs of possession (DPoP, RFC 9449; docs/POSSESSION.md of the repository), and the memory in which each is taken that is accepted, since it
// counts once (section 11.1). Its verifiers are always the library's own. Goroutines may share it. Close frees what it holds, the memory aside, and so
// does the garbage collector.
type Proofs struct {
	once *Once
	held places[*possession]
	room int // the octets of the policy, which are more than those of its algorithms' names
}

// possession is a policy for proofs that the library holds, with the proof that was accepted last. It lies in C's memory, and is used by one call at a time.
type possession struct {
	at *C.fow_possession
}

// OpenProofs reads a policy for proofs, a JSON text. Room in the memory is needed for as many proofs as are accepted within the policy's max_age and its leeway. Several
// Proofs may share it, and tokens that count once too. The error is a *PolicyError, ErrOnce for no memory, ErrOutOfMemory, or a *LibraryError where another library was
// loaded than this package was compiled for.
func OpenProofs(policy []byte, once *Once) (*Proofs, error) {
	if err := compare(); err != nil {
		return nil, err
	}
	if once == nil {
		return nil, ErrOnce
	}
	policy = append([]byte(nil), policy...)
	first, err := openPossession(policy)
	if err != nil {
		return nil, err
	}
	p := &Proofs{once: once, room: len(policy)}
	p.held.begin(first, func() (*possession, error) { return openPossession(policy) })
	runtime.SetFinalizer(p, (*Proofs).Close)
	return p, nil
}

// openPossession reads a policy for proofs. The errors are those of OpenProofs.
func openPossession(policy []byte) (*possession, error) {
	it := &possession{(*C.fow_possession)(C.calloc(1, C.sizeof_fow_possession))}
	if it.at == nil {
		return nil, ErrOutOfMemory
	}
	var fault C.uint32_t
	status := C.possession_open(it.at, string(policy), &fault)
	if status == statusOK {
		return it, nil
	}
	it.close()
	if status != statusRefused {
		return nil, ErrOutOfMemory
	}
	return nil, documentError(int(fault), policy)
}

// Close frees what is held, and what calls under way have when they end; a later call gives ErrClosed. What was taken stays in the memory. It may be called
// twice. The error is nil.
func (p *Proofs) Close() error {
	p.held.close()
	return nil
}

// close frees what is held. It may be called twice.
func (p *possession) close() {
	if p.at != nil {
		C.possession_free(p.at)
		p.at = nil
	}
}

// shown is a proof that came with a token, and its request.
type shown struct {
	proofs                    *Proofs
	value, method, uri, nonce string
	nonces                    *Nonces
	by                        *place[*possession] // what it was judged with, until the call ends
}

// ByProof asks that the sender of the token holds the key that it is bound to, by a proof: value is that of the request's only header DPoP (a request
// that has none, or several, is refused before), method the request's, by case, and uri what the client sees, with scheme and host, which behind a
// proxy come from the configuration. The proof is judged behind the verdict, the access rule and what is expected, and taken last: the error is a
// *NotHeldError, or a *NotTakenError. Where the Proofs are nil, since their policy was refused, it is ErrClosed.
func ByProof(proofs *Proofs, value, method, uri string) Asked {
	return func(c *call) { c.show(&shown{proofs: proofs, value: value, method: method, uri: uri}) }
}

// ByProofWithNonce is ByProof where the service asked for this nonce. The error is ErrProof where it is empty.
func ByProofWithNonce(proofs *Proofs, value, method, uri, nonce string) Asked {
	return func(c *call) {
		c.show(&shown{proofs: proofs, value: value, method: method, uri: uri, nonce: nonce})
		if nonce == "" {
			c.err = ErrProof
		}
	}
}

// ByCertificate asks that the token is bound to the certificate of the client, by x5t#S256 in its cnf (RFC 8705, section 3). der is that certificate, as whoever ended TLS has
// it. Where it isn't, the error is a *NotHeldError with the fault OtherCertificate.
func ByCertificate(der []byte) Asked {
	certificate := string(der)
	return func(c *call) { c.certificates = append(c.certificates, certificate) }
}

// Unbound asks that the token is bound to nothing, as a service does that takes tokens of bearers: else whoever stole it could use it (RFC 9449, section 7.2). Where
// it is bound, the error is a *NotHeldError with the fault Bound. Without it, and without a proof or a certificate, nothing is asked of the sender.
func Unbound() Asked {
	return func(c *call) { c.unbound = true }
}

// shown gives how the token that a seat has accepted just now is bound, where each way was shown by the proof that is kept and this certificate. The error is a
// *NotHeldError or ErrOutOfMemory.
func (s *seat) shown(by *C.fow_possession, certificate string) (C.uint32_t, error) {
	var ways, fault C.uint32_t
	switch C.shown(&s.held.at.validator, by, certificate, &ways, &fault) {
	case C.FOW_OK:
		return ways, nil
	case C.FOW_REFUSED:
		return 0, &NotHeldError{faultName(int(fault)), NotAccepted}
	default:
		return 0, ErrOutOfMemory
	}
}

// show has the call ask for a proof, once.
func (c *call) show(it *shown) {
	if c.proof != nil {
		c.err = ErrProof
	}
	c.proof = it
}

// checkSender holds against the token that a seat has accepted just now what is asked of its sender. The error is a *NotHeldError, ErrClosed or ErrOutOfMemory.
func (c *call) checkSender(s *seat, token string) error {
	if c.unbound {
		_, err := s.shown(nil, "")
		if held := (*NotHeldError)(nil); errors.As(err, &held) {
			return &NotHeldError{"Bound", NotAccepted}
		}
		if err != nil {
			return err
		}
	}
	var by *C.fow_possession
	if c.proof != nil {
		if err := c.proof.judge(s, token, c.now); err != nil {
			return err
		}
		by = c.proof.by.held.at
		if len(c.certificates) == 0 {
			_, err := s.shown(by, "")
			return err
		}
	}
	for _, certificate := range c.certificates {
		ways, err := s.shown(by, certificate)
		if err != nil {
			return err
		}
		if ways&C.FOW_BOUND_CERTIFICATE == 0 {
			return &NotHeldError{"OtherCertificate", NotAccepted}
		}
	}
	return nil
}

// take takes the proof that was judged, where one is asked for. The error is a *NotTakenError, ErrOutOfMemory or ErrClosed.
func (c *call) take() error {
	if c.proof == nil {
		return nil
	}
	return c.proof.proofs.once.takeProof(c.proof.by.held, c.now)
}

// end gives back what the call has, however it ended.
func (c *call) end() {
	if c.proof != nil && c.proof.by != nil {
		c.proof.proofs.held.give(c.proof.by)
		c.proof.by = nil
	}
}

// judge judges the proof by a policy that no other call has, which keeps it until the call ends. The errors are those of checkSender.
func (p *shown) judge(s *seat, token string, now time.Time) error {
	if p.proofs == nil {
		return ErrClosed
	}
	by, err := p.proofs.held.take()
	if err != nil {
		return err
	}
	p.by = by
	var fault C.uint32_t
	status := C.possession_judge(by.held.at, &s.held.at.validator, p.value, p.method, p.uri, p.nonce, token, C.int64_t(now.Unix()), &fault)
	if status == C.FOW_OK && p.nonces != nil {
		status, fault = p.nonces.fresh(by.held, now), C.FOW_PROOF_OTHER_NONCE
	}
	switch status {
	case C.FOW_OK:
		return nil
	case C.FOW_REFUSED, C.FOW_NOT_EXPECTED:
		return &NotHeldError{faultName(int(fault)), Outcome(C.fow_proof_outcome(status, fault))}
	default:
		return ErrOutOfMemory
	}
}

// Algs is the names of the algorithms of the policy, with a space between two: what a challenge names. The error is ErrClosed or ErrOutOfMemory.
func (p *Proofs) Algs() (string, error) {
	by, err := p.held.take()
	if err != nil {
		return "", err
	}
	defer p.held.give(by)
	room := make([]byte, p.room)
	var written C.size_t
	if C.fow_possession_algs(by.held.at, (*C.uint8_t)(unsafe.Pointer(&room[0])), C.size_t(len(room)), &written) != C.FOW_OK {
		return "", ErrOutOfMemory
	}
	return string(room[:written]), nil
}
