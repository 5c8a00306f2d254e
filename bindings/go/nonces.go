package fowharimu

/*
#include <fowharimu.h>

static const uint8_t *secret_of(_GoString_ text)
{
	return _GoStringLen(text) == 0 ? (const uint8_t *)"" : (const uint8_t *)_GoStringPtr(text);
}

static uint32_t nonce_at(_GoString_ secret, uint32_t period, int64_t now, uint8_t *out)
{
	size_t written = 0;
	return fow_nonce(secret_of(secret), _GoStringLen(secret), period, now, out, FOW_NONCE_LEN, &written);
}

static uint32_t is_fresh(fow_possession *it, _GoString_ secret, uint32_t period, int64_t now)
{
	return fow_possession_fresh(it, secret_of(secret), _GoStringLen(secret), period, now);
}
*/
import "C"

import (
	"errors"
	"math"
	"time"
	"unsafe"
)

// ErrNonces says that a secret of nonces has less than 32 octets, or that their period isn't a whole number of seconds from 1 to 2^32 - 1.
var ErrNonces = errors.New("fowharimu: a secret of nonces has at least 32 octets, and their period is from 1 to 4294967295 seconds")

// Nonces are those that a service asks of proofs (RFC 9449, section 8), by a secret and the time: each is good for the period in which it is given and for the next one. Nothing is
// kept of them, and processes that share a secret ask for the same. Goroutines may share it.
type Nonces struct {
	secret string
	period uint32
}

// NewNonces makes nonces of a secret of at least 32 random octets. The error is ErrNonces, or a *LibraryError where another library was loaded than this package was
// compiled for.
func NewNonces(secret []byte, period time.Duration) (*Nonces, error) {
	if err := compare(); err != nil {
		return nil, err
	}
	seconds := period / time.Second
	if len(secret) < C.FOW_NONCE_SECRET_LEN || period%time.Second != 0 || seconds < 1 || seconds > math.MaxUint32 {
		return nil, ErrNonces
	}
	return &Nonces{string(secret), uint32(seconds)}, nil
}

// Now is the nonce of this moment, the value of a header DPoP-Nonce.
func (n *Nonces) Now() string { return n.At(time.Now()) }

// At is the nonce of a moment.
func (n *Nonces) At(now time.Time) string {
	room := make([]byte, C.FOW_NONCE_LEN)
	if C.nonce_at(n.secret, C.uint32_t(n.period), C.int64_t(now.Unix()), (*C.uint8_t)(unsafe.Pointer(&room[0]))) != C.FOW_OK {
		panic("fowharimu: Nonces are made by NewNonces")
	}
	return string(room)
}

// ByProofWithNonces is ByProof where the proof has to have one of these nonces. Where it hasn't, the error is a *NotHeldError with the fault OtherNonce. Where the nonces are nil,
// since they were refused, it is ErrProof.
func ByProofWithNonces(proofs *Proofs, value, method, uri string, nonces *Nonces) Asked {
	return func(c *call) {
		c.show(&shown{proofs: proofs, value: value, method: method, uri: uri, nonces: nonces})
		if nonces == nil {
			c.err = ErrProof
		}
	}
}

// fresh is what the library says of the nonce of the proof that was accepted just now, at that moment.
func (n *Nonces) fresh(p *possession, now time.Time) C.uint32_t {
	return C.is_fresh(p.at, n.secret, C.uint32_t(n.period), C.int64_t(now.Unix()))
}
