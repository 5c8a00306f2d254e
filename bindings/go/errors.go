package fowharimu

import (
	"errors"
	"fmt"
)

// ErrClosed says that the validator, its access rule, its memory of tokens that count once or a policy for proofs was closed, or was never opened.
var ErrClosed = errors.New("fowharimu: the validator is closed")

// ErrOutOfMemory says that the library was refused an allocation, and that nothing is said of the token.
var ErrOutOfMemory = errors.New("fowharimu: an allocation was refused")

// LibraryError says that the library that was loaded has another interface than this package was compiled for: FOW_ABI in fowharimu.h.
type LibraryError struct {
	MadeFor int
	Loaded  int
	Version string // the library's
}

func (e *LibraryError) Error() string {
	return fmt.Sprintf("fowharimu: the library %s has interface %d, and this package was compiled for %d", e.Version, e.Loaded, e.MadeFor)
}

// PolicyError says why a policy is refused.
type PolicyError struct {
	Fault  string // the name that the program jwt prints, such as Range
	Member string // the name of the member that the fault speaks of; empty where it speaks of none
}

func (e *PolicyError) Error() string {
	if e.Member == "" {
		return "fowharimu: the policy is refused: " + e.Fault
	}
	return fmt.Sprintf("fowharimu: the policy is refused: %s of %q", e.Fault, e.Member)
}

// KeysError says why a key set is refused.
type KeysError struct {
	Fault string // the name that the program jwt prints, such as NotKeySet
}

func (e *KeysError) Error() string {
	return "fowharimu: the key set is refused: " + e.Fault
}

// Refusal is the error of a token that isn't accepted: a *TooLongError, *FormError, *CeilingError, *SignatureError or *ClaimsError;
// a *NotExpectedError where the call expects something else, a *NotHeldError where its sender hasn't shown the key that it is bound to, a
// *NotTakenError where it, or its proof, counts once, and a *TooOldError of keys by URL.
// errors.As finds it. Another error says nothing of the token.
type Refusal interface {
	error
	// FaultName is the name that the program jwt prints, such as Expired.
	FaultName() string
}

// TooLongError says that the token has more octets than the policy's limit.
type TooLongError struct {
	Fault string
}

// FormError says that the octets are no signed token.
type FormError struct {
	Fault     string
	Part      Part // the part that the fault speaks of, where it speaks of one
	Signature int  // the number, from 0, of the signature that it speaks of
}

// CeilingError says that the policy's work or max_calls was reached before a key was tried on a signature, both numbered from 0.
type CeilingError struct {
	Fault     string
	Signature int
	Key       int
}

// SignatureError says that the signature of this number, from 0, isn't verified.
type SignatureError struct {
	Fault     string
	Signature int
}

// ClaimsError says that the claims are refused.
type ClaimsError struct {
	Fault string
	Claim string // the name of the claim that the fault speaks of; empty where it speaks of none
}

func (e *TooLongError) Error() string { return refusedFor(e.Fault) }

func (e *FormError) Error() string {
	if e.Part == NoPart {
		return refusedFor(e.Fault)
	}
	return fmt.Sprintf("%s of the %s", refusedFor(e.Fault), e.Part)
}

func (e *CeilingError) Error() string {
	return fmt.Sprintf("%s at signature %d and key %d", refusedFor(e.Fault), e.Signature, e.Key)
}

func (e *SignatureError) Error() string {
	return fmt.Sprintf("%s of signature %d", refusedFor(e.Fault), e.Signature)
}

func (e *ClaimsError) Error() string {
	if e.Claim == "" {
		return refusedFor(e.Fault)
	}
	return fmt.Sprintf("%s, claim %q", refusedFor(e.Fault), e.Claim)
}

// FaultName is TooLong.
func (e *TooLongError) FaultName() string { return e.Fault }

// FaultName is the fault.
func (e *FormError) FaultName() string { return e.Fault }

// FaultName is the fault.
func (e *CeilingError) FaultName() string { return e.Fault }

// FaultName is the fault.
func (e *SignatureError) FaultName() string { return e.Fault }

// FaultName is the fault.
func (e *ClaimsError) FaultName() string { return e.Fault }

func refusedFor(fault string) string {
	return "fowharimu: the token is refused: " + fault
}

// documentError says why a policy or a key set is refused: the faults of key sets are those from 200 to 299. Where memory is refused for
// the name of the member, it is ErrOutOfMemory.
func documentError(fault int, policy []byte) error {
	if fault/100 == 2 {
		return &KeysError{faultName(fault)}
	}
	member, err := refusedMember(policy)
	if err != nil {
		return err
	}
	return &PolicyError{faultName(fault), member}
}

// Part is a part of a token.
type Part int

// The parts that a FormError speaks of.
const (
	NoPart Part = iota
	PartPayload
	PartProtected
	PartSignature
)

// String is the part's name.
func (p Part) String() string {
	return named([]string{"no part", "payload", "protected header", "signature"}, int(p))
}

// named is the name at a place, or the number where there is none.
func named(names []string, place int) string {
	if place < 0 || place >= len(names) {
		return fmt.Sprint(place)
	}
	return names[place]
}
