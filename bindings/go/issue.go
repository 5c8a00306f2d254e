package fowharimu

import (
	"encoding/json"
	"errors"
	"fmt"
)

// Issuing says how claims are issued. Its zero value is HS256, in compact form, with the first key of the set, and no typ.
type Issuing struct {
	Algorithm Algorithm
	Form      Form
	Key       int    // the number, from 0, of the key among the readable keys of the set; in general form each of them signs
	Type      string // the protected header's typ, such as at+jwt; where it is empty, there is none
}

// Algorithm is an algorithm by which tokens are issued.
type Algorithm int

// The algorithms by which tokens are issued.
const (
	HS256 Algorithm = iota
	HS384
	HS512
)

// Form is a form of a token (RFC 7515, section 7).
type Form int

// The forms of a token.
const (
	Compact Form = iota
	General
	Flattened
)

// ErrIssuing says that there is no such algorithm or form, or that the type isn't in UTF-8.
var ErrIssuing = errors.New("fowharimu: nothing is issued: no such algorithm, form or type")

// IssueError says why nothing is issued.
type IssueError struct {
	Fault     string // the name that the program jwt prints, such as KeyUnfit
	Signature int    // the number, from 0, of the signature that the fault speaks of
	Claim     string // the name of the claim that it speaks of; empty where it speaks of none
}

func (e *IssueError) Error() string {
	if e.Claim == "" {
		return fmt.Sprintf("fowharimu: nothing is issued: %s", e.Fault)
	}
	return fmt.Sprintf("fowharimu: nothing is issued: %s, claim %q", e.Fault, e.Claim)
}

// Issue gives the claims, as json.Marshal writes them, as a token that is signed by HMAC. A number in how is never wrapped: one that is no
// algorithm, form or key of the set issues nothing. The error is an *IssueError, ErrIssuing,
// ErrOutOfMemory, ErrClosed, or that of json.Marshal.
func (v *Validator) Issue(claims any, how Issuing) (string, error) {
	text, err := json.Marshal(claims)
	if err != nil {
		return "", err
	}
	s, err := v.take()
	if err != nil {
		return "", err
	}
	defer v.give(s)
	token, status, said := s.held.issue(how, string(text))
	switch status {
	case statusOK:
		return string(token), nil
	case statusRefused:
		return "", &IssueError{faultName(said.fault), said.signature, registeredName(said.claim)}
	case statusAbsent:
		return "", ErrIssuing
	default:
		return "", ErrOutOfMemory
	}
}
