package fowharimu

/*
#include <fowharimu.h>

// The octets of a text, at an address that isn't NULL.
static const uint8_t *lent(_GoString_ text)
{
	return _GoStringLen(text) == 0 ? (const uint8_t *)"" : (const uint8_t *)_GoStringPtr(text);
}

static uint32_t expect_text(fow_validator *it, _GoString_ claim, _GoString_ text, uint32_t *unmet)
{
	return fow_expect_text(it, lent(claim), _GoStringLen(claim), lent(text), _GoStringLen(text), unmet);
}

static uint32_t expect_half_hash(fow_validator *it, _GoString_ token, uint32_t signature, _GoString_ claim, _GoString_ text, uint32_t *unmet)
{
	return fow_expect_half_hash(it, lent(token), _GoStringLen(token), signature, lent(claim), _GoStringLen(claim), lent(text), _GoStringLen(text), unmet);
}
*/
import "C"

import (
	"errors"
	"fmt"
	"time"
)

// ErrExpectation says that the name of a claim, or the text that is expected of it, isn't in UTF-8.
var ErrExpectation = errors.New("fowharimu: what is expected isn't in UTF-8")

// NotExpectedError is the Refusal of a token that is accepted, and isn't the one that was expected. Claim is the first that isn't as it has to be. Fault is
// Absent, or Other, where it is another text, or no text.
type NotExpectedError struct {
	Fault string
	Claim string
}

func (e *NotExpectedError) Error() string {
	return fmt.Sprintf("fowharimu: the token isn't what was expected: %s of %q", e.Fault, e.Claim)
}

// FaultName is the fault.
func (e *NotExpectedError) FaultName() string { return e.Fault }

// Asked is what one call asks of a token beside its validator (Validator.ValidateWith).
type Asked func(*call)

type call struct {
	now          time.Time
	rules        []*Access
	expected     []expectation
	unbound      bool
	certificates []string
	proof        *shown // the proof that came with the token; nil where none is asked for
	err          error  // why this is no call
}

// expectation holds what is expected of a claim against the token that a seat has accepted just now, and answers the status and what isn't met.
type expectation struct {
	claim string
	hold  func(s *seat, token string, signature int) (C.uint32_t, C.uint32_t)
}

// At has the token judged at this moment in place of the clock's. A fraction of a second is left out.
func At(now time.Time) Asked {
	return func(c *call) { c.now = now }
}

// For has the claims meet an access rule too. A rule that is nil, since it was refused, is met by none: the error is ErrClosed.
func For(access *Access) Asked {
	return func(c *call) { c.rules = append(c.rules, access) }
}

// ExpectText has a claim be this very text, octet by octet, as the nonce that was sent with a login, or the subject of a session. The claim is named as in
// an access rule: by its name, or by a JSON Pointer (RFC 6901), which begins with `/`. A list that holds the text isn't the text.
func ExpectText(claim, text string) Asked {
	return expecting(claim, func(s *seat, _ string, _ int) (status, unmet C.uint32_t) {
		status = C.expect_text(&s.held.at.validator, claim, text, &unmet)
		return status, unmet
	})
}

// ExpectHalfHash has a claim be the half of this text's hash, by the algorithm of the signature that was verified: at_hash is of the access token beside an
// ID token, and c_hash of the code (OpenID Connect Core 1.0, sections 3.1.3.8 and 3.3.2.11).
func ExpectHalfHash(claim, text string) Asked {
	return expecting(claim, func(s *seat, token string, signature int) (status, unmet C.uint32_t) {
		status = C.expect_half_hash(&s.held.at.validator, token, C.uint32_t(signature), claim, text, &unmet)
		return status, unmet
	})
}

func expecting(claim string, hold func(*seat, string, int) (C.uint32_t, C.uint32_t)) Asked {
	return func(c *call) { c.expected = append(c.expected, expectation{claim, hold}) }
}

// callOf is what is asked of a token, at the clock's moment where no other is named.
func callOf(how []Asked) *call {
	c := &call{now: time.Now()}
	for _, ask := range how {
		ask(c)
	}
	return c
}

// check holds the rules, and then what is expected, in its order, against the token that a seat has accepted just now, and then who sent it. The error is a
// *DeniedError, a *NotExpectedError, a *NotHeldError, ErrExpectation, ErrClosed or ErrOutOfMemory.
func (c *call) check(s *seat, token string, signature int) error {
	for _, rule := range c.rules {
		if err := rule.check(s); err != nil {
			return err
		}
	}
	for _, it := range c.expected {
		status, unmet := it.hold(s, token, signature)
		if err := it.failed(status, unmet); err != nil {
			return err
		}
	}
	return c.checkSender(s, token)
}

// failed says why it isn't met, and gives nil where it is.
func (e expectation) failed(status, unmet C.uint32_t) error {
	switch {
	case status == C.FOW_OK:
		return nil
	case status == C.FOW_NOT_EXPECTED && unmet == C.FOW_UNMET_ABSENT:
		return &NotExpectedError{"Absent", e.claim}
	case status == C.FOW_NOT_EXPECTED:
		return &NotExpectedError{"Other", e.claim}
	case status == C.FOW_REFUSED:
		return ErrExpectation
	default:
		return ErrOutOfMemory
	}
}
