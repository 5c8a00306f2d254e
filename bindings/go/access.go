package fowharimu

import (
	"fmt"
	"runtime"
)

// Access is an access rule: which scopes and which values of claims an accepted token has to have. Goroutines may share it: the library's rule is
// used by one call at a time, and so each call that is under way at once has one of its own, read from the same document. Close frees what it
// holds, and so does the garbage collector.
type Access struct {
	scopes   []string
	document []byte
	rules    places[*rule]
}

// AccessError says why an access rule is refused.
type AccessError struct {
	Fault  string // the name that the program jwt prints, such as ClaimRange
	Member string // the name of the member, or of the claim, that the fault speaks of; empty where it speaks of none
}

func (e *AccessError) Error() string {
	if e.Member == "" {
		return "fowharimu: the access rule is refused: " + e.Fault
	}
	return fmt.Sprintf("fowharimu: the access rule is refused: %s of %q", e.Fault, e.Member)
}

// DeniedError says that the token is accepted, and that its claims don't meet the access rule. It is no Refusal: a service answers 403 to it,
// and 401 to a Refusal.
type DeniedError struct {
	Fault  string   // ScopeMissing, ClaimMissing, ClaimNotAllowed or another of docs/ACCESS.md
	Scope  string   // of ScopeMissing the scope that isn't granted
	Claim  string   // of the others the name of the claim
	Scopes []string // all that the rule asks for: with spaces between them, the scope of a challenge that says insufficient_scope (RFC 6750, section 3.1)
}

func (e *DeniedError) Error() string {
	name := e.Claim
	if e.Scope != "" {
		name = e.Scope
	}
	return fmt.Sprintf("fowharimu: the token is denied: %s of %q", e.Fault, name)
}

// OpenAccess reads an access rule, a JSON text. The error is an *AccessError, ErrOutOfMemory, or a *LibraryError where another library was
// loaded than this package was compiled for.
func OpenAccess(document []byte) (*Access, error) {
	if err := compare(); err != nil {
		return nil, err
	}
	document = append([]byte(nil), document...)
	a := &Access{document: document}
	first := new(rule)
	if err := a.open(first); err != nil {
		first.close()
		return nil, err
	}
	a.rules.begin(first, func() (*rule, error) { return anotherRule(document) })
	runtime.SetFinalizer(a, (*Access).Close)
	return a, nil
}

// open reads the rule, and its scopes. The errors are those of OpenAccess.
func (a *Access) open(r *rule) error {
	status, fault := r.open(a.document)
	if status == statusRefused {
		member, err := refusedInRule(a.document)
		if err != nil {
			return err
		}
		return &AccessError{faultName(fault), member}
	}
	if status != statusOK {
		return ErrOutOfMemory
	}
	for {
		scope, status := r.scope(len(a.scopes))
		if status == statusAbsent {
			return nil
		}
		if status != statusOK {
			return ErrOutOfMemory
		}
		a.scopes = append(a.scopes, scope)
	}
}

// anotherRule gives one more rule of a document that was read before. The error is ErrOutOfMemory.
func anotherRule(document []byte) (*rule, error) {
	r := new(rule)
	if status, _ := r.open(document); status != statusOK {
		r.close()
		return nil, ErrOutOfMemory
	}
	return r, nil
}

// Scopes are the scopes that have to be granted, in the order of the rule.
func (a *Access) Scopes() []string {
	return append([]string(nil), a.scopes...)
}

// Close frees what is held, and what calls under way have when they end. It may be called twice. The error is nil.
func (a *Access) Close() error {
	a.rules.close()
	return nil
}

// check says why the rule denies the token that was accepted last, by a *DeniedError, and gives nil where it doesn't. Another error is
// ErrOutOfMemory or ErrClosed.
func (a *Access) check(s *seat) error {
	if a == nil {
		return ErrClosed
	}
	p, err := a.rules.take()
	if err != nil {
		return err
	}
	defer a.rules.give(p)
	rule := p.held
	status, denial := rule.denied(&s.held)
	if status == statusOK {
		return nil
	}
	if status != statusDenied {
		return ErrOutOfMemory
	}
	name, status := rule.deniedName(&s.held)
	if status != statusOK {
		return ErrOutOfMemory
	}
	denied := &DeniedError{Fault: faultName(denial), Scopes: a.Scopes()}
	if denial == scopeMissing {
		denied.Scope = name
	} else {
		denied.Claim = name
	}
	return denied
}
