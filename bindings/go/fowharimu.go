// Package fowharimu validates JSON Web Tokens (RFC 7519) by a library that is proved correct.
//
//	validator, err := fowharimu.Open(policy, keys)
//	...
//	claims, err := validator.Validate(token)
//	var refusal fowharimu.Refusal
//	if errors.As(err, &refusal) {
//		... the token is refused, for refusal.FaultName() ...
//	}
//
// The policy and the key set are JSON texts, as the program jwt takes them.
package fowharimu

import (
	"encoding/json"
	"runtime"
	"sync"
	"time"
)

// Validator is a policy and a key set, by which tokens are judged. Goroutines may share it, and judge side by side. Close frees what it
// holds, and so does the garbage collector.
type Validator struct {
	free      sync.Pool  // seats that were given back: the fast way to one
	mutex     sync.Mutex // guards what follows
	documents held       // the policy and the key set, which every seat holds too
	remember  memory     // what each seat remembers
	once      *Once      // where tokens are taken that count once; nil where none are
	terms     terms      // what is told of the documents
	seats     []*seat    // each that was opened, until Close: at most as many as calls were under way at once
	closed    bool
}

// terms is what is told of a policy and a key set.
type terms struct {
	issuer    string // the one that the policy allows
	hasIssuer bool   // the policy allows exactly one
	limit     int    // the greatest number of octets of a token
	isPublic  bool   // no algorithm is HMAC, and no key a shared secret
}

// Option says how a validator is opened.
type Option func(*options)

type options struct {
	remember memory
	once     *Once
	takes    bool // tokens count once
}

// memory is how many tokens of how many octets each seat remembers.
type memory struct {
	tokens, octets uint
}

// Remember has the validator remember so many accepted tokens, none longer than so many octets; the least used goes first. One that comes again
// is found by all its octets, and only its claims are looked at. Each call that is under way at once has a memory of its own. Accepted tokens
// lie in memory until they go, and aren't wiped. Without it none are remembered.
func Remember(tokens, octets uint) Option {
	return func(o *options) { o.remember = memory{tokens, octets} }
}

// Open reads a policy and a key set. The error is a *PolicyError, a *KeysError, ErrOutOfMemory, ErrOnce where Taking is handed nil, or
// a *LibraryError where another library was loaded than this package was compiled for.
func Open(policy, keys []byte, how ...Option) (*Validator, error) {
	if err := compare(); err != nil {
		return nil, err
	}
	var chosen options
	for _, choose := range how {
		choose(&chosen)
	}
	if chosen.takes && chosen.once == nil {
		return nil, ErrOnce
	}
	v := &Validator{remember: chosen.remember, once: chosen.once}
	if err := v.documents.openDocuments(policy, keys); err != nil {
		v.documents.close()
		return nil, err
	}
	v.terms = v.documents.terms()
	runtime.SetFinalizer(v, (*Validator).Close)
	return v, nil
}

// openDocuments reads a policy and a key set. The errors are those of Open.
func (h *held) openDocuments(policy, keys []byte) error {
	status, fault := h.open(policy, keys)
	if status == statusRefused {
		return documentError(fault, policy)
	}
	if status != statusOK {
		return ErrOutOfMemory
	}
	return nil
}

// Validate gives the claims of a token that is accepted at the clock's moment. The error is a Refusal, ErrOutOfMemory or ErrClosed.
func (v *Validator) Validate(token string) (Claims, error) {
	return v.ValidateAt(token, time.Now())
}

// ValidateAt is Validate at another moment, of which a fraction of a second is left out.
func (v *Validator) ValidateAt(token string, now time.Time) (Claims, error) {
	return v.validate(token, now, func(*seat, int) error { return nil }, takeNothing)
}

// ValidateFor is Validate where the claims have to meet an access rule too. The error is a *DeniedError where they don't, a Refusal,
// ErrOutOfMemory or ErrClosed.
func (v *Validator) ValidateFor(token string, access *Access) (Claims, error) {
	return v.ValidateForAt(token, time.Now(), access)
}

// ValidateForAt is ValidateFor at another moment, of which a fraction of a second is left out.
func (v *Validator) ValidateForAt(token string, now time.Time, access *Access) (Claims, error) {
	return v.validate(token, now, func(s *seat, _ int) error { return access.check(s) }, takeNothing)
}

// ValidateWith is Validate with what the call asks beside: an access rule (For), what it expects of claims (ExpectText, ExpectHalfHash), what it asks of the
// sender (ByProof, ByCertificate, Unbound), another moment (At). They are held in that order, expectations in the order in which they stand, and before a proof
// is taken, and a token that counts once. The error is a *DeniedError, a *NotExpectedError or a *NotHeldError for the first that isn't met, ErrExpectation, ErrProof,
// a Refusal, ErrOutOfMemory or ErrClosed.
func (v *Validator) ValidateWith(token string, how ...Asked) (Claims, error) {
	asked := callOf(how)
	if asked.err != nil {
		return Claims{}, asked.err
	}
	defer asked.end()
	return v.validate(token, asked.now, func(s *seat, signature int) error { return asked.check(s, token, signature) }, asked.take)
}

// takeNothing is of a call that takes nothing beside a token that counts once.
func takeNothing() error { return nil }

// validate gives the claims of a token that is accepted, where nothing speaks against it then. The check has the number of the signature that was verified, and
// what else is taken is taken behind it.
func (v *Validator) validate(token string, now time.Time, check func(s *seat, signature int) error, take func() error) (Claims, error) {
	s, err := v.take()
	if err != nil {
		return Claims{}, err
	}
	defer v.give(s)
	said, payload, status := s.held.validate(token, now.Unix())
	refusal, err := s.refused(said)
	if err != nil {
		return Claims{}, err
	}
	if refusal != nil {
		return Claims{}, refusal
	}
	if err := check(s, said.signature); err != nil {
		return Claims{}, err
	}
	if status != statusOK {
		return Claims{}, ErrOutOfMemory
	}
	// (last, so that nothing which fails has used them up; a client makes another proof, and no other token)
	if err := take(); err != nil {
		return Claims{}, err
	}
	if v.once != nil {
		if err := v.once.take(s, now); err != nil {
			return Claims{}, err
		}
	}
	return Claims{payload}, nil
}

// Judge gives all that is said of a token at the clock's moment. The error is ErrOutOfMemory or ErrClosed: a refusal stands in the
// report.
func (v *Validator) Judge(token string) (Report, error) {
	return v.JudgeAt(token, time.Now())
}

// JudgeAt is Judge at another moment, of which a fraction of a second is left out.
func (v *Validator) JudgeAt(token string, now time.Time) (Report, error) {
	s, err := v.take()
	if err != nil {
		return Report{}, err
	}
	defer v.give(s)
	said, refusal, err := s.judge(token, now)
	if err != nil {
		return Report{}, err
	}
	return Report{
		accepted:   refusal == nil,
		Refusal:    refusal,
		Signature:  said.signature,
		Key:        said.key,
		Work:       said.work,
		States:     s.states(),
		Tries:      s.tries(said.tries),
		Remembered: s.held.remembered(),
	}, nil
}

// UnverifiedHeader gives the protected header of the signature of this number, from 0, as JSON text, and whether there is one. Anyone
// may have written it. The error is ErrOutOfMemory or ErrClosed.
func (v *Validator) UnverifiedHeader(token string, signature int) (json.RawMessage, bool, error) {
	s, err := v.take()
	if err != nil {
		return nil, false, err
	}
	defer v.give(s)
	header, status := s.held.header(token, signature)
	switch status {
	case statusOK:
		return header, len(header) > 0, nil
	case statusAbsent:
		return nil, false, nil
	default:
		return nil, false, ErrOutOfMemory
	}
}

// Issuer gives the issuer that the policy allows, and whether it allows exactly one.
func (v *Validator) Issuer() (string, bool) { return v.terms.issuer, v.terms.hasIssuer }

// Limit gives the greatest number of octets of a token that the policy takes.
func (v *Validator) Limit() int { return v.terms.limit }

// IsPublic says whether everyone may read the keys: no algorithm of the policy is HMAC, and no key a shared secret (RFC 8725, section 2.1).
func (v *Validator) IsPublic() bool { return v.terms.isPublic }

// UnverifiedIssuer gives the issuer that a token names, and whether it is a token under the policy that names one. Anyone may have written it. The
// error is ErrOutOfMemory or ErrClosed.
func (v *Validator) UnverifiedIssuer(token string) (string, bool, error) {
	issuer, status, err := v.namedIssuer(token)
	return issuer, status == statusOK, err
}

// namedIssuer gives the issuer that a token names, and the status: absent where it is no token, and unnamed where it names none.
func (v *Validator) namedIssuer(token string) (string, int, error) {
	s, err := v.take()
	if err != nil {
		return "", 0, err
	}
	defer v.give(s)
	issuer, status := s.held.issuer(token)
	if status != statusOK && status != statusAbsent && status != statusUnnamed {
		return "", 0, ErrOutOfMemory
	}
	return issuer, status, nil
}

// Close frees what is held. Calls that are under way end as if it weren't closed, and what they use is freed then. It may be called
// twice. The error is nil.
func (v *Validator) Close() error {
	v.mutex.Lock()
	defer v.mutex.Unlock()
	v.closed = true
	for _, s := range v.seats {
		s.leave()
	}
	v.seats = nil
	v.documents.close()
	return nil
}

// judge gives what is said of a token first, and the refusal, which is nil where the token is accepted.
func (s *seat) judge(token string, now time.Time) (verdict, Refusal, error) {
	said := s.held.judge(token, now.Unix())
	refusal, err := s.refused(said)
	return said, refusal, err
}

// refused gives the refusal that the token which was judged last met with, which is nil where it is accepted. The error is ErrOutOfMemory.
func (s *seat) refused(said verdict) (Refusal, error) {
	switch said.status {
	case statusOK:
		return nil, nil
	case statusRefused:
		return s.refusal(said)
	default:
		return nil, ErrOutOfMemory
	}
}

// refusal says why the token that was judged last is refused: the kinds of faults differ by their hundreds. The error is ErrOutOfMemory.
func (s *seat) refusal(said verdict) (Refusal, error) {
	fault := faultName(said.fault)
	switch said.fault / 100 {
	case 3:
		return &TooLongError{fault}, nil
	case 4:
		return &FormError{fault, Part(said.part), said.signature}, nil
	case 5:
		return &CeilingError{fault, said.signature, said.key}, nil
	case 6:
		return &SignatureError{fault, said.signature}, nil
	}
	claim, err := s.claim(said.claim)
	if err != nil {
		return nil, err
	}
	return &ClaimsError{fault, claim}, nil
}

// claim is the name of the claim that is refused.
func (s *seat) claim(number int) (string, error) {
	if number == claimByName {
		return s.held.refusedClaim()
	}
	return registeredName(number), nil
}

// registeredName is the name of a registered claim by its number, and empty for another number.
func registeredName(number int) string {
	names := []string{"", "iss", "sub", "aud", "exp", "nbf", "iat", "jti"}
	if number < 0 || number >= len(names) {
		return ""
	}
	return names[number]
}

func (s *seat) states() []SignatureState {
	var states []SignatureState
	for {
		state, found := s.held.state(len(states))
		if !found {
			return states
		}
		states = append(states, state)
	}
}

func (s *seat) tries(count uint64) []Try {
	tries := make([]Try, 0, count)
	for number := uint64(0); number < count; number++ {
		if tried, found := s.held.try(number); found {
			tries = append(tries, tried)
		}
	}
	return tries
}
