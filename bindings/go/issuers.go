package fowharimu

import (
	"errors"
	"time"
)

// ErrIssuers says that there are no issuers, or that one stands there whose policy doesn't name exactly it.
var ErrIssuers = errors.New("fowharimu: the policy of each issuer has to name it in issuers, and no other")

// Judging is what judges the tokens of one issuer: a *Validator, or *RemoteKeys.
type Judging interface {
	ValidateAt(token string, now time.Time) (Claims, error)
	ValidateForAt(token string, now time.Time, access *Access) (Claims, error)
	ValidateWith(token string, how ...Asked) (Claims, error)
	JudgeAt(token string, now time.Time) (Report, error)
	Issuer() (string, bool)
	Limit() int
	Close() error
	namedIssuer(token string) (string, int, error)
}

// Issuers judges the tokens of several issuers, each by what stands under the issuer that the token names, which nobody has verified by then: so each
// has a policy whose issuers is exactly the one under which it stands, and checks it again. A token that names no issuer, or one that isn't here, is
// refused as Issuer. What is no token under the policy with the least limit is refused as that one refuses it; of those with the same limit the first
// issuer in ascending byte order counts. Goroutines may share it.
type Issuers struct {
	validators map[string]Judging
	reader     Judging
}

// NewIssuers takes a map from issuers to what judges their tokens. The error is ErrIssuers.
func NewIssuers(validators map[string]Judging) (*Issuers, error) {
	i := &Issuers{validators: make(map[string]Judging, len(validators))}
	first := ""
	for issuer, it := range validators {
		if named, has := it.Issuer(); !has || named != issuer {
			return nil, ErrIssuers
		}
		i.validators[issuer] = it
		if i.reader == nil || it.Limit() < i.reader.Limit() || it.Limit() == i.reader.Limit() && issuer < first {
			i.reader, first = it, issuer
		}
	}
	if i.reader == nil {
		return nil, ErrIssuers
	}
	return i, nil
}

// Validate is Validator.Validate.
func (i *Issuers) Validate(token string) (Claims, error) { return i.ValidateAt(token, time.Now()) }

// ValidateAt is Validator.ValidateAt, by what stands under the issuer that the token names.
func (i *Issuers) ValidateAt(token string, now time.Time) (Claims, error) {
	chosen, err := i.chosen(token)
	if err != nil {
		return Claims{}, err
	}
	return chosen.ValidateAt(token, now)
}

// ValidateFor is Validator.ValidateFor.
func (i *Issuers) ValidateFor(token string, access *Access) (Claims, error) {
	return i.ValidateForAt(token, time.Now(), access)
}

// ValidateForAt is Validator.ValidateForAt, by what stands under the issuer that the token names.
func (i *Issuers) ValidateForAt(token string, now time.Time, access *Access) (Claims, error) {
	chosen, err := i.chosen(token)
	if err != nil {
		return Claims{}, err
	}
	return chosen.ValidateForAt(token, now, access)
}

// ValidateWith is Validator.ValidateWith, by what stands under the issuer that the token names.
func (i *Issuers) ValidateWith(token string, how ...Asked) (Claims, error) {
	chosen, err := i.chosen(token)
	if err != nil {
		return Claims{}, err
	}
	return chosen.ValidateWith(token, how...)
}

// Judge is Validator.Judge.
func (i *Issuers) Judge(token string) (Report, error) { return i.JudgeAt(token, time.Now()) }

// JudgeAt is Validator.JudgeAt. Where nothing stands under the issuer that the token names, the report has that refusal and nothing else.
func (i *Issuers) JudgeAt(token string, now time.Time) (Report, error) {
	chosen, err := i.chosen(token)
	if refusal := (*ClaimsError)(nil); errors.As(err, &refusal) {
		return Report{Refusal: refusal}, nil
	}
	if err != nil {
		return Report{}, err
	}
	return chosen.JudgeAt(token, now)
}

// Close closes what stands under each issuer. It may be called twice. The error is nil.
func (i *Issuers) Close() error {
	for _, it := range i.validators {
		it.Close()
	}
	return nil
}

// chosen gives what judges a token: the reader, where it is none, and else what stands under the issuer that it names. The error is a *ClaimsError
// where there is nothing, ErrOutOfMemory or ErrClosed.
func (i *Issuers) chosen(token string) (Judging, error) {
	// Issuers that NewIssuers didn't make have no reader.
	if i.reader == nil {
		return nil, ErrClosed
	}
	issuer, status, err := i.reader.namedIssuer(token)
	if err != nil {
		return nil, err
	}
	if status == statusAbsent {
		return i.reader, nil
	}
	if it, found := i.validators[issuer]; found && status == statusOK {
		return it, nil
	}
	return nil, &ClaimsError{Fault: "Issuer"}
}
