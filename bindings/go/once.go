package fowharimu

/*
#include <stdlib.h>
#include <fowharimu.h>

static void once_free(fow_once *it)
{
	fow_once_close(it);
	free(it);
}
*/
import "C"

import (
	"errors"
	"runtime"
	"sync"
	"time"
)

// ErrOnce says that a memory of tokens that count once was asked for no tokens, or was never opened.
var ErrOnce = errors.New("fowharimu: no memory of tokens that count once: it is for no tokens, or was never opened")

// Once is a memory of tokens that count once, by their issuer and jti, each until its exp and the policy's leeway. A validator asks it behind its
// verdict and the access rule (Taking). Validators may share it, whatever their policies, and goroutines, under a mutex. Close frees what it
// holds, and so does the garbage collector.
//
// A token is let in once a memory: several processes or machines need one store that they share, which says in one step that issuer and jti are new,
// and holds them from then on.
type Once struct {
	mutex sync.Mutex
	at    *C.fow_once // in C's memory; nil where it was never opened, or is closed
}

// NotTakenError is the Refusal of a token that is accepted, counts once, and isn't taken. Fault says why: Seen, it was taken before; Late, its exp and
// the leeway have passed by the greatest moment that was judged at; Full, as many tokens are held as there is room for; NoId or NoEnd, it has no
// jti, or no exp; Ahead, its iat is further ahead of now than the leeway; OwnFull, its issuer and sub have as many as one owner may; Before, it was
// issued before the memory was opened, or says no iat.
type NotTakenError struct {
	Fault string
	// Outcome is what a service answers a request with this token, or with this proof.
	Outcome Outcome
}

func (e *NotTakenError) Error() string {
	if e.Fault == "Before" {
		return "fowharimu: the token counts once, and isn't taken: it was issued before this memory was opened"
	}
	return "fowharimu: the token counts once, and isn't taken: " + e.Fault
}

// FaultName is the fault.
func (e *NotTakenError) FaultName() string { return e.Fault }

// whyNotTaken has the names of the answers of enum fow_taken.
var whyNotTaken = map[C.uint32_t]string{
	C.FOW_TAKEN_SEEN:     "Seen",
	C.FOW_TAKEN_LATE:     "Late",
	C.FOW_TAKEN_FULL:     "Full",
	C.FOW_TAKEN_NO_ID:    "NoId",
	C.FOW_TAKEN_NO_END:   "NoEnd",
	C.FOW_TAKEN_AHEAD:    "Ahead",
	C.FOW_TAKEN_OWN_FULL: "OwnFull",
	C.FOW_TAKEN_BEFORE:   "Before",
}

// OnceOption says how a memory is opened.
type OnceOption func(*onceOptions)

type onceOptions struct {
	share  uint
	opened uint64
}

// Share is how many one owner may have, an issuer with a sub; without it, a sixteenth.
func Share(tokens uint) OnceOption {
	return func(o *onceOptions) { o.share = tokens }
}

// Opened is the moment from which on the memory knows everything: what was issued before, by its iat and the leeway, is refused, and so is a token without
// iat. Without it, it is the second after the one in which the memory is opened, so that a restart refuses some tokens and lets none in twice. With
// time.Unix(0, 0) it lets in each token once more.
func Opened(at time.Time) OnceOption {
	return func(o *onceOptions) {
		if o.opened = 0; at.Unix() > 0 {
			o.opened = uint64(at.Unix())
		}
	}
}

// OpenOnce makes an empty memory for so many tokens, each of which takes some 190 octets, 310 with a `sub`. Room is needed for as many as are accepted within the lifetime
// of one: where it is too small, good tokens are refused. The error is ErrOnce for no tokens, ErrOutOfMemory, or a *LibraryError where another
// library was loaded than this package was compiled for.
func OpenOnce(tokens uint, how ...OnceOption) (*Once, error) {
	if err := compare(); err != nil {
		return nil, err
	}
	if tokens == 0 {
		return nil, ErrOnce
	}
	chosen := onceOptions{opened: uint64(time.Now().Unix() + 1)}
	for _, choose := range how {
		choose(&chosen)
	}
	at := (*C.fow_once)(C.calloc(1, C.sizeof_fow_once))
	if at == nil {
		return nil, ErrOutOfMemory
	}
	if C.fow_once_open(at, C.size_t(tokens), C.size_t(chosen.share), C.uint64_t(chosen.opened)) != statusOK {
		C.once_free(at)
		return nil, ErrOutOfMemory
	}
	o := &Once{at: at}
	runtime.SetFinalizer(o, (*Once).Close)
	return o, nil
}

// Taking has the validator take in this memory each token that is accepted and meets the access rule: so it is let in once, and each call after that is
// refused with a *NotTakenError, and so is a token without jti or exp, or one that there is no room for. Whoever calls answers a request by one call of
// Validate, or of its kin; Judge takes nothing. The moment is then the clock's: one far in the future closes the memory. Of keys by URL it stays under
// new keys.
func Taking(once *Once) Option {
	return func(o *options) { o.once, o.takes = once, true }
}

// take takes the token that a seat has accepted just now, at that moment. The error is a *NotTakenError, ErrOutOfMemory, or ErrClosed.
func (o *Once) take(s *seat, now time.Time) error {
	return o.takeBy(0, func(taken *C.uint32_t) C.uint32_t {
		return C.fow_once_take(o.at, &s.held.at.validator, C.int64_t(now.Unix()), taken)
	})
}

// takeProof takes the proof that was accepted just now, at that moment. The errors are those of take.
func (o *Once) takeProof(p *possession, now time.Time) error {
	return o.takeBy(1, func(taken *C.uint32_t) C.uint32_t {
		return C.fow_possession_take(p.at, o.at, C.int64_t(now.Unix()), taken)
	})
}

// takeBy takes by this call of the library, a proof where ofProof isn't 0.
func (o *Once) takeBy(ofProof C.uint32_t, call func(taken *C.uint32_t) C.uint32_t) error {
	o.mutex.Lock()
	defer o.mutex.Unlock()
	if o.at == nil {
		return ErrClosed
	}
	var taken C.uint32_t
	status := call(&taken)
	if status == statusOK && taken == C.FOW_TAKEN_NEW {
		return nil
	}
	if why, found := whyNotTaken[taken]; found && status == statusRefused {
		return &NotTakenError{why, Outcome(C.fow_taken_outcome(ofProof, status, taken))}
	}
	return ErrOutOfMemory
}

// Close frees what is held: what was taken is forgotten, and a validator that takes tokens in it gives ErrClosed. It may be called twice. The error is nil.
func (o *Once) Close() error {
	o.mutex.Lock()
	defer o.mutex.Unlock()
	if o.at != nil {
		C.once_free(o.at)
		o.at = nil
	}
	return nil
}
