package fowharimu

/*
#include <fowharimu.h>

static fow_renewal renewal_begin(uint64_t refresh_after, uint64_t cool_down, uint64_t max_age, uint64_t timeout, uint64_t now)
{
	fow_renewal it;
	fow_renewal_begin(&it, refresh_after, cool_down, max_age, timeout, now);
	return it;
}

// An answer, and for how long nobody need ask.
typedef struct asked {
	fow_renewal_answer answer;
	uint64_t quiet_for;
} asked;

static asked renewal_ask(fow_renewal *it, uint64_t now, uint64_t asker, uint64_t keys)
{
	asked said;
	fow_renewal_ask(it, now, asker, keys, &said.answer);
	said.quiet_for = fow_renewal_quiet_for(it);
	return said;
}
*/
import "C"

import (
	"math"
	"time"
)

// asker is who asks for keys: enum fow_asker.
type asker uint64

const (
	askerToken   asker = C.FOW_ASKER_TOKEN
	askerRefused asker = C.FOW_ASKER_REFUSED
	askerOwner   asker = C.FOW_ASKER_OWNER
	askerWaited  asker = C.FOW_ASKER_WAITED
)

// renewal says when keys by URL are fetched, until when they are used, and who waits for a fetch: the library decides. Its calls are made under a
// mutex, by one monotonic clock that is read under it.
type renewal struct {
	state C.fow_renewal
	start time.Time
}

// renewed is what a renewal answers.
type renewed struct {
	keys         uint64        // the ticket of the keys to be used
	hasKeys      bool          // there are such
	ticket       uint64        // of the fetch
	begins       bool          // whoever asked makes it
	isUnderWay   bool          // it is under way, or begins
	since, until time.Duration // so long the keys are used, and a token begins no fetch
}

func newRenewal(how Remote) renewal {
	return renewal{
		// (a fetch has its whole timeout, and else no time is longer than it was said)
		state: C.renewal_begin(milliseconds(how.RefreshAfter), milliseconds(how.Cooldown), milliseconds(how.MaxAge),
			milliseconds(how.Timeout+time.Millisecond-1), 0),
		start: time.Now(),
	}
}

func milliseconds(d time.Duration) C.uint64_t { return C.uint64_t(d / time.Millisecond) }

// now is the moment, by a clock that begins with the renewal.
func (r *renewal) now() time.Duration { return time.Since(r.start) }

// ask says which keys are to be used, and whether a fetch begins; for a token that was refused, by the keys of this ticket.
func (r *renewal) ask(who asker, keys uint64) renewed {
	now := r.now()
	said := C.renewal_ask(&r.state, milliseconds(now), C.uint64_t(who), C.uint64_t(keys))
	return renewed{
		keys:       uint64(said.answer.keys),
		hasKeys:    said.answer.has_keys != 0,
		ticket:     uint64(said.answer.ticket),
		begins:     said.answer.fetch == C.FOW_FETCH_BEGINS,
		isUnderWay: said.answer.fetch != C.FOW_NO_FETCH,
		since:      now,
		until:      later(now.Truncate(time.Millisecond), said.quiet_for),
	}
}

// later is a moment so many milliseconds later, and the latest one where there is none.
func later(now time.Duration, milliseconds C.uint64_t) time.Duration {
	if milliseconds > C.uint64_t((math.MaxInt64-now)/time.Millisecond) {
		return math.MaxInt64
	}
	return now + time.Duration(milliseconds)*time.Millisecond
}

// took says whether the keys of that fetch count; else they are to be dropped.
func (r *renewal) took(ticket uint64) bool {
	return bool(C.fow_renewal_took(&r.state, milliseconds(r.now()), C.uint64_t(ticket)))
}

// failed tells that a fetch gave no keys.
func (r *renewal) failed(ticket uint64) {
	C.fow_renewal_failed(&r.state, milliseconds(r.now()), C.uint64_t(ticket))
}

// wait says whether a token of this name may wait for that fetch.
func (r *renewal) wait(ticket, name uint64) bool {
	return bool(C.fow_renewal_wait(&r.state, milliseconds(r.now()), C.uint64_t(ticket), C.uint64_t(name)))
}
