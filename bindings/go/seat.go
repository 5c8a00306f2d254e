package fowharimu

import "sync/atomic"

// A seat is free, taken by a call, or gone with its validator.
const (
	seatFree int32 = iota
	seatTaken
	seatGone
)

// seat is what one call at a time judges with: a handle on the documents of its validator.
type seat struct {
	held  held
	state atomic.Int32
}

// take gives a seat that no other call has. The error is ErrOutOfMemory or ErrClosed.
func (v *Validator) take() (*seat, error) {
	if s, is := v.free.Get().(*seat); is && s.state.CompareAndSwap(seatFree, seatTaken) {
		return s, nil
	}
	return v.takeAny()
}

// takeAny gives a free seat among all, since the pool forgets what the garbage collector finds in it, or else a new one.
func (v *Validator) takeAny() (*seat, error) {
	v.mutex.Lock()
	defer v.mutex.Unlock()
	// A Validator that Open didn't make holds no documents.
	if v.closed || v.documents.at == nil {
		return nil, ErrClosed
	}
	for _, s := range v.seats {
		if s.state.CompareAndSwap(seatFree, seatTaken) {
			return s, nil
		}
	}
	s := new(seat)
	if s.held.openBeside(&v.documents) != statusOK || s.held.remember(v.remember) != statusOK {
		s.held.close()
		return nil, ErrOutOfMemory
	}
	s.state.Store(seatTaken)
	v.seats = append(v.seats, s)
	return s, nil
}

// give gives a seat back. Where the validator was closed meanwhile, the call was the last to hold it, and frees it.
func (v *Validator) give(s *seat) {
	if s.state.CompareAndSwap(seatTaken, seatFree) {
		v.free.Put(s)
		return
	}
	s.held.close()
}

// leave frees a seat of a validator that is closed, or leaves that to the call that has it.
func (s *seat) leave() {
	if s.state.Swap(seatGone) == seatFree {
		s.held.close()
	}
}
