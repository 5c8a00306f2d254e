package fowharimu

import (
	"sync"
	"sync/atomic"
)

// handle is what the library holds for one call at a time.
type handle interface{ close() }

// place is a handle that one call at a time has. Its states are those of a seat.
type place[H handle] struct {
	held  H
	state atomic.Int32
}

// places are handles of one document: as many as calls were under way at once.
type places[H handle] struct {
	free   sync.Pool
	mutex  sync.Mutex // guards what is below; a call takes it where the pool has no handle
	open   func() (H, error)
	all    []*place[H]
	closed bool
}

// begin has the first handle, and what opens another one, which may not refer to the object that the places are of: else its finalizer would never run.
func (p *places[H]) begin(first H, open func() (H, error)) {
	p.open, p.all = open, []*place[H]{{held: first}}
}

// take gives a handle that no other call has. The error is ErrClosed, or why none is opened.
func (p *places[H]) take() (*place[H], error) {
	if it, is := p.free.Get().(*place[H]); is && it.state.CompareAndSwap(seatFree, seatTaken) {
		return it, nil
	}
	return p.takeAny()
}

// takeAny gives a free handle among all, since the pool forgets what the garbage collector finds in it, or else a new one.
func (p *places[H]) takeAny() (*place[H], error) {
	p.mutex.Lock()
	defer p.mutex.Unlock()
	// Places that never began hold nothing.
	if p.closed || p.open == nil {
		return nil, ErrClosed
	}
	for _, it := range p.all {
		if it.state.CompareAndSwap(seatFree, seatTaken) {
			return it, nil
		}
	}
	held, err := p.open()
	if err != nil {
		return nil, err
	}
	it := &place[H]{held: held}
	it.state.Store(seatTaken)
	p.all = append(p.all, it)
	return it, nil
}

// give gives a handle back. Where all was closed meanwhile, the call was the last to hold it, and frees it.
func (p *places[H]) give(it *place[H]) {
	if it.state.CompareAndSwap(seatTaken, seatFree) {
		p.free.Put(it)
		return
	}
	it.held.close()
}

// close frees what is held, and what calls under way have when they end. It may be called twice.
func (p *places[H]) close() {
	p.mutex.Lock()
	defer p.mutex.Unlock()
	p.closed = true
	for _, it := range p.all {
		if it.state.Swap(seatGone) == seatFree {
			it.held.close()
		}
	}
	p.all = nil
}
