package fowharimu

import (
	"errors"
	"os"
	"runtime"
	"sync"
	"testing"
	"time"
)

const example = "../../examples/rfc7515-a1"

// document is what a file holds.
func document(t *testing.T, end string) []byte {
	t.Helper()
	held, err := os.ReadFile(example + end)
	if err != nil {
		t.Fatal(err)
	}
	return held
}

// opened is the validator of the example, and its token.
func opened(t *testing.T) (*Validator, string) {
	t.Helper()
	v, err := Open(document(t, ".policy"), document(t, ".keys"))
	if err != nil {
		t.Fatal(err)
	}
	t.Cleanup(func() { v.Close() })
	return v, string(document(t, ".jwt"))
}

func TestThereAreAsManySeatsAsCallsAtOnce(t *testing.T) {
	v, token := opened(t)
	for round := 0; round < 100; round++ {
		var group sync.WaitGroup
		for i := 0; i < 8; i++ {
			group.Add(1)
			go func() {
				defer group.Done()
				if _, err := v.ValidateAt(token, time.Unix(1300819379, 0)); err != nil {
					t.Error(err)
				}
			}()
		}
		group.Wait()
		// The pool forgets what it has at each second collection.
		runtime.GC()
		runtime.GC()
	}
	if len(v.seats) > 8 {
		t.Errorf("%d seats", len(v.seats))
	}
}

func TestACallThatIsUnderWayEndsWhereTheValidatorIsClosed(t *testing.T) {
	v, token := opened(t)
	free, err := v.take()
	if err != nil {
		t.Fatal(err)
	}
	taken, err := v.take()
	if err != nil || taken == free {
		t.Fatal(err)
	}
	v.give(free)
	v.Close()
	if free.held.at != nil || taken.held.at == nil {
		t.Error("a free seat goes with the validator, and one that is taken stays")
	}
	if _, refusal, err := taken.judge(token, time.Unix(1300819379, 0)); refusal != nil || err != nil {
		t.Error(refusal, err)
	}
	v.give(taken)
	if taken.held.at != nil {
		t.Error("the last call frees its seat")
	}
	if _, err := v.take(); !errors.Is(err, ErrClosed) {
		t.Error(err)
	}
}

func TestWantOfMemoryIsNoEmptyText(t *testing.T) {
	cases := []struct {
		status int
		text   string
		err    error
	}{
		{statusOK, "role", nil},
		{statusAbsent, "", nil},
		{statusOutOfMemory, "", ErrOutOfMemory},
	}
	for _, it := range cases {
		text, err := textOf([]byte(it.text), it.status)
		if text != it.text || err != it.err {
			t.Errorf("status %d: %q, %v", it.status, text, err)
		}
	}
}

func TestAThousandCallsAtOnce(t *testing.T) {
	v, token := opened(t)
	var group, under sync.WaitGroup
	under.Add(1000)
	for i := 0; i < 1000; i++ {
		group.Add(1)
		go func() {
			defer group.Done()
			s, err := v.take()
			under.Done()
			if err != nil {
				t.Error(err)
				return
			}
			under.Wait()
			defer v.give(s)
			if _, refusal, err := s.judge(token, time.Unix(1300819379, 0)); refusal != nil || err != nil {
				t.Error(refusal, err)
			}
		}()
	}
	group.Wait()
	if len(v.seats) != 1000 {
		t.Errorf("%d seats", len(v.seats))
	}
}
