package fowharimu_test

import (
	"errors"
	"math"
	"sync"
	"sync/atomic"
	"testing"
	"time"

	"example.org/fowharimu"
)

// claims are those of an issued token.
type claims = map[string]any

// memoryFor is a memory for so many tokens.
func memoryFor(t *testing.T, tokens uint) *fowharimu.Once {
	t.Helper()
	once, err := fowharimu.OpenOnce(tokens, fowharimu.Opened(time.Unix(0, 0)), fowharimu.Share(tokens))
	if err != nil {
		t.Fatal(err)
	}
	t.Cleanup(func() { once.Close() })
	return once
}

// taking is a validator that takes tokens in this memory, which it issues too.
func taking(t *testing.T, once *fowharimu.Once) *fowharimu.Validator {
	t.Helper()
	policy := []byte(`{"algs":["HS256"],"leeway":60}`)
	validator, err := fowharimu.Open(policy, octets(t, hmac+".keys"), fowharimu.Taking(once))
	if err != nil {
		t.Fatal(err)
	}
	t.Cleanup(func() { validator.Close() })
	return validator
}

// issuedBy is a token of these claims.
func issuedBy(t *testing.T, validator *fowharimu.Validator, of claims) string {
	t.Helper()
	token, err := validator.Issue(of, fowharimu.Issuing{})
	if err != nil {
		t.Fatal(err)
	}
	return token
}

// letIn has a token let in at a moment.
func letIn(t *testing.T, validator *fowharimu.Validator, token string, seconds int64) {
	t.Helper()
	if _, err := validator.ValidateAt(token, time.Unix(seconds, 0)); err != nil {
		t.Error(err)
	}
}

// notTaken has an accepted token that isn't taken, for this reason.
func notTaken(t *testing.T, validator *fowharimu.Validator, token string, seconds int64, fault string) {
	t.Helper()
	_, err := validator.ValidateAt(token, time.Unix(seconds, 0))
	var why *fowharimu.NotTakenError
	var refusal fowharimu.Refusal
	if !errors.As(err, &why) || why.Fault != fault || !errors.As(err, &refusal) || refusal.FaultName() != fault {
		t.Fatal(fault, err)
	}
	if why.Error() != "fowharimu: the token counts once, and isn't taken: "+fault {
		t.Error(why)
	}
}

func TestATokenIsLetInOnce(t *testing.T) {
	validator := taking(t, memoryFor(t, 10))
	token := issuedBy(t, validator, claims{"iss": "i", "jti": "a", "exp": 1000})
	// (what judges, is denied, or is refused, takes nothing)
	if report, err := validator.JudgeAt(token, time.Unix(900, 0)); err != nil || !report.Accepted() {
		t.Error(report, err)
	}
	var denied *fowharimu.DeniedError
	if _, err := validator.ValidateForAt(token, time.Unix(900, 0), access(t, `{"scopes":["read"]}`)); !errors.As(err, &denied) {
		t.Error(err)
	}
	var refused *fowharimu.ClaimsError
	if _, err := validator.ValidateAt(token, time.Unix(1060, 0)); !errors.As(err, &refused) {
		t.Error(err)
	}
	letIn(t, validator, token, 900)
	notTaken(t, validator, token, 900, "Seen")
	// (another token with the same issuer and jti, another issuer, and the same token by a rule that it meets)
	notTaken(t, validator, issuedBy(t, validator, claims{"iss": "i", "jti": "a", "exp": 1001}), 1060, "Seen")
	letIn(t, validator, issuedBy(t, validator, claims{"jti": "a", "exp": 1000}), 900)
	var why *fowharimu.NotTakenError
	if _, err := validator.ValidateForAt(token, time.Unix(900, 0), access(t, `{"claims":{"iss":["i"]}}`)); !errors.As(err, &why) {
		t.Error(err)
	}
}

func TestWhyATokenIsNotTaken(t *testing.T) {
	validator := taking(t, memoryFor(t, 1))
	notTaken(t, validator, issuedBy(t, validator, claims{"iss": "i", "exp": 1000}), 900, "NoId")
	notTaken(t, validator, issuedBy(t, validator, claims{"iss": "i", "jti": "a"}), 900, "NoEnd")
	notTaken(t, validator, issuedBy(t, validator, claims{"jti": "a", "exp": 1000, "iat": 961}), 900, "Ahead")
	letIn(t, validator, issuedBy(t, validator, claims{"jti": "a", "exp": 1000}), 900)
	notTaken(t, validator, issuedBy(t, validator, claims{"jti": "b", "exp": 2000}), 900, "Full")
	letIn(t, validator, issuedBy(t, validator, claims{"jti": "b", "exp": 2000}), 1061)
	notTaken(t, validator, issuedBy(t, validator, claims{"jti": "a", "exp": 1000}), 900, "Late")
}

func TestValidatorsShareAMemory(t *testing.T) {
	once := memoryFor(t, 10)
	first, second := taking(t, once), taking(t, once)
	token := issuedBy(t, first, claims{"iss": "i", "jti": "a", "exp": 1000})
	letIn(t, first, token, 900)
	notTaken(t, second, token, 900, "Seen")
	letIn(t, taking(t, memoryFor(t, math.MaxUint)), token, 900)
}

func TestNoneIsTakenUnlessItIsAskedFor(t *testing.T) {
	validator, token := open(t, hmac)
	letIn(t, validator, token, now.Unix())
	letIn(t, validator, token, now.Unix())
}

func TestAMemoryThatIsNone(t *testing.T) {
	if once, err := fowharimu.OpenOnce(0); once != nil || err != fowharimu.ErrOnce {
		t.Error(once, err)
	}
	if _, err := fowharimu.Open([]byte(`{"algs":["HS256"]}`), []byte(`{"keys":[]}`), fowharimu.Taking(nil)); err != fowharimu.ErrOnce {
		t.Error(err)
	}
	closed := memoryFor(t, 10)
	validator := taking(t, closed)
	token := issuedBy(t, validator, claims{"jti": "a", "exp": 1000})
	for n := 0; n < 2; n++ {
		if err := closed.Close(); err != nil {
			t.Error(err)
		}
	}
	for _, it := range []*fowharimu.Validator{validator, taking(t, new(fowharimu.Once))} {
		if _, err := it.ValidateAt(token, time.Unix(900, 0)); err != fowharimu.ErrClosed {
			t.Error(err)
		}
	}
}

func TestOfManyGoroutinesOneIsLetIn(t *testing.T) {
	validator := taking(t, memoryFor(t, 10))
	token := issuedBy(t, validator, claims{"iss": "i", "jti": "a", "exp": 1000})
	var group sync.WaitGroup
	var count atomic.Int32
	for n := 0; n < 8; n++ {
		group.Add(1)
		go func() {
			defer group.Done()
			for n := 0; n < 50; n++ {
				if _, err := validator.ValidateAt(token, time.Unix(900, 0)); err == nil {
					count.Add(1)
				}
			}
		}()
	}
	group.Wait()
	if count.Load() != 1 {
		t.Error(count.Load())
	}
}

func TestWhatWasTakenStaysSoUnderNewKeys(t *testing.T) {
	const assertion = "../../examples/profiles/client-assertion/"
	keys := openRemote(t, octets(t, assertion+"policy.json"), serving(t, octets(t, assertion+"keys.json")), fowharimu.Taking(memoryFor(t, 10)))
	token := string(octets(t, assertion+"tokens/good.jwt"))
	if _, err := keys.ValidateAt(token, now); err != nil {
		t.Fatal(err)
	}
	if err := keys.Refresh(); err != nil {
		t.Fatal(err)
	}
	var why *fowharimu.NotTakenError
	if _, err := keys.ValidateAt(token, now); !errors.As(err, &why) || why.Fault != "Seen" {
		t.Error(err)
	}
}
