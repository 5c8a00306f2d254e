package fowharimu_test

import (
	"errors"
	"reflect"
	"strings"
	"sync"
	"testing"
	"time"

	"example.org/fowharimu"
)

// access is an access rule.
func access(t testing.TB, document string) *fowharimu.Access {
	t.Helper()
	rule, err := fowharimu.OpenAccess([]byte(document))
	if err != nil {
		t.Fatal(err)
	}
	t.Cleanup(func() { rule.Close() })
	return rule
}

func TestAnAcceptedTokenMeetsARuleOrIsDenied(t *testing.T) {
	validator, token := open(t, hmac)
	long := "/" + strings.Repeat("a", 5000)
	for rule, want := range map[string]*fowharimu.DeniedError{
		"{}": nil,
		`{"claims":{"iss":["ann","joe"],"exp":[1300819380],"http://example.com/is_root":[true]}}`: nil,
		`{"scopes":["joe"],"scope_claim":"iss"}`:                                                  nil,
		`{"scopes":["read","write"],"claims":{"iss":["ann"]}}`:                                    {Fault: "ScopeMissing", Scope: "read", Scopes: []string{"read", "write"}},
		`{"claims":{"iss":["ann"]}}`:                                                              {Fault: "ClaimNotAllowed", Claim: "iss"},
		`{"claims":{"":["x"]}}`:                                                                   {Fault: "ClaimMissing"},
		`{"claims":{"` + long + `":[1]}}`:                                                         {Fault: "ClaimMissing", Claim: long},
	} {
		claims, err := validator.ValidateForAt(token, now, access(t, rule))
		var denied *fowharimu.DeniedError
		if want == nil {
			if err != nil || !strings.Contains(claims.String(), "joe") {
				t.Errorf("%s: %v, %v", rule, claims, err)
			}
		} else if !errors.As(err, &denied) || !reflect.DeepEqual(denied, want) || claims.Raw() != nil {
			t.Errorf("%s: %v, and not %v", rule, err, want)
		}
	}
}

func TestADenialIsNoRefusal(t *testing.T) {
	validator, token := open(t, hmac)
	rule := access(t, `{"scopes":["read"]}`)
	_, err := validator.ValidateForAt(token, now, rule)
	var refusal fowharimu.Refusal
	if errors.As(err, &refusal) || err.Error() != `fowharimu: the token is denied: ScopeMissing of "read"` {
		t.Error(err)
	}
	_, err = validator.ValidateForAt(token, now.Add(time.Hour), rule)
	if !errors.As(err, &refusal) || refusal.FaultName() != "Expired" {
		t.Error(err)
	}
	_, err = validator.ValidateFor(token, rule)
	if !errors.As(err, &refusal) {
		t.Error(err)
	}
}

func TestARuleIsRefused(t *testing.T) {
	for rule, want := range map[string]fowharimu.AccessError{
		"":                          {Fault: "Json"},
		"\xff":                      {Fault: "Json"},
		`{"scopes":[],"scopes":[]}`: {Fault: "NameTwice"},
		`{"scope":"read"}`:          {Fault: "Member", Member: "scope"},
		`{"scopes":["read write"]}`: {Fault: "Range", Member: "scopes"},
		`{"claims":{"a":[1.5]}}`:    {Fault: "Claim", Member: "a"},
		`{"claims":{"/~2":["x"]}}`:  {Fault: "ClaimRange", Member: "/~2"},
		strings.Repeat(" ", 65537):  {Fault: "TooLong"},
	} {
		_, err := fowharimu.OpenAccess([]byte(rule))
		var refused *fowharimu.AccessError
		if !errors.As(err, &refused) || *refused != want {
			t.Errorf("%.30s: %v", rule, err)
		}
	}
}

func TestAClosedRuleLetsNothingThrough(t *testing.T) {
	validator, token := open(t, hmac)
	rule := access(t, `{"scopes":["a","b"]}`)
	scopes := rule.Scopes()
	scopes[0] = "x"
	if !reflect.DeepEqual(rule.Scopes(), []string{"a", "b"}) {
		t.Error(rule.Scopes())
	}
	rule.Close()
	rule.Close()
	if _, err := validator.ValidateForAt(token, now, rule); !errors.Is(err, fowharimu.ErrClosed) {
		t.Error(err)
	}
	for _, never := range []*fowharimu.Access{nil, new(fowharimu.Access)} {
		if _, err := validator.ValidateForAt(token, now, never); !errors.Is(err, fowharimu.ErrClosed) {
			t.Error(err)
		}
	}
}

func TestGoroutinesShareARule(t *testing.T) {
	validator, token := open(t, hmac)
	grants, denies := access(t, `{"claims":{"iss":["joe"]}}`), access(t, `{"scopes":["read"]}`)
	var workers sync.WaitGroup
	for i := 0; i < 32; i++ {
		workers.Add(1)
		go func() {
			defer workers.Done()
			for j := 0; j < 100; j++ {
				if _, err := validator.ValidateForAt(token, now, grants); err != nil {
					t.Error(err)
				}
				var denied *fowharimu.DeniedError
				if _, err := validator.ValidateForAt(token, now, denies); !errors.As(err, &denied) || denied.Scope != "read" {
					t.Error(err)
				}
			}
		}()
	}
	workers.Wait()
}
