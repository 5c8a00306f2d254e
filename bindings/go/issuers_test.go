package fowharimu_test

import (
	"encoding/json"
	"errors"
	"strings"
	"testing"

	"example.org/fowharimu"
)

const aSecret = `{"keys":[{"kty":"oct","k":"AAAAAAAAAAAAAAAAAAAAAAAAAAAAAAAAAAAAAAAAAAA"}]}`

// opened is the validator of a policy and a key set.
func opened(t *testing.T, policy, keys string) *fowharimu.Validator {
	t.Helper()
	v, err := fowharimu.Open([]byte(policy), []byte(keys))
	if err != nil {
		t.Fatal(err)
	}
	return v
}

// issued is a token with these claims, signed by HMAC.
func issued(t *testing.T, v *fowharimu.Validator, claims string) string {
	t.Helper()
	token, err := v.Issue(json.RawMessage(claims), fowharimu.Issuing{})
	if err != nil {
		t.Fatal(err)
	}
	return token
}

func TestWhatAValidatorTellsOfItsPolicyAndKeys(t *testing.T) {
	long := strings.Repeat("a", 60_000)
	for _, row := range []struct {
		policy, keys, issuer string
		has                  bool
		limit                int
		isPublic             bool
	}{
		{`{"algs":["RS256"]}`, `{"keys":[]}`, "", false, 8192, true},
		{`{"algs":["RS256"],"issuers":["a","b"],"limit":7}`, `{"keys":[]}`, "", false, 7, true},
		{`{"algs":["RS256"],"issuers":["` + long + `"]}`, `{"keys":[]}`, long, true, 8192, true},
		{`{"algs":["RS256"],"issuers":[""]}`, aSecret, "", true, 8192, false},
		{`{"algs":["RS256","HS512"]}`, `{"keys":[]}`, "", false, 8192, false},
	} {
		v := opened(t, row.policy, row.keys)
		issuer, has := v.Issuer()
		if issuer != row.issuer || has != row.has || v.Limit() != row.limit || v.IsPublic() != row.isPublic {
			t.Errorf("%.60s: %.20q, %v, %d, %v", row.policy, issuer, has, v.Limit(), v.IsPublic())
		}
		v.Close()
	}
}

func TestIssuers(t *testing.T) {
	one := opened(t, `{"algs":["HS256"],"issuers":["a"],"limit":400}`, aSecret)
	other := opened(t, `{"algs":["HS256"],"issuers":["b"],"limit":300}`, aSecret)
	issuers, err := fowharimu.NewIssuers(map[string]fowharimu.Judging{"a": one, "b": other})
	if err != nil {
		t.Fatal(err)
	}
	for _, claims := range []string{`{"iss":"a"}`, `{"iss":"b"}`} {
		token := issued(t, one, claims)
		if got, err := issuers.Validate(token); err != nil || got.String() != claims {
			t.Errorf("%s: %v, %v", claims, got, err)
		}
		if report, err := issuers.JudgeAt(token, now); err != nil || !report.Accepted() {
			t.Errorf("%s: %v, %v", claims, report, err)
		}
		rule, err := fowharimu.OpenAccess([]byte(`{"scopes":["read"]}`))
		if err != nil {
			t.Fatal(err)
		}
		var denied *fowharimu.DeniedError
		if _, err := issuers.ValidateFor(token, rule); !errors.As(err, &denied) {
			t.Errorf("%s: %v", claims, err)
		}
		rule.Close()
	}
	for token, fault := range map[string]string{issued(t, one, `{"iss":"c"}`): "Issuer", "x": "Segments", strings.Repeat("x", 301): "TooLong"} {
		_, err := issuers.Validate(token)
		report, second := issuers.Judge(token)
		var refusal fowharimu.Refusal
		if !errors.As(err, &refusal) || refusal.FaultName() != fault || second != nil || report.Accepted() || report.Refusal.FaultName() != fault {
			t.Errorf("%s: %v, %v, %v", fault, err, report, second)
		}
	}
	for _, it := range []map[string]fowharimu.Judging{nil, {"a": other}, {"a": one, "c": other}} {
		if _, err := fowharimu.NewIssuers(it); err != fowharimu.ErrIssuers {
			t.Errorf("%v: %v", it, err)
		}
	}
	token := issued(t, one, `{"iss":"b"}`)
	if issuer, names, err := one.UnverifiedIssuer(token); issuer != "b" || !names || err != nil {
		t.Errorf("%q, %v, %v", issuer, names, err)
	}
	if issuer, names, err := one.UnverifiedIssuer("x"); issuer != "" || names || err != nil {
		t.Errorf("%q, %v, %v", issuer, names, err)
	}
	for i := 0; i < 2; i++ {
		issuers.Close()
		if _, err := issuers.Validate(token); err != fowharimu.ErrClosed {
			t.Error(err)
		}
		if report, err := issuers.Judge(token); err != fowharimu.ErrClosed || report.Accepted() {
			t.Error(err, report)
		}
		if _, err := new(fowharimu.Issuers).Validate(token); err != fowharimu.ErrClosed {
			t.Error(err)
		}
		if _, _, err := other.UnverifiedIssuer(token); err != fowharimu.ErrClosed {
			t.Error(err)
		}
	}
}
