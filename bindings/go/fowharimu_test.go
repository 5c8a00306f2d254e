package fowharimu_test

import (
	"errors"
	"fmt"
	"math"
	"os"
	"path/filepath"
	"reflect"
	"runtime"
	"strings"
	"sync"
	"testing"
	"time"

	"example.org/fowharimu"
)

const hmac = "../../examples/rfc7515-a1"

var now = time.Unix(1300819379, 0)

// wrapped is a number that 32 bits don't have, and that is 0 where it is cut to them.
const wrapped = math.MaxUint32 + 1

// octets is what a file holds.
func octets(t testing.TB, name string) []byte {
	t.Helper()
	held, err := os.ReadFile(name)
	if err != nil {
		t.Fatal(err)
	}
	return held
}

// open is the validator of the policy and the key set beside a token, and the token.
func open(t testing.TB, name string) (*fowharimu.Validator, string) {
	t.Helper()
	validator, err := fowharimu.Open(octets(t, name+".policy"), octets(t, name+".keys"))
	if err != nil {
		t.Fatal(err)
	}
	t.Cleanup(func() { validator.Close() })
	return validator, string(octets(t, name+".jwt"))
}

// refusal is why the token is refused under a policy, with the keys of the HMAC token.
func refusal(t *testing.T, policy, token string) error {
	t.Helper()
	validator, err := fowharimu.Open([]byte(policy), octets(t, hmac+".keys"))
	if err != nil {
		t.Fatal(err)
	}
	defer validator.Close()
	_, err = validator.ValidateAt(token, now)
	return err
}

// changed is the token with another first character of its signature.
func changed(token string) string {
	first := strings.LastIndex(token, ".") + 1
	other := "A"
	if token[first] == 'A' {
		other = "B"
	}
	return token[:first] + other + token[first+1:]
}

func TestEachTokenIsAcceptedAndRefusedWhereItIsChanged(t *testing.T) {
	examples, _ := filepath.Glob("../../examples/*.jwt")
	names, _ := filepath.Glob("../../tests/tokens/*.jwt")
	names = append(names, examples...)
	if len(names) < 15 {
		t.Fatalf("%d tokens are there", len(names))
	}
	for _, name := range names {
		name := strings.TrimSuffix(name, ".jwt")
		t.Run(filepath.Base(name), func(t *testing.T) {
			validator, token := open(t, name)
			claims, err := validator.ValidateAt(token, now)
			if strings.HasSuffix(name, "rfc8037-a4") {
				var refused *fowharimu.ClaimsError
				if !errors.As(err, &refused) || refused.Fault != "ClaimsShape" {
					t.Errorf("a payload that is no object: %v", err)
				}
			} else if strings.HasSuffix(name, "Ed448") {
				var refused *fowharimu.SignatureError
				if !errors.As(err, &refused) || refused.Fault != "BadSignature" {
					t.Errorf("a signature by Ed448: %v", err)
				}
			} else if registered, wrong := claims.Registered(); err != nil || wrong != nil || registered.Issuer != "joe" {
				t.Errorf("%v, %v, %v", err, wrong, registered)
			}
			_, err = validator.ValidateAt(changed(token), now)
			var refused *fowharimu.SignatureError
			if !errors.As(err, &refused) || *refused != (fowharimu.SignatureError{Fault: "BadSignature", Signature: 0}) {
				t.Errorf("changed: %v", err)
			}
		})
	}
}

func TestATokenThatComesAgainIsJudgedByItsClaims(t *testing.T) {
	policy, keys, token := octets(t, hmac+".policy"), octets(t, hmac+".keys"), string(octets(t, hmac+".jwt"))
	for _, it := range []struct {
		tokens, octets uint
		is             bool
	}{{10, 4096, true}, {1, uint(len(token)), true}, {10, uint(len(token)) - 1, false}, {0, 4096, false}} {
		validator, err := fowharimu.Open(policy, keys, fowharimu.Remember(it.tokens, it.octets))
		if err != nil {
			t.Fatal(err)
		}
		var first fowharimu.Report
		for n, later := range []time.Duration{0, 0, time.Second, 0} {
			report, err := validator.JudgeAt(token, now.Add(later))
			if err != nil || report.Accepted() != (later == 0) || report.Remembered != (it.is && n > 0) {
				t.Error(it, n, err, report)
			}
			if n == 0 {
				first = report
			}
			if report.Work != first.Work || len(report.Tries) != 1 || report.Tries[0] != first.Tries[0] || report.States[0] != first.States[0] {
				t.Error(it, n, report, first)
			}
		}
		if claims, err := validator.ValidateAt(token, now); err != nil || !strings.Contains(claims.String(), "joe") {
			t.Error(err, claims)
		}
		if _, err := validator.ValidateAt(changed(token), now); err == nil {
			t.Error("another signature is accepted")
		}
		validator.Close()
	}
}

func TestTheClockIsTheMoment(t *testing.T) {
	validator, token := open(t, hmac)
	_, err := validator.Validate(token)
	var refused *fowharimu.ClaimsError
	if !errors.As(err, &refused) || refused.Fault != "Expired" {
		t.Error(err)
	}
	report, err := validator.Judge(token)
	if err != nil || report.Accepted() || report.Refusal.FaultName() != "Expired" {
		t.Error(err, report)
	}
}

func TestAFractionOfASecondIsLeftOut(t *testing.T) {
	validator, token := open(t, hmac)
	if _, err := validator.ValidateAt(token, now.Add(999*time.Millisecond)); err != nil {
		t.Error(err)
	}
	if _, err := validator.ValidateAt(token, now.Add(time.Second)); err == nil {
		t.Error("accepted when it expires")
	}
}

func TestAReportHasEachTry(t *testing.T) {
	validator, token := open(t, hmac)
	report, err := validator.JudgeAt(token, now)
	if err != nil {
		t.Fatal(err)
	}
	states, tries := []fowharimu.SignatureState{{State: fowharimu.StateVerified}}, []fowharimu.Try{{Cost: 295}}
	if !report.Accepted() || report.Refusal != nil || report.Work != 295 || !reflect.DeepEqual(report.States, states) || !reflect.DeepEqual(report.Tries, tries) {
		t.Errorf("%+v", report)
	}
	if said := report.States[0].State.String(); said != "verified" {
		t.Error(said)
	}
}

func TestEachKindOfRefusal(t *testing.T) {
	token := string(octets(t, hmac+".jwt"))
	cases := []struct {
		policy, token string
		want          error
	}{
		{`{"algs":["HS256"],"limit":100}`, token, &fowharimu.TooLongError{Fault: "TooLong"}},
		{`{"algs":["HS256"]}`, "", &fowharimu.FormError{Fault: "Empty"}},
		{`{"algs":["HS256"]}`, "a.b", &fowharimu.FormError{Fault: "Segments"}},
		{`{"algs":["HS256"]}`, "e30.*.AA", &fowharimu.FormError{Fault: "Base64", Part: fowharimu.PartPayload}},
		{`{"algs":["HS256"],"work":10}`, token, &fowharimu.CeilingError{Fault: "WorkExceeded"}},
		{`{"algs":["HS256"],"version":2,"max_calls":0}`, token, &fowharimu.CeilingError{Fault: "CallsExceeded"}},
		{`{"algs":["HS384"]}`, token, &fowharimu.SignatureError{Fault: "AlgNotAllowed"}},
		{`{"algs":["HS256"],"issuers":["eve"]}`, token, &fowharimu.ClaimsError{Fault: "Issuer"}},
		{`{"algs":["HS256"],"required":["sub"]}`, token, &fowharimu.ClaimsError{Fault: "ClaimMissing", Claim: "sub"}},
		{`{"algs":["HS256"],"required":["role"]}`, token, &fowharimu.ClaimsError{Fault: "ClaimMissing", Claim: "role"}},
	}
	for _, it := range cases {
		err := refusal(t, it.policy, it.token)
		if !reflect.DeepEqual(err, it.want) {
			t.Errorf("%s on %.20q: %#v, not %#v", it.policy, it.token, err, it.want)
		}
		var refused fowharimu.Refusal
		if !errors.As(err, &refused) || refused.FaultName() == "" || !strings.Contains(err.Error(), refused.FaultName()) {
			t.Errorf("%v is no refusal with its name", err)
		}
	}
}

func TestTheNameOfAMissingClaimIsWhole(t *testing.T) {
	name := strings.Repeat("role", 1000)
	err := refusal(t, `{"algs":["HS256"],"required":["`+name+`"]}`, string(octets(t, hmac+".jwt")))
	var refused *fowharimu.ClaimsError
	if !errors.As(err, &refused) || refused.Claim != name {
		t.Error(err)
	}
}

func TestRefusedDocuments(t *testing.T) {
	_, err := fowharimu.Open([]byte(`{"algs":["HS256"],"audience":"me"}`), []byte(`{"keys":[]}`))
	var policy *fowharimu.PolicyError
	if !errors.As(err, &policy) || *policy != (fowharimu.PolicyError{Fault: "Member", Member: "audience"}) {
		t.Error(err)
	}
	_, err = fowharimu.Open([]byte(`{"algs":[]}`), []byte(`{"keys":[]}`))
	if !errors.As(err, &policy) || *policy != (fowharimu.PolicyError{Fault: "NoAlgorithm"}) {
		t.Error(err)
	}
	_, err = fowharimu.Open([]byte(`{"algs":["HS256"]}`), []byte(`{}`))
	var keys *fowharimu.KeysError
	if !errors.As(err, &keys) || keys.Fault != "NotKeySet" {
		t.Error(err)
	}
	if _, err = fowharimu.Open(nil, nil); !errors.As(err, &policy) || policy.Fault != "Json" {
		t.Error(err)
	}
}

func TestAnIssuedTokenIsAccepted(t *testing.T) {
	validator, _ := open(t, hmac)
	claims := map[string]any{"iss": "joe", "exp": now.Unix() + 1}
	for _, form := range []fowharimu.Form{fowharimu.Compact, fowharimu.General, fowharimu.Flattened} {
		token, err := validator.Issue(claims, fowharimu.Issuing{Form: form, Type: "at+jwt"})
		if err != nil {
			t.Fatal(err)
		}
		if read, err := validator.ValidateAt(token, now); err != nil || read.String() != `{"exp":1300819380,"iss":"joe"}` {
			t.Error(read, err)
		}
		header, found, err := validator.UnverifiedHeader(token, 0)
		if string(header) != `{"alg":"HS256","typ":"at+jwt"}` || !found || err != nil {
			t.Errorf("%s, %v, %v", header, found, err)
		}
	}
}

func TestWhatIsNotIssued(t *testing.T) {
	validator, _ := open(t, hmac)
	cases := []struct {
		claims any
		how    fowharimu.Issuing
		want   error
	}{
		{struct{}{}, fowharimu.Issuing{Key: 7}, &fowharimu.IssueError{Fault: "NoKey"}},
		{map[string]any{"exp": "soon"}, fowharimu.Issuing{}, &fowharimu.IssueError{Fault: "ClaimKind", Claim: "exp"}},
		{struct{}{}, fowharimu.Issuing{Key: wrapped}, &fowharimu.IssueError{Fault: "NoKey"}},
		{struct{}{}, fowharimu.Issuing{Key: -1}, &fowharimu.IssueError{Fault: "NoKey"}},
		{struct{}{}, fowharimu.Issuing{Key: math.MinInt}, &fowharimu.IssueError{Fault: "NoKey"}},
		{struct{}{}, fowharimu.Issuing{Algorithm: 3}, fowharimu.ErrIssuing},
		{struct{}{}, fowharimu.Issuing{Algorithm: fowharimu.Algorithm(wrapped)}, fowharimu.ErrIssuing},
		{struct{}{}, fowharimu.Issuing{Algorithm: -1}, fowharimu.ErrIssuing},
		{struct{}{}, fowharimu.Issuing{Form: 3}, fowharimu.ErrIssuing},
		{struct{}{}, fowharimu.Issuing{Form: fowharimu.Form(wrapped)}, fowharimu.ErrIssuing},
		{struct{}{}, fowharimu.Issuing{Form: math.MinInt}, fowharimu.ErrIssuing},
		{struct{}{}, fowharimu.Issuing{Type: "\xff"}, fowharimu.ErrIssuing},
	}
	for _, it := range cases {
		if token, err := validator.Issue(it.claims, it.how); token != "" || !reflect.DeepEqual(err, it.want) {
			t.Errorf("%v, %+v: %q, %#v", it.claims, it.how, token, err)
		}
	}
	if _, err := validator.Issue(make(chan int), fowharimu.Issuing{}); err == nil {
		t.Error("a channel is no claims")
	}
}

func TestThereIsNoHeader(t *testing.T) {
	validator, token := open(t, hmac)
	for _, it := range []struct {
		token     string
		signature int
	}{{token, 1}, {token, -1}, {token, wrapped}, {token, math.MinInt}, {"a.b", 0}, {"", 0}} {
		if header, found, err := validator.UnverifiedHeader(it.token, it.signature); found || err != nil {
			t.Errorf("%s, %v, %v", header, found, err)
		}
	}
}

func TestClaims(t *testing.T) {
	validator, token := open(t, "../../tests/tokens/RS256")
	claims, err := validator.ValidateAt(token, now)
	if err != nil {
		t.Fatal(err)
	}
	if claims.String() != `{"iss":"joe","sub":"ann","exp":1300819380}` || claims.String() != string(claims.Raw()) {
		t.Error(claims)
	}
	registered, err := claims.Registered()
	want := fowharimu.Registered{Issuer: "joe", Subject: "ann", ExpiresAt: time.Unix(1300819380, 0)}
	if err != nil || !reflect.DeepEqual(registered, want) {
		t.Error(registered, err)
	}
	var decoded struct {
		Subject string `json:"sub"`
	}
	if err := claims.Decode(&decoded); err != nil || decoded.Subject != "ann" {
		t.Error(decoded, err)
	}
	var subject string
	if found, err := claims.Claim("sub", &subject); !found || err != nil || subject != "ann" {
		t.Error(found, err, subject)
	}
	if found, err := claims.Claim("SUB", &subject); found || err != nil {
		t.Error(found, err)
	}
}

func TestAClosedValidatorRefuses(t *testing.T) {
	validator, token := open(t, hmac)
	validator.Close()
	if err := validator.Close(); err != nil {
		t.Error(err)
	}
	if _, err := validator.ValidateAt(token, now); !errors.Is(err, fowharimu.ErrClosed) {
		t.Error(err)
	}
	if report, err := validator.JudgeAt(token, now); !errors.Is(err, fowharimu.ErrClosed) || report.Accepted() {
		t.Error(err, report)
	}
	if _, _, err := validator.UnverifiedHeader(token, 0); !errors.Is(err, fowharimu.ErrClosed) {
		t.Error(err)
	}
	if _, err := validator.Issue(struct{}{}, fowharimu.Issuing{}); !errors.Is(err, fowharimu.ErrClosed) {
		t.Error(err)
	}
}

func TestAValidatorThatWasNeverOpenedRefuses(t *testing.T) {
	var validator fowharimu.Validator
	if _, err := validator.ValidateAt("a.b.c", now); !errors.Is(err, fowharimu.ErrClosed) {
		t.Error(err)
	}
	if _, err := validator.Issue(struct{}{}, fowharimu.Issuing{}); !errors.Is(err, fowharimu.ErrClosed) {
		t.Error(err)
	}
	if err := validator.Close(); err != nil {
		t.Error(err)
	}
}

// resident is how many octets of memory the process holds.
func resident(t *testing.T) int {
	t.Helper()
	var whole, pages int
	said, err := os.ReadFile("/proc/self/statm")
	if _, wrong := fmt.Sscan(string(said), &whole, &pages); err != nil || wrong != nil {
		t.Skip("the memory of a process can't be read here")
	}
	return pages * os.Getpagesize()
}

func TestValidatorsThatAreNotClosedAreCollected(t *testing.T) {
	key := `{"kty":"oct","k":"AyM1SysPpbyDfgZld3umj1qzKObwVMkoqQ-EstJQLr_T-1qS0gZH75aKtMN3Yj0iPS4hcgUuTwjAzZr1Z9CAow"}`
	keys := []byte(`{"keys":[` + strings.Repeat(key+",", 999) + key + `]}`)
	before := resident(t)
	for i := 0; i < 400; i++ {
		if _, err := fowharimu.Open([]byte(`{"algs":["HS256"]}`), keys); err != nil {
			t.Fatal(err)
		}
		if i%20 == 0 {
			runtime.GC()
		}
	}
	if grown := resident(t) - before; grown > 96<<20 {
		t.Errorf("the process has grown by %d octets", grown)
	}
}

func TestGoroutinesShareAValidator(t *testing.T) {
	for _, name := range []string{hmac, "../../tests/tokens/RS256"} {
		validator, token := open(t, name)
		forged := changed(token)
		var group sync.WaitGroup
		for i := 0; i < 64; i++ {
			group.Add(1)
			go func() {
				defer group.Done()
				for round := 0; round < 50; round++ {
					if _, err := validator.ValidateAt(token, now); err != nil {
						t.Error(err)
					}
					if report, err := validator.JudgeAt(forged, now); err != nil || report.Accepted() {
						t.Error(report, err)
					}
				}
			}()
		}
		group.Wait()
	}
}

func TestAValidatorIsClosedUnderCallers(t *testing.T) {
	validator, token := open(t, hmac)
	var group sync.WaitGroup
	for i := 0; i < 16; i++ {
		group.Add(1)
		go func() {
			defer group.Done()
			for {
				if _, err := validator.ValidateAt(token, now); err != nil {
					if !errors.Is(err, fowharimu.ErrClosed) {
						t.Error(err)
					}
					return
				}
			}
		}()
	}
	validator.Close()
	group.Wait()
}

func TestAnotherLibraryIsRefused(t *testing.T) {
	another := os.Getenv("FOWHARIMU_ANOTHER")
	if another == "" {
		t.Skip("tests/run names a library of another interface")
	}
	_, err := fowharimu.Open([]byte(`{"algs":["HS256"]}`), []byte(`{"keys":[]}`))
	var library *fowharimu.LibraryError
	if !errors.As(err, &library) || fmt.Sprint(library.Loaded) != another || library.MadeFor == library.Loaded {
		t.Fatal(err)
	}
	said := fmt.Sprintf("fowharimu: the library another has interface %s, and this package was compiled for %d", another, library.MadeFor)
	if err.Error() != said {
		t.Error(err)
	}
}
