package guard

import (
	"errors"
	"net/http"
	"net/http/httptest"
	"os"
	"testing"

	"example.org/fowharimu"
)

// TestRefusalsAreTold has the realm and the refusals of a validator whose tokens ended in 2011.
func TestRefusalsAreTold(t *testing.T) {
	validator := open(t)
	var told []error
	handler := Bearer(validator, Realm("shop"), OnRefusal(func(_ *http.Request, why error) { told = append(told, why) }))(http.NotFoundHandler())
	if got := ask(handler, nil); got.Code != 401 || got.Header().Get("WWW-Authenticate") != `Bearer realm="shop"` || len(told) != 0 {
		t.Error("without a token:", got.Code, got.Header(), told)
	}
	token, err := os.ReadFile("../../../examples/rfc7515-a1.jwt")
	if err != nil {
		t.Fatal(err)
	}
	got := ask(handler, []string{"Bearer " + string(token)})
	var refusal fowharimu.Refusal
	if got.Code != 401 || len(told) != 1 || !errors.As(told[0], &refusal) || refusal.FaultName() != "Expired" {
		t.Error("an expired token:", got.Code, told)
	}
	if got := ask(handler, []string{"Bearer *"}); got.Code != 401 || !errors.Is(told[1], ErrForm) {
		t.Error("no b64token:", got.Code, told)
	}
}

// TestRealmsAreQuoted has realms that would end the quoted string before its end, or the header.
func TestRealmsAreQuoted(t *testing.T) {
	for _, realm := range []string{`a", error="b`, `a\`, "a\r\nb", "é", "\x7f", "\xff"} {
		func() {
			defer func() {
				if recover() == nil {
					t.Errorf("%q is taken", realm)
				}
			}()
			Realm(realm)
		}()
	}
	Realm("a shop's, [the one] of ~ann")
}

// TestClosed has a validator that says nothing: nobody is let through.
func TestClosed(t *testing.T) {
	validator := open(t)
	validator.Close()
	if got := ask(Bearer(validator)(http.NotFoundHandler()), []string{"Bearer a.b.c"}); got.Code != 500 {
		t.Error(got.Code)
	}
}

// TestNoRule has an access rule that was refused: nobody is let through.
func TestNoRule(t *testing.T) {
	keys, err := os.ReadFile("../../../examples/rfc7515-a1.keys")
	if err != nil {
		t.Fatal(err)
	}
	validator, err := fowharimu.Open([]byte(`{"algs":["HS256"]}`), keys)
	if err != nil {
		t.Fatal(err)
	}
	defer validator.Close()
	token, err := validator.Issue(struct{}{}, fowharimu.Issuing{})
	if err != nil {
		t.Fatal(err)
	}
	rule, err := fowharimu.OpenAccess([]byte(`{"scope":["read"]}`))
	if err == nil {
		t.Error("a rule with a misspelled member")
	}
	if got := ask(Bearer(validator, Access(rule))(http.NotFoundHandler()), []string{"Bearer " + token}); got.Code != 500 {
		t.Error(got.Code)
	}
}

// old stands for keys by URL that are too old.
type old struct{}

func (old) ValidateWith(string, ...fowharimu.Asked) (fowharimu.Claims, error) {
	return fowharimu.Claims{}, new(fowharimu.TooOldError)
}

// TestKeysTooOld has keys that say nothing of the token: it isn't the token's fault.
func TestKeysTooOld(t *testing.T) {
	if got := ask(Bearer(old{})(http.NotFoundHandler()), []string{"Bearer a.b.c"}); got.Code != 503 || got.Header().Get("WWW-Authenticate") != "" {
		t.Error(got.Code, got.Header())
	}
}

// TestClaimsOfNobody has a context without claims.
func TestClaimsOfNobody(t *testing.T) {
	if claims, found := ClaimsOf(httptest.NewRequest("GET", "/", nil).Context()); found || claims.Raw() != nil {
		t.Error(claims, found)
	}
}

// TestB64tokens has the spellings of RFC 6750, section 2.1.
func TestB64tokens(t *testing.T) {
	for token, wanted := range map[string]bool{"": false, "a": true, "aZ09-._~+/==": true, "=": false, "a=b": false, "a b": false, "a,b": false, "é": false, "\xff": false, "a\tb": false} {
		if got, outcome := fowharimu.BearerToken("Bearer " + token); (outcome == fowharimu.Admitted) != wanted || wanted && got != token {
			t.Errorf("%q is %t", token, !wanted)
		}
	}
}

// TestPathOf has the path that a proof is held against: the client's, whatever handlers before the guard made of it.
func TestPathOf(t *testing.T) {
	var path string
	handler := http.Handler(http.HandlerFunc(func(_ http.ResponseWriter, r *http.Request) { path = pathOf(r) }))
	for target, wanted := range map[string]string{
		"/":                     "/",
		"/things/a?b=/c":        "/things/a",
		"/a%2Fb%3a:@c":          "/a%2Fb%3a:@c",
		"//evil.example/a":      "//evil.example/a",
		"http://evil.example/a": "/a",
		"http://evil.example":   "/",
		"*":                     "/*",
	} {
		request := httptest.NewRequest("GET", target, nil)
		handler.ServeHTTP(nil, request)
		if path != wanted {
			t.Errorf("%s: %s", target, path)
		}
	}
	http.StripPrefix("/api", handler).ServeHTTP(nil, httptest.NewRequest("GET", "/api/things%2F1", nil))
	if path != "/api/things%2F1" {
		t.Error("behind StripPrefix:", path)
	}
	handler.ServeHTTP(nil, httptest.NewRequest("CONNECT", "evil.example:443", nil))
	if path != "/" {
		t.Error("CONNECT:", path)
	}
	made, err := http.NewRequest("GET", "https://api.example/made/%2F", nil)
	if err != nil {
		t.Fatal(err)
	}
	if handler.ServeHTTP(nil, made); path != "/made/%2F" {
		t.Error("without RequestURI:", path)
	}
}

func open(t *testing.T) *fowharimu.Validator {
	t.Helper()
	read := func(name string) []byte {
		octets, err := os.ReadFile("../../../examples/rfc7515-a1." + name)
		if err != nil {
			t.Fatal(err)
		}
		return octets
	}
	validator, err := fowharimu.Open(read("policy"), read("keys"))
	if err != nil {
		t.Fatal(err)
	}
	return validator
}

func ask(handler http.Handler, values []string) *httptest.ResponseRecorder {
	request, answer := httptest.NewRequest("GET", "/", nil), httptest.NewRecorder()
	if values != nil {
		request.Header["Authorization"] = values
	}
	handler.ServeHTTP(answer, request)
	return answer
}
