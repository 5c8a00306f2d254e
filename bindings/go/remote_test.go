package fowharimu_test

import (
	"errors"
	"io"
	"log"
	"net/http"
	"net/http/httptest"
	"os"
	"strings"
	"testing"
	"time"

	"example.org/fowharimu"
)

const rsa = "../../tests/tokens/RS256"

// keysAt serves the keys of RS256, and gives their URL.
func keysAt(t *testing.T) string {
	t.Helper()
	return serving(t, octets(t, rsa+".keys"))
}

// serving serves a key set, and gives its URL.
func serving(t *testing.T, keys []byte) string {
	t.Helper()
	server := httptest.NewServer(http.HandlerFunc(func(w http.ResponseWriter, _ *http.Request) { w.Write(keys) }))
	t.Cleanup(server.Close)
	return server.URL + "/keys"
}

// openRemote opens keys by URL, over plain HTTP.
func openRemote(t *testing.T, policy []byte, address string, options ...fowharimu.Option) *fowharimu.RemoteKeys {
	t.Helper()
	keys, err := fowharimu.OpenRemote(policy, address, fowharimu.Remote{AllowHTTP: true}, options...)
	if err != nil {
		t.Fatal(err)
	}
	t.Cleanup(func() { keys.Close() })
	return keys
}

func TestNewKeysAreJudgedByThePolicyThatWasHandedOver(t *testing.T) {
	policy, options := []byte(`{"algs":["RS256"],"issuers":["joe"]}`), []fowharimu.Option{fowharimu.Remember(1, 4096)}
	keys := openRemote(t, policy, keysAt(t), options...)
	copy(policy, `{"algs":["RS256"],"issuers":["eve"]}`)
	options[0] = fowharimu.Taking(nil)
	if err := keys.Refresh(); err != nil {
		t.Fatal(err)
	}
	if _, err := keys.ValidateAt(string(octets(t, rsa+".jwt")), now); err != nil {
		t.Error(err)
	}
	if issuer, has := keys.Issuer(); issuer != "joe" || !has {
		t.Error(issuer, has)
	}
}

func TestNoErrorTellsAQuery(t *testing.T) {
	server := httptest.NewServer(http.RedirectHandler("https://elsewhere.example/keys?api_key=secret", http.StatusFound))
	defer server.Close()
	for _, address := range []string{server.URL, "http://127.0.0.1:1"} {
		tell := make(chan string, 1)
		how := fowharimu.Remote{AllowHTTP: true, OnFetch: func(url string, _ int, err error) { tell <- url + ": " + err.Error() }}
		_, err := fowharimu.OpenRemote([]byte(`{"algs":["RS256"]}`), address+"/keys?api_key=secret", how)
		var unavailable *fowharimu.UnavailableError
		told := <-tell
		if !errors.As(err, &unavailable) || strings.Contains(err.Error()+told, "secret") || !strings.HasPrefix(told, address+"/keys: ") {
			t.Error(err, told)
		}
	}
}

func TestTimesAreNotNegative(t *testing.T) {
	for _, how := range []fowharimu.Remote{{RefreshAfter: -1}, {Cooldown: -1}, {MaxAge: -time.Hour}, {Timeout: -1}} {
		for _, open := range []func([]byte, string, fowharimu.Remote, ...fowharimu.Option) (*fowharimu.RemoteKeys, error){fowharimu.OpenRemote, fowharimu.OpenIssuer} {
			if _, err := open([]byte(`{"algs":["RS256"]}`), "https://127.0.0.1:1", how); err != fowharimu.ErrTime {
				t.Error(err)
			}
		}
	}
}

func TestKeysThatWereNeverOpenedAreClosed(t *testing.T) {
	keys := new(fowharimu.RemoteKeys)
	for n := 0; n < 2; n++ {
		_, err := keys.Validate("a.b.c")
		report, judged := keys.Judge("a.b.c")
		_, _, named := keys.UnverifiedIssuer("a.b.c")
		for _, err := range []error{err, judged, named, keys.Refresh()} {
			if err != fowharimu.ErrClosed || report.Accepted() {
				t.Error(err)
			}
		}
		if err := keys.Close(); err != nil {
			t.Error(err)
		}
	}
}

func TestWhoIsToldOfAFetchMayPanic(t *testing.T) {
	told := make(chan bool, 2)
	how := fowharimu.Remote{AllowHTTP: true, OnFetch: func(string, int, error) {
		told <- true
		panic("told in vain")
	}}
	log.SetOutput(io.Discard)
	defer log.SetOutput(os.Stderr)
	keys, err := fowharimu.OpenRemote([]byte(`{"algs":["RS256"]}`), keysAt(t), how)
	if err != nil {
		t.Fatal(err)
	}
	defer keys.Close()
	if err := keys.Refresh(); err != nil {
		t.Error(err)
	}
	if _, err := keys.ValidateAt(string(octets(t, rsa+".jwt")), now); err != nil {
		t.Error(err)
	}
	<-told
	<-told
}
