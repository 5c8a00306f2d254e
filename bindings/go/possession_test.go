package fowharimu_test

import (
	"bytes"
	"crypto/ecdsa"
	"crypto/elliptic"
	"crypto/rand"
	"crypto/sha256"
	"encoding/base64"
	"encoding/json"
	"errors"
	"fmt"
	"io/fs"
	"math/big"
	"net/http"
	"net/http/httptest"
	"os"
	"runtime"
	"strings"
	"sync"
	"sync/atomic"
	"testing"
	"time"

	"example.org/fowharimu"
)

const (
	proofTable = "../../tests/possession/cases.jsonl"
	things     = "https://api.example/things"
)

// proofRow is a row of the table of proofs: a request with an access token, and what is said of its proof.
type proofRow struct {
	Name, Answer, Proof, Method, URI string
	Nonce, Token                     *string
	Now                              int64
}

// proofDocuments are the first line of the table.
type proofDocuments struct {
	Policy       json.RawMessage `json:"policy"`
	AccessPolicy json.RawMessage `json:"access_policy"`
	AccessKeys   json.RawMessage `json:"access_keys"`
}

// proofs reads the table. Where it isn't there, as in a release, the test says so and is left out.
func proofs(t *testing.T) (first proofDocuments, rows []proofRow) {
	t.Helper()
	text, err := os.ReadFile(proofTable)
	if errors.Is(err, fs.ErrNotExist) {
		t.Skip("left out, since the table isn't here:", proofTable)
	}
	if err != nil {
		t.Fatal(err)
	}
	lines := bytes.Split(bytes.TrimSpace(text), []byte("\n"))
	if err := json.Unmarshal(lines[0], &first); err != nil {
		t.Fatal(err)
	}
	rows = make([]proofRow, len(lines)-1)
	for n, line := range lines[1:] {
		if err := json.Unmarshal(line, &rows[n]); err != nil {
			t.Fatal(err)
		}
	}
	return first, rows
}

// at is the moment of a row.
func (r proofRow) at() fowharimu.Asked { return fowharimu.At(time.Unix(r.Now, 0)) }

// token is the access token of a row, empty where none came.
func (r proofRow) token() string {
	if r.Token == nil {
		return ""
	}
	return *r.Token
}

// by is the proof of a row.
func (r proofRow) by(proofs *fowharimu.Proofs) fowharimu.Asked {
	if r.Nonce == nil {
		return fowharimu.ByProof(proofs, r.Proof, r.Method, r.URI)
	}
	return fowharimu.ByProofWithNonce(proofs, r.Proof, r.Method, r.URI, *r.Nonce)
}

// shownTo shows the token of a row, with its proof, and with what else is asked.
func (r proofRow) shownTo(validator *fowharimu.Validator, proofs *fowharimu.Proofs, more ...fowharimu.Asked) error {
	_, err := validator.ValidateWith(r.token(), append(more, r.at(), r.by(proofs))...)
	return err
}

// proofsBy is a policy for proofs over this memory.
func proofsBy(t *testing.T, policy []byte, once *fowharimu.Once) *fowharimu.Proofs {
	t.Helper()
	it, err := fowharimu.OpenProofs(policy, once)
	if err != nil {
		t.Fatal(err)
	}
	t.Cleanup(func() { it.Close() })
	return it
}

// accessOf is a validator of the access tokens of the table, the table's documents, and its first row, whose proof is held.
func accessOf(t *testing.T, how ...fowharimu.Option) (*fowharimu.Validator, proofDocuments, proofRow) {
	t.Helper()
	first, rows := proofs(t)
	validator, err := fowharimu.Open(first.AccessPolicy, first.AccessKeys, how...)
	if err != nil {
		t.Fatal(err)
	}
	t.Cleanup(func() { validator.Close() })
	return validator, first, rows[0]
}

// notHeld has an error say that the sender hasn't shown the key, for this fault.
func notHeld(t *testing.T, err error, fault string) {
	t.Helper()
	var why *fowharimu.NotHeldError
	var refusal fowharimu.Refusal
	if !errors.As(err, &why) || why.Fault != fault || !errors.As(err, &refusal) || refusal.FaultName() != fault {
		t.Fatal(fault, err)
	}
	if why.Error() != "fowharimu: the sender of the token doesn't hold its key: "+fault {
		t.Error(why)
	}
}

// seen has an error say that something was taken before.
func seen(t *testing.T, err error) {
	t.Helper()
	var why *fowharimu.NotTakenError
	if !errors.As(err, &why) || why.Fault != "Seen" {
		t.Fatal(err)
	}
}

func TestEachProofIsAnsweredAsTheTableSays(t *testing.T) {
	validator, first, _ := accessOf(t)
	_, rows := proofs(t)
	judged := 0
	for _, row := range rows {
		if _, err := validator.ValidateWith(row.token(), row.at()); err != nil {
			continue // (there is no access token, or the standard's own, which is none)
		}
		judged++
		err := row.shownTo(validator, proofsBy(t, first.Policy, memoryFor(t, 1)))
		said, why := "held", (*fowharimu.NotHeldError)(nil)
		if errors.As(err, &why) {
			said = why.Fault
		} else if err != nil {
			said = err.Error()
		}
		if said != row.Answer {
			t.Errorf("%s: %s, and not %s", row.Name, said, row.Answer)
		}
	}
	if 2*judged < len(rows) {
		t.Errorf("%d of %d are judged", judged, len(rows))
	}
	t.Log(judged, "proofs")
}

func TestAProofCountsOnce(t *testing.T) {
	validator, first, good := accessOf(t)
	once := memoryFor(t, 2)
	if err := good.shownTo(validator, proofsBy(t, first.Policy, once)); err != nil {
		t.Fatal(err)
	}
	good.Now++
	seen(t, good.shownTo(validator, proofsBy(t, first.Policy, once)))
	full := memoryFor(t, 1)
	letIn(t, taking(t, full), issuedBy(t, validator, claims{"jti": "a", "exp": good.Now + 100}), good.Now)
	var why *fowharimu.NotTakenError
	if err := good.shownTo(validator, proofsBy(t, first.Policy, full)); !errors.As(err, &why) || why.Fault != "Full" {
		t.Error(err)
	}
}

func TestAProofIsTakenBehindAllElse(t *testing.T) {
	validator, first, good := accessOf(t)
	proofs := proofsBy(t, first.Policy, memoryFor(t, 1))
	err := good.shownTo(validator, proofs, fowharimu.ExpectText("sub", "nobody"))
	notExpected(t, err, "Other", "sub")
	var denied *fowharimu.DeniedError
	if err := good.shownTo(validator, proofs, fowharimu.For(access(t, `{"scopes":["read"]}`))); !errors.As(err, &denied) {
		t.Error(err)
	}
	notHeld(t, good.shownTo(validator, proofs, fowharimu.Unbound()), "Bound")
	notHeld(t, good.shownTo(validator, proofs, fowharimu.ByCertificate([]byte("a"))), "OtherCertificate")
	other := good
	other.Method = "POST"
	notHeld(t, other.shownTo(validator, proofs), "OtherMethod")
	if err := good.shownTo(validator, proofs, fowharimu.ExpectText("sub", "user")); err != nil {
		t.Error(err)
	}
	seen(t, good.shownTo(validator, proofs))
}

func TestATokenThatIsNotHeldIsNotTaken(t *testing.T) {
	const id = "of a token that counts once"
	once := memoryFor(t, 4)
	validator, first, good := accessOf(t, fowharimu.Taking(once))
	client := newKey(t)
	token := issuedBy(t, validator, claims{"jti": id, "exp": good.Now + 100, "cnf": claims{"jkt": client.thumbprint()}})
	row := proofRow{Proof: client.proof(t, token, good.Now, nil), Method: "PUT", URI: things, Token: &token, Now: good.Now}
	proofs := proofsBy(t, first.Policy, once)
	notHeld(t, row.shownTo(validator, proofs), "OtherMethod")
	row.Method = "GET"
	if err := row.shownTo(validator, proofs); err != nil {
		t.Fatal(err)
	}
	row.Proof = client.proof(t, token, good.Now, nil)
	seen(t, row.shownTo(validator, proofs))
}

func TestOneOfManyGoroutinesHasItsProofTaken(t *testing.T) {
	validator, first, good := accessOf(t)
	other := good
	other.URI = "https://other.example/things"
	proofs := proofsBy(t, first.Policy, memoryFor(t, 8))
	var held atomic.Int32
	var group sync.WaitGroup
	for n := 0; n < 8; n++ {
		group.Add(1)
		go func() {
			defer group.Done()
			for n := 0; n < 20; n++ {
				var why *fowharimu.NotTakenError
				if err := good.shownTo(validator, proofs); err == nil {
					held.Add(1)
				} else if !errors.As(err, &why) {
					t.Error(err)
				}
				var refused *fowharimu.NotHeldError
				if err := other.shownTo(validator, proofs); !errors.As(err, &refused) || refused.Fault != "OtherUri" {
					t.Error(err)
				}
			}
		}()
	}
	group.Wait()
	if held.Load() != 1 {
		t.Error(held.Load())
	}
}

func TestABoundTokenThatComesAloneIsRefusedWhereThatIsAsked(t *testing.T) {
	validator, _, good := accessOf(t)
	if _, err := validator.ValidateWith(good.token(), good.at()); err != nil {
		t.Error(err)
	}
	for _, bound := range []string{good.token(), issuedBy(t, validator, claims{"cnf": claims{}}), issuedBy(t, validator, claims{"cnf": nil})} {
		_, err := validator.ValidateWith(bound, good.at(), fowharimu.Unbound())
		notHeld(t, err, "Bound")
	}
	if _, err := validator.ValidateWith(issuedBy(t, validator, claims{"sub": "user"}), fowharimu.Unbound()); err != nil {
		t.Error(err)
	}
}

func TestACertificateIsTheOneThatTheTokenIsBoundTo(t *testing.T) {
	validator, _, good := accessOf(t)
	der := []byte("a certificate")
	digest := sha256.Sum256(der)
	bound := issuedBy(t, validator, claims{"cnf": claims{"x5t#S256": base64.RawURLEncoding.EncodeToString(digest[:])}})
	if _, err := validator.ValidateWith(bound, fowharimu.ByCertificate(der)); err != nil {
		t.Error(err)
	}
	both := issuedBy(t, validator, claims{"cnf": claims{"jkt": "a", "x5t#S256": base64.RawURLEncoding.EncodeToString(digest[:])}})
	for _, it := range []struct {
		token string
		der   []byte
		fault string
	}{
		{bound, []byte("a certificate."), "OtherCertificate"}, {bound, nil, "OtherCertificate"}, {issuedBy(t, validator, claims{"sub": "user"}), der, "OtherCertificate"},
		{good.token(), der, "OtherKey"}, {both, der, "OtherKey"}, {issuedBy(t, validator, claims{"cnf": claims{}}), der, "Unknown"},
	} {
		_, err := validator.ValidateWith(it.token, good.at(), fowharimu.ByCertificate(it.der))
		notHeld(t, err, it.fault)
	}
}

func TestTheTokensOfAProfileAreHeldByAnother(t *testing.T) {
	const profile = "../../examples/profiles/fapi2/"
	policy, keys := octets(t, profile+"policy.json"), octets(t, profile+"keys.json")
	validator, err := fowharimu.Open(policy, keys)
	if err != nil {
		t.Fatal(err)
	}
	defer validator.Close()
	issuers, err := fowharimu.NewIssuers(map[string]fowharimu.Judging{"https://bank.example.com/": openRemote(t, policy, serving(t, keys))})
	if err != nil {
		t.Fatal(err)
	}
	for _, line := range strings.Split(strings.TrimSpace(string(octets(t, profile+"steps.tsv"))), "\n") {
		cells := strings.Split(line, "\t")
		if !strings.HasPrefix(cells[2], "who holds the key") {
			continue
		}
		holder := fowharimu.Unbound()
		if strings.Contains(cells[3], "certificate") {
			holder = fowharimu.ByCertificate([]byte("another certificate"))
		}
		token := string(octets(t, profile+"tokens/"+cells[3]+".jwt"))
		for _, validate := range []func(string, ...fowharimu.Asked) (fowharimu.Claims, error){validator.ValidateWith, issuers.ValidateWith} {
			_, err := validate(token, fowharimu.At(now), holder)
			notHeld(t, err, strings.TrimPrefix(cells[4], "not held "))
		}
	}
}

func TestKeysByURLAskForProofsAndFetchNoneForThem(t *testing.T) {
	first, _ := proofs(t)
	issuer, client, fetches := newKey(t), newKey(t), atomic.Int32{}
	keys := openRemote(t, []byte(`{"algs":["ES256"]}`), counting(t, fmt.Sprintf(`{"keys":[%s]}`, issuer.public()), &fetches))
	token := issuer.sign(t, claims{"alg": "ES256"}, claims{"cnf": claims{"jkt": client.thumbprint()}})
	proofs := proofsBy(t, first.Policy, memoryFor(t, 2))
	show := func(proof string) error {
		_, err := keys.ValidateWith(token, fowharimu.At(now), fowharimu.ByProof(proofs, proof, "GET", things))
		return err
	}
	proof := client.proof(t, token, now.Unix(), nil)
	notHeld(t, show(changed(proof)), "BadSignature")
	if fetches.Load() != 1 {
		t.Error(fetches.Load())
	}
	if err := show(proof); err != nil {
		t.Error(err)
	}
	seen(t, show(proof))
	notHeld(t, show(issuer.proof(t, token, now.Unix(), nil)), "OtherKey")
}

func TestANonceIsTheOneThatWasAskedFor(t *testing.T) {
	validator, first, good := accessOf(t)
	client := newKey(t)
	token := issuedBy(t, validator, claims{"cnf": claims{"jkt": client.thumbprint()}})
	proof := client.proof(t, token, good.Now, claims{"nonce": "n-1"})
	show := func(how fowharimu.Asked) error {
		_, err := validator.ValidateWith(token, good.at(), how)
		return err
	}
	proofs := proofsBy(t, first.Policy, memoryFor(t, 2))
	notHeld(t, show(fowharimu.ByProofWithNonce(proofs, proof, "GET", things, "n-2")), "OtherNonce")
	notHeld(t, show(fowharimu.ByProofWithNonce(proofs, client.proof(t, token, good.Now, nil), "GET", things, "n-1")), "OtherNonce")
	if err := show(fowharimu.ByProofWithNonce(proofs, proof, "GET", things, "n-1")); err != nil {
		t.Error(err)
	}
}

func TestAPolicyThatIsNotOneForProofsIsRefused(t *testing.T) {
	for document, want := range map[string]fowharimu.PolicyError{
		`{"algs":["ES256"],"typ":"at+jwt","required":["jti","htm","htu","iat"],"max_age":60}`:           {Fault: "Typ"},
		`{"algs":["ES256","HS256"],"typ":"dpop+jwt","required":["jti","htm","htu","iat"],"max_age":60}`: {Fault: "SharedSecret"},
		`{"algs":["ES256"],"typ":"dpop+jwt","required":["jti"],"max_age":60}`:                           {Fault: "Required"},
		`{"algs":["ES256"],"typ":"dpop+jwt","required":["jti","htm","htu","iat"]}`:                      {Fault: "MaxAge"},
		`{"algs":["ES256"],"more":1}`: {Fault: "Member", Member: "more"},
		"":                            {Fault: "Json"},
	} {
		it, err := fowharimu.OpenProofs([]byte(document), memoryFor(t, 1))
		var refused *fowharimu.PolicyError
		if it != nil || !errors.As(err, &refused) || *refused != want {
			t.Errorf("%s: %v", document, err)
		}
	}
}

func TestWhatIsNoProof(t *testing.T) {
	validator, first, good := accessOf(t)
	if it, err := fowharimu.OpenProofs(first.Policy, nil); it != nil || err != fowharimu.ErrOnce {
		t.Error(it, err)
	}
	once := memoryFor(t, 1)
	proofs, closed := proofsBy(t, first.Policy, once), proofsBy(t, first.Policy, memoryFor(t, 1))
	for n := 0; n < 2; n++ {
		if err := closed.Close(); err != nil {
			t.Error(err)
		}
	}
	forgotten := memoryFor(t, 1)
	forgotten.Close()
	for _, it := range []*fowharimu.Proofs{nil, new(fowharimu.Proofs), closed, proofsBy(t, first.Policy, forgotten)} {
		if err := good.shownTo(validator, it); err != fowharimu.ErrClosed {
			t.Error(err)
		}
	}
	empty := ""
	other := good
	other.Nonce = &empty
	if err := other.shownTo(validator, proofs); err != fowharimu.ErrProof {
		t.Error(err)
	}
	if err := good.shownTo(validator, proofs, good.by(proofs)); err != fowharimu.ErrProof {
		t.Error(err)
	}
	if err := good.shownTo(validator, proofs); err != nil {
		t.Error(err)
	}
}

func TestRulesAndPoliciesForProofsThatAreNotClosedAreCollected(t *testing.T) {
	_, first, _ := accessOf(t)
	once, before := memoryFor(t, 1), resident(t)
	for i := 0; i < 100_000; i++ {
		if _, err := fowharimu.OpenProofs(first.Policy, once); err != nil {
			t.Fatal(err)
		}
		if _, err := fowharimu.OpenAccess([]byte(`{"scopes":["read"]}`)); err != nil {
			t.Fatal(err)
		}
		if i%2_000 == 0 {
			runtime.GC()
		}
	}
	if grown := resident(t) - before; grown > 96<<20 {
		t.Errorf("the process has grown by %d octets", grown)
	}
}

// key is a key of a client, or of an issuer, for ES256.
type key struct{ *ecdsa.PrivateKey }

func newKey(t *testing.T) key {
	t.Helper()
	it, err := ecdsa.GenerateKey(elliptic.P256(), rand.Reader)
	if err != nil {
		t.Fatal(err)
	}
	return key{it}
}

// number is a number of a key, or of a signature, of 32 octets.
func number(it *big.Int) []byte { return it.FillBytes(make([]byte, 32)) }

// public is the public key, as its thumbprint is of it (RFC 7638).
func (k key) public() string {
	x, y := base64.RawURLEncoding.EncodeToString(number(k.X)), base64.RawURLEncoding.EncodeToString(number(k.Y))
	return fmt.Sprintf(`{"crv":"P-256","kty":"EC","x":"%s","y":"%s"}`, x, y)
}

func (k key) thumbprint() string {
	digest := sha256.Sum256([]byte(k.public()))
	return base64.RawURLEncoding.EncodeToString(digest[:])
}

// sign is a token of this header and these claims.
func (k key) sign(t *testing.T, header, of claims) string {
	t.Helper()
	var parts []string
	for _, it := range []claims{header, of} {
		text, err := json.Marshal(it)
		if err != nil {
			t.Fatal(err)
		}
		parts = append(parts, base64.RawURLEncoding.EncodeToString(text))
	}
	signed := strings.Join(parts, ".")
	digest := sha256.Sum256([]byte(signed))
	r, s, err := ecdsa.Sign(rand.Reader, k.PrivateKey, digest[:])
	if err != nil {
		t.Fatal(err)
	}
	return signed + "." + base64.RawURLEncoding.EncodeToString(append(number(r), number(s)...))
}

// proof is a proof of this key for GET of the things by a token, with these claims beside.
func (k key) proof(t *testing.T, token string, at int64, more claims) string {
	t.Helper()
	digest, id := sha256.Sum256([]byte(token)), make([]byte, 16)
	if _, err := rand.Read(id); err != nil {
		t.Fatal(err)
	}
	of := claims{"jti": fmt.Sprintf("%x", id), "htm": "GET", "htu": things, "iat": at, "ath": base64.RawURLEncoding.EncodeToString(digest[:])}
	for name, it := range more {
		of[name] = it
	}
	return k.sign(t, claims{"typ": "dpop+jwt", "alg": "ES256", "jwk": json.RawMessage(k.public())}, of)
}

// counting serves a key set, and counts who asks for it.
func counting(t *testing.T, keys string, fetches *atomic.Int32) string {
	t.Helper()
	server := httptest.NewServer(http.HandlerFunc(func(w http.ResponseWriter, _ *http.Request) {
		fetches.Add(1)
		fmt.Fprint(w, keys)
	}))
	t.Cleanup(server.Close)
	return server.URL
}
