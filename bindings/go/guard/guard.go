// Package guard lets HTTP requests through where their token is accepted (RFC 6750), and where the service asks for it, whoever sends it holds its key (RFC 9449).
//
//	http.Handle("/api/", guard.Bearer(validator)(api))
//
// The claims of a request that was let through are guard.ClaimsOf(r.Context()).
package guard

import (
	"context"
	"errors"
	"net/http"
	"net/url"
	"regexp"
	"strings"

	"example.org/fowharimu"
)

// ErrForm says that what stands behind the scheme is no b64token (RFC 6750, section 2.1).
var ErrForm = errors.New("guard: the credentials are no b64token")

// ErrProof says that a request whose token stands behind the scheme DPoP hasn't one header DPoP (RFC 9449, section 4.3).
var ErrProof = errors.New("guard: there has to be one header DPoP")

// Validator is what a guard asks: a *fowharimu.Validator, *fowharimu.RemoteKeys, or *fowharimu.Issuers.
type Validator interface {
	ValidateWith(token string, how ...fowharimu.Asked) (fowharimu.Claims, error)
}

// Option says how requests are guarded.
type Option func(*guard)

type guard struct {
	validator Validator
	schemes   fowharimu.Scheme
	asked     []fowharimu.Asked // of each request
	proofs    *Proofs
	algs      string // of proofs
	realm     string
	hides     bool
	tell      func(*http.Request, error)
	next      http.Handler
}

// Access has the claims meet an access rule too; where they don't, the answer is 403. Where the rule is nil, since it was refused, it is 500.
func Access(rule *fowharimu.Access) Option {
	return func(g *guard) { g.asked = append(g.asked, fowharimu.For(rule)) }
}

// Proofs is how a guard takes tokens that are bound to a key, with a proof in each request (DPoP, RFC 9449).
type Proofs struct {
	// Of is the policy for proofs, with the memory in which they are taken.
	Of *fowharimu.Proofs
	// Origin is the scheme and the host that clients see, as https://api.example, with no path. Nothing of a request is taken for it, Host and X-Forwarded-Host neither. The path is
	// that of the request's RequestURI, which the client wrote.
	Origin string
	// Only says that no bearer's token is taken. Else one is, unless it is bound.
	Only bool
	// Nonces are those that each proof has to have one of. Where it is nil, none is asked for.
	Nonces *fowharimu.Nonces
}

// DPoP takes tokens of the scheme DPoP, with proofs. It panics for an origin that isn't a scheme and a host, and where there is no policy for proofs, or a closed one.
func DPoP(proofs Proofs) Option {
	if !origin.MatchString(proofs.Origin) {
		panic("guard: an origin is a scheme and a host, as https://api.example, and has no path")
	}
	if proofs.Of == nil {
		panic("guard: there is no policy for proofs")
	}
	algs, err := proofs.Of.Algs()
	if err != nil {
		panic("guard: the policy for proofs can't be asked: " + err.Error())
	}
	return func(g *guard) {
		g.algs = algs
		g.schemes = fowharimu.DPoP
		if !proofs.Only {
			g.schemes |= fowharimu.Bearer
		}
		g.proofs = &proofs
	}
}

var origin = regexp.MustCompile(`^(?i:https?)://[A-Za-z0-9._~!$&'()*+,;=:\[\]%-]+$`)

// Realm is the realm that a request without a token is told: jwt without this. It panics for one that a quoted string can't have: a realm has printable
// characters of ASCII, and neither quotation marks nor backslashes.
func Realm(realm string) Option {
	if !fowharimu.IsQuotable(realm) {
		panic("guard: a realm has printable characters of ASCII, and neither quotation marks nor backslashes")
	}
	return func(g *guard) { g.realm = realm }
}

// HideToken keeps the headers Authorization and DPoP from the handler behind.
func HideToken() Option {
	return func(g *guard) { g.hides = true }
}

// OnRefusal is told why a token isn't taken: a fowharimu.Refusal, a *fowharimu.DeniedError, ErrForm, or another error where nothing is said of the
// token. It is called before the answer, by many goroutines.
func OnRefusal(tell func(*http.Request, error)) Option {
	return func(g *guard) { g.tell = tell }
}

// claimsKey is under what the context of a request that was let through has its claims.
type claimsKey struct{}

// ClaimsOf gives the claims of a request that was let through, by its context, and says whether it was.
func ClaimsOf(c context.Context) (fowharimu.Claims, bool) {
	claims, found := c.Value(claimsKey{}).(fowharimu.Claims)
	return claims, found
}

// Bearer lets a request through where the token behind the scheme Bearer is accepted now; with DPoP one behind the scheme DPoP too, with its proof. Else it answers 400, 401 or 403, with
// WWW-Authenticate (RFC 6750, section 3; RFC 9449, section 7.1), 429 where the owner of what counts once has used up its share, 503 where keys by URL are too old or there is no
// room for what counts once, and 500 where nothing can be said of the token. A bearer's token that is bound is refused.
func Bearer(validator Validator, how ...Option) func(http.Handler) http.Handler {
	chosen := guard{validator: validator, schemes: fowharimu.Bearer, realm: "jwt", tell: func(*http.Request, error) {}}
	for _, choose := range how {
		choose(&chosen)
	}
	return func(next http.Handler) http.Handler {
		g := chosen
		g.next = next
		return &g
	}
}

// ServeHTTP answers a request, or lets it through.
func (g *guard) ServeHTTP(w http.ResponseWriter, r *http.Request) {
	values := r.Header.Values("Authorization")
	if len(values) > 1 {
		g.answer(w, fowharimu.NoScheme, fowharimu.Several, "")
		return
	}
	token, scheme, outcome := fowharimu.TokenIn(g.schemes, strings.Join(values, ""))
	if outcome == fowharimu.NoToken {
		g.answer(w, scheme, outcome, "")
		return
	}
	claims, err := g.validate(r, token, scheme, outcome)
	if err != nil {
		g.tell(r, err)
		outcome, scopes := outcomeOf(err)
		g.answer(w, scheme, outcome, scopes)
		return
	}
	g.next.ServeHTTP(w, g.shown(r.WithContext(context.WithValue(r.Context(), claimsKey{}, claims))))
}

// validate gives the claims of an accepted token that meet the rule, and whose sender holds its key where that is asked.
func (g *guard) validate(r *http.Request, token string, scheme fowharimu.Scheme, outcome fowharimu.Outcome) (fowharimu.Claims, error) {
	if outcome == fowharimu.Malformed {
		return fowharimu.Claims{}, ErrForm
	}
	if scheme != fowharimu.DPoP {
		// (else whoever stole it could use it: RFC 9449, section 7.2)
		return g.validator.ValidateWith(token, append([]fowharimu.Asked{fowharimu.Unbound()}, g.asked...)...)
	}
	proof, err := g.proofs.of(r)
	if err != nil {
		return fowharimu.Claims{}, err
	}
	return g.validator.ValidateWith(token, append([]fowharimu.Asked{proof}, g.asked...)...)
}

// of is what is asked by the one proof of a request.
func (p *Proofs) of(r *http.Request) (fowharimu.Asked, error) {
	values := r.Header.Values("Dpop")
	if len(values) != 1 {
		return nil, ErrProof
	}
	uri := p.Origin + pathOf(r)
	if p.Nonces == nil {
		return fowharimu.ByProof(p.Of, values[0], r.Method, uri), nil
	}
	return fowharimu.ByProofWithNonces(p.Of, values[0], r.Method, uri, p.Nonces), nil
}

// pathOf is the path that the client wrote, whatever became of r.URL since, as behind http.StripPrefix. One that isn't there, or is "*", would go on with the host's name.
func pathOf(r *http.Request) string {
	asked := r.URL
	if sent, err := url.ParseRequestURI(r.RequestURI); err == nil {
		asked = sent
	}
	if path := asked.EscapedPath(); strings.HasPrefix(path, "/") {
		return path
	}
	return "/" + asked.EscapedPath()
}

// shown is the request as the handler behind sees it. It is a copy already, and its headers are copied where they change.
func (g *guard) shown(r *http.Request) *http.Request {
	if g.hides {
		r.Header = r.Header.Clone()
		r.Header.Del("Authorization")
		r.Header.Del("Dpop")
	}
	return r
}

// outcomeOf says what is known of a token that isn't taken, and which scopes its request needs.
func outcomeOf(err error) (fowharimu.Outcome, string) {
	var denied *fowharimu.DeniedError
	var tooOld *fowharimu.TooOldError
	var notHeld *fowharimu.NotHeldError
	var notTaken *fowharimu.NotTakenError
	var refusal fowharimu.Refusal
	switch {
	case errors.As(err, &tooOld):
		return fowharimu.KeysTooOld, ""
	case errors.As(err, &denied) && denied.Scope != "":
		return fowharimu.ScopeMissing, strings.Join(denied.Scopes, " ")
	case errors.As(err, &denied):
		return fowharimu.NotGranted, ""
	case errors.Is(err, ErrForm):
		return fowharimu.Malformed, ""
	case errors.Is(err, ErrProof):
		return fowharimu.ProofRefused, ""
	case errors.As(err, &notHeld):
		return notHeld.Outcome, ""
	case errors.As(err, &notTaken):
		return notTaken.Outcome, ""
	case errors.As(err, &refusal):
		return fowharimu.NotAccepted, ""
	default:
		return fowharimu.Unanswered, ""
	}
}

// answer answers a request that isn't let through.
func (g *guard) answer(w http.ResponseWriter, scheme fowharimu.Scheme, outcome fowharimu.Outcome, scopes string) {
	reply := fowharimu.ReplyTo(g.schemes, scheme, outcome, fowharimu.Quoted{Realm: g.realm, Scopes: scopes, Algs: g.algs})
	for _, challenge := range reply.Challenges {
		w.Header().Add("WWW-Authenticate", challenge)
	}
	if reply.WantsNonce && g.proofs.Nonces != nil {
		w.Header().Set("DPoP-Nonce", g.proofs.Nonces.Now())
		w.Header().Set("Cache-Control", "no-store")
	}
	if len(reply.Challenges) > 0 {
		w.WriteHeader(reply.Status)
		return
	}
	http.Error(w, unsaid[outcome], reply.Status)
}

// unsaid has what a body says where nothing is said of the token.
var unsaid = map[fowharimu.Outcome]string{
	fowharimu.KeysTooOld: "the keys are too old",
	fowharimu.Unanswered: "nothing can be said of the token",
}
