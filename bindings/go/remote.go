package fowharimu

import (
	"context"
	"crypto/tls"
	"errors"
	"fmt"
	"hash/maphash"
	"io"
	"log"
	"net/http"
	"net/url"
	"runtime/debug"
	"sync"
	"sync/atomic"
	"time"
)

// mostHeaders is the most octets that the headers of an answer may have.
const mostHeaders = 65_536

// ErrURL says that keys aren't fetched from this URL: it isn't https, has no host, or has a name, a password or a fragment in it; or, of an issuer, a query.
var ErrURL = errors.New("fowharimu: no URL of a key set: it is https, and has a host and neither a name nor a password, nor a fragment")

// ErrPolicyByURL says that a policy isn't one for keys by URL: it has an HMAC algorithm, while what is fetched is public; or it doesn't name
// exactly the issuer whose keys are fetched.
var ErrPolicyByURL = errors.New("fowharimu: no policy for keys by URL: it has an HMAC algorithm, or other issuers than the one")

// ErrTime says that a time of Remote is negative.
var ErrTime = errors.New("fowharimu: a time of Remote is negative")

// UnavailableError says that the keys can't be fetched, and that none were before. Err says why.
type UnavailableError struct {
	Err error
}

func (e *UnavailableError) Error() string {
	return "fowharimu: the key set can't be fetched: " + e.Err.Error()
}

// Unwrap gives why.
func (e *UnavailableError) Unwrap() error { return e.Err }

// TooOldError is the Refusal of each token where the keys are too old and newer ones can't be fetched. A service answers 503 to it.
type TooOldError struct{}

func (e *TooOldError) Error() string {
	return "fowharimu: the keys are too old, and newer ones can't be fetched"
}

// FaultName is KeysTooOld.
func (e *TooOldError) FaultName() string { return "KeysTooOld" }

// Remote says how keys are fetched, by the rules of docs/REMOTE-KEYS.md. A time of zero stands for the one that is named here.
type Remote struct {
	RefreshAfter time.Duration // the age at which keys are fetched again, in the background; 10 minutes
	Cooldown     time.Duration // the least time between two fetches, but for Refresh; 30 seconds
	MaxAge       time.Duration // the age at which keys are too old; an hour
	Timeout      time.Duration // of a whole fetch; 5 seconds
	AllowHTTP    bool
	TLS          *tls.Config // nil: the system's authorities; TLS 1.2 at least, unless it says otherwise
	// OnFetch is called after each fetch, with the URL without its query, how many octets were had, and why it failed, if it did. Where it panics,
	// that is logged.
	OnFetch func(url string, octets int, err error)
}

// RemoteKeys is a policy, and a key set at a URL, which is fetched at once, and again as docs/REMOTE-KEYS.md says: in the background; where a token is
// refused for want of a key or by a bad signature, at most once a cool-down. For a fetch at most four tokens wait, one for each kid; the others are
// refused at once. Where a fetch fails, the keys stay until they are too old. Goroutines may share it.
type RemoteKeys struct {
	policy    []byte
	address   string
	how       Remote
	options   []Option
	terms     terms // what is told of the policy
	client    *http.Client
	seed      maphash.Seed // of the names under which tokens wait
	validator atomic.Pointer[Validator]
	quiet     atomic.Pointer[used] // what a token is judged by until it has to ask again: so no mutex is taken for each
	mutex     sync.Mutex           // guards what follows
	renewal   renewal
	fetch     *fetch // the one that is under way
	closed    bool
	err       error // why the last fetch failed
}

// used is what tokens are judged by from the one moment to the other, and the ticket of its keys.
type used struct {
	validator    *Validator
	keys         uint64
	since, until time.Duration
}

// fetch is one fetch.
type fetch struct {
	ticket uint64
	done   chan struct{} // closed when it is over
	cancel context.CancelFunc
}

// errTooSlow says that a fetch took longer than its timeout.
var errTooSlow = errors.New("it takes too long")

// OpenRemote fetches a key set. The error is ErrURL, ErrTime, ErrPolicyByURL, an *UnavailableError, or that of Open. The policy and the options are
// copied, and so is TLS.
func OpenRemote(policy []byte, address string, how Remote, options ...Option) (*RemoteKeys, error) {
	policy = append([]byte(nil), policy...)
	how, err := how.orDefaults()
	if err != nil {
		return nil, err
	}
	if err := checkPolicy(policy, nil); err != nil {
		return nil, err
	}
	return openRemote(policy, address, how, options)
}

// OpenIssuer fetches the keys of an issuer, whose URL its metadata tell (OpenID Connect Discovery 1.0, section 4; where there is none, RFC 8414,
// section 3). The metadata are read once, under the same rules: their issuer has to be that very text, and the policy's issuers exactly that one.
// The errors are those of OpenRemote.
func OpenIssuer(policy []byte, issuer string, how Remote, options ...Option) (*RemoteKeys, error) {
	policy = append([]byte(nil), policy...)
	how, err := how.orDefaults()
	if err != nil {
		return nil, err
	}
	if err := checkPolicy(policy, &issuer); err != nil {
		return nil, err
	}
	if err := checkURL(issuer, how.AllowHTTP); err != nil {
		return nil, err
	}
	if _, err := metadataURL(askedOpenID, issuer); err != nil {
		return nil, err
	}
	ctx, cancel := context.WithTimeout(context.Background(), how.Timeout)
	defer cancel()
	address, err := keysURL(ctx, how.client(), issuer)
	if err == nil {
		err = checkURL(address, how.AllowHTTP)
	}
	if err != nil {
		return nil, &UnavailableError{err}
	}
	return openRemote(policy, address, how, options)
}

func openRemote(policy []byte, address string, how Remote, options []Option) (*RemoteKeys, error) {
	if err := checkURL(address, how.AllowHTTP); err != nil {
		return nil, err
	}
	r := &RemoteKeys{
		policy:  policy,
		address: address,
		how:     how,
		options: append([]Option(nil), options...),
		client:  how.client(),
		seed:    maphash.MakeSeed(),
		renewal: newRenewal(how),
	}
	if err := r.Refresh(); err != nil {
		return nil, &UnavailableError{err}
	}
	r.terms = r.validator.Load().terms
	return r, nil
}

// Validate is Validator.Validate.
func (r *RemoteKeys) Validate(token string) (Claims, error) { return r.ValidateAt(token, time.Now()) }

// ValidateAt is Validator.ValidateAt. The error may be a *TooOldError too.
func (r *RemoteKeys) ValidateAt(token string, now time.Time) (claims Claims, err error) {
	err = r.by(token, func(v *Validator) (err error) {
		claims, err = v.ValidateAt(token, now)
		return err
	})
	return claims, err
}

// ValidateFor is Validator.ValidateFor.
func (r *RemoteKeys) ValidateFor(token string, access *Access) (Claims, error) {
	return r.ValidateForAt(token, time.Now(), access)
}

// ValidateForAt is Validator.ValidateForAt. The error may be a *TooOldError too.
func (r *RemoteKeys) ValidateForAt(token string, now time.Time, access *Access) (claims Claims, err error) {
	err = r.by(token, func(v *Validator) (err error) {
		claims, err = v.ValidateForAt(token, now, access)
		return err
	})
	return claims, err
}

// ValidateWith is Validator.ValidateWith. The error may be a *TooOldError too.
func (r *RemoteKeys) ValidateWith(token string, how ...Asked) (claims Claims, err error) {
	err = r.by(token, func(v *Validator) (err error) {
		claims, err = v.ValidateWith(token, how...)
		return err
	})
	return claims, err
}

// Judge is Validator.Judge.
func (r *RemoteKeys) Judge(token string) (Report, error) { return r.JudgeAt(token, time.Now()) }

// JudgeAt is Validator.JudgeAt. Where the keys are too old and none can be fetched, the report has the refusal *TooOldError and nothing else.
func (r *RemoteKeys) JudgeAt(token string, now time.Time) (report Report, err error) {
	var refusal Refusal
	err = r.by(token, func(v *Validator) (err error) {
		if report, err = v.JudgeAt(token, now); err != nil {
			return err
		}
		refusal = report.Refusal
		return refusal
	})
	if old := (*TooOldError)(nil); errors.As(err, &old) {
		return Report{Refusal: old}, nil
	}
	if refusal != nil && err == error(refusal) {
		return report, nil
	}
	return report, err
}

// Issuer is Validator.Issuer.
func (r *RemoteKeys) Issuer() (string, bool) { return r.terms.issuer, r.terms.hasIssuer }

// Limit is Validator.Limit.
func (r *RemoteKeys) Limit() int { return r.terms.limit }

// UnverifiedIssuer is Validator.UnverifiedIssuer, however old the keys are.
func (r *RemoteKeys) UnverifiedIssuer(token string) (string, bool, error) {
	issuer, status, err := r.namedIssuer(token)
	return issuer, status == statusOK, err
}

func (r *RemoteKeys) namedIssuer(token string) (issuer string, status int, err error) {
	used := r.validator.Load()
	if used == nil {
		return "", 0, ErrClosed
	}
	err = r.onceMore(used, func(v *Validator) (err error) {
		issuer, status, err = v.namedIssuer(token)
		return err
	})
	return issuer, status, err
}

// Refresh fetches the key set now, whatever the cool-down; where a fetch is under way it waits for that one. The error says why the fetch failed;
// the keys are as before then.
func (r *RemoteKeys) Refresh() error {
	_, under, err := r.ask(askerOwner, 0)
	if err != nil {
		return err
	}
	<-under.done
	r.mutex.Lock()
	defer r.mutex.Unlock()
	return r.err
}

// Close frees what is held, and drops a fetch that is under way. It may be called twice. The error is nil.
func (r *RemoteKeys) Close() error {
	r.mutex.Lock()
	defer r.mutex.Unlock()
	r.closed = true
	r.quiet.Store(nil)
	if r.fetch != nil {
		r.fetch.cancel()
	}
	if last := r.validator.Swap(nil); last != nil {
		return last.Close()
	}
	return nil
}

// by judges by the keys, and once more by newer ones where these may change what came of it and can be had.
func (r *RemoteKeys) by(token string, judge func(*Validator) error) error {
	current, err := r.current(token)
	if err != nil {
		return err
	}
	err = r.onceMore(current.validator, judge)
	if asksForKeys(err) {
		r.waitFor(askerRefused, current.keys, token)
		if newer := r.validator.Load(); newer != nil && newer != current.validator {
			err = r.onceMore(newer, judge)
		}
	}
	return err
}

// onceMore judges by these keys, and by newer ones where they were exchanged, and the old ones closed, before the call took them.
func (r *RemoteKeys) onceMore(used *Validator, judge func(*Validator) error) error {
	err := judge(used)
	for errors.Is(err, ErrClosed) {
		newer := r.validator.Load()
		if newer == nil || newer == used {
			break
		}
		used, err = newer, judge(newer)
	}
	return err
}

// asksForKeys says whether a token was refused for want of a key, or by a bad signature.
func asksForKeys(err error) bool {
	var refusal *SignatureError
	return errors.As(err, &refusal) && (refusal.Fault == "NoKey" || refusal.Fault == "BadSignature")
}

// current gives what a token is judged by first.
func (r *RemoteKeys) current(token string) (*used, error) {
	if quiet := r.quiet.Load(); quiet != nil {
		if now := r.renewal.now(); quiet.since <= now && now < quiet.until {
			return quiet, nil
		}
	}
	it, _, err := r.ask(askerToken, 0)
	if err != nil || it != nil {
		return it, err
	}
	r.waitFor(askerToken, 0, token)
	if it, _, err = r.ask(askerWaited, 0); err == nil && it == nil {
		err = new(TooOldError)
	}
	return it, err
}

// ask gives what is to be used, which is nil where the keys are too old, and the fetch that whoever asked may wait for, if any. A fetch begins where the
// library says so.
func (r *RemoteKeys) ask(who asker, keys uint64) (*used, *fetch, error) {
	r.mutex.Lock()
	defer r.mutex.Unlock()
	// RemoteKeys that weren't opened have no client.
	if r.closed || r.client == nil {
		return nil, nil, ErrClosed
	}
	said := r.renewal.ask(who, keys)
	var it *used
	// (before a fetch begins, so that it is the old one)
	if v := r.validator.Load(); said.hasKeys && v != nil {
		it = &used{v, said.keys, said.since, said.until}
	}
	r.quiet.Store(it)
	if said.begins {
		r.begin(said.ticket)
	}
	if !said.isUnderWay {
		return it, nil, nil
	}
	return it, r.fetch, nil
}

// waitFor waits for a fetch, where there is one for which this token may wait.
func (r *RemoteKeys) waitFor(who asker, keys uint64, token string) {
	_, under, err := r.ask(who, keys)
	if err != nil || under == nil {
		return
	}
	name := maphash.String(r.seed, kidOf(r.validator.Load(), token))
	r.mutex.Lock()
	waits := r.renewal.wait(under.ticket, name)
	r.mutex.Unlock()
	if waits {
		<-under.done
	}
}

// kidOf gives the kid of a token, for which nobody vouches; it is empty where there is none.
func kidOf(v *Validator, token string) string {
	if v == nil {
		return ""
	}
	header, _, _ := v.UnverifiedHeader(token, 0)
	kid, _, _ := memberOf(header, "kid")
	return kid
}

// begin begins a fetch. The mutex is held.
func (r *RemoteKeys) begin(ticket uint64) {
	ctx, cancel := context.WithTimeout(context.Background(), r.how.Timeout)
	r.fetch = &fetch{ticket, make(chan struct{}), cancel}
	go r.run(ctx, r.fetch)
}

func (r *RemoteKeys) run(ctx context.Context, under *fetch) {
	keys, _, err := get(ctx, r.client, askedKeys, r.address)
	var newer *Validator
	if err == nil {
		newer, err = openPublic(r.policy, keys, r.options)
	}
	err = r.exchange(under, newer, err)
	under.cancel()
	close(under.done)
	r.tell(len(keys), err)
}

// tell tells what became of a fetch. Whoever is told may panic, which says nothing of a token, and isn't the end of the process.
func (r *RemoteKeys) tell(octets int, err error) {
	if r.how.OnFetch == nil {
		return
	}
	defer func() {
		if why := recover(); why != nil {
			log.Printf("fowharimu: OnFetch panicked: %v\n%s", why, debug.Stack())
		}
	}()
	r.how.OnFetch(withoutQuery(r.address), octets, err)
}

// exchange takes the new validator, where there is one whose keys count, in place of the old one, and ends the fetch. It gives why the fetch failed.
func (r *RemoteKeys) exchange(under *fetch, newer *Validator, err error) error {
	r.mutex.Lock()
	defer r.mutex.Unlock()
	if newer != nil && !r.renewal.took(under.ticket) {
		err = errTooSlow
	}
	r.renewal.failed(under.ticket)
	if r.fetch == under {
		r.fetch, r.err = nil, err
	}
	if newer == nil {
		return err
	}
	if err != nil || r.closed {
		newer.Close()
		return err
	}
	r.quiet.Store(nil)
	if old := r.validator.Swap(newer); old != nil {
		// (calls that are under way end as if it weren't closed)
		old.Close()
	}
	return nil
}

// openPublic opens a policy and keys that were fetched, in which there may be no secret (RFC 8725, section 2.1).
func openPublic(policy, keys []byte, options []Option) (*Validator, error) {
	v, err := Open(policy, keys, options...)
	if err != nil {
		return nil, err
	}
	if !v.IsPublic() {
		v.Close()
		return nil, errors.New("it has a key of kty oct in it, which everyone may read")
	}
	return v, nil
}

// checkPolicy says whether a policy is one for keys by URL, and for exactly this issuer, where there is one.
func checkPolicy(policy []byte, issuer *string) error {
	v, err := Open(policy, []byte(`{"keys":[]}`))
	if err != nil {
		return err
	}
	defer v.Close()
	named, has := v.Issuer()
	if !v.IsPublic() || issuer != nil && (!has || named != *issuer) {
		return ErrPolicyByURL
	}
	return nil
}

// keysURL gives the URL of an issuer's keys, which its metadata tell.
func keysURL(ctx context.Context, client *http.Client, issuer string) (string, error) {
	text, asksOther, err := getMetadata(ctx, client, askedOpenID, issuer)
	if err == nil && asksOther {
		text, _, err = getMetadata(ctx, client, askedOAuth, issuer)
	}
	if err != nil {
		return "", err
	}
	return keysURLIn(text, issuer)
}

// getMetadata gives these metadata of an issuer, or says that the other ones are to be asked for.
func getMetadata(ctx context.Context, client *http.Client, what asked, issuer string) ([]byte, bool, error) {
	address, err := metadataURL(what, issuer)
	if err != nil {
		return nil, false, err
	}
	return get(ctx, client, what, address)
}

// get gives what stands at a URL, with redirections followed, or says that the other metadata are to be asked for.
func get(ctx context.Context, client *http.Client, what asked, address string) ([]byte, bool, error) {
	for followed := 0; ; followed++ {
		response, err := answer(ctx, client, address)
		if err != nil {
			return nil, false, err
		}
		step, most := nextStep(what, response.StatusCode, followed)
		if step == stepTake {
			octets, err := read(response.Body, most)
			return octets, false, err
		}
		response.Body.Close()
		switch step {
		case stepFollow:
			if address, err = redirectedFrom(address, response.Header.Get("Location")); err != nil {
				return nil, false, err
			}
		case stepAskOAuth:
			return nil, true, nil
		case stepTooOften:
			return nil, false, errors.New("it redirects too often")
		default:
			return nil, false, fmt.Errorf("its status is %d", response.StatusCode)
		}
	}
}

// answer asks for what stands at a URL.
func answer(ctx context.Context, client *http.Client, address string) (*http.Response, error) {
	request, err := http.NewRequestWithContext(ctx, http.MethodGet, address, nil)
	if err != nil {
		return nil, errElsewhere
	}
	request.Header.Set("Accept", "application/jwk-set+json, application/json")
	response, err := client.Do(request)
	if whole := (*url.Error)(nil); errors.As(err, &whole) {
		// (it would tell the URL with its query, in which a service may have a secret)
		err = whole.Err
	}
	return response, err
}

// read gives what a body has, and closes it.
func read(body io.ReadCloser, most int) ([]byte, error) {
	defer body.Close()
	octets, err := io.ReadAll(io.LimitReader(body, int64(most)+1))
	if err == nil && len(octets) > most {
		err = fmt.Errorf("it has more than %d octets", most)
	}
	return octets, err
}

// client gives a client that uses no proxy, and follows no redirection by itself.
func (how Remote) client() *http.Client {
	secure := how.TLS.Clone()
	if secure == nil {
		secure = new(tls.Config)
	}
	if secure.MinVersion == 0 {
		secure.MinVersion = tls.VersionTLS12
	}
	return &http.Client{
		Transport: &http.Transport{
			Proxy:                  nil,
			TLSClientConfig:        secure,
			DisableCompression:     true,
			DisableKeepAlives:      true,
			MaxResponseHeaderBytes: mostHeaders,
		},
		CheckRedirect: func(*http.Request, []*http.Request) error { return http.ErrUseLastResponse },
	}
}

// orDefaults has each time that is named. The error is ErrTime.
func (how Remote) orDefaults() (Remote, error) {
	for at, otherwise := range map[*time.Duration]time.Duration{
		&how.RefreshAfter: 10 * time.Minute,
		&how.Cooldown:     30 * time.Second,
		&how.MaxAge:       time.Hour,
		&how.Timeout:      5 * time.Second,
	} {
		if *at < 0 {
			return how, ErrTime
		}
		if *at == 0 {
			*at = otherwise
		}
	}
	return how, nil
}
