package fowharimu

/*
#include <fowharimu.h>

// What fow_credentials answers, with the scheme and the token's places.
typedef struct credentials {
	uint32_t status, scheme;
	size_t from, to;
} credentials;

static const uint8_t *octets(_GoString_ text)
{
	return _GoStringLen(text) == 0 ? (const uint8_t *)"" : (const uint8_t *)_GoStringPtr(text);
}

static credentials credentials_in(uint32_t schemes, _GoString_ value)
{
	credentials said = { 0 };
	said.status = fow_credentials(schemes, octets(value), _GoStringLen(value), &said.scheme, &said.from, &said.to);
	return said;
}

static fow_reply reply_to(uint32_t schemes, uint32_t shown, uint32_t outcome)
{
	fow_reply reply;
	fow_reply_to(schemes, shown, outcome, &reply);
	return reply;
}

static bool quotable(_GoString_ text)
{
	return fow_quotable(octets(text), _GoStringLen(text));
}

static size_t challenge(uint32_t scheme, uint32_t kind, _GoString_ realm, _GoString_ scope, _GoString_ algs, uint8_t *out, size_t room)
{
	size_t written = 0;
	fow_challenge(scheme, kind, octets(realm), _GoStringLen(realm), octets(scope), _GoStringLen(scope), octets(algs), _GoStringLen(algs), out, room,
		&written);
	return written;
}
*/
import "C"

import "unsafe"

// mostBesideQuoted is the most octets that a challenge has beside what it quotes.
const mostBesideQuoted = 64

// Scheme is a scheme of the header Authorization, or several that a service takes.
type Scheme uint32

// The schemes. Their sum takes both.
const (
	NoScheme Scheme = C.FOW_NO_SCHEME
	Bearer   Scheme = C.FOW_BEARER // RFC 6750
	DPoP     Scheme = C.FOW_DPOP   // RFC 9449, section 7.1: the request has a proof of possession beside the token
)

// Outcome is what is known of a request and its token.
type Outcome uint32

// The outcomes of a request.
const (
	Unanswered   Outcome = C.FOW_UNANSWERED    // nothing can be said of the token
	Admitted     Outcome = C.FOW_ADMITTED      // it is accepted, and its claims meet the access rule, where there is one
	Several      Outcome = C.FOW_SEVERAL       // there is more than one header Authorization
	NoToken      Outcome = C.FOW_NO_TOKEN      // there is none, or its scheme is none that is taken
	Malformed    Outcome = C.FOW_MALFORMED     // what stands behind the scheme is no b64token
	NotAccepted  Outcome = C.FOW_NOT_ACCEPTED  // it is refused, or bound to another key, or bound and a bearer's
	ScopeMissing Outcome = C.FOW_SCOPE_MISSING // a scope that the access rule asks for is missing
	NotGranted   Outcome = C.FOW_NOT_GRANTED   // the claims don't meet the access rule otherwise
	KeysTooOld   Outcome = C.FOW_KEYS_TOO_OLD  // the keys are too old
	ProofRefused Outcome = C.FOW_PROOF_REFUSED // there is no proof, or several, or it isn't one for this request, or it came before
	NonceWanted  Outcome = C.FOW_NONCE_WANTED  // the proof hasn't a nonce that is asked for
	PathForm     Outcome = C.FOW_PATH_FORM     // the path of the request can be read in more ways than one
	ShareUsedUp  Outcome = C.FOW_SHARE_USED_UP // whose token or proof it is has as many held as one owner may have
	MemoryFull   Outcome = C.FOW_MEMORY_FULL   // there is no room for one more token, or proof, that counts once
)

// TokenIn gives the token in the value of the one header Authorization, by a scheme that is taken (RFC 6750, section 2.1; RFC 9449, section 7.1), and which one
// that is. Where the value carries no token, the outcome says why; the scheme is NoScheme where it is none that is taken.
func TokenIn(taken Scheme, value string) (token string, scheme Scheme, outcome Outcome) {
	switch said := C.credentials_in(C.uint32_t(taken), value); said.status {
	case C.FOW_OK:
		return value[said.from:said.to], Scheme(said.scheme), Admitted
	case C.FOW_ABSENT:
		return "", NoScheme, NoToken
	default:
		return "", Scheme(said.scheme), Malformed
	}
}

// BearerToken is TokenIn for the scheme Bearer alone.
func BearerToken(value string) (token string, outcome Outcome) {
	token, _, outcome = TokenIn(Bearer, value)
	return token, outcome
}

// Quoted is what challenges quote, as it is; each has to be quotable.
type Quoted struct {
	Realm  string
	Scopes string // what a token needs, with a space between two
	Algs   string // the algorithms of proofs, as Proofs.Algs has them
}

// Reply is what a request is answered: the status, and the values of WWW-Authenticate, one for each scheme (RFC 6750, section 3; RFC 9449, section 7.1). Where it wants a
// nonce, the answer has the header DPoP-Nonce too, with Nonces.Now, and Cache-Control with no-store.
type Reply struct {
	Status     int
	Challenges []string
	WantsNonce bool
}

// ReplyTo gives what a request is answered of which this is known, where these schemes are taken and this one was shown. A challenge that can't be quoted is left out.
func ReplyTo(taken, shown Scheme, outcome Outcome, quoted Quoted) Reply {
	said := C.reply_to(C.uint32_t(taken), C.uint32_t(shown), C.uint32_t(outcome))
	reply := Reply{Status: int(said.status), WantsNonce: said.dpop == C.FOW_USE_DPOP_NONCE}
	for _, it := range []struct {
		scheme Scheme
		kind   C.uint32_t
	}{{Bearer, said.bearer}, {DPoP, said.dpop}} {
		if text := challenge(it.scheme, it.kind, quoted); text != "" {
			reply.Challenges = append(reply.Challenges, text)
		}
	}
	return reply
}

// challenge gives the text of a challenge, which is empty where there is none.
func challenge(scheme Scheme, kind C.uint32_t, quoted Quoted) string {
	room := make([]byte, len(quoted.Realm)+len(quoted.Scopes)+len(quoted.Algs)+mostBesideQuoted)
	size := C.challenge(C.uint32_t(scheme), kind, quoted.Realm, quoted.Scopes, quoted.Algs, (*C.uint8_t)(unsafe.Pointer(&room[0])), C.size_t(len(room)))
	return string(room[:size])
}

// IsQuotable says whether a realm or scopes can stand in a challenge as they are: each character is a printable one of ASCII, and neither a quotation mark
// nor a backslash.
func IsQuotable(text string) bool { return bool(C.quotable(text)) }
