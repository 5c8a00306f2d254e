package fowharimu

/*
#include <fowharimu.h>

static const uint8_t *url_octets(_GoString_ text)
{
	return _GoStringLen(text) == 0 ? (const uint8_t *)"" : (const uint8_t *)_GoStringPtr(text);
}

static uint32_t url_of(_GoString_ url, bool allows_http, fow_url *parts)
{
	return fow_url_of(url_octets(url), _GoStringLen(url), allows_http, parts);
}

static uint32_t redirected(_GoString_ url, _GoString_ location, uint8_t *out, size_t room, size_t *written)
{
	return fow_redirected(url_octets(url), _GoStringLen(url), url_octets(location), _GoStringLen(location), out, room, written);
}

static uint32_t metadata_url(uint32_t asked, _GoString_ issuer, uint8_t *out, size_t room, size_t *written)
{
	return fow_metadata_url(asked, url_octets(issuer), _GoStringLen(issuer), out, room, written);
}

static uint32_t keys_url(_GoString_ document, _GoString_ issuer, uint8_t *out, size_t room, size_t *written)
{
	return fow_keys_url(url_octets(document), _GoStringLen(document), url_octets(issuer), _GoStringLen(issuer), out, room, written);
}
*/
import "C"

import (
	"errors"
	"strings"
)

// asked says what is asked for.
type asked uint32

const (
	askedKeys   asked = C.FOW_ASKED_KEYS
	askedOpenID asked = C.FOW_ASKED_OPENID
	askedOAuth  asked = C.FOW_ASKED_OAUTH
)

// step says what follows on an answer.
type step uint32

const (
	stepFail     step = C.FOW_STEP_FAIL
	stepTake     step = C.FOW_STEP_TAKE
	stepFollow   step = C.FOW_STEP_FOLLOW
	stepAskOAuth step = C.FOW_STEP_ASK_OAUTH
	stepTooOften step = C.FOW_STEP_TOO_OFTEN
)

// mostBesideIssuer is the most octets that the URL of metadata has beside its issuer.
const mostBesideIssuer = 64

// errElsewhere says that a redirection isn't followed.
var errElsewhere = errors.New("it redirects to another origin, or to no URL")

// checkURL says whether keys may be fetched from a URL.
func checkURL(address string, allowHTTP bool) error {
	var parts C.fow_url
	if C.url_of(address, C.bool(allowHTTP), &parts) != statusOK {
		return ErrURL
	}
	return nil
}

// redirectedFrom gives the URL to which a redirection leads.
func redirectedFrom(address, location string) (string, error) {
	to, status := writtenTo(len(address)+len(location)+1, func(out *C.uint8_t, room C.size_t, written *C.size_t) C.uint32_t {
		return C.redirected(address, location, out, room, written)
	})
	if status != statusOK {
		return "", errElsewhere
	}
	return string(to), nil
}

// metadataURL gives the URL of an issuer's metadata. The error is ErrURL.
func metadataURL(what asked, issuer string) (string, error) {
	address, status := writtenTo(len(issuer)+mostBesideIssuer, func(out *C.uint8_t, room C.size_t, written *C.size_t) C.uint32_t {
		return C.metadata_url(C.uint32_t(what), issuer, out, room, written)
	})
	if status != statusOK {
		return "", ErrURL
	}
	return string(address), nil
}

// keysURLIn gives the URL of an issuer's keys, as its metadata tell it.
func keysURLIn(document []byte, issuer string) (string, error) {
	address, status := writtenTo(len(document)+1, func(out *C.uint8_t, room C.size_t, written *C.size_t) C.uint32_t {
		return C.keys_url(string(document), issuer, out, room, written)
	})
	switch status {
	case statusOK:
		return string(address), nil
	case statusAbsent:
		return "", errors.New("the metadata have no jwks_uri")
	case statusRefused:
		return "", errors.New("the metadata are of another issuer")
	}
	return "", ErrOutOfMemory
}

// nextStep says what follows on an answer of this status, where so many redirections were followed, and how many octets of it are taken at most.
func nextStep(what asked, status, followed int) (step, int) {
	var next C.fow_next
	C.fow_next_step(C.uint32_t(what), C.uint32_t(status), C.uint32_t(followed), &next)
	return step(next.step), int(next.most)
}

// withoutQuery gives a URL for those who are told of a fetch: in its query a service may have a secret.
func withoutQuery(address string) string {
	shown, _, _ := strings.Cut(address, "?")
	return shown
}
