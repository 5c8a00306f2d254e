package fowharimu_test

import (
	hashed "crypto/hmac"
	"crypto/sha256"
	"encoding/base64"
	"encoding/binary"
	"errors"
	"testing"
	"time"

	"example.org/fowharimu"
)

// octetsTo are the octets from 0 up to a number: those up to 32 are the secret of the row nonce-by-time, with periods of 300 seconds.
func octetsTo(count int) []byte {
	octets := make([]byte, count)
	for n := range octets {
		octets[n] = byte(n)
	}
	return octets
}

// noncesOf makes nonces of the secret of so many octets.
func noncesOf(t *testing.T, count int) *fowharimu.Nonces {
	t.Helper()
	nonces, err := fowharimu.NewNonces(octetsTo(count), 5*time.Minute)
	if err != nil {
		t.Fatal(err)
	}
	return nonces
}

// TestNonceOfAPeriod has the nonces of moments at the borders of periods.
func TestNonceOfAPeriod(t *testing.T) {
	nonces := noncesOf(t, 32)
	for moment, number := range map[int64]uint64{-1: 0, 0: 0, 299: 0, 300: 1, 1_700_000_000: 5_666_666} {
		digest := hashed.New(sha256.New, octetsTo(32))
		digest.Write(binary.BigEndian.AppendUint64(nil, number))
		if wanted := base64.RawURLEncoding.EncodeToString(digest.Sum(nil)); nonces.At(time.Unix(moment, 0)) != wanted {
			t.Errorf("at %d: %s, and not %s", moment, nonces.At(time.Unix(moment, 0)), wanted)
		}
	}
}

// TestNoNonces has secrets that are too short, and periods that are none.
func TestNoNonces(t *testing.T) {
	for _, row := range []struct {
		secret []byte
		period time.Duration
	}{{octetsTo(31), time.Minute}, {nil, time.Minute}, {octetsTo(32), 0}, {octetsTo(32), -time.Minute}, {octetsTo(32), 1500 * time.Millisecond}, {octetsTo(32), (1 << 32) * time.Second}} {
		if nonces, err := fowharimu.NewNonces(row.secret, row.period); !errors.Is(err, fowharimu.ErrNonces) || nonces != nil {
			t.Errorf("%d octets and %v: %v", len(row.secret), row.period, err)
		}
	}
}

// TestProofWithNonces has a proof with a nonce of its period: it is held in that period and the next one, and is one to ask again for otherwise.
func TestProofWithNonces(t *testing.T) {
	validator, first, _ := accessOf(t)
	_, rows := proofs(t)
	for _, row := range rows {
		if row.Name != "nonce-by-time" && row.Name != "by-ES256" {
			continue
		}
		for _, by := range []*fowharimu.Nonces{noncesOf(t, 32), noncesOf(t, 33)} {
			once, err := fowharimu.OpenOnce(1, fowharimu.Opened(time.Unix(0, 0)))
			if err != nil {
				t.Fatal(err)
			}
			held := fowharimu.ByProofWithNonces(proofsBy(t, first.Policy, once), row.Proof, row.Method, row.URI, by)
			_, err = validator.ValidateWith(row.token(), row.at(), held)
			var notHeld *fowharimu.NotHeldError
			isFresh := row.Name == "nonce-by-time" && by.At(time.Unix(row.Now, 0)) == noncesOf(t, 32).At(time.Unix(row.Now, 0))
			switch {
			case isFresh && err != nil:
				t.Error(row.Name, err)
			case !isFresh && (!errors.As(err, &notHeld) || notHeld.Fault != "OtherNonce" || notHeld.Outcome != fowharimu.NonceWanted):
				t.Error(row.Name, err)
			}
		}
	}
	if _, err := validator.ValidateWith("", fowharimu.ByProofWithNonces(nil, "a", "GET", things, nil)); !errors.Is(err, fowharimu.ErrProof) {
		t.Error(err)
	}
}

// TestAlgs has the names that a challenge of a guard tells.
func TestAlgs(t *testing.T) {
	_, first, _ := accessOf(t)
	once, err := fowharimu.OpenOnce(1, fowharimu.Opened(time.Unix(0, 0)))
	if err != nil {
		t.Fatal(err)
	}
	policy := proofsBy(t, first.Policy, once)
	if algs, err := policy.Algs(); err != nil || algs != "ES256 ES384 ES512 RS256 PS256 EdDSA" {
		t.Error(algs, err)
	}
	policy.Close()
	if algs, err := policy.Algs(); !errors.Is(err, fowharimu.ErrClosed) {
		t.Error(algs, err)
	}
}
