package fowharimu_test

import (
	"errors"
	"fmt"
	"testing"
	"time"

	"example.org/fowharimu"
)

const (
	logins = "../../examples/profiles/id-token/"
	nonce  = "n-0S6_WzA2Mj"
	// accessToken is that of OpenID Connect Core 1.0, appendix A.4, whose at_hash one of the profile's tokens has.
	accessToken = "jHkWEdUXMU1BwAsC4vtUsZwnNvTIxEl0z9K3vx5KF0Y"
)

// loginOf is a validator of ID tokens.
func loginOf(t *testing.T, how ...fowharimu.Option) *fowharimu.Validator {
	t.Helper()
	validator, err := fowharimu.Open(octets(t, logins+"policy.json"), octets(t, logins+"keys.json"), how...)
	if err != nil {
		t.Fatal(err)
	}
	t.Cleanup(func() { validator.Close() })
	return validator
}

// loginToken is a token of the profile.
func loginToken(t *testing.T, name string) string {
	t.Helper()
	return string(octets(t, logins+"tokens/"+name+".jwt"))
}

// notExpected has an error say that this claim isn't what was expected.
func notExpected(t *testing.T, err error, fault, claim string) {
	t.Helper()
	var why *fowharimu.NotExpectedError
	var refusal fowharimu.Refusal
	if !errors.As(err, &why) || why.Fault != fault || why.Claim != claim || !errors.As(err, &refusal) || refusal.FaultName() != fault {
		t.Fatal(fault, claim, err)
	}
	if why.Error() != fmt.Sprintf("fowharimu: the token isn't what was expected: %s of %q", fault, claim) {
		t.Error(why)
	}
}

func TestATokenIsTheOneThatWasExpected(t *testing.T) {
	validator, token := loginOf(t), loginToken(t, "good")
	at := fowharimu.At(now)
	for _, how := range [][]fowharimu.Asked{{at}, {at, fowharimu.ExpectText("nonce", nonce)}, {fowharimu.ExpectText("/nonce", nonce), at}} {
		if _, err := validator.ValidateWith(token, how...); err != nil {
			t.Error(err)
		}
	}
	for _, other := range []string{"", "n-", nonce + " ", nonce[1:]} {
		_, err := validator.ValidateWith(token, at, fowharimu.ExpectText("nonce", other))
		notExpected(t, err, "Other", "nonce")
	}
	_, err := validator.ValidateWith(token, at, fowharimu.ExpectText("exp", "1300819979"))
	notExpected(t, err, "Other", "exp")
	_, err = validator.ValidateWith(token, at, fowharimu.ExpectText("nonce", nonce), fowharimu.ExpectText("sid", "s"), fowharimu.ExpectText("iss", ""))
	notExpected(t, err, "Absent", "sid")
	_, err = validator.ValidateWith(loginToken(t, "other-nonce"), at, fowharimu.ExpectText("nonce", nonce))
	notExpected(t, err, "Other", "nonce")
}

func TestAClaimHasTheHalfOfAHash(t *testing.T) {
	validator, token := loginOf(t, fowharimu.Remember(2, 4096)), loginToken(t, "other-access-token")
	for n := 0; n < 2; n++ {
		if _, err := validator.ValidateWith(token, fowharimu.At(now), fowharimu.ExpectHalfHash("at_hash", accessToken)); err != nil {
			t.Error(err)
		}
	}
	if report, err := validator.JudgeAt(token, now); err != nil || !report.Remembered {
		t.Error(report, err)
	}
	_, err := validator.ValidateWith(token, fowharimu.At(now), fowharimu.ExpectHalfHash("at_hash", "another access token"))
	notExpected(t, err, "Other", "at_hash")
	_, err = validator.ValidateWith(token, fowharimu.At(now), fowharimu.ExpectHalfHash("c_hash", accessToken))
	notExpected(t, err, "Absent", "c_hash")
}

func TestWhatIsExpectedStandsBehindTheVerdictAndTheRule(t *testing.T) {
	validator, token, other := loginOf(t), loginToken(t, "good"), fowharimu.ExpectText("nonce", "n")
	var refused *fowharimu.ClaimsError
	if _, err := validator.ValidateWith(token, other); !errors.As(err, &refused) || refused.Fault != "Expired" {
		t.Error(err)
	}
	var denied *fowharimu.DeniedError
	if _, err := validator.ValidateWith(token, other, fowharimu.At(now), fowharimu.For(access(t, `{"scopes":["read"]}`))); !errors.As(err, &denied) {
		t.Error(err)
	}
	if _, err := validator.ValidateWith(token, fowharimu.At(now), fowharimu.For(nil)); err != fowharimu.ErrClosed {
		t.Error(err)
	}
	for _, it := range []fowharimu.Asked{fowharimu.ExpectText("\xff", "n"), fowharimu.ExpectText("nonce", "\xff"), fowharimu.ExpectHalfHash("\xff", "n")} {
		if _, err := validator.ValidateWith(token, fowharimu.At(now), it); err != fowharimu.ErrExpectation {
			t.Error(err)
		}
	}
}

func TestATokenThatIsNotExpectedIsNotTaken(t *testing.T) {
	validator := taking(t, memoryFor(t, 10))
	token := issuedBy(t, validator, claims{"jti": "a", "nonce": "n", "exp": 1000})
	at := fowharimu.At(time.Unix(900, 0))
	_, err := validator.ValidateWith(token, at, fowharimu.ExpectText("nonce", "m"))
	notExpected(t, err, "Other", "nonce")
	if _, err := validator.ValidateWith(token, at, fowharimu.ExpectText("nonce", "n")); err != nil {
		t.Error(err)
	}
	var why *fowharimu.NotTakenError
	if _, err := validator.ValidateWith(token, at, fowharimu.ExpectText("nonce", "n")); !errors.As(err, &why) || why.Fault != "Seen" {
		t.Error(err)
	}
}

func TestSeveralIssuersAndKeysByURLExpectAsOneDoes(t *testing.T) {
	issuers, err := fowharimu.NewIssuers(map[string]fowharimu.Judging{"https://server.example.com": loginOf(t)})
	if err != nil {
		t.Fatal(err)
	}
	keys := openRemote(t, octets(t, logins+"policy.json"), serving(t, octets(t, logins+"keys.json")))
	token := loginToken(t, "good")
	for _, validate := range []func(string, ...fowharimu.Asked) (fowharimu.Claims, error){issuers.ValidateWith, keys.ValidateWith} {
		if _, err := validate(token, fowharimu.At(now), fowharimu.ExpectText("nonce", nonce)); err != nil {
			t.Error(err)
		}
		_, err := validate(token, fowharimu.At(now), fowharimu.ExpectText("nonce", "n"))
		notExpected(t, err, "Other", "nonce")
	}
}
