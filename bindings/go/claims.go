package fowharimu

import (
	"encoding/json"
	"math"
	"time"
)

// Claims are the claims of an accepted token.
type Claims struct {
	payload []byte
}

// Registered are the registered claims (RFC 7519, section 4.1). What the token doesn't have is empty, or the zero time.
type Registered struct {
	Issuer    string
	Subject   string
	Audience  []string
	ExpiresAt time.Time
	NotBefore time.Time
	IssuedAt  time.Time
	ID        string
}

// Raw is the payload as the token has it: the JSON text of an object, in which no name stands twice. It isn't to be changed.
func (c Claims) Raw() json.RawMessage {
	return c.payload
}

// String is the payload as the token has it.
func (c Claims) String() string {
	return string(c.payload)
}

// Decode reads the claims into a value, as json.Unmarshal does. Of a struct that takes a claim for a field whose name differs in
// case only: Claim and Registered take exact names.
func (c Claims) Decode(into any) error {
	return json.Unmarshal(c.payload, into)
}

// Claim reads the claim of exactly this name into a value, as json.Unmarshal does, and says whether there is one.
func (c Claims) Claim(name string, into any) (bool, error) {
	members, err := c.members()
	if err != nil {
		return false, err
	}
	value, found := members[name]
	if !found {
		return false, nil
	}
	return true, json.Unmarshal(value, into)
}

// Registered are the registered claims. There is no error for claims that Validate has given. A date that is later than any that
// time.Time has is its latest.
func (c Claims) Registered() (Registered, error) {
	members, err := c.members()
	if err != nil {
		return Registered{}, err
	}
	var claims Registered
	readers := map[string]func([]byte) error{
		"iss": into(&claims.Issuer),
		"sub": into(&claims.Subject),
		"aud": audience(&claims.Audience),
		"exp": date(&claims.ExpiresAt),
		"nbf": date(&claims.NotBefore),
		"iat": date(&claims.IssuedAt),
		"jti": into(&claims.ID),
	}
	for name, read := range readers {
		if value, found := members[name]; found {
			if err := read(value); err != nil {
				return Registered{}, err
			}
		}
	}
	return claims, nil
}

// members are the claims by their exact names.
func (c Claims) members() (map[string]json.RawMessage, error) {
	var members map[string]json.RawMessage
	err := json.Unmarshal(c.payload, &members)
	return members, err
}

func into(text *string) func([]byte) error {
	return func(value []byte) error { return json.Unmarshal(value, text) }
}

// audience reads a list of texts, or one text as a list.
func audience(texts *[]string) func([]byte) error {
	return func(value []byte) error {
		if value[0] == '[' {
			return json.Unmarshal(value, texts)
		}
		*texts = make([]string, 1)
		return json.Unmarshal(value, &(*texts)[0])
	}
}

// date reads a number of seconds since 1970-01-01T00:00:00Z.
func date(moment *time.Time) func([]byte) error {
	// The seconds that time.Time counts begin with the year 1, and have 64 bits.
	const latest = math.MaxInt64 - 62_135_596_800
	return func(value []byte) error {
		var seconds int64
		err := json.Unmarshal(value, &seconds)
		if seconds > latest {
			seconds = latest
		}
		*moment = time.Unix(seconds, 0)
		return err
	}
}
