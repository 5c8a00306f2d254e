package fowharimu

import (
	"math"
	"reflect"
	"testing"
	"time"
)

func TestRegisteredClaims(t *testing.T) {
	latest := time.Unix(math.MaxInt64-62_135_596_800, 0)
	cases := []struct {
		payload string
		want    Registered
	}{
		{`{}`, Registered{}},
		{`{"ISS":"eve","Exp":1}`, Registered{}},
		{`{"iss":"joe","ISS":"eve","jti":"7"}`, Registered{Issuer: "joe", ID: "7"}},
		{`{"aud":"me"}`, Registered{Audience: []string{"me"}}},
		{`{"aud":["me","you"]}`, Registered{Audience: []string{"me", "you"}}},
		{`{"exp":1,"nbf":-1,"iat":0}`, Registered{ExpiresAt: time.Unix(1, 0), NotBefore: time.Unix(-1, 0), IssuedAt: time.Unix(0, 0)}},
		{`{"exp":9223372036854775807}`, Registered{ExpiresAt: latest}},
	}
	for _, it := range cases {
		got, err := Claims{[]byte(it.payload)}.Registered()
		if err != nil || !reflect.DeepEqual(got, it.want) {
			t.Errorf("%s: %+v, %v", it.payload, got, err)
		}
	}
	if !latest.After(time.Unix(1<<62, 0)) {
		t.Error("the latest moment is no late one")
	}
	if _, err := (Claims{}).Registered(); err == nil {
		t.Error("no claims are read")
	}
}
