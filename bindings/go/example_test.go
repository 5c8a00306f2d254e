package fowharimu_test

import (
	"errors"
	"fmt"
	"log"
	"os"
	"time"

	"example.org/fowharimu"
)

func Example() {
	keys, err := os.ReadFile("../../examples/rfc7515-a2.keys")
	if err != nil {
		log.Fatal(err)
	}
	validator, err := fowharimu.Open([]byte(`{"version":2,"algs":["RS256"],"issuers":["joe"],"required":["exp"],"max_calls":8}`), keys)
	if err != nil {
		log.Fatal(err)
	}
	defer validator.Close()

	token, err := os.ReadFile("../../examples/rfc7515-a2.jwt")
	if err != nil {
		log.Fatal(err)
	}
	claims, err := validator.ValidateAt(string(token), time.Unix(1300819379, 0))
	if err != nil {
		log.Fatal(err)
	}
	registered, _ := claims.Registered()
	fmt.Println(registered.Issuer, registered.ExpiresAt.UTC())

	_, err = validator.Validate(string(token))
	var refusal fowharimu.Refusal
	fmt.Println(errors.As(err, &refusal), err)
	// Output:
	// joe 2011-03-22 18:43:00 +0000 UTC
	// true fowharimu: the token is refused: Expired
}
