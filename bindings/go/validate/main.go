// Command validate validates a token: validate POLICY KEYS TOKEN [NOW]
//
// POLICY, KEYS and TOKEN are files; NOW is in seconds since 1970-01-01T00:00:00Z, and the clock's moment where it is left out. It
// prints the claims, or why the token is refused. It ends with 0 where the token is accepted, 1 where it isn't, 2 for wrong words, 3
// where a file can't be read or nothing can be said.
package main

import (
	"errors"
	"fmt"
	"os"
	"strconv"
	"time"

	"example.org/fowharimu"
)

func main() {
	if len(os.Args) < 4 || len(os.Args) > 5 {
		fmt.Fprintln(os.Stderr, "usage: validate POLICY KEYS TOKEN [NOW]")
		os.Exit(2)
	}
	claims, err := validate(os.Args[1], os.Args[2], os.Args[3], os.Args[4:])
	var refusal fowharimu.Refusal
	switch {
	case err == nil:
		fmt.Println(claims)
	case errors.As(err, &refusal):
		fmt.Println("refused:", refusal.FaultName())
		os.Exit(1)
	default:
		fmt.Fprintln(os.Stderr, err)
		os.Exit(3)
	}
}

// validate gives the claims of the token in a file, at the moment that is given or at the clock's.
func validate(policy, keys, token string, moment []string) (fowharimu.Claims, error) {
	var files [3][]byte
	for i, name := range []string{policy, keys, token} {
		octets, err := os.ReadFile(name)
		if err != nil {
			return fowharimu.Claims{}, err
		}
		files[i] = octets
	}
	now := time.Now()
	if len(moment) == 1 {
		seconds, err := strconv.ParseInt(moment[0], 10, 64)
		if err != nil {
			return fowharimu.Claims{}, err
		}
		now = time.Unix(seconds, 0)
	}
	validator, err := fowharimu.Open(files[0], files[1])
	if err != nil {
		return fowharimu.Claims{}, err
	}
	defer validator.Close()
	return validator.ValidateAt(string(files[2]), now)
}
