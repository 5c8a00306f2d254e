// Command bench prints the least time of a call, in microseconds, on a token by HMAC and one by RS256, whose keys stand at a URL too: bench HMAC RSA URL
package main

import (
	"fmt"
	"log"
	"os"
	"time"

	"example.org/fowharimu"
)

const rounds = 400

var now = time.Unix(1300819379, 0)

var remember = fowharimu.Remember(10, 4096)

func main() {
	if len(os.Args) != 4 {
		log.Fatal("usage: bench HMAC RSA URL")
	}
	hmac, rsa, url := os.Args[1], os.Args[2], os.Args[3]
	measure("HS256 claims", 200, validating(open(hmac), hmac))
	measure("RS256 claims", 20, validating(open(rsa), rsa))
	measure("HS256 claims, remembered", 200, validating(open(hmac, remember), hmac))
	measure("RS256 claims, remembered", 200, validating(open(rsa, remember), rsa))
	remote, err := fowharimu.OpenRemote(read(rsa+".policy"), url, fowharimu.Remote{AllowHTTP: true}, remember)
	check(err)
	measure("RS256 claims, remembered, keys by URL", 200, validating(remote, rsa))
	value := "Bearer " + string(read(rsa+".jwt"))
	measure("Authorization", 200, func() {
		if _, outcome := fowharimu.BearerToken(value); outcome != fowharimu.Admitted {
			log.Fatal(outcome)
		}
	})
}

// measure prints the least time of this call, taken over so many of them.
func measure(label string, calls int, call func()) {
	least := time.Duration(1 << 62)
	for round := 0; round < rounds; round++ {
		begun := time.Now()
		for n := 0; n < calls; n++ {
			call()
		}
		if took := time.Since(begun); took < least {
			least = took
		}
	}
	fmt.Printf("%s %.3f\n", label, float64(least.Nanoseconds())/1e3/float64(calls))
}

// validating is the call that validates the token of this name.
func validating(by fowharimu.Judging, name string) func() {
	token := string(read(name + ".jwt"))
	return func() {
		_, err := by.ValidateAt(token, now)
		check(err)
	}
}

func open(name string, options ...fowharimu.Option) *fowharimu.Validator {
	validator, err := fowharimu.Open(read(name+".policy"), read(name+".keys"), options...)
	check(err)
	return validator
}

func read(name string) []byte {
	octets, err := os.ReadFile(name)
	check(err)
	return octets
}

func check(err error) {
	if err != nil {
		log.Fatal(err)
	}
}
