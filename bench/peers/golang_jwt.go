// Command golang_jwt prints how many calls a second so many goroutines make of golang-jwt: golang_jwt THREADS SECONDS NAME BURST
//
// NAME ends with the algorithm. NAME.key is the secret of a token by HS256, NAME.pem the public key of any other. bench/rates puts the bursts of bindings/go/rates beside it.
package main

import (
	"log"
	"os"
	"path/filepath"
	"strings"
	"time"

	"github.com/golang-jwt/jwt"
)

func main() {
	w := wordsOf(os.Args)
	jwt.TimeFunc = func() time.Time { return time.Unix(1300819379, 0) }
	alg, key := keyOf(w.name)
	parser := &jwt.Parser{ValidMethods: []string{alg}}
	token := string(read(w.name + ".jwt"))
	printRates(w, func() { validate(parser, key, token) })
}

// validate verifies the token, and asks for its issuer and its end.
func validate(parser *jwt.Parser, key interface{}, token string) {
	claims := jwt.MapClaims{}
	if _, err := parser.ParseWithClaims(token, claims, func(*jwt.Token) (interface{}, error) { return key, nil }); err != nil {
		log.Fatal(err)
	}
	if !claims.VerifyIssuer("joe", true) || !claims.VerifyExpiresAt(jwt.TimeFunc().Unix(), true) {
		log.Fatal("claims")
	}
}

// keyOf gives the algorithm and the key of this name.
func keyOf(name string) (string, interface{}) {
	alg := filepath.Base(name)
	if alg == "HS256" {
		return alg, read(name + ".key")
	}
	pem := read(name + ".pem")
	if alg == "Ed25519" {
		return "EdDSA", checked(jwt.ParseEdPublicKeyFromPEM(pem))
	}
	if strings.HasPrefix(alg, "ES") {
		return alg, checked(jwt.ParseECPublicKeyFromPEM(pem))
	}
	return alg, checked(jwt.ParseRSAPublicKeyFromPEM(pem))
}

// checked ends the program where there is no key.
func checked[T any](key T, err error) T {
	if err != nil {
		log.Fatal(err)
	}
	return key
}
