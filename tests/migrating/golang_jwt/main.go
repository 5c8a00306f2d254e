// Command golang_jwt asks golang-jwt: golang_jwt QUESTIONS
package main

import (
	"bufio"
	"crypto"
	"crypto/x509"
	"encoding/hex"
	"encoding/pem"
	"errors"
	"fmt"
	"log"
	"os"
	"strconv"
	"strings"
	"time"

	"github.com/golang-jwt/jwt"
)

const longest = 1 << 21

// octetsOf gives the octets of a field.
func octetsOf(word string) []byte {
	if word == "-" {
		return nil
	}
	octets, err := hex.DecodeString(word)
	if err != nil {
		log.Fatal(err)
	}
	return octets
}

// keyOf gives the key of a question.
func keyOf(kind string, octets []byte) (crypto.PublicKey, error) {
	if kind == "secret" {
		return octets, nil
	}
	block, _ := pem.Decode(octets)
	return x509.ParsePKIXPublicKey(block.Bytes)
}

// judge is nil where the token is accepted.
func judge(fields []string) error {
	key, err := keyOf(fields[2], octetsOf(fields[3]))
	if err != nil {
		return err
	}
	parser := jwt.Parser{ValidMethods: strings.Split(fields[1], ",")}
	claims := jwt.MapClaims{}
	token := string(octetsOf(fields[8]))
	if _, err := parser.ParseWithClaims(token, claims, func(*jwt.Token) (interface{}, error) { return key, nil }); err != nil {
		return err
	}
	if fields[4] != "-" && !claims.VerifyIssuer(string(octetsOf(fields[4])), true) {
		return errors.New("issuer")
	}
	if fields[5] != "-" && !claims.VerifyAudience(string(octetsOf(fields[5])), true) {
		return errors.New("audience")
	}
	if fields[6] == "-" {
		return nil
	}
	for _, word := range strings.Split(fields[6], ",") {
		if _, found := claims[string(octetsOf(word))]; !found {
			return errors.New("missing")
		}
	}
	return nil
}

func main() {
	moment, err := strconv.ParseInt(os.Getenv("MOMENT"), 10, 64)
	if err != nil {
		log.Fatal(err)
	}
	jwt.TimeFunc = func() time.Time { return time.Unix(moment, 0) }
	file, err := os.Open(os.Args[1])
	if err != nil {
		log.Fatal(err)
	}
	lines := bufio.NewScanner(file)
	lines.Buffer(make([]byte, 4096), longest)
	for lines.Scan() {
		fields := strings.Split(lines.Text(), "\t")
		if err := judge(fields); err != nil {
			fmt.Printf("%s\trefused\n", fields[0])
		} else {
			fmt.Printf("%s\taccepted\n", fields[0])
		}
	}
}
