// Command nethttp is the application of the cases, over net/http: nethttp FOLDER
package main

import (
	"fmt"
	"log"
	"net"
	"net/http"
	"os"
	"path/filepath"
	"time"

	"example.org/fowharimu"
	"example.org/fowharimu/guard"
)

// answer stands for the service behind the guards.
func answer(w http.ResponseWriter, r *http.Request) {
	claims, _ := guard.ClaimsOf(r.Context())
	isShown := r.Header.Get("Authorization") != "" || r.Header.Get("DPoP") != ""
	fmt.Fprintf(w, `{"claims":%s,"shown":%t}`, claims.Raw(), isShown)
}

// read gives a document of the folder.
func read(name string) []byte {
	octets, err := os.ReadFile(filepath.Join(os.Args[1], name))
	if err != nil {
		log.Fatal(err)
	}
	return octets
}

// rule opens an access rule of the folder.
func rule(name string) *fowharimu.Access {
	access, err := fowharimu.OpenAccess(read(name))
	if err != nil {
		log.Fatal(err)
	}
	return access
}

// open opens the validator of the folder.
func open() *fowharimu.Validator {
	validator, err := fowharimu.Open(read("policy.json"), read("keys.json"))
	if err != nil {
		log.Fatal(err)
	}
	return validator
}

// proofs opens the policy for proofs of the folder, and its nonces.
func proofs() (*fowharimu.Proofs, *fowharimu.Nonces) {
	once, err := fowharimu.OpenOnce(1000, fowharimu.Opened(time.Unix(0, 0)), fowharimu.Share(1000))
	if err != nil {
		log.Fatal(err)
	}
	policy, err := fowharimu.OpenProofs(read("proofs.json"), once)
	if err != nil {
		log.Fatal(err)
	}
	nonces, err := fowharimu.NewNonces(read("nonce.secret"), time.Hour)
	if err != nil {
		log.Fatal(err)
	}
	return policy, nonces
}

// handleWithProofs has the guards that ask who sends a token.
func handleWithProofs(validator *fowharimu.Validator, behind http.Handler) {
	of, nonces := proofs()
	origin := "https://api.example"
	both := guard.DPoP(guard.Proofs{Of: of, Origin: origin})
	http.Handle("/unbound", guard.Bearer(validator)(behind))
	http.Handle("/dpop", guard.Bearer(validator, both)(behind))
	http.Handle("/dpop-only", guard.Bearer(validator, guard.DPoP(guard.Proofs{Of: of, Origin: origin, Only: true}))(behind))
	http.Handle("/dpop-nonce", guard.Bearer(validator, guard.DPoP(guard.Proofs{Of: of, Origin: origin, Nonces: nonces}))(behind))
	http.Handle("/dpop-scope", guard.Bearer(validator, both, guard.Access(rule("scope.json")))(behind))
	http.Handle("/dpop-hidden", guard.Bearer(validator, both, guard.HideToken())(behind))
}

func main() {
	if len(os.Args) != 2 {
		log.Fatal("usage: nethttp FOLDER")
	}
	validator, closed := open(), open()
	closed.Close()
	behind := http.HandlerFunc(answer)
	http.Handle("/", guard.Bearer(validator)(behind))
	http.Handle("/scope", guard.Bearer(validator, guard.Access(rule("scope.json")))(behind))
	http.Handle("/role", guard.Bearer(validator, guard.Access(rule("role.json")))(behind))
	http.Handle("/hidden", guard.Bearer(validator, guard.HideToken())(behind))
	http.Handle("/closed", guard.Bearer(closed)(behind))
	handleWithProofs(validator, behind)
	listener, err := net.Listen("tcp", "127.0.0.1:0")
	if err != nil {
		log.Fatal(err)
	}
	fmt.Println("listening on", listener.Addr())
	log.Fatal(http.Serve(listener, nil))
}
