// Command gateway lets requests through whose token is accepted: gateway ADDRESS POLICY KEYS
//
// ADDRESS is as 127.0.0.1:8080; POLICY and KEYS are files. What is behind the gateway answers the claims of the token.
package main

import (
	"fmt"
	"log"
	"net"
	"net/http"
	"os"
	"time"

	"example.org/fowharimu"
	"example.org/fowharimu/guard"
)

// answer stands for the service behind the gateway.
func answer(w http.ResponseWriter, r *http.Request) {
	claims, _ := guard.ClaimsOf(r.Context())
	w.Header().Set("Content-Type", "application/json")
	w.Write(claims.Raw())
}

func serve(address, policyFile, keysFile string) error {
	policy, err := os.ReadFile(policyFile)
	if err != nil {
		return err
	}
	keys, err := os.ReadFile(keysFile)
	if err != nil {
		return err
	}
	validator, err := fowharimu.Open(policy, keys)
	if err != nil {
		return err
	}
	listener, err := net.Listen("tcp", address)
	if err != nil {
		return err
	}
	fmt.Println("listening on", listener.Addr())
	guarded := guard.Bearer(validator, guard.Realm("gateway"), guard.OnRefusal(func(_ *http.Request, why error) { log.Print(why) }))
	server := http.Server{Handler: guarded(http.HandlerFunc(answer)), ReadHeaderTimeout: 10 * time.Second}
	return server.Serve(listener)
}

func main() {
	if len(os.Args) != 4 {
		log.Fatal("usage: gateway ADDRESS POLICY KEYS")
	}
	log.Fatal(serve(os.Args[1], os.Args[2], os.Args[3]))
}
