// Command rates prints how many calls a second so many threads make on one validator: rates THREADS SECONDS NAME BURST [remember]
package main

import (
	"log"
	"os"
	"time"

	"example.org/fowharimu"
)

var now = time.Unix(1300819379, 0)

func main() {
	w := wordsOf(os.Args)
	var how []fowharimu.Option
	if w.remembers {
		how = append(how, fowharimu.Remember(100, 4096))
	}
	validator, err := fowharimu.Open(read(w.name+".policy"), read(w.name+".keys"), how...)
	if err != nil {
		log.Fatal(err)
	}
	defer validator.Close()
	token := string(read(w.name + ".jwt"))
	printRates(w, func() {
		if _, err := validator.ValidateAt(token, now); err != nil {
			log.Fatal(err)
		}
	})
}
