// Remotecases opens keys by URL, and several issuers, and judges by them as tests/remote/run and tests/issuers/run say, a command a line.
package main

import (
	"bufio"
	"crypto/tls"
	"crypto/x509"
	"errors"
	"fmt"
	"os"
	"runtime/debug"
	"strconv"
	"strings"
	"sync"
	"sync/atomic"
	"time"

	"example.org/fowharimu"
)

// load is goroutines that validate one token until they are told to rest.
type load struct {
	judged, wrong atomic.Int64
	over          atomic.Bool
	running       sync.WaitGroup
}

func (l *load) run(keys *fowharimu.RemoteKeys, token string, now time.Time) {
	defer l.running.Done()
	for !l.over.Load() {
		if _, err := keys.ValidateAt(token, now); err != nil {
			l.wrong.Add(1)
		}
		l.judged.Add(1)
	}
}

// driver is what the lines are told to.
type driver struct {
	keys    *fowharimu.RemoteKeys
	issuers *fowharimu.Issuers
	load    *load
}

func (d *driver) answer(words []string) string {
	switch words[0] {
	case "open":
		return d.open(fowharimu.OpenRemote, words[1:])
	case "discover":
		return d.open(fowharimu.OpenIssuer, words[1:])
	case "issuers":
		return d.openIssuers(words[1:])
	case "validate":
		return d.validate(words[1], words[2])
	case "load":
		d.load = new(load)
		count := number(words[3])
		d.load.running.Add(count)
		for i := 0; i < count; i++ {
			go d.load.run(d.keys, text(words[1]), moment(words[2]))
		}
		return "loading"
	case "crowd":
		return d.crowd(strings.Fields(text(words[1])), moment(words[2]))
	case "rest":
		d.load.over.Store(true)
		d.load.running.Wait()
		return fmt.Sprint(d.load.judged.Load(), d.load.wrong.Load())
	case "refresh":
		// (so that what is resident is what is held)
		defer debug.FreeOSMemory()
		return strconv.FormatBool(d.keys.Refresh() == nil)
	default:
		d.keys.Close()
		return "closed"
	}
}

type opening func(policy []byte, address string, how fowharimu.Remote, options ...fowharimu.Option) (*fowharimu.RemoteKeys, error)

func (d *driver) open(open opening, words []string) (said string) {
	how := fowharimu.Remote{
		Cooldown:     milliseconds(words[2]),
		RefreshAfter: milliseconds(words[3]),
		MaxAge:       milliseconds(words[4]),
		Timeout:      milliseconds(words[5]),
		AllowHTTP:    words[7] == "1",
	}
	if words[6] != "-" {
		authorities := x509.NewCertPool()
		authorities.AppendCertsFromPEM([]byte(text(words[6])))
		how.TLS = &tls.Config{RootCAs: authorities}
	}
	var err error
	d.keys, err = open([]byte(text(words[0])), words[1], how)
	var unavailable *fowharimu.UnavailableError
	var refused *fowharimu.PolicyError
	switch {
	case err == nil:
		return "opened"
	case errors.As(err, &unavailable):
		return "unavailable"
	case errors.As(err, &refused):
		return "policy"
	case errors.Is(err, fowharimu.ErrURL), errors.Is(err, fowharimu.ErrPolicyByURL):
		return "misused"
	default:
		return err.Error()
	}
}

func (d *driver) openIssuers(words []string) string {
	all := make(map[string]fowharimu.Judging)
	for ; len(words) >= 3; words = words[3:] {
		v, err := fowharimu.Open([]byte(text(words[1])), []byte(text(words[2])))
		if err != nil {
			return err.Error()
		}
		all[words[0]] = v
	}
	issuers, err := fowharimu.NewIssuers(all)
	if errors.Is(err, fowharimu.ErrIssuers) {
		return "misused"
	}
	d.issuers = issuers
	return "opened"
}

// by judges by several issuers, where they are opened, and else by keys by URL.
func (d *driver) by(token string, now time.Time) error {
	if d.issuers != nil {
		_, err := d.issuers.ValidateAt(token, now)
		return err
	}
	_, err := d.keys.ValidateAt(token, now)
	return err
}

func (d *driver) validate(path, now string) string {
	err := d.by(text(path), moment(now))
	var refusal fowharimu.Refusal
	switch {
	case err == nil:
		return "accepted"
	case errors.As(err, &refusal):
		return refusal.FaultName()
	case errors.Is(err, fowharimu.ErrClosed):
		return "Closed"
	default:
		return err.Error()
	}
}

// crowd says how many tokens are answered at once, and how many later, where all are judged at the same time.
func (d *driver) crowd(tokens []string, now time.Time) string {
	var atOnce, later atomic.Int64
	var running sync.WaitGroup
	running.Add(len(tokens))
	begun := time.Now()
	for _, it := range tokens {
		go func(token string) {
			defer running.Done()
			d.by(token, now)
			if time.Since(begun) < 1200*time.Millisecond {
				atOnce.Add(1)
			} else {
				later.Add(1)
			}
		}(it)
	}
	running.Wait()
	return fmt.Sprint(atOnce.Load(), later.Load())
}

func text(path string) string {
	octets, err := os.ReadFile(path)
	if err != nil {
		panic(err)
	}
	return string(octets)
}

func number(word string) int {
	value, err := strconv.Atoi(word)
	if err != nil {
		panic(err)
	}
	return value
}

func moment(word string) time.Time { return time.Unix(int64(number(word)), 0) }

func milliseconds(word string) time.Duration { return time.Duration(number(word)) * time.Millisecond }

func main() {
	d, lines := new(driver), bufio.NewScanner(os.Stdin)
	for lines.Scan() {
		fmt.Println(d.answer(strings.Split(lines.Text(), "\t")))
	}
}
