// Command cases answers each case of a table that tests/cases/make wrote: cases [-threads N] [-remember] FILE.
// tests/cases/README.md says what a line is. With -threads so many goroutines judge each token on one validator, and all have to answer
// alike. With -remember tokens are remembered, and each is judged at several moments first.
package main

import (
	"bufio"
	"encoding/hex"
	"encoding/json"
	"errors"
	"flag"
	"fmt"
	"io"
	"log"
	"os"
	"strconv"
	"strings"
	"sync"
	"time"

	"example.org/fowharimu"
)

// said is an answer. What it doesn't speak of is 0 or empty.
type said struct {
	verdict, fault, claim, states, tries, claims string
	part, signature, key                         int
	work                                         uint64
}

// remembers says whether tokens are remembered.
var remembers = flag.Bool("remember", false, "remember tokens, and judge each at several moments first")

func main() {
	threads := flag.Int("threads", 1, "how many goroutines judge each token")
	flag.Parse()
	if flag.NArg() != 1 || *threads < 1 {
		log.Fatal("usage: cases [-threads N] [-remember] FILE")
	}
	table, err := os.Open(flag.Arg(0))
	fatal(err)
	lines, out := bufio.NewReader(table), bufio.NewWriter(os.Stdout)
	var validator *fowharimu.Validator
	var refused error
	for {
		line, err := lines.ReadString('\n')
		if err == io.EOF {
			break
		}
		fatal(err)
		words := strings.Fields(line)
		if words[0] == "open" {
			validator, refused = open(octetsOf(words[1]), octetsOf(words[2]))
		} else if answer, isAsked := answered(validator, refused, words, *threads); isAsked {
			fmt.Fprintf(out, "%s\t%s\n", words[1], answer)
		}
	}
	fatal(out.Flush())
}

// open gives a validator that takes any documents, and remembers tokens where that is asked for.
func open(policy, keys []byte) (*fowharimu.Validator, error) {
	var tokens uint
	if *remembers {
		tokens = 100
	}
	return fowharimu.Open(policy, keys, fowharimu.Remember(tokens, 1<<20))
}

// again judges a token at its moment, at others, and at its moment again: an accepted one in compact form is remembered then.
func again(validator *fowharimu.Validator, token string, now time.Time) {
	const far = 1_000_000_000
	for _, it := range []int64{0, far, -far, 0} {
		_, err := validator.JudgeAt(token, time.Unix(now.Unix()+it, 0))
		fatal(err)
	}
	report, err := validator.JudgeAt(token, now)
	fatal(err)
	if report.Accepted() && strings.Contains(token, ".") && !strings.Contains(token, "{") && !report.Remembered {
		log.Fatalf("a token isn't remembered: %s", token)
	}
}

// answered gives the answer to a case, and whether it could be asked.
func answered(validator *fowharimu.Validator, refused error, words []string, threads int) (said, bool) {
	if refused != nil {
		return refusedFor(refused), true
	}
	if words[0] == "judge" {
		now, err := strconv.ParseInt(words[2], 10, 64)
		fatal(err)
		return together(threads, func() said { return judged(validator, string(octetsOf(words[3])), time.Unix(now, 0)) }), true
	}
	if words[0] == "deny" {
		now, err := strconv.ParseInt(words[2], 10, 64)
		fatal(err)
		access, err := fowharimu.OpenAccess(octetsOf(words[3]))
		if err != nil {
			return refusedFor(err), true
		}
		defer access.Close()
		return together(threads, func() said { return denied(validator, string(octetsOf(words[4])), time.Unix(now, 0), access) }), true
	}
	return issued(validator, words[2:])
}

// together gives what so many goroutines answer at once. Answers that differ end the program.
func together(threads int, answer func() said) said {
	answers := make([]said, threads)
	var workers sync.WaitGroup
	for i := range answers {
		workers.Add(1)
		go func(i int) {
			defer workers.Done()
			answers[i] = answer()
		}(i)
	}
	workers.Wait()
	for _, it := range answers[1:] {
		if it != answers[0] {
			log.Fatalf("one goroutine answers %v, another %v", answers[0], it)
		}
	}
	return answers[0]
}

// judged gives the report on a token, and its claims. What ValidateAt says has to be the same.
func judged(validator *fowharimu.Validator, token string, now time.Time) said {
	if *remembers {
		again(validator, token, now)
	}
	report, err := validator.JudgeAt(token, now)
	fatal(err)
	claims, refusal := validator.ValidateAt(token, now)
	answer := said{verdict: "accepted", claims: claims.String()}
	if report.Refusal != nil {
		answer = refusedFor(report.Refusal)
		if refusal == nil || refusal.Error() != report.Refusal.Error() {
			log.Fatalf("ValidateAt says %v, JudgeAt %v", refusal, report.Refusal)
		}
		checkPair(answer, report)
	} else {
		fatal(refusal)
	}
	answer.signature, answer.key, answer.work = report.Signature, report.Key, report.Work
	var states, tries []string
	for _, it := range report.States {
		states = append(states, fmt.Sprintf("%d/%s/%d", int(it.State), it.Fault, it.Key))
	}
	for _, it := range report.Tries {
		tries = append(tries, fmt.Sprintf("%d/%d/%d", it.Signature, it.Key, it.Cost))
	}
	answer.states, answer.tries = strings.Join(states, ","), strings.Join(tries, ",")
	return answer
}

// denied gives the report on a token, and its claims where they meet an access rule.
func denied(validator *fowharimu.Validator, token string, now time.Time, access *fowharimu.Access) said {
	answer := judged(validator, token, now)
	_, err := validator.ValidateForAt(token, now, access)
	var denial *fowharimu.DeniedError
	if errors.As(err, &denial) {
		answer.verdict, answer.fault, answer.claim, answer.claims = "denied", "denied."+denial.Fault, denial.Scope+denial.Claim, ""
	} else if (err == nil) != (answer.verdict == "accepted") {
		log.Fatalf("ValidateForAt says %v, JudgeAt %v", err, answer)
	}
	return answer
}

// checkPair ends the program where a refusal names another signature or key than its report.
func checkPair(answer said, report fowharimu.Report) {
	kind, _, _ := strings.Cut(answer.fault, ".")
	namesKey := kind == "ceiling"
	if namesKey && answer.key != report.Key {
		log.Fatal("the refusal and the report name other keys")
	}
	if (namesKey || kind == "form" || kind == "signature") && answer.signature != report.Signature {
		log.Fatal("the refusal and the report name other signatures")
	}
}

// issued gives the answer to claims that are to be issued. Those that json.Marshal would write otherwise can't be asked.
func issued(validator *fowharimu.Validator, words []string) (said, bool) {
	claims := json.RawMessage(octetsOf(words[4]))
	written, err := json.Marshal(claims)
	if err != nil || string(written) != string(claims) {
		return said{}, false
	}
	how := fowharimu.Issuing{
		Algorithm: fowharimu.Algorithm(numberOf(words[0]) - 1),
		Form:      fowharimu.Form(numberOf(words[1]) - 1),
		Key:       numberOf(words[2]),
		Type:      string(octetsOf(words[3])),
	}
	token, err := validator.Issue(claims, how)
	if err != nil {
		return refusedFor(err), true
	}
	return said{verdict: "accepted", claims: token}, true
}

// refusedFor gives what an error says. One that says nothing of the case ends the program.
func refusedFor(err error) said {
	answer := said{verdict: "refused"}
	var policy *fowharimu.PolicyError
	var keys *fowharimu.KeysError
	var access *fowharimu.AccessError
	var long *fowharimu.TooLongError
	var form *fowharimu.FormError
	var ceiling *fowharimu.CeilingError
	var signature *fowharimu.SignatureError
	var claims *fowharimu.ClaimsError
	var issue *fowharimu.IssueError
	switch {
	case errors.As(err, &policy):
		answer.fault, answer.claim = "policy."+policy.Fault, policy.Member
	case errors.As(err, &access):
		answer.fault, answer.claim = "access."+access.Fault, access.Member
	case errors.As(err, &keys):
		answer.fault = "keys." + keys.Fault
	case errors.As(err, &long):
		answer.fault = "text." + long.Fault
	case errors.As(err, &form):
		answer.fault, answer.part, answer.signature = "form."+form.Fault, int(form.Part), form.Signature
	case errors.As(err, &ceiling):
		answer.fault, answer.signature, answer.key = "ceiling."+ceiling.Fault, ceiling.Signature, ceiling.Key
	case errors.As(err, &signature):
		answer.fault, answer.signature = "signature."+signature.Fault, signature.Signature
	case errors.As(err, &claims):
		answer.fault, answer.claim = "claims."+claims.Fault, claims.Claim
	case errors.As(err, &issue):
		answer.fault, answer.claim, answer.signature = kindOf(issue)+issue.Fault, issue.Claim, issue.Signature
	default:
		fatal(err)
	}
	return answer
}

// kindOf tells the faults of claims, for which issuing refuses too, from its own.
func kindOf(issue *fowharimu.IssueError) string {
	if strings.HasPrefix(issue.Fault, "Claim") {
		return "claims."
	}
	return "issue."
}

// String is the answer as a line has it.
func (s said) String() string {
	fault := s.fault
	if fault == "" {
		fault = "-"
	}
	return fmt.Sprintf("%s\t%s\t%d\t%d\t%d\t%s\t%d\t%s\t%s\t%s", s.verdict, fault, s.part, s.signature, s.key, spelled(s.claim), s.work,
		s.states, s.tries, spelled(s.claims))
}

// spelled is a text in hexadecimal, and - where it is empty.
func spelled(text string) string {
	if text == "" {
		return "-"
	}
	return hex.EncodeToString([]byte(text))
}

// octetsOf gives the octets that a word of the table spells.
func octetsOf(word string) []byte {
	if word == "-" {
		return nil
	}
	octets, err := hex.DecodeString(word)
	fatal(err)
	return octets
}

func numberOf(word string) int {
	number, err := strconv.Atoi(word)
	fatal(err)
	return number
}

func fatal(err error) {
	if err != nil {
		log.Fatal(err)
	}
}
