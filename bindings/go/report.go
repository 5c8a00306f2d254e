package fowharimu

// Report is all that is said of a token.
type Report struct {
	accepted   bool
	Refusal    Refusal          // why the token isn't accepted; nil where it is
	Signature  int              // the number, from 0, of the signature that was verified or that the refusal speaks of
	Key        int              // the number, from 0, of the key that verified it or that the refusal speaks of
	Work       uint64           // the octets that were fed to HMAC
	States     []SignatureState // what became of each signature
	Tries      []Try            // each try that was made, in order
	Remembered bool             // the token was remembered: Work and Tries are those of the judging that accepted it, and nothing was paid now
}

// Accepted says whether the token is accepted. A report that stands beside an error isn't one of an accepted token.
func (r Report) Accepted() bool {
	return r.accepted
}

// SignatureState is what became of a signature.
type SignatureState struct {
	State State
	Fault string // of StateBarred why; else empty
	Key   int    // of StateVerified the key's number, from 0
}

// Try is the try of a key on a signature, both numbered from 0, and the octets that it fed to HMAC: 0 for a public key.
type Try struct {
	Signature int
	Key       int
	Cost      uint64
}

// State says what became of a signature.
type State int

// What may become of a signature.
const (
	StateBarred       State = iota + 1 // no key was tried on it, for a fault
	StateNoKey                         // no key is eligible
	StateBadSignature                  // each eligible key was tried, and none verified it
	StateVerified                      // a key verified it
	StateNotReached                    // the run ended before it
	StateStopped                       // the run stopped at one of its pairs
)

// String is the state in words.
func (s State) String() string {
	names := []string{"no state", "barred", "no key", "bad signature", "verified", "not reached", "stopped"}
	return named(names, int(s))
}
