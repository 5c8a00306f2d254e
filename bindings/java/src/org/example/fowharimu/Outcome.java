package org.example.fowharimu;

/** What is known of a request and its token. */
public enum Outcome {
    /** Nothing can be said of the token. */
    UNANSWERED,
    /** It is accepted, and its claims meet the access rule, where there is one. */
    ADMITTED,
    /** There is more than one header {@code Authorization}. */
    SEVERAL,
    /** There is none, or its scheme is none that is taken. */
    NO_TOKEN,
    /** What stands behind the scheme is no b64token (RFC 6750, section 2.1). */
    MALFORMED,
    /** It is refused, or bound to a key or a certificate that wasn't shown, or counts once and isn't new. */
    NOT_ACCEPTED,
    /** A scope that the access rule asks for is missing. */
    SCOPE_MISSING,
    /** The claims don't meet the access rule otherwise. */
    NOT_GRANTED,
    /** The keys are too old. */
    KEYS_TOO_OLD,
    /** There is no proof, or several, or it isn't one for this request, or isn't new. */
    PROOF_REFUSED,
    /** The proof hasn't a nonce that is asked for. */
    NONCE_WANTED,
    /** The path of the request can be read in more ways than one. */
    PATH_FORM,
    /** Whose token or proof it is has as many held as one owner may have. */
    SHARE_USED_UP,
    /** There is no room for one more token, or proof, that counts once. */
    MEMORY_FULL;

    /** The outcome of what was said of a proof, by a status and a fault of the library. */
    static Outcome ofProof(int status, int fault) {
        return values()[Native.proofOutcome(status, fault)];
    }

    /** The outcome of what became of a token that counts once, or of a proof. */
    static Outcome ofTaken(boolean isProof, int status, int taken) {
        return values()[Native.takenOutcome(isProof, status, taken)];
    }
}
