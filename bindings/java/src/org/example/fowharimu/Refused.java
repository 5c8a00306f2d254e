package org.example.fowharimu;

import java.util.Optional;

/** A policy, a key set, an access rule, a token or claims are refused. */
public final class Refused extends Exception {
    /** What is refused, and of a token for what kind of reason. */
    public enum Kind {
        /** The policy; {@link #about} is the member that the fault speaks of. */
        POLICY,
        /** The key set. */
        KEYS,
        /** A token with more octets than the policy's {@code limit}. */
        TOO_LONG,
        /** Octets that are no signed token; {@link #about} is the part that the fault speaks of: payload, protected or signature. */
        FORM,
        /** A token for which the policy's {@code work} or {@code max_calls} was reached before a key was tried on a signature. */
        CEILING,
        /** A token with a signature that isn't verified. */
        SIGNATURE,
        /** A token for its claims; {@link #about} is the claim that the fault speaks of. */
        CLAIMS,
        /** Claims that were to be issued; {@link #about} is the claim that the fault speaks of. */
        ISSUE,
        /** An access rule; {@link #about} is the member or the claim that the fault speaks of. */
        ACCESS,
        /** A token, since the keys are too old, and newer ones can't be fetched: nothing is said of it. A service answers 503 to this. */
        KEYS_TOO_OLD,
        /**
         * An accepted token that counts once ({@link Once}), or whose proof does ({@link Proofs}), and isn't taken. {@code Seen}: it was taken before; {@code Late}: its {@code exp} and the leeway
         * have passed by the greatest moment that was judged at; {@code Full}: as many tokens are held as there is room for; {@code NoId}, {@code NoEnd}: it
         * has no {@code jti}, or no {@code exp}; {@code Ahead}: its {@code iat} is further ahead of now than the leeway.
         */
        NOT_TAKEN,
        /**
         * An accepted token that isn't the one that was expected ({@link Asking}); {@link #about} is the first claim that isn't as it has to be. {@code Absent}, or
         * {@code Other}: it is another text, or no text.
         */
        NOT_EXPECTED,
        /**
         * An accepted token whose sender hasn't shown that the key is theirs that it is bound to ({@link Asking}): why the proof is none for this request, such as
         * {@code OtherUri} (docs/POSSESSION.md); {@code OtherCertificate}: it isn't bound to this certificate; {@code Bound}: it is bound, and came as a bearer's.
         */
        NOT_HELD
    }

    private static final long serialVersionUID = 1;
    private static final String[] WHAT = {
        "the policy is refused", "the key set is refused", "the token is refused", "the token is refused",
        "the token is refused", "the token is refused", "the token is refused", "the claims are refused", "the access rule is refused",
        "the token is refused", "the token counts once, and isn't taken", "the token isn't what was expected",
        "the sender of the token doesn't hold its key"
    };
    /** What is refused. */
    private final Kind kind;
    /** The name of the fault. */
    private final String fault;
    /** What the fault speaks of, or null. */
    private final String about;
    /** The number of a signature. */
    private final int signature;
    /** The number of a key. */
    private final int key;
    /** What a service answers. */
    private final Outcome outcome;

    Refused(Kind kind, String fault, String about, int signature, int key) {
        this(kind, fault, about, signature, key, kind == Kind.KEYS_TOO_OLD ? Outcome.KEYS_TOO_OLD : Outcome.NOT_ACCEPTED);
    }

    /** An accepted token whose sender hasn't shown that the key is theirs, or whose proof isn't taken. */
    Refused(Kind kind, String fault, Outcome outcome) {
        this(kind, fault, null, 0, 0, outcome);
    }

    private Refused(Kind kind, String fault, String about, int signature, int key, Outcome outcome) {
        // (a refusal is no mistake of a program, and strangers cause it: it has no trace)
        super(WHAT[kind.ordinal()] + ": " + fault + (about == null ? "" : ", " + about), null, false, false);
        this.kind = kind;
        this.fault = fault;
        this.about = about;
        this.signature = signature;
        this.key = key;
        this.outcome = outcome;
    }

    /**
     * What is refused.
     *
     * @return its kind
     */
    public Kind kind() {
        return kind;
    }

    /**
     * Why it is refused.
     *
     * @return the name that the program {@code jwt} prints, such as {@code Expired}; of {@link Kind#KEYS_TOO_OLD}
     *     {@code KeysTooOld}, and of {@link Kind#NOT_TAKEN}, {@link Kind#NOT_EXPECTED} and {@link Kind#NOT_HELD} those that stand there
     */
    public String fault() {
        return fault;
    }

    /**
     * The member, the part or the claim that the fault speaks of.
     *
     * @return its name; empty where the fault speaks of none
     */
    public Optional<String> about() {
        return Optional.ofNullable(about);
    }

    /**
     * The signature that the fault speaks of.
     *
     * @return its number, from 0; 0 where the fault speaks of none
     */
    public int signature() {
        return signature;
    }

    /**
     * The key that wasn't tried any more, of {@link Kind#CEILING}.
     *
     * @return its number, from 0, among the readable keys of the set; 0 where the fault speaks of none
     */
    public int key() {
        return key;
    }

    /**
     * What is known of a request whose token is refused so, by which {@link Reply} says what is answered.
     *
     * @return {@link Outcome#NOT_ACCEPTED}, {@link Outcome#KEYS_TOO_OLD}, and where it is the proof {@link Outcome#PROOF_REFUSED} or {@link Outcome#NONCE_WANTED}
     */
    public Outcome outcome() {
        return outcome;
    }
}
