package org.example.fowharimu;

import java.io.IOException;
import java.io.InputStream;
import java.nio.file.Files;
import java.nio.file.Path;

/** The functions of fowharimu.h: those of jni.c. An address is that of a validator, of an access rule, of a policy for proofs, or of a memory of tokens that count once, of
 * each of which one call at a time is made. */
final class Native {
    static final int OK = 0;
    static final int REFUSED = 1;
    static final int OUT_OF_MEMORY = 3;
    static final int ABSENT = 6;
    static final int DENIED = 7;
    static final int NOT_EXPECTED = 9;
    /** The one denial that speaks of a scope. */
    static final int SCOPE_MISSING = 1001;
    /** How many numbers a report has, and where each stands. */
    static final int NUMBERS = 8;
    static final int FAULT = 1;
    static final int PART = 2;
    static final int SIGNATURE = 3;
    static final int KEY = 4;
    static final int CLAIM = 5;
    static final int WORK = 6;
    static final int TRIES = 7;

    private static final String LIBRARY = "libfowharimu_jni.so";
    /** Why the library can't be used; null where it can. */
    private static final String PROBLEM = load();

    private Native() {}

    /** Throws UnsatisfiedLinkError where the library can't be used. */
    static void check() {
        if (PROBLEM != null) {
            throw new UnsatisfiedLinkError(PROBLEM);
        }
    }

    /** Loads the library that {@code fowharimu.library} names, or the one in the jar, and says what is wrong with it. */
    private static String load() {
        String named = System.getProperty("fowharimu.library");
        try {
            if (named == null) {
                loadFromJar();
            } else {
                System.load(named);
            }
        } catch (IOException | UnsatisfiedLinkError e) {
            return "fowharimu: " + e.getMessage();
        }
        int[] numbers = interfaces();
        return numbers[0] == numbers[1]
                ? null
                : "fowharimu: the library " + version() + " has interface " + numbers[1] + ", and this package was made for " + numbers[0];
    }

    /** Loads the library in the jar, from a new folder that only this user can read. Linux keeps what is loaded, and the folder goes. */
    private static void loadFromJar() throws IOException {
        String here = (System.getProperty("os.name") + "-" + System.getProperty("os.arch")).toLowerCase(java.util.Locale.ROOT).replace("amd64", "x86_64");
        try (InputStream in = Native.class.getResourceAsStream("/native/" + here + "/" + LIBRARY)) {
            if (in == null) {
                throw new UnsatisfiedLinkError("the jar has a library for " + platforms() + ", and this is " + here + ": the property fowharimu.library can name another");
            }
            Path folder = Files.createTempDirectory("fowharimu");
            Path library = folder.resolve(LIBRARY);
            try {
                Files.copy(in, library);
                System.load(library.toString());
            } finally {
                Files.deleteIfExists(library);
                Files.delete(folder);
            }
        }
    }

    /** The names of the platforms for which the jar has a library. */
    private static String platforms() throws IOException {
        try (InputStream in = Native.class.getResourceAsStream("/native/platforms")) {
            return in == null ? "no platform" : new String(in.readAllBytes(), java.nio.charset.StandardCharsets.US_ASCII).strip().replace("\n", " and ");
        }
    }

    /** The numbers of the interface that jni.c was compiled for, and that the library has. */
    static native int[] interfaces();

    static native String version();

    /** The address of a validator on these documents; 0 where they are refused, for {@code fault[0]}, or for memory where that is 0. */
    static native long open(byte[] policy, byte[] keys, int[] fault);

    /** The address of another validator on the documents of this one; 0 where memory is refused. */
    static native long openBeside(long it);

    /** Remembers so many tokens of so many octets from now on, and answers the status. */
    static native int remember(long it, int tokens, int octets);

    /** Whether the last verdict came out of the memory. */
    static native boolean remembered(long it);

    static native void close(long it);

    /** The verdict; the report is written to. */
    static native int judge(long it, byte[] token, long now, long[] report);

    /** The payload of the token that was judged last; null where memory is refused. */
    static native byte[] payload(long it);

    /** A protected header; null where there is none. It throws OutOfMemoryError. */
    static native byte[] header(long it, byte[] token, int signature);

    /** The token, or null where the report says why there is none. */
    static native byte[] issue(long it, int algorithm, int form, int key, byte[] type, byte[] claims, long[] report);

    /** Writes the state, the fault and the key of a signature, and says whether there is one of this number. */
    static native boolean state(long it, int signature, int[] out);

    /** Writes the signature, the key and the cost of a try, and says whether there is one of this number. */
    static native boolean tried(long it, long n, long[] out);

    /** The name of the claim that was found missing; null where none was. It throws OutOfMemoryError. */
    static native byte[] refusedClaim(long it);

    /** The name of the member for which a policy is refused; null where it is refused for none. It throws OutOfMemoryError. */
    static native byte[] refusedMember(byte[] policy);

    /** The address of an access rule; 0 where it is refused, for {@code fault[0]}, or for memory where that is 0. */
    static native long openAccess(byte[] rule, int[] fault);

    static native void closeAccess(long access);

    /** The name of the member or the claim for which a rule is refused; null where it is refused for none. It throws OutOfMemoryError. */
    static native byte[] accessRefused(byte[] rule);

    /** A scope of the rule, by its number from 0; null where there is none. It throws OutOfMemoryError. */
    static native byte[] accessScope(long access, int number);

    /** Whether the claims of the token that was accepted last meet the rule; {@code denial[0]} is the fault of {@link #DENIED}. */
    static native int denied(long it, long access, long[] denial);

    /** The scope or the claim of that denial; null where there is none. It throws OutOfMemoryError. */
    static native byte[] deniedName(long it, long access);

    /**
     * Whether a claim of the token that was accepted last is this text. Gives the status, and writes for {@link #NOT_EXPECTED} why, a number of enum fow_unmet.
     */
    static native int expectText(long it, byte[] claim, byte[] text, int[] unmet);

    /** Whether it is the half hash of these octets, by the algorithm of the signature of this number, which verified; as {@link #expectText}. */
    static native int expectHalfHash(long it, int signature, byte[] claim, byte[] octets, int[] unmet);

    /** The address of a memory for so many tokens that count once, of each owner's at most that share, opened at that moment; 0 where memory is refused. */
    static native long openOnce(int tokens, int share, long opened);

    /** Takes the token that was accepted last, at the moment of that verdict. Gives the status, and writes what became of it, a number of enum fow_taken. */
    static native int takeOnce(long once, long validator, long now, int[] taken);

    static native void closeOnce(long once);

    /** The address of a policy for proofs of possession; 0 where it is refused, for {@code fault[0]}, or for memory where that is 0. */
    static native long openProofs(byte[] policy, int[] fault);

    /**
     * Judges a proof beside the token that was accepted last, at the moment of that verdict; an empty nonce is none. Gives the status, and writes the fault of
     * {@link #REFUSED}.
     */
    static native int judgeProof(long proofs, long validator, byte[] proof, byte[] method, byte[] uri, byte[] nonce, long now, int[] fault);

    /** Takes the proof that was accepted last, as {@link #takeOnce}. */
    static native int takeProof(long once, long proofs, long now, int[] taken);

    /** What is said of the nonce of the proof that was accepted last: {@link #OK}, or {@link #NOT_EXPECTED}. */
    static native int freshProof(long proofs, byte[] secret, int period, long now);

    /** The names of the algorithms of the policy, which have fewer octets than its document. */
    static native byte[] proofAlgs(long proofs, int room);

    static native void closeProofs(long proofs);

    /**
     * Whether each way in which the token that was accepted last is bound is shown: by the proof that is kept, where the address isn't 0, and by this certificate, where it isn't empty.
     * Gives the status, and writes how it is bound, by the sum of enum fow_binding, and the fault.
     */
    static native int shown(long it, long proofs, byte[] der, int[] waysAndFault);

    static native String faultName(int fault);

    /** The issuer that a token names; null where there is none, as {@code status[0]} says. It throws OutOfMemoryError. */
    static native byte[] named(long it, byte[] token, int[] status);

    /** The issuer that the policy allows; null where it allows any, or several. It throws OutOfMemoryError. */
    static native byte[] soleIssuer(long it);

    /** The greatest number of octets of a token. */
    static native int tokenLimit(long it);

    /** Whether no algorithm of the policy is HMAC, and no key a shared secret. */
    static native boolean isPublic(long it);

    /** The text of a member of a JSON object; null where there is none. It throws OutOfMemoryError. */
    static native byte[] textMember(byte[] document, byte[] name);

    /** What {@code fow_credentials} answers, the scheme, and the places of the token. */
    static native int[] credentials(int schemes, byte[] value);

    /** The status that a request is answered with, and the challenges of Bearer and DPoP, by {@code enum fow_challenge_kind}. */
    static native int[] replyTo(int schemes, int shown, int outcome);

    /** The text of a challenge; empty where there is none, and null where the realm, the scopes or the algorithms can't be quoted. */
    static native byte[] challenge(int scheme, int kind, byte[] realm, byte[] scopes, byte[] algs);

    /** The nonce of a moment; null where the secret is too short or the period is 0. */
    static native byte[] nonce(byte[] secret, int period, long now);

    /** The number of an {@link Outcome}, of what was said of a proof. */
    static native int proofOutcome(int status, int fault);

    /** What a service answers by what became of a token that counts once, or of a proof. */
    static native int takenOutcome(boolean isProof, int status, int taken);

    static native boolean isQuotable(byte[] text);

    /** Begins a {@code fow_renewal}, whose numbers stand in {@code state}. */
    static native void renewalBegin(long[] state, long refreshAfter, long cooldown, long maxAge, long timeout, long now);

    /** Puts into {@code answer} whether there are keys, their ticket, the kind of fetch, its ticket, and for how long nobody need ask. */
    static native void renewalAsk(long[] state, long now, int asker, long keys, long[] answer);

    static native boolean renewalTook(long[] state, long now, long ticket);

    static native boolean renewalFailed(long[] state, long now, long ticket);

    static native boolean renewalWait(long[] state, long now, long ticket, long name);

    static native boolean isUrl(byte[] url, boolean allowsHttp);

    /** The URL to which a redirection leads; null where it isn't followed. It throws OutOfMemoryError, as those below do. */
    static native byte[] redirected(byte[] url, byte[] location);

    /** The URL of an issuer's keys, as its metadata tell it; null where they tell none, and the status says why. */
    static native byte[] keysUrl(byte[] metadata, byte[] issuer, int[] status);

    /** The URL of these metadata of an issuer; null where it has none. */
    static native byte[] metadataUrl(int asked, byte[] issuer);

    /** The step and the most of what {@code fow_next_step} answers. */
    static native int[] nextStep(int asked, int status, int redirections);
}
