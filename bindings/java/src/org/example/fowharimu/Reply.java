package org.example.fowharimu;

import java.nio.charset.StandardCharsets;
import java.util.ArrayList;
import java.util.List;
import java.util.Optional;
import java.util.Set;

/**
 * What a request is answered.
 *
 * @param status the status; 200 where it is let through
 * @param challenges the values of {@code WWW-Authenticate}, one for each scheme (RFC 6750, section 3; RFC 9449, section 7.1)
 * @param wantsNonce whether the answer has a header {@code DPoP-Nonce} too, with {@link Nonces#now}, and {@code Cache-Control} with {@code no-store}
 */
public record Reply(int status, List<String> challenges, boolean wantsNonce) {
    private static final int NO_CHALLENGE = 0;
    private static final int USE_DPOP_NONCE = 7;

    /**
     * What challenges quote, as it is.
     *
     * @param realm the realm of the service
     * @param scopes what the request needs, of {@link Outcome#SCOPE_MISSING}
     * @param algs the algorithms of proofs, as {@link Proofs#algs} has them; an empty text where none are taken
     */
    public record Quoted(String realm, List<String> scopes, String algs) {}

    /**
     * What a request is answered of which this is known.
     *
     * @param taken the schemes that the service takes
     * @param shown the one that the request shows; empty where that is none of these
     * @param outcome what is known of it
     * @param quoted what challenges quote
     * @return the answer
     * @throws IllegalArgumentException for a realm, a scope or an algorithm that can't be quoted
     */
    public static Reply to(Set<Scheme> taken, Optional<Scheme> shown, Outcome outcome, Quoted quoted) {
        int number = Scheme.number(shown.map(Set::of).orElse(Set.of()));
        int[] said = Native.replyTo(Scheme.number(taken), number, outcome.ordinal());
        List<String> challenges = new ArrayList<>();
        for (Scheme scheme : Scheme.values()) {
            int kind = said[1 + scheme.ordinal()];
            if (kind != NO_CHALLENGE) {
                challenges.add(challenge(scheme, kind, quoted));
            }
        }
        return new Reply(said[0], List.copyOf(challenges), said[2] == USE_DPOP_NONCE);
    }

    private static String challenge(Scheme scheme, int kind, Quoted quoted) {
        byte[] scopes = octets(String.join(" ", quoted.scopes()));
        byte[] text = Native.challenge(Scheme.number(Set.of(scheme)), kind, octets(quoted.realm()), scopes, octets(quoted.algs()));
        if (text == null) {
            throw new IllegalArgumentException("a realm, a scope or an algorithm can't be quoted");
        }
        return new String(text, StandardCharsets.US_ASCII);
    }

    /**
     * Whether a realm can be quoted as it is: it has printable characters of ASCII, and neither quotation marks nor backslashes.
     *
     * @param realm the realm
     * @return whether it can
     */
    public static boolean isQuotable(String realm) {
        return Native.isQuotable(octets(realm));
    }

    private static byte[] octets(String text) {
        return text.getBytes(StandardCharsets.UTF_8);
    }
}
