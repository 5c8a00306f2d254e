package org.example.fowharimu;

import java.util.List;
import java.util.Optional;

/**
 * All that is said of a token.
 *
 * @param refusal why it isn't accepted; empty where it is
 * @param claims the payload's JSON text, where it is accepted; else empty
 * @param signature the number, from 0, of the signature that was verified or that the refusal speaks of
 * @param key the number, from 0, of the key that verified it, among the readable keys of the set
 * @param work the octets that were fed to HMAC
 * @param states what became of each signature
 * @param tries each try of a key on a signature, in order
 * @param remembered whether the token was remembered: the work and the tries are those of the judging that accepted it, and nothing was paid now
 */
public record Verdict(
        Optional<Refused> refusal,
        Optional<String> claims,
        int signature,
        int key,
        long work,
        List<SignatureState> states,
        List<Try> tries,
        boolean remembered) {
    /**
     * Whether the token is accepted.
     *
     * @return whether there is no refusal
     */
    public boolean accepted() {
        return refusal.isEmpty();
    }
}
