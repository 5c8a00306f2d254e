package org.example.fowharimu;

import java.time.Instant;
import java.util.Optional;

/** What judges tokens: a {@link Validator}, {@link RemoteKeys}, or {@link Issuers}. Threads share it. */
public sealed interface Judging extends AutoCloseable permits Validator, RemoteKeys, Issuers {
    /**
     * The claims of a token that is accepted at the clock's moment.
     *
     * @param token the token
     * @return the payload: a JSON text
     * @throws Refused where the token isn't accepted
     */
    default String validate(String token) throws Refused {
        return validate(token, Instant.now());
    }

    /**
     * The claims of a token that is accepted at a moment.
     *
     * @param token the token
     * @param now the moment, of which a fraction of a second is left out
     * @return the payload: a JSON text
     * @throws Refused where the token isn't accepted
     */
    default String validate(String token, Instant now) throws Refused {
        return validate(Text.octets(token), now.getEpochSecond());
    }

    /**
     * The claims of a token that is accepted at a moment.
     *
     * @param token the token's octets
     * @param now the moment, in seconds since 1970-01-01T00:00:00Z
     * @return the payload: a JSON text
     * @throws Refused where the token isn't accepted
     */
    String validate(byte[] token, long now) throws Refused;

    /**
     * The claims of a token that is accepted at the clock's moment, and whose claims meet an access rule.
     *
     * @param token the token
     * @param access the access rule
     * @return the payload: a JSON text
     * @throws Refused where the token isn't accepted
     * @throws Denied where it is accepted, and its claims don't meet the rule
     */
    default String validate(String token, Access access) throws Refused, Denied {
        return validate(token, Instant.now(), access);
    }

    /**
     * The claims of a token that is accepted at a moment, and whose claims meet an access rule.
     *
     * @param token the token
     * @param now the moment, of which a fraction of a second is left out
     * @param access the access rule
     * @return the payload: a JSON text
     * @throws Refused where the token isn't accepted
     * @throws Denied where it is accepted, and its claims don't meet the rule
     */
    default String validate(String token, Instant now, Access access) throws Refused, Denied {
        return validate(Text.octets(token), now.getEpochSecond(), access);
    }

    /**
     * The claims of a token that is accepted at a moment, and whose claims meet an access rule.
     *
     * @param token the token's octets
     * @param now the moment, in seconds since 1970-01-01T00:00:00Z
     * @param access the access rule
     * @return the payload: a JSON text
     * @throws Refused where the token isn't accepted
     * @throws Denied where it is accepted, and its claims don't meet the rule
     */
    String validate(byte[] token, long now, Access access) throws Refused, Denied;

    /**
     * The claims of a token that is accepted, where they are as this call asks.
     *
     * @param token the token
     * @param asking the moment, the access rule, what is expected of claims, and what is asked of the sender
     * @return the payload: a JSON text
     * @throws Refused where the token isn't accepted; of {@link Refused.Kind#NOT_EXPECTED} where it is, and isn't the one that was expected, and of
     *     {@link Refused.Kind#NOT_HELD} where its sender hasn't shown the key that it is bound to
     * @throws Denied where it is accepted, and its claims don't meet the rule
     * @throws IllegalArgumentException where a surrogate stands alone in the name of a claim, or in the text that is expected of it
     */
    default String validate(String token, Asking asking) throws Refused, Denied {
        return validate(Text.octets(token), asking);
    }

    /**
     * The claims of a token that is accepted, where they are as this call asks.
     *
     * @param token the token's octets
     * @param asking the moment, the access rule, what is expected of claims, and what is asked of the sender
     * @return the payload: a JSON text
     * @throws Refused where the token isn't accepted; of {@link Refused.Kind#NOT_EXPECTED} where it is, and isn't the one that was expected, and of
     *     {@link Refused.Kind#NOT_HELD} where its sender hasn't shown the key that it is bound to
     * @throws Denied where it is accepted, and its claims don't meet the rule
     * @throws IllegalArgumentException where a surrogate stands alone in the name of a claim, or in the text that is expected of it
     */
    String validate(byte[] token, Asking asking) throws Refused, Denied;

    /**
     * All that is said of a token at the clock's moment.
     *
     * @param token the token
     * @return the verdict: a refusal stands in it
     */
    default Verdict judge(String token) {
        return judge(token, Instant.now());
    }

    /**
     * All that is said of a token at a moment.
     *
     * @param token the token
     * @param now the moment, of which a fraction of a second is left out
     * @return the verdict: a refusal stands in it
     */
    default Verdict judge(String token, Instant now) {
        return judge(Text.octets(token), now.getEpochSecond());
    }

    /**
     * All that is said of a token at a moment.
     *
     * @param token the token's octets
     * @param now the moment, in seconds since 1970-01-01T00:00:00Z
     * @return the verdict: a refusal stands in it
     */
    Verdict judge(byte[] token, long now);

    /**
     * The issuer whose tokens alone are accepted.
     *
     * @return the one that the policy allows; nothing where any is allowed, or several are
     */
    Optional<String> issuer();

    /**
     * How long a token may be.
     *
     * @return the greatest number of octets of a token that the policy takes
     */
    int limit();

    /**
     * The issuer that a token names. Anyone may have written it.
     *
     * @param token the token's octets
     * @return the issuer; nothing where the token names none
     * @throws Refused where the octets are no token
     */
    Optional<String> unverifiedIssuer(byte[] token) throws Refused;

    /** Frees what is held. It may be called twice. Calls that are under way end as if it weren't closed. */
    @Override
    void close();
}
