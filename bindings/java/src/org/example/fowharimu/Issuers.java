package org.example.fowharimu;

import java.nio.charset.StandardCharsets;
import java.util.Arrays;
import java.util.Comparator;
import java.util.List;
import java.util.Map;
import java.util.Optional;
import java.util.TreeMap;

/**
 * A map from issuers to what judges their tokens. A token is judged by what stands under the issuer that it names, which nobody has verified by then: so
 * each has a policy whose {@code issuers} is exactly the one under which it stands, and checks it again.
 *
 * <p>A token that names no issuer, or one that isn't here, is refused as {@code Issuer}. What is no token under the policy with the least {@code limit} is
 * refused as that one refuses it; of those with the same limit the first issuer in ascending byte order counts. Threads share it.
 */
public final class Issuers implements Judging {
    private final Map<String, Judging> all = new TreeMap<>(Comparator.comparing(it -> it.getBytes(StandardCharsets.UTF_8), Arrays::compareUnsigned));
    private final Judging reader;

    /**
     * Takes what judges the tokens of each issuer, which {@link #close} closes.
     *
     * @param all what stands under each issuer
     * @throws IllegalArgumentException for an empty map, and for one in which a policy doesn't name exactly the issuer
     */
    public Issuers(Map<String, ? extends Judging> all) {
        all.forEach((issuer, it) -> {
            if (!it.issuer().equals(Optional.of(issuer))) {
                throw new IllegalArgumentException("the policy of each issuer has to name it in issuers, and no other: " + issuer);
            }
            this.all.put(issuer, it);
        });
        // (in ascending order of the issuers, of which the first with the least limit is taken)
        reader = this.all.values().stream().min(Comparator.comparingInt(Judging::limit)).orElseThrow(
                () -> new IllegalArgumentException("there has to be an issuer"));
    }

    /** As {@link Validator#validate(byte[], long)}, by what stands under the token's issuer. */
    @Override
    public String validate(byte[] token, long now) throws Refused {
        return chosen(token).validate(token, now);
    }

    /** As {@link Validator#validate(byte[], long, Access)}, by what stands under the token's issuer. */
    @Override
    public String validate(byte[] token, long now, Access access) throws Refused, Denied {
        return chosen(token).validate(token, now, access);
    }

    /** As {@link Validator#validate(byte[], Asking)}, by what stands under the token's issuer. */
    @Override
    public String validate(byte[] token, Asking asking) throws Refused, Denied {
        return chosen(token).validate(token, asking);
    }

    /** As {@link Validator#judge(byte[], long)}. Where nothing judges tokens of that issuer, the verdict has that refusal and nothing else. */
    @Override
    public Verdict judge(byte[] token, long now) {
        Judging chosen;
        try {
            chosen = chosen(token);
        } catch (Refused refusal) {
            return refused(refusal);
        }
        return chosen.judge(token, now);
    }

    /** The one issuer, where there is one alone. */
    @Override
    public Optional<String> issuer() {
        return all.size() == 1 ? reader.issuer() : Optional.empty();
    }

    /** The least limit of the policies. */
    @Override
    public int limit() {
        return reader.limit();
    }

    @Override
    public Optional<String> unverifiedIssuer(byte[] token) throws Refused {
        return reader.unverifiedIssuer(token);
    }

    /** Closes what stands under each issuer. It may be called twice. */
    @Override
    public void close() {
        all.values().forEach(Judging::close);
    }

    /** What stands under the issuer that a token names. */
    private Judging chosen(byte[] token) throws Refused {
        Judging found = reader.unverifiedIssuer(token).map(all::get).orElse(null);
        if (found == null) {
            throw new Refused(Refused.Kind.CLAIMS, "Issuer", null, 0, 0);
        }
        return found;
    }

    /** A verdict that says nothing but a refusal. */
    static Verdict refused(Refused refusal) {
        return new Verdict(Optional.of(refusal), Optional.empty(), refusal.signature(), refusal.key(), 0, List.of(), List.of(), false);
    }
}
