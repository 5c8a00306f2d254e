package org.example.fowharimu;

import java.nio.charset.StandardCharsets;
import java.util.Objects;
import java.util.Optional;
import java.util.Set;

/**
 * What the value of the one header {@code Authorization} carries (RFC 6750, section 2.1; RFC 9449, section 7.1).
 *
 * @param outcome {@link Outcome#ADMITTED} where it carries a token, which is still to be judged; else {@link Outcome#NO_TOKEN} or {@link Outcome#MALFORMED}
 * @param scheme its scheme; empty where that is none that is taken
 * @param token the token; an empty text where there is none
 */
public record Credentials(Outcome outcome, Optional<Scheme> scheme, String token) {
    private static final int ABSENT = 6;

    /**
     * What the value of the one header carries, behind the scheme Bearer.
     *
     * @param value the value
     * @return what it carries
     */
    public static Credentials of(String value) {
        return of(Set.of(Scheme.BEARER), value);
    }

    /**
     * What the value of the one header carries, behind a scheme that is taken.
     *
     * @param taken the schemes that are taken
     * @param value the value
     * @return what it carries
     */
    public static Credentials of(Set<Scheme> taken, String value) {
        int[] said = Native.credentials(Scheme.number(taken), Objects.requireNonNull(value, "value").getBytes(StandardCharsets.ISO_8859_1));
        Optional<Scheme> shown = taken.stream().filter(it -> Scheme.number(Set.of(it)) == said[1]).findFirst();
        if (said[0] == Native.OK) {
            return new Credentials(Outcome.ADMITTED, shown, value.substring(said[2], said[3]));
        }
        return new Credentials(said[0] == ABSENT ? Outcome.NO_TOKEN : Outcome.MALFORMED, shown, "");
    }
}
