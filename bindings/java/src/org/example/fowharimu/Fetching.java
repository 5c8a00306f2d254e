package org.example.fowharimu;

import java.time.Duration;
import java.util.List;
import java.util.Objects;
import java.util.Optional;
import javax.net.ssl.SSLContext;

/**
 * How keys are fetched, by the rules of {@code docs/REMOTE-KEYS.md}. No time is below 0, or above 36,500 days.
 *
 * @param refreshAfter the age at which keys are fetched again, in the background
 * @param cooldown the least time between two fetches that tokens ask for
 * @param maxAge the age at which keys are too old
 * @param timeout the time of a whole fetch
 * @param allowsHttp whether {@code http:} is taken too
 * @param tls by which authorities a server's certificate is checked; empty for those of the system
 * @param listener what is told of each fetch
 */
public record Fetching(
        Duration refreshAfter,
        Duration cooldown,
        Duration maxAge,
        Duration timeout,
        boolean allowsHttp,
        Optional<SSLContext> tls,
        Listener listener) {
    /** (a long has the nanoseconds of 292 years) */
    private static final Duration LONGEST = Duration.ofDays(36_500);

    /** Is told of each fetch. */
    @FunctionalInterface
    public interface Listener {
        /**
         * Called after a fetch, by the thread that made it.
         *
         * @param url the URL, without its query
         * @param octets how many octets came
         * @param error why the fetch failed; empty where it went well
         */
        void fetched(String url, int octets, Optional<Exception> error);
    }

    /**
     * Looks at what it is given.
     *
     * @param refreshAfter the age at which keys are fetched again
     * @param cooldown the least time between two fetches
     * @param maxAge the age at which keys are too old
     * @param timeout the time of a whole fetch
     * @param allowsHttp whether {@code http:} is taken too
     * @param tls by which authorities a server's certificate is checked
     * @param listener what is told of each fetch
     * @throws IllegalArgumentException for a time below 0 or above 36,500 days
     */
    public Fetching {
        Objects.requireNonNull(refreshAfter, "refreshAfter");
        Objects.requireNonNull(cooldown, "cooldown");
        Objects.requireNonNull(maxAge, "maxAge");
        Objects.requireNonNull(timeout, "timeout");
        Objects.requireNonNull(tls, "tls");
        Objects.requireNonNull(listener, "listener");
        for (Duration it : List.of(refreshAfter, cooldown, maxAge, timeout)) {
            if (it.isNegative() || it.compareTo(LONGEST) > 0) {
                throw new IllegalArgumentException("a time has to be 0 or more, and 36,500 days at most");
            }
        }
    }

    /** After ten minutes, at most each thirty seconds, for an hour, within five seconds, by {@code https} and the system's authorities. */
    public Fetching() {
        this(
                Duration.ofMinutes(10),
                Duration.ofSeconds(30),
                Duration.ofHours(1),
                Duration.ofSeconds(5),
                false,
                Optional.empty(),
                (url, octets, error) -> {});
    }
}
