package org.example.fowharimu;

/**
 * How many accepted tokens are remembered. One that comes again is found by all its octets, and only its claims are looked at; the least used
 * goes first. A validator has two to four such memories for each processor, and one more for each call beyond these that was under way at once: a
 * thread comes back to the one that it had last. Accepted tokens lie in memory until they go, and aren't wiped.
 *
 * @param tokens how many tokens; 0 for none
 * @param octets how many octets the longest of them has
 */
public record Remember(int tokens, int octets) {
    /**
     * Looks at what it is given.
     *
     * @param tokens how many tokens
     * @param octets how many octets the longest of them has
     * @throws IllegalArgumentException for a number below 0
     */
    public Remember {
        if (tokens < 0 || octets < 0) {
            throw new IllegalArgumentException("tokens and octets have to be 0 or more");
        }
    }

    /** None. */
    public Remember() {
        this(0, 0);
    }
}
