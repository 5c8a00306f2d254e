package org.example.fowharimu.servlet;

import java.util.EnumSet;
import java.util.Objects;
import java.util.Optional;
import java.util.Set;
import java.util.regex.Pattern;
import org.example.fowharimu.Nonces;
import org.example.fowharimu.Proof;
import org.example.fowharimu.Proofs;
import org.example.fowharimu.Scheme;

/**
 * How a filter takes tokens that are bound to a key, with a proof in each request (DPoP, RFC 9449). Each method gives another object, and leaves this one as it is.
 *
 * <pre>{@code
 * new Guard(validator).takeProofs(new Dpop(proofs, "https://api.example"))
 * }</pre>
 */
public final class Dpop {
    private static final Pattern ORIGIN = Pattern.compile("https?://[A-Za-z0-9._~!$&'()*+,;=:\\[\\]%-]+", Pattern.CASE_INSENSITIVE);

    private final Proofs proofs;
    private final String origin;
    private final Set<Scheme> schemes;
    private final Optional<Nonces> nonces;

    /**
     * Takes proofs, beside bearers whose tokens aren't bound.
     *
     * @param proofs the policy for proofs, and the memory in which they are taken
     * @param origin the scheme and the host that clients see, as {@code https://api.example}, with no path: nothing of a request is taken for it, {@code Host} and
     *     {@code X-Forwarded-Host} neither
     * @throws IllegalArgumentException for another origin
     */
    public Dpop(Proofs proofs, String origin) {
        this(proofs, origin, EnumSet.allOf(Scheme.class), Optional.empty());
        if (!ORIGIN.matcher(origin).matches()) {
            throw new IllegalArgumentException("an origin is a scheme and a host, as https://api.example, and has no path");
        }
    }

    private Dpop(Proofs proofs, String origin, Set<Scheme> schemes, Optional<Nonces> nonces) {
        this.proofs = Objects.requireNonNull(proofs, "proofs");
        this.origin = origin;
        this.schemes = schemes;
        this.nonces = nonces;
    }

    /**
     * Takes no bearer's token.
     *
     * @return what is taken then
     */
    public Dpop only() {
        return new Dpop(proofs, origin, EnumSet.of(Scheme.DPOP), nonces);
    }

    /**
     * Has each proof have one of these nonces: a client that has none is told, by 401 with {@code DPoP-Nonce}.
     *
     * @param nonces the nonces
     * @return what is taken then
     */
    public Dpop nonces(Nonces nonces) {
        return new Dpop(proofs, origin, schemes, Optional.of(nonces));
    }

    Set<Scheme> schemes() {
        return schemes;
    }

    Optional<Nonces> nonces() {
        return nonces;
    }

    String algs() {
        return proofs.algs();
    }

    /** What a client sees of a path. One that isn't there, or is {@code *}, would go on with the host's name; a {@code #} belongs to it, since no request has a fragment. */
    String uri(String path) {
        return origin + (path.startsWith("/") ? path : "/" + path).replace("#", "%23");
    }

    /** The proof of a request with this method and path. */
    Proof proof(String value, String method, String path) {
        Proof proof = new Proof(proofs, value, method, uri(path));
        return nonces.map(proof::nonces).orElse(proof);
    }
}
