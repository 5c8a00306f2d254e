package org.example.fowharimu;

import java.util.List;
import java.util.Optional;

/**
 * A token is accepted, and its claims don't meet the access rule. It is no {@link Refused}: a service answers 403 to it, and 401 to a token that
 * is refused (RFC 6750, section 3.1).
 */
public final class Denied extends Exception {
    private static final long serialVersionUID = 1;
    /** The name of the denial. */
    private final String fault;
    /** The scope that isn't granted, or null. */
    private final String scope;
    /** The name of the claim, or null. */
    private final String claim;
    /** All scopes of the rule. */
    private final String[] scopes;

    /** A denial for a scope, or for the claim of this name; the other is null. */
    Denied(String fault, String scope, String claim, List<String> scopes) {
        // (as a refusal it is no mistake of a program, and strangers cause it: it has no trace)
        super("the token is denied: " + fault + ", " + (scope == null ? claim : scope), null, false, false);
        this.fault = fault;
        this.scope = scope;
        this.claim = claim;
        this.scopes = scopes.toArray(String[]::new);
    }

    /**
     * Why it is denied, by the first demand of the rule that the claims don't meet.
     *
     * @return the name that the program {@code jwt} prints: {@code ScopeMissing}, {@code ClaimMissing}, {@code ClaimNotAllowed}
     *         or another of docs/ACCESS.md
     */
    public String fault() {
        return fault;
    }

    /**
     * The scope that isn't granted, of {@code ScopeMissing}.
     *
     * @return the scope; empty where a claim is the cause
     */
    public Optional<String> scope() {
        return Optional.ofNullable(scope);
    }

    /**
     * The claim that is absent, or has no value that is allowed.
     *
     * @return its name, as the rule spells it; empty where a scope is the cause
     */
    public Optional<String> claim() {
        return Optional.ofNullable(claim);
    }

    /**
     * All scopes that the rule asks for: joined by spaces, the {@code scope} of a challenge that says {@code insufficient_scope} (RFC 6750,
     * section 3.1).
     *
     * @return the scopes, in the order of the rule
     */
    public List<String> scopes() {
        return List.of(scopes);
    }
}
