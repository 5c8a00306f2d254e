package org.example.fowharimu.servlet;

import jakarta.servlet.Filter;
import jakarta.servlet.FilterChain;
import jakarta.servlet.ServletException;
import jakarta.servlet.ServletRequest;
import jakarta.servlet.ServletResponse;
import jakarta.servlet.http.HttpServletRequest;
import jakarta.servlet.http.HttpServletResponse;
import java.io.IOException;
import java.util.Collections;
import java.util.List;
import java.util.Objects;
import java.util.Optional;
import java.util.Set;
import org.example.fowharimu.Access;
import org.example.fowharimu.Asking;
import org.example.fowharimu.Credentials;
import org.example.fowharimu.Denied;
import org.example.fowharimu.Judging;
import org.example.fowharimu.Outcome;
import org.example.fowharimu.Refused;
import org.example.fowharimu.Reply;
import org.example.fowharimu.Scheme;

/**
 * Lets HTTP requests through where their token is accepted (RFC 6750), and where the service asks for it, whoever sends it holds its key (RFC 9449). Their claims, a JSON text, are the
 * request's attribute {@link #CLAIMS}.
 *
 * <p>Else the answer is 400, 401 or 403, with {@code WWW-Authenticate} (RFC 6750, section 3; RFC 9449, section 7.1). Where nothing is said of a token, for want of memory or
 * since the validator is closed, the exception is the container's, which answers 500. Threads share a filter. It doesn't close what it is given.
 *
 * <pre>{@code
 * context.addFilter("jwt", new Guard(new Validator(policy, keys)))
 *     .addMappingForUrlPatterns(EnumSet.of(DispatcherType.REQUEST), false, "/api/*");
 * }</pre>
 */
public class Guard implements Filter {
    /** The name of the attribute that has the claims of a request that was let through. */
    public static final String CLAIMS = "org.example.fowharimu.claims";

    private final Judging validator;
    private final Optional<Access> access;
    private final String realm;
    private final boolean hidesToken;
    private volatile Optional<Dpop> dpop = Optional.empty();

    /**
     * A filter that asks for an accepted token.
     *
     * @param validator what judges the tokens, which the filter doesn't close
     */
    public Guard(Judging validator) {
        this(validator, "jwt", false);
    }

    /**
     * A filter that asks for an accepted token.
     *
     * @param validator what judges the tokens, which the filter doesn't close
     * @param realm the realm that a request without a token is told
     * @param hidesToken whether what is behind isn't shown {@code Authorization} and {@code DPoP}
     * @throws IllegalArgumentException for a realm that a quoted string can't have
     */
    public Guard(Judging validator, String realm, boolean hidesToken) {
        this(validator, Optional.empty(), realm, hidesToken);
    }

    /**
     * A filter that asks for an accepted token whose claims meet an access rule.
     *
     * @param validator what judges the tokens, which the filter doesn't close
     * @param access the access rule
     * @throws NullPointerException where there is none, as where a rule is looked up and isn't found
     */
    public Guard(Judging validator, Access access) {
        this(validator, access, "jwt", false);
    }

    /**
     * A filter that asks for an accepted token whose claims meet an access rule.
     *
     * @param validator what judges the tokens, which the filter doesn't close
     * @param access the access rule
     * @param realm the realm that a request without a token is told
     * @param hidesToken whether what is behind isn't shown {@code Authorization} and {@code DPoP}
     * @throws IllegalArgumentException for a realm that a quoted string can't have
     * @throws NullPointerException where there is no access rule
     */
    public Guard(Judging validator, Access access, String realm, boolean hidesToken) {
        this(validator, Optional.of(Objects.requireNonNull(access, "access")), realm, hidesToken);
    }

    private Guard(Judging validator, Optional<Access> access, String realm, boolean hidesToken) {
        if (!Reply.isQuotable(realm)) {
            throw new IllegalArgumentException("a realm has printable characters of ASCII, and neither quotation marks nor backslashes");
        }
        this.validator = Objects.requireNonNull(validator, "validator");
        this.access = access;
        this.realm = realm;
        this.hidesToken = hidesToken;
    }

    /**
     * Has this filter take tokens of the scheme DPoP too, or alone, with proofs. A bearer's token that is bound is refused then. A proof counts once: the filter stands once on a
     * request's way, for the type {@code REQUEST} alone, since a forward or another dispatch would find the proof taken.
     *
     * @param dpop how they are taken
     * @return this filter
     */
    public Guard takeProofs(Dpop dpop) {
        this.dpop = Optional.of(dpop);
        return this;
    }

    @Override
    public void doFilter(ServletRequest request, ServletResponse response, FilterChain chain) throws IOException, ServletException {
        HttpServletRequest asked = (HttpServletRequest) request;
        HttpServletResponse answer = (HttpServletResponse) response;
        List<String> values = Collections.list(asked.getHeaders("Authorization"));
        if (values.size() > 1) {
            refuse(answer, Optional.empty(), Outcome.SEVERAL, List.of());
            return;
        }
        Credentials credentials = Credentials.of(schemes(), String.join("", values));
        if (credentials.outcome() != Outcome.ADMITTED) {
            refuse(answer, credentials.scheme(), credentials.outcome(), List.of());
            return;
        }
        if (isAccepted(asked, answer, credentials)) {
            chain.doFilter(hidesToken ? new Hiding(asked) : asked, response);
        }
    }

    private Set<Scheme> schemes() {
        return dpop.map(Dpop::schemes).orElse(Set.of(Scheme.BEARER));
    }

    /**
     * Is told why a token isn't taken, before the answer; this one does nothing. Of what is no b64token (RFC 6750, section 2.1) it isn't told.
     *
     * @param request the request
     * @param why a {@link Refused} or a {@link Denied}
     */
    protected void refused(HttpServletRequest request, Exception why) {}

    /** Whether the token is accepted and meets the rule; the claims are the request's attribute then, and else the answer is given. */
    private boolean isAccepted(HttpServletRequest request, HttpServletResponse answer, Credentials shown) {
        List<String> proofs = Collections.list(request.getHeaders("DPoP"));
        boolean hasScheme = shown.scheme().filter(it -> it == Scheme.DPOP).isPresent();
        if (hasScheme && proofs.size() != 1) {
            refuse(answer, shown.scheme(), Outcome.PROOF_REFUSED, List.of());
            return false;
        }
        Asking asking = access.map(new Asking()::access).orElse(new Asking());
        if (hasScheme) {
            // (the path as the client wrote it, encoded)
            asking = asking.proof(dpop.orElseThrow().proof(proofs.get(0), request.getMethod(), request.getRequestURI()));
        } else {
            // (else whoever stole it could use it: RFC 9449, section 7.2)
            asking = asking.unbound();
        }
        try {
            request.setAttribute(CLAIMS, validator.validate(shown.token(), asking));
            return true;
        } catch (Refused refusal) {
            refused(request, refusal);
            refuse(answer, shown.scheme(), refusal.outcome(), List.of());
        } catch (Denied denial) {
            refused(request, denial);
            refuse(answer, shown.scheme(), denial.scope().isEmpty() ? Outcome.NOT_GRANTED : Outcome.SCOPE_MISSING, denial.scopes());
        }
        return false;
    }

    private void refuse(HttpServletResponse answer, Optional<Scheme> shown, Outcome outcome, List<String> scopes) {
        Reply reply = Reply.to(schemes(), shown, outcome, new Reply.Quoted(realm, scopes, dpop.map(Dpop::algs).orElse("")));
        answer.setStatus(reply.status());
        reply.challenges().forEach(it -> answer.addHeader("WWW-Authenticate", it));
        if (reply.wantsNonce()) {
            dpop.flatMap(Dpop::nonces).ifPresent(it -> {
                answer.setHeader("DPoP-Nonce", it.now());
                answer.setHeader("Cache-Control", "no-store");
            });
        }
    }
}
