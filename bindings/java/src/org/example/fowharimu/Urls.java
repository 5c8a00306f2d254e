package org.example.fowharimu;

import java.io.IOException;
import java.net.URI;
import java.net.URISyntaxException;
import java.nio.charset.StandardCharsets;
import java.util.Optional;

/**
 * From which URLs keys and metadata are fetched, and what follows on an answer: the library decides, by {@code fow_url_of} and the calls beside it.
 */
final class Urls {
    /** Of {@code enum fow_status}. */
    private static final int ABSENT = 6;

    private Urls() {}

    /** What is asked for: {@code enum fow_asked}. */
    enum Asked {
        KEYS,
        OPENID,
        OAUTH
    }

    /** What follows on an answer: {@code enum fow_step}. */
    enum Step {
        FAIL,
        TAKE,
        FOLLOW,
        ASK_OAUTH,
        TOO_OFTEN
    }

    /** What follows on an answer, and how many octets of it are taken at most. */
    record Next(Step step, int most) {}

    /** A URL from which keys may be fetched. Throws IllegalArgumentException for any other. */
    static URI checked(String url, boolean allowsHttp) {
        if (Native.isUrl(Text.octets(url), allowsHttp)) {
            try {
                URI at = new URI(url);
                // (Java's client has none where it has an underscore)
                if (at.getHost() != null) {
                    return at;
                }
            } catch (URISyntaxException e) {
                // (not told: it has the URL in it, whose query may hide a secret)
            }
        }
        throw new IllegalArgumentException("the URL of a key set is https, and has a host and neither a name nor a password, nor a fragment");
    }

    /** Where a redirection leads. */
    static URI redirected(URI at, Optional<String> location) throws IOException {
        byte[] to = Native.redirected(Text.octets(at.toString()), Text.octets(location.orElse("")));
        if (to == null) {
            throw new IOException("it redirects to another origin, or to no URL");
        }
        return checked(ascii(to), true);
    }

    /** The URL of the metadata of an issuer. Throws IllegalArgumentException where it has none. */
    static URI metadata(Asked asked, String issuer) {
        byte[] url = Native.metadataUrl(asked.ordinal(), Text.octets(issuer));
        if (url == null) {
            throw new IllegalArgumentException("an issuer is a URL without a query");
        }
        return checked(ascii(url), true);
    }

    /** The URL of an issuer's keys, as its metadata tell it. */
    static String keys(byte[] metadata, String issuer) throws IOException {
        int[] status = {0};
        byte[] url = Native.keysUrl(metadata, Text.octets(issuer), status);
        if (url == null) {
            throw new IOException(status[0] == ABSENT ? "the metadata have no jwks_uri" : "the metadata are of another issuer");
        }
        return Text.of(url);
    }

    /** What follows on an answer of this status, where so many redirections were followed. */
    static Next next(Asked asked, int status, int followed) {
        int[] said = Native.nextStep(asked.ordinal(), status, followed);
        return new Next(Step.values()[said[0]], said[1]);
    }

    private static String ascii(byte[] url) {
        return new String(url, StandardCharsets.US_ASCII);
    }
}
