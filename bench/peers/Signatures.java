import java.nio.file.Files;
import java.nio.file.Path;
import java.security.KeyFactory;
import java.security.PublicKey;
import java.security.Signature;
import java.security.spec.X509EncodedKeySpec;
import java.util.Base64;
import java.util.Map;

/**
 * Signatures THREADS SECONDS NAME BURST: prints how many signatures a second so many threads verify by the JDK's own provider, and nothing else of the token.
 * NAME ends with the algorithm, and NAME.pem is its public key.
 */
final class Signatures {
    private static final Map<String, String[]> KINDS = Map.of(
        "RS256", new String[] {"RSA", "SHA256withRSA"},
        "ES256", new String[] {"EC", "SHA256withECDSAinP1363Format"},
        "ES384", new String[] {"EC", "SHA384withECDSAinP1363Format"},
        "ES512", new String[] {"EC", "SHA512withECDSAinP1363Format"},
        "Ed25519", new String[] {"Ed25519", "Ed25519"});

    private Signatures() {}

    public static void main(String[] words) throws Exception {
        String[] kind = KINDS.get(Path.of(words[2]).getFileName().toString());
        PublicKey key = KeyFactory.getInstance(kind[0]).generatePublic(new X509EncodedKeySpec(der(words[2] + ".pem")));
        String token = Files.readString(Path.of(words[2] + ".jwt")).strip();
        int end = token.lastIndexOf('.');
        byte[] message = token.substring(0, end).getBytes(), signature = Base64.getUrlDecoder().decode(token.substring(end + 1));
        Bursts.print(Integer.parseInt(words[0]), nanoseconds(words[1]), nanoseconds(words[3]), () -> verify(kind[1], key, message, signature));
    }

    private static void verify(String algorithm, PublicKey key, byte[] message, byte[] signature) throws Exception {
        Signature verifier = Signature.getInstance(algorithm);
        verifier.initVerify(key);
        verifier.update(message);
        if (!verifier.verify(signature)) {
            throw new IllegalStateException("it is refused");
        }
    }

    /** The octets that a PEM file holds. */
    private static byte[] der(String name) throws Exception {
        return Base64.getMimeDecoder().decode(Files.readString(Path.of(name)).replaceAll("-----[^-]*-----", ""));
    }

    private static long nanoseconds(String seconds) {
        return (long) (Double.parseDouble(seconds) * 1e9);
    }
}
