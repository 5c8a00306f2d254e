import java.io.BufferedReader;
import java.io.IOException;
import java.io.InputStream;
import java.io.InputStreamReader;
import java.io.PrintStream;
import java.nio.charset.StandardCharsets;
import java.nio.file.Files;
import java.nio.file.Path;
import java.security.GeneralSecurityException;
import java.security.KeyStore;
import java.security.cert.CertificateFactory;
import java.time.Duration;
import java.util.ArrayList;
import java.util.Arrays;
import java.util.LinkedHashMap;
import java.util.List;
import java.util.Map;
import java.util.Optional;
import java.util.concurrent.atomic.AtomicLong;
import javax.net.ssl.SSLContext;
import javax.net.ssl.TrustManagerFactory;

import org.example.fowharimu.Fetching;
import org.example.fowharimu.Issuers;
import org.example.fowharimu.Judging;
import org.example.fowharimu.KeysUnavailable;
import org.example.fowharimu.Refused;
import org.example.fowharimu.RemoteKeys;
import org.example.fowharimu.Validator;

/** Opens keys by URL, and several issuers, and judges by them as tests/remote/run and tests/issuers/run say, a command a line. */
final class RemoteCases {
    private Judging keys;
    private Load load;

    private RemoteCases() {}

    public static void main(String[] words) throws Exception {
        RemoteCases cases = new RemoteCases();
        PrintStream out = new PrintStream(System.out, true, StandardCharsets.UTF_8);
        BufferedReader in = new BufferedReader(new InputStreamReader(System.in, StandardCharsets.UTF_8));
        for (String line = in.readLine(); line != null; line = in.readLine()) {
            String[] it = line.split("\t", -1);
            out.println(cases.answer(it[0], Arrays.copyOfRange(it, 1, it.length)));
        }
    }

    private String answer(String what, String[] words) throws Exception {
        switch (what) {
            case "open":
            case "discover":
                return opened(what.equals("discover"), words);
            case "issuers":
                return openedIssuers(words);
            case "validate":
                return judged(Files.readAllBytes(Path.of(words[0])), Long.parseLong(words[1]));
            case "crowd":
                return crowd(Files.readAllLines(Path.of(words[0])), Long.parseLong(words[1]));
            case "load":
                load = new Load(Files.readAllBytes(Path.of(words[0])), Long.parseLong(words[1]), Integer.parseInt(words[2]));
                return "loading";
            case "rest":
                return load.rest();
            case "refresh":
                boolean isGood = ((RemoteKeys) keys).refresh();
                // (so that what is resident is what is held)
                System.gc();
                return String.valueOf(isGood);
            default:
                keys.close();
                return "closed";
        }
    }

    private String opened(boolean discovers, String[] words) throws Exception {
        Optional<SSLContext> tls = words[6].equals("-") ? Optional.empty() : Optional.of(trusting(Path.of(words[6])));
        Fetching how = new Fetching(
                milliseconds(words[3]), milliseconds(words[2]), milliseconds(words[4]), milliseconds(words[5]), words[7].equals("1"), tls,
                (url, octets, error) -> {});
        byte[] policy = Files.readAllBytes(Path.of(words[0]));
        try {
            keys = discovers ? RemoteKeys.discover(policy, words[1], how) : new RemoteKeys(policy, words[1], how);
        } catch (KeysUnavailable e) {
            return "unavailable";
        } catch (Refused e) {
            return e.kind() == Refused.Kind.POLICY ? "policy" : e.fault();
        } catch (IllegalArgumentException e) {
            return "misused";
        }
        return "opened";
    }

    private String openedIssuers(String[] words) throws IOException, Refused {
        Map<String, Judging> all = new LinkedHashMap<>();
        for (int at = 0; at + 2 < words.length; at += 3) {
            all.put(words[at], new Validator(Files.readAllBytes(Path.of(words[at + 1])), Files.readAllBytes(Path.of(words[at + 2]))));
        }
        try {
            keys = new Issuers(all);
        } catch (IllegalArgumentException e) {
            return "misused";
        }
        return "opened";
    }

    private String judged(byte[] token, long now) {
        try {
            keys.validate(token, now);
        } catch (Refused e) {
            return e.fault();
        } catch (IllegalStateException e) {
            return "Closed";
        }
        return "accepted";
    }

    /** How many tokens are answered at once, and how many later, where all are judged at the same time. */
    private String crowd(List<String> tokens, long now) throws InterruptedException {
        AtomicLong atOnce = new AtomicLong();
        List<Thread> threads = new ArrayList<>();
        long begun = System.nanoTime();
        for (String it : tokens) {
            Thread thread = new Thread(() -> {
                judged(it.getBytes(StandardCharsets.UTF_8), now);
                if (System.nanoTime() - begun < 1_200_000_000) {
                    atOnce.incrementAndGet();
                }
            });
            threads.add(thread);
            thread.start();
        }
        for (Thread it : threads) {
            it.join();
        }
        return atOnce + " " + (tokens.size() - atOnce.get());
    }

    /** What trusts the authority in this file, and no other. */
    private static SSLContext trusting(Path file) throws GeneralSecurityException, IOException {
        KeyStore store = KeyStore.getInstance(KeyStore.getDefaultType());
        store.load(null, null);
        try (InputStream in = Files.newInputStream(file)) {
            store.setCertificateEntry("authority", CertificateFactory.getInstance("X.509").generateCertificate(in));
        }
        TrustManagerFactory trust = TrustManagerFactory.getInstance(TrustManagerFactory.getDefaultAlgorithm());
        trust.init(store);
        SSLContext context = SSLContext.getInstance("TLS");
        context.init(null, trust.getTrustManagers(), null);
        return context;
    }

    private static Duration milliseconds(String word) {
        return Duration.ofMillis(Long.parseLong(word));
    }

    /** Threads that validate one token until they are told to rest. */
    private final class Load {
        private final AtomicLong judged = new AtomicLong();
        private final AtomicLong wrong = new AtomicLong();
        private final List<Thread> threads = new ArrayList<>();
        private volatile boolean isOver;

        Load(byte[] token, long now, int count) {
            for (int i = 0; i < count; i++) {
                Thread thread = new Thread(() -> run(token, now));
                threads.add(thread);
                thread.start();
            }
        }

        private void run(byte[] token, long now) {
            while (!isOver) {
                if (!judged(token, now).equals("accepted")) {
                    wrong.incrementAndGet();
                }
                judged.incrementAndGet();
            }
        }

        private String rest() throws InterruptedException {
            isOver = true;
            for (Thread it : threads) {
                it.join();
            }
            return judged + " " + wrong;
        }
    }
}
