import java.io.BufferedReader;
import java.io.PrintStream;
import java.nio.charset.StandardCharsets;
import java.nio.file.Files;
import java.nio.file.Path;
import java.util.HexFormat;
import java.util.List;
import java.util.Optional;
import java.util.concurrent.Callable;
import java.util.concurrent.ExecutorService;
import java.util.concurrent.Executors;
import java.util.concurrent.Future;
import java.util.stream.Collectors;
import java.util.stream.IntStream;

import org.example.fowharimu.Access;
import org.example.fowharimu.Denied;
import org.example.fowharimu.Issuing;
import org.example.fowharimu.Refused;
import org.example.fowharimu.Remember;
import org.example.fowharimu.SignatureState;
import org.example.fowharimu.Validator;
import org.example.fowharimu.Verdict;

/**
 * Cases FILE: answers each case of a table that tests/cases/make wrote, by the proved verifiers. tests/cases/README.md says what a line is.
 * With -Dthreads=N so many threads judge each token on one validator, and all have to answer alike. With -Dremember=N so many tokens are remembered,
 * and each is judged at several moments first.
 */
final class Cases {
    private static final List<String> PARTS = List.of("payload", "protected", "signature");
    private static final String NOTHING = "0\t\t\t-";

    private static final Remember REMEMBER = new Remember(Integer.getInteger("remember", 0), 1 << 20);
    private static final long FAR = 1_000_000_000;

    private final int threads;
    private final ExecutorService pool;
    private Validator validator;
    private Refused refused;

    private Cases(int threads) {
        this.threads = threads;
        this.pool = Executors.newFixedThreadPool(threads);
    }

    public static void main(String[] words) throws Exception {
        Cases cases = new Cases(Integer.getInteger("threads", 1));
        try (BufferedReader table = Files.newBufferedReader(Path.of(words[0]), StandardCharsets.ISO_8859_1);
                PrintStream out = new PrintStream(System.out, false, StandardCharsets.UTF_8)) {
            for (String line = table.readLine(); line != null; line = table.readLine()) {
                String[] it = line.split(" ");
                if (it[0].equals("open")) {
                    cases.open(it);
                } else {
                    out.print(it[1] + "\t" + cases.answer(it) + "\n");
                }
            }
        } finally {
            cases.pool.shutdown();
        }
    }

    private void open(String[] words) {
        if (validator != null) {
            validator.close();
        }
        validator = null;
        try {
            validator = new Validator(octets(words[1]), octets(words[2]), REMEMBER);
        } catch (Refused e) {
            refused = e;
        }
    }

    private String answer(String[] words) throws Exception {
        if (validator == null) {
            return fields(refused, 0, 0) + NOTHING;
        }
        return switch (words[0]) {
            case "judge" -> together(() -> judged(octets(words[3]), Long.parseLong(words[2])));
            case "deny" -> underRule(words);
            default -> issued(words);
        };
    }

    /** What so many threads answer at once: they have to answer alike. */
    private String together(Callable<String> call) throws Exception {
        if (threads == 1) {
            return call.call();
        }
        List<Future<String>> all = pool.invokeAll(IntStream.range(0, threads).mapToObj(it -> call).collect(Collectors.toList()));
        String first = all.get(0).get();
        for (Future<String> it : all) {
            check(it.get().equals(first), "threads answer otherwise");
        }
        return first;
    }

    /** Judges a token at its moment, at others, and at its moment again: an accepted one in compact form is remembered then. */
    private void again(byte[] token, long now) {
        for (long it : new long[] {now, now > 0 ? now - FAR : now + FAR, now, now}) {
            validator.judge(token, it);
        }
        Verdict said = validator.judge(token, now);
        check(!said.accepted() || said.remembered() || threads > 1 || new String(token, StandardCharsets.ISO_8859_1).contains("{"), "a token isn't remembered");
    }

    /** The answer to a token. What `validate` says has to be the same. */
    private String judged(byte[] token, long now) {
        if (REMEMBER.tokens() > 0) {
            again(token, now);
        }
        Verdict said = validator.judge(token, now);
        String claims = null;
        try {
            claims = validator.validate(token, now);
        } catch (Refused e) {
            check(!said.accepted() && e.getMessage().equals(said.refusal().get().getMessage()), "the refusals differ");
        }
        check(Optional.ofNullable(claims).equals(said.claims()), "the claims differ");
        String states = said.states().stream().map(Cases::state).collect(Collectors.joining(","));
        String tries = said.tries().stream().map(it -> it.signature() + "/" + it.key() + "/" + it.cost()).collect(Collectors.joining(","));
        return fields(said.refusal().orElse(null), said.signature(), said.key()) + said.work() + "\t" + states + "\t" + tries + "\t" + spelled(claims);
    }

    /** The answer to a token under an access rule, which is read first. */
    private String underRule(String[] words) throws Exception {
        try (Access access = new Access(octets(words[3]))) {
            return together(() -> denied(octets(words[4]), Long.parseLong(words[2]), access));
        } catch (Refused e) {
            return fields(e, 0, 0) + NOTHING;
        }
    }

    /** The answer to a token under a rule: that of `judged`, but for what the rule denies. */
    private String denied(byte[] token, long now, Access access) {
        String said = judged(token, now);
        try {
            String claims = validator.validate(token, now, access);
            check(said.startsWith("accepted\t") && said.endsWith("\t" + spelled(claims)), "the claims under the rule differ");
        } catch (Refused e) {
            check(said.startsWith("refused\t" + kind(e) + "." + e.fault() + "\t"), "the refusals under the rule differ");
        } catch (Denied e) {
            check(said.startsWith("accepted\t") && e.scopes().equals(access.scopes()), "the denial isn't of this rule");
            check(e.scope().isPresent() != e.claim().isPresent(), "a denial is of a scope or of a claim");
            String[] fields = said.split("\t", -1);
            fields[0] = "denied";
            fields[1] = "denied." + e.fault();
            fields[5] = spelled(e.scope().or(e::claim).get());
            fields[9] = "-";
            return String.join("\t", fields);
        }
        return said;
    }

    private String issued(String[] words) {
        Issuing how = new Issuing(
                Issuing.Algorithm.values()[Integer.parseInt(words[2]) - 1],
                Issuing.Form.values()[Integer.parseInt(words[3]) - 1],
                Integer.parseInt(words[4]),
                new String(octets(words[5]), StandardCharsets.UTF_8));
        try {
            return fields(null, 0, 0) + "0\t\t\t" + spelled(validator.issue(octets(words[6]), how));
        } catch (Refused e) {
            return fields(e, e.signature(), 0) + NOTHING;
        }
    }

    /** The fields up to the name of the claim or the member. What a refusal says beside the verdict has to be the same. */
    private static String fields(Refused refusal, int signature, int key) {
        if (refusal == null) {
            return String.join("\t", "accepted", "-", "0", "" + signature, "" + key, "-", "");
        }
        boolean isForm = refusal.kind() == Refused.Kind.FORM;
        boolean isSignature = isForm || refusal.kind() == Refused.Kind.SIGNATURE || refusal.kind() == Refused.Kind.CEILING;
        check(!isSignature || refusal.signature() == signature, "the signatures differ");
        check(refusal.kind() != Refused.Kind.CEILING || refusal.key() == key, "the keys differ");
        int part = isForm ? 1 + refusal.about().map(PARTS::indexOf).orElse(-1) : 0;
        String about = isForm ? null : refusal.about().orElse(null);
        return String.join("\t", "refused", kind(refusal) + "." + refusal.fault(), "" + part, "" + signature, "" + key, spelled(about), "");
    }

    private static String kind(Refused refusal) {
        return switch (refusal.kind()) {
            case TOO_LONG -> "text";
            // (issuing refuses for the faults of claims too)
            case ISSUE -> refusal.fault().startsWith("Claim") ? "claims" : "issue";
            default -> refusal.kind().name().toLowerCase(java.util.Locale.ROOT);
        };
    }

    private static String state(SignatureState it) {
        return it.state().ordinal() + 1 + "/" + it.fault().orElse("") + "/" + it.key().orElse(0);
    }

    private static byte[] octets(String word) {
        return word.equals("-") ? new byte[0] : HexFormat.of().parseHex(word);
    }

    private static String spelled(String text) {
        return text == null || text.isEmpty() ? "-" : HexFormat.of().formatHex(text.getBytes(StandardCharsets.UTF_8));
    }

    private static void check(boolean holds, String what) {
        if (!holds) {
            throw new AssertionError(what);
        }
    }
}
