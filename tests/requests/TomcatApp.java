import jakarta.servlet.DispatcherType;
import jakarta.servlet.Filter;
import jakarta.servlet.http.HttpServlet;
import jakarta.servlet.http.HttpServletRequest;
import jakarta.servlet.http.HttpServletResponse;
import java.io.IOException;
import java.nio.file.Files;
import java.nio.file.Path;
import java.time.Duration;
import java.util.Collections;
import java.util.stream.Stream;
import org.apache.catalina.Context;
import org.apache.catalina.startup.Tomcat;
import org.apache.tomcat.util.descriptor.web.FilterDef;
import org.apache.tomcat.util.descriptor.web.FilterMap;
import org.example.fowharimu.Access;
import org.example.fowharimu.Nonces;
import org.example.fowharimu.Once;
import org.example.fowharimu.Proofs;
import org.example.fowharimu.Validator;
import org.example.fowharimu.servlet.Dpop;
import org.example.fowharimu.servlet.Guard;

/** The application of the cases, over Tomcat: TomcatApp FOLDER */
final class TomcatApp {
    private static final int LONGEST_HEAD = 32_768;

    private TomcatApp() {}

    /** What stands behind the guards. */
    private static final class Answer extends HttpServlet {
        private static final long serialVersionUID = 1;

        @Override
        protected void service(HttpServletRequest request, HttpServletResponse response) throws IOException {
            String claims = (String) request.getAttribute(Guard.CLAIMS);
            boolean isShown = Stream.of("Authorization", "DPoP").anyMatch(it -> isShown(request, it));
            response.getWriter().print("{\"claims\":" + claims + ",\"shown\":" + isShown + "}");
        }
    }

    /** Whether a request has a header, or tells of its value, as the message of an exception does. */
    private static boolean isShown(HttpServletRequest request, String name) {
        boolean isNamed = Collections.list(request.getHeaderNames()).stream().anyMatch(name::equalsIgnoreCase);
        if (isNamed || request.getHeader(name) != null || request.getHeaders(name).hasMoreElements()) {
            return true;
        }
        try {
            return request.getDateHeader(name) != -1 || request.getIntHeader(name) != -1;
        } catch (IllegalArgumentException e) {
            return true;
        }
    }

    private static Validator open(Path folder) throws Exception {
        return new Validator(Files.readAllBytes(folder.resolve("policy.json")), Files.readAllBytes(folder.resolve("keys.json")));
    }

    private static void guard(Context context, String path, Filter filter) {
        FilterDef def = new FilterDef();
        def.setFilterName("guard of " + path);
        def.setFilter(filter);
        FilterMap map = new FilterMap();
        map.setFilterName("guard of " + path);
        map.addURLPattern(path);
        map.setDispatcher(DispatcherType.REQUEST.name());
        context.addFilterDef(def);
        context.addFilterMap(map);
    }

    /** The guards that ask who sends a token. */
    private static void guardWithProofs(Context context, Path folder, Validator validator) throws Exception {
        Dpop dpop = new Dpop(new Proofs(Files.readAllBytes(folder.resolve("proofs.json")), new Once(1000, 1000, java.time.Instant.EPOCH)), "https://api.example");
        Nonces nonces = new Nonces(Files.readAllBytes(folder.resolve("nonce.secret")), Duration.ofHours(1));
        Access scope = new Access(Files.readAllBytes(folder.resolve("scope.json")));
        guard(context, "/unbound", new Guard(validator));
        guard(context, "/dpop", new Guard(validator).takeProofs(dpop));
        guard(context, "/dpop-only", new Guard(validator).takeProofs(dpop.only()));
        guard(context, "/dpop-nonce", new Guard(validator).takeProofs(dpop.nonces(nonces)));
        guard(context, "/dpop-scope", new Guard(validator, scope).takeProofs(dpop));
        guard(context, "/dpop-hidden", new Guard(validator, "jwt", true).takeProofs(dpop));
    }

    /** A rule that is looked up and not found lets nobody through: no guard is made of it. */
    private static void mistake(Runnable making) {
        try {
            making.run();
        } catch (NullPointerException e) {
            return;
        }
        throw new AssertionError("a guard without its rule");
    }

    public static void main(String[] words) throws Exception {
        Path folder = Path.of(words[0]);
        Validator validator = open(folder);
        Validator closed = open(folder);
        closed.close();
        mistake(() -> new Guard(validator, (Access) null));
        mistake(() -> new Guard(validator, null, "jwt", true));
        Tomcat tomcat = new Tomcat();
        tomcat.setBaseDir(Files.createTempDirectory("tomcat").toString());
        tomcat.setPort(0);
        tomcat.getConnector().setProperty("address", "127.0.0.1");
        tomcat.getConnector().setProperty("maxHttpHeaderSize", String.valueOf(LONGEST_HEAD));
        Context context = tomcat.addContext("", null);
        Tomcat.addServlet(context, "answer", new Answer()).addMapping("/");
        // (the empty pattern is the root alone)
        guard(context, "", new Guard(validator));
        guard(context, "/scope", new Guard(validator, new Access(Files.readAllBytes(folder.resolve("scope.json")))));
        guard(context, "/role", new Guard(validator, new Access(Files.readAllBytes(folder.resolve("role.json")))));
        guard(context, "/hidden", new Guard(validator, "jwt", true));
        guard(context, "/closed", new Guard(closed));
        guardWithProofs(context, folder, validator);
        tomcat.start();
        System.out.println("listening on 127.0.0.1:" + tomcat.getConnector().getLocalPort());
        tomcat.getServer().await();
    }
}
