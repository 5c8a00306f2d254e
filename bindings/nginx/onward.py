"""What of a request goes on to what is behind nginx, and in which phase its token is judged.

Behind nginx is a server of Python that tells what it was sent, octet for octet.
"""
import base64
import contextlib
import hmac
import http.server
import json
import pathlib
import tempfile
import threading
import time
from typing import Callable, Iterator, NamedTuple

import tokens
from server import TOP, Answer, Nginx

HOLDS = {"version": 2, "algs": ["HS256"], "issuers": ["joe"], "required": ["exp"], "max_calls": 8}


class Behind(http.server.BaseHTTPRequestHandler):
    """Answers by the line and the headers that it was sent."""

    protocol_version = "HTTP/1.1"

    def do_GET(self) -> None:
        self.rfile.read(int(self.headers.get("Content-Length") or 0))
        body = json.dumps({"path": self.path, "headers": self.headers.items()}).encode()
        self.send_response(404 if self.path.startswith("/missing") else 200)
        self.send_header("Content-Length", str(len(body)))
        self.end_headers()
        self.wfile.write(body)

    do_POST = do_GET

    def log_message(self, *_: object) -> None:
        pass


class Seen(NamedTuple):
    """What arrived behind nginx: the path, and the values of headers by their names as CGI reads them."""

    status: int
    path: str
    headers: dict[str, list[str]]

    def of(self, name: str) -> list[str]:
        return self.headers.get(name, [])


def seen(got: Answer) -> Seen:
    told = json.loads(got.body) if got.status == 200 and got.body.startswith("{") else {"path": "", "headers": []}
    headers: dict[str, list[str]] = {}
    for name, value in told["headers"]:
        headers.setdefault("".join(it if it.isalnum() else "_" for it in name.upper()), []).append(value)
    return Seen(got.status, told["path"], headers)


@contextlib.contextmanager
def standing(http_lines: str, secret: tokens.Secret, **documents: str) -> Iterator[Nginx]:
    """nginx with these lines, where {behind} is the place of the server behind it."""
    server = http.server.ThreadingHTTPServer(("127.0.0.1", 0), Behind)
    server.daemon_threads = True
    threading.Thread(target=server.serve_forever, args=(0.05,), daemon=True).start()
    with tempfile.TemporaryDirectory() as name:
        nginx = Nginx(pathlib.Path(name), workers=1)
        nginx.write("html/page", "the page\n")
        nginx.write("hs.policy", json.dumps(HOLDS))
        nginx.write("hs.keys", tokens.key_set(secret.jwk()))
        for file, text in documents.items():
            nginx.write(file.replace("_", "."), text)
        nginx.configure(http_lines.replace("{behind}", f"http://127.0.0.1:{server.server_port}"))
        with nginx.running():
            yield nginx
        died = "exited on signal" in nginx.errors()
    server.shutdown()
    server.server_close()
    if died:
        raise RuntimeError("a worker died")


SERVER = "server {{ listen 127.0.0.1:{{port}}; jwt_policy hs.policy; jwt_keys hs.keys; {0} }}"


# ---- when a token is judged

PHASES = """
limit_req_zone $jwt_claim_sub zone=users:1m rate=1r/m;
limit_req_zone $jwt_claim_sub zone=slow:1m rate=20r/m;
map $jwt_claim_sub $mapped { default $jwt_claim_sub; "" "-"; }
map $mapped $mapped_again { default "of $mapped"; "-" "of nobody"; }
""" + SERVER.format("""
    listen unix:{room}/h2.sock http2;
    jwt on;
    location /limited { limit_req zone=users; try_files /page =404; }
    location /delayed { limit_req zone=slow burst=9; try_files /page =404; }
    location /rewritten { if ($jwt_claim_sub = ann) { rewrite ^ /page break; } try_files $uri =404; }
    location /set { set $kept $jwt_claim_sub; proxy_set_header X-Kept $kept; proxy_pass {behind}; }
    location /asking {
        auth_request /asked;
        proxy_set_header X-User $jwt_claim_sub;
        proxy_set_header X-Mapped $mapped;
        proxy_set_header X-Again $mapped_again;
        proxy_pass {behind};
    }
    location /asking-alone { auth_request /asked; try_files /page =404; }
    location = /asked { internal; jwt_token $cookie_guest; proxy_set_header X-Again $mapped_again; proxy_pass {behind}; }
    location /returned { return 404; add_header X-User $jwt_claim_sub always; add_header X-Fault $jwt_fault always; }
    error_page 400 /page-for-400;
    location = /page-for-400 { internal; add_header X-Verdict $jwt_verdict always; return 404; }
    location /denied { deny all; add_header X-Verdict $jwt_verdict always; }
    location /led { jwt_token $cookie_guest; proxy_set_header X-Mapped $mapped; proxy_intercept_errors on; error_page 404 = /led-to; proxy_pass {behind}/missing; }
    location /led-to { proxy_set_header X-Mapped $mapped; proxy_pass {behind}; }
    location /circle { jwt_token $mapped; try_files /page =404; }
    location /changing {
        set $from $cookie_guest;
        set $first $jwt_claim_sub;
        set $from $http_other;
        jwt_token $from;
        add_header X-User $first-$jwt_claim_sub;
        try_files /page =404;
    }
    location /any { satisfy any; allow 127.0.0.1; deny all; add_header X-User "$jwt_claim_sub"; add_header X-Fault "$jwt_fault"; try_files /page =404; }
""")


def test_phases(check: Callable[..., None]) -> None:
    """Claims are there at their first read, whatever the phase, and never those of another token."""
    secret = tokens.Secret()
    ann, bob, guest = (secret.token(sub=it) for it in ("ann", "bob", "guest"))
    with standing(PHASES, secret) as nginx:
        got = [nginx.get("/limited", token=it).status for it in (ann, ann, bob, bob, ann)]
        check("limit_req by a claim", got == [200, 503, 200, 503, 503], got)
        got = [nginx.get("/limited", token=it).status for it in ("x.y.z", "x.y.z")]
        check("limit_req by a claim, of a refused token", got == [401, 401], got)
        soon = secret.token(sub="soon", exp=int(time.time()) + 2)
        got = [nginx.get("/delayed", token=soon) for _ in range(2)]
        check("a token that expires while limit_req delays it", [it.status for it in got] == [200, 401], got)
        got = [nginx.get("/rewritten", token=it).status for it in (ann, bob)]
        check("if by a claim", got == [200, 404], got)
        sock = ["--http2-prior-knowledge", "--unix-socket", str(nginx.room / "h2.sock")]
        got = [nginx.get("/rewritten", *sock, token=it).status for it in (ann, bob, "x.y.z", None)]
        check("if by a claim, by HTTP/2", got == [200, 404, 401, 401], got)
        got = nginx.get("/changing", *sock, "-b", f"guest={guest}", "-b", "a=b", "-H", f"Other: {ann}")
        check("a token in a cookie, by HTTP/2", (got.status, got.headers.get("x-user")) == (200, "guest-ann"), got)
        got = seen(nginx.get("/set", token=ann))
        check("set by a claim", got.of("X_KEPT") == ["ann"], got)
        for who, token in (("ann", ann), ("bob", bob)):
            got = seen(nginx.get("/asking", "-b", f"guest={guest}", token=token))
            said = [*got.of("X_USER"), *got.of("X_MAPPED"), *got.of("X_AGAIN")]
            check(f"a map beside a subrequest with another token, {who}", said == [who, who, f"of {who}"], got)
        nginx.get("/asking-alone", "-b", f"guest={guest}", token=ann)
        time.sleep(0.2)
        lines = [it for it in (nginx.room / "access.log").read_text().splitlines() if it.startswith(("/asking", "/page 200"))]
        check("the log of the same", [it.split()[4] for it in lines[-3:]] == ["ann", "bob", "ann"], lines)
        got = nginx.get("/returned", token=ann)
        check("a claim in the headers of a return", got.headers.get("x-user") == "ann", got)
        got = nginx.get("/returned", token="x.y.z")
        check("a fault in the headers of a return", (got.headers.get("x-fault"), got.headers.get("www-authenticate")) == ("Base64", None), got)
        got = nginx.get("/denied", token=ann)
        check("a verdict in the headers of a denial", (got.status, got.headers.get("x-verdict")) == (403, "accepted"), got)
        got = seen(nginx.get("/led", "-b", f"guest={guest}", token=ann))
        check("a map behind an internal redirect", got.of("X_MAPPED") == ["ann"], got)
        got = nginx.get("/circle", token=ann)
        check("a token that is made of its own claim", got.status == 401 and "cycle" not in nginx.errors(), got)
        got = nginx.get("/changing", "-b", f"guest={guest}", "-H", f"Other: {ann}")
        check("a token that is another one in a later phase", (got.status, got.headers.get("x-user")) == (200, "guest-ann"), got)
        got = nginx.get("/changing", "-b", f"guest={guest}", "-H", "Other: x.y.z")
        check("a token that is refused in a later phase", got.status == 401, got)
        got = [nginx.get("/any", token=it) for it in (None, "x.y.z", ann)]
        said = [(it.status, it.headers.get("x-user"), it.headers.get("x-fault")) for it in got]
        check("satisfy any, by the address", said == [(200, None, None), (200, None, "Base64"), (200, "ann", None)], got)
        got = nginx.send(b"GET /limited HTTP/1.1\r\nHost: x\r\nAuthorization: Bearer " + ann.encode() + b"\r\nX\0: y\r\n\r\n")
        check("the page for a request that nginx refuses by itself", (got.status, got.headers.get("x-verdict")) == (404, None), got)


# ---- jwt_header

HEADERS = SERVER.format("""
    underscores_in_headers on;
    ignore_invalid_headers off;
    jwt_header X-User sub;
    jwt_header X-Scope scope -;
    location /on { jwt on; proxy_pass {behind}; }
    location /own-header { jwt on; proxy_set_header X-Other 1; proxy_pass {behind}; }
    location /own-line { jwt on; jwt_header x-user name; jwt_header X-Level level 0; proxy_pass {behind}; location /own-line/inner { proxy_pass {behind}; } }
    location /off { proxy_pass {behind}; }
    location /any { jwt on; satisfy any; allow 127.0.0.1; deny all; proxy_pass {behind}; }
    location /found { jwt on; try_files /none /on; }
    location /page-404 { jwt on; error_page 404 = @behind; try_files /none =404; }
    location @behind { jwt on; proxy_pass {behind}; }
    location /mirrored { jwt on; mirror /off-mirror; proxy_pass {behind}; }
    location /off-mirror { internal; proxy_pass {behind}; }
    location /including { ssi on; ssi_types *; try_files /including.html =404; }
    location /limited { jwt on; limit_except GET { jwt_header X-User role; } proxy_pass {behind}; }
""")
# What a client sends beside its token. Each name is one that CGI, WSGI or PHP reads as X-User.
SPELLINGS = [f"{it}: admin" for it in ("X-User", "x-user", "X_User", "x_user", "X_USER", "X.User", "X+User")] + ["X-User: a\r\nX_User: b", "Connection: X-User"]


def test_headers(check: Callable[..., None]) -> None:
    """jwt_header writes what the token says, at each level, and nothing that the client sent under such a name arrives."""
    secret = tokens.Secret()
    ann = secret.token(sub="ann", name="Ann", level=7, role="admin")
    rows = [
        ("/on", ["ann"], ["-"], []),
        ("/own-header", ["ann"], ["-"], []),
        ("/own-line", ["Ann"], ["-"], ["7"]),
        ("/own-line/inner", ["Ann"], ["-"], ["7"]),
        ("/off", [], ["-"], []),
        ("/any", ["ann"], ["-"], []),
        ("/found", ["ann"], ["-"], []),
        ("/page-404", ["ann"], ["-"], []),
        ("/mirrored", ["ann"], ["-"], []),
        ("/limited", ["ann"], ["-"], []),
    ]
    with standing(HEADERS, secret) as nginx:
        nginx.write("html/including.html", '<!--# include virtual="/on" -->')
        for path, user, scope, level in rows:
            for spelling in SPELLINGS:
                lines = [word for line in spelling.split("\r\n") for word in ("-H", line)]
                got = seen(nginx.get(path, *lines, "-H", "X_Scope: admin", token=ann))
                said = got.of("X_USER"), got.of("X_SCOPE"), got.of("X_LEVEL")
                check(f"jwt_header, at {path}, {spelling!r}", got.status == 200 and said == (user, scope, level), got)
        got = seen(nginx.get("/any", "-H", "X-User: admin", token="x.y.z"))
        check("jwt_header, satisfied by the address, a refused token", (got.status, got.of("X_USER"), got.of("X_SCOPE")) == (200, [], ["-"]), got)
        got = seen(nginx.get("/including", "-H", "X-User: admin", "-H", "X_User: admin", token=ann))
        check("jwt_header, in a subrequest of an open page", got.of("X_USER") == ["ann"], got)
        got = seen(nginx.get("/limited", "-d", "x", "-H", "X_User: root", token=ann))
        check("jwt_header, within limit_except", got.of("X_USER") == ["admin"], got)
        kinds = {"a line's end": "a\r\nX-Role: root", "a space at an end": "root ", "a no-break space at an end": "root\u00a0", "U+2028 before": "\u2028root"}
        for what, sub in {**kinds, "no value": None, "the empty text": ""}.items():
            got = seen(nginx.get("/on", "-H", "X_User: admin", token=secret.token(sub=sub)))
            check(f"jwt_header, of a claim with {what}", (got.status, got.of("X_USER")) == (200, []), got)
        got = seen(nginx.get("/on", "-H", "Accept: a", "-H", "X-Users: b", "-H", "XUser: c", "-b", "d=e", token=ann))
        others = [got.of(it) for it in ("ACCEPT", "X_USERS", "XUSER", "COOKIE", "AUTHORIZATION")]
        check("jwt_header, the other headers", others == [["a"], ["b"], ["c"], ["d=e"], [f"Bearer {ann}"]], got)


# ---- one token, and the same one that goes on

PLACES = SERVER.format("""
    underscores_in_headers on;
    ignore_invalid_headers off;
    jwt on;
    add_header X-Fault $jwt_fault always;
    location /bearer { jwt_strip on; proxy_set_header X-Token $jwt_token; proxy_pass {behind}; }
    location /off { jwt off; jwt_strip on; proxy_pass {behind}; }
    location /cookie { jwt_token $cookie_session; proxy_set_header X-Judged $jwt_token; proxy_pass {behind}; }
    location /cookie/strip { jwt_token $cookie_session; jwt_strip on; proxy_pass {behind}; }
    location /header { jwt_token $http_x_token; proxy_pass {behind}; }
    location /header/strip { jwt_token $http_x_token; jwt_strip on; proxy_pass {behind}; }
    location /argument { jwt_token $arg_access_token; proxy_pass {behind}; }
    location /argument/strip { jwt_token $arg_access_token; jwt_strip on; proxy_pass {behind}; }
    location /variables { jwt_strip on; proxy_set_header X-Seen "$http_authorization|$cookie_session|$arg_access_token|$args|$request_uri"; proxy_pass {behind};
        location /variables/cookie { jwt_token $cookie_session; proxy_set_header X-Seen "$http_authorization|$cookie_session|$http_cookie"; proxy_pass {behind}; }
        location /variables/argument { jwt_token $arg_access_token; proxy_set_header X-Seen "$arg_access_token|$args|$request_uri"; proxy_pass {behind}; } }
    location /argument/uri { jwt_token $arg_access_token; jwt_strip on; proxy_pass {behind}/there; }
    location /folder/ { jwt_token $arg_access_token; jwt_strip on; index page; alias {room}/html/; }
    location /found { jwt_token $arg_access_token; jwt_strip on; try_files /none /argument/strip?$args; }
    location /led { jwt_strip on; error_page 404 = @kept; proxy_intercept_errors on; proxy_pass {behind}/missing; }
    location @kept { proxy_pass {behind}; }
    location /including { jwt_strip on; ssi on; ssi_types *; try_files /including.html =404; }
    location /inner { proxy_pass {behind}; }
""")


def test_places(check: Callable[..., None]) -> None:
    """A token that stands twice is refused, by whatever reading of its name; jwt_strip takes it out of what goes on."""
    secret = tokens.Secret()
    good, evil = secret.token(sub="ann"), secret.token(sub="eve")
    twice = {"cookie": "CookieTwice", "header": "HeaderTwice", "argument": "ArgumentTwice"}
    spelled = ["session", "Session", "session ", "%73ession", "session[]", "session[a]", "session%00a"]
    cookies = [f"session={{0}}; {it}={{1}}" for it in spelled]
    cookies += ["SESSION={1}; session={0}", "session={0};session={1}", "session={0}; a=b; session", "session={0}, session={1}"]
    rows = [("/cookie", ["-H", f"Cookie: {it.format(good, evil)}"]) for it in cookies]
    rows += [("/cookie", ["-H", f"Cookie: session={good}", "-H", f"Cookie: session={evil}"])]
    rows += [("/header", ["-H", f"X-Token: {good}", "-H", f"{it}: {evil}"]) for it in ("X-Token", "x-token", "X_Token", "X.Token")]
    names = ["access_token", "ACCESS_TOKEN", "access.token", "+access_token", "%20access_token", "access%20token", "access%5btoken"]
    names += ["access_token%00x", "access_token[]", "access_token[a]", "access%5Ftoken", "access+token", "access[token"]
    rows += [(f"/argument?access_token={good}&{it}={evil}", []) for it in names]
    rows += [(f"/argument?{it}={evil}&access_token={good}", []) for it in names]
    rows += [(f"/argument?access_token={good};access_token={evil}", []), (f"/argument?a;access_token={evil}&access_token={good}", [])]
    taken = [
        ("/cookie", ["-H", f"Cookie: a=b; session={good}; session_id=1; sessions=2; asession=3"]),
        ("/cookie", ["-H", f"Cookie: session = {good} ; a"]),
        ("/header", ["-H", f"X-Token: {good}", "-H", "X-Tokens: x", "-H", "XToken: x"]),
        (f"/argument?access_token={good}&access_tokens=x&token=x&accesstoken=x&access-token=x&x[access_token]=y&=access_token", []),
    ]
    with standing(PLACES, secret) as nginx:
        nginx.write("html/including.html", '<!--# include virtual="/inner" -->')
        for path, words in rows:
            got = nginx.get(path, "-g", *words)
            kind = path.partition("?")[0][1:]
            shown = path.replace(good, "GOOD").replace(evil, "EVIL") if "?" in path else [it.replace(good, "GOOD").replace(evil, "EVIL") for it in words if it != "-H"]
            check(f"a token that stands twice, {shown}", (got.status, got.headers.get("x-fault")) == (400, twice[kind]), got)
        for path, words in taken:
            got = seen(nginx.get(path, "-g", *words))
            check(f"a token that stands once beside others, {path.partition('?')[0]}", got.status == 200, got)
        for path, words in (("/cookie", ["-H", f"Cookie: a=1, session={good}"]), (f"/argument?a;access_token={good}", []), (f"/argument?access%5Ftoken={good}", [])):
            got = nginx.get(path, *words)
            check(f"a token that only some would see, {path.partition('?')[0]}", (got.status, got.headers.get("www-authenticate")) == (401, 'Bearer realm="jwt"'), got)
        got = seen(nginx.get("/off", token=good))
        check("jwt_strip, where jwt is off", got.of("AUTHORIZATION") == [f"Bearer {good}"], got)
        got = seen(nginx.get("/bearer", "-H", "X-Other: 1", token=good))
        check("jwt_strip, of Authorization, and $jwt_token", (got.of("AUTHORIZATION"), got.of("X_TOKEN"), got.of("X_OTHER")) == ([], [good], ["1"]), got)
        got = seen(nginx.get("/cookie", "-b", f"session={good}"))
        check("$jwt_token, of a cookie", (got.of("X_JUDGED"), got.of("COOKIE")) == ([good], [f"session={good}"]), got)
        for sent, left in ((f"a=b; session={good}; c=d", ["a=b; c=d"]), (f"session={good}; c=d", ["c=d"]), (f"session={good}", []), (f"a=b;session={good}", ["a=b"])):
            got = seen(nginx.get("/cookie/strip", "-H", f"Cookie: {sent}"))
            check(f"jwt_strip, of a cookie: {left}", (got.status, got.of("COOKIE")) == (200, left), got)
        got = seen(nginx.get("/header/strip", "-H", f"X-Token: {good}", "-H", "X-Tokens: 1"))
        check("jwt_strip, of a header", (got.status, got.of("X_TOKEN"), got.of("X_TOKENS")) == (200, [], ["1"]), got)
        for path in ("/argument/strip", "/found"):
            for sent, left in ((f"a=b&access_token={good}&c=%2F", "?a=b&c=%2F"), (f"access_token={good}", ""), (f"access_token={good}&&d", "?d")):
                got = seen(nginx.get(f"{path}?{sent}"))
                # (what is behind a redirect is found anew)
                check(f"jwt_strip, of an argument, {path}: {left}", got.status == 200 and got.path in (f"{path}{left}", f"/argument/strip{left}"), got)
        got = seen(nginx.get(f"/argument/strip/%2e%2F?access_token={good}&c=1"))
        check("jwt_strip leaves the path as it was sent", got.path == "/argument/strip/%2e%2F?c=1", got)
        got = seen(nginx.get(f"/argument/uri/x?access_token={good}&c=1"))
        check("jwt_strip, of an argument, with a path of the proxy's own", got.path == "/there/x?c=1", got)
        rows = [
            ("/variables?a", ["-b", "session=s", "-H", f"Authorization: Bearer {good}"], "|s||a|/variables?a"),
            ("/variables/cookie", ["-b", f"session={good}; c=d", "-u", "ann:word"], "Basic YW5uOndvcmQ=||c=d"),
            (f"/variables/argument?b&access_token={good}", [], "|b|/variables/argument?b"),
        ]
        for path, words, wanted in rows:
            got = seen(nginx.get(path, *words))
            check(f"jwt_strip, and nginx's own variables: {wanted}", got.of("X_SEEN") == [wanted], got)
        got = nginx.get(f"/folder/?access_token={good}")
        check("jwt_strip, of an argument, before an index", got.status == 200 and got.body == "the page\n", got)
        got = seen(nginx.get("/led", token=good))
        check("jwt_strip isn't of the location that another leads to", got.of("AUTHORIZATION") == [f"Bearer {good}"], got)
        got = seen(nginx.get("/including", token=good))
        check("a subrequest is judged by the token that its page doesn't hand on", (got.status, got.path) == (200, "/inner"), got)


# ---- a token of the gateway's own

ISSUED = SERVER.format("""
    jwt on;
    jwt_issue app.keys https://gateway.example shop;
    location /default { proxy_pass {behind}; }
    location /claims { jwt_issue_claims sub level groups other 'a"b'; proxy_pass {behind}; }
    location /short { jwt_issue long.keys https://gateway.example "the \\"shop\\"" lifetime=5s; proxy_pass {behind}; }
    location /off { jwt_issue off; proxy_pass {behind}; }
    location /open { jwt off; proxy_pass {behind}; }
    location /any { satisfy any; allow 127.0.0.1; deny all; proxy_pass {behind}; }
    location /argument { jwt_token $arg_token; proxy_pass {behind}; }
    location /answer { jwt_answer; add_header Authorization $jwt_issued; }
    location /fallen { proxy_pass http://127.0.0.1:1; error_page 502 = @plain; }
    location @plain { jwt off; jwt_issue off; proxy_pass {behind}; }
    location /if { if ($arg_a) { proxy_pass {behind}; } }
""")


def issued(values: list[str], by: tokens.Secret) -> dict:
    """The claims of the one token in these values of Authorization, where that secret made it."""
    if len(values) != 1 or not values[0].startswith("Bearer "):
        return {"none": values}
    header, payload, tag = values[0].removeprefix("Bearer ").split(".")
    made = hmac.digest(by.octets, f"{header}.{payload}".encode(), tokens.HASHES[json.loads(octets(header))["alg"]])
    return json.loads(octets(payload)) if hmac.compare_digest(made, octets(tag)) else {"forged": values}


def octets(text: str) -> bytes:
    return base64.urlsafe_b64decode(text + "=" * (-len(text) % 4))


def test_issuing(check: Callable[..., None]) -> None:
    """In place of the client's token goes one of the gateway's own, for the application's audience."""
    secret, app, longer = tokens.Secret(), tokens.Secret(), tokens.Secret()
    documents = {"app_keys": tokens.key_set(app.jwk(kid="k" * 300)), "long_keys": tokens.key_set(longer.jwk(alg="HS512"))}
    until = int(time.time()) + 3600
    ann = secret.token(sub="ann", scope="a b", level=-7, groups=["a", 'b"c'], other={"x": 1}, **{'a"b': "c"})
    with standing(ISSUED, secret, **documents) as nginx:
        head = {"iss": "https://gateway.example", "aud": "shop"}
        rows = [
            ("/default", app, {**head, "sub": "ann", "scope": "a b"}, 60),
            ("/claims", app, {**head, "sub": "ann", "level": -7, "groups": ["a", 'b"c'], 'a"b': "c"}, 60),
            ("/short", longer, {"iss": "https://gateway.example", "aud": 'the "shop"', "sub": "ann", "scope": "a b"}, 5),
            ("/any", app, {**head, "sub": "ann", "scope": "a b"}, 60),
            ("/fallen", app, {**head, "sub": "ann", "scope": "a b"}, 60),
            ("/if?a=b", app, {**head, "sub": "ann", "scope": "a b"}, 60),
        ]
        for path, by, wanted, lifetime in rows:
            got = seen(nginx.get(path, "-H", "authorization_: x", token=ann))
            claims = issued(got.of("AUTHORIZATION"), by)
            times = claims.pop("iat", 0), claims.pop("exp", 0)
            check(f"jwt_issue, at {path}", claims == wanted and abs(times[0] - time.time()) < 5 and times[1] - times[0] == lifetime, (got, claims, times))
        got = nginx.get("/answer", token=ann)
        check("jwt_issue, in an answer", got.status == 204 and issued([got.headers.get("authorization", "")], app).get("sub") == "ann", got)
        got = nginx.get("/answer", token="x.y.z")
        check("jwt_issue, in a refusal", got.status == 401 and "authorization" not in got.headers, got)
        for path in ("/off", "/open"):
            got = seen(nginx.get(path, token=ann))
            check(f"jwt_issue, at {path}", got.of("AUTHORIZATION") == [f"Bearer {ann}"], got)
        got = seen(nginx.get("/any", token="x.y.z"))
        check("jwt_issue, satisfied by the address, a refused token", got.status == 200 and got.of("AUTHORIZATION") == [], got)
        got = seen(nginx.get(f"/argument?token={ann}&a=b", "-u", "ann:word"))
        check("jwt_issue, of an argument", issued(got.of("AUTHORIZATION"), app).get("sub") == "ann" and got.path == "/argument?a=b", got)
        soon = secret.token(sub="ann", exp=int(time.time()) + 20)
        claims = issued(seen(nginx.get("/default", token=soon)).of("AUTHORIZATION"), app)
        check("jwt_issue, no longer than the client's token", claims.get("exp", until) <= time.time() + 20, claims)
        long = secret.token(sub="é" * 400, scope="\\\"" * 200)
        claims = issued(seen(nginx.get("/default", token=long)).of("AUTHORIZATION"), app)
        check("jwt_issue, of a long token", (claims.get("sub"), claims.get("scope")) == ("é" * 400, "\\\"" * 200), claims)


# ---- the lines of docs/NGINX.md

def guide_lines(word: str) -> str:
    """The first block of nginx's lines in the guide that has this word, in the places of a test."""
    blocks = (TOP / "docs/NGINX.md").read_text().split("```nginx\n")[1:]
    lines = next(it for it in (block.partition("```")[0] for block in blocks) if word in it)
    server = "server { listen 127.0.0.1:{port}; access_log {room}/guide.log guide; limit_req zone=users;"
    for one, other in (("http://127.0.0.1:8000", "{behind}"), ("server {", server), ("log_format jwt", "log_format guide")):
        lines = lines.replace(one, other)
    return lines


def test_guide_lines(check: Callable[..., None]) -> None:
    """What the guide says of a service's headers, of a token in their place, and of the log."""
    secret, service = tokens.Secret(), tokens.Secret()
    documents = {"jwt/policy_json": json.dumps(HOLDS), "jwt/keys_json": tokens.key_set(secret.jwk()), "jwt/service_keys": tokens.key_set(service.jwk())}
    server = guide_lines("jwt_header").replace("location /", guide_lines("jwt_issue") + "location /")
    with standing(guide_lines("log_format") + server, secret, **documents) as nginx:
        got = seen(nginx.get("/", "-H", "X_User: admin", token=secret.token(sub="ann")))
        claims = issued(got.of("AUTHORIZATION"), service)
        said = got.of("X_USER"), got.of("X_SCOPE"), claims.get("iss"), claims.get("aud"), claims.get("sub")
        check("the guide's headers, and its token", said == (["ann"], ["-"], "https://gateway.example", "orders", "ann"), got)
        nginx.get("/", token=secret.token(exp=1))
        time.sleep(0.2)
        lines = (nginx.room / "guide.log").read_text().splitlines()
        check("the guide's log", [it.partition('" ')[2] for it in lines] == ['200 accepted - "ann"', '401 refused Expired "-"'], lines)


def run(check: Callable[..., None]) -> None:
    for test in (test_phases, test_headers, test_places, test_issuing, test_guide_lines):
        test(check)
