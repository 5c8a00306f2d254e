"""Who sends a token holds its key: jwt_dpop and the directives beside it, jwt_certificate. What a guard answers too is asked by tests/requests."""
import hashlib
import json
import pathlib
import ssl
import subprocess
import sys
import tempfile
import time
from typing import Callable

import tokens
from server import TOP, Nginx, free_port

sys.path.insert(0, str(TOP / "tests/requests"))
import proofs_of_now

ORIGIN = proofs_of_now.ORIGIN
SHOWN = "".join(f"add_header X-{it.title()} $jwt_{it} always;" for it in ("verdict", "fault", "claim_sub"))
POLICY = {"version": 2, "algs": ["HS256"], "issuers": ["joe"], "required": ["exp"], "max_calls": 8}
# What nginx -t refuses, and takes: see test_configurations.
DOCUMENTS = {
    "proofs.policy": json.dumps(proofs_of_now.POLICY),
    "no-age.policy": json.dumps({name: it for name, it in proofs_of_now.POLICY.items() if name != "max_age"}),
    "short.secret": "x" * 31,
    "long.secret": "x" * 4097,
    "good.secret": "x" * 32,
}
GOOD = "jwt_policy good.policy; jwt_keys good.keys;"
PROOFS = f"{GOOD} jwt_dpop_policy proofs.policy; jwt_dpop_origin {ORIGIN}; jwt_dpop_once zone=proofs:1m since=ever;"
REFUSED = {
    "proofs without a policy": (f"{GOOD} jwt_dpop_origin {ORIGIN}; jwt_dpop_once off; jwt_dpop on; jwt on;", 'no "jwt_dpop_policy" is defined for "jwt_dpop"'),
    "proofs without an origin": (f"{GOOD} jwt_dpop_policy proofs.policy; jwt_dpop_once off; jwt_dpop on; jwt on;", 'no "jwt_dpop_origin" is defined for "jwt_dpop"'),
    "proofs without a memory": (f"{GOOD} jwt_dpop_policy proofs.policy; jwt_dpop_origin {ORIGIN}; jwt_dpop only; jwt on;", 'no "jwt_dpop_once" is defined for "jwt_dpop"'),
    "proofs of a token elsewhere": (f"{PROOFS} jwt_dpop on; jwt on; jwt_token $cookie_a;", '"jwt_dpop" takes the token of "Authorization" alone'),
    "another word for proofs": (f"{PROOFS} jwt_dpop yes;", '"jwt_dpop" directive takes "on", "only" or "off"'),
    "proofs twice": (f"{PROOFS} jwt_dpop on; jwt_dpop off;", '"jwt_dpop" directive is duplicate'),
    "a policy that is none for proofs": (f"{GOOD} jwt_dpop_policy good.policy;", '"{room}/good.policy" is refused: Typ'),
    "a policy for proofs without an age": (f"{GOOD} jwt_dpop_policy no-age.policy;", '"{room}/no-age.policy" is refused: MaxAge'),
    "a policy for proofs that isn't there": (f"{GOOD} jwt_dpop_policy none;", 'open() "{room}/none" failed'),
    "an origin without a scheme": (f"{GOOD} jwt_dpop_origin api.example;", '"jwt_dpop_origin" directive takes a scheme and a host'),
    "an origin with a path": (f"{GOOD} jwt_dpop_origin {ORIGIN}/;", '"jwt_dpop_origin" directive takes a scheme and a host'),
    "an origin with a user": (f"{GOOD} jwt_dpop_origin https://a@b;", '"jwt_dpop_origin" directive takes a scheme and a host'),
    "an origin without a host": (f"{GOOD} jwt_dpop_origin https://;", '"jwt_dpop_origin" directive takes a scheme and a host'),
    "two origins": (f"{PROOFS} jwt_dpop_origin {ORIGIN};", '"jwt_dpop_origin" directive is duplicate'),
    "a memory of proofs that is too small": (f"{GOOD} jwt_dpop_once zone=a:4k;", '"jwt_dpop_once" directive takes a zone of at least eight pages'),
    "a secret that is too short": (f"{GOOD} jwt_dpop_nonce short.secret;", '"jwt_dpop_nonce" directive takes a file of 32 to 4096 octets'),
    "a secret that is too long": (f"{GOOD} jwt_dpop_nonce long.secret;", '"jwt_dpop_nonce" directive takes a file of 32 to 4096 octets'),
    "a secret that isn't there": (f"{GOOD} jwt_dpop_nonce none;", 'open() "{room}/none" failed'),
    "nonces for no time": (f"{GOOD} jwt_dpop_nonce good.secret 0;", '"jwt_dpop_nonce" directive takes a time of a second to a day'),
    "nonces for too long": (f"{GOOD} jwt_dpop_nonce good.secret 2d;", '"jwt_dpop_nonce" directive takes a time of a second to a day'),
    "a certificate of a variable that is unknown": (f"{GOOD} jwt_certificate $nothing;", 'unknown "nothing" variable'),
}
TAKEN = {
    "proofs": (f"{PROOFS} jwt_dpop on; jwt on; location / {{ jwt_dpop only; jwt_dpop_nonce good.secret; location /a {{ jwt_dpop off; jwt_dpop_nonce off; }} }}", ""),
    "nonces with a time": (f"{PROOFS} jwt_dpop only; jwt on; jwt_dpop_nonce good.secret 5m;", ""),
    "proofs that may come again": (f"{GOOD} jwt_dpop_policy proofs.policy; jwt_dpop_origin http://[::1]:8080; jwt_dpop_once off; jwt_dpop on; jwt on;", ""),
    "a certificate": (f"{GOOD} jwt on; jwt_certificate $ssl_client_raw_cert; location / {{ jwt_certificate off; }}", ""),
}
LOCATIONS = {
    "/held": "jwt_dpop on; location /held/inner { try_files /page =404; }",
    "/only": "jwt_dpop only;",
    "/early": "jwt_dpop on; set $early $jwt_claim_sub;",
    "/redirected": "jwt_dpop on; error_page 404 = /held/inner; return 404;",
    "/both": "jwt_dpop on; jwt_once zone=taken:1m since=ever;",
    "/stripped": "jwt_dpop on; jwt_strip on; proxy_pass http://behind;",
    "/shown": "jwt_dpop on; proxy_pass http://behind;",
    "/issued": "jwt_dpop on; jwt_issue access.keys https://gateway.example shop; proxy_pass http://behind;",
    "/asking": "jwt off; auth_request /asked;",
    "/asked": "internal; jwt_dpop on;",
    "/page-for-401": "jwt_dpop on; error_page 401 /login;",
    "/any": "jwt_dpop on; satisfy any; allow all; jwt_issue access.keys https://gateway.example shop; proxy_pass http://behind;",
    "/login": "jwt off;",
}
BEHIND = 'server { listen unix:{room}/behind.sock; location / { default_type text/plain; return 200 "$http_authorization|$http_dpop"; } } upstream behind { server unix:{room}/behind.sock; }'
GOOD_ANSWER, SEEN = (200, "", "accepted"), (401, "Seen", "refused")


class Tokens:
    """Tokens that are bound, and proofs of them."""

    def __init__(self, secret: tokens.Secret) -> None:
        self._secret = secret
        self.bound = secret.token(cnf={"jkt": proofs_of_now.thumbprint("ES256")})

    def free(self, **claims: object) -> str:
        return self._secret.token(**claims)

    def proof(self, path: str, spelled: str = "", method: str = "GET", token: str | None = None) -> str:
        return proofs_of_now.proof_of(spelled, method, path, {"bound": token or self.bound})


def run(check: Callable[..., None]) -> None:
    test_proofs(check)
    test_request_lines(check)
    test_certificates(check)


def write_documents(nginx: Nginx, secret: tokens.Secret) -> None:
    nginx.write("access.policy", json.dumps(POLICY))
    nginx.write("access.keys", tokens.key_set(secret.jwk()))
    nginx.write("proofs.policy", json.dumps(proofs_of_now.POLICY))
    nginx.write("html/page", "the page\n")
    nginx.write("html/including.html", '<!--#include virtual="/held/a" --><!--#include virtual="/held/b" -->')


def test_proofs(check: Callable[..., None]) -> None:
    """A proof counts once in all workers, for one request, whatever is done with that within nginx."""
    with tempfile.TemporaryDirectory() as name:
        secret, nginx = tokens.Secret(), Nginx(pathlib.Path(name), workers=4)
        write_documents(nginx, secret)
        held = Tokens(secret)
        locations = " ".join(f"location {path} {{ {body} {'' if 'return' in body or 'proxy_pass' in body else 'try_files /page =404;'} }}" for path, body in LOCATIONS.items())
        proofs = f"jwt_dpop_policy proofs.policy; jwt_dpop_origin {ORIGIN}; jwt_dpop_once zone=proofs:1m since=ever;"
        including = "location = /including.html { jwt_dpop on; ssi on; }"
        # (asks in a second zone, and then is redirected within nginx to where the proof is taken first)
        including += " location /two-zones { jwt_dpop on; auth_request /in-apart; try_files /none /held/inner; } location = /in-apart { internal; jwt_dpop on; jwt_dpop_once zone=apart:64k since=ever; jwt_answer; }"
        nginx.configure(BEHIND + f"server {{ listen 127.0.0.1:{{port}}; jwt_policy access.policy; jwt_keys access.keys; {SHOWN} jwt on; {proofs} {locations} {including} }}")

        def said(path: str, proof: str | None, token: str = held.bound, scheme: str = "DPoP", *words: str) -> tuple[int, str, str]:
            more = () if proof is None else ("-H", f"DPoP: {proof}")
            got = nginx.get(path, "-H", f"Authorization: {scheme} {token}", *more, *words)
            return got.status, got.headers.get("x-fault", ""), got.headers.get("x-verdict", "")

        with nginx.running():
            for path in ("/held", "/only", "/early", "/redirected"):
                proof = held.proof(path)
                check(f"a proof at {path}", said(path, proof) == GOOD_ANSWER)
                check(f"the same proof again at {path}", all(said(path, proof) == SEEN for _ in range(8)))
            check("no proof", said("/held", None) == (401, "ProofMissing", "refused"))
            check("two proofs", said("/held", held.proof("/held"), held.bound, "DPoP", "-H", "dpop: x") == (401, "ProofTwice", "refused"))
            check("a proof for another path", said("/held", held.proof("/only")) == (401, "OtherUri", "refused"))
            check("a bound token as a bearer's", said("/held", None, scheme="Bearer") == (401, "Bound", "refused"))
            check("a token that isn't bound", said("/held", None, held.free(), "Bearer") == GOOD_ANSWER)
            check("a bearer's where proofs alone are taken", said("/only", None, held.free(), "Bearer")[::2] == (401, "absent"))
            encoded = "/held/b%20a/~user?page=2"
            check("a path as the client wrote it", said(encoded, held.proof(encoded)) == GOOD_ANSWER)
            for path, joined in (("/held/./inner", "/held/inner"), ("/held//a", "/held/a"), ("/held/b%2Fa", "/held/b%2Fa"), ("/held/%7Euser", "/held/~user"), ("/held/..;/held/a", "/held/a")):
                check(f"a path that can be read in more ways than one: {path}", said(path, held.proof(joined), held.bound, "DPoP", "--path-as-is") == (400, "PathForm", "refused"))
            check("and no challenge", "www-authenticate" not in nginx.get("/held//a", "--path-as-is", "-H", f"Authorization: DPoP {held.bound}", "-H", f"DPoP: {held.proof('/held/a')}").headers)
            check("another method", said("/held", held.proof("/held"), held.bound, "DPoP", "-X", "POST")[1] == "OtherMethod")
            proof = held.proof("/including.html")
            page = nginx.get("/including.html", "-H", f"Authorization: DPoP {held.bound}", "-H", f"DPoP: {proof}")
            check("subrequests of a request take its proof once", page.body.count("the page") == 2, page)
            check("and it isn't let in again", said("/including.html", proof) == SEEN)
            proof = held.proof("/two-zones")
            check("a proof that one request takes in two zones", [said("/two-zones", proof) for _ in range(3)] == [GOOD_ANSWER, SEEN, SEEN])
            proof = held.proof("/asking", method="POST")
            asked = [said("/asking", proof, held.bound, "DPoP", "-X", "POST")[0] for _ in range(3)]
            check("a proof where auth_request asks, by the client's method and path", asked[1:] == [401, 401] and asked[0] != 401, asked)
            test_once_too(check, held, said)
            shown = [nginx.get(path, "-H", f"Authorization: DPoP {held.bound}", "-H", f"DPoP: {held.proof(path)}").body for path in ("/shown", "/stripped", "/issued")]
            check("a token with its proof goes on", shown[0].startswith(f"DPoP {held.bound}|ey"), shown)
            check("a token with its proof is taken away", shown[1] == "|" and shown[2].startswith("Bearer ey") and shown[2].endswith("|"), shown)
            proof = held.proof("/any")
            shown = [nginx.get("/any", "-H", f"Authorization: DPoP {held.bound}", "-H", f"DPoP: {proof}").body for _ in range(2)]
            check("a proof that nobody took, by the address: nothing is handed on", shown == ["|"] * 2, shown)
            got = nginx.get("/any", "-H", f"Authorization: Bearer {held.free()}").body
            check("a token that isn't bound, by the address", got.startswith("Bearer ey"), got)
            proof = held.proof("/held")
            words = ["-H", f"Authorization: DPoP {held.bound}", "-H", f"DPoP: {proof}", f"http://127.0.0.1:{nginx.port}/held"]
            requests = [subprocess.Popen(["curl", "-s", "-o", "/dev/null", "-w", "%{http_code}", *words], stdout=subprocess.PIPE, text=True) for _ in range(24)]
            answers = sorted(it.communicate()[0] for it in requests)
            check("of many requests with one proof one is let in", answers == ["200"] + ["401"] * 23, answers)
            got = nginx.get("/page-for-401", "-H", f"Authorization: DPoP {held.bound}")
            check("a page for 401 has the challenges", got.body == "the page\n" and 'error="invalid_dpop_proof"' in got.headers.get("www-authenticate", ""), got)
            nginx.reload()
            time.sleep(0.5)
            check("what was taken stays over a reload", said("/held", proof) == SEEN)
        check("the error log of proofs", "jwt: the proof is refused: OtherUri" in nginx.errors(), nginx.errors()[-1000:])
        check("no worker died of proofs", "exited on signal" not in nginx.errors(), nginx.errors()[-1000:])


def test_once_too(check: Callable[..., None], held: Tokens, said: Callable[..., tuple[int, str, str]]) -> None:
    """A proof that came before uses up no token that counts once."""
    token, other = (held.free(jti=it, cnf={"jkt": proofs_of_now.thumbprint("ES256")}) for it in ("one", "other"))
    proof = held.proof("/both", token=token)
    check("a token that counts once, with its proof", said("/both", proof, token) == GOOD_ANSWER)
    check("both again", said("/both", proof, token) == SEEN)
    check("the token again, with a new proof", said("/both", held.proof("/both", token=token), token) == SEEN)
    check("another token, with a proof that is none for it", said("/both", proof, other)[1] == "OtherAccessToken")
    check("another token, which was not used up", said("/both", held.proof("/both", token=other), other) == GOOD_ANSWER)


def test_request_lines(check: Callable[..., None]) -> None:
    """A proof is held against the client's own request line, whatever nginx makes of it."""
    with tempfile.TemporaryDirectory() as name:
        secret, nginx = tokens.Secret(), Nginx(pathlib.Path(name))
        write_documents(nginx, secret)
        held = Tokens(secret)
        proofs = f"jwt_dpop_policy proofs.policy; jwt_dpop_origin {ORIGIN}; jwt_dpop_once zone=proofs:1m since=ever;"
        nginx.write("nonce.secret", proofs_of_now.SECRET.decode())
        asking = "location /asking { auth_request /asked; auth_request_set $nonce $sent_http_dpop_nonce; add_header DPoP-Nonce $nonce always; try_files /page =404; } location /asked { internal; jwt on; jwt_dpop on; jwt_dpop_nonce nonce.secret 1h; jwt_answer; }"
        places = "location /lost { error_page 404 = /found; return 404; } location /found { jwt on; jwt_dpop on; try_files /page =404; } location / { jwt on; jwt_dpop on; try_files /page =404; }"
        nginx.configure(f"server {{ listen 127.0.0.1:{{port}}; jwt_policy access.policy; jwt_keys access.keys; {SHOWN} {proofs} {places} {asking} }}")
        with nginx.running():
            for nonce, wanted in ((None, 401), (proofs_of_now.nonce_of(0), 200)):
                spelled = "" if nonce is None else "nonce=0"
                got = nginx.get("/asking", "-H", f"Authorization: DPoP {held.bound}", "-H", f"DPoP: {held.proof('/asking', spelled)}")
                offered = got.headers.get("dpop-nonce")
                check(f"auth_request, where a nonce is asked for, {wanted}", got.status == wanted and offered == (None if nonce else proofs_of_now.nonce_of(0)), got)
            for what, line, proof, wanted in (
                ("a method that error_page changed", "POST /lost", held.proof("/lost", method="POST"), (200, None)),
                ("the method that error_page made of it", "POST /lost", held.proof("/lost"), (401, "OtherMethod")),
                ("a whole URL", "GET http://evil.example/a", held.proof("/a"), (200, None)),
                ("a whole URL, a proof for its host", "GET http://evil.example/a", held.proof("/a", "htu=http://evil.example/a"), (401, "OtherUri")),
                ("a whole URL without a path", "GET http://evil.example", held.proof("/"), (200, None)),
                ("what no fragment is", "GET /a#b", held.proof("/a"), (401, "OtherUri")),
                ("what no fragment is, encoded", "GET /a#b", held.proof("/a%23b"), (200, None)),
                ("a query behind what no fragment is", "GET /a#b?c", held.proof("/a%23b"), (200, None)),
            ):
                head = (f"{line} HTTP/1.1", "Host: a", "Connection: close", f"Authorization: DPoP {held.bound}", f"DPoP: {proof}", "", "")
                got = nginx.send("\r\n".join(head).encode())
                check(f"a request line, {what}", (got.status, got.headers.get("x-fault")) == wanted, got)


def made_certificate(room: pathlib.Path, name: str) -> bytes:
    """Makes a key and a certificate of its own, and gives that in DER."""
    files = ["-keyout", str(room / f"{name}.key"), "-out", str(room / f"{name}.pem")]
    subprocess.run(["openssl", "req", "-x509", "-newkey", "ec", "-pkeyopt", "ec_paramgen_curve:P-256", "-nodes", "-days", "2", "-subj", f"/CN={name}", *files], check=True, capture_output=True)
    return ssl.PEM_cert_to_DER_cert((room / f"{name}.pem").read_text())


def test_certificates(check: Callable[..., None]) -> None:
    """A token that is bound to the certificate of the client, over TLS, for itself and with proofs beside."""
    with tempfile.TemporaryDirectory() as name:
        secret, nginx = tokens.Secret(), Nginx(pathlib.Path(name))
        write_documents(nginx, secret)
        held, port = Tokens(secret), free_port()
        ders = {it: made_certificate(nginx.room, it) for it in ("server", "client", "stranger")}
        mark = tokens.MAKE.base64url(hashlib.sha256(ders["client"]).digest())
        proofs = f"jwt_dpop_policy proofs.policy; jwt_dpop_origin {ORIGIN}; jwt_dpop_once zone=proofs:1m since=ever;"
        lines = "ssl_certificate server.pem; ssl_certificate_key server.key; ssl_verify_client optional_no_ca; jwt_policy access.policy; jwt_keys access.keys; jwt on;"
        places = {"/": "jwt_certificate $ssl_client_raw_cert;", "/escaped": "jwt_certificate $ssl_client_escaped_cert;", "/header": "jwt_certificate $http_pem;", "/bearers": "", "/proofs": f"{proofs} jwt_dpop on; jwt_certificate $ssl_client_raw_cert;"}
        locations = " ".join(f"location = {path} {{ {body} jwt_answer 200; }}" for path, body in places.items())
        nginx.configure(f"server {{ listen 127.0.0.1:{{port}}; listen 127.0.0.1:{port} ssl; {SHOWN} {lines} {locations} }}")
        bound, key = {"x5t#S256": mark}, {"jkt": proofs_of_now.thumbprint("ES256")}

        def said(token: str, client: str | None, path: str = "/", *words: str) -> tuple[int, str]:
            shown = () if client is None else ("--cert", str(nginx.room / f"{client}.pem"), "--key", str(nginx.room / f"{client}.key"))
            headers = words or ("-H", f"Authorization: Bearer {token}")
            command = ["curl", "-k", "-s", "-o", "/dev/null", "-w", "%{http_code} %header{x-fault}", "--max-time", "20", *shown, *headers, f"https://127.0.0.1:{port}{path}"]
            status, _, fault = subprocess.run(command, capture_output=True, text=True).stdout.partition(" ")
            return int(status or 0), fault

        with nginx.running():
            for what, token, client, path, wanted in (
                ("the client's certificate", held.free(cnf=bound), "client", "/", (200, "")),
                ("another's certificate", held.free(cnf=bound), "stranger", "/", (401, "OtherCertificate")),
                ("no certificate", held.free(cnf=bound), None, "/", (401, "OtherCertificate")),
                ("a token that isn't bound", held.free(), "client", "/", (401, "OtherCertificate")),
                ("a token that is bound to a key", held.bound, "client", "/", (401, "OtherKey")),
                ("a token that is bound to both, without a proof", held.free(cnf={**bound, **key}), "client", "/", (401, "OtherKey")),
                ("a token that is bound in another way", held.free(cnf={"kid": mark}), "client", "/", (401, "Unknown")),
                ("a token that is bound to no octets, and no certificate", held.free(cnf={"x5t#S256": tokens.MAKE.base64url(hashlib.sha256(b"").digest())}), None, "/", (401, "OtherCertificate")),
                ("a certificate that is no PEM", held.free(cnf=bound), "client", "/escaped", (401, "OtherCertificate")),
                ("a bound token where none may be", held.free(cnf=bound), "client", "/bearers", (401, "Bound")),
                ("a token that isn't bound where none may be", held.free(), None, "/bearers", (200, "")),
                ("an expired token", held.free(cnf=bound, exp=1), "client", "/", (401, "Expired")),
            ):
                got = said(token, client, path)
                check(f"certificates, {what}", got == wanted, got)
            text = "".join((nginx.room / "client.pem").read_text().split("\n"))
            for what, pem, wanted in (
                ("on one line", text, (200, "")),
                ("behind other text", f"subject=CN = client {text}{text[:40]}", (200, "")),
                ("without its end", text[:-5], (401, "OtherCertificate")),
                ("with another label", text.replace("CERTIFICATE", "TRUSTED CERTIFICATE"), (401, "OtherCertificate")),
                ("with an octet that is none of base64", text.replace("M", "*", 1), (401, "OtherCertificate")),
                ("of no octets", text[:27] + text[-25:], (401, "OtherCertificate")),
            ):
                token = held.free(cnf=bound)
                got = said(token, None, "/header", "-H", f"Authorization: Bearer {token}", "-H", f"Pem: {pem}")
                check(f"certificates, PEM {what}", got == wanted, got)
            both = held.free(cnf={**bound, **key})
            for client, wanted in (("client", (200, "")), ("stranger", (401, "OtherCertificate"))):
                proof = held.proof("/proofs", token=both)
                got = said(both, client, "/proofs", "-H", f"Authorization: DPoP {both}", "-H", f"DPoP: {proof}")
                check(f"certificates, a proof beside that of the {client}", got == wanted, got)
        check("no worker died of certificates", "exited on signal" not in nginx.errors(), nginx.errors()[-1000:])
