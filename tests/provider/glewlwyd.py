"""Debian's glewlwyd, a provider of OpenID Connect that others wrote: started over TLS on a port and in a folder of its own, set up by its API, asked for tokens, and
ended again."""
import contextlib
import gzip
import hashlib
import http.client
import json
import pathlib
import re
import secrets
import shutil
import socket
import sqlite3
import ssl
import subprocess
import sys
import time
from urllib.parse import parse_qs, urlencode, urlsplit

sys.path.insert(0, str(pathlib.Path(__file__).resolve().parent.parent))
from harness import base64url

# The package's own beginning of a database, and of a configuration.
TABLES, SAMPLE = (pathlib.Path("/usr/share/doc/glewlwyd", it) for it in ("database/init.sqlite3.sql.gz", "glewlwyd.conf.sample.gz"))
# By each name its algorithm: what the provider calls it, the bits of its hash, and how openssl makes its key.
RSA, EC = ("RSA", "rsa_keygen_bits:2048"), ("EC", "ec_paramgen_curve:P-256")
ISSUERS = {"RS256": ("rsa", "256", RSA), "ES256": ("ecdsa", "256", EC), "PS512": ("rsa-pss", "512", RSA)}
# The client of docs/LOGIN.md, the person, and whoever sets all of this up.
CLIENT, BACK = "shop", "https://shop.example.com/back"
ANN = {"username": "ann", "password": "the password of ann"}
ADMIN = {"username": "admin", "password": "password"}
# How long a token lives, and how many seconds the provider has for its start.
LIFE, START = 3_600, 60


def is_here():
    """Whether there is such a provider here."""
    return shutil.which("glewlwyd") is not None and SAMPLE.exists()


LEFT_OUT = "left out, since glewlwyd isn't installed (Debian: glewlwyd)"


def version():
    """The provider with its version."""
    return "glewlwyd " + subprocess.run(["glewlwyd", "--version"], check=True, capture_output=True, text=True).stdout.strip()


@contextlib.contextmanager
def running(room, *names):
    """A provider with issuers of these names, whose certificate for localhost, `good.pem` with its key, lies in this folder, beside the authority `ca.pem`."""
    room = pathlib.Path(room)
    with socket.create_server(("127.0.0.1", 0)) as free:
        port = free.getsockname()[1]
    with contextlib.closing(sqlite3.connect(room / "glewlwyd.db")) as database:
        database.executescript(gzip.decompress(TABLES.read_bytes()).decode())
    (room / "glewlwyd.conf").write_text(configuration(room, port))
    # (it ends with whoever has started it, however that ends)
    command = ["setpriv", "--pdeathsig", "TERM", "glewlwyd", f"--config-file={room}/glewlwyd.conf"]
    with (room / "glewlwyd.log").open("w") as log:
        process = subprocess.Popen(command, stdin=subprocess.DEVNULL, stdout=log, stderr=log)
    try:
        wait(port, process)
        yield Glewlwyd(room, port, names)
    finally:
        process.terminate()
        try:
            process.wait(20)
        except subprocess.TimeoutExpired:
            process.kill()
            process.wait()


def configuration(room, port):
    """The sample of the package, with these lines in place of its own."""
    changed = {
        "port": port, "bind_address": '"127.0.0.1"', "external_url": f'"https://localhost:{port}"', "use_secure_connection": "true",
        "secure_connection_key_file": f'"{room}/good.key"', "secure_connection_pem_file": f'"{room}/good.pem"', "secure_connection_ca_file": f'"{room}/ca.pem"',
    }
    text = gzip.decompress(SAMPLE.read_bytes()).decode()
    for name, value in changed.items():
        text = re.sub(rf"^#?{name} *=.*$", f"{name}={value}", text, flags=re.MULTILINE)
    return re.sub(r'^  path = "/var/cache/.*$', f'  path = "{room}/glewlwyd.db"', text, flags=re.MULTILINE)


def wait(port, process):
    """Waits until somebody listens there."""
    until = time.monotonic() + START
    while process.poll() is None and time.monotonic() < until:
        with contextlib.suppress(OSError), socket.create_connection(("127.0.0.1", port), timeout=1):
            return
        time.sleep(0.05)
    raise RuntimeError("glewlwyd doesn't start")


class Glewlwyd:
    """A provider that runs: an issuer for each algorithm that is asked for, with the client and the person."""

    def __init__(self, room, port, names):
        self.room, self.port = room, port
        self.context = ssl.create_default_context(cafile=room / "ca.pem")
        self.admin = self.signed_in(ADMIN)
        for name in names:
            self.made("/api/mod/plugin/", self.plugin(name))
        self.asked("PUT", "/api/scope/openid", {"display_name": "openid", "password_required": True, "scheme": {}}, self.admin)
        self.made("/api/scope/", {"name": "read", "display_name": "read", "password_required": False, "scheme": {}})
        self.made("/api/client/", {
            "client_id": CLIENT, "name": CLIENT, "enabled": True, "confidential": False, "token_endpoint_auth_method": ["none"], "redirect_uri": [BACK],
            "authorization_type": ["code"], "scope": ["read"],
        })
        self.made("/api/user/", {**ANN, "name": "Ann", "email": "ann@example.org", "enabled": True, "scope": ["g_profile", "openid", "read"]})
        self.ann = self.signed_in(ANN)
        self.asked("PUT", f"/api/auth/grant/{CLIENT}", {"scope": "openid read"}, self.ann)

    def issuer(self, name):
        """The issuer of this algorithm's tokens."""
        return f"https://localhost:{self.port}/api/{name}"

    def asked(self, method, target, body=None, headers=None):
        """The answer, which has to be a good one or a redirection, and its octets."""
        status, headers, octets = self.said(method, target, body, headers)
        if status >= 400:
            raise RuntimeError(f"{method} {target}: {status} {octets[:200]}")
        return headers, octets

    def said(self, method, target, body=None, headers=None):
        """The status, the headers and the octets of an answer. A body of members goes as JSON, and one of octets as a form."""
        kind = "application/json" if isinstance(body, dict) else "application/x-www-form-urlencoded"
        octets = json.dumps(body).encode() if isinstance(body, dict) else body
        with contextlib.closing(http.client.HTTPSConnection("localhost", self.port, timeout=30, context=self.context)) as connection:
            connection.request(method, target, octets, {**({} if body is None else {"Content-Type": kind}), **(headers or {})})
            answer = connection.getresponse()
            return answer.status, answer.headers, answer.read()

    def made(self, target, members):
        """Has whoever sets up add something."""
        self.asked("POST", target, members, self.admin)

    def signed_in(self, who):
        """The header by which somebody is known, who has said their password."""
        headers, _ = self.asked("POST", "/api/auth/", who)
        return {"Cookie": headers["Set-Cookie"].partition(";")[0]}

    def plugin(self, name):
        """How an issuer is set up, with a key that is made now."""
        kind, size, (algorithm, option) = ISSUERS[name]
        key, public = self.room / "glewlwyd.key", self.room / "glewlwyd.pub"
        for words in (["genpkey", "-algorithm", algorithm, "-pkeyopt", option, "-out", key], ["pkey", "-in", key, "-pubout", "-out", public]):
            subprocess.run(["openssl", *words], check=True, capture_output=True)
        flows = {f"auth-type-{it}-enabled": it == "code" for it in ("client", "code", "token", "id-token", "none", "password", "refresh")}
        return {"module": "oidc", "name": name, "display_name": name, "enabled": True, "parameters": {
            "iss": self.issuer(name), "jwt-type": kind, "jwt-key-size": size, "key": key.read_text(), "cert": public.read_text(), "jwks-show": True,
            "access-token-duration": LIFE, "refresh-token-duration": 2 * LIFE, "code-duration": 600, "refresh-token-rolling": True, "allow-non-oidc": True, **flows,
            "subject-type": "public", "secure-endpoints": False, "oauth-dpop-allowed": True, "oauth-dpop-iat-duration": 60,
            "pkce-allowed": True, "pkce-method-plain-allowed": False, "name-claim": "on-demand", "name-claim-scope": ["openid"], "email-claim": "no",
        }}

    def rotate(self, name):
        """Has an issuer sign by a new key from now on, the only one that it has."""
        self.asked("PUT", f"/api/mod/plugin/{name}", self.plugin(name), self.admin)
        self.asked("PUT", f"/api/mod/plugin/{name}/reset", {}, self.admin)

    def document(self, name, place):
        """A document of an issuer."""
        return self.asked("GET", f"/api/{name}/{place}")[1]

    def query(self, url):
        """The query with which Ann's browser, which comes to this URL, is sent back to the client."""
        at = urlsplit(url)
        headers, _ = self.asked("GET", f"{at.path}?{at.query}&g_continue", headers=self.ann)
        return headers["Location"].partition("?")[2]

    def login(self, name, proof=None):
        """The tokens of a login of Ann at an issuer, with their `nonce`; bound to a key where the client's proof for a method and a URL is asked for."""
        nonce, verifier = secrets.token_urlsafe(16), secrets.token_urlsafe(48)
        challenge = base64url(hashlib.sha256(verifier.encode()).digest())
        asked = {"response_type": "code", "client_id": CLIENT, "redirect_uri": BACK, "scope": "openid read", "state": "state", "nonce": nonce,
                 "code_challenge": challenge, "code_challenge_method": "S256"}
        code = parse_qs(self.query(f"{self.issuer(name)}/auth?{urlencode(asked)}"))["code"][0]
        form = {"grant_type": "authorization_code", "code": code, "redirect_uri": BACK, "client_id": CLIENT, "code_verifier": verifier}
        shown = {} if proof is None else {"DPoP": proof("POST", f"{self.issuer(name)}/token")}
        tokens = json.loads(self.asked("POST", f"/api/{name}/token", urlencode(form).encode(), shown)[1])
        return {"nonce": nonce, "access_token": tokens["access_token"], "id_token": tokens["id_token"]}
