"""A small provider of OpenID Connect over TLS: it lets everybody in, and may make one mistake at a time."""
import hashlib
import http.server
import json
import pathlib
import secrets
import ssl
import sys
import threading
import time
from urllib.parse import parse_qs, urlencode, urlsplit

TOP = pathlib.Path(__file__).resolve().parent.parent.parent
sys.path[:0] = [str(TOP / "tests"), str(TOP / "tests/cases")]
import signing
from harness import base64url

KEY = {"kty": "RSA", "kid": "one", "n": base64url((signing.RSA_P * signing.RSA_Q).to_bytes(256, "big")), "e": "AQAB"}
HEADER = {"alg": "RS256", "kid": "one", "typ": "JWT"}
SUBJECT = "24400320"
# What a mistake changes in the header, and in the claims; None takes a member out, and of a number it is added to the moment.
MISTAKES = {
    "nothing": ({}, {}),
    "another nonce": ({}, {"nonce": "n-0S6_WzA2Mj"}),
    "no nonce": ({}, {"nonce": None}),
    "a nonce in a list": ({}, {"nonce": ["n-0S6_WzA2Mj"]}),
    "the hash of another access token": ({}, {"at_hash": "77QmUPtjPfzWtF2AnpK9RQ"}),
    "no hash": ({}, {"at_hash": None}),
    "another issuer": ({}, {"iss": "https://login.evil.example"}),
    "another client": ({}, {"aud": "other"}),
    "another client beside": ({}, {"aud": ["shop", "other"]}),
    "no audience": ({}, {"aud": None}),
    "an expired token": ({}, {"exp": -10}),
    "no expiry": ({}, {"exp": None}),
    "an old token": ({}, {"iat": -1_000}),
    "a token of tomorrow": ({}, {"iat": 90_000}),
    "an old login": ({}, {"auth_time": -4_000}),
    "no time of the login": ({}, {"auth_time": None}),
    "a long subject": ({}, {"sub": "a" * 256}),
    "no subject": ({}, {"sub": None}),
    "an access token": ({"typ": "at+jwt"}, {}),
    "no signature": ({"alg": "none"}, {}),
    "another algorithm": ({"alg": "RS384"}, {}),
    "another key": ({"kid": "two"}, {}),
    "a changed signature": ({}, {}),
    "HMAC by the public key": ({"alg": "HS256"}, {}),
}


def changed(members, changes, now):
    """Members with these changes, in which a number is added to the moment."""
    all_of = {**members, **{name: now + it if isinstance(it, int) else it for name, it in changes.items()}}
    return {name: it for name, it in all_of.items() if it is not None}


def signed(header, claims, mistake):
    """A token in compact form, signed as its header says, but for the mistake."""
    text = ".".join(base64url(json.dumps(it).encode()) for it in (header, claims))
    if header["alg"] == "none":
        return f"{text}."
    if header["alg"] == "HS256":
        return f"{text}.{base64url(hashlib.sha256(text.encode()).digest())}"
    signature = bytearray(signing.sign_rs(header["alg"], text.encode()))
    signature[0] ^= mistake == "a changed signature"
    return f"{text}.{base64url(bytes(signature))}"


class Handler(http.server.BaseHTTPRequestHandler):
    """Answers a browser, and a client."""

    def log_message(self, *_):
        pass

    def do_GET(self):
        provider, at = self.server.provider, urlsplit(self.path)
        if at.path == "/.well-known/openid-configuration":
            return self.answer(200, provider.metadata())
        if at.path == "/keys":
            return self.answer(200, {"keys": [KEY]})
        if at.path == "/authorize":
            return self.answer(302, {}, provider.authorize(parse_qs(at.query)))
        return self.answer(404, {})

    def do_POST(self):
        form = parse_qs(self.rfile.read(int(self.headers["Content-Length"])).decode())
        tokens = self.server.provider.exchange({name: it[0] for name, it in form.items()}) if self.path == "/token" else None
        return self.answer(400, {"error": "invalid_grant"}) if tokens is None else self.answer(200, tokens)

    def answer(self, status, members, location=None):
        body = json.dumps(members).encode()
        self.send_response(status)
        for name, it in (("Content-Type", "application/json"), ("Content-Length", len(body)), ("Location", location)):
            if it is not None:
                self.send_header(name, str(it))
        self.end_headers()
        self.wfile.write(body)


class Server(http.server.ThreadingHTTPServer):
    """Speaks TLS with each client in a thread of its own, so that none waits for another's handshake."""

    def finish_request(self, request, client_address):
        try:
            with self.context.wrap_socket(request, server_side=True) as secured:
                self.RequestHandlerClass(secured, client_address, self)
        except OSError:
            pass


class Provider:
    """A provider with a certificate for localhost, whose authority and key lie in a folder. `mistake` is the one that it makes."""

    def __init__(self, room):
        self.server = Server(("127.0.0.1", 0), Handler)
        self.server.provider = self
        self.server.context = ssl.SSLContext(ssl.PROTOCOL_TLS_SERVER)
        self.server.context.load_cert_chain(room / "good.pem", room / "good.key")
        self.issuer = f"https://localhost:{self.server.server_port}"
        self.mistake = "nothing"
        self.codes = {}
        threading.Thread(target=self.server.serve_forever, daemon=True).start()

    def metadata(self):
        """RFC 8414, section 2, and OpenID Connect Discovery 1.0, section 3."""
        places = {"authorization_endpoint": "authorize", "token_endpoint": "token", "jwks_uri": "keys"}
        return {"issuer": self.issuer, **{name: f"{self.issuer}/{it}" for name, it in places.items()}}

    def authorize(self, asked):
        """Where the browser is sent back, with a code that counts once."""
        asked = {name: it[0] for name, it in asked.items()}
        code = secrets.token_urlsafe(24)
        self.codes[code] = asked
        return f"{asked['redirect_uri']}?{urlencode({'code': code, 'state': asked['state']})}"

    def exchange(self, form):
        """The tokens for a code; None where it isn't that client's (RFC 6749, section 4.1.3; RFC 7636, section 4.6)."""
        asked = self.codes.pop(form.get("code"), None)
        if asked is None or form.get("grant_type") != "authorization_code" or asked["code_challenge_method"] != "S256":
            return None
        challenge = base64url(hashlib.sha256(form.get("code_verifier", "").encode()).digest())
        if challenge != asked["code_challenge"] or any(form.get(it) != asked[it] for it in ("redirect_uri", "client_id")):
            return None
        access_token = secrets.token_urlsafe(24)
        return {"token_type": "Bearer", "access_token": access_token, "id_token": self.id_token(asked, access_token)}

    def id_token(self, asked, access_token):
        now, (in_header, in_claims) = int(time.time()), MISTAKES[self.mistake]
        claims = {
            "iss": self.issuer, "sub": SUBJECT, "aud": asked["client_id"], "nonce": asked["nonce"], "exp": now + 600, "iat": now, "auth_time": now - 60,
            "at_hash": base64url(hashlib.sha256(access_token.encode()).digest()[:16]),
        }
        return signed(changed(HEADER, in_header, now), changed(claims, in_claims, now), self.mistake)
