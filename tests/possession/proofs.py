"""Proofs of possession and requests: one that is accepted by each kind of key, and what is wrong with each other, one step of RFC 9449, section 4.3, at a time."""
import dataclasses
import hashlib
import hmac
import json
import pathlib
import sys

sys.path.insert(0, str(pathlib.Path(__file__).resolve().parent.parent))
sys.path.insert(0, str(pathlib.Path(__file__).resolve().parent.parent / "cases"))
from harness import base64url, octets_of
from signing import HMAC_K, key_text, sign

# A moment, and the policy for proofs, under which `iat` may be 60 seconds old, and clocks 5 seconds apart.
NOW = 1_700_000_000
ALGS = ["ES256", "ES384", "ES512", "RS256", "PS256", "EdDSA"]
POLICY = {"algs": ALGS, "typ": "dpop+jwt", "required": ["jti", "htm", "htu", "iat"], "max_age": 60, "leeway": 5}
# What a provider that others wrote issued once, and the proofs that it took, by the key of ES256.
RECORDED = json.loads((pathlib.Path(__file__).resolve().parent.parent / "provider/recorded.json").read_text())
# By these an access token of a row is accepted, as far as it is a token: ours, which names no audience, and the provider's, whose audience is its scopes.
ACCESS_POLICY = {"algs": ["HS256", *RECORDED["issuers"]], "audiences": ["openid read"]}
ACCESS_KEYS = {"keys": [{"kty": "oct", "k": HMAC_K}, *(key for it in RECORDED["issuers"].values() for key in it["keys"]["keys"])]}
URI = "https://api.example/things"
# The proofs of RFC 9449, figures 2 and 12; that of figure 4 is the first. The access token is the one of figure 12.
FIGURE_2 = (
    "eyJ0eXAiOiJkcG9wK2p3dCIsImFsZyI6IkVTMjU2IiwiandrIjp7Imt0eSI6IkVDIiwieCI6Imw4dEZyaHgtMzR0VjNoUklDUkRZOXpDa0RscEJoRjQyVVFVZldWQVdCRnMiLCJ5IjoiOVZFNGpmX09rX282NHpi"
    "VFRsY3VOSmFqSG10NnY5VERWclUwQ2R2R1JEQSIsImNydiI6IlAtMjU2In19.eyJqdGkiOiItQndDM0VTYzZhY2MybFRjIiwiaHRtIjoiUE9TVCIsImh0dSI6Imh0dHBzOi8vc2VydmVyLmV4YW1wbGUuY29tL3Rv"
    "a2VuIiwiaWF0IjoxNTYyMjYyNjE2fQ.2-GxA6T8lP4vfrg8v-FdWP0A0zdrj8igiMLvqRMUvwnQg4PtFLbdLXiOSsX0x7NVY-FNyJK70nfbV37xRZT3Lg"
)
FIGURE_12 = (
    "eyJ0eXAiOiJkcG9wK2p3dCIsImFsZyI6IkVTMjU2IiwiandrIjp7Imt0eSI6IkVDIiwieCI6Imw4dEZyaHgtMzR0VjNoUklDUkRZOXpDa0RscEJoRjQyVVFVZldWQVdCRnMiLCJ5IjoiOVZFNGpmX09rX282NHpi"
    "VFRsY3VOSmFqSG10NnY5VERWclUwQ2R2R1JEQSIsImNydiI6IlAtMjU2In19.eyJqdGkiOiJlMWozVl9iS2ljOC1MQUVCIiwiaHRtIjoiR0VUIiwiaHR1IjoiaHR0cHM6Ly9yZXNvdXJjZS5leGFtcGxlLm9yZy9w"
    "cm90ZWN0ZWRyZXNvdXJjZSIsImlhdCI6MTU2MjI2MjYxOCwiYXRoIjoiZlVIeU8ycjJaM0RaNTNFc05yV0JiMHhXWG9hTnk1OUlpS0NBcWtzbVFFbyJ9.2oW9RP35yRqzhrtNP86L-Ey71EOptxRimPPToA1plemAgR6"
    "pxHF8y6-yqyVnmcw6Fy1dqd-jfxSYoMxhAJpLjA"
)
FIGURE_12_TOKEN = "Kz~8mXK1EalYznwH-LC-1fBAo.4Ljp~zsPE_NeO.gxU"
FIGURE_2_KEY = "0ZcOCORZNYy-DWpqq30jZyJGHTN0d2HglBV3uiguA4I"


def compact(value: object) -> str:
    """A value as JSON text without white space."""
    return json.dumps(value, separators=(",", ":"), ensure_ascii=False)


def thumbprint_of(key: dict) -> str:
    """The thumbprint of a key (RFC 7638)."""
    names = {"EC": ("crv", "kty", "x", "y"), "OKP": ("crv", "kty", "x"), "RSA": ("e", "kty", "n")}[key["kty"]]
    return base64url(hashlib.sha256(compact({name: key[name] for name in names}).encode()).digest())


def thumbprint(alg: str) -> str:
    """The thumbprint of the key of this algorithm."""
    return thumbprint_of(json.loads(key_text(alg)))


def hash_of(token: str) -> str:
    """What `ath` is of an access token (section 4.2)."""
    return base64url(hashlib.sha256(token.encode()).digest())


def nonce_of(moment: int) -> str:
    """The nonce of periods of 300 seconds by the secret of the octets 0 to 31, as tests/c/possession.c asks for."""
    number = (moment // 300).to_bytes(8, "big")
    return base64url(hmac.digest(bytes(range(32)), number, "sha256"))


def bound(alg: str) -> str:
    """The claims of an access token that is bound to the key of this algorithm."""
    return compact({"sub": "user", "cnf": {"jkt": thumbprint(alg)}})


def access(claims: str, header: dict | None = None) -> str:
    """The access token of these claims."""
    signed = base64url(compact(header or {"typ": "at+jwt", "alg": "HS256"}).encode()) + "." + base64url(claims.encode())
    return signed + "." + base64url(sign("HS256", signed.encode()))


# The access token of a row that says no other claims.
TOKEN = access(bound("ES256"))


def made(alg: str = "ES256", header: dict | None = None, claims: dict | None = None, signed_as: str | None = None, payload: str | None = None, without: tuple = (), token: str = TOKEN) -> str:
    """A proof by the key of this algorithm, beside this access token: these members are added or take the place of others, those without a name are left out."""
    full = {"typ": "dpop+jwt", "alg": alg, "jwk": json.loads(key_text(alg)), **(header or {})}
    said = {"jti": "e1j3V_bKic8-LAEB", "htm": "GET", "htu": URI, "iat": NOW, "ath": hash_of(token), **(claims or {})}
    for name in without:
        full.pop(name, None)
        said.pop(name, None)
    text = payload if payload is not None else compact(said)
    signed = base64url(compact(full).encode()) + "." + base64url(text.encode())
    return signed + "." + base64url(sign(signed_as or alg, signed.encode()))


@dataclasses.dataclass(frozen=True)
class Row:
    """A proof and a request, and what is answered: `held`, or the name of the fault."""

    name: str
    answer: str
    proof: str
    method: str = "GET"
    uri: str = URI
    nonce: str | None = None
    # the access token, and its claims; no access token where it is None
    token: str | None = TOKEN
    claims: str = bound("ES256")
    now: int = NOW


def beside(name: str, answer: str, claims: str, alg: str = "ES256") -> Row:
    """A proof by the key of this algorithm beside the access token of these claims."""
    token = access(claims)
    return Row(name, answer, made(alg, token=token), token=token, claims=claims)


def good() -> list[Row]:
    """Proofs that hold. (The access token of figure 12 is none of ours, so that its proof is judged alone too: its hash is compared here.)"""
    assert json.loads(octets_of(FIGURE_12.split(".")[1]))["ath"] == hash_of(FIGURE_12_TOKEN)
    rows = [beside(f"by-{alg}", "held", bound(alg), alg) for alg in ALGS]
    rows += [
        Row("figure-2-and-4", "held", FIGURE_2, "POST", "https://server.example.com/token", token=None, now=1562262616),
        Row("figure-12", "held", FIGURE_12, "GET", "https://resource.example.org/protectedresource", token=FIGURE_12_TOKEN, claims=compact({"cnf": {"jkt": FIGURE_2_KEY}}), now=1562262618),
        Row("figure-12-alone", "held", FIGURE_12, "GET", "https://resource.example.org/protectedresource", token=None, now=1562262618),
        Row("no-access-token", "held", made(without=("ath",)), token=None),
        Row("hash-without-access-token", "held", made(), token=None),
        Row("nonce-is-the-one", "held", made(claims={"nonce": "n-0S6"}), nonce="n-0S6"),
        Row("nonce-unasked", "held", made(claims={"nonce": "n-0S6"})),
        Row("nonce-by-time", "held", made(claims={"nonce": nonce_of(NOW)})),
        Row("further-claims", "held", made(claims={"more": {"deep": [1]}, "exp": NOW + 9})),
        Row("key-says-what-it-is-for", "held", made(header={"jwk": {**json.loads(key_text("ES256")), "use": "sig", "key_ops": ["verify"], "alg": "ES256"}})),
        Row("key-and-header-of-one-kid", "held", made(header={"kid": "one", "jwk": {**json.loads(key_text("ES256")), "kid": "one"}})),
        Row("typ-in-capitals", "held", made(header={"typ": "DPOP+JWT"})),
        Row("typ-in-full", "held", made(header={"typ": "application/dpop+jwt"})),
        Row("oldest", "held", made(), now=NOW + 65),
        Row("from-a-clock-ahead", "held", made(), now=NOW - 5),
        Row("before-1970", "held", made(claims={"iat": -60}), now=0),
    ]
    return rows


# The text in `htu`, the request's URI, whether they are one.
URIS = [
    ("scheme-case", "HTTPS://api.example/things", URI, True),
    ("host-case", "https://API.Example/things", URI, True),
    ("default-port", "https://api.example:443/things", URI, True),
    ("empty-port", "https://api.example:/things", URI, True),
    ("default-port-of-http", "http://api.example:80/things", "http://api.example/things", True),
    ("port-of-the-request", "https://api.example/things", "https://api.example:443/things", True),
    ("empty-path", "https://api.example", "https://api.example/", True),
    ("empty-path-and-query", "https://api.example?a=b", "https://api.example/", True),
    ("query", "https://api.example/things?a=b", URI, True),
    ("fragment", "https://api.example/things#part", URI, True),
    ("query-of-the-request", URI, "https://api.example/things?a=b#part", True),
    ("question-mark-in-fragment", "https://api.example/things#a?b", URI, True),
    ("unreserved-encoded", "https://api.example/%74hing%73", URI, True),
    ("tilde-encoded", "https://api.example/%7Euser", "https://api.example/~user", True),
    ("small-hexadecimal-digits", "https://api.example/%c3%bc", "https://api.example/%C3%BC", True),
    ("host-encoded", "https://%61pi.ex%41mple/things", URI, True),
    ("dot", "https://api.example/./things", URI, True),
    ("dots", "https://api.example/a/../things", URI, True),
    ("dots-encoded", "https://api.example/a/%2e%2E/things", URI, True),
    ("dots-above-the-root", "https://api.example/../../things", URI, True),
    ("dots-at-the-end", "https://api.example/things/a/..", "https://api.example/things/", True),
    ("dot-at-the-end", "https://api.example/things/.", "https://api.example/things/", True),
    ("address-in-brackets", "https://[2001:DB8::1]:443/things", "https://[2001:db8::1]/things", True),
    ("another-path", "https://api.example/other", URI, False),
    ("path-case", "https://api.example/Things", URI, False),
    ("slash-behind", "https://api.example/things/", URI, False),
    ("slash-before", "https://api.example//things", URI, False),
    ("another-host", "https://api.example.org/things", URI, False),
    ("host-with-a-dot", "https://api.example./things", URI, False),
    ("another-scheme", "http://api.example/things", URI, False),
    ("unknown-scheme", "ftp://api.example/things", URI, False),
    ("no-scheme", "//api.example/things", URI, False),
    ("path-alone", "/things", URI, False),
    ("one-slash", "https:/api.example/things", URI, False),
    ("empty", "", URI, False),
    ("another-port", "https://api.example:8443/things", URI, False),
    ("port-of-another-scheme", "https://api.example:80/things", URI, False),
    ("port-with-a-zero", "https://api.example:0443/things", URI, False),
    ("port-no-number", "https://api.example:443x/things", URI, False),
    ("two-ports", "https://api.example:443:443/things", URI, False),
    ("user", "https://user@api.example/things", URI, False),
    ("user-as-host", "https://api.example@evil.example/things", URI, False),
    ("no-host", "https:///things", URI, False),
    ("no-host-both", "https:///things", "https:///things", False),
    ("slash-encoded", "https://api.example%2Fthings", URI, False),
    ("slash-encoded-in-the-path", "https://api.example/a%2Fthings", "https://api.example/a/things", False),
    ("reserved-encoded", "https://api.example/a%3Bb", "https://api.example/a;b", False),
    ("query-encoded", "https://api.example/things%3Fa=b", URI, False),
    ("percent-alone", "https://api.example/things%", URI, False),
    ("percent-and-one-digit", "https://api.example/things%7", URI, False),
    ("percent-and-no-digits", "https://api.example/%zz", URI, False),
    ("encoded-twice", "https://api.example/%2574hings", URI, False),
    ("scheme-encoded", "http%73://api.example/things", URI, False),
    ("port-encoded", "https://api.example:%34%34%33/things", URI, False),
    ("backslash", "https://api.example\\things", URI, False),
    ("white-space-before", " https://api.example/things", URI, False),
    ("white-space-behind", "https://api.example/things ", URI, False),
    ("three-dots", "https://api.example/a/.../things", URI, False),
    ("dots-in-a-name", "https://api.example/..things", URI, False),
]


# Paths of requests: those of which every reader makes the same, and those of which some make another (docs/POSSESSION.md).
AGREED_PATHS = ["", "/", "/a/", "/a%20b", "/%C3%A9", "/a;v=1", "/a;v=1/b", "/.a", "/...", "/a..b", "/a:b@c", "/%E2%82%AC", "/a%22b", "/!$&'()*+,="]
OTHER_PATHS = [
    "//", "//a", "/a//b", "/a//", "/./a", "/a/.", "/../a", "/a/..", "/a/../b", "/a/..;/b", "/a/.;x/b", "/..;x=1", "/;x/", "/a/;x", "/a%2Fb", "/a%2fb", "/%2E", "/%2e%2e/a", "/a%5Cb",
    "/a%25b", "/a%252Fb", "/a%3Bb", "/%41", "/a%7Eb", "/%2D", "/%e9", "/%c3%a9", "/\u00e9", "/a\\b", "/a b", "/a\"b", "/a%00", "/a%0A", "/a%7F", "/a%", "/a%2", "/a%zz", "/a<b>", "/a|b", "/[a]",
]


def uris() -> list[Row]:
    """Each way to write `htu` (step 9), and the path of the request."""
    rows = [Row(f"uri-{name}", "held" if same else "OtherUri", made(claims={"htu": htu}), uri=uri) for name, htu, uri, same in URIS]
    for paths, answer in ((AGREED_PATHS, "held"), (OTHER_PATHS, "PathForm")):
        rows += [Row(f"path {path}", answer, made(claims={"htu": f"https://api.example{path}"}), uri=f"https://api.example{path}") for path in paths]
    rows.append(Row("path-before-uri", "PathForm", made(), uri=f"{URI}//"))
    rows.append(Row("path-behind-a-query", "held", made(), uri=f"{URI}?a=/../b//c%2F"))
    rows.append(Row("method-before-path", "OtherMethod", made(), method="POST", uri="https://api.example//"))
    return rows


def not_signed() -> list[Row]:
    """No one compact JWS, or no key of its own (steps 2, 6 and 7)."""
    one = made()
    header, payload, signature = one.split(".")
    key = json.loads(key_text("ES256"))
    flat = compact({"payload": payload, "protected": header, "signature": signature})
    general = compact({"payload": payload, "signatures": [{"protected": header, "signature": signature}]})
    two = compact({"payload": payload, "signatures": [{"protected": header, "signature": signature}] * 2})
    outside = base64url(compact({"typ": "dpop+jwt", "alg": "ES256"}).encode()) + "." + payload
    apart = compact({"payload": payload, "protected": outside.split(".")[0], "header": {"jwk": key}, "signature": base64url(sign("ES256", outside.encode()))})
    rows = [
        Row("empty", "Empty", ""),
        Row("two-proofs-and-a-comma", "Encrypted", one + "," + one),
        Row("two-parts", "Segments", header + "." + payload),
        Row("four-parts", "Segments", one + "."),
        Row("white-space-before", "Base64", " " + one),
        Row("line-feed-behind", "Base64", one + "\n"),
        Row("padded", "Base64", one + "="),
        Row("too-long", "TooLong", made(claims={"more": "a" * 8192})),
        Row("flattened", "NotCompact", flat),
        Row("general", "NotCompact", general),
        Row("two-signatures", "NotCompact", two),
        Row("key-in-unprotected-header", "NotCompact", apart),
        Row("no-key", "KeyMissing", made(without=("jwk",))),
        Row("key-is-a-text", "KeyMissing", made(header={"jwk": key_text("ES256")})),
        Row("key-is-a-list", "KeyMissing", made(header={"jwk": [key]})),
        Row("key-is-null", "KeyMissing", made(header={"jwk": None})),
        Row("key-by-name-alone", "KeyMissing", made(header={"kid": thumbprint("ES256")}, without=("jwk",))),
        Row("key-of-a-secret", "KeyPrivate", made(header={"alg": "HS256", "jwk": {"kty": "oct", "k": HMAC_K}}, signed_as="HS256")),
        Row("secret-beside-the-point", "KeyPrivate", made(header={"jwk": {**key, "k": HMAC_K}})),
    ]
    for name in ("d", "p", "q", "dp", "dq", "qi", "oth"):
        rows.append(Row(f"private-{name}", "KeyPrivate", made(header={"jwk": {**key, name: "AQ"}})))
    rows += [
        Row("private-null", "KeyPrivate", made(header={"jwk": {**key, "d": None}})),
        Row("key-is-empty", "KeyUnreadable", made(header={"jwk": {}})),
        Row("key-of-unknown-kind", "KeyUnreadable", made(header={"jwk": {**key, "kty": "XYZ"}})),
        Row("key-on-unknown-curve", "KeyUnreadable", made(header={"jwk": {**key, "crv": "secp256k1"}})),
        Row("key-without-a-coordinate", "KeyUnreadable", made(header={"jwk": {name: key[name] for name in ("kty", "crv", "x")}})),
        Row("key-in-base64", "KeyUnreadable", made(header={"jwk": {**key, "x": key["x"] + "="}})),
        Row("key-is-a-certificate", "KeyMissing", made(header={"x5c": ["AA=="]}, without=("jwk",))),
    ]
    return rows


def not_accepted() -> list[Row]:
    """Another header, another signature, claims that are absent, or another moment (steps 3 to 6 and 11)."""
    key = json.loads(key_text("ES256"))
    one = made()
    header, payload, signature = one.split(".")
    point = {**key, "y": key["x"]}
    rows = [
        Row("typ-absent", "TypMismatch", made(without=("typ",))),
        Row("typ-of-a-token", "TypMismatch", made(header={"typ": "JWT"})),
        Row("typ-of-an-access-token", "TypMismatch", made(header={"typ": "at+jwt"})),
        Row("typ-no-text", "TypShape", made(header={"typ": ["dpop+jwt"]})),
        Row("alg-absent", "AlgMissing", made(without=("alg",))),
        Row("alg-none", "AlgNone", header_changed({"alg": "none"})),
        Row("alg-unknown", "AlgUnknown", header_changed({"alg": "ES256K"})),
        beside("alg-not-allowed", "AlgNotAllowed", bound("RS384"), "RS384"),
        Row("alg-hmac", "AlgNotAllowed", made(header={"alg": "HS256"}, signed_as="HS256")),
        Row("alg-of-another-key", "NoKey", made(header={"alg": "RS256"}, signed_as="RS256")),
        Row("signed-by-another-key", "BadSignature", header_changed({"jwk": {**json.loads(key_text("ES256")), **other_point()}})),
        Row("no-point-of-the-curve", "BadSignature", made(header={"jwk": point})),
        Row("signature-empty", "BadSignature", header + "." + payload + "."),
        Row("signature-changed", "BadSignature", header + "." + payload + "." + signature[:-2] + ("A" if signature[-2] != "A" else "B") + signature[-1]),
        Row("claims-changed", "BadSignature", header + "." + base64url(compact({"jti": "a", "htm": "GET", "htu": URI, "iat": NOW, "ath": hash_of(TOKEN)}).encode()) + "." + signature),
        Row("key-for-encryption", "NoKey", made(header={"jwk": {**key, "use": "enc"}})),
        Row("key-to-sign-alone", "NoKey", made(header={"jwk": {**key, "key_ops": ["sign"]}})),
        Row("key-of-another-alg", "NoKey", made(header={"jwk": {**key, "alg": "ES384"}})),
        Row("kid-of-no-key", "NoKey", made(header={"kid": "one"})),
        Row("critical-member", "CritUnknown", made(header={"crit": ["more"], "more": 1})),
        Row("unencoded", "Unencoded", made(header={"b64": False})),
        Row("key-by-url", "KeyUrl", made(header={"jku": "https://evil.example/keys"})),
        Row("nested", "Nested", made(header={"cty": "JWT"})),
        Row("encrypted", "EncHeader", made(header={"enc": "A128GCM"})),
        Row("claims-no-json", "ClaimsShape", made(payload="{")),
        Row("claims-a-list", "ClaimsShape", made(payload="[]")),
        Row("claim-twice", "ClaimsShape", made(payload='{"jti":"a","jti":"b","htm":"GET","htu":"%s","iat":%d}' % (URI, NOW))),
        Row("jti-no-text", "ClaimKind", made(claims={"jti": 7})),
        Row("iat-no-number", "ClaimKind", made(claims={"iat": str(NOW)})),
        Row("iat-a-fraction", "ClaimDate", made(claims={"iat": NOW + 0.5})),
        Row("audience", "Audience", made(claims={"aud": URI})),
        Row("expired", "Expired", made(claims={"exp": NOW - 5})),
        Row("not-yet", "NotYet", made(claims={"nbf": NOW + 6})),
        Row("too-old", "TooOld", made(), now=NOW + 66),
        Row("much-too-old", "TooOld", made(claims={"iat": 0})),
        Row("issued-later", "IssuedLater", made(), now=NOW - 6),
        Row("greatest-iat", "IssuedLater", made(claims={"iat": 2**63 - 1})),
        Row("least-iat", "TooOld", made(claims={"iat": -(2**63)})),
    ]
    for name in ("jti", "htm", "htu", "iat"):
        rows.append(Row(f"no-{name}", "ClaimMissing", made(without=(name,))))
    return rows


def header_changed(members: dict) -> str:
    """A proof whose header has these members, with the signature of what its header then is, by the key of ES256."""
    return made(header=members, signed_as="ES256")


def other_point() -> dict:
    """The coordinates of the key of RFC 9449, figure 2, of which nobody here has the private part."""
    header = json.loads(octets_of(FIGURE_2.split(".")[0]))
    return {name: header["jwk"][name] for name in ("x", "y")}


def for_another() -> list[Row]:
    """Another method, nonce, access token or key (steps 8, 10 and 12)."""
    rows = [
        Row("another-method", "OtherMethod", made(), method="POST"),
        Row("method-case", "OtherMethod", made(claims={"htm": "get"})),
        Row("method-prefix", "OtherMethod", made(claims={"htm": "GE"})),
        Row("method-longer", "OtherMethod", made(claims={"htm": "GET "})),
        Row("method-empty", "OtherMethod", made(claims={"htm": ""})),
        Row("method-no-text", "OtherMethod", made(claims={"htm": ["GET"]})),
        Row("uri-no-text", "OtherUri", made(claims={"htu": [URI]})),
        Row("uri-of-the-request-is-none", "OtherUri", made(claims={"htu": "things"}), uri="things"),
        Row("method-before-uri", "OtherMethod", made(claims={"htu": "things"}), method="POST"),
        Row("uri-before-nonce", "OtherUri", made(claims={"htu": "things"}), nonce="n"),
        Row("no-nonce", "OtherNonce", made(), nonce="n-0S6"),
        Row("another-nonce", "OtherNonce", made(claims={"nonce": "n-0S7"}), nonce="n-0S6"),
        Row("nonce-prefix", "OtherNonce", made(claims={"nonce": "n-0S"}), nonce="n-0S6"),
        Row("nonce-longer", "OtherNonce", made(claims={"nonce": "n-0S66"}), nonce="n-0S6"),
        Row("nonce-no-text", "OtherNonce", made(claims={"nonce": ["n-0S6"]}), nonce="n-0S6"),
        Row("nonce-before-access-token", "OtherNonce", made(without=("ath",)), nonce="n"),
        Row("no-hash", "OtherAccessToken", made(without=("ath",))),
        Row("hash-of-another-token", "OtherAccessToken", made(claims={"ath": hash_of("another")})),
        Row("hash-of-the-token-and-more", "OtherAccessToken", made(), token=TOKEN + "."),
        Row("hash-of-another-token-of-these-claims", "OtherAccessToken", made(), token=access(bound("ES256"), {"alg": "HS256"})),
        Row("hash-padded", "OtherAccessToken", made(claims={"ath": hash_of(TOKEN) + "="})),
        Row("hash-in-hexadecimal", "OtherAccessToken", made(claims={"ath": hashlib.sha256(TOKEN.encode()).hexdigest()})),
        Row("hash-by-another-function", "OtherAccessToken", made(claims={"ath": base64url(hashlib.sha512(TOKEN.encode()).digest())})),
        Row("left-half-of-the-hash", "OtherAccessToken", made(claims={"ath": hash_of(TOKEN)[:22]})),
        Row("hash-no-text", "OtherAccessToken", made(claims={"ath": [hash_of(TOKEN)]})),
        Row("key-before-hash", "OtherKey", made("EdDSA", without=("ath",))),
        Row("another-key", "OtherKey", made("EdDSA")),
        beside("token-not-bound", "OtherKey", compact({"sub": "user"})),
        beside("confirmation-no-object", "OtherKey", compact({"cnf": thumbprint("ES256")})),
        beside("thumbprint-beside-confirmation", "OtherKey", compact({"cnf": {}, "jkt": thumbprint("ES256")})),
        beside("thumbprint-no-text", "OtherKey", compact({"cnf": {"jkt": [thumbprint("ES256")]}})),
        beside("thumbprint-prefix", "OtherKey", compact({"cnf": {"jkt": thumbprint("ES256")[:-1]}})),
        beside("thumbprint-padded", "OtherKey", compact({"cnf": {"jkt": thumbprint("ES256") + "="}})),
        beside("bound-to-a-certificate", "OtherKey", compact({"cnf": {"x5t#S256": thumbprint("ES256")}})),
        beside("key-itself-in-confirmation", "OtherKey", compact({"cnf": {"jwk": json.loads(key_text("ES256"))}})),
    ]
    return rows


def of_a_provider() -> list[Row]:
    """Access tokens that a provider bound to the key of ES256, with the proofs that it took itself, and with others."""
    rows, now = [], RECORDED["now"]
    for alg, one in RECORDED["issuers"].items():
        issuer, token = one["metadata"]["issuer"], one["access_token"]
        place, claims = f"{issuer}/userinfo", octets_of(token.split(".")[1]).decode()
        another = next(it["access_token"] for it in RECORDED["issuers"].values() if it is not one)
        other_claims = octets_of(another.split(".")[1]).decode()
        by_another_key = made("EdDSA", claims={"htu": place, "iat": now}, token=token)
        rows += [
            Row(f"provider-{alg}-at-token", "held", one["proof_at_token"], "POST", f"{issuer}/token", token=None, now=now),
            Row(f"provider-{alg}", "held", one["proof_with_token"], "GET", place, token=token, claims=claims, now=now),
            Row(f"provider-{alg}-another-method", "OtherMethod", one["proof_with_token"], "POST", place, token=token, claims=claims, now=now),
            Row(f"provider-{alg}-another-uri", "OtherUri", one["proof_with_token"], "GET", f"{issuer}/token", token=token, claims=claims, now=now),
            Row(f"provider-{alg}-another-token", "OtherAccessToken", one["proof_with_token"], "GET", place, token=another, claims=other_claims, now=now),
            Row(f"provider-{alg}-proof-of-no-token", "OtherAccessToken", one["proof_at_token"], "POST", f"{issuer}/token", token=token, claims=claims, now=now),
            Row(f"provider-{alg}-another-key", "OtherKey", by_another_key, "GET", place, token=token, claims=claims, now=now),
            Row(f"provider-{alg}-too-old", "TooOld", one["proof_with_token"], "GET", place, token=token, claims=claims, now=now + 66),
        ]
    return rows


def all_rows() -> list[Row]:
    """Every row of this file."""
    return good() + uris() + not_signed() + not_accepted() + for_another()
