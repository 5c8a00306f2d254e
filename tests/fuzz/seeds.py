"""Writes what the harnesses begin with, and the words of their dictionary: seeds.py OUT.

OUT/NAME has the seeds of the harness NAME, OUT/jose.dict the words, OUT/proofs the tokens and proofs of the harness holders. They are always the same.
"""
import hashlib
import hmac
import json
import pathlib
import random
import sys

TOP = pathlib.Path(__file__).resolve().parents[2]
sys.path.insert(0, str(TOP / "tests"))
from harness import base64url

# The sizes of the secrets that harness.h has, and their octets.
SIZES = (64, 48, 200)
SECRETS = [bytes((number * 41 + i * 7 + 1) % 256 for i in range(size)) for number, size in enumerate(SIZES)]
DIGESTS = {"HS256": hashlib.sha256, "HS384": hashlib.sha384, "HS512": hashlib.sha512}
# The moment of most proofs of tests/possession.
MOMENT = 1_700_000_000
# How many validators harness.h keeps open, and those for the tokens of some names.
FIXED = 10
VALIDATORS = {"RS256": 4, "ES256": 5, "Ed25519": 6, "PS256": 7}
CLAIMS = (
    '{"iss":"joe","exp":1300819380}',
    '{"iss":"joe","sub":"ann","aud":"shop","exp":1300819999,"iat":1300819300,"nbf":1300819000,"x y":1,"jti":"7"}',
    '{"aud":["a","shop",""],"exp":1300819330,"iat":1300819379,"sub":"","iss":"","x y":null}',
    '{"exp":1.0}',
    '{"iat":-1,"nbf":99999999999999999999}',
    "{}",
    "7",
    '{"a":{"b":[{"c":[1,2.5e-3,"\\u00e9\\ud83d\\ude00"]},true,false,null]},"iss":"\u00e9"}',
    '{"exp":"x"}',
    '{"sub":7}',
    '{"aud":[1]}',
)
HEADERS = (
    '{"alg":"HS256"}',
    '{"alg":"HS384"}',
    '{"alg":"HS512","kid":"a"}',
    '{"alg":"HS256","typ":"JWT","kid":"b","crit":["urn:x"],"urn:x":1}',
    '{"typ":"application/jwt","alg":"HS256","kid":"a"}',
)
NO_TOKENS = (b"", b".", b"..", b"....", b"{", b"{}", b"a.b.c", b'{"ciphertext":1}', b'{"payload":"","signatures":[]}', b"[" * 300)
NO_TOKENS += (b'{"payload":' + b"[" * 200, b'{"a":' * 130)
POLICIES = (
    b'{"version":2,"algs":["HS256","EdDSA","ES512"],"mode":"all","limit":1048576,"work":1000000000000,"max_signatures":32,"line_feed":true,'
    b'"typ":"at+jwt","need_kid":true,"thumb_kid":true,"understood":["exp","b"],"issuers":["a","a"],"audiences":["b"],"required":["c",""],'
    b'"leeway":86400,"max_age":4294967295,"max_calls":32768}',
    b'{"algs":["HS256"],"isuers":[]}',
    b'{"algs":[]}',
    b"[]",
)
RULES = (
    b"{}",
    b'{"scopes":["read","write"],"scope_claim":"/a~1b/~0","claims":{"":["x",true,-7],"/a/b":[""],"scope":["read"]}}',
    b'{"scopes":["a b"]}',
    b'{"scope_claim":"/~2"}',
    b'{"claims":{"a":[]}}',
    b'{"claims":{"a":[1.5]}}',
    b'{"claims":{"/~":[1]}}',
    b'{"scope":[]}',
    b'{"absent":["nonce","/a/b"],"only":{"aud":["x",1,true]},"objects":["events","/e/~1"],"ages":{"auth_time":300},"ascii":{"sub":255}}',
    b'{"ages":{"a":-1}}',
    b'{"ascii":{"/~":1}}',
)
KEY_SETS = (
    b'{"keys":[{"kty":"oct","k":"%s","kid":"a","alg":"HS256","use":"sig","key_ops":["sign","verify"]},{"kty":"oct","k":"QQ"},{"kty":"oct"},7,'
    b'{"kty":"zz"}]}' % base64url(SECRETS[0]).encode(),
    b'{"keys":[]}',
    b'{"keys":7}',
    b'{"a":{"b":1,"b":2},"keys":[]}',
)
WORDS = "alg typ cty kid crit jku x5u jwk x5c b64 enc zip HS256 HS384 HS512 RS256 ES256 EdDSA none PS256 payload signatures signature protected "
WORDS += "header ciphertext iss sub aud exp nbf iat jti JWT application/jwt keys kty oct RSA EC OKP crv P-256 Ed25519 Ed448 k n e x y d use sig key_ops "
WORDS += "verify sign version algs mode any all limit work max_signatures line_feed need_kid thumb_kid understood issuers audiences required leeway "
WORDS += "max_age max_calls scopes scope_claim claims scope scp roles read"
SPELLED = ("\\x22:\\x22", "\\\\u0041", "\\\\ud83d\\\\ude00", "\\\\ud800", "\\x00", "\\xff", "\\xed\\xa0\\x80", "\\xf0\\x9f\\x98\\x80", "1e999", "-0")
SPELLED += ("9223372036854775807", "9223372036854775808", "18446744073709551616", "1.0", "1E-400", "null", "true", "[[[[[[[[", "{\\x22a\\x22:")
SPELLED += ("eyJhbGciOiJIUzI1NiJ9", "e30", "....", "\\x0a")


def signed(header: str, claims: str, key: int) -> tuple[str, str, str]:
    """The three parts of a token by HMAC."""
    protected, payload = base64url(header.encode()), base64url(claims.encode())
    tag = hmac.new(SECRETS[key], f"{protected}.{payload}".encode(), DIGESTS[json.loads(header)["alg"]]).digest()
    return protected, payload, base64url(tag)


def forms_of(protected: str, payload: str, signature: str) -> list[bytes]:
    """A token in compact, flattened and general form, in this with three signatures."""
    one = {"protected": protected, "signature": signature}
    json_forms = [{"payload": payload, **one}, {"payload": payload, "signatures": [one] * 3}]
    return [f"{protected}.{payload}.{signature}".encode(), *(json.dumps(it).encode() for it in json_forms)]


def judge_seeds() -> list[bytes]:
    """An octet that chooses a validator, and a token."""
    seeds = []
    for at, (header, claims) in enumerate((header, claims) for header in HEADERS for claims in CLAIMS):
        for number, form in enumerate(forms_of(*signed(header, claims, at % len(SIZES)))):
            seeds.append(bytes([(at + number) % 4]) + form)
    for path in [*sorted((TOP / "tests/tokens").glob("*.jwt")), *sorted((TOP / "examples").glob("*.jwt"))]:
        for form in forms_of(*path.read_text().strip().split(".")):
            seeds += [bytes([it]) + form for it in sorted({VALIDATORS.get(path.stem, 8), 8, 9})]
    return seeds + [bytes([number]) + it for it in NO_TOKENS for number in range(FIXED)]


def claims_seeds() -> list[bytes]:
    """Three octets, a header, a line feed, claims."""
    pairs = [(header, claims) for header in HEADERS for claims in CLAIMS]
    return [bytes([at % 4, form, at % 3]) + f"{header}\n{claims}".encode() for at, (header, claims) in enumerate(pairs) for form in range(3)]


def open_seeds() -> list[bytes]:
    """A policy, a line feed, a key set."""
    folders = [TOP / "examples", TOP / "tests/tokens"]
    policies = [it.read_bytes().strip() for folder in folders for it in sorted(folder.glob("*.policy"))] + list(POLICIES)
    sets = [it.read_bytes().strip() for folder in folders for it in sorted(folder.glob("*.keys"))] + list(KEY_SETS)
    pairs = [(policy, sets[(at + step) % len(sets)]) for at, policy in enumerate(policies) for step in (0, 5, 9)]
    return [policy.replace(b"\n", b" ") + b"\n" + keys for policy, keys in pairs]


def issue_seeds() -> list[bytes]:
    """Four octets, a typ, a line feed, claims."""
    types = (b"", b"JWT", "\u00e9\"\\".encode())
    numbers = [(alg, form) for alg in range(4) for form in range(4)]
    return [bytes([alg, form, alg, 0]) + typ + b"\n" + claims.encode() for alg, form in numbers for typ in types for claims in CLAIMS[:8]]


def access_seeds() -> list[bytes]:
    """An access rule, a line feed, claims."""
    rules = [it.read_bytes().strip() for it in sorted((TOP / "examples/access").glob("*.access"))] + list(RULES)
    claims = [line.encode() for it in sorted((TOP / "examples/access").glob("*.claims")) for line in it.read_text().splitlines()]
    return [rule + b"\n" + it for rule in rules for it in claims]


def calls_seeds() -> list[bytes]:
    """Four octets for each call."""
    chosen = random.Random(5)
    return [bytes(chosen.randrange(256) for _ in range(4 * chosen.randrange(2, 60))) for _ in range(200)]


def proof_lines() -> list[str]:
    """The tokens and proofs that the harness `holders` has: those that are held at its moment, and some others."""
    first, *rows = map(json.loads, (TOP / "tests/possession/cases.jsonl").read_text().splitlines())
    chosen = [it for it in rows if it["now"] == MOMENT and it["token"] and it["nonce"] is None and (it["answer"] == "held" or it["name"].startswith(("by-", "another-")))][:64]
    return [
        json.dumps(first["access_policy"]) + "\t" + json.dumps(first["policy"]),
        json.dumps(first["access_keys"]),
        *("\t".join(it[name] for name in ("method", "uri", "token", "proof")) for it in chosen),
    ]


def holders_seeds() -> list[bytes]:
    """Four octets for each call: a validator, a policy for proofs and a memory, then a token, its proof, both taken; and calls in any order."""
    begun = [[0, 0, 0, 0], [3, 0, 0, 0], [8, 3, 0, 0]]
    good = [begun + [[1, row, 0, 0], [4, row, 0, 0], [7, 0, 0, 0], [10, 7, 1, 60], [9, 0, 0, 0], [11, row, 9, 0], [12, row, 1, 0], [13, 0, 0, 0]] for row in range(16)]
    chosen = random.Random(7)
    mixed = [begun + [[chosen.randrange(256) for _ in range(4)] for _ in range(40)] for _ in range(100)]
    return [bytes(sum(it, [])) for it in good + mixed]


def around_seeds() -> list[bytes]:
    """An octet that names a call, one of numbers, and three texts with line feeds between them."""
    token = base64url(SECRETS[0])
    texts = {
        0: [f"{scheme}{token}" for scheme in ("Bearer ", "DPoP ", "bearer  ", "dpop\t", "Basic ", "Bearer")],
        1: [""],
        2: ["api\nread write\nES256 EdDSA", 'a"b\n\n', "\n\u00e9\n"],
        3: ["a secret of more than 32 octets, for nonces\n12345"],
        4: ["https://a.example:8443/x/y?z", "https://[::1]/keys", "http://h/", "https://user@h/", "https://h:65536/#x"],
        5: [f"https://a.example/x\n{it}" for it in ("/new", "new", "//a.example/y?z", "https://A.EXAMPLE:443/y", "http://a.example/", "../x", "")],
        6: ['https://a.example/r\n{"issuer":"https://a.example/r","jwks_uri":"https://a.example/keys"}', 'https://a?b\n{"issuer":7}', "x\n[]"],
    }
    return [bytes([what, number]) + it.encode() for what, found in texts.items() for it in found for number in (0, 1, 3, 21, 0x55, 0xFF)]


def main() -> None:
    out = pathlib.Path(sys.argv[1])
    made = {"judge": judge_seeds, "claims": claims_seeds, "open": open_seeds, "issue": issue_seeds, "calls": calls_seeds, "access": access_seeds}
    made |= {"holders": holders_seeds, "around": around_seeds}
    for name, seeds in made.items():
        (out / name).mkdir(parents=True, exist_ok=True)
        for number, seed in enumerate(seeds()):
            (out / name / str(number)).write_bytes(seed)
    lines = [line for word in WORDS.split() for line in (f'"\\x22{word}\\x22"', f'"{word}"')]
    (out / "proofs").write_text("".join(f"{it}\n" for it in proof_lines()))
    (out / "jose.dict").write_text("".join(f"{it}\n" for it in [*lines, *(f'"{it}"' for it in SPELLED)]))


main()
