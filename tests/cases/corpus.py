"""The cases that every caller answers: what is judged, made from the tokens of the repository and of the RFCs by changes that are named here.

A case is a policy, a key set, a moment and a token, or what is to be issued. Nothing here says what the answer is.
"""
import json
import pathlib
from typing import Iterator, NamedTuple, Union

from signing import ALGORITHMS, CURVES, ED_L, RSA_P, RSA_Q, base64url, key_text, octets_of, sign

TOP = pathlib.Path(__file__).resolve().parent.parent.parent
NOW = 1300819379
CLAIMS = b'{"iss":"joe","sub":"ann","exp":1300819380}'
STORED = [it.with_suffix("") for folder in ("tests/tokens", "examples") for it in sorted((TOP / folder).glob("*.jwt"))]
# One octet of each class that base64url, the forms and JSON tell apart.
CLASSES = {
    "nul": 0x00,
    "tab": 0x09,
    "line-feed": 0x0A,
    "space": 0x20,
    "quote": 0x22,
    "plus": 0x2B,
    "minus": 0x2D,
    "period": 0x2E,
    "slash": 0x2F,
    "digit": 0x30,
    "equals": 0x3D,
    "A": 0x41,
    "Z": 0x5A,
    "backslash": 0x5C,
    "underscore": 0x5F,
    "a": 0x61,
    "z": 0x7A,
    "brace": 0x7B,
    "tilde": 0x7E,
    "delete": 0x7F,
    "continuation": 0x80,
    "first-of-two": 0xC3,
    "never-in-UTF-8": 0xFF,
}


class Judging(NamedTuple):
    """A token to judge, at a moment in seconds since 1970-01-01T00:00:00Z."""

    name: str
    policy: bytes
    keys: bytes
    now: int
    token: bytes


class Denying(NamedTuple):
    """A token to judge, and an access rule to hold against its claims where it is accepted."""

    name: str
    policy: bytes
    keys: bytes
    now: int
    rule: bytes
    token: bytes


class Issuing(NamedTuple):
    """Claims to issue: `alg`, `form` and `key` are the numbers of fowharimu.h."""

    name: str
    policy: bytes
    keys: bytes
    alg: int
    form: int
    key: int
    typ: bytes
    claims: bytes


Case = Union[Judging, Denying, Issuing]


def written(value: object) -> bytes:
    """A value as JSON text without spaces."""
    return json.dumps(value, separators=(",", ":")).encode()


def policy_of(*algs: str, **members: object) -> bytes:
    """A policy of version 2 for these algorithms."""
    return written({"version": 2, "algs": list(algs), **members})


def key_set(*keys: str) -> bytes:
    """A key set of these keys, each a JSON text."""
    return ('{"keys":[' + ",".join(keys) + "]}").encode()


def with_members(key: str, **members: object) -> str:
    """A key with further members, or with others in their place."""
    return json.dumps({**json.loads(key), **members}, separators=(",", ":"))


def signed(alg: str, header: Union[bytes, dict], payload: bytes = CLAIMS) -> tuple[str, str, str]:
    """The three texts of a token that this algorithm's key signed, whatever its header says."""
    first = base64url(header if isinstance(header, bytes) else written(header))
    second = base64url(payload)
    return first, second, base64url(sign(alg, f"{first}.{second}".encode()))


def compact(alg: str, header: Union[bytes, dict, None] = None, payload: bytes = CLAIMS) -> bytes:
    """A token in compact form."""
    return ".".join(signed(alg, {"alg": alg} if header is None else header, payload)).encode()


# ---- the stored tokens, changed


def read(name: pathlib.Path) -> tuple[bytes, bytes, bytes]:
    """The policy, the key set and the token of a name."""
    return tuple(name.with_suffix(it).read_bytes() for it in (".policy", ".keys", ".jwt"))


def octets() -> Iterator[Case]:
    """Each token with one octet changed: each class, at the front, in the middle and at the end of each part."""
    for name in STORED:
        policy, keys, token = read(name)
        yield Judging(f"octets/{name.name}/as-it-is", policy, keys, NOW, token)
        at = 0
        for part, text in zip(("header", "payload", "signature"), token.split(b".")):
            for place, offset in (("first", 0), ("middle", len(text) // 2), ("last", len(text) - 1)):
                for kind, octet in CLASSES.items():
                    changed = token[: at + offset] + bytes([octet]) + token[at + offset + 1 :]
                    yield Judging(f"octets/{name.name}/{part}/{place}/{kind}", policy, keys, NOW, changed)
            at += len(text) + 1


def part_changes(texts: list[bytes], i: int) -> Iterator[tuple[str, list[bytes]]]:
    """Part `i` cut, lengthened, dropped and doubled."""
    part = texts[i]
    for what, other in {
        "without-its-first": part[1:],
        "without-its-last": part[:-1],
        "its-first-half": part[: len(part) // 2],
        "its-second-half": part[len(part) // 2 :],
        "empty": b"",
        "doubled-in-place": part + part,
        "padded": part + b"=",
        "A-before": b"A" + part,
        "AA-after": part + b"AA",
        "AAAA-after": part + b"AAAA",
    }.items():
        yield what, texts[:i] + [other] + texts[i + 1 :]
    yield "dropped", texts[:i] + texts[i + 1 :]
    yield "doubled", texts[: i + 1] + texts[i:]


def parts() -> Iterator[Case]:
    """Each token with a part changed, with parts exchanged, with five parts, and with a part of another token."""
    others = {name.name: read(name)[2].split(b".") for name in STORED}
    for name in STORED:
        policy, keys, token = read(name)
        texts, changes = token.split(b"."), []
        for i, part in enumerate(("header", "payload", "signature")):
            changes += [(f"{part}/{what}", other) for what, other in part_changes(texts, i)]
            changes += [(f"{part}/of-{it}", texts[:i] + [other[i]] + texts[i + 1 :]) for it, other in list(others.items())[::4]]
        for i, j, k in ((0, 2, 1), (1, 0, 2), (1, 2, 0), (2, 0, 1), (2, 1, 0)):
            changes.append((f"exchanged/{i}{j}{k}", [texts[i], texts[j], texts[k]]))
        changes.append(("five", texts + texts[:2]))
        for what, other in changes:
            yield Judging(f"parts/{name.name}/{what}", policy, keys, NOW, b".".join(other))
        for what, other in (("line-feed-after", token + b"\n"), ("two-line-feeds-after", token + b"\n\n"), ("space-before", b" " + token), ("twice", token + token)):
            yield Judging(f"parts/{name.name}/{what}", policy, keys, NOW, other)


# ---- each algorithm, each form, both modes


def entry(alg: str, **members: object) -> dict:
    """One signature of the JSON form (RFC 7515, section 7.2.1)."""
    first, _, third = signed(alg, {"alg": alg})
    return {"protected": first, "signature": third, **members}


def spoilt(one: dict) -> dict:
    """A signature whose first character is another."""
    text = one["signature"]
    return {**one, "signature": ("B" if text[0] == "A" else "A") + text[1:]}


def json_forms(alg: str) -> Iterator[tuple[str, bytes]]:
    """A token of this algorithm in the JSON form, as it should be and not."""
    one, payload = entry(alg), base64url(CLAIMS)
    flat = {"payload": payload, **one}
    yield "flattened", written(flat)
    yield "flattened-spaced", json.dumps(flat, indent=2).encode()
    yield "flattened-spoilt", written({"payload": payload, **spoilt(one)})
    yield "flattened-with-header", written({**flat, "header": {"x": 1}})
    yield "flattened-with-overlap", written({**flat, "header": {"alg": alg}})
    yield "flattened-header-no-object", written({**flat, "header": [1]})
    yield "flattened-with-more", written({**flat, "more": {"a": [1, 2]}})
    yield "both-forms", written({**flat, "signatures": [one]})
    for member in flat:
        yield f"flattened-without-{member}", written({it: flat[it] for it in flat if it != member})
        yield f"flattened-{member}-twice", written(flat)[:-1] + f',"{member}":"{flat[member]}"}}'.encode()
        yield f"flattened-{member}-no-text", written({**flat, member: 1})
        yield f"flattened-{member}-padded", written({**flat, member: flat[member] + "="})
    for count, what in ((1, "general"), (2, "general-of-two"), (0, "general-of-none"), (9, "general-of-nine")):
        yield what, written({"payload": payload, "signatures": [one] * count})
    yield "general-first-spoilt", written({"payload": payload, "signatures": [spoilt(one), one]})
    yield "general-second-spoilt", written({"payload": payload, "signatures": [one, spoilt(one)]})
    yield "general-all-spoilt", written({"payload": payload, "signatures": [spoilt(one), spoilt(one)]})
    yield "general-second-without-signature", written({"payload": payload, "signatures": [one, {"protected": one["protected"]}]})
    yield "general-second-unprotected-alg", written({"payload": payload, "signatures": [one, {"header": {"alg": alg}, "signature": one["signature"]}]})


def forms() -> Iterator[Case]:
    """Each algorithm in each form, in both modes, by its key, by another's and by none."""
    for alg in ALGORITHMS:
        keys = key_set(key_text(alg))
        for mode in ("any", "all"):
            policy = policy_of(alg, mode=mode, max_calls=16)
            yield Judging(f"forms/{alg}/{mode}/compact", policy, keys, NOW, compact(alg))
            for what, token in json_forms(alg):
                yield Judging(f"forms/{alg}/{mode}/{what}", policy, keys, NOW, token)
        for other in ALGORITHMS:
            header = {"alg": other}
            yield Judging(f"forms/{alg}/says-{other}", policy_of(*ALGORITHMS, max_calls=16), keys, NOW, compact(alg, header))
            yield Judging(f"forms/{alg}/allows-{other}", policy_of(other, max_calls=16), keys, NOW, compact(alg))
            yield Judging(f"forms/{alg}/key-of-{other}", policy_of(alg, max_calls=16), key_set(key_text(other)), NOW, compact(alg))
        yield Judging(f"forms/{alg}/no-keys", policy_of(alg), key_set(), NOW, compact(alg))
    yield from mixed_forms()


def mixed_forms() -> Iterator[Case]:
    """Tokens signed by each algorithm."""
    entries, keys = [entry(it) for it in ALGORITHMS], key_set(*map(key_text, ALGORITHMS))
    for mode in ("any", "all"):
        policy = policy_of(*ALGORITHMS, mode=mode, max_signatures=32, limit=65536, max_calls=64)
        for i, alg in enumerate(ALGORITHMS):
            rest = entries[i:] + entries[:i]
            for what, found in (("as-it-is", rest), ("first-spoilt", [spoilt(rest[0]), *rest[1:]]), ("rest-spoilt", [rest[0], *map(spoilt, rest[1:])])):
                yield Judging(f"forms/mixed/{mode}/{alg}-first/{what}", policy, keys, NOW, written({"payload": base64url(CLAIMS), "signatures": found}))


# ---- signatures

# Claims `{"n":N}` under which the signature begins with a zero octet (by ES512 with two): as a number it is the same without it.
ZERO_FIRST = {"RS256": 75, "PS256": 337, "PS384": 206, "PS512": 183, "ES256": 500, "ES384": 15, "ES512": 18}


def other_lengths(octets: bytes) -> Iterator[tuple[str, bytes]]:
    """A signature with octets more and fewer."""
    yield "as-it-is", octets
    yield "without-its-first", octets[1:]
    yield "without-its-last", octets[:-1]
    yield "zero-before", b"\0" + octets
    yield "zero-after", octets + b"\0"
    yield "empty", b""
    yield "twice", octets + octets


def same_remainders(alg: str, octets: bytes) -> Iterator[tuple[str, bytes]]:
    """Numbers that are the same for the modulus or the order, and those at the edges of their range."""
    if alg == "EdDSA":
        s = int.from_bytes(octets[32:], "little")
        yield "S-and-order", octets[:32] + (s + ED_L).to_bytes(32, "little")
        yield "S-zero", octets[:32] + bytes(32)
        yield "R-zero", bytes(32) + octets[32:]
        yield "R-neutral", b"\1" + bytes(63)
        return
    if alg[:2] != "ES":
        number, modulus = int.from_bytes(octets, "big"), RSA_P * RSA_Q
        for what, value in (("and-modulus", number + modulus), ("modulus-less", modulus - number), ("zero", 0), ("one", 1), ("modulus", modulus), ("modulus-less-one", modulus - 1)):
            if value < 1 << 2048:
                yield what, value.to_bytes(256, "big")
        return
    width, order = len(octets) // 2, CURVES[alg][3]
    r, s = (int.from_bytes(it, "big") for it in (octets[:width], octets[width:]))
    numbers = {"S-negated": (r, order - s), "R-negated": (order - r, s), "R-zero": (0, s), "S-zero": (r, 0), "both-zero": (0, 0), "R-order": (order, s)}
    numbers |= {"S-order": (r, order), "both-one": (1, 1), "exchanged": (s, r), "R-and-order": (r + order, s), "S-and-order": (r, s + order)}
    for what, (one, other) in numbers.items():
        if max(one, other) < 1 << 8 * width:
            yield what, one.to_bytes(width, "big") + other.to_bytes(width, "big")


def signatures() -> Iterator[Case]:
    """Signatures of each algorithm of other lengths, and of other numbers; those too that begin with a zero octet."""
    for alg in ALGORITHMS:
        policy, keys = policy_of(alg, max_calls=8), key_set(key_text(alg))
        payloads = {"usual": CLAIMS} | ({"zero-first": b'{"n":%d}' % ZERO_FIRST[alg]} if alg in ZERO_FIRST else {})
        for what, payload in payloads.items():
            first, second, third = signed(alg, {"alg": alg}, payload)
            changes = list(other_lengths(octets_of(third)))
            if alg[:2] != "HS":
                changes += same_remainders(alg, octets_of(third))
            for change, octets in changes:
                token = f"{first}.{second}.{base64url(octets)}".encode()
                yield Judging(f"signatures/{alg}/{what}/{change}", policy, keys, NOW, token)


# ---- headers

HEADERS = {
    "empty": {},
    "alg-null": {"alg": None},
    "alg-number": {"alg": 1},
    "alg-list": {"alg": ["{alg}"]},
    "alg-none": {"alg": "none"},
    "alg-None": {"alg": "None"},
    "alg-empty": {"alg": ""},
    "alg-unknown": {"alg": "HS257"},
    "alg-small": {"alg": "hs256"},
    "alg-spaced": {"alg": "{alg} "},
    "typ": {"alg": "{alg}", "typ": "JWT"},
    "typ-null": {"alg": "{alg}", "typ": None},
    "typ-number": {"alg": "{alg}", "typ": 1},
    "typ-other": {"alg": "{alg}", "typ": "at+jwt"},
    "typ-application": {"alg": "{alg}", "typ": "application/JWT"},
    "cty-JWT": {"alg": "{alg}", "cty": "JWT"},
    "cty-jwt": {"alg": "{alg}", "cty": "jwt"},
    "cty-application": {"alg": "{alg}", "cty": "application/jwt"},
    "cty-other": {"alg": "{alg}", "cty": "json"},
    "cty-number": {"alg": "{alg}", "cty": 1},
    "kid": {"alg": "{alg}", "kid": "one"},
    "kid-other": {"alg": "{alg}", "kid": "two"},
    "kid-empty": {"alg": "{alg}", "kid": ""},
    "kid-number": {"alg": "{alg}", "kid": 1},
    "kid-null": {"alg": "{alg}", "kid": None},
    "jku": {"alg": "{alg}", "jku": "https://keys.example"},
    "x5u": {"alg": "{alg}", "x5u": "https://keys.example"},
    "jku-null": {"alg": "{alg}", "jku": None},
    "jwk": {"alg": "{alg}", "jwk": {"kty": "oct", "k": "AA"}},
    "x5c": {"alg": "{alg}", "x5c": ["AA"]},
    "enc": {"alg": "{alg}", "enc": "A128GCM"},
    "enc-null": {"alg": "{alg}", "enc": None},
    "b64-false": {"alg": "{alg}", "b64": False},
    "b64-true": {"alg": "{alg}", "b64": True, "crit": ["b64"]},
    "crit-empty": {"alg": "{alg}", "crit": []},
    "crit-text": {"alg": "{alg}", "crit": "exp"},
    "crit-number": {"alg": "{alg}", "crit": [1]},
    "crit-absent-name": {"alg": "{alg}", "crit": ["ext"]},
    "crit-twice": {"alg": "{alg}", "crit": ["ext", "ext"], "ext": 1},
    "crit-registered": {"alg": "{alg}", "crit": ["alg"]},
    "crit-empty-name": {"alg": "{alg}", "crit": [""], "": 1},
    "crit-understood": {"alg": "{alg}", "crit": ["ext"], "ext": 1},
    "crit-unknown": {"alg": "{alg}", "crit": ["other"], "other": 1},
    "crit-both": {"alg": "{alg}", "crit": ["ext", "other"], "ext": 1, "other": 1},
    "more": {"alg": "{alg}", "more": [1, {"a": None}]},
}
HEADER_TEXTS = {
    "alg-twice": b'{"alg":"%s","alg":"%s"}',
    "alg-twice-escaped": b'{"alg":"%s","\\u0061lg":"%s"}',
    "alg-escaped": b'{"\\u0061lg":"%s"}',
    "deep-twice": b'{"alg":"%s","x":{"a":1,"a":2}}',
    "no-object": b'["%s"]',
    "text": b'"%s"',
    "empty": b"",
    "cut": b'{"alg":"%s"',
    "more-behind": b'{"alg":"%s"} x',
    "spaced": b' { "alg" : "%s" } ',
    "byte-order-mark": b'\xef\xbb\xbf{"alg":"%s"}',
    "no-UTF-8": b'{"alg":"%s","x":"\xff"}',
    "surrogate": b'{"alg":"%s","x":"\\ud800"}',
    "comma": b'{"alg":"%s",}',
    "single-quotes": b"{'alg':'%s'}",
}


def headers() -> Iterator[Case]:
    """Headers that are signed as they are, under four policies."""
    for alg in ("HS256", "RS256", "PS256", "ES256", "EdDSA"):
        policies = {
            "plain": policy_of(alg, understood=["ext"], max_calls=8),
            "typ": policy_of(alg, typ="JWT", understood=["ext"], max_calls=8),
            "need-kid": policy_of(alg, need_kid=True, max_calls=8),
            "thumb-kid": policy_of(alg, thumb_kid=True, max_calls=8),
        }
        keys = key_set(with_members(key_text(alg), kid="one"))
        for what, policy in policies.items():
            for name, header in HEADERS.items():
                text = written(header).replace(b"{alg}", alg.encode())
                yield Judging(f"headers/{alg}/{what}/{name}", policy, keys, NOW, compact(alg, text))
        for name, text in HEADER_TEXTS.items():
            header = text.replace(b"%s", alg.encode())
            yield Judging(f"headers/{alg}/text/{name}", policies["plain"], keys, NOW, compact(alg, header))


# ---- claims

VALUES = ["null", "true", "false", "0", "-0", "1", "-1", "1.0", "1.5", "1e3", "1E400", "1300819379", "1300819380", "1300819381", "9223372036854775807"]
VALUES += ["9223372036854775808", "-9223372036854775808", "-9223372036854775809", "123456789012345678901234567890", '""', '"joe"', '"Joe"', '"\\u006aoe"']
VALUES += ['"joe "', '"\\u0000"', "[]", '["joe"]', '["ann","joe"]', '["joe",1]', '[["joe"]]', "{}", '{"joe":1}', '"\\ud83d\\ude00"', '"\u00e9"']
REGISTERED = ["iss", "sub", "aud", "exp", "nbf", "iat", "jti", "role"]
PAYLOADS = {
    "empty": b"",
    "null": b"null",
    "list": b"[]",
    "text": b'"joe"',
    "number": b"1",
    "empty-object": b"{}",
    "spaced": b' {\n"iss" :\t"joe" }\r\n',
    "twice": b'{"iss":"joe","iss":"joe"}',
    "twice-escaped": b'{"iss":"joe","\\u0069ss":"joe"}',
    "twice-deep": b'{"iss":"joe","x":[{"a":1,"a":1}]}',
    "cut": b'{"iss":"joe"',
    "comma": b'{"iss":"joe",}',
    "behind": b'{"iss":"joe"}x',
    "two": b"{}{}",
    "comment": b'{"iss":"joe"}/**/',
    "no-UTF-8": b'{"iss":"joe","x":"\xff"}',
    "overlong": b'{"iss":"joe","x":"\xc0\xaf"}',
    "surrogate": b'{"iss":"joe","x":"\\ud800"}',
    "surrogates-exchanged": b'{"iss":"joe","x":"\\ude00\\ud83d"}',
    "encoded-surrogate": b'{"iss":"joe","x":"\xed\xa0\x80"}',
    "control": b'{"iss":"joe","x":"\x01"}',
    "byte-order-mark": b'\xef\xbb\xbf{"iss":"joe"}',
    "leading-zero": b'{"iss":"joe","x":01}',
    "plus": b'{"iss":"joe","x":+1}',
    "hex": b'{"iss":"joe","x":0x1}',
    "NaN": b'{"iss":"joe","x":NaN}',
    "infinite": b'{"iss":"joe","x":1e400}',
    "tiny": b'{"iss":"joe","x":1e-400}',
    "digits": b'{"iss":"joe","x":' + b"1" * 300 + b"}",
    "too-many-digits": b'{"iss":"joe","x":' + b"1" * 400 + b"}",
    "fraction": b'{"iss":"joe","x":0.1000000000000000055511151231257827}',
    "order": b'{"z":1,"iss":"joe","a":2,"m":{"z":1,"a":2}}',
    "empty-name": b'{"iss":"joe","":1}',
    "escapes": b'{"iss":"joe","x":"\\"\\\\\\/\\b\\f\\n\\r\\t\\u0000"}',
    "astral": '{"iss":"joe","x":"\U0001f600\u00e9e\u0301"}'.encode(),
    **{f"nested-{depth}": b'{"iss":"joe","x":' + b"[" * depth + b"]" * depth + b"}" for depth in (1, 64, 126, 127, 128, 200)},
}


def claims() -> Iterator[Case]:
    """Each registered claim with each kind of value, payloads of each shape, and dates at their edges."""
    keys = key_set(key_text("HS256"))
    policies = {"plain": policy_of("HS256"), "asking": policy_of("HS256", issuers=["joe"], audiences=["joe"], required=["role"], leeway=1, max_age=100)}
    for what, policy in policies.items():
        for name in REGISTERED:
            for value in VALUES:
                members = {it: '"joe"' for it in ("iss", "aud", "role")} | {"iat": str(NOW)} if what == "asking" else {}
                text = "{" + ",".join(f'"{it}":{one}' for it, one in {**members, name: value}.items()) + "}"
                yield Judging(f"claims/{what}/{name}/{value.encode('unicode_escape').decode()}", policy, keys, NOW, compact("HS256", None, text.encode()))
    for what, payload in PAYLOADS.items():
        yield Judging(f"claims/payload/{what}", policies["plain"], keys, NOW, compact("HS256", None, payload))
    yield from missing_claims(keys)
    yield from dates(keys)


def missing_claims(keys: bytes) -> Iterator[Case]:
    """Claims that the policy demands, there and not, of each name's kind."""
    for name in [*REGISTERED, "", "\u00e9", "a\"b", "x" * 300]:
        policy = policy_of("HS256", required=[name], limit=65536)
        for what, value in (("absent", {}), ("there", {name: "1" if name in ("iss", "sub", "aud", "jti") else 1300819380}), ("null", {name: None})):
            yield Judging(f"claims/required/{name.encode('unicode_escape').decode()[:20]}/{what}", policy, keys, NOW, compact("HS256", None, written(value)))
    for name in ("issuers", "audiences"):
        for value in ({}, {"iss": "joe", "aud": "joe"}, {"iss": "JOE", "aud": ["JOE"]}, {"aud": []}, {"aud": ["ann", "joe"]}, {"iss": ""}):
            yield Judging(f"claims/{name}/{json.dumps(value)}", policy_of("HS256", **{name: ["joe"]}), keys, NOW, compact("HS256", None, written(value)))
    yield Judging("claims/audience/none-allowed", policy_of("HS256"), keys, NOW, compact("HS256", None, b'{"aud":"joe"}'))


def dates(keys: bytes) -> Iterator[Case]:
    """Moments on both sides of each date, with and without leeway, and at the ends of 64 bits."""
    least, most = -(2**63), 2**63 - 1
    for leeway in (0, 1, 60, 86400):
        for name in ("exp", "nbf", "iat"):
            for shift in (-86401, -86400, -61, -60, -59, -2, -1, 0, 1, 2, 59, 60, 61, 86400, 86401):
                token = compact("HS256", None, written({name: NOW}))
                yield Judging(f"claims/dates/{name}/{leeway}/{shift:+}", policy_of("HS256", leeway=leeway), keys, NOW + shift, token)
        for shift in (-1, 0, 99, 100, 101, 159, 160, 161):
            token = compact("HS256", None, written({"iat": NOW}))
            yield Judging(f"claims/dates/max_age/{leeway}/{shift:+}", policy_of("HS256", leeway=leeway, max_age=100), keys, NOW + shift, token)
        for name in ("exp", "nbf", "iat"):
            for date in (least, least + 1, -1, 0, most - 1, most):
                for now in (least, -1, 0, most):
                    yield Judging(f"claims/ends/{name}/{leeway}/{date}/{now}", policy_of("HS256", leeway=leeway, max_age=1), keys, now, compact("HS256", None, written({"iat": 0, name: date})))


# ---- policies and key sets

KINDS: list[object] = [None, True, False, 0, 1, 2, 3, -1, 1.5, "", "any", "all", "HS256", [], [1], [""], ["HS256"], ["HS256", "HS256"], ["none"], ["b64"], ["alg"], {}, 8192, 32, 33]
KINDS += [86400, 86401, 1048576, 1048577, 4294967295, 4294967296, 32768, 32769, 10**12, 10**12 + 1, 10**30]
MEMBERS = ["version", "algs", "mode", "limit", "work", "max_signatures", "line_feed", "typ", "need_kid", "thumb_kid", "understood", "issuers", "audiences"]
MEMBERS += ["required", "leeway", "max_age", "max_calls", "", "Algs", "\u00e9"]
POLICY_TEXTS = {
    "empty": b"",
    "null": b"null",
    "list": b"[]",
    "empty-object": b"{}",
    "no-algorithms": b'{"version":2,"algs":[]}',
    "twice": b'{"algs":["HS256"],"algs":["HS256"]}',
    "twice-escaped": b'{"algs":["HS256"],"\\u0061lgs":["HS256"]}',
    "twice-deep": b'{"algs":["HS256"],"x":{"a":1,"a":1}}',
    "escaped": b'{"\\u0061lgs":["HS256"]}',
    "cut": b'{"algs":["HS256"]',
    "behind": b'{"algs":["HS256"]}x',
    "no-UTF-8": b'{"algs":["HS256"],"typ":"\xff"}',
    "calls-in-version-1": b'{"algs":["HS256"],"max_calls":1}',
    "calls-in-version-2.0": b'{"version":2.0,"algs":["HS256"],"max_calls":1}',
    "two-unknown": b'{"algs":["HS256"],"b":1,"a":1}',
    "nested": b'{"algs":["HS256"],"x":' + b"[" * 200 + b"]" * 200 + b"}",
    "longest": b'{"algs":["HS256"]}'.ljust(65536),
    "too-long": b'{"algs":["HS256"]}'.ljust(65537),
}


def policies() -> Iterator[Case]:
    """Each member of a policy with each kind of value, and texts that are none."""
    keys, token = key_set(key_text("HS256")), compact("HS256")
    for member in MEMBERS:
        for value in KINDS:
            policy = written({"version": 2, "algs": ["HS256"], member: value})
            yield Judging(f"policies/{member}/{json.dumps(value)}", policy, keys, NOW, token)
    for what, policy in POLICY_TEXTS.items():
        yield Judging(f"policies/text/{what}", policy, keys, NOW, token)


def key_texts() -> Iterator[tuple[str, bytes]]:
    """Texts that are a key set, and that are none."""
    good = key_text("HS256")
    yield "empty", b""
    yield "null", b"null"
    yield "list", f"[{good}]".encode()
    yield "one-key", good.encode()
    yield "no-list", f'{{"keys":{good}}}'.encode()
    yield "twice", key_set(good)[:-1] + b',"keys":[]}'
    yield "twice-deep", key_set(good[:-1] + ',"kty":"oct"}')
    yield "cut", key_set(good)[:-1]
    yield "behind", key_set(good) + b"x"
    yield "no-UTF-8", key_set(good)[:-1] + b',"x":"\xff"}'
    yield "more", key_set(good)[:-1] + b',"x":1}'
    yield "entries-no-objects", key_set("1", "null", "[]", '"x"', good)
    yield "skipped-before", key_set('{"kty":"what"}', "{}", '{"kty":"oct"}', '{"kty":"oct","k":"A"}', '{"kty":"RSA","n":"AQAB","e":"AQAB"}', good)
    yield "nested", key_set(good)[:-1] + b',"x":' + b"[" * 200 + b"]" * 200 + b"}"
    for member, value in (("use", "sig"), ("use", "enc"), ("use", 1), ("key_ops", ["verify"]), ("key_ops", ["sign"]), ("key_ops", []), ("alg", "HS256"), ("alg", "HS512"), ("alg", 1), ("kid", 1), ("x", 1)):
        yield f"key-{member}-{json.dumps(value)}", key_set(with_members(good, **{member: value}))
    for octets in (0, 1, 31, 32, 64, 65, 128, 129, 4096, 4097):
        yield f"key-of-{octets}", key_set(json.dumps({"kty": "oct", "k": base64url(bytes(octets))}), good)
    yield "good-last", key_set(*(json.dumps({"kty": "oct", "k": base64url(bytes([i]) * 32)}) for i in range(9)), good)
    yield "good-twice", key_set(good, good)
    yield "of-1024", key_set(*["{}"] * 1023, good)
    yield "of-1025", key_set(*["{}"] * 1024, good)
    yield "too-long", key_set(good).ljust(4194305)


def key_sets() -> Iterator[Case]:
    """Key sets of each shape, and of each kind a key with a member changed."""
    for what, keys in key_texts():
        yield Judging(f"key-sets/{what}", policy_of("HS256"), keys, NOW, compact("HS256"))
    for alg in ("RS256", "PS512", "ES256", "ES384", "ES512", "EdDSA"):
        key = json.loads(key_text(alg))
        for member, text in key.items():
            octets = octets_of(text) if member not in ("kty", "crv") else b""
            for what, value in {
                "null": None,
                "empty": "",
                "padded": text + "=",
                "cut": base64url(octets[:-1]),
                "zero-before": base64url(b"\0" + octets),
                "zero-after": base64url(octets + b"\0"),
                "zeros": base64url(bytes(len(octets))),
                "ones": base64url(b"\xff" * len(octets)),
                "one-bit": base64url(octets[:-1] + bytes([(octets or b"\0")[-1] ^ 1])),
                "other": "OKP" if member == "kty" else "P-256" if member == "crv" else "AQ",
            }.items():
                yield Judging(f"key-sets/{alg}/{member}/{what}", policy_of(alg, max_calls=8), key_set(with_members(key_text(alg), **{member: value})), NOW, compact(alg))
        yield Judging(f"key-sets/{alg}/good-last", policy_of(alg, max_calls=8), key_set(with_members(key_text(alg), kid="a"), key_text("HS256"), key_text(alg)), NOW, compact(alg, {"alg": alg, "kid": "a"}))


# ---- ceilings


def ceilings() -> Iterator[Case]:
    """Each ceiling of a policy, reached and not: the limit, the signatures, the calls, the octets of HMAC."""
    good = key_text("HS256")
    wrong = [json.dumps({"kty": "oct", "k": base64url(bytes([i]) * 32)}) for i in range(9)]
    token = compact("HS256")
    for limit in (1, len(token) - 1, len(token), len(token) + 1):
        for end in (b"", b"\n", b"\n\n"):
            for line_feed in (False, True):
                yield Judging(f"ceilings/limit/{limit}/{line_feed}/{len(end)}", policy_of("HS256", limit=limit, line_feed=line_feed), key_set(good), NOW, token + end)
    yield Judging("ceilings/limit/default", policy_of("HS256"), key_set(good), NOW, b"a" * 8193)
    yield Judging("ceilings/limit/default-reached", policy_of("HS256"), key_set(good), NOW, b"a" * 8192)
    yield Judging("ceilings/limit/no-octets", policy_of("HS256"), key_set(good), NOW, b"")
    for alg in ("HS256", "RS256", "ES256", "EdDSA"):
        one = entry(alg)
        for mode in ("any", "all"):
            for most in (1, 2, 3, 8, 32):
                for count in (1, 2, 3, 9, 33):
                    many = written({"payload": base64url(CLAIMS), "signatures": [spoilt(one)] * (count - 1) + [one]})
                    for calls in (0, 2, 32768):
                        policy = policy_of(alg, mode=mode, max_signatures=most, max_calls=calls, limit=65536)
                        yield Judging(f"ceilings/signatures/{alg}/{mode}/{most}/{count}/{calls}", policy, key_set(key_text(alg)), NOW, many)
    for calls in (0, 1, 5, 9, 10, 11):
        yield Judging(f"ceilings/calls/{calls}", policy_of("HS256", max_calls=calls), key_set(*wrong, good), NOW, token)
    for work in (0, 1, 100, 200, 300, 1000, 2000, 2200, 2300, 2400, 3000):
        for count in (0, 1, 9):
            yield Judging(f"ceilings/work/{work}/{count}", policy_of("HS256", work=work), key_set(*wrong[:count], good), NOW, token)
    yield from ceilings_by_default()


def other_moduli(count: int) -> list[str]:
    """So many RSA keys, that of RS256 with another modulus each: nobody signs by them."""
    n = json.loads(key_text("RS256"))["n"]
    return [with_members(key_text("RS256"), n=f"{n[:20]}{base64url(it.to_bytes(3, 'big'))}{n[24:]}") for it in range(count)]


def ceilings_by_default() -> Iterator[Case]:
    """What bounds the tries where a policy names no ceiling on them: 64, where it allows an algorithm with public keys, and else nothing."""
    many = written({"payload": base64url(CLAIMS), "signatures": [entry("RS256")] * 32})
    keys = key_set(*other_moduli(1024))
    for what, policy in (
        ("none", policy_of("RS256", max_signatures=32, limit=65536)),
        ("none-in-version-1", written({"algs": ["RS256"], "max_signatures": 32, "limit": 65536})),
        ("65", policy_of("RS256", max_signatures=32, limit=65536, max_calls=65)),
    ):
        yield Judging(f"ceilings/by-default/32-signatures-1024-keys/{what}", policy, keys, NOW, many)
    for place in (63, 64):
        yield Judging(f"ceilings/by-default/good-key-at/{place}", policy_of("RS256"), key_set(*other_moduli(place), key_text("RS256")), NOW, compact("RS256"))
    secrets = [json.dumps({"kty": "oct", "k": base64url(bytes([i]) * 32)}) for i in range(70)]
    for algs in (("HS256",), ("HS256", "RS256")):
        yield Judging(f"ceilings/by-default/70-secrets/{len(algs)}", policy_of(*algs), key_set(*secrets, key_text("HS256")), NOW, compact("HS256"))


# ---- access rules

# Claims as issuers write them, and claims that grant nothing: each beside `iss` and `exp`.
GRANTS: dict[str, dict] = {
    "none": {},
    "rfc-9068": {"client_id": "s6BhdRkqt3", "scope": "openid profile reademail"},
    "keycloak": {"azp": "gateway", "realm_access": {"roles": ["offline_access", "editor"]}, "resource_access": {"a/b~c": {"roles": ["x"]}}, "scope": "email profile"},
    "entra": {"scp": "Files.Read user_impersonation", "roles": ["Task.Read", "Task.Write"], "tid": "72f9", "ver": "2.0"},
    "cognito": {"client_id": "57ab", "token_use": "access", "scope": "aws.cognito.signin.user.admin shop/read", "cognito:groups": ["staff"]},
    "identity": {"aud": ["s6BhdRkqt3", "other"], "azp": "s6BhdRkqt3", "email_verified": True, "auth_time": 1300819370},
    "provisioned": {"roles": [{"value": "admin"}], "scope": {"read": True}},
    "one-scope": {"scope": "read"},
    "scopes": {"scope": "write read admin"},
    "longer-scope": {"scope": "reads bread read2"},
    "other-letters": {"scope": "Read READ"},
    "two-spaces": {"scope": "write  read"},
    "space-before": {"scope": " read"},
    "space-behind": {"scope": "read "},
    "tab": {"scope": "write\tread"},
    "line-feed": {"scope": "write\nread"},
    "quotation-mark": {"scope": 'read wr"ite'},
    "no-ascii": {"scope": "read \u00e9"},
    "empty-scope": {"scope": ""},
    "comma": {"scope": "write,read"},
    "list-of-scopes": {"scope": ["write", "read"]},
    "list-of-one-text": {"scope": ["write read"]},
    "list-with-a-number": {"scope": ["read", 7]},
    "list-of-lists": {"scope": [["read"]]},
    "empty-list": {"scope": []},
    "scope-of-a-number": {"scope": 7},
    "scope-of-null": {"scope": None},
    "role": {"role": "admin", "level": 7, "root": True},
    "roles": {"role": ["user", "admin"], "level": [1, 7], "root": [False, True]},
    "other-kinds": {"role": 1, "level": "7", "root": "true"},
    "one-for-true": {"role": True, "level": 7.0, "root": 1},
    "nothing-right": {"role": "admins", "level": 8, "root": False},
    "slashes": {"/role": "admin", "a": {"": "y", "b": {"c": ["z"]}}, "": "x", "a~b": "t", "a/b": "s"},
}
# Rules that stand.
RULES: dict[str, object] = {
    "nothing": {},
    "read": {"scopes": ["read"]},
    "read-and-write": {"scopes": ["read", "write"]},
    "write-and-read": {"scopes": ["write", "read", "read"]},
    "openid": {"scopes": ["profile", "openid"], "claims": {"client_id": ["other", "s6BhdRkqt3"]}},
    "read-of-scp": {"scopes": ["Files.Read"], "scope_claim": "scp"},
    "read-of-roles": {"scopes": ["Task.Write"], "scope_claim": "roles"},
    "read-of-a-pointer": {"scopes": ["editor"], "scope_claim": "/realm_access/roles"},
    "any-of-scope": {"claims": {"scope": ["read", "admin"]}},
    "any-of-scope-by-pointer": {"claims": {"/scope": ["read", "admin"]}},
    "any-of-scp": {"scope_claim": "scp", "claims": {"scp": ["Files.Read"], "scope": ["read"]}},
    "whole-scope": {"claims": {"scope": ["write  read", "write\tread", ""]}},
    "keycloak": {"claims": {"/realm_access/roles": ["admin", "editor"], "azp": ["gateway"]}},
    "keycloak-escaped": {"claims": {"/resource_access/a~1b~0c/roles": ["x"]}},
    "keycloak-exchanged": {"claims": {"/resource_access/a~0b~1c/roles": ["x"]}},
    "through-a-list": {"claims": {"/roles/0/value": ["admin"]}},
    "cognito": {"scopes": ["shop/read"], "claims": {"token_use": ["access"], "client_id": ["57ab"], "cognito:groups": ["staff"]}},
    "identity": {"claims": {"email_verified": [True], "azp": ["s6BhdRkqt3"], "aud": ["other"], "auth_time": [1300819370]}},
    "role": {"claims": {"role": ["root", "admin"]}},
    "role-level-root": {"claims": {"role": ["admin"], "level": [7], "root": [True]}},
    "root-is-one": {"claims": {"root": [1, "true"]}},
    "false": {"claims": {"root": [False]}},
    "issuer": {"claims": {"iss": ["joe"], "exp": [1300819380]}},
    "expiry-as-a-text": {"claims": {"exp": ["1300819380"]}},
    "slash-name": {"claims": {"/~1role": ["admin"]}},
    "empty-names": {"claims": {"": ["x"], "/": ["x"], "/a/": ["y"]}},
    "tilde-name": {"claims": {"a~b": ["t"], "/a~0b": ["t"], "a/b": ["s"], "/a~1b": ["s"]}},
    "deep": {"claims": {"/a/b/c": ["z"]}},
}
# What else a rule asks, and claims for it. The moment is 1300819379, and the policy's leeway 60 seconds.
FURTHER: dict[str, tuple[dict, dict]] = {
    "absent": ({"absent": ["nonce"]}, {"sub": "ann"}),
    "absent-and-there": ({"absent": ["nonce"]}, {"nonce": "n"}),
    "absent-and-null": ({"absent": ["nonce"]}, {"nonce": None}),
    "absent-pointer": ({"absent": ["/a/b"]}, {"a": {"b": 1}}),
    "only-text": ({"only": {"aud": ["other", "x"]}}, {"aud": "other"}),
    "only-list": ({"only": {"aud": ["other", "x"]}}, {"aud": ["x", "other", "x"]}),
    "only-empty-list": ({"only": {"role": ["x"]}}, {"role": []}),
    "only-first-other": ({"only": {"aud": ["other"]}}, {"aud": ["x", "other"]}),
    "only-last-other": ({"only": {"aud": ["other"]}}, {"aud": ["other", "x"]}),
    "only-list-in-a-list": ({"only": {"role": ["x"]}}, {"role": [["x"]]}),
    "only-missing": ({"only": {"role": ["x"]}}, {"sub": "ann"}),
    "object": ({"objects": ["events", "/events/a~1b"]}, {"events": {"a/b": {}}}),
    "object-list": ({"objects": ["/events/a~1b"]}, {"events": {"a/b": [{}]}}),
    "object-missing": ({"objects": ["/events/a~1b"]}, {"events": {"a": {}}}),
    "age-now": ({"ages": {"auth_time": 300}}, {"auth_time": 1300819379}),
    "age-latest": ({"ages": {"auth_time": 300}}, {"auth_time": 1300819439}),
    "age-later": ({"ages": {"auth_time": 300}}, {"auth_time": 1300819440}),
    "age-oldest": ({"ages": {"auth_time": 300}}, {"auth_time": 1300819019}),
    "age-older": ({"ages": {"auth_time": 300}}, {"auth_time": 1300819018}),
    "age-fraction": ({"ages": {"auth_time": 300}}, {"auth_time": 1300819379.5}),
    "age-text": ({"ages": {"auth_time": 300}}, {"auth_time": "1300819379"}),
    "age-missing": ({"ages": {"auth_time": 300}}, {"sub": "ann"}),
    "ascii": ({"ascii": {"sub": 3}}, {"sub": "ann"}),
    "ascii-longer": ({"ascii": {"sub": 3}}, {"sub": "anna"}),
    "ascii-beyond": ({"ascii": {"sub": 3}}, {"sub": "\u00e9"}),
    "ascii-number": ({"ascii": {"level": 3}}, {"level": 7}),
    "in-order": ({"ascii": {"a": 1}, "ages": {"b": 1}, "objects": ["c"], "only": {"d": ["x"]}, "absent": ["e"]}, {"e": 1}),
}
# Rules that are refused, as they are written.
NO_RULES: dict[str, bytes] = {
    "empty": b"",
    "list": b"[]",
    "no-utf-8": b'{"scopes":["\xff"]}',
    "name-twice": b'{"scopes":[],"scopes":[]}',
    "claim-twice": b'{"claims":{"a":["x"],"\\u0061":["y"]}}',
    "unknown": b'{"scope":"read"}',
    "other-letters": b'{"Scopes":[]}',
    "scopes-text": b'{"scopes":"read"}',
    "scopes-number": b'{"scopes":["read",1]}',
    "scope-empty": b'{"scopes":[""]}',
    "scope-with-a-space": b'{"scopes":["read write"]}',
    "scope-with-a-quotation-mark": b'{"scopes":["a\\"b"]}',
    "scope-beyond-ascii": b'{"scopes":["\\u00e9"]}',
    "scope-claim-list": b'{"scope_claim":["scp"]}',
    "scope-claim-pointer": b'{"scope_claim":"/a~2b"}',
    "claims-list": b'{"claims":[]}',
    "claim-text": b'{"claims":{"a":"x"}}',
    "claim-empty-list": b'{"claims":{"a":[]}}',
    "claim-null": b'{"claims":{"a":[null]}}',
    "claim-fraction": b'{"claims":{"a":[1.5]}}',
    "claim-exponent": b'{"claims":{"a":[1e2]}}',
    "claim-beyond-64-bits": b'{"claims":{"a":[9223372036854775808]}}',
    "claim-list-in-a-list": b'{"claims":{"a":[["x"]]}}',
    "claim-pointer": b'{"claims":{"/~2":["x"]}}',
    "claim-pointer-end": b'{"claims":{"/a/~":[]}}',
    "first-claim": b'{"claims":{"b":[],"a":7}}',
    "absent-text": b'{"absent":"nonce"}',
    "absent-number": b'{"absent":["nonce",7]}',
    "absent-pointer": b'{"absent":["nonce","/~2"]}',
    "only-list": b'{"only":["aud"]}',
    "only-text": b'{"only":{"aud":"a"}}',
    "only-empty-list": b'{"only":{"aud":[]}}',
    "objects-object": b'{"objects":{"events":{}}}',
    "objects-pointer": b'{"objects":["/events/~"]}',
    "ages-number": b'{"ages":3600}',
    "ages-text": b'{"ages":{"auth_time":"3600"}}',
    "ages-fraction": b'{"ages":{"auth_time":3600.0}}',
    "ages-negative": b'{"ages":{"auth_time":-1}}',
    "ages-beyond-32-bits": b'{"ages":{"auth_time":4294967296}}',
    "ascii-list": b'{"ascii":["sub"]}',
    "ascii-true": b'{"ascii":{"sub":true}}',
    "ascii-negative": b'{"ascii":{"sub":-255}}',
    "too-long": b"{}" + b" " * 65535,
}


def access() -> Iterator[Case]:
    """Each rule held against each token; rules that are refused; tokens that are refused before a rule is asked."""
    policy, keys = policy_of("HS256"), key_set(key_text("HS256"))
    token = lambda more: compact("HS256", payload=written({"iss": "joe", "exp": 1300819380, **more}))
    for what, more in GRANTS.items():
        audience = {"audiences": ["other"]} if "aud" in more else {}
        for name, rule in RULES.items():
            yield Denying(f"access/{what}/{name}", policy_of("HS256", **audience), keys, NOW, written(rule), token(more))
    for name, (rule, more) in FURTHER.items():
        audience = {"audiences": ["other"]} if "aud" in more else {}
        yield Denying(f"access/further/{name}", policy_of("HS256", leeway=60, **audience), keys, NOW, written(rule), token(more))
    for name, rule in NO_RULES.items():
        yield Denying(f"access/refused-rule/{name}", policy, keys, NOW, rule, token(GRANTS["scopes"]))
    for name, moment, spoil in (("expired", NOW + 1, 0), ("bad-signature", NOW, 1)):
        yield Denying(f"access/refused-token/{name}", policy, keys, moment, written(RULES["read"]), token(GRANTS["scopes"])[: -2 * spoil or None] + b"AA" * spoil)
    for alg in ("RS256", "ES256", "EdDSA"):
        signed_by = compact(alg, payload=written({"scope": "read", "exp": 1300819380}))
        for name in ("read", "read-and-write", "role"):
            yield Denying(f"access/{alg}/{name}", policy_of(alg, max_calls=8), key_set(key_text(alg)), NOW, written(RULES[name]), signed_by)


# ---- profiles


def profiles() -> Iterator[Case]:
    """Each token of examples/profiles under its policy, and held against its access rule where there is one."""
    for path in sorted((TOP / "examples/profiles").glob("*/policy.json")):
        folder, rule = path.parent, path.with_name("access.json")
        documents = (path.read_bytes(), (folder / "keys.json").read_bytes())
        for token in sorted((folder / "tokens").glob("*.jwt")):
            name, text = f"profiles/{folder.name}/{token.stem}", token.read_bytes()
            yield Denying(name, *documents, NOW, rule.read_bytes(), text) if rule.exists() else Judging(name, *documents, NOW, text)


# ---- issuing


def issuing() -> Iterator[Case]:
    """Claims of each shape, issued in each form by each algorithm, and what isn't issued."""
    policy, good = policy_of("HS256", "HS384", "HS512"), key_text("HS256")
    keys = key_set(good, with_members(good, alg="HS512"), '{"kty":"oct","k":"AAAA"}', with_members(good, use="enc"), key_text("RS256"))
    for alg in range(1, 4):
        for form in range(1, 4):
            for key in range(6):
                for typ in (b"", b"at+jwt"):
                    yield Issuing(f"issuing/{alg}/{form}/{key}/{typ.decode()}", policy, keys, alg, form, key, typ, CLAIMS)
            yield Issuing(f"issuing/all-sign/{alg}/{form}", policy, key_set(good, good), alg, form, 0, b"", CLAIMS)
            yield Issuing(f"issuing/many/{alg}/{form}", policy, key_set(*[good] * 33), alg, form, 0, b"", CLAIMS)
            yield Issuing(f"issuing/no-keys/{alg}/{form}", policy, key_set(), alg, form, 0, b"", CLAIMS)
    for what, payload in PAYLOADS.items():
        yield Issuing(f"issuing/payload/{what}", policy, key_set(good), 1, 1, 0, b"", payload)
    for name in REGISTERED:
        for value in VALUES:
            yield Issuing(f"issuing/claim/{name}/{value.encode('unicode_escape').decode()}", policy, key_set(good), 1, 1, 0, b"", f'{{"{name}":{value}}}'.encode())
    yield Issuing("issuing/too-long", policy, key_set(good), 1, 1, 0, b"", b'{"x":"' + b"x" * 800_000 + b'"}')
    yield Issuing("issuing/typ-quoted", policy, key_set(good), 1, 1, 0, b'a"\\b\xc3\xa9', CLAIMS)


# ---- a provider that others wrote: what it issued once, and when, stands in tests/provider

PROVIDER = json.loads((TOP / "tests/provider/recorded.json").read_text())
# What a policy says of each of its tokens, beside the algorithm and the issuer; access rules.
PROVIDED: dict[str, dict] = {
    "access_token": {"typ": "at+jwt", "audiences": ["openid read"], "required": ["iss", "sub", "aud", "exp"]},
    "id_token": {"typ": "JWT", "audiences": [PROVIDER["client"]], "required": ["iss", "sub", "aud", "exp", "iat", "nonce"], "max_age": 3600},
}
PROVIDED_RULES: dict[str, dict[str, dict]] = {
    "access_token": {"scope-that-is-there": {"scopes": ["read"]}, "scope-that-is-not": {"scopes": ["read", "write"]}},
    "id_token": {"for-this-client": {"only": {"aud": [PROVIDER["client"]]}}, "login-within-the-hour": {"ages": {"auth_time": 3600}}},
}
# For each issuer another one, and another algorithm.
OTHERS = {"RS256": ("ES256", "PS256"), "ES256": ("PS512", "ES384"), "PS512": ("RS256", "RS512")}


def provider() -> Iterator[Case]:
    """Each token that the provider issued, at its moment and at others, under its own policy, keys and rule, and under others."""
    for alg, what in ((alg, what) for alg in PROVIDER["issuers"] for what in PROVIDED):
        at, now, one = f"provider/{alg}/{what}", PROVIDER["now"], PROVIDER["issuers"][alg]
        policy, keys, token = policy_of(alg, **of_issuer(alg, what)), written(one["keys"]), one[what].encode()
        dates = json.loads(octets_of(one[what].split(".")[1]))
        for name, moment in {"as-it-is": now, "first-second": dates["iat"], "before": dates["iat"] - 1, "last-second": dates["exp"] - 1, "expired": dates["exp"]}.items():
            yield Judging(f"{at}/{name}", policy, keys, moment, token)
        for age in (300, 301):
            yield Judging(f"{at}/{age}-seconds-old", policy_of(alg, **{**of_issuer(alg, what), "max_age": 300}), keys, dates["iat"] + age, token)
        for name, other in other_policies(alg, what):
            yield Judging(f"{at}/{name}", other, keys, now, token)
        for name, other in other_keys(alg):
            yield Judging(f"{at}/{name}", policy, written({"keys": other}), now, token)
        for name, other in changed_tokens(alg, what):
            yield Judging(f"{at}/{name}", policy, keys, now, other)
        for name, rule in PROVIDED_RULES[what].items():
            yield Denying(f"{at}/{name}", policy, keys, now, written(rule), token)


def of_issuer(alg: str, what: str) -> dict:
    """What the policy of an issuer's token says beside its algorithm."""
    return {"issuers": [PROVIDER["issuers"][alg]["metadata"]["issuer"]], "need_kid": True, "max_signatures": 1, "max_calls": 2, **PROVIDED[what]}


def other_policies(alg: str, what: str) -> Iterator[tuple[str, bytes]]:
    """Policies that an issuer's token doesn't meet."""
    stranger, algorithm = OTHERS[alg]
    usual = of_issuer(alg, what)
    yield "another-algorithm", policy_of(algorithm, **usual)
    for name, changed in {
        "another-issuer": {"issuers": of_issuer(stranger, what)["issuers"]},
        "another-audience": {"audiences": ["other"]},
        "another-type": {"typ": next(it["typ"] for it in PROVIDED.values() if it["typ"] != usual["typ"])},
        "a-claim-that-is-not-there": {"required": ["acr"]},
    }.items():
        yield name, policy_of(alg, **{**usual, **changed})


def other_keys(alg: str) -> Iterator[tuple[str, list]]:
    """Keys of others, and of an issuer beside others or behind a rotation."""
    keys = {it: one["keys"]["keys"] for it, one in PROVIDER["issuers"].items()}
    yield "keys-of-another", keys[OTHERS[alg][0]]
    yield "keys-of-all", sum(keys.values(), [])
    if "next_keys" in PROVIDER["issuers"][alg]:
        rotated = PROVIDER["issuers"][alg]["next_keys"]["keys"]
        yield "keys-while-they-rotate", rotated + keys[alg]
        yield "keys-behind-a-rotation", rotated


def changed_tokens(alg: str, what: str) -> Iterator[tuple[str, bytes]]:
    """An issuer's token in another form, and changed."""
    header, payload, signature = PROVIDER["issuers"][alg][what].split(".")
    flat = {"payload": payload, "protected": header, "signature": signature}
    yield "flattened", written(flat)
    yield "signature-spoilt", written(spoilt(flat))
    other = next(it for it in PROVIDED if it != what)
    yield "claims-of-the-other", f"{header}.{PROVIDER['issuers'][alg][other].split('.')[1]}.{signature}".encode()


GROUPS = [octets, parts, forms, signatures, headers, claims, policies, key_sets, ceilings, access, issuing, profiles, provider]


def all_cases() -> list[Case]:
    """Each case, in order. A name stands once, in ASCII without spaces."""
    cases = [it._replace(name=it.name.replace(" ", "_").encode("ascii", "backslashreplace").decode()) for group in GROUPS for it in group()]
    names = {it.name for it in cases}
    assert len(names) == len(cases), "a name stands twice"
    return cases
