#!/usr/bin/env python3
"""Draws rows from vectors that Debian packages ship: what is asked of each, and what has to be answered. `run` beside this file asks.

What is expected of a row is the vector's word, but where a rule decides (`rule`): RFC 7518, section 3.3/3.5 (modulus of 2,048 bits or more), section 3.5
(salt as long as the digest), section 3.4 (the curve's own hash function, numbers of the curve's size); RFC 8017, section 3.1 (exponent odd, at least 3);
the product's own limits (modulus of at most 8,192 bits, exponent of at most eight octets).
"""
import base64, bz2, collections, gzip, hashlib, json, pathlib, random, re, sys, warnings, zipfile

sys.dont_write_bytecode = True
warnings.simplefilter("ignore")
sys.set_int_max_str_digits(0)
HASHES = {"SHA256": "256", "SHA384": "384", "SHA512": "512"}
SIZES = {"P-256": 32, "P-384": 48, "P-521": 66}
OWN = {("P-256", "SHA256"): "ES256", ("P-384", "SHA384"): "ES384", ("P-521", "SHA512"): "ES512"}
ALG_OF_CURVE = {"P-256": "ES256", "P-384": "ES384", "P-521": "ES512"}
HASH_OF_CURVE = {"P-256": "SHA256", "P-384": "SHA384", "P-521": "SHA512"}
P = {"P-256": 2**256 - 2**224 + 2**192 + 2**96 - 1, "P-384": 2**384 - 2**128 - 2**96 + 2**32 - 1, "P-521": 2**521 - 1}
N = {
    "P-256": 0xFFFFFFFF00000000FFFFFFFFFFFFFFFFBCE6FAADA7179E84F3B9CAC2FC632551,
    "P-384": 0xFFFFFFFFFFFFFFFFFFFFFFFFFFFFFFFFFFFFFFFFFFFFFFFFC7634D81F4372DDF581A0DB248B0A77AECEC196ACCC52973,
    "P-521": 2**521 - 2**260 + 0xA51868783BF2F966B7FCC0148F709A5D03BB5C9B8899C47AEBB6FB71E91386409,
}
assert [it.bit_length() for it in N.values()] == [256, 384, 521]
L = 2**252 + 27742317777372353535851937790883648493
DRAWN = random.Random(20261130)


class Row:
    """A question, and what is expected of it."""

    def __init__(self, file, name, alg, kind, a, b, message, signature, expected, rule=None, group="vector", taken=None, jwk=None):
        self.file, self.name, self.alg, self.kind, self.a, self.b = file, name, alg, kind, a, b
        self.message, self.signature, self.expected, self.rule, self.group, self.taken, self.jwk = message, signature, expected, rule, group, taken, jwk

    def line(self):
        h = lambda octets: octets.hex() or "-"
        return " ".join([self.alg, self.kind, h(self.a), h(self.b), h(self.message), h(self.signature), self.key_set(), "p"])

    def key_set(self):
        b64 = lambda octets: base64.urlsafe_b64encode(octets).rstrip(b"=").decode()
        if self.jwk:
            jwk = self.jwk
        elif self.kind == "RSA":
            jwk = {"kty": "RSA", "n": b64(self.a), "e": b64(self.b)}
        elif self.kind in ("Ed25519", "Ed448"):
            jwk = {"kty": "OKP", "crv": self.kind, "x": b64(self.a)}
        else:
            jwk = {"kty": "EC", "crv": self.kind, "x": b64(self.a), "y": b64(self.b)}
        return json.dumps({"keys": [jwk]}, separators=(",", ":"))


LEFT = collections.Counter()
ROWS = []


def left_out(file, why, count=1):
    LEFT[file, why] += count


def octets_of(number, size=None):
    """The number's octets: as many as wanted, or more where it doesn't fit."""
    least = (number.bit_length() + 7) // 8
    return number.to_bytes(max(size or 1, least), "big")


# ---------------------------------------------------------------- readers of formats


def cavp(text, headed=True):
    """Each block of a CAVP file: the section, and its lines as a dict; lines above the first of a block are kept for the section."""
    section, held, block = None, {}, {}
    for number, line in enumerate(text.splitlines(), 1):
        line = line.strip()
        if line.startswith("["):
            if block:
                yield section, held, block
            block, held = {}, {}
            if not line.startswith("[B.4."):  # (how the keys of the curve above were made)
                section = line.strip("[]").replace(" ", "")
        elif " = " in line or line.endswith(" =") or "=" in line and not line.startswith("#"):
            name, _, value = line.partition("=")
            name, value = name.strip(), value.strip()
            if name in block:  # (no empty line stands between two rows)
                yield section, held, block
                block = {}
            block.setdefault("line", number)
            block[name] = value
        elif not line and block:
            yield section, held, block
            block = {}
    if block:
        yield section, held, block


def ring_blocks(text):
    """Each block of one of ring's files, with the comments above it."""
    block, said = {}, []
    for number, line in enumerate(text.splitlines() + [""], 1):
        line = line.strip()
        if line.startswith("#"):
            said.append(line[1:].strip())
        elif "=" in line:
            name, _, value = line.partition("=")
            if name.strip() in block:
                raise SystemExit(f"line {number}: two rows without an empty line between them")
            block.setdefault("line", number)
            block[name.strip()] = value.strip()
        elif block:
            block["said"] = " ".join(said)
            yield block
            block, said = {}, []
        elif not line and said and not block:
            pass


def unhex(value):
    if value.startswith('"'):
        if not value.endswith('"') or "\\" in value:
            raise SystemExit(f"a text that isn't read here: {value}")
        return value[1:-1].encode()
    return bytes.fromhex(value if len(value) % 2 == 0 else "0" + value)


def der_tlv(octets, at=0):
    """Tag, content and end of a DER element; raises ValueError where the length isn't one of DER."""
    tag, length, at = octets[at], octets[at + 1], at + 2
    if length >= 0x80:
        count = length & 0x7F
        if not count or len(octets) < at + count:
            raise ValueError("length")
        length = int.from_bytes(octets[at : at + count], "big")
        if length < 0x80 or octets[at] == 0:
            raise ValueError("length")
        at += count
    if len(octets) < at + length:
        raise ValueError("short")
    return tag, octets[at : at + length], at + length


def der_integers(octets, skip=0):
    """The integers of a DER SEQUENCE; raises ValueError where it is none."""
    tag, inner, end = der_tlv(octets)
    if tag != 0x30 or end != len(octets):
        raise ValueError("sequence")
    found, at = [], 0
    while at < len(inner):
        tag, content, at = der_tlv(inner, at)
        if tag != 2 or not content or content[0] >= 0x80 or len(content) > 1 and content[0] == 0 and content[1] < 0x80:
            raise ValueError("integer")
        found.append(int.from_bytes(content, "big"))
    return found[skip:]


# ---------------------------------------------------------------- RSA


def mgf1(hash_name, seed, length):
    made = b""
    for counter in range(length // hashlib.new(hash_name).digest_size + 1):
        made += hashlib.new(hash_name, seed + counter.to_bytes(4, "big")).digest()
    return made[:length]


def pss_salt(n, e, signature, message, hash_name):
    """How long the salt of a signature by RSASSA-PSS is, if it verifies at all with a salt of some length and MGF1 by the same hash function."""
    em_bits = n.bit_length() - 1
    em_len = (em_bits + 7) // 8
    number = pow(int.from_bytes(signature, "big"), e, n)
    if number.bit_length() > em_bits:
        return None
    em, size = number.to_bytes(em_len, "big"), hashlib.new(hash_name).digest_size
    if em[-1] != 0xBC or em_len < size + 2:
        return None
    db, h = em[: em_len - size - 1], em[em_len - size - 1 : -1]
    db = int.from_bytes(bytes(x ^ y for x, y in zip(db, mgf1(hash_name, h, len(db)))), "big") % 2 ** (em_bits - 8 * (size + 1))
    db = db.to_bytes(em_len - size - 1, "big")
    rest = db.lstrip(b"\0")
    if not rest or rest[0] != 1:
        return None
    salt = rest[1:]
    digest = hashlib.new(hash_name, message).digest()
    return len(salt) if hashlib.new(hash_name, b"\0" * 8 + digest + salt).digest() == h else None


def key_rule(n, e):
    """The rule that refuses a key of RSA, if one does."""
    if n.bit_length() < 2048:
        return "modulus below 2,048 bits (RFC 7518, 3.3 and 3.5)"
    if n.bit_length() > 8192:
        return "modulus above 8,192 bits (own limit)"
    if e.bit_length() > 64:
        return "exponent of more than eight octets (own limit)"
    if e < 3 or e % 2 == 0:
        return "exponent even or below 3 (RFC 8017, 3.1)"
    if n % 2 == 0:
        return "even modulus (RFC 8017, 3.1)"
    return None


def rsa_row(file, name, scheme, hash_name, n, e, message, signature, word, rings=None):
    """A row of an RSA file. `rings`: the rule of ring's own that made it say F, so that the numbers decide."""
    if hash_name not in HASHES:
        return left_out(file, f"{hash_name}: no algorithm of RFC 7518")
    alg = scheme + HASHES[hash_name]
    rule, expected = None, word
    if key_rule(n, e):
        rule, expected = key_rule(n, e), False
    elif rings:
        rule, expected = rings
    elif scheme == "PS" and word:
        salt = pss_salt(n, e, signature, message, hash_name)
        if salt is None and file.startswith(("RSA/", "ring")):
            raise SystemExit(f"{file} {name}: the vector's word is P, and the numbers say otherwise")
        if salt is None:
            rule, expected = "MGF1 by another hash function (RFC 7518, 3.5)", False
        elif salt != hashlib.new(hash_name).digest_size:
            rule, expected = f"salt of {salt} octets, not as long as the digest (RFC 7518, 3.5)", False
    ROWS.append(Row(file, name, alg, "RSA", octets_of(n), octets_of(e), message, signature, expected, rule))


def rsa_cavp(file, text, scheme, generated=False):
    """A CAVP file of RSA: n stands in a block above those of its section, e there or in each."""
    n = e = None
    for section, _, block in cavp(text):
        if "n" in block:
            n = int(block["n"], 16)
        if "e" in block:
            e = int(block["e"], 16)
        if "S" not in block:
            continue
        size = (n.bit_length() + 7) // 8
        signature = unhex(block["S"])
        if len(signature) > size and not any(signature[: len(signature) - size]):
            signature = signature[len(signature) - size :]
        word = True if generated else block["Result"].startswith("P")
        rsa_row(file, f"line {block['line']} [{section}, {block['SHAAlg']}] {block.get('Result', '')}".strip(), scheme, block["SHAAlg"], n, e, unhex(block["Msg"]), signature, word)


def rsa_other_scheme(file, text):
    """X9.31's signatures, of which RFC 7518 has none: each is asked as RSASSA-PKCS1-v1_5 and as PSS, and has to be refused."""
    n = e = None
    for section, _, block in cavp(text):
        n = int(block["n"], 16) if "n" in block else n
        e = int(block["e"], 16) if "e" in block else e
        if "S" not in block:
            continue
        if block["SHAAlg"] not in HASHES:
            left_out(file, f"{block['SHAAlg']}: no algorithm of RFC 7518")
            continue
        for scheme in ("RS", "PS"):
            rule = key_rule(n, e) or "X9.31 is no algorithm of RFC 7518"
            ROWS.append(Row(file, f"line {block['line']} as {scheme}", scheme + HASHES[block["SHAAlg"]], "RSA", octets_of(n), octets_of(e), unhex(block["Msg"]),
                            unhex(block["S"]).rjust((n.bit_length() + 7) // 8, b"\0"), False, rule))


def rsa_other_hash(file, text, scheme):
    """Rows of SHA-1 and SHA-224 with a key that is taken: asked by each hash function of RFC 7518, they have to be refused."""
    n = e = None
    for section, _, block in cavp(text):
        n = int(block["n"], 16) if "n" in block else n
        e = int(block["e"], 16) if "e" in block else e
        if "S" not in block or block["SHAAlg"] in HASHES or key_rule(n, e) or not block.get("Result", "P").startswith("P"):
            continue
        for size in HASHES.values():
            ROWS.append(Row(file, f"line {block['line']} {block['SHAAlg']} as {scheme}{size}", scheme + size, "RSA", octets_of(n), octets_of(e), unhex(block["Msg"]),
                            unhex(block["S"]), False, "another hash function", group="derived: valid by another hash function"))


# ---------------------------------------------------------------- ECDSA


def ec_row(file, name, curve, hash_name, x, y, r, s, message, word, **more):
    size = SIZES[curve]
    signature = octets_of(r, size) + octets_of(s, size)
    ROWS.append(Row(file, name, ALG_OF_CURVE[curve], curve, octets_of(x, size), octets_of(y, size), message, signature, word, **more))


def ec_cavp(file, text, generated=False):
    for section, _, block in cavp(text):
        if "R" not in block or "Qx" not in block:
            continue
        if "," not in (section or ""):
            left_out(file, "section without a hash function")
            continue
        curve, hash_name = section.split(",")
        hash_name = hash_name.replace("-", "")
        if curve not in SIZES:
            left_out(file, "curves that RFC 7518 doesn't have")
            continue
        numbers = [int(block[it], 16) for it in ("Qx", "Qy", "R", "S")]
        word = True if generated else block["Result"].startswith("P")
        name = f"line {block['line']} [{section}] {block.get('Result', '')}".strip()
        if (curve, hash_name) in OWN:
            ec_row(file, name, curve, hash_name, *numbers, unhex(block["Msg"]), word)
        elif word:
            ec_row(file, name, curve, hash_name, *numbers, unhex(block["Msg"]), False, rule="hash function of another algorithm (RFC 7518, 3.4)", group="derived: valid by another hash function")
        else:
            left_out(file, "F by a hash function that isn't the curve's")


def ec_keys(file, text, held=None):
    """Public keys on and off the curve: whether one is taken, and, with a signature that is valid by another key, that it is refused."""
    for section, _, block in cavp(text):
        if "Qx" not in block:
            continue
        if section not in SIZES:
            left_out(file, "curves that RFC 7518 doesn't have")
            continue
        word = block.get("Result", "P").startswith("P")
        r, s, message = held[section]
        ec_row(file, f"line {block['line']} [{section}] {block.get('Result', '')}".strip(), section, None, int(block["Qx"], 16), int(block["Qy"], 16), r, s, message, False,
               group="key", taken=word)


# ---------------------------------------------------------------- Ed25519


def ed_input(file, text):
    for number, line in enumerate(text.splitlines(), 1):
        _, key, message, signed, _ = line.split(":")
        ROWS.append(Row(file, f"line {number}", "EdDSA", "Ed25519", unhex(key), b"", unhex(message), unhex(signed)[:64], True, taken=True))


def derived_ed(rows, group):
    for row in rows:
        r, s = row.signature[:32], int.from_bytes(row.signature[32:], "little")
        more = lambda what, **changed: ROWS.append(
            Row(row.file, f"{row.name}: {what}", "EdDSA", "Ed25519", changed.get("key", row.a), b"", changed.get("message", row.message),
                changed.get("signature", row.signature), False, group=f"derived: {group}"))
        bit = lambda octets: flip(octets, DRAWN.randrange(8 * len(octets)))
        more("S + L", signature=r + (s + L).to_bytes(32, "little"))
        if s + 8 * L < 2**256:
            more("S + 8L", signature=r + (s + 8 * L).to_bytes(32, "little"))
        more("a bit of R", signature=bit(r) + row.signature[32:])
        more("a bit of S", signature=r + bit(row.signature[32:]))
        more("a bit of A", key=bit(row.a))
        more("a bit of the message", message=bit(row.message) if row.message else b"\0")
        more("L - S", signature=r + (L - s).to_bytes(32, "little"))
        more("an octet less", signature=row.signature[:-1])
        more("an octet more", signature=row.signature + b"\0")


def flip(octets, at):
    other = bytearray(octets)
    other[at // 8] ^= 1 << (at % 8)
    return bytes(other)


# ---------------------------------------------------------------- derived of ECDSA and RSA


def derived_ec(rows):
    for row in rows:
        size, n, p = SIZES[row.kind], N[row.kind], P[row.kind]
        r, s = int.from_bytes(row.signature[:size], "big"), int.from_bytes(row.signature[size:], "big")
        w = lambda number: octets_of(number, size)

        def more(what, expected=False, **changed):
            ROWS.append(Row(row.file, f"{row.name}: {what}", changed.get("alg", row.alg), row.kind, changed.get("x", row.a), changed.get("y", row.b), changed.get("message", row.message),
                            changed.get("signature", row.signature), expected, group="derived: n - s, which is valid" if expected else "derived: changed numbers, bits, sizes"))

        bit = lambda octets: flip(octets, DRAWN.randrange(8 * len(octets)))
        more("n - s", True, signature=w(r) + w(n - s))
        more("a bit of r", signature=bit(w(r)) + w(s))
        more("a bit of s", signature=w(r) + bit(w(s)))
        more("a bit of x", x=bit(row.a))
        more("a bit of y", y=bit(row.b))
        more("-Q", y=w(p - int.from_bytes(row.b, "big")))
        more("a bit of the message", message=bit(row.message) if row.message else b"\0")
        more("s before r", signature=w(s) + w(r))
        more("r = 0", signature=w(0) + w(s))
        more("s = 0", signature=w(r) + w(0))
        more("r = n", signature=w(n) + w(s))
        more("s = n", signature=w(r) + w(n))
        if r + n < 256**size:
            more("r + n", signature=w(r + n) + w(s))
        if s + n < 256**size:
            more("s + n", signature=w(r) + w(s + n))
        x, y = int.from_bytes(row.a, "big"), int.from_bytes(row.b, "big")
        if x + p < 256**size:
            more("x + p", x=w(x + p))
        if y + p < 256**size:
            more("y + p", y=w(y + p))
        more("an octet less", signature=row.signature[:-1])
        more("an octet more", signature=row.signature + b"\0")
        for alg in sorted(set(ALG_OF_CURVE.values()) - {row.alg}):
            more(f"as {alg}", alg=alg)


def derived_rsa(rows):
    for row in rows:
        n, size, s = int.from_bytes(row.a, "big"), len(row.a), int.from_bytes(row.signature, "big")

        def more(what, expected=False, group="derived: changed numbers, bits, sizes, algorithms", **changed):
            ROWS.append(Row(row.file, f"{row.name}: {what}", changed.get("alg", row.alg), "RSA", changed.get("n", row.a), changed.get("e", row.b), changed.get("message", row.message),
                            changed.get("signature", row.signature), expected, group=group))

        bit = lambda octets: flip(octets, DRAWN.randrange(8 * len(octets)))
        more("a bit of s", signature=bit(row.signature))
        more("a bit of n", n=flip(row.a, DRAWN.randrange(8, 8 * len(row.a))))
        more("a bit of the message", message=bit(row.message) if row.message else b"\0")
        more("n - s", signature=(n - s).to_bytes(size, "big"))
        if s + n < 256**size:
            more("s + n", signature=(s + n).to_bytes(size, "big"))
        more("s = 0", signature=b"\0" * size)
        more("s = 1", signature=(1).to_bytes(size, "big"))
        more("s = n", signature=row.a)
        more("s = n - 1", signature=(n - 1).to_bytes(size, "big"))
        more("an octet less", signature=row.signature[:-1])
        more("an octet more", signature=row.signature + b"\0")
        more("a zero before", signature=b"\0" + row.signature)
        more("zeros before n and e", True, "derived: zeros before n and e, which are taken", n=b"\0\0" + row.a, e=b"\0" + row.b)
        for alg in sorted({"RS256", "RS384", "RS512", "PS256", "PS384", "PS512"} - {row.alg}):
            more(f"as {alg}", alg=alg)


# ---------------------------------------------------------------- ring's files


def ring(folder):
    rel = lambda name: f"ring: {name}"
    read = lambda name: (folder / name).read_text()
    for name in ("tests/ecdsa_verify_fixed_tests.txt", "tests/ecdsa_verify_asn1_tests.txt", "src/ec/suite_b/ecdsa/ecdsa_sign_fixed_tests.txt"):
        for block in ring_blocks(read(name)):
            curve, hash_name, q = block["Curve"], block["Digest"], unhex(block["Q"]) if "Q" in block else b""
            told = f"line {block['line']} {block.get('Result', '')} {block['said'][:60]}".strip()
            if curve not in SIZES or (curve, hash_name) not in OWN:
                left_out(rel(name), f"{curve} with {hash_name}: no algorithm of RFC 7518")
                continue
            size = SIZES[curve]
            if len(q) != 1 + 2 * size or q[0] != 4:
                left_out(rel(name), "key that is no uncompressed point")
                continue
            signature, word = unhex(block["Sig"]), block.get("Result", "P").startswith("P")
            if "asn1" in name:
                try:
                    r, s = der_integers(signature)
                except (ValueError, IndexError):
                    left_out(rel(name), "F for its DER, which JWS doesn't have" if not word else "P of no DER")
                    continue
                signature = octets_of(r, size) + octets_of(s, size)
            ROWS.append(Row(rel(name), told, ALG_OF_CURVE[curve], curve, q[1 : 1 + size], q[1 + size :], unhex(block["Msg"]), signature, word))
    name = "crypto/fipsmodule/ecdsa/ecdsa_verify_tests.txt"
    for block in ring_blocks(read(name)):
        curve, size = block["Curve"], SIZES.get(block["Curve"])
        digest = unhex(block["Digest"])
        if size is None or len(digest) != {"P-256": 32, "P-384": 48}.get(curve):
            left_out(rel(name), "digest of a hash function that isn't the curve's (only digests are given)")
            continue
        r, s = int(block["R"], 16), int(block["S"], 16)
        ROWS.append(Row(rel(name), f"line {block['line']} {block['said'][:60]}", "digest", curve, octets_of(int(block["X"], 16), size), octets_of(int(block["Y"], 16), size), digest,
                        octets_of(r, size) + octets_of(s, size), "Invalid" not in block))
    name = "src/ec/suite_b/suite_b_public_key_tests.txt"
    held = {curve: next(row for row in ROWS if row.kind == curve and row.expected and row.group == "vector" and row.alg != "digest") for curve in ("P-256", "P-384")}
    for block in ring_blocks(read(name)):
        curve = block["Curve"]
        q, size, row = unhex(block["Q"]), SIZES[curve], held[curve]
        if q[:1] != b"\4":
            left_out(rel(name), "key in a form that a JWK doesn't have")
            continue
        ROWS.append(Row(rel(name), f"line {block['line']} {block['Result']}", row.alg, curve, q[1 : 1 + size], q[1 + size :], row.message, row.signature, False, group="key", taken=block["Result"].startswith("P")))
    name = "tests/ed25519_tests.txt"
    for block in ring_blocks(read(name)):
        ROWS.append(Row(rel(name), f"line {block['line']}", "EdDSA", "Ed25519", unhex(block["PUB"]), b"", unhex(block["MESSAGE"]), unhex(block["SIG"]), True, taken=True))
    ring_rsa(folder, rel, read)


def ring_rsa(folder, rel, read):
    for name, scheme in (("tests/rsa_pkcs1_verify_tests.txt", "RS"), ("tests/rsa_pss_verify_tests.txt", "PS")):
        for block in ring_blocks(read(name)):
            told = f"line {block['line']} {block['Result']} {block['said'][:70]}".strip()
            try:
                n, e = der_integers(unhex(block["Key"]))
            except (ValueError, IndexError):
                left_out(rel(name), "key whose DER isn't one")
                continue
            word, signature, rings = block["Result"].startswith("P"), unhex(block["Sig"]), None
            if not word and e.bit_length() > 33 and not key_rule(n, e) and scheme == "RS" and block["Digest"] in HASHES:
                rings = ("ring refuses exponents above 33 bits; the numbers decide", by_numbers(n, e, block["Digest"], unhex(block["Msg"]), signature))
            rsa_row(rel(name), told, scheme, block["Digest"], n, e, unhex(block["Msg"]), signature, word, rings)
    for name, scheme in (("tests/rsa_pkcs1_sign_tests.txt", "RS"), ("tests/rsa_pss_sign_tests.txt", "PS")):
        for block in ring_blocks(read(name)):
            told = f"line {block['line']} {block['Result']}"
            if not block["Result"].startswith("Pass"):
                left_out(rel(name), "row that says that a key can't sign")
                continue
            try:
                _, n, e = der_integers(unhex(block["Key"]))[:3]
            except (ValueError, IndexError):
                left_out(rel(name), "key whose DER isn't one")
                continue
            rsa_row(rel(name), told, scheme, block["Digest"], n, e, unhex(block["Msg"]), unhex(block["Sig"]), True)
    name = "tests/rsa_primitive_verify_tests.txt"
    for block in ring_blocks(read(name)):
        n, e = int(block["n"], 16), int(block["e"], 16)
        word, signature, message, rings = block["Result"] == "Pass", unhex(block["Sig"]), unhex(block["Msg"]), None
        if not word and not key_rule(n, e):
            rings = ("ring's own limits on n and e; the numbers decide", by_numbers(n, e, "SHA256", message, signature))
        rsa_row(rel(name), f"line {block['line']} {block['Result']} {block['said'][:60]}", "RS", "SHA256", n, e, message, signature, word, rings)
    name = "src/rsa/rsa_pss_padding_tests.txt"
    for block in ring_blocks(read(name)):
        bits, em, word = int(block["Len"]), int(block["EM"], 16), block["Result"].startswith("P")
        told = f"line {block['line']} {bits} bits {block['Digest']} {block['Result']}"
        if len(unhex(block["EM"])) != (bits + 7) // 8 and not key_rule(1 << bits - 1 | 1, 3):
            left_out(rel(name), "EM of another size than the modulus, which no signature gives")
            continue
        n, primes = modulus(bits)
        if em >= n:
            left_out(rel(name), "EM above every modulus of that size")
            continue
        root = sum(pow(em % it, pow(65537, -1, it - 1), it) * (n // it) * pow(n // it, -1, it) for it in primes) % n
        assert pow(root, 65537, n) == em
        signature = root.to_bytes((bits + 7) // 8, "big")
        rsa_row(rel(name), told, "PS", block["Digest"], n, 65537, unhex(block["Msg"]), signature, word)


def by_numbers(n, e, hash_name, message, signature):
    """Whether RFC 8017's RSASSA-PKCS1-V1_5-VERIFY accepts."""
    info = {"SHA256": "3031300d060960864801650304020105000420", "SHA384": "3041300d060960864801650304020205000430", "SHA512": "3051300d060960864801650304020305000440"}[hash_name]
    size = (n.bit_length() + 7) // 8
    end = b"\0" + bytes.fromhex(info) + hashlib.new(hash_name, message).digest()
    number = int.from_bytes(signature, "big")
    return len(signature) == size and number < n and pow(number, e, n).to_bytes(size, "big") == (b"\0\1" + end.rjust(size - 2, b"\xff"))


def is_prime(number):
    return number > 3 and all(number % it for it in SMALL) and all(witness(number, it) for it in (2, 3, 5, 7, 11, 13, 17, 19, 23, 29, 31, 37))


SMALL = [it for it in range(3, 2000, 2) if all(it % other for other in range(3, int(it**0.5) + 1, 2))]


def witness(number, base):
    d, twos = number - 1, 0
    while d % 2 == 0:
        d, twos = d // 2, twos + 1
    x = pow(base, d, number)
    if x in (1, number - 1):
        return True
    for _ in range(twos - 1):
        x = x * x % number
        if x == number - 1:
            return True
    return False


MODULI = {}


def modulus(bits):
    """A modulus of so many bits, all the highest of which are 1, and the primes whose product it is."""
    if bits not in MODULI:
        drawn, n, primes = random.Random(bits), 1, []
        while bits - n.bit_length() > 300:
            while True:
                prime = drawn.getrandbits(200) | 1 << 199 | 1
                if is_prime(prime) and prime % 65537 != 1 and n % prime:
                    break
            n, primes = n * prime, primes + [prime]
        prime = (2**bits - 1) // n
        prime -= 1 - prime % 2
        while not (is_prime(prime) and prime % 65537 != 1):
            prime -= 2
        n, primes = n * prime, primes + [prime]
        assert n.bit_length() == bits and n >> (bits - 64) == 2**64 - 1
        MODULI[bits] = n, primes
    return MODULI[bits]


# ---------------------------------------------------------------- Wycheproof's Ed25519, of circl


def wycheproof_ed25519(file, path):
    for group in json.loads(path.read_text())["testGroups"]:
        key = unhex(group["key"]["pk"])
        jwk = {name: group["jwk"][name] for name in ("kty", "crv", "x")}
        for test in group["tests"]:
            if test["result"] == "acceptable":
                left_out(file, "acceptable")
                continue
            ROWS.append(Row(file, f"tcId {test['tcId']} {test['result']} {test['comment']}", "EdDSA", "Ed25519", key, b"", unhex(test["msg"]), unhex(test["sig"]), test["result"] == "valid", jwk=jwk))


# ---------------------------------------------------------------- Ed448, which the proved verifiers refuse

L448 = 2**446 - 13818066809895115352007386748515426880336692474882178609894547503885
NO_448 = "Ed448: no proved verifier has it"


def ed448(file, rows):
    """Names, keys, messages, signatures and words (a signature with a context is refused: RFC 8037 has none)."""
    for name, key, message, signature, word in rows:
        ask = lambda told, key, message, signature, word: ROWS.append(
            Row(file, told, "EdDSA", "Ed448", key, b"", message, signature, False, rule=NO_448, taken=False))
        ask(name, key, message, signature, word)
        if word and len(signature) == 114:
            r, s = signature[:57], int.from_bytes(signature[57:], "little")
            bit = lambda octets: flip(octets, DRAWN.randrange(8 * len(octets)))
            ask(f"{name}: S + L", key, message, r + (s + L448).to_bytes(57, "little"), False)
            ask(f"{name}: a bit of R", key, message, bit(r) + signature[57:], False)
            ask(f"{name}: a bit of S", key, message, r + bit(signature[57:]), False)
            ask(f"{name}: a bit of A", bit(key), message, signature, False)
            ask(f"{name}: an octet more of the message", key, message + b"\0", signature, False)
            ask(f"{name}: an octet more", key, message, signature + b"\0", False)
            ask(f"{name}: an octet less", key, message, signature[:-1], False)


# ---------------------------------------------------------------- certificates


def certificates(file, paths, issuers=None):
    """Certificates that sign themselves: the signed part is the message; OpenSSL's word, by Python's cryptography, is the vector's."""
    try:
        from cryptography import x509
        from cryptography.hazmat.primitives.asymmetric import ec, ed25519, padding, rsa
    except ImportError:
        return left_out(file, "no python3-cryptography")
    read = []
    for path in paths:
        try:
            octets = path.read_bytes()
            cert = x509.load_pem_x509_certificate(octets) if b"-----BEGIN CERT" in octets else x509.load_der_x509_certificate(octets)
            read.append((path.name, cert, cert.subject, cert.issuer))
        except Exception:
            left_out(file, "certificate that Python's cryptography doesn't read")
    for name, cert, _, issuer in read:
        try:
            certificate(file, name, cert, [other for _, other, subject, _ in read if subject == issuer], ec, ed25519, padding, rsa)
        except Exception as error:
            left_out(file, f"certificate that Python's cryptography doesn't take ({type(error).__name__})")


def certificate(file, name, cert, signers, ec, ed25519, padding, rsa):
    from cryptography.exceptions import InvalidSignature

    hash_name = cert.signature_hash_algorithm.name.upper().replace("-", "") if cert.signature_hash_algorithm else None
    if not signers:
        return left_out(file, "issuer that isn't at hand")
    for index, signer in enumerate(signers):
        key = signer.public_key()
        told = f"{name} by issuer {index}"
        message, signature = cert.tbs_certificate_bytes, cert.signature
        if isinstance(key, rsa.RSAPublicKey):
            numbers = key.public_numbers()
            pss = cert.signature_algorithm_oid.dotted_string == "1.2.840.113549.1.1.10"
            if hash_name not in HASHES:
                left_out(file, f"{hash_name}: no algorithm of RFC 7518")
                continue
            try:
                key.verify(signature, message, cert.signature_algorithm_parameters, cert.signature_hash_algorithm)
                word = True
            except InvalidSignature:
                word = False
            rsa_row(file, told, "PS" if pss else "RS", hash_name, numbers.n, numbers.e, message, signature, word)
        elif isinstance(key, ec.EllipticCurvePublicKey):
            curve = {"secp256r1": "P-256", "secp384r1": "P-384", "secp521r1": "P-521"}.get(key.curve.name)
            if (curve, hash_name) not in OWN:
                left_out(file, f"{key.curve.name} with {hash_name}: no algorithm of RFC 7518")
                continue
            try:
                key.verify(signature, message, ec.ECDSA(cert.signature_hash_algorithm))
                word = True
            except InvalidSignature:
                word = False
            r, s = der_integers(signature)
            ec_row(file, told, curve, hash_name, key.public_numbers().x, key.public_numbers().y, r, s, message, word)
        elif isinstance(key, ed25519.Ed25519PublicKey):
            try:
                key.verify(signature, message)
                word = True
            except InvalidSignature:
                word = False
            ROWS.append(Row(file, told, "EdDSA", "Ed25519", key.public_bytes_raw(), b"", message, signature, word))
        else:
            left_out(file, "key of another kind")


# ---------------------------------------------------------------- all


def own(path):
    """The rows of a file of this project's own; and each octet of the signature and the key changed, of its first signature by each algorithm on a curve."""
    octets = lambda word: b"" if word == "-" else bytes.fromhex(word)
    changed = {"ES256", "ES384", "ES512", "EdDSA"}
    for line in path.read_text().splitlines():
        if line.startswith("#"):
            continue
        alg, kind, a, b, message, signature, word, shows = line.split(" | ")
        a, b, message, signature = map(octets, (a, b, message, signature))
        ROWS.append(Row(path.name, shows, alg, kind, a, b, message, signature, word == "valid", group="own"))
        if word == "valid" and message and alg in changed:
            changed.remove(alg)
            ask = lambda told, a, b, signature: ROWS.append(Row(path.name, f"{shows}: {told}", alg, kind, a, b, message, signature, False, group="own"))
            for at in range(len(signature)):
                ask(f"octet {at} of the signature", a, b, flip(signature, 8 * at))
            for at in range(len(a)):
                ask(f"octet {at} of the key", flip(a, 8 * at), b, signature)


def draw(vectors, go, circl, ring_folder):
    if vectors:
        top = vectors / "asymmetric"
        read = lambda name: (top / name).read_text()
        ec_cavp("ECDSA/FIPS_186-3/SigVer.rsp", read("ECDSA/FIPS_186-3/SigVer.rsp"))
        ec_cavp("ECDSA/FIPS_186-3/SigGen.rsp", read("ECDSA/FIPS_186-3/SigGen.rsp"), True)
        ec_cavp("ECDSA/FIPS_186-3/SigGen.txt", read("ECDSA/FIPS_186-3/SigGen.txt"), True)
        for name in ("ECDSA/FIPS_186-2/SigVer.rsp", "ECDSA/FIPS_186-2/SigGen.rsp"):
            left_out(name, "SHA-1 alone (sections without a hash function)", sum("R" in block for _, _, block in cavp(read(name))))
        left_out("ECDSA/FIPS_186-2/SigGen.txt", "SHA-1 alone", read("ECDSA/FIPS_186-2/SigGen.txt").count("\nMsg"))
        left_out("RSA/FIPS_186-2/SigGenRSA_186-2.txt", "the rows of SigGenRSA_186-2.rsp once more", read("RSA/FIPS_186-2/SigGenRSA_186-2.txt").count("\nMsg"))
        left_out("RSA/pkcs1v15sign-vectors.txt", "SHA-1 alone", read("RSA/pkcs1v15sign-vectors.txt").count("# Signature"))
        for name in ("pss-vect.txt", "pss-int.txt"):
            left_out(f"RSA/pkcs-1v2-1d2-vec/{name}", "SHA-1 alone", read(f"RSA/pkcs-1v2-1d2-vec/{name}").count("# Signature:"))
        left_out("ECDSA/SECP256K1/SigGen.txt", "a curve that RFC 7518 doesn't have", read("ECDSA/SECP256K1/SigGen.txt").count("\nMsg"))
        held = {}
        for row in ROWS:
            if row.file == "ECDSA/FIPS_186-3/SigGen.rsp" and row.expected and row.kind not in held:
                size = SIZES[row.kind]
                held[row.kind] = int.from_bytes(row.signature[:size], "big"), int.from_bytes(row.signature[size:], "big"), row.message
        for name in ("ECDSA/FIPS_186-2/PKV.rsp", "ECDSA/FIPS_186-3/PKV.rsp", "ECDSA/FIPS_186-2/KeyPair.rsp", "ECDSA/FIPS_186-3/KeyPair.rsp"):
            ec_keys(name, read(name), held)
        for name, scheme, generated in (
            ("SigVer15_186-3.rsp", "RS", False), ("SigVerPSS_186-3.rsp", "PS", False), ("SigGen15_186-3.rsp", "RS", True), ("SigGenPSS_186-3.rsp", "PS", True),
            ("SigGen15_186-2.rsp", "RS", True), ("SigGen15_186-2.txt", "RS", True), ("SigGenPSS_186-2.rsp", "PS", True), ("SigGenPSS_186-2.txt", "PS", True),
        ):
            path = top / "RSA/FIPS_186-2" / name
            rsa_cavp(f"RSA/FIPS_186-2/{name}", path.read_text(), scheme, generated)
            rsa_other_hash(f"RSA/FIPS_186-2/{name}", path.read_text(), scheme)
        rsa_cavp("RSA/SigVer15EMTest.txt", read("RSA/SigVer15EMTest.txt"), "RS")
        for name in ("SigVerRSA.rsp", "SigGenRSA.rsp", "SigGenRSA_186-2.rsp"):
            rsa_other_scheme(f"RSA/FIPS_186-2/{name}", (top / "RSA/FIPS_186-2" / name).read_text())
        ed_input("Ed25519/sign.input", read("Ed25519/sign.input"))
        ed448("Ed448/rfc8032.txt", ((f"line {it['line']}", unhex(it["PUBLIC"]), unhex(it["MESSAGE"]), unhex(it["SIGNATURE"]), "CONTEXT" not in it) for _, _, it in cavp(read("Ed448/rfc8032.txt")) if "PUBLIC" in it))
        certificates("x509/PKITS_data/certs (OpenSSL's word)", sorted((vectors / "x509/PKITS_data/certs").glob("*.crt")))
        certificates("x509/*.pem, x509/custom (OpenSSL's word)", sorted((vectors / "x509").rglob("*.pem")))
    if go:
        ec_cavp("Go: crypto/ecdsa/testdata/SigVer.rsp", bz2.open(go / "ecdsa/testdata/SigVer.rsp.bz2", "rt").read())
        ed_input("Go: crypto/ed25519/testdata/sign.input", gzip.open(go / "ed25519/testdata/sign.input.gz", "rt").read())
        left_out("Go: crypto/rsa/testdata/pss-vect.txt", "SHA-1 alone", bz2.open(go / "rsa/testdata/pss-vect.txt.bz2", "rt").read().count("# Signature:"))
    if circl:
        wycheproof_ed25519("circl: wycheproof_Ed25519.json", circl / "sign/ed25519/testdata/wycheproof_Ed25519.json")
        path = circl / "sign/ed448/testdata/wycheproof_Ed448.json"
        ed448("circl: wycheproof_Ed448.json", ((f"tcId {test['tcId']} {test['result']} {test['comment']}", unhex(group["key"]["pk"]), unhex(test["msg"]), unhex(test["sig"]), test["result"] == "valid")
                                               for group in json.loads(path.read_text())["testGroups"] for test in group["tests"]))
        with zipfile.ZipFile(circl / "sign/ed25519/testdata/sign.input.zip") as archive:
            ed_input("circl: sign.input", archive.read("sign.input.txt").decode())
    if ring_folder:
        ring(ring_folder)
    certificates("ca-certificates, Debian's roots (OpenSSL's word)", sorted(pathlib.Path("/usr/share/ca-certificates/mozilla").glob("*.crt")))
    # derived rows, of each valid one that has its own algorithm (once, where files share it)
    seen, fresh = set(), []
    for row in ROWS:
        if row.expected and row.group == "vector" and row.alg != "digest":
            asked = (row.alg, row.a, row.b, row.message, row.signature)
            if asked not in seen:
                seen.add(asked)
                fresh.append(row)
    derived_ed([it for it in fresh if it.kind == "Ed25519"], "S + L, S + 8L, L - S, a bit of R, S, A, message; sizes")
    derived_ec([it for it in fresh if it.kind in SIZES])
    derived_rsa([it for it in fresh if it.kind == "RSA"])
    exhaustive(fresh)


def exhaustive(fresh):
    """Each bit of signature and key, of the first valid row of each algorithm."""
    for alg in ("ES256", "ES384", "ES512", "EdDSA", "RS256", "PS256"):
        row = next((it for it in fresh if it.alg == alg), None)
        if not row:
            continue
        for what in ("signature", "a", "b"):
            octets = getattr(row, what)
            if what != "signature" and row.kind == "RSA":
                continue
            for at in range(8 * len(octets)):
                if (alg in ("RS256", "PS256")) and at % 8:
                    continue
                changed = {"a": row.a, "b": row.b, "signature": row.signature, what: flip(octets, at)}
                ROWS.append(Row(row.file, f"{row.name}: bit {at} of {what}", alg, row.kind, changed["a"], changed["b"], row.message, changed["signature"], False,
                                group="derived: each bit of key and signature"))


def judged(row, letters):
    """What isn't as expected of a row's letters; empty where all is."""
    wrong = []
    want = "V" if row.expected else "i"
    has_period = 46 in row.message and row.alg != "digest"
    names = ("over the message", "with the key prepared", "verifier", "prepared verifier", "BuiltIn", "BuiltIn, prepared")
    reads = letters[7] == "Y"
    asked = (True, row.kind != "RSA", has_period, has_period, has_period and reads, has_period and reads)
    for name, letter, is_asked in zip(names, letters, asked):
        if letter != (want if is_asked else "-"):
            wrong.append(f"{name}: {letter}")
    if row.taken is not None and letters[6] != ("Y" if row.taken else "n"):
        wrong.append(f"key taken: {letters[6]}")
    if row.expected and row.alg != "digest" and letters[7] != "Y":
        wrong.append("the key set doesn't read the key")
    return wrong
