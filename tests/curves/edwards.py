"""The curve of Ed25519 (RFC 8032, section 5.1), to forge signatures and to know a key of small order."""
import hashlib

P = 2**255 - 19
L = 2**252 + 27742317777372353535851937790883648493
D = -121665 * pow(121666, -1, P) % P
NEUTRAL = (0, 1)


def added(one, other):
    """The sum of two points, in affine coordinates."""
    (x, y), (u, v) = one, other
    product = D * x * u * y * v % P
    return (x * v + y * u) * pow(1 + product, -1, P) % P, (y * v + x * u) * pow(1 - product, -1, P) % P


def multiple(number, point):
    result = NEUTRAL
    while number:
        if number & 1:
            result = added(result, point)
        point, number = added(point, point), number >> 1
    return result


def encoded(point):
    x, y = point
    return (y | (x & 1) << 255).to_bytes(32, "little")


def decoded(octets):
    """The point of these octets; none where they encode none (RFC 8032, section 5.1.3)."""
    given = int.from_bytes(octets, "little")
    y, sign = given % 2**255, given >> 255
    if y >= P:
        return None
    square = (y * y - 1) * pow(D * y * y + 1, -1, P) % P
    x = pow(square, (P + 3) // 8, P)
    if x * x % P != square:
        x = x * pow(2, (P - 1) // 4, P) % P
    if x * x % P != square or (x == 0 and sign):
        return None
    return (x if x & 1 == sign else P - x), y


BASE = decoded((4 * pow(5, -1, P) % P).to_bytes(32, "little"))


def has_small_order(point):
    return multiple(8, point) == NEUTRAL


def challenge(r, key, message):
    """k: the hash of R, of the key and of the message, modulo the order."""
    return int.from_bytes(hashlib.sha512(r + key + message).digest(), "little") % L


def signature(secret, key, nonce, message):
    """The signature of whoever has the key's scalar, with R the base point's multiple by `nonce`."""
    r = encoded(multiple(nonce, BASE))
    return r + ((nonce + challenge(r, key, message) * secret) % L).to_bytes(32, "little")
