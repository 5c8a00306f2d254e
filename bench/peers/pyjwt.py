"""Prints how many calls a second so many threads make of PyJWT: pyjwt.py THREADS SECONDS NAME BURST

NAME ends with the algorithm. NAME.key is the secret of a token by HS256, NAME.pem the public key of any other. The end isn't looked at, since the moment can't be
set, and the tokens of the RFC ended in 2011. The bursts are those of bindings/python.
"""

import pathlib

import jwt

from bursts import print_rates, read_words

OPTIONS = {"verify_exp": False, "require": ["exp", "iss"]}


def key_of(name):
    """The key of this name, and its algorithm."""
    ending = pathlib.Path(name).name
    algorithm = "EdDSA" if ending == "Ed25519" else ending
    octets = pathlib.Path(f"{name}.{'key' if algorithm == 'HS256' else 'pem'}").read_bytes()
    return jwt.algorithms.get_default_algorithms()[algorithm].prepare_key(octets), algorithm


def main():
    """Prints the calls a second."""
    words = read_words()
    key, algorithm = key_of(words.name)
    token = pathlib.Path(f"{words.name}.jwt").read_text().strip()
    print_rates(words, lambda: jwt.decode(token, key, algorithms=[algorithm], issuer="joe", options=OPTIONS))


if __name__ == "__main__":
    main()
