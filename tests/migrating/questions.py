"""What the libraries read, and what they say: pairs of a question a line, with tabs between its nine fields.

    name, algorithms with commas, `secret` or `pem`, the key, the issuer, the audience, the claims that have to be there with commas, leeway, the token

Octets are in hexadecimal, and `-` where there are none. The answer is the name, and `accepted` or the library's own name of its error.
"""
import sys


def text_of(word):
    """The text of a field; None where there is none."""
    return None if word == "-" else bytes.fromhex(word).decode()


def answer_all(judge):
    """Asks a function for each line of the file that the word names: it raises where the token isn't accepted."""
    with open(sys.argv[1]) as lines:
        for line in lines:
            name, algs, kind, key, issuer, audience, required, leeway, token = line.rstrip("\n").split("\t")
            try:
                claims = [] if required == "-" else [text_of(it) for it in required.split(",")]
                octets = bytes() if token == "-" else bytes.fromhex(token)
                judge(octets, algs.split(","), kind, bytes.fromhex(key), text_of(issuer), text_of(audience), claims, int(leeway))
                print(f"{name}\taccepted")
            except Exception as error:  # (whatever it raises, the token isn't accepted)
                print(f"{name}\t{type(error).__name__}")
