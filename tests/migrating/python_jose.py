"""Asks python-jose: python_jose.py QUESTIONS"""

from jose import jwt

import questions


def judge(token, algorithms, kind, key, issuer, audience, required, leeway):
    options = {"leeway": leeway, **{f"require_{name}": True for name in required}}
    jwt.decode(token.decode(), key.decode() if kind == "pem" else key, algorithms=algorithms, issuer=issuer, audience=audience, options=options)


questions.answer_all(judge)
