"""Asks PyJWT: pyjwt.py QUESTIONS"""

import jwt

import questions


def judge(token, algorithms, kind, key, issuer, audience, required, leeway):
    jwt.decode(token, key, algorithms=algorithms, issuer=issuer, audience=audience, leeway=leeway, options={"require": required})


questions.answer_all(judge)
