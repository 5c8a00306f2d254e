"""Tests of who holds the key of a token, over the proofs of the repository."""

import base64
import hashlib
import hmac
import json
import pathlib
import threading
import unittest
from typing import Any, Dict, List, Optional

from fowharimu import UNBOUND, Certificate, DPoP, Expected, Nonces, NotExpected, NotHeld, NotTaken, Once, OnceEntry, PolicyRefused, Proof, Proofs, TokenRefused, Validator
from fowharimu.issuers import Issuers

TOP = pathlib.Path(__file__).resolve().parents[3]
FIRST, *ROWS = (json.loads(line) for line in (TOP / "tests/possession/cases.jsonl").read_text().splitlines())
GOOD = ROWS[0]


def validator() -> Validator:
    """Accepts the access tokens of the rows."""
    return Validator(FIRST["access_policy"], FIRST["access_keys"])


def proof_of(row: Dict[str, Any], proofs: Proofs) -> Proof:
    return Proof(proofs, row["proof"], row["method"], row["uri"], row["nonce"])


class Possession(unittest.TestCase):
    """A token with a proof, with a certificate, or with neither."""

    def answer(self, row: Dict[str, Any], by: Validator) -> str:
        try:
            by.validate(row["token"], row["now"], holder=proof_of(row, Proofs(FIRST["policy"], Once(1, opened=0))))
        except NotHeld as refusal:
            return refusal.fault
        return "held"

    def test_each_proof_is_answered_as_the_table_says(self) -> None:
        count = 0
        with validator() as by:
            for row in ROWS:
                try:
                    by.validate(row["token"] or "", row["now"])
                except TokenRefused:
                    continue  # (there is no access token, or the standard's own, which is none)
                count += 1
                with self.subTest(row["name"]):
                    self.assertEqual(self.answer(row, by), row["answer"])
        self.assertGreater(count, 500)

    def test_a_proof_counts_once(self) -> None:
        once = Once(2, share=2, opened=0)
        proofs = Proofs(FIRST["policy"], once)
        with validator() as by:
            by.validate(GOOD["token"], GOOD["now"], holder=proof_of(GOOD, proofs))
            with self.assertRaises(NotTaken) as caught:
                by.validate(GOOD["token"], GOOD["now"] + 1, holder=proof_of(GOOD, Proofs(FIRST["policy"], once)))
            self.assertEqual(caught.exception.fault, "Seen")

    def test_what_isnt_expected_takes_no_proof(self) -> None:
        proofs = Proofs(FIRST["policy"], Once(1, opened=0))
        with validator() as by:
            with self.assertRaises(NotExpected):
                by.validate(GOOD["token"], GOOD["now"], expected=Expected({"sub": "nobody"}), holder=proof_of(GOOD, proofs))
            by.validate(GOOD["token"], GOOD["now"], expected=Expected({"sub": "user"}), holder=proof_of(GOOD, proofs))

    def test_one_of_many_threads_has_its_proof_taken(self) -> None:
        proofs, held = Proofs(FIRST["policy"], Once(8, share=8, opened=0)), []  # type: Proofs, List[int]
        with validator() as by:

            def show() -> None:
                try:
                    by.validate(GOOD["token"], GOOD["now"], holder=proof_of(GOOD, proofs))
                    held.append(1)
                except NotTaken:
                    pass

            threads = [threading.Thread(target=show) for _ in range(8)]
            for thread in threads:
                thread.start()
            for thread in threads:
                thread.join()
        self.assertEqual(len(held), 1)

    def test_a_bound_token_that_comes_alone_is_refused_where_that_is_asked(self) -> None:
        with validator() as by:
            self.assertEqual(by.validate(GOOD["token"], GOOD["now"])["sub"], "user")
            with self.assertRaises(NotHeld) as caught:
                by.validate(GOOD["token"], GOOD["now"], holder=UNBOUND)
            self.assertEqual(caught.exception.fault, "Bound")
            free = by.issue({"sub": "user"})
            self.assertEqual(by.validate(free, holder=UNBOUND), {"sub": "user"})

    def test_a_certificate_is_the_one_that_the_token_is_bound_to(self) -> None:
        der = b"a certificate"
        digest = base64.urlsafe_b64encode(hashlib.sha256(der).digest()).rstrip(b"=").decode()
        with validator() as by:
            token = by.issue({"sub": "user", "cnf": {"x5t#S256": digest}})
            self.assertEqual(by.validate(token, holder=Certificate(der))["sub"], "user")
            both = by.issue({"cnf": {"jkt": "a", "x5t#S256": digest}})
            others: List[Any] = [
                (token, der + b".", "OtherCertificate"), (token, b"", "OtherCertificate"), (by.issue({"sub": "user"}), der, "OtherCertificate"),
                (GOOD["token"], der, "OtherKey"), (both, der, "OtherKey"), (by.issue({"cnf": {}}), der, "Unknown"),
            ]
            for bound, other, fault in others:
                with self.assertRaises(NotHeld) as caught:
                    by.validate(bound, holder=Certificate(other))
                self.assertEqual(caught.exception.fault, fault)

    def test_tokens_of_profiles_are_held_by_another(self) -> None:
        rows = [(it.parent, *line.split("\t")[2:]) for it in TOP.glob("examples/profiles/*/steps.tsv") for line in it.read_text().splitlines()]
        behind = [(folder, token, said) for folder, by, token, said in rows if by.startswith("who holds the key")]
        self.assertEqual(len(behind), 2)
        for folder, token, said in behind:
            holder = Certificate(b"another certificate") if "certificate" in token else UNBOUND
            with self.subTest(token), Validator((folder / "policy.json").read_bytes(), (folder / "keys.json").read_bytes()) as by:
                with self.assertRaises(NotHeld) as caught:
                    by.validate((folder / f"tokens/{token}.jwt").read_bytes(), 1300819379, holder=holder)
                self.assertEqual(f"not held {caught.exception.fault}", said)

    def test_several_issuers_ask_too(self) -> None:
        by = Validator({**FIRST["access_policy"], "issuers": ["one"]}, FIRST["access_keys"])
        token = by.issue({"iss": "one", "cnf": {"jkt": "x"}})
        with self.assertRaises(NotHeld):
            Issuers({"one": by}).validate(token, holder=UNBOUND)

    def test_a_policy_that_isnt_one_for_proofs_is_refused(self) -> None:
        for change, fault in [({"typ": "at+jwt"}, "Typ"), ({"algs": ["ES256", "HS256"]}, "SharedSecret"), ({"required": ["jti"]}, "Required"), ({"more": 1}, "Member")]:
            with self.assertRaises(PolicyRefused) as caught:
                Proofs({**FIRST["policy"], **change}, 1)
            self.assertEqual(caught.exception.fault, fault)
        with self.assertRaises(ValueError):
            Proofs(FIRST["policy"], 0)

    def test_what_is_no_holder_is_no_call(self) -> None:
        nothing: Optional[Any] = None
        with validator() as by:
            for holder in (nothing, {}, GOOD["proof"], Proofs(FIRST["policy"], Once(1, opened=0)), Certificate):
                with self.assertRaises(TypeError):
                    by.validate(GOOD["token"], holder=holder)  # type: ignore[arg-type]
        proofs = Proofs(FIRST["policy"], Once(1, opened=0))
        for value, method, nonce, error in [(nothing, "GET", None, TypeError), ("a", nothing, None, TypeError), ("a", "GET", "", ValueError)]:
            with self.assertRaises(error):
                Proof(proofs, value, method, "https://a/", nonce)  # type: ignore[arg-type]
        with self.assertRaises(TypeError):
            Certificate("text")  # type: ignore[arg-type]

    def test_a_nonce_is_of_its_period(self) -> None:
        secret = bytes(range(32))
        nonces = Nonces(secret, 60)
        for moment, number in [(0, 0), (59, 0), (60, 1), (-1, 0), (1_700_000_000, 28_333_333)]:
            digest = hmac.new(secret, number.to_bytes(8, "big"), "sha256").digest()
            self.assertEqual(nonces.now(moment), base64.urlsafe_b64encode(digest).rstrip(b"=").decode())
        self.assertNotIn(repr(secret), repr(nonces))
        nothing: Optional[Any] = None
        for one, period, error in [(secret[1:], 60, ValueError), (secret, 0, ValueError), (secret, 2**32, ValueError), ("a" * 32, 60, TypeError), (nothing, 60, TypeError), (secret, "60", TypeError)]:
            with self.assertRaises(error):
                Nonces(one, period)  # type: ignore[arg-type]

    def test_a_proof_has_a_nonce_of_this_period_or_the_one_before(self) -> None:
        row = next(it for it in ROWS if it["name"] == "nonce-unasked")
        with validator() as by:
            nonces = Nonces(bytes(32), 60)
            with self.assertRaises(NotHeld) as caught:
                by.validate(row["token"], row["now"], holder=Proof(Proofs(FIRST["policy"], Once(1, opened=0)), row["proof"], row["method"], row["uri"], nonces))
            self.assertEqual((caught.exception.fault, caught.exception._outcome), ("OtherNonce", 10))
            with self.assertRaises(NotHeld) as caught:
                by.validate(row["token"], row["now"], holder=Proof(Proofs(FIRST["policy"], Once(1, opened=0)), row["proof"], "POST", row["uri"], nonces))
            self.assertEqual((caught.exception.fault, caught.exception._outcome), ("OtherMethod", 9))

    def test_a_store_that_is_shared_takes_proofs(self) -> None:
        taken: Dict[bytes, OnceEntry] = {}

        class Store:
            def take(self, entry: OnceEntry) -> bool:
                taken[entry.mark] = entry
                return not seen

        seen: List[int] = []
        with validator() as by:
            proofs = Proofs(FIRST["policy"], Store())
            by.validate(GOOD["token"], GOOD["now"], holder=proof_of(GOOD, proofs))
            thumbprint, jti = json.loads(GOOD["claims"])["cnf"]["jkt"], "e1j3V_bKic8-LAEB"
            digest = hashlib.sha256(len(thumbprint).to_bytes(8, "big") + (thumbprint + jti).encode()).digest()
            owner = None if "sub" not in json.loads(GOOD["claims"]) else hashlib.sha256((0).to_bytes(8, "big") + b"user").digest()
            self.assertEqual(taken, {digest: OnceEntry(digest, owner, GOOD["now"], 65, GOOD["now"] - 5)})
            seen.append(1)
            with self.assertRaises(NotTaken) as caught:
                by.validate(GOOD["token"], GOOD["now"], holder=proof_of(GOOD, proofs))
            self.assertEqual((caught.exception.fault, caught.exception._outcome), ("Seen", 9))

    def test_the_names_of_the_algorithms(self) -> None:
        self.assertEqual(Proofs(FIRST["policy"], Once(1, opened=0)).algs, " ".join(FIRST["policy"]["algs"]))
        self.assertEqual(Proofs({**FIRST["policy"], "algs": ["EdDSA"]}, 1).algs, "EdDSA")

    def test_a_guard_is_made_of_proofs_and_an_origin(self) -> None:
        proofs, nothing = Proofs(FIRST["policy"], Once(1, opened=0)), None  # type: Proofs, Optional[Any]
        for origin in ("https://api.example", "HTTP://[::1]:8080", "https://api.example:8443"):
            DPoP(proofs, origin, only=True, nonces=Nonces(bytes(32)))
        for one, origin, words, error in [
            *((proofs, it, {}, ValueError) for it in ("", "api.example", "https://", "https://api.example/", "https://a@b", "https://a?b", "https://a#b", "ftp://a", "https://a b")),
            (nothing, "https://api.example", {}, TypeError),
            (proofs, "https://api.example", {"nonces": b"nonces"}, TypeError),
            (proofs, "https://api.example", {"nonces": nothing}, TypeError),
        ]:
            with self.assertRaises(error):
                DPoP(one, origin, **words)  # type: ignore[arg-type]


if __name__ == "__main__":
    unittest.main()
