"""Tests of the package, over the tokens of the repository."""

import array
import base64
import contextlib
import copy
import gc
import hashlib
import hmac
import json
import math
import os
import pathlib
import pickle
import signal
import sys
import threading
import time
import unittest
from typing import Any, Callable, Dict, Iterator, List, Union

from fowharimu import (
    Access,
    AccessRefused,
    AnotherLibrary,
    CeilingReached,
    ClaimsRefused,
    Closed,
    Denied,
    Expected,
    FormRefused,
    FowharimuError,
    IssueRefused,
    KeysRefused,
    NotExpected,
    NotTaken,
    Once,
    OnceEntry,
    OnceStore,
    PolicyRefused,
    SignatureRefused,
    TokenRefused,
    TooLong,
    Unreadable,
    Validator,
    _library,
    _object,
    _seats,
)
from fowharimu._access import NO_RULE
from fowharimu.issuers import Issuers

TOP = pathlib.Path(__file__).resolve().parents[3]
NAMES = sorted(it.with_suffix("") for folder in ("examples", "tests/tokens") for it in (TOP / folder).glob("*.jwt"))
NOW = 1300819379
HMAC = TOP / "examples/rfc7515-a1"


def validator_of(name: pathlib.Path) -> Validator:
    """The validator of a token's policy and key set."""
    return Validator(name.with_suffix(".policy").read_bytes(), name.with_suffix(".keys").read_bytes())


def token_of(name: pathlib.Path) -> str:
    """The token of that name."""
    return name.with_suffix(".jwt").read_text()


class Opening(unittest.TestCase):
    @unittest.skipUnless("FOWHARIMU_ANOTHER" in os.environ, "tests/run names a library of another interface")
    def test_another_library_is_refused(self) -> None:
        with self.assertRaises(AnotherLibrary) as caught:
            Validator({"algs": ["HS256"]}, {"keys": []})
        number = int(os.environ["FOWHARIMU_ANOTHER"])
        self.assertEqual((caught.exception.made_for, caught.exception.loaded), (_library.ABI, number))
        self.assertEqual(str(caught.exception), f"the library another has interface {number}, and this package was made for {_library.ABI}")


class Remembering(unittest.TestCase):
    """Tokens that come again."""

    def remembering(self, tokens: int = 10, octets: int = 4096) -> Validator:
        """A validator of the token of HMAC that remembers so many tokens."""
        return Validator(HMAC.with_suffix(".policy").read_bytes(), HMAC.with_suffix(".keys").read_bytes(), remember=(tokens, octets))

    def test_a_token_that_comes_again_is_judged_by_its_claims(self) -> None:
        with self.remembering() as validator:
            reports = [validator.judge(token_of(HMAC), NOW + it) for it in (0, 0, 1, 0)]
            self.assertEqual([it.remembered for it in reports], [False, True, True, True])
            self.assertEqual([it.accepted for it in reports], [True, True, False, True])
            self.assertEqual(reports[1], reports[3])
            self.assertEqual((reports[0].work, reports[0].tries, reports[0].states), (reports[2].work, reports[2].tries, reports[2].states))
            self.assertEqual(validator.validate(token_of(HMAC), NOW)["iss"], "joe")
            with self.assertRaises(Denied):
                validator.validate(token_of(HMAC), NOW, Access({"scopes": ["read"]}))
            with self.assertRaises(FormRefused):
                validator.validate(token_of(HMAC)[:-1], NOW)

    def test_none_is_remembered_unless_it_is_asked_for(self) -> None:
        length = len(token_of(HMAC))
        with validator_of(HMAC) as plain, self.remembering(0) as none, self.remembering(10, length - 1) as short, self.remembering(1, length) as long:
            for validator, last in ((plain, False), (none, False), (short, False), (long, True)):
                self.assertEqual([validator.judge(token_of(HMAC), NOW).remembered for _ in range(2)], [False, last])

    def test_numbers_that_are_none(self) -> None:
        wrong: List[Any] = [(-1, 1), (1, -1), (2**64, 1), (1,), (1, 2, 3)]
        for remember in wrong:
            with self.subTest(remember), self.assertRaises(ValueError):
                Validator({"algs": ["HS256"]}, {"keys": []}, remember=remember)
        strange: Any = (1, "x")
        with self.assertRaises(TypeError):
            Validator({"algs": ["HS256"]}, {"keys": []}, remember=strange)


class Expecting(unittest.TestCase):
    """What one call expects of the claims of an accepted token."""

    def setUp(self) -> None:
        self.one = validator_of(HMAC)
        self.addCleanup(self.one.close)

    def assert_not_expected(self, token: str, expected: Expected, fault: str, claim: str) -> None:
        with self.assertRaises(NotExpected) as caught:
            self.one.validate(token, NOW, expected=expected)
        self.assertEqual((caught.exception.fault, caught.exception.claim), (fault, claim))
        self.assertIn(claim, str(caught.exception))

    def test_a_token_is_the_one_that_was_expected(self) -> None:
        claims = {"nonce": "n-1", "sub": "ann", "at": {"a/b": "x"}, "list": ["n-1"], "exp": NOW + 9}
        token = self.one.issue(claims)
        met = Expected({"nonce": "n-1", "/at/a~1b": b"x"})
        self.assertEqual(self.one.validate(token, NOW, expected=met), claims)
        for expected, fault, claim in (
            (Expected({"nonce": "n-2"}), "Other", "nonce"),
            (Expected({"nonce": "n-"}), "Other", "nonce"),
            (Expected({"nonce": "n-1 "}), "Other", "nonce"),
            (Expected({"nonce": ""}), "Other", "nonce"),
            (Expected({"nonce": "\ud800"}), "Other", "nonce"),
            (Expected({"list": "n-1"}), "Other", "list"),
            (Expected({"sid": "n-1"}), "Absent", "sid"),
            (Expected({"/at/c": "x"}), "Absent", "/at/c"),
            (Expected({"sub": "ann", "sid": "s", "nonce": "n-2"}), "Absent", "sid"),
            (Expected({"nonce": "n-2"}, hashes={"at_hash": "t"}), "Other", "nonce"),
            (Expected({"nonce": "n-1"}, hashes={"at_hash": "t"}), "Absent", "at_hash"),
        ):
            with self.subTest(claim=claim, fault=fault):
                self.assert_not_expected(token, expected, fault, claim)

    def test_a_claim_has_the_half_of_a_hash(self) -> None:
        for alg, name in (("HS256", "sha256"), ("HS384", "sha384"), ("HS512", "sha512")):
            digest = hashlib.new(name, b"an access token").digest()
            half = base64.urlsafe_b64encode(digest[: len(digest) // 2]).rstrip(b"=").decode()
            policy = {"algs": [alg]}
            keys = {"keys": [{"kty": "oct", "k": base64.urlsafe_b64encode(bytes(64)).rstrip(b"=").decode()}]}
            with self.subTest(alg), Validator(policy, keys, remember=(2, 4096)) as validator:
                token = validator.issue({"at_hash": half, "exp": NOW + 9}, alg=alg)
                # (the second time it is remembered)
                for _ in range(2):
                    validator.validate(token, NOW, expected=Expected(hashes={"at_hash": "an access token"}))
                with self.assertRaises(NotExpected):
                    validator.validate(token, NOW, expected=Expected(hashes={"at_hash": "another access token"}))
                with self.assertRaises(NotExpected):
                    validator.validate(token, NOW, expected=Expected({"at_hash": half[:-1]}))

    def test_what_is_expected_is_asked_before_a_token_is_taken(self) -> None:
        documents = (HMAC.with_suffix(".policy").read_bytes(), HMAC.with_suffix(".keys").read_bytes())
        with Validator(*documents, once=Once(2, opened=0)) as validator:
            token = validator.issue({"iss": "joe", "jti": "1", "nonce": "n", "exp": NOW + 9})
            with self.assertRaises(NotExpected):
                validator.validate(token, NOW, expected=Expected({"nonce": "m"}))
            validator.validate(token, NOW, expected=Expected({"nonce": "n"}))
            with self.assertRaises(NotTaken):
                validator.validate(token, NOW, expected=Expected({"nonce": "n"}))

    def test_what_is_expected_is_never_nothing_by_mistake(self) -> None:
        none: Any = None
        for make in (lambda: Expected({"nonce": none}), lambda: Expected(hashes={"at_hash": none}), lambda: Expected({none: "n"})):
            self.assertRaises(TypeError, make)
        for expected in (none, {"nonce": "n"}):
            with self.assertRaises(TypeError):
                self.one.validate("x", NOW, expected=expected)

    def test_tokens_of_profiles_are_not_what_was_expected(self) -> None:
        rows = [(it.parent, *line.split("\t")[2:]) for it in TOP.glob("examples/profiles/*/steps.tsv") for line in it.read_text().splitlines()]
        behind = [(folder, token, said) for folder, by, token, said in rows if by.startswith("what the call expects")]
        self.assertEqual(len(behind), 3)
        for folder, token, said in behind:
            nonce = json.loads((folder / "tokens.json").read_text())["claims"]["nonce"]
            expected = Expected({"nonce": nonce}, hashes={"at_hash": "another access token"} if "access-token" in token else {})
            with self.subTest(folder.name), Validator((folder / "policy.json").read_bytes(), (folder / "keys.json").read_bytes()) as validator:
                with self.assertRaises(NotExpected) as caught:
                    validator.validate((folder / f"tokens/{token}.jwt").read_bytes(), NOW, expected=expected)
                self.assertEqual(f'not expected {caught.exception.fault} claim="{caught.exception.claim}"', said)


class Taking(unittest.TestCase):
    """Tokens that count once."""

    def taking(self, once: Union[Once, OnceStore, int] = 10) -> Validator:
        """A validator that takes so many tokens, which it issues too."""
        memory = Once(once, opened=0) if isinstance(once, int) else once
        return Validator({"algs": ["HS256"], "leeway": 60}, HMAC.with_suffix(".keys").read_bytes(), once=memory)

    def refused(self, validator: Validator, token: str, now: int, fault: str) -> None:
        """That an accepted token isn't taken, for this reason."""
        with self.assertRaises(NotTaken) as caught:
            validator.validate(token, now)
        why = "it was issued before this memory was opened" if fault == "Before" else fault
        self.assertEqual((caught.exception.fault, str(caught.exception)), (fault, f"the token counts once, and isn't taken: {why}"))
        self.assertIsInstance(caught.exception, TokenRefused)

    def test_tokens_of_profiles_are_let_in_once(self) -> None:
        rows = [(it.parent, *line.split("\t")[2:]) for it in TOP.glob("examples/profiles/*/steps.tsv") for line in it.read_text().splitlines()]
        once = [(folder, token, said) for folder, by, token, said in rows if by.startswith("a memory of tokens that count once")]
        self.assertEqual(len(once), 4)
        for folder, token, said in once:
            octets, rule = (folder / f"tokens/{token}.jwt").read_bytes(), folder / "access.json"
            access = Access(rule.read_bytes()) if rule.exists() else NO_RULE
            with self.subTest(folder.name), Validator((folder / "policy.json").read_bytes(), (folder / "keys.json").read_bytes(), once=Once(8, opened=0)) as validator:
                validator.validate(octets, NOW, access)
                with self.assertRaises(NotTaken) as caught:
                    validator.validate(octets, NOW, access)
                self.assertEqual(f"not taken {caught.exception.fault}", said)

    def test_a_store_of_the_applications_own(self) -> None:
        class Store:
            def __init__(self) -> None:
                self.held: Dict[bytes, OnceEntry] = {}

            def take(self, entry: OnceEntry) -> Any:
                return len(entry.mark) == 32 and entry == self.held.setdefault(entry.mark, entry) and len(self.held) == 1

        store = Store()
        one, other = self.taking(store), self.taking(store)
        token = one.issue({"iss": "i", "jti": "a", "exp": 1000})
        self.assertEqual(one.validate(token, 900)["jti"], "a")
        self.assertEqual([it[1:] for it in store.held.values()], [(None, 1000, 60, 0)])
        self.refused(one, one.issue({"jti": "a", "exp": 1000}), 900, "Seen")
        self.assertEqual(len(store.held), 2)
        for claims, fault in (({"iss": "i", "exp": 1000}, "NoId"), ({"iss": "i", "jti": "a"}, "NoEnd")):
            self.refused(other, other.issue(claims), 900, fault)
        # (what isn't True refuses, and so does what is raised)
        for answer, fault in ((None, "Seen"), (1, "Seen"), ("new", "Seen"), ("New", "Seen"), ("Late", "Late"), ("OwnFull", "OwnFull"), ("Full", "Full")):
            store.take = lambda entry, answer=answer: answer  # type: ignore[method-assign, misc, assignment]
            self.refused(one, token, 900, fault)
        store.take = lambda entry: 1 // 0  # type: ignore[method-assign, assignment, return-value]
        with self.assertRaises(ZeroDivisionError):
            one.validate(token, 900)
        for it in (one, other):
            it.close()

    def test_a_token_is_let_in_once(self) -> None:
        with self.taking() as validator:
            token = validator.issue({"iss": "i", "jti": "a", "exp": 1000})
            self.assertTrue(validator.judge(token, 900).accepted)
            with self.assertRaises(Denied):
                validator.validate(token, 900, Access({"scopes": ["read"]}))
            self.assertEqual(validator.validate(token, 900)["jti"], "a")
            self.refused(validator, token, 900, "Seen")
            self.refused(validator, validator.issue({"iss": "i", "jti": "a", "exp": 1001}), 1060, "Seen")
            self.assertEqual(validator.validate(validator.issue({"jti": "a", "exp": 1000}), 900)["jti"], "a")
            with self.assertRaises(ClaimsRefused):
                validator.validate(token, 1060)

    def test_why_a_token_is_not_taken(self) -> None:
        with self.taking(1) as validator:
            self.refused(validator, validator.issue({"iss": "i", "exp": 1000}), 900, "NoId")
            self.refused(validator, validator.issue({"iss": "i", "jti": "a"}), 900, "NoEnd")
            self.refused(validator, validator.issue({"jti": "a", "exp": 1000, "iat": 961}), 900, "Ahead")
            validator.validate(validator.issue({"jti": "a", "exp": 1000}), 900)
            self.refused(validator, validator.issue({"jti": "b", "exp": 2000}), 900, "Full")
            validator.validate(validator.issue({"jti": "b", "exp": 2000}), 1061)
            self.refused(validator, validator.issue({"jti": "a", "exp": 1000}), 900, "Late")

    def test_none_is_taken_unless_it_is_asked_for(self) -> None:
        with validator_of(HMAC) as validator:
            self.assertEqual([validator.validate(token_of(HMAC), NOW)["iss"] for _ in range(2)], ["joe", "joe"])

    def test_validators_share_a_memory(self) -> None:
        once = Once(10, opened=0)
        with self.taking(once) as first, self.taking(once) as second:
            token = first.issue({"iss": "i", "jti": "a", "exp": 1000})
            first.validate(token, 900)
            self.refused(second, token, 900, "Seen")
        with self.assertRaises(TypeError):
            copy.copy(once)

    def test_the_rows_of_memories(self) -> None:
        once, keys, count = None, HMAC.with_suffix(".keys").read_bytes(), 0
        for line in (TOP / "tests/once/takes.tsv").read_text().splitlines():
            _, what, *words = line.split("\t") if not line.startswith("#") else ("", "")
            if what == "open":
                tokens, share, opened = map(int, words)
                once = Once(tokens, share=share or None, opened=opened)
            elif what == "take":
                leeway, now, claims, answer = words
                count += 1
                with self.subTest(line), Validator({"algs": ["HS256"], "leeway": int(leeway)}, keys, once=once) as validator:
                    said = "NEW"
                    try:
                        validator.validate(validator.issue(json.loads(claims)), int(now))
                    except NotTaken as refusal:
                        said = refusal.fault
                    self.assertEqual(said.upper(), answer.replace("_", ""))
        self.assertGreater(count, 30)

    def test_a_memory_that_begins_now(self) -> None:
        now = int(time.time())
        with self.taking(Once(10)) as validator:
            self.refused(validator, validator.issue({"jti": "a", "exp": now + 900}), now, "Before")
            self.refused(validator, validator.issue({"jti": "a", "iat": now, "exp": now + 900}), now, "Before")
            self.assertEqual(validator.validate(validator.issue({"jti": "a", "iat": now + 120, "exp": now + 900}), now + 60)["jti"], "a")
        for words in ({"share": 0}, {"share": -1}, {"opened": -1}, {"opened": 2**64}):
            with self.subTest(words), self.assertRaises(ValueError):
                Once(10, **words)

    def test_numbers_that_are_none(self) -> None:
        for once in (0, -1, 2**64):
            with self.subTest(once), self.assertRaises(ValueError):
                Validator({"algs": ["HS256"]}, {"keys": []}, once=once)

    def test_of_many_threads_one_is_let_in(self) -> None:
        let_in = []
        with self.taking() as validator:
            token = validator.issue({"iss": "i", "jti": "a", "exp": 1000})

            def validate_often() -> None:
                for _ in range(50):
                    with contextlib.suppress(NotTaken):
                        let_in.append(validator.validate(token, 900))

            threads = [threading.Thread(target=validate_often) for _ in range(8)]
            for thread in threads:
                thread.start()
            for thread in threads:
                thread.join()
        self.assertEqual(len(let_in), 1)


class Rules(unittest.TestCase):
    """Access rules, over the claims of RFC 7515, appendix A.1: `iss` joe, `exp` and `http://example.com/is_root` true."""

    def denial(self, rule: Any) -> Denied:
        """Why a rule denies the token."""
        with validator_of(HMAC) as validator, self.assertRaises(Denied) as caught:
            validator.validate(token_of(HMAC), NOW, Access(rule))
        return caught.exception

    def test_an_accepted_token_that_meets_a_rule(self) -> None:
        rule = Access({"scopes": ["joe"], "scope_claim": "iss", "claims": {"iss": ["joe", "ann"], "exp": [NOW + 1], "http://example.com/is_root": [True]}})
        with validator_of(HMAC) as validator:
            for access in (rule, Access("{}"), Access(b"{}"), NO_RULE):
                self.assertEqual(validator.validate(token_of(HMAC), NOW, access=access)["iss"], "joe")

    def test_a_denial_tells_what_is_missing(self) -> None:
        denial = self.denial({"scopes": ["read", "write"], "claims": {"iss": ["ann"]}})
        self.assertEqual(denial.args, ("ScopeMissing", "read", None, ("read", "write")))
        self.assertEqual((denial.fault, denial.scope, denial.claim, denial.scopes), denial.args)
        self.assertEqual(str(denial), "the token is denied: ScopeMissing (this scope isn't granted): 'read'")
        self.assertEqual(self.denial({"claims": {"iss": ["ann"], "sub": ["x"]}}).args, ("ClaimNotAllowed", None, "iss", ()))
        self.assertEqual(self.denial({"claims": {"": ["x"]}}).args, ("ClaimMissing", None, "", ()))
        long = "/" + "a" * 5000
        self.assertEqual(self.denial({"claims": {long: [1]}}).claim, long)

    def test_a_denial_is_no_refusal(self) -> None:
        self.assertFalse(issubclass(Denied, TokenRefused))
        with validator_of(HMAC) as validator, self.assertRaises(ClaimsRefused):
            validator.validate(token_of(HMAC), NOW + 3600, Access({"scopes": ["read"]}))
        for copied in (copy.copy, lambda it: pickle.loads(pickle.dumps(it))):
            denial = self.denial({"scopes": ["read"]})
            self.assertEqual(copied(denial).args, denial.args)

    def test_a_rule_that_is_refused(self) -> None:
        for rule, fault, member in (
            (b"", "Json", None),
            (b"\xff", "Json", None),
            ("\ud800", "Json", None),
            ('{"scopes":[],"scopes":[]}', "NameTwice", None),
            ({"scope": "read"}, "Member", "scope"),
            ({"scopes": ["read write"]}, "Range", "scopes"),
            ({"claims": {"a": [1.5]}}, "Claim", "a"),
            ({"claims": {"/~2": [1]}}, "ClaimRange", "/~2"),
            (b" " * 65537, "TooLong", None),
        ):
            with self.subTest(rule[:30] if isinstance(rule, (str, bytes)) else rule), self.assertRaises(AccessRefused) as caught:
                Access(rule)
            self.assertEqual((caught.exception.fault, caught.exception.member), (fault, member))
        with self.assertRaises(TypeError):
            Access(7)  # type: ignore[arg-type]

    def test_the_rules_of_the_documents(self) -> None:
        """Those of docs/ACCESS.md, which stand in examples/access, with what is expected there of the claims beside them."""
        shown, said = (TOP / "docs/ACCESS.md").read_text(), []
        for path in sorted((TOP / "examples/access").glob("*.access")):
            rule = path.read_text()
            self.assertIn(f"```json\n{rule}```\n", shown)
            said.append(path.stem)
            with Validator(path.with_suffix(".policy").read_bytes(), (TOP / "examples/rfc7515-a1.keys").read_bytes()) as validator:
                for claims in path.with_suffix(".claims").read_text().splitlines():
                    token = validator.issue(claims, typ="at+jwt")
                    report = validator.judge(token, 1639528911)
                    try:
                        validator.validate(token, 1639528911, Access(rule))
                        verdict = "accepted"
                    except Denied as denial:
                        name = f"claim={json.dumps(denial.claim)}" if denial.scope is None else f"scope={json.dumps(denial.scope)}"
                        verdict = f"denied {denial.fault} {name}"
                    said.append(f"{verdict} sig=0 key=0 tries=1 work={report.work}")
        self.assertEqual(said, (TOP / "examples/access/expected.txt").read_text().splitlines())

    def test_it_is_not_copied(self) -> None:
        access = Access({"scopes": ["a", "b"]})
        self.assertEqual(access.scopes, ("a", "b"))
        for copied in (copy.copy, copy.deepcopy, pickle.dumps):
            with self.assertRaises(TypeError):
                copied(access)

    def test_threads_share_it(self) -> None:
        access, wrong = Access({"claims": {"iss": ["joe"]}}), []
        denies = Access({"claims": {"iss": ["ann"]}})
        with validator_of(HMAC) as validator:

            def judge_often() -> None:
                for _ in range(200):
                    if validator.validate(token_of(HMAC), NOW, access)["iss"] != "joe":
                        wrong.append("claims")
                    try:
                        validator.validate(token_of(HMAC), NOW, denies)
                        wrong.append("granted")
                    except Denied as denial:
                        if denial.claim != "iss":
                            wrong.append(denial)

            threads = [threading.Thread(target=judge_often) for _ in range(8)]
            for thread in threads:
                thread.start()
            for thread in threads:
                thread.join()
        self.assertEqual(wrong, [])
        self.assertLessEqual(len(access._free), 8)

    def test_a_rule_that_is_none_is_no_permission(self) -> None:
        named = Validator({"algs": ["HS256"], "issuers": ["joe"]}, HMAC.with_suffix(".keys").read_bytes())
        with validator_of(HMAC) as validator, Issuers({"joe": named}) as issuers:
            for judging in (validator, issuers):
                for rule in (None, {}, False, "{}"):
                    with self.subTest(judging, rule=rule), self.assertRaises(TypeError):
                        judging.validate(token_of(HMAC), NOW, rule)  # type: ignore[arg-type]

    def test_a_failed_call_is_no_permission(self) -> None:
        with validator_of(HMAC) as validator:
            access, seat = Access({}), validator._seats.take()
            # (nothing was judged by this seat)
            with self.assertRaises(MemoryError):
                access.denial(seat)
            validator._seats.give(seat)


class Tokens(unittest.TestCase):
    def test_each_token_is_accepted_and_refused_where_it_is_changed(self) -> None:
        self.assertGreaterEqual(len(NAMES), 15)
        for name in NAMES:
            with self.subTest(name.name), validator_of(name) as validator:
                token = token_of(name)
                if name.name == "rfc8037-a4":
                    with self.assertRaises(ClaimsRefused):
                        validator.validate(token, NOW)
                elif name.name == "Ed448":
                    with self.assertRaises(SignatureRefused):
                        validator.validate(token, NOW)
                else:
                    self.assertEqual(validator.validate(token, NOW)["iss"], "joe")
                start, _, signature = token.rpartition(".")
                changed = f"{start}.{'B' if signature[0] == 'A' else 'A'}{signature[1:]}"
                with self.assertRaises(SignatureRefused) as caught:
                    validator.validate(changed, NOW)
                self.assertEqual((caught.exception.fault, caught.exception.signature), ("BadSignature", 0))

    def test_the_clock_is_the_moment(self) -> None:
        with validator_of(HMAC) as validator, self.assertRaises(ClaimsRefused) as caught:
            validator.validate(token_of(HMAC))
        self.assertEqual(caught.exception.fault, "Expired")
        self.assertEqual(str(caught.exception), "the token is refused: Expired (the moment is at or after `exp` and the leeway)")

    def test_a_report_has_each_try(self) -> None:
        with validator_of(HMAC) as validator:
            report = validator.judge(token_of(HMAC), NOW)
        self.assertTrue(report.accepted)
        self.assertEqual([(it.state, it.key) for it in report.states], [("verified", 0)])
        self.assertEqual([(it.signature, it.key) for it in report.tries], [(0, 0)])
        self.assertEqual(report.work, report.tries[0].cost)


class Refusals(unittest.TestCase):
    def refused(self, policy: dict, token: str, now: int = NOW) -> TokenRefused:
        """Why the token is refused under the policy."""
        with Validator(policy, HMAC.with_suffix(".keys").read_bytes()) as validator, self.assertRaises(TokenRefused) as caught:
            validator.validate(token, now)
        return caught.exception

    def test_each_kind_of_refusal(self) -> None:
        policy = {"algs": ["HS256"]}
        token = token_of(HMAC)
        cases = [
            (self.refused({**policy, "limit": 100}, token), TooLong, "TooLong"),
            (self.refused(policy, "a.b"), FormRefused, "Segments"),
            (self.refused(policy, "e30.*.AA"), FormRefused, "Base64"),
            (self.refused({**policy, "work": 10}, token), CeilingReached, "WorkExceeded"),
            (self.refused({**policy, "version": 2, "max_calls": 0}, token), CeilingReached, "CallsExceeded"),
            (self.refused({"algs": ["HS384"]}, token), SignatureRefused, "AlgNotAllowed"),
            (self.refused({**policy, "required": ["role"]}, token), ClaimsRefused, "ClaimMissing"),
            (self.refused({**policy, "issuers": ["eve"]}, token), ClaimsRefused, "Issuer"),
        ]
        for refusal, kind, name in cases:
            with self.subTest(name):
                self.assertIsInstance(refusal, kind)
                self.assertEqual(refusal.fault, name)
        self.assertEqual(cases[2][0].part, "payload")
        self.assertEqual(cases[6][0].claim, "role")

    def test_refused_documents(self) -> None:
        with self.assertRaises(PolicyRefused) as caught:
            Validator({"algs": ["HS256"], "audience": "me"}, {"keys": []})
        self.assertEqual((caught.exception.fault, caught.exception.member), ("Member", "audience"))
        with self.assertRaises(PolicyRefused) as empty:
            Validator({"algs": []}, {"keys": []})
        self.assertEqual((empty.exception.fault, empty.exception.member), ("NoAlgorithm", None))
        with self.assertRaises(KeysRefused) as keys:
            Validator({"algs": ["HS256"]}, {})
        self.assertEqual(keys.exception.fault, "NotKeySet")

    def test_a_closed_validator_says_so_in_every_call(self) -> None:
        validator = validator_of(HMAC)
        validator.close()
        validator.close()
        token = token_of(HMAC)
        calls: List[Callable[[], Any]] = [
            lambda: validator.validate(token, NOW),
            lambda: validator.judge(token, NOW),
            lambda: validator.unverified_header(token),
            lambda: validator.issue({}),
        ]
        for call in calls:
            with self.assertRaises(Closed):
                call()


@contextlib.contextmanager
def transaction() -> Iterator[None]:
    """What a service puts around its work: contextlib writes to an exception that passes through it."""
    yield


class Exceptions(unittest.TestCase):
    def test_a_refusal_passes_through_context_managers(self) -> None:
        with validator_of(HMAC) as validator:
            with self.assertRaises(FormRefused), transaction():
                validator.validate("a.b")
            with self.assertRaises(FormRefused), contextlib.ExitStack() as stack:
                stack.enter_context(transaction())
                stack.callback(lambda: None)
                validator.validate("a.b")

    def test_each_is_copied_and_pickled_and_takes_notes(self) -> None:
        every: List[FowharimuError] = [
            PolicyRefused("Member", "audience"),
            KeysRefused("NotKeySet"),
            TokenRefused("Expired"),
            TooLong("TooLong"),
            FormRefused("Base64", "payload", 0),
            CeilingReached("CallsExceeded", 1, 2),
            SignatureRefused("BadSignature", 3),
            ClaimsRefused("ClaimMissing", "role"),
            Unreadable("Claims", b"{}"),
            IssueRefused("NoKey", 4),
            Closed(),
        ]
        for error in every:
            with self.subTest(type(error).__name__):
                for other in (copy.copy(error), copy.deepcopy(error), pickle.loads(pickle.dumps(error))):
                    self.assertEqual((type(other), vars(other), str(other)), (type(error), vars(error), str(error)))
                if sys.version_info >= (3, 11):
                    error.add_note("of this request")
                    self.assertEqual(error.__notes__, ["of this request"])


class Arguments(unittest.TestCase):
    def setUp(self) -> None:
        self.validator = validator_of(HMAC)
        self.addCleanup(self.validator.close)
        self.token = token_of(HMAC)

    def test_a_token_is_a_str_or_bytes_like(self) -> None:
        octets = self.token.encode()
        for token in (octets, bytearray(octets), memoryview(octets), array.array("B", octets)):
            self.assertEqual(self.validator.validate(token, NOW)["iss"], "joe")
        for wrong in (5, 123_456_789, True, None, 1.5, [101], {"a": 1}, object()):
            with self.subTest(repr(wrong)):
                for call in (self.validator.validate, self.validator.judge, self.validator.unverified_header):
                    with self.assertRaises(TypeError):
                        call(wrong)
        for wrong in (5, None, [1]):
            with self.assertRaises(TypeError):
                Validator(wrong, {"keys": []})
            with self.assertRaises(TypeError):
                Validator({"algs": ["HS256"]}, wrong)
            with self.assertRaises(TypeError):
                self.validator.issue(wrong)

    def test_no_method_of_a_subclass_says_how_long_a_text_is(self) -> None:
        class Octets(bytes):
            def __len__(self) -> int:
                return 1_000_000_000

        class Characters(str):
            def encode(self, *_: Any) -> bytes:  # type: ignore[override]
                return Octets(str.encode(self))

        token = token_of(HMAC)
        policy, keys = (HMAC.with_suffix(it).read_bytes() for it in (".policy", ".keys"))
        with Validator(Octets(policy), Octets(keys)) as validator:
            for it in (Octets(token.encode()), Characters(token), memoryview(Octets(token.encode()))):
                self.assertEqual(validator.validate(it, NOW)["iss"], "joe")

    def test_a_lone_surrogate_is_a_refusal(self) -> None:
        for token in (json.loads('"a.b.\\ud800"'), b"a.b.\xff".decode("utf-8", "surrogateescape"), "\udfff", '{"\ud800":1}'):
            with self.subTest(repr(token)):
                with self.assertRaises(TokenRefused):
                    self.validator.validate(token, NOW)
                self.assertIsInstance(self.validator.judge(token, NOW).refusal, TokenRefused)
                self.assertIsNone(self.validator.unverified_header(token))
        with self.assertRaises(PolicyRefused):
            Validator('{"algs":["\ud800"]}', {"keys": []})
        with self.assertRaises(KeysRefused):
            Validator({"algs": ["HS256"]}, '{"keys":[],"a":"\ud800"}')

    def test_a_number_is_never_wrapped(self) -> None:
        for now in (2**63, 2**64 + 1, 2**64 + NOW, -(2**63) - 1):
            for call in (self.validator.validate, self.validator.judge):
                with self.subTest(now), self.assertRaises(ValueError):
                    call(self.token, now)
        with self.assertRaises(TypeError):
            self.validator.validate(self.token, NOW + 0.5)  # type: ignore[arg-type]
        for number in (2**32, 2**64, -1):
            with self.subTest(number):
                with self.assertRaises(ValueError):
                    self.validator.issue({}, key=number)
                with self.assertRaises(ValueError):
                    self.validator.unverified_header(self.token, number)
        with self.assertRaises(ClaimsRefused):
            self.validator.validate(self.token, 2**63 - 1)
        self.assertEqual(self.validator.validate(self.token, -(2**63))["iss"], "joe")

    def test_a_validator_is_not_copied(self) -> None:
        for make in (copy.copy, copy.deepcopy, pickle.dumps):
            with self.assertRaises(TypeError):
                make(self.validator)
            gc.collect()
            self.assertEqual(self.validator.validate(self.token, NOW)["iss"], "joe")

    def test_what_is_held_is_freed_with_the_validator(self) -> None:
        closed, held = [], validator_of(HMAC)
        held.validate(self.token, NOW)
        for seat in (held._seats._documents, *held._seats._free):
            library = seat.library

            class Watched:
                def __getattr__(self, name: str) -> Any:
                    closed.append(name)
                    return getattr(library, name)

            seat.library = Watched()
        del seat, held
        gc.collect()
        self.assertEqual(closed.count("fow_close"), 2)

    def test_the_library_is_found_once(self) -> None:
        self.assertIs(_library.load(), _library.load())

    def test_what_json_does_not_take_is_a_refusal_with_its_octets(self) -> None:
        long = '{"exp":1300819380,"iss":"joe","n":' + "1" * 5000 + "}"
        with Validator({"algs": ["HS256"], "limit": 65536}, HMAC.with_suffix(".keys").read_bytes()) as validator:
            # (the library itself takes no number that is infinite as a float)
            with self.assertRaises(TokenRefused):
                validator.validate(signed('{"alg":"HS256"}', long), NOW)
            self.assertIsNone(validator.unverified_header(signed(long, "{}")))
            wide = '{"exp":1300819380,"iss":"joe","n":' + "1" * 300 + ',"m":1.5e300}'
            self.assertEqual(validator.validate(signed('{"alg":"HS256"}', wide), NOW), json.loads(wide))
        if hasattr(sys, "get_int_max_str_digits"):
            with self.assertRaises(Unreadable) as caught:
                _object(long, "Claims")
            self.assertEqual(caught.exception.octets, long.encode())


def signed(header: str, payload: str) -> str:
    """A token by HS256 with the key of the example."""
    key = json.loads(HMAC.with_suffix(".keys").read_text())["keys"][0]["k"]
    signing_input = f"{base64url(header)}.{base64url(payload)}"
    tag = hmac.digest(base64.urlsafe_b64decode(key + "=="), signing_input.encode(), "sha256")
    return f"{signing_input}.{base64.urlsafe_b64encode(tag).decode().rstrip('=')}"


def base64url(text: str) -> str:
    """The text in base64url without padding."""
    return base64.urlsafe_b64encode(text.encode()).decode().rstrip("=")


class Several(unittest.TestCase):
    """Several issuers, whose tokens the same secret signs. tests/issuers has the table of what is answered."""

    KEYS = {"keys": [{"kty": "oct", "k": "A" * 43}]}

    def setUp(self) -> None:
        self.one, self.other = (Validator({"algs": ["HS256"], "issuers": [it], "limit": limit}, self.KEYS) for it, limit in (("a", 400), ("b", 300)))
        self.issuers = Issuers({"a": self.one, "b": self.other})

    def test_what_a_validator_tells_of_its_policy_and_keys(self) -> None:
        self.assertEqual((self.one.issuer, self.one.limit, self.one.is_public), ("a", 400, False))
        for policy, keys, told in (
            ({"algs": ["RS256"]}, {"keys": []}, (None, 8192, True)),
            ({"algs": ["RS256"], "issuers": ["a", "b"]}, {"keys": []}, (None, 8192, True)),
            ({"algs": ["RS256"], "issuers": ["\u00e9" * 20_000]}, {"keys": []}, ("\u00e9" * 20_000, 8192, True)),
            ({"algs": ["RS256"]}, self.KEYS, (None, 8192, False)),
            ({"algs": ["RS256", "HS512"]}, {"keys": []}, (None, 8192, False)),
        ):
            with Validator(policy if "\u00e9" not in str(policy) else json.dumps(policy, ensure_ascii=False), keys) as it:
                self.assertEqual((it.issuer, it.limit, it.is_public), told)

    def test_the_issuer_that_a_token_names(self) -> None:
        token = self.one.issue({"iss": "\u00e9\U00010000"})
        for it in (token, token.encode(), token.rpartition(".")[0] + ".AA"):
            self.assertEqual(self.one.unverified_issuer(it), "\u00e9\U00010000")
        for it in (self.one.issue({}), "", "x", self.one.issue({"iss": "a" * 300})):
            self.assertIsNone(self.one.unverified_issuer(it))
        with self.assertRaises(TypeError):
            self.one.unverified_issuer(7)  # type: ignore[arg-type]

    def test_each_judges_its_own(self) -> None:
        for it, validator in (("a", self.one), ("b", self.other)):
            token = validator.issue({"iss": it})
            self.assertEqual(self.issuers.validate(token), {"iss": it})
            self.assertTrue(self.issuers.judge(token.encode(), NOW).accepted)
            with self.assertRaises(Denied):
                self.issuers.validate(token, NOW, Access({"scopes": ["read"]}))

    def test_what_is_no_ones_is_refused(self) -> None:
        for token, kind, fault in ((self.one.issue({"iss": "c"}), ClaimsRefused, "Issuer"), ("x", FormRefused, "Segments"), ("x" * 301, TooLong, "TooLong")):
            with self.assertRaises(kind) as caught:
                self.issuers.validate(token, NOW)
            report = self.issuers.judge(token, NOW)
            self.assertEqual((caught.exception.fault, str(report.refusal)), (fault, str(caught.exception)))  # type: ignore[attr-defined]
        with self.assertRaises(ValueError):
            Issuers({"a": self.other})
        with self.assertRaises(ValueError):
            Issuers({})

    def test_they_are_closed_together(self) -> None:
        token = self.one.issue({"iss": "a"})
        with self.issuers as issuers:
            self.assertEqual(issuers.validate(token)["iss"], "a")
        for it in (self.issuers.validate, self.one.validate, self.other.unverified_issuer):
            with self.assertRaises(Closed):
                it(token)
        self.issuers.close()


class Issuing(unittest.TestCase):
    def test_what_is_issued_is_accepted(self) -> None:
        claims = {"iss": "joe", "exp": NOW + 1}
        with validator_of(HMAC) as validator:
            for form in ("compact", "general", "flattened"):
                self.assertEqual(validator.validate(validator.issue(claims, form=form), NOW), claims)
            with self.assertRaises(IssueRefused) as caught:
                validator.issue(claims, key=7)
        self.assertEqual(caught.exception.fault, "NoKey")

    def test_room_is_made_for_a_token_of_any_length(self) -> None:
        keys = {"keys": [{"kty": "oct", "k": base64url(chr(65 + i) * 32)} for i in range(32)]}
        with Validator({"algs": ["HS256"], "limit": 1_048_576, "max_signatures": 32}, keys) as validator:
            token = validator.issue({"iss": "joe"}, form="general", typ="\0" * 2000)
            self.assertGreater(len(token), 400_000)
            self.assertEqual(validator.validate(token, NOW), {"iss": "joe"})
        with Validator({"algs": ["HS256"], "required": ["x" * 5000]}, keys) as validator:
            with self.assertRaises(ClaimsRefused) as caught:
                validator.validate(validator.issue({}), NOW)
        self.assertEqual(caught.exception.claim, "x" * 5000)

    def test_the_header_has_the_type_that_is_asked_for(self) -> None:
        with validator_of(HMAC) as validator:
            token = validator.issue({}, typ="at+jwt")
            self.assertEqual(validator.unverified_header(token), {"alg": "HS256", "typ": "at+jwt"})
            self.assertEqual(validator.unverified_header(validator.issue({})), {"alg": "HS256"})
            self.assertIsNone(validator.unverified_header(token, 1))
            self.assertIsNone(validator.unverified_header("a.b"))


class Threads(unittest.TestCase):
    def test_a_validator_is_shared_by_threads(self) -> None:
        accepted = []
        with validator_of(TOP / "tests/tokens/RS256") as validator:
            token = token_of(TOP / "tests/tokens/RS256")

            def judge_often() -> None:
                for _ in range(100):
                    accepted.append(validator.judge(token, NOW).accepted)

            threads = [threading.Thread(target=judge_often) for _ in range(8)]
            for thread in threads:
                thread.start()
            for thread in threads:
                thread.join()
        self.assertEqual(accepted, [True] * 800)

    def test_there_are_as_many_seats_as_calls_at_once(self) -> None:
        with validator_of(HMAC) as validator:
            token = token_of(HMAC)
            for _ in range(10):
                threads = [threading.Thread(target=lambda: validator.validate(token, NOW)) for _ in range(8)]
                for thread in threads:
                    thread.start()
                for thread in threads:
                    thread.join()
            self.assertLessEqual(len(validator._seats._free), 8)

    def test_the_interpreter_s_lock_is_kept_for_a_short_token_and_few_secrets_alone(self) -> None:
        secret = {"kty": "oct", "k": "A" * 43}
        for algorithm, keys, short in [("HS256", [secret], 4_096), ("HS256", [secret] * 90, -1), ("RS256", [], -1)]:
            with self.subTest(algorithm, keys=len(keys)), Validator({"algs": [algorithm]}, {"keys": keys}) as validator:
                self.assertEqual(validator._seats.take().short, short)
        with validator_of(TOP / "tests/tokens/RS256") as validator:
            self.assertEqual(validator._seats.take().short, -1)
        with Validator({"algs": ["HS256"], "limit": 8_192}, {"keys": [secret]}) as validator:
            for length in (1, 5_000):
                token = validator.issue({"sub": "a" * length})
                self.assertEqual(validator.validate(token), {"sub": "a" * length})

    def test_a_call_that_is_under_way_ends_where_the_validator_is_closed(self) -> None:
        validator, token = validator_of(HMAC), token_of(HMAC)
        free, taken = validator._seats.take(), validator._seats.take()
        validator._seats.give(free)
        validator.close()
        self.assertFalse(free.held.held)
        self.assertTrue(taken.held.held)
        self.assertEqual(taken.judge(token.encode(), NOW).verdict, _library.OK)
        validator._seats.give(taken)
        self.assertFalse(taken.held.held)
        with self.assertRaises(Closed):
            validator.validate(token, NOW)

    def test_closing_while_threads_judge(self) -> None:
        token = token_of(HMAC)
        for _ in range(50):
            validator, wrong, begun = validator_of(HMAC), [], threading.Barrier(5)

            def judge_until_closed() -> None:
                begun.wait()
                try:
                    while True:
                        if validator.validate(token, NOW)["iss"] != "joe":
                            wrong.append("claims")
                except Closed:
                    pass
                except BaseException as error:
                    wrong.append(error)

            threads = [threading.Thread(target=judge_until_closed) for _ in range(4)]
            for thread in threads:
                thread.start()
            begun.wait()
            validator.close()
            for thread in threads:
                thread.join()
            self.assertEqual((wrong, validator._seats._free), ([], []))


@unittest.skipUnless(_seats._calls or "FOWHARIMU_CALLS" in os.environ, "the module of native/_calls.c isn't built")
class Calls(unittest.TestCase):
    """The module that judges and writes a payload in one call; FOWHARIMU_CALLS says that it has to be there."""

    def test_each_seat_has_it(self) -> None:
        with validator_of(HMAC) as validator:
            self.assertIsInstance(validator._seats.take().calls, _seats._calls.Calls)

    def test_a_payload_of_any_length(self) -> None:
        secret = {"kty": "oct", "k": "A" * 43}
        with Validator({"algs": ["HS256"], "limit": 1_048_576}, {"keys": [secret]}) as validator:
            # (on both sides of the room that it has without asking for memory, and of the length for which the interpreter's lock is kept)
            for length in (0, 1, *range(1_400, 1_480), *range(2_980, 3_020), 700_000):
                claims = {"sub": "\u00e9" + "a" * length}
                self.assertEqual(validator.validate(validator.issue(claims)), claims)

    def test_mistakes_are_told(self) -> None:
        calls = _seats._calls.Calls
        for words in ((), (1, 2), ("a",) * 7, (0,) * 8):
            with self.subTest(words), self.assertRaises(TypeError):
                calls(*words)
        with self.assertRaises(TypeError):
            calls(0, 0, 0, 0, 0, 0, held=0)
        with self.assertRaises(TypeError):
            calls.__new__(calls).validate(b"a.b.c", NOW)
        with validator_of(HMAC) as validator:
            seat = validator._seats.take()
            it = seat.calls
            for wrong in (("a.b.c", NOW), (b"a.b.c",), (bytearray(b"a.b.c"), "1"), (None, NOW)):
                with self.subTest(wrong), self.assertRaises(TypeError):
                    it.validate(*wrong)
            with self.assertRaises(OverflowError):
                it.validate(b"a.b.c", 2**63)
            self.assertIsNone(it.validate(b"a.b.c", NOW))

    def test_nothing_is_kept(self) -> None:
        with validator_of(HMAC) as validator:
            seat, token = validator._seats.take(), token_of(HMAC).encode()
            for it in (token, token[:-9] + b"AAAAAAAAA", b"a" * 3_000):
                for _ in range(100):
                    seat.accepted(it, NOW)
                before = sys.getrefcount(it), sys.getrefcount(None)
                for _ in range(1_000):
                    seat.accepted(it, NOW)
                after = sys.getrefcount(it), sys.getrefcount(None)
                self.assertLess(max(after[0] - before[0], abs(after[1] - before[1])), 500)


@unittest.skipUnless(hasattr(os, "fork"), "there is no fork")
class Forks(unittest.TestCase):
    SECONDS = 20

    def ends_well(self, child: int) -> bool:
        """Whether a child process ends with status 0 in time; else it is ended."""
        until = time.monotonic() + self.SECONDS
        while time.monotonic() < until:
            ended, status = os.waitpid(child, os.WNOHANG)
            if ended:
                return status == 0
            time.sleep(0.002)
        os.kill(child, 9)
        os.waitpid(child, 0)
        return False

    def in_child(self, work: Callable[[], bool]) -> int:
        """Forks, and ends the child with status 0 where the work is done well."""
        child = os.fork()
        if child == 0:
            try:
                os._exit(0 if work() else 1)
            finally:
                os._exit(2)
        return child

    def test_the_child_of_a_server_that_forks_first_works(self) -> None:
        with validator_of(HMAC) as validator:
            token = token_of(HMAC)
            validator.validate(token, NOW)
            children = [self.in_child(lambda: validator.validate(token, NOW)["iss"] == "joe") for _ in range(4)]
            self.assertEqual([self.ends_well(it) for it in children], [True] * 4)
            self.assertEqual(validator.validate(token, NOW)["iss"], "joe")

    def test_a_call_that_a_signal_cuts_off_holds_up_no_fork(self) -> None:
        class Cut(Exception):
            pass

        def cut(_: int, frame: Any) -> None:
            # (only where a seat is taken, used or given back)
            code = frame.f_code
            if code.co_filename == _seats.__file__ and code.co_name in ("take", "give", "call", "judge", "accepted", "_begin", "_end"):
                raise Cut

        times: List[float] = []

        def fork() -> None:
            begun = time.monotonic()
            ended = self.ends_well(self.in_child(lambda: True))
            times.append(time.monotonic() - begun if ended else math.inf)

        token, count, until = token_of(HMAC), 0, time.monotonic() + 2
        before = signal.signal(signal.SIGALRM, cut)
        with validator_of(HMAC) as validator:
            signal.setitimer(signal.ITIMER_REAL, 0.0005, 0.0005)
            try:
                while time.monotonic() < until:
                    try:
                        validator.validate(token, NOW)
                    except Cut:
                        count += 1
            finally:
                signal.setitimer(signal.ITIMER_REAL, 0)
                signal.signal(signal.SIGALRM, before)
            thread = threading.Thread(target=fork)
            thread.start()
            thread.join()
            self.assertEqual(validator.validate(token, NOW)["iss"], "joe")
        self.assertGreater(count, 20)
        self.assertLess(times[0], 5)

    def test_a_fork_waits_for_a_call(self) -> None:
        with validator_of(HMAC) as validator:
            begun, over, ended = threading.Event(), threading.Event(), threading.Event()

            def work(_: Any) -> None:
                begun.set()
                over.wait()

            def fork() -> None:
                self.assertTrue(self.ends_well(self.in_child(lambda: True)))
                ended.set()

            threads = [threading.Thread(target=validator._seats.call, args=(work,)), threading.Thread(target=fork)]
            threads[0].start()
            begun.wait()
            threads[1].start()
            self.assertFalse(ended.wait(0.3))
            over.set()
            self.assertTrue(ended.wait(5))
            for it in threads:
                it.join()

    def test_a_child_waits_for_no_lock_of_its_parent(self) -> None:
        for name in (HMAC, TOP / "tests/tokens/PS256"):
            with self.subTest(name.name):
                self.check_children(name, 20)

    def check_children(self, name: pathlib.Path, count: int) -> None:
        """Forks so often while four threads judge, and open and close validators."""
        with validator_of(name) as validator:
            token, is_over = token_of(name), threading.Event()

            def judge_until_over() -> None:
                while not is_over.is_set():
                    validator.judge(token, NOW)
                    with validator_of(name) as another:
                        another.validate(token, NOW)

            def work() -> bool:
                validator.judge(token, NOW)
                with validator_of(name) as another:
                    return bool(another.validate(token, NOW)["iss"] == validator.validate(token, NOW)["iss"] == "joe")

            threads = [threading.Thread(target=judge_until_over) for _ in range(4)]
            for thread in threads:
                thread.start()
            try:
                for _ in range(count):
                    self.assertTrue(self.ends_well(self.in_child(work)))
            finally:
                is_over.set()
                for thread in threads:
                    thread.join()


if __name__ == "__main__":
    unittest.main()
