"""Tests of what tests/requests doesn't ask the guards: WebSockets, the life of a server, and what isn't an answer of theirs."""

from __future__ import annotations

import asyncio
import base64
import threading
import unittest
from typing import Any, Dict, List, Optional

from fowharimu import Denied, DPoP, Once, OnceEntry, Proofs, SignatureRefused, TokenRefused, Validator
from fowharimu import asgi, wsgi
from fowharimu.issuers import Issuers
from fowharimu.remote import KeysTooOld

CLAIMS = {"sub": "ann"}
GOOD = [(b"authorization", b"Bearer good")]


class Stand:
    """Stands for a validator: it accepts one word, and raises what it is given for others."""

    def __init__(self, error: Optional[BaseException] = None) -> None:
        self._error = error or TokenRefused("Segments")

    def validate(self, token: str, now: Any = None, access: Any = None, holder: Any = None) -> Dict[str, Any]:
        if token != "good":
            raise self._error
        return CLAIMS


def asked(guard: asgi.Guard, kind: str, headers: List[Any]) -> List[Dict[str, Any]]:
    """What a guard sends to a connection of this kind."""
    sent: List[Dict[str, Any]] = []

    async def send(message: Dict[str, Any]) -> None:
        sent.append(message)

    async def receive() -> Dict[str, Any]:
        return {"type": "nothing"}

    asyncio.run(guard({"type": kind, "headers": headers, "state": {"other": 1}}, receive, send))
    return sent


async def behind(scope: Dict[str, Any], receive: Any, send: Any) -> None:
    """Tells what it is shown."""
    await send({"type": "shown", "state": scope.get("state"), "headers": scope.get("headers")})


class Asgi(unittest.TestCase):
    def test_a_WebSocket_is_let_through_and_closed(self) -> None:
        guard = asgi.Guard(behind, Stand())  # type: ignore[arg-type]
        (shown,) = asked(guard, "websocket", GOOD)
        self.assertEqual(shown["state"], {"other": 1, "claims": CLAIMS})
        for headers in ([], [(b"authorization", b"Bearer bad")], GOOD * 2):
            self.assertEqual(asked(guard, "websocket", headers), [{"type": "websocket.close", "code": 1008}])

    def test_the_life_of_a_server_needs_no_token(self) -> None:
        (shown,) = asked(asgi.Guard(behind, Stand()), "lifespan", [])  # type: ignore[arg-type]
        self.assertNotIn("claims", shown["state"])

    def test_the_token_is_hidden_and_nothing_else(self) -> None:
        guard = asgi.Guard(behind, Stand(), hides_token=True)  # type: ignore[arg-type]
        (shown,) = asked(guard, "http", [(b"Authorization", b"Bearer good"), (b"x", b"y")])
        self.assertEqual(shown["headers"], [(b"x", b"y")])

    def test_an_answer_has_no_body(self) -> None:
        start, body = asked(asgi.Guard(behind, Stand(), realm="shop"), "http", [])  # type: ignore[arg-type]
        self.assertEqual((start["status"], start["headers"][0]), (401, (b"www-authenticate", b'Bearer realm="shop"')))
        self.assertEqual(body["body"], b"")


class Store:
    """A store that takes everything."""

    def take(self, entry: OnceEntry) -> bool:
        return True


class Noting(Validator):
    """Accepts whatever it is asked, and notes the thread that asks."""

    def __init__(self, **options: Any) -> None:
        super().__init__({"algs": ["HS256"], "issuers": ["me"]}, {"keys": []}, **options)
        self.threads: List[threading.Thread] = []

    def validate(self, *_: Any, **__: Any) -> Dict[str, Any]:
        self.threads.append(threading.current_thread())
        return CLAIMS


class Waits(unittest.TestCase):
    """Which calls are made in the event loop: those that wait for nothing of the application's own."""

    def test_a_store_is_asked_in_a_thread(self) -> None:
        proof = [(b"authorization", b"DPoP good"), (b"dpop", b"x")]
        for once, proofs, headers, stays in (
            (None, 1, GOOD, True),
            (1, 1, GOOD, True),
            (Once(1), Once(1), proof, True),
            (Store(), 1, GOOD, False),
            (Store(), 1, proof, False),
            (None, Store(), GOOD, True),
            (None, Store(), proof, False),
        ):
            noting = Noting(once=once)
            dpop = DPoP(Proofs(PROOFS, proofs), "https://api.example")  # type: ignore[arg-type]
            with self.subTest(once=once, proofs=proofs, headers=headers):
                (shown,) = asked(asgi.Guard(behind, noting, dpop=dpop), "http", headers)
                self.assertEqual(shown["state"]["claims"], CLAIMS)
                self.assertEqual([it is threading.main_thread() for it in noting.threads], [stays])

    def test_nor_is_one_among_several_issuers_asked_in_the_loop(self) -> None:
        me = base64.urlsafe_b64encode(b'{"iss":"me"}').rstrip(b"=")
        token = b"eyJhbGciOiJIUzI1NiJ9." + me + b"." + b"A" * 43
        for once, stays in ((1, True), (Store(), False)):
            noting = Noting(once=once)
            with self.subTest(once=once):
                asked(asgi.Guard(behind, Issuers({"me": noting})), "http", [(b"authorization", b"Bearer " + token)])
                self.assertEqual([it is threading.main_thread() for it in noting.threads], [stays])


class Wsgi(unittest.TestCase):
    def through(self, error: BaseException) -> List[Any]:
        """What a guard answers to a token for which its validator raises an error."""
        told: List[Any] = []
        guard = wsgi.Guard(lambda *_: [], Stand(error))  # type: ignore[arg-type]
        list(guard({"HTTP_AUTHORIZATION": "Bearer bad"}, lambda status, headers: told.append((status, dict(headers).get("WWW-Authenticate")))))
        return told

    def test_what_says_nothing_of_a_token_is_the_server_s(self) -> None:
        with self.assertRaises(MemoryError):
            self.through(MemoryError())

    def test_refusals_and_denials(self) -> None:
        self.assertEqual(self.through(SignatureRefused("BadSignature", 0)), [("401 Unauthorized", 'Bearer error="invalid_token"')])
        denied = Denied("ScopeMissing", "read", None, ("read", "write"))
        self.assertEqual(self.through(denied), [("403 Forbidden", 'Bearer error="insufficient_scope", scope="read write"')])

    def test_keys_that_are_too_old_are_the_service_s(self) -> None:
        self.assertEqual(self.through(KeysTooOld("KeysTooOld")), [("503 Service Unavailable", None)])
        (begun, _) = asked(asgi.Guard(behind, Stand(KeysTooOld("KeysTooOld"))), "http", [(b"authorization", b"Bearer bad")])
        self.assertEqual((begun["status"], begun["headers"]), (503, [(b"content-length", b"0")]))

    def test_why_is_told_to_the_logger(self) -> None:
        with self.assertLogs("fowharimu", "INFO") as logged:
            self.through(SignatureRefused("BadSignature", 0))
        self.assertIn("BadSignature", logged.output[0])

    def test_a_rule_that_is_looked_up_and_not_found_is_refused(self) -> None:
        rules: Dict[str, Any] = {}
        for guard in (wsgi.Guard, asgi.Guard):
            for rule in (rules.get("read"), {"scopes": ["read"]}, False):
                with self.subTest(guard, rule=rule), self.assertRaises(TypeError):
                    guard(behind, Stand(), rule)  # type: ignore[arg-type]
                with self.subTest(guard, rule=rule), self.assertRaises(TypeError):
                    guard(behind, Stand(), access=rule)  # type: ignore[arg-type]

    def test_a_realm_is_a_quoted_string(self) -> None:
        for realm in ('a"b', "a\\b", "a\nb", "\u00e9"):
            with self.subTest(realm), self.assertRaises(ValueError):
                wsgi.Guard(lambda *_: [], Stand(), realm=realm)  # type: ignore[arg-type]


PROOFS = {"version": 2, "algs": ["ES256"], "typ": "dpop+jwt", "required": ["jti", "htm", "htu", "iat"], "max_age": 60, "max_signatures": 1, "max_calls": 1}


class Uris(unittest.TestCase):
    """The URI that a proof is held against."""

    def through(self, guard: Any, ask: Any, mount: str = "") -> str:
        """The URI that a guard has its validator hold a proof against."""
        held: List[bytes] = []

        class Holding(Stand):
            def validate(self, token: str, now: Any = None, access: Any = None, holder: Any = None) -> Dict[str, Any]:
                held.append(holder.octets[2])
                return CLAIMS

        ask(guard(behind if guard is asgi.Guard else lambda *_: [], Holding(), dpop=DPoP(Proofs(PROOFS, 1), "https://api.example"), mount=mount))
        return held[0].decode("latin-1")

    def test_of_wsgi(self) -> None:
        def said(**environ: str) -> str:
            asked = {"HTTP_AUTHORIZATION": "DPoP good", "HTTP_DPOP": "x", "REQUEST_METHOD": "GET", **environ}
            return self.through(wsgi.Guard, lambda guard: guard(asked, lambda *_: None))

        for environ, path in (
            ({"PATH_INFO": "/a"}, "/a"),
            ({"SCRIPT_NAME": "/in", "PATH_INFO": "/a"}, "/a"),
            ({"PATH_INFO": "/items:all;a=1,2/@ann+(b)!$&'*"}, "/items:all;a=1,2/@ann+(b)!$&'*"),
            ({"PATH_INFO": "/a b?c#d%\xe9"}, "/a%20b%3Fc%23d%25%E9"),
            ({"PATH_INFO": "/a/b:c", "REQUEST_URI": "/a%2Fb%3ac?d"}, "/a%2Fb%3ac"),
            ({"SCRIPT_NAME": "/in", "PATH_INFO": "/a/b", "RAW_URI": "/in/a%2Fb"}, "/in/a%2Fb"),
            ({"PATH_INFO": "/a", "RAW_URI": "/%61"}, "/%61"),
            ({"PATH_INFO": "/a", "REQUEST_URI": "http://evil.example/a"}, "/http://evil.example/a"),
            ({"PATH_INFO": "/a", "REQUEST_URI": "/a#b"}, "/a%23b"),
            ({"PATH_INFO": "/a#b", "REQUEST_URI": "/a#b"}, "/a%23b"),
            ({"PATH_INFO": "*", "REQUEST_URI": "*"}, "/*"),
            ({}, "/"),
        ):
            with self.subTest(environ):
                self.assertEqual(said(**environ), f"https://api.example{path}")

    def test_of_asgi(self) -> None:
        def said(**scope: Any) -> str:
            async def unasked(*_: Any) -> Dict[str, Any]:
                return {}

            whole = {"type": "http", "method": "GET", "headers": [(b"authorization", b"DPoP good"), (b"dpop", b"x")], **scope}
            return self.through(asgi.Guard, lambda guard: asyncio.run(guard(whole, unasked, unasked)))

        for scope, path in (
            ({"path": "/a/b:c", "raw_path": b"/a%2Fb%3ac?d"}, "/a%2Fb%3ac"),
            ({"path": "/a#b", "raw_path": b"/a#b"}, "/a%23b"),
            ({"path": "/in/a", "root_path": "/in", "raw_path": b"/in/a"}, "/in/a"),
            ({"path": "/items:all@a;b"}, "/items:all@a;b"),
            ({"path": "/a?b#c%\xe9", "raw_path": None}, "/a%3Fb%23c%25%C3%A9"),
            ({"path": "/in/a", "root_path": "/in"}, "/in/a"),
            ({"path": "/a", "root_path": "/in"}, "/a"),
            ({"path": "/inner", "root_path": "/in/"}, "/inner"),
            ({"path": "/in", "root_path": "/in"}, "/in"),
            ({"path": "*"}, "/*"),
        ):
            with self.subTest(scope):
                self.assertEqual(said(**scope), f"https://api.example{path}")

    def test_what_a_proxy_has_taken_off_the_path(self) -> None:
        asked = {"HTTP_AUTHORIZATION": "DPoP good", "HTTP_DPOP": "x", "REQUEST_METHOD": "GET", "PATH_INFO": "/a", "REQUEST_URI": "/a"}
        self.assertEqual(self.through(wsgi.Guard, lambda guard: guard(asked, lambda *_: None), "/in"), "https://api.example/in/a")
        for guard in (wsgi.Guard, asgi.Guard):
            for mount in ("in", "/in/", "/"):
                with self.subTest(guard, mount=mount), self.assertRaises(ValueError):
                    guard(behind, Stand(), mount=mount)  # type: ignore[arg-type]

    def test_options_of_another_kind_are_refused(self) -> None:
        proofs, nothing = Proofs(PROOFS, 1), {}.get("option")  # type: Proofs, Any
        for options in ({"nonces": nothing}, {"only": nothing}, {"only": 0}, {"nonces": "x" * 32}):
            with self.subTest(options), self.assertRaises(TypeError):
                DPoP(proofs, "https://api.example", **options)
        for guard in (wsgi.Guard, asgi.Guard):
            for options in ({"refuses_bound": True}, {"dpop": nothing}, {"dpop": proofs}):
                with self.subTest(guard, options=options), self.assertRaises(TypeError):
                    guard(behind, Stand(), **options)  # type: ignore[arg-type]


if __name__ == "__main__":
    unittest.main()
