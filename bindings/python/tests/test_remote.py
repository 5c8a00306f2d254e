"""Tests of what tests/remote doesn't ask keys by URL: what is handed in, and what is told."""

from __future__ import annotations

import asyncio
import base64
import contextlib
import http.server
import io
import json
import logging
import math
import pathlib
import threading
import time
import unittest
from typing import Any, Callable, List

from fowharimu import asgi
from fowharimu._access import NO_RULE
from fowharimu.issuers import Issuers
from fowharimu._possession import ANYONE
from fowharimu._renewal import Asker
from fowharimu.remote import KeysTooOld, KeysUnavailable, RemoteKeys

TOP = pathlib.Path(__file__).resolve().parents[3]
POLICY = {"algs": ["RS256"]}
OPENINGS: tuple[Callable[..., Any], ...] = (RemoteKeys, RemoteKeys.discover)


class Opening(unittest.TestCase):
    def test_times_that_are_none(self) -> None:
        for name in ("refresh_after", "cooldown", "max_age", "timeout"):
            for wrong in (math.nan, -1, -math.inf, *([math.inf, 1e9] if name == "timeout" else [])):
                for opening in OPENINGS:
                    with self.subTest(opening, name=name, wrong=wrong), self.assertRaisesRegex(ValueError, name):
                        opening({**POLICY, "issuers": ["https://localhost:1"]}, "https://localhost:1", **{name: wrong})

    def test_what_a_query_hides_is_told_nowhere(self) -> None:
        for url in ("https://localhost:1/keys?secret", "https://localhost:1/keys ?secret", "https://localhost:1/\x7f?secret", "keys?secret", "https://[?secret"):
            with self.subTest(url), self.assertLogs("fowharimu") as logged, self.assertRaises((KeysUnavailable, ValueError)) as raised:
                logging.getLogger("fowharimu").warning("opened")
                RemoteKeys(POLICY, url)
            self.assertNotIn("secret", f"{raised.exception!r} {raised.exception.__cause__!r} {logged.output}")


class Slow(http.server.BaseHTTPRequestHandler):
    """Gives the keys of RS256 once, and then nothing until the test is over."""

    begun: threading.Event
    over: threading.Event

    def do_GET(self) -> None:
        if self.begun.is_set():
            self.over.wait(20)
        self.begun.set()
        self.wfile.write(b"HTTP/1.0 200 OK\r\n\r\n" + (TOP / "tests/tokens/RS256.keys").read_bytes())

    def log_message(self, *_: Any) -> None:
        pass


class Waiting(unittest.TestCase):
    def setUp(self) -> None:
        Slow.begun, Slow.over = threading.Event(), threading.Event()
        server = http.server.ThreadingHTTPServer(("127.0.0.1", 0), Slow)
        threading.Thread(target=server.serve_forever).start()
        self.addCleanup(server.server_close)
        self.addCleanup(server.shutdown)
        self.addCleanup(Slow.over.set)
        policy = {**POLICY, "issuers": ["joe"]}
        self.url = f"http://127.0.0.1:{server.server_port}/keys"
        self.keys = RemoteKeys(policy, self.url, allow_http=True, cooldown=1.5, timeout=5)
        self.addCleanup(self.keys.close)

    def test_few_tokens_wait_for_a_fetch_and_no_thread_does(self) -> None:
        # (it has expired, and is refused for that alone)
        known = (TOP / "tests/tokens/RS256.jwt").read_text().strip()
        forged = [forged_as(f"{it % 8}", known) for it in range(64)]
        time.sleep(1.6)
        guard = asgi.Guard(unreached, Issuers({"joe": self.keys}))
        with self.assertLogs("fowharimu", "WARNING"):
            done = asyncio.run(self.asked(guard, forged, known))
        self.assertEqual((done[:61], sorted(done[61:])), ([*forged[4:], known], forged[:4]))

    def test_keys_that_are_too_old(self) -> None:
        known = (TOP / "tests/tokens/RS256.jwt").read_text().strip()
        self.keys._renewal._state.max_age, self.keys._quiet = 0, None
        for ask in (self.keys.validate, lambda token: self.keys._validate_at_once(token, NO_RULE, ANYONE)):
            with self.assertRaises(KeysTooOld):
                ask(known)
        time.sleep(1.6)
        guard = asgi.Guard(unreached, self.keys)
        with self.assertLogs("fowharimu", "WARNING"):
            self.assertEqual(asyncio.run(self.asked(guard, [known] * 8, known, 503)), [known] * 9)

    def test_who_waits_may_go_away(self) -> None:
        known = (TOP / "tests/tokens/RS256.jwt").read_text().strip()
        time.sleep(1.6)
        guard = asgi.Guard(unreached, self.keys)

        async def impatient() -> None:
            with self.assertRaises(asyncio.TimeoutError):
                await asyncio.wait_for(self.asked(guard, [], forged_as("a", known)), 0.2)

        with self.assertLogs("fowharimu", "WARNING"):
            asyncio.run(impatient())
            # (its loop is closed when the fetch ends)
            self.assertFalse(self.keys.refresh())

    def test_who_is_told_of_a_fetch_may_ask_and_may_raise(self) -> None:
        keys, asked = self.keys, []

        class Asking(logging.Filter):
            def filter(self, record: logging.LogRecord) -> bool:
                asked.append(keys.unverified_issuer("a.b.c"))
                keys._asked(Asker.TOKEN)
                raise LookupError("told in vain")

        log, asking = logging.getLogger("fowharimu"), Asking()
        log.addFilter(asking)
        self.addCleanup(log.removeFilter, asking)
        with contextlib.redirect_stderr(io.StringIO()) as told:
            self.assertFalse(keys.refresh())
            for _ in range(100):
                if asked and "told in vain" in told.getvalue():
                    break
                time.sleep(0.02)
        self.assertEqual(asked, [None])
        self.assertIn("told in vain", told.getvalue())

    def test_a_store_is_asked_in_a_thread(self) -> None:
        threads = []

        class Store:
            def take(self, entry: Any) -> bool:
                return True

        class Noting(RemoteKeys):
            def validate(self, *_: Any, **__: Any) -> Any:
                threads.append(threading.current_thread())
                return {}

            _validate_at_once = validate

        async def let_through(*_: Any) -> None:
            pass

        for once, stays in ((1, True), (Store(), False)):
            Slow.begun = threading.Event()
            with self.subTest(once=once), Noting(POLICY, self.url, allow_http=True, once=once) as keys:
                scope = {"type": "http", "headers": [(b"authorization", b"Bearer a.b.c")]}
                asyncio.run(asgi.Guard(let_through, keys)(scope, let_through, let_through))  # type: ignore[arg-type]
                self.assertIs(threads.pop() is threading.main_thread(), stays)

    async def asked(self, guard: asgi.Guard, first: List[str], last: str, status: int = 401) -> List[str]:
        """Tokens in the order in which they are answered, none of them in a thread of asyncio's."""
        done: List[str] = []

        async def ask(token: str) -> None:
            async def send(message: Any) -> None:
                if message["type"] == "http.response.start":
                    self.assertEqual(message["status"], status)
                    done.append(token)

            await guard({"type": "http", "headers": [(b"authorization", b"Bearer " + token.encode())]}, unreached, send)

        await asyncio.gather(*map(ask, first), ask(last))
        self.assertEqual([it.name for it in threading.enumerate() if it.name.startswith("asyncio")], [])
        return done


def forged_as(kid: str, known: str) -> str:
    """A token with the payload of another, for which no key is there."""
    header = base64.urlsafe_b64encode(json.dumps({"alg": "RS256", "kid": kid}).encode()).decode().rstrip("=")
    return f"{header}.{known.split('.')[1]}.AAAA"


async def unreached(*_: Any) -> Any:
    raise AssertionError("a refused token is let through")


if __name__ == "__main__":
    unittest.main()
