"""Key sets that stand at a URL, by the rules of docs/REMOTE-KEYS.md, which every caller follows.

    from fowharimu.remote import RemoteKeys

    with RemoteKeys(policy, "https://issuer.example/keys") as keys:
        claims = keys.validate(token)
"""

from __future__ import annotations

import contextlib
import functools
import http.client
import logging
import math
import os
import re
import socket
import ssl
import threading
import time
import traceback
import weakref
from types import TracebackType
from typing import Any, Callable, Dict, List, NamedTuple, Optional, SupportsIndex, Tuple, Type, Union

from . import Claims, Closed, FowharimuError, Report, SignatureRefused, TokenRefused, Validator
from ._access import NO_RULE, Rule
from ._library import load
from ._expected import NOTHING, Expected
from ._once import asks_store, once_of
from ._possession import ANYONE, Holder
from ._renewal import Asker, Renewal
from ._seats import written
from ._texts import Document, Text, document_of, octets_of
from ._urls import Asked, Step, Url, keys_url, metadata_url, next_step, redirected, url_of
from ._waiting import Waiting

__all__ = ["KeysTooOld", "KeysUnavailable", "RemoteKeys"]

_log = logging.getLogger("fowharimu")

# The greatest of each time, in seconds: a connection takes no longer deadline.
_GREATEST = {"refresh_after": math.inf, "cooldown": math.inf, "max_age": math.inf, "timeout": 2_147_483}

# The clock of ages: where there is one, one that goes on while the machine is suspended.
_clock = functools.partial(time.clock_gettime, time.CLOCK_BOOTTIME) if hasattr(time, "CLOCK_BOOTTIME") else time.monotonic

_HEADERS = {"Accept": "application/jwk-set+json, application/json", "Accept-Encoding": "identity", "Connection": "close"}


class KeysUnavailable(FowharimuError):
    """The key set can't be fetched, and none was before."""


class KeysTooOld(TokenRefused):
    """The keys are too old, and newer ones can't be fetched: nothing is said of the token. A service answers 503 to this."""


# What a fetch may fail by: no answer, no key set, a URL that isn't followed. Anything else is a fault of this module.
_Failed = (OSError, ValueError, http.client.HTTPException, FowharimuError, MemoryError)


def _check_times(**given: Any) -> None:
    """Raises ValueError for a time among what is given that is negative, too long, or no number."""
    for name, greatest in _GREATEST.items():
        if not 0 <= given.get(name, 0) <= greatest:
            raise ValueError(f"{name} has to be a number of seconds from 0 to {greatest}")


def _checked(url: str, allow_http: bool) -> Url:
    """A URL from which keys may be fetched. Raises ValueError for any other."""
    checked = url_of(url, allow_http)
    if checked is None:
        # (not told: its query may hide a secret)
        raise ValueError("the URL of a key set is https, and has a host and neither a name nor a password, nor a fragment")
    return checked


class _Fetch:
    """One fetch, which ends at its deadline: then its connection is shut, whatever it waits for."""

    def __init__(self, timeout: float, ticket: int = 0) -> None:
        self.done = threading.Event()
        self.ticket = ticket
        self._told: List[Callable[[], None]] = []
        self._telling = threading.Lock()
        self._ends = time.monotonic() + timeout
        self._held: Optional[socket.socket] = None
        self._timer = threading.Timer(timeout, self.end)
        self._timer.daemon = True

    @property
    def left(self) -> float:
        """The seconds that are left, 0 where none are."""
        return max(0.0, self._ends - time.monotonic())

    def end(self) -> None:
        """Says that it is over, and shuts its connection where one is open."""
        self._timer.cancel()
        with self._telling:
            self.done.set()
            told, self._told = self._told, []
        for ended in told:
            ended()
        held = self._held
        if held is not None:
            try:
                # (below TLS: who reads from it sees that it ends)
                socket.socket.shutdown(held, socket.SHUT_RDWR)
            except OSError:
                pass

    def tell(self, ended: Callable[[], None]) -> None:
        """Calls this once when it is over, in whatever thread ends it."""
        with self._telling:
            if not self.done.is_set():
                self._told.append(ended)
                return
        ended()

    def get(self, url: Url, context: Optional[ssl.SSLContext], asked: Asked = Asked.KEYS) -> Optional[bytes]:
        """What stands at the URL; None where the other metadata are to be asked for. Raises OSError, ValueError and HTTPException where it can't be
        had in time."""
        self._timer.start()
        try:
            followed = 0
            while True:
                came = self._answer(url, context, asked, followed)
                if not isinstance(came, Url):
                    return came
                url, followed = came, followed + 1
        finally:
            self._timer.cancel()

    def _answer(self, url: Url, context: Optional[ssl.SSLContext], asked: Asked, followed: int) -> Union[bytes, Url, None]:
        """What an answer has, or where it redirects to; None where the other metadata are to be asked for."""
        with contextlib.closing(self._connected(url, context)) as connection:
            connection.request("GET", url.target, headers=_HEADERS)
            # (of what it has beside its headers nothing is read that isn't taken, however long it is)
            with connection.getresponse() as response:
                step, most = next_step(asked, response.status, followed)
                if step is Step.TAKE:
                    return self._content(response, most)
                location = response.headers["Location"] or ""
        if step is Step.ASK_OAUTH:
            return None
        if step is not Step.FOLLOW:
            raise ValueError("it redirects too often" if step is Step.TOO_OFTEN else f"its status is {response.status}")
        to = redirected(url, location)
        if to is None:
            raise ValueError("it redirects to another origin, or to no URL")
        return to

    def _content(self, response: http.client.HTTPResponse, most: int) -> bytes:
        octets = bytearray()
        _check_lengths(response.headers.get_all("Content-Length", []))
        while True:
            part = response.read1(65_536)
            # (a connection that was shut may look like an answer that is whole)
            if self.left == 0:
                raise TimeoutError("it comes too slowly")
            if not part:
                break
            octets += part
            if len(octets) > most:
                raise ValueError(f"it has more than {most} octets")
        if response.length:
            raise ValueError("it is cut off")
        return bytes(octets)

    def _connected(self, url: Url, context: Optional[ssl.SSLContext]) -> http.client.HTTPConnection:
        """A connection that is shut at the deadline."""
        left = self.left or 1e-3
        if url.is_https:
            secure = context or _secured()
            connection: http.client.HTTPConnection = http.client.HTTPSConnection(url.host, url.port, timeout=left, context=secure)
        else:
            connection = http.client.HTTPConnection(url.host, url.port, timeout=left)
        connection.connect()
        self._held = connection.sock
        if self.done.is_set():
            connection.close()
            raise TimeoutError("it takes too long")
        return connection


def _check_lengths(lengths: List[str]) -> None:
    """Raises ValueError for two lengths of an answer, or one that is none (RFC 9110, section 8.6): who else reads it may read another one."""
    if len(set(lengths)) > 1 or not all(re.fullmatch("[0-9]+[ \t]*", it) for it in lengths):
        raise ValueError("it has lengths that are none")


def _secured() -> ssl.SSLContext:
    """What trusts the authorities of the system. What is checked is said here, whatever is configured elsewhere."""
    context = ssl.create_default_context()
    context.check_hostname, context.verify_mode = True, ssl.CERT_REQUIRED
    context.minimum_version = ssl.TLSVersion.TLSv1_2
    return context


def _public_policy(policy: Document, issuer: Optional[str] = None) -> bytes:
    """The octets of a policy for keys by URL. Raises as Validator does where it is refused, and ValueError for one with an HMAC algorithm, or one
    that doesn't name exactly the issuer, where there is one."""
    octets = document_of(policy, "a policy")
    with Validator(octets, b'{"keys":[]}') as read:
        if not read.is_public:
            raise ValueError("a policy with an HMAC algorithm has no keys by URL, since what is fetched is public")
        if issuer is not None and read.issuer != issuer:
            raise ValueError("the policy has to name the issuer in issuers, and no other")
    return octets


def _public(policy: bytes, keys: bytes, options: Dict[str, Any]) -> Validator:
    """A validator on keys that were fetched. Raises as Validator does, and ValueError where there is a secret among them (RFC 8725, section 2.1)."""
    validator = Validator(policy, keys, **options)
    if not validator.is_public:
        validator.close()
        raise ValueError("it has a key of kty oct in it, which everyone may read")
    return validator


def _asks_for_keys(refusal: Optional[TokenRefused]) -> bool:
    """Whether a token was refused for want of a key, or by a bad signature."""
    return isinstance(refusal, SignatureRefused) and refusal.fault in ("NoKey", "BadSignature")


def _kid_of(validator: Validator, token: bytes) -> str:
    """The `kid` of a token, for which nobody vouches; empty where there is none."""
    try:
        header = validator._header(token)
    except Closed:
        # (newer keys are there already)
        return ""
    return (None if header is None else _member(header, b"kid")) or ""


def _tell(level: int, message: str, *words: object) -> None:
    """Tells the logger what became of a fetch. Whoever is told may raise, which says nothing of a token."""
    try:
        _log.log(level, message, *words)
    except Exception:
        traceback.print_exc()


def _member(document: bytes, name: bytes) -> Optional[str]:
    """The text of a member of a JSON object, as the library reads it; None where there is none."""
    text = written(len(document) + 1, load().fow_text_member, document, len(document), name, len(name))
    return None if text is None else text.decode()


class _Used(NamedTuple):
    """What a token is judged by, from the one moment to the other, and the ticket of its keys."""

    validator: Validator
    keys: int
    since: float
    until: float


class RemoteKeys:
    """A policy, and a key set at a URL, which is fetched at once, and again as docs/REMOTE-KEYS.md says: in the background after `refresh_after`
    seconds; where a token is refused for want of a key or by a bad signature, at most once in `cooldown` seconds. Where that fails, the
    keys stay until they are `max_age` seconds old. A fetch takes `timeout` seconds at most, by TLS with `context`. At most four tokens wait for
    one, one for each `kid`; the others are refused at once. Threads may share it; after fork, parent and child each go on by themselves.

    `options` are those of `Validator`.

    Raises ValueError for a URL that isn't https, or has a name, a password or a fragment in it, a time that is none, or a policy with an HMAC algorithm;
    KeysUnavailable where the keys can't be fetched; PolicyRefused, AnotherLibrary and MemoryError as `Validator` does.
    """

    def __init__(
        self,
        policy: Document,
        url: str,
        *,
        refresh_after: float = 600,
        cooldown: float = 30,
        max_age: float = 3600,
        timeout: float = 5,
        allow_http: bool = False,
        context: Optional[ssl.SSLContext] = None,
        **options: Any,
    ) -> None:
        self._policy, self._url = _public_policy(policy), _checked(url, allow_http)
        _check_times(refresh_after=refresh_after, cooldown=cooldown, max_age=max_age, timeout=timeout)
        # (a memory of tokens that count once is one for all key sets that come)
        once = once_of(options.get("once"))
        options, self._asks_store = {**options, "once": once}, asks_store(once)
        self._timeout, self._context, self._options = timeout, context, options
        # (whoever is told of a fetch may ask for it)
        self._lock = threading.RLock()
        self._renewal = Renewal(
            _clock(), refresh_after=refresh_after, cooldown=cooldown, max_age=max_age, timeout=timeout
        )
        self._fetch: Optional[_Fetch] = None
        self._validator: Optional[Validator] = None
        # What a token is judged by until it has to ask again: so no lock is taken for each.
        self._quiet: Optional[_Used] = None
        self._closed = False
        self.error: Optional[BaseException] = None
        """Why the last fetch failed; None where it didn't."""
        _forked.add(self)
        self.refresh()
        if self._validator is None:
            raise KeysUnavailable(str(self.error)) from self.error

    @classmethod
    def discover(cls, policy: Document, issuer: str, **how: Any) -> "RemoteKeys":
        """The keys of an issuer, whose URL its metadata tell (OpenID Connect Discovery 1.0, section 4; where there is none, RFC 8414, section 3).
        The metadata are read once, under the same rules; their `issuer` has to be that very text, and the policy's `issuers` exactly that one.

        Raises as RemoteKeys does, and KeysUnavailable where the metadata can't be had or name another issuer.
        """
        allow_http = how.get("allow_http", False)
        _checked(issuer, allow_http)
        if metadata_url(issuer, Asked.OPENID) is None:
            raise ValueError("an issuer has no query")
        _check_times(**how)
        _public_policy(policy, issuer)
        try:
            url = _keys_url(issuer, how.get("timeout", 5), how.get("context"))
            _checked(url, allow_http)
        except _Failed as error:
            raise KeysUnavailable(str(error)) from error
        return cls(policy, url, **how)

    def validate(
        self, token: Text, now: Optional[SupportsIndex] = None, access: Rule = NO_RULE, *, expected: Expected = NOTHING, holder: Holder = ANYONE
    ) -> Claims:
        """As Validator.validate. Raises KeysTooOld too, where the keys are too old and none can be fetched."""
        octets = octets_of(token, "a token")
        used = self._current(octets)
        try:
            return used.validator.validate(octets, now, access, expected=expected, holder=holder)
        except SignatureRefused as refusal:
            newer = self._newer(used, refusal, octets)
            if newer is None:
                raise
        return newer.validate(octets, now, access, expected=expected, holder=holder)

    def _validate_at_once(self, token: Text, access: Rule, holder: Holder) -> Union[Claims, Waiting]:
        """As validate, but for waiting: that is who asks to do."""
        octets = octets_of(token, "a token")
        used = self._used()
        if used is None:
            fetch = self._admitted(Asker.TOKEN, 0, octets)
            return self._at_last(fetch, lambda: self._fresh().validator.validate(octets, None, access, holder=holder))
        try:
            return used.validator.validate(octets, None, access, holder=holder)
        except SignatureRefused as refusal:
            if not _asks_for_keys(refusal):
                raise
            why, by = refusal.with_traceback(None), used

        def judge() -> Claims:
            newer = self._other(by)
            if newer is None:
                raise why
            return newer.validate(octets, None, access, holder=holder)

        return self._at_last(self._admitted(Asker.REFUSED, by.keys, octets), judge)

    def _at_last(self, fetch: Optional[_Fetch], judge: Callable[[], Claims]) -> Union[Claims, Waiting]:
        """What is judged when a fetch is over; at once where none is waited for."""
        if fetch is None:
            return judge()

        def judge_then() -> Claims:
            self._expire(fetch)
            return judge()

        return Waiting(fetch, judge_then)

    def judge(self, token: Text, now: Optional[SupportsIndex] = None) -> Report:
        """As Validator.judge. Where the keys are too old and none can be fetched, the report has the refusal KeysTooOld and nothing else."""
        octets = octets_of(token, "a token")
        try:
            used = self._current(octets)
        except KeysTooOld as refusal:
            return Report(refusal=refusal, signature=0, key=0, work=0, states=[], tries=[])
        report = used.validator.judge(octets, now)
        newer = self._newer(used, report.refusal, octets)
        return report if newer is None else newer.judge(octets, now)

    @property
    def issuer(self) -> Optional[str]:
        """The issuer that the policy allows; None where it allows any, or several."""
        return self._held().issuer

    @property
    def limit(self) -> int:
        """The greatest number of octets of a token that the policy takes."""
        return self._held().limit

    def unverified_issuer(self, token: Text) -> Optional[str]:
        """As Validator.unverified_issuer."""
        return self._held().unverified_issuer(token)

    def refresh(self) -> bool:
        """Fetches the key set now, whatever the cool-down, and says whether that went well. Where a fetch is under way it waits for that one."""
        before = self._validator
        _, fetch = self._asked(Asker.OWNER)
        self._wait(fetch)
        return self._validator is not before

    def close(self) -> None:
        """Frees what is held. A fetch that is under way is dropped; later calls raise Closed. It may be called twice."""
        with self._lock:
            self._closed, validator, self._validator, self._quiet = True, self._validator, None, None
            fetch, self._fetch = self._fetch, None
        if fetch is not None:
            fetch.end()
        if validator is not None:
            validator.close()

    def __enter__(self) -> "RemoteKeys":
        return self

    def __exit__(
        self, kind: Optional[Type[BaseException]], error: Optional[BaseException], trace: Optional[TracebackType]
    ) -> None:
        self.close()

    def _held(self) -> Validator:
        """The validator that is held, however old its keys are. Raises Closed."""
        validator = self._validator
        if validator is None:
            raise Closed
        return validator

    def _named(self, octets: bytes) -> Tuple[bool, Optional[str]]:
        """As of Validator."""
        return self._held()._named(octets)

    def _used(self) -> Optional[_Used]:
        """What a token is judged by first; None where the keys are too old. Where they are old, a fetch begins. Raises Closed."""
        quiet = self._quiet
        if quiet is not None and quiet.since <= _clock() < quiet.until:
            return quiet
        used, _ = self._asked(Asker.TOKEN)
        return used

    def _asked(self, asker: Asker, keys: int = 0) -> Tuple[Optional[_Used], Optional[_Fetch]]:
        """What is to be used, None where the keys are too old; and the fetch that whoever asked may wait for. Raises Closed."""
        with self._lock:
            if self._closed:
                raise Closed
            now = _clock()
            answer = self._renewal.ask(now, asker, keys)
            # (before a fetch begins, so that it is the old one)
            used = None
            if answer.keys is not None and self._validator is not None:
                used = _Used(self._validator, answer.keys, now, self._renewal.quiet_until())
            self._quiet = used
            if answer.begins is not None:
                self._begin(answer.begins)
            return used, self._fetch if answer.is_under_way else None

    def _current(self, octets: bytes) -> _Used:
        """What a token is judged by first. Raises KeysTooOld, and Closed."""
        used = self._used()
        if used is not None:
            return used
        self._wait(self._admitted(Asker.TOKEN, 0, octets))
        return self._fresh()

    def _fresh(self) -> _Used:
        """What is used now. Raises KeysTooOld, and Closed."""
        used, _ = self._asked(Asker.WAITED)
        if used is None:
            raise KeysTooOld("KeysTooOld")
        return used

    def _newer(self, used: _Used, refusal: Optional[TokenRefused], octets: bytes) -> Optional[Validator]:
        """Another validator than the one that was used, where newer keys may change the refusal and are there or can be fetched."""
        if not _asks_for_keys(refusal):
            return None
        self._wait(self._admitted(Asker.REFUSED, used.keys, octets))
        return self._other(used)

    def _other(self, used: _Used) -> Optional[Validator]:
        """Another validator than the one that was used, where there is one."""
        held = self._validator
        return None if held is used.validator else held

    def _admitted(self, asker: Asker, keys: int, octets: bytes) -> Optional[_Fetch]:
        """The fetch for which a token may wait, which is under way or begins; else None."""
        _, fetch = self._asked(asker, keys)
        if fetch is None:
            return None
        kid = _kid_of(self._held(), octets)
        with self._lock:
            return fetch if self._renewal.wait(_clock(), fetch.ticket, kid) else None

    def _wait(self, fetch: Optional[_Fetch]) -> None:
        """Waits until a fetch is over, where there is one, and no longer than its deadline."""
        if fetch is not None:
            fetch.done.wait(fetch.left)
            self._expire(fetch)

    def _expire(self, fetch: _Fetch) -> None:
        """Ends a fetch whose deadline is over."""
        if fetch.left == 0:
            # (its thread may still wait for the name of the host to be resolved, which nothing can end)
            with self._lock:
                self._fail(fetch, TimeoutError("it takes too long"))

    def _begin(self, ticket: int) -> None:
        """Begins a fetch, in a thread of its own, so that nobody waits for it past its deadline. The lock is held."""
        if self._fetch is not None:
            self._fail(self._fetch, TimeoutError("it takes too long"))
        self._fetch = fetch = _Fetch(self._timeout, ticket)
        try:
            threading.Thread(target=self._run, args=(fetch,), name="fowharimu-keys", daemon=True).start()
        except RuntimeError as error:
            # (the system gives no more threads)
            self._fail(fetch, error)

    def _run(self, fetch: _Fetch) -> None:
        try:
            keys = fetch.get(self._url, self._context) or b""
            validator = _public(self._policy, keys, self._options)
        except _Failed as error:
            with self._lock:
                self._fail(fetch, error)
            return
        is_taken = False
        with self._lock:
            if fetch is self._fetch and self._renewal.took(_clock(), fetch.ticket):
                # The old one is freed when the last call that uses it has ended, since nothing else names it then.
                self._validator, self._quiet, self.error, self._fetch = validator, None, None, None
                is_taken = True
            else:
                self._fail(fetch, TimeoutError("it takes too long"))
        fetch.end()
        if is_taken:
            _tell(logging.INFO, "the key set at %s was fetched, %d octets", _shown(self._url), len(keys))

    def _fail(self, fetch: _Fetch, error: BaseException) -> None:
        """Notes that a fetch failed. The lock is held."""
        is_it = fetch is self._fetch
        if is_it:
            self._renewal.failed(_clock(), fetch.ticket)
            self._fetch, self.error = None, error
        fetch.end()
        if is_it:
            # (in one line: a server may have written a part of it)
            _tell(logging.WARNING, "the key set at %s can't be fetched: %s", _shown(self._url), " ".join(str(error).split()))

    def _after_fork(self) -> None:
        """In a child the threads of the parent are gone, and with them a fetch that was under way."""
        self._lock, fetch, self._fetch, self._quiet = threading.RLock(), self._fetch, None, None
        if fetch is not None:
            self._renewal.failed(_clock(), fetch.ticket)


def _shown(url: Url) -> str:
    """A URL for a log: without its query, in which a service may have a secret."""
    return url.text.partition("?")[0]


def _keys_url(issuer: str, timeout: float, context: Optional[ssl.SSLContext]) -> str:
    """The URL that an issuer's metadata tell of its keys. Raises what a fetch may fail by."""
    for asked in (Asked.OPENID, Asked.OAUTH):
        url = metadata_url(issuer, asked)
        metadata = None if url is None else _Fetch(timeout).get(url, context, asked)
        if metadata is not None:
            return keys_url(metadata, issuer)
    raise ValueError("it has no metadata")


_forked: "weakref.WeakSet[RemoteKeys]" = weakref.WeakSet()


def _after_fork_in_child() -> None:
    for it in list(_forked):
        it._after_fork()


if hasattr(os, "register_at_fork"):
    os.register_at_fork(after_in_child=_after_fork_in_child)
