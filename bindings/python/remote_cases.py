"""remote_cases.py: opens keys by URL, and several issuers, and judges by them as tests/remote/run and tests/issuers/run say, a command a line."""
import ssl
import sys
import threading
import time
from typing import Any, List, Optional, Union

from fowharimu import Closed, PolicyRefused, TokenRefused, Validator
from fowharimu.issuers import Issuers
from fowharimu.remote import KeysUnavailable, RemoteKeys


class Load:
    """Threads that validate one token until they are told to rest."""

    def __init__(self, keys: RemoteKeys, token: str, now: int, count: int) -> None:
        self.keys, self.token, self.now = keys, token, now
        self.judged, self.wrong, self.lock, self.over = 0, 0, threading.Lock(), threading.Event()
        self.threads = [threading.Thread(target=self.run) for _ in range(count)]
        for it in self.threads:
            it.start()

    def run(self) -> None:
        while not self.over.is_set():
            try:
                self.keys.validate(self.token, self.now)
                good = True
            except TokenRefused:
                good = False
            with self.lock:
                self.judged, self.wrong = self.judged + 1, self.wrong + (not good)

    def rest(self) -> str:
        self.over.set()
        for it in self.threads:
            it.join()
        return f"{self.judged} {self.wrong}"


def crowd(keys: RemoteKeys, tokens: List[str], now: int) -> str:
    """How many tokens are answered at once, and how many later, where all are judged at the same time."""
    took: List[float] = []

    def ask(token: str) -> None:
        try:
            keys.validate(token, now)
        except TokenRefused:
            pass
        took.append(time.monotonic() - begun)

    threads = [threading.Thread(target=ask, args=(it,)) for it in tokens]
    begun = time.monotonic()
    for it in threads:
        it.start()
    for it in threads:
        it.join()
    at_once = sum(it < 1.2 for it in took)
    return f"{at_once} {len(took) - at_once}"


class Driver:
    """What the lines are told to."""

    def __init__(self) -> None:
        self.keys: Union[RemoteKeys, Issuers, None] = None
        self.load: Optional[Load] = None

    def opened(self, how: Any, words: List[str]) -> str:
        policy, url, cooldown, refresh_after, max_age, timeout, authority, http = words
        times = zip(("cooldown", "refresh_after", "max_age", "timeout"), (cooldown, refresh_after, max_age, timeout))
        context = None if authority == "-" else ssl.create_default_context(cafile=authority)
        try:
            with open(policy, "rb") as file:
                self.keys = how(file.read(), url, allow_http=http == "1", context=context, **{name: int(it) / 1_000 for name, it in times})
        except KeysUnavailable:
            return "unavailable"
        except PolicyRefused:
            return "policy"
        except ValueError:
            return "misused"
        return "opened"

    def issuers(self, words: List[str]) -> str:
        try:
            self.keys = Issuers({words[at]: opened(words[at + 1], words[at + 2]) for at in range(0, len(words), 3)})
        except ValueError:
            return "misused"
        return "opened"

    def answer(self, do: str, *words: str) -> str:
        if do == "open":
            return self.opened(RemoteKeys, list(words))
        if do == "discover":
            return self.opened(RemoteKeys.discover, list(words))
        if do == "issuers":
            return self.issuers(list(words))
        assert self.keys is not None
        if do == "validate":
            return self.validated(*words)
        if do == "close":
            self.keys.close()
            return "closed"
        assert not isinstance(self.keys, Issuers)
        if do == "load":
            with open(words[0]) as file:
                self.load = Load(self.keys, file.read(), int(words[1]), int(words[2]))
            return "loading"
        if do == "crowd":
            with open(words[0]) as file:
                return crowd(self.keys, file.read().split(), int(words[1]))
        if do == "rest":
            assert self.load is not None
            return self.load.rest()
        return "true" if self.keys.refresh() else "false"

    def validated(self, path: str, now: str) -> str:
        assert self.keys is not None
        try:
            with open(path, "rb") as file:
                self.keys.validate(file.read(), int(now))
        except TokenRefused as refusal:
            return refusal.fault
        except Closed:
            return "Closed"
        return "accepted"


def opened(policy: str, keys: str) -> Validator:
    with open(policy, "rb") as first, open(keys, "rb") as second:
        return Validator(first.read(), second.read())


driver = Driver()
for line in sys.stdin:
    print(driver.answer(*line.rstrip("\n").split("\t")), flush=True)
