"""Tokens whose answers are known, asked of the endpoint over connections that are kept, while its key set goes from the old key to both, to the new
one, to both and back, a reload every three seconds. Each answer is held against what it has to be; while a reload is under way, a key that comes or
goes may get either."""
import collections
import json
import os
import pathlib
import random
import secrets
import signal
import socket
import threading
import time
from typing import NamedTuple

import hostile
import server

# Which of the two keys each step's key set has.
STEPS = [("old", "new"), ("new",), ("old", "new"), ("old",)]
PAUSE = 3.0


class Asked(NamedTuple):
    """A request's header lines, its key and its subject; no key: it is refused always."""

    lines: bytes
    key: str
    user: str


class Moment(NamedTuple):
    """What each key gets now, True, False or None for either, and how often that has changed."""

    number: int
    gets: dict[str, bool | None]


class Soak:
    """The tokens, the keys and what was counted."""

    def __init__(self, path: pathlib.Path) -> None:
        self.path, self.moment, self.ends = path, Moment(0, {"old": True, "new": False}), False
        self.secrets = {it: secrets.token_bytes(64) for it in ("old", "new")}
        self.asked = self.make()
        self.counts: collections.Counter = collections.Counter()
        self.wrong: list[str] = []
        self.lock = threading.Lock()

    def make(self) -> list[Asked]:
        """Good tokens by each key, some of them changed in one octet, and the hostile ones of hostile.py."""
        chance, found = random.Random(7), []
        for key, secret in self.secrets.items():
            by = hostile.Signer(key, secret)
            for number in range(200):
                user = f"{key}-{number}"
                token = by.token(payload=hostile.body(sub=user, note="n" * (number % 50 * 20)))
                found.append(Asked(hostile.line(token), key, user))
                at = chance.randrange(len(token) - 1)
                changed = token[:at] + (b"A" if token[at : at + 1] != b"A" else b"B") + token[at + 1 :]
                found.append(Asked(hostile.line(changed), "", "-"))
        by = hostile.Signer("old", self.secrets["old"])
        # (two headers and a NUL end the connection by nginx's own answer)
        found += [Asked(it.lines, "", "-") for it in hostile.cases(by) if it.through is False and it.lines.count(b"\r\n") == 1 and b"\0" not in it.lines]
        chance.shuffle(found)
        return found

    def keys(self, names: tuple[str, ...]) -> str:
        found = [{"kty": "oct", "kid": it, "alg": "HS256", "k": hostile.text_of(self.secrets[it]).decode()} for it in names]
        return json.dumps({"keys": found})

    def ask(self, seed: int) -> None:
        """Asks until the end, over one connection after another."""
        chance, connection = random.Random(seed), None
        while not self.ends:
            it = chance.choice(self.asked)
            try:
                connection = connection or server.connected(0, self.path)
                before = self.moment
                status, user = exchange(connection, it.lines)
            except OSError:
                # (a worker that goes closes its connections)
                with self.lock:
                    self.counts["closed"] += 1
                connection = None
                continue
            self.note(it, before, self.moment, status, user)
        if connection:
            connection.close()

    def note(self, it: Asked, before: Moment, after: Moment, status: int, user: str) -> None:
        """Counts an answer, and keeps it where it isn't as it has to be."""
        must = before.gets[it.key] if it.key else False
        if it.key and before.number != after.number and after.gets[it.key] != must:
            must = None
        is_right = (status, user) == (204, it.user) if must else (status, user) == (401, "") if must is False else (status, user) in ((204, it.user), (401, ""))
        with self.lock:
            self.counts["either" if must is None else str(status)] += 1
            if not is_right:
                self.counts["wrong"] += 1
                self.wrong.append(f"{it} {before} {after} {status} {user}"[:600])


def exchange(connection: socket.socket, lines: bytes) -> tuple[int, str]:
    """The status of the answer and its X-User; an answer has no body."""
    connection.sendall(b"GET / HTTP/1.1\r\nHost: x\r\n" + lines + b"\r\n")
    got = b""
    while b"\r\n\r\n" not in got:
        piece = connection.recv(65536)
        if not piece:
            raise ConnectionError("closed")
        got += piece
    found = server.answer_of(got)
    if found.headers.get("connection") == "close":
        connection.shutdown(socket.SHUT_RDWR)
    return found.status, found.headers.get("x-user", "")


def children(pid: int) -> set[str]:
    return set(pathlib.Path(f"/proc/{pid}/task/{pid}/children").read_text().split())


def reload(pid: int) -> bool:
    """Has nginx read its configuration again, and waits until the old workers are gone."""
    old = children(pid)
    os.kill(pid, signal.SIGHUP)
    until = time.monotonic() + 60
    while time.monotonic() < until:
        now = children(pid)
        if now and not now & old:
            return True
        time.sleep(0.02)
    return False


def run(room: pathlib.Path, pid: int, seconds: float, threads: int = 8) -> Soak:
    """Asks for so long, of the endpoint in this folder, whose master process is this one."""
    soak, file = Soak(room / "run/fowharimu/shop.sock"), room / "etc/fowharimu/keys.json"
    file.write_text(soak.keys(("old",)))
    reload(pid)
    memory = {"before": (server.resident(pid), sorted(map(server.resident, map(int, children(pid)))))}
    asking = [threading.Thread(target=soak.ask, args=(it,), daemon=True) for it in range(threads)]
    for it in asking:
        it.start()
    until, reloads = time.monotonic() + seconds, 0
    while time.monotonic() < until:
        names, was = STEPS[reloads % 4], soak.moment
        goes = {key: (key in names) for key in soak.secrets}
        temporary = file.with_suffix(".new")
        temporary.write_text(soak.keys(names))
        temporary.rename(file)
        soak.moment = Moment(was.number + 1, {key: (it if it == was.gets[key] else None) for key, it in goes.items()})
        if not reload(pid):
            soak.wrong.append("the old workers stay")
            break
        soak.moment, reloads = Moment(was.number + 2, goes), reloads + 1
        time.sleep(PAUSE)
    soak.ends = True
    for it in asking:
        it.join(20)
    memory["after"] = (server.resident(pid), sorted(map(server.resident, map(int, children(pid)))))
    print(f"gateways, soak: {seconds:.0f} seconds, {reloads} reloads, {dict(soak.counts)}; memory of the master and the workers in KiB: {memory}")
    return soak
