"""The module under load: hostile requests, new keys, a worker that is killed, and requests a second."""
import collections
import http.client
import json
import os
import pathlib
import random
import re
import shutil
import signal
import socket
import subprocess
import tempfile
import threading
import time
from typing import Callable, NamedTuple

import tokens
from server import Nginx

Check = Callable[..., None]
POLICY = json.dumps({"version": 2, "algs": ["HS256"], "issuers": ["joe"], "required": ["exp"], "max_calls": 4})
PAGE = b"x" * 1024
SERVER = """
server {
    listen 127.0.0.1:{port};
    jwt_policy hs.policy;
    jwt_keys hs.keys;
    location /on { jwt on; try_files /page =404; }
    location /off { try_files /page =404; }
    {more}
}
"""
NAMED = "location /named { jwt on; proxy_set_header X-User $jwt_claim_sub; try_files /page =404; }"
# The growth of a worker, in KiB, that is less than eight octets a request.
MOST_GROWTH = 1024
STATUS = re.compile(rb"HTTP/1\.1 (\d{3}) ")


def prepared(room: pathlib.Path, secrets: list[tokens.Secret], more: str = "", **options) -> Nginx:
    nginx = Nginx(room, logs=False, level="warn", **options)
    nginx.write("hs.policy", POLICY)
    nginx.write("hs.keys", tokens.key_set(*[it.jwk() for it in secrets]))
    nginx.write("html/page", PAGE)
    nginx.configure(SERVER.replace("{more}", more))
    return nginx


# ---- hostile requests

def mutated(token: bytes, chance: random.Random) -> bytes:
    """The token with an octet put in, taken out or changed, one of its parts doubled, or its end cut off."""
    place, octet = chance.randrange(len(token)), bytes([chance.choice(b"!\"%-.=ABZ_az{}~\x01\x7f\x80\xff")])
    ways = [
        token[:place] + octet + token[place:],
        token[:place] + token[place + 1 :],
        token[:place] + octet + token[place + 1 :],
        token[:place],
        token[:place] + token[place:] * 2,
    ]
    found = chance.choice(ways)
    return found if found != token else b"." + token


def hostile(token: bytes, chance: random.Random, corpus: list[bytes]) -> bytes:
    """A token that has to be refused."""
    way = chance.randrange(10)
    if way < 4:
        return mutated(token, chance)
    if way < 8:
        return chance.choice(corpus)
    # (no blank, NUL or line feed: nginx drops or refuses those itself)
    return b"!" + chance.randbytes(chance.choice((1, 10, 300, 4000, 8500))).translate(None, b"\0\r\n ")


def request(token: bytes) -> bytes:
    return b"GET /named HTTP/1.1\r\nHost: x\r\nAuthorization: Bearer " + token + b"\r\n\r\n"


def exchange(connection: socket.socket, batch: list[tuple[bytes, bytes]], got: collections.Counter) -> None:
    """Sends these requests at once, and counts the pairs of the status that each has to get and that it got."""
    sender = threading.Thread(target=connection.sendall, args=(b"".join(it for it, _ in batch),))
    sender.start()
    rest, statuses = b"", []
    while len(statuses) < len(batch):
        piece = connection.recv(1 << 18)
        if not piece:
            break
        rest += piece
        statuses += STATUS.findall(rest)
        # (a line of status may be cut)
        rest = rest[-12:] if not STATUS.search(rest[-12:]) else b""
    sender.join()
    statuses += [b"none"] * (len(batch) - len(statuses))
    got.update((wanted, it) for (_, wanted), it in zip(batch, statuses))


def send_hostile(nginx: Nginx, secret: tokens.Secret, count: int, seed: int) -> collections.Counter:
    """So many requests over one connection after another, every other one with a token that is accepted."""
    chance, corpus, got = random.Random(seed), tokens.corpus(), collections.Counter()
    good = [secret.token(sub=f"user{it}", note="n" * (it * 50)).encode() for it in range(8)]
    for _ in range(count // 2000):
        with socket.create_connection(("127.0.0.1", nginx.port), 30) as connection:
            for _ in range(20):
                batch = [pair for _ in range(50) for pair in ((request(chance.choice(good)), b"200"), (request(hostile(chance.choice(good), chance, corpus)), b"401"))]
                exchange(connection, batch, got)
    return got


def test_hostile(check: Check, factor: int) -> None:
    """200,000 requests, half of them hostile: each is answered rightly, and no worker grows."""
    with tempfile.TemporaryDirectory() as name:
        secret = tokens.Secret()
        nginx = prepared(pathlib.Path(name), [secret], NAMED)
        with nginx.running():
            send_hostile(nginx, secret, 20_000, 1)
            before, pids = nginx.memory(), nginx.worker_pids()
            begun = time.monotonic()
            got = send_hostile(nginx, secret, 200_000 * factor, 2)
            taken, after = time.monotonic() - begun, nginx.memory()
            wrong = {pair: count for pair, count in got.items() if pair[0] != pair[1]}
            growth = max(new - old for old, new in zip(before, after))
            print(f"nginx: {sum(got.values())} requests in {taken:.0f} s; workers' memory in KiB before {before}, after {after}")
            check(f"{sum(got.values())} requests, half of them hostile, answered rightly", not wrong and sum(got.values()) == 200_000 * factor, wrong)
            check("no worker grew by as much as eight octets a request", growth < MOST_GROWTH * factor, growth)
            check("no worker died of them", pids == nginx.worker_pids(), nginx.errors()[-1000:])


# ---- reload

class Asking(threading.Thread):
    """Asks with one token, a connection each time, and notes the moments and the status."""

    def __init__(self, port: int, token: str) -> None:
        super().__init__(daemon=True)
        self.port, self.token, self.ends = port, token, threading.Event()
        self.seen: list[tuple[float, float, int]] = []

    def run(self) -> None:
        while not self.ends.is_set():
            begun = time.monotonic()
            self.seen.append((begun, self.ask(), self.status))

    def ask(self) -> float:
        self.status = 0
        connection = http.client.HTTPConnection("127.0.0.1", self.port, timeout=20)
        try:
            connection.request("GET", "/on", headers={"Authorization": f"Bearer {self.token}", "Connection": "close"})
            answer = connection.getresponse()
            self.status = answer.status if len(answer.read()) == len(PAGE) or answer.status != 200 else -1
        except (OSError, http.client.HTTPException):
            pass
        finally:
            connection.close()
        return time.monotonic()

    def statuses(self, begin: float, end: float) -> set[int]:
        """Those of the requests that were made wholly between these moments."""
        return {status for begun, done, status in self.seen if begin <= begun and done <= end}


def test_reload(check: Check, factor: int) -> None:
    """The old key, then both, then the new one alone: no request is lost, and each is answered by the keys of its moment."""
    with tempfile.TemporaryDirectory() as name:
        old, new = tokens.Secret(), tokens.Secret()
        nginx = prepared(pathlib.Path(name), [old])
        with nginx.running():
            asking = [Asking(nginx.port, it) for it in (old.token(), new.token(), "x.y.z", old.token())]
            for it in asking:
                it.start()
            moments = [time.monotonic()]
            for keys in ([old, new], [new]):
                time.sleep(1.5 * factor)
                nginx.write("hs.keys", tokens.key_set(*[it.jwk() for it in keys]))
                moments.append(time.monotonic())
                nginx.reload()
                moments.append(time.monotonic())
            time.sleep(1.5)
            moments.append(time.monotonic())
            for it in asking:
                it.ends.set()
            for it in asking:
                it.join()
        count = sum(len(it.seen) for it in asking)
        every = [status for it in asking for _, _, status in it.seen]
        by_old, by_new, bad = asking[0], asking[1], asking[2]
        begin, added, both, removed, gone, end = moments
        check(f"none of {count} requests lost in two reloads", set(every) == {200, 401}, collections.Counter(every))
        check("the old key, until it is removed", by_old.statuses(begin, removed) == asking[3].statuses(begin, removed) == {200})
        check("the old key, when it is gone", by_old.statuses(gone, end) == asking[3].statuses(gone, end) == {401})
        check("the new key, until it is added", by_new.statuses(begin, added) == {401})
        check("the new key, when it is there", by_new.statuses(both, end) == {200})
        check("a refused token all the time", bad.statuses(begin, end) == {401})


def test_refused_reload(check: Check) -> None:
    """A key set that is refused leaves the keys as they are; many reloads leave the master as large as it was."""
    with tempfile.TemporaryDirectory() as name:
        secret = tokens.Secret()
        nginx = prepared(pathlib.Path(name), [secret])
        many = [tokens.Secret().jwk() for _ in range(1000)]
        with nginx.running():
            nginx.write("hs.keys", "{")
            nginx.process.send_signal(signal.SIGHUP)
            time.sleep(0.5)
            check("a reload with refused keys is refused", '/hs.keys" is refused: Json' in nginx.errors(), nginx.errors()[-500:])
            check("and the old keys stay", nginx.get("/on", token=secret.token()).status == 200)
            nginx.write("hs.keys", tokens.key_set(secret.jwk(), *many))
            for _ in range(3):
                nginx.reload()
            before = resident_of(nginx.process.pid)
            for _ in range(12):
                nginx.reload()
            after = resident_of(nginx.process.pid)
            print(f"nginx: the master's memory in KiB before 12 reloads of 1,001 keys {before}, after {after}")
            # (1,001 keys are more than 100 KiB)
            check("the master doesn't grow by reloads", after - before < 600, (before, after))
            check("the keys are read", nginx.get("/on", token=secret.token()).status == 200)


def resident_of(pid: int) -> int:
    return int(re.search(r"VmRSS:\s*(\d+)", pathlib.Path(f"/proc/{pid}/status").read_text())[1])


# ---- a worker that is killed

def test_killed(check: Check) -> None:
    """A worker that is killed takes its connections with it, and lets nothing through."""
    with tempfile.TemporaryDirectory() as name:
        secret = tokens.Secret()
        nginx = prepared(pathlib.Path(name), [secret])
        with nginx.running():
            good, bad = Asking(nginx.port, secret.token()), Asking(nginx.port, secret.token()[:-6])
            for it in (good, bad):
                it.start()
            for _ in range(5):
                time.sleep(0.3)
                os.kill(nginx.worker_pids()[0], signal.SIGKILL)
            time.sleep(0.5)
            good.ends.set(), bad.ends.set()
            good.join(), bad.join()
            said = {status for _, _, status in good.seen}, {status for _, _, status in bad.seen}
            check("workers that are killed let nothing through", said[0] <= {0, 200} and said[1] <= {0, 401}, said)
            check("new workers go on", nginx.get("/on", token=secret.token()).status == 200)


# ---- requests a second

# What a client does with its connections, and what it tells wrk.
WAYS = {"connections kept open": [], "a connection for each request": ["-H", "Connection: close"]}
# The users whose tokens come in turn, each with its connection kept open: as many as are remembered.
USERS = 1_000
IN_TURN = """local tokens, at = {}, 0
for line in io.lines("%s") do tokens[#tokens + 1] = line end
function request()
  at = at %% #tokens + 1
  return wrk.format("GET", nil, { ["Authorization"] = "Bearer " .. tokens[at] })
end
"""


class Rate(NamedTuple):
    """Requests a second by the clock, the latency of the 99th percentile, the share of a processor that the worker took, and what it
    took of one for a request, in microseconds."""

    requests: float
    latency: str
    busy: float
    cost: float

    def __str__(self) -> str:
        return f"{self.requests:.0f} requests a second, 99 % within {self.latency}, {self.cost:.1f} us of the worker each, which was busy {self.busy:.0%}"


def processor_time(pid: int) -> float:
    """What a process has taken, in seconds."""
    return int(pathlib.Path(f"/proc/{pid}/schedstat").read_text().split()[0]) / 1e9


def in_turn(secret: tokens.Secret, room: pathlib.Path) -> list[str]:
    """What tells wrk to send the tokens of many users in turn."""
    (room / "tokens").write_text("\n".join(secret.token(sub=f"user{it:04}") for it in range(USERS)))
    (room / "in_turn.lua").write_text(IN_TURN % (room / "tokens"))
    return ["-s", str(room / "in_turn.lua")]


def measured(nginx: Nginx, path: str, seconds: int, words: list[str]) -> Rate:
    """What wrk measures of one path."""
    command = ["wrk", "-t2", "-c32", f"-d{seconds}s", "--latency", *words, f"http://127.0.0.1:{nginx.port}{path}"]
    pid = nginx.worker_pids()[0]
    before, begun = processor_time(pid), time.monotonic()
    said = subprocess.run(command, capture_output=True, text=True).stdout
    taken, lasted = processor_time(pid) - before, time.monotonic() - begun
    if "Non-2xx" in said or "Socket errors" in said:
        raise RuntimeError(said)
    count = int(re.search(r"(\d+) requests in", said)[1])
    return Rate(float(re.search(r"Requests/sec:\s*([\d.]+)", said)[1]), re.search(r"99%\s*(\S+)", said)[1], taken / lasted, taken / count * 1e6)


def rates(check: Check, factor: int) -> None:
    """A page of 1 KiB with the module on and off, in turn, so that what else the machine does counts for both.

    A worker that isn't busy all the time waits for its clients, or for a processor: then requests a second say little of the module,
    and what its processor time says counts.
    """
    if not shutil.which("wrk"):
        print("nginx: requests a second are left out, since wrk isn't installed")
        return
    with tempfile.TemporaryDirectory() as name:
        secret = tokens.Secret()
        nginx = prepared(pathlib.Path(name), [secret], workers=1)
        with nginx.running():
            ways = {way: [*words, "-H", f"Authorization: Bearer {secret.token()}"] for way, words in WAYS.items()}
            ways[f"connections kept open, tokens of {USERS:,} users in turn"] = in_turn(secret, pathlib.Path(name))
            pairs = {way: [[measured(nginx, path, 2, words) for path in ("/off", "/on")] for _ in range(3 * factor)] for way, words in ways.items()}
            check("no wrong answer under wrk", True)
    for way, measurements in pairs.items():
        for off, on in measurements:
            print(f"nginx, {way}: off {off}; on {on}; {on.requests / off.requests:.1%}")
        by_clock = max(on.requests for _, on in measurements) / max(off.requests for off, _ in measurements)
        by_worker = min(off.cost for off, _ in measurements) / min(on.cost for _, on in measurements)
        print(f"nginx, {way}: with the module on {by_clock:.1%} of the requests a second with it off, {by_worker:.1%} by the worker's processor time,"
              f" of the best of {len(measurements)} runs each; one worker, HS256")


def run(check: Check, factor: int) -> None:
    test_hostile(check, factor)
    test_reload(check, factor)
    test_refused_reload(check)
    test_killed(check)
    rates(check, factor)
