"""What PHP reads behind nginx as the token is the token that nginx judged: names that PHP folds, at random, with PHP's own server as the reader."""
import json
import pathlib
import random
import shutil
import socket
import subprocess
import tempfile
import time
from typing import Callable

import tokens
from server import Answer, Nginx, answer_of, free_port

SCRIPT = """<?php
echo json_encode(["argument" => $_GET["access_token"] ?? null, "cookie" => $_COOKIE["session"] ?? null, "header" => $_SERVER["HTTP_X_TOKEN"] ?? null,
    "judged" => $_SERVER["HTTP_X_JUDGED"] ?? null]);
"""
NAMES = {"argument": "access_token", "cookie": "session", "header": "X-Token"}
VARIABLES = {"argument": "$arg_access_token", "cookie": "$cookie_session", "header": "$http_x_token"}
COUNT = 1200


def configuration(port: int) -> str:
    locations = " ".join(
        f"location /{kind} {{ jwt_token {variable}; proxy_set_header X-Judged $jwt_token; proxy_pass http://127.0.0.1:{port}; }}" for kind, variable in VARIABLES.items()
    )
    return f"server {{ listen 127.0.0.1:{{port}}; underscores_in_headers on; ignore_invalid_headers off; jwt on; jwt_policy hs.policy; jwt_keys hs.keys; {locations} }}"


def folded(name: str, chance: random.Random) -> str:
    """The name as somebody may read it too, or nearly."""
    letters = [chance.choice("_.- [+") if it in "_-" and chance.random() < 0.6 else it for it in name]
    escaped = "".join(f"%{ord(it):02x}" if chance.random() < 0.15 else it.upper() if chance.random() < 0.15 else it for it in letters)
    before = chance.choice(["", "", "", "", " ", "+", "%20", "\t", "."])
    return before + escaped + chance.choice(["", "", "", "", " ", "%00", "%00x", "[", "[]", "[a]", "]", "[a", "+", "%20", "."])


def request(kind: str, good: str, chance: random.Random) -> bytes:
    """A request with the token under its own name, and other members beside it."""
    members = [f"{NAMES[kind]}={good}"]
    for _ in range(chance.randint(0, 2)):
        name = chance.choice([folded(NAMES[kind], chance), "other"])
        members.insert(chance.randint(0, len(members)), name + chance.choice(["=", "=", " = ", "=", ""]) + chance.choice(["EVIL", "EVIL", ""]))
    path, lines = f"/{kind}", ""
    if kind == "argument":
        path += "?" + chance.choice(["&", "&", "&", ";", "&&"]).join(members).replace(" ", "%20").replace("\t", "%09")
    elif kind == "cookie":
        lines = "Cookie: " + chance.choice(["; ", ";", "; ", ",", ", "]).join(members) + "\r\n"
    else:
        lines = "".join((it if "=" in it else it + "=").replace("=", ": ", 1) + "\r\n" for it in members)
    return f"GET {path} HTTP/1.1\r\nHost: x\r\nConnection: close\r\n{lines}\r\n".encode()


def answered(port: int, sent: bytes) -> Answer:
    """What is answered; the connection stays open until then, since nginx asks nobody for a client who has gone."""
    got = b""
    with socket.create_connection(("127.0.0.1", port), 20) as connection:
        connection.sendall(sent)
        while piece := connection.recv(65536):
            got += piece
    return answer_of(got)


def run(check: Callable[..., None]) -> None:
    if not shutil.which("php"):
        print("nginx: what PHP reads isn't compared, since the Debian package php-cli isn't here")
        return
    chance, secret = random.Random(11), tokens.Secret()
    good, port = secret.token(), free_port()
    counts = {200: 0, 400: 0}
    with tempfile.TemporaryDirectory() as name:
        nginx = Nginx(pathlib.Path(name), workers=1)
        nginx.write("hs.policy", json.dumps({"version": 2, "algs": ["HS256"], "issuers": ["joe"], "required": ["exp"], "max_calls": 8}))
        nginx.write("hs.keys", tokens.key_set(secret.jwk()))
        script = nginx.write("index.php", SCRIPT)
        nginx.configure(configuration(port))
        php = subprocess.Popen(["php", "-S", f"127.0.0.1:{port}", script], stdout=subprocess.DEVNULL, stderr=subprocess.DEVNULL)
        try:
            wait_for(port)
            wrong = []
            with nginx.running():
                for _ in range(COUNT):
                    kind = chance.choice(["argument", "argument", "cookie", "header"])
                    sent = request(kind, good, chance)
                    got = answered(nginx.port, sent)
                    counts[got.status] = counts.get(got.status, 0) + 1
                    told = json.JSONDecoder().raw_decode(got.body[got.body.find("{") :])[0] if got.status == 200 else {}
                    if told.get(kind) not in (None, told.get("judged")):
                        wrong.append((sent.decode().replace(good, "GOOD"), told[kind]))
        finally:
            php.terminate()
            php.wait(20)
        check(f"PHP reads the token that was judged, or none: {counts}", not wrong and counts[200] > COUNT // 3 and counts[400] > COUNT // 10, wrong[:10])
        check("no worker died", "exited on signal" not in nginx.errors(), nginx.errors()[-1000:])


def wait_for(port: int) -> None:
    for _ in range(200):
        try:
            socket.create_connection(("127.0.0.1", port), 1).close()
            return
        except OSError:
            time.sleep(0.05)
