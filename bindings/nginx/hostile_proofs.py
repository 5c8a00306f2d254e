"""The proofs of possession of tests/possession that a request can carry, asked of nginx: what the module says of each has to be the stored answer.

Each is asked at its own moment, by moment.c, which is preloaded. A request carries no proof with a space at an end or a control character, no nonce but one by time, no URI without
a path, with a fragment, with a percent sign that nginx refuses of itself or with a character out of ASCII, and no method but one of capital letters; a row without an access token, or beside one that isn't accepted,
is none of a request to nginx.
"""
import http.client
import json
import os
import pathlib
import re
import subprocess
import tempfile
from typing import Callable, Iterator, NamedTuple

from server import TOP, Nginx

URI = re.compile(r"(https?://[^/?#@]+)(/(?:[^%#\s]|%[0-9A-Fa-f]{2})*)", re.IGNORECASE)
SHOWN = "add_header X-Verdict $jwt_verdict always; add_header X-Fault $jwt_fault always;"


class Asked(NamedTuple):
    """A row that a request can carry: its origin, and the request's method, target and headers, with the fault that is told of it, none where it is held."""

    name: str
    now: int
    origin: str
    method: str
    target: str
    proof: str
    token: str
    fault: str


def read_rows() -> tuple[dict, list[Asked], int]:
    """The first line of the table, the rows that are asked, and how many there are in all."""
    first, *rows = map(json.loads, (TOP / "tests/possession/cases.jsonl").read_text().splitlines())
    return first, [it for it in map(asked_of, rows) if it], len(rows)


def asked_of(row: dict) -> Asked | None:
    """What is asked of a row; None where no request carries it."""
    uri, proof = URI.fullmatch(row["uri"]), row["proof"]
    is_carried = uri and row["uri"].isascii() and proof == proof.strip() and proof.isprintable() and proof.isascii() and re.fullmatch("[A-Z]+", row["method"])
    # (nginx doesn't begin at the moment 0)
    if not is_carried or row["now"] == 0 or row["nonce"] is not None or not row["token"] or row["token"].count(".") != 2 or row["name"] in NOT_ACCEPTED:
        return None
    fault = "" if row["answer"] == "held" else row["answer"]
    return Asked(row["name"], row["now"], uri[1], row["method"], uri[2], proof, row["token"], fault)


# (the access token of the first is one of another's, of the standard; that of the second has another signature than its own)
NOT_ACCEPTED = ("figure-12", "hash-of-the-token-and-more")


def answer(connection: http.client.HTTPConnection, row: Asked, origins: list[str]) -> tuple[int, str, str]:
    """The status, the verdict and the fault."""
    connection.putrequest(row.method, row.target, skip_host=True, skip_accept_encoding=True)
    for name, value in (("Host", f"origin-{origins.index(row.origin)}"), ("Content-Length", "0"), ("Authorization", f"DPoP {row.token}"), ("DPoP", row.proof)):
        connection.putheader(name, value)
    connection.endheaders()
    said = connection.getresponse()
    said.read()
    return said.status, said.getheader("X-Verdict", ""), said.getheader("X-Fault") or ""


def differences(nginx: Nginx, rows: list[Asked], origins: list[str]) -> Iterator[str]:
    """Each row to which nginx answers otherwise."""
    connection = http.client.HTTPConnection("127.0.0.1", nginx.port, timeout=20)
    for row in rows:
        said = answer(connection, row, origins)
        wanted = (400 if row.fault == "PathForm" else 401, "refused", row.fault) if row.fault else (200, "accepted", "")
        # (nginx refuses of itself a path that climbs out of the root)
        if said != wanted and (row.fault, said) != ("PathForm", (400, "", "")):
            yield f"{row.name}: {said}, and not {wanted}"
    connection.close()


def configuration(origins: list[str]) -> str:
    """A server for each origin. A proof is asked twice by nobody here, so none is taken."""
    servers = (
        f"server {{ listen 127.0.0.1:{{port}}; server_name origin-{at}; merge_slashes off; {SHOWN} jwt on; jwt_policy access.policy; jwt_keys access.keys; jwt_dpop only; "
        f'jwt_dpop_policy proofs.policy; jwt_dpop_origin "{origin}"; jwt_dpop_once off; location / {{ jwt_answer 200; }} }}'
        for at, origin in enumerate(origins)
    )
    return "\n".join(servers)


def run(check: Callable[..., None]) -> None:
    """Asks all that can be carried, and says how many these are."""
    first, rows, count = read_rows()
    origins = sorted({it.origin for it in rows})
    found: list[str] = []
    with tempfile.TemporaryDirectory() as name:
        room = pathlib.Path(name)
        library = room / "moment.so"
        subprocess.run([os.environ.get("CC", "cc"), "-O1", "-shared", "-fPIC", "-o", library, TOP / "bindings/nginx/moment.c"], check=True)
        for now in sorted({it.now for it in rows}):
            place = room / str(now)
            place.mkdir()
            nginx = Nginx(place, workers=1, logs=False, LD_PRELOAD=str(library), MOMENT=str(now))
            for file, document in (("access.policy", first["access_policy"]), ("access.keys", first["access_keys"]), ("proofs.policy", first["policy"])):
                nginx.write(file, json.dumps(document))
            nginx.configure(configuration(origins))
            with nginx.running():
                found += differences(nginx, [it for it in rows if it.now == now], origins)
    hostile = sum(bool(it.fault) for it in rows)
    check(f"{len(rows)} proofs of {count}, {hostile} of them refused, each for its own step", hostile >= 300 and not found, "\n  ".join(found[:20]))
