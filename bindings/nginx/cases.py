"""The cases of tests/cases that a request can carry, asked of nginx: what the module says has to be the stored answer.

A request carries a token in a header, for `jwt_token $http_token`, and where it is of the characters of a b64token (RFC 6750, section 2.1) in the
header Authorization too; there each other one is refused as Form. It is one without NUL, line feeds and carriage returns, and without a space at
either end. A policy, a key set or an access rule that is refused has no location. The moment is the same for all, that of most cases, by moment.c, which is preloaded.
"""
import base64
import http.client
import json
import os
import pathlib
import re
import subprocess
import sys
import tempfile
from typing import Callable, Iterator, NamedTuple

from server import TOP, Nginx

sys.path.insert(0, str(TOP / "tests"))
from harness import octets_in

TABLE = TOP / "build/cases"
NOW = "1300819379"
SHOWN = "".join(f"add_header X-{it.title()} $jwt_{it} always;" for it in ("verdict", "fault", "tries", "work", "claim_iss"))
# The documents of a location, by the directive that names each.
ENDS = ("policy", "keys", "access")
HEADERS = ("x-verdict", "x-fault", "x-tries", "x-work", "x-claim_iss")
STATUS = {"accepted": 200, "refused": 401, "forbidden": 403}
B64TOKEN = re.compile(rb"[A-Za-z0-9._~+/-]+=*")
NO_TOKEN = {"x-verdict": "refused", "x-fault": "Form", "x-tries": "0", "x-work": "0", "x-claim_iss": ""}


class Asked(NamedTuple):
    """A case with the number of its location, and the fields of its stored answer."""

    name: str
    place: int
    token: bytes
    answer: list[str]


def is_carried(now: str, token: bytes, answer: list[str]) -> bool:
    """Whether a request can carry the token at this moment, under documents that aren't refused."""
    documents = answer[1].startswith(("policy.", "keys.", "access."))
    return now == NOW and not documents and not set(token) & set(b"\0\r\n") and token == token.strip(b" ")


def read_cases() -> tuple[list[tuple[bytes, ...]], list[Asked], int]:
    """The documents of each location, the cases that are asked, and how many tokens there are in all."""
    answers = dict(it.split("\t", 1) for it in (TABLE / "stored.tsv").read_text().splitlines())
    documents: list[tuple[bytes, ...]] = []
    cases: list[Asked] = []
    places: dict[tuple[bytes, ...], int] = {}
    opened, count = (b"", b""), 0
    with (TABLE / "cases.txt").open() as table:
        for line in table:
            what, *words = line.split()
            if what == "open":
                opened = (octets_in(words[0]), octets_in(words[1]))
            elif what in ("judge", "deny"):
                name, now, *rule, token = words[0], words[1], *map(octets_in, words[2:])
                answer, count = answers[name].split("\t"), count + 1
                if is_carried(now, token, answer):
                    needed = (*opened, *rule)
                    if needed not in places:
                        places[needed] = len(documents)
                        documents.append(needed)
                    cases.append(Asked(name, places[needed], token, answer))
    return documents, cases, count


def shown_issuer(claims: str) -> str:
    """What $jwt_claim_iss has to be: a text without control characters and without a space at an end; else nothing."""
    value = json.loads(bytes.fromhex(claims)).get("iss") if claims != "-" else None
    is_kept = isinstance(value, str) and not any(ord(it) < 32 or ord(it) == 127 for it in value) and value == value.strip(" ")
    return value if is_kept else ""


def is_bound(token: bytes) -> bool:
    """Whether the claims of a compact token say whose it is: nobody shows that here, so the module takes it from nobody."""
    try:
        payload = token.split(b".")[1]
        return "cnf" in json.loads(base64.urlsafe_b64decode(payload + b"=" * (-len(payload) % 4)))
    except (IndexError, ValueError, TypeError):
        return False


def expected(case: Asked) -> dict[str, str]:
    """The headers that the stored answer comes to. Of claims whose digest alone is stored the issuer isn't compared."""
    verdict, fault, *_, work, states, tries, claims = case.answer
    if verdict == "accepted" and is_bound(case.token):
        verdict, fault = "refused", "token.Bound"
    found = {
        "x-verdict": "forbidden" if verdict == "denied" else verdict,
        "x-fault": fault.partition(".")[2],
        "x-tries": str(len(tries.split(","))) if tries else "0",
        "x-work": work,
    }
    if not claims.startswith("sha256:"):
        found["x-claim_iss"] = shown_issuer(claims)
    return found


def differences(nginx: Nginx, cases: list[Asked], remembers: bool) -> Iterator[str]:
    """Each case to which nginx answers otherwise. Connections are kept open. Where tokens are remembered, what was paid isn't compared. A tab behind a token
    is white space of the header `Authorization` (RFC 9110, section 5.5), and isn't the token's."""
    connection = http.client.HTTPConnection("127.0.0.1", nginx.port, timeout=20)
    for case, is_bearer in ((case, it) for case in cases for it in (True, False) if (not case.token.endswith(b"\t") if it else case.token)):
        connection.putrequest("GET", f"/{case.place}{'' if is_bearer else '-variable'}", skip_accept_encoding=True)
        connection.putheader("Authorization" if is_bearer else "Token", b"Bearer " * is_bearer + case.token)
        connection.endheaders()
        answer = connection.getresponse()
        answer.read()
        wanted = NO_TOKEN if is_bearer and not B64TOKEN.fullmatch(case.token) else expected(case)
        if remembers:
            wanted = {name: it for name, it in wanted.items() if name not in ("x-tries", "x-work")}
        said = {name: (answer.getheader(name) or "").encode("latin-1").decode("utf-8", "replace") for name in wanted}
        if said != wanted or answer.status != STATUS.get(wanted["x-verdict"]):
            yield f"{case.name}, {'Bearer' if is_bearer else 'a variable'}: {answer.status} {said}, and not {wanted}"
    connection.close()


def run(check: Callable[..., None]) -> None:
    """Asks all that can be carried, and says how many these are."""
    made = subprocess.run([TOP / "tests/cases/make", TABLE], stdout=subprocess.PIPE, stderr=subprocess.STDOUT, text=True)
    check("cases made", made.returncode == 0, made.stdout)
    if made.returncode:
        return
    documents, cases, count = read_cases()
    with tempfile.TemporaryDirectory() as name:
        room = pathlib.Path(name)
        library = room / "moment.so"
        subprocess.run([os.environ.get("CC", "cc"), "-O1", "-shared", "-fPIC", "-o", library, TOP / "bindings/nginx/moment.c"], check=True)
        nginx = Nginx(room, workers=1, logs=False, LD_PRELOAD=str(library), MOMENT=NOW)
        nginx.write("html/page", "the page\n")
        for place, needed in enumerate(documents):
            for end, octets in zip(ENDS, needed):
                nginx.write(f"{place}.{end}", octets)
        locations = "\n".join(
            f"location = /{place}{name} {{ jwt on; {' '.join(f'jwt_{end} {place}.{end};' for end, _ in zip(ENDS, needed))} {token} try_files /page =404; }}"
            for place, needed in enumerate(documents)
            for name, token in (("", ""), ("-variable", "jwt_token $http_token;"))
        )
        for what, remember in (("", "off"), (", remembering, asked twice", "1000 64k")):
            nginx.configure(f"server {{ listen 127.0.0.1:{{port}}; jwt_remember {remember}; {SHOWN} {locations} }}")
            with nginx.running():
                found = list(differences(nginx, [it for it in cases for _ in range(2 if what else 1)], bool(what)))
            check(f"{len(cases)} cases of {count} in {len(documents)} locations{what}", len(cases) >= 3000 and not found, "\n  ".join(found[:20]))
