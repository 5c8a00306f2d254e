"""A real nginx with the module, on a free port of the loopback, in a folder of its own."""
import contextlib
import os
import pathlib
import shutil
import signal
import socket
import subprocess
import time
from typing import Iterator, NamedTuple

TOP = pathlib.Path(__file__).resolve().parent.parent.parent
MODULE = TOP / "build/nginx/ngx_http_fowharimu_module.so"
TEMPORARY = ("client_body", "proxy", "fastcgi", "uwsgi", "scgi")

MAIN = """
load_module {module};
{user}
worker_processes {workers};
pid {room}/nginx.pid;
error_log {room}/error.log {level};
events {{ worker_connections 1024; }}
http {{
    {log}
    keepalive_requests 1000000;
    large_client_header_buffers 8 128k;
    types {{ text/html html; }}
    root {room}/html;
    {temporary}
    {http}
}}
"""

LOG = "log_format jwt '$uri $status $jwt_verdict $jwt_fault $jwt_claim_sub $jwt_tries $jwt_work $jwt_remembered'; access_log {room}/access.log jwt;"


class Answer(NamedTuple):
    """What a server answered: the status, the headers by their names in small letters, the body."""

    status: int
    headers: dict[str, str]
    body: str


class Nginx:
    """nginx with this text in the block http, where {port} and {room} are its own."""

    def __init__(self, room: pathlib.Path, workers: int = 2, logs: bool = True, level: str = "info", **environment: str) -> None:
        self.room = room
        self.port = free_port()
        self.workers = workers
        self.log = LOG.replace("{room}", str(room)) if logs else "access_log off;"
        self.level = level
        self.environment = {**os.environ, **environment}
        self.process: subprocess.Popen | None = None
        (room / "html").mkdir(parents=True, exist_ok=True)
        # (a worker that isn't root's reads the pages)
        room.chmod(0o755)

    def write(self, name: str, text: str | bytes) -> pathlib.Path:
        path = self.room / name
        path.parent.mkdir(parents=True, exist_ok=True)
        path.write_bytes(text.encode("utf-8", "surrogateescape") if isinstance(text, str) else text)
        return path

    def configure(self, http: str) -> None:
        temporary = "".join(f"{it}_temp_path {self.room}/temp/{it};" for it in TEMPORARY)
        (self.room / "temp").mkdir(exist_ok=True)
        # (who isn't root has no choice of the workers' user)
        user = "" if os.geteuid() else "user nobody nogroup;"
        words = {"module": MODULE, "user": user, "workers": self.workers, "room": self.room, "log": self.log, "level": self.level}
        http = http.replace("{port}", str(self.port)).replace("{room}", str(self.room))
        self.write("nginx.conf", MAIN.format(temporary=temporary, http=http, **words))

    def command(self, *words: str) -> list[str]:
        return ["nginx", "-p", str(self.room), "-c", str(self.room / "nginx.conf"), "-e", str(self.room / "error.log"), *words]

    def test(self) -> tuple[bool, str]:
        """What nginx -t says of the configuration."""
        done = subprocess.run(self.command("-t"), capture_output=True, text=True, env=self.environment)
        return done.returncode == 0, done.stderr

    @contextlib.contextmanager
    def running(self) -> Iterator["Nginx"]:
        self.process = subprocess.Popen(self.command("-g", "daemon off;"), env=self.environment, stderr=subprocess.DEVNULL)
        try:
            self.wait_for_port()
            yield self
        finally:
            self.process.send_signal(signal.SIGTERM)
            self.process.wait(20)

    def wait_for_port(self) -> None:
        for _ in range(200):
            with contextlib.suppress(OSError):
                socket.create_connection(("127.0.0.1", self.port), 1).close()
                return
            if self.process.poll() is not None:
                break
            time.sleep(0.05)
        raise RuntimeError(f"nginx doesn't run: {self.errors()}")

    def errors(self) -> str:
        path = self.room / "error.log"
        return path.read_text(errors="replace") if path.exists() else ""

    def worker_pids(self) -> list[int]:
        children = pathlib.Path(f"/proc/{self.process.pid}/task/{self.process.pid}/children")
        return [int(it) for it in children.read_text().split()]

    def memory(self) -> list[int]:
        """What each worker has in memory, in KiB."""
        return [resident(it) for it in self.worker_pids()]

    def reload(self) -> None:
        """Reads the configuration again, and waits until the old workers are gone."""
        old = set(self.worker_pids())
        self.process.send_signal(signal.SIGHUP)
        for _ in range(400):
            now = set(self.worker_pids())
            if now and not now & old:
                return
            time.sleep(0.025)
        raise RuntimeError(f"the old workers go on: {self.errors()[-2000:]}")

    def get(self, path: str, *words: str, token: str | None = None) -> Answer:
        """What curl gets; the token goes with the scheme Bearer."""
        if token is not None:
            words = ("-H", f"Authorization: Bearer {token}", *words)
        command = ["curl", "-s", "-S", "-i", "--max-time", "20", *words, f"http://127.0.0.1:{self.port}{path}"]
        return answer_of(subprocess.run(command, capture_output=True).stdout)

    def send(self, octets: bytes, path: pathlib.Path | None = None) -> Answer:
        """What is answered to exactly these octets, at the port or at a socket of that path."""
        with connected(self.port, path) as connection:
            connection.sendall(octets)
            connection.shutdown(socket.SHUT_WR)
            got = b""
            while piece := connection.recv(65536):
                got += piece
        return answer_of(got)


def connected(port: int, path: pathlib.Path | None) -> socket.socket:
    if path is None:
        return socket.create_connection(("127.0.0.1", port), 20)
    connection = socket.socket(socket.AF_UNIX)
    connection.settimeout(20)
    connection.connect(str(path))
    return connection


def resident(pid: int) -> int:
    for line in pathlib.Path(f"/proc/{pid}/status").read_text().splitlines():
        if line.startswith("VmRSS:"):
            return int(line.split()[1])
    return 0


def answer_of(octets: bytes) -> Answer:
    head, _, body = octets.decode("latin-1").partition("\r\n\r\n")
    first, *lines = head.split("\r\n")
    headers: dict[str, str] = {}
    for line in lines:
        name, _, value = line.partition(":")
        name = name.strip().lower()
        # (one that stands twice is seen)
        headers[name] = f"{headers[name]} | {value.strip()}" if name in headers else value.strip()
    words = first.split(" ")
    return Answer(int(words[1]) if len(words) > 1 and words[1].isdigit() else 0, headers, body)


def free_port() -> int:
    with socket.socket() as found:
        found.bind(("127.0.0.1", 0))
        return found.getsockname()[1]


def lacking() -> list[str]:
    """What the tests need and isn't here."""
    names = [it for it in ("nginx", "curl", "openssl", "make", os.environ.get("CC", "cc")) if not shutil.which(it)]
    return names + ([] if pathlib.Path("/usr/share/nginx/src/configure").exists() else ["nginx-dev"])
