"""Applications behind a gateway, that tell the headers as their own platform reads them.

CGI (RFC 3875, section 4.1.18) and WSGI read a header's name in capitals with `_` for `-`, PHP with `_` for a dot too. The first one here folds names so
by itself; PHP's own server and gunicorn are real ones, where they are installed.
"""
import contextlib
import http.client
import http.server
import json
import pathlib
import shutil
import socket
import subprocess
import threading
import time
from typing import Iterator, NamedTuple

import hostile

PHP = f"""<?php
$found = array_filter($_SERVER, fn($name) => str_starts_with($name, "HTTP_"), ARRAY_FILTER_USE_KEY);
echo "{hostile.MARK.decode()}\\n" . json_encode($found, JSON_INVALID_UTF8_SUBSTITUTE);
"""
WSGI = f"""import json
def app(environ, start_response):
    found = {{name: value for name, value in environ.items() if name.startswith("HTTP_")}}
    body = {hostile.MARK!r} + b"\\n" + json.dumps(found).encode()
    start_response("200 OK", [("Content-Length", str(len(body)))])
    return [body]
"""


class Kind(NamedTuple):
    """A platform: its program, if it is one, and the file and the command by which it serves at a port."""

    name: str
    program: str
    file: str
    text: str
    command: list[str]


KINDS = [
    Kind("an application that folds names", "", "", "", []),
    Kind("PHP's own server", "php", "index.php", PHP, ["php", "-S", "127.0.0.1:{port}", "{room}/index.php"]),
    Kind("gunicorn", "gunicorn", "application.py", WSGI, ["gunicorn", "--bind", "127.0.0.1:{port}", "--chdir", "{room}", "--threads", "4", "application:app"]),
]


class Folding(http.server.BaseHTTPRequestHandler):
    """Answers by the headers as CGI has them, those of one name joined by commas.

    What stands behind the last chunk is a header too, as to PHP's own server; and it takes each other protocol that is offered, as servers take h2c.
    """

    protocol_version = "HTTP/1.1"

    def fields(self) -> list[tuple[str, str]]:
        """The headers, and the trailers of a body in chunks behind them."""
        found = list(self.headers.items())
        if "chunked" not in self.headers.get("Transfer-Encoding", "").lower():
            self.rfile.read(int(self.headers.get("Content-Length") or 0))
            return found
        while size := int(self.rfile.readline().partition(b";")[0], 16):
            self.rfile.read(size + 2)
        return found + list(http.client.parse_headers(self.rfile).items())

    def do_GET(self) -> None:
        found: dict[str, str] = {}
        if "Upgrade" in self.headers:
            self.send_response(101)
            self.send_header("Connection", "Upgrade")
            self.send_header("Upgrade", self.headers["Upgrade"])
            self.end_headers()
            self.close_connection = True
            return
        for name, value in self.fields():
            folded = "HTTP_" + name.upper().replace("-", "_").replace(".", "_")
            found[folded] = f"{found[folded]},{value}" if folded in found else value
        body = hostile.MARK + b"\n" + json.dumps(found).encode()
        self.send_response(200)
        self.send_header("Content-Length", str(len(body)))
        self.end_headers()
        self.wfile.write(body)

    # (a server in Go hands CONNECT to its handler, as any other method)
    do_POST = do_CONNECT = do_GET

    def log_message(self, *_: object) -> None:
        pass


class Server(http.server.ThreadingHTTPServer):
    """A server that says nothing of a client which has gone, and that closes all connections with itself: a gateway keeps some."""

    daemon_threads = allow_reuse_address = True
    request_queue_size = 64

    def __init__(self, *words: object) -> None:
        self.connections: set[socket.socket] = set()
        super().__init__(*words)

    def process_request(self, request: socket.socket, address: object) -> None:
        self.connections.add(request)
        super().process_request(request, address)

    def shutdown_request(self, request: socket.socket) -> None:
        self.connections.discard(request)
        super().shutdown_request(request)

    def server_close(self) -> None:
        super().server_close()
        for it in list(self.connections):
            with contextlib.suppress(OSError):
                it.shutdown(socket.SHUT_RDWR)

    def handle_error(self, *_: object) -> None:
        pass


@contextlib.contextmanager
def serving(kind: Kind, room: pathlib.Path, port: int) -> Iterator[None]:
    """That application at the port."""
    if not kind.program:
        server = Server(("127.0.0.1", port), Folding)
        threading.Thread(target=server.serve_forever, args=(0.05,), daemon=True).start()
        try:
            yield
        finally:
            server.shutdown()
            server.server_close()
        return
    room.mkdir(exist_ok=True)
    (room / kind.file).write_text(kind.text)
    command = [it.format(port=port, room=room) for it in kind.command]
    process = subprocess.Popen(command, stdout=subprocess.DEVNULL, stderr=subprocess.DEVNULL)
    try:
        for _ in range(200):
            with contextlib.suppress(OSError), socket.create_connection(("127.0.0.1", port), 1):
                break
            time.sleep(0.05)
        yield
    finally:
        process.terminate()
        process.wait(20)


def present() -> list[Kind]:
    """Those that are installed; the others are named."""
    for it in KINDS:
        if it.program and not shutil.which(it.program):
            print(f"gateways: {it.name} isn't asked, since it isn't installed")
    return [it for it in KINDS if not it.program or shutil.which(it.program)]


class Spelled(NamedTuple):
    """Header lines beside a good token; whether the request has to pass, or may be refused too."""

    name: str
    must_pass: bool
    lines: bytes


# In each the client claims to be admin. X-User: eve goes with all of them.
SPELLED = [
    Spelled("nothing more", True, b""),
    Spelled("X-User", True, b"X-User: admin\r\nX-Scope: admin\r\nX-Jwt-Payload: e30\r\n"),
    Spelled("small letters", True, b"x-user: admin\r\nx-scope: admin\r\n"),
    Spelled("capitals", True, b"X-USER: admin\r\nX-SCOPE: admin\r\n"),
    Spelled("X_User", False, b"X_User: admin\r\nX_Scope: admin\r\n"),
    Spelled("x_user", False, b"x_user: admin\r\nx_scope: admin\r\n"),
    Spelled("X_USER", False, b"X_USER: admin\r\nX_SCOPE: admin\r\n"),
    Spelled("X.User", False, b"X.User: admin\r\nX.Scope: admin\r\n"),
    Spelled("X_User before and behind", False, b"X_User: admin\r\nX-User: admin\r\nX_User: admin\r\n"),
    Spelled("X_Jwt_Payload", False, b"X_Jwt_Payload: e30\r\n"),
    Spelled("X-Jwt_Payload", False, b"X-Jwt_Payload: e30\r\n"),
    Spelled("X_User alone, with nothing in it", False, b"X_User:\r\n"),
    Spelled("X_User, and behind it another one with nothing in it", False, b"X_User: admin\r\nX_Scope:\r\n"),
    Spelled("X.User, and behind it another one with nothing in it", False, b"X.User: admin\r\nX_User:\r\nX.Scope:\r\n"),
    Spelled("X_Jwt-Payload, and behind it another one with nothing in it", False, b"X_Jwt-Payload: e30\r\nX-Jwt_Payload:\r\n"),
    Spelled("Connection: X-User", True, b"Connection: X-User, X-Scope\r\n"),
    Spelled("Connection: close, X-User", True, b"Connection: close, X-User, X-Scope, X-Jwt-Payload\r\n"),
    Spelled("Connection: x-user, and X_User", False, b"Connection: keep-alive, x-user, x-scope\r\nX_User: admin\r\nX_Scope: admin\r\n"),
    Spelled("Connection: Authorization", False, b"Connection: Authorization\r\n"),
    # (behind 101 the application would hear the client alone)
    Spelled("Upgrade: h2c", False, b"Connection: Upgrade, HTTP2-Settings\r\nUpgrade: h2c\r\nHTTP2-Settings: AAMAAABkAARAAAAAAAIAAAAA\r\n"),
    Spelled("Upgrade: websocket, h2c", False, b"Connection: Upgrade\r\nUpgrade: websocket, h2c\r\n"),
    Spelled("a space behind the name", False, b"X-User : admin\r\n"),
    Spelled("a line that goes on", False, b"X-Other: a\r\n X-User: admin\r\n"),
]


def read(got: bytes) -> dict[str, str]:
    """The headers that the application told."""
    text = got.partition(hostile.MARK + b"\n")[2].decode("utf-8", "replace")
    # (behind it may stand what ends a body in chunks)
    return json.JSONDecoder().raw_decode(text)[0] if text else {}
