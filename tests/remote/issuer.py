"""A server that plays an issuer: key sets and metadata over HTTP and over TLS, as the case wants them."""
import http.server
import json
import pathlib
import ssl
import subprocess
import threading
import time
import warnings

AUTHORITY = """[ca]
default_ca = own
[own]
database = {room}/index
serial = {room}/serial
new_certs_dir = {room}
default_md = sha256
policy = any
copy_extensions = copy
[any]
commonName = supplied
"""


def openssl(room, *words):
    """Runs `openssl` in a folder. It ends well, or this doesn't."""
    subprocess.run(["openssl", *words], cwd=room, check=True, capture_output=True)


def certificates(room):
    """Makes an authority of the test's own, one that nobody asks, and three certificates: one for localhost, one for it that has expired, one of another
    name."""
    room = pathlib.Path(room)
    (room / "config").write_text(AUTHORITY.format(room=room))
    (room / "old").write_text(OLD)
    (room / "old.security").write_text("jdk.tls.disabledAlgorithms=\n")
    (room / "index").write_text("")
    (room / "serial").write_text("01\n")
    openssl(room, "req", "-x509", "-newkey", "rsa:2048", "-nodes", "-keyout", "ca.key", "-out", "ca.pem", "-subj", "/CN=tests", "-days", "2",
            "-addext", "basicConstraints=critical,CA:TRUE", "-addext", "keyUsage=keyCertSign")
    openssl(room, "req", "-x509", "-newkey", "rsa:2048", "-nodes", "-keyout", "stranger.key", "-out", "stranger.pem", "-subj", "/CN=stranger", "-days", "2")
    for name, host, ends in (("good", "localhost", "21001231000000Z"), ("expired", "localhost", "20200102000000Z"), ("other", "elsewhere.example", "21001231000000Z")):
        openssl(room, "req", "-newkey", "rsa:2048", "-nodes", "-keyout", f"{name}.key", "-out", f"{name}.csr", "-subj", f"/CN={name}",
                "-addext", f"subjectAltName=DNS:{host}")
        openssl(room, "ca", "-batch", "-notext", "-config", "config", "-keyfile", "ca.key", "-cert", "ca.pem", "-startdate", "20200101000000Z",
                "-enddate", ends, "-in", f"{name}.csr", "-out", f"{name}.pem")
    return room


# What has programs over OpenSSL speak a TLS that is no longer in use.
OLD = """openssl_conf = any
nodejs_conf = any
[any]
ssl_conf = of_tls
[of_tls]
system_default = system
[system]
MinProtocol = TLSv1
CipherString = DEFAULT@SECLEVEL=0
"""


# Answers that are sent as they stand, by their names: the octets that come first, and those that come again and again then; None ends the connection in
# place of these. KEYS stands for the key set, and SIZE for how many octets it has.
RAW = {
    "switching": (b"HTTP/1.1 101 Switching Protocols\r\nConnection: Upgrade\r\nUpgrade: other\r\n\r\n", b""),
    "switching, and on": (b"HTTP/1.1 101 Switching Protocols\r\nConnection: Upgrade\r\nUpgrade: other\r\n\r\n", b"HTTP/1.1 200 OK\r\n\r\n"),
    "continue": (b"", b"HTTP/1.1 100 Continue\r\n\r\n"),
    "processing": (b"", b"HTTP/1.1 102 Processing\r\n\r\n"),
    "hints": (b"", b"HTTP/1.1 103 Early Hints\r\nLink: </keys>\r\n\r\n"),
    "headers": (b"HTTP/1.1 200 OK\r\n", b"X-More: a\r\n"),
    "a long header": (b"HTTP/1.1 200 OK\r\nX-Long: ", b"a" * 1_024),
    "a long status": (b"HTTP/1.1 200 ", b"a" * 1_024),
    "blank lines": (b"", b"\r\n"),
    "0.9": (b"KEYS", b""),
    "0.9, and on": (b"KEYS", b" "),
    "2.0": (b"HTTP/2.0 200 OK\r\nContent-Length: SIZE\r\n\r\nKEYS", None),
    "two lengths": (b"HTTP/1.1 200 OK\r\nContent-Length: SIZE\r\nContent-Length: 5\r\n\r\nKEYS", None),
    "two lengths, the other way": (b"HTTP/1.1 200 OK\r\nContent-Length: 5\r\nContent-Length: SIZE\r\n\r\nKEYS", None),
    "lengths in a list": (b"HTTP/1.1 200 OK\r\nContent-Length: SIZE, 5\r\n\r\nKEYS", None),
    "a length below 0": (b"HTTP/1.1 200 OK\r\nContent-Length: -1\r\n\r\nKEYS", None),
    "a length that is none": (b"HTTP/1.1 200 OK\r\nContent-Length: SIZEx\r\n\r\nKEYS", None),
    "a length beyond 64 bits": (b"HTTP/1.1 200 OK\r\nContent-Length: 99999999999999999999\r\n\r\nKEYS", None),
    "a length that is too long": (b"HTTP/1.1 200 OK\r\nContent-Length: 99999\r\n\r\nKEYS", b""),
    "a chunk below 0": (b"HTTP/1.1 200 OK\r\nTransfer-Encoding: chunked\r\n\r\n-1\r\nKEYS\r\n0\r\n\r\n", None),
    "silence": (b"", b""),
}


class Handler(http.server.BaseHTTPRequestHandler):
    """Answers as the issuer's mode says."""

    protocol_version = "HTTP/1.1"

    def log_message(self, *_):
        pass

    def do_GET(self):
        issuer = self.server.issuer
        issuer.seen.append(self.path)
        self.close_connection = True
        document = issuer.documents.get(self.path.partition("?")[0])
        if document is None:
            return self.answer(404, b"")
        kind = issuer.mode if self.path.startswith("/keys") else "ok"
        if kind in RAW:
            return self.raw(document, *RAW[kind])
        getattr(self, f"answer_{kind}")(document)

    def raw(self, document, first, again):
        """These octets as they stand, and others again and again then, until who asked goes away; None ends the connection in place of these."""
        self.server.issuer.held += 1
        try:
            self.wfile.write(first.replace(b"KEYS", document).replace(b"SIZE", str(len(document)).encode()))
            while again is not None:
                self.wfile.write(again)
                # (as soon as who asked has gone, nothing is read; a connection that is quiet too long is let go)
                if self.is_gone(0.005 if again else 5):
                    break
        except OSError:
            pass
        self.server.issuer.held -= 1

    def is_gone(self, seconds):
        self.connection.settimeout(seconds)
        try:
            return not self.connection.recv(1)
        except TimeoutError:
            return seconds > 1
        finally:
            self.connection.settimeout(None)

    def answer(self, status, body, kind="application/json", length=None, headers=()):
        self.send_response(status)
        self.send_header("Content-Type", kind)
        self.send_header("Content-Length", str(len(body) if length is None else length))
        self.send_header("Connection", "close")
        for name, value in headers:
            self.send_header(name, value)
        self.end_headers()
        try:
            self.wfile.write(body)
        except OSError:
            pass

    def answer_ok(self, document):
        self.answer(200, document)

    def answer_text(self, document):
        self.answer(200, document, "text/html; charset=latin-1")

    def answer_broken(self, document):
        self.answer(500, document)

    def answer_created(self, document):
        self.answer(201, document)

    def answer_cut(self, document):
        self.answer(200, document[:-9], length=len(document))

    def answer_slow(self, document):
        """Octet by octet, each within any timeout of one read."""
        self.send_response(200)
        self.send_header("Content-Length", str(len(document)))
        self.end_headers()
        self.drip(document)

    def answer_dawdling(self, document):
        """The status, and then a header that never ends."""
        self.wfile.write(b"HTTP/1.1 200 OK\r\nX-Slow: ")
        self.drip(b"a" * 4_096)

    def answer_chunk(self, document):
        """The size of a chunk, in a line that never ends."""
        self.chunked(b"1;slow=")
        self.drip(b"a" * 4_096)

    def answer_trailers(self, document):
        """The whole document, and then a trailer that never ends."""
        self.chunked(b"%x\r\n%b\r\n0\r\nX-Slow: " % (len(document), document))
        self.drip(b"a" * 4_096)

    def answer_trailer_lines(self, document):
        """The whole document, and then trailers without an end, each of them whole."""
        self.chunked(b"%x\r\n%b\r\n0\r\n" % (len(document), document))
        self.raw(b"", b"", b"X-More: a\r\n")

    def chunked(self, begun):
        self.send_response(200)
        self.send_header("Transfer-Encoding", "chunked")
        self.end_headers()
        self.wfile.write(begun)

    def drip(self, octets):
        self.server.issuer.held += 1
        try:
            for at in range(len(octets)):
                self.wfile.write(octets[at : at + 1])
                self.wfile.flush()
                time.sleep(0.05)
        except OSError:
            pass
        self.server.issuer.held -= 1

    def answer_away(self, document):
        """A redirection to another origin, where the same keys stand."""
        self.redirect(self.server.issuer.elsewhere())

    def answer_near(self, document):
        """A redirection within the origin."""
        self.redirect("/new")

    def answer_flooding(self, document):
        """A redirection within the origin, beside which octets come without an end."""
        self.send_response(302)
        self.send_header("Location", "/new")
        self.end_headers()
        try:
            while True:
                self.wfile.write(bytes(65_536))
        except OSError:
            pass

    def answer_loop(self, document):
        self.redirect("/keys")

    def answer_hops(self, document):
        """So many redirections within the origin, each to another place, as the issuer is told, and then the keys."""
        hop = int(self.path.partition("?")[2] or 0)
        if hop == self.server.issuer.hops:
            return self.answer_ok(document)
        self.redirect(f"/keys?{hop + 1}")

    def answer_located(self, document):
        """A redirection as it is told, and the keys where a query came with the question."""
        if "?" in self.path:
            return self.answer_ok(document)
        status, location = self.server.issuer.located
        self.answer(status, b"", headers=[] if location is None else [("Location", location)])

    def redirect(self, place):
        self.answer(302, b"", headers=[("Location", place)])


class Server(http.server.ThreadingHTTPServer):
    daemon_threads = True
    request_queue_size = 128

    def handle_error(self, request, client_address):
        """(a client that went away)"""


def as_old(context):
    """Has a side of TLS speak 1.1 and 1.0 alone."""
    with warnings.catch_warnings():
        warnings.simplefilter("ignore", DeprecationWarning)
        context.minimum_version, context.maximum_version = ssl.TLSVersion.TLSv1, ssl.TLSVersion.TLSv1_1
    context.set_ciphers("DEFAULT@SECLEVEL=0")
    return context


class Issuer:
    """The issuer: over HTTP, over TLS with each of the three certificates, and over a TLS that is no longer in use (RFC 8996)."""

    def __init__(self, room):
        self.mode, self.hops, self.held, self.documents, self.seen = "ok", 0, 0, {}, []
        self.located = 302, "/new"
        self.plain = self.served(None)
        self.good, self.expired, self.other = (self.served(self.context(room, it)) for it in ("good", "expired", "other"))
        self.old = self.served(as_old(self.context(room, "good")))

    def context(self, room, name):
        context = ssl.SSLContext(ssl.PROTOCOL_TLS_SERVER)
        context.load_cert_chain(room / f"{name}.pem", room / f"{name}.key")
        return context

    def served(self, context):
        """Starts a server on the loopback, and gives its origin."""
        server = Server(("127.0.0.1", 0), Handler)
        server.issuer = self
        if context is not None:
            server.socket = context.wrap_socket(server.socket, server_side=True, do_handshake_on_connect=False)
        threading.Thread(target=server.serve_forever, daemon=True).start()
        return f"{'http' if context is None else 'https'}://localhost:{server.server_port}"

    def elsewhere(self):
        """Where a redirection to another origin leads: the loopback by its number, with the same keys."""
        return f"{self.plain.replace('localhost', '127.0.0.1')}/new"

    def keys(self, *sets, mode="ok"):
        """Serves these keys in this mode from now on."""
        self.mode = mode
        document = json.dumps({"keys": [key for keys in sets for key in keys]}).encode()
        self.documents = {**self.documents, "/keys": document, "/new": document}

    def octets(self, octets, mode="ok"):
        """Serves these octets in place of a key set."""
        self.mode = mode
        self.documents = {**self.documents, "/keys": octets, "/new": octets}

    def fetches(self):
        """How often keys were asked for."""
        return self.seen.count("/keys")
