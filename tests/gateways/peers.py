"""What HAProxy and Apache do of the same requests by themselves: jwt_verify as strict as HAProxy's language lets one be, and mod_auth_openidc as a
resource server. It is printed, and nothing of it is a test of this repository's."""
import os
import pathlib
import secrets
import shutil
import signal
import socket
import subprocess
import time
from typing import Callable

import hostile
import server

HAPROXY = """
global
    maxconn 4000
    tune.bufsize 65536
defaults
    mode http
    timeout connect 5s
    timeout client 60s
    timeout server 60s
"""
FRONTEND = """
frontend {alg}
    bind 127.0.0.1:{port}
    http-request deny deny_status 400 unless {{ req.hdr_cnt(authorization) eq 1 }}
    http-request set-var(txn.bearer) http_auth_bearer
    http-request set-var(txn.now) date()
    http-request deny deny_status 401 unless {{ var(txn.bearer),jwt_header_query('$.alg') -m str {alg} }}
    http-request deny deny_status 401 if {{ var(txn.bearer),jwt_header_query('$.crit') -m found }}
    http-request deny deny_status 401 unless {{ var(txn.bearer),jwt_verify("{alg}","{key}") 1 }}
    http-request deny deny_status 401 unless {{ var(txn.bearer),jwt_payload_query('$.iss') -m str {issuer} }}
    http-request deny deny_status 401 unless {{ var(txn.bearer),jwt_payload_query('$.aud') -m str {audience} }}
    http-request deny deny_status 401 unless {{ var(txn.bearer),jwt_payload_query('$.exp','int'),sub(txn.now) -m int gt 0 }}
    http-request set-var(txn.nbf) var(txn.bearer),jwt_payload_query('$.nbf','int')
    http-request deny deny_status 401 if {{ var(txn.nbf) -m found }} {{ var(txn.nbf),sub(txn.now) -m int gt 0 }}
    http-request return status 200 content-type text/plain string "{mark}"
"""
MODULES = ("mpm_event", "authn_core", "authz_core", "authz_user", "auth_openidc", "dir")
APACHE = """
{modules}
{user}
DefaultRuntimeDir {room}
PidFile {room}/apache.pid
ServerName localhost
LimitRequestFieldSize 65536
ErrorLog {room}/apache.log
DocumentRoot {room}/html
DirectoryIndex page
"""
HOST = """
Listen 127.0.0.1:{port}
<VirtualHost 127.0.0.1:{port}>
    OIDCCryptoPassphrase x
    {key}
    <Location />
        AuthType oauth20
        <RequireAll>
            Require claim iss:{issuer}
            Require claim aud:{audience}
        </RequireAll>
    </Location>
</VirtualHost>
"""


class Peers:
    """The two peers in a folder, with a key for each algorithm."""

    def __init__(self, room: pathlib.Path) -> None:
        self.room = room
        self.secret = secrets.token_hex(32)
        self.by = {"HS256": hostile.Signer("h", self.secret.encode()), "RS256": hostile.Signer("r", None)}
        (room / "html").mkdir(parents=True)
        (room / "html/page").write_bytes(hostile.MARK)
        (room / "rsa.pem").write_bytes(hostile.rsa_pem())
        openssl = lambda *words: subprocess.run(["openssl", *words], check=True, capture_output=True)
        openssl("genrsa", "-out", f"{room}/other.pem", "2048")
        openssl("x509", "-new", "-subj", "/CN=r", "-force_pubkey", f"{room}/rsa.pem", "-key", f"{room}/other.pem", "-out", f"{room}/rsa.crt")

    def haproxy(self, ports: dict[str, int]) -> list[str]:
        """The command that starts HAProxy."""
        keys = {"HS256": self.secret, "RS256": f"{self.room}/rsa.pem"}
        words = {"issuer": hostile.ISSUER, "audience": hostile.AUDIENCE, "mark": hostile.MARK.decode()}
        (self.room / "haproxy.cfg").write_text(HAPROXY + "".join(FRONTEND.format(alg=it, port=ports[it], key=keys[it], **words) for it in ports))
        return ["haproxy", "-db", "-f", f"{self.room}/haproxy.cfg"]

    def apache(self, ports: dict[str, int]) -> list[str]:
        """The command that starts Apache."""
        keys = {"HS256": f"OIDCOAuthVerifySharedKeys plain#h#{self.secret}", "RS256": f"OIDCOAuthVerifyCertFiles r#{self.room}/rsa.crt"}
        modules = "\n".join(f"LoadModule {it}_module /usr/lib/apache2/modules/mod_{it}.so" for it in MODULES)
        user = "User www-data\nGroup www-data" if os.geteuid() == 0 else ""
        hosts = "".join(HOST.format(port=ports[it], key=keys[it], issuer=hostile.ISSUER, audience=hostile.AUDIENCE) for it in ports)
        (self.room / "apache.conf").write_text(APACHE.format(room=self.room, modules=modules, user=user) + hosts)
        return ["apache2", "-d", str(self.room), "-f", f"{self.room}/apache.conf", "-DFOREGROUND"]

    def show(self, name: str, command: Callable[[dict[str, int]], list[str]]) -> None:
        """Starts a peer, and prints which hostile requests it lets through, and which good ones it refuses."""
        ports = {it: server.free_port() for it in self.by}
        process = subprocess.Popen(command(ports), stdout=subprocess.DEVNULL, stderr=subprocess.DEVNULL)
        try:
            wait_for(list(ports.values()))
            for alg, by in self.by.items():
                through, refused = [], []
                for case in hostile.cases(by):
                    status, got = hostile.ask(ports[alg], case.lines)
                    passed = status == 200 and hostile.MARK in got
                    through += [case.name] * (passed and case.through is False)
                    refused += [case.name] * (not passed and case.through is True)
                print(f"gateways, {name}, {alg}: lets {len(through)} hostile requests through: {'; '.join(through)}")
                print(f"gateways, {name}, {alg}: refuses {len(refused)} good ones: {'; '.join(refused)}")
        finally:
            process.send_signal(signal.SIGTERM)
            process.wait(20)


def wait_for(ports: list[int]) -> None:
    """Waits until somebody listens at each port."""
    for port in ports:
        for _ in range(100):
            try:
                socket.create_connection(("127.0.0.1", port), 1).close()
                break
            except OSError:
                time.sleep(0.05)


def show(room: pathlib.Path) -> None:
    """Prints what the peers that are installed do."""
    peers = Peers(room)
    module = pathlib.Path("/usr/lib/apache2/modules/mod_auth_openidc.so")
    for name, command, is_here, package in (
        ("HAProxy by jwt_verify", peers.haproxy, bool(shutil.which("haproxy")), "haproxy"),
        ("Apache by mod_auth_openidc", peers.apache, bool(shutil.which("apache2")) and module.exists(), "libapache2-mod-auth-openidc"),
    ):
        if is_here:
            peers.show(name, command)
        else:
            print(f"gateways: {name} isn't shown, since the Debian package {package} isn't here")
