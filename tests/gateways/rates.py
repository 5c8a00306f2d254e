"""Requests a second through each gateway of docs/GATEWAYS.md, and what they take of a processor, beside the same gateway that asks nobody.

The application is an nginx with a page of 1 KiB. One token goes with each request, over 32 connections that are kept open, by wrk; what asks and
what doesn't are measured in turns, and the best of the rounds counts. The processor time is that of the gateway's processes with the endpoint's.
"""
import os
import pathlib
import re
import subprocess
import time
from typing import Callable, NamedTuple

import server

# What each gateway's configuration has beside it that asks nobody, by the file that it stands in.
OFF = {
    "nginx": (
        "etc/nginx/conf.d/off.conf",
        "server {{ listen 127.0.0.1:{port}; keepalive_requests 10000; location / {{ proxy_pass http://application; proxy_set_header Authorization ''; }} }}",
    ),
    "caddy": ("etc/caddy/Caddyfile", "http://:{port} {{\n\tbind 127.0.0.1\n\treverse_proxy 127.0.0.1:{application}\n}}"),
    "haproxy": ("etc/haproxy/haproxy.cfg", "frontend off\n    bind 127.0.0.1:{port}\n    default_backend application"),
    "apache2": (
        "etc/apache2/sites-available/shop.conf",
        "Listen 127.0.0.1:{port}\n<VirtualHost 127.0.0.1:{port}>\n    MaxKeepAliveRequests 10000\n    ProxyPass / http://127.0.0.1:{application}/\n</VirtualHost>",
    ),
}
APPLICATION = """
worker_processes 1;
daemon off;
pid {room}/application.pid;
error_log {room}/application.log warn;
events {{ worker_connections 2048; }}
http {{
    access_log off;
    keepalive_requests 1000000;
    {temporary}
    server {{ listen 127.0.0.1:{port} backlog=4096; return 200 "{page}"; }}
}}
"""


# The module in the gateway's own nginx, which asks nobody either.
OWN = (
    "etc/nginx/conf.d/own.conf",
    "server {{ listen 127.0.0.1:{port}; keepalive_requests 10000; jwt_policy {room}/etc/fowharimu/policy.json; jwt_keys {room}/etc/fowharimu/keys.json; "
    "location / {{ jwt on; proxy_pass http://application; proxy_set_header Authorization ''; proxy_set_header X-User $jwt_claim_sub; }} }}",
)


class Site(NamedTuple):
    """What is measured: a port that judges and one that doesn't, and the numbers of all processes that take part."""

    name: str
    port: int
    off: int
    processes: Callable[[], list[int]]


class Rate(NamedTuple):
    """Requests a second by the clock, and microseconds of a processor for each."""

    requests: float
    cost: float


def application(room: pathlib.Path, port: int) -> subprocess.Popen:
    """Starts the application."""
    (room / "temp").mkdir()
    temporary = " ".join(f"{it}_temp_path {room}/temp/{it};" for it in server.TEMPORARY)
    (room / "application.conf").write_text(APPLICATION.format(room=room, port=port, temporary=temporary, page="x" * 1024))
    return subprocess.Popen(["nginx", "-p", str(room), "-c", f"{room}/application.conf", "-e", f"{room}/application.log"])


def tree(pid: int) -> list[int]:
    """A process and those below it."""
    found = [pid]
    for path in pathlib.Path(f"/proc/{pid}/task").glob("*/children"):
        for child in path.read_text().split():
            found += tree(int(child))
    return found


def processor_time(pids: list[int]) -> float:
    """What these processes have taken, in seconds."""
    total = 0
    for pid in pids:
        for path in pathlib.Path(f"/proc/{pid}/task").glob("*/schedstat"):
            try:
                total += int(path.read_text().split()[0])
            except OSError:
                pass
    return total / 1e9


def measured(port: int, token: bytes, pids: list[int], seconds: int) -> Rate:
    """What wrk measures at a port."""
    command = ["wrk", "-t2", "-c32", f"-d{seconds}s", "-H", f"Authorization: Bearer {token.decode()}", f"http://127.0.0.1:{port}/"]
    before = processor_time(pids)
    said = subprocess.run(command, capture_output=True, text=True).stdout
    taken = processor_time(pids) - before
    if "Non-2xx" in said or "requests in" not in said:
        raise RuntimeError(f"port {port}: {said}")
    count = int(re.search(r"(\d+) requests in", said)[1])
    return Rate(float(re.search(r"Requests/sec:\s*([\d.]+)", said)[1]), taken / count * 1e6)


def run(sites: list[Site], tokens: dict[str, bytes], change: Callable[[str], None], rounds: int = 3, seconds: int = 3) -> None:
    """Prints the rates of these sites by each algorithm; `change` has those that judge take its keys."""
    found: dict[tuple[str, str], list[Rate]] = {}
    for alg, token in tokens.items():
        change(alg)
        for _ in range(rounds):
            for it in sites:
                for what, port in (("off", it.off), (alg, it.port)):
                    found.setdefault((it.name, what), []).append(measured(port, token, it.processes(), seconds))
        print(f"gateways, load: {alg} done, {time.strftime('%H:%M')}, the machine's load {os.getloadavg()[0]:.1f} on {os.cpu_count()} processors", flush=True)
    for it in sites:
        off = max(found[it.name, "off"]).requests
        for what in ("off", *tokens):
            rates = found[it.name, what]
            best, cost = max(rates).requests, min(rate.cost for rate in rates)
            print(f"gateways, load: {it.name}, {what}: {best:,.0f} requests a second, {cost:.0f} us of a processor each, {best / off:.0%} of off")
