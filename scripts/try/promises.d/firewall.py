"""The firewall's two samples, loaded in a network of its own, and asked by callers of several users and addresses. By hand.

Started as a program, it is what runs in that network, as root.
"""

from __future__ import annotations

import contextlib
import json
import os
import pwd
import socket
import struct
import sys

from asking import DEPLOY, Check, Checks, Missing, program, run, same

# Of each port who may connect, of these users.
USERS = ("root", "haproxy", "www-data", "nobody")
REACH = {21010: ["root", "haproxy"], 21020: ["root", "haproxy"], 21011: ["root", "www-data"], 21021: ["root", "www-data"], 443: list(USERS), 80: list(USERS)}
# Two addresses of one network of IPv6, and one of another.
NEAR, FAR = ("2001:db8:1::1", "2001:db8:1::2"), "2001:db8:2::1"


def open_one(port: int, source: str) -> socket.socket | None:
    """A connection from an address of loopback to itself; none if it is refused."""
    family = socket.AF_INET6 if ":" in source else socket.AF_INET
    it = socket.socket(family)
    try:
        it.settimeout(2)
        it.bind((source, 0))
        it.connect((source, port))
        # A reset may follow the handshake.
        it.settimeout(0.001)
        with contextlib.suppress(TimeoutError):
            it.recv(1)
    except OSError:
        it.close()
        return None
    return it


def taken(port: int, sources: list[str]) -> int:
    """How many connections at once these addresses get, one after another."""
    sockets = [it for source in sources if (it := open_one(port, source)) is not None]
    for it in sockets:
        it.close()
    return len(sockets)


def came(source: str, count: int) -> int:
    """How many of so many new connections are taken, of which each ends, by a reset, before the next."""
    taken = 0
    for _ in range(count):
        with socket.socket() as it, contextlib.suppress(OSError):
            it.setsockopt(socket.SOL_SOCKET, socket.SO_LINGER, struct.pack("ii", 1, 0))
            it.bind((source, 0))
            it.connect((source, 443))
            taken += 1
    return taken


def as_user(name: str, port: int) -> bool:
    """Whether a process of this user gets a connection."""
    child = os.fork()
    if child == 0:
        os.setgroups([])
        os.setgid(pwd.getpwnam(name).pw_gid)
        os.setuid(pwd.getpwnam(name).pw_uid)
        os._exit(0 if open_one(port, "127.0.0.1") else 1)
    return os.waitpid(child, 0)[1] == 0


def inside() -> dict[str, object]:
    """Loads the samples and asks."""
    for words in (("link", "set", "lo", "up"), *(("-6", "addr", "add", f"{it}/64", "dev", "lo", "nodad") for it in (*NEAR, FAR))):
        run("ip", *words, check=True)
    for name in ("iodef-hub.nft", "iodef-hub-callers.nft"):
        for _ in range(2):
            run(program("nft", "nftables"), "-f", DEPLOY / "nftables" / name, check=True)
    listeners = [socket.create_server(("::", port), family=socket.AF_INET6, dualstack_ipv6=True, backlog=500) for port in REACH]
    told: dict[str, object] = {str(port): [user for user in USERS if as_user(user, port)] for port in REACH}
    told["of one address"] = taken(443, ["127.0.1.1"] * 70)
    told["of a network"] = taken(443, [NEAR[at % 2] for at in range(70)])
    told["of another"] = taken(443, [FAR])
    told["new ones"] = came("127.0.1.2", 250)
    for name, source in (("shut_out", "127.0.1.3"), ("shut_out6", FAR)):
        run("nft", "add", "element", "inet", "iodef_hub", name, f"{{ {source} }}", check=True)
        told[name] = taken(443, [source])
    told["beside"] = taken(443, ["127.0.1.4"])
    for each in listeners:
        each.close()
    return told


def reached() -> Checks:
    program("nft", "nftables"), program("ip", "iproute2")
    for user in USERS:
        try:
            pwd.getpwnam(user)
        except KeyError as fault:
            raise Missing(f"there is no user {user}, whom nginx and haproxy bring") from fault
    ran = run("unshare", "--net", sys.executable, "-B", __file__)
    if ran.returncode:
        raise Missing(f"no network of its own can be had here, or no firewall in it: {ran.stderr.strip()[-200:]}")
    told = json.loads(ran.stdout)
    for port, users in REACH.items():
        yield same(f"port {port} is reached by {', '.join(users)}", users, told[str(port)])
    yield same("one address has 60 connections", 60, told["of one address"])
    yield same("so has a network of IPv6, of several addresses", 60, told["of a network"])
    yield same("beside which another network has its own", 1, told["of another"])
    # 20 are let in with each second that it takes.
    yield Check("of 250 new connections of one address 200 to 240 are taken", "" if 200 <= told["new ones"] <= 240 else f"{told['new ones']} are")
    yield same("who is shut out has none", [0, 0], [told["shut_out"], told["shut_out6"]])
    yield same("others have", 1, told["beside"])


if __name__ == "__main__":
    print(json.dumps(inside()))
