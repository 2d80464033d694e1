"""HTTP/2 by hand: requests of which some are left at once, which no ordinary client sends."""

from __future__ import annotations

import contextlib
import socket
import ssl
import struct

from proxies import NAME, Proxies

PREFACE = b"PRI * HTTP/2.0\r\n\r\nSM\r\n\r\n"
DATA, HEADERS, RST_STREAM, SETTINGS, PING, GOAWAY = 0, 1, 3, 4, 6, 7
END_STREAM, END_HEADERS, ACK = 1, 4, 1
CANCEL = 8


def frame(kind: int, flags: int, stream: int, payload: bytes = b"") -> bytes:
    return struct.pack(">I", len(payload))[1:] + bytes([kind, flags]) + struct.pack(">I", stream) + payload


def number(value: int, prefix: int, first: int) -> bytes:
    """An integer of HPACK (RFC 7541, 5.1)."""
    most = (1 << prefix) - 1
    if value < most:
        return bytes([first | value])
    told, value = bytearray([first | most]), value - most
    while value >= 128:
        told.append(value % 128 + 128)
        value //= 128
    return bytes([*told, value])


def field(index: int, value: str) -> bytes:
    """A field of HPACK's static table, literal and without an index of its own."""
    text = value.encode()
    return number(index, 4, 0) + number(len(text), 7, 0) + text


def head(key: str, target: str) -> bytes:
    """A GET: `:method GET` is 2 of the static table, `:scheme https` 7, `:authority` 1, `:path` 4, `authorization` 23."""
    return b"\x82\x87" + field(1, NAME) + field(4, target) + field(23, f"Bearer {key}")


class Streams:
    """A connection by HTTP/2 of an address."""

    def __init__(self, proxies: Proxies, source: str) -> None:
        context = ssl.create_default_context(cafile=str(proxies.authority))
        context.set_alpn_protocols(["h2"])
        raw = socket.create_connection(("127.0.0.1", proxies.port), timeout=30, source_address=(source, 0))
        self.peer = context.wrap_socket(raw, server_hostname=NAME)
        self.next = 1
        self.statuses = 0
        # Windows as large as they may be, so that no answer waits.
        self.peer.sendall(PREFACE + frame(SETTINGS, 0, 0, struct.pack(">HI", 4, 0x7FFFFFFF)) + frame(8, 0, 0, struct.pack(">I", 0x7FFF0000)))

    def send(self, key: str, targets: list[str], leaves: bool) -> None:
        """A stream for each target, each of which is reset at once if `leaves`."""
        told = b""
        for target in targets:
            told += frame(HEADERS, END_HEADERS | END_STREAM, self.next, head(key, target))
            if leaves:
                told += frame(RST_STREAM, 0, self.next, struct.pack(">I", CANCEL))
            self.next += 2
        self.peer.sendall(told)

    def ended(self, streams: int) -> int:
        """Reads until so many streams have ended or the connection has. Returns how many have."""
        got, count = b"", 0
        with contextlib.suppress(OSError):
            while count < streams and (piece := self.peer.recv(1 << 16)):
                got += piece
                while len(got) >= 9 and len(got) >= 9 + (length := int.from_bytes(got[:3], "big")):
                    kind, flags = got[3], got[4]
                    count += kind == RST_STREAM or (kind in (DATA, HEADERS) and bool(flags & END_STREAM))
                    if kind == SETTINGS and not flags & ACK:
                        self.peer.sendall(frame(SETTINGS, ACK, 0))
                    got = got[9 + length:]
        return count

    def close(self) -> None:
        with contextlib.suppress(OSError):
            self.peer.close()
