"""HTTP for the service: one request a connection, with limits of bytes, time and connections. nginx is in front, with TLS."""
from __future__ import annotations

import re
import socket
import socketserver
import threading
import time

from .serving import Answer, Refusal, Request, Service, log, refusal_of

LONGEST_HEAD, MOST_FIELDS = 8192, 64
HEAD_SECONDS, SEND_SECONDS = 15.0, 60.0
MOST_CONNECTIONS = 32
REASONS = {
    200: "OK", 400: "Bad Request", 401: "Unauthorized", 404: "Not Found", 405: "Method Not Allowed", 406: "Not Acceptable",
    408: "Request Timeout", 414: "URI Too Long", 431: "Request Header Fields Too Large", 500: "Internal Server Error",
    503: "Service Unavailable",
}
METHODS = ("GET", "HEAD", "POST", "PUT", "DELETE")  # that are logged by their names
LINE = re.compile(r"([A-Z]{1,16}) (/[!-~]*) HTTP/1\.[01]")
FIELD = re.compile(r"([!#$%&'*+.^_`|~0-9A-Za-z-]+):[ \t]*([ -~\t]*?)[ \t]*")
ONCE = {"authorization", "accept", "host", "content-length"}  # fields that aren't lists, or of which two would be a guess


def read_head(connection: socket.socket) -> bytes:
    """The bytes up to the empty line. A caller who sends them slowly has no more time than one who doesn't."""
    end = time.monotonic() + HEAD_SECONDS
    head = b""
    while b"\r\n\r\n" not in head:
        if len(head) > LONGEST_HEAD:
            raise Refusal(431, "HeadTooLong", f"a head has at most {LONGEST_HEAD} bytes")
        left = end - time.monotonic()
        if left <= 0:
            raise Refusal(408, "TooSlow", "the request came too slowly")
        connection.settimeout(left)
        try:
            more = connection.recv(4096)
        except TimeoutError:
            raise Refusal(408, "TooSlow", "the request came too slowly") from None
        if not more:
            raise ConnectionError("the caller left")
        head += more
    whole = head.partition(b"\r\n\r\n")[0]
    if len(whole) > LONGEST_HEAD:
        raise Refusal(431, "HeadTooLong", f"a head has at most {LONGEST_HEAD} bytes")
    return whole


def request_of(head: bytes) -> Request:
    """The request of a head."""
    bad = Refusal(400, "BadHead", "the head isn't one of HTTP/1.1")
    try:
        line, *rest = head.decode("ascii").split("\r\n")
    except UnicodeDecodeError:
        raise bad from None
    told = LINE.fullmatch(line)
    if told is None:
        raise bad
    if len(rest) > MOST_FIELDS:
        raise Refusal(431, "HeadTooLong", f"a head has at most {MOST_FIELDS} fields")
    fields: dict[str, str] = {}
    for each in rest:
        found = FIELD.fullmatch(each)
        if found is None or found[1].lower() in ONCE and found[1].lower() in fields:
            raise bad
        fields[found[1].lower()] = found[2]
    if "transfer-encoding" in fields or fields.get("content-length", "0") != "0" and told[1] in ("GET", "HEAD"):
        raise Refusal(400, "HasBody", "a request for reading has no body")
    path, _, query = told[2].partition("?")
    return Request(told[1], path, query, fields)


def place_of(fault: BaseException) -> str:
    """Where a fault is from, without its text."""
    at = fault.__traceback__
    while at is not None and at.tb_next is not None:
        at = at.tb_next
    where = f"{at.tb_frame.f_code.co_name}:{at.tb_lineno}" if at else "-"
    return f"{type(fault).__name__} at {where}"


class Server(socketserver.ThreadingMixIn, socketserver.TCPServer):
    allow_reuse_address = True
    daemon_threads = True
    request_queue_size = 64

    def __init__(self, port: int, service: Service) -> None:
        self.service, self._room = service, threading.BoundedSemaphore(MOST_CONNECTIONS)
        super().__init__(("127.0.0.1", port), socketserver.BaseRequestHandler)

    def process_request(self, request: socket.socket | tuple[bytes, socket.socket], client_address: object) -> None:
        """A thread for each connection, of which there are so many at most; one more is turned away at once."""
        assert isinstance(request, socket.socket)
        if self._room.acquire(blocking=False):
            super().process_request(request, client_address)
        else:
            answer = refusal_of(Refusal(503, "TooMany", "too many requests at once", {"Retry-After": "10"}))
            request.settimeout(0.2)
            self._send(request, answer, False)
            self.shutdown_request(request)

    def process_request_thread(self, request: socket.socket | tuple[bytes, socket.socket], client_address: object) -> None:
        assert isinstance(request, socket.socket)
        try:
            self._serve(request)
        finally:
            self.shutdown_request(request)
            self._room.release()

    def _serve(self, connection: socket.socket) -> None:
        began, method = time.monotonic(), "-"
        try:
            request = request_of(read_head(connection))
            method = request.method
            answer = self.service.answer(request)
        except Refusal as refusal:
            self.service.count("refused_total")
            answer = refusal_of(refusal)
        except ConnectionError:
            return
        except Exception as fault:  # the text of a fault may be a caller's, so it isn't logged
            self.service.count("failed_total")
            answer = refusal_of(Refusal(500, "Failed", "the service failed"))
            answer.about = place_of(fault)
        connection.settimeout(SEND_SECONDS)
        self._send(connection, answer, method == "HEAD")
        told = method if method in METHODS else "-"
        log(f"{told} {answer.status} {answer.about} seconds={time.monotonic() - began:.2f}")

    def _send(self, connection: socket.socket, answer: Answer, is_head: bool) -> None:
        headers = {**answer.headers, "Content-Length": str(len(answer.body)), "Cache-Control": "no-store", "Connection": "close"}
        lines = [f"HTTP/1.1 {answer.status} {REASONS[answer.status]}", *(f"{name}: {value}" for name, value in headers.items())]
        try:
            connection.sendall("\r\n".join([*lines, "", ""]).encode() + (b"" if is_head else answer.body))
        except OSError:
            pass  # the caller left
