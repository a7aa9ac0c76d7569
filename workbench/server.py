"""The door: what comes over the network, and who is let in.

It listens on 127.0.0.1 alone. A page of another site, a name of others that leads here, and whoever doesn't hold the
token get nothing.
"""
from __future__ import annotations

import contextlib
import hmac
import http.server
import json
import os
import re
import secrets
import socket
import threading
import time
import urllib.parse
from typing import Any

from bench import CALLS, Bench
from faults import Refused

HERE = os.path.dirname(os.path.abspath(__file__))
ADDRESS = "127.0.0.1"
MOST_ASKED = 48 << 20  # a script of 16 MB whose letters JSON writes with escapes
MOST_ENTRY = 1000  # bytes of a request that has no token yet
MOST_OPEN = 64  # connections at once
# Seconds for the head of a first request, for one more on the same connection, and for what a head announces. Of an
# answer each piece is taken within the last, too.
HEAD, NEXT, PATIENCE = 5, 20, 30
FAREWELL = 1  # seconds for the rest of a refused request
KINDS = {".html": "text/html", ".css": "text/css", ".js": "text/javascript"}
HEADERS = {
    "Content-Security-Policy": "default-src 'none'; script-src 'self'; style-src 'self'; img-src 'self' data:; "
    "connect-src 'self'; base-uri 'none'; form-action 'none'; frame-ancestors 'none'",
    "X-Content-Type-Options": "nosniff",
    "Referrer-Policy": "no-referrer",
    "Cache-Control": "no-store",
    "Cross-Origin-Resource-Policy": "same-origin",
    "Cross-Origin-Opener-Policy": "same-origin",
}


def page_files() -> dict[str, str]:
    """The files of the page by their paths: these and no others are given out."""
    folder = os.path.join(HERE, "page")
    files = {
        "/" + name: os.path.join(folder, name) for name in os.listdir(folder) if os.path.splitext(name)[1] in KINDS
    }
    return {"/": files["/index.html"], **files}


class Handler(http.server.BaseHTTPRequestHandler):
    """One connection."""

    server: Server
    server_version, sys_version, protocol_version, timeout = "workbench", "", "HTTP/1.1", PATIENCE

    def log_message(self, format: str, *_: Any) -> None:
        """Nothing is logged: what is asked is the user's."""

    # ---- How long is waited for it ----

    def setup(self) -> None:
        super().setup()
        self.server.wait_for(self.connection, HEAD, True)

    def parse_request(self) -> bool:
        is_whole = super().parse_request()
        self.server.wait_for(self.connection, PATIENCE, False)
        return is_whole

    def handle_one_request(self) -> None:
        super().handle_one_request()
        self.server.wait_for(self.connection, NEXT, True)

    def finish(self) -> None:
        self.server.wait_no_more(self.connection)
        super().finish()

    def answer(self, status: int, data: bytes, kind: str, **more: str) -> None:
        self.server.wait_no_more(self.connection)
        self.send_response(status)
        for key, value in {**HEADERS, **more, "Content-Type": kind, "Content-Length": str(len(data))}.items():
            self.send_header(key.replace("_", "-"), value)
        if status >= 400:
            self.send_header("Connection", "close")
            self.close_connection = True
        self.end_headers()
        if self.command != "HEAD":
            self.wfile.write(data)

    # ---- Who is let in ----

    def names_us(self) -> bool:
        """Whether the request is for this address by its own name, and not by one of others that leads here."""
        return self.headers.get_all("Host", []) in [[name] for name in self.server.names]

    def is_of_our_page(self) -> bool:
        """Whether no other page sent it."""
        origin, site = self.headers.get("Origin"), self.headers.get("Sec-Fetch-Site", "none")
        is_ours = origin is None or origin in ["http://" + name for name in self.server.names]
        return is_ours and site in ("none", "same-origin")

    def has_token(self, given: str | None) -> bool:
        return hmac.compare_digest((given or "").encode("utf-8", "replace"), self.server.token.encode())

    def proof_of(self, question: str) -> str:
        """What only a server of this address that has the token can say: a page asks for it before it gives its own."""
        return hmac.new(
            self.server.token.encode(), ("%s %s" % (self.headers["Host"], question)).encode(), "sha256"
        ).hexdigest()

    # ---- Files and pictures ----

    def do_GET(self) -> None:
        path, parts = self.path.split("?")[0], self.path.split("/")
        if not self.names_us() or not self.is_of_our_page():
            return self.answer(403, b"not from here", "text/plain")
        if path in self.server.files:
            with open(self.server.files[path], "rb") as file:
                kind = KINDS[os.path.splitext(self.server.files[path])[1]]
                return self.answer(200, file.read(), kind + "; charset=utf-8")
        if len(parts) == 3 and parts[1] == "hello" and re.match(r"[0-9a-f]{32}\Z", parts[2]):
            return self.answer(200, self.proof_of(parts[2]).encode(), "text/plain")
        if len(parts) == 5 and parts[1] == "picture" and self.has_token(parts[2]):
            data = self.server.bench.pictures.picture(parts[3], urllib.parse.unquote(parts[4]))
            if data is not None:
                return self.answer(200, data, "image/png", Cache_Control="private, max-age=3600")
        return self.answer(404, b"nothing here", "text/plain")

    do_HEAD = do_GET

    # ---- Calls ----

    def do_POST(self) -> None:
        try:
            status, reply = 200, self.called()
        except Refused as fault:
            status, reply = fault.status, {"error": fault.why}
        except (OSError, ValueError) as fault:
            status, reply = 500, {"error": str(fault)}
        self.answer(status, json.dumps(reply).encode(), "application/json")

    def called(self) -> dict[str, Any]:
        """The answer to a call. What is refused isn't read."""
        if not self.names_us() or not self.is_of_our_page() or self.headers.get("Origin") is None:
            raise Refused(403, "not from here")
        is_entry = self.path == "/api/enter"
        if not is_entry and not self.has_token(self.headers.get("X-Workbench-Token")):
            raise Refused(403, "without the token")
        if self.headers.get("Content-Type") != "application/json" or self.headers.get("Transfer-Encoding"):
            raise Refused(415, "no JSON")
        length = self.headers.get("Content-Length") or ""
        if not re.match(r"[0-9]{1,12}\Z", length):
            raise Refused(411, "no length")
        if int(length) > (MOST_ENTRY if is_entry else MOST_ASKED):
            raise Refused(413, "too long")
        call = re.match(r"/api/([a-z]+)\Z", self.path)
        if not call or call.group(1) not in CALLS and not is_entry:
            raise Refused(404, "nothing here")
        try:
            asked = json.loads(self.rfile.read(int(length)))
        except (ValueError, RecursionError):
            raise Refused(400, "no JSON")
        finally:
            self.server.wait_no_more(self.connection)
        if not isinstance(asked, dict):
            raise Refused(400, "no JSON object")
        if is_entry:
            return {"token": self.server.enter(asked.get("word"))}
        answer: dict[str, Any] = getattr(self.server.bench, "do_" + call.group(1))(asked)
        return answer


class Wait:
    """How long a connection may take for what it is waited for, and whether it gives way to others meanwhile."""

    def __init__(self, seconds: float, gives_way: bool) -> None:
        self.end, self.gives_way = time.monotonic() + seconds, gives_way


class Server(http.server.ThreadingHTTPServer):
    """The listener, with the token that each call must hold."""

    daemon_threads = True
    request_queue_size = 128

    def __init__(self, port: int, bench: Bench, token: str) -> None:
        super().__init__((ADDRESS, port), Handler)
        self.bench, self.token, self.files = bench, token, page_files()
        self.names = ["%s:%d" % (name, self.server_port) for name in (ADDRESS, "localhost")]
        # What the token is given for, once: it may stand where others read it, as in the words of a browser's process.
        self.entry: str | None = secrets.token_urlsafe(24)
        self.room = threading.BoundedSemaphore(MOST_OPEN)
        # Those that are waited for, the longest first.
        self.waits: dict[socket.socket, Wait] = {}
        self.lock = threading.Lock()

    def enter(self, word: object) -> str:
        """The token, for the word that works once."""
        with self.lock:
            if not isinstance(word, str) or word != self.entry:
                raise Refused(403, "without the token")
            self.entry = None
        return self.token

    # ---- Who takes how long ----

    def wait_for(self, request: socket.socket, seconds: float, gives_way: bool) -> None:
        with self.lock:
            self.waits.pop(request, None)
            self.waits[request] = Wait(seconds, gives_way)

    def wait_no_more(self, request: socket.socket) -> None:
        with self.lock:
            self.waits.pop(request, None)

    def service_actions(self) -> None:
        """Ends, twice a second, the connections that took too long, however little they said at a time."""
        now = time.monotonic()
        with self.lock:
            for request in [it for it, wait in self.waits.items() if wait.end < now]:
                self.cut(request)

    def cut(self, request: socket.socket) -> None:
        """Ends a connection that is waited for: who reads from it comes to the end."""
        del self.waits[request]
        with contextlib.suppress(OSError):
            request.shutdown(socket.SHUT_RDWR)

    def has_room(self) -> bool:
        """Whether there is room for one more. The one that has said nothing for longest gives way."""
        if self.room.acquire(blocking=False):
            return True
        with self.lock:
            idle = next((it for it, wait in self.waits.items() if wait.gives_way), None)
            if idle:
                self.cut(idle)
        return idle is not None and self.room.acquire(timeout=FAREWELL)

    # ---- Connections ----

    def process_request(self, request: Any, client_address: Any) -> None:
        """Who comes while too many are at work is turned away."""
        if not self.has_room():
            return self.close_request(request)
        super().process_request(request, client_address)

    def process_request_thread(self, request: Any, client_address: Any) -> None:
        try:
            super().process_request_thread(request, client_address)
        finally:
            self.room.release()

    def shutdown_request(self, request: Any) -> None:
        """Reads what was sent with a refused request, where it comes soon and little of it.

        Otherwise the answer would be lost with the connection.
        """
        try:
            request.shutdown(socket.SHUT_WR)
            request.settimeout(0.2)
            left, end = 1 << 22, time.monotonic() + FAREWELL
            while left > 0 and time.monotonic() < end:
                data = request.recv(1 << 16)
                if not data:
                    break
                left -= len(data)
        except OSError:
            pass
        self.close_request(request)

    def handle_error(self, *_: Any) -> None:
        """A browser that went away is no fault."""
