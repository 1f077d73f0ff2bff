"""The front panel: `python3 -m linthofer.panel IMAGE [SOURCE]` serves one page on the loopback interface.

The page has no data. All that it shows comes by `POST /do`, which asks for a token. The token stands in the fragment of
the address that is printed, so it is in no request line, log or Referer. Host and Origin have to be this server's own:
so no other page of the browser gets an answer, nor a name that is made to lead here. docs/PANEL.md has what to type.
"""
from __future__ import annotations

import argparse
import hmac
import http.server
import json
import re
import secrets
import socket
import sys
import threading
from typing import Any, Callable, Dict

from .recording import page, policy
from .refusals import Fault
from .stepping import PROCESSORS, JsonObject, Layer, Stepping, number, number_of

LOOPBACK = "127.0.0.1"
LONGEST_BODY = 65_536                   # bytes of a request
LONGEST_WAIT = 1                        # seconds for what a refused client still sends
MOST_PIECES = 16                        # of its body that are read, and thrown away


# ---- what the page may ask for


class Session:
    """Answers the requests of the page."""

    def __init__(self, stepping: Stepping):
        self.stepping = stepping
        self._actions: Dict[str, Callable[[JsonObject], JsonObject]] = {
            "begin": self._begin, "look": lambda asked: {}, "act": self._step(stepping.step_act),
            "line": self._step(stepping.step_line), "cycle": self._step(stepping.step_cycle),
            "run": self._run, "back": self._step(stepping.step_back), "restart": self._step(stepping.restart),
            "breakpoint": self._breakpoint, "chip": self._chip, "ask": self._ask, "way": self._way}

    def do(self, asked: JsonObject) -> JsonObject:
        """What is answered: what was asked for, the state afterwards, and what was refused (`fault`)."""
        told: JsonObject = {}
        try:
            action = self._actions.get(str(asked.get("do")))
            if action is None:
                raise Fault("the page asks for what there is not")
            told = action(asked)
        except Fault as fault:
            told = {"fault": str(fault)}
        try:
            told["state"] = self.stepping.state(Layer.asked(asked.get("layer")))
        except Fault as fault:
            told.setdefault("fault", str(fault))
        return told

    def _step(self, step: Callable[[], object]) -> Callable[[JsonObject], JsonObject]:
        def action(asked: JsonObject) -> JsonObject:
            step()
            return {}
        return action

    def _begin(self, asked: JsonObject) -> JsonObject:
        stepping, machine = self.stepping, self.stepping.machine
        fields = [{"name": name, "address": number_of(at), "length": number_of(length)}
                  for _, name, at, length in stepping.fields]
        return {"title": stepping.title, "source": stepping.source, "fields": fields,
                "room": machine.room, "rule": machine.rule}

    def _run(self, asked: JsonObject) -> JsonObject:
        return {"stopped": self.stepping.run()}

    def _breakpoint(self, asked: JsonObject) -> JsonObject:
        self.stepping.toggle_breakpoint(number(asked, "line", len(self.stepping.source)))
        return {}

    def _chip(self, asked: JsonObject) -> JsonObject:
        self.stepping.chip = number(asked, "chip", self.stepping.machine.chips)
        return {}

    def _ask(self, asked: JsonObject) -> JsonObject:
        line = asked.get("line")
        if not isinstance(line, str):
            raise Fault("a line is a text")
        return {"answer": self.stepping.ask(line)}

    def _way(self, asked: JsonObject) -> JsonObject:
        chip = number(asked, "chip", self.stepping.machine.chips)
        processor = number(asked, "processor", PROCESSORS)
        birth = asked.get("birth")
        if not (isinstance(birth, str) and re.fullmatch("[0-9]{1,19}", birth)):
            raise Fault("a birth is the number of a petit cycle")
        way = self.stepping.way(chip, processor, int(birth))
        return {"way": list(way), "chips": way.chips()}


# ---- the server


class Server(http.server.ThreadingHTTPServer):
    """Serves one session, on the loopback interface alone."""

    daemon_threads = True

    def __init__(self, session: Session, port: int = 0):
        super().__init__((LOOPBACK, port), Handler)
        self.session = session
        self.token = secrets.token_urlsafe(16)          # 128 bits
        self.lock = threading.Lock()                    # one request after another
        self.hosts = {f"{name}:{self.server_port}" for name in (LOOPBACK, "localhost")}

    def handle_error(self, request: Any, client_address: Any) -> None:
        """A browser that went away in the middle of an answer is no fault."""
        if not isinstance(sys.exc_info()[1], ConnectionError):
            super().handle_error(request, client_address)

    def end(self) -> None:
        """Ends the machine, behind the request that it works on."""
        with self.lock:
            self.session.stepping.close()

    @property
    def address(self) -> str:
        """What the user opens; the token stands in its fragment."""
        return f"http://{LOOPBACK}:{self.server_port}/#t={self.token}"


class Handler(http.server.BaseHTTPRequestHandler):
    """Answers one connection. What is not for this server, or not from its own page, is refused before it is read."""

    server: Server
    server_version, sys_version, protocol_version = "linthofer", "", "HTTP/1.1"
    timeout = 30

    def log_message(self, format: str, *words: Any) -> None:
        """Requests are not logged."""

    def send_error(self, code: int, message: object = None, explain: object = None) -> None:
        """What http.server refuses by itself, as an unknown method, has our headers too."""
        self._send(code)

    def _send(self, status: int, body: bytes = b"", kind: str = "text/plain; charset=utf-8",
              content_policy: str = "default-src 'none'") -> None:
        self.send_response(status)
        headers = {"Content-Type": kind, "Content-Length": str(len(body)), "Content-Security-Policy": content_policy,
                   "Cache-Control": "no-store", "X-Content-Type-Options": "nosniff", "Referrer-Policy": "no-referrer",
                   "Cross-Origin-Resource-Policy": "same-origin", "Cross-Origin-Opener-Policy": "same-origin"}
        for name, value in headers.items():
            self.send_header(name, value)
        if status >= 400:                               # a body that was refused is not read
            self.send_header("Connection", "close")
            self.close_connection = True
        self.end_headers()
        self.wfile.write(body)
        if status >= 400:
            self._let_it_end()

    def _let_it_end(self) -> None:
        """Lets a refused client send its body to the end, so that it reads the answer and meets no broken pipe."""
        try:
            self.connection.shutdown(socket.SHUT_WR)
            self.connection.settimeout(LONGEST_WAIT)
            for _ in range(MOST_PIECES):
                if not self.connection.recv(LONGEST_BODY):
                    return
        except OSError:                                 # it is gone, or sends nothing more
            pass

    def _is_own(self) -> bool:
        """Whether the request was meant for this server, and comes from its own page or from no page."""
        origin = self.headers.get("Origin")
        own_origins = {f"http://{host}" for host in self.server.hosts}
        return self.headers.get("Host") in self.server.hosts and (origin is None or origin in own_origins)

    def _has_token(self) -> bool:
        given = self.headers.get("X-Linthofer-Token") or ""
        return hmac.compare_digest(given.encode(), self.server.token.encode())

    def do_GET(self) -> None:
        """The page, without any data."""
        if not self._is_own():
            self._send(403)
        elif self.path != "/":
            self._send(404)
        else:
            nonce = secrets.token_urlsafe(16)
            self._send(200, page(nonce).encode(), "text/html; charset=utf-8", policy(nonce))

    def do_POST(self) -> None:
        """What the page asks for."""
        status = self._refusal()
        if status:
            self._send(status)
            return
        try:
            asked = json.loads(self.rfile.read(int(self.headers["Content-Length"])))
        except (ValueError, RecursionError):
            asked = None
        if not isinstance(asked, dict):
            self._send(400)
            return
        with self.server.lock:
            told = self.server.session.do(asked)
        self._send(200, json.dumps(told).encode(), "application/json")

    def _refusal(self) -> int:
        """The status by which a request is refused before its body is read; 0 for none."""
        length = self.headers.get("Content-Length") or ""
        if not self._is_own() or not self._has_token():
            return 403
        if self.path != "/do":
            return 404
        if self.headers.get("Content-Type") != "application/json":
            return 415
        if not (length.isascii() and length.isdigit()) or "Transfer-Encoding" in self.headers:
            return 411
        return 413 if len(length) > 9 or int(length) > LONGEST_BODY else 0


def main() -> None:
    """Prints one address, and serves it until Ctrl-C."""
    parser = argparse.ArgumentParser(prog="python3 -m linthofer.panel",
                                     description="Shows the lamps of a machine in a browser.")
    parser.add_argument("image", metavar="IMAGE", help="an image, as cm1 fresh makes one; it stays as it is")
    parser.add_argument("source", metavar="SOURCE", nargs="?", help="a program or a source, to step through")
    parser.add_argument("--port", metavar="P", type=int, default=0, help="the port; a free one where none is given")
    given = parser.parse_args()
    try:
        stepping = Stepping(given.image, given.source)
    except (Fault, OSError) as fault:
        sys.exit(f"panel: {fault}")
    try:
        server = Server(Session(stepping), given.port)
    except (OSError, OverflowError) as fault:
        stepping.close()
        sys.exit(f"panel: port {given.port}: {fault}")
    try:
        print(server.address, flush=True)
        server.serve_forever()
    except KeyboardInterrupt:
        pass
    finally:
        server.server_close()
        server.end()


if __name__ == "__main__":
    main()
