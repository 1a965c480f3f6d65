"""A server of HTTP for tests: it serves the page, and a status in place of a real one."""
from __future__ import annotations

import contextlib
import http.server
import threading
from typing import Iterator, Tuple

from tests import ROOT

PAGE = ROOT / "crates/rv_status/page/status.html"


@contextlib.contextmanager
def serving(status: bytes) -> Iterator[Tuple[str, int]]:
    """Serves the page and this status at a free port of this host, whose address it gives, until its block ends."""
    class Answering(http.server.BaseHTTPRequestHandler):
        def do_GET(self) -> None:
            bodies = {"/": ("text/html; charset=utf-8", PAGE.read_bytes()), "/status.json": ("application/json", status)}
            kind, body = bodies.get(self.path, ("text/plain", b""))
            self.send_response(200 if self.path in bodies else 404)
            self.send_header("content-type", kind)
            self.send_header("content-length", str(len(body)))
            self.end_headers()
            self.wfile.write(body)

        def log_message(self, *_: object) -> None:
            """Says nothing."""

    with http.server.ThreadingHTTPServer(("127.0.0.1", 0), Answering) as server:
        thread = threading.Thread(target=server.serve_forever, daemon=True)
        thread.start()
        try:
            yield "127.0.0.1", server.server_port
        finally:
            server.shutdown()
            thread.join()
