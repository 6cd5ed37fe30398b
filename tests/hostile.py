"""A package index that lies: served files as they are, but for some paths that are answered otherwise."""

from __future__ import annotations

import gzip
import time
from http.server import BaseHTTPRequestHandler
from pathlib import Path
from typing import Callable, Dict, Optional

from serving import Server
from unilock_tools.pages import JSON_FORM

Lie = Callable[[BaseHTTPRequestHandler], None]


class HostileServer(Server):
    """`lies` has the answers of some paths; what was asked of them is in `heard`, with the headers."""

    def __init__(
        self, folder: Path, form: str = "json", metadata: Optional[str] = "core-metadata", ranges: bool = True
    ) -> None:
        super().__init__(folder, form, metadata, ranges)
        self.lies: Dict[str, Lie] = {}
        self.heard: "list[tuple[str, dict[str, str]]]" = []

    def answer(self, request: BaseHTTPRequestHandler) -> None:
        self.heard.append((request.path, dict(request.headers.items())))
        lie = self.lies.get(request.path)
        if lie is None:
            super().answer(request)
        else:
            self.asked.append((request.path, 0))
            lie(request)


def reply(body: bytes, form: str = JSON_FORM, status: int = 200, length: Optional[int] = None, **more: str) -> Lie:
    """An answer with this body. A `length` other than the body's ends the connection behind the body."""

    def answer(request: BaseHTTPRequestHandler) -> None:
        request.send_response(status)
        request.send_header("Content-Type", form)
        request.send_header("Content-Length", str(len(body) if length is None else length))
        for key, value in more.items():
            request.send_header(key.replace("_", "-"), value)
        request.end_headers()
        request.wfile.write(body)
        request.close_connection = length is not None

    return answer


def unmeasured(body: bytes, form: str = JSON_FORM, **more: str) -> Lie:
    """An answer whose end is that of the connection alone."""

    def answer(request: BaseHTTPRequestHandler) -> None:
        request.send_response(200)
        request.send_header("Content-Type", form)
        for key, value in more.items():
            request.send_header(key.replace("_", "-"), value)
        request.end_headers()
        request.wfile.write(body)
        request.close_connection = True

    return answer


def dripping(server: HostileServer, form: str = JSON_FORM, in_headers: bool = False) -> Lie:
    """An answer that goes on byte by byte for as long as the server runs."""

    def answer(request: BaseHTTPRequestHandler) -> None:
        request.send_response(200)
        request.send_header("Content-Type", form)
        if not in_headers:
            request.end_headers()
        else:
            request.flush_headers()
        until = time.monotonic() + 20
        while not server.ended.wait(0.05) and time.monotonic() < until:
            request.wfile.write(b"x")
            request.wfile.flush()

    return answer


def zeros(count: int, form: str = JSON_FORM) -> Lie:
    """An answer of so many zeros, compressed."""
    return reply(gzip.compress(bytes(count), 6), form, Content_Encoding="gzip")
