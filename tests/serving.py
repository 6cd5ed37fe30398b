"""A package index on the loopback address: files served in the forms that indexes use, by the standard library."""

from __future__ import annotations

import contextlib
import hashlib
import json
import re
import threading
from http.server import BaseHTTPRequestHandler, ThreadingHTTPServer
from pathlib import Path
from typing import Dict, List, Optional, Tuple, TypeVar

import making
from unilock_tools.archives import file_metadata, sdist_body, wheel_body
from unilock_tools.pages import DISTRIBUTION, HTML_FORM, JSON_FORM
from unilock_tools.versions import normal_name

# (`making` puts the package on the path)
assert making.PYTHON.is_dir()


Own = TypeVar("Own", bound="Server")


def is_of(file: str, project: str) -> bool:
    """Whether a file's name begins with the project's."""
    return any(normal_name(file[: it.start()]) == project for it in re.finditer("-", file))


class Server:
    """Serves a folder of wheels and source distributions as a Simple API.

    `form` is `json` or `html`. `metadata` is the key that tells of a metadata file (PEP 658 or 714), or None for no
    such file. `ranges` says whether ranges are given. `faults` are statuses that the next requests of a path are
    answered with.
    """

    def __init__(
        self, folder: Path, form: str = "json", metadata: Optional[str] = "core-metadata", ranges: bool = True
    ) -> None:
        self.folder, self.form, self.metadata, self.ranges = folder, form, metadata, ranges
        self.yanked: List[str] = []
        self.uploaded: Dict[str, str] = {}
        self.faults: Dict[str, List[int]] = {}
        self.wrong_hash: List[str] = []
        self.no_hash = False
        self.asked: List[Tuple[str, int]] = []
        self.silent: List[str] = []
        self.ended = threading.Event()
        served = self

        class Handler(BaseHTTPRequestHandler):
            protocol_version = "HTTP/1.1"

            def do_GET(self) -> None:
                # A client may go away while it is answered.
                with contextlib.suppress(ConnectionError):
                    served.answer(self)

            def log_message(self, *_: object) -> None:
                return

        self.http = ThreadingHTTPServer(("127.0.0.1", 0), Handler)
        self.http.daemon_threads = True
        # A client that goes away is no fault of a test.
        setattr(self.http, "handle_error", lambda *_: None)
        self.thread = threading.Thread(target=self.http.serve_forever, args=(0.05,), daemon=True)
        self.url = f"http://127.0.0.1:{self.http.server_address[1]}/simple/"

    def __enter__(self: Own) -> Own:
        self.thread.start()
        return self

    def __exit__(self, *_: object) -> None:
        self.ended.set()
        self.http.shutdown()
        self.http.server_close()
        self.thread.join()

    def paths(self, kind: str) -> List[str]:
        """What was asked for: pages, metadata, ranges or whole files."""
        return [path for path, status in self.asked if kind == self.kind_of(path, status)]

    @staticmethod
    def kind_of(path: str, status: int) -> str:
        if path.startswith("/simple/"):
            return "page"
        if path.endswith(".metadata"):
            return "metadata"
        return "range" if status == 206 else "whole"

    def answer(self, request: BaseHTTPRequestHandler) -> None:
        if request.path in self.silent:
            self.asked.append((request.path, 0))
            self.ended.wait(20)
        faults = self.faults.get(request.path, [])
        status, headers, body = self.found(request) if not faults else (faults.pop(0), {}, b"a fault")
        self.asked.append((request.path, status))
        request.send_response(status)
        for key, value in headers.items():
            request.send_header(key, value)
        if status != 304:
            request.send_header("Content-Length", str(len(body)))
        request.end_headers()
        if status != 304:
            request.wfile.write(body)

    def found(self, request: BaseHTTPRequestHandler) -> Tuple[int, Dict[str, str], bytes]:
        page = re.fullmatch(r"/simple/([^/]+)/", request.path)
        if page:
            return self.page(page[1], request.headers.get("If-None-Match"))
        name = request.path.rpartition("/")[2]
        if name.endswith(".metadata") and self.metadata:
            return 200, {}, self.metadata_of(self.folder / name[: -len(".metadata")])
        path = self.folder / name
        if not path.is_file():
            return 404, {}, b"there is no such file"
        return self.file(path.read_bytes(), request.headers.get("Range"))

    def file(self, body: bytes, asked: Optional[str]) -> Tuple[int, Dict[str, str], bytes]:
        wanted = re.fullmatch(r"bytes=(\d*)-(\d*)", asked or "")
        if not self.ranges or wanted is None:
            return 200, {}, body
        first = len(body) - min(int(wanted[2]), len(body)) if not wanted[1] else int(wanted[1])
        last = len(body) - 1 if not wanted[1] else min(int(wanted[2]), len(body) - 1)
        return 206, {"Content-Range": f"bytes {first}-{last}/{len(body)}"}, body[first : last + 1]

    @staticmethod
    def metadata_of(path: Path) -> bytes:
        if path.name.endswith(".whl"):
            return wheel_body(path, path)
        with path.open("rb") as stream:
            return sdist_body(path, stream)

    def page(self, name: str, known: Optional[str]) -> Tuple[int, Dict[str, str], bytes]:
        project = normal_name(name)
        files = sorted(it for it in self.folder.iterdir() if DISTRIBUTION.search(it.name) and is_of(it.name, project))
        if not files:
            return 404, {}, b"there is no such project"
        body = self.json_page(name, files) if self.form == "json" else self.html_page(files)
        tag = '"' + hashlib.sha256(body).hexdigest()[:16] + '"'
        if known == tag:
            return 304, {"ETag": tag}, b""
        return 200, {"Content-Type": JSON_FORM if self.form == "json" else HTML_FORM, "ETag": tag}, body

    def hash_of(self, path: Path) -> str:
        return "0" * 64 if path.name in self.wrong_hash else hashlib.sha256(path.read_bytes()).hexdigest()

    def bound_of(self, path: Path) -> Optional[str]:
        try:
            return file_metadata(path).requires_python
        except Exception:
            return None

    def json_page(self, name: str, files: List[Path]) -> bytes:
        listed = []
        for path in files:
            entry: Dict[str, object] = {
                "filename": path.name, "url": f"../../files/{path.name}", "size": path.stat().st_size
            }
            entry["hashes"] = {} if self.no_hash else {"sha256": self.hash_of(path)}
            if self.bound_of(path):
                entry["requires-python"] = self.bound_of(path)
            if self.metadata and path.name.endswith(".whl"):
                entry[self.metadata] = {"sha256": hashlib.sha256(self.metadata_of(path)).hexdigest()}
            if path.name in self.yanked:
                entry["yanked"] = "it was wrong"
            if path.name in self.uploaded:
                entry["upload-time"] = self.uploaded[path.name]
            listed.append(entry)
        return json.dumps({"meta": {"api-version": "1.1"}, "name": name, "files": listed}).encode()

    def html_page(self, files: List[Path]) -> bytes:
        base = self.url.replace("/simple/", "/files/")
        lines = [f"<!DOCTYPE html><html><head><base href='{base}'></head><body>"]
        for path in files:
            marks = ""
            bound = self.bound_of(path)
            if bound:
                marks += f' data-requires-python="{bound.replace(">", "&gt;").replace("<", "&lt;")}"'
            if self.metadata and path.name.endswith(".whl"):
                marks += f' data-{self.metadata}="sha256={hashlib.sha256(self.metadata_of(path)).hexdigest()}"'
            if path.name in self.yanked:
                marks += ' data-yanked="it was wrong"'
            fragment = "" if self.no_hash else f"#sha256={self.hash_of(path)}"
            lines.append(f'<a href="{path.name}{fragment}"{marks}>{path.name}</a><br/>')
        return "\n".join([*lines, "</body></html>"]).encode()
