"""The web of a world in an epoch: by pages that a client of the tests' own hands out, or by servers on loopback."""

import contextlib
import hashlib
import os
import secrets
import socket
import socketserver
import subprocess
import threading
import time
import urllib.parse
import wsgiref.simple_server
from collections.abc import Callable, Iterable
from pathlib import Path
from typing import Any

import httpx
from clubcard.http import Client, FetchError, Response

from .answers import Answer, Rfc6962
from .issuing import Things
from .tiles import static_files
from .world import World


def crl_path(issuer: int, partition: int) -> str:
    return f"crl/{issuer}/{partition}.crl"


class Shown:
    """All that the web holds in an epoch: pages by their path, and logs that answer requests."""

    def __init__(self, world: World, base: str, logs_base: str | None = None) -> None:
        self.world, self.base = world, base
        self.logs_base = logs_base or base
        self.things = Things(world, base)
        self.apps = {log.place: Rfc6962(log, world) for log in self.things.logs if log.spec.kind == "rfc6962"}
        self.pages: dict[str, bytes] = {}
        self.epoch = -1

    def show(self, epoch: int) -> None:
        """Makes the web what it is in an epoch."""
        self.epoch, self.pages = epoch, {}
        for place, issuer in enumerate(self.world.issuers):
            found = {crl_path(place, p): self.things.crl(place, p, epoch) for p in range(issuer.crls)}
            self.pages.update({path: octets for path, octets in found.items() if octets is not None})
        for app in self.apps.values():
            app.show(epoch)
        for log in self.things.logs:
            if log.spec.kind == "static":
                files = static_files(log, log.view(self.world, epoch), log.spec.fault(epoch))
                self.pages.update({f"log/{log.place}/{path}": body for path, body in files.items()})

    def log_base(self, place: int) -> str:
        """Below which URL a log stands."""
        return self.logs_base if place in self.apps else self.base

    def ask(self, path: str, query: str) -> Answer:
        """The answer to a request."""
        for place, app in self.apps.items():
            prefix = f"log/{place}/"
            if path.startswith(prefix):
                return app.answer(path[len(prefix) :], dict(urllib.parse.parse_qsl(query)))
        body = self.pages.get(path)
        return Answer(404, b"not found") if body is None else Answer(200, body)


class PageClient(Client):
    """A client that asks no network."""

    def __init__(self, shown: Shown) -> None:
        super().__init__(sleep=lambda seconds: None)
        self.shown = shown
        self.asked: list[str] = []
        self.lock = threading.Lock()

    def get(self, url: str, most_bytes: int, etag: str | None = None, modified: str | None = None) -> Response:
        with self.lock:
            self.asked.append(url)
            parts = urllib.parse.urlsplit(url)
            answer = self.shown.ask(parts.path.lstrip("/"), parts.query)
        if answer.status != 200:
            raise FetchError(f"status {answer.status}", answer.status)
        if len(answer.body) > most_bytes:
            raise FetchError(f"the body is longer than {most_bytes} bytes", 200)
        own = '"' + hashlib.sha256(answer.body).hexdigest() + '"'
        if own == etag:
            return Response(304, b"", {}, own, None)
        return Response(200, answer.body, dict(answer.headers), own, None)


class _Threads(socketserver.ThreadingMixIn, wsgiref.simple_server.WSGIServer):
    daemon_threads = True


class _Silent(wsgiref.simple_server.WSGIRequestHandler):
    def log_message(self, format: str, *args: Any) -> None:  # pylint: disable=redefined-builtin
        pass


_WORDS = {200: "OK", 400: "Bad Request", 404: "Not Found", 429: "Too Many Requests"}


class LogsServer:
    """The logs that answer requests, under a WSGI server of its own thread."""

    def __init__(self) -> None:
        self.shown: Shown | None = None
        self.server = wsgiref.simple_server.make_server("127.0.0.1", 0, self.app, _Threads, _Silent)
        self.base = f"http://127.0.0.1:{self.server.server_port}/"
        self.thread = threading.Thread(target=self.server.serve_forever, kwargs={"poll_interval": 0.02}, daemon=True)
        self.thread.start()

    def app(self, environ: dict[str, Any], start: Callable[..., Any]) -> Iterable[bytes]:
        assert self.shown is not None
        answer = self.shown.ask(environ["PATH_INFO"].lstrip("/"), environ.get("QUERY_STRING", ""))
        headers = [("content-length", str(len(answer.body))), *answer.headers.items()]
        start(f"{answer.status} {_WORDS[answer.status]}", headers)
        return [answer.body]

    def close(self) -> None:
        self.server.shutdown()
        self.server.server_close()
        self.thread.join()


_CONF = """
daemon off; master_process off; pid {folder}/nginx.pid; error_log {folder}/error.log;
events {{ worker_connections 256; }}
http {{
    access_log off; default_type application/octet-stream;
    client_body_temp_path {folder}/t1; proxy_temp_path {folder}/t2; fastcgi_temp_path {folder}/t3;
    uwsgi_temp_path {folder}/t4; scgi_temp_path {folder}/t5;
    server {{ listen 127.0.0.1:{port}; root {folder}/www; }}
}}
"""


def _free_port() -> int:
    with socket.socket() as probe:
        probe.bind(("127.0.0.1", 0))
        return int(probe.getsockname()[1])


class Nginx:
    """nginx over a folder `www`, on a port that was free."""

    def __init__(self, folder: Path) -> None:
        self.folder, self.www = folder, folder / "www"
        self.www.mkdir(parents=True)
        for _ in range(10):
            self.port = _free_port()
            (folder / "nginx.conf").write_text(_CONF.format(folder=folder, port=self.port))
            words = ["nginx", "-p", str(folder), "-e", str(folder / "error.log"), "-c", str(folder / "nginx.conf")]
            self.process = subprocess.Popen(words, stdin=subprocess.DEVNULL)
            self.base = f"http://127.0.0.1:{self.port}/"
            if self._answers():
                break
            self.process.wait()
        else:
            raise RuntimeError((folder / "error.log").read_text())

    def _answers(self) -> bool:
        """Waits until it answers, and no other server that got the port first; False where it ended."""
        token = secrets.token_bytes(16)
        (self.www / "token").write_bytes(token)
        while self.process.poll() is None:
            try:
                if self.get("token") == token:
                    return True
            except httpx.TransportError:
                pass
            time.sleep(0.005)
        return False

    def show(self, pages: dict[str, bytes], moment: int) -> None:
        """Makes the folder hold these pages, but for the site. Their dates are the moment's, so that a page of another
        epoch has another ETag."""
        for path in [path for path in self.www.rglob("*") if path.is_file()]:
            name = str(path.relative_to(self.www))
            if name not in pages and not name.startswith("site/"):
                path.unlink()
        for name, body in pages.items():
            path = self.www / name
            if not path.exists() or path.read_bytes() != body:
                path.parent.mkdir(parents=True, exist_ok=True)
                path.write_bytes(body)
                os.utime(path, (moment // 1000, moment // 1000))

    def get(self, path: str) -> bytes | None:
        """What it serves at a path; None where nothing stands there."""
        answer = httpx.get(self.base + path, trust_env=False)
        return answer.content if answer.status_code == 200 else None

    def close(self) -> None:
        self.process.terminate()
        self.process.wait()


class Servers:
    """Both servers, as long as the context lasts."""

    def __init__(self, folder: Path) -> None:
        self.stack = contextlib.ExitStack()
        with self.stack:
            self.nginx = Nginx(folder)
            self.stack.callback(self.nginx.close)
            self.logs = LogsServer()
            self.stack.callback(self.logs.close)
            self.stack = self.stack.pop_all()

    def __enter__(self) -> "Servers":
        return self

    def __exit__(self, *_: object) -> None:
        self.stack.close()

    def show_all(self, world: World) -> Shown:
        """The web of a world, at the addresses of these servers."""
        shown = Shown(world, self.nginx.base, self.logs.base)
        self.logs.shown = shown
        return shown
