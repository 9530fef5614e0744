"""The page, over HTTP on 127.0.0.1: its files, a stream of what happens (Server-Sent Events), and commands as JSON."""

import json
import os
import queue
import secrets
import threading
from http.server import BaseHTTPRequestHandler, ThreadingHTTPServer
from socketserver import TCPServer

from lib.paths import read_bytes

from . import guards, taking
from .commands import Commands
from .guards import Refused
from .hub import Hub, message

HERE = os.path.dirname(os.path.realpath(__file__))
SCRIPTS = {f"{name}.js": (f"{name}.js", "text/javascript") for name in ("page", "ladder", "panels")}
FILES = {"": ("page.html", "text/html"), "page.css": ("page.css", "text/css"), **SCRIPTS}
TAKEN = {"journal.txt": taking.journal, "project.json": taking.watched, "assembled.json": taking.assembled}
PATIENCE = 30  # s, of a connection that says nothing
HEARTBEAT = 10  # s
ALONE = 20  # s without a page, and no process is kept


class Server(ThreadingHTTPServer):
    daemon_threads = True

    def __init__(self, port, session, player, shown, uses):
        super().__init__(("127.0.0.1", port), Handler)
        self.token, self.session, self.player, self.shown = secrets.token_urlsafe(24), session, player, shown
        self.hub = Hub(self.counted)
        self.commands = Commands(session, player, shown, uses, self.end)
        self.alone = None
        session.listener = self.hub.tell

    def server_bind(self):
        """As of any server: without the look-up of this machine's name that HTTPServer makes."""
        TCPServer.server_bind(self)

    @property
    def address(self):
        return f"http://127.0.0.1:{self.server_address[1]}/{self.token}/"

    def end(self):
        """Asked for by a page."""
        self.hub.tell("ended", {})
        threading.Timer(0.3, self.shutdown).start()

    def counted(self, pages):
        """A page has come or gone: without one it doesn't play, and after a while there is no process."""
        if self.alone:
            self.alone.cancel()
        if not pages:
            self.alone = threading.Timer(ALONE, self.rest)
            self.alone.daemon = True
            self.alone.start()

    def rest(self):
        with self.session.lock:
            if not self.hub.pages:
                self.player.pause()
                self.session.rest()

    def wake(self):
        with self.session.lock:
            if not self.session.here and not self.session.lost:
                self.session.go(self.session.at, renew=True)

    def handle_error(self, request, client_address):
        """A page that goes in the middle of an answer is no fault of ours."""


class Handler(BaseHTTPRequestHandler):
    protocol_version = "HTTP/1.1"
    server_version, sys_version = "online", ""
    timeout = PATIENCE
    disable_nagle_algorithm = True  # a frame is a small packet, and is wanted now

    def log_message(self, *_):
        pass

    def rest_of_path(self):
        """The path behind the token; refuses whoever doesn't know it, or came by another name."""
        guards.check_host(self.headers.get("Host"), self.server.server_address[1])
        given, _, rest = self.path.removeprefix("/").partition("/")
        guards.check_token(given, self.server.token)
        return rest

    def answer(self, status, kind, body, **more):
        self.send_response(status)
        more = {name.replace("_", "-"): value for name, value in more.items()}
        for name, value in {**guards.HEADERS, "Content-Type": f"{kind}; charset=utf-8", "Content-Length": str(len(body)), **more}.items():
            self.send_header(name, value)
        self.end_headers()
        self.wfile.write(body)

    def guarded(self, method):
        try:
            method()
        except Refused as refused:
            self.close_connection = True
            self.answer(refused.status, "application/json", json.dumps({"refused": refused.text}).encode())
        except (BrokenPipeError, ConnectionResetError, TimeoutError):
            self.close_connection = True

    def do_GET(self):
        self.guarded(self.get)

    def do_POST(self):
        self.guarded(self.post)

    def get(self):
        path, _, query = self.rest_of_path().partition("?")
        if path in FILES:
            name, kind = FILES[path]
            self.answer(200, kind, read_bytes(os.path.join(HERE, name)))
        elif path == "layout":
            self.answer(200, "application/json", json.dumps(self.server.shown.layout()).encode())
        elif path == "events":
            self.stream(guards.page(query))
        elif path in TAKEN:
            with self.server.session.lock:
                body = TAKEN[path](self.server.session).encode()
            self.answer(200, "text/plain", body, Content_Disposition=f"attachment; filename={path}")
        else:
            raise Refused(404, "no such page")

    def stream(self, page):
        hub = self.server.hub
        mine = hub.enter(page)
        try:
            self.send_response(200)
            for name, value in {**guards.HEADERS, "Content-Type": "text/event-stream"}.items():
                self.send_header(name, value)
            self.end_headers()
            self.close_connection = True
            self.server.wake()
            with self.server.session.lock:
                said = message("snap", self.server.shown.snapshot())
            while True:
                self.wfile.write(said)
                if not hub.is_current(page, mine):
                    return
                try:
                    said = mine.get(timeout=HEARTBEAT)
                except queue.Empty:
                    said = b": still here\n\n"
        finally:
            hub.leave(page, mine)

    def post(self):
        if self.rest_of_path() != "do":
            raise Refused(404, "no such page")
        guards.check_origin(self.headers.get("Origin"), self.server.server_address[1])
        guards.check_type(self.headers.get("Content-Type"))
        name, page, fields = guards.command(self.rfile.read(guards.check_length(self.headers.get("Content-Length"))))
        if name == "take":
            self.server.hub.take(page)
            done = {}
        else:
            if name not in Commands.LOOKING:
                self.server.hub.check_writer(page)
            done = self.server.commands.do(name, fields)
        self.answer(200, "application/json", json.dumps(done).encode())
