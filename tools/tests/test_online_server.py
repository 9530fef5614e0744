"""The server of tools/online: who may call, and what a call may be. Each guard's check passes on the server, and fails on one in which that
guard is taken out."""

import http.client
import json
import os
import re
import socket
import threading
import unittest
from unittest import mock

from online_files import PLAIN, SAID, CONVEYOR
from common import TOP, read_text
from lib.online import guards, hub, server as servers
from lib.online.player import Player
from lib.online.server import Server
from lib.online.session import Session
from lib.online.shown import Shown
from lib.online.uses import Uses

PAGE, OTHER = "0" * 16, "1" * 16
PARTS = f"{TOP}/tools/lib/online"


class Served(unittest.TestCase):
    @classmethod
    def setUpClass(cls):
        cls.session = Session(PLAIN, json.loads(read_text(CONVEYOR)), SAID)
        player = Player(cls.session, lambda fresh: shown.frame(fresh))
        shown = Shown(cls.session, player, {"title": "test"})
        cls.session.on_snap = shown.snapshot
        cls.server = Server(0, cls.session, player, shown, Uses(cls.session))
        cls.port, cls.root = cls.server.server_address[1], f"/{cls.server.token}/"
        threading.Thread(target=cls.server.serve_forever, args=(0.05,), daemon=True).start()

    @classmethod
    def tearDownClass(cls):
        cls.server.shutdown()
        cls.server.server_close()
        cls.session.rest()

    def setUp(self):
        self.server.hub.pages.clear()
        self.server.hub.writer = PAGE

    def call(self, method, path, headers=(), body=None):
        """The status, the headers and the body of an answer."""
        connection = http.client.HTTPConnection("127.0.0.1", self.port, timeout=20)
        try:
            connection.putrequest(method, path, skip_host=True)
            for name, value in {"Host": f"127.0.0.1:{self.port}", **dict(headers)}.items():
                if value is not None:
                    connection.putheader(name, value)
            connection.endheaders(body)
            answer = connection.getresponse()
            return answer.status, answer.headers, answer.read()
        finally:
            connection.close()

    def get(self, path="", **headers):
        return self.call("GET", self.root + path, headers)[0]

    def post(self, said, headers=()):
        body = said if isinstance(said, bytes) else json.dumps(said).encode()
        all_headers = {"Origin": f"http://127.0.0.1:{self.port}", "Content-Type": "application/json", "Content-Length": str(len(body)), **dict(headers)}
        status, _, told = self.call("POST", self.root + "do", all_headers, body)
        return status, json.loads(told)

    def do(self, command, **fields):
        return self.post({"do": command, "page": PAGE, **fields})[0]

    def stream(self, page):
        """A page that looks on; its socket."""
        made = socket.create_connection(("127.0.0.1", self.port), 20)
        self.addCleanup(made.close)
        made.sendall(f"GET {self.root}events?{page} HTTP/1.1\r\nHost: 127.0.0.1:{self.port}\r\n\r\n".encode())
        return made, made.recv(100).split(b"\r\n")[0]


class Guards(Served):
    """Each check stands alone, so that `Doctored` can hold it against a server without its guard."""

    def check_token(self):
        for path in ("/", "/x/", f"/{self.server.token[:-1]}/", f"/{self.server.token}x/", "/" + self.server.token.swapcase() + "/"):
            self.assertEqual(self.call("GET", path)[0], 403, path)
        self.assertEqual((self.get(), len(self.server.token)), (200, 32))

    def check_host(self):
        for host in ("evil.example", f"evil.example:{self.port}", "127.0.0.1", f"127.0.0.1:{self.port + 1}", f"127.0.0.2:{self.port}", None, ""):
            self.assertEqual(self.call("GET", self.root, {"Host": host})[0], 403, host)
        self.assertEqual(self.get(Host=f"localhost:{self.port}"), 200)

    def check_origin(self):
        for origin in (None, "null", "http://evil.example", f"https://127.0.0.1:{self.port}", f"http://127.0.0.1:{self.port + 1}", f"http://127.0.0.1:{self.port}/", ""):
            self.assertEqual(self.post({"do": "snap", "page": PAGE}, {"Origin": origin})[0], 403, origin)
        self.assertEqual(self.do("snap"), 200)

    def check_type(self):
        for kind in (None, "text/plain", "application/x-www-form-urlencoded", "application/json; charset=utf-8", ""):
            self.assertEqual(self.post({"do": "snap", "page": PAGE}, {"Content-Type": kind})[0], 415, kind)

    def check_length(self):
        for length in (None, "", "-1", "1e3", "x", str(guards.MOST_OF_A_COMMAND + 1), "9" * 30):
            self.assertEqual(self.post(b"", {"Content-Length": length})[0], 413, length)
        long = json.dumps({"do": "snap", "page": PAGE}).encode().ljust(guards.MOST_OF_A_COMMAND + 1)
        self.assertEqual(self.post(long)[0], 413)
        self.assertEqual(self.post(long[:-1])[0], 200)

    def check_depth(self):
        for text in ("[" * 50 + "]" * 50, '{"a":' * 9 + "1" + "}" * 9):
            self.assertEqual(self.post(f'{{"do": "snap", "page": "{PAGE}", "deep": {text}}}'.encode()), (400, {"refused": "too deep"}))
        self.assertEqual(self.post({"do": "draw", "page": PAGE, "program": "Conveyor", "texts": ["[" * 99], "width": 500})[0], 200)  # (in a text)

    def check_pages(self):
        for at in range(8):
            self.assertEqual(self.stream(f"{at:016x}")[1], b"HTTP/1.1 200 OK")
        self.assertEqual(self.stream("f" * 16)[1], b"HTTP/1.1 503 Service Unavailable")

    def check_one_writer(self):
        self.stream(PAGE), self.stream(OTHER)
        self.assertEqual(self.post({"do": "act", "page": OTHER, "lane": 31, "text": "mode run"}), (409, {"refused": "another page has the controls"}))
        self.assertEqual(self.post({"do": "snap", "page": OTHER})[0], 200)
        self.assertEqual(self.post({"do": "take", "page": OTHER})[0], 200)
        self.assertEqual((self.do("cpu", count=1), self.post({"do": "cpu", "page": OTHER, "count": 1})[0]), (409, 200))
        self.assertEqual(self.post({"do": "take", "page": "2" * 16})[0], 409)  # no such page

    def check_policy(self):
        for path in ("", "page.js", "page.css", "layout"):
            headers = self.call("GET", self.root + path)[1]
            policy = dict(rule.split(" ", 1) for rule in headers["Content-Security-Policy"].split("; "))
            self.assertEqual((policy["default-src"], policy["script-src"], policy["style-src"], policy["frame-ancestors"]), ("'none'", "'self'", "'self'", "'none'"))
            self.assertNotIn("unsafe", headers["Content-Security-Policy"])
            self.assertEqual([headers[name] for name in ("Referrer-Policy", "X-Content-Type-Options", "Cache-Control")], ["no-referrer", "nosniff", "no-store"])

    def check_files(self):
        for path in ("../server.py", "..%2fserver.py", "/etc/passwd", "server.py", "page.js/../server.py", "guards.py", "page.html", "do", "."):
            self.assertEqual(self.get(path), 404, path)

    def check_address(self):
        self.assertEqual(self.server.socket.getsockname()[0], "127.0.0.1")

    def check_fields(self):
        for fields in ({"count": 0}, {"count": "1"}, {"count": True}, {"count": 1.5}, {"count": 10**12}, {}, {"count": 1, "more": 2}, {"count": None}, {"self": 1}):
            self.assertEqual(self.post({"do": "cpu", "page": PAGE, **fields})[0], 400, fields)
        for command, fields in (("act", {"lane": 31, "text": 5}), ("act", {"lane": 32, "text": "mode run"}), ("watch", {"place": "<img>", "on": True}), ("watch", {"place": "a", "on": 1}),
                                ("view", {"program": "Nix", "routine": "Main"}), ("go", {"to": -1}), ("stop", {"kind": "!", "place": "Run"}), ("stop", {"kind": [], "place": "Run"}),
                                ("draw", {"program": "Conveyor", "texts": "x", "width": 500}), ("draw", {"program": "Conveyor", "texts": ["x"] * 200, "width": 500}), ("do", {}), ("__init__", {}),
                                ("play", {"speed": float("nan"), "steps": 1}), ("play", {"speed": True, "steps": 1}), ("play", {"speed": 1e9, "steps": 1})):
            self.assertEqual(self.do(command, **fields), 400, (command, fields))
        for said in (b"", b"{", b"5", b"[]", b"\xff", b"null", b'{"do": 5, "page": 6}', b'{"do": "snap"}', b'{"do": "snap", "page": "x"}', b'{"do": "snap", "page": "<script>"}'):
            self.assertEqual(self.post(said)[0], 400, said)
        for page in ("", "x", "0" * 15, "<" * 16, "../" * 5):
            self.assertEqual(self.get(f"events?{page}"), 400, page)

    def check_actions(self):
        for words in ("mode run\nend", "end", "cpu 5", "tick 1", "# x", "?"):
            self.assertEqual(self.post({"do": "act", "page": PAGE, "lane": 31, "text": words})[1]["answer"], "no action")

    def test_all(self):
        for name in [name for name in dir(self) if name.startswith("check_")]:
            with self.subTest(name):
                self.setUp()
                getattr(self, name)()


# Each guard taken out, and the check that finds it.
DOCTORED = {
    "check_token": lambda: mock.patch.object(guards, "check_token"),
    "check_host": lambda: mock.patch.object(guards, "check_host"),
    "check_origin": lambda: mock.patch.object(guards, "check_origin"),
    "check_type": lambda: mock.patch.object(guards, "check_type"),
    "check_length": lambda: mock.patch.object(guards, "check_length", lambda length: int(length or 0)),
    "check_depth": lambda: mock.patch.object(guards, "check_depth"),
    "check_pages": lambda: mock.patch.object(hub, "MOST_PAGES", 99),
    "check_one_writer": lambda: mock.patch.object(hub.Hub, "check_writer"),
    "check_policy": lambda: mock.patch.dict(guards.HEADERS, {"Content-Security-Policy": "default-src 'none'; script-src 'self' 'unsafe-inline'; style-src 'self'; frame-ancestors 'none'"}),
    "check_files": lambda: mock.patch.dict(servers.FILES, {"server.py": ("server.py", "text/plain")}),
    "check_fields": lambda: mock.patch("lib.online.commands.whole", lambda value, least, most: value),
    "check_actions": lambda: mock.patch("lib.online.session.action", lambda lane, words: "#" + words.replace("\n", " ")),
}


class Doctored(Guards):
    def test_all(self):
        for name, doctored in DOCTORED.items():
            with self.subTest(name), doctored():
                self.setUp()
                with self.assertRaises((AssertionError, ValueError, OSError, http.client.HTTPException)):
                    getattr(self, name)()

    def test_constant_time(self):
        with mock.patch.object(guards.secrets, "compare_digest", return_value=True) as compared:
            guards.check_token("a", "b")
        compared.assert_called_once_with(b"a", b"b")


class Streams(Served):
    def test_a_page_that_does_not_read_is_asked_to_ask_again(self):
        made = hub.Hub()
        mine = made.enter(PAGE)
        for at in range(hub.MOST_WAITING + 5):
            made.tell("frame", {"at": at})
        told = [mine.get_nowait() for _ in range(mine.qsize())]
        self.assertIn(hub.message("stale", {}), told)
        self.assertLessEqual(len(told), hub.MOST_WAITING)

    def test_a_page_is_told_all_and_then_what_comes(self):
        made, _ = self.stream(PAGE)
        made.settimeout(20)
        self.assertEqual(self.do("cpu", count=1), 200)
        told = b""
        while b"event: frame" not in told:
            told += made.recv(1 << 16)
        self.assertIn(b"event: snap", told)

    def test_without_a_page_no_process_is_kept_and_with_one_it_is_again(self):
        self.server.hub.pages.clear()
        self.server.rest()
        self.assertEqual((self.session.here, self.session.folder), (None, None))
        self.stream(PAGE)
        for _ in range(200):
            if self.session.here:
                break
            threading.Event().wait(0.05)
        self.assertIsNotNone(self.session.here)
        self.assertEqual(self.do("check"), 200)

    def test_what_is_taken_away(self):
        self.assertEqual(self.call("GET", self.root + "journal.txt")[2].split(b"\n")[-2], b"end")
        self.assertEqual(json.loads(self.call("GET", self.root + "assembled.json")[2])["controller"], "Conveyor")

    def test_the_end_of_the_page(self):
        with mock.patch.object(self.server, "shutdown") as ended:
            self.assertEqual(self.do("end"), 200)
            threading.Event().wait(0.6)
        ended.assert_called_once_with()


class Files(unittest.TestCase):
    """What the page's own files may not have."""

    FORBIDDEN = re.compile(r"innerHTML|outerHTML|insertAdjacentHTML|document\.write|\beval\b|new Function|setTimeout\(\s*[\"'`]|javascript:")

    def text(self, name):
        return read_text(f"{PARTS}/{name}")

    def test_no_text_becomes_html(self):
        for name in ("page.js", "ladder.js", "panels.js"):
            self.assertIsNone(self.FORBIDDEN.search(self.text(name)), name)
        self.assertIsNotNone(self.FORBIDDEN.search(self.text("ladder.js").replace("textContent", "innerHTML")))

    def test_nothing_inline_and_nothing_from_elsewhere(self):
        html = self.text("page.html")
        inline = re.compile(r"<script(?![^>]*\bsrc=)|<style|\sstyle=|\son\w+=|https?://")
        self.assertIsNone(inline.search(html))
        self.assertIsNotNone(inline.search(html.replace('id="ladder"', 'id="ladder" onclick="x"')))

    def test_their_sizes(self):
        for name in os.listdir(PARTS):
            if name.endswith(".py"):
                self.assertLessEqual(self.text(name).count("\n"), 250, name)

    # Contrast

    PAIRS = [("ink", "back"), ("ink", "panel"), ("ink", "pick"), ("quiet", "back"), ("quiet", "panel"), ("quiet", "pick"), ("on", "on-back"), ("on", "back"), ("pick-line", "back"),
             ("pick-line", "panel"), ("pick-line", "pick"), ("fault", "fault-back"), ("fault", "back"), ("past", "past-back"), ("past", "back"), ("past", "panel"), ("past", "pick"), ("back", "ink")]

    @staticmethod
    def light(colour):
        digits = colour.lstrip("#")
        digits = "".join(digit * 2 for digit in digits) if len(digits) == 3 else digits
        parts = [int(digits[at:at + 2], 16) / 255 for at in (0, 2, 4)]
        parts = [part / 12.92 if part <= 0.04045 else ((part + 0.055) / 1.055) ** 2.4 for part in parts]
        return 0.2126 * parts[0] + 0.7152 * parts[1] + 0.0722 * parts[2]

    def contrasts(self, css):
        for block in re.findall(r":root \{(.*?)\}", css, re.S):
            colours = dict(re.findall(r"--([\w-]+): (#\w+)", block))
            for front, back in self.PAIRS:
                light, dark = sorted((self.light(colours[front]), self.light(colours[back])), reverse=True)
                yield (light + 0.05) / (dark + 0.05), front, back

    def test_contrast(self):
        css = self.text("page.css")
        told = list(self.contrasts(css))
        self.assertEqual(len(told), 2 * len(self.PAIRS))
        for ratio, front, back in told:
            self.assertGreaterEqual(ratio, 4.5, (front, back))
        self.assertLess(min(self.contrasts(css.replace("#59626b", "#8a949e")))[0], 4.5)


if __name__ == "__main__":
    unittest.main()
