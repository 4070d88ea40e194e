"""Answers a request: a file of the page, or what the tool says. Anything else gets a status 400 and one line."""
import shutil
import socket
from http.server import BaseHTTPRequestHandler
from urllib.parse import parse_qsl, urlsplit

import questions
from damage import stream
from guard import LONGEST, check_source, length_of
from tool import Bad

HEADERS = {
    "Content-Security-Policy": "default-src 'none'; script-src 'self'; style-src 'self'; img-src 'self' data:; media-src blob:; "
                               "connect-src 'self'; base-uri 'none'; form-action 'none'; frame-ancestors 'none'",
    "X-Content-Type-Options": "nosniff",
    "Referrer-Policy": "no-referrer",
    "Cross-Origin-Resource-Policy": "same-origin",
    "Cache-Control": "no-store",
}
TEXT = "text/plain; charset=utf-8"


class Handler(BaseHTTPRequestHandler):
    protocol_version = "HTTP/1.1"
    server_version = "desk"
    sys_version = ""
    timeout = 15  # seconds without a byte
    disable_nagle_algorithm = True

    def do_GET(self):
        self.answer({"/ask/draft": self.draft, "/ask/sheet": self.sheet})

    def do_POST(self):
        self.answer({"/ask/game": self.game, "/ask/text": self.text, "/ask/sound": self.sound, "/ask/damage": self.damage})

    def answer(self, asked):
        """Checks the request, and answers it by its address."""
        self.server.hears(self.connection, True)
        try:
            self.check_and_answer(asked)
        finally:
            self.server.hears(self.connection, False)

    def check_and_answer(self, asked):
        try:
            check_source(self.headers, self.server.server_port)
            address = urlsplit(self.path)
            fields = parse_qsl(address.query, keep_blank_values=True, strict_parsing=bool(address.query), errors="strict", max_num_fields=10)
            body = self.rfile.read(length_of(self.headers))
            if address.path in asked:
                asked[address.path](dict(fields), body)
            elif self.command == "GET" and address.path in self.server.pages:
                self.give(*self.server.pages[address.path])
            else:
                raise Bad("there is nothing at this address")
        except (Bad, ValueError) as bad:
            self.refuse(bad)

    def draft(self, given, _):
        self.give(TEXT, self.server.tool.answer(questions.draft(given)))

    def sheet(self, given, _):
        """The sheet of clips; before it whether there is a voice."""
        voice = b"1" if shutil.which("espeak-ng") else b"0"
        self.give(TEXT, b"voice\t" + voice + b"\n" + self.server.tool.clips)

    def game(self, given, body):
        self.give(TEXT, self.server.tool.answer(questions.game(given), body))

    def text(self, given, body):
        self.give(TEXT, self.server.tool.answer(questions.text(given), body))

    def sound(self, given, body):
        self.give("audio/wav", self.server.tool.sound(questions.sound(given), body))

    def damage(self, given, body):
        stream(self, questions.damage(given), body)

    def head(self, status, more):
        self.send_response(status)
        for name, value in {**HEADERS, **more}.items():
            self.send_header(name, value)
        self.end_headers()

    def give(self, kind, content, status=200):
        self.head(status, {"Content-Type": kind, "Content-Length": str(len(content))})
        self.wfile.write(content)

    def refuse(self, why):
        """One line, and the connection ends, as a body may be left unread; some of it is taken in, so that the line is not lost."""
        self.close_connection = True
        if self.request_version not in ("HTTP/1.0", "HTTP/1.1"):
            self.request_version = "HTTP/1.1"
        line = " ".join(str(why).split())[:500]
        self.head(400, {"Content-Type": TEXT, "Content-Length": str(len(line.encode()) + 1), "Connection": "close"})
        self.wfile.write(f"{line}\n".encode())
        try:
            self.connection.shutdown(socket.SHUT_WR)
            self.connection.settimeout(1)
            left = 4 * LONGEST
            while left > 0 and (some := self.rfile.read1(65536)):
                left -= len(some)
        except OSError:
            pass

    def send_error(self, code, message=None, explain=None):
        """What http.server itself finds wrong with a request."""
        self.refuse(message or "a bad request")

    def log_message(self, format, *arguments):
        """Nothing is said of a request."""
