"""Requests that no page makes: each gets a status 400 and one line, nothing outside the page can be read, and the server goes on."""
import http.client
import socket
import subprocess
from urllib.parse import urlencode, urlsplit

LINE_1 = "/ask/draft?words=234567m345p67s22s%2B8s+seat%3D1+ron%3D3&language=2"


def asked(address, path, method="GET", body=None, **headers):
    """The status and the text of a request."""
    link = http.client.HTTPConnection(address.hostname, address.port, timeout=30)
    try:
        link.request(method, path, body, {name.replace("_", "-"): value for name, value in headers.items()})
        response = link.getresponse()
        return response.status, response.read().decode("utf-8", "replace")
    finally:
        link.close()


def raw(address, content):
    """What the server sends back to bytes as they are."""
    with socket.create_connection((address.hostname, address.port), timeout=30) as link:
        link.sendall(content)
        link.shutdown(socket.SHUT_WR)
        return b"".join(iter(lambda: link.recv(65536), b""))


def messages(desk, address):
    """What is wrong is told by the words and lines that the person typed, and by the name of the file."""
    ask = lambda words: asked(address, f"/ask/draft?{urlencode({'words': words, 'language': 2})}")[1].strip()
    game = lambda body, **more: asked(address, f"/ask/game?{urlencode({'language': 2, **more})}", "POST", body)[1].strip()
    same, seat = desk.checks.same, "a seat is 0, 1, 2 or 3, or E S W N by the first deal's winds"
    same("the first word is word 1", ask("seat=9 1m"), f"word 1, \"seat=9\": {seat}")
    same("quotation marks are left out", ask("“1m” seat=9"), f"word 2, \"seat=9\": {seat}")
    same("a line of a file", game(b"riichi 1\nchombo X\n", called="my evening.txt"), f"my evening.txt, line 2, word 2, \"X\": {seat} (up to 15 to see it refused)")
    same("a line that was typed", game(b"draw 0 X\n"), f"line 1, word 3, \"X\": {seat}; draw alone: nobody is ready")
    same("a booking that is cut", game(b"01", **{"as": "hex", "more": "win b8"}), "\"b8\": refusal 14, the log's entry is bad or cut: bytes missing")
    desk.checks.true("a booking by keys", "\ntext draw 1\n" in game(b"01", **{"as": "hex", "more": "draw 1"}))


def run(desk):
    address = urlsplit(desk.address)
    messages(desk, address)
    host = f"Host: 127.0.0.1:{address.port}"
    good = lambda: asked(address, LINE_1)[0] == 200
    desk.checks.true("a good question is answered", good())
    for what, request in {
        "an address that is not there": dict(path="/nothing"),
        "a file outside": dict(path="/../run.sh"),
        "a file outside, hidden": dict(path="/%2e%2e/server/tool.py"),
        "a file outside, twice": dict(path="/..%2f..%2f..%2fetc/passwd"),
        "a whole path": dict(path="//etc/passwd"),
        "an option": dict(path="/ask/draft?words=--help&language=2"),
        "help": dict(path="/ask/draft?words=help&language=2"),
        "help in capitals": dict(path="/ask/draft?words=Help&language=2"),
        "an option of a letter": dict(path="/ask/draft?words=-h&language=2"),
        "an option in quotation marks": dict(path="/ask/draft?words=%E2%80%9C--plain%E2%80%9D&language=2"),
        "an option in full-width signs": dict(path="/ask/draft?words=%EF%BC%8D%EF%BC%8Dplain&language=2"),
        "an option behind a dash": dict(path="/ask/draft?words=%E2%80%94plain&language=2"),
        "no such language": dict(path="/ask/draft?words=1m&language=5"),
        "a language that is none": dict(path="/ask/draft?words=1m&language=--plain"),
        "a control sign": dict(path="/ask/draft?words=1m%00&language=2"),
        "too many words": dict(path="/ask/draft?words=" + "1" * 2000 + "&language=2"),
        "no query": dict(path="/ask/draft?words"),
        "no text": dict(path="/ask/draft?words=%ff%fe&language=2"),
        "no tiles": dict(path="/ask/draft?words=hello&language=2"),
        "another name": dict(path="/", Host="attacker.example"),
        "another name with the port": dict(path="/", Host=f"attacker.example:{address.port}"),
        "another page": dict(path=LINE_1, Origin="http://attacker.example"),
        "no page": dict(path=LINE_1, Origin="null"),
        "a page elsewhere on this machine": dict(path=LINE_1, Origin="http://127.0.0.1:1"),
        "another site": dict(path=LINE_1, Sec_Fetch_Site="cross-site"),
        "a post to a question": dict(path=LINE_1, method="POST", body=b""),
        "a get of a booking": dict(path="/ask/game?language=2"),
        "another method": dict(path="/", method="DELETE"),
        "a method that is none": dict(path="/", method="NONE"),
        "a log that is no text": dict(path="/ask/game?as=text&language=2", method="POST", body=b"\xff\xff"),
        "a name with a control sign": dict(path="/ask/game?called=%01&language=2", method="POST", body=b""),
        "a booking too long": dict(path="/ask/game?as=hex&more=" + "1" * 2000 + "&language=2", method="POST", body=b""),
        "a form that is none": dict(path="/ask/game?as=to%3D/tmp/x&language=2", method="POST", body=b""),
        "a body too long": dict(path="/ask/game?language=2", method="POST", body=b"0" * ((1 << 20) + 1)),
        "a sound of nothing": dict(path="/ask/sound?of=all&language=2", method="POST", body=b""),
        "a sound of a refused hand": dict(path="/ask/sound?of=score&words=1111m44m77m22p55p8p%2B8p+seat%3D1+ron%3D3&language=2", method="POST", body=b""),
        "damage of nothing": dict(path="/ask/damage?of=hand&words=", method="POST", body=b""),
        "damage without a number": dict(path="/ask/damage?of=hand&words=b81e&random=x", method="POST", body=b""),
        "damage by an option": dict(path="/ask/damage?of=hand&words=b81e+--show", method="POST", body=b""),
    }.items():
        status, text = asked(address, **request)
        desk.checks.same(f"{what}: 400 and one line", (status, text.count("\n"), text.strip() != ""), (400, 1, True))
        desk.checks.true(f"{what}: the server goes on", good())
    for what, content in {
        "no request": b"hello\r\n\r\n",
        "bytes": bytes(range(256)),
        "a line without an end": b"GET /" + b"a" * 100000,
        "a header without an end": b"GET / HTTP/1.1\r\n" + host.encode() + b"\r\nX: " + b"a" * 100000 + b"\r\n\r\n",
        "too many headers": b"GET / HTTP/1.1\r\n" + host.encode() + b"\r\n" + b"X: 1\r\n" * 200 + b"\r\n",
        "two lengths": f"POST /ask/game?language=2 HTTP/1.1\r\n{host}\r\nContent-Length: 1\r\nContent-Length: 2\r\n\r\n1".encode(),
        "a length below zero": f"POST /ask/game?language=2 HTTP/1.1\r\n{host}\r\nContent-Length: -1\r\n\r\n".encode(),
        "a length that is no number": f"POST /ask/game?language=2 HTTP/1.1\r\n{host}\r\nContent-Length: ٣\r\n\r\n".encode(),
        "chunks": f"POST /ask/game?language=2 HTTP/1.1\r\n{host}\r\nTransfer-Encoding: chunked\r\n\r\n0\r\n\r\n".encode(),
        "no name": b"GET / HTTP/1.1\r\n\r\n",
        "two names": f"GET / HTTP/1.1\r\n{host}\r\nHost: attacker.example\r\n\r\n".encode(),
    }.items():
        back = raw(address, content)
        body = back.partition(b"\r\n\r\n")[2]
        desk.checks.same(f"{what}: 400 and one line", (back[:12], body.count(b"\n")), (b"HTTP/1.1 400", 1))
        desk.checks.true(f"{what}: the server goes on", good())
    links = [socket.create_connection((address.hostname, address.port)) for _ in range(300)]
    desk.checks.true("three hundred silent connections do not stop it", good())
    [link.close() for link in links]
    others = subprocess.run(["hostname", "-I"], capture_output=True, text=True).stdout.split()
    for other in [name for name in others if ":" not in name]:
        desk.checks.true("it cannot be reached from another machine", refuses(other, address.port))


def refuses(name, port):
    try:
        socket.create_connection((name, port), timeout=5).close()
    except OSError:
        return True
    return False
