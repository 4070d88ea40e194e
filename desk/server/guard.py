"""Which requests are answered at all: those of a page that this server gave out, on this machine."""
from tool import Bad

LONGEST = 1 << 20  # bytes of a body


def check_source(headers, port):
    """The name in Host has to be this machine's own (a foreign name may lead here too), and a page that asks has to be this server's."""
    names = {f"127.0.0.1:{port}", f"localhost:{port}"}
    if headers.get("Host") not in names or len(headers.get_all("Host")) != 1:
        raise Bad("the address is 127.0.0.1 alone")
    origin = headers.get("Origin")
    if origin is not None and origin not in {f"http://{name}" for name in names}:
        raise Bad("another page may not ask here")
    if headers.get("Sec-Fetch-Site", "none") not in ("same-origin", "none"):
        raise Bad("another page may not ask here")


def length_of(headers):
    """How long the body is."""
    if headers.get("Transfer-Encoding") is not None:
        raise Bad("a body has a length")
    given = headers.get("Content-Length", "0")
    if not (given.isascii() and given.isdigit()) or len(headers.get_all("Content-Length", [])) > 1:
        raise Bad("a length is a number")
    length = int(given[:20])
    if length > LONGEST:
        raise Bad(f"over {LONGEST} bytes")
    return length
