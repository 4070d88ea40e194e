"""The desk handset's server: python3 desk/server --tool PATH [--port N]. Listens on 127.0.0.1 alone, prints its address, stays until interrupted."""
import argparse
import errno
import signal
import socket
import sys
from http.server import ThreadingHTTPServer
from threading import Lock

from handler import Handler
from pages import load
from tool import Bad, Tool

CONNECTIONS = 100  # at a time
ANOTHER = "such as bash desk/run.sh {}"


class Server(ThreadingHTTPServer):
    """A thread for each connection. Where there are too many, the one that has been silent for longest is closed for the new one."""
    daemon_threads = True
    request_queue_size = 64

    def __init__(self, address, tool):
        super().__init__(address, Handler)
        self.tool, self.pages = tool, load()
        self.connections, self.silent, self.lock = 0, {}, Lock()

    def process_request(self, request, client_address):
        with self.lock:
            full = self.connections >= CONNECTIONS
            oldest = next(iter(self.silent), None) if full else None
            if oldest is not None:
                del self.silent[oldest]
                hang_up(oldest)
            if not full or oldest is not None:
                self.connections += 1
                self.silent[request] = True
        if full and oldest is None:
            return self.shutdown_request(request)
        super().process_request(request, client_address)

    def process_request_thread(self, request, client_address):
        try:
            super().process_request_thread(request, client_address)
        finally:
            with self.lock:
                self.connections -= 1
                self.silent.pop(request, None)

    def hears(self, request, something):
        """A connection has asked something, or is silent again."""
        with self.lock:
            self.silent.pop(request, None)
            if not something:
                self.silent[request] = True

    def handle_error(self, request, client_address):
        """A connection that breaks is the browser's affair; anything else is said in one line."""
        error = sys.exc_info()[1]
        if not isinstance(error, (ConnectionError, TimeoutError)):
            print(f"desk: {type(error).__name__}: {error}", file=sys.stderr)


def hang_up(request):
    """Ends a connection; its thread sees that nothing more comes."""
    try:
        request.shutdown(socket.SHUT_RDWR)
    except OSError:
        pass


def port_of(text):
    """A port from the command line."""
    if not (text.isascii() and text.isdigit() and len(text) < 6 and int(text) < 65536):
        sys.exit(f"desk: {text} is no port; choose a number from 1024 to 65535, {ANOTHER.format(9000)}")
    return int(text)


def listen(port, tool):
    """A server at a port that nothing else has."""
    try:
        return Server(("127.0.0.1", port), tool)
    except OSError as error:
        why = {errno.EADDRINUSE: "is taken, perhaps by a desk handset that runs already", errno.EACCES: "needs an administrator"}
        told = why.get(error.errno, f"cannot be had ({error.strerror})")
        sys.exit(f"desk: port {port} {told}; choose another one, {ANOTHER.format(9001 if port == 9000 else 9000)}")


def tool_at(path):
    """The tool, which answers."""
    try:
        return Tool(path)
    except (OSError, Bad) as error:
        sys.exit(f"desk: the tool {path} does not answer ({getattr(error, 'strerror', None) or error}); bash interface/build.sh builds it")


def main():
    parser = argparse.ArgumentParser(description="The desk handset's server.")
    parser.add_argument("--tool", required=True, help="the tester's tool")
    parser.add_argument("--port", type=port_of, default=8039, help="0 takes a free one")
    given = parser.parse_args()
    server = listen(given.port, tool_at(given.tool))
    for number in (signal.SIGINT, signal.SIGTERM):
        signal.signal(number, signal.default_int_handler)
    print(f"the desk handset is at http://127.0.0.1:{server.server_port}/ (Ctrl-C ends it)", flush=True)
    try:
        server.serve_forever()
    except KeyboardInterrupt:
        print()


main()
