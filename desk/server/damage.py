"""The tool's damage as a stream: lines `progress TRIED TOTAL` while it runs, then its lines. A browser that goes away ends it."""
from threading import BoundedSemaphore, Thread, Timer

from tool import LONGEST, Bad, told

ROOM = BoundedSemaphore(2)


def stream(handler, words, body):
    """Runs the tool and hands its lines on in chunks."""
    if not ROOM.acquire(blocking=False):
        raise Bad("two are under way already, stop one first")
    try:
        process = handler.server.tool.begin(words)
        clock = Timer(LONGEST, process.kill)
        clock.start()
        try:
            run(handler, process, body)
        finally:
            clock.cancel()
            process.kill()
            process.wait()
            for end in (process.stdin, process.stdout, process.stderr):
                end.close()
    finally:
        ROOM.release()


def run(handler, process, body):
    """The lines of standard error as they come, then the rest; bad input is told before the stream begins."""
    lent = Thread(target=lend, args=(process, body), daemon=True)
    lent.start()
    begun, other = False, []
    for line in process.stderr:
        if not line.startswith(b"progress "):
            other.append(line)
            continue
        begun = begun or begin(handler)
        chunk(handler, line)
    out = process.stdout.read()
    status = process.wait()
    try:
        answer = out + told(status, b"".join(other)) if status >= 0 else f"ended after {LONGEST} seconds\n".encode()
    except Bad as bad:
        if not begun:
            raise
        answer = f"ended {bad}\n".encode()
    begun or begin(handler)
    chunk(handler, answer)
    handler.wfile.write(b"0\r\n\r\n")


def lend(process, body):
    """Gives the tool its input; it may end before it has read all of it."""
    try:
        process.stdin.write(body)
        process.stdin.close()
    except (BrokenPipeError, ValueError, OSError):
        pass


def begin(handler):
    handler.head(200, {"Content-Type": "text/plain; charset=utf-8", "Transfer-Encoding": "chunked"})
    return True


def chunk(handler, content):
    if content:
        handler.wfile.write(b"%x\r\n%s\r\n" % (len(content), content))
        handler.wfile.flush()
