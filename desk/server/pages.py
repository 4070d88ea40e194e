"""The files of desk/page, read once at the start: what a browser asks for is looked up among them, and no file is opened for it."""
import os

FOLDER = os.path.join(os.path.dirname(os.path.dirname(os.path.abspath(__file__))), "page")
TYPES = {".html": "text/html", ".css": "text/css", ".js": "text/javascript", ".svg": "image/svg+xml"}


def load():
    """Each file's type and bytes by its address; / is index.html."""
    pages = {}
    for folder, _, names in os.walk(FOLDER):
        for name in names:
            path = os.path.join(folder, name)
            kind = TYPES.get(os.path.splitext(name)[1])
            if kind:
                with open(path, "rb") as file:
                    pages["/" + os.path.relpath(path, FOLDER).replace(os.sep, "/")] = (f"{kind}; charset=utf-8", file.read())
    pages["/"] = pages["/index.html"]
    return pages
