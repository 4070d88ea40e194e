"""The page under test: the server, pressing its keys, and what the tool says to the same question."""
import os
import re
import subprocess
import sys

from driver import Driver

NAMES = [f"{digit}{suit}" for suit in "mps" for digit in "123456789"] + list("ESWNPFC")


class Checks:
    """Counts checks; one that fails is told and does not end the run."""

    def __init__(self):
        self.passed, self.failed = 0, []

    def same(self, what, shown, wanted):
        if shown == wanted:
            self.passed += 1
        else:
            self.failed.append(what)
            print(f"FAILED {what}\n  shown  {shown!r}\n  wanted {wanted!r}")

    def true(self, what, holds):
        self.same(what, bool(holds), True)


def server(tool, root, environment=None):
    """Starts a server over a tool on a free port; the process and its address."""
    words = [sys.executable, f"{root}/desk/server", "--tool", tool, "--port", "0"]
    process = subprocess.Popen(words, stdout=subprocess.PIPE, text=True, env=environment)
    address = re.search(r"http://\S+/", process.stdout.readline()).group(0)
    return process, address


def tiles_of(text):
    """The tiles of a text such as 123m99pEE, each by its name."""
    return [digit + part[-1] for part in re.findall(r"[1-9]+[mps]|[ESWNPFC]", text) for digit in (part[:-1] or [""])]


class Desk:
    def __init__(self, root, tool, folder):
        self.root, self.tool, self.folder, self.checks = root, tool, folder, Checks()
        self.patience = max(1, os.getloadavg()[0] / os.cpu_count())  # with other work on the machine, answers may take so much longer
        self.process, self.address = server(tool, root)
        self.browser = Driver()

    # ---- the tool

    def raw(self, line, given=None):
        """What the tool prints for a command line."""
        return subprocess.run([self.tool, *line.split()], input=given, capture_output=True, text=True).stdout

    def ask(self, line, given=None):
        """The same as lists by key."""
        found = {}
        for row in self.raw(line, given).splitlines():
            key, _, rest = row.partition(" ")
            found.setdefault(key, []).append(rest)
        return found

    # ---- the page

    def open(self, address=None):
        self.browser.open(address or self.address)
        self.browser.wait("return document.querySelector('#row .part') !== null && document.querySelectorAll('#choices .choice').length > 0")

    def settle(self):
        """Waits until the answer to the last key stands there."""
        self.browser.wait("return document.querySelector('#hand [aria-busy=true], #evening[aria-busy=true], #damage[aria-busy=true]') === null", seconds=60)

    def click(self, selector):
        self.browser.click(selector)
        self.settle()

    def press(self, *tiles):
        for tile in tiles:
            self.click(f"#tiles [data-tile='{tile}']")

    def choose(self, group, value):
        self.click(f"#{group} [data-value='{value}']")

    def fresh(self):
        """A new hand at the first deal's table."""
        self.click("#clear")
        self.choose("dealer", 0)
        self.choose("wind", 0)

    def steps(self, notation):
        """What is pressed for a hand that is given in notation: a new hand, melds, tiles, the winning tile, and the rest."""
        words = notation.split()
        concealed, _, winning = words[0].partition("+")
        tile = "#tiles [data-tile='{}']".format
        choice = "#{} [data-value='{}']".format
        steps = ["#clear", choice("dealer", 0), choice("wind", 0)]
        for word in words[1:]:
            key, _, value = word.partition("=")
            if key in ("chi", "pon", "kan", "ankan"):
                steps += [choice("mode", key), tile(sorted(tiles_of(value), key=NAMES.index)[0])]
        steps += map(tile, tiles_of(concealed) + tiles_of(winning))
        for word in words[1:]:
            key, _, value = word.partition("=")
            if key in ("seat", "dealer"):
                steps.append(choice(key, value))
            elif key == "wind":
                steps.append(choice(key, {"E": 0, "S": 1}.get(value, value)))
            elif key in ("indicator", "discards"):
                steps += [choice("mode", key.rstrip("s")), *map(tile, tiles_of(value))]
            elif key in ("riichi", "double"):
                steps.append(choice("riichi", key))
            elif key in ("rinshan", "chankan", "last", "first"):
                steps.append(choice("situation", key))
            elif key in ("ron", "tsumo"):
                steps.append(choice("how", word))
        return steps

    def key_in(self, notation, mouse=False):
        """Keys a hand in: by the mouse, click by click, or by a script in the page that presses the same keys."""
        if mouse:
            for step in self.steps(notation):
                self.click(step)
        else:
            self.browser.run_through(self.steps(notation))

    def read(self, text):
        """Types a hand into the field."""
        self.browser.run("document.querySelector('#typed-text').value = ''")
        self.browser.type("#typed-text", text)
        self.click("#typed button")

    def amounts(self):
        """What each seat pays or gets, as numbers, seats 0 to 3."""
        shown = self.browser.run("return [0, 1, 2, 3].map((seat) => document.querySelector(`#answer .seat[data-seat='${seat}'] .amount`)?.innerText ?? '')")
        return " ".join(text.replace("−", "-").replace("+", "").replace(",", "") for text in shown)

    def view(self, name):
        self.click(f"#tab-{name}")

    def speak(self, number):
        self.browser.run("document.activeElement?.blur()")
        self.browser.keys(str(number))
        self.settle()

    def picture(self, name, whole=True):
        self.browser.picture(f"{self.folder}/{name}.png", whole)

    def end(self):
        self.browser.end()
        self.process.terminate()
        self.process.wait()
