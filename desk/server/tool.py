"""Runs the tester's tool: words as a list, never a shell. An answer is what the tool printed, with its exit status; bad input is raised."""
import os
import subprocess
import tempfile
from collections import OrderedDict
from threading import BoundedSemaphore, Lock

SECONDS = 20  # for an answer
LONGEST = 600  # seconds, for damage
KEPT = 512  # answers, none longer than this:
SHORT = 100_000
AT_ONCE = 8  # tools that run at a time


class Bad(Exception):
    """Bad input, in one line."""


class Tool:
    def __init__(self, path):
        self.path, self.kept, self.lock, self.room = os.path.abspath(path), OrderedDict(), Lock(), BoundedSemaphore(AT_ONCE)
        self.clips = self.answer(["clips", "--plain"])

    def begin(self, words):
        """Starts the tool with these words; it finds no file but those that the server names."""
        return subprocess.Popen([self.path, *words], stdin=subprocess.PIPE, stdout=subprocess.PIPE, stderr=subprocess.PIPE, cwd="/")

    def answer(self, words, given=b""):
        """What the tool prints, and behind it a line `differs ..` for each line about a difference. The same question is asked once."""
        key = (*words, given)
        with self.lock:
            if key in self.kept:
                self.kept.move_to_end(key)
                return self.kept[key]
        answer = self.ask(words, given)
        if len(given) + len(answer) < SHORT:
            with self.lock:
                self.kept[key] = answer
                while len(self.kept) > KEPT:
                    self.kept.popitem(last=False)
        return answer

    def ask(self, words, given):
        """Runs the tool to its end, or until its time is over."""
        with self.room, self.begin(words) as process:
            try:
                out, err = process.communicate(given, timeout=SECONDS)
            except subprocess.TimeoutExpired:
                process.kill()
                raise Bad(f"no answer within {SECONDS} seconds") from None
        return out + told(process.returncode, err)

    def sound(self, words, given=b""):
        """The sound of a message, which the tool writes into a folder that is taken away."""
        with tempfile.TemporaryDirectory() as folder:
            path = os.path.join(folder, "said.wav")
            self.ask([words[0], "--wav", path, *words[1:]], given)
            if not os.path.exists(path):
                raise Bad("there is nothing to be heard")
            with open(path, "rb") as file:
                return file.read()


def told(status, err):
    """What standard error said: nothing, or the lines about differences; bad input is raised."""
    lines = err.decode("utf-8", "replace").splitlines()
    if status not in (0, 1):
        line = next((line for line in lines if line.startswith("tester: ")), "tester: the tool stopped")
        raise Bad(line.removeprefix("tester: "))
    return "".join(f"differs {line.removeprefix('!!!').strip()}\n" for line in lines if line.startswith("!!!")).encode()
