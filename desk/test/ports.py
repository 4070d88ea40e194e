"""A port that is taken, is none or may not be had, and a tool that is not there: one plain sentence that says what to do, and exit status 1."""
import subprocess
import sys
from urllib.parse import urlsplit

ANOTHER = "such as bash desk/run.sh 9000"


def run(desk):
    taken = urlsplit(desk.address).port
    for words, line in (
        (["--tool", desk.tool, "--port", str(taken)], f"desk: port {taken} is taken, perhaps by a desk handset that runs already; choose another one, {ANOTHER}"),
        (["--tool", desk.tool, "--port", "99999"], f"desk: 99999 is no port; choose a number from 1024 to 65535, {ANOTHER}"),
        (["--tool", desk.tool, "--port", "000000001"], f"desk: 000000001 is no port; choose a number from 1024 to 65535, {ANOTHER}"),
        (["--tool", desk.tool, "--port", "desk"], f"desk: desk is no port; choose a number from 1024 to 65535, {ANOTHER}"),
        (["--tool", "/nowhere/tester"], "desk: the tool /nowhere/tester does not answer (No such file or directory); bash interface/build.sh builds it"),
    ):
        ran = subprocess.run([sys.executable, f"{desk.root}/desk/server", *words], capture_output=True, text=True, timeout=30)
        desk.checks.same(f"server {words[-1]}", (ran.returncode, ran.stdout, ran.stderr), (1, "", f"{line}\n"))
