"""Without the program espeak-ng the words stand alone, with a line that says how to have the sound."""
from desk import server


def run(desk, root):
    process, address = server(desk.tool, root, {"PATH": "/nowhere"})
    try:
        desk.open(address)
        desk.key_in("112233m778899p5s+5s seat=1 ron=3")
        desk.checks.same("no button to hear it", desk.browser.run("return document.querySelectorAll('.hear').length"), 0)
        desk.checks.same("how to have the sound", desk.browser.text(".speech .hint"), "To hear it, install the voice: apt-get install espeak-ng")
        desk.checks.same("the answer is as with it", desk.amounts(), "0 5200 0 -5200")
    finally:
        process.terminate()
        process.wait()
