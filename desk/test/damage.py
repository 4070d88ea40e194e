"""Damage: every change of a record and of a log, its counts by refusal against the tool's, progress, and a stop."""


def counts(desk):
    """The table as the page shows it: heads, then rows."""
    return desk.browser.run("""return [...document.querySelectorAll('#damage .counts tr')].map((row) => [...row.cells].map((cell) => cell.innerText.replace(/,/g, '')))""")


def wanted(found):
    """The same from the tool's lines."""
    kinds = {"bit-changed": "a bit changed", "cut": "cut", "bytes-swapped": "two bytes swapped"}
    lines = {kind: found[kind][0].split() for kind in kinds}
    met = [at for at in range(22) if any(line[at + 1] != "0" for line in lines.values())]
    heads = ["Change", "Tried", *("Accepted" if at == 0 else str(at) for at in met)]
    return [heads, *([kinds[kind], line[0], *(line[at + 1] for at in met)] for kind, line in lines.items())]


def run(desk):
    same, browser = desk.checks.same, desk.browser
    notation = "234567m345p67s22s+8s seat=1 ron=3"
    desk.key_in(notation)
    desk.view("damage")
    desk.click("#start")
    same("a record damaged", counts(desk), wanted(desk.ask(f"damage hand {notation} --plain")))
    same("both scorers", browser.text("#damage .verdict"), "✓ Both scorers agree")
    desk.view("evening")
    with open(f"{desk.root}/docs/evening.txt") as file:
        text = file.read()
    browser.type("#load", f"{desk.root}/docs/evening.txt")
    desk.settle()
    desk.view("damage")
    desk.click("#damage [data-value='log']")
    desk.click("#start")
    same("a log damaged", counts(desk), wanted(desk.ask("damage log - as=text --plain", text)))
    desk.picture("damage")

    # A long log: the bar moves, and it can be stopped.
    desk.view("evening")
    with open(f"{desk.folder}/long.log", "wb") as file:
        file.write(bytes.fromhex(desk.ask("game - as=text language=2", text)["log"][0]) * 40)
    browser.type("#load", f"{desk.folder}/long.log")
    desk.settle()
    desk.view("damage")
    browser.click("#start")
    browser.wait("return document.querySelector('#progress')?.value > 0", seconds=30)
    desk.picture("damage-under-way")
    first = browser.run("return document.querySelector('#progress').value")
    browser.wait("return document.querySelector('#progress').value > arguments[0]", first, seconds=30)
    desk.click("#stop")
    desk.checks.true("stopped", "Stopped after" in browser.text("#damage .fault"))
    desk.view("evening")
    desk.click("#fresh")
