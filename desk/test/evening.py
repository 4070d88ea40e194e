"""The evening: bookings by keys, document 01's example in two clicks, a correction, a multiple ron, a pao, files, and a damaged log."""
import os
import time

BOOKED = [  # docs/evening.txt, as it is booked by keys
    ("riichi", 1), ("draw", [1]), ("win", "234567m345p67s22s+8s seat=1 ron=3"), ("riichi", 2), ("riichi", 2),
    ("win", "112233m778899p5s+5s seat=2 ron=0 riichi indicator=8p"), ("win", "456p78s234s99p+9s chi=123m seat=1 ron=3"),
    ("chombo", 1), ("draw", [0, 3]), ("win", "23m555p77sPPP+1m pon=EEE seat=0 tsumo"),
]


def rows(desk):
    """The entries as lines of tally: number, refusal, scores, sticks."""
    script = """return [...document.querySelectorAll('.entries tr.entry')].map((row) => [row.dataset.entry, row.dataset.refusal,
        ...[3, 4, 5, 6].map((at) => row.cells[at].firstChild.textContent.replace(/,/g, '').replace('−', '-')), row.cells[7].innerText].join(' '))"""
    return desk.browser.run(script)


def compare(desk, what, log):
    """The entries, the position and the bytes that the page shows, against the tool's."""
    same, browser = desk.checks.same, desk.browser
    tally = [line.split() for line in desk.raw(f"tally - as=text --plain", log).splitlines()]
    same(f"{what}: entries", rows(desk), [" ".join([line[0], *line[2:]]) for line in tally])
    game = desk.ask("game - as=text language=2", log)
    now = game["now"][0].split()
    same(f"{what}: scores", browser.run("return [0, 1, 2, 3].map((seat) => document.querySelector(`#evening .seat[data-seat='${seat}'] .amount`).innerText.replace(/,/g, '').replace('−', '-')).join(' ')"), game["scores"][0])
    same(f"{what}: sticks and counter", [browser.text("#sticks"), browser.text("#counter")], [f"sticks {now[2]}", f"counters {now[3]}"])
    same(f"{what}: dealer", browser.run("return document.querySelector('#evening .seat:has(.dealer-mark)').dataset.seat"), now[0])
    same(f"{what}: deal", browser.text("#evening .limit"), "over" if now[5] != "0" else f"{['East', 'South'][int(now[1])]} {int(now[0]) + 1}")
    same(f"{what}: bytes", browser.run("return document.querySelector('#log-bytes').textContent.replace(/ /g, '')"), game["log"][0])
    same(f"{what}: text", browser.run("return document.querySelector('#log-text').value.trimEnd().split('\\n')"), [line for line in desk.raw("log - as=hex --plain", game["log"][0]).splitlines()] or [""])
    said = browser.run("return [...document.querySelectorAll('#evening .speech [data-clip]')].map((clip) => clip.dataset.clip).join(' ')")
    same(f"{what}: said", said, game["clips"][0])
    same(f"{what}: both scorers", browser.text("#evening .verdict"), "✓ Both scorers agree")
    lines = browser.run("return document.querySelectorAll('.chart polyline').length")
    same(f"{what}: four lines", lines, 4)


def book(desk, kind, value):
    """Books by keys."""
    if kind in ("riichi", "chombo"):
        desk.click(f"#book-{kind} [data-value='{value}']")
    elif kind == "draw":
        for seat in value:
            desk.click(f"#book-draw [data-value='{seat}']")
        desk.click("#draw")
    else:
        desk.view("hand")
        desk.key_in(value)
        desk.view("evening")
        if kind == "win":
            desk.click("#win")
        elif kind == "add":
            desk.click("#add-hand")


def load(desk, name, content):
    """Loads a file into the page."""
    path = f"{desk.folder}/{name}"
    with open(path, "wb") as file:
        file.write(content)
    desk.browser.type("#load", path)
    desk.settle()


def saved(desk, button, name):
    """The bytes of a file that the page saves."""
    path = f"{desk.folder}/{name}"
    if os.path.exists(path):
        os.remove(path)
    desk.click(button)
    end = time.time() + 10
    while not os.path.exists(path) and time.time() < end:
        time.sleep(0.05)
    with open(path, "rb") as file:
        return file.read()


def run(desk):
    same, browser = desk.checks.same, desk.browser
    desk.click("#tab-evening")
    desk.click("#example")
    compare(desk, "document 01's example in two clicks", "bytes 0124")
    desk.picture("example")

    desk.click("#fresh")
    text = ""
    for kind, value in BOOKED:
        book(desk, kind, value)
        text += {"draw": lambda: " ".join(["draw", *map(str, value)])}.get(kind, lambda: f"{kind} {value}")() + "\n"
    compare(desk, "an evening booked by keys", text)
    with open(f"{desk.root}/docs/evening.txt") as file:
        same("it is docs/evening.txt", browser.run("return document.querySelector('#log-bytes').textContent.replace(/ /g, '')"), desk.raw("log - --plain", file.read()).strip())
    remarks = browser.texts(".entries tr.remark")
    same("refusals stand where they happened", remarks, ["Refusal 10: Riichi is declared already in this hand – seat 2", "Refusal 7: The hand has no yaku – 1 reading"])
    desk.picture("evening")

    browser.cdp("Browser.setDownloadBehavior", behavior="allow", downloadPath=desk.folder)
    kept = browser.run("return document.querySelector('#log-text').value")
    log = desk.ask("game - as=text language=2", text)["log"][0]
    same("saved as text", saved(desk, "#save-text", "evening.txt").decode(), kept)
    same("saved as bytes", saved(desk, "#save-bytes", "evening.log").hex(), log)
    desk.click("#fresh")
    same("a new evening has no entry", rows(desk), [])
    load(desk, "loaded.log", bytes.fromhex(log))
    compare(desk, "the bytes loaded", text)
    desk.click("#fresh")
    load(desk, "loaded.txt", kept.encode())
    compare(desk, "the text loaded", text)
    desk.click("#take-back")
    compare(desk, "the last entry taken back", "".join(f"{line}\n" for line in text.splitlines()[:-1]))

    corrections(desk)
    together(desk)
    mistyped(desk)
    damaged(desk)
    longest(desk)


def corrections(desk):
    """A draw that was a win, and that a chombo; then one that comes too late."""
    desk.click("#example")
    desk.click("#correct")
    book(desk, "win", "234567m345p67s22s+8s seat=1 ron=3 riichi")
    desk.click("#correct")
    book(desk, "chombo", 3)
    book(desk, "riichi", 2)
    desk.click("#correct")
    book(desk, "draw", [0, 1, 2, 3])
    text = "riichi 1\ndraw 1\ncorrect win 234567m345p67s22s+8s seat=1 ron=3 riichi\ncorrect chombo 3\nriichi 2\ncorrect draw 0 1 2 3\n"
    compare(desk, "corrections", text)
    remarks = desk.browser.texts(".entries tr.remark")
    desk.checks.same("what a correction supersedes", remarks, ["supersedes entry 2", "supersedes entry 3", "Refusal 20: There is no result to put right – a riichi has been accepted since"])
    desk.picture("corrections")


def together(desk):
    """A multiple ron, and a pao with the win that it pays."""
    desk.click("#fresh")
    book(desk, "draw", [0, 1, 2, 3])
    for seat in (1, 2):
        book(desk, "add", f"234567m345p67s22s+8s seat={seat} ron=3")
    desk.click("#multi")
    hands = " / ".join(f"234567m345p67s22s+8s seat={seat} ron=3" for seat in (1, 2))
    text = f"draw 0 1 2 3\nmulti {hands}\n"
    compare(desk, "a multiple ron", text)
    for name, value in (("holder", 1), ("feeder", 3), ("pao-yaku", 28)):
        desk.browser.run("document.getElementById(arguments[0]).value = arguments[1]", name, str(value))
    desk.click("#pao")
    desk.checks.same("who feeds whom stands at the table", desk.browser.text("#evening .seat[data-seat='1'] .what"), "fed by seat 3: daisangen")
    book(desk, "win", "234m99pPPPFFFCC+C seat=1 tsumo indicator=5s")
    compare(desk, "a pao", text + "pao holder=1 feeder=3 yaku=28\nwin 234m99pPPPFFFCC+C seat=1 tsumo indicator=5s\n")
    desk.checks.same("who pays by pao", desk.browser.texts(".entries tr.remark")[-1], "pao: seat 3, the feeder of seat 1's yaku 28, pays the whole, with the counters")


def mistyped(desk):
    """A mistake is told by the name of the file, or by the line that was typed."""
    seat = "a seat is 0, 1, 2 or 3, or E S W N by the first deal's winds (up to 15 to see it refused)"
    load(desk, "mistyped.txt", b"riichi 1\nriichi X\n")
    desk.checks.same("a mistake in a file", desk.browser.text("#evening .fault"), f"mistyped.txt, line 2, word 2, \"X\": {seat}")
    desk.browser.run("document.querySelector('#as-text').open = true; document.querySelector('#log-text').value = 'riichi X'")
    desk.click("#read-log")
    desk.checks.same("a mistake in a typed line", desk.browser.text("#evening .fault"), f"line 1, word 2, \"X\": {seat}")
    desk.browser.run("document.querySelector('#as-text').open = false")


def damaged(desk):
    """A log that stops at a byte that begins no entry; one more booking is told in a line."""
    log = "10b81e640210620a31661a9a6bb0043140"
    load(desk, "damaged.log", bytes.fromhex(log))
    desk.checks.same("a damaged log's entries", len(rows(desk)), 3)
    stopped = desk.ask("game - as=hex language=2", log)["stopped"][0].split(" ", 2)
    shown = desk.browser.text("#stopped")
    desk.checks.same("where it stops", shown, f"The log stops at byte {stopped[0]} ({stopped[1]}). Refusal 14: An entry of the log is bad or cut – {stopped[2]}")
    desk.picture("damaged-log")
    book(desk, "riichi", 1)
    desk.checks.true("a booking after it is told in a line", "no whole entries" in desk.browser.text("#evening .fault"))


def longest(desk):
    """A log of 65,536 bytes loads in a second."""
    for what, log in (("of refused riichis", bytes([1]) * 65536), ("of an evening again and again", (bytes.fromhex("0124") * 32768))):
        path = f"{desk.folder}/longest.log"
        with open(path, "wb") as file:
            file.write(log)
        desk.browser.run("""document.querySelector('#load').addEventListener('change', () => {
            const start = performance.now();
            const seen = new MutationObserver(() => {
              if (document.querySelector('#evening').ariaBusy !== 'false') return;
              seen.disconnect();
              performance.measure('longest', { start });
            });
            setTimeout(() => seen.observe(document.querySelector('#evening'), { attributes: true }));
          }, { capture: true })""")
        desk.browser.type("#load", path)
        took = desk.browser.wait("return performance.getEntriesByName('longest').at(-1)?.duration", seconds=60)
        desk.settle()
        print(f"a log of 65,536 bytes, {what}: {took:.0f} ms; load {os.getloadavg()[0]:.1f} on {os.cpu_count()} cores")
        desk.checks.same(f"{what}: the last entry", rows(desk)[-1].split()[0], "65536")
        desk.checks.true(f"{what}: within a second", took < 1000 * desk.patience)
        desk.browser.run("performance.clearMeasures('longest')")
    desk.click("#earlier")
    desk.checks.same("a page back", rows(desk)[-1].split()[0], "65436")
    desk.click("#fresh")
