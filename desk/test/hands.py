"""Hands keyed in by pressing tiles: document 01's table, several readings, melds, waits, furiten, how far from ready, undo and the fifth tile."""

TABLE = [  # lines 1 to 12 of document 01's table; 10 and 11 by hands of that h and fu
    "234567m345p67s22s+8s seat=1 ron=3",
    "234567m345p67s22s+8s seat=1 tsumo",
    "234567m345p67s22s+8s seat=0 ron=3",
    "111222333m78s99p+9s seat=1 tsumo",
    "112233m778899p5s+5s seat=1 ron=3",
    "567m456p67s22p+8s chi=234m seat=1 ron=3",
    "456p78s234s99p+9s chi=123m seat=1 ron=3",
    "111m333p555s77s99s+7s seat=1 ron=3",
    "111m333p555s77s99s+7s seat=1 tsumo",
    "234567m345p67s22s+8s riichi indicator=4p seat=1 ron=3",
    "222345m345p67s55s+8s indicator=1m seat=1 ron=3",
    "234567m345p67s22s+8s riichi indicator=1s seat=1 ron=3",
    "234567m345p67s22s+8s double indicator=1s seat=1 ron=3",
    "123345567m78m22m+9m riichi seat=1 ron=3",
    "12345678923m55m+4m riichi indicator=8m seat=1 ron=3",
    "1111m44m77m22p55p8p+8p seat=1 ron=3",
]
OTHERS = [  # several readings, kans, another table, seven pairs, orphans
    "666m3334566p666s+6p seat=3 ron=1 riichi indicator=2p dealer=1 wind=S",
    "1112223333444m+2m seat=1 ron=3",
    "1112333444555m+2m seat=1 ron=3",
    "1199p+9p ankan=EEEE kan=2222s pon=PPP seat=2 tsumo rinshan dealer=2",
    "1122m3344p5566sE+E seat=0 tsumo",
    "19m19p19sESWNPFC+C seat=2 ron=0 indicator=5p",
]


def finished(desk, notation):
    """Compares all that the page shows of a finished hand with what the tool says."""
    same, browser = desk.checks.same, desk.browser
    hand = desk.ask(f"hand {notation} --plain")
    same(f"{notation}: record", browser.text(".record .bytes").replace(" ", ""), hand["record"][0])
    same(f"{notation}: both scorers", browser.text(".verdict"), "✓ Both scorers agree")
    said = browser.run("return [...document.querySelectorAll('.speech')[0].querySelectorAll('[data-clip]')].map((clip) => clip.dataset.clip).join(' ')")
    if hand["refusal"] != ["0"]:
        same(f"{notation}: refusal", browser.text(".refusal-number"), f"Refusal {hand['refusal'][0]}")
        same(f"{notation}: why", browser.texts(".why li"), hand.get("why", []))
        same(f"{notation}: said", said, desk.ask(f"say refusal {hand['refusal'][0]} language=2 --plain")["clips"][0])
    else:
        same(f"{notation}: changes", desk.amounts(), hand["changes"][0])
        same(f"{notation}: said", said, desk.ask(f"say {notation} language=2 --plain")["clips"][0])
        worth(desk, notation, hand)
    readings(desk, notation)


def worth(desk, notation, hand):
    """Yaku with their han, fu item by item, the slip."""
    same, browser = desk.checks.same, desk.browser
    cells = browser.run("return [...document.querySelectorAll('.yaku tbody tr')].map((row) => [row.cells[0].innerText, row.cells[2].innerText])")
    han = dict(zip(hand["yaku"][0].split(), hand["han"][0].split()))
    same(f"{notation}: yaku", {number: text for number, text in cells if number}, {n: "yakuman" if int(n) > 25 else value for n, value in han.items()})
    same(f"{notation}: dora", "".join(text for number, text in cells[:-1] if not number) or "0", hand["dora"][0])
    items = [item for item in hand["fu-items"][0].split() if item != "0"]
    shown = browser.run("return [...document.querySelectorAll('.fu tbody tr')].map((row) => row.cells[2].innerText)")
    same(f"{notation}: fu", shown, [*items, hand["fu"][0]] if items else [])
    slip = desk.ask(f"slip {notation} --plain")
    lines = [f"{key} {rest}".rstrip() for key in ("HAN", "FU", "SEAT") for rest in slip[key]]
    same(f"{notation}: slip", [line.rstrip() for line in browser.text(".slip").splitlines()], lines)


def readings(desk, notation):
    """Every reading with h, fu, gain, and the reported one marked."""
    wanted = [line.split() for line in desk.ask(f"readings {notation} --plain").get("reading", [])]
    wanted = [[line[0], line[6], line[7], line[8], "reported" if line[9] == "reported" else ""] for line in wanted]
    script = "return [...document.querySelectorAll('.readings tbody tr')].map((row) => [0, 3, 4, 5].map((at) => row.cells[at].innerText.replace(',', '').replace('▶ ', '')).concat(row.className))"
    desk.checks.same(f"{notation}: readings", desk.browser.run(script), wanted)


def unfinished(desk, notation, seat=""):
    """Waits, furiten and what each would score; or how far it is from ready."""
    same, browser = desk.checks.same, desk.browser
    desk.key_in(notation)
    if seat:
        desk.choose("seat", seat)
    tiles = lambda selector: browser.run("return [...document.querySelectorAll(arguments[0])].map((tile) => tile.dataset.tile)", selector)
    waits = desk.ask(f"waits {notation} {f'seat={seat}' if seat else ''} --plain")
    draft = desk.ask(f"draft {notation} {f'seat={seat}' if seat else ''}")
    if waits["waits"][0]:
        rows = [line.split("; ") for line in waits["wait"]]
        same(f"{notation}: waits", tiles(".waits tbody .tile"), [row[0] for row in rows])
        same(f"{notation}: left", browser.run("return [...document.querySelectorAll('.waits tbody tr')].map((row) => row.cells[1].innerText)"), [row[1] for row in rows])
        same(f"{notation}: furiten", browser.text(".furiten"), "Furiten: a discard is a wait." if waits["furiten"] == ["1"] else "No furiten.")
        if seat:
            scores = browser.run("return [...document.querySelectorAll('.waits tbody tr')].flatMap((row) => [row.cells[2].innerText, row.cells[3].innerText])")
            wanted = [cell.replace("h ", "", 1).replace(", fu ", " han ").replace(", ", " fu, ", 1) if cell.startswith("h ") else cell for row in rows for cell in row[2:]]
            same(f"{notation}: scores", scores, [cell.replace("no yaku", "The hand has no yaku") for cell in wanted])
    else:
        from desk import tiles_of
        ready = desk.ask(f"ready {notation} --plain")
        same(f"{notation}: swaps", browser.text(".ready .sentence"), f"Swaps until the hand is ready: {ready['swaps'][0]}")
        swapped = tiles_of(draft["out"][0]) + tiles_of(draft["in"][0]) + tiles_of(ready["waits"][0])
        same(f"{notation}: which", tiles(".ready .tile"), swapped)
    same(f"{notation}: both scorers", browser.text(".verdict"), "✓ Both scorers agree")


def fifth(desk):
    """A fifth tile cannot be pressed: the indicator counts, and a kan is four."""
    same = desk.checks.same
    off = lambda tile: desk.browser.run("return document.querySelector(`#tiles [data-tile='${arguments[0]}']`).ariaDisabled", tile)
    shown = lambda: desk.browser.run("return [...document.querySelectorAll('#row .concealed .tile')].map((tile) => tile.dataset.tile).join('')")
    desk.fresh()
    desk.press("1m", "1m", "1m")
    same("three of a tile: its key is open", off("1m"), "false")
    desk.press("1m")
    same("four of a tile: its key is shut", off("1m"), "true")
    desk.press("1m")
    same("a fifth changes nothing", shown(), "1m1m1m1m")
    desk.press("N", "N", "N", "N")
    same("the indicator counts: three North", shown(), "1m1m1m1mNNN")
    desk.fresh()
    desk.choose("mode", "kan")
    desk.press("5p")
    same("a kan is four", off("5p"), "true")
    desk.choose("mode", "chi")
    same("no chi from an 8", off("8s"), "true")
    same("no chi through a kan", off("3p"), "true")
    same("a chi from a 1", off("1s"), "false")


def back(desk):
    """Undo, and taking a tile out of the row."""
    same = desk.checks.same
    shown = lambda: desk.browser.run("return [...document.querySelectorAll('#row .concealed .tile')].map((tile) => tile.dataset.tile).join(' ')")
    desk.fresh()
    desk.press("9s", "1m", "5p")
    same("in order of kind", shown(), "1m 5p 9s")
    desk.click("#undo")
    same("undo takes the last one back", shown(), "1m 9s")
    desk.click("#row .concealed .standing:first-of-type")
    same("a tile is taken out of the row", shown(), "9s")
    desk.click("#undo")
    same("and had back", shown(), "1m 9s")


def typed(desk):
    """Notation and a record in hexadecimal give the hand as tiles."""
    same = desk.checks.same
    shown = lambda: desk.browser.run("return [...document.querySelectorAll('#row .concealed .tile, #row .winning .tile')].map((tile) => tile.dataset.tile).join(' ')")
    desk.fresh()
    for text in ("666m3334566p666s+6p seat=3 ron=1 riichi indicator=2p dealer=1 wind=S", "b81e580000208411e7a08228ac", "🀈🀉🀊🀋+🀈 pon=東東東 chi=🀙🀚🀛 ankan=中中中中 seat=s ron=N indicator=東"):
        desk.read(text if text.startswith(("6", "b")) else text.replace("🀈🀉🀊🀋+🀈", "2345m+2m").replace("🀙🀚🀛", "123p"))
        draft = desk.ask(f"draft {text}")
        from desk import tiles_of
        same(f"typed {text}", shown(), " ".join(tiles_of(draft["concealed"][0]) + draft["winning"]))
        same(f"typed {text}: changes", desk.amounts(), desk.ask(f"hand {text} --plain")["changes"][0])
        desk.choose("dealer", 0)
        desk.choose("wind", 0)
    desk.read("“112233m 778899p 5s + 5s” Seat=S ron=N Dealer=E Wind=南")
    same("typed as people type", [shown(), desk.amounts()], ["1m 1m 2m 2m 3m 3m 7p 7p 8p 8p 9p 9p 5s 5s", desk.ask("hand 112233m778899p5s+5s seat=1 ron=3 wind=S --plain")["changes"][0]])
    desk.choose("wind", 0)
    desk.read("234567q")
    same("what is no tile is told in one line", desk.browser.text("#answer .fault"), "word 1, \"234567q\": sign 7 of \"234567q\", q: a digit 1 to 9, a suit m p s z or an honour E S W N P F C is needed")


def run(desk):
    for notation in TABLE + OTHERS:
        desk.key_in(notation, mouse=notation in TABLE[:9] + TABLE[-1:])
        finished(desk, notation)
    unfinished(desk, "2233445566778m discards=E1p9s")
    unfinished(desk, "111m333p555s77s99s", "1")
    unfinished(desk, "567m22456p67s chi=234m discards=N8s4m")
    unfinished(desk, "1111m44m77m22p55p8p")
    unfinished(desk, "5m pon=555m pon=111p pon=222p pon=333p")
    fifth(desk)
    back(desk)
    typed(desk)
