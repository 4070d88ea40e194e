"""The keyboard alone, and what a screen reader needs: names of buttons, captions of tables, labels of fields."""
from desk import NAMES

KEYS = {"right": "\ue014", "left": "\ue012", "down": "\ue015", "up": "\ue013", "enter": "\ue007", "tab": "\ue004", "back": "\ue003"}


def go(desk, at, to):
    """Walks over the tile keys by arrows, and presses one."""
    moves = [KEYS["down"]] * (to // 9 - at // 9) + [KEYS["up"]] * (at // 9 - to // 9)
    moves += [KEYS["right"]] * (to % 9 - at % 9) + [KEYS["left"]] * (at % 9 - to % 9)
    desk.browser.keys(*moves, KEYS["enter"])
    desk.settle()
    return to


def tab_to(desk, condition):
    """Presses Tab until the focus is on what is looked for."""
    for _ in range(80):
        if desk.browser.run(f"const at = document.activeElement; return {condition}"):
            return
        desk.browser.keys(KEYS["tab"])
    raise AssertionError(f"Tab does not lead to {condition}")


def line_5(desk):
    """Line 5 of the table without the mouse."""
    desk.browser.run("document.activeElement?.blur(); window.scrollTo(0, 0)")
    tab_to(desk, "at.closest('#tiles') !== null")
    at = 0
    for tile in ["1m", "1m", "2m", "2m", "3m", "3m", "7p", "7p", "8p", "8p", "9p", "9p", "5s", "5s"]:
        at = go(desk, at, NAMES.index(tile))
    tab_to(desk, "at.closest('#seat') !== null")
    desk.browser.keys(KEYS["right"], KEYS["enter"])
    desk.settle()
    tab_to(desk, "at.closest('#how') !== null")
    desk.browser.keys(KEYS["right"], KEYS["right"], KEYS["right"], KEYS["enter"])
    desk.settle()
    desk.checks.same("line 5 by the keyboard", desk.amounts(), "0 5200 0 -5200")
    desk.browser.run("document.activeElement.blur()")
    desk.browser.keys(KEYS["back"])
    desk.settle()
    desk.checks.same("Backspace takes back", desk.browser.text("#next span"), "Tsumo, or ron from whom?")


def named(desk, where):
    """Every button and field has a name, every table a caption, every picture a label or is left out."""
    nameless = desk.browser.run("""return [...document.querySelectorAll('main button, main input, main select, main textarea')].filter((node) =>
        node.closest('[hidden]') === null && !(node.ariaLabel || node.textContent.trim() || node.labels?.length || node.title)).map((node) => node.outerHTML.slice(0, 100))""")
    desk.checks.same(f"{where}: every key has a name", nameless, [])
    desk.checks.same(f"{where}: every table has a caption", desk.browser.run("return [...document.querySelectorAll('table')].filter((node) => !node.caption?.innerText).length"), 0)
    desk.checks.same(f"{where}: every picture is named or left out", desk.browser.run("return [...document.querySelectorAll('svg, img')].filter((node) => !node.ariaLabel && node.alt === undefined && !node.closest('[aria-hidden=true]')).length"), 0)
    desk.checks.same(f"{where}: every group has a name", desk.browser.run("return [...document.querySelectorAll('[role=group], [role=radiogroup], [role=tablist], [role=region]')].filter((node) => !node.ariaLabel && !node.getAttribute('aria-labelledby')).length"), 0)


def run(desk):
    line_5(desk)
    named(desk, "a hand")
    for letter, view in (("e", "evening"), ("d", "damage"), ("h", "hand")):
        desk.browser.run("document.activeElement?.blur()")
        desk.browser.keys(letter)
        desk.checks.same(f"{letter}: {view}", desk.browser.run("return [...document.querySelectorAll('[role=tabpanel]:not([hidden])')].map((node) => node.id).join()"), view)
        named(desk, view)
    desk.browser.keys("/")
    desk.checks.same("/ leads to typing", desk.browser.run("return document.activeElement.id"), "typed-text")
    desk.browser.keys(*"234567m345p67s22s+8s seat=1 ron=3", KEYS["enter"])
    desk.settle()
    desk.checks.same("typed by the keyboard", desk.amounts(), "0 2000 0 -2000")
    desk.checks.same("digits are typed there", desk.browser.run("return document.documentElement.lang"), "en")
