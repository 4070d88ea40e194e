"""Pictures of each view, at the width of a desk and of a phone, light and dark; nothing is wider than the page."""
HAND = "112233m778899p5s+5s seat=1 ron=3"


def views(desk, name):
    desk.view("hand")
    desk.key_in("567m22456p67s chi=234m discards=N8s4m")
    desk.choose("seat", 1)
    desk.picture(f"{name}-waits")
    wide(desk, f"{name}, waits")
    desk.key_in(HAND)
    desk.picture(f"{name}-hand")
    wide(desk, f"{name}, hand")
    desk.view("evening")
    desk.picture(f"{name}-evening")
    wide(desk, f"{name}, evening")
    desk.view("damage")
    desk.click("#damage [data-value='hand']")
    desk.click("#start")
    desk.picture(f"{name}-damage")
    wide(desk, f"{name}, damage")


def wide(desk, what):
    over = desk.browser.run("return document.documentElement.scrollWidth - document.documentElement.clientWidth")
    desk.checks.same(f"{what}: nothing is wider than the page", over, 0)


def run(desk):
    desk.view("evening")
    desk.browser.type("#load", f"{desk.root}/docs/evening.txt")
    desk.settle()
    for name, width, height, dark in (("desk-light", 1280, 1000, False), ("desk-dark", 1280, 1000, True), ("phone-light", 390, 844, False), ("phone-dark", 390, 844, True)):
        desk.browser.size(width, height)
        desk.browser.dark(dark)
        views(desk, name)
    desk.browser.size(1280, 960)
    desk.browser.dark(False)
    desk.view("hand")
    desk.picture("first-screen", whole=False)
