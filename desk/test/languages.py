"""The four languages by the keys 1 to 4: the page's words, and what the unit will say, clip by clip."""
import re

HAND = "666m3334566p666s+6p seat=3 ron=1 riichi indicator=2p dealer=1 wind=S"
MARKS = ["ja", "en", "ko", "zh"]


def words_of(desk, mark):
    """The page's words of a language, from its file."""
    with open(f"{desk.root}/desk/page/words-{mark}.js") as file:
        return dict(re.findall(r'^  "?([\w-]+)"?: "(.*)",$', file.read(), flags=re.M))


def run(desk):
    same, browser = desk.checks.same, desk.browser
    keys = {mark: set(words_of(desk, mark)) for mark in MARKS}
    for mark in MARKS:
        same(f"{mark}: no word is missing", keys[mark], keys["en"])
    desk.key_in(HAND)
    for number, mark in enumerate(MARKS, 1):
        desk.speak(number)
        words = words_of(desk, mark)
        same(f"{mark}: marked", browser.run("return document.documentElement.lang.slice(0, 2)"), mark)
        same(f"{mark}: title", browser.run("return document.title"), words["title"])
        same(f"{mark}: next", browser.text("#next span"), words["next-nothing"])
        same(f"{mark}: both scorers", browser.text("#answer .verdict"), f"✓ {words['agree']}")
        for at, flag in ((0, ""), (1, "--fu")):
            said = desk.ask(f"say {HAND} {flag} language={number} --plain")
            clips = browser.run("return [...document.querySelectorAll('.speech')[arguments[0]].querySelectorAll('[data-clip]')].map((clip) => clip.dataset.clip).join(' ')", at)
            same(f"{mark}: clips {flag}", clips, said["clips"][0])
            parts = browser.run("""return [...document.querySelectorAll('.speech')[arguments[0]].querySelectorAll('li')].map((part) =>
                [...part.querySelectorAll('.clip-words')].map((words) => (words.querySelector('ruby') ?? words).firstChild.textContent).join(''))""", at)
            same(f"{mark}: words {flag}", [part.replace(" ", "") for part in parts], [part.replace(" ", "") for part in said["words"]])
        left = browser.run("return [...document.querySelectorAll('[data-word]')].filter((node) => node.textContent === '' || node.textContent === node.dataset.word).length")
        same(f"{mark}: every word is there", left, 0)
        desk.picture(f"language-{mark}")
        browser.click(".speech .hear")
        browser.wait("return document.querySelector('.speech .hear').dataset.heard === '1'", seconds=30)
        desk.checks.true(f"{mark}: heard", True)
    desk.speak(2)
