"""Over a tool with a wrong archive the page says in red that the scorers differ, with the bytes."""
from desk import server


def run(desk, root, tool):
    process, address = server(tool, root)
    try:
        desk.open(address)
        desk.browser.run("sessionStorage.clear()")
        desk.key_in("234567m345p67s22s+8s seat=1 ron=3")
        shown = desk.browser.text("#answer .verdict.differ") or ""
        desk.checks.true("the page says that they differ", "THE TWO SCORERS DIFFER" in shown)
        desk.checks.true("with the bytes", "b81e640210620a31661a9a6bb0 dealer 0 wind 0" in shown)
        desk.checks.true("with both answers", "archive" in shown and "other" in shown)
        red = desk.browser.run("return getComputedStyle(document.querySelector('.verdict.differ')).color")
        desk.checks.same("in red", red, "rgb(179, 38, 30)")
        desk.picture("differ")
        desk.view("evening")
        desk.browser.run("document.querySelector('#log-text').value = 'win 234567m345p67s22s+8s seat=1 ron=3'")
        desk.browser.run("document.querySelector('#as-text').open = true")
        desk.click("#read-log")
        desk.checks.true("of an evening too", "THE TWO SCORERS DIFFER" in (desk.browser.text("#evening .verdict.differ") or ""))
    finally:
        process.terminate()
        process.wait()
