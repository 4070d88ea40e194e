"""Tests the desk handset: python3 desk/test ROOT TOOL WRONG_TOOL FOLDER. Each test module has a function `run(desk)`; pictures go to FOLDER."""
import os
import sys
import time

import damage
import evening
import hands
import keyboard
import languages
import looks
import ports
import refusals
import requests
import silent
import speed
import wrong
from desk import Desk


def main():
    root, tool, wrong_tool, folder = sys.argv[1:5]
    os.makedirs(folder, exist_ok=True)
    desk = Desk(root, tool, folder)
    try:
        only = sys.argv[5:]
        for module in (hands, refusals, evening, damage, languages, keyboard, requests, ports, speed, looks):
            if only and module.__name__ not in only:
                continue
            before, start = desk.checks.passed, time.time()
            desk.open()
            module.run(desk)
            complaints = [line for line in desk.browser.complaints() if "status of 400" not in line]
            desk.checks.same(f"{module.__name__}: the browser's complaints", complaints, [])
            print(f"{module.__name__}: {desk.checks.passed - before} checks, {time.time() - start:.1f} s", flush=True)
        if not only or "silent" in only:
            silent.run(desk, root)
        if not only or "wrong" in only:
            wrong.run(desk, root, wrong_tool)
    finally:
        desk.end()
    if desk.checks.failed:
        sys.exit(f"desk: {len(desk.checks.failed)} of {desk.checks.passed + len(desk.checks.failed)} checks failed")
    print(f"desk: {desk.checks.passed} checks passed")


main()
