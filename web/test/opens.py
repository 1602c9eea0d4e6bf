"""opens.py PAGE: opens a page as a file in each installed browser. It must read its first input without a message in
the console, and within a second after it was loaded for the second time."""
import re
import shutil
import sys

from browser import Chromium, Failed, Firefox, WebKit
from common import STATUS

# In milliseconds.
MOST = 1000
# The time from the request of the page until its first input is read, once the page says that it is.
STARTED = """return document.documentElement.dataset.state === "ready" && performance.now();"""


def opens(kind, page):
    browser = kind()
    try:
        browser.go(f"file://{page}")
        browser.send("navigate", {"url": "about:blank"})
        browser.go(f"file://{page}")
        took = browser.until(STARTED, "the page starts")
        status = browser.run(STATUS)
        errors = browser.errors()
        if errors or not re.match(r"\d+ frames .*in \d+ bytes", status):
            raise Failed(f"{browser.name} with the page as a file: {status!r} {errors}")
        if took > MOST:
            raise Failed(f"{browser.name} started the page in {took:.0f} ms, and at most {MOST} are allowed")
        print(f"{browser.name} {browser.version}, {took:.0f} ms: {status}")
    finally:
        browser.close()


if __name__ == "__main__":
    try:
        for command, kind in (("chromedriver", Chromium), ("firefox-esr", Firefox), ("WebKitWebDriver", WebKit)):
            if shutil.which(command):
                opens(kind, sys.argv[1])
    except Failed as failed:
        sys.exit(f"opens.py: {failed}")
