"""large.py PAGE FILE [SECONDS]: opens a large capture in the page, in each installed browser: how long it takes until
the first rows, and all of it; for how long the page itself is busy at a time, also while it draws the picture. FILE is
a pcapng file with its keys, as the example `generate` of rust/capture makes it. Fails if a browser takes more than so
many seconds (Chromium 6, others 10), if the first rows come after more than a second, or if the page is busy for more
than 100 milliseconds."""
import functools
import http.server
import os
import shutil
import sys
import threading
import time

from browser import Chromium, Failed, Firefox, WebKit

FIRST, BUSY = 1000, 100
BROWSERS = (("chromedriver", Chromium, 6), ("firefox-esr", Firefox, 10), ("WebKitWebDriver", WebKit, 10))
# In seconds.
PATIENCE = 900
# Watches from the choice of a file on: when there are rows, when all is read, and until a second after that the longest
# time between two ticks.
WATCH = """window.seen = { first: null, ready: null, busy: 0, isOver: false };
    const input = document.getElementById("files");
    input.addEventListener("change", () => {
      const began = performance.now();
      let last = began;
      const timer = setInterval(() => {
        const now = performance.now();
        seen.busy = Math.max(seen.busy, now - last);
        last = now;
        if (seen.first === null && document.querySelector("#packets [data-index]")) {
          seen.first = now - began;
        }
        if (["ready", "failed"].includes(document.documentElement.dataset.capture)
            && document.querySelector("#connections .card")) {
          seen.ready ??= now - began;
        }
        if (seen.ready !== null && now > began + seen.ready + 1000) {
          seen.isOver = true;
          clearInterval(timer);
        }
      }, 5);
    });"""


class Quiet(http.server.SimpleHTTPRequestHandler):
    def log_message(self, *words):
        pass


def opened(browser, address, path):
    """Chooses a file, and returns what was seen until it is read."""
    browser.go(f"{address}#captures")
    browser.run(WATCH)
    browser.choose("files", path)
    end = time.monotonic() + PATIENCE
    while time.monotonic() < end:
        seen = browser.run("return window.seen.isOver && window.seen")
        if seen:
            status = browser.run("return document.getElementById('capture-status').textContent")
            return {**seen, "status": status}
        time.sleep(0.2)
    raise Failed(f"{path} isn't read")


def main(page, path, seconds):
    folder = os.path.dirname(os.path.abspath(page))
    server = http.server.ThreadingHTTPServer(("127.0.0.1", 0), functools.partial(Quiet, directory=folder))
    threading.Thread(target=server.serve_forever, daemon=True).start()
    failures = []
    for command, kind, most in BROWSERS:
        if not shutil.which(command):
            continue
        browser = kind()
        try:
            seen = opened(browser, f"http://127.0.0.1:{server.server_port}/index.html", os.path.abspath(path))
        finally:
            browser.close()
        print(f"{browser.name} {browser.version}: first rows after {seen['first']:.0f} ms, all of it in "
              f"{seen['ready']:.0f} ms, busy for {seen['busy']:.0f} ms at a time; {seen['status']}", flush=True)
        for what, found, bound in (("first", seen["first"], FIRST), ("all", seen["ready"], 1000 * (seconds or most)),
                                   ("busy", seen["busy"], BUSY)):
            if found > bound:
                failures.append(f"{browser.name}: {what} {found:.0f} ms, and at most {bound:.0f} are allowed")
    server.shutdown()
    if failures:
        raise Failed("; ".join(failures))


if __name__ == "__main__":
    try:
        main(sys.argv[1], sys.argv[2], float(sys.argv[3]) if len(sys.argv) > 3 else None)
    except Failed as failed:
        sys.exit(f"large.py: {failed}")
