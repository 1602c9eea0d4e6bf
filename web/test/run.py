"""run.py TOP SITE QUIC_SHOW QUIC_WIRE LAYOUT [--pictures FOLDER] [--browser NAME]: tries the page.

TOP is the repository, SITE the folder that scripts/make/page made, with the library's module quic_wire.wasm if the call of
docs/CALLING.md is to be tried, QUIC_SHOW and QUIC_WIRE the programs that the page is compared with, LAYOUT what
layout.c printed.
"""
import argparse
import http.server
import os
import shutil
import subprocess
import sys
import threading

import agree
import captures
import initials
import inputs
import lists
import looks
import paper
import sizes
import structs
import tools
import use
from browser import Chromium, ELSEWHERE, Failed, Firefox, WebKit
from common import STATUS, same

# The browsers, each with the commands that it needs.
KINDS = {
    "chromium": (Chromium, ["chromedriver"]),
    "firefox": (Firefox, ["firefox-esr"]),
    "webkit": (WebKit, ["WebKitWebDriver", "xvfb-run"]),
}
PICTURES = [
    ("web-payload.png", 1280, 1180, "light", "", "#grid [data-place='12']"),
    ("web-datagram.png", 1280, 1000, "dark", 2, "#outline [data-item='0'][data-field='5']"),
    ("web-error.png", 390, 844, "light", 1, None),
]


class Server(http.server.SimpleHTTPRequestHandler):
    """The page at /, and the files of web/ at /web/."""

    top = site = None
    # The requests.
    asked = []

    def send_head(self):
        self.asked.append(self.path)
        return super().send_head()

    def do_POST(self):
        self.asked.append(self.path)
        self.send_error(405)

    def translate_path(self, path):
        path = path.split("?")[0].split("#")[0]
        root = self.top if path.startswith("/web/") else self.site
        return os.path.join(root, os.path.normpath(path).lstrip("/"))

    def log_message(self, *words):
        pass


def serve(top, site):
    Server.top, Server.site = top, site
    server = http.server.ThreadingHTTPServer(("127.0.0.1", 0), Server)
    threading.Thread(target=server.serve_forever, daemon=True).start()
    return f"http://127.0.0.1:{server.server_port}"


def silent(browser, what):
    errors = browser.errors()
    if errors:
        raise Failed(f"the console, with {what}: {errors}")


def pages(browser, host, words):
    """Runs the tests on one page after the other. Prints what passed."""
    address = f"{host}/index.html"
    browser.go(f"file://{words.site}/index.html")
    silent(browser, "a file")
    print(f"  from a file: {browser.run(STATUS)}")
    browser.go(address)
    says_its_commit(browser, words.top)
    print(f"  {inputs.ways_to_write(browser)} ways to write bytes, and texts that are none")
    print(f"  {inputs.several(browser, address)} texts of several inputs")
    print(f"  {inputs.choices(browser, address)} choices that quic-show lacks, and the strip of an ACK")
    print(f"  {inputs.hints(browser, address)} lines that another mode may read")
    print(f"  {inputs.guesses(browser, address, words.top)} inputs are guessed")
    use.keyboard(browser, address)
    use.all_by_keyboard(browser, address)
    use.pointer(browser, address)
    print(f"  keyboard and pointer; {inputs.links(browser, address)} links")
    print(f"  {structs.layout(browser, host, words.layout_lines)} lines of the structs' layout")
    if os.path.exists(f"{words.site}/quic_wire.wasm"):
        structs.worked_call(browser, words.top)
        print("  the call of CALLING.md")
    silent(browser, "all of these")


def says_its_commit(browser, top):
    """The page names its commit, as far as the repository has one."""
    done = subprocess.run(["git", "-C", top, "rev-parse", "HEAD"], capture_output=True, text=True, check=False)
    built = browser.run("return document.getElementById('built').textContent")
    if done.returncode == 0 and done.stdout.strip() not in built:
        raise Failed(f"the page says of itself: {built}")
    told = ["made without information" in built, "was built by rustc" in built]
    same(sorted(told), [False, True], f"what is said of the module: {built}")


def features(browser, host, top):
    """What the page does beyond reading one input."""
    address = f"{host}/index.html"
    print(f"  {initials.opened(browser, address, top)} Initial packets of RFC 9001 and 9369, as they are and changed")
    if browser.CAN_PRETEND:
        initials.without_ciphers(browser, address.replace("127.0.0.1", ELSEWHERE))
        print("  without ciphers the page says so")
    print(f"  {tools.opened(browser, address)} packets of RFC 9001 are opened")
    print(f"  {tools.compared(browser, address)} pairs of inputs are compared")
    tools.picture(browser, address)
    print(f"  a picture is saved; {tools.sections(browser, address)} lines have links to their sections")
    silent(browser, "these features")
    print(f"  {tools.sends_nothing(browser, address, host, Server.asked)} ways to send are blocked")
    browser.errors()


def all_captures(browser, host, words):
    """Captures, compared with what quic-wire prints."""
    address, top, program = f"{host}/index.html", words.top, words.quic_wire
    captures.shown(browser, f"file://{words.site}/index.html", top, program)
    print(f"  {captures.shown(browser, address, top, program)} packets of a capture: rows, filters, bytes", flush=True)
    print(f"  {captures.all_agree(browser, address, top, program)} captures are saved as it prints them", flush=True)
    print(f"  {captures.broken_agree(browser, address, top, program)} captures with its findings", flush=True)
    print(f"  {captures.saved_otherwise(browser, address, top, program)} traces and a picture are saved", flush=True)
    print(f"  the last of {captures.paged(browser, address, top)} rows, by a key")
    print(f"  {captures.compressed(browser, address, top, program)} packets of a capture in compressed parts")
    captures.rejected(browser, address, top)
    print(f"  captures at {captures.widths(browser, address, top)} widths")
    if browser.CAN_PRETEND:
        captures.forced_colors(browser, address, top)
        print("  the chosen packet with forced colours")
    silent(browser, "captures")


def times(browser, host):
    """How long large inputs take; in Chromium also on a machine six times slower."""
    address = f"{host}/index.html"
    for size, bound in ((65536, 1000), (1 << 20, 10000)):
        took, what = sizes.shown(browser, address, size, bound)
        listed = sizes.listed(browser, address, size, bound)
        print(f"  {size} bytes: at most {took:.0f} ms ({what}), a log in {listed:.0f} ms", flush=True)
    print(f"  texts of 5 MB: busy for {sizes.long_texts(browser, address, 100):.0f} ms at a time", flush=True)
    if isinstance(browser, Chromium):
        browser.slow(6)
        took, what = sizes.shown(browser, address, 65536, 2000)
        listed = sizes.listed(browser, address, 65536, 2000)
        browser.slow(1)
        print(f"  six times slower, 65536 bytes: at most {took:.0f} ms ({what}), a log in {listed:.0f} ms", flush=True)


def contrasts(browser, address, scheme):
    least, count = looks.contrast(browser, address)
    print(f"  {scheme}: a contrast of {least:.1f} or more in {count} states", flush=True)


def appearances(browser, host):
    """Widths, contrasts; in both colour schemes, on paper, with zoom and what the system prefers, if that can be
    tried; in Chromium phones and the accessibility tree."""
    address = f"{host}/index.html"
    print(f"  {paper.widths(browser, address)} pages at {len(paper.WIDTHS)} widths: nothing is cut", flush=True)
    if not browser.CAN_PRETEND:
        contrasts(browser, address, "light")
        return
    for scheme in ("light", "dark"):
        browser.media(**{"prefers-color-scheme": scheme})
        contrasts(browser, address, scheme)
    print(f"  on paper every row, in {paper.on_paper(browser, address)} colours", flush=True)
    looks.zoom(browser, address)
    looks.forced_colors(browser, address)
    looks.motion(browser, address)
    print("  zoom, forced colours, reduced motion")
    if isinstance(browser, Chromium):
        looks.widths(browser, address)
        browser.unshape()
        looks.names(browser, address)
        print("  each control has a name; nothing is wider than a window of 320 pixels")
    silent(browser, "these looks")


def take_pictures(browser, host, words):
    folder = words.pictures
    for name, width, height, scheme, example, target in PICTURES:
        browser.shape(width, height)
        browser.media(**{"prefers-color-scheme": scheme})
        browser.go(f"{host}/index.html")
        if example:
            browser.run("document.querySelectorAll('#examples button')[arguments[0]].click()", example)
        if target:
            browser.run("document.querySelector(arguments[0]).click()", target)
        browser.picture(f"{folder}/{name}", width, height, scheme)
    browser.unshape()
    browser.width(1280)
    captures.picture(browser, f"{host}/index.html", words.top, f"{folder}/web-capture.png")
    browser.unshape()
    print(f"  {len(PICTURES) + 1} pictures in {folder}")


def all_lists(browser, host, program, groups):
    browser.go(f"{host}/index.html")
    for what, tried in groups:
        count = agree.all_agree(browser, program, tried)
        print(f"  {what}: {count} lines are shown as quic-show prints them", flush=True)
    silent(browser, "the lists")


def try_browser(kind, words, host, groups):
    browser = kind()
    try:
        print(f"{browser.name} {browser.version}", flush=True)
        pages(browser, host, words)
        features(browser, host, words.top)
        all_captures(browser, host, words)
        appearances(browser, host)
        times(browser, host)
        all_lists(browser, host, words.quic_show, groups)
        if kind is Chromium and words.pictures:
            take_pictures(browser, host, words)
    finally:
        browser.close()


def arguments():
    words = argparse.ArgumentParser()
    for name in ("top", "site", "quic_show", "quic_wire", "layout"):
        words.add_argument(name)
    words.add_argument("--pictures")
    words.add_argument("--browser", choices=KINDS)
    return words.parse_args()


def main():
    words = arguments()
    stored = lists.stored(words.top)
    groups = [("README", lists.worked(words.top)), ("the lists", stored), ("mutated", lists.mutated(stored))]
    with open(words.layout, encoding="ascii") as file:
        words.layout_lines = file.read().splitlines()
    host = serve(words.top, words.site)
    for name, (kind, needs) in KINDS.items():
        if words.browser in (None, name) and all(map(shutil.which, needs)):
            try_browser(kind, words, host, groups)


if __name__ == "__main__":
    try:
        main()
    except Failed as failed:
        sys.exit(f"browsers: {failed}")
