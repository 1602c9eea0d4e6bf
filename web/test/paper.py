"""The page on paper, and at the widths of windows."""
import re
import zlib

from browser import Failed
from common import click_example, same, set_form

WIDTHS = (400, 960, 1100, 1280, 1600)
# From here on the field of versions is as wide as its default.
WIDE_FIELDS = 640
EXAMPLES = "return [...document.querySelectorAll('#examples button')].map((one) => one.textContent)"

# Which of the texts shown are longer than their box: names, values, notes and offsets, descriptions of inputs, the
# status.
CUT = """const [least] = arguments;
    const parts = ".outline .line > *, .list .value, .status, .inspector > *, .packet-note, .rows .more";
    const fields = window.innerWidth < least ? "" : ", .choices input";
    return [...document.querySelectorAll(parts + fields)].filter((one) => one.offsetParent !== null
        && getComputedStyle(one).display !== "inline" && one.scrollWidth > one.clientWidth + 1)
      .map((one) => `${one.className} ${one.name ?? ""}: ${one.value ?? one.textContent}`);"""
# For each visible list, how many rows are below, by their positions, and what its end says.
MORE = """return [...document.querySelectorAll(".rows")].filter((box) => box.offsetParent !== null).map((box) => {
      const mark = box.querySelector(".more");
      const { bottom } = box.getBoundingClientRect();
      const rows = [...box.querySelectorAll(".line")].filter((row) => row.getBoundingClientRect().bottom > bottom + 1);
      return [box.id, rows.length, mark.hidden ? "" : mark.textContent, box.classList.contains("flowing")];
    });"""


def show_all(browser):
    """Each example with all of its panels open and a byte chosen."""
    for example in browser.run(EXAMPLES):
        click_example(browser, example)
        browser.run("""document.getElementById("open").open = document.getElementById("text").open = true;
            document.querySelector("#grid .byte").click();""")
        yield example


def widths(browser, address):
    """Nothing is cut off at any width, and a list that continues says so. Returns how many pages were checked."""
    count = 0
    for width in WIDTHS:
        # With all choices, and what quic-show prints.
        browser.go(f"{address}#read=frames&quinn=1&hex=01")
        width = browser.width(width)
        browser.until("return window.innerWidth === arguments[0]", f"a window of {width} pixels", width)
        for example in show_all(browser):
            what = f"{example}, {width} pixels"
            same(browser.run(CUT, WIDE_FIELDS), [], f"what is cut of {what}")
            more = browser.until("""const more = (() => { %s })();
                return more.every(([, rows, mark]) => (rows > 0) === (mark !== "")) && more;""" % MORE,
                                 f"what the ends of lists say of {what}")
            for box, rows, mark, is_whole in more:
                if is_whole and rows:
                    same(mark, f"▾ {rows} more {'row' if rows == 1 else 'rows'}", f"the end of {box}, {what}")
            count += 1
    turned_page(browser)
    browser.unshape()
    return count


def turned_page(browser):
    """The text at the end of a list scrolls on, and is gone at the end."""
    set_form(browser, {"mode": "frames", "quinn": True}, "0a0004616263644001" * 40)
    for box in ("grid", "outline"):
        last = browser.run("""const box = document.getElementById(arguments[0]);
            for (let turn = 0; turn < 200 && !box.querySelector(".more").hidden; turn += 1) {
              box.querySelector(".more").click();
              box.dispatchEvent(new Event("scroll"));
              box.scrollTop += 0;
              if (box.scrollTop + box.clientHeight >= box.scrollHeight - 1) { break; }
            }
            return box.scrollTop + box.clientHeight >= box.scrollHeight - 1;""", box)
        same(last, True, f"the end of {box} by clicks")
        browser.until("return document.querySelector(`#${arguments[0]} .more`).hidden", f"the end of {box}", box)


# ---- on paper

# The colours of bytes, as an SVG or a PDF has them, and the rows that were there for the printer.
PRINTED = """const context = document.createElement("canvas").getContext("2d", { willReadFrequently: true });
    const found = new Set();
    for (const cell of document.querySelectorAll("#grid .byte:not(.lit-item, .lit-field)")) {
      context.fillStyle = getComputedStyle(cell).backgroundColor;
      context.fillRect(0, 0, 1, 1);
      found.add([...context.getImageData(0, 0, 1, 1).data.slice(0, 3)].join(" "));
    }
    window.printed = {};
    window.addEventListener("beforeprint", () => {
      for (const id of ["grid", "outline"]) {
        window.printed[id] = document.querySelectorAll(`#${id} .line`).length;
      }
    }, { once: true });
    return [...found];"""


def colors_of(document):
    """The fill colours in a PDF, each as three numbers up to 255."""
    found = set()
    for stream in re.findall(rb"stream\r?\n(.*?)endstream", document, re.S):
        try:
            words = zlib.decompress(stream)
        except zlib.error:
            continue
        for color in re.findall(rb"([\d.]+) ([\d.]+) ([\d.]+) rg\b", words):
            found.add(tuple(round(255 * float(part)) for part in color))
    return found


def on_paper(browser, address):
    """Every row is printed, in the colours of the light page, although backgrounds aren't asked for."""
    browser.media(**{"prefers-color-scheme": "light"})
    browser.go(address)
    set_form(browser, {"mode": "frames", "quinn": True}, "0a0004616263644001" * 56)
    wanted = [tuple(map(int, color.split())) for color in browser.run(PRINTED)]
    browser.media(**{"prefers-color-scheme": "dark"})
    document = browser.printed()
    # 504 bytes in rows of 16; and 56 times a STREAM with four fields and a PING with one.
    same(browser.run("return window.printed"), {"grid": 32, "outline": 56 * 7}, "the rows on paper")
    printed = colors_of(document)
    for color in wanted:
        if not any(all(abs(a - b) <= 1 for a, b in zip(color, one)) for one in printed):
            raise Failed(f"the colour {color} isn't on paper: {sorted(printed)}")
    same(len(wanted) > 1, True, "more colours than one")
    browser.until("return document.querySelectorAll('#grid .line').length < 32 || window.innerHeight > 900",
                  "the rows after printing")
    browser.unshape()
    return len(wanted)
