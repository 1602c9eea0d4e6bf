"""The page with the keyboard and with the pointer."""
from browser import CONTROL, DOWN, END, ENTER, HOME, LEFT, PAGE_DOWN, RIGHT, TAB, UP, Failed
from common import ACTIVE, CENTER, same


def stops(browser, count):
    """What has the focus after each of this many tabs."""
    found = []
    for _ in range(count):
        browser.keys(TAB)
        found.append(browser.run(ACTIVE)["box"])
    return found


def keyboard(browser, address):
    """A walk without a pointer: from the input box to the grid, along it, to the tree and back."""
    browser.go(f"{address}#read=frames&quinn=1&hex=0205190002" "0a0003616263" "0161")
    browser.run("document.getElementById('input').focus()")
    order = stops(browser, 17)
    same(order, ["strict", "quinn", "compare", "clear", "link", "a payload", "a payload with an error",
                 "a datagram of three packets", "a client’s Initial", "a server’s Initial", "a Retry",
                 "a packet to open", "a log", "a server’s transport parameters", "Show it", "save", "grid"],
         "the order of tabs")
    browser.keys(RIGHT)
    same(browser.run(ACTIVE)["label"], "byte 0, 02, Type of ACK", "the first byte")
    browser.keys(RIGHT)
    now = browser.run(ACTIVE)
    same((now["label"], now["lit"]), ("byte 1, 05, Largest Acknowledged of ACK", "05"), "a step to the right")
    browser.keys(END, held=(CONTROL,))
    same(browser.run(ACTIVE)["label"].split(",")[0], "byte 12", "the last byte")
    browser.keys(HOME, held=(CONTROL,))
    browser.keys(DOWN)
    same(browser.run(ACTIVE)["label"].split(",")[0], "byte 0", "no row below")
    browser.keys(*[RIGHT] * 4)
    browser.keys(ENTER)
    now = browser.run(ACTIVE)
    same((now["box"], now["label"]), ("outline", "First ACK Range24..5"), "Enter in the grid")
    walk_tree(browser)


def walk_tree(browser):
    browser.keys(LEFT)
    same(browser.run(ACTIVE)["expanded"], "true", "from a field to its item")
    browser.keys(LEFT)
    same(browser.run(ACTIVE)["expanded"], "false", "the item is closed")
    browser.keys(RIGHT)
    same(browser.run(ACTIVE)["expanded"], "true", "the item is open")
    browser.keys(END)
    browser.keys(UP, DOWN)
    last = browser.run(ACTIVE)
    browser.keys(HOME, PAGE_DOWN)
    browser.keys(END, ENTER)
    now = browser.run(ACTIVE)
    same((now["box"], now["field"]), ("grid", last["field"]), "Enter in the tree")
    if not now["inspector"]:
        raise Failed("nothing names what is lit")
    same(stops(browser, 2), ["outline", "RFC 9000, section 12.4"], "after the grid the tree, then the section")


def all_by_keyboard(browser, address):
    """From a new page to an opened packet, only with keys: all that is used is within their reach, and what has the
    focus is visible."""
    browser.go(address)
    browser.run("document.activeElement.blur(); window.scrollTo(0, 0);")
    browser.keys(TAB)
    same(browser.run("return document.activeElement.id"), "door-bytes", "the doors come first")
    browser.keys(TAB, RIGHT, RIGHT)
    same(browser.run("return document.getElementById('form').elements.mode.value"), "datagram", "the mode by keys")
    browser.keys(TAB)
    same(browser.run(ACTIVE)["box"], "input", "after the modes")
    browser.keys("a", held=(CONTROL,))
    browser.keys(*"4cfe4189655e5cd55c41f69080575d7999c25a5bfb")
    browser.keys(TAB)
    browser.keys("a", held=(CONTROL,))
    browser.keys("0")
    until_focus(browser, "SUMMARY")
    browser.keys(ENTER)
    same(browser.run("return document.getElementById('open').open"), True, "the panel is open")
    browser.keys(TAB)
    same(browser.run("return document.activeElement.id"), "first-id", "the id after the panel's title")
    for field, text in (("mask", "aefefe7d03"), ("plain", "01")):
        browser.keys(TAB)
        same(browser.run("return document.activeElement.dataset.name"), field, "the fields of a packet")
        browser.keys(*text)
        same(browser.run(SEEN), True, f"the field {field} is seen")
    same(browser.run("return document.querySelector('#plain-outline .item .name').textContent"), "PING", "the payload")


SEEN = """const { top, bottom } = document.activeElement.getBoundingClientRect();
    const bar = document.getElementById("inspector").getBoundingClientRect();
    const isUnder = bar.height > 0 && bottom > bar.top && top < bar.bottom;
    return top >= 0 && bottom <= window.innerHeight && !isUnder;"""


def until_focus(browser, tag):
    for _ in range(40):
        browser.keys(TAB)
        if browser.run("return document.activeElement.tagName") == tag:
            return
    raise Failed(f"no {tag} by keyboard")


def pointer(browser, address):
    """What is under the pointer is lit in both views."""
    browser.go(f"{address}#read=frames&hex=0a0003616263" "01")
    browser.point(*browser.run(CENTER, "#grid [data-place='4']"))
    now = browser.run(ACTIVE)
    same((now["lit"], now["field"]), ("616263", "Stream Data“abc”3..6"), "a byte under the pointer")
    if "3 bytes, 3..6" not in now["inspector"]:
        raise Failed(f"the range of what is lit: {now['inspector']}")
    browser.point(*browser.run(CENTER, "#outline [data-field='2'] .name"))
    now = browser.run(ACTIVE)
    same((now["lit"], now["field"]), ("03", "Length32..3"), "a field under the pointer")
    browser.point(*browser.run(CENTER, "h1"))
    same(browser.run(ACTIVE)["lit"], "", "nothing under the pointer")
    browser.point(*browser.run(CENTER, "#outline .item .caret"), click=True)
    same(browser.run("return document.querySelectorAll('#outline .line').length"), 3, "a click closes an item")
