"""Large inputs: that they are shown, and how long that takes."""
import random
import re

from browser import CONTROL, END, RIGHT, Failed
from common import ACTIVE, BYTES, STATUS, same, set_form

# How often a large input is tried before it counts as too slow.
TRIES = 3

# Sets an input, and returns how many milliseconds it took until the page was drawn.
TIMED = """const [text] = arguments; window.took = null;
    const input = document.getElementById("input");
    const begin = performance.now();
    input.value = text;
    input.dispatchEvent(new Event("input", { bubbles: true }));
    const drawn = () => {
      if (document.documentElement.dataset.state === "ready") { window.took = performance.now() - begin; }
      else { look(); }
    };
    const look = () => requestAnimationFrame(() => setTimeout(drawn, 0));
    look();"""

# Pastes a text while a timer ticks: returns the longest wait of the timer, and how much of the text the box then has.
TICKING = """const [text] = arguments; window.waited = null;
    const input = document.getElementById("input");
    const clipboardData = new DataTransfer();
    clipboardData.setData("text/plain", text);
    input.select();
    let last = performance.now();
    let most = 0;
    const timer = setInterval(() => {
      most = Math.max(most, performance.now() - last);
      last = performance.now();
      if (document.documentElement.dataset.state === "ready") {
        clearInterval(timer);
        window.waited = [most, input.value.length, input.readOnly, document.getElementById("held").hidden];
      }
    }, 5);
    // Firefox takes the text by names of its own.
    const own = { dataType: "text/plain", data: text };
    input.dispatchEvent(new ClipboardEvent("paste", { clipboardData, ...own, bubbles: true, cancelable: true }));"""
LONG = 5_000_000


def large(size, seed):
    """Inputs of about this many bytes: what they are, the settings, the text, and the least number of items they have.
    """
    chance = random.Random(seed)
    number = bytes([0x80, 0, 0, 0])
    blocks = b"\x00\x00" * (size // 2 - 8)
    count = (0x80000000 + len(blocks) // 2).to_bytes(4, "big")
    ack = b"\x02" + (0x80000000 + 0x3FFFFFFF).to_bytes(4, "big") + b"\x00" + count + b"\x00" + blocks
    stream = b"\x0a" + number + b"\x41\x00" + chance.randbytes(256)
    long = b"\xe1\x00\x00\x00\x01\x00\x00\x40\x20" + chance.randbytes(32)
    parameter = b"\x80\x00\x40\x00\x00"
    return [
        ("PINGs", {"mode": "frames", "strict": False}, b"\x01" * size, size),
        ("PADDING", {"mode": "frames"}, bytes(size), 1),
        ("an ACK", {"mode": "frames"}, ack, 1),
        ("STREAMs", {"mode": "frames"}, stream * (size // len(stream)), size // len(stream)),
        ("noise", {"mode": "frames"}, chance.randbytes(size), 0),
        ("packets", {"mode": "datagram", "idLength": 8}, long * (size // len(long)), size // len(long)),
        ("parameters", {"mode": "params"}, parameter * (size // len(parameter)), size // len(parameter)),
    ]


def timed(browser, address, form, text, bound):
    """How long a text takes to be shown: the best of some tries, since the machine may be busy with others."""
    best = None
    for _ in range(TRIES):
        browser.go(f"{address}#read=frames&hex=01")
        set_form(browser, form, "01")
        browser.run(TIMED, text)
        took = browser.until("return window.took", "a large input")
        best = took if best is None else min(best, took)
        if best <= bound:
            break
    return best


def shown(browser, address, size, bound):
    """Shows large inputs, each within this many milliseconds, and goes to their ends. Returns the longest time."""
    longest = (0, "")
    for what, form, data, count in large(size, 1):
        took = timed(browser, address, form, data.hex(), bound)
        if took > bound:
            raise Failed(f"{size} bytes of {what} took {took:.0f} ms")
        longest = max(longest, (took, what))
        status = browser.run(STATUS)
        if str(len(data)) not in status or int(re.search(r"(\d+) (?:frame|packet|parameter)", status)[1]) < count:
            raise Failed(f"{size} bytes of {what}: {status}")
        browser.run("document.getElementById('grid').focus()")
        browser.keys(RIGHT)
        browser.keys(END, held=(CONTROL,))
        same(browser.run(ACTIVE)["label"].split(",")[0], f"byte {len(data) - 1}", f"the end of {what}")
        browser.run("document.getElementById('outline').focus()")
        browser.keys(END)
        if f"..{len(data)}" not in browser.run(ACTIVE)["label"]:
            raise Failed(f"the last line of {what}: {browser.run(ACTIVE)['label']}")
    return longest


def long_texts(browser, address, bound):
    """Texts of 5 MB keep the page busy for at most this many milliseconds at a time. Returns the longest time."""
    longest = 0
    frames = "0a0004616263644001"
    for what, unit, form in (("one line", frames, "hexadecimal."),
                             ("lines", f"{frames * 4}\n", "hexadecimal."),
                             ("a log", f"10:00 sent {frames * 4}\n", "in a line of a log. Input 1 of")):
        for left in reversed(range(2 * TRIES)):
            browser.go(f"{address}#read=frames&quinn=1&hex=01")
            browser.run(TICKING, unit * (LONG // len(unit)))
            waited, shown_part, is_locked, is_silent = browser.until("return window.waited", f"{what} of 5 MB")
            if waited <= bound or left == 0:
                break
        if waited > bound:
            raise Failed(f"{what} of 5 MB: busy for {waited:.0f} ms")
        same((shown_part < LONG, is_locked, is_silent), (True, True, False), f"the box with {what} of 5 MB")
        if form not in browser.run(STATUS):
            raise Failed(f"{what} of 5 MB: {browser.run(STATUS)}")
        longest = max(longest, waited)
    browser.run("document.getElementById('clear').click()")
    box = "const { value, readOnly } = document.getElementById('input'); return [value, readOnly]"
    same(browser.run(box), ["", False], "the box once it is cleared")
    pasted(browser, address)
    return longest


def pasted(browser, address):
    """Pasting with keys does the same: a short text, one in place of the example, one that is too long for the box."""
    copy = """const from = document.createElement("textarea"); from.id = "from"; from.value = arguments[0];
        document.body.append(from); from.focus();"""
    for size, link in ((1000, "#read=frames&hex="), (1001, ""), (200_000, "#read=frames&hex=")):
        browser.send("navigate", {"url": "about:blank"})
        browser.go(f"{address}{link}")
        browser.run(copy, "01" * size)
        browser.keys("a", held=(CONTROL,))
        browser.keys("c", held=(CONTROL,))
        browser.run("document.getElementById('from').remove(); document.getElementById('input').focus()")
        browser.keys("v", held=(CONTROL,))
        browser.until("return document.getElementById('status').textContent.startsWith(arguments[0])",
                      f"{size} bytes that are pasted", f"{size} frames in {size} bytes")
        same(browser.run("return document.getElementById('input').readOnly"), size > 100_000, f"{size} bytes pasted")


def listed(browser, address, size, bound):
    """A log of about this many bytes is a list within this many milliseconds, and its end is reached."""
    chance = random.Random(size)
    payloads = [b"\x0a\x04\x28" + chance.randbytes(40) for _ in range(size // 43)]
    text = "\n".join(f"10:00:{at % 60:02} sent {payload.hex()}" for at, payload in enumerate(payloads))
    took = timed(browser, address, {"mode": "frames"}, text, bound)
    if took > bound:
        raise Failed(f"a log of {size} bytes took {took:.0f} ms")
    browser.run("document.getElementById('list').focus()")
    browser.keys(END)
    same(browser.run(BYTES), payloads[-1].hex(), "the last input of a log")
    return took
