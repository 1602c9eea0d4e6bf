"""What can be pasted, what is chosen from it, and links."""
from browser import DOWN, END, HOME, UP, Failed
from common import BYTES, SET_INPUT, STATUS, same, set_form, turn

WRITTEN = [
    "40000a000161", "40 00 0a 00 01 61", "40:00:0a:00:01:61", "0x40, 0x00, 0x0a, 0x00, 0x01, 0x61", "40000A00\n0161",
    "\\x40\\x00\\x0a\\x00\\x01\\x61", "0x40000a000161", "QAAKAAFh", "QAAK\nAAFh",
    "00000000: 4000 0a00 0161                           @....a", "0000   40 00 0a 00 01 61   @....a",
    "00000000  40 00 0a 00 01 61                                 |@....a|\n00000006",
    "\t0x0000:  4000 0a00 0161                           @....a", "{ 0x40, 0x00, 0x0a,\n  0x00, 0x01, 0x61 };",
    "00000010: 4000 0a00  @...\n00000014: 0161       .a", "0000000 40 00 0a 00 01 61\n0000006",
    "0000000 40 00 0a 00 01 61  >@....a<\n0000006", "12:00:01 received 6 bytes: 40 00 0a 00 01 61",
    '{"time":12,"name":"packet_received","raw":{"length":6,"data":"40000a000161"}}',
]
FAULTY = {
    "4": "an odd number of digits, 1, in column 1", "4000 0a0": "an odd number of digits, 3, in column 6",
    "40 0g": "not hexadecimal: 'g' in column 5", "Łą": "not hexadecimal: 'Ł' in column 1",
    "000000 01 06": "ambiguous: an offset and bytes, or only bytes; add the next line of the dump, or remove spaces",
}


def no_input(browser):
    """An empty box is no error, in any mode."""
    for mode in ("frames", "datagram", "params"):
        for text in ("", " \n"):
            set_form(browser, {"mode": mode}, text)
            same(browser.run(STATUS), "Nothing to read yet: paste bytes above, or try one of the examples.", "no input")
            same(browser.run("return document.getElementById('status').className"), "status", "no input")


def ways_to_write(browser):
    no_input(browser)
    set_form(browser, {"mode": "frames", "strict": False}, "")
    for text in WRITTEN:
        browser.run(SET_INPUT, text)
        same(browser.run(BYTES), "40000a000161", f"the bytes of {text!r}")
    for text, fault in FAULTY.items():
        browser.run(SET_INPUT, text)
        same(browser.run(STATUS), f"No bytes: {fault}.", repr(text))
        same(browser.run("return document.getElementById('input').getAttribute('aria-invalid')"), "true", repr(text))
    return len(WRITTEN) + len(FAULTY)


# ---- several inputs in one text

# A text, the inputs in it with the lines where they begin, and how many lines have none.
SEVERAL = [
    ("01\n4001\n02406419020301", [("01", 1), ("4001", 2), ("02406419020301", 3)], 0),
    ("0101\n\n4000\n0161\n\n1e", [("0101", 1), ("40000161", 3), ("1e", 6)], 0),
    ("00000000: 4000 0a00  @...\n00000004: 0161       .a\n\n00000000: 1e01       ..",
     [("40000a000161", 1), ("1e01", 4)], 0),
    ("00000000  40 00 0a                                          |@..|\n00000003\n"
     "00000000  01 1e                                             |..|\n00000002", [("40000a", 1), ("011e", 3)], 0),
    ("0000000 40 00 0a\n0000003\n0000000 01 1e\n0000002", [("40000a", 1), ("011e", 3)], 0),
    ("10:00 sent 0x40000a00\nand nothing\n10:01 received \"01010101\"", [("40000a00", 1), ("01010101", 3)], 1),
]
# A dump of 50 bytes in which od -A d and hexdump -C leave out repeated rows.
SAME_ROWS = "00000000  00 00 00 00 00 00 00 00  00 00 00 00 00 00 00 00  |................|\n*\n" \
    "00000030  01 01                                             |..|\n00000032"
ENTRIES = """return [...document.querySelectorAll("#list .entry")].map((entry) => [
    entry.querySelector(".digits").textContent, entry.querySelector(".value").textContent,
    entry.querySelector(".place").textContent]);"""
CHOSEN = """const list = document.getElementById("list");
    const at = document.getElementById(list.getAttribute("aria-activedescendant"));
    return [Number(at.getAttribute("aria-posinset")), at.getAttribute("aria-selected"),
      document.querySelectorAll("#list [aria-selected=true]").length];"""


def several(browser, address):
    """A text of several inputs is a list, from which one is chosen with the keys or the pointer."""
    browser.go(f"{address}#read=frames&hex=01")
    for text, inputs, left in SEVERAL:
        browser.run(SET_INPUT, text)
        found = [(digits, line) for digits, _, line in browser.run(ENTRIES)]
        same(found, [(digits, f"line {line}") for digits, line in inputs], f"the inputs of {text!r}")
        for at, (digits, _) in enumerate(inputs):
            browser.run("document.querySelectorAll('#list .entry')[arguments[0]].click()", at)
            same(browser.run(BYTES), digits, f"input {at + 1} of {text!r}")
            want = f"Input {at + 1} of {len(inputs)}." + (" 1 line without bytes is left out." if left else "")
            if not browser.run(STATUS).replace(" Show it", "").strip().endswith(want):
                raise Failed(f"{text!r}: {browser.run(STATUS)!r} and not {want!r}")
    browser.run(SET_INPUT, SAME_ROWS)
    same(browser.run(BYTES), "00" * 48 + "0101", "a dump with rows like the one before")
    by_keys(browser)
    taken_both_ways(browser)
    return len(SEVERAL) + 1


def by_keys(browser):
    browser.run(SET_INPUT, "\n".join(["01", "40", "1e0101"] + ["0101"] * 40 + ["01"]))
    browser.run("document.getElementById('list').focus()")
    same(browser.run(ENTRIES)[:3], [["01", "1 frame in 1 byte", "line 1"],
                                    ["40", "error at byte 0: unexpected end", "line 2"],
                                    ["1e0101", "3 frames in 3 bytes", "line 3"]], "what the list says")
    for keys, at, digits in (([DOWN], 2, "40"), ([DOWN], 3, "1e0101"), ([END], 44, "01"), ([DOWN], 44, "01"),
                             ([UP], 43, "0101"), ([HOME], 1, "01")):
        browser.keys(*keys)
        same(browser.run(CHOSEN), [at, "true", 1], "what is chosen in the list")
        same(browser.run(BYTES), digits, f"input {at}")


def taken_both_ways(browser):
    """Lines that may belong together: the page guesses, and reads them the other way if asked."""
    for text, digits, is_one in (("40000A00\n0161", "40000a000161", True), ("01\n4001", "01", False)):
        browser.run(SET_INPUT, text)
        shown = "const box = document.getElementById('form').elements.joined; " \
            "return [!box.parentElement.hidden, box.checked, document.getElementById('entries').hidden]"
        same(browser.run(shown), [True, is_one, is_one], f"the lines of {text!r}")
        same(browser.run(BYTES), digits, f"the bytes of {text!r}")
        turn(browser, "joined", not is_one)
        same(browser.run(shown), [True, not is_one, not is_one], f"the lines of {text!r} the other way")
    same(browser.run(BYTES), "014001", "lines that belong together")
    browser.run(SET_INPUT, "40000a000161")
    same(browser.run(shown), [False, True, True], "one line")


# ---- choices that quic-show doesn't have, and the strip of an ACK

CHOICES = [
    ({"mode": "datagram", "versions": "1", "grease": False}, "c31a2a3a4a0000", "unsupported version 1a2a3a4a"),
    ({"mode": "datagram", "versions": "0x1A2A3A4A, 1", "grease": False}, "c31a2a3a4a00000000", "1 packet in 9 bytes"),
    ({"mode": "datagram", "idLength": 1, "grease": False}, "000102", "fixed bit unset"),
    ({"mode": "datagram", "idLength": 1, "grease": False}, "000102", "RFC 9000, section 12.2"),
    ({"mode": "datagram", "grease": False}, "8000000000000000000001", "section 17.2.1, leaves this bit unused"),
    ({"mode": "datagram", "versions": "1", "grease": False}, "801a2a3a4a0000", "RFC 8999, section 5.1"),
    ({"mode": "datagram", "versions": "1", "grease": False}, "80000000010000", "RFC 9000, section 12.2"),
    ({"mode": "datagram", "idLength": 1, "grease": True}, "000102", "1 packet in 3 bytes"),
    ({"mode": "datagram", "idLength": 4, "grease": True}, "000102", "packet too small"),
    ({"mode": "frames"}, "0610", "RFC 9000, section 20.1"),
    ({"mode": "frames"}, "0200000100000000", "RFC 9000, section 19.3.1"),
    ({"mode": "frames"}, "18010208", "RFC 9000, section 19.15"),
    ({"mode": "frames"}, "21", "RFC 9000, section 12.4"),
    # RFC 9000, section 18.2: values below 2 are invalid.
    ({"mode": "params", "side": "client"}, "0e0101", "illegal value. Allowed is 2 or more."),
    ({"mode": "params", "side": "server"}, "1000", "illegal value. Only servers send it."),
    ({"mode": "params", "side": "server"}, "1000", "RFC 9000, section 18.2."),
    ({"mode": "frames"}, "000001", "2 frames (a run of PADDING is one) in 3 bytes"),
]
# As RFC 9000 reads: what quinn-proto accepts, and what it rejects.
BY_RFC = [
    ({"mode": "frames"}, "0700", "Error at byte 1: malformed in NEW_TOKEN. The token is empty."),
    ({"mode": "frames"}, "0700", "RFC 9000, section 19.7."),
    # 2^60 + 1 streams.
    ({"mode": "frames"}, "12d000000000000001", "limit exceeded in MAX_STREAMS_BIDI. It is greater than 2^60."),
    ({"mode": "frames"}, "12d000000000000001", "RFC 9000, section 19.11."),
    ({"mode": "frames"}, "1f", "invalid frame ID in IMMEDIATE_ACK. The ACK frequency extension wasn't negotiated."),
    ({"mode": "frames"}, "4001", "Error at byte 0: frame type not in shortest form in PING."),
    ({"mode": "datagram", "idLength": 1}, "000102", "1 packet in 3 bytes"),
    ({"mode": "datagram", "versions": "1"}, "f00000000100000102", "Error at byte 7: Retry without a token or a tag."),
    ({"mode": "datagram", "versions": "1"}, "f00000000100000102", "RFC 9000, section 17.2.5.2"),
    ({"mode": "params", "side": "client"}, "0102400a", "1 parameter in 4 bytes"),
]
NOTE = "return document.querySelector('#outline .note')?.textContent"
STRIP = "return document.querySelector('#outline svg').getAttribute('aria-label')"


def choices(browser, address):
    """Versions, the fixed bit and lengths of ids have an effect, bounds are named; the strip says what it draws."""
    browser.go(f"{address}#read=datagram")
    for form, text, want in CHOICES:
        set_form(browser, {"quinn": True, **form}, text)
        status = browser.run(STATUS)
        if want not in status:
            raise Failed(f"{form} {text}: {status!r}")
    for form, text, want in BY_RFC:
        set_form(browser, {"quinn": False, **form}, text)
        status = browser.run(STATUS)
        if want not in status:
            raise Failed(f"by the RFC {form} {text}: {status!r}")
    set_form(browser, {"quinn": False, "mode": "datagram", "idLength": 1}, "000102")
    same(browser.run(NOTE), "the fixed bit is 0, as RFC 9287 allows", "a clear fixed bit")
    set_form(browser, {"mode": "frames"}, "02406419020301" "0a0502")
    same(browser.run(STRIP), "18 of 26 packets, in 3 ranges", "the strip")
    return len(CHOICES) + len(BY_RFC)


# The mode, a line, and the mode that a button offers. The datagrams begin with a long header of a known version, of an
# unknown one, with a clear fixed bit, with none; then a payload of several frames, and types that any bytes fit after.
HINTS = [
    ("frames", "c0000000010008f067a5502a4262b5000501aabbccdd", "datagram"),
    ("params", "c0000000010008f067a5502a4262b5000501aabbccdd", "datagram"),
    ("frames", "c01a2a3a4a0000", None), ("frames", "80000000010008f067a5502a4262b5000501aabbccdd", None),
    ("frames", "c000000000000001", None), ("frames", "4a010203040506", None), ("datagram", "010a000161", "frames"),
    ("datagram", "0800616263", None), ("datagram", "30616263", None), ("datagram", "01060005", None),
]
OFFERED = """return [...document.querySelectorAll("#status button")].map((one) => one.textContent)
    .filter((text) => text.startsWith("Read it as"));"""
TEXTS = {"datagram": "Read it as a datagram", "frames": "Read it as a payload"}


def hints(browser, address):
    """What another mode reads has a button, which goes there, unless there is doubt."""
    browser.go(f"{address}#read=frames")
    for mode, digits, other in HINTS:
        set_form(browser, {"mode": mode}, digits)
        same(browser.run(OFFERED), [TEXTS[other]] if other else [], f"what is offered for {mode} {digits}")
        if other:
            browser.run("document.querySelector('#status button:last-child').click()")
            chosen = "return [document.getElementById('form').elements.mode.value, document.activeElement.value]"
            same(browser.run(chosen), [other, other], f"the mode for {digits}")
            same(browser.run(OFFERED), [], f"what is offered for {other} {digits}")
    return len(HINTS)


# Texts of each kind, what the page guesses, and the mode whose reader is chosen then: a payload, the first bytes of the
# client's Initial in RFC 9001, appendix A.2, a client's and a server's transport parameters.
GUESSES = [
    ("02406419020301" "0a05026869", "a payload", None),
    ("c000000001088394c8f03e5157080000449e7b9aec34", "a datagram", None),
    ("010480007530" "040480100000" "050480100000" "0a0103", "transport parameters", "client"),
    ("000811223344556677880f0401020304021000112233445566778899aabbccddeeff", "transport parameters", "client"),
    ("00000000: 0240 6419 0203 010a  .@d.....\n00000008: 0502 6869              ..hi", "a payload", None),
]
GUESSED = """const { elements } = document.getElementById("form");
    const status = document.getElementById("status").textContent;
    return [elements.mode.value, /Guessed: ([^.]*)\\./.exec(status)?.[1] ?? null];"""
READ_AS = """[...document.querySelectorAll("#status button")].find((one) => one.textContent === arguments[0]).click()"""


def guesses(browser, address, top):
    """What is pasted is guessed, unless a mode was chosen; the other readers are a click away."""
    browser.send("navigate", {"url": "about:blank"})
    browser.go(address)
    same(browser.run(GUESSED), ["auto", "a payload"], "the example at first")
    for text, what, side in GUESSES:
        browser.run(SET_INPUT, text)
        same(browser.run(GUESSED), ["auto", what], f"the guess for {text!r}")
        if side:
            same(browser.run("return document.getElementById('form').elements.side.value"), side, f"who reads {text!r}")
    text = GUESSES[1][0]
    browser.run(SET_INPUT, text)
    browser.until("return location.hash.startsWith('#read=auto&')", "a link that guesses")
    browser.run(READ_AS, "Read as a payload")
    same(browser.run(GUESSED), ["frames", None], "another reader")
    for mode in ("frames", "datagram", "params"):
        for text, _, _ in GUESSES:
            set_form(browser, {"mode": mode}, text)
            same(browser.run(GUESSED), [mode, None], f"{mode} was chosen for {text!r}")
    with open(f"{top}/rust/capture/tests/data/small.pcap", "rb") as file:
        set_form(browser, {"mode": "auto"}, file.read().hex())
    same(browser.run(GUESSED), ["auto", "a capture in the format pcap"], "a capture")
    browser.run(READ_AS, "Open the capture")
    browser.until("return document.documentElement.dataset.capture === 'ready'", "the capture is read")
    browser.until("return document.querySelectorAll('#packets [data-index]').length > 0", "its packets")
    same(browser.run("return document.getElementById('bytes-door').hidden"), True, "the door of captures is open")
    return len(GUESSES) + 1


# ---- links

STATES = [
    ({"mode": "frames", "quinn": True, "strict": True}, "40000a000161"), ({"mode": "frames", "strict": False}, ""),
    ({"mode": "datagram", "quinn": True, "idLength": 4, "grease": True, "versions": "1 6b3343cf"}, "4001020304ffff"),
    ({"mode": "datagram", "idLength": 20, "versions": "1a2a3a4a"}, "c31a2a3a4a0000"),
    ({"mode": "params", "quinn": True, "side": "client"}, "0102400a"), ({"mode": "frames"}, "40000a000161"),
    ({"mode": "params", "side": "server"}, "01 04 80 00 75 30"), ({"mode": "frames"}, "no bytes & more #?"),
    ({"mode": "frames"}, "01\n4001\n1e0101"), ({"mode": "frames"}, "10:00 sent 0x40000a00\n10:01 sent 0x01010101"),
    ({"mode": "frames"}, "40000a00\n0161"), ({"mode": "datagram", "compare": True, "idLength": 0}, "4001020304"),
    ({"mode": "auto"}, "c000000001088394c8f03e5157080000449e7b9aec34"),
]
SHOWN = """const { elements } = document.getElementById("form"); document.getElementById("text").open = true;
    return [elements.mode.value, elements.quinn.checked, elements.mode.value !== "frames" || elements.strict.checked,
      elements.idLength.value,
      elements.versions.value, elements.mode.value !== "datagram" || elements.grease.checked, elements.side.value,
      elements.compare.checked, document.querySelectorAll("#list .entry").length,
      document.getElementById("status").textContent.replace(/, read as.*/, "")];"""


def links(browser, address):
    """A link from the page shows the same in a page that opens it, and in one that is open."""
    for form, text in STATES:
        browser.go(f"{address}#read=frames&hex=01")
        set_form(browser, form, text)
        before = browser.run(SHOWN)
        begun = "#read=frames&hex=01"
        link = browser.until("return location.hash !== arguments[0] && location.href", "the link", begun)
        browser.send("navigate", {"url": "about:blank"})
        browser.go(link)
        same(browser.run(SHOWN), before, f"the link {link}")
        browser.run("window.location.hash = '#read=frames&hex=02'")
        browser.until("return document.getElementById('status').textContent.startsWith('Error')", "another link")
        browser.run("window.location.hash = arguments[0]", link.split("#")[1])
        browser.until("return JSON.stringify((() => {" + SHOWN + "})()) === arguments[0]", f"the link {link}",
                      browser.run("return JSON.stringify(arguments[0])", before))
    further_links(browser, address)
    copied_link(browser, address)
    return len(STATES) + 1


def further_links(browser, address):
    """A link says which input is shown, and which is beside it."""
    browser.go(f"{address}#read=frames&hex=01.4001.1e0101&at=2&with=1e01")
    same(browser.run(BYTES), "1e0101", "the input of a link")
    same(browser.run("return document.getElementById('other-input').value"), "1e01", "the other input of a link")
    browser.run("document.querySelectorAll('#list .entry')[1].click()")
    browser.until("return location.hash === '#read=frames&hex=01.4001.1e0101&at=1&with=1e01'", "the link of a list")


# Clicks the button, and keeps what it says afterwards, which it does only for a while.
CLICK_LINK = """const link = document.getElementById("link"); window.said = null;
    new MutationObserver(() => {
      if (link.textContent !== "Copy link") { window.said = link.textContent; }
    }).observe(link, { childList: true });
    link.click();"""


def copied_link(browser, address):
    """The button writes the link at once, and says if there are too many bytes for it."""
    for size, want in ((65536, "Copied"), (65537, "Copied, without the bytes: they are too many")):
        browser.go(f"{address}#read=frames&hex=01")
        browser.run(SET_INPUT, "01" * size)
        browser.run(CLICK_LINK)
        same(len(browser.run("return location.hash")) > 2 * 65536, size == 65536, f"a link of {size} bytes")
        text = browser.until("return window.said", "what the button says")
        if text not in (want, "Not copied; it is in the address bar"):
            raise Failed(f"the button says {text!r}")
