"""What the page does besides reading one input: opened packets, two inputs compared, pictures, links into the RFCs; and
that it sends nothing."""
import re
import xml.etree.ElementTree as Tree

from browser import Failed
from common import click_example, same, set_field, set_form, turn

LINES = """return [...document.querySelectorAll(arguments[0] + " .line")].map((line) => [
    line.querySelector(".name").textContent, line.querySelector(".value")?.textContent ?? ""]);"""

# RFC 9001, appendix A.3: the server's Initial packet, its mask, its payload; A.5: a packet with a short header.
SERVER_INITIAL = (
    "cf000000010008f067a5502a4262b5004075c0d95a482cd0991cd25b0aac406a5816b6394100f37a1c69797554780bb38cc5a99f5ede4cf7"
    "3c3ec2493a1839b3dbcba3f6ea46c5b7684df3548e7ddeb9c3bf9c73cc3f3bded74b562bfb19fb84022f8ef4cdd93795d77d06edbb7aaf2f"
    "58891850abbdca3d20398c276456cbc42158407dd074ee")
SERVER_PAYLOAD = (
    "02000000000600405a020000560303eefce7f7b37ba1d1632e96677825ddf73988cfc79825df566dc5430b9a045a1200130100002e003300"
    "24001d00209d3c940d89690b84d08a60993c144eca684d1081287c834d5311bcf32bb9da1a002b00020304")
CHACHA20 = "4cfe4189655e5cd55c41f69080575d7999c25a5bfb"
OPENED = [
    # The datagram, the length of ids, mask and payload; the header without protection, and the lines under the packet.
    (SERVER_INITIAL, 8, "2ec0d8356a", SERVER_PAYLOAD, "0xc1",
     {"Packet Number": "1", "ACK": "0", "CRYPTO": "offset 0, 90 bytes"}, "2cd0991cd25b0aac406a5816b6394100"),
    (CHACHA20, 0, "ae fe fe 7d 03", "01", "0x42",
     {"Packet Number": f"{0x00bff4}", "PING": ""}, "5e5cd55c41f69080575d7999c25a5bfb"),
]
NOTE = "return document.querySelector('.packet-note').textContent"


def opened(browser, address):
    """A mask and a payload from the RFC's examples result in the headers and the frames in them."""
    browser.go(f"{address}#read=datagram&ids=0&hex=00")
    for datagram, length, mask, payload, first, lines, sample in OPENED:
        set_form(browser, {"mode": "datagram", "idLength": length}, datagram)
        if sample not in browser.run(NOTE):
            raise Failed(f"the sample of {datagram}: {browser.run(NOTE)}")
        set_field(browser, ".packet [data-name=mask]", mask)
        set_field(browser, ".packet [data-name=plain]", payload)
        found = dict(browser.run(LINES, "#outline"))
        for name, value in lines.items():
            same(found.get(name), value, f"{name} of {datagram}")
        note = browser.run("return document.querySelector('#outline .note').textContent")
        same(note, f"{first}, unprotected", f"the first byte of {datagram}")
        same(browser.run("return document.querySelectorAll('.packet-note .fault').length"), 0, "faults")
        inner = [name for name in lines if name != "Packet Number"]
        names = browser.run("return [...document.querySelectorAll('#plain-outline .item .name')]"
                            ".map((one) => one.textContent)")
        same(names, inner, f"the payload of {datagram}")
        wanted = f"hex={datagram}&open=0.{mask.replace(' ', '')}.{payload}"
        link = browser.until("return location.hash.endsWith(arguments[0]) && location.href", "a link that opens",
                             wanted)
        browser.send("navigate", {"url": "about:blank"})
        browser.go(link)
        same(dict(browser.run(LINES, "#outline")), found, f"the link {link}")
    wrongly_opened(browser)
    return len(OPENED)


def wrongly_opened(browser):
    """What can't be a mask or the payload of this packet is reported."""
    for field, text, want in (("mask", "aefefe7d", "Mask: 4 of 5 bytes."), ("mask", "x.z", "Mask: not hexadecimal"),
                              ("plain", "0101", "The payload of this packet has 1 byte, and here are 2."),
                              ("plain", "0", "Payload: an odd number of digits, 1, in column 1.")):
        set_field(browser, ".packet [data-name=mask]", "aefefe7d03")
        set_field(browser, ".packet [data-name=plain]", "01")
        set_field(browser, f".packet [data-name={field}]", text)
        if want not in browser.run(NOTE):
            raise Failed(f"{text!r} as {field}: {browser.run(NOTE)!r}")
    set_form(browser, {"mode": "datagram", "idLength": 0}, "40010203")
    if "too short" not in browser.run(NOTE):
        raise Failed(f"a short packet: {browser.run(NOTE)!r}")


# ---- two inputs

COMPARED = [
    # Both inputs, and which bytes of each differ.
    ("40000a000161", "40000a000162", [5], [5]), ("010203", "010203", [], []),
    ("0100" "0a00036162631e", "0a00036162631e", [0, 1], []), ("0a000361626301", "010a0003616263", [6], [0]),
    ("0a00036162631e", "0a0004616264631e", [2], [2, 5]), ("01", "1e1e", [0], [0, 1]),
]
DIFFERS = """return [...document.querySelectorAll(arguments[0] + " .byte.differs")]
    .map((cell) => Number(cell.dataset.place));"""


def compared(browser, address):
    """What differs between two inputs is marked in both, with a line and not only by colour."""
    browser.go(f"{address}#read=frames&quinn=1&hex=01")
    turn(browser, "compare", True)
    for left, right, here, there in COMPARED:
        set_form(browser, {"mode": "frames"}, left)
        set_field(browser, "#other-input", right)
        same((browser.run(DIFFERS, "#grid"), browser.run(DIFFERS, "#other-grid")), (here, there), f"{left} and {right}")
    border = "return getComputedStyle(document.querySelector('#grid .byte.differs')).borderBottomWidth"
    same(browser.run(border), "2px", "the line under what differs")
    set_form(browser, {"mode": "frames"}, "0a000361626301")
    set_field(browser, "#other-input", "010a0003616263")
    browser.run("document.querySelector('#grid [data-place=\"4\"]').click()")
    lit = "return [...document.querySelectorAll('#other-grid .lit-field')].map((one) => one.dataset.place).join()"
    same(browser.run(lit), "4,5,6", "the field beside the one that was chosen")
    turn(browser, "compare", False)
    set_form(browser, {"mode": "frames"}, "40010a000361626301")
    same((browser.run(DIFFERS, "#grid"), browser.run(DIFFERS, "#shortest-grid")), ([0], []), "the shortest form")
    return len(COMPARED) + 1


# ---- a picture

SVG = "{http://www.w3.org/2000/svg}"


def picture(browser, address):
    """The saved picture has each byte at its position, and every colour as a number."""
    browser.go(address)
    click_example(browser, "a payload with an error")
    browser.run("document.getElementById('save').click()")
    text = browser.saved("quic-bytes.svg")
    root = Tree.fromstring(text)
    texts = [(one.text, float(one.get("x")), float(one.get("y"))) for one in root.iter(f"{SVG}text")]
    digits = [one for one in texts if re.fullmatch("[0-9a-f]{2}", one[0])]
    shown = "024064190203010a05020e0444b02068656c6c6f"
    same("".join(one[0] for one in digits), shown, "the bytes of the picture")
    rows = {y for _, _, y in digits}
    same(len(rows), 2, "the rows of the picture")
    if not all(a[1] < b[1] for a, b in zip(digits, digits[1:]) if a[2] == b[2]):
        raise Failed("bytes of the picture aren't in their order")
    words = [one[0] for one in texts]
    for wanted in ("Error at byte 15: unexpected end in STREAM.", "ACK", "STREAM (invalid)", "0000", "0010"):
        if wanted not in words:
            raise Failed(f"the picture lacks {wanted!r}: {words}")
    for color in re.findall(r'(?:fill|stroke)="([^"]*)"', text):
        if not re.fullmatch("#[0-9a-f]{6}", color):
            raise Failed(f"a colour of the picture: {color}")
    if "<script" in text or re.search(r'(?:href|src)=', text):
        raise Failed("the picture isn't by itself")


# ---- links into the RFCs

ACK_DRAFT = "the ACK frequency draft"
# For each type of frame, the section that describes it, as in the tables of contents of the RFCs.
SECTIONS = {
    "00": "19.1", "01": "19.2", "0200000000": "19.3", "040000" "00": "19.4", "050000": "19.5", "060000": "19.6",
    "070161": "19.7", "0a0000": "19.8", "1000": "19.9", "110000": "19.10", "1200": "19.11", "1300": "19.11",
    "1400": "19.12", "150000": "19.13", "1600": "19.14", "1700": "19.14", "18010001aa" + "00" * 16: "19.15",
    "1900": "19.16", "1a" + "00" * 8: "19.17", "1b" + "00" * 8: "19.18", "1c000000": "19.19", "1d0000": "19.19",
    "1e": "19.20", "1f": f"{ACK_DRAFT}, section 5", "3100": "RFC 9221, section 4", "3f": "12.4",
    "40af00000000": f"{ACK_DRAFT}, section 4",
}
LINKS = """const found = [];
    for (const line of document.querySelectorAll("#outline .line")) {
      line.querySelector(".name").click();
      const link = document.querySelector("#inspector a");
      found.push([line.querySelector(".name").textContent, link.textContent, link.href, link.rel, link.target]);
    }
    return found;"""
ADDRESS = re.compile(r"https://www\.rfc-editor\.org/rfc/rfc(\d{4})\.html#section-([\d.]+)"
                     r"|https://www\.ietf\.org/archive/id/draft-ietf-quic-ack-frequency-08\.html#section-(\d)")
PACKET_PARTS = {
    "First Byte": "17.2.2", "Version": "17.2.2", "Token": "17.2.2",
    "Packet Number and Packet Payload, protected": "RFC 9001, section 5.4",
}
PARAMETER_PARTS = [
    ("0100", "18.2"), ("200100", "RFC 9221, section 3"), ("6ab200", "RFC 9287, section 3"), ("1b00", "18.1"),
    ("3f00", "18"),
]


def linked(browser):
    """The links of all lines, each of which must open in a new page without a referrer."""
    found = browser.run(LINKS)
    for name, text, address, rel, target in found:
        match = ADDRESS.fullmatch(address)
        if not match:
            raise Failed(f"the link of {name}: {address}")
        number, section, draft = match.groups()
        want = f"RFC {number}, section {section}" if number else f"{ACK_DRAFT}, section {draft}"
        same((text, rel, target), (want, "noreferrer", "_blank"), f"the link of {name}")
    if not found:
        raise Failed("no links")
    return [(name, text.replace("RFC 9000, section ", "")) for name, text, *_ in found]


def sections(browser, address):
    """The section of every kind of frame, and of parts of packets and parameters."""
    browser.go(f"{address}#read=frames&quinn=1&hex=01")
    count = 0
    for digits, section in SECTIONS.items():
        set_form(browser, {"mode": "frames"}, digits)
        found = linked(browser)
        same(found[0][1], section, f"the section of {found[0][0]}, {digits}")
        count += len(found)
    set_form(browser, {"mode": "frames"}, "03050101000000000102")
    found = dict(linked(browser))
    for name, section in (("Largest Acknowledged", "19.3"), ("Gap", "19.3.1"), ("ECT0 Count", "19.3.2")):
        same(found.get(name), section, f"the section of {name}")
    set_form(browser, {"mode": "datagram"}, SERVER_INITIAL)
    found = dict(linked(browser))
    for name, section in PACKET_PARTS.items():
        same(found.get(name), section, f"the section of {name}")
    for digits, section in PARAMETER_PARTS:
        set_form(browser, {"mode": "params"}, digits)
        same(linked(browser)[0][1], section, f"the section of {digits}")
    return count


# ---- the page sends nothing

SEND = """const [host] = arguments; window.refused = [];
    document.addEventListener("securitypolicyviolation", (event) => window.refused.push(event.effectiveDirective));
    const image = document.createElement("img"); image.src = `${host}/sent-by-image`; document.body.append(image);
    const frame = document.createElement("iframe"); frame.src = `${host}/sent-by-frame`; document.body.append(frame);
    const link = document.createElement("link"); link.rel = "stylesheet"; link.href = `${host}/sent-by-style`;
    document.head.append(link);
    const script = document.createElement("script"); script.src = `${host}/sent-by-script`;
    document.body.append(script);
    const form = document.createElement("form"); form.action = `${host}/sent-by-form`; form.method = "post";
    document.body.append(form);
    try { form.submit(); } catch { /* refused */ }
    fetch(`${host}/sent-by-fetch`, { method: "POST", body: "00" }).catch(() => {});
    try { navigator.sendBeacon(`${host}/sent-by-beacon`, "00"); } catch { /* refused */ }
    try { new WebSocket(`${host.replace("http", "ws")}/sent-by-socket`); } catch { /* refused */ }"""
WAYS = ["connect-src", "form-action", "frame-src", "img-src", "script-src-elem", "style-src-elem"]


def sends_nothing(browser, address, host, asked):
    """Everything by which a script of the page might send is blocked, and the server gets no request."""
    for page in (address, f"{address}#read=frames&hex=40000a000161"):
        browser.go(page)
        asked.clear()
        browser.run(SEND, host)
        browser.until("return arguments[0].every((one) => window.refused.includes(one))",
                      "refusals by the policy", WAYS)
        sent = [path for path in asked if "sent-by" in path]
        same(sent, [], "what the server was asked for")
    return len(WAYS)
