"""Initial packets that the page opens by itself, with the worked examples of RFC 9001 and RFC 9369 in vectors/."""
from browser import Failed
from common import click_example, same, set_field, set_form

# Both appendices choose this id. The client's packet contains it, the server's doesn't.
ID = "8394c8f03e515708"
EXAMPLES = {
    "opened.a2": "a client’s Initial", "opened.a3": "a server’s Initial", "retry_tag.a4": "a Retry",
    "opened.a5": "a packet to open",
}
OPENED = """const note = document.querySelector(".packet-note")?.textContent ?? "";
    const value = (name) => document.querySelector(`.packet [data-name=${name}]`).value;
    return arguments[0].some((words) => note.includes(words)) && {
      note, plain: value("plain"), mask: value("mask"), payload: document.getElementById("plain").hidden,
      number: [...document.querySelectorAll("#outline .field")].find(
        (line) => line.querySelector(".name").textContent === "Packet Number")?.querySelector(".value").textContent,
    };"""
TEXT = "return document.getElementById('input').value"
# RFC 9001, appendix A.2: the extension in the ClientHello.
PARAMETERS_OF_A2 = ("0408ffffffffffffffff05048000ffff07048000ffff0801100104800075300901100f088394c8f03e515708"
                    "06048000ffff")
NAMES_OF_A2 = ["initial_max_data", "initial_max_stream_data_bidi_local", "initial_max_stream_data_uni",
               "initial_max_streams_bidi"]
BY_ITSELF, NOT_OPENED, NO_CIPHERS = "Opened as the ", "Neither its own id", "browsers give ciphers"


def rows(top):
    """The examples by name: the packet, and its header and payload, or DROP."""
    found = {}
    with open(f"{top}/vectors/tables/ciphers.txt", encoding="utf-8") as file:
        for line in file:
            cells = [cell.strip() for cell in line.split(" | ")]
            if cells[0].startswith(("opened.", "retry_tag.")):
                found[cells[0]] = (cells[2], cells[3])
    return found


def opened(browser, address, top):
    """Each Initial packet of the examples is opened, by its own id or a known one; one with another tag isn't."""
    table = rows(top)
    initials = {name: row for name, row in table.items() if name.startswith("opened.") and "a5" not in name}
    for name, (packet, answer) in initials.items():
        browser.send("navigate", {"url": "about:blank"})
        browser.go(f"{address}#read=datagram&ids=8&hex={packet}" + ("" if "a2" in name else f"&first={ID}"))
        found = browser.until(OPENED, name, [BY_ITSELF, NOT_OPENED, NO_CIPHERS])
        if answer == "DROP":
            same((NOT_OPENED in found["note"], found["plain"], found["payload"]), (True, "", True), name)
            continue
        header, payload = answer.split(" ")
        length = (int(header[:2], 16) & 3) + 1
        same(found["plain"], payload, f"the payload of {name}")
        same(found["number"], str(int(header[-2 * length:], 16)), f"the number of {name}")
        side = "client" if "a2" in name else "server"
        if f"{BY_ITSELF}{side}’s, with keys from the id {ID}." not in found["note"]:
            raise Failed(f"{name}: {found['note']}")
    known_ids(browser, address, table)
    parameters(browser, address, table["opened.a2"][0])
    examples(browser, address, table)
    return len(initials)


def known_ids(browser, address, table):
    """A server's packet is opened once the client's first id is known, from what is pasted with it or entered."""
    server, _ = table["opened.a3"]
    client, _ = table["opened.a2"]
    browser.go(f"{address}#read=datagram&ids=8&hex={server}")
    browser.until(OPENED, "a server's packet alone", [NOT_OPENED])
    set_field(browser, "#first-id", ID)
    browser.until(OPENED, "a server's packet with an id", [BY_ITSELF])
    browser.until("return location.hash.endsWith(arguments[0])", "the id in the link", f"&first={ID}")
    browser.send("navigate", {"url": "about:blank"})
    browser.go(f"{address}#read=datagram&ids=8&hex={client}.{server}&at=1")
    browser.until(OPENED, "a server's packet behind a client's", [BY_ITSELF])
    # An entered id has precedence, and is in the link; one that the page found isn't.
    browser.until("return !location.hash.includes('open=')", "a link without a payload")
    set_field(browser, ".packet [data-name=plain]", "01")
    browser.until("return location.hash.includes('open=0.2ec0d8356a.01')", "a link with a payload")


def parameters(browser, address, client):
    """The transport parameters in the ClientHello of A.2 are shown as fields."""
    browser.go(f"{address}#read=datagram&ids=8&hex={client}")
    title = "Transport parameters in the client’s ClientHello"
    browser.until("return document.getElementById('hello-title').textContent === arguments[0]", title, title)
    texts = "return [...document.querySelectorAll(arguments[0])].map((one) => one.textContent)"
    same("".join(browser.run(texts, "#hello-grid .byte")), PARAMETERS_OF_A2, "their bytes")
    same(browser.run(texts, "#hello-outline .item .name")[:len(NAMES_OF_A2)], NAMES_OF_A2, "their names")
    browser.go(f"{address}#read=frames&hex=01")
    same(browser.run("return document.getElementById('hello').checkVisibility()"), False, "a payload has none")


def examples(browser, address, table):
    """RFC 9001's A.2 to A.5 are among the examples to try."""
    browser.go(address)
    for name, example in EXAMPLES.items():
        click_example(browser, example)
        packet, rest = table[name]
        same(browser.run(TEXT), packet + (rest if name.startswith("retry") else ""), f"the example {example}")
    note = browser.run("return document.getElementById('plain-note').textContent")
    same(note, "1 frame in 1 byte.", "the payload of A.5")


def without_ciphers(browser, address):
    """If the browser has no ciphers, the page says so, and opens packets with what is pasted."""
    browser.go(f"{address}#read=datagram&ids=8")
    same(browser.run("return window.isSecureContext"), False, "a page from another machine")
    click_example(browser, "a client’s Initial")
    browser.until(OPENED, "why there are no ciphers", [NO_CIPHERS])
    set_form(browser, {"mode": "datagram"}, browser.run(TEXT))
    browser.until(OPENED, "why there are no ciphers", [NO_CIPHERS])
