"""Captures in the page: what it shows and saves of them is what the program quic-wire prints."""
import base64
import glob
import gzip
import json
import os
import subprocess
import tempfile
from xml.dom import minidom

from browser import DOWN, END, HOME, Failed
from common import same

# Gives files to the page as if they were chosen: names, and their bytes in base64.
CHOOSE = """const transfer = new DataTransfer();
    for (const [name, digits] of arguments[0]) {
      const bytes = Uint8Array.from(atob(digits), (one) => one.charCodeAt(0));
      transfer.items.add(new File([bytes], name));
    }
    document.documentElement.dataset.capture = "";
    if (arguments[1]) {
      document.documentElement.dispatchEvent(new DragEvent("drop", { dataTransfer: transfer, bubbles: true }));
    } else {
      const input = document.getElementById("files");
      input.files = transfer.files;
      input.dispatchEvent(new Event("change", { bubbles: true }));
    }"""
ENDED = "return ['ready', 'failed'].includes(document.documentElement.dataset.capture)"
STATUS = "return document.getElementById('capture-status').textContent"
TEXTS = "return [...document.querySelectorAll(arguments[0])].map((one) => one.textContent)"
FILTER = """const filter = document.getElementById("filter"); filter.value = arguments[0];
    filter.dispatchEvent(new Event("input", { bubbles: true }));"""
# Which boxes scroll sideways.
WIDE = """const boxes = [document.documentElement, ...document.querySelectorAll("#captures-door *")];
    return boxes.filter((one) => one.scrollWidth > one.clientWidth + 1 && one.clientWidth > 0
        && !["hidden", "visible", "clip"].includes(getComputedStyle(one).overflowX))
      .concat(document.documentElement.scrollWidth > window.innerWidth ? [document.body] : [])
      .map((one) => `${one.id} ${one.className}`);"""
# What the columns of the list of packets are called, where there is no room for it.
CUT = """return [...document.querySelectorAll("#packets-head > span")]
    .filter((one) => one.scrollWidth > one.clientWidth && one.clientWidth > 0).map((one) => one.textContent);"""
WIDTHS = (400, 800, 1280, 1920)
# Captures of two connections and of one.
TRACED = ("vectors/captures/ngtcp2-0-rtt.pcap", "rust/capture/tests/data/small.pcap")
NOTE = "return document.getElementById('filter-note').textContent"
SAVE_TRACE = '[aria-label="Save as qlog, connection 0"]'


def captures(top, folder="vectors/captures"):
    """Captures with their key logs, if they have one."""
    found = sorted(glob.glob(f"{top}/{folder}/*.pcap") + glob.glob(f"{top}/{folder}/*.pcapng"))
    if not found:
        raise Failed(f"{folder} has no captures")
    keys = [f"{os.path.splitext(one)[0]}.keys" for one in found]
    return [(one, key if os.path.exists(key) else None) for one, key in zip(found, keys)]


def printed(program, mode, capture, keys):
    """What the program prints, line by line."""
    words = [program, mode, capture, "--json", *(["--keylog", keys] if keys else [])]
    return subprocess.run(words, capture_output=True, text=True, check=False).stdout


def choose(browser, files, is_dropped=False, state="ready"):
    """Gives files to the page, and waits until they are read, or rejected if |state| is failed."""
    given = []
    for path in files:
        with open(path, "rb") as file:
            given.append((os.path.basename(path), base64.b64encode(file.read()).decode()))
    browser.run(CHOOSE, given, is_dropped)
    browser.until(ENDED, f"{files} are read")
    same(browser.run("return document.documentElement.dataset.capture"), state, f"{files}: {browser.run(STATUS)}")


def finding_text(one):
    """A finding as the page writes it."""
    number = f" {one['number']}" if "number" in one else ""
    often = f" {one['count']} times." if one["count"] > 1 else ""
    return (f"Record {one['record']}, {one['sender']}, {one['type']}{number}: {one['seen']}. "
            f"Expected: {one['expected']}.{often} RFC {one['rfc']}, section {one['section']}")


def findings_agree(browser, program, capture, keys):
    """The findings are those of `check --json`, and each leads to its packet."""
    lines = [json.loads(line) for line in printed(program, "check", capture, keys).splitlines()]
    wanted = [one for one in lines if one["kind"] == "finding"]
    same(browser.run(TEXTS, "#findings .finding"), [finding_text(one) for one in wanted], f"findings of {capture}")
    if wanted:
        browser.run("document.querySelector('#findings .finding').click()")
        title = f"Record {wanted[0]['record']}: "
        browser.until("return document.getElementById('packet-title').textContent.startsWith(arguments[0])",
                      f"the packet of {finding_text(wanted[0])}", title)
        browser.until("return document.querySelectorAll('#packet-broken .fault').length > 0", "the finding there")


def all_agree(browser, address, top, program):
    """Saves each capture as objects, which are those of `capture --json`. Returns how many there are."""
    for capture, keys in captures(top):
        browser.send("navigate", {"url": "about:blank"})
        browser.go(f"{address}#captures")
        choose(browser, [capture, *([keys] if keys else [])])
        saved_agrees(browser, program, capture, keys)
        findings_agree(browser, program, capture, keys)
    return len(captures(top))


def saved_agrees(browser, program, capture, keys):
    """What is saved of a capture is what `capture --json` prints, which is returned."""
    browser.run("document.getElementById('save-objects').click()")
    saved = browser.saved(f"{os.path.basename(capture)}.jsonl")
    wanted = printed(program, "capture", capture, keys)
    for number, (one, other) in enumerate(zip(saved.splitlines(), wanted.splitlines())):
        same(one, other, f"line {number} of {capture}")
    same(len(saved), len(wanted), f"the length of what is saved of {capture}")
    return wanted


def broken_agree(browser, address, top, program):
    """The same findings for captures in each of which a rule is broken."""
    broken = captures(top, "vectors/captures/broken")
    browser.go(f"{address}#captures")
    for capture, keys in broken:
        choose(browser, [capture, *([keys] if keys else [])], is_dropped=True)
        findings_agree(browser, program, capture, keys)
    return len(broken)


def shown(browser, address, top, program):
    """What is shown of a capture: rows, a filter, connections, a packet byte by byte."""
    capture, keys = f"{top}/rust/capture/tests/data/small.pcap", f"{top}/rust/capture/tests/data/small.keys"
    lines = [json.loads(line) for line in printed(program, "capture", capture, keys).splitlines()]
    packets = [one for one in lines if "index" in one]
    connection = next(one for one in lines if one["kind"] == "connection")
    browser.send("navigate", {"url": "about:blank"})
    browser.go(f"{address}#captures")
    choose(browser, [capture, keys])
    rows_agree(browser, packets)
    cards_agree(browser, connection)
    streams_agree(browser, packets)
    filters(browser, packets)
    walk(browser, packets)
    return len(packets)


def rows_agree(browser, packets):
    browser.until("return document.querySelectorAll('#packets [data-index]').length > 0", "rows")
    for name, member in (("record", "record"), ("sender", "sender"), ("number", "number"), ("type", "type")):
        found = browser.run(TEXTS, f"#packets .packet-row .{name}")
        same(found, [f"{one.get(member, '')}" for one in packets][:len(found)], f"the column {name}")


def cards_agree(browser, connection):
    """A connection's card has its end, and the transport parameters of both sides."""
    text = browser.until("return document.querySelector('#connections .card')?.textContent", "a connection")
    end = connection["end"]
    for wanted in (f"{end[0].upper()}{end[1:]}.", connection["suite"], connection["client"]["first_address"],
                   connection["server"]["first_address"], "initial_max_data"):
        if wanted not in text:
            raise Failed(f"the card lacks {wanted!r}: {text}")
    size = browser.until("const { width, height } = document.getElementById('timeline'); return width && height && "
                         "[width, height]", "a picture")
    if min(size) < 100:
        raise Failed(f"the picture is {size}")


def streams_agree(browser, packets):
    """The table of streams has a row for each side that sends, with the frames and bytes of its STREAM frames."""
    wanted = {}
    for packet in packets:
        for frame in packet.get("frames", []):
            if frame["frame"] == "STREAM":
                frames, seen = wanted.setdefault((frame["id"], packet["sender"]), ([], set()))
                frames.append(frame)
                seen.update(range(frame["offset"], frame["offset"] + frame["len"]))
    browser.run("document.querySelector('#connections .stream-details').open = true")
    rows = browser.until("const rows = [...document.querySelectorAll('#connections .streams tbody tr')]; "
                         "return rows.length > 0 && rows.map((row) => [...row.cells].map((cell) => cell.textContent))",
                         "the streams")
    found = {(int(row[0].split(",")[0]), row[1]): (int(row[2]), int(row[3])) for row in rows}
    for key, (frames, seen) in wanted.items():
        same(found.get(key), (len(frames), len(seen)), f"frames and bytes of the stream {key}")


def saved_otherwise(browser, address, top, program):
    """Traces are those of `capture --qlog`, one as a file and several in an archive, and the picture is SVG. Returns
    how many traces there are."""
    count = 0
    for name in TRACED:
        capture, keys = f"{top}/{name}", f"{os.path.splitext(f'{top}/{name}')[0]}.keys"
        browser.send("navigate", {"url": "about:blank"})
        browser.go(f"{address}#captures")
        choose(browser, [capture, keys])
        with tempfile.TemporaryDirectory() as folder:
            words = [program, "capture", capture, "--qlog", folder, "--keylog", keys]
            subprocess.run(words, capture_output=True, check=False)
            traces = {os.path.basename(one): read(one) for one in sorted(glob.glob(f"{folder}/*.sqlog"))}
        if len(traces) == 1:
            browser.until("return document.querySelector(arguments[0])", "the connection", SAVE_TRACE)
            browser.run("document.querySelector(arguments[0]).click()", SAVE_TRACE)
            same(browser.saved(next(iter(traces))), next(iter(traces.values())), f"the trace of {name}")
        else:
            browser.run("document.getElementById('save-traces').click()")
            archive = browser.saved(f"{os.path.basename(name)}.qlog.tar")
            for one, text in traces.items():
                same((one in archive, text in archive), (True, True), f"{one} in the archive")
        count += len(traces)
    browser.until("return !document.getElementById('times').hidden", "the picture")
    browser.run("document.getElementById('save-timeline').click()")
    minidom.parseString(browser.saved(f"{os.path.basename(TRACED[-1])}.0.svg"))
    return count


def read(path):
    return read_bytes(path).decode()


def read_bytes(path):
    with open(path, "rb") as file:
        return file.read()


def filters(browser, packets):
    for text, wanted in (("server", [one for one in packets if one.get("sender") == "server"]),
                         ("type:initial", [one for one in packets if one["type"] == "Initial"]),
                         ("-client", [one for one in packets if one.get("sender") != "client"]), ("", packets)):
        browser.run(FILTER, text)
        browser.until("return document.getElementById('filter-note').textContent.startsWith(arguments[0])",
                      f"the filter {text}: {browser.run(NOTE)}", f"{len(wanted)} shown")
        browser.until("return document.querySelectorAll('#packets [data-index]').length > 0", "rows")
        numbers = browser.run(TEXTS, "#packets .packet-row .record")
        same(numbers, [f"{one['record']}" for one in wanted][:len(numbers)], f"the rows of {text!r}")
    browser.run(FILTER, "pn:x")
    browser.until("return document.getElementById('filter').ariaInvalid === 'true' || "
                  "document.getElementById('filter').getAttribute('aria-invalid') === 'true'", "a filter that is none")
    browser.run(FILTER, "")


def walk(browser, packets):
    """Packets by keys: each one's bytes and payload."""
    browser.until("return document.getElementById('filter').getAttribute('aria-invalid') === 'false'", "no filter")
    browser.run("document.getElementById('packets').focus()")
    browser.keys(HOME)
    for one in packets:
        title = f"Record {one['record']}: {one['from']} to {one['to']}"
        browser.until("return document.getElementById('packet-title').textContent === arguments[0]", title, title)
        # Packets of one datagram have the same title.
        begin, end = one["packet_in_datagram"]
        browser.until("return document.getElementById('packet-note').textContent.includes(arguments[0])",
                      f"the note of {one}", f"bytes {begin}..{end}")
        if "payload_in_datagram" in one:
            start, stop = one["payload_in_datagram"]
            count = stop - start
            browser.until("return document.getElementById('payload-title').textContent.startsWith(arguments[0])",
                          f"the payload of {one}", f"Payload of {one['type']} {one['number']}, {count} byte")
            frames = browser.run(TEXTS, "#payload-outline .item .name")
            same(frames, [frame["frame"] for frame in one["frames"]][:len(frames)], f"the frames of {one}")
        browser.keys(DOWN)
    browser.keys(END)


def paged(browser, address, top):
    """The last of many rows is chosen by a key before it has come, and shown; names of files are texts, whatever is in
    them. Returns how many rows there are."""
    header, times = 24, 40
    with open(f"{top}/rust/capture/tests/data/small.pcap", "rb") as file:
        whole = file.read()
    with tempfile.TemporaryDirectory() as folder:
        path = f"{folder}/<b id=bold>&lt;<b>.pcap"
        with open(path, "wb") as file:
            file.write(whole[:header] + whole[header:] * times)
        browser.send("navigate", {"url": "about:blank"})
        browser.go(f"{address}#captures")
        choose(browser, [path, f"{top}/rust/capture/tests/data/small.keys"])
    if "<b id=bold>&lt;<b>.pcap, with small.keys" not in browser.run(STATUS):
        raise Failed(f"the name of a file: {browser.run(STATUS)}")
    same(browser.run("return document.getElementById('bold')"), None, "an element that the name of a file makes")
    browser.until("return document.getElementById('filter-note').textContent.includes('shown')", "all rows")
    browser.until("return document.querySelectorAll('#packets [data-index]').length > 0", "rows")
    count = int(browser.run("return document.querySelector('#packets .packet-row').getAttribute('aria-setsize')"))
    browser.run("document.getElementById('packets').focus()")
    browser.keys(END)
    chosen = browser.until("return document.querySelector('#packets [aria-selected=true] .record')?.textContent",
                           "the last row")
    browser.until("return document.getElementById('packet-title').textContent.startsWith(arguments[0])",
                  f"the packet of record {chosen}", f"Record {chosen}: ")
    return count


def compressed(browser, address, top, program):
    """A capture that gzip compressed in several parts is read whole, as the program does. Returns how many packets it
    has."""
    keys = f"{top}/vectors/captures/ngtcp2-loss.keys"
    whole = read_bytes(f"{top}/vectors/captures/ngtcp2-loss.pcap")
    with tempfile.TemporaryDirectory() as folder:
        path = f"{folder}/parts.pcap.gz"
        with open(path, "wb") as file:
            for begin in range(0, len(whole), 10000):
                file.write(gzip.compress(whole[begin:begin + 10000]))
        browser.send("navigate", {"url": "about:blank"})
        browser.go(f"{address}#captures")
        choose(browser, [path, keys], is_dropped=True)
        return saved_agrees(browser, program, path, keys).count('"kind":"packet"')


def rejected(browser, address, top):
    """Files that are neither: words, and what was there stays."""
    browser.send("navigate", {"url": "about:blank"})
    browser.go(f"{address}#captures")
    choose(browser, [f"{top}/README.md"], state="failed")
    same(browser.run(STATUS), "Not read: README.md is neither a capture (pcap, pcapng, also compressed by gzip) nor a "
         "key log.", "a text")


def widths(browser, address, top):
    """With a capture nothing is wider than the window, at any width, and the heads of columns aren't cut."""
    for width in WIDTHS:
        browser.send("navigate", {"url": "about:blank"})
        browser.go(f"{address}#captures")
        browser.width(width)
        choose(browser, [f"{top}/vectors/captures/ngtcp2-loss.{end}" for end in ("pcap", "keys")])
        browser.until("return document.querySelectorAll('#packets [data-index]').length > 0", "rows")
        browser.run("document.querySelector('#packets [data-index]').click()")
        browser.until("return !document.getElementById('payload').hidden", "a payload")
        browser.run("document.querySelector('#connections details').open = true")
        same(browser.run(WIDE), [], f"what is too wide in {width} pixels")
        same(browser.run(CUT), [], f"what the head of the table doesn't show whole in {width} pixels")
    browser.unshape()
    return len(WIDTHS)


# What is behind the chosen packet, behind another one, and whether the chosen one's texts differ from it.
CHOSEN = """const style = (selector) => getComputedStyle(document.querySelector(selector));
    const chosen = style("#packets [aria-selected=true]");
    const texts = [...document.querySelectorAll("#packets [aria-selected=true] > span")];
    return [chosen.backgroundColor !== style("#table").backgroundColor,
      texts.every((text) => getComputedStyle(text).color === chosen.color),
      chosen.color !== chosen.backgroundColor];"""


def forced_colors(browser, address, top):
    """With the system's own colours it is seen which packet is chosen."""
    browser.media(**{"forced-colors": "active"})
    browser.send("navigate", {"url": "about:blank"})
    browser.go(f"{address}#captures")
    choose(browser, [f"{top}/rust/capture/tests/data/small.{end}" for end in ("pcap", "keys")])
    browser.until("return document.querySelectorAll('#packets [data-index]').length > 0", "rows")
    browser.run("document.querySelector('#packets [data-index]').click()")
    same(browser.run(CHOSEN), [True, True, True], "the packet that is chosen, with forced colours")
    browser.unshape()


def picture(browser, address, top, path):
    """A picture of a capture with lost packets."""
    browser.send("navigate", {"url": "about:blank"})
    browser.go(f"{address}#captures")
    choose(browser, [f"{top}/vectors/captures/ngtcp2-loss.{end}" for end in ("pcap", "keys")])
    browser.until("return document.querySelectorAll('#packets [data-index]').length > 0", "rows")
    browser.run("document.querySelectorAll('#packets [data-index]')[3].click()")
    browser.until("return !document.getElementById('packet').hidden", "a packet")
    browser.picture(path, 1280, 1500, "light")
