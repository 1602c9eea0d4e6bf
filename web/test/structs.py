"""The table of structs, and the call that docs/CALLING.md shows."""
from common import same


def layout(browser, host, wanted):
    """The table of layout.js is what the C program prints for the header."""
    browser.send("navigate", {"url": f"{host}/web/test/blank.html"})
    same(browser.until("return window.layout", "the table"), wanted, "layout.js")
    return len(wanted)


WORKED = """window.answer = null;
    (async () => {
      const bytes = await (await fetch("/quic_wire.wasm")).arrayBuffer();
      CODE
    })().then((answer) => { window.answer = [answer]; }, (error) => { window.answer = [`${error}`]; });"""


def worked_call(browser, top):
    """The call to the module that docs/CALLING.md shows, in the open page."""
    with open(f"{top}/docs/CALLING.md", encoding="utf-8") as file:
        lines = file.read().split("## From a page")[1].splitlines()
    code = "\n".join(line for line in lines if line.startswith("    "))
    code = code.replace("    quic_wire_frames_init_(", "return quic_wire_frames_init_(")
    browser.run(WORKED.replace("CODE", code))
    same(browser.until("return window.answer", "the answer of the worked call"), [0], "the call of docs/CALLING.md")
