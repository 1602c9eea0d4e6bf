"""How the page looks: contrasts, widths, zoom, the system's colours; and what a screen reader gets."""
from browser import Failed
from common import click_example, same, set_field, set_form, source, turn

CONTRAST = source("contrast.js")
EXAMPLES = ["a payload", "a payload with an error", "a datagram of three packets", "a client’s Initial",
            "a server’s Initial", "a Retry", "a packet to open", "a log", "a server’s transport parameters"]
POINT = "document.querySelector(arguments[0])?.click();"
CENTER_OF = """const [selector] = arguments; const element = document.querySelector(selector);
    if (!element) { return null; }
    element.scrollIntoView({ block: "center" });
    const { x, y, width, height } = element.getBoundingClientRect();
    return [x + width / 2, y + height / 2];"""
# What can be under the pointer, or chosen.
HOVERED = ["#grid .byte", "#grid .byte.fault", "#grid .byte.differs", "#outline .item", "#outline .field.fault",
           "#outline .inner", "#list .entry.bad", "#list .entry", ".modes label:last-of-type", "#clear", "#save"]
CLICKED = ["#grid .byte", "#grid .byte.fault", "#grid .byte.differs", "#outline .item", "#outline .fault",
           "#outline .inner", "#list .entry.bad", "#plain-grid .byte"]


# ---- contrasts

def states(browser, address):
    """Shows the page in each state in turn: wrong, lit, chosen, beside, opened."""
    for fragment in ("read=frames&quinn=1&hex=40000a000161", "read=frames&hex=02406419000301ff", "read=frames&text=zz",
                     "read=datagram&hex=c3000000010000", "read=params&hex=0104800075302201ff",
                     "read=frames&hex=01.4001.40&at=2", "read=datagram&hex=c3&versions=x&ids=99"):
        browser.go(f"{address}#{fragment}")
        yield fragment
    browser.go(address)
    for example in EXAMPLES:
        click_example(browser, example)
        browser.run("document.getElementById('open').open = true")
        yield example
    click_example(browser, "a packet to open")
    set_field(browser, ".packet [data-name=mask]", "0102")
    set_field(browser, ".packet [data-name=plain]", "zz")
    yield "a packet that can't be opened"
    click_example(browser, "a payload")
    turn(browser, "compare", True)
    yield "no other input"
    set_field(browser, "#other-input", "024064190203010a0502" "40")
    yield "another input"


def contrast(browser, address):
    """The lowest contrast of a text with its background in every state, and how many states there are."""
    least = 100
    count = 0

    def look(what, selectors):
        nonlocal least, count
        for selector, text, ratio in browser.run(CONTRAST, selectors):
            if ratio < 4.5:
                raise Failed(f"a contrast of {ratio:.2f}, {what} {selector}: {text!r}")
            least = min(least, ratio)
            count += 1

    for state in states(browser, address):
        browser.run("document.getElementById('text').open = true;")
        look(state, ["", *CLICKED])
        for selector in HOVERED:
            place = browser.run(CENTER_OF, selector)
            if place:
                browser.point(*place)
                look(f"{state}, the pointer on {selector}", [""])
    return least, count


# ---- widths and zoom

WIDE = """const boxes = [document.documentElement, ...document.querySelectorAll(".rows")];
    return boxes.map((box) => box.scrollWidth - box.clientWidth).filter((more) => more > 0);"""


def too_wide(browser, address, what):
    browser.go(address)
    for example in EXAMPLES:
        click_example(browser, example)
        browser.run("document.getElementById('open').open = document.getElementById('text').open = true")
        browser.run(POINT, "#grid .byte")
        same(browser.run(WIDE), [], f"too wide {what}, {example}")
    turn(browser, "compare", True)
    set_field(browser, "#other-input", "0104800075300201ff")
    same(browser.run(WIDE), [], f"too wide {what}, with another input")


def widths(browser, address):
    """Nothing is wider than the window, down to a small phone."""
    for width in (320, 390, 768, 1024):
        browser.shape(width, 800)
        too_wide(browser, address, f"for {width} pixels")


# What covers the input box, the grid and the tree when each has the focus, as far as it belongs to the page.
COVERED = """const found = [];
    for (const id of ["input", "grid", "outline"]) {
      const box = document.getElementById(id);
      box.focus();
      box.scrollIntoView({ block: "nearest" });
      const { left, top, width, height } = box.getBoundingClientRect();
      const x = left + width / 2;
      const y = Math.max(top, 0) + Math.min(height, window.innerHeight) / 4;
      const seen = document.elementFromPoint(x, Math.min(y, window.innerHeight - 1));
      if (!seen || !box.contains(seen)) { found.push(id); }
    }
    return found;"""


def zoom(browser, address):
    """At a zoom of 200 % and 400 % nothing is cut off or covered."""
    for factor in (2, 4):
        browser.zoom(factor)
        too_wide(browser, address, f"at a zoom of {100 * factor} in a hundred")
        click_example(browser, "a payload")
        browser.run(POINT, "#grid .byte")
        same(browser.run(COVERED), [], f"what is covered at a zoom of {100 * factor}")
    browser.unshape()


# ---- what the system prefers

FORCED = """const style = (selector) => getComputedStyle(document.querySelector(selector));
    const ground = (selector) => style(selector).backgroundColor;
    return {
      isForced: matchMedia("(forced-colors: active)").matches,
      mode: ground(".modes input:checked + span") !== ground(".modes input:not(:checked) + span"),
      byte: ground("#grid .lit-field") !== ground("#grid .lit-item"),
      item: style("#grid .byte.first").borderLeftStyle, cut: style("#grid .byte.cut").borderLeftStyle,
      lit: style("#grid .lit-item").borderTopStyle, differs: style("#grid .differs").borderBottomStyle,
      here: style("#grid .here").outlineStyle,
      line: ground("#outline .lit-field") !== ground("#outline .line:not(.lit-field):not(.lit-item)"),
    };"""
WANTED = {"isForced": True, "mode": True, "byte": True, "item": "solid", "cut": "dotted", "lit": "solid",
          "differs": "solid", "here": "solid", "line": True}


def forced_colors(browser, address):
    """If the system has its own colours, borders and its colours for what is chosen replace the tones."""
    browser.media(**{"forced-colors": "active"})
    browser.go(address)
    browser.run(POINT, "#grid [data-place='12']")
    same(browser.run(FORCED), WANTED, "forced colours")
    click_example(browser, "a log")
    chosen = """const ground = (selector) => getComputedStyle(document.querySelector(selector)).backgroundColor;
        return ground("#list .chosen") !== ground("#list .entry:not(.chosen)");"""
    same(browser.run(chosen), True, "what is chosen in the list, with forced colours")
    browser.unshape()


MOVING = """return [...document.querySelectorAll("*")].filter((one) => {
      const { animationName, transitionDuration, scrollBehavior } = getComputedStyle(one);
      return animationName !== "none" || !/^0s(, 0s)*$/.test(transitionDuration) || scrollBehavior !== "auto";
    }).map((one) => one.tagName).concat(document.getAnimations().map(String));"""


def motion(browser, address):
    """Nothing moves if reduced motion is preferred, nor otherwise."""
    for features in ({"prefers-reduced-motion": "reduce"}, {}):
        browser.media(**features)
        browser.go(address)
        browser.run(POINT, "#grid [data-place='12']")
        same(browser.run(MOVING), [], "what moves")
    browser.unshape()


# ---- the accessibility tree

# For each role, what a node of it has besides its name.
ROLES = {
    "radio": ["checked"], "checkbox": ["checked"], "textbox": [], "spinbutton": [], "button": [], "link": [],
    "grid": [], "row": None, "gridcell": [], "tree": [], "treeitem": ["level"], "listbox": [], "option": ["selected"],
    "image": [], "heading": ["level"], "status": None, "main": None, "group": None,
}


def tree_of(browser):
    for node in browser.devtools("Accessibility.getFullAXTree")["nodes"]:
        role = node.get("role", {}).get("value")
        if not node.get("ignored") and role in ROLES:
            yield role, node.get("name", {}).get("value"), {one["name"] for one in node.get("properties", [])}


def names(browser, address):
    """Each control has a name and its properties in the accessibility tree, and no role is missing."""
    seen = set()
    browser.go(address)
    for example in EXAMPLES:
        click_example(browser, example)
        browser.run("document.getElementById('open').open = true")
        browser.run(POINT, "#grid .byte")
        for role, name, properties in tree_of(browser):
            seen.add(role)
            if ROLES[role] is not None and not name:
                raise Failed(f"a {role} without a name, {example}")
            for one in ROLES[role] or []:
                if one not in properties:
                    raise Failed(f"the {role} {name!r} doesn't tell {one}, {example}")
    for role in ("radio", "checkbox", "textbox", "button", "link", "grid", "row", "gridcell", "tree", "treeitem",
                 "listbox", "option", "image", "heading", "main"):
        if role not in seen:
            raise Failed(f"no {role}")
    active_names(browser)


def active_names(browser):
    """What is chosen has its position and its name there."""
    click_example(browser, "a payload")
    browser.run(POINT, "#grid [data-place='12']")
    for box, wanted in (("grid", "byte 12, 44, Offset of STREAM"), ("outline", "Offset120012..14")):
        label = f"""const box = document.getElementById("{box}");
            const at = document.getElementById(box.getAttribute("aria-activedescendant"));
            return at.getAttribute("aria-label") ?? at.textContent;"""
        same(browser.run(label), wanted, f"what {box} says")
    set_form(browser, {"mode": "frames", "quinn": True}, "4001")
    browser.run(POINT, "#grid [data-place='0']")
    label = "return document.getElementById('grid-0').getAttribute('aria-label')"
    same(browser.run(label), "byte 0, 40, Type of PING, differs", "a byte that differs")
