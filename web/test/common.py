"""What the tests of the page share."""
import os

from browser import Failed

HERE = os.path.dirname(os.path.abspath(__file__))

SET_INPUT = """const input = document.getElementById("input"); input.value = arguments[0];
    input.dispatchEvent(new Event("input", { bubbles: true }));"""
BYTES = "return [...document.querySelectorAll('#grid .byte')].map((one) => one.textContent).join('');"
STATUS = "return document.getElementById('status').textContent"

# What has the focus, what is chosen in it, and what is lit.
ACTIVE = """const box = document.activeElement; const id = box.getAttribute("aria-activedescendant");
    const at = id && document.getElementById(id);
    return { box: box.id || box.name || box.textContent, label: at && (at.getAttribute("aria-label") ?? at.textContent),
      lit: [...document.querySelectorAll("#grid .lit-field")].map((one) => one.textContent).join(""),
      field: document.querySelector("#outline .lit-field")?.textContent ?? null,
      expanded: at && at.getAttribute("aria-expanded"),
      inspector: document.getElementById("inspector").textContent };"""

CENTER = """const element = document.querySelector(arguments[0]);
    element.scrollIntoView({ block: "center" });
    const { x, y, width, height } = element.getBoundingClientRect();
    return [x + width / 2, y + height / 2];"""


def source(name):
    with open(f"{HERE}/{name}", encoding="utf-8") as file:
        return file.read()


def same(found, wanted, what):
    if found != wanted:
        raise Failed(f"{what}: {found!r} and not {wanted!r}")


def click_example(browser, name):
    """Shows the example of the button with this name."""
    browser.run("""[...document.querySelectorAll("#examples button")]
        .find((button) => button.textContent === arguments[0]).click();""", name)


def set_form(browser, form, text):
    browser.run("""const { elements } = document.getElementById("form");
        for (const [name, value] of Object.entries(arguments[0])) {
          if (typeof value === "boolean") { elements[name].checked = value; } else { elements[name].value = value; }
        }""" + SET_INPUT.replace("arguments[0]", "arguments[1]"), form, text)


def set_field(browser, selector, text):
    """Writes a text into a field, as a person pastes it."""
    browser.run("""const field = document.querySelector(arguments[0]); field.value = arguments[1];
        field.dispatchEvent(new Event("input", { bubbles: true }));""", selector, text)


def turn(browser, name, is_on):
    """Checks or unchecks a box of the form."""
    browser.run("""const box = document.getElementById("form").elements[arguments[0]];
        if (box.checked !== arguments[1]) { box.click(); }""", name, is_on)
