// As much of a document as the page needs, for node: the elements of index.html with their attributes and events, and
// rows and boxes of fixed sizes in place of a layout.
export const ROW = 26;
const BOX = { width: 640, height: 260 };
const VOID = ["meta", "link", "input", "br"];
const PIECE = /<!--[^]*?-->|<(\/?)([a-z][a-z0-9]*)([^>]*)>|([^<]+)/gi;

class Words {
  constructor(text) {
    this.textContent = text;
  }
}

class Element {
  constructor(tag) {
    Object.assign(this, { tag, nodes: [], parent: null, id: "", className: "", hidden: false, value: "" });
    Object.assign(this, { dataset: {}, style: {}, scrollTop: 0, attributes: new Map(), takers: [] });
  }

  get parentElement() {
    return this.parent;
  }

  get name() {
    return this.getAttribute("name") ?? "";
  }

  get children() {
    return this.nodes.filter((node) => node instanceof Element);
  }

  get textContent() {
    return this.nodes.map((node) => node.textContent).join("");
  }

  set textContent(text) {
    this.replaceChildren(...(text === "" ? [] : [text]));
  }

  append(...nodes) {
    for (const node of nodes) {
      const isElement = node instanceof Element;
      this.nodes.push(isElement ? node : new Words(`${node}`));
      if (isElement) {
        node.parent = this;
      }
    }
  }

  replaceChildren(...nodes) {
    this.children.forEach((one) => { one.parent = null; });
    this.nodes = [];
    this.append(...nodes);
  }

  get classList() {
    const names = new Set(this.className.split(" ").filter(Boolean));
    const change = (act) => {
      act();
      this.className = [...names].join(" ");
    };
    return {
      add: (...more) => change(() => more.forEach((name) => names.add(name))), contains: (name) => names.has(name),
      toggle: (name, isOn) => change(() => (isOn ?? !names.has(name) ? names.add(name) : names.delete(name))),
    };
  }

  setAttribute(name, value) {
    this.attributes.set(name, `${value}`);
  }

  getAttribute(name) {
    return this.attributes.get(name) ?? null;
  }

  removeAttribute(name) {
    this.attributes.delete(name);
  }

  // A selector is a class or the name of a tag.
  matches(selector) {
    return selector.startsWith(".") ? this.classList.contains(selector.slice(1)) : this.tag === selector;
  }

  closest(selector) {
    return this.matches(selector) ? this : this.parent?.closest(selector) ?? null;
  }

  * all() {
    for (const one of this.children) {
      yield one;
      yield* one.all();
    }
  }

  querySelectorAll(selector) {
    return [...this.all()].filter((one) => one.matches(selector));
  }

  // The controls of a form by their names.
  get elements() {
    const named = (name) => [...this.all()].filter((one) => one.getAttribute("name") === name);
    return new Proxy({}, {
      get(_, name) {
        const all = named(name);
        return all[0]?.getAttribute("type") === "radio" ? new Radios(all) : all[0];
      },
    });
  }

  // ---- events

  addEventListener(type, take) {
    this.takers.push([type, take]);
  }

  // Returns the event, after all have taken it.
  tell(type, more = {}) {
    const event = {
      type, target: this, defaultPrevented: false, stopPropagation() {},
      preventDefault() { this.defaultPrevented = true; }, ...more,
    };
    for (let one = this; one; one = one.parent) {
      one.takers.filter(([of]) => of === type).forEach(([, take]) => take(event));
    }
    return event;
  }

  click() {
    this.tell("click");
  }

  focus() {}

  select() {}

  setPointerCapture() {}

  // ---- sizes

  get isSeen() {
    return !this.hidden && (this.parent?.isSeen ?? true);
  }

  get clientWidth() {
    return this.isSeen ? BOX.width : 0;
  }

  get clientHeight() {
    return this.isSeen ? BOX.height : 0;
  }

  get scrollHeight() {
    return Math.max(this.clientHeight, ...this.children.map(({ style }) => Number.parseFloat(style.height) || 0));
  }

  get offsetTop() {
    return ROW * (this.parent?.children.indexOf(this) ?? 0);
  }

  get offsetHeight() {
    return this.isSeen ? ROW : 0;
  }

  getBoundingClientRect() {
    return { width: this.clientWidth, height: this.offsetHeight };
  }

  getContext() {
    const getImageData = () => ({ data: [0, 0, 0, 255] });
    return new Proxy({ getImageData }, { get: (own, name) => own[name] ?? (() => {}) });
  }
}

class Radios {
  constructor(all) {
    this.all = all;
  }

  get value() {
    return this.all.find(({ checked }) => checked)?.value ?? "";
  }

  set value(value) {
    this.all.forEach((one) => { one.checked = one.value === value; });
  }
}

// Sets what an attribute of a tag says.
function setFrom(element, name, value) {
  if (name === "id") {
    element.id = value;
  } else if (name === "class") {
    element.className = value;
  } else if (["hidden", "checked"].includes(name)) {
    element[name] = true;
  } else if (name.startsWith("data-")) {
    element.dataset[name.slice(5)] = value;
  } else if (name === "value") {
    element.value = value;
  } else {
    element.setAttribute(name, value);
  }
}

function documentOf(html) {
  const root = new Element("html");
  let at = root;
  for (const [, close, tag, attributes, text] of html.matchAll(PIECE)) {
    if (text !== undefined) {
      at.append(text);
    } else if (close) {
      at = at.closest(tag)?.parent ?? root;
    } else if (tag && tag !== "html") {
      const made = new Element(tag);
      for (const [, name, value = ""] of attributes.matchAll(/([a-z-]+)(?:="([^"]*)")?/g)) {
        setFrom(made, name, value);
      }
      at.append(made);
      at = VOID.includes(tag) ? at : made;
    }
  }
  return root;
}

// Makes the document of a page's text the one of node. Returns functions: |byId| finds an element, |resized| tells the
// observers that boxes may have other sizes, and |tellWindow| those that wait for an event of the window.
export function makeDocument(html) {
  const root = documentOf(html);
  const byId = (id) => [...root.all()].find((one) => one.id === id) ?? null;
  const [observers, waiting] = [[], []];
  const style = { color: "#000", backgroundColor: "#fff", fontFamily: "serif", getPropertyValue: () => "#000" };
  const none = () => {};
  Object.assign(globalThis, {
    document: {
      documentElement: root, getElementById: byId, createElement: (tag) => new Element(tag),
      createElementNS: (_, tag) => new Element(tag),
    },
    window: {
      addEventListener: (...taker) => waiting.push(taker), devicePixelRatio: 1,
      matchMedia: () => ({ matches: false, addEventListener: none }),
      location: { hash: "", href: "" }, history: { replaceState: none },
    },
    ResizeObserver: class {
      constructor(told) {
        observers.push(told);
      }

      observe() {}
    },
    getComputedStyle: () => style, requestAnimationFrame: (draw) => setTimeout(draw),
  });
  const tellWindow = (type) => waiting.filter(([of]) => of === type).forEach(([, take]) => take({ type }));
  return { byId, resized: () => observers.forEach((told) => told()), tellWindow };
}
