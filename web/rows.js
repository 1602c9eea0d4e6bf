// A list of rows in a box that scrolls. Rows of one height are drawn only as far as they can be seen; if there are few
// enough to be drawn all at once, they may have any height, and wrap. A mark at the end of the box says how many rows
// are below it.

// Browsers draw no element that is much higher, in pixels.
const MAX_HEIGHT = 8_000_000;
const BEYOND = 6;
// This many rows are printed.
const MOST_PRINTED = 5000;

// A new element; |more| are further properties of it.
export function element(tag, className, text = "", more = {}) {
  const made = document.createElement(tag);
  if (className) {
    made.className = className;
  }
  made.textContent = text;
  return Object.assign(made, more);
}

export class Rows {
  // |draw| makes the element of a row. Up to |mostFlowing| rows are all drawn. |printable| returns how many of the
  // first rows can be printed.
  constructor(box, draw, mostFlowing = 0, printable = () => MOST_PRINTED) {
    this.box = box;
    this.draw = draw;
    this.mostFlowing = mostFlowing;
    this.printable = printable;
    this.count = 0;
    this.drawn = [0, 0];
    this.isPrinting = false;
    this.sizer = element("div", "sizer", "", { role: "presentation" });
    this.layer = element("div", "layer", "", { role: "presentation" });
    this.mark = element("div", "more", "", { ariaHidden: true });
    this.sizer.append(this.layer);
    box.classList.add("rows");
    box.append(this.sizer, this.mark);
    box.addEventListener("scroll", () => this.refreshSoon(), { passive: true });
    this.mark.addEventListener("click", (event) => this.turnPage(event));
    new ResizeObserver(() => this.fit()).observe(box);
    window.addEventListener("beforeprint", () => this.print(true));
    window.addEventListener("afterprint", () => this.print(false));
  }

  // Whether all rows are drawn, one below the other.
  get isFlowing() {
    return this.isPrinting || this.count <= this.mostFlowing;
  }

  // The height of a row in pixels, from the style sheet.
  measure() {
    const probe = this.draw(0);
    this.layer.replaceChildren(probe);
    this.height = probe.getBoundingClientRect().height || 28;
  }

  setCount(count) {
    this.count = count;
    this.layer.replaceChildren();
    this.box.classList.toggle("flowing", this.isFlowing);
    if (count > 0 && !this.isFlowing) {
      this.measure();
    }
    this.size();
    this.box.scrollTop = 0;
    this.refresh(true);
  }

  // Draws for another size of the box. While that couldn't be seen, or with another style, rows had another height.
  fit() {
    const height = this.isFlowing ? 0 : this.layer.children[0]?.getBoundingClientRect().height ?? 0;
    if (height === 0 || height === this.height) {
      this.refresh(false);
      return;
    }
    const top = this.box.scrollTop * this.density;
    this.height = height;
    this.size();
    this.box.scrollTop = top / this.density;
    this.refresh(true);
  }

  size() {
    const whole = this.count * (this.height ?? 0);
    this.sizer.style.height = this.isFlowing ? "" : `${Math.min(whole, MAX_HEIGHT)}px`;
  }

  // Draws all rows for the printer, or again those that can be seen.
  print(isPrinting) {
    const { scrollTop } = this.box;
    this.isPrinting = isPrinting;
    this.box.classList.toggle("flowing", this.isFlowing);
    this.size();
    this.refresh(true);
    this.box.scrollTop = scrollTop;
  }

  // How many rows one scrolled pixel passes.
  get density() {
    const whole = this.count * this.height;
    const view = this.box.clientHeight;
    return whole <= MAX_HEIGHT ? 1 / this.height : (this.count - view / this.height) / (MAX_HEIGHT - view);
  }

  // Draws before the next frame of the screen, once, however often the box scrolls until then. Rows that move while a
  // scroll is reported would lag in browsers that scroll in a separate thread, and Firefox warns of it in its console.
  refreshSoon() {
    this.frame ??= requestAnimationFrame(() => {
      this.frame = null;
      this.refresh(false);
    });
  }

  refresh(isAnew) {
    if (this.count === 0) {
      this.drawn = [0, 0];
    } else if (this.isFlowing) {
      this.refreshAll(isAnew);
    } else {
      this.refreshSeen(isAnew);
    }
    this.markMore();
  }

  refreshAll(isAnew) {
    if (isAnew) {
      const most = this.isPrinting ? Math.min(MOST_PRINTED, this.printable()) : this.count;
      this.drawn = [0, Math.min(this.count, most)];
      this.layer.replaceChildren(...Array.from({ length: this.drawn[1] }, (_, index) => this.draw(index)));
      this.layer.style.transform = "";
    }
  }

  refreshSeen(isAnew) {
    const top = this.box.scrollTop * this.density;
    const first = Math.max(0, Math.floor(top) - BEYOND);
    const last = Math.min(this.count, Math.ceil(top + this.box.clientHeight / this.height) + BEYOND);
    if (!isAnew && first === this.drawn[0] && last === this.drawn[1]) {
      return;
    }
    this.drawn = [first, last];
    const rows = [];
    for (let index = first; index < last; index += 1) {
      rows.push(this.draw(index));
    }
    this.layer.replaceChildren(...rows);
    this.layer.style.transform = `translateY(${this.box.scrollTop - (top - first) * this.height}px)`;
  }

  // How many rows end above the lower edge of what is seen.
  get seen() {
    if (!this.isFlowing) {
      const below = this.box.scrollTop * this.density + this.box.clientHeight / this.height;
      return Math.min(this.count, Math.floor(below));
    }
    // By fractions of a pixel, which offsets leave out.
    const { bottom } = this.box.getBoundingClientRect();
    let seen = this.drawn[1];
    while (seen > 0 && this.layer.children[seen - 1].getBoundingClientRect().bottom > bottom + 1) {
      seen -= 1;
    }
    return seen;
  }

  // Shows how many rows are below the last one that is seen, or of those that are printed.
  markMore() {
    const isAtEnd = this.box.scrollTop + this.box.clientHeight >= this.box.scrollHeight - 1;
    const more = this.isPrinting ? this.count - this.drawn[1] : isAtEnd ? 0 : this.count - this.seen;
    this.mark.hidden = more <= 0;
    this.mark.textContent = `▾ ${more} more ${more === 1 ? "row" : "rows"}`;
  }

  turnPage(event) {
    event.stopPropagation();
    this.box.scrollTop += this.box.clientHeight - this.mark.offsetHeight - (this.height ?? 0);
  }

  // Scrolls until a row is in the box: no further than that if it is the next one, else until it is in the middle.
  reveal(index) {
    if (this.isFlowing) {
      this.revealDrawn(this.layer.children[index]);
      return;
    }
    const view = (this.box.clientHeight - this.mark.offsetHeight) / this.height;
    const top = this.box.scrollTop * this.density;
    let wanted = top;
    if (index < top) {
      wanted = index > top - 2 ? index : index - view / 2;
    } else if (index + 1 > top + view) {
      wanted = index < top + view + 1 ? index + 1 - view : index - view / 2;
    }
    if (wanted !== top) {
      this.box.scrollTop = wanted / this.density;
      this.refresh(false);
    }
  }

  revealDrawn(row) {
    if (!row) {
      return;
    }
    const { box } = this;
    const view = box.clientHeight - this.mark.offsetHeight;
    const [top, bottom] = [row.offsetTop, row.offsetTop + row.offsetHeight];
    if (top < box.scrollTop) {
      box.scrollTop = bottom > box.scrollTop - row.offsetHeight ? top : top - view / 2;
    } else if (bottom > box.scrollTop + view) {
      box.scrollTop = top < box.scrollTop + view + row.offsetHeight ? bottom - view : top - view / 2;
    }
    this.markMore();
  }

  // The row to which a key leads from one, or null if the key doesn't move.
  step(key, from) {
    const steps = {
      ArrowDown: from + 1, ArrowUp: from - 1, Home: 0, End: this.count - 1, PageDown: from + this.page,
      PageUp: from - this.page,
    };
    return key in steps ? Math.max(0, Math.min(this.count - 1, steps[key])) : null;
  }

  // How many rows are seen at once.
  get page() {
    const height = this.isFlowing ? this.sizer.offsetHeight / Math.max(1, this.count) : this.height;
    return Math.max(1, Math.floor(this.box.clientHeight / height) - 1);
  }
}
