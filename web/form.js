// The form: reads it into a state, and puts a state into it.

import { VERSIONS } from "./formats.js";
import { versionsOf, versionsText } from "./link.js";

// If a text has more characters than this, the box holds only its beginning, since browsers take seconds to lay it out.
const MOST_IN_BOX = 1 << 18;
const BEGINNING = 1 << 14;

export class Form {
  // |held| is the note that says that the box has only the beginning of the text.
  constructor(form, other, held, firstId) {
    this.form = form;
    this.other = other;
    this.note = held;
    this.firstId = firstId;
    // The whole of such a text, or null.
    this.whole = null;
    // What has no control of its own: which of several inputs is shown, and what packets are opened with.
    this.at = 0;
    this.opened = {};
    // Whether the user chose how lines are read, and who reads transport parameters.
    this.lines = "auto";
    this.isSideChosen = false;
  }

  get elements() {
    return this.form.elements;
  }

  get state() {
    const { elements } = this;
    return {
      mode: elements.mode.value, quinn: elements.quinn.checked, strict: elements.strict.checked,
      idLength: Number(elements.idLength.value),
      side: elements.side.value, versions: versionsOf(elements.versions.value) ?? VERSIONS,
      grease: elements.grease.checked, text: this.text, lines: this.lines, at: this.at,
      compare: elements.compare.checked, other: this.other.value, opened: this.opened,
      firstId: this.firstId.value,
    };
  }

  set state(state) {
    const { elements } = this;
    elements.mode.value = state.mode;
    elements.quinn.checked = state.quinn;
    elements.strict.checked = state.strict;
    elements.idLength.value = state.idLength;
    elements.side.value = state.side;
    elements.versions.value = versionsText(state.versions);
    elements.grease.checked = state.grease;
    this.text = state.text;
    elements.compare.checked = state.compare;
    this.other.value = state.other;
    this.firstId.value = state.firstId;
    this.lines = state.lines;
    this.isSideChosen = state.mode === "params";
    this.at = state.at;
    this.opened = { ...state.opened };
  }

  set side(side) {
    this.elements.side.value = side;
  }

  get text() {
    return this.whole ?? this.elements.input.value;
  }

  set text(text) {
    const { input } = this.elements;
    const isLong = text.length > MOST_IN_BOX;
    this.whole = isLong ? text : null;
    if (isLong || input.value !== text) {
      input.value = isLong ? text.slice(0, BEGINNING) : text;
    }
    input.readOnly = isLong;
    this.note.hidden = !isLong;
    this.note.textContent = isLong ? `The box shows the first ${BEGINNING} of ${text.length} characters, all of which `
      + "are read. Clear it, or paste another text, to go on." : "";
  }

  // Takes a pasted text if it is too long for the box. Returns whether it did.
  paste(text) {
    const { value, selectionStart, selectionEnd } = this.elements.input;
    if (this.whole === null && value.length + text.length <= MOST_IN_BOX) {
      return false;
    }
    const isWhole = this.whole !== null;
    this.text = isWhole ? text : value.slice(0, selectionStart) + text + value.slice(selectionEnd);
    return true;
  }

  // Forgets the choice that was made for another text.
  forget() {
    this.lines = "auto";
    this.at = 0;
    this.opened = {};
    this.isSideChosen = false;
  }

  // Shows the choices of the mode in which the text is read, and which entries can't be read.
  mark(isText, entries, mode) {
    const { elements } = this;
    for (const choices of this.form.querySelectorAll(".choices")) {
      choices.hidden = choices.dataset.mode !== mode;
    }
    // The RFC leaves no choice of these.
    for (const name of ["strict", "grease"]) {
      elements[name].parentElement.hidden = !elements.quinn.checked;
    }
    elements.versions.setAttribute("aria-invalid", versionsOf(elements.versions.value) === null);
    elements.input.setAttribute("aria-invalid", !isText);
    elements.joined.parentElement.hidden = !entries.both;
    elements.joined.checked = entries.lines === "one";
  }
}
