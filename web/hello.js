// The transport parameters in what a side says to its peer in CRYPTO frames: a client in its ClientHello, a server in
// its EncryptedExtensions (RFC 9001, section 8.2). The library finds the list, and reads it.

import { joinBytes } from "./bytes.js";
import { HANDSHAKE, INITIAL } from "./layout.js";
import { readBytes } from "./reading.js";
import { answerOf } from "./slices.js";
import { count } from "./shown.js";
import { summaryOf } from "./status.js";
import { Views } from "./views.js";

// The message of each side, and who reads it.
const MESSAGES = { client: ["ClientHello", "server"], server: ["EncryptedExtensions", "client"] };
const HELLO_GOES_ON = "The ClientHello isn’t whole: it goes on in another packet.";

// Whether packets of a kind may have such a message.
export const mayGreet = (kind) => kind === INITIAL || kind === HANDSHAKE;

// Reads payloads of one side and one kind of packets: the reading of its list, who sent it, and whether its message
// goes on elsewhere.
export function readHello(library, payloads, choices) {
  const { sender, list, isPartial } = library.helloIn(answerOf(joinBytes(payloads)));
  if (list === null) {
    return { sender, reading: null, isPartial };
  }
  const [, side] = MESSAGES[sender];
  return { sender, reading: readBytes(library, list, { mode: "params", side, quinn: choices.quinn }), isPartial };
}

// The elements of a view, whose ids begin with a name. |byId| finds elements.
export const helloBoxes = (byId, name) => ({
  section: byId(name), title: byId(`${name}-title`), note: byId(`${name}-note`), views: byId(`${name}-views`),
  grid: byId(`${name}-grid`), outline: byId(`${name}-outline`),
});

export class HelloView {
  // |boxes| has the section, its title, its note, and the views; |lit| is called with what is lit; |advice| says what
  // to do about a ClientHello that goes on elsewhere.
  constructor(library, boxes, lit, advice = "") {
    Object.assign(this, { library, boxes, advice, reading: null });
    this.views = new Views(boxes.grid, boxes.outline, (spot) => {
      if (this.reading) {
        lit(this.reading, spot);
      }
    });
  }

  hide() {
    this.reading = null;
    this.boxes.section.hidden = true;
  }

  // Shows the parameters in payloads of packets of a kind, in rows of |columns| bytes. Returns whether a ClientHello
  // goes on elsewhere.
  show(payloads, kind, columns, choices) {
    this.hide();
    if (!mayGreet(kind)) {
      return false;
    }
    const { boxes } = this;
    const { sender, reading, isPartial } = readHello(this.library, payloads, choices);
    const goesOn = isPartial && kind === INITIAL;
    boxes.section.hidden = reading === null && !goesOn;
    boxes.views.hidden = reading === null;
    boxes.title.textContent = reading === null ? "Transport parameters"
      : `Transport parameters in the ${sender}’s ${MESSAGES[sender][0]}`;
    if (reading === null) {
      boxes.note.textContent = goesOn ? HELLO_GOES_ON + this.advice : "";
      return goesOn;
    }
    const { text, isBad } = summaryOf(reading);
    const all = `${count(reading.count, "parameter")} in ${count(reading.bytes.length, "byte")}`;
    boxes.note.textContent = isBad ? `${all}, ${text}.` : `${all}.`;
    this.reading = reading;
    this.views.show(reading, columns);
    return false;
  }
}
