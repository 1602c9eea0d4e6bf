// What breaks a rule of RFC 9000 in a capture, with the section that says so.

import { element } from "./rows.js";
import { count } from "./shown.js";

function findingText({ record, sender, type, number, seen, expected, rfc, section, count: times }) {
  const which = `Record ${record}, ${sender}, ${type}${number === undefined ? "" : ` ${number}`}`;
  const often = times > 1 ? ` ${times} times.` : "";
  return `${which}: ${seen}. Expected: ${expected}.${often} RFC ${rfc}, section ${section}`;
}

// Shows the first findings of |all|; |go| is called with the index of a packet.
export function showFindings(box, title, findings, all, go) {
  // A rule may be broken in several connections, and by both sides.
  title.textContent = all === 0 ? "No rule is broken, as far as the capture shows"
    : `Broken rules: ${count(all, "finding")}`;
  box.replaceChildren(...findings.map((finding) => {
    const button = element("button", "finding", findingText(finding), { type: "button" });
    button.disabled = finding.row === null;
    button.addEventListener("click", () => go(finding.row));
    return button;
  }));
  if (all > findings.length) {
    box.append(element("p", "hint", `${all - findings.length} more, which quic-wire check prints.`));
  }
}
