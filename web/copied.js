// The clipboard, and what a button says afterwards.

// In milliseconds.
const SHOWN_FOR = 3000;

// Whether a text can be put on the clipboard, which browsers forbid to a page from a server without TLS.
export async function copied(text) {
  try {
    await navigator.clipboard.writeText(text);
    return true;
  } catch {
    return false;
  }
}

// Shows a text on a button for a while.
export function sayOn(button, text) {
  button.dataset.name ??= button.textContent;
  button.textContent = text;
  setTimeout(() => { button.textContent = button.dataset.name; }, SHOWN_FOR);
}
