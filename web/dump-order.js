// The order of bytes in the groups of xxd, from the text beside them.

// The text says nothing, and it isn't needed; it doesn't say, and the groups are as wide as those of xxd -e; as dumped;
// as xxd -e prints them. Of two lines the greater value decides.
export const UNTOLD = 0;
export const UNKNOWN = 1;
const AS_DUMPED = 2;
export const SWAPPED = 3;

// Whether the last group has fewer digits than the first, or than 4, 8 or 16, and is right-aligned, as xxd -e prints
// it.
export function isRightAligned(aligned) {
  const blanks = aligned.search(/[^ \t\n\r\f]/);
  const rest = aligned.slice(blanks);
  const width = rest.search(/ |$/);
  if (blanks > 0) {
    return [4, 8, 16].includes(blanks + width);
  }
  for (let at = 0; at + width <= rest.length && [4, 8, 16].includes(width); at += width + 1) {
    const column = rest.slice(at, at + width);
    if (!/^[0-9a-f]+$/i.test(column)) {
      return /^[ \t\n\r\f]*[0-9a-f]+$/i.test(column) && ["", "  "].includes(rest.slice(at + width, at + width + 2));
    }
  }
  return false;
}

function fits(pairs, shown) {
  return pairs.every((pair, at) => {
    const code = parseInt(pair, 16);
    const isGraphic = code > 0x20 && code < 0x7f;
    return isGraphic ? shown.charCodeAt(at) === code : shown[at] === "." || (code === 0x20 && shown[at] === " ");
  });
}

// From the text beside groups, which has a character for each byte.
export function orderOf(groups, digits, shown) {
  const width = groups.search(/ |$/) / 2;
  const count = digits.length / 2;
  if (![2, 4, 8].includes(width) || shown.length < count) {
    return UNTOLD;
  }
  const pairs = digits.match(/../g);
  const swapped = [];
  for (let at = 0; at < count; at += width) {
    swapped.push(...pairs.slice(at, at + width).reverse());
  }
  const text = shown.slice(shown.length - count);
  const [isDumped, isSwapped] = [fits(pairs, text), fits(swapped, text)];
  if (isDumped !== isSwapped) {
    return isSwapped ? SWAPPED : AS_DUMPED;
  }
  const isSame = swapped.join("").toLowerCase() === digits.toLowerCase();
  return isDumped && width > 2 && !isSame ? UNKNOWN : UNTOLD;
}
