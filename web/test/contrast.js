// Run in the page by the tests: the lowest contrast of visible text (WCAG 2.2, section 1.4.3), with each element chosen
// in turn.
const [selectors] = arguments;
const context = document.createElement("canvas").getContext("2d", { willReadFrequently: true });

// A colour of the style sheet over another one, as three numbers up to 255.
const known = new Map();
function over(color, below) {
  const both = `${color} over ${below}`;
  if (!known.has(both)) {
    context.fillStyle = `rgb(${below.join(" ")})`;
    context.fillRect(0, 0, 1, 1);
    context.fillStyle = color;
    context.fillRect(0, 0, 1, 1);
    known.set(both, [...context.getImageData(0, 0, 1, 1).data.slice(0, 3)]);
  }
  return known.get(both);
}

const grounds = new Map();
function groundOf(element) {
  if (!grounds.has(element)) {
    const below = element.parentElement ? groundOf(element.parentElement) : [255, 255, 255];
    grounds.set(element, over(getComputedStyle(element).backgroundColor, below));
  }
  return grounds.get(element);
}

function luminance(color) {
  const [red, green, blue] = color.map((part) => {
    const value = part / 255;
    return value <= 0.04045 ? value / 12.92 : ((value + 0.055) / 1.055) ** 2.4;
  });
  return 0.2126 * red + 0.7152 * green + 0.0722 * blue;
}

// The visible text with the lowest contrast.
function least() {
  let worst = ["", 100];
  const texts = document.createTreeWalker(document.body, NodeFilter.SHOW_TEXT);
  grounds.clear();
  while (texts.nextNode()) {
    const element = texts.currentNode.parentElement;
    const text = texts.currentNode.textContent.trim();
    if (text !== "" && element.checkVisibility({ visibilityProperty: true }) && !element.closest("script, svg")) {
      const ground = groundOf(element);
      const [a, b] = [luminance(ground), luminance(over(getComputedStyle(element).color, ground))];
      const ratio = (Math.max(a, b) + 0.05) / (Math.min(a, b) + 0.05);
      worst = ratio < worst[1] ? [text, ratio] : worst;
    }
  }
  return worst;
}

// The page as it is, or with each element chosen in turn.
return selectors.map((selector) => {
  if (selector !== "") {
    document.querySelector(selector)?.click();
  }
  return [selector, ...least()];
});
