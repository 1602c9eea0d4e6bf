// Reads long texts and bytes in parts, between which it may pause. A function "with pauses" is a generator that yields
// nothing, or DRAWN so that the browser draws first, and returns its result.

// How many characters are read between two pauses, with a few more.
export const AT_ONCE = 1 << 15;
export const ITEMS_AT_ONCE = 1 << 12;
// For how many milliseconds a task takes steps; it then finishes the last one.
const TASK_TIME = 10;
export const DRAWN = "drawn";

// Counts what was read since the last pause.
export class Pace {
  done = 0;

  // Pauses if that is due after |count| more characters.
  * after(count) {
    this.done += count + 1;
    if (this.done >= AT_ONCE) {
      this.done = 0;
      yield;
    }
  }
}

// The result of a function with pauses, without pausing.
export function answerOf(steps) {
  for (;;) {
    const { done, value } = steps.next();
    if (done) {
      return value;
    }
  }
}

// Takes steps up to one that fails, for which |failed| is called.
export function* untilFailure(steps, failed) {
  try {
    yield* steps;
  } catch (error) {
    failed(error);
  }
}

// Takes steps in tasks, between which the browser does its other work, as long as |isWanted| returns true. At the end
// it calls |end|.
export function inTasks(steps, isWanted, end) {
  const until = performance.now() + TASK_TIME;
  const next = () => inTasks(steps, isWanted, end);
  while (isWanted() && performance.now() < until) {
    const { done, value } = steps.next();
    if (done) {
      end();
      return;
    }
    if (value === DRAWN) {
      requestAnimationFrame(() => setTimeout(next));
      return;
    }
  }
  if (isWanted()) {
    setTimeout(next);
  }
}

// Calls |visit| with each item of a list, with pauses.
export function* forEach(items, visit) {
  for (const [at, item] of items.entries()) {
    visit(item);
    if (at % ITEMS_AT_ONCE === ITEMS_AT_ONCE - 1) {
      yield;
    }
  }
}

// The lines of a text, without their ends.
export function* eachLine(text) {
  for (let from = 0, end = 0; end >= 0; from = end + 1) {
    end = text.indexOf("\n", from);
    const to = end < 0 ? text.length : end;
    yield text.slice(from, to > from && text[to - 1] === "\r" ? to - 1 : to);
  }
}
