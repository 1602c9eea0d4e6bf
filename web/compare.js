// Compares the bytes of two readings. If few enough bytes differ, the least number of them is found. Otherwise equal
// items are found first, so that a change in one of them doesn't affect the others, and then bytes between these.

import { ITEMS_AT_ONCE } from "./slices.js";

// If one run has more changes, they aren't searched for: all of its bytes count as changed.
const MOST_CHANGES = 400;
const MIDDLE = MOST_CHANGES + 1;

// The diagonal from which the path with this many changes came to this one (Myers, "An O(ND) difference algorithm").
// |reach| returns how far a path with one change less comes on a diagonal.
function cameFrom(reach, diagonal, changes) {
  const isDown = diagonal === -changes
    || (diagonal !== changes && reach(diagonal - 1) < reach(diagonal + 1));
  return isDown ? diagonal + 1 : diagonal - 1;
}

// The pairs of equal indices on the shortest path from |left| entries to |right| entries, or null if it has more
// changes than are searched for. |isSame| compares the entries at two indices.
function samePlaces(left, right, isSame) {
  const far = new Int32Array(2 * MIDDLE + 1).fill(-1);
  const reach = (diagonal) => far[MIDDLE + diagonal];
  const before = [];
  far[MIDDLE + 1] = 0;
  const most = Math.min(MOST_CHANGES, left + right);
  for (let changes = 0; changes <= most; changes += 1) {
    before.push(far.slice(MIDDLE - changes - 1, MIDDLE + changes + 2));
    for (let diagonal = -changes; diagonal <= changes; diagonal += 2) {
      const from = cameFrom(reach, diagonal, changes);
      let x = from > diagonal ? reach(from) : reach(from) + 1;
      while (x < left && x - diagonal < right && isSame(x, x - diagonal)) {
        x += 1;
      }
      far[MIDDLE + diagonal] = x;
      if (x >= left && x - diagonal >= right) {
        return wayBack(before, left, right);
      }
    }
  }
  return null;
}

// The pairs on the path that led to the end. |before| has how far paths came with each number of changes.
function wayBack(before, left, right) {
  const pairs = [];
  let x = left;
  let y = right;
  for (let changes = before.length - 1; changes >= 0; changes -= 1) {
    const reach = (diagonal) => before[changes][diagonal + changes + 1];
    const from = cameFrom(reach, x - y, changes);
    const [startX, startY] = [reach(from), reach(from) - from];
    while (x > startX && y > startY && x > 0) {
      x -= 1;
      y -= 1;
      pairs.push([x, y]);
    }
    [x, y] = [startX, startY];
  }
  return pairs.reverse();
}

function onesIn(marks) {
  let sum = 0;
  for (let place = 0; place < marks.length; place += 1) {
    sum += marks[place];
  }
  return sum;
}

// Compares two readings, with pauses. If |isPaired|, each item is compared with the one of the same index, as in a
// shortest form.
export function* comparisonOf(left, right, isPaired) {
  const comparison = new Comparison(left, right);
  yield* isPaired && left.count === right.count ? comparison.comparePairs() : comparison.compareAll();
  return comparison;
}

class Comparison {
  constructor(left, right) {
    this.left = left;
    this.right = right;
    // For each byte whether it differs, and for the left ones their offset on the right.
    this.leftDiffers = new Uint8Array(left.bytes.length).fill(1);
    this.rightDiffers = new Uint8Array(right.bytes.length).fill(1);
    this.places = new Int32Array(left.bytes.length).fill(-1);
    // Whether a search was given up, so that some bytes count as changed that may be equal.
    this.isRough = false;
  }

  * comparePairs() {
    const { left, right } = this;
    for (let item = 0; item < left.count; item += 1) {
      this.compareBytes(left.begin(item), left.end(item), right.begin(item), right.end(item));
      if (item % ITEMS_AT_ONCE === ITEMS_AT_ONCE - 1) {
        yield;
      }
    }
  }

  * compareAll() {
    if (!this.compareBytes(0, this.left.bytes.length, 0, this.right.bytes.length)) {
      yield;
      this.isRough = false;
      this.compareItems();
    }
  }

  // How many bytes differ, of those on the left and on the right.
  get counts() {
    return [onesIn(this.leftDiffers), onesIn(this.rightDiffers)];
  }

  // Finds items that are equal on both sides, and compares the bytes in the gaps between them.
  compareItems() {
    const { left, right } = this;
    const found = samePlaces(left.count, right.count, (a, b) => this.isSameItem(a, b));
    const pairs = found ?? [];
    this.isRough = found === null;
    let [fromLeft, fromRight] = [0, 0];
    for (const [a, b] of pairs) {
      this.compareBytes(fromLeft, left.begin(a), fromRight, right.begin(b));
      this.match(left.begin(a), right.begin(b), left.end(a) - left.begin(a));
      [fromLeft, fromRight] = [left.end(a), right.end(b)];
    }
    this.compareBytes(fromLeft, left.bytes.length, fromRight, right.bytes.length);
  }

  isSameItem(a, b) {
    const { left, right } = this;
    const length = left.end(a) - left.begin(a);
    if (right.end(b) - right.begin(b) !== length) {
      return false;
    }
    for (let place = 0; place < length; place += 1) {
      if (left.bytes[left.begin(a) + place] !== right.bytes[right.begin(b) + place]) {
        return false;
      }
    }
    return true;
  }

  // This many bytes are equal from here on.
  match(left, right, length) {
    for (let place = 0; place < length; place += 1) {
      this.leftDiffers[left + place] = 0;
      this.rightDiffers[right + place] = 0;
      this.places[left + place] = right + place;
    }
  }

  // Compares bytes, and returns false if there are too many changes.
  compareBytes(left, leftEnd, right, rightEnd) {
    const [lefts, rights] = [this.left.bytes, this.right.bytes];
    const most = Math.min(leftEnd - left, rightEnd - right);
    let end = 0;
    while (end < most && lefts[leftEnd - 1 - end] === rights[rightEnd - 1 - end]) {
      end += 1;
    }
    this.match(leftEnd - end, rightEnd - end, end);
    let begin = 0;
    while (begin < most - end && lefts[left + begin] === rights[right + begin]) {
      begin += 1;
    }
    this.match(left, right, begin);
    return this.search(left + begin, leftEnd - end, right + begin, rightEnd - end);
  }

  // Compares bytes of which neither the first nor the last are equal.
  search(left, leftEnd, right, rightEnd) {
    if (left === leftEnd || right === rightEnd) {
      return true;
    }
    const isSame = (a, b) => this.left.bytes[left + a] === this.right.bytes[right + b];
    const pairs = samePlaces(leftEnd - left, rightEnd - right, isSame);
    for (const [a, b] of pairs ?? []) {
      this.match(left + a, right + b, 1);
    }
    this.isRough ||= pairs === null;
    return pairs !== null;
  }

  // The item on the right that has a byte of the left one, or -1.
  itemBeside(item) {
    for (let place = this.left.begin(item); place < this.left.end(item); place += 1) {
      if (this.places[place] >= 0) {
        return this.right.indexAt(this.places[place]);
      }
    }
    return -1;
  }

  // The first and the last offset on the right that bytes of the left correspond to.
  rangeBeside(begin, end) {
    const first = this.places[begin] ?? -1;
    const last = this.places[end - 1] ?? -1;
    return first < 0 || last < 0 ? [0, 0] : [first, last + 1];
  }

  // The byte on the left that corresponds to the byte at |place| on the right, or -1.
  placeBeside(place) {
    return this.rightDiffers[place] ? -1 : this.places.indexOf(place);
  }
}
