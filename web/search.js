// Searches in what is sorted.

// The last index below |count| for which a test holds, or -1. It holds for none after one for which it doesn't.
export function lastWhere(count, test) {
  let low = 0;
  let high = count;
  while (low < high) {
    const middle = (low + high) >> 1;
    if (test(middle)) {
      low = middle + 1;
    } else {
      high = middle;
    }
  }
  return low - 1;
}
