// What is shown beside the bytes: their shortest form, or another input. Both grids mark what differs.

import { comparisonOf } from "./compare.js";
import { Grid } from "./grid.js";
import { inspect } from "./inspector.js";
import { spotIn } from "./views.js";

export class Beside {
  // |views| are the views beside which it is shown.
  constructor(gridBox, views, inspector) {
    this.views = views;
    this.inspector = inspector;
    this.reading = null;
    // Whether what is lit was chosen in this grid.
    this.isOwn = false;
    this.grid = new Grid(gridBox, {
      hover: (place) => this.point(place, false), select: (place) => this.point(place, true),
      enter: () => this.views.grid.box.focus(),
    });
  }

  // Shows a reading, with pauses. If |isPaired|, its items correspond to those of the other reading by index.
  * show(reading, columns, isPaired) {
    const comparison = yield* comparisonOf(this.views.reading, reading, isPaired);
    Object.assign(this, { reading, isPaired, comparison });
    this.grid.show(reading, columns, comparison.rightDiffers);
    this.views.grid.compare(comparison.leftDiffers);
  }

  clear() {
    this.reading = null;
    this.views.grid.compare(null);
  }

  // Lights what corresponds to a spot of the views.
  light(spot) {
    if (!this.reading || this.isOwn) {
      return;
    }
    const item = spot === null ? -1 : this.isPaired ? spot.item : this.comparison.itemBeside(spot.item);
    if (item < 0 || item >= this.reading.count) {
      this.grid.light(null);
      return;
    }
    const [begin, end] = spot.field < 0 ? [0, 0] : this.comparison.rangeBeside(spot.begin, spot.end);
    this.grid.light({ item, begin, end, place: -1, isActive: false });
  }

  // Lights a byte here and what corresponds to it; if |isActive|, also chooses them.
  point(place, isActive) {
    const item = this.reading ? this.reading.indexAt(place) : -1;
    if (item < 0) {
      this.views.hover(null);
      return;
    }
    const field = this.reading.fieldAt(this.reading.item(item), place);
    const spot = { ...spotIn(this.reading, item, field, place), isActive };
    const beside = this.spotBeside(place, item);
    this.isOwn = true;
    if (isActive) {
      this.grid.spot = spot;
      this.grid.reveal(place);
      this.views.select(beside);
    } else {
      this.views.hover(beside);
    }
    this.isOwn = false;
    this.grid.light(spot);
    inspect(this.inspector, this.reading, spot);
  }

  spotBeside(place, item) {
    const at = this.comparison.placeBeside(place);
    if (at >= 0) {
      return this.views.spotAt(at);
    }
    return this.isPaired ? this.views.spotOf(item, -1) : null;
  }
}
