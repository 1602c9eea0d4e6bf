// A reading in two views, the grid of its bytes and the tree of its items: what is lit in one is lit in the other.

import { Grid } from "./grid.js";
import { linesOf, Outline } from "./outline.js";

export class Views {
  // |lit| is called with what is lit, a spot or null, whenever that may have changed.
  constructor(gridBox, outlineBox, lit) {
    this.reading = null;
    this.lit = lit;
    // What was chosen, and what is under the pointer.
    this.active = null;
    this.hovered = null;
    this.grid = new Grid(gridBox, {
      hover: (place) => this.hover(this.spotAt(place)),
      select: (place) => this.select(this.spotAt(place)),
      enter: () => outlineBox.focus(),
    });
    this.outline = new Outline(outlineBox, {
      hover: (item, field) => this.hover(this.spotOf(item, field)),
      select: (item, field) => this.select(this.spotOf(item, field)),
      enter: () => gridBox.focus(),
    });
  }

  show(reading, columns) {
    this.reading = reading;
    this.active = null;
    this.hovered = null;
    this.grid.show(reading, columns);
    this.outline.show(reading);
  }

  spotAt(place) {
    const index = this.reading.indexAt(place);
    if (index < 0) {
      return null;
    }
    return this.spotOf(index, this.reading.fieldAt(this.reading.item(index), place), place);
  }

  spotOf(index, field, place) {
    return index < 0 ? null : spotIn(this.reading, index, field, place);
  }

  hover(spot) {
    this.hovered = spot;
    this.light();
  }

  // Chooses a spot, and shows it in both views.
  select(spot) {
    this.active = spot && { ...spot, isActive: true };
    this.hovered = null;
    if (spot) {
      this.grid.spot = this.active;
      this.outline.spot = this.active;
      this.grid.reveal(spot.place);
      this.outline.reveal(spot.item, spot.field);
    }
    this.light();
  }

  light() {
    const spot = this.hovered ?? this.active;
    this.grid.light(spot);
    this.outline.light(spot);
    this.lit(this.reading && spot);
  }
}

// A spot: an item of a reading or, with |field| from 0 on, a line under it; what is lit for it, and its name.
export function spotIn(reading, index, field, place) {
  const item = reading.item(index);
  const line = field < 0 ? item : linesOf(item)[field];
  const at = Math.min(place ?? line.begin, reading.bytes.length - 1);
  const label = field < 0 ? item.name : `${line.name} of ${item.name}`;
  return { item: index, field, begin: line.begin, end: line.end, place: at, label, isActive: false };
}
