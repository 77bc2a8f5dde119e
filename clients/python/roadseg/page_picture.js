// The picture of the page: an axis with referents, and a band for each table and query, as SVG. It knows no document, so that a
// JavaScript engine can try it alone. Sizes are in pixels.
"use strict";

const drawing = (() => {
  const { MOST_LANES, boundsOf, escaped, firstWhere, measure, pointBounds, shortMeasure, shown } = roadseg;
  const MARGIN = 14, WIDEST_TITLE = 180, NARROWEST_TITLE = 60, ASIDE_FROM = 640; // titles are beside the bands from this width on
  const CROSSED = 22; // the room below the bands for the measure of the cross
  const TEXT = 12, PAD = 4, ROW = 15;
  const LANE = 24, MARK_LANE = 16, MARK = 5, BETWEEN = 12, OVERVIEW = 6;
  const LABELLED_LANES = 4, PILE = 40, REFERENT_ROWS = 3, MANY_REFERENTS = 20;
  const CROWDED = 10; // the lines of referents that are nearer together than this would be a grey wall: they are left out
  const THIN = 1.5; // narrower spans are drawn together, pixel by pixel
  const OUTLINED = 4;

  const plain = (number) => String(Math.round(number * 100) / 100);

  // Texts.

  const widths = new Map();

  function characterWidth(c) {
    if (/\p{M}/u.test(c)) return 0;
    if (" .,:;|!'()[]ijlftr-".includes(c)) return 0.47;
    if ("mwMW%@+<>=~^&#".includes(c)) return 1.08;
    if (c > "\u024f") return 1.45;
    return c === c.toLowerCase() ? 0.68 : 0.84;
  }

  /** How wide a text is at the most, in the fonts of the page. */
  function textWidth(text, size = TEXT) {
    let sum = 0;
    for (const c of text) {
      if (!widths.has(c)) widths.set(c, characterWidth(c));
      sum += widths.get(c);
    }
    return sum * size;
  }

  function shortened(text, width, size = TEXT) {
    if (text.length * 0.4 * size < width && textWidth(text, size) <= width) return text;
    let kept = "", sum = size;
    for (const c of text) {
      sum += textWidth(c, size);
      if (sum > width) break;
      kept += c;
    }
    return kept.trimEnd() + "…";
  }

  /** Spans of a pixel or less: each pixel has the style that fills most of it, and pixels of one style side by side are one box. */
  class ThinSpans {
    constructor(draw) {
      this.draw = draw;
      this.lengths = this.run = null;
    }

    add(pixel, style, length) {
      if (this.lengths && this.pixel !== pixel) this.settle();
      this.pixel = pixel;
      this.lengths = this.lengths || new Map();
      this.lengths.set(style, (this.lengths.get(style) || 0) + length);
    }

    settle() {
      let style = -1, most = -1;
      for (const [one, length] of this.lengths) if (length > most) [style, most] = [one, length];
      this.lengths = null;
      if (this.run && this.run.end === this.pixel && this.run.style === style) this.run.end++;
      else {
        this.end();
        this.run = { start: this.pixel, end: this.pixel + 1, style };
      }
    }

    end() {
      if (this.lengths) this.settle();
      if (this.run) this.draw(this.run);
      this.run = null;
    }
  }

  // Labels that have room, row by row.

  class Taken {
    constructor() {
      this.starts = [];
      this.ends = [];
    }

    after(start) {
      return firstWhere(this.ends.length, (i) => this.ends[i] > start);
    }

    isFree(start, end) {
      const after = this.after(start);
      return after === this.starts.length || this.starts[after] >= end;
    }

    take(start, end) {
      const after = this.after(start);
      this.starts.splice(after, 0, start);
      this.ends.splice(after, 0, end);
    }
  }

  const SIDES = {
    middle: (x, width) => x - width / 2,
    after: (x) => x - PAD,
    beside: (x) => x,
    before: (x, width) => x - width + PAD,
  };

  /**
   * For each of some labels, which come from the left, its row and where it begins, or null. A line leads to it through the rows
   * before its own. Each is in the nearest row; or in the farthest one and after its line, like stairs that go down to the axis,
   * where this leaves fewer out.
   */
  function staggered(labels, count, left, right) {
    const rows = Array.from({ length: count }, (_, row) => row);
    const near = spotsOf(labels, rows, [SIDES.middle, SIDES.after, SIDES.before], left, right);
    const far = spotsOf(labels, [...rows].reverse(), [SIDES.after, SIDES.beside, SIDES.before], left, right);
    const lacking = (spots) => spots.filter((spot) => !spot).length;
    return lacking(far) < lacking(near) ? far : near;
  }

  /** The spots of labels, each in the first of some rows, and on the first of some sides of its line, that has room. */
  function spotsOf(labels, rows, sides, left, right) {
    const taken = rows.map(() => new Taken());
    return labels.map(({ x, width }) => {
      if (width > right - left) return null;
      for (const row of rows) {
        const passed = taken.slice(0, row);
        if (!passed.every((one) => one.isFree(x - 1, x + 1))) continue;
        for (const side of sides) {
          const start = Math.max(Math.min(side(x, width), right - width), left);
          if (!taken[row].isFree(start - PAD, start + width + PAD)) continue;
          taken[row].take(start - PAD, start + width + PAD);
          passed.forEach((one) => one.take(x - 1, x + 1));
          return { row, start };
        }
      }
      return null;
    });
  }

  /** Some places in order, one for each pixel. */
  const byPixel = (places) => [...new Map(places.map((x) => [Math.round(x), x])).values()].sort((one, other) => one - other);

  function ticksOf({ from, to }, width) {
    const room = (Math.max(64, textWidth(measure(Math.ceil(to))) + 4 * PAD) / width) * (to - from);
    let step = 1;
    for (let power = 1; step < room; power *= 10) step = [1, 2, 5].map((digit) => digit * power).find((one) => one >= room) || 0;
    const found = [];
    for (let place = Math.ceil(from / step) * step; place <= to; place += step) found.push(place);
    return found;
  }

  // Fills and marks.

  const SHAPES = [
    "M-5,0 -3.5,-3.5 0,-5 3.5,-3.5 5,0 3.5,3.5 0,5 -3.5,3.5Z",
    "M-4.5,-4.5 4.5,-4.5 4.5,4.5 -4.5,4.5Z",
    "M0,-5 5,4.5 -5,4.5Z",
    "M0,-5 5,0 0,5 -5,0Z",
    "M-5,-4.5 5,-4.5 0,5Z",
    "M-2,-5 2,-5 2,-2 5,-2 5,2 2,2 2,5 -2,5 -2,2 -5,2 -5,-2 -2,-2Z",
    "M-5,-4 0,-2 5,-4 2,0 5,4 0,2 -5,4 -2,0Z",
    "M-3,-3 3,-3 3,3 -3,3Z",
  ];
  const HATCHES = [
    "", "M0,8 8,0 M-2,2 2,-2 M6,10 10,6", "M0,0 8,8 M-2,6 2,10 M6,-2 10,2", "M2,0 2,8 M6,0 6,8", "M0,2 8,2 M0,6 8,6",
    "M0,8 8,0 M0,0 8,8", "M0,4 8,4 M4,0 4,8", "M2,1.5 2,2.5 M6,5.5 6,6.5",
  ];

  const fillOf = (data, style) => (data.styles[style][1] ? "url(#fill-" + style + ")" : data.styles[style][0]);

  /** What pictures and legends refer to: the fills with hatches. */
  function definitions(data) {
    const fills = data.styles.map(([colour, hatch, , ink], k) =>
      hatch
        ? `<pattern id="fill-${k}" width="8" height="8" patternUnits="userSpaceOnUse"><rect width="8" height="8" fill="${colour}"/>` +
          `<path d="${HATCHES[hatch]}" stroke="${ink}" stroke-opacity="0.6" stroke-width="1"/></pattern>`
        : "",
    );
    return `<defs>${fills.join("")}</defs>`;
  }

  /** A mark with its shape in it: one that refers to a shape takes a browser twice the time. */
  const markAt = (data, x, y, style) => {
    const [fill, , shape] = data.styles[style];
    return `<path class="mark" transform="translate(${plain(x)},${plain(y)})" d="${SHAPES[shape]}" fill="${fill}"/>`;
  };

  function swatch(data, style, isLine) {
    const inside = isLine
      ? `<rect x="0.5" y="0.5" width="21" height="13" fill="${fillOf(data, style)}" stroke="#555"/>`
      : markAt(data, 11, 7, style);
    return `<svg class="swatch" width="22" height="14" aria-hidden="true">${inside}</svg>`;
  }

  // The picture.

  const textAt = (x, y, text, kind, more = "") => `<text class="${kind}" x="${plain(x)}" y="${plain(y)}"${more}>${escaped(text)}</text>`;
  const lineFrom = (x1, y1, x2, y2, kind) => `<path class="${kind}" d="M${plain(x1)},${plain(y1)} ${plain(x2)},${plain(y2)}"/>`;
  const boxAt = (x, y, width, height, kind, more = "") =>
    `<rect class="${kind}" x="${plain(x)}" y="${plain(y)}" width="${plain(width)}" height="${plain(height)}"${more}/>`;

  class Picture {
    constructor(book, state, width) {
      Object.assign(this, { book, state, width, data: book.data, route: book.route(state.r), y: MARGIN });
      this.shownBands = this.data.bands.map((_, b) => b).filter((b) => !state.hidden.has(b));
      this.isAside = width >= ASIDE_FROM;
      const titles = this.shownBands.map((b) => textWidth(this.data.bands[b].title, TEXT + 1));
      const room = Math.min(Math.max(NARROWEST_TITLE, ...titles), WIDEST_TITLE);
      this.left = this.isAside ? 2 * MARGIN + room : MARGIN;
      this.right = width - MARGIN;
      [this.ground, this.boxes, this.lines, this.parts] = [[], [], [], []]; // from the back to the front
      this.bands = [];
      this.thin = this.piled = this.unlabelled = this.referentCount = 0;
    }

    x(place) {
      const { from, to } = this.state.view;
      return this.left + ((place - from) / (to - from)) * (this.right - this.left);
    }

    place(x) {
      const { from, to } = this.state.view;
      return from + ((x - this.left) / (this.right - this.left)) * (to - from);
    }

    draw() {
      const { from, to } = this.state.view, inView = this.route.referents.filter(([, at]) => at >= from && at <= to);
      this.referentCount = inView.length;
      this.signs = byPixel(inView.map(([, at]) => this.x(at)));
      this.isCrowded = this.signs.length * CROWDED > this.right - this.left;
      this.cuts = this.isCrowded ? [] : this.signs;
      this.overview();
      this.referents(inView);
      this.axis();
      const top = this.y;
      for (const b of this.shownBands) this.band(b);
      const bottom = this.y - (this.shownBands.length ? BETWEEN : 0);
      const kind = inView.length > MANY_REFERENTS ? "referent many" : "referent";
      for (const x of this.cuts) this.lines.push(lineFrom(x, top, x, bottom, kind));
      if (this.state.printed !== null) {
        const x = this.x(this.state.printed);
        this.lines.push(lineFrom(x, top, x, bottom, "kept"));
      }
      for (const place of ticksOf(this.state.view, this.right - this.left)) {
        this.ground.push(lineFrom(this.x(place), top, this.x(place), bottom, "grid"));
      }
      this.y = bottom + CROSSED;
      return this;
    }

    /** The whole route as a thin line, and what of it is in view. */
    overview() {
      const { start, end } = this.route, { from, to } = this.state.view, width = this.right - this.left;
      const at = (place) => this.left + ((place - start) / (end - start)) * width;
      this.ground.push(boxAt(this.left, this.y, width, OVERVIEW, "route"));
      this.ground.push(boxAt(at(from), this.y, Math.max(at(to) - at(from), 2), OVERVIEW, "window"));
      this.y += OVERVIEW + 8;
    }

    referents(inView) {
      const texts = inView.map(([name, at]) => name + " " + shortMeasure(at));
      const labels = inView.map(([, at], k) => ({ x: this.x(at), width: textWidth(texts[k]) * 1.15 }));
      const spots = staggered(labels, REFERENT_ROWS, MARGIN, this.right);
      const rows = Math.max(0, ...spots.map((spot) => (spot ? spot.row + 1 : 0)));
      this.y += rows * ROW + (inView.length ? 8 : 0);
      spots.forEach((spot, k) => {
        const { x } = labels[k];
        if (spot) {
          const y = this.y - 12 - spot.row * ROW;
          this.parts.push(textAt(spot.start, y, texts[k], "name"), lineFrom(x, y + 3, x, this.y, "leader"));
        }
      });
      const shape = this.isCrowded ? ["leader", "v-5"] : ["sign", "l-4,-7 8,0Z"];
      const signs = this.signs.map((x) => `M${plain(x)},${plain(this.y)}${shape[1]}`);
      if (signs.length) this.parts.push(`<path class="${shape[0]}" d="${signs.join("")}"/>`);
      this.unlabelled = spots.filter((spot) => !spot).length;
    }

    axis() {
      const row = new Taken(), { from, to } = this.state.view;
      this.parts.push(lineFrom(this.left, this.y, this.right, this.y, "axis"));
      const isWhole = (place) => Math.abs(place - Math.round(place)) < 1e-6;
      for (const place of [from, to].filter(isWhole).map(Math.round).concat(ticksOf(this.state.view, this.right - this.left))) {
        const x = this.x(place), text = shortMeasure(place), width = textWidth(text);
        const start = Math.min(Math.max(x - width / 2, 2), this.width - 2 - width);
        this.parts.push(lineFrom(x, this.y, x, this.y + 5, "axis"));
        if (!row.isFree(start - PAD, start + width + PAD)) continue;
        row.take(start - PAD, start + width + PAD);
        this.parts.push(textAt(start + width / 2, this.y + 18, text, "tick middle"));
      }
      const unit = shortened(this.data.unit, this.left - 3 * MARGIN);
      if (unit && this.isAside) this.parts.push(textAt(MARGIN, this.y + 18, unit, "faint"));
      this.y += 27;
    }

    band(b) {
      const band = this.data.bands[b], rows = this.book.rows(b, this.state.r), top = this.y;
      const title = shortened(band.title, this.isAside ? this.left - 2 * MARGIN : this.right - this.left, TEXT + 1);
      this.parts.push(`<g class="band" data-band="${b}">`);
      if (!this.isAside) this.y += 18;
      this.parts.push(textAt(MARGIN, this.isAside ? top + 17 : top + 13, title, "title"));
      const ground = this.y;
      const { from, to } = this.state.view, [first, end] = rows.isLine ? boundsOf(rows, from, to) : pointBounds(rows, from, to);
      if (first >= end) {
        this.parts.push(textAt(this.left + 6, this.y + 16, rows.count ? "no rows in view" : "no rows", "faint"));
        this.y += LANE;
      } else if (rows.isLine) this.spans(b, rows, first, end);
      else this.marks(b, rows, first, end);
      this.ground.push(boxAt(this.left, ground, this.right - this.left, this.y - ground, "ground"));
      this.parts.push("</g>");
      this.bands.push({ b, top, bottom: this.y });
      this.y += BETWEEN;
    }

    // Lines.

    spans(b, rows, first, end) {
      const column = this.state.by[b], { from, to } = this.state.view, perPlace = (this.right - this.left) / (to - from);
      const top = this.y, thin = [];
      for (let lane = 0; lane < rows.depth; lane++) thin.push(new ThinSpans((run) => this.thinBox(run, top + lane * LANE)));
      const styleOf = this.book.styles(b, this.state.r, column);
      let over = 0;
      for (let i = first; i < end; i++) {
        if (rows.ends[i] <= from) continue;
        const lane = rows.lanes[i];
        if (lane === MOST_LANES) {
          over++;
          continue;
        }
        const start = Math.max(rows.starts[i], from), stop = Math.min(rows.ends[i], to);
        const x1 = this.left + (start - from) * perPlace, x2 = this.left + (stop - from) * perPlace;
        const style = styleOf(i), y = top + lane * LANE;
        if ((rows.ends[i] - rows.starts[i]) * perPlace < THIN) {
          this.thin++;
          thin[lane].add(Math.floor(x1), style, x2 - x1);
          continue;
        }
        thin[lane].end();
        this.span(b, i, x1, x2, y, style, column);
      }
      thin.forEach((one) => one.end());
      this.y += Math.max(rows.depth, 1) * LANE;
      if (over) {
        this.piled += over;
        this.parts.push(textAt(this.left + PAD, this.y + 12, "+" + over + (over === 1 ? " row" : " rows"), "pile faint"));
        this.y += ROW + 2;
      }
    }

    thinBox({ start, end, style }, y) {
      this.boxes.push(boxAt(start, y + 1, end - start, LANE - 2, "thin", ` fill="${fillOf(this.data, style)}"`));
    }

    span(b, i, x1, x2, y, style, column) {
      const kind = x2 - x1 >= OUTLINED ? "span" : "thin";
      this.boxes.push(boxAt(x1, y + 1, x2 - x1, LANE - 2, kind, ` fill="${fillOf(this.data, style)}"`));
      if (x2 - x1 < 12) return;
      const text = this.label(b, i, column, x2 - x1 - 2 * PAD);
      if (!text) return;
      const [fill, hatch, , ink] = this.data.styles[style], width = textWidth(text), x = this.middle(x1, x2, width + 2 * PAD);
      const isPlain = !hatch && !this.isCut(x - width / 2, x + width / 2);
      if (!isPlain) this.parts.push(boxAt(x - width / 2 - 2, y + 4, width + 4, LANE - 8, "plate", ` fill="${fill}"`));
      this.parts.push(textAt(x, y + 16, text, "label middle", ` fill="${ink}"`));
    }

    /** Whether a referent's line goes through this part. */
    isCut(x1, x2) {
      const first = firstWhere(this.cuts.length, (k) => this.cuts[k] > x1);
      return first < this.cuts.length && this.cuts[first] < x2;
    }

    /** Where the middle of a label is in a span: in the widest part between referents' lines, where it has room there. */
    middle(x1, x2, width) {
      const first = firstWhere(this.cuts.length, (k) => this.cuts[k] > x1), bounds = [x1];
      for (let k = first; k < this.cuts.length && this.cuts[k] < x2; k++) bounds.push(this.cuts[k]);
      bounds.push(x2);
      let best = 0;
      for (let k = 1; k < bounds.length - 1; k++) if (bounds[k + 1] - bounds[k] > bounds[best + 1] - bounds[best]) best = k;
      return bounds[best + 1] - bounds[best] >= width ? (bounds[best] + bounds[best + 1]) / 2 : (x1 + x2) / 2;
    }

    /** The values of a row, or that which colours go by, as far as there is room; nothing where there is none. */
    label(b, i, column, room) {
      const values = this.book.values(b, this.state.r, i).map(shown);
      const all = values.join(", ");
      if (all.length * 0.45 * TEXT < room && textWidth(all) <= room) return all;
      const one = column < 0 ? "" : values[column];
      return values.length > 1 && textWidth(one) <= room ? one : "";
    }

    // Points.

    marks(b, rows, first, end) {
      const ends = [], over = [], column = this.state.by[b], styleOf = this.book.styles(b, this.state.r, column);
      for (let i = first; i < end; i++) {
        const x = this.x(rows.starts[i]);
        const { lane, side, text } = this.spot(b, i, x, ends, column);
        if (lane === MOST_LANES) {
          over.push(x);
          continue;
        }
        const y = this.y + lane * MARK_LANE + MARK_LANE / 2 + 1;
        this.parts.push(markAt(this.data, x, y, styleOf(i)));
        if (side) this.parts.push(textAt(x + side * (MARK + PAD), y + 4, text, side > 0 ? "label" : "label end"));
      }
      this.y += Math.max(ends.length * MARK_LANE + 2, LANE);
      if (over.length) this.piles(over);
    }

    /** Counts marks without room, pile by pile; the last pile has all that are left where no other has room after it. */
    piles(over) {
      const width = Math.max(PILE, textWidth("+" + over.length) + PAD);
      for (let k = 0, next; k < over.length; k = next) {
        const start = Math.min(over[k], this.right - width), end = start + 2 * width > this.right ? Infinity : start + width;
        for (next = k; next < over.length && over[next] < end; ) next++;
        this.parts.push(textAt(start, this.y + 12, "+" + (next - k), "pile faint"));
      }
      this.piled += over.length;
      this.y += ROW + 2;
    }

    /** The lane of a mark, and the side on which its label has room: 1 after it, -1 before it, 0 for none. */
    spot(b, i, x, ends, column) {
      const free = (lane) => (lane < ends.length ? ends[lane] : -Infinity);
      for (let lane = 0; lane < LABELLED_LANES && lane <= ends.length; lane++) {
        if (free(lane) > x - MARK) continue;
        const text = this.label(b, i, column, WIDEST_TITLE), width = MARK + PAD + textWidth(text);
        if (text && x + width <= this.right) return (ends[lane] = x + width + PAD), { lane, side: 1, text };
        if (text && x - width >= Math.max(free(lane), this.left)) return (ends[lane] = x + MARK + 1), { lane, side: -1, text };
      }
      let lane = 0;
      while (lane < ends.length && ends[lane] > x - MARK) lane++;
      if (lane < MOST_LANES) ends[lane] = x + MARK + 1;
      return { lane, side: 0, text: "" };
    }

    svg() {
      const size = [this.width, Math.ceil(this.y)], layers = [this.ground, this.boxes, this.lines, this.parts];
      const shape = `viewBox="0 0 ${size.join(" ")}" width="${size[0]}" height="${size[1]}"`;
      return `<svg class="picture" ${shape}>${layers.map((layer) => layer.join("")).join("")}</svg>`;
    }

    notes() {
      const told = [];
      if (this.isCrowded) told.push(`Referents in view: ${this.referentCount}; zoom in for their dashed lines.`);
      else if (this.route.referents.length) told.push("Dashed lines are referents.");
      if (this.unlabelled) told.push(`Names of referents without room: ${this.unlabelled}.`);
      if (this.thin) told.push(`Rows narrower than ${THIN} pixels, drawn together: ${this.thin}; zoom in to tell them apart.`);
      if (this.piled) told.push(`Rows without room, counted as +N: ${this.piled}.`);
      return told.join(" ");
    }
  }

  return { Picture, definitions, shortened, swatch, textWidth, ticksOf };
})();
