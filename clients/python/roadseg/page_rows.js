// The rows of the page: those of a route, what holds at a place, what is in view, CSV, search, views and links. It knows no
// document, so that a JavaScript engine can try it alone. Places are thousandths.
"use strict";

const roadseg = (() => {
  const LINE = "LINE";
  const MOST_LANES = 12; // what overlaps more is counted
  const LEAST_VIEW = 10; // thousandths: each is seen then
  const MOST_FOUND = 500;

  // Texts.

  const measure = (place) => Math.floor(place / 1000) + "." + String(place % 1000).padStart(3, "0");
  const shortMeasure = (place) => measure(place).replace(/\.?0+$/, "");
  const shown = (value) => (value === null ? "NULL" : String(value));
  const ESCAPES = { "&": "&amp;", "<": "&lt;", ">": "&gt;", '"': "&quot;", "'": "&#39;" };
  const CONTROLS = /[\u0000-\u001f\u007f-\u009f\u2028\u2029]/g;
  const escaped = (text) => text.replace(/[&<>"']/g, (c) => ESCAPES[c]).replace(CONTROLS, "\ufffd");

  function placeOf(text) {
    const found = /^\s*(\d{1,6})(?:\.(\d{1,3}))?\s*$/.exec(text);
    return found ? Number(found[1]) * 1000 + Number((found[2] || "").padEnd(3, "0")) : null;
  }

  // Rows. Those of a route come as differences: how far each start is from the one before, lengths, and the numbers of values.

  function unpacked(band, flat) {
    const isLine = band.kind === LINE, count = flat.length / (band.columns.length + (isLine ? 2 : 1));
    const starts = new Int32Array(count), ends = new Int32Array(count), farthest = new Int32Array(count);
    for (let i = 0, start = 0, far = 0; i < count; i++) {
      start += flat[i];
      starts[i] = start;
      ends[i] = isLine ? start + flat[count + i] : start;
      farthest[i] = far = Math.max(far, ends[i]);
    }
    const first = isLine ? 2 : 1;
    const columns = band.columns.map((_, k) => flat.slice((first + k) * count, (first + k + 1) * count));
    return { count, isLine, starts, ends, farthest, columns, ...(isLine ? lanesOf(starts, ends) : {}) };
  }

  /** For each span in order the lowest lane in which it overlaps none; the last lane is of all that overlap too many. */
  function lanesOf(starts, ends) {
    const lanes = new Uint8Array(starts.length), free = [];
    for (let i = 0; i < starts.length; i++) {
      let lane = 0;
      while (lane < free.length && free[lane] > starts[i]) lane++;
      lanes[i] = Math.min(lane, MOST_LANES);
      if (lane < MOST_LANES) free[lane] = ends[i];
    }
    return { lanes, depth: free.length };
  }

  /** The first of so many numbers that is so; these come after those that are not. */
  function firstWhere(count, isSo) {
    let low = 0, high = count;
    while (low < high) {
      const middle = (low + high) >> 1;
      if (isSo(middle)) high = middle;
      else low = middle + 1;
    }
    return low;
  }

  /** The first row that may reach past a place, and the first that begins at another one or later. */
  const boundsOf = (rows, from, to) => [
    firstWhere(rows.count, (i) => rows.farthest[i] > from),
    firstWhere(rows.count, (i) => rows.starts[i] >= to),
  ];

  /** The first point at a place or after it, and the first after another one. */
  const pointBounds = (rows, from, to) => [
    firstWhere(rows.count, (i) => rows.starts[i] >= from),
    firstWhere(rows.count, (i) => rows.starts[i] > to),
  ];

  class Book {
    constructor(data) {
      this.data = data;
      this.kept = new Map();
      const { compare } = new Intl.Collator("en", { numeric: true }); // SR2 comes before SR10
      this.order = data.routes.map((_, r) => r).sort((one, other) => compare(data.routes[one][0], data.routes[other][0]));
    }

    route(r) {
      const [name, start, end, referents] = this.data.routes[r];
      return { name, start, end, referents };
    }

    /** The rows of a band on a route, which are unpacked once. */
    rows(b, r) {
      const key = b + " " + r;
      if (!this.kept.has(key)) this.kept.set(key, unpacked(this.data.bands[b], this.data.bands[b].rows[r]));
      return this.kept.get(key);
    }

    value(b, column, number) {
      return this.data.bands[b].columns[column].values[number];
    }

    values(b, r, i) {
      return this.rows(b, r).columns.map((numbers, k) => this.value(b, k, numbers[i]));
    }

    /** What gives each row of a band its style, by the column that colours go by; -1 is none. */
    styles(b, r, column) {
      if (column < 0) return () => this.data.plain;
      const { entry, legend } = this.data.bands[b].columns[column], numbers = this.rows(b, r).columns[column];
      return (i) => legend[entry[numbers[i]]][1];
    }

    /** The numbers of the rows that hold at a place; of points those that are no farther from it than this. */
    rowsAt(b, r, place, reach = 0) {
      const rows = this.rows(b, r), found = [];
      const [first, end] = rows.isLine ? boundsOf(rows, place, place + 1) : pointBounds(rows, place - reach, place + reach);
      for (let i = first; i < end; i++) if (!rows.isLine || rows.ends[i] > place) found.push(i);
      return found;
    }

    /** The rows that lie from one place up to, and without, another one, cut there; at the route's end its points too. */
    rowsIn(b, r, from, to) {
      const rows = this.rows(b, r), last = to >= this.route(r).end ? to : to - 1, found = [];
      const [first, end] = rows.isLine ? boundsOf(rows, from, to) : pointBounds(rows, from, last);
      for (let i = first; i < end; i++) {
        if (rows.isLine && rows.ends[i] <= from) continue;
        found.push({ i, start: Math.max(rows.starts[i], from), end: rows.isLine ? Math.min(rows.ends[i], to) : rows.starts[i] });
      }
      return found;
    }

    /** The names of a band's columns, the route and the places first, its rows in view as texts and numbers, at most so many, and
     * how many there are. */
    table(b, r, from, to, most = Infinity) {
      const band = this.data.bands[b], isLine = band.kind === LINE, name = this.route(r).name;
      const header = ["route", ...(isLine ? ["from", "to"] : ["at"]), ...band.columns.map((column) => column.name)];
      const found = this.rowsIn(b, r, from, to), rows = found.slice(0, most).map(({ i, start, end }) => [
        name, measure(start), ...(isLine ? [measure(end)] : []), ...this.values(b, r, i),
      ]);
      return { header, rows, count: found.length };
    }

    /** What the legend of a band says of a route: the entries that it has there, in order. */
    legend(b, r, column) {
      if (column < 0) return [];
      const all = this.data.bands[b].columns[column], used = new Set();
      for (const number of this.rows(b, r).columns[column]) used.add(all.entry[number]);
      return all.legend.filter((_, k) => used.has(k));
    }

    /** The nearest place after a place, or before it, at which something begins, ends or is; the route's end where nothing does. */
    change(r, place, way, hidden = new Set()) {
      const { start, end, referents } = this.route(r);
      let best = way > 0 ? end : start;
      const look = (one) => {
        if (way > 0 ? one > place && one < best : one < place && one > best) best = one;
      };
      referents.forEach(([, at]) => look(at));
      this.data.bands.forEach((_, b) => {
        if (hidden.has(b)) return;
        const rows = this.rows(b, r);
        for (let i = 0; i < rows.count; i++) {
          look(rows.starts[i]);
          look(rows.ends[i]);
        }
      });
      return best;
    }

    /** A place as a distance from the last referent that is not after it, as AS RELATIVE says it. */
    relative(r, place) {
      const { start, referents } = this.route(r);
      let found = ["START", start];
      for (const one of referents) if (one[1] <= place && (one[1] > found[1] || found[0] === "START")) found = one;
      return "@" + found[0] + "+" + measure(place - found[1]);
    }

    /** The routes whose name, or a referent's name, has these letters: those that begin so first. At most so many. */
    search(words) {
      const wanted = words.trim().toUpperCase(), found = [[], [], []];
      this.order.forEach((r) => {
        const [name, , , referents] = this.data.routes[r], place = name.toUpperCase().indexOf(wanted);
        if (place >= 0) found[place === 0 ? 0 : 1].push({ r, text: name, at: null });
        if (!wanted) return;
        for (const [referent, at] of referents) {
          const text = `${name} @${referent} ${shortMeasure(at)}`;
          if (referent.toUpperCase().includes(wanted)) found[2].push({ r, text, at });
        }
      });
      const all = found.flat();
      return { found: all.slice(0, MOST_FOUND), more: Math.max(all.length - MOST_FOUND, 0) };
    }
  }

  // CSV, as RFC 4180 has it. NULL is an empty field.

  const csvField = (value) => {
    const text = value === null ? "" : String(value);
    return /[",\r\n]/.test(text) ? '"' + text.replace(/"/g, '""') + '"' : text;
  };
  const csv = ({ header, rows }) => [header, ...rows].map((row) => row.map(csvField).join(",") + "\n").join("");

  // Views: from one place to another, which need not be whole thousandths.

  function viewWithin(route, from, to) {
    const length = Math.min(Math.max(to - from, LEAST_VIEW), route.end - route.start);
    const start = Math.min(Math.max(from, route.start), route.end - length);
    return { from: start, to: start + length };
  }

  /** A view so many times as long; the place that is kept stays where it is. */
  function zoomed(route, view, factor, kept) {
    const length = Math.min(Math.max((view.to - view.from) * factor, LEAST_VIEW), route.end - route.start);
    const part = (kept - view.from) / (view.to - view.from);
    return viewWithin(route, kept - part * length, kept - part * length + length);
  }

  const panned = (route, view, by) => viewWithin(route, view.from + by, view.to + by);
  const wholeOf = (view) => ({ from: Math.floor(view.from + 1e-6), to: Math.ceil(view.to - 1e-6) });

  // Links: #route/from/to/at.

  const linkOf = (name, { from, to }, at) =>
    "#" + [name, measure(from), measure(to), ...(at === null ? [] : [measure(at)])].map(encodeURIComponent).join("/");

  function readLink(book, link) {
    let parts;
    try {
      parts = link.replace(/^#/, "").split("/").map(decodeURIComponent);
    } catch {
      return null;
    }
    const r = book.data.routes.findIndex(([name]) => name === parts[0]);
    if (r < 0) return null;
    const route = book.route(r), [from, to, at] = parts.slice(1).map(placeOf);
    const view = from == null || to == null || from >= to ? { from: route.start, to: route.end } : viewWithin(route, from, to);
    const isThere = at != null && at >= route.start && at <= route.end;
    return { r, view, at: isThere ? at : null };
  }

  return {
    LEAST_VIEW, MOST_LANES, Book, boundsOf, csv, escaped, firstWhere, linkOf, measure, panned, placeOf, pointBounds, readLink,
    shortMeasure, shown, viewWithin, wholeOf, zoomed,
  };
})();
