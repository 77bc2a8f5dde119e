// The page in a browser: it shows what is chosen, and takes keys, the mouse and fingers.
"use strict";

(() => {
  const { csv, escaped, linkOf, measure, panned, placeOf, readLink, shown, viewWithin, wholeOf, zoomed } = roadseg;
  const SNAP = 4, MARK = 5, CLICK = 4; // pixels
  const MOST_ROWS = 200, MOST_HELD = 30, MOST_ENTRIES = 60; // in the table, of a band at the cross, and in its legend
  const PAPER = 1030; // the width of the picture on paper, landscape
  const STEP = 0.01, FAR = 0.8, ZOOM = 1.5;
  const LATER = 150; // milliseconds until what may wait is shown

  const find = (id) => document.getElementById(id);
  const data = JSON.parse(find("data").textContent);
  const book = new roadseg.Book(data);
  const state = { r: 0, view: { from: 0, to: 1 }, at: null, hidden: new Set(), by: data.bands.map((band) => band.by) };
  let picture = null, isKept = false, isPrinting = false, isDue = false, later = 0;

  const route = () => book.route(state.r);

  // What is shown.

  function show() {
    isDue = false;
    const width = isPrinting ? PAPER : find("diagram").clientWidth;
    picture = new drawing.Picture(book, { ...state, printed: isPrinting ? state.at : null }, Math.max(width, 260)).draw();
    find("picture").innerHTML = picture.svg();
    const { from, to } = wholeOf(state.view), part = `${measure(from)} to ${measure(to)}${data.unit ? " " + data.unit : ""}`;
    find("heading").textContent = `${route().name}, ${part}`;
    find("diagram").setAttribute("aria-label", `${route().name}, ${part}`);
    if (document.activeElement !== find("from")) find("from").value = measure(from);
    if (document.activeElement !== find("to")) find("to").value = measure(to);
    find("notes").textContent = picture.notes();
    showCross();
    clearTimeout(later);
    later = setTimeout(showRest, LATER);
  }

  function due() {
    if (!isDue) requestAnimationFrame(show);
    isDue = true;
  }

  function showRest() {
    showTable();
    const link = linkOf(route().name, wholeOf(state.view), isKept ? state.at : null);
    try {
      history.replaceState(null, "", link);
    } catch {
      // a browser that keeps the address of a file as it is
    }
  }

  // The cross, and what holds there.

  function showCross() {
    const cross = find("cross"), { at, view } = state;
    const isSeen = at !== null && at >= view.from && at <= view.to;
    cross.hidden = !isSeen || isPrinting;
    find("here").classList.toggle("empty", at === null);
    if (isSeen) {
      const x = picture.x(at);
      cross.style.left = x - 1 + "px";
      cross.classList.toggle("left", x > picture.right - 90);
      find("crossed").textContent = measure(at);
    }
    showHeld();
  }

  const reach = () => Math.floor(((state.view.to - state.view.from) / (picture.right - picture.left)) * MARK);

  function held() {
    return data.bands.map((band, b) => ({ band, b, rows: state.hidden.has(b) ? [] : book.rowsAt(b, state.r, state.at, reach()) }));
  }

  const placesOf = (rows, i) => (rows.isLine ? `${measure(rows.starts[i])} to ${measure(rows.ends[i])}` : measure(rows.starts[i]));

  function showHeld() {
    if (state.at === null) {
      find("place").textContent = "Point at the diagram, or move the cross by the arrow keys";
      find("holds").innerHTML = "";
      return;
    }
    const place = `${route().name} at ${measure(state.at)} (${book.relative(state.r, state.at)})`;
    find("place").innerHTML = escaped(place) + (isKept ? '<span class="state">, kept</span>' : "");
    const items = held().flatMap(({ band, b, rows }) => {
      const all = book.rows(b, state.r), told = rows.slice(0, MOST_HELD).map((i) => {
        const values = book.values(b, state.r, i).map(shown).join(", ");
        const mark = drawing.swatch(data, book.styles(b, state.r, state.by[b])(i), all.isLine);
        const words = `<b>${escaped(band.title)}</b> ${escaped(values)} <span class="where">${placesOf(all, i)}</span>`;
        return `<li>${mark}<span>${words}</span></li>`;
      });
      const more = rows.length - told.length;
      return more > 0 ? [...told, `<li>and ${more} more of ${escaped(band.title)}</li>`] : told;
    });
    find("holds").innerHTML = items.join("") || "<li>Nothing holds here.</li>";
  }

  function speak() {
    const told = held().flatMap(({ band, b, rows }) =>
      rows.slice(0, 5).map((i) => `${band.title} ${book.values(b, state.r, i).map(shown).join(", ")}`),
    );
    find("spoken").textContent = `At ${measure(state.at)}: ${told.join("; ") || "nothing"}`;
  }

  function cross(at, keep = isKept) {
    const { start, end } = route();
    state.at = at === null ? null : Math.min(Math.max(at, start), end);
    isKept = at !== null && keep;
    showCross();
    clearTimeout(later);
    later = setTimeout(showRest, LATER);
  }

  /** The place under the pointer: that of what begins, ends or is there, where it is near. */
  function placeAt(x) {
    const exact = picture.place(x), near = ((state.view.to - state.view.from) / (picture.right - picture.left)) * SNAP;
    const place = Math.floor(exact);
    if (near <= 1) return place;
    const around = [book.change(state.r, place + 1, -1, state.hidden), book.change(state.r, place, 1, state.hidden)];
    const [best] = around.sort((one, other) => Math.abs(one - exact) - Math.abs(other - exact));
    return Math.abs(best - exact) <= near ? best : place;
  }

  // The view.

  function look(view) {
    state.view = view;
    due();
  }

  const middle = () => {
    const { from, to } = state.view;
    return state.at !== null && state.at >= from && state.at <= to ? state.at : (from + to) / 2;
  };

  const DO = {
    back: () => look(panned(route(), state.view, -FAR * (state.view.to - state.view.from))),
    on: () => look(panned(route(), state.view, FAR * (state.view.to - state.view.from))),
    in: () => look(zoomed(route(), state.view, 1 / ZOOM, middle())),
    out: () => look(zoomed(route(), state.view, ZOOM, middle())),
    whole: () => look({ from: route().start, to: route().end }),
  };

  /** Brings the cross to a place, and the view with it. */
  function goTo(place) {
    cross(place, true);
    const { from, to } = state.view;
    if (state.at < from || state.at > to) look(viewWithin(route(), state.at - (to - from) / 2, state.at + (to - from) / 2));
    speak();
  }

  function choose(r, at = null) {
    state.r = r;
    state.view = { from: route().start, to: route().end };
    state.at = null;
    isKept = false;
    showLegend();
    show();
    if (at !== null) goTo(at);
  }

  // Routes.

  function showRoutes() {
    const { found, more } = book.search(find("search").value), box = find("routes");
    box.innerHTML = found.map(({ r, text, at }) => `<option value="${r}/${at === null ? "" : at}">${escaped(text)}</option>`).join("");
    const own = found.findIndex(({ r, at }) => r === state.r && at === null);
    box.selectedIndex = own;
    const count = found.length + more;
    find("found").textContent = `${count} found${more ? `, the first ${found.length} are here` : ""}`;
  }

  function chooseOption() {
    if (find("routes").selectedIndex < 0) return;
    const [r, at] = find("routes").value.split("/");
    choose(Number(r), at === "" ? null : Number(at));
  }

  // Bands and colours.

  function showLegend() {
    find("entries").innerHTML = data.bands.map(legendOf).join("") || "<p>No tables are defined.</p>";
  }

  function legendOf(band, b) {
    const options = band.columns.map(({ name }, k) => {
      return `<option value="${k}"${k === state.by[b] ? " selected" : ""}>${escaped(name)}</option>`;
    });
    const chosen = state.by[b] < 0 ? "" : `<span class="printed">${escaped(band.columns[state.by[b]].name)}</span>`;
    const choice = `<select data-by="${b}" aria-label="Colours of ${escaped(band.title)} by">${options.join("")}</select>`;
    const by = options.length > 1 ? `<label>by ${choice}${chosen}</label>` : "";
    const entries = book.legend(b, state.r, state.by[b]).map(([text, style]) =>
      `<span class="value">${drawing.swatch(data, style, band.kind === "LINE")}${escaped(drawing.shortened(text, 260))}</span>`,
    );
    const [checked, off] = state.hidden.has(b) ? ["", " off"] : [" checked", ""];
    const query = band.query === band.title ? "" : `<span class="query">${escaped(band.query)}</span>`;
    const name = `<label class="name"><input type="checkbox" data-band="${b}"${checked}> ${escaped(band.title)}</label>`;
    const more = entries.length > MOST_ENTRIES ? `<span>and ${entries.length - MOST_ENTRIES} more</span>` : "";
    const told = [by, ...entries.slice(0, MOST_ENTRIES), more, query].join("");
    return `<div class="entry${off}">${name}<div class="told">${told}</div></div>`;
  }

  // Rows in view.

  function inView(most) {
    const { from, to } = wholeOf(state.view);
    return book.table(Number(find("band").value), state.r, from, to, most);
  }

  function showTable() {
    if (!data.bands.length) return;
    const { header, rows, count } = inView(MOST_ROWS);
    const isNumber = header.map((_, k) => rows.length > 0 && rows.every((row) => row[k] === null || /^-?[\d.]+$/.test(row[k])));
    const kind = (k, value) => ` class="${isNumber[k] ? "number" : ""}${value === null ? " null" : ""}"`;
    const head = header.map((name, k) => `<th scope="col"${kind(k, "")}>${escaped(name)}</th>`).join("");
    const body = rows.map((row) => `<tr>${row.map((value, k) => `<td${kind(k, value)}>${escaped(shown(value))}</td>`).join("")}</tr>`);
    const { from, to } = wholeOf(state.view), { title } = data.bands[Number(find("band").value)];
    const caption = `<caption>${escaped(title)}, ${escaped(route().name)} from ${measure(from)} to ${measure(to)}</caption>`;
    find("table").innerHTML = `${caption}<thead><tr>${head}</tr></thead><tbody>${body.join("")}</tbody>`;
    const told = `${count} row${count === 1 ? "" : "s"} in view, cut at its ends`;
    find("more").textContent = count > MOST_ROWS ? `${told}; the first ${MOST_ROWS} are shown, and all are copied` : told;
  }

  async function copy() {
    const table = inView(), text = csv(table);
    try {
      await navigator.clipboard.writeText(text);
    } catch {
      const area = document.body.appendChild(document.createElement("textarea"));
      area.value = text;
      area.select();
      document.execCommand("copy");
      area.remove();
    }
    find("copied").textContent = `${table.count} rows are copied`;
  }

  function save() {
    const link = document.createElement("a");
    link.href = URL.createObjectURL(new Blob([csv(inView())], { type: "text/csv" }));
    link.download = `${route().name}-${data.bands[Number(find("band").value)].title.replace(/[^\w-]+/g, "_")}.csv`;
    link.click();
    setTimeout(() => URL.revokeObjectURL(link.href), 1000);
  }

  // Keys.

  const step = (event) => (event.ctrlKey ? 1 : Math.max(1, Math.round((state.view.to - state.view.from) * STEP)));
  const start = () => (state.at === null ? Math.round(middle()) : state.at);
  const along = (event, way) => (event.shiftKey ? DO[way < 0 ? "back" : "on"]() : goTo(start() + way * step(event)));

  const KEYS = {
    ArrowLeft: (event) => along(event, -1),
    ArrowRight: (event) => along(event, 1),
    PageUp: DO.back,
    PageDown: DO.on,
    Home: () => goTo(wholeOf(state.view).from),
    End: () => goTo(wholeOf(state.view).to),
    "+": DO.in,
    "=": DO.in,
    "-": DO.out,
    0: DO.whole,
    n: () => goTo(book.change(state.r, start(), 1, state.hidden)),
    p: () => goTo(book.change(state.r, start(), -1, state.hidden)),
    Escape: () => cross(null),
  };

  function press(event) {
    const key = event.key.length === 1 ? event.key.toLowerCase() : event.key;
    if (!KEYS[key] || event.altKey || event.metaKey || (event.ctrlKey && !key.startsWith("Arrow"))) return;
    event.preventDefault();
    KEYS[key](event);
  }

  // The mouse and fingers.

  const pointers = new Map();
  let pressed = null; // where one went down, and whether it has moved since

  const xOf = (event) => event.clientX - find("picture").getBoundingClientRect().left;
  const spread = () => {
    const [one, other] = [...pointers.values()];
    return { x: (one + other) / 2, apart: Math.max(Math.abs(one - other), 10) };
  };

  function down(event) {
    if (event.button > 0) return;
    pointers.set(event.pointerId, xOf(event));
    pressed = { x: xOf(event), view: state.view, hasMoved: pointers.size > 1, ...(pointers.size === 2 ? { spread: spread() } : {}) };
    try {
      find("diagram").setPointerCapture(event.pointerId);
    } catch {
      // a pointer that is gone already
    }
  }

  function move(event) {
    const x = xOf(event);
    if (!pointers.has(event.pointerId)) {
      if (event.pointerType === "mouse" && !isKept) cross(placeAt(x));
      return;
    }
    pointers.set(event.pointerId, x);
    const perPixel = (pressed.view.to - pressed.view.from) / (picture.right - picture.left);
    if (pressed.spread && pointers.size === 2) {
      const now = spread(), kept = pressed.view.from + (pressed.spread.x - picture.left) * perPixel;
      const view = zoomed(route(), pressed.view, pressed.spread.apart / now.apart, kept);
      look(panned(route(), view, ((pressed.spread.x - now.x) * (view.to - view.from)) / (picture.right - picture.left)));
    } else if (!pressed.spread && (pressed.hasMoved || Math.abs(x - pressed.x) > CLICK)) {
      pressed.hasMoved = true;
      find("diagram").classList.add("dragged");
      look(panned(route(), pressed.view, (pressed.x - x) * perPixel));
    }
  }

  function up(event) {
    const isClick = pointers.has(event.pointerId) && pressed && !pressed.hasMoved && event.type === "pointerup";
    pointers.delete(event.pointerId);
    find("diagram").classList.remove("dragged");
    if (!isClick) return;
    const place = placeAt(xOf(event)), isSame = isKept && Math.abs(picture.x(state.at) - xOf(event)) <= 2 * SNAP;
    cross(place, !isSame);
    if (!isSame) speak();
  }

  function wheel(event) {
    event.preventDefault();
    const length = state.view.to - state.view.from;
    const unit = (event.deltaMode ? 16 : 1) * (event.ctrlKey ? 6 : 1); // with Control it is two fingers on a pad
    if (event.shiftKey || Math.abs(event.deltaX) > Math.abs(event.deltaY)) {
      look(panned(route(), state.view, ((event.deltaX || event.deltaY) * unit * length) / (picture.right - picture.left)));
    } else look(zoomed(route(), state.view, Math.exp(event.deltaY * unit * 0.0016), picture.place(xOf(event))));
  }

  // Words and buttons.

  function submit(event) {
    event.preventDefault();
    const from = placeOf(find("from").value), to = placeOf(find("to").value), { start: first, end } = route();
    const isFit = from !== null && to !== null && from < to && from >= first && to <= end;
    find("wrong").textContent = isFit ? "" : `two measures from ${measure(first)} to ${measure(end)} are wanted`;
    if (isFit) look(viewWithin(route(), from, to));
  }

  const THEMES = ["", "light", "dark"];

  function theme(name) {
    document.documentElement.dataset.theme = name;
    find("theme").textContent = name === "" ? "Theme: as the system" : `Theme: ${name}`;
    try {
      localStorage.setItem("roadseg-theme", name);
    } catch {
      // a browser that keeps nothing
    }
  }

  function nextTheme() {
    theme(THEMES[(THEMES.indexOf(document.documentElement.dataset.theme) + 1) % THEMES.length]);
  }

  function keptTheme() {
    try {
      return localStorage.getItem("roadseg-theme") || "";
    } catch {
      return "";
    }
  }

  function print(is) {
    isPrinting = is;
    show();
  }

  function follow() {
    const found = readLink(book, location.hash);
    if (!found) return false;
    state.r = found.r;
    state.view = found.view;
    state.at = found.at;
    isKept = found.at !== null;
    showLegend();
    showRoutes();
    show();
    return true;
  }

  function listen() {
    const diagram = find("diagram");
    diagram.addEventListener("keydown", press);
    diagram.addEventListener("pointerdown", down);
    diagram.addEventListener("pointermove", move);
    diagram.addEventListener("pointerup", up);
    diagram.addEventListener("pointercancel", up);
    diagram.addEventListener("pointerleave", () => !isKept && !pointers.size && cross(null));
    diagram.addEventListener("wheel", wheel, { passive: false });
    diagram.addEventListener("dblclick", (event) => look(zoomed(route(), state.view, 1 / ZOOM / ZOOM, picture.place(xOf(event)))));
    find("skip").addEventListener("click", (event) => (event.preventDefault(), diagram.focus()));
    find("view").addEventListener("submit", submit);
    find("view").addEventListener("click", (event) => DO[event.target.dataset.do]?.());
    find("search").addEventListener("input", showRoutes);
    find("search").addEventListener("keydown", (event) => {
      if (event.key === "ArrowDown") find("routes").focus();
      if (event.key !== "Enter" || !find("routes").length) return;
      find("routes").selectedIndex = 0;
      chooseOption();
    });
    find("routes").addEventListener("change", chooseOption);
    find("entries").addEventListener("change", ({ target }) => {
      if (target.dataset.by !== undefined) state.by[Number(target.dataset.by)] = Number(target.value);
      else if (target.checked) state.hidden.delete(Number(target.dataset.band));
      else state.hidden.add(Number(target.dataset.band));
      if (target.dataset.by !== undefined) showLegend();
      else target.closest(".entry").classList.toggle("off", !target.checked);
      show();
    });
    find("band").addEventListener("change", showTable);
    find("copy").addEventListener("click", copy);
    find("save").addEventListener("click", save);
    find("theme").addEventListener("click", nextTheme);
    find("print").addEventListener("click", () => window.print());
    window.addEventListener("beforeprint", () => print(true));
    window.addEventListener("afterprint", () => print(false));
    window.addEventListener("hashchange", follow);
    new ResizeObserver(due).observe(diagram);
  }

  function begin() {
    theme(keptTheme());
    find("definitions").innerHTML = drawing.definitions(data);
    find("band").innerHTML = data.bands.map((band, b) => `<option value="${b}">${escaped(band.title)}</option>`).join("");
    if (!data.routes.length) {
      find("heading").textContent = "No routes are defined";
      return;
    }
    if (!follow()) choose(book.order[0]);
    showRoutes();
    listen();
    performance.mark("shown");
  }

  begin();
})();
