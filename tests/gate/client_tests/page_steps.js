// Runs the whole script of a page on a stand-in for a browser's document, which has as much of it as the script names and lays
// nothing out. It reads the page's path, a link and steps as JSON, and writes what each step gives.
"use strict";

const fs = require("fs");
const sent = JSON.parse(fs.readFileSync(0, "utf8"));
const page = fs.readFileSync(sent.page, "utf8");
const part = (id) => new RegExp(`<script id="${id}"[^>]*>([^]*?)</script>`).exec(page)[1];
const WIDTH = 900;

class Classes extends Set {
  toggle(name, is = !this.has(name)) {
    if (is) this.add(name);
    else this.delete(name);
  }

  remove(name) {
    this.delete(name);
  }
}

class Element {
  constructor(id) {
    Object.assign(this, { id, textContent: "", html: "", chosen: "", hidden: false, style: {}, dataset: {}, attributes: {} });
    this.listeners = {};
    this.classList = new Classes();
    this.clientWidth = WIDTH;
    this.options = [];
    this.selectedIndex = -1;
  }

  get innerHTML() {
    return this.html;
  }

  set innerHTML(html) {
    this.html = html;
    this.options = [...html.matchAll(/<option value="([^"]*)"/g)].map((one) => one[1]);
    this.selectedIndex = this.options.length ? 0 : -1;
  }

  get length() {
    return this.options.length;
  }

  get value() {
    return this.options.length ? this.options[this.selectedIndex] || "" : this.chosen;
  }

  set value(value) {
    if (this.options.length) this.selectedIndex = this.options.indexOf(value);
    else this.chosen = value;
  }

  setAttribute(name, value) {
    this.attributes[name] = value;
  }

  addEventListener(kind, call) {
    (this.listeners[kind] = this.listeners[kind] || []).push(call);
  }

  getBoundingClientRect() {
    return { left: 0, top: 0 };
  }

  setPointerCapture() {}

  focus() {
    page_document.activeElement = this;
  }

  click() {
    noted.push(this.download);
  }
}

const elements = new Map(), noted = [], waiting = [], copied = [];
const page_document = {
  activeElement: null,
  documentElement: new Element("html"),
  getElementById: (id) => elements.get(id) || elements.set(id, new Element(id)).get(id),
  createElement: (name) => new Element(name),
};
const page_window = new Element("window");
const page_location = { hash: sent.link };
const find = page_document.getElementById;
find("data").textContent = part("data");

const given = {
  document: page_document,
  window: page_window,
  location: page_location,
  history: { replaceState: (_state, _title, link) => (page_location.hash = link) },
  navigator: { clipboard: { writeText: async (text) => copied.push(text) } },
  localStorage: { getItem: () => null, setItem: (_name, value) => noted.push(value) },
  requestAnimationFrame: (call) => waiting.push(call),
  setTimeout: (call) => waiting.push(call),
  clearTimeout: (number) => (waiting[number - 1] = null),
  ResizeObserver: class {
    observe() {}
  },
};

// What steps are made of.

const settle = () => {
  while (waiting.some((call) => call)) waiting.splice(0).forEach((call) => call && call());
};

function fire(id, kind, event = {}) {
  const element = id === "window" ? page_window : find(id), whole = { preventDefault() {}, target: element, button: 0, pointerId: 1, ...event };
  for (const call of element.listeners[kind] || []) call(whole);
  settle();
}

const key = (name, more = {}) => fire("diagram", "keydown", { key: name, ...more });
const pointer = (kind, x, more = {}) => fire("diagram", "pointer" + kind, { type: "pointer" + kind, clientX: x, pointerType: "mouse", ...more });
const click = (x) => ["down", "up"].forEach((kind) => pointer(kind, x));
const view = () => ["from", "to"].map((id) => Number(find(id).value));
const text = (id) => (find(id).html || find(id).textContent).replace(/<[^>]*>/g, "");
const inside = (html) => html.replace(/<[^>]*>/g, "").replace(/&#39;/g, "'").replace(/&lt;/g, "<").replace(/&gt;/g, ">").replace(/&amp;/g, "&");
const listed = (id, tag) => [...find(id).html.matchAll(new RegExp(`<${tag}[^>]*>([^]*?)</${tag}>`, "g"))].map((one) => inside(one[1]));

/** Where a place is in the picture, by its axis. */
function xOf(place) {
  const [, left, right] = /class="axis" d="M([\d.]+),[\d.]+ ([\d.]+)/.exec(find("picture").html).map(Number), [from, to] = view();
  return left + ((place - from) / (to - from)) * (right - left);
}

new Function(...Object.keys(given), part("parts") + part("script"))(...Object.values(given));
settle();
const steps = { fire, key, pointer, click, view, text, listed, xOf, settle, find, noted, copied, location: page_location };
(async () => {
  const found = [];
  for (const step of sent.steps) {
    found.push(new Function(...Object.keys(steps), "return " + step)(...Object.values(steps)));
    await null; // for what is copied
    await null;
    settle();
  }
  fs.writeSync(1, JSON.stringify(found.map((one) => (one === undefined ? null : one))));
})();
