// Answers calls of the pure part of a page's script: reads the page's path and expressions as JSON, and writes what each gives.
"use strict";

const fs = require("fs");
const { page, calls } = JSON.parse(fs.readFileSync(0, "utf8"));
const text = fs.readFileSync(page, "utf8");
const part = (id) => new RegExp(`<script id="${id}"[^>]*>([^]*?)</script>`).exec(text)[1];
const { roadseg, drawing } = new Function(part("parts") + "; return { roadseg, drawing };")();
const book = new roadseg.Book(JSON.parse(part("data")));
const state = (r, from, to) => ({
  r, view: { from, to }, hidden: new Set(), by: book.data.bands.map((band) => band.by), printed: null,
});
const picture = (r, from, to, width) => new drawing.Picture(book, state(r, from, to), width).draw();
const given = calls.map((call) => new Function("book", "roadseg", "drawing", "state", "picture", "return " + call)(book, roadseg, drawing, state, picture));
fs.writeSync(1, JSON.stringify(given.map((one) => (one === undefined ? null : one))));
