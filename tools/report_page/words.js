// Numbers, moments and texts in words, and elements that have them. A text of an entry goes into the page as text alone.
"use strict";

const byId = (id) => document.getElementById(id);
const count = (number) => number.toLocaleString("en");
// DataTables takes what a cell is given for HTML.
const escaped = (text) => text.replace(/[&<>"']/g, (c) => `&#${c.charCodeAt(0)};`);

function inBytes(bytes) {
  if (bytes < 1000) return bytes === 1 ? "1 byte" : `${bytes} bytes`;
  let shown = bytes;
  for (const unit of ["kB", "MB", "GB", "TB"]) {
    shown /= 1000;
    if (shown < 999.5 || unit === "TB") return `${shown < 9.95 ? shown.toFixed(1) : Math.round(shown)} ${unit}`;
  }
}

const moment = (seconds) => new Date(seconds * 1000).toISOString().slice(0, 16).replace("T", " ");
const inSeconds = (seconds) => (seconds === 0 ? "" : `${new Date(seconds * 1000).toISOString().slice(0, 19)}Z`);
const used = (seconds) => (seconds === 0 ? "never" : moment(seconds));
const expires = (seconds) => (seconds < 0 ? "no date" : seconds === 0 ? "at once" : moment(seconds));

function ago(seconds, now) {
  const days = Math.floor((now - seconds) / 86400);
  if (days < 0) return "in the future";
  if (days < 1) return "less than a day ago";
  if (days < 60) return days === 1 ? "1 day ago" : `${days} days ago`;
  return days < 730 ? `${Math.floor(days / 30.44)} months ago` : `${Math.floor(days / 365.25)} years ago`;
}

function made(name, text, className) {
  const element = document.createElement(name);
  if (text !== undefined) element.textContent = text;
  if (className) element.className = className;
  return element;
}

function button(text, act, className) {
  const element = made("button", text, className);
  element.type = "button";
  element.addEventListener("click", act);
  return element;
}

// A text of which so much is shown at first, and the rest once it is asked for.
function folded(text, most, none) {
  if (!text) return `<em>${none}</em>`;
  if (text.length <= most) return escaped(text);
  return `${escaped(text.slice(0, most))}<details><summary>${count(text.length - most)} characters more</summary>`
    + `${escaped(text.slice(most))}</details>`;
}

// The middle of a long text is left out, since texts of one kind often begin in the same way.
function cut(text, most) {
  if (text.length <= most) return text;
  const front = Math.ceil((most - 1) / 2);
  return `${text.slice(0, front)}…${text.slice(text.length - (most - 1 - front))}`;
}

// A word of a shell.
const quoted = (text) => `'${text.replaceAll("'", "'\\''")}'`;
