// Which entries the table has: those that fit each filter. The filters stand in the address of the page, so that it can be kept.
"use strict";

const FILTERS = {
  host: ["Site", hostOf],
  part: ["Of it", partOf],
  type: ["Type", typeOf],
  age: ["Last used", ageOf],
  size: ["Size", sizeOf],
};
const filters = new Map();
let words = "";
const followers = [];

const isOn = ([kind, value]) => filters.get(kind) === value;

// A filter that is on already goes off.
function toggle(pairs) {
  const isOff = !pairs.every(isOn);
  // What tells the entries of one host apart goes with the host.
  if (pairs.some(([kind]) => kind === "host")) filters.delete("part");
  for (const [kind, value] of pairs) {
    if (isOff) filters.set(kind, value);
    else filters.delete(kind);
  }
  filtersChanged();
}

function clearFilters() {
  filters.clear();
  words = "";
  filtersChanged();
}

function filtersChanged() {
  showFilters();
  followers.forEach((follow) => follow());
  keepFilters();
}

// Each word has to stand in the key of an entry, in what is said of its key, or in its type.
function fitsWords() {
  const wanted = words.toLowerCase().split(/\s+/).filter(Boolean);
  const prefixes = data.prefixes.map(([prefix]) => prefix.toLowerCase());
  const contexts = data.prefixes.map(([, context]) => ` ${context} `.toLowerCase());
  const types = data.types.map((type) => type.toLowerCase());
  return (at) => {
    const text = prefixes[data.prefix[at]] + data.address[at].toLowerCase() + contexts[data.prefix[at]] + types[data.type[at]];
    return wanted.every((word) => text.includes(word));
  };
}

// The entries of a list that fit, in its order.
function fitting(list) {
  const tests = [...filters].map(([kind, value]) => (at) => FILTERS[kind][1](at) === value);
  if (words.trim()) tests.push(fitsWords());
  return tests.length ? list.filter((at) => tests.every((fits) => fits(at))) : list;
}

// ---- in the page and in its address

function chip(label, value, act) {
  const element = button(`${label}: ${cut(value, 60)}`, act, "chip");
  element.append(made("span", " ✕"));
  element.setAttribute("aria-label", `Remove the filter ${label}: ${value}`);
  return element;
}

function showFilters() {
  const chips = [...filters].map(([kind, value]) => chip(FILTERS[kind][0], value, () => toggle([[kind, value]])));
  if (words.trim()) {
    chips.push(chip("Words", words.trim(), () => { words = ""; filtersChanged(); }));
  }
  byId("filters").hidden = !chips.length;
  byId("chips").replaceChildren(...chips);
}

function keepFilters() {
  const told = new URLSearchParams([...filters]);
  if (words.trim()) told.set("words", words);
  const wanted = `#${told}`;
  if (wanted !== (location.hash || "#")) history.replaceState(null, "", wanted);
}

function readFilters() {
  const told = new URLSearchParams(location.hash.slice(1));
  filters.clear();
  for (const kind of Object.keys(FILTERS)) if (told.has(kind)) filters.set(kind, told.get(kind));
  words = told.get("words") ?? "";
  filtersChanged();
}
