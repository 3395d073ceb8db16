// The entries: a column for each thing that is told of them, and their names and headers in blocks that are unpacked when asked for.
"use strict";

const data = JSON.parse(byId("data").textContent);
byId("data").textContent = "";
const ALL = data.address.length;

const prefixOf = (at) => data.prefixes[data.prefix[at]][0];
const contextOf = (at) => data.prefixes[data.prefix[at]][1];
const hostOf = (at) => data.sites[data.site[at]][0];
const typeOf = (at) => data.types[data.type[at]];
const keyOf = (at) => prefixOf(at) + data.address[at];

const ANY_PAGE = "for any page";

// What tells the entries of one host apart: scheme and port of their addresses, and for which pages they are kept.
function partOf(at) {
  const [host, place] = data.sites[data.site[at]];
  return [place === host ? "" : place, contextOf(at) || ANY_PAGE].filter(Boolean).join(", ");
}

const AGES = [[1, "up to 1 day"], [7, "1 to 7 days"], [30, "7 to 30 days"], [90, "30 to 90 days"], [365, "90 days to 1 year"],
  [Infinity, "more than 1 year"]];
const SIZES = [[0, "empty"], [1e3, "up to 1 kB"], [1e4, "1 to 10 kB"], [1e5, "10 to 100 kB"], [1e6, "100 kB to 1 MB"],
  [1e7, "1 to 10 MB"], [Infinity, "more than 10 MB"]];
const binOf = (bins, value) => bins.find(([end]) => value <= end)[1];
const sizeOf = (at) => binOf(SIZES, data.size[at]);

function ageOf(at) {
  const seconds = data.used[at];
  if (seconds === 0) return "never used";
  return seconds > data.made ? "in the future" : binOf(AGES, (data.made - seconds) / 86400);
}

// ---- what opens with a line

const blocks = new Map();

async function unpacked(number) {
  const packed = Uint8Array.from(atob(byId(`block-${number}`).textContent), (c) => c.charCodeAt(0));
  const stream = new Blob([packed]).stream().pipeThrough(new DecompressionStream("deflate"));
  return new Response(stream).json();
}

async function detailsOf(at) {
  const number = Math.floor(at / data.block);
  if (!blocks.has(number)) {
    // Of the blocks that were asked for the last ones are kept.
    if (blocks.size > 20) blocks.delete(blocks.keys().next().value);
    blocks.set(number, unpacked(number));
  }
  const [name, version, method, main, kind, pinned, headers, preview] = (await blocks.get(number))[at % data.block];
  return { name, version, method, main, kind, pinned, headers, preview };
}
