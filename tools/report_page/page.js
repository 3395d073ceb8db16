// Puts the parts of the page together.
"use strict";

function showSums() {
  const bytes = data.size.reduce((sum, one) => sum + one, 0);
  const moments = data.used.filter((seconds) => seconds > 0);
  const hosts = new Set(data.sites.map(([host]) => host));
  const sums = [["Entries", count(ALL)], ["Their content", inBytes(bytes)], ["Sites", count(hosts.size)]];
  if (moments.length) {
    const [first, last] = moments.reduce(([least, greatest], one) => [Math.min(least, one), Math.max(greatest, one)], [Infinity, 0]);
    sums.push(["Earliest last use", moment(first).slice(0, 10)], ["Latest use", moment(last).slice(0, 10)]);
  }
  for (const [name, value] of sums) {
    const card = made("div");
    card.append(made("dt", name), made("dd", value));
    byId("sums").append(card);
  }
  byId("made").textContent = moment(data.made);
  byId("made").dateTime = new Date(data.made * 1000).toISOString();
  if (data.previews) byId("content").textContent = `It holds none of their content but ${count(data.previews)} small images`;
}

// ---- the largest and the oldest

function addressElement(at) {
  const span = made("span");
  span.append(made("span", cut(data.address[at], ADDRESS_SHOWN) || "no address", "address"));
  if (contextOf(at)) span.append(made("span", contextOf(at), "context"));
  return span;
}

function showFirst(id, before, figure) {
  const first = [];
  for (let at = 0; at < ALL; at++) {
    if (first.length < 10 || before(at, first[9])) {
      const place = first.findIndex((other) => before(at, other));
      first.splice(place < 0 ? first.length : place, 0, at);
      first.length = Math.min(first.length, 10);
    }
  }
  for (const at of first) {
    const item = made("li");
    item.append(made("span", figure(at), "figure"), " ", addressElement(at));
    byId(id).append(item);
  }
}

// ---- what was found, and what is not here

function showPairs(id, pairs, heads, named, one) {
  const isLong = pairs.length > 10;
  const columns = [
    { title: heads[0], type: "string", data: (pair, kind) => (kind === "display" ? named(pair[0]) : escaped(pair[0])) },
    {
      title: heads[1], type: "string",
      data: (pair) => escaped(pair[1]),
      createdCell: (cell) => { cell.dataset.name = heads[1]; },
    },
  ];
  const language = {
    ...WORDS, lengthMenu: `Show _MENU_ ${one}s at a time`, info: `${heads[1]}s _START_ to _END_ of _TOTAL_`, infoEmpty: `No ${one}s`,
    zeroRecords: `No ${one} has these words.`,
  };
  showTable(byId(id), columns, { data: pairs, order: [[0, "asc"]], deferRender: true, paging: isLong, searching: isLong, info: isLong, language });
}

function showFindings() {
  if (!data.findings) return;
  byId("findings").hidden = false;
  byId(data.findings.length ? "findings-some" : "findings-none").hidden = false;
  if (!data.findings.length) return;
  const withKeys = data.findings.map(([entry, says]) => [typeof entry === "number" ? keyOf(entry) : entry, says]);
  showPairs("findings-table", withKeys, ["Entry", "Problem"], (key) => `<code>${folded(key, ADDRESS_SHOWN)}</code>`, "problem");
}

function showLeftOut() {
  const isKnown = data.leftOut !== null;
  byId("left-out-unknown").hidden = isKnown;
  if (!isKnown) return;
  byId(data.leftOut.length ? "left-out-some" : "left-out-none").hidden = false;
  if (!data.leftOut.length) return;
  byId("left-out-count").textContent = data.leftOut.length === 1 ? "1 file" : `${count(data.leftOut.length)} files`;
  showPairs("left-out-table", data.leftOut, ["File", "Reason"], (name) => `<code>${escaped(name)}</code>`, "file");
}

// ---- all of it

function listen() {
  byId("clear").addEventListener("click", clearFilters);
  byId("csv").addEventListener("click", saveCsv);
  byId("keys").addEventListener("change", (event) => document.body.classList.toggle("with-keys", event.target.checked));
  // These lead to a place of the page and leave its address alone, in which the filters are.
  document.querySelectorAll(".to-table").forEach((link) => link.addEventListener("click", (event) => {
    event.preventDefault();
    byId("all").scrollIntoView();
    byId("all").focus({ preventScroll: true });
  }));
  window.addEventListener("hashchange", readFilters);
}

showSums();
showPlots();
showFirst("largest", (a, b) => data.size[a] > data.size[b], (at) => inBytes(data.size[at]));
showFirst("oldest", (a, b) => data.used[a] < data.used[b], (at) => (data.used[at] === 0 ? "never used" : ago(data.used[at], data.made)));
showEntries();
listen();
readFilters();
showFindings();
showLeftOut();
document.documentElement.dataset.ready = String(Math.round(performance.now()));
