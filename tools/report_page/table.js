// The table of all entries. DataTables draws it and asks for the lines of a page; which they are is found here, over the columns.
"use strict";

const ADDRESS_SHOWN = 240;
const TYPE_SHOWN = 40;
const WORDS = {
  search: "Search",
  lengthMenu: "Show _MENU_ entries at a time",
  info: "Entries _START_ to _END_ of _TOTAL_",
  infoEmpty: "No entries",
  infoFiltered: "(of _MAX_ in all)",
  zeroRecords: "No entry fits.",
  emptyTable: "There are no entries.",
  paginate: { first: "First", last: "Last", next: "Next", previous: "Previous" },
};
let table;
// The numbers of the entries in the order in which they were sorted last, and those of them that fit.
let sorted = Uint32Array.from({ length: ALL }, (_, at) => at);
let sortedBy = "";
let found = sorted;

// ---- cells

function addressCell(at) {
  const context = contextOf(at) ? `<span class="context">${folded(contextOf(at), ADDRESS_SHOWN)}</span>` : "";
  return `<button type="button" class="opener" aria-expanded="false" aria-label="Details">▸</button>`
    + `<span class="place"><span class="address">${folded(data.address[at], ADDRESS_SHOWN, "no address")}</span>${context}`
    + `<code class="key">${folded(keyOf(at), ADDRESS_SHOWN)}</code></span>`;
}

function column(title, name, className, show, more) {
  return {
    title, name, className, orderSequence: ["desc", "asc"],
    data: (row, kind) => (kind === "display" ? show(row.at) : ""),
    createdCell: (cell) => { cell.dataset.name = title; },
    ...more,
  };
}

const UP_FIRST = { orderSequence: ["asc", "desc"] };
const COLUMNS = [
  { ...column("Address", "address", "", addressCell, UP_FIRST), createdCell: undefined },
  column("Type", "type", "kind", (at) => folded(typeOf(at), TYPE_SHOWN), UP_FIRST),
  column("Status", "status", "number", (at) => (data.status[at] ? String(data.status[at]) : "")),
  column("Size", "size", "number", (at) => inBytes(data.size[at])),
  column("Last used", "used", "moment", (at) => used(data.used[at])),
  column("Last changed", "changed", "moment", (at) => used(data.changed[at])),
  column("Expires", "expires", "moment", (at) => expires(data.expires[at])),
  column("Uses", "uses", "number", (at) => count(data.uses[at])),
];

// ---- which lines

// What a column is sorted by. An entry that never expires comes after all that do.
function sortKey(name) {
  if (name === "type") {
    const places = data.types.map((_, at) => at).sort((a, b) => (data.types[a] < data.types[b] ? -1 : 1));
    const rank = [];
    places.forEach((at, place) => { rank[at] = place; });
    return data.type.map((at) => rank[at]);
  }
  return name === "expires" ? data.expires.map((seconds) => (seconds < 0 ? Infinity : seconds)) : data[name];
}

function sortBy(name, way) {
  if (sortedBy === `${name} ${way}`) return;
  const key = sortKey(name);
  const up = name === "address" ? (a, b) => (key[a] < key[b] ? -1 : key[a] > key[b] ? 1 : a - b) : (a, b) => key[a] - key[b] || a - b;
  sorted.sort(way === "asc" ? up : (a, b) => up(b, a));
  sortedBy = `${name} ${way}`;
}

function giveLines(request, give) {
  const [{ column: at, dir }] = request.order;
  sortBy(COLUMNS[at].name, dir);
  found = fitting(sorted);
  const lines = Array.from(found.slice(request.start, request.start + request.length), (one) => ({ at: one }));
  give({ draw: request.draw, recordsTotal: ALL, recordsFiltered: found.length, data: lines });
  const bytes = found.reduce((sum, one) => sum + data.size[one], 0);
  for (const id of ["found", "found-too"]) byId(id).textContent = `${count(found.length)} of ${count(ALL)} entries, ${inBytes(bytes)}`;
}

// ---- the table itself

function roles(element) {
  const wrapper = element.closest(".dataTables_wrapper");
  wrapper.querySelectorAll(".paginate_button").forEach((one) => one.setAttribute("role", "button"));
  wrapper.querySelector(".paginate_button.current")?.setAttribute("aria-current", "page");
}

function showTable(element, columns, more) {
  return $(element).DataTable({
    columns, autoWidth: false, orderClasses: false, pageLength: 25, lengthMenu: [10, 25, 50, 100], language: WORDS,
    pagingType: "simple_numbers", drawCallback: () => roles(element), ...more,
  });
}

// A click on a line opens it, but one on what is in it that does something by itself.
async function openLine(event) {
  const line = event.target.closest("tr");
  const opener = line?.querySelector(".opener");
  const isOther = event.target.closest("button, summary, a, details") && !event.target.closest(".opener");
  if (!opener || isOther || String(getSelection())) return;
  const row = table.row(line);
  const isOpen = row.child.isShown();
  opener.setAttribute("aria-expanded", String(!isOpen));
  if (isOpen) row.child.hide();
  else row.child(await details(row.data().at), "child").show();
}

// On a narrow screen the columns have no heads, so the order is chosen from a list.
function offerOrders() {
  const select = byId("sort");
  const text = { asc: "A to Z", desc: "Z to A" };
  const amount = { asc: "smallest first", desc: "largest first" };
  const time = { asc: "earliest first", desc: "latest first" };
  const says = { address: text, type: text, used: time, changed: time, expires: time };
  COLUMNS.forEach(({ title, name, orderSequence }, at) => {
    for (const way of orderSequence) {
      const option = made("option", `${title}, ${(says[name] ?? amount)[way]}`);
      option.value = `${at} ${way}`;
      select.append(option);
    }
  });
  const tell = () => { select.value = table.order()[0].join(" "); };
  select.addEventListener("change", () => {
    const [at, way] = select.value.split(" ");
    table.order([Number(at), way]).draw();
  });
  table.on("order", tell);
  tell();
}

function showEntries() {
  const element = byId("table");
  table = showTable(element, COLUMNS, {
    serverSide: true, ajax: giveLines, order: [[COLUMNS.findIndex(({ name }) => name === "size"), "desc"]], searching: false,
  });
  element.addEventListener("click", openLine);
  byId("words").addEventListener("input", () => { words = byId("words").value; filtersChanged(); });
  followers.push(() => {
    if (byId("words").value !== words) byId("words").value = words;
    table.draw();
  });
  offerOrders();
}

// ---- the table as a file

const HEADS = ["size", "type", "status", "used", "url", "partition", "name", "key"];
// A spreadsheet takes a cell that begins so for a formula.
const csvCell = (text) => {
  const safe = /^[=+\-@]/.test(text) ? `'${text}` : text;
  return /[",\r\n]/.test(safe) ? `"${safe.replaceAll('"', '""')}"` : safe;
};

async function csv() {
  const lines = [HEADS.join(",")];
  for (const at of found) {
    const { name } = await detailsOf(at);
    lines.push([String(data.size[at]), typeOf(at), String(data.status[at] || ""), inSeconds(data.used[at]), data.address[at], contextOf(at),
      name, keyOf(at)].map(csvCell).join(","));
  }
  return `${lines.join("\n")}\n`;
}

async function saveCsv() {
  const link = made("a");
  link.href = URL.createObjectURL(new Blob([await csv()], { type: "text/csv" }));
  link.download = "entries.csv";
  link.click();
  setTimeout(() => URL.revokeObjectURL(link.href), 60000);
}
