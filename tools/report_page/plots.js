// The plots. A bar is a sum over entries, and a click on it or on its line in the numbers filters the table.
"use strict";

const BARS = 8;
const PARTS = 2;
const PLOTS = [
  ["sites", "By site", "Site", "What a site gave to pages of different sites is kept apart. It stands below the site.", siteBars],
  ["types", "By type of content", "Type", null, () => most(sums(typeOf), "type", "other types")],
  ["ages", "By time since the last use", "Last used", null, () => inOrder(sums(ageOf), AGES, "age")],
  ["sizes", "By size of the content", "Size", null, () => inOrder(sums(sizeOf), SIZES, "size")],
];
const charts = [];

// ---- sums

function sums(nameOf) {
  const found = new Map();
  for (let at = 0; at < ALL; at++) {
    const name = nameOf(at);
    let sum = found.get(name);
    if (!sum) found.set(name, sum = { name, many: 0, bytes: 0 });
    sum.many++;
    sum.bytes += data.size[at];
  }
  return found;
}

const ranked = (found) => [...found].sort((a, b) => b.bytes - a.bytes || b.many - a.many || (a.name < b.name ? -1 : 1));

// Those that are left over have one bar together. A single one takes no more place by its own name.
function firstOf(list, shown, others, bars) {
  const alone = list.length > shown + 1 ? shown : shown + 1;
  const made = list.slice(0, alone).flatMap(bars);
  const rest = list.slice(alone);
  if (rest.length) {
    const add = (name) => rest.reduce((sum, one) => sum + one[name], 0);
    made.push({ label: `${count(rest.length)} ${others}`, many: add("many"), bytes: add("bytes"), filter: null });
  }
  return made;
}

function most(found, kind, others) {
  return firstOf(ranked(found.values()), BARS, others, ({ name, many, bytes }) => [{ label: name, many, bytes, filter: [[kind, name]] }]);
}

function inOrder(found, bins, kind) {
  const names = bins.map(([, name]) => name);
  const more = [...found.keys()].filter((name) => !names.includes(name)).sort();
  return [...names, ...more].map((name) => ({ label: name, many: 0, bytes: 0, filter: [[kind, name]], ...found.get(name) }));
}

// The bar of each host, and below it one for each way in which its entries are kept apart, where there is more than one.
function siteBars() {
  const parts = new Map();
  for (const sum of sums((at) => `${hostOf(at)}\n${partOf(at)}`).values()) {
    const [host, part] = sum.name.split("\n");
    if (!parts.has(host)) parts.set(host, []);
    parts.get(host).push({ ...sum, name: part });
  }
  return firstOf(ranked(sums(hostOf).values()), BARS, "other sites", ({ name, many, bytes }) => {
    const own = ranked(parts.get(name));
    const bar = { label: name, many, bytes, filter: [["host", name]] };
    if (own.length === 1) return [{ ...bar, label: own[0].name === ANY_PAGE ? name : `${name}\n${own[0].name}` }];
    const below = firstOf(own, PARTS, "more ways", (one) => [{ ...one, label: `↳ ${one.name}`, filter: [["host", name], ["part", one.name]] }]);
    return [bar, ...below.map((one) => ({ ...one, label: one.filter ? one.label : `↳ ${one.label}`, isBelow: true }))];
  });
}

// ---- a plot and its numbers

const measure = () => document.querySelector("input[name=measure]:checked").value;
const colour = (name) => getComputedStyle(document.documentElement).getPropertyValue(name).trim();
const isNarrow = () => window.innerWidth < 600;
const oneLine = (label) => label.replace("\n", ", ");
// A bar of nothing is none.
const values = (bars) => bars.map((bar) => (measure() === "bytes" ? bar.bytes : bar.many) || null);
const inUnits = (value) => (measure() === "bytes" ? inBytes(value) : count(value));

function numbersTable(bars, head) {
  const table = made("table", undefined, "sums");
  const top = table.createTHead().insertRow();
  for (const [text, className] of [[head], ["Entries", "number"], ["Size", "number"]]) {
    const cell = made("th", text, className);
    cell.scope = "col";
    top.append(cell);
  }
  const body = table.createTBody();
  for (const bar of bars) {
    const row = body.insertRow();
    const cell = made("th", undefined, bar.isBelow ? "below" : "");
    cell.scope = "row";
    cell.append(bar.filter ? button(oneLine(bar.label), () => toggle(bar.filter), "link") : oneLine(bar.label));
    row.append(cell, made("td", count(bar.many), "number"), made("td", inBytes(bar.bytes), "number"));
  }
  return table;
}

function addPlot([name, title, head, note, barsOf]) {
  const bars = barsOf();
  const box = made("div", undefined, "box");
  const canvas = made("canvas");
  canvas.id = `plot-${name}`;
  canvas.setAttribute("role", "img");
  canvas.setAttribute("aria-label", `Bar chart: ${title}. The numbers stand below it.`);
  const plot = made("div", undefined, "plot");
  plot.style.height = `${bars.length * (bars.some((bar) => bar.label.includes("\n")) ? 36 : 27) + 36}px`;
  plot.append(canvas);
  const details = made("details");
  details.append(made("summary", `The numbers: ${title.toLowerCase()}`), numbersTable(bars, head));
  box.append(made("h3", title), ...(note ? [made("p", note, "note")] : []), plot, details);
  byId("plots").append(box);
  return { bars, canvas };
}

function options(bars) {
  const labels = (value) => (value === 0 ? "0" : inUnits(value).replace(".0 ", " "));
  const told = (bar) => `${inBytes(bar.bytes)}, ${count(bar.many)} entries`;
  return {
    type: "bar",
    data: { labels: bars.map((bar) => bar.label), datasets: [{ data: values(bars), minBarLength: 2, maxBarThickness: 18 }] },
    options: {
      animation: false,
      indexAxis: "y",
      maintainAspectRatio: false,
      scales: {
        x: { grid: {}, beginAtZero: true, ticks: { maxTicksLimit: isNarrow() ? 3 : 5, maxRotation: 0, precision: 0, callback: labels } },
        y: {
          grid: { display: false },
          ticks: { autoSkip: false, callback: (_, at) => bars[at].label.split("\n").map((line) => cut(line, isNarrow() ? 21 : 32)) },
        },
      },
      plugins: {
        legend: { display: false },
        tooltip: {
          callbacks: { title: ([item]) => oneLine(bars[item.dataIndex].label), label: (item) => told(bars[item.dataIndex]) },
        },
      },
    },
  };
}

// A click counts for the whole height of a bar, and on its label, too.
function addClicks({ bars, canvas }, chart) {
  const filterAt = (event) => bars[Math.round(chart.scales.y.getValueForPixel(event.offsetY))]?.filter;
  canvas.addEventListener("click", (event) => { if (filterAt(event)) toggle(filterAt(event)); });
  canvas.addEventListener("mousemove", (event) => { canvas.style.cursor = filterAt(event) ? "pointer" : "default"; });
}

// The bars of a filter that is on stand out against the others of their plot.
function coloursOf(bars) {
  const isAnyOn = bars.some((bar) => bar.filter?.every(isOn));
  const isLight = (bar) => (isAnyOn ? !bar.filter?.every(isOn) : bar.isBelow);
  return bars.map((bar) => colour(isLight(bar) ? "--bar-light" : "--bar"));
}

function drawPlots() {
  for (const { bars, chart } of charts) {
    chart.data.datasets[0].data = values(bars);
    chart.data.datasets[0].backgroundColor = coloursOf(bars);
    for (const axis of Object.values(chart.options.scales)) {
      axis.ticks.color = colour("--text");
      axis.grid.color = colour("--line");
    }
    chart.update();
  }
}

function showPlots() {
  Chart.defaults.font.family = getComputedStyle(document.body).fontFamily;
  Chart.defaults.font.size = isNarrow() ? 12 : 13;
  // A chart takes its width from its box, and boxes have theirs once all are there.
  for (const plot of PLOTS.map(addPlot)) {
    const chart = new Chart(plot.canvas, options(plot.bars));
    charts.push({ bars: plot.bars, chart });
    addClicks(plot, chart);
  }
  document.querySelectorAll("input[name=measure]").forEach((input) => input.addEventListener("change", drawPlots));
  matchMedia("(prefers-color-scheme: dark)").addEventListener("change", drawPlots);
  followers.push(drawPlots);
}
