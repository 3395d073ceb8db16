// What a line of the table has once it is opened.
"use strict";

// The bytes that a key is shown for as text, or null where they are not all part of it.
const exact = (shown) => (/\\x/.test(shown.replaceAll("\\\\", "")) ? null : shown.replaceAll("\\\\", "\\"));

// The lines of a shell that write the body of an entry to a file.
function commandsFor(at, told) {
  const source = data.folder === null ? "-" : quoted(data.folder);
  const commands = [`tools/extract ${source} body --name ${told.name}${data.folder === null ? " <dump" : ""}`];
  const key = exact(keyOf(at));
  if (key !== null && told.version <= 3) {
    const folder = data.folder === null ? "FOLDER" : source;
    commands.push(`./cache2 ${folder} "$(date +%s)" main ${quoted(key)} | tools/body-of >body`);
  }
  return commands;
}

function previewOf(told) {
  const image = made("img", undefined, "preview");
  image.src = told.preview;
  image.alt = "The content of this entry";
  return image;
}

function factsOf(at, told) {
  const alternative = data.size[at] - told.main;
  const facts = [
    ["File", made("code", `entries/${told.name}`)],
    ["Key", made("code", keyOf(at), "own-key")],
    ["Request", told.method || "not told"],
    ["Status", data.status[at] ? String(data.status[at]) : "not told"],
    ["Size", alternative ? `${count(told.main)} bytes, and ${count(alternative)} of ${told.kind}` : `${count(told.main)} bytes`],
    ["Last used", used(data.used[at])],
    ["Last changed", used(data.changed[at])],
    ["Expires", expires(data.expires[at])],
    ["Uses", count(data.uses[at])],
  ];
  if (told.pinned) facts.push(["Pinned", "it is never evicted"]);
  const encoding = told.headers.find((line) => /^content-encoding\s*:/i.test(line));
  if (encoding) facts.push(["Packed by", encoding.replace(/^[^:]*:\s*/, "")]);
  for (const says of findingsOf(at)) facts.push(["Problem", made("span", says, "warning")]);
  return facts;
}

const findingsOf = (at) => (data.findings ?? []).filter(([other]) => other === at).map(([, says]) => says);

async function details(at) {
  const told = await detailsOf(at);
  const box = made("div", undefined, "opened");
  const list = made("dl");
  for (const [name, fact] of factsOf(at, told)) {
    const value = made("dd");
    value.append(fact);
    list.append(made("dt", name), value);
  }
  box.append(list);
  if (told.preview) box.append(previewOf(told));
  box.append(made("h4", "Headers of the response"), made("pre", told.headers.join("\n") || "none"));
  box.append(made("h4", "Its body as a file"), made("pre", commandsFor(at, told).join("\n"), "commands"));
  return box;
}
