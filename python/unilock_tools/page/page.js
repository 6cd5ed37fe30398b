"use strict";
// The page of a lock. All texts of the lock are put in as text, never as markup.
const data = JSON.parse(document.getElementById("data").textContent);
const page = document.getElementById("page");

function element(name, properties, ...children) {
  const made = document.createElement(name);
  for (const [key, value] of Object.entries(properties || {})) {
    if (key.startsWith("on")) made.addEventListener(key.slice(2), value);
    else if (key === "class") made.className = value;
    else made.setAttribute(key, value);
  }
  made.append(...children.filter((child) => child !== null && child !== undefined));
  return made;
}

function drawn(name, properties, ...children) {
  const made = document.createElementNS("http://www.w3.org/2000/svg", name);
  for (const [key, value] of Object.entries(properties || {})) {
    if (key.startsWith("on")) made.addEventListener(key.slice(2), value);
    else made.setAttribute(key, value);
  }
  made.append(...children);
  return made;
}

const title = (thing) => `${thing.name} ${thing.version}`;
const packages = new Map(data.packages.map((one) => [title(one), one]));
const users = new Map(data.packages.map((one) => [title(one), []]));
for (const one of data.packages)
  for (const edge of one.edges) {
    const known = users.get(title(edge));
    if (known) known.push({ from: one, edge });
  }

// A shortest way from the root, which says why a package is there.
function way(one) {
  const steps = [];
  for (let at = one; at; at = packages.get(at.before)) steps.unshift(title(at));
  return steps;
}

let chosen = data.packages.find((one) => title(one) === data.root) || data.packages[0];

// ---- one package

function link(name) {
  return element("button", { class: "link", type: "button", onclick: () => choose(packages.get(name)) }, name);
}

function place(edge) {
  const words = [edge.where || "everywhere"];
  if (edge.for) words.push(`for its extra ${edge.for}`);
  return element("td", { title: edge.marker }, words.join("; "));
}

function edgeTable(head, rows) {
  if (!rows.length) return null;
  return element("div", {}, element("h2", {}, head), element("div", { class: "scroll" }, element("table", {}, element("tbody", {}, ...rows))));
}

function details() {
  const one = chosen;
  const needs = one.edges.map((edge) =>
    element("tr", {}, element("td", {}, link(title(edge)), edge.of ? ` [${edge.of}]` : ""), place(edge)));
  const needed = users.get(title(one)).map(({ from, edge }) =>
    element("tr", {}, element("td", {}, link(title(from))), place(edge)));
  const files = one.files.map((file) =>
    element("tr", {}, element("td", {}, file.file), element("td", {}, element("code", {}, file.hash))));
  const why = [];
  way(one).forEach((step, at) => why.push(at ? " → " : "", link(step)));
  return element("section", { "aria-live": "polite" },
    element("h2", {}, title(one)),
    element("p", { class: "dim" }, "Why it is there: ", ...why),
    picture(one),
    edgeTable("Needs", needs), edgeTable("Needed by", needed), edgeTable("Files", files));
}

// ---- graphs: cells in columns, and arrows between them; a click on a cell goes to its package

const SHOWN = 12;
const WIDE = 190, TALL = 24, STEP = 32, APART = 255, INSET = 28;
const narrow = matchMedia("(max-width: 700px)");

const shortened = (text, most) => (text.length > most ? `${text.slice(0, most - 1)}…` : text);

function box({ text, name, here, x, y }) {
  if (!name) return drawn("text", { x: x + 8, y: y + 16 }, text);
  const go = () => choose(packages.get(name));
  const onkeydown = (event) => { if (event.key === "Enter") go(); };
  return drawn("g", { role: "button", tabindex: "0", "aria-label": name, onclick: go, onkeydown },
    drawn("rect", { class: here ? "box here" : "box", x, y, width: WIDE, height: TALL, rx: 5 }),
    drawn("text", { x: x + 8, y: y + 16 }, shortened(name, 26)));
}

// Below one another the arrows go down and in, as in a tree of folders; beside one another they are curves.
function arrow(from, to, stacked) {
  const height = to.y + TALL / 2;
  if (stacked) return drawn("path", { d: `M ${from.x + 12} ${from.y + TALL} V ${height} H ${to.x}` });
  const [x, y] = [from.x + WIDE, from.y + TALL / 2];
  const bend = to.x > x ? (x + to.x) / 2 : x + 60;
  return drawn("path", { d: `M ${x} ${y} C ${bend} ${y} ${to.x > x ? bend : to.x - 60} ${height} ${to.x} ${height}` });
}

function graph(columns, arrows, stacked, label) {
  const tallest = Math.max(...columns.map((cells) => cells.length));
  let row = 0;
  columns.forEach((cells, at) => cells.forEach((cell, number) => {
    cell.x = 2 + at * (stacked ? INSET : APART);
    cell.y = 4 + (stacked ? STEP * row++ : (tallest - cells.length) * STEP / 2 + number * STEP);
  }));
  const width = (columns.length - 1) * (stacked ? INSET : APART) + WIDE + 4;
  const height = (stacked ? row : tallest) * STEP;
  const parts = [...arrows.map(([from, to]) => arrow(from, to, stacked)), ...columns.flat().map(box)];
  return drawn("svg", { viewBox: `0 0 ${width} ${height}`, width, height, role: "img", "aria-label": label }, ...parts);
}

// A package with its neighbours: from there one goes on.
function picture(one) {
  const cells = (names) => {
    const found = names.slice(0, SHOWN).map((name) => ({ name }));
    if (names.length > SHOWN) found.push({ text: `and ${names.length - SHOWN} more` });
    return found;
  };
  const before = cells([...new Set(users.get(title(one)).map(({ from }) => title(from)))]);
  const after = cells([...new Set(one.edges.map(title))]);
  const here = { name: title(one), here: true };
  const arrows = [...before.filter((it) => it.name).map((it) => [it, here]), ...after.filter((it) => it.name).map((it) => [here, it])];
  const label = `${title(one)} with what needs it and what it needs`;
  return element("div", { class: "scroll picture" }, graph([before, [here], after], arrows, narrow.matches, label));
}

// All packages, each to the right of those that need it, where they don't need one another. Beyond some, neighbours alone
// can be read.
const DRAWN = 60;

function needsOf(name) {
  return [...new Set(packages.get(name).edges.map(title))].filter((it) => packages.has(it));
}

function depths() {
  const order = [], seen = new Set(), depth = new Map();
  const visit = (name) => {
    if (seen.has(name)) return;
    seen.add(name);
    needsOf(name).forEach(visit);
    order.unshift(name);
  };
  [data.root, ...packages.keys()].filter((it) => packages.has(it)).forEach(visit);
  const at = new Map(order.map((name, number) => [name, number]));
  for (const name of order)
    for (const to of needsOf(name))
      if (at.get(to) > at.get(name)) depth.set(to, Math.max(depth.get(to) || 0, (depth.get(name) || 0) + 1));
  return depth;
}

function graphView() {
  const depth = depths(), columns = [];
  const cells = new Map([...packages.keys()].map((name) => [name, { name, here: name === data.root }]));
  for (const [name, cell] of cells) (columns[depth.get(name) || 0] ||= []).push(cell);
  const arrows = [...packages.keys()].flatMap((name) => needsOf(name).map((to) => [cells.get(name), cells.get(to)]));
  return element("div", { class: "scroll picture" }, graph(columns, arrows, false, "all packages"));
}

// ---- the list of packages, searched as one types

let wanted = "";
const list = element("div", { class: "list", role: "listbox", "aria-label": "packages" });
const pane = element("div", {});
list.addEventListener("click", (event) => {
  const row = event.target.closest("button");
  if (row) choose(packages.get(row.dataset.title));
});

function found() {
  const words = wanted.toLowerCase().split(/\s+/).filter(Boolean);
  return data.packages.filter((one) => words.every((word) => title(one).toLowerCase().includes(word)));
}

function fill() {
  const rows = found();
  list.replaceChildren(...rows.map((one) =>
    element("button", { type: "button", "aria-current": String(one === chosen), "data-title": title(one) },
      element("span", {}, one.name), element("span", { class: "dim" }, one.version))));
  if (!rows.length) list.append(element("p", { class: "dim" }, "no package has this name"));
}

function choose(one) {
  if (!one) return;
  chosen = one;
  if (shown !== "packages") show("packages");
  for (const row of list.children) row.setAttribute("aria-current", String(row.dataset.title === title(one)));
  pane.replaceChildren(details());
}

const search = element("input", { type: "search", placeholder: "Search packages ( / )", "aria-label": "search packages",
  oninput: (event) => { wanted = event.target.value; fill(); } });

document.addEventListener("keydown", (event) => {
  if (event.key === "/" && views.has("packages") && document.activeElement !== search) { event.preventDefault(); show("packages"); search.focus(); }
  if ((event.key === "ArrowDown" || event.key === "ArrowUp") && shown === "packages") {
    const rows = found();
    const next = rows[rows.indexOf(chosen) + (event.key === "ArrowDown" ? 1 : -1)];
    if (next) { event.preventDefault(); choose(next); const row = [...list.children].find((it) => it.getAttribute("aria-current") === "true"); if (row) row.scrollIntoView({ block: "nearest" }); }
  }
});

function packagesView() {
  fill();
  pane.replaceChildren(details());
  return element("div", {}, search, element("div", { class: "columns" }, list, pane));
}

// ---- tables

function table(head, rows, more = "") {
  return element("div", { class: `scroll sheet ${more}` }, element("table", { class: "grid" },
    element("thead", {}, element("tr", {}, ...head.map((text) => element("th", { scope: "col" }, text)))),
    element("tbody", {}, ...rows)));
}

function machinesView() {
  const given = new Set(data.selections.flatMap(Object.keys));
  const names = [...new Set(data.packages.map((one) => one.name))].filter((name) => given.has(name));
  const rows = names.map((name) => {
    const versions = data.machines.map((one) => data.selections[one.selection][name] || "");
    return element("tr", {}, element("th", { scope: "row" }, name), ...versions.map((version) => element("td", {}, version)));
  });
  return table(["Package", ...data.machines.map((one) => one.machine)], rows, "wide");
}

function forksView() {
  const rows = data.forks.map((fork, at) => element("tr", {}, element("td", {}, String(at + 1)), element("td", { title: fork.marker }, fork.where)));
  return data.forks.length ? table(["Fork", "Where"], rows) : element("p", {}, "One choice of versions serves every environment.");
}

function changesView() {
  const kind = (line) => (line.startsWith("added ") ? "new" : line.startsWith("removed ") ? "gone" : "");
  if (!data.changes.length) return element("p", {}, "Nothing changes.");
  return element("ul", {}, ...data.changes.map((line) => element("li", { class: kind(line) }, line)));
}

function refusalView() {
  const { needs, region, lines } = data.refusal;
  const names = [...new Set(needs.map(([from]) => from))];
  const rows = needs.map(([from, need]) => element("li", {},
    element("span", { class: "box" }, from), element("span", { class: "dim" }, "needs"), element("span", { class: "box here" }, need)));
  return element("div", {},
    element("p", {}, `No choice of versions serves: ${region}. These needs alone clash (${names.length} releases); `
      + "without any one of them something would serve."),
    element("ul", { class: "needs", "aria-label": "the needs that clash" }, ...rows),
    element("pre", {}, lines.join("\n")));
}

function handedView(rows) {
  const listed = Array.isArray(rows) ? rows : rows.packages || rows.rows || [rows];
  const keys = [...new Set(listed.flatMap((row) => Object.keys(row)))];
  const text = (value) => (value === null || value === undefined ? "" : typeof value === "object" ? JSON.stringify(value) : String(value));
  return table(keys, listed.map((row) => element("tr", {}, ...keys.map((key) => element("td", {}, text(row[key]))))));
}

// ---- on paper all packages stand, since nobody can choose one there

const paper = element("section", { class: "paper" });

function printed(one) {
  const needs = one.edges.map((edge) => title(edge) + (edge.of ? ` [${edge.of}]` : "")
    + (edge.where ? ` (${edge.where})` : "") + (edge.for ? ` for its extra ${edge.for}` : ""));
  return element("tr", {}, element("th", { scope: "row" }, title(one)), element("td", {}, needs.join("; ")),
    element("td", {}, way(one).slice(0, -1).join(" → ")));
}

addEventListener("beforeprint", () => {
  if (shown === "packages") paper.replaceChildren(table(["Package", "Needs", "Why it is there"], data.packages.map(printed)));
});
addEventListener("afterprint", () => paper.replaceChildren());

// ---- the page

const views = new Map([["packages", ["Packages", packagesView]], ["machines", ["By machine", machinesView]], ["forks", ["Forks", forksView]]]);
if (data.packages.length <= DRAWN) views.set("graph", ["Graph", graphView]);
if (data.projects) { views.clear(); views.set("projects", ["Projects", () => handedView(data.projects)]); }
if (data.changes) views.set("changes", ["Changes", changesView]);
if (data.refusal) views.set("refusal", ["Refusal", refusalView]);
if (data.outdated) views.set("outdated", ["Outdated", () => handedView(data.outdated)]);
if (data.coverage) views.set("coverage", ["Coverage", () => handedView(data.coverage)]);
narrow.addEventListener("change", () => { if (shown === "packages") pane.replaceChildren(details()); });

let shown = "";
const body = element("div", { id: "view" });
const tabs = element("nav", { role: "tablist" }, ...[...views].map(([key, [name]]) =>
  element("button", { type: "button", role: "tab", id: `tab-${key}`, onclick: () => show(key) }, name)));

function show(key) {
  shown = key;
  for (const tab of tabs.children) tab.setAttribute("aria-selected", String(tab.id === `tab-${key}`));
  body.replaceChildren(views.get(key)[1]());
}

document.title = `${data.root} · unilock`;
page.append(element("header", {}, element("h1", {}, data.root),
  element("div", { class: "dim" }, data.projects ? `${data.projects.length} projects`
    : `${data.packages.length} packages, ${data.forks.length || 1} ${data.forks.length > 1 ? "forks" : "fork"}; for ${data.supported}`)), tabs, body, paper);
// The head is painted before the rows of a large lock are made.
requestAnimationFrame(() => setTimeout(() => show([...views.keys()][0]), 0));
