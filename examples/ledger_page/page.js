"use strict";
const data = JSON.parse(document.getElementById("data").textContent);
const KINDS = ["genesis", "record", "member", "time", "occult", "purge", "occultclue"];
const [KIND, MEMBER, CLUE, A, B, LEAF, LINK, LENGTH, CONTENT, FORM, APPROVALS, ORDINAL] = Array(12).keys();
const RECORD = 1, ADMITTED = 2, TIME = 3, OCCULT = 4, PURGE = 5, CLUE_OCCULT = 6, ROW = 28;
const at = name => document.getElementById(name);
const journals = data.journals, point = data.point;
const number = place => point + place;

// An element with texts and elements in it. Texts are never read as markup.
function made(name, options, ...parts) {
  const element = document.createElement(name);
  for (const [key, value] of Object.entries(options || {})) {
    if (key === "on") for (const [event, does] of Object.entries(value)) element.addEventListener(event, does);
    else element.setAttribute(key, value);
  }
  element.append(...parts.map(part => (part instanceof Node ? part : String(part))));
  return element;
}

function moment(time) {
  const date = new Date(Number(time));
  return isNaN(date) ? `${time} ms` : date.toISOString().replace("T", " ").replace(/\.\d+Z$/, " UTC");
}

// ---- the report and the facts

function tellReport() {
  const { report } = data, box = at("report");
  box.className = report.fault ? "bad" : report.trusted ? "good" : "wait";
  const words = report.fault ? `Fault: ${report.fault}` : report.trusted ? "No fault, under heads that the auditor trusts" : "No fault, under the dump's own heads";
  box.append(made("strong", null, words));
  box.append(report.trusted ? "" : "Nobody else's heads were given, so this shows that the dump fits together, and not that it is the ledger that others know.");
  box.append(made("code", null, report.line));
  if (report.other) box.append(made("code", null, `auditctl: ${report.other}`));
}

function tellFacts() {
  at("id").textContent = data.id;
  const members = new Set(journals.map(it => it[MEMBER])).size;
  const kinds = KINDS.map((_, kind) => journals.filter(it => it[KIND] === kind).length);
  const facts = [
    ["head", `${data.size} journals, root ${data.root}`],
    ["notary's head", `${data.notarySize} entries, root ${data.notaryRoot}`],
    ["kept", `${journals.length} journals${point ? `, from ${point} on: those in front were purged` : ""}`],
    ["kinds", KINDS.map((name, kind) => `${kinds[kind]} ${name}`).filter((_, kind) => kinds[kind]).join(", ")],
    ["placed by", `${members} members; proofs by ${data.report.scheme}`],
  ];
  for (const [name, value] of facts) at("facts").append(made("dt", null, name), made("dd", { class: "mono" }, value));
}

// ---- the line of time

const anchors = journals.map((it, place) => place).filter(place => journals[place][KIND] === TIME);

// The nearest anchors in front of a journal and behind it.
function bounds(place) {
  let low = 0, high = anchors.length;
  while (low < high) {
    const middle = (low + high) >> 1;
    if (anchors[middle] < place) low = middle + 1;
    else high = middle;
  }
  return [anchors[low - 1], anchors[low] === place ? anchors[low + 1] : anchors[low]];
}

const told = place => (place === undefined ? "no anchor" : `${moment(journals[place][B])} (anchor ${number(place)})`);

function tellTime() {
  const note = at("time-note");
  if (!anchors.length) {
    note.textContent = "No anchor tells a time.";
    return;
  }
  const times = anchors.map(place => Number(journals[place][B]));
  const first = times[0], last = times[times.length - 1], bars = spans(times, first, last);
  const most = Math.max(1, ...bars.map(bar => bar.count));
  const space = "http://www.w3.org/2000/svg", svg = document.createElementNS(space, "svg");
  svg.setAttribute("viewBox", "0 0 1000 110");
  svg.setAttribute("preserveAspectRatio", "none");
  svg.setAttribute("role", "img");
  svg.setAttribute("aria-label", `${anchors.length} anchors from ${moment(first)} to ${moment(last)}`);
  for (const bar of bars) {
    const height = Math.max(2, (96 * bar.count) / most), rect = document.createElementNS(space, "rect");
    for (const [key, value] of Object.entries({ x: 8 + 976 * bar.at, y: 104 - height, width: bar.width, height, class: "bar" })) rect.setAttribute(key, value);
    const title = document.createElementNS(space, "title");
    title.textContent = `${bar.count} journals in front of ${bar.anchors > 1 ? `${bar.anchors} anchors up to ` : ""}${told(bar.place)}`;
    rect.append(title);
    rect.addEventListener("click", () => goTo(bar.place));
    svg.append(rect);
  }
  at("time").append(svg, made("div", { class: "ends" }, made("span", null, moment(first)), made("span", null, moment(last))));
  const behind = journals.length - 1 - anchors[anchors.length - 1];
  note.textContent = `A bar stands at the time of an anchor, and is as high as journals were placed since the anchor in front of it; click to go there. ${behind ? `${behind} behind the last anchor ${behind === 1 ? "has" : "have"} no later time yet.` : ""}`;
}

// A bar for each anchor, or where there are many for those of one two-hundredth of the time.
function spans(times, first, last) {
  const bars = [], width = Math.max(1, last - first), many = anchors.length > 200;
  anchors.forEach((place, index) => {
    const share = (times[index] - first) / width, slot = many ? Math.floor(share * 200) / 200 : share;
    const count = place - (index ? anchors[index - 1] + 1 : 0), bar = bars[bars.length - 1];
    if (many && bar && bar.at === slot) Object.assign(bar, { count: bar.count + count, anchors: bar.anchors + 1, place });
    else bars.push({ at: slot, count, anchors: 1, place, width: many ? 4 : 6 });
  });
  return bars;
}

// ---- what was hidden and purged

function members(list) {
  return list.map(member => (member < 0 ? "unreadable" : member === 0 ? "the operator" : member === 1 ? "the regulator" : `member ${member}`)).join(", ") || "nobody";
}

function link(place) {
  return made("a", { tabindex: 0, on: { click: () => goTo(place), keydown: event => event.key === "Enter" && goTo(place) } }, `journal ${number(place)}`);
}

function tellGone() {
  const given = journals.map((it, place) => place).filter(place => journals[place][KIND] >= OCCULT);
  if (!given.length) {
    at("gone").append(made("p", { class: "note" }, "Nothing was hidden or purged."));
    return;
  }
  const table = made("table", null, made("tr", null, ...["by", "what", "approved by", "placed"].map(name => made("th", null, name))));
  for (const place of given.slice(-500)) {
    const it = journals[place];
    table.append(made("tr", null, ...[link(place), gone(it), members(it[APPROVALS]), span(place)].map(part => made("td", null, part))));
  }
  at("gone").append(table);
  if (given.length > 500) at("gone").append(made("p", { class: "note" }, `The last 500 of ${given.length}; the others stand below.`));
}

// What an occult of either kind or a purge gave up.
function gone(it) {
  if (it[KIND] === PURGE) return `purged all in front of ${it[A]}`;
  if (it[KIND] === CLUE_OCCULT) return `hid the contents of all ${it[A]} records of ${data.clues[it[CLUE]]} so far`;
  const target = it[A] - point;
  return made("span", null, "hid the content of ", target >= 0 ? link(target) : `journal ${it[A]}, which was purged`);
}

function span(place) {
  const [front, behind] = bounds(place);
  return `between ${told(front)} and ${told(behind)}`;
}

// ---- all journals

let shown = journals.map((_, place) => place), chosen = -1;

// What stands in a journal's row, and how it looks.
function summary(it) {
  if (it[KIND] === RECORD) {
    if (it[FORM] === "text") return [it[CONTENT].replace(/\s+/g, " "), "text"];
    return [it[FORM] === "hex" ? it[CONTENT].slice(0, 60) : it[FORM] === "erased" ? "hidden" : "empty", it[FORM]];
  }
  const words = { 0: "operator's and regulator's keys", 2: `admits member ${it[A]}`, 3: moment(it[B]), 4: `hides ${it[A]}`, 5: `purges all in front of ${it[A]}`,
    6: `hides ${it[A]} records of ${data.clues[it[CLUE]]}` };
  return [words[it[KIND]], "own"];
}

function row(index) {
  const place = shown[index], it = journals[place], [text, form] = summary(it);
  const clue = it[CLUE] < 0 ? "" : data.clues[it[CLUE]];
  const element = made("div", { class: `row ${KINDS[it[KIND]]}`, role: "option", id: `row-${index}`, "aria-selected": place === chosen },
    made("span", { class: "n" }, number(place)), made("span", null, KINDS[it[KIND]]), made("span", { class: "m" }, it[MEMBER]),
    made("span", { class: "c" }, clue), made("span", { class: form }, text));
  element.style.top = `${index * ROW}px`;
  element.addEventListener("mousedown", () => choose(index));
  return element;
}

// Only the rows that are seen are made.
function draw() {
  const list = at("list"), first = Math.max(0, Math.floor(list.scrollTop / ROW) - 5);
  const last = Math.min(shown.length, first + Math.ceil(list.clientHeight / ROW) + 10), rows = [];
  for (let index = first; index < last; index++) rows.push(row(index));
  at("rows").replaceChildren(...rows);
}

function filter() {
  const kind = at("kind").value, member = at("member").value, clue = at("clue").value, words = at("search").value.toLowerCase();
  shown = [];
  journals.forEach((it, place) => {
    if ((kind === "" || it[KIND] == kind) && (member === "" || it[MEMBER] == member) && (clue === "" || it[CLUE] == clue) && (!words || holds(it, place, words))) shown.push(place);
  });
  at("rows").style.height = `${shown.length * ROW}px`;
  at("list").scrollTop = 0;
  at("count").textContent = `${shown.length} of ${journals.length}`;
  choose(shown.length ? 0 : -1);
}

function holds(it, place, words) {
  const clue = it[CLUE] < 0 ? "" : data.clues[it[CLUE]].toLowerCase();
  return String(number(place)) === words || it[CONTENT].toLowerCase().includes(words) || clue.includes(words) || it[LEAF].startsWith(words) || it[LINK].startsWith(words) || summary(it)[0].toLowerCase().includes(words);
}

function choose(index) {
  chosen = index < 0 ? -1 : shown[index];
  const list = at("list"), top = index * ROW;
  if (index >= 0 && top < list.scrollTop) list.scrollTop = top;
  if (index >= 0 && top + ROW > list.scrollTop + list.clientHeight) list.scrollTop = top + ROW - list.clientHeight;
  draw();
  if (index >= 0) list.setAttribute("aria-activedescendant", `row-${index}`);
  tellDetail();
}

function goTo(place) {
  if (!shown.includes(place)) clear();
  choose(shown.indexOf(place));
  at("list").scrollIntoView({ block: "nearest" });
  at("list").focus({ preventScroll: true });
}

function clear() {
  for (const name of ["kind", "member", "clue", "search"]) at(name).value = "";
  filter();
}

// ---- the journal that is chosen

function tellDetail() {
  const box = at("detail");
  box.replaceChildren();
  if (chosen < 0) return;
  const it = journals[chosen], facts = made("dl", null), add = (name, ...value) => facts.append(made("dt", null, name), made("dd", null, ...value));
  add("placed by", members([it[MEMBER]]));
  add("placed", span(chosen));
  if (it[CLUE] >= 0) add("clue", data.clues[it[CLUE]] + (it[KIND] === RECORD ? `, its number ${it[ORDINAL]}` : ""));
  if (it[KIND] === RECORD) {
    if (it[A]) add("request's number", it[A]);
    add("content", `${it[LENGTH]} bytes${it[FORM] === "hex" ? ", no text" : ""}`);
    const by = data.hidden[number(chosen)];
    if (by !== undefined) add("hidden", "by ", link(by - point));
  } else if (it[KIND] !== 0) add("says", summary(it)[0]);
  if (it[KIND] === TIME) add("notary's entry", it[A]);
  if (it[KIND] >= OCCULT) add("approved by", members(it[APPROVALS]));
  add("leaf", made("code", null, it[LEAF]));
  add(it[KIND] === ADMITTED ? "key" : it[KIND] === TIME ? "salt" : "link", made("code", null, it[LINK]));
  box.append(made("h3", null, `Journal ${number(chosen)}, ${KINDS[it[KIND]]}`), facts);
  if (it[CONTENT]) box.append(made("pre", null, it[CONTENT]));
  if (it[CONTENT] && it[LENGTH] > 4000) box.append(made("p", { class: "note" }, `The first 4000 of ${it[LENGTH]} bytes.`));
}

// ---- keys and choices

function choices(name, title, pairs) {
  at(name).append(made("option", { value: "" }, title), ...pairs.map(([value, text]) => made("option", { value }, text)));
  at(name).addEventListener("change", filter);
}

function step(by) {
  const index = shown.indexOf(chosen);
  if (shown.length) choose(Math.max(0, Math.min(shown.length - 1, index + by)));
}

function theme() {
  const root = document.documentElement, dark = root.dataset.theme ? root.dataset.theme === "dark" : matchMedia("(prefers-color-scheme: dark)").matches;
  root.dataset.theme = dark ? "light" : "dark";
}

const page = () => Math.max(1, Math.floor(at("list").clientHeight / ROW) - 1);
const KEYS = {
  j: () => step(1), ArrowDown: () => step(1), k: () => step(-1), ArrowUp: () => step(-1), PageDown: () => step(page()), PageUp: () => step(-page()),
  Home: () => step(-journals.length), End: () => step(journals.length), "/": () => at("search").focus(), t: theme,
  "[": () => chosen >= 0 && bounds(chosen)[0] !== undefined && goTo(bounds(chosen)[0]),
  "]": () => chosen >= 0 && bounds(chosen)[1] !== undefined && goTo(bounds(chosen)[1]),
};

document.addEventListener("keydown", event => {
  if (event.ctrlKey || event.metaKey || event.altKey) return;
  if (event.key === "Escape") {
    clear();
    at("list").focus();
  } else if (event.target.matches("input, select")) {
    if (event.target === at("search") && (event.key === "Enter" || event.key === "ArrowDown")) at("list").focus();
  } else if (KEYS[event.key]) {
    event.preventDefault();
    KEYS[event.key]();
  }
});

tellReport();
tellFacts();
tellTime();
tellGone();
choices("kind", "all kinds", KINDS.map((name, kind) => [kind, name]));
choices("member", "all members", [...new Set(journals.map(it => it[MEMBER]))].sort((a, b) => a - b).map(member => [member, members([member])]));
choices("clue", "all clues", data.clues.map((name, clue) => [clue, name]).slice(0, 2000));
at("search").addEventListener("input", filter);
at("list").addEventListener("scroll", draw);
at("theme").addEventListener("click", theme);
addEventListener("resize", draw);
filter();
