// Given and kept clauses as a list in the order of the turns; the rows that are seen are the only ones that are made.

const Rows = { all: [], shown: [], at: -1, query: "", made: new Map(), height: 30, stretch: 1 };
const MOST_HEIGHT = 8000000;
const MOST_PRINTED = 1000;

function listRows() {
  let k = 0;
  const order = KEPT.turn.map((_, i) => i).sort((a, b) => KEPT.turn[a] - KEPT.turn[b] || a - b);
  const keptUpTo = (turn) => { while (k < order.length && KEPT.turn[order[k]] <= turn) addRow("kept", KEPT.number[order[k]], KEPT.turn[order[k++]]); };
  keptUpTo(0);
  for (let turn = 1; turn <= TURNS; turn++) {
    addRow("given", GIVEN.number[turn - 1], turn);
    keptUpTo(turn);
  }
  keptUpTo(Infinity);
}

function addRow(kind, n, turn) {
  const clause = clauseOf(n);
  Rows.all.push({ kind, number: n, turn, clause, key: (clause.text || "").replace(/ /g, "").toLowerCase() });
}

const FILTERS = {
  all: () => true,
  given: (row) => row.kind === "given",
  kept: (row) => row.kind === "kept",
  proof: (row) => row.clause.line > 0,
  false: (row) => row.kind === "given" && truthOf(row.turn) === "false",
};

// A number is that of a clause or a turn; other words stand in the clause.
function matcher(query) {
  const words = query.toLowerCase().split(/\s+/).filter((word) => word && word !== "|");
  return (key, n, turn) => words.every((word) => (/^\d+$/.test(word) ? Number(word) === n || Number(word) === turn : key.includes(word)));
}

function applyFilter() {
  const keeps = FILTERS[byId("filter").value], matches = matcher(Rows.query);
  Rows.shown = Rows.all.filter((row) => keeps(row) && matches(row.key, row.number, row.turn));
  Rows.at = -1;
  const note = Rows.shown.length === Rows.all.length ? `${plural(Rows.all.length, "row")}.` : `${number(Rows.shown.length)} of ${plural(Rows.all.length, "row")}.`;
  const unknown = Rows.all.filter((row) => row.clause.text === null).length;
  byId("row-note").textContent = note + (unknown ? ` Of ${plural(unknown, "given input clause")} the text isn't in the run text; with the problem (--problem) it would stand here.` : "");
  byId("found").textContent = Rows.query ? plural(Rows.shown.length, "row") : "";
  layRows();
}

function layRows() {
  const list = byId("list");
  const isTight = isNarrow();
  list.classList.toggle("tight", isTight);
  Rows.height = isTight ? 56 : 30;
  list.style.setProperty("--row", Rows.height + "px");
  const whole = Rows.shown.length * Rows.height;
  const height = Math.min(whole, MOST_HEIGHT);
  const space = el("div", { class: "space", style: `height:${height}px` });
  Rows.space = space;
  Rows.made = new Map();
  list.setAttribute("aria-rowcount", Rows.shown.length);
  list.replaceChildren(headRow(), space);
  Rows.whole = whole;
  Rows.high = height;
  drawSeenRows();
}

// In a narrow list a row has two lines.
const isNarrow = () => byId("list").clientWidth < 860;

// Where the list becomes narrow, or wide again, the same rows stay in sight.
function keepPlace() {
  if (isNarrow() === byId("list").classList.contains("tight")) return;
  const at = Rows.at >= 0 ? Rows.at : Math.floor(scrolled() / Rows.height);
  layRows();
  if (at < Rows.shown.length) scrollToRow(at);
}

function headRow() {
  const names = ["", "turn", "clause", "weight", "cause", "mark", "guide", "clause text", ""];
  return el("div", { class: "row head", role: "row" }, ...names.map((name) => el("span", { role: "columnheader" }, name)));
}

// How far the list is scrolled, in pixels of all rows: a very long list is squeezed into what a browser can scroll.
function scrolled() {
  const list = byId("list"), room = Math.max(1, Rows.high - list.clientHeight);
  return Rows.high === Rows.whole ? list.scrollTop : list.scrollTop / room * (Rows.whole - list.clientHeight);
}

function drawSeenRows() {
  const list = byId("list"), offset = scrolled();
  const first = Math.max(0, Math.floor(offset / Rows.height) - 8);
  const last = Math.min(Rows.shown.length, Math.ceil((offset + list.clientHeight) / Rows.height) + 8);
  for (const [i, node] of Rows.made) {
    if (i < first || i >= last) { node.remove(); Rows.made.delete(i); }
  }
  const shift = Rows.high === Rows.whole ? 0 : list.scrollTop - offset;
  for (let i = first; i < last; i++) {
    if (!Rows.made.has(i)) {
      const node = drawRow(Rows.shown[i], i);
      Rows.made.set(i, node);
      Rows.space.append(node);
    }
    Rows.made.get(i).style.top = i * Rows.height + shift + "px";
  }
  markRows();
}

function drawRow(row, i) {
  const isGiven = row.kind === "given", clause = row.clause;
  const guide = isGiven ? guideOf(row.turn) : null;
  const labels = [null, "turn", "clause", clause.weight === null ? null : "weight", isGiven ? "by" : null];
  const cells = [row.kind, String(row.turn), String(row.number), clause.weight === null ? "" : String(clause.weight),
    isGiven ? causeOf(row.turn) : "",
    isGiven ? el("span", {}, glyph(truthOf(row.turn)), " " + truthOf(row.turn)) : "",
    isGiven ? (guide[0] ? `${guide[0]}.${guide[1]}` : "opening") : ""];
  const node = el("div", { class: "row " + row.kind, role: "row", "aria-rowindex": i + 1, id: "row-" + i, onclick: () => chooseRow(i) },
    ...cells.map((content, i) => el("span", { role: "gridcell", "data-label": labels[i], class: i === 6 ? "guide" : null }, content)));
  node.append(el("span", { role: "gridcell", class: "clause", title: clause.text || "not in the run text" }, ...marked(clause.text)));
  node.append(el("span", { role: "gridcell", class: "proved" }, clause.line ? el("span", { class: "chip" }, "in proof") : ""));
  return node;
}

// The text with what was searched for marked.
function marked(text) {
  if (text === null) return ["—"];
  const words = Rows.query.split(/\s+/).filter((word) => word && !/^\d+$/.test(word));
  if (!words.length) return [text];
  const at = text.toLowerCase().indexOf(words[0].toLowerCase());
  if (at < 0) return [text];
  const end = at + words[0].length;
  return [text.slice(0, at), el("mark", {}, text.slice(at, end)), text.slice(end)];
}

function markRows() {
  const n = chosen && (chosen.clause || 0);
  for (const [i, node] of Rows.made) {
    const isChosen = i === Rows.at || (Rows.at < 0 && n && Rows.shown[i].number === n);
    node.classList.toggle("chosen", Boolean(isChosen));
    node.setAttribute("aria-selected", Boolean(isChosen));
  }
}

function chooseRow(i) {
  Rows.at = i;
  const row = Rows.shown[i];
  byId("list").setAttribute("aria-activedescendant", "row-" + i);
  choose({ clause: row.number, turn: row.turn }, "rows");
  scrollToRow(i);
}

function scrollToRow(i) {
  const list = byId("list"), top = i * Rows.height, offset = scrolled(), head = 34;
  let wanted = null;
  if (top < offset + 2) wanted = top;
  else if (top + Rows.height + head > offset + list.clientHeight) wanted = top + Rows.height + head - list.clientHeight;
  if (wanted !== null) {
    list.scrollTop = Rows.high === Rows.whole ? wanted : wanted / (Rows.whole - list.clientHeight) * (Rows.high - list.clientHeight);
  }
  drawSeenRows();
}

function rowKey(event) {
  if (event.ctrlKey || event.metaKey || event.altKey || !Rows.shown.length) return;
  const page = Math.max(1, Math.floor(byId("list").clientHeight / Rows.height) - 2);
  const steps = { ArrowDown: 1, ArrowUp: -1, PageDown: page, PageUp: -page, Home: -Infinity, End: Infinity };
  if (event.key in steps) {
    chooseRow(Math.min(Rows.shown.length - 1, Math.max(0, Rows.at + steps[event.key])));
  } else if (event.key === "Enter") byId("details").focus();
  else return;
  event.preventDefault();
}

// -- search

function search(query) {
  Rows.query = query.trim();
  applyFilter();
  const matches = matcher(Rows.query);
  Proof.found = new Set();
  if (Rows.query) {
    for (const line of DATA.proof) {
      if (matches(line.text.replace(/ /g, "").toLowerCase(), line.number, line.input || 0)) Proof.found.add(line.number);
    }
    const folded = Proof.folded ? [...Proof.found].filter((n) => lineOf(n).folds).length : 0;
    byId("found").textContent = `${plural(Rows.shown.length, "row")}, ${plural(Proof.found.size, "proof line")}${folded ? ` (${folded} folded)` : ""}`;
  }
  if (Proof.picture) markNodes();
}

// A printed page can't scroll: it gets the first rows, and says how many it leaves out.
function printRows() {
  const versions = Versions.all.length;
  byId("print-versions").textContent = versions > 1 ? `Of ${number(versions)} versions this one is printed; choose another, then print.` : "";
  const rows = Rows.shown.slice(0, MOST_PRINTED), left = Rows.shown.length - rows.length;
  const caption = left ? `The first ${number(rows.length)} rows; ${number(left)} more aren't printed. Filter or search first, then print.` : plural(rows.length, "row");
  byId("print-rows").replaceChildren(el("caption", {}, caption), el("tbody", {}, ...rows.map((row) => {
    const isGiven = row.kind === "given";
    return el("tr", {}, el("td", {}, row.kind), el("td", {}, "turn " + row.turn), el("td", {}, "clause " + row.number),
      el("td", {}, isGiven ? `${causeOf(row.turn)}, ${truthOf(row.turn)}` : ""), el("td", {}, row.clause.line ? "in proof" : ""), el("td", {}, row.clause.text || "—"));
  })));
}

function startRows() {
  listRows();
  if (!Rows.all.length) {
    byId("row-note").textContent = "The run has no given and no kept clause.";
    byId("list").hidden = true;
    return;
  }
  byId("row-tools").hidden = false;
  applyFilter();
  byId("list").addEventListener("scroll", () => requestAnimationFrame(drawSeenRows), { passive: true });
  byId("list").addEventListener("keydown", rowKey);
  if (window.ResizeObserver) new ResizeObserver(keepPlace).observe(byId("list"));
  byId("filter").addEventListener("change", applyFilter);
  onChoose((what, by) => {
    if (by !== "rows") Rows.at = -1;
    markRows();
  });
}
