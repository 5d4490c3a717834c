// The run as a time line: lanes over the turns. Where there are more turns than columns, a column stands for several.

const Time = { from: 1, to: Math.max(1, TURNS), at: 0, width: 0, kept: null, support: null, falses: null, changes: [] };
const LEFT = 46, RIGHT = 14, LEAST_COLUMN = 3;

function listTimes() {
  const kept = new Array(TURNS + 2).fill(0), late = KEPT.turn.filter((turn) => turn > TURNS).length;
  KEPT.turn.forEach((turn) => { if (turn <= TURNS) kept[turn] += 1; });
  Time.kept = kept;
  Time.late = late;
  Time.support = new Array(TURNS + 1).fill(DATA.support.start + kept[0]);
  Time.falses = new Array(TURNS + 1).fill(0);
  for (let turn = 1; turn <= TURNS; turn++) {
    Time.support[turn] = Time.support[turn - 1] + kept[turn] - 1;
    Time.falses[turn] = Time.falses[turn - 1] + (truthOf(turn) === "false" ? 1 : 0);
    const guide = guideOf(turn), last = Time.changes[Time.changes.length - 1];
    if (!last || last.guide !== guide) Time.changes.push({ turn, guide, to: turn });
    else last.to = turn;
  }
  Time.arrivals = DATA.versions.map((list) => list.map((version) => version.seen));
}

// -- places

const columnsOf = () => Math.max(1, Math.floor((Time.width - LEFT - RIGHT) / LEAST_COLUMN));
const shownTurns = () => Time.to - Time.from + 1;
const stepOf = () => Math.max(1, Math.ceil(shownTurns() / columnsOf()));
const xOf = (turn) => LEFT + (turn - Time.from + 0.5) * (Time.width - LEFT - RIGHT) / shownTurns();
const turnAt = (x) => Math.min(Time.to, Math.max(Time.from, Math.floor((x - LEFT) / (Time.width - LEFT - RIGHT) * shownTurns()) + Time.from));

// The turns shown, in groups of as many as a column stands for.
function groups() {
  const step = stepOf(), found = [];
  for (let from = Time.from; from <= Time.to; from += step) found.push({ from, to: Math.min(Time.to, from + step - 1) });
  return found;
}

const middle = (group) => (xOf(group.from) + xOf(group.to)) / 2;
const columnWidth = () => (Time.width - LEFT - RIGHT) / shownTurns() * stepOf();

function weightOf(turn) {
  const clause = CLAUSES.get(GIVEN.number[turn - 1]);
  return clause.weight;
}

// -- lanes

const LANES = [
  { name: "weight of the given clause", height: 150, draw: drawWeights },
  { name: "cause", height: 54, draw: drawCauses },
  { name: "clauses kept in the turn", height: 44, draw: drawKept },
  { name: "set of support", height: 60, draw: drawSupport },
  { name: "share false in the guide so far", height: 50, draw: drawShare },
  { name: "guide", height: 24, draw: drawGuide },
];

function axis(root, y, height, most, least) {
  root.append(svg("line", { class: "rule", x1: LEFT, x2: Time.width - RIGHT, y1: y + height, y2: y + height }));
  root.append(svg("text", { x: LEFT - 6, y: y + 9, "text-anchor": "end" }, most));
  if (least !== undefined) root.append(svg("text", { x: LEFT - 6, y: y + height, "text-anchor": "end" }, least));
}

function drawWeights(root, y, height) {
  const known = [];
  for (let turn = Time.from; turn <= Time.to; turn++) if (weightOf(turn) !== null) known.push(weightOf(turn));
  const most = known.reduce((a, b) => Math.max(a, b), 1);
  const place = (weight) => weight === null ? y + height + 9 : y + height - 6 - (height - 14) * weight / most;
  axis(root, y, height, most, 0);
  if (stepOf() > 1) drawRanges(root, place);
  else for (let turn = Time.from; turn <= Time.to; turn++) drawGiven(root, turn, place(weightOf(turn)));
}

// One given clause: its shape is the mark in the guide, full where it stands in the proof.
function drawGiven(root, turn, y) {
  const truth = truthOf(turn), used = isProved(GIVEN.number[turn - 1]);
  const radius = Math.min(6, Math.max(2.4, columnWidth() * 0.42));
  root.append(svg("path", { class: `mark ${truth}${used || !DATA.proof.length ? "" : " unused"}`, d: markPath(truth, xOf(turn), y, radius), "data-turn": turn }));
}

function drawRanges(root, place) {
  for (const group of groups()) {
    const weights = [];
    for (let turn = group.from; turn <= group.to; turn++) if (weightOf(turn) !== null) weights.push(weightOf(turn));
    if (!weights.length) continue;
    weights.sort((a, b) => a - b);
    const x = middle(group), half = weights[weights.length >> 1];
    root.append(svg("line", { class: "range", x1: x, x2: x, y1: place(weights[0]) + 1, y2: place(weights[weights.length - 1]) - 1 }));
    root.append(svg("line", { class: "tick", x1: x - 1.3, x2: x + 1.3, y1: place(half), y2: place(half) }));
  }
  for (let turn = Time.from; turn <= Time.to; turn++) {
    if (isProved(GIVEN.number[turn - 1])) root.append(svg("path", { class: "mark " + truthOf(turn), d: markPath(truthOf(turn), xOf(turn), place(weightOf(turn)), 4), "data-turn": turn }));
  }
}

function drawCauses(root, y) {
  CAUSES.forEach((cause, i) => {
    const base = y + 4 + i * 17;
    root.append(svg("text", { x: LEFT - 6, y: base + 11, "text-anchor": "end" }, cause));
    root.append(svg("line", { class: "rule", x1: LEFT, x2: Time.width - RIGHT, y1: base + 14, y2: base + 14 }));
    for (const group of groups()) {
      let count = 0;
      for (let turn = group.from; turn <= group.to; turn++) if (GIVEN.cause[turn - 1] === i) count++;
      const high = 12 * count / (group.to - group.from + 1);
      if (count) root.append(svg("rect", { class: "bar", x: middle(group) - Math.min(4, columnWidth() * 0.4), width: Math.min(8, columnWidth() * 0.8), y: base + 14 - Math.max(1.5, high), height: Math.max(1.5, high) }));
    }
  });
}

function drawKept(root, y, height) {
  const found = groups().map((group) => {
    let count = 0;
    for (let turn = group.from; turn <= group.to; turn++) count += Time.kept[turn];
    return { group, count };
  });
  const most = found.reduce((a, b) => Math.max(a, b.count), 1);
  axis(root, y, height, most, 0);
  for (const { group, count } of found) {
    const high = (height - 4) * count / most;
    if (count) root.append(svg("rect", { class: "bar", x: middle(group) - Math.min(6, columnWidth() * 0.4), width: Math.min(12, columnWidth() * 0.8), y: y + height - high, height: high }));
  }
}

function pathOver(values, y, height, least, most) {
  const place = (value) => y + height - (height - 4) * (value - least) / Math.max(1e-9, most - least);
  return groups().map((group, i) => `${i ? "L" : "M"}${middle(group).toFixed(1)} ${place(values(group.to)).toFixed(1)}`).join("");
}

function drawSupport(root, y, height) {
  let most = 1, least = 0;
  for (let turn = Time.from; turn <= Time.to; turn++) { most = Math.max(most, Time.support[turn]); least = Math.min(least, Time.support[turn]); }
  axis(root, y, height, most, least);
  const line = pathOver((turn) => Time.support[turn], y, height, least, most);
  if (line) root.append(svg("path", { class: "area", d: `${line}L${xOf(Time.to).toFixed(1)} ${y + height}L${xOf(Time.from).toFixed(1)} ${y + height}z` }));
}

function drawShare(root, y, height) {
  axis(root, y, height, "100%", "0%");
  root.append(svg("path", { class: "share", d: pathOver((turn) => Time.falses[turn] / Math.max(1, turn), y, height, 0, 1) }));
}

function drawGuide(root, y) {
  const edge = (Time.width - LEFT - RIGHT) / shownTurns() / 2;
  for (const change of Time.changes) {
    if (change.to < Time.from || change.turn > Time.to) continue;
    const x0 = Math.max(LEFT, xOf(change.turn) - edge), x1 = Math.min(Time.width - RIGHT, xOf(change.to) + edge);
    const [finder, place] = change.guide, name = finder ? `${finder}.${place}` : "opening";
    root.append(svg("rect", { class: finder ? "guide" : "guide none", x: x0 + 0.5, y: y + 3, width: Math.max(1, x1 - x0 - 1), height: 18, rx: 3 },
      svg("title", {}, `${versionName(change.guide)}, turns ${change.turn} to ${change.to}`)));
    if (x1 - x0 > name.length * 7 + 6) root.append(svg("text", { x: (x0 + x1) / 2, y: y + 16, "text-anchor": "middle" }, name));
  }
}

function drawFinder(root, y, arrivals) {
  const byTurn = new Map();
  arrivals.forEach((turn, k) => { if (turn >= Time.from && turn <= Time.to) { if (!byTurn.has(turn)) byTurn.set(turn, []); byTurn.get(turn).push(k); } });
  root.append(svg("line", { class: "rule", x1: LEFT, x2: Time.width - RIGHT, y1: y + 18, y2: y + 18 }));
  for (const [turn, places] of byTurn) {
    const x = xOf(turn), words = `turn ${turn}: ${places.length === 1 ? "version " + places[0] : `versions ${places[0]} to ${places[places.length - 1]}`}`;
    root.append(svg("path", { class: "arrival", d: `M${x} ${y + 17}l-4 -8h8z` }, svg("title", {}, words)));
    if (places.length > 1 && columnWidth() > 20) root.append(svg("text", { x: x + 6, y: y + 15 }, "×" + places.length));
  }
}

function finderName(f) {
  const never = Time.arrivals[f].filter((turn) => turn === 0).length;
  const count = Time.arrivals[f].length;
  return `finder ${f + 1}: ${plural(count, "version")}${never ? `, ${number(never)} of them seen after the last turn alone` : ""}; it ended: ${DATA.ends[f]}`;
}

// -- the whole

function drawTime() {
  const pane = byId("time");
  Time.width = Math.max(280, pane.clientWidth);
  const root = svg("svg", { role: "img", "aria-label": `Turns ${Time.from} to ${Time.to}` });
  let y = 8;
  const lane = (name, height, draw) => {
    root.append(svg("text", { class: "label", x: 8, y: y + 12 }, name));
    draw(root, y + 20, height);
    y += 20 + height + 12;
  };
  for (const part of LANES) {
    lane(part.name, part.height, part.draw);
    if (part.draw === drawWeights && hasUnknown()) y += 10;
  }
  Time.arrivals.forEach((arrivals, f) => lane(finderName(f), 20, (r, top) => drawFinder(r, top, arrivals)));
  drawTurnNumbers(root, y);
  y += 22;
  Time.height = y;
  fill(root, { width: Time.width, height: y, viewBox: `0 0 ${Time.width} ${y}` }, []);
  pane.replaceChildren(root);
  Time.root = root;
  drawCursor();
  describeTime();
}

function hasUnknown() {
  for (let turn = Time.from; turn <= Time.to; turn++) if (weightOf(turn) === null) return true;
  return false;
}

function drawTurnNumbers(root, y) {
  const room = Math.max(1, Math.floor((Time.width - LEFT - RIGHT) / 70));
  const raw = Math.max(1, shownTurns() / room), power = 10 ** Math.floor(Math.log10(raw));
  const step = Math.max(1, [1, 2, 5, 10].map((n) => n * power).find((n) => n >= raw));
  for (let turn = Math.ceil(Time.from / step) * step; turn <= Time.to; turn += step) {
    root.append(svg("text", { x: xOf(turn), y: y + 12, "text-anchor": "middle" }, number(turn)));
  }
  root.append(svg("text", { x: 8, y: y + 12 }, "turn"));
}

function describeTime() {
  const parts = [`Turns ${number(Time.from)} to ${number(Time.to)} of ${number(TURNS)}`];
  if (stepOf() > 1) parts.push(`a column stands for ${stepOf()} turns: in the first lane a bar from the least weight to the greatest with a tick at the middle one`);
  parts.push("● true, ▲ false, ◇ too wide in the guide" + (DATA.proof.length ? "; full where the clause stands in the proof, hollow where it doesn't" : ""));
  if (hasUnknown()) parts.push("given input clauses whose weight isn't in the run text stand below the line");
  if (Time.late) parts.push(`${plural(Time.late, "kept clause")} of later turns isn't drawn`);
  byId("time-note").textContent = parts.join("; ") + ".";
}

function drawCursor() {
  Time.root.querySelectorAll(".cursor").forEach((old) => old.remove());
  if (!Time.at || Time.at < Time.from || Time.at > Time.to) return;
  const x = xOf(Time.at);
  Time.root.append(svg("line", { class: "cursor", x1: x, x2: x, y1: 4, y2: Time.height - 18 }));
}

function describeTurn(turn) {
  const n = GIVEN.number[turn - 1], clause = CLAUSES.get(n), truth = truthOf(turn);
  const words = [`Turn ${number(turn)}: clause ${n}`, clause.weight === null ? null : ` of weight ${clause.weight}`, ` by ${causeOf(turn)}, `, glyph(truth), ` ${TRUTH_WORDS[truth]} in ${versionName(guideOf(turn))}; `,
    `${plural(Time.kept[turn], "clause")} kept`, clause.line ? "; it stands in the proof. " : ". ", clause.text ? el("code", {}, clause.text) : "Its text isn't in the run text."];
  byId("turn").replaceChildren(...words.filter((word) => word !== null));
}

function showTurn(turn, by) {
  if (turn < 1 || turn > TURNS) return;
  Time.at = turn;
  if (turn < Time.from || turn > Time.to) {
    const span = shownTurns();
    showTurns(Math.max(1, turn - Math.floor(span / 2)), span);
  }
  drawCursor();
  describeTurn(turn);
  if (by === "point") choose({ clause: GIVEN.number[turn - 1], turn }, "time");
}

// Shows so many turns from one on.
function showTurns(from, count) {
  const span = Math.min(TURNS, Math.max(Math.min(TURNS, 10), Math.round(count)));
  Time.from = Math.min(TURNS - span + 1, Math.max(1, Math.round(from)));
  Time.to = Time.from + span - 1;
  drawTime();
  const isWhole = span === TURNS;
  byId("earlier").disabled = Time.from === 1;
  byId("later").disabled = Time.to === TURNS;
  byId("zoom-out").disabled = byId("whole").disabled = isWhole;
  byId("zoom-in").disabled = span <= 10;
}

function zoom(factor) {
  const span = shownTurns() * factor, centre = Time.at >= Time.from && Time.at <= Time.to ? Time.at : (Time.from + Time.to) / 2;
  showTurns(centre - span * (centre - Time.from) / shownTurns(), span);
}

function timeKey(event) {
  if (event.ctrlKey || event.metaKey || event.altKey) return;
  const steps = { ArrowLeft: -1, ArrowRight: 1, PageUp: -10, PageDown: 10, Home: -Infinity, End: Infinity };
  if (event.key in steps) showTurn(Math.min(TURNS, Math.max(1, Time.at + steps[event.key])), "keys");
  else if (event.key === "Enter" && Time.at) showTurn(Time.at, "point");
  else if (event.key === "+" || event.key === "=") zoom(0.5);
  else if (event.key === "-") zoom(2);
  else if (event.key === "0") showTurns(1, TURNS);
  else return;
  event.preventDefault();
}

function startTime() {
  listTimes();
  if (!TURNS) {
    byId("time").hidden = true;
    byId("time-note").textContent = "The run made no turn: it ended at the start.";
    return;
  }
  byId("time-tools").hidden = false;
  showTurns(1, TURNS);
  byId("turn").textContent = "A click in the time line, or an arrow key, tells of a turn here.";
  const pane = byId("time");
  pane.addEventListener("click", (event) => showTurn(turnAt(event.clientX - pane.getBoundingClientRect().left), "point"));
  pane.addEventListener("keydown", timeKey);
  byId("earlier").addEventListener("click", () => showTurns(Time.from - shownTurns() / 2, shownTurns()));
  byId("later").addEventListener("click", () => showTurns(Time.from + shownTurns() / 2, shownTurns()));
  byId("zoom-in").addEventListener("click", () => zoom(0.5));
  byId("zoom-out").addEventListener("click", () => zoom(2));
  byId("whole").addEventListener("click", () => showTurns(1, TURNS));
  onChoose((what, by) => {
    const turn = what && what.clause ? CLAUSES.has(what.clause) && CLAUSES.get(what.clause).given : 0;
    if (turn && by !== "time") showTurn(turn, "chosen");
  });
}
