// The proof as a graph: boxes in layers, chosen by pointer or keys, with the literals that steps use marked.

const Proof = { folded: true, scale: 1, nodes: new Map(), edges: [], picture: null, drawn: new Set(), found: new Set() };
const MOST_DRAWN = 1500;

function lineOf(n) { return DATA.proof[n - 1]; }
function usesOf(n) { return lineOf(n).uses[Proof.folded ? 1 : 0]; }

function usersOf(n) {
  const users = [];
  for (const edge of Proof.edges) if (edge.from === n) users.push(edge.to);
  return users;
}

function drawProof() {
  const picture = DATA.pictures[Proof.folded ? 1 : 0];
  Proof.picture = picture;
  const margin = 12;
  const root = svg("svg", { class: "picture", role: "img", "aria-label": `The proof, ${plural(picture.boxes.length, "line")}`,
    viewBox: `${-margin} ${-margin} ${picture.width + 2 * margin} ${picture.height + 2 * margin}` });
  const arrow = svg("marker", { id: "arrow", viewBox: "0 0 8 8", refX: 7, refY: 4, markerWidth: 9, markerHeight: 9, markerUnits: "userSpaceOnUse", orient: "auto" },
    svg("path", { class: "arrow", d: "M0 0L8 4L0 8z" }));
  Proof.edgeLayer = svg("g", {});
  Proof.nodeLayer = svg("g", {});
  root.append(svg("defs", {}, arrow), Proof.edgeLayer, Proof.nodeLayer);
  byId("graph").replaceChildren(root);
  Proof.root = root;
  Proof.boxes = new Map(picture.boxes.map((box) => [box.line, box]));
  Proof.nodes = new Map();
  Proof.edges = picture.edges.map(([from, to, d]) => ({ from, to, d, node: null }));
  Proof.usedLiterals = usedLiterals();
  drawMap();
  resize();
  drawVisible();
  describePicture();
}

// For each line the numbers of the literals that some step uses.
function usedLiterals() {
  const used = new Map();
  for (const box of Proof.picture.boxes) {
    for (const use of usesOf(box.line)) {
      if (!used.has(use.line)) used.set(use.line, new Set());
      if (use.literal) used.get(use.line).add(use.literal);
    }
  }
  return used;
}

// A picture of many boxes is drawn where it is looked at.
function drawVisible() {
  const all = Proof.picture.boxes.length <= MOST_DRAWN;
  const pane = byId("graph"), spare = 600;
  const top = (pane.scrollTop - spare) / Proof.scale, bottom = (pane.scrollTop + pane.clientHeight + spare) / Proof.scale;
  const isSeen = (box) => all || (box.y + box.height > top && box.y < bottom);
  for (const box of Proof.picture.boxes) {
    const there = Proof.nodes.get(box.line);
    if (isSeen(box) && !there) {
      const node = drawBox(box);
      Proof.nodes.set(box.line, node);
      Proof.nodeLayer.append(node);
    } else if (there && !isSeen(box)) {
      there.remove();
      Proof.nodes.delete(box.line);
    }
  }
  for (const edge of Proof.edges) drawEdge(edge, all || seesEdge(edge, top, bottom));
  markNodes();
  moveWindow();
}

// What is seen changed: a picture of few boxes is drawn already.
function afterScroll() {
  if (Proof.picture.boxes.length > MOST_DRAWN) drawVisible();
  else moveWindow();
}

function seesEdge(edge, top, bottom) {
  const upper = Proof.boxes.get(edge.from), lower = Proof.boxes.get(edge.to);
  return lower.y + lower.height > top && upper.y < bottom;
}

function drawEdge(edge, isSeen) {
  if (isSeen && !edge.node) {
    edge.node = svg("path", { class: "edge", d: edge.d, "marker-end": "url(#arrow)" });
    Proof.edgeLayer.append(edge.node);
  } else if (!isSeen && edge.node) {
    edge.node.remove();
    edge.node = null;
  }
}

function drawBox(box) {
  const line = lineOf(box.line);
  const truth = line.mark[2];
  const classes = ["node", line.input ? "input" : "", line.text === "$F" ? "goal" : "", line.follows ? "" : "amiss"];
  const title = `line ${box.line}, ${TRUTH_WORDS[truth]} in ${versionName(line.mark)}: ${line.text}; ${line.words[Proof.folded ? 1 : 0]}`;
  const node = svg("g", { class: classes.filter(Boolean).join(" "), id: "line-" + box.line, "data-line": box.line,
    transform: `translate(${box.x} ${box.y})`, onclick: () => choose({ line: box.line }, "proof") }, svg("title", {}, title));
  node.append(svg("rect", { class: "box", width: box.width, height: box.height, rx: truth === "true" ? 9 : 0 }));
  node.append(svg("path", { class: "mark-" + truth, d: markPath(truth, 14, 14, 5) }));
  node.append(svg("text", { class: "head", x: 26, y: 18 }, svg("tspan", { class: "number" }, String(box.line)), "  " + line.short[Proof.folded ? 1 : 0]));
  drawRows(node, box);
  return node;
}

function drawRows(node, box) {
  const used = Proof.usedLiterals.get(box.line) || new Set();
  let y = 24 + 14;
  for (const row of box.rows) {
    const text = svg("text", { x: 10, y });
    for (const [piece, literal] of row) {
      const bar = piece.endsWith(" | ") ? " | " : "";
      text.append(svg("tspan", { class: used.has(literal) ? "used" : "", "data-literal": literal }, bar ? piece.slice(0, -3) : piece));
      if (bar) text.append(svg("tspan", {}, bar));
    }
    node.append(text);
    y += 18;
  }
  if (box.left_out) {
    node.append(svg("text", { class: "note-in", x: 10, y }, `… and ${number(box.left_out)} characters more`));
    y += 18;
  }
  for (const note of box.notes) {
    node.append(svg("text", { class: "note-in", x: 10, y }, note));
    y += 18;
  }
}

function describePicture() {
  const shown = Proof.picture.boxes.length, folded = DATA.proof.length - shown;
  const parts = [`${plural(shown, "line")} of ${number(DATA.proof.length)} drawn`];
  if (folded) parts.push(`${plural(folded, "instance line")} folded into the steps that use them (in italics: the terms put for variables)`);
  parts.push("literals that a step uses are underlined");
  if (Proof.picture.boxes.some((box) => box.left_out)) parts.push("long clauses are cut in their boxes and whole beside the picture and in the text");
  byId("proof-note").textContent = parts.join("; ") + ".";
}

// -- size and place of the picture

function resize() {
  const width = Proof.picture.width + 24, height = Proof.picture.height + 24;
  Proof.root.setAttribute("width", width * Proof.scale);
  Proof.root.setAttribute("height", height * Proof.scale);
}

function setScale(scale) {
  const pane = byId("graph"), old = Proof.scale;
  const middle = [(pane.scrollLeft + pane.clientWidth / 2) / old, (pane.scrollTop + pane.clientHeight / 2) / old];
  Proof.scale = Math.min(3, Math.max(0.08, scale));
  resize();
  pane.scrollLeft = middle[0] * Proof.scale - pane.clientWidth / 2;
  pane.scrollTop = middle[1] * Proof.scale - pane.clientHeight / 2;
  drawVisible();
}

function fitScale() {
  const pane = byId("graph");
  const high = Math.min(window.innerHeight * 0.78, 900);
  return Math.min(1, (pane.clientWidth - 4) / (Proof.picture.width + 24), high / (Proof.picture.height + 24));
}

function startScale() {
  // As large as it can be read, whole where that is still legible.
  Proof.scale = Math.max(0.62, fitScale());
  resize();
  const pane = byId("graph"), top = Proof.picture.boxes.reduce((least, box) => Math.min(least, box.y), Infinity);
  const first = Proof.picture.boxes.filter((box) => box.y < top + 40).sort((a, b) => a.x - b.x);
  const box = first[first.length >> 1];
  pane.scrollTo({ left: (box.x + box.width / 2) * Proof.scale - pane.clientWidth / 2, top: 0 });
  drawVisible();
}

function bringIntoView(n) {
  const box = Proof.boxes.get(n), pane = byId("graph");
  if (!box) return;
  const x = (box.x + box.width / 2) * Proof.scale, y = (box.y + box.height / 2) * Proof.scale;
  pane.scrollTo({ left: x - pane.clientWidth / 2, top: y - pane.clientHeight / 2 });
  drawVisible();
}

// -- the map of a picture that is larger than its pane

const MAP_WIDTH = 220, MAP_HEIGHT = 84, MOST_MAPPED = 6000;

function drawMap() {
  const map = byId("map"), picture = Proof.picture;
  const scale = Math.min(MAP_WIDTH / picture.width, MAP_HEIGHT / picture.height);
  const root = svg("svg", { width: picture.width * scale, height: picture.height * scale, viewBox: `0 0 ${picture.width} ${picture.height}` });
  if (picture.boxes.length <= MOST_MAPPED) {
    for (const box of picture.boxes) root.append(svg("rect", { class: "there", x: box.x, y: box.y, width: box.width, height: box.height }));
  }
  Proof.window = svg("rect", { class: "window", "stroke-width": 1.5 / scale });
  root.append(Proof.window);
  map.replaceChildren(root);
  map.onclick = (event) => {
    const at = root.getBoundingClientRect(), pane = byId("graph");
    pane.scrollTo({ left: (event.clientX - at.left) / scale * Proof.scale - pane.clientWidth / 2, top: (event.clientY - at.top) / scale * Proof.scale - pane.clientHeight / 2 });
  };
}

function moveWindow() {
  const pane = byId("graph"), isWhole = pane.scrollWidth <= pane.clientWidth + 1 && pane.scrollHeight <= pane.clientHeight + 1;
  byId("map").hidden = isWhole;
  if (isWhole) return;
  fill(Proof.window, { x: pane.scrollLeft / Proof.scale, y: pane.scrollTop / Proof.scale, width: pane.clientWidth / Proof.scale, height: pane.clientHeight / Proof.scale }, []);
}

// -- what is chosen

function markNodes() {
  const line = chosen && chosen.line ? shownLine(chosen.line) : 0;
  const near = new Set(line ? usesOf(line).map((use) => use.line).concat(usersOf(line)) : []);
  for (const [n, node] of Proof.nodes) {
    node.classList.toggle("chosen", n === line);
    node.classList.toggle("near", near.has(n));
    node.classList.toggle("found", Proof.found.has(n));
    node.querySelectorAll(".lit").forEach((old) => old.remove());
  }
  for (const edge of Proof.edges) {
    if (edge.node) edge.node.classList.toggle("near", line > 0 && (edge.to === line || edge.from === line));
  }
  if (line) usesOf(line).forEach(lightLiteral);
}

// The literal that the chosen step uses gets a ground in the box of its line.
function lightLiteral(use) {
  const node = Proof.nodes.get(use.line);
  if (!node || !use.literal) return;
  for (const piece of node.querySelectorAll(`tspan[data-literal="${use.literal}"]`)) {
    if (!piece.textContent) continue;
    const text = piece.parentNode;
    let start = 0;
    for (const before of text.children) { if (before === piece) break; start += before.textContent.length; }
    const from = text.getStartPositionOfChar(start), to = text.getEndPositionOfChar(start + piece.textContent.length - 1);
    text.before(svg("rect", { class: "lit", x: from.x - 1, y: from.y - 13, width: to.x - from.x + 2, height: 18, rx: 3 }));
  }
}

// The line that stands for a folded one: the first that uses it.
function shownLine(n) {
  let line = n;
  while (Proof.boxes && !Proof.boxes.has(line)) {
    const user = DATA.proof.find((other) => other.uses[0].some((use) => use.line === line));
    if (!user) return 0;
    line = user.number;
  }
  return line;
}

// -- keys

function beside(n, step) {
  const here = Proof.boxes.get(n);
  const middle = here.y + here.height / 2;
  const layer = Proof.picture.boxes.filter((box) => box.y < middle && box.y + box.height > middle).sort((a, b) => a.x - b.x);
  const other = layer[layer.findIndex((box) => box.line === n) + step];
  return other ? other.line : n;
}

function stepInProof(key) {
  const boxes = Proof.picture.boxes, last = boxes[boxes.length - 1].line;
  const n = chosen && chosen.line ? shownLine(chosen.line) : 0;
  if (!n || key === "End") return last;
  if (key === "Home") return boxes[0].line;
  if (key === "ArrowUp") return (usesOf(n)[0] || { line: n }).line;
  if (key === "ArrowDown") return usersOf(n)[0] || n;
  return beside(n, key === "ArrowLeft" ? -1 : 1);
}

function proofKey(event) {
  if (event.ctrlKey || event.metaKey || event.altKey) return;
  if (["ArrowUp", "ArrowDown", "ArrowLeft", "ArrowRight", "Home", "End"].includes(event.key)) {
    const line = stepInProof(event.key);
    choose({ line }, "keys");
    bringIntoView(line);
  } else if (event.key === "+" || event.key === "=") setScale(Proof.scale * 1.25);
  else if (event.key === "-") setScale(Proof.scale / 1.25);
  else if (event.key === "0") setScale(fitScale());
  else if (event.key === "Enter" && chosen) byId("details").focus();
  else return;
  event.preventDefault();
}

function setFolded(folded) {
  Proof.folded = folded;
  byId("fold").checked = folded;
  drawProof();
  startScale();
  if (chosen && chosen.line) {
    choose({ line: shownLine(chosen.line) }, "fold");
    bringIntoView(chosen.line);
  }
}

function startProof() {
  if (!DATA.proof.length) return;
  byId("graph").hidden = false;
  byId("proof-tools").hidden = false;
  drawProof();
  startScale();
  byId("graph").addEventListener("scroll", () => requestAnimationFrame(afterScroll), { passive: true });
  byId("graph").addEventListener("keydown", proofKey);
  byId("fold").addEventListener("change", (event) => setFolded(event.target.checked));
  byId("larger").addEventListener("click", () => setScale(Proof.scale * 1.25));
  byId("smaller").addEventListener("click", () => setScale(Proof.scale / 1.25));
  byId("fit").addEventListener("click", () => setScale(fitScale()));
  byId("natural").addEventListener("click", () => setScale(1));
  onChoose((what, by) => {
    markNodes();
    if (what && what.line && by !== "proof") bringIntoView(shownLine(what.line));
  });
}
