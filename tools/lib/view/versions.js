// The versions of the finders: tables as grids, what changed since the version before, and the claims.

const Versions = { all: [], now: 0, slices: 0 };
const MOST_SLICES = 32;

function listVersions() {
  DATA.versions.forEach((list, f) => list.forEach((version, k) => Versions.all.push({ finder: f + 1, place: k, version, before: k ? list[k - 1] : null })));
}

function seenWords(entry) {
  return entry.version.seen ? `seen from turn ${number(entry.version.seen)} on` : "seen after the last turn alone";
}

function claimButton(n, kind) {
  const known = CLAUSES.get(n);
  const words = { new: "new here", gone: "no longer claimed", same: "" }[kind];
  const title = [known && known.text ? known.text : `clause ${n}, whose text isn't in the run text`, words].filter(Boolean).join("; ");
  return el("li", { class: kind }, el("button", { type: "button", title, "aria-label": `claim ${n}: ${title}`, onclick: () => choose({ clause: n }, "versions") },
    (kind === "new" ? "+" : kind === "gone" ? "−" : "") + n));
}

function drawClaims(entry) {
  const now = new Set(entry.version.claims), old = new Set(entry.before ? entry.before.claims : []);
  const list = el("ul", { class: "claims" });
  for (const n of now) list.append(claimButton(n, entry.before && !old.has(n) ? "new" : "same"));
  for (const n of old) if (!now.has(n)) list.append(claimButton(n, "gone"));
  const added = [...now].filter((n) => !old.has(n)).length;
  return [el("h3", {}, `Claims: ${plural(now.size, "input clause")} that it makes true` + (entry.before ? `, ${added} more than before` : "")), list];
}

// -- grids

function cell(entries, old, at, role) {
  const value = entries[at], was = old ? old[at] : value;
  const classes = [value !== was ? "changed" : "", role === "predicate" && value === "1" ? "one" : ""].filter(Boolean).join(" ");
  if (value === was) return el("td", { class: classes || null }, value);
  return el("td", { class: classes, title: `was ${was}`, "aria-label": `${value}, was ${was}` }, el("s", {}, was), value);
}

function flatGrid(count, entries, old, role) {
  const head = el("tr", {}), body = el("tr", {});
  for (let i = 0; i < count; i++) {
    if (count > 1) head.append(el("th", { scope: "col" }, String(i)));
    body.append(cell(entries, old, i, role));
  }
  return el("table", {}, count > 1 ? el("thead", {}, head) : null, el("tbody", {}, body));
}

function squareGrid(size, entries, old, from, role) {
  const head = el("tr", {}, el("th", {}, ""));
  for (let i = 0; i < size; i++) head.append(el("th", { scope: "col" }, String(i)));
  const body = el("tbody", {});
  for (let r = 0; r < size; r++) {
    const row = el("tr", {}, el("th", { scope: "row" }, String(r)));
    for (let c = 0; c < size; c++) row.append(cell(entries, old, from + r * size + c, role));
    body.append(row);
  }
  return el("table", {}, el("thead", {}, head), body);
}

function sliceName(name, arity, size, slice) {
  const places = [];
  for (let i = 0; i < arity - 2; i++) { places.unshift(slice % size); slice = Math.floor(slice / size); }
  return `${name}(${places.concat(["·", "·"]).join(",")})`;
}

function drawSlices(box, symbol, size, entries, old, shown) {
  const [role, name, arity] = symbol, count = size ** (arity - 2);
  const upto = Math.min(count, shown);
  for (let slice = box.children.length; slice < upto; slice++) {
    box.append(el("figure", { class: "grid" }, el("figcaption", {}, sliceName(name, arity, size, slice)), squareGrid(size, entries, old, slice * size * size, role)));
  }
  return count - upto;
}

function changedCount(entries, old) {
  let count = 0;
  if (old) for (let i = 0; i < entries.length; i++) if (entries[i] !== old[i]) count++;
  return count;
}

function drawTable(symbol, size, entries, old) {
  const [role, name, arity] = symbol;
  const changed = changedCount(entries, old);
  const caption = el("figcaption", {}, `${name}${arity ? "/" + arity : ""} `, el("small", {}, role + (changed ? `, ${plural(changed, "change")}` : "")));
  const figure = el("figure", { class: "grid" }, caption);
  if (arity < 2) figure.append(flatGrid(arity ? size : 1, entries, old, role));
  else if (arity === 2) figure.append(squareGrid(size, entries, old, 0, role));
  else {
    const box = el("div", { class: "slices" });
    let left = drawSlices(box, symbol, size, entries, old, MOST_SLICES);
    figure.append(box);
    if (left > 0) {
      const more = el("button", { type: "button", onclick: () => {
        left = drawSlices(box, symbol, size, entries, old, box.children.length + MOST_SLICES);
        if (left > 0) more.textContent = `${number(left)} more of these grids aren't drawn yet: draw the next`; else more.remove();
      } }, `${number(left)} more of these grids aren't drawn yet: draw the next`);
      figure.append(more);
    }
  }
  return figure;
}

function changedWords(changes) {
  if (changes === 0) return "No entry differs from the version before. ";
  return `${changes === 1 ? "One entry differs" : number(changes) + " entries differ"} from the version before: marked, with the old entry struck out. `;
}

function drawVersion() {
  const entry = Versions.all[Versions.now], { version, before } = entry;
  const comparable = before && before.size === version.size;
  byId("version").value = String(Versions.now);
  byId("version-before").disabled = Versions.now === 0;
  byId("version-behind").disabled = Versions.now === Versions.all.length - 1;
  let changes = 0;
  const grids = el("div", { class: "grids" });
  DATA.symbols.forEach((symbol, i) => {
    const old = comparable ? before.entries[i] : null;
    changes += changedCount(version.entries[i], old);
    grids.append(drawTable(symbol, version.size, version.entries[i], old));
  });
  byId("version-note").textContent = `Finder ${entry.finder}, version ${entry.place}: size ${version.size}, ${seenWords(entry)}. `
    + (comparable ? changedWords(changes) : "The first of its finder. ")
    + `A row is the first argument, a column the second.`;
  byId("tables").replaceChildren(...drawClaims(entry), el("h3", {}, "Tables"), grids);
  drawStrip();
}

// All versions at a glance: a bar each, as high as its claims are many.
function drawStrip() {
  const most = Versions.all.reduce((least, entry) => Math.max(least, entry.version.claims.length), 1);
  const wide = Versions.all.length > 80 ? 8 : 16;
  const root = svg("svg", { width: Versions.all.length * wide + 4, height: 58, role: "img", "aria-label": "Claims of each version" });
  Versions.all.forEach((entry, i) => {
    const high = 4 + 32 * entry.version.claims.length / most;
    const bar = svg("rect", { x: 2 + i * wide, y: 40 - high, width: wide - 3, height: high, class: i === Versions.now ? "now" : "", onclick: () => showVersion(i) },
      svg("title", {}, `finder ${entry.finder}, version ${entry.place}: ${plural(entry.version.claims.length, "claim")}, ${seenWords(entry)}`));
    root.append(bar);
    if (entry.place === 0) root.append(svg("text", { x: 2 + i * wide, y: 54 }, `finder ${entry.finder}`));
  });
  byId("version-strip").replaceChildren(root);
}

function showVersion(i) {
  if (i < 0 || i >= Versions.all.length) return;
  Versions.now = i;
  drawVersion();
}

function startVersions() {
  listVersions();
  if (!Versions.all.length) return;
  byId("version-tools").hidden = false;
  Versions.all.forEach((entry, i) => byId("version").append(el("option", { value: i }, `finder ${entry.finder}, ${entry.place}: ${plural(entry.version.claims.length, "claim")}`)));
  byId("version").addEventListener("change", (event) => showVersion(Number(event.target.value)));
  byId("version-before").addEventListener("click", () => showVersion(Versions.now - 1));
  byId("version-behind").addEventListener("click", () => showVersion(Versions.now + 1));
  showVersion(lastGuide());
}

// The guide at the end, where a row names it; else the last version.
function lastGuide() {
  const guide = DATA.proof.length ? DATA.proof[0].mark : TURNS ? guideOf(TURNS) : [0, 0];
  const at = Versions.all.findIndex((entry) => entry.finder === guide[0] && entry.place === guide[1]);
  return at < 0 ? Versions.all.length - 1 : at;
}
