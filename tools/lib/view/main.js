// What is chosen is told beside the page; keys that serve everywhere; the start.

function button(text, what) {
  return el("button", { type: "button", onclick: () => choose(what, "panel") }, text);
}

// A clause with some of its literals marked: those that steps use, and what the chosen step uses of it.
function clauseText(line, used) {
  const code = el("code", { class: "clause" });
  if (!line.literals.length) code.append("$F");
  line.literals.forEach((literal, i) => {
    if (i) code.append(" | ");
    code.append(el("span", { class: used.has(i + 1) ? "used" : null }, literal));
  });
  return code;
}

// The literal that a step uses, with the term that it replaces.
function usedPart(use) {
  const literal = lineOf(use.line).literals[use.literal - 1];
  if (literal === undefined) return null;
  if (!use.span) return el("code", { class: "whole" }, el("mark", {}, literal));
  const [start, end] = use.span;
  return el("code", { class: "whole" }, literal.slice(0, start), el("mark", {}, literal.slice(start, end)), literal.slice(end));
}

// The words of a line, in which the literals that they name don't break behind a sign.
function lineWords(line, folded) {
  const parts = [];
  let left = line.words[folded] + ".";
  for (const use of line.uses[0]) {
    const literal = lineOf(use.line).literals[use.literal - 1];
    const at = literal === undefined ? -1 : left.indexOf(", " + literal);
    if (at < 0) continue;
    parts.push(left.slice(0, at + 2), el("code", { class: "whole" }, literal));
    left = left.slice(at + 2 + literal.length);
  }
  return el("p", {}, ...parts, left);
}

function lineDetails(n) {
  const line = lineOf(n), folded = Proof.folded && !lineOf(n).folds ? 1 : 0;
  const truth = line.mark[2];
  const users = DATA.proof.filter((other) => !(folded && other.folds) && other.uses[folded].some((use) => use.line === n));
  const used = new Set();
  for (const user of users) for (const use of user.uses[folded]) if (use.line === n && use.literal) used.add(use.literal);
  const parts = [el("h3", {}, `Line ${n}`), clauseText(line, used), lineWords(line, folded),
    el("p", {}, glyph(truth), ` ${TRUTH_WORDS[truth]} in ${versionName(line.mark)}, the guide at the end.`)];
  if (Proof.folded && line.folds) parts.push(el("p", {}, "In the picture the line is folded into the steps that use it."));
  const numbers = DATA.proved.filter(([, at]) => at === n).map(([k]) => k);
  if (numbers.length) parts.push(el("p", {}, "The clause of this line: ", ...numbers.map((k) => button(`clause ${k}`, { clause: k }))));
  if (line.uses[folded].length) {
    parts.push(el("h3", {}, "It uses"), el("ul", {}, ...line.uses[folded].map((use) => el("li", {}, button(`line ${use.line}`, { line: use.line }), " ",
      use.literal ? el("span", {}, `literal ${use.literal}: `, usedPart(use)) : null, use.terms ? el("span", {}, ` with ${use.terms}`) : null))));
  }
  parts.push(el("h3", {}, users.length ? "It is used by" : "No line uses it"), el("ul", {}, ...users.map((other) => el("li", {}, button(`line ${other.number}`, { line: other.number }), " ", el("code", { class: "whole" }, other.text)))));
  return parts;
}

function clauseDetails(n) {
  const clause = CLAUSES.get(n);
  const parts = [el("h3", {}, `Clause ${n}`)];
  if (!clause) return parts.concat(el("p", {}, "The run text tells nothing else of it."));
  parts.push(clause.text ? el("code", { class: "clause" }, clause.text) : el("p", {}, "An input clause whose text isn't in the run text."));
  if (clause.kept || clause.place !== undefined) parts.push(el("p", {}, `Kept in turn ${number(clause.kept)}, of weight ${number(clause.weight)}.`));
  else parts.push(el("p", {}, "An input clause" + (clause.list ? ` of list ${clause.list}` : "") + (clause.weight === null ? "." : `, of weight ${number(clause.weight)}.`)));
  if (clause.given) {
    const truth = truthOf(clause.given);
    parts.push(el("p", {}, `Given in turn ${number(clause.given)} by ${causeOf(clause.given)}; `, glyph(truth), ` ${TRUTH_WORDS[truth]} in ${versionName(guideOf(clause.given))}.`));
    parts.push(el("p", {}, "Versions seen then: " + (lengthsOf(clause.given).map((count, f) => `${count} of finder ${f + 1}`).join(", ") || "none told") + "."));
  } else parts.push(el("p", {}, "Never given."));
  if (clause.line) parts.push(el("p", {}, "It stands in the proof: ", button(`line ${clause.line}`, { line: clause.line })));
  else if (DATA.proof.length) parts.push(el("p", {}, "It doesn't stand in the proof."));
  const claims = Versions.all.filter((entry) => entry.version.claims.includes(n)).length;
  if (claims) parts.push(el("p", {}, `${plural(claims, "version")} claims it.`.replace("versions claims", "versions claim")));
  return parts;
}

function showPanel(what) {
  byId("panel").hidden = !what;
  document.querySelector(".content").classList.toggle("open", Boolean(what));
  if (what) byId("details").replaceChildren(...(what.line ? lineDetails(what.line) : clauseDetails(what.clause)));
}

function closePanel() {
  choose(null, "close");
}

// -- keys that serve everywhere

function isTyping(target) {
  return target instanceof HTMLElement && (target.matches("input, select, textarea") || target.isContentEditable);
}

function pageKey(event) {
  if (event.ctrlKey || event.metaKey || event.altKey) return;
  if (event.key === "Escape" && !byId("help").open) {
    if (document.activeElement === byId("search") && byId("search").value) { byId("search").value = ""; search(""); }
    else closePanel();
    return;
  }
  if (isTyping(event.target) || byId("help").open) return;
  const keys = { "/": () => byId("search").focus(), "?": () => byId("help").showModal(), f: () => DATA.proof.length && setFolded(!Proof.folded),
    "[": () => showVersion(Versions.now - 1), "]": () => showVersion(Versions.now + 1) };
  if (!(event.key in keys)) return;
  keys[event.key]();
  event.preventDefault();
}

function searchKey(event) {
  if (event.key !== "Enter") return;
  if (Proof.found.size && !Rows.shown.length) choose({ line: [...Proof.found][0] }, "search");
  else if (Rows.shown.length) {
    byId("rows").scrollIntoView();
    byId("list").focus({ preventScroll: true });
    chooseRow(0);
  }
}

// -- the start

function relayout() {
  if (TURNS) drawTime();
  if (Rows.all.length) layRows();
}

function start() {
  onChoose(showPanel);
  startVersions();
  startProof();
  startTime();
  startRows();
  byId("close").addEventListener("click", closePanel);
  byId("help-button").addEventListener("click", () => byId("help").showModal());
  byId("help-close").addEventListener("click", () => byId("help").close());
  document.addEventListener("keydown", pageKey);
  let waiting = 0;
  byId("search").addEventListener("input", (event) => {
    clearTimeout(waiting);
    waiting = setTimeout(() => search(event.target.value), Rows.all.length > 4000 ? 120 : 0);
  });
  byId("search").addEventListener("keydown", searchKey);
  let width = window.innerWidth;
  window.addEventListener("resize", () => { if (window.innerWidth !== width) { width = window.innerWidth; relayout(); } });
  if (window.ResizeObserver) {
    let seen = byId("time").clientWidth;
    new ResizeObserver(() => { const now = byId("time").clientWidth; if (TURNS && now && now !== seen) { seen = now; drawTime(); } }).observe(byId("time"));
  }
  window.addEventListener("beforeprint", () => { printRows(); byId("as-text").open = true; });
  document.documentElement.dataset.ready = "yes";
  performance.mark("page-ready");
}

start();
