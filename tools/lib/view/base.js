"use strict";
// The data of the page, the parts that make elements, and the index of clauses by number.

const DATA = JSON.parse(document.getElementById("data").textContent);
const CAUSES = ["age", "false", "weight"];
const TRUTHS = ["true", "false", "wide"];
const GLYPHS = { true: "●", false: "▲", wide: "◇" };
const TRUTH_WORDS = { true: "true", false: "false", wide: "too wide for a mark" };

const byId = (id) => document.getElementById(id);

function fill(node, attributes, children) {
  for (const [name, value] of Object.entries(attributes || {})) {
    if (value === null || value === undefined || value === false) continue;
    if (name.startsWith("on")) node.addEventListener(name.slice(2), value);
    else node.setAttribute(name, value === true ? "" : value);
  }
  for (const child of children) {
    if (child !== null && child !== undefined) node.append(child);
  }
  return node;
}

function el(tag, attributes, ...children) {
  return fill(document.createElement(tag), attributes, children);
}

function svg(tag, attributes, ...children) {
  return fill(document.createElementNS("http://www.w3.org/2000/svg", tag), attributes, children);
}

function glyph(truth) {
  return el("span", { class: "truth " + truth, title: TRUTH_WORDS[truth], "aria-label": TRUTH_WORDS[truth] }, GLYPHS[truth]);
}

// A mark as a path of a radius r about (x, y): a disc, a triangle, a lozenge.
function markPath(truth, x, y, r) {
  if (truth === "true") return `M${x - r} ${y}a${r} ${r} 0 1 0 ${2 * r} 0a${r} ${r} 0 1 0 ${-2 * r} 0z`;
  if (truth === "false") return `M${x} ${y - r * 1.15}L${x + r * 1.15} ${y + r}H${x - r * 1.15}z`;
  return `M${x} ${y - r * 1.25}L${x + r * 1.25} ${y}L${x} ${y + r * 1.25}L${x - r * 1.25} ${y}z`;
}

const number = (value) => value.toLocaleString("en-US");
const plural = (count, word) => `${number(count)} ${word}${count === 1 ? "" : "s"}`;

function versionName(guide) {
  return guide[0] === 0 ? "the opening version" : `version ${guide[1]} of finder ${guide[0]}`;
}

// -- clauses by number: what is known of each, and where

const GIVEN = DATA.given, KEPT = DATA.kept;
const CLAUSES = new Map();

function clauseOf(n) {
  if (!CLAUSES.has(n)) CLAUSES.set(n, { number: n, text: null, weight: null, kept: 0, given: 0, line: 0, list: null });
  return CLAUSES.get(n);
}

function indexClauses() {
  for (const [n, text, weight, list] of DATA.inputs) Object.assign(clauseOf(n), { text, weight, list });
  KEPT.number.forEach((n, i) => Object.assign(clauseOf(n), { text: KEPT.clause[i], weight: KEPT.weight[i], kept: KEPT.turn[i], place: i }));
  GIVEN.number.forEach((n, i) => { clauseOf(n).given = i + 1; });
  for (const [n, line] of DATA.proved) clauseOf(n).line = line;
}

indexClauses();
const isProved = (n) => CLAUSES.has(n) && CLAUSES.get(n).line > 0;
const guideOf = (turn) => DATA.guides[GIVEN.guide[turn - 1]];
const lengthsOf = (turn) => DATA.lengths[GIVEN.seen[turn - 1]];
const truthOf = (turn) => TRUTHS[GIVEN.truth[turn - 1]];
const causeOf = (turn) => CAUSES[GIVEN.cause[turn - 1]];
const TURNS = GIVEN.number.length;

// What is chosen; each part of the page says by `onChoose` what it does then.
const listeners = [];
let chosen = null;

function onChoose(listener) { listeners.push(listener); }

// what: { line } or { clause } or null; by: the part that asks, which doesn't move then.
function choose(what, by) {
  chosen = what;
  for (const listener of listeners) listener(what, by);
}
