"use strict";
// Place K is where K items are before it, as `gp2 step` counts. The page's address says it: #at=K.
// looks[N] is what a node or an edge may look like, and changes[K] has what looks otherwise at place K than at the one
// before: names and numbers of looks in turn. The look 0 is that of what is not there.
const part = (id) => document.getElementById(id);
const items = Array.from(document.querySelectorAll("#places li"));
const last = items.length - 1;

// ---- the picture: its parts, and for each place what changes on the way there and back

const seen = new Map(); // the look of each part, at the place of which `moves` is made
const matched = []; // at each place, what the next item matches: names of nodes, and their texts
const text_of = (name, look) => !name.startsWith("n") ? look.label : look.label === "" ? name : name + ": " + look.label;
const nodes_of = (item) => {
  const words = item.dataset.item.split(" ");
  return words[0] === "step" ? words.slice(3, words.indexOf("edges")).map((number) => "n" + number) : [];
};
const moves = changes.map((change, place) => {
  const made = [];
  for (let at = 0; at < change.length; at += 2) {
    made.push([change[at], seen.get(change[at]) || 0, change[at + 1]]);
    seen.set(change[at], change[at + 1]);
  }
  matched.push(nodes_of(items[place]).map((name) => [name, looks[seen.get(name)].label.toLowerCase()]));
  return made;
});
const shown = new Map(); // the look of each part that was ever shown
let nodes = 0; // how many are shown
const pictured = new Map(Array.from(seen.keys(), (name) => [name, { of: part(name), text: part(name).querySelector("text") }]));
const is_sought = (name, look) => query !== "" && look > 0 && name.startsWith("n") && names(name, looks[look].label.toLowerCase());

function put(name, number) {
  const { of, text } = pictured.get(name), look = looks[number], is_node = name.startsWith("n");
  if (is_node) nodes += (number > 0) - (shown.get(name) > 0);
  shown.set(name, number);
  of.setAttribute("class", [is_node ? "node" : "edge", look.classes, is_sought(name, number) ? "sought" : ""].join(" ").trim());
  if (text && number > 0) text.textContent = text_of(name, look);
}

let at = -1; // before the first place nothing is there
function show(place) {
  const there = Math.min(Math.max(place, 0), last), changed = new Map();
  while (at < there) for (const [name, , now] of moves[++at]) changed.set(name, now);
  while (at > there) for (const [name, before] of moves[at--]) changed.set(name, before);
  changed.forEach((number, name) => put(name, number));
  const here = items[at], list = part("journal");
  document.querySelectorAll("#places li.now").forEach((old) => old.classList.remove("now"));
  here.classList.add("now");
  const end = here.offsetTop + here.offsetHeight - list.clientHeight;
  list.scrollTop = Math.max(Math.min(list.scrollTop, here.offsetTop), end);
  part("empty").classList.toggle("gone", nodes > 0);
  part("at").textContent = "at " + at + " of " + last;
  part("item").textContent = here.dataset.item;
  part("note").textContent = here.dataset.note;
}
function go(place) {
  show(place);
  try { history.replaceState(null, "", "#at=" + at); } catch (refused) { location.hash = "at=" + at; }
}
function read_address() { const said = /^#at=([0-9]+)$/.exec(location.hash); show(said ? Number(said[1]) : 0); }

// ---- the search: a rule by a part of its name, a node by its name, or by a part of its label

let query = "", found = [];
function names(node, label) { return /^n[0-9]+$/.test(query) ? node === query : label.includes(query); }
function search() {
  query = part("search").value.trim().toLowerCase();
  const is_found = (item, place) => query !== "" &&
    ((item.dataset.rule || "").toLowerCase().includes(query) || matched[place].some(([node, label]) => names(node, label)));
  found = items.map((item, place) => (is_found(item, place) ? place : -1)).filter((place) => place >= 0);
  items.forEach((item) => item.classList.remove("found"));
  found.forEach((place) => items[place].classList.add("found"));
  document.documentElement.classList.toggle("searched", query !== "");
  part("found").textContent = query === "" ? "" : found.length === 1 ? "1 step" : found.length + " steps";
  shown.forEach((number, name) => put(name, number));
}
function go_to_found(is_back) {
  if (found.length === 0) return;
  const next = is_back ? found.filter((place) => place < at).pop() : found.find((place) => place > at);
  go(next === undefined ? found[is_back ? found.length - 1 : 0] : next);
}

// ---- keys and clicks

const keys = {
  ArrowRight: () => at + 1, ArrowDown: () => at + 1, ArrowLeft: () => at - 1, ArrowUp: () => at - 1,
  PageDown: () => at + 10, PageUp: () => at - 10, Home: () => 0, End: () => last,
};
document.addEventListener("keydown", (event) => {
  if (event.ctrlKey || event.altKey || event.metaKey || event.target === part("search")) return;
  if (event.key === "/") part("search").focus();
  else if (event.key in keys) go(keys[event.key]());
  else return;
  event.preventDefault();
});
part("search").addEventListener("keydown", (event) => {
  if (event.key === "Enter") go_to_found(event.shiftKey);
  if (event.key !== "Escape") return;
  part("search").value = "";
  search();
  part("search").blur();
});
part("search").addEventListener("input", search);
document.querySelectorAll("button").forEach((button) => button.addEventListener("click", () => go(keys[button.dataset.key]())));
items.forEach((item, place) => item.addEventListener("click", () => go(place)));
window.addEventListener("hashchange", read_address);
read_address();
