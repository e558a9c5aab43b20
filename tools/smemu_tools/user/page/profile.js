"use strict";
// Draws the flame graph of smemu profile --page: each function on top of those that it calls, as wide as the instructions in it and in these.
// A node is its name, its own instructions, those with all below it, and the nodes below it.
const data = JSON.parse(document.getElementById("data").textContent);
const [NAME, OWN, WHOLE, BELOW] = [0, 1, 2, 3];
const ROW = 20, LEAST_WIDTH = 1.5, LEAST_TEXT = 22;
const graph = document.getElementById("graph");
// the nodes from the top to the one that is as wide as the page
let path = [data];
let sought = "";

function made(tag, attributes, ...children) {
  const node = document.createElement(tag);
  for (const [name, value] of Object.entries(attributes)) {
    if (name.startsWith("on")) node.addEventListener(name.slice(2), value);
    else node.setAttribute(name, value);
  }
  node.append(...children);
  return node;
}

const number = value => value.toLocaleString("en");
const share = value => `${(100 * value / (data[WHOLE] || 1)).toFixed(1)}%`;
const isSought = node => sought !== "" && node[NAME].toLowerCase().includes(sought);

// a function has the same colour each time
function colour(name) {
  let hash = 7;
  for (const letter of name) hash = (hash * 31 + letter.codePointAt(0)) % 9973;
  return `hsl(${20 + hash % 36} ${72 + hash % 17}% ${62 + hash % 13}%)`;
}

const told = made("p", {id: "told"});
const frames = made("div", {id: "frames"});
const back = made("button", {onclick: () => choose([data])}, "all of it");
const search = made("input", {type: "search", placeholder: "find a function", "aria-label": "find a function", oninput: () => {
  sought = search.value.trim().toLowerCase();
  draw();
}});
graph.append(made("div", {class: "bar"}, search, back), told, frames);

function tell(node) {
  const calls = node[WHOLE] - node[OWN];
  told.textContent = `${node[NAME]}: ${number(node[WHOLE])} instructions, ${share(node[WHOLE])}`
    + (calls && node[OWN] ? `, of them ${number(node[OWN])} its own` : "");
}

// the instructions in functions that are sought, each once
const found = node => isSought(node) ? node[WHOLE] : node[BELOW].reduce((sum, it) => sum + found(it), 0);

function rest() {
  if (sought) told.textContent = `“${sought}”: ${number(found(data))} instructions, ${share(found(data))}`;
  else tell(path[path.length - 1]);
}

function choose(nodes) {
  path = nodes;
  draw();
}

function frame(nodes, left, width, depth, isAbove) {
  const node = nodes[nodes.length - 1];
  const kind = (isAbove ? "above " : "") + (sought && !isSought(node) ? "other" : "");
  const shown = made("button", {
    class: kind, style: `left:${left}px;width:${width}px;top:${depth * ROW}px;background:${colour(node[NAME])}`,
    "aria-label": `${node[NAME]}, ${share(node[WHOLE])}`, onclick: () => choose(nodes), onmouseenter: () => tell(node), onfocus: () => tell(node), onmouseleave: rest,
  });
  if (width >= LEAST_TEXT) shown.textContent = node[NAME];
  else shown.style.padding = "0";
  frames.append(shown);
}

function below(nodes, left, width, depth) {
  const node = nodes[nodes.length - 1];
  let at = left, deepest = depth;
  for (const it of node[BELOW]) {
    const wide = width * it[WHOLE] / node[WHOLE];
    if (wide >= LEAST_WIDTH) {
      frame([...nodes, it], at, wide, depth, false);
      deepest = Math.max(deepest, below([...nodes, it], at, wide, depth + 1));
    }
    at += wide;
  }
  return deepest;
}

function draw() {
  const width = frames.clientWidth || graph.clientWidth;
  frames.replaceChildren();
  path.forEach((_, depth) => frame(path.slice(0, depth + 1), 0, width, depth, depth < path.length - 1));
  const deepest = data[WHOLE] ? below(path, 0, width, path.length) : 1;
  frames.style.height = `${(deepest + 1) * ROW}px`;
  back.disabled = path.length === 1;
  rest();
}

window.addEventListener("resize", draw);
draw();
