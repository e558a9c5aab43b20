"use strict";
// What smemu show --page embeds: the reports, as report_page.py writes them. Vectors and rows of ZA that are zero are not in them.
const data = JSON.parse(document.getElementById("data").textContent);
const SIZES = {b: 1, h: 2, s: 4, d: 8};
const COLOURS = {ld: "#2f7ed8", st: "#d9541e", swp: "#8f5bd0", add: "#1d9a6c", clr: "#b08900", eor: "#6b7785", set: "#c0392b", umax: "#0097a7",
                 umin: "#5d4037", cas: "#d81b78", post: "#111a66", poll: "#9aa3ad"};
// so many columns and rows of a tile are written as numbers, so many elements are a map
const WINDOW = 16, LEAST_CELL = 2, MOST_CELL = 22;
// of the events the first that is drawn, and the one that is chosen: its number, and its thread where there is no order between threads
const state = {...data.first, report: data.reports.length - 1, windows: {}, event: 0, at: null};

function node(tag, attributes, ...children) {
  const made = document.createElement(tag);
  for (const [name, value] of Object.entries(attributes || {})) {
    if (name.startsWith("on")) made.addEventListener(name.slice(2), value);
    else if (value !== null && value !== false) made.setAttribute(name, value === true ? "" : value);
  }
  made.append(...children.filter(it => it !== null));
  return made;
}

function drawn(tag, attributes, ...children) {
  const made = document.createElementNS("http://www.w3.org/2000/svg", tag);
  for (const [name, value] of Object.entries(attributes)) made.setAttribute(name, value);
  made.append(...children);
  return made;
}

// a part of the page that is drawn; of one without content there is a text, which stands in one line with the others
const isDrawn = it => it instanceof Node;

// ---- values

const reportOf = number => data.reports[number];
const threadOf = number => reportOf(number).threads[state.thread];
// the other report's thread of the same number, where there is one
const other = () => data.reports.length > 1 ? threadOf(1 - state.report) : undefined;

function bytesOf(digits) {
  const bytes = new Uint8Array(digits.length / 2);
  for (let at = 0; at < bytes.length; at++) bytes[at] = parseInt(digits.substr(2 * at, 2), 16);
  return bytes;
}

// the bytes of a vector, or of a row of ZA, which is zero where it is not there
const vector = (held, number, length) => held && held[number] ? bytesOf(held[number]) : new Uint8Array(length);

function elements(bytes, size, how) {
  const view = new DataView(bytes.buffer), found = [];
  const kind = (how === "signed" ? "Int" : "Uint") + 8 * size;
  for (let at = 0; at + size <= bytes.length; at += size) {
    found.push(view[`get${size === 8 ? "Big" : ""}${kind}`](at, true));
  }
  return found;
}

// a number of 64 bits, of its digits; and an address with its function and its line, where the program was given
const text64 = digits => state.how === "hex" ? digits : BigInt.asIntN(state.how === "signed" ? 64 : 65, BigInt("0x" + digits)).toString();
const nameOf = digits => {
  const place = reportOf(state.report).places[digits.replace(/^0+(?=.)/, "")];
  return place ? [place[0], place[1]].filter(Boolean).join(" ") : "";
};
const textOf = (value, how, size) => how === "hex" ? value.toString(16).padStart(2 * size, "0") : value.toString();
const isZero = value => Number(value) === 0;
const absolute = value => Math.abs(Number(value));

const styleOf = name => getComputedStyle(document.documentElement).getPropertyValue(name);
// a value's colour: its sign, and as strong as its logarithm, up to `top`, at which a number on it can still be read
const READABLE = 0.62;
const colour = (value, most, top = READABLE) => {
  const strength = isZero(value) ? 0 : 0.1 + (top - 0.1) * Math.log1p(absolute(value)) / Math.log1p(most);
  return `rgba(${styleOf(value < 0 ? "--less" : "--more")}, ${strength.toFixed(3)})`;
};

const classOf = (value, differs) => [isZero(value) && "zero", differs && "differs"].filter(Boolean).join(" ") || null;

// ---- registers and vectors

function register(name, text, was, more = {}) {
  const differs = was !== undefined && was !== text, zero = /^[0 ]*$/.test(text);
  const kinds = ["register", more.long && "long", differs && "differs", zero && !differs && more.general && "none"].filter(Boolean);
  const title = [differs && `the other report: ${was}`, more.digits && state.how !== "hex" && `0x${more.digits}`].filter(Boolean).join(", ");
  return node("div", {class: kinds.join(" "), "data-name": name, title: title || null},
    node("b", {}, name), node("span", {class: zero ? "zero" : null}, text), more.place ? node("i", {}, more.place) : null);
}

// the stop, and what decides what the thread's instructions mean
function headline() {
  const thread = threadOf(state.report), was = other();
  const bits = it => ({pc: it.pc, sm: String(it.svcr & 1), za: String(it.svcr >> 1), tpidr2: it.tpidr2});
  const before = was ? bits(was) : {};
  const titles = {sm: "PSTATE.SM", za: "PSTATE.ZA", tpidr2: "TPIDR2_EL0", pc: "PC"};
  return node("section", {id: "top"}, node("p", {class: thread.failed ? "failed" : null}, thread.stop), node("div", {class: "registers"},
    ...Object.entries(bits(thread)).map(([name, text]) => {
      const made = register(name, text, was && before[name], {place: name === "pc" ? nameOf(text) : ""});
      made.firstChild.textContent = titles[name];
      return made;
    })));
}

function registersOf(thread) {
  const found = {};
  thread.x.forEach((value, number) => { found["x" + number] = value; });
  for (const name of ["sp", "tpidr", "nzcv"]) found[name] = thread[name];
  return found;
}

function kernelOf(thread) {
  const inside = thread.mask === null ? {inside: String(thread.depth)} : {mask: thread.mask, depth: String(thread.depth)};
  const found = {count: String(thread.count), turns: String(thread.turns), held: thread.held, ...inside, polled: String(thread.polled)};
  for (const [signal, address] of Object.entries(thread.handlers)) found["handler " + signal] = address;
  found.memory = `${thread.pages} pages, ${thread.digest}`;
  return found;
}

function registers(title, read) {
  const held = read(threadOf(state.report)), was = other() ? read(other()) : {};
  const shown = Object.entries(held).map(([name, text]) => {
    const isGeneral = /^x\d/.test(name), say = digits => isGeneral && digits !== "none" ? text64(digits) : digits;
    const place = name === "x30" || name.startsWith("handler") ? nameOf(text) : "";
    return register(name, say(text), other() && say(was[name] || "none"), {long: name === "memory", general: true, digits: isGeneral && text, place});
  });
  const none = shown.filter(it => it.classList.contains("none")).length;
  return node("section", {id: title.toLowerCase()}, node("h2", {}, title), node("div", {class: "registers"}, ...shown),
    none ? node("p", {class: "dim phone"}, `${none} that are zero are left out`) : null);
}

function cells(values, before) {
  const size = SIZES[state.size], most = Math.max(1, ...values.map(absolute)), texts = values.map(value => textOf(value, state.how, size));
  const columns = `grid-template-columns: repeat(auto-fill, ${Math.max(...texts.map(text => text.length)) + 1}ch)`;
  return node("div", {class: "cells", style: columns}, ...values.map((value, at) => {
    const differs = before && before[at] !== value;
    return node("span", {class: classOf(value, differs), style: `background: ${colour(value, most)}`,
      title: `element ${at}` + (differs ? `, the other report: ${textOf(before[at], state.how, size)}` : "")}, texts[at]);
  }));
}

const lengthNote = thread => other() && other().length !== thread.length ? `, of ${8 * other().length} bits in the other report` : "";

function vectors() {
  const thread = threadOf(state.report), section = node("section", {id: "vectors"}, node("h2", {}, `Vectors of ${8 * thread.length} bits${lengthNote(thread)}`));
  for (let number = 0; number < 32; number++) {
    if (!thread.z[number] && !(other() && other().z[number])) continue;
    const read = it => elements(vector(it.z, number, it.length), SIZES[state.size], state.how);
    section.append(node("h3", {}, `z${number}.${state.size}`), cells(read(thread), other() && other().length === thread.length ? read(other()) : null));
  }
  return section.children.length > 1 ? section : {zero: `vectors of ${8 * thread.length} bits${lengthNote(thread)}`};
}

function bitsOf(thread, name) {
  const bytes = name === "ffr" ? bytesOf(thread.ffr || "00".repeat(thread.length / 8)) : vector(thread.p, name.slice(1), thread.length / 8), found = [];
  for (let bit = 0; bit < 8 * bytes.length; bit += SIZES[state.size]) found.push(bytes[bit >> 3] >> (bit & 7) & 1);
  return found;
}

function predicates() {
  const thread = threadOf(state.report), section = node("section", {id: "predicates"}, node("h2", {}, "Predicates"));
  const holds = (it, name) => it && (name === "ffr" ? it.ffr : it.p[name.slice(1)]);
  for (const name of [...Array(16).keys()].map(number => "p" + number).concat("ffr")) {
    if (!holds(thread, name) && !holds(other(), name)) continue;
    section.append(node("h3", {}, `${name}.${state.size}`), cells(bitsOf(thread, name), other() && other().length === thread.length ? bitsOf(other(), name) : null));
  }
  return section.children.length > 1 ? section : {zero: "predicates"};
}

// ---- ZA

// the rows of a tile as elements
function tileOf(thread, tile, rows) {
  const size = SIZES[state.size], found = [];
  for (let row = tile; row < rows; row += size) found.push(elements(vector(thread.za, row, rows), size, state.how));
  return found;
}

const holdsTile = (thread, tile) => thread && thread.za && Object.keys(thread.za).some(row => row % SIZES[state.size] === tile);

function grid(values, before, most, at) {
  const size = SIZES[state.size], head = node("tr", {}, node("th", {}, ""));
  const rows = [...Array(Math.min(WINDOW, values.length)).keys()];
  for (const column of rows) head.append(node("th", {}, String(at.column + column)));
  return node("table", {class: "grid"}, head, ...rows.map(row => node("tr", {}, node("th", {}, String(at.row + row)), ...rows.map(column => {
    const value = values[at.row + row][at.column + column], was = before && before[at.row + row][at.column + column];
    const differs = before && was !== value;
    return node("td", {class: classOf(value, differs), style: `background: ${colour(value, most)}`,
      title: `row ${at.row + row}, column ${at.column + column}` + (differs ? `, the other report: ${textOf(was, state.how, size)}` : "")},
      textOf(value, state.how, size));
  }))));
}

function paint(canvas, values, before, most, cell) {
  const scale = window.devicePixelRatio || 1, length = values.length;
  canvas.width = canvas.height = Math.round(length * cell * scale);
  canvas.style.width = canvas.style.height = `${length * cell}px`;
  const context = canvas.getContext("2d"), gap = cell > 4 ? 1 : 0, corner = cell < 6 ? cell : Math.max(3, Math.round(cell / 3));
  const mark = styleOf("--differs"), known = {}, colours = value => known[value] = known[value] || colour(value, most, 0.95);
  context.scale(scale, scale);
  values.forEach((row, r) => row.forEach((value, c) => {
    context.fillStyle = colours(value);
    if (!isZero(value)) context.fillRect(c * cell, r * cell, cell - gap, cell - gap);
    if (before && before[r][c] !== value) {
      context.fillStyle = mark;
      context.fillRect(c * cell, r * cell, corner, corner);
    }
  }));
  context.strokeStyle = styleOf("--line");
  context.strokeRect(0, 0, length * cell, length * cell);
}

// a map of a tile that is too large to be written: what is pointed at is told, and a click moves the numbers there
function map(name, values, before, most, width, move) {
  const cell = Math.max(LEAST_CELL - 1, Math.min(MOST_CELL, Math.floor(width / values.length)));
  const told = node("output", {}, "point at an element; a click moves the numbers there");
  const place = event => {
    const box = event.target.getBoundingClientRect(), last = values.length - 1;
    const at = (from, to) => Math.max(0, Math.min(last, Math.floor((from - to) / box.width * values.length)));
    return {row: at(event.clientY, box.top), column: at(event.clientX, box.left)};
  };
  const canvas = node("canvas", {role: "img", "aria-label": `a map of ${name}`,
    onpointermove: event => {
      const {row, column} = place(event), value = values[row][column], was = before && before[row][column];
      told.textContent = `${name} row ${row}, column ${column}: ${textOf(value, state.how, SIZES[state.size])}`
        + (before && was !== value ? `, the other report: ${textOf(was, state.how, SIZES[state.size])}` : "");
    },
    onclick: event => move(place(event))});
  paint(canvas, values, before, most, cell);
  return node("div", {}, canvas, told);
}

function tile(number, width) {
  const thread = threadOf(state.report), rows = thread.rows, name = `za${number}.${state.size}`;
  const values = tileOf(thread, number, rows);
  const before = other() && other().za && other().rows === rows ? tileOf(other(), number, rows) : null;
  const most = Math.max(1, ...values.map(row => row.reduce((least, value) => Math.max(least, absolute(value)), 0)));
  const changed = before ? values.reduce((sum, row, r) => sum + row.filter((value, c) => value !== before[r][c]).length, 0) : 0;
  const box = node("div", {class: "tile", "data-tile": name});
  const last = Math.max(0, values.length - WINDOW), at = state.windows[name] || {row: 0, column: 0};
  const held = node("div", {class: "wide"});
  const move = to => {
    at.row = Math.max(0, Math.min(last, to.row));
    at.column = Math.max(0, Math.min(last, to.column));
    state.windows[name] = at;
    held.replaceChildren(grid(values, before, most, at));
    for (const input of box.querySelectorAll("input")) input.value = at[input.name];
  };
  if (last) {
    box.append(map(name, values, before, most, width, move));
    const input = part => node("label", {}, ` ${part} `, node("input", {type: "number", name: part, min: 0, max: last,
      onchange: event => move({...at, [part]: Number(event.target.value)})}));
    box.append(node("div", {}, node("p", {class: "dim"}, `the numbers of ${WINDOW} rows and columns from`, input("row"), input("column")), held));
  } else {
    box.append(held);
  }
  move(at);
  const note = changed ? `, ${changed} of ${values.length * values.length} elements differ` : "";
  return node("div", {}, node("h3", {}, `${name}: ${values.length} rows and columns${note}`), box);
}

function za() {
  const thread = threadOf(state.report);
  if (!thread.za) return {said: "ZA is off"};
  const shown = [...Array(SIZES[state.size]).keys()].filter(number => holdsTile(thread, number) || holdsTile(other(), number));
  const width = Math.min(560, document.body.clientWidth - 24);
  return shown.length ? node("section", {id: "za"}, node("h2", {}, "ZA"), ...shown.map(number => tile(number, width))) : {said: "ZA is on, and zero"};
}

// ---- output, shared words and events

function output() {
  const thread = threadOf(state.report);
  return thread.written ? node("section", {id: "output"}, node("h2", {}, `Output, ${thread.written} bytes`), node("pre", {}, thread.output)) : null;
}

// the shared word after an operation, of the word before it and both values
const ALL = (1n << 64n) - 1n;
const AFTER = {ld: word => word, st: (word, a) => a, swp: (word, a) => a, add: (word, a) => word + a & ALL, clr: (word, a) => word & ~a, eor: (word, a) => word ^ a,
               set: (word, a) => word | a, umax: (word, a) => word > a ? word : a, umin: (word, a) => word < a ? word : a, cas: (word, a, b) => word === a ? b : word};

// the shared words after some events, as far as these say
function wordsAfter(events) {
  const found = {};
  for (const [kind, place, a, b, answer] of events) {
    if (AFTER[kind]) found[place] = AFTER[kind](BigInt("0x" + answer), BigInt("0x" + a), BigInt("0x" + b)).toString(16).padStart(16, "0");
  }
  return found;
}

function wordsAtEnd() {
  const held = reportOf(state.report), was = data.reports.length > 1 && reportOf(1 - state.report), zero = "0".repeat(16), found = [];
  for (const [part, name] of [["shared", "word "], ["pending", "pending "]]) {
    const say = digits => part === "shared" ? text64(digits) : digits;
    const numbers = new Set([...Object.keys(held[part]), ...Object.keys(was ? was[part] : {})].map(Number));
    for (const number of [...numbers].sort((one, two) => one - two)) {
      const digits = held[part][number] || zero;
      found.push(register(name + number, say(digits), was ? say(was[part][number] || zero) : undefined, {digits: part === "shared" && digits}));
    }
  }
  return found.length ? node("section", {id: "shared"}, node("h2", {}, "Shared words"), node("div", {class: "registers"}, ...found)) : {zero: "shared words"};
}

function words() {
  if (state.at === null) return wordsAtEnd();
  const {thread, number} = state.at, found = eventsOf(reportOf(state.report)), isLane = found.lanes;
  const made = isLane ? threadEvents(thread).slice(0, number + 1) : found.events.slice(0, number + 1).map(event => event.slice(1));
  const held = Object.entries(wordsAfter(made)).map(([word, digits]) => register("word " + word, text64(digits), undefined, {digits}));
  const event = found.events.find(it => isLane ? it[0] === thread && it[6] === number : it[6] === number), place = placeOf(event);
  const last = (isLane ? threadEvents(thread) : found.events).length - 1;
  const button = (text, to, isThere) => node("button", {type: "button", disabled: !isThere, onclick: () => choose(to)}, text);
  return node("section", {id: "shared"}, node("h2", {}, isLane ? `Shared words as thread ${thread} knows them after its event ${number}` : `Shared words after event ${number}`),
    node("p", {}, `thread ${event[0]}: ${eventWords(event)}`, place ? node("span", {class: "dim"}, ` ${placeWords(place)}`) : null),
    node("div", {class: "registers"}, ...held),
    node("p", {}, button("the event before", {thread, number: number - 1}, number > 0), " ", button("the next event", {thread, number: number + 1}, number < last), " ",
      button("at the end", null, true)));
}

const threadEvents = thread => reportOf(state.report).threads[thread].journal;

// where an event was made: its count, its address, and what stands there; undefined where that is not known
function placeOf(event) {
  const at = reportOf(state.report).threads[event[0]].at;
  const [count, address] = at && at[event[7]] || [];
  if (count === undefined) return undefined;
  return {count, address, line: address && reportOf(state.report).places[address]};
}

// function, line and instruction
function placeWords(place) {
  const line = place.line || [];
  return [`at ${place.count}`, place.address && place.address.padStart(16, "0"), line[0], line[1]].filter(Boolean).join(" ") + (line[2] ? `: ${line[2]}` : "");
}

// the events to show as [thread, kind, place, a, b, answer, number, number in the thread's journal], and what their order is
function eventsOf(report) {
  const events = [];
  if (report.history) {
    const made = report.threads.map(() => 0);
    report.history.forEach((event, number) => events.push([...event, number, made[event[0]]++]));
    return {events, left: report.historyLeft, order: "in the order in which they were made", lanes: false};
  }
  report.threads.forEach((thread, number) => thread.journal.forEach((event, at) => events.push([number, ...event, at, at])));
  const left = report.threads.reduce((sum, thread) => sum + thread.journalLeft, 0);
  return {events, left, order: "each thread's in its own order; a report has no order between threads", lanes: true};
}

// an event's kind, place and values, and what it found
function eventWords([, kind, place, a, b, answer]) {
  const say = digits => state.how === "hex" ? `0x${digits}` : text64(digits.padStart(16, "0"));
  const given = {ld: "", poll: "", cas: ` ${say(a)}, ${say(b)}`}[kind];
  return `${kind} ${place}${given === undefined ? ` ${say(a)}` : given}` + (kind === "st" ? "" : ` \u2192 ${say(answer)}`);
}

const isChosen = event => state.at !== null && state.at.number === event[6] && (reportOf(state.report).history || state.at.thread === event[0]);

// shows the shared words after an event, or at the end
function choose(at) {
  state.at = at;
  drawEvents(at);
  document.getElementById("words").replaceChildren(...[words()].filter(isDrawn));
}

// draws the events again, with one of them among them
let drawEvents = () => {};

function lanes(report, found, first, count, step) {
  const threads = report.threads.length, left = 34, height = 20, width = left + count * step + 4;
  const svg = drawn("svg", {width, height: threads * height, viewBox: `0 0 ${width} ${threads * height}`});
  for (let thread = 0; thread < threads; thread++) {
    const y = thread * height + height / 2;
    svg.append(drawn("text", {x: 0, y: y + 4}, String(thread)), drawn("line", {x1: left - 8, x2: width, y1: y, y2: y}));
  }
  for (const event of found.events) {
    const number = event[6], place = placeOf(event);
    if (number < first || number >= first + count) continue;
    const mark = drawn("rect", {x: left + (number - first) * step, y: event[0] * height + 4, width: step - 3, height: height - 8, rx: 2, fill: COLOURS[event[1]],
      class: isChosen(event) ? "chosen" : ""});
    mark.addEventListener("click", () => choose({thread: event[0], number}));
    mark.append(drawn("title", {}, `event ${number}: thread ${event[0]} ${eventWords(event)}` + (place ? ` ${placeWords(place)}` : "")));
    svg.append(mark);
  }
  return svg;
}

function events() {
  const report = reportOf(state.report), found = eventsOf(report), step = 14;
  const title = report.history ? "History" : "Journals";
  const total = found.lanes ? Math.max(0, ...report.threads.map(thread => thread.journal.length)) : found.events.length;
  if (!total) return {said: "no events"};
  const section = node("section", {id: "events"}, node("h2", {}, `${title}, ${found.events.length + found.left} events`));
  const count = Math.max(1, Math.min(total, Math.floor((document.body.clientWidth - 70) / step)));
  const held = node("div", {class: "wide"}), list = node("div", {class: "wide"}), kinds = [...new Set(found.events.map(event => event[1]))];
  const range = node("input", {type: "range", min: 0, max: total - count, value: state.event, "aria-label": "first event", oninput: event => move(Number(event.target.value))});
  const move = first => {
    state.event = Math.max(0, Math.min(total - count, first));
    range.value = state.event;
    held.replaceChildren(lanes(report, found, state.event, count, step));
    list.replaceChildren(eventTable(report, found, state.event, count));
  };
  drawEvents = at => move(at && (at.number < state.event || at.number >= state.event + count) ? at.number - (count >> 1) : state.event);
  section.append(node("p", {class: "dim"}, found.order + (found.left ? `; ${found.left} more are left out of this page` : "") + ". A click on one shows the shared words after it."),
    node("div", {class: "legend"}, ...kinds.map(kind => node("span", {}, node("span", {class: "key", style: `background: ${COLOURS[kind]}`}), ` ${kind}`))), held);
  if (total > count) section.append(range);
  section.append(node("details", {open: report.threads.some(thread => thread.at)}, node("summary", {}, "these events as a table"), list));
  move(state.event);
  return section;
}

const isNarrow = () => document.body.clientWidth < 600;

// of a history the words with the most events, as many as the page has room for, and after each event their digits
function wordColumns(report, found) {
  const all = report.history ? found.events.filter(event => AFTER[event[1]]).map(event => event[2]) : [], counts = {};
  for (const word of all) counts[word] = (counts[word] || 0) + 1;
  const numbers = Object.keys(counts).map(Number), threads = report.threads.length;
  const most = isNarrow() ? (numbers.length > 2 || threads > 2 ? 0 : 2) : threads > 3 ? 4 : 8;
  const words = numbers.sort((one, two) => counts[two] - counts[one] || one - two).slice(0, most).sort((one, two) => one - two);
  const now = {}, rows = found.events.map(([, ...event]) => {
    Object.assign(now, wordsAfter([event]));
    return words.map(word => now[word] || "0".repeat(16));
  });
  return {words, rows};
}

// a row for each event, or for the events of one number, with a column for each thread
function eventTable(report, found, first, count) {
  const rows = [...Array(count).keys()].map(() => report.threads.map(() => null)), beside = wordColumns(report, found);
  for (const event of found.events) {
    if (event[6] >= first && event[6] < first + count) rows[event[6] - first][event[0]] = event;
  }
  const word = (digits, at, number) => {
    const before = number ? beside.rows[number - 1][at] : "0".repeat(16);
    return node("td", {class: "word" + (digits === before ? " dim" : ""), title: `0x${digits}`}, text64(digits));
  };
  // where an event was made: function and line, and the line's text or the instruction
  const where = event => {
    const place = placeOf(event), line = place && place.line || [];
    const name = place ? [place.line && line[0] || place.address, line[1]].filter(Boolean).join(" ") : "";
    return [name && node("div", {class: "dim"}, name), (line[3] || line[2]) && node("div", {class: "source", title: line[2]}, line[3] || line[2])].filter(Boolean);
  };
  // the lanes of many threads are narrow, so the place stands behind them; a narrow screen has no room for more than two, and has one for all
  const isOne = report.history && isNarrow() && report.threads.length > 2, isBehind = report.history && !isOne && report.threads.length > 3;
  const cell = event => {
    if (!event) return node("td", {});
    const at = {thread: event[0], number: event[6]};
    return node("td", {class: "event" + (isChosen(event) ? " chosen" : ""), tabindex: 0, style: `border-left-color: ${COLOURS[event[1]]}`, onclick: () => choose(at),
      onkeydown: key => { if (key.key === "Enter") choose(at); }}, eventWords(event), ...(isBehind ? [] : where(event)));
  };
  const lanesOf = isOne ? ["thread", ""] : report.threads.map((_, thread) => `thread ${thread}`);
  const inLanes = row => isOne ? row.filter(Boolean).flatMap(event => [node("td", {class: "dim"}, String(event[0])), cell(event)]) : row.map(cell);
  const heads = ["event", ...beside.words.map(number => `word ${number}`), ...lanesOf, ...(isBehind ? ["place"] : [])];
  return node("table", {class: "lanes" + (isBehind ? " many" : "")}, node("tr", {}, ...heads.map(name => node("th", {}, name))), ...rows.map((row, at) => node("tr", {},
    node("td", {class: "dim"}, String(first + at)), ...(beside.rows[first + at] || []).map((digits, column) => word(digits, column, first + at)), ...inLanes(row),
    ...(isBehind ? [node("td", {}, ...row.filter(Boolean).flatMap(where))] : []))));
}

// ---- the page

function choice(name, title, values, labels) {
  return node("fieldset", {}, node("legend", {}, title), ...values.map((value, at) => node("label", {}, node("input", {type: "radio", name, value: String(value),
    checked: String(state[name]) === String(value), onchange: () => { state[name] = value; state.at = name === "report" ? null : state.at; show(); }}), labels ? labels[at] : value)));
}

function show() {
  const thread = threadOf(state.report);
  for (const row of document.querySelectorAll("#threads tbody tr")) row.classList.toggle("chosen", Number(row.dataset.thread) === state.thread);
  const choices = node("section", {id: "choices"}, node("h2", {}, `Thread ${state.thread}`));
  if (data.reports.length > 1) choices.append(choice("report", "report", [0, 1], data.names));
  choices.append(choice("size", "elements", Object.keys(SIZES)), choice("how", "numbers", ["signed", "unsigned", "hex"]));
  if (data.reports.length > 1) choices.append(node("span", {}, node("span", {class: "key differs"}), " differs"));
  const parts = thread ? [headline(), output(), za(), vectors(), predicates(), registers("Registers", registersOf), registers("Kernel", kernelOf)]
    : [node("p", {}, "this report has no such thread")];
  const shared = words(), rest = events(), all = [...parts, shared, rest].filter(it => it !== null);
  const zero = all.map(it => it.zero).filter(Boolean), empty = [...all.map(it => it.said), zero.length && `all zero: ${zero.join(", ")}`].filter(Boolean);
  const held = node("div", {id: "words"}, ...[shared].filter(isDrawn)), made = [rest].filter(isDrawn);
  const line = empty.length ? [node("section", {id: "empty", class: "dim"}, empty.join("; "))] : [];
  const [first, ...others] = parts.filter(isDrawn), own = [first, ...line, ...others];
  document.getElementById("panel").replaceChildren(...(state.isOrder ? [...made, held, choices, ...own] : [choices, ...own, held, ...made]));
}

for (const row of document.querySelectorAll("#threads tbody tr")) {
  const take = () => { state.thread = Number(row.dataset.thread); show(); };
  row.addEventListener("click", take);
  row.addEventListener("keydown", event => { if (event.key === "Enter") take(); });
}
let width = document.body.clientWidth;
window.addEventListener("resize", () => { if (width !== document.body.clientWidth) { width = document.body.clientWidth; show(); } });
show();
