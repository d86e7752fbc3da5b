"use strict";
// Draws the timelines of a page that tools/study or tools/compare wrote. Times are nanoseconds; what is narrower than a pixel is drawn a column at a time.
const data = JSON.parse(document.getElementById("data").textContent);
const [frame, spacer, canvas, tip, statusLine, told, field, printed] = ["timeline", "spacer", "canvas", "tip", "status", "told", "search", "printed"].map((name) => document.getElementById(name));
const LEFT = 132, HEAD = 34, HIGH = 20, GAP = 6, LOW = 11, RIGHT = 12, LEAST = 20, TITLE = 18;
// A sheet of paper, less its margins, in the pixels of the style: A4 across.
const PAPER_WIDE = 1040, PAPER_HIGH = 620;
// The moments that can be shown.
const FIRST = data.begin, LAST = Math.max(data.begin + 1, data.end);
// What is shown: two moments, the domain that is not dimmed, the row and the moment that were chosen, the two markers and which of them a click sets.
const view = { from: FIRST, to: LAST, only: -1, row: null, at: null, markers: [null, null], next: 0 };
// Where is drawn: a pen, how wide and high its paper is, how far the rows are moved up, and the rows.
let paper = canvas.getContext("2d"), area = { width: 0, height: 0, top: 0, rows: [] };

// The numbers of a packed text: seven bits a byte, the lowest first.
function unpacked(text) {
  const bytes = atob(text), numbers = [];
  for (let i = 0; i < bytes.length; ) {
    let number = 0, weight = 1, byte;
    do {
      byte = bytes.charCodeAt(i++);
      number += (byte & 127) * weight;
      weight *= 128;
    } while (byte & 128);
    numbers.push(number);
  }
  return numbers;
}

// Spans in order: when each begins and ends, what stands there, and a number more (lateness, processor, pause).
function spans(count) {
  return { begin: new Float64Array(count), end: new Float64Array(count), what: new Int32Array(count), more: new Float64Array(count) };
}

function barsOf(text) {
  const numbers = unpacked(text), made = spans(numbers.length / 4);
  for (let i = 0, now = 0; i < made.begin.length; i++) {
    made.begin[i] = now + numbers[4 * i];
    now = made.end[i] = made.begin[i] + numbers[4 * i + 1];
    made.what[i] = numbers[4 * i + 2] - 1;
    made.more[i] = numbers[4 * i + 3];
  }
  return made;
}

function waitsOf(text) {
  const numbers = unpacked(text), made = spans(numbers.length / 2);
  for (let i = 0, now = 0; i < made.begin.length; i++) {
    made.begin[i] = now + numbers[2 * i];
    now = made.end[i] = made.begin[i] + Math.floor(numbers[2 * i + 1] / 2);
    made.more[i] = numbers[2 * i + 1] % 2;
  }
  return made;
}

// What each vCPU runs, from the bars of the processors.
function runsOf(machine, bars) {
  const lists = machine.vcpus.map(() => []);
  bars.forEach((row, p) => row.what.forEach((what, i) => { if (what >= 0) lists[what].push([row.begin[i], row.end[i], p]); }));
  return lists.map((list, v) => {
    list.sort((a, b) => a[0] - b[0]);
    const made = spans(list.length);
    list.forEach(([begin, end, p], i) => { made.begin[i] = begin; made.end[i] = end; made.what[i] = v; made.more[i] = p; });
    return made;
  });
}

// The periods of an RTDS unit: when each is released, and its deadline.
function termsOf(text) {
  const numbers = unpacked(text), made = spans(numbers.length / 2);
  for (let i = 0, now = 0; i < made.begin.length; i++) {
    now = made.begin[i] = now + numbers[2 * i];
    made.end[i] = now + numbers[2 * i + 1];
  }
  return made;
}

function unpackedMachine(machine) {
  const bars = machine.bars.map(barsOf);
  return { ...machine, bars, waits: machine.waits.map(waitsOf), runs: runsOf(machine, bars), terms: machine.terms.map(termsOf) };
}

const machines = data.machines.map(unpackedMachine), rows = [];
let whole = HEAD;

function addRow(machine, kind, index, high, gap, name, names) {
  rows.push({ machine, kind, index, y: whole, high, name, names: names.map((it) => it.toLowerCase()) });
  whole += high + gap;
}

for (const it of machines) {
  if (machines.length > 1) addRow(it, "title", 0, TITLE, 2, it.name, []);
  it.bars.forEach((_, p) => {
    const homes = p % it.siblings ? [] : it.housed.filter(([core]) => core * it.siblings === p).map((home) => home[3]);
    addRow(it, "processor", p, HIGH, (p + 1) % it.siblings ? 1 : GAP, "p" + p, ["p" + p, ...homes]);
  });
  whole += 8;
  it.vcpus.forEach(([name, d], v) => addRow(it, "vcpu", v, LOW, 3, data.domains[d].name + " " + name, [name, name.split("v")[0], data.domains[d].name, data.domains[d].name + " " + name]));
  whole += 4;
}
// What happened from outside, on all machines.
const marks = machines.flatMap((it) => it.marks.map(([at, kind, text]) => [at, kind, machines.length > 1 ? it.name + ": " + text : text])).sort((a, b) => a[0] - b[0]);

const wide = () => area.width - LEFT - RIGHT;
const x = (moment) => LEFT + (moment - view.from) / (view.to - view.from) * wide();
const moment = (px) => view.from + (px - LEFT) / wide() * (view.to - view.from);
const ms = (ns) => +(ns / 1e6).toFixed(6) + " ms";

// The first span that ends after the moment.
function firstAfter(it, at) {
  let low = 0, high = it.end.length;
  while (low < high) {
    const middle = (low + high) >> 1;
    if (it.end[middle] > at) high = middle; else low = middle + 1;
  }
  return low;
}

const stripes = [null, ...[[0, 6, 6, 0], [0, 0, 6, 6], [0, 3, 6, 3]].map(([x0, y0, x1, y1]) => {
  const tile = document.createElement("canvas");
  tile.width = tile.height = 6;
  const pen = tile.getContext("2d");
  pen.strokeStyle = "#0007";
  pen.moveTo(x0, y0);
  pen.lineTo(x1, y1);
  pen.stroke();
  return paper.createPattern(tile, "repeat");
})];

function fill(key, left, top, width, high) {
  const domain = data.domains[key];
  paper.globalAlpha = view.only >= 0 && key !== view.only ? data.dim : 1;
  paper.fillStyle = domain ? domain.colour : data.colours[key];
  paper.fillRect(left, top, width, high);
  if (domain && domain.stripes) {
    paper.fillStyle = stripes[domain.stripes];
    paper.fillRect(left, top, width, high);
  }
  paper.globalAlpha = 1;
}

// A column of a pixel: each colour as high as its part of the time.
function column(sums, px, top, high) {
  let bottom = top + high;
  const pixel = (view.to - view.from) / wide();
  for (const [key, time] of sums) {
    const part = Math.min(bottom - top, high * time / pixel);
    fill(key, px, bottom - part, 1, part);
    bottom -= part;
  }
  sums.clear();
}

// The spans of a row in the view; the answer counts those that are drawn each and those that are merged.
function drawSpans(it, top, high, keyOf, extra) {
  const sums = new Map(), count = { shown: 0, merged: 0 };
  let at = -1;
  for (let i = firstAfter(it, view.from); i < it.begin.length && it.begin[i] < view.to; i++) {
    const begin = Math.max(it.begin[i], view.from), end = Math.min(it.end[i], view.to), left = x(begin), width = x(end) - left, key = keyOf(i);
    if (sums.size && (width >= 1 || Math.floor(left) !== at)) column(sums, at, top, high);
    if (width >= 1) {
      fill(key, left, top, width > 4 ? width - 0.6 : width, high);
      if (extra) extra(i, left, width, top);
      count.shown++;
    } else {
      at = Math.floor(left);
      sums.set(key, (sums.get(key) || 0) + end - begin);
      count.merged++;
    }
  }
  if (sums.size) column(sums, at, top, high);
  return count;
}

function drawProcessor(row, top) {
  const { bars, vcpus } = row.machine, it = bars[row.index], key = (i) => it.what[i] < 0 ? "held" : vcpus[it.what[i]][1];
  paper.fillStyle = "#f3f3f3";
  paper.fillRect(LEFT, top, wide(), HIGH);
  return drawSpans(it, top, HIGH, key, (i, left, width) => {
    if (it.more[i]) fill("late", left, top + HIGH - 3, width, 3);
    if (it.what[i] < 0 || width < 24) return;
    const domain = data.domains[key(i)], name = domain.name + " " + vcpus[it.what[i]][0];
    paper.fillStyle = view.only >= 0 && key(i) !== view.only ? domain.dimmed : domain.text;
    if (paper.measureText(name).width + 6 < width) paper.fillText(name, left + 3, top + 14);
    else if (paper.measureText(domain.name).width + 6 < width) paper.fillText(domain.name, left + 3, top + 14);
  });
}

function drawVcpu(row, top) {
  const it = row.machine.waits[row.index];
  drawSpans(row.machine.runs[row.index], top, LOW, () => row.machine.vcpus[row.index][1]);
  drawSpans(it, top + 3, LOW - 6, (i) => it.more[i] ? "paused" : "waits");
  drawTerms(row.machine.terms[row.index], top);
}

function arrow(px, from, to) {
  const by = to < from ? 3 : -3;
  paper.beginPath();
  paper.moveTo(px, from);
  paper.lineTo(px, to);
  paper.moveTo(px - 2.5, to + by);
  paper.lineTo(px, to);
  paper.lineTo(px + 2.5, to + by);
  paper.stroke();
}

// Each release of an RTDS unit is an arrow up, each deadline one down; where they would lie closer than a few pixels there are none.
function drawTerms(it, top) {
  const first = firstAfter(it, view.from), seen = [];
  for (let i = Math.max(0, first - 1); i < it.begin.length && it.begin[i] <= view.to; i++) seen.push(i);
  if (seen.length * 6 > wide()) return;
  paper.strokeStyle = "#111";
  for (const i of seen) {
    const [release, deadline] = [it.begin[i], it.end[i]].map((at) => at >= view.from && at <= view.to);
    if (release) arrow(x(it.begin[i]) + 1, top + LOW + 1, top - 2);
    if (deadline) arrow(x(it.end[i]) - 1, top - 2, top + LOW + 1);
    area.arrows += release + deadline;
  }
}

function drawTitle(row, top) {
  paper.fillStyle = "#222";
  paper.font = "bold 13px sans-serif";
  paper.fillText(row.name, 4, top + 14);
}

// The pool of each core, at the left and where it changes; the stalls.
function drawHomes(machine, places) {
  paper.fillStyle = "#555";
  paper.font = "10px sans-serif";
  for (const [core, begin, end, name] of machine.housed) {
    const y = places.get(core * machine.siblings);
    if (end <= view.from || begin >= view.to || y === undefined) continue;
    if (begin <= view.from) paper.fillText(name.slice(0, 12), 4, y + 14);
    else {
      paper.fillRect(x(begin) - 0.5, y - 2, 1, (HIGH + 1) * machine.siblings + 3);
      paper.fillText(name, x(begin) + 3, y - 0.5);
    }
  }
  paper.font = "11px sans-serif";
  paper.strokeStyle = "#333";
  paper.setLineDash([2, 2]);
  for (const [p, begin, end] of machine.stalls) {
    const y = places.get(p), left = x(Math.max(begin, view.from));
    if (end > view.from && begin < view.to && y !== undefined) paper.strokeRect(left, y - 2, Math.max(1, x(Math.min(end, view.to)) - left), HIGH + 4);
  }
  paper.setLineDash([]);
}

function ticks() {
  const least = (view.to - view.from) / Math.max(1, wide() / 100), power = 10 ** Math.floor(Math.log10(Math.max(1, least)));
  const step = Math.max(1, [1, 2, 5, 10].map((n) => n * power).find((n) => n >= least)), found = [];
  for (let at = Math.ceil(view.from / step) * step; at <= view.to; at += step) found.push(at);
  return found;
}

function drawHead() {
  paper.fillStyle = "#fff";
  paper.fillRect(0, 0, area.width, HEAD - 3);
  paper.fillStyle = "#222";
  for (const at of ticks()) {
    const place = x(at);
    paper.textAlign = place > area.width - 44 ? "right" : place < LEFT + 30 ? "left" : "center";
    paper.fillText(ms(at), place, 12);
    paper.fillRect(place - 0.5, 15, 1, 4);
  }
  paper.textAlign = "left";
  for (const [at, kind] of marks) {
    if (at < view.from || at > view.to) continue;
    paper.fillStyle = data.kinds[kind];
    paper.beginPath();
    paper.moveTo(x(at) - 4, 20);
    paper.lineTo(x(at) + 4, 20);
    paper.lineTo(x(at), 29);
    paper.fill();
  }
}

// The lines of the marks, and their words where they have room before the next one.
function drawMarks() {
  const seen = marks.filter(([at]) => at >= view.from && at <= view.to);
  seen.forEach(([at, kind, text], k) => {
    paper.fillStyle = paper.strokeStyle = data.kinds[kind];
    paper.globalAlpha = 0.5;
    paper.setLineDash([3, 3]);
    paper.beginPath();
    paper.moveTo(x(at), HEAD);
    paper.lineTo(x(at), area.height);
    paper.stroke();
    paper.setLineDash([]);
    paper.globalAlpha = 1;
    const next = seen.find(([other], n) => n > k && other > at), first = !k || seen[k - 1][0] < at;
    if (first && seen.length < 400 && x(at) + paper.measureText(text).width + 12 < (next ? x(next[0]) : area.width)) paper.fillText(text, x(at) + 6, 29);
  });
}

// The row and the moment that were chosen, and the two markers.
function drawChosen() {
  paper.lineWidth = 1.5;
  paper.strokeStyle = "#0050b0";
  if (area.rows.includes(view.row)) paper.strokeRect(2, view.row.y - area.top - 2, area.width - 4, view.row.high + 4);
  paper.lineWidth = 1;
  [[view.at, "#0050b0", ""], [view.markers[0], "#111", "1"], [view.markers[1], "#111", "2"]].forEach(([at, colour, name]) => {
    if (at === null || at < view.from || at > view.to) return;
    paper.fillStyle = colour;
    paper.fillRect(x(at) - 0.5, 15, 1, area.height);
    paper.fillText(name, x(at) + 3, 25);
  });
}

function drawRow(row) {
  const y = row.y - area.top;
  if (row.kind === "title") return drawTitle(row, y);
  paper.fillStyle = "#222";
  paper.textAlign = "right";
  paper.font = (row.kind === "vcpu" ? 9 : 11) + "px sans-serif";
  paper.fillText(row.name.slice(0, 22), LEFT - 6, y + (row.kind === "vcpu" ? 9 : 14));
  paper.textAlign = "left";
  paper.font = "11px sans-serif";
  return row.kind === "vcpu" ? drawVcpu(row, y) : drawProcessor(row, y);
}

// Draws on a canvas: rows, and what lies over them. The answer counts the bars that are drawn each, those that are merged, and the arrows.
function paint(target, ratio, width, height, top, shownRows) {
  if (target.width !== Math.round(width * ratio) || target.height !== Math.round(height * ratio)) {
    target.width = Math.round(width * ratio);
    target.height = Math.round(height * ratio);
  }
  paper = target.getContext("2d");
  area = { width, height, top, rows: shownRows, arrows: 0 };
  paper.setTransform(ratio, 0, 0, ratio, 0, 0);
  paper.clearRect(0, 0, width, height);
  paper.font = "11px sans-serif";
  const count = { shown: 0, merged: 0 };
  for (const row of shownRows) {
    const found = drawRow(row);
    if (found) {
      count.shown += found.shown;
      count.merged += found.merged;
    }
  }
  for (const machine of machines) drawHomes(machine, new Map(shownRows.filter((row) => row.machine === machine && row.kind === "processor" && row.y - top > HEAD - HIGH).map((row) => [row.index, row.y - top])));
  drawHead();
  drawMarks();
  drawChosen();
  return { ...count, arrows: area.arrows };
}

function draw() {
  pending = false;
  const height = Math.min(whole + 6, frame.clientHeight || whole + 6), width = spacer.clientWidth, top = frame.scrollTop;
  canvas.style.width = width + "px";
  canvas.style.height = height + "px";
  const count = paint(canvas, window.devicePixelRatio || 1, width, height, top, rows.filter((row) => row.y - top + row.high >= HEAD && row.y - top <= height));
  Object.assign(canvas.dataset, { ...count, from: Math.round(view.from), to: Math.round(view.to) });
  const range = `${ms(view.from)} to ${ms(view.to)}`;
  statusLine.textContent = `${range}; ${count.shown} bars` + (count.merged ? `, and ${count.merged} narrower than a pixel` : "");
  canvas.setAttribute("aria-label", `The timeline from ${range}: a row for each processor and each vCPU. The tables below have the figures.`);
}

// Paper: the view as it is, with all rows, in as many pictures as pages that they need, and all that is folded is open.
function drawForPaper() {
  printed.replaceChildren();
  for (let first = 0, last; first < rows.length; first = last) {
    for (last = first + 1; last < rows.length && rows[last].y + rows[last].high - rows[first].y < PAPER_HIGH - HEAD; ) last++;
    const sheet = document.createElement("canvas"), group = rows.slice(first, last), end = group[group.length - 1];
    printed.append(sheet);
    paint(sheet, 2, PAPER_WIDE, end.y + end.high - group[0].y + HEAD + 8, group[0].y - HEAD - 3, group);
  }
  for (const it of document.querySelectorAll("details:not([open])")) it.open = it.dataset.folded = true;
}

function drawForScreen() {
  printed.replaceChildren();
  for (const it of document.querySelectorAll("details[data-folded]")) {
    it.open = false;
    delete it.dataset.folded;
  }
  draw();
}

let pending = false;
function redraw() {
  if (!pending) {
    pending = true;
    requestAnimationFrame(draw);
  }
}

function show(from, to) {
  const span = Math.min(Math.max(LEAST, to - from), LAST - FIRST);
  view.from = Math.min(Math.max(FIRST, from), LAST - span);
  view.to = view.from + span;
  redraw();
}

function zoom(factor, at) {
  show(at - (at - view.from) * factor, at + (view.to - at) * factor);
}

frame.addEventListener("wheel", (event) => {
  if (event.shiftKey) return;
  event.preventDefault();
  zoom(1.0015 ** (event.deltaY * (event.deltaMode ? 30 : 1)), moment(event.clientX - canvas.getBoundingClientRect().left));
}, { passive: false });

// What is held down: by one finger or the mouse the rows and moments are moved, by two fingers zoomed.
const held = new Map();
let drag = null, pinch = null;

function pinchOf() {
  const [a, b] = held.values(), left = canvas.getBoundingClientRect().left;
  return { gap: Math.max(1, Math.hypot(a.x - b.x, a.y - b.y)), at: (a.x + b.x) / 2 - left };
}

frame.addEventListener("pointerdown", (event) => {
  if (event.target !== canvas) return;
  frame.focus({ preventScroll: true });
  held.set(event.pointerId, { x: event.clientX, y: event.clientY });
  canvas.setPointerCapture(event.pointerId);
  frame.classList.add("drag");
  drag = held.size === 1 ? { px: event.clientX, py: event.clientY, from: view.from, to: view.to, top: frame.scrollTop, moved: false } : null;
  pinch = held.size === 2 ? { ...pinchOf(), span: view.to - view.from } : null;
  if (pinch) pinch.moment = moment(pinch.at);
});
canvas.addEventListener("pointermove", (event) => {
  if (held.has(event.pointerId)) held.set(event.pointerId, { x: event.clientX, y: event.clientY });
  if (pinch && held.size === 2) return movePinch();
  if (!drag) return pointAt(event);
  drag.moved = drag.moved || Math.hypot(event.clientX - drag.px, event.clientY - drag.py) > 4;
  const by = (event.clientX - drag.px) / wide() * (drag.to - drag.from);
  frame.scrollTop = drag.top - (event.clientY - drag.py);
  if (drag.moved) show(drag.from - by, drag.to - by);
});

// The moment between the fingers stays between them.
function movePinch() {
  const now = pinchOf(), span = Math.min(LAST - FIRST, Math.max(LEAST, pinch.span * pinch.gap / now.gap)), from = pinch.moment - (now.at - LEFT) / wide() * span;
  show(from, from + span);
}

function letGo(event) {
  if (event.type === "pointerup" && drag && !drag.moved) choose(event);
  held.delete(event.pointerId);
  drag = pinch = null;
  frame.classList.remove("drag");
}
for (const kind of ["pointerup", "pointercancel"]) canvas.addEventListener(kind, letGo);
canvas.addEventListener("pointerleave", () => { tip.hidden = true; });

frame.addEventListener("keydown", (event) => {
  const middle = (view.from + view.to) / 2, by = (view.to - view.from) / 5;
  const does = {
    "+": () => zoom(0.5, middle), "=": () => zoom(0.5, middle), "-": () => zoom(2, middle), "0": () => show(FIRST, LAST), Home: () => show(FIRST, LAST),
    ArrowLeft: () => show(view.from - by, view.to - by), ArrowRight: () => show(view.from + by, view.to + by),
    ArrowUp: () => { frame.scrollTop -= 60; }, ArrowDown: () => { frame.scrollTop += 60; },
    "[": () => step(-1), "]": () => step(1), j: () => chooseRow(1), k: () => chooseRow(-1),
    m: () => setMarker(0, view.at ?? middle), n: () => setMarker(1, view.at ?? middle), Escape: forget, "/": () => field.focus(),
  }[event.key];
  if (does && !event.ctrlKey && !event.metaKey) {
    event.preventDefault();
    does();
  }
});

const rowAt = (py) => py < HEAD ? null : rows.find((it) => it.kind !== "title" && py + frame.scrollTop >= it.y && py + frame.scrollTop <= it.y + it.high) || null;

// A click chooses a row and a moment; with the shift key it sets the markers by turns.
function choose(event) {
  const box = canvas.getBoundingClientRect(), row = rowAt(event.clientY - box.top), at = Math.min(view.to, Math.max(view.from, moment(event.clientX - box.left)));
  if (event.shiftKey) {
    setMarker(view.next, Math.round(at));
    view.next = 1 - view.next;
    return;
  }
  if (row) view.row = row;
  goTo(Math.round(at));
}

function setMarker(k, at) {
  view.markers[k] = at;
  tell();
}

// Nothing is chosen, and no markers are set.
function forget() {
  Object.assign(view, { row: null, at: null, markers: [null, null], next: 0 });
  tell();
}

// Says what is chosen, and how far the markers lie apart.
function tell() {
  const [a, b] = view.markers, parts = [];
  if (view.at !== null) parts.push(ms(view.at) + (view.row ? ": " + wordsOf(view.row, view.at) : ""));
  if (a !== null) parts.push("marker 1 at " + ms(a));
  if (b !== null) parts.push("marker 2 at " + ms(b));
  if (a !== null && b !== null) parts.push("their distance " + ms(Math.abs(b - a)));
  told.textContent = parts.join("; ");
  redraw();
}

// The moment is chosen, and seen.
function goTo(at) {
  view.at = at;
  const span = view.to - view.from;
  if (at < view.from || at > view.to) show(at - span / 2, at + span / 2);
  tell();
}

function chooseRow(by) {
  const those = rows.filter((it) => it.kind !== "title"), k = those.indexOf(view.row);
  view.row = those[Math.min(those.length - 1, Math.max(0, k < 0 ? 0 : k + by))] || null;
  if (view.row) seeRow(view.row);
  tell();
}

function seeRow(row) {
  if (row.y < frame.scrollTop + HEAD || row.y + row.high > frame.scrollTop + frame.clientHeight) frame.scrollTop = row.y - frame.clientHeight / 2;
}

// The moments of a row at which something begins or ends, in order.
function momentsOf(row) {
  if (!row.moments) {
    const { bars, runs, waits, terms } = row.machine, those = row.kind === "processor" ? [bars[row.index]] : [runs[row.index], waits[row.index], terms[row.index]];
    row.moments = [...new Set(those.flatMap((it) => [...it.begin, ...it.end]))].filter((at) => at >= FIRST && at <= LAST).sort((a, b) => a - b);
  }
  return row.moments;
}

// To the next moment of the chosen row at which something begins or ends, or to the one before.
function step(by) {
  if (!view.row) chooseRow(0);
  if (!view.row) return;
  const all = momentsOf(view.row), from = view.at ?? view.from - (by > 0 ? 1 : 0), at = by > 0 ? all.find((it) => it > from) : all.findLast((it) => it < from);
  if (at !== undefined) goTo(at);
}

const UNITS = { ns: 1, us: 1e3, "\u00b5s": 1e3, ms: 1e6, s: 1e9 };

// Goes to what the words name: a moment, or the next row of a vCPU, domain, pool or processor; it is in the middle, and marked.
function search(text) {
  const word = text.trim().toLowerCase(), time = /^(\d+(?:\.\d+)?) ?(ns|us|\u00b5s|ms|s)$/.exec(word), after = rows.indexOf(view.row) + 1;
  const ordered = [...rows.slice(after), ...rows.slice(0, after)], row = ordered.find((it) => it.names.includes(word)) || ordered.find((it) => word && it.names.some((name) => name.startsWith(word)));
  if (time) return centre(Math.min(LAST, Math.max(FIRST, time[1] * UNITS[time[2]])));
  if (!row) {
    told.textContent = `nothing here is called ${text.trim()}: a vCPU is d0v1, a moment 5ms`;
    return;
  }
  view.row = row;
  frame.scrollTop = row.y + row.high / 2 - frame.clientHeight / 2;
  const all = momentsOf(row);
  centre(all.find((it) => it >= view.from) ?? all[0] ?? view.from);
}

function centre(at) {
  const span = Math.min(view.to - view.from, (LAST - FIRST) / 5);
  view.at = at;
  show(at - span / 2, at + span / 2);
  tell();
}

// The words for what a row does at a moment.
function wordsOf(row, at) {
  const { bars, runs, waits, vcpus } = row.machine;
  const found = (it) => { const i = firstAfter(it, at); return i < it.begin.length && it.begin[i] <= at ? i : -1; };
  const range = (it, i) => `${ms(it.begin[i])} to ${ms(it.end[i])} (${ms(it.end[i] - it.begin[i])})`;
  if (row.kind === "processor") {
    const it = bars[row.index], i = found(it);
    if (i < 0) return row.name + " idles";
    const who = it.what[i] < 0 ? "waits for a sibling" : data.domains[vcpus[it.what[i]][1]].name + " " + vcpus[it.what[i]][0];
    return `${row.name}: ${who}, ${range(it, i)}` + (it.more[i] ? `, decided ${ms(it.more[i])} late` : "");
  }
  const run = found(runs[row.index]), wait = found(waits[row.index]);
  if (run >= 0) return `${row.name} runs on p${runs[row.index].more[run]}, ${range(runs[row.index], run)}`;
  if (wait >= 0) return `${row.name} ${waits[row.index].more[wait] ? "is paused" : "waits"}, ${range(waits[row.index], wait)}`;
  return row.name + " sleeps";
}

// The words for what the pointer is at.
function wordsAt(px, py) {
  if (py < HEAD) {
    const near = marks.filter(([at]) => Math.abs(x(at) - px) < 6);
    return near.slice(0, 12).map(([at, , text]) => ms(at) + "  " + text).join("\n");
  }
  const row = rowAt(py);
  return !row || px < LEFT ? "" : wordsOf(row, moment(px));
}

function pointAt(event) {
  const box = canvas.getBoundingClientRect();
  tip.textContent = wordsAt(event.clientX - box.left, event.clientY - box.top);
  tip.hidden = !tip.textContent;
  tip.style.left = Math.min(event.clientX + 14, window.innerWidth - 20 - tip.offsetWidth) + "px";
  tip.style.top = event.clientY + 16 + "px";
}

// One domain is seen alone, or all (-1).
function dimOthers(d) {
  view.only = d;
  for (const it of document.querySelectorAll("[data-domain]")) it.setAttribute("aria-pressed", Number(it.dataset.domain) === d);
  redraw();
}

document.addEventListener("click", (event) => {
  const link = event.target.closest("[data-at]"), button = event.target.closest("[data-domain]");
  if (link) {
    const at = Number(link.dataset.at), span = Math.min(view.to - view.from, Math.max((LAST - FIRST) / 50, 1e6));
    show(at - span / 2, at + span / 2);
  }
  if (button) dimOthers(view.only === Number(button.dataset.domain) ? -1 : Number(button.dataset.domain));
});
field.form.addEventListener("submit", (event) => {
  event.preventDefault();
  search(field.value);
});

// A link may name what is to be seen: #5-10 is 5 to 10 ms.
function followHash() {
  const found = /^#([\d.]+)-([\d.]+)$/.exec(location.hash);
  if (found) show(found[1] * 1e6, found[2] * 1e6);
}

spacer.style.height = whole + 6 + "px";
document.documentElement.dataset.boxes = machines.flatMap((it) => it.bars).reduce((sum, it) => sum + it.begin.length, 0);
frame.addEventListener("scroll", redraw);
window.addEventListener("resize", redraw);
new ResizeObserver(redraw).observe(spacer);
window.addEventListener("beforeprint", drawForPaper);
window.addEventListener("afterprint", drawForScreen);
window.addEventListener("hashchange", followHash);
followHash();
draw();
