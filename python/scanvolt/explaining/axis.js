"use strict";
// The axis of the page: where each step is, and how the view moves over it.
let D, N = 0, instants = [];
const $ = id => document.getElementById(id);
const svg = $("svg"), over = $("over"), table = $("table"), tip = $("tip");
const LABEL = 142;
const LEAST = 7, NEAR = 9, FAR = 160;     // pixels of a step: fewer than this, the page opens on its end at 9; at most 160
let mode = "steps", px = 1, left = 0, selected = -1, total = 1;
let pos = [], wide = [];

const esc = text => String(text).replace(/[&<>"']/g, c => "&#" + c.charCodeAt(0) + ";");
const wideOf = text => text.length * 6.3;      // pixels of a number on the axis
const num = n => n.toLocaleString("en");
const colour = conn => conn < 0 ? "var(--c9)" : `var(--c${conn % 6})`;
const gap = dt => mode == "steps" ? 0.7 + 0.8 * Math.log2(1 + dt) : dt;

// Places all steps. On the axis of steps each has a width; between different milliseconds is a gap, by its logarithm.
function layout() {
  let at = 0, last = N ? D.slots[0][0] : 0;
  if (mode == "steps" && last > 0) at = gap(last);
  if (mode == "time") at = last;
  pos = []; wide = [];
  for (let i = 0; i < N; i++) {
    const dt = D.slots[i][0] - last;
    if (dt > 0) at += gap(dt);
    last = D.slots[i][0];
    pos.push(at);
    wide.push(mode == "steps" ? 1 : 0);
    at += wide[i];
  }
  if (D.clock > last) at += gap(D.clock - last);
  total = Math.max(at, mode == "steps" ? 6 : 1);
}
const room = () => Math.max(100, svg.clientWidth - LABEL - 18);
const X = i => LABEL + (pos[i] - left) * px;
const XE = i => LABEL + (pos[i] + wide[i] - left) * px;
const END = () => LABEL + (total - left) * px;
const unitAt = x => left + (x - LABEL) / px;

// The last step that is at most here.
function before(there) {
  let low = 0, high = N - 1;
  while (low < high) {
    const middle = (low + high + 1) >> 1;
    if (there(middle)) low = middle; else high = middle - 1;
  }
  return low;
}
function slotAt(x) {
  const unit = unitAt(x), low = before(i => pos[i] <= unit);
  if (mode == "steps" || low + 1 >= N) return low;
  return Math.abs(pos[low] - unit) <= Math.abs(pos[low + 1] - unit) ? low : low + 1;
}
// Where a millisecond without a step is: within the gap.
function timeX(time) {
  const low = before(i => D.slots[i][0] <= time), next = low + 1 < N;
  const a = D.slots[low][0], b = next ? D.slots[low + 1][0] : D.clock;
  const from = pos[low] + wide[low], to = next ? pos[low + 1] : total;
  return LABEL + (from + (to - from) * (b > a ? (time - a) / (b - a) : 0) - left) * px;
}
function clamp() {
  const least = room() / total, most = mode == "steps" ? FAR : Math.max(60, least * 4000);
  px = Math.min(Math.max(px, least), most);
  left = Math.min(Math.max(left, 0), Math.max(0, total - room() / px));
}
function fit() { px = room() / total; left = 0; }
function first() {
  fit();
  if (mode == "steps" && px < LEAST) { px = NEAR; left = Math.max(0, total - room() / px); }
}
// Zooms about a point, which stays where it is.
function zoom(by, x = LABEL + room() / 2) {
  const unit = unitAt(x);
  px *= by;
  clamp();
  left = unit - (x - LABEL) / px;
  clamp();
  draw();
}
function show(i) {
  if (X(i) < LABEL + 20 || XE(i) > LABEL + room() - 20) { left = pos[i] - room() / px / 2; clamp(); }
}
// Takes a session: the steps of each millisecond, the first and the last, and what is computed once.
function take(session) {
  D = session;
  N = D.slots.length;
  instants = [];
  for (let i = 0; i < N; i++) {
    const last = instants[instants.length - 1];
    if (last && D.slots[last[0]][0] == D.slots[i][0]) last[1] = i; else instants.push([i, i]);
  }
  D.signals.forEach(one => { one.y_ = one.y && one.y.length ? one.y : null; delete one.y; });
  selected = N - 1;
}
take(JSON.parse($("data").textContent));
