// The strip on top, what the pointer and the keys do, and why.
function drawOver() {
  const scale = room() / total, place = unit => LABEL + unit * scale, out = [], w = over.clientWidth, right = w - 4;
  const h = Math.max(2, Math.min(6, 18 / Math.max(1, D.links.length))), lane = new Map(D.links.map((one, k) => [one.join(), k]));
  out.push(`<text class="g" x="10" y="17">${mode == "steps" ? "whole session" : "to scale"}</text>`);
  for (const call of D.calls) {
    if (call.s === undefined) continue;
    const x = place(pos[call.s]), e = call.e === undefined ? place(total) : place(pos[call.e] + wide[call.e]);
    const fill = call.x !== undefined ? "var(--bad)" : colour(call.c), y = 6 + lane.get(call.c + "," + call.l) * h % 18;
    out.push(rect(x, y, Math.max(.8, e - x), h - 1, `fill="${fill}" opacity="${call.q ? .45 : .95}"`));
  }
  const a = place(left), b = a + room() / px * scale;
  out.push(rect(LABEL, 2, Math.max(0, a - LABEL), 24, 'fill="var(--bg)" opacity=".6"'), rect(b, 2, Math.max(0, LABEL + room() - b), 24, 'fill="var(--bg)" opacity=".6"'));
  out.push(rect(a, 2, Math.max(4, b - a), 24, 'rx="3" fill="none" stroke="var(--accent)" opacity=".8"'), '<text class="g" x="10" y="47">ms</text>');
  if (mode == "steps") stepAxis(out, right); else timeAxis(out, right);
  marks.forEach((m, k) => {
    const x = X(m);
    if (x >= LABEL && x <= right)
      out.push(`<circle cx="${x}" cy="50" r="7.5" fill="var(--accent)"/>`, words(x, 53.5, k + 1, "var(--on)", 'text-anchor="middle" font-weight="700"'));
  });
  over.setAttribute("viewBox", `0 0 ${w} ${over.clientHeight}`);
  over.innerHTML = out.join("");
}
// A millisecond with events is a band; between bands is how many passed.
function stepAxis(out, right) {
  let last = -1e9, previous = null;
  const passed = (from, to, dt) => {
    const text = "+" + num(dt);
    from = Math.max(from, LABEL);
    to = Math.min(to, right);
    if (to - from > text.length * 5.6 + 8) out.push(words((from + to) / 2, 53, text, "var(--dim)", 'text-anchor="middle"'));
  };
  for (const [i, j] of instants) {
    const x = X(i), e = XE(j), time = D.slots[i][0], from = Math.max(x, LABEL);
    if (previous !== null && x > LABEL && previous < right) passed(previous, x, time - D.slots[i - 1][0]);
    previous = e;
    if (e < LABEL || x > right) continue;
    out.push(rect(from, 53, Math.max(1, Math.min(e, right) - from), 3, 'fill="var(--dim)" opacity=".55"'));
    const start = Math.min(from + 1, right - wideOf(num(time)));
    if (start <= last + 6) continue;
    out.push(`<text x="${start}" y="42">${num(time)}</text>`, line(from + .5, 44, from + .5, 58, 'stroke="var(--dim)"'));
    last = start + wideOf(num(time));
  }
  const rest = D.clock - (N ? D.slots[N - 1][0] : 0);
  if (rest > 0 && previous !== null && previous < right - 30) passed(previous, END(), rest);
}
function timeAxis(out, right) {
  const steps = [...Array(10).keys()].flatMap(p => [1, 2, 5].map(m => m * 10 ** p)), step = steps.find(one => one * px > 60) || 1e10;
  for (let time = Math.ceil(left / step) * step; time <= left + room() / px; time += step) {
    const x = LABEL + (time - left) * px;
    out.push(`<text x="${Math.min(x + 2, right - wideOf(num(time)))}" y="46">${num(time)}</text>`, line(x + .5, 40, x + .5, 58, 'stroke="var(--dim)"'));
  }
}

// Selects a step, its row in the table, and if a lane is given, why it has its value.
function pick(i, lane) {
  selected = Math.min(Math.max(i, 0), N - 1);
  table.querySelectorAll(".sel").forEach(one => one.classList.remove("sel"));
  let row = null;
  for (const one of table.children) { if (+one.dataset.s <= selected) row = one; else break; }
  if (row) {
    row.classList.add("sel");
    const r = row.getBoundingClientRect(), b = table.getBoundingClientRect();
    if (r.top < b.top || r.bottom > b.bottom) table.scrollTop += r.top - b.top - b.height / 3;
  }
  if (lane) explain(lane);
  draw();
}
function explain(lane) {
  const box = $("chain");
  marks = [];
  const found = lane.k == "link" ? ofCall(lane) : lane.k == "units" ? ofUnit() : lane.y_ ? (lane.y_.filter(one => one[0] <= selected).pop() || [])[1] : null;
  box.className = found ? "" : "dim";
  if (found) box.innerHTML = `<ul>${node(found)}</ul>`;
  else box.textContent = `${lane.n}: as before the first step, ${value(lane, selected)}`;
  table.querySelectorAll(".r.sel").forEach(one => one.classList.remove("sel"));
  marks.forEach(m => table.querySelectorAll(`.r[data-s="${m}"]`).forEach(one => one.classList.add("sel")));
}
function ofCall(lane) {
  const call = callAt(lane, selected);
  if (!call) return null;
  const waits = (call.q || []).map(([begin, end, what, why, most, how]) => [
    `waits for ${what}${most !== null ? `, until ${num(most)} ms at most` : ""}${how && end !== null ? `; ${how} at ${num(D.slots[end][0])} ms` : ""}`,
    begin, why.reduceRight((rest, text) => [[text, null, rest]], [])]);
  return [`${call.w} of ${lane.n}${call.r ? " → " + call.r : ""}`, call.s, waits];
}
function ofUnit() {
  const unit = D.units.filter(one => one[0] <= selected).pop();
  return unit ? [`unit ${unit[1]}${unit[4] !== null ? ": waits until the scan is idle" : ""}${unit[3] ? ": put an error into the queue" : ""}`, unit[0], []] : null;
}
// A tree of causes. Each step has a number, the same here, on the axis and in the table.
function node([text, slot, children], above) {
  let badge = "";
  if (slot !== null && slot !== undefined && slot !== above) {
    if (!marks.includes(slot)) marks.push(slot);
    badge = `<span class="n" data-s="${slot}">${marks.indexOf(slot) + 1}</span>`;
  }
  const below = children.map(one => node(one, slot ?? above)).join("");
  return `<li>${badge}<span class="why">${esc(text)}</span>${below ? `<ul>${below}</ul>` : ""}</li>`;
}
function tipOf(lane, i) {
  const [time, number, , label] = D.slots[i], head = text => `<span class="h">${text}</span> `;
  const call = lane && lane.k == "link" && callAt(lane, i);
  if (call) {
    const wait = call.q ? `<br>${head("waits for")}${esc(call.q[0][2])}<br>${call.q[0][3].map(esc).join("<br>")}` : "";
    return `${head(`${num(D.slots[call.s][0])} ms · ${esc(lane.n)}`)}<code>${esc(call.w)}</code><br>${call.r ? "→ " + esc(call.r) : "not answered yet"}${wait}`;
  }
  let text = `${head(`${num(time)} ms · line ${number}`)}<code>${esc(label)}</code>`;
  if (lane && lane.k == "bit") {
    const flip = lane.H.filter(one => one[0] <= i).pop();
    text += `<br><b>${esc(lane.n)}</b> = ${at(lane.H, i, lane.f)} ${head(esc(lane.d))}`;
    if (flip) text += `<br>${head(`since ${num(D.slots[flip[0]][0])} ms:`)}<code>${esc(D.slots[flip[0]][3])}</code>`;
  } else if (lane && lane.id) text += `<br><b>${esc(lane.n)}</b>: ${esc(value(lane, i))}`;
  return text;
}

// The pointer: hover, click, drag, wheel, and the brush of the strip.
let drag = null, brush = false;
svg.addEventListener("mousemove", event => {
  if (drag) return;
  const box = svg.getBoundingClientRect(), x = event.clientX - box.left, hover = $("hover");
  tip.hidden = x < LABEL || !N;
  if (hover) hover.setAttribute("visibility", tip.hidden ? "hidden" : "visible");
  if (tip.hidden) return;
  const i = slotAt(x);
  for (const name of ["x1", "x2"]) if (hover) hover.setAttribute(name, X(i) + .5);
  tip.innerHTML = tipOf(laneAt(event.clientY - box.top), i);
  tip.style.left = Math.min(event.clientX + 14, innerWidth - tip.offsetWidth - 8) + "px";
  tip.style.top = Math.min(event.clientY + 16, innerHeight - tip.offsetHeight - 8) + "px";
});
svg.addEventListener("mouseleave", () => { tip.hidden = true; });
svg.addEventListener("mousedown", event => { drag = {x: event.clientX, left, moved: false}; tip.hidden = true; });
addEventListener("mousemove", event => {
  if (brush) toBrush(event);
  if (!drag || Math.abs(event.clientX - drag.x) <= 3) return;
  drag.moved = true;
  left = drag.left - (event.clientX - drag.x) / px;
  clamp();
  draw();
});
addEventListener("mouseup", event => {
  const was = drag;
  drag = null;
  brush = false;
  if (!was || was.moved || !svg.contains(event.target)) return;
  const box = svg.getBoundingClientRect(), x = event.clientX - box.left;
  pick(x < LABEL ? selected : slotAt(x), laneAt(event.clientY - box.top));
});
svg.addEventListener("wheel", event => {
  const sideways = event.shiftKey || Math.abs(event.deltaX) > Math.abs(event.deltaY);
  if (!sideways && !event.ctrlKey && !event.metaKey && ["lanes", "main"].some(name => $(name).scrollHeight > $(name).clientHeight + 2)) return;
  if (sideways) { left += (event.deltaX || event.deltaY) / px; clamp(); draw(); }
  else zoom(Math.exp(-event.deltaY / 300), event.clientX - svg.getBoundingClientRect().left);
  event.preventDefault();
}, {passive: false});
function toBrush(event) {
  left = (event.clientX - over.getBoundingClientRect().left - LABEL) / (room() / total) - room() / px / 2;
  clamp();
  draw();
}
over.addEventListener("mousedown", event => { brush = event.clientY - over.getBoundingClientRect().top < 30; if (brush) toBrush(event); });
for (const box of [table, $("chain")])
  box.addEventListener("click", event => {
    const one = event.target.closest("[data-s]");
    if (one) { show(+one.dataset.s); pick(+one.dataset.s); }
  });

// Buttons, keys, and the filter.
const step = by => { show(Math.min(Math.max(selected + by, 0), N - 1)); pick(selected + by); };
const whole = () => { fit(); draw(); };
$("in").onclick = () => zoom(1.6);
$("out").onclick = () => zoom(1 / 1.6);
$("fit").onclick = whole;
$("regs").onclick = () => { more = !more; $("regs").classList.toggle("on", more); plan(); draw(); };
$("theme").onclick = () => {
  const root = document.documentElement, dark = root.dataset.theme ? root.dataset.theme == "dark" : matchMedia("(prefers-color-scheme:dark)").matches;
  root.dataset.theme = dark ? "light" : "dark";
};
const buttons = document.querySelectorAll("[data-mode]");
buttons.forEach(one => one.onclick = () => {
  mode = one.dataset.mode;
  buttons.forEach(other => other.classList.toggle("on", other == one));
  layout();
  first();
  clamp();
  if (N) show(selected);
  draw();
});
const KEYS = {"+": () => zoom(1.6), "-": () => zoom(1 / 1.6), f: whole, r: () => $("regs").click(), ArrowLeft: () => step(-1), ArrowRight: () => step(1),
  "/": () => $("find").focus()};
addEventListener("keydown", event => {
  if (event.target.tagName == "INPUT") { if (event.key == "Escape") event.target.blur(); return; }
  if (!KEYS[event.key] || event.ctrlKey || event.metaKey) return;
  KEYS[event.key]();
  event.preventDefault();
});
const off = new Set();
function filter() {
  const wanted = $("find").value.toLowerCase(), bad = $("bad").checked;
  for (const one of table.children) {
    const text = `${one.textContent} link ${one.dataset.l}`.toLowerCase(), fits = text.includes(wanted) && !off.has(one.dataset.l);
    one.style.display = fits && (!bad || one.classList.contains("err") || one.querySelector(".bad")) ? "" : "none";
  }
}
$("find").oninput = filter;
$("bad").onchange = filter;
function offerLinks() {
  const some = D.links.length <= 8 ? D.links.filter(one => one[1]) : [];
  $("links").innerHTML = some.map(([c, l]) => `<button class="c${c % 6}" data-k="${l}" title="show or hide link ${l}"${off.has(String(l)) ? ' style="opacity:.35"' : ""}>L${l}</button>`).join("");
}
offerLinks();
$("links").onclick = event => {
  const link = event.target.dataset.k;
  if (!link) return;
  if (!off.delete(link)) off.add(link);
  event.target.style.opacity = off.has(link) ? .35 : 1;
  filter();
};

// Opens the page. After # there may be mode=time, theme, fit, regs, at=STEP and why=LANE.
const wanted = new URLSearchParams(location.hash.slice(1));
if (wanted.has("theme")) document.documentElement.dataset.theme = wanted.get("theme");
layout();
plan();
first();
clamp();
if (wanted.has("regs")) $("regs").click();
if (wanted.get("mode") == "time") document.querySelector("[data-mode=time]").click();
if (wanted.has("fit")) fit();
if (N) {
  if (wanted.has("at")) selected = Math.min(+wanted.get("at"), N - 1);
  show(selected);
  pick(selected, wanted.has("why") ? lanes.find(one => one.id == wanted.get("why")) : null);
} else draw();
addEventListener("resize", () => { plan(); clamp(); draw(); });
