// The lanes, drawn as SVG.
const GROUP = 19, BAR = 17, LOW = 15, HANDLE = 11;    // heights, the last one of the handles of service requests
const CHAR = 6.1, NAME = 5.5;                         // widths of a character, and of one in a lane's name
const LETTER = {write: "W", read: "R", readstb: "S", trigger: "T", clear: "C", lock: "L", unlock: "U", enable_srq: "Q", create_link: "+",
  destroy_link: "×", create_intr_chan: "I", destroy_intr_chan: "i", abort: "A"};
let ROW = 23, lanes = [], height = 0, marks = [], more = false;

const isBasic = s => ["instrument", "status byte"].includes(s.g) || s.g == "standard events" && s.H.length > (s.f ? 1 : 0);
const at = (history, i, none) => { let value = none; for (const one of history) { if (one[0] > i) break; value = one[1]; } return value; };
const clip = (text, w, per = 6.4) => { const n = Math.floor(w / per); return text.length <= n ? text : n < 3 ? "" : text.slice(0, n - 1) + "…"; };
const longest = (texts, w) => texts.find(one => one.length * CHAR <= w) || clip(texts[texts.length - 1], w, CHAR);
const spans = history => history.map((one, k) => ({i: one[0], j: k + 1 < history.length ? history[k + 1][0] : null, v: one[1], more: one[2]}));
const rect = (x, y, w, h, rest) => `<rect x="${x}" y="${y}" width="${w}" height="${h}" ${rest}/>`;
const line = (x1, y1, x2, y2, rest) => `<line x1="${x1}" y1="${y1}" x2="${x2}" y2="${y2}" ${rest}/>`;
const words = (x, y, text, fill, rest = "") => `<text class="m" x="${x}" y="${y}" style="font-size:10px;fill:${fill}" ${rest}>${esc(text)}</text>`;
const under = (x, y, text, w = 1e9) => rect(x - 2, y + 2, Math.min(w, text.length * CHAR + 4), BAR - 4, 'rx="2" fill="var(--panel)" opacity=".85"');

// Which lanes there are, and where.
function plan() {
  const shown = D.signals.filter(s => more || isBasic(s)), groups = new Set(shown.map(s => s.g)).size + 1;
  ROW = Math.max(20, Math.min(28, Math.floor(((innerHeight - 110) * .64 - groups * GROUP) / (D.links.length + 1 + shown.length))));
  let y = 2, group = "";
  lanes = [];
  const add = (lane, name, h = ROW) => {
    if (name != group) { lanes.push({k: "group", n: name, y, h: GROUP}); y += GROUP; group = name; }
    lanes.push({...lane, y, h});
    y += h;
  };
  const asked = new Set(D.requests.map(([, c, , l]) => c + "," + l));
  for (const [c, l] of D.links)
    add({k: "link", n: l ? `c${c} · link ${l}` : `c${c}`, c, l, calls: D.calls.filter(one => one.c == c && one.l == l)}, "links",
      ROW + (asked.has(c + "," + l) ? HANDLE : 0));
  add({k: "units", n: "program units", id: "units"}, "instrument");
  for (const s of shown) add(s, s.g);
  height = y + 6;
  svg.setAttribute("height", height);
}
const laneAt = y => lanes.find(one => y >= one.y && y < one.y + one.h);
const callAt = (lane, i) => lane.calls.filter(c => c.s <= i && (c.e === undefined || c.e >= i)).pop();

// What a lane has at a step.
function value(lane, i) {
  if (lane.k == "link") {
    const call = callAt(lane, i);
    const waits = call && call.q && call.q.some(q => q[0] <= i && (q[1] === null || q[1] > i));
    return call ? clip(call.n + (waits ? " …" : ""), Math.min(58, LABEL - 26 - lane.n.length * NAME), 6) : "";
  }
  const found = lane.H ? at(lane.H, i, lane.f) : "";
  if (lane.k == "owner") return found ? "link " + found[0] : "free";
  if (lane.k == "count") return String(Array.isArray(found) ? found[0] : found);
  if (lane.k == "word") return String(found || 0).split(" ")[0];
  return String(found ?? "");
}
const hatch = (id, c) => `<pattern id="${id}" width="7" height="7" patternUnits="userSpaceOnUse" patternTransform="rotate(45)">` +
  rect(0, 0, 7, 7, `fill="${c}" opacity=".16"`) + rect(0, 0, 2.4, 7, `fill="${c}" opacity=".55"`) + "</pattern>";

function draw() {
  const w = svg.clientWidth, right = w - 4, out = ["<defs>"];
  if (!w) return;                           // it isn't shown
  for (let i = 0; i < 6; i++) out.push(hatch("h" + i, `var(--c${i})`));
  out.push(hatch("hh", "var(--held)"), hatch("hw", "var(--wait)"), `<clipPath id="cp">${rect(LABEL, 0, w - LABEL, height, "")}</clipPath></defs>`);
  out.push('<g clip-path="url(#cp)">');
  if (mode == "steps")
    for (const [i, j] of instants)
      if (XE(j) >= LABEL && X(i) <= right) out.push(rect(X(i), 0, Math.max(1, XE(j) - X(i)), height, 'fill="var(--band)"'));
  for (const m of marks) out.push(line(X(m), 0, X(m), height, 'stroke="var(--accent)" stroke-dasharray="2 3" opacity=".8"'));
  const requests = sent(right);
  for (const {x, c, end, from} of requests)
    out.push(`<path d="M${x} ${from}V${end + 6}" stroke="${c}" stroke-width="1.5" stroke-dasharray="4 2" fill="none"/>`);
  for (const lane of lanes) DRAW[lane.k](lane, out, right);
  drawRequests(requests, out);
  if (N) out.push(line(X(selected) + .5, 0, X(selected) + .5, height, 'stroke="var(--accent)" stroke-width="1.4"'));
  out.push(`<line id="hover" y1="0" y2="${height}" stroke="var(--dim)" stroke-dasharray="3 2" visibility="hidden"/></g>`);
  drawNames(out);
  svg.setAttribute("viewBox", `0 0 ${w} ${height}`);        // so that paper, which is narrower, shows all of it
  svg.innerHTML = out.join("");
  drawOver();
}
function drawNames(out) {
  out.push(rect(0, 0, LABEL - 6, height, 'fill="var(--panel)"'), line(LABEL - 6.5, 0, LABEL - 6.5, height, 'stroke="var(--line)"'));
  for (const lane of lanes) {
    if (lane.k == "group") { out.push(`<text class="g" x="10" y="${lane.y + 13}">${esc(lane.n)}</text>`); continue; }
    const link = lane.k == "link", v = value(lane, selected), y = lane.y + (link ? ROW : lane.h) / 2 + 4;
    const ink = v && !["0", "free", "idle"].includes(v) ? "var(--ink)" : "var(--dim)";
    out.push(`<text x="10" y="${y}" style="fill:${link ? colour(lane.c) + ";font-weight:600" : "var(--ink)"}">${esc(lane.n)}</text>`);
    out.push(words(LABEL - 12, y, v, ink, 'text-anchor="end"'));
  }
}
const drawGroup = (lane, out, right) => out.push(line(0, lane.y + .5, right + 4, lane.y + .5, 'stroke="var(--line)"'));

function drawLink(lane, out, right) {
  const y = lane.y + (ROW - BAR) / 2, c = colour(lane.c);
  out.push(line(LABEL, y + BAR / 2, right, y + BAR / 2, 'stroke="var(--line)"'));
  for (const call of lane.calls) {
    if (call.s === undefined && call.a === undefined) continue;
    const open = call.e === undefined, x = call.s === undefined ? END() : X(call.s), e = open ? END() : XE(call.e);
    if (e < LABEL - 5 && !open || (call.a === undefined ? x : X(call.a)) > right) continue;
    if (call.a !== undefined) drawQueued(call, out, x, y, c);
    if (call.s === undefined) continue;
    if (call.q) drawWait(call, out, {x, e, y, c, open, right}); else drawBar(call, out, x, e, y, c);
  }
}
// A call that came and isn't taken yet: a dotted line.
function drawQueued(call, out, x, y, c) {
  const from = X(call.a), text = clip(call.n + " (not taken)", x - from - 8, 5.9);
  out.push(`<path d="M${from} ${y + 2}v${BAR - 4}M${from} ${y + BAR / 2}H${x}" stroke="${c}" stroke-dasharray="2 2" fill="none"/>`);
  if (x - from > 60) out.push(words(Math.max(LABEL, from) + 5, y + BAR / 2 - 3, text, c));
}
function drawBar(call, out, x, e, y, c) {
  const w = Math.max(2.5, e - x - (px > 4 ? 1 : .3));
  out.push(rect(x, y, w, BAR, `rx="${Math.min(3, w / 3)}" fill="${c}"`), inside(call, x, y, w));
  if (call.x !== undefined) out.push(rect(x - .5, y + BAR, Math.max(3, w), 2.5, 'fill="var(--bad)"'));
}
// What a bar says, as room allows: text, or a letter.
function inside(call, x, y, w) {
  if (w < 8) return "";
  const from = Math.max(x, LABEL), space = x + w - from - 5, baseline = y + BAR - 4.5;
  const full = {read: "‹ " + call.t, readstb: "stb " + call.t, write: call.t}[call.n] ?? call.n;
  const text = space > 24 && full ? clip(full, space, 6.2) : "";
  if (text && !(call.n == "readstb" && space < 44)) return words(from + 3, baseline, text, "var(--on)");
  const short = call.n == "readstb" && call.t && space >= call.t.length * 6.2 ? call.t : LETTER[call.n] || "?";
  return words((from + x + w) / 2, baseline, short, "var(--on)", 'text-anchor="middle" font-weight="600"');
}
// A call that waits: hatched, with its reason; red at its end if that is an error; an arrow if it still waits.
function drawWait(call, out, {x, e, y, c, open, right}) {
  const last = call.q[call.q.length - 1], bad = call.x !== undefined, baseline = y + BAR - 4.5;
  const tail = Math.max(x + 3, open || last[1] === null ? e : X(last[1])), head = Math.max(2.5, Math.min(px * wide[call.s] || 3, 30));
  out.push(rect(x, y, Math.max(4, e - x - 1), BAR, `rx="3" fill="url(#h${call.c % 6})" stroke="${c}" stroke-width=".8"`));
  out.push(rect(x, y, head, BAR, `rx="2" fill="${c}"`));
  if (head > 9) out.push(words(x + head / 2, baseline, LETTER[call.n] || "?", "var(--on)", 'text-anchor="middle" font-weight="700"'));
  const reason = call.q[0][2], from = Math.max(x + head, LABEL) + 4, w = tail - from - 4;
  const label = longest([call.n + " · waits for " + reason, "waits for " + reason, reason, reason.replace(/.*: /, "").replace(/ \(.*|`/g, "")], w);
  if (label) out.push(under(from, y, label, w), words(from, baseline, label, "var(--ink)"));
  if (open) {
    out.push(`<path d="M${Math.min(e, right) - 7} ${y + 3}l6 ${BAR / 2 - 3}l-6 ${BAR / 2 - 3}" fill="none" stroke="${c}" stroke-width="1.6"/>`);
    return;
  }
  out.push(rect(tail, y, Math.max(3, e - tail - 1), BAR, `rx="2" fill="${bad ? "var(--bad)" : c}"`));
  if (bad && e - tail > 9) out.push(words((tail + e) / 2, baseline, e - tail > 18 ? call.x : "!", "var(--on)", 'text-anchor="middle" font-weight="700"'));
}
function drawUnits(lane, out, right) {
  const y = lane.y + (lane.h - BAR) / 2, baseline = y + BAR - 4.5;
  D.units.forEach(([i, text, c, bad, until], k) => {
    const held = until !== null, x = X(i), e = !held ? XE(i) : until < 0 ? END() : XE(until);
    const next = k + 1 < D.units.length ? X(D.units[k + 1][0]) : END();
    if (Math.max(e, next) < LABEL || x > right) return;
    const w = Math.max(2, e - x - (px > 4 ? 1 : .3)), fill = bad ? "var(--bad)" : held ? "url(#hh)" : colour(c);
    out.push(rect(x, y, w, BAR, `rx="2" fill="${fill}" ` + (held ? 'stroke="var(--held)" stroke-width=".8"' : `opacity="${bad ? 1 : .85}"`)));
    const from = Math.max(x, LABEL), space = x + w - from - 5;
    if (held) {
      const label = space > 30 ? longest([text + " held until the scan is idle", text + " held", text], space) : "";
      if (label) out.push(under(from + 4, y, label), words(from + 4, baseline, label, "var(--ink)"));
      return;
    }
    if (text.length * CHAR <= space) out.push(words(from + 4, baseline, text, "var(--on)"));
    else if (space > 22) out.push(words(from + 4, baseline, clip(text, space, CHAR), "var(--on)"));
    else {
      if (bad && w > 6) out.push(words((from + x + w) / 2, baseline, "!", "var(--on)", 'text-anchor="middle" font-weight="700"'));
      if (text.length * CHAR + 8 < next - e + 2) out.push(words(e + 3, baseline, text, bad ? "var(--bad)" : colour(c)));
    }
  });
}
function drawOwner(lane, out, right) {
  const y = lane.y + (lane.h - LOW) / 2;
  out.push(line(LABEL, y + LOW + .5, right, y + LOW + .5, 'stroke="var(--line)"'));
  for (const {i, j, v} of spans(lane.f ? [[0, lane.f], ...lane.H] : lane.H)) {
    const x = X(i), e = j === null ? END() : X(j);
    if (!v || e < LABEL || x > right) continue;
    const c = colour(v[1]), from = Math.max(x, LABEL);
    out.push(rect(x, y, Math.max(2, e - x), LOW, `rx="2" fill="${c}" opacity=".25"`), rect(x, y, 2, LOW, `fill="${c}"`));
    out.push(words(from + 6, y + LOW - 3.5, clip("link " + v[0], e - from - 8), c));
  }
}
function drawState(lane, out, right) {
  const y = lane.y + (lane.h - LOW) / 2;
  out.push(line(LABEL, y + LOW + .5, right, y + LOW + .5, 'stroke="var(--line)"'));
  for (const {i, j, v, more: source} of spans(lane.H)) {
    const x = X(i), e = j === null ? END() : X(j);
    if (v == "idle" || e < LABEL || x > right) continue;
    const wait = v == "waiting", c = wait ? "var(--wait)" : "var(--scan)", from = Math.max(x, LABEL);
    out.push(rect(x, y, Math.max(2, e - x), LOW, wait ? 'fill="url(#hw)"' : `fill="${c}"`));
    if (!wait)
      for (const [time] of D.folded)
        if (time > D.slots[i][0] && (j === null || time < D.slots[j][0]))
          out.push(`<path d="M${timeX(time)} ${y + LOW - 4}v4" stroke="var(--on)" opacity=".7"/>`);
    const scanned = `scanning: ${at(lane.r, j === null ? N - 1 : j, 0)} readings`;
    const text = longest(wait ? ["waits for " + source, source.slice(0, 3).toUpperCase()] : [scanned, "scanning", "scan"], e - from - 8);
    if (text && wait) out.push(under(from + 5, y - 1, text));
    if (text) out.push(words(from + 5, y + LOW - 3.5, text, wait ? "var(--ink)" : "var(--on)"));
  }
}
function drawCount(lane, out, right) {
  const base = lane.y + ROW - (ROW - LOW) / 2, most = Math.max(3, ...lane.H.map(one => one[1][0]));
  out.push(line(LABEL, base + .5, right, base + .5, 'stroke="var(--line)"'));
  for (const {i, j, v: [count, code]} of spans(lane.H)) {
    const x = X(i), e = j === null ? END() : X(j), h = 11 + 5 * count / most, from = Math.max(x, LABEL);
    if (!count || e < LABEL || x > right) continue;
    out.push(rect(x, base - h, Math.max(1.5, e - x), h, 'fill="var(--bad)" opacity=".22"'));
    out.push(line(x, base - h, Math.max(x + 1.5, e), base - h, 'stroke="var(--bad)" stroke-width="1.5"'));
    const text = code ? String(code) : String(count);
    if (e - from > text.length * 6.2 + 6)
      out.push(words(from + 4, base - 2.5, text + (count > 1 && code && e - from > 60 ? ` (${count})` : ""), "var(--bad)"));
  }
}
function drawBit(lane, out, right) {
  const low = lane.y + lane.h - 5.5, top = lane.y + 5.5, c = lane.id == "poll.6" ? "var(--rqs)" : "var(--bit)";
  const list = [[-1, lane.f], ...lane.H];
  let path = "";
  list.forEach(([i, v], k) => {
    const x = i < 0 ? Math.min(LABEL, N ? X(0) : LABEL) : X(i), e = k + 1 < list.length ? X(list[k + 1][0]) : END(), y = v ? top : low;
    if (e < LABEL - 2 || x > right) return;
    if (v) out.push(rect(x, top, Math.max(1, e - x), low - top, `fill="${c}" opacity=".2"`));
    path += (path ? "L" : "M") + Math.max(x, LABEL - 2).toFixed(1) + " " + y + "H" + Math.min(e, right + 2).toFixed(1);
    if (px > 3.5 && i >= 0) out.push(`<path d="M${x} ${v ? top - 3 : low + 3}l3.4 ${v ? 5.5 : -5.5}h-6.8z" fill="${c}" opacity="${v ? 1 : .55}"/>`);
  });
  out.push(`<path d="${path}" fill="none" stroke="${c}" stroke-width="1.4"/>`);
}
function drawWord(lane, out, right) {
  const y = lane.y + 5, h = lane.h - 10;
  for (const {i, j, v} of spans(lane.H)) {
    const x = X(i), e = j === null ? END() : X(j), from = Math.max(x, LABEL);
    if (e < LABEL || x > right) continue;
    out.push(`<path d="M${x} ${y + h / 2}l3 ${-h / 2}H${e - 3}l3 ${h / 2}l-3 ${h / 2}H${x + 3}z" fill="none" stroke="var(--dim)" stroke-width=".8"/>`);
    out.push(words(from + 6, y + h - 2, clip(v, e - from - 10), "var(--ink)"));
  }
}
// Service requests: arrows from RQS to the links, and their handles, as far as there is room up to the next one.
function sent(right) {
  const rqs = lanes.find(one => one.id == "poll.6"), found = [], last = new Map();
  for (const [i, conn, handle, link] of rqs ? D.requests : []) {
    const to = lanes.find(one => one.k == "link" && one.c == conn && one.l == link) || lanes.find(one => one.k == "link" && one.c == conn);
    const x = X(i) + Math.min(px * wide[i] / 2, 4) + conn * 3 % 9;
    if (!to || x < LABEL || x > right) continue;
    if (last.has(to)) last.get(to).room = x - last.get(to).x - 14;
    const one = {x, c: colour(conn), handle, end: to.y + ROW - 1, from: rqs.y + 4, room: right - x - 8};
    last.set(to, one);
    found.push(one);
  }
  return found;
}
function drawRequests(requests, out) {
  for (const {x, c, handle, end, from, room} of requests) {
    out.push(`<path d="M${x} ${end}l-3.5 7h7z" fill="${c}"/><circle cx="${x}" cy="${from + 1}" r="2.4" fill="${c}"/>`);
    out.push(words(x + 6, end + 8, clip(handle, room, CHAR), c));
  }
}
const DRAW = {group: drawGroup, link: drawLink, units: drawUnits, owner: drawOwner, state: drawState, count: drawCount, bit: drawBit, word: drawWord};
