"use strict";
// The front: shows the state as it comes, and sends what the knobs say.
const token = new URLSearchParams(location.search).get("token") || "";
const MINUS = "\u2212", OVERLOAD = {"+over": "+9.9E+37", "-over": "-9.9E+37"};
let state = null, came = 0, chosen = 1, tab = "front";
const front = id => document.getElementById(id);
const put = (id, text) => { const one = front(id); if (one.textContent !== text) one.textContent = text; };
const made = (tag, kind, text) => { const one = document.createElement(tag); if (kind) one.className = kind; if (text !== undefined) one.textContent = text; return one; };
const volts = value => value === null ? "" : OVERLOAD[value] || (value < 0 ? "-" : "+") + Math.abs(value).toFixed(6);
const brief = value => value === null ? "" : value in OVERLOAD ? value[0] + "OVL" : (value < 0 ? MINUS : "+") + Math.abs(value).toFixed(Math.abs(value) < 10 ? 4 : 3);
const plain = value => String(value).replace("-", MINUS) + " V";
const ms = value => value.toLocaleString("en") + " ms";
const within = (value, range) => Math.min(100, Math.max(0, 50 + 50 * value / range));

// Tiles: one for each channel, made once.
const tiles = [];
for (let i = 1; i <= 128; i++) {
  const one = made("button", "tile");
  one.append(made("span", "", String(i)), made("b"), made("span", "v"), made("s"));
  one.lastChild.append(made("i"), made("em", "low"), made("em", "high"), made("u"));
  one.onclick = () => choose(i);
  tiles.push(one);
  front("tiles").append(one);
}
const EMPTY = {input: 0, reading: null, listed: false, is: ""};
const channelOf = number => state && state.channels.find(one => one.channel == number) || EMPTY;

function drawTiles() {
  const {scan} = state, found = new Map(state.channels.map(one => [one.channel, one]));
  const numbers = scan.state == "scanning" ? listed() : [];
  const reads = numbers[scan.place];
  tiles.forEach((tile, k) => {
    const one = found.get(k + 1) || EMPTY, out = ["above", "below", "overload"].includes(one.is);
    const [, mark, value, bar] = tile.children, [fill, low, high, input] = bar.children;
    tile.className = ["tile", one.listed && "listed", one.reading !== null && "has", out && "out", k + 1 == reads && "reads", k + 1 == chosen && "sel"].filter(Boolean).join(" ");
    mark.textContent = (k + 1 == scan.monitor && scan.limits.on ? "M " : "") + ({above: "\u25b2", below: "\u25bc", overload: "OVL"}[one.is] || "");
    value.textContent = brief(one.reading);
    tile.title = `channel ${k + 1}: input ${plain(one.input)}` + (one.reading === null ? ", not read" : `, read ${volts(one.reading)} V at ${ms(one.clock)}`);
    const at = one.reading === null ? 50 : one.reading in OVERLOAD ? (one.reading[0] == "+" ? 100 : 0) : within(one.reading, scan.range);
    fill.style.left = Math.min(50, at) + "%";
    fill.style.width = Math.abs(at - 50) + "%";
    input.style.left = within(one.input, scan.range) + "%";
    input.hidden = !one.input && one.reading === null;
    for (const [limit, value] of [[low, scan.limits.lower], [high, scan.limits.upper]]) {
      limit.hidden = !scan.limits.on || !one.listed || Math.abs(value) >= scan.range;
      limit.style.left = within(value, scan.range) + "%";
    }
  });
}
// The channels of the scan list, in order.
const listed = () => state.scan.list.slice(2, -1).split(",").flatMap(part => {
  const [from, to] = part.split(":").map(Number);
  return to === undefined ? [from] : Array.from({length: Math.abs(to - from) + 1}, (_, i) => from + (to < from ? -i : i));
});

function drawDisplay() {
  const {scan, registers, message, lock} = state, newest = scan.newest, stb = registers.STB.bits;
  put("newest-channel", newest ? "CH " + newest.channel : "---");
  put("newest", newest ? volts(newest.reading).replace("-", MINUS) : "- - - - - -");
  front("newest").parentNode.classList.toggle("bad", !!newest && ["above", "below", "overload"].includes(channelOf(newest.channel).is));
  put("now", scan.now.replace(/^is /, ""));
  put("count", scan.readings ? `${scan.readings} reading${scan.readings > 1 ? "s" : ""}` : "");
  const total = scan.scans * scan.length, done = (scan.state == "scanning" ? scan.scan - 1 : scan.scan) * scan.length + scan.place;
  front("progress").style.width = total ? 100 * done / total + "%" : "0";
  const on = {RQS: stb.includes("RQS"), MAV: stb.includes("MAV"), ESB: stb.includes("ESB"), ERR: state.errors.length > 0, TRIG: scan.state == "waiting",
    SCAN: scan.state == "scanning", HOLD: !!message.held, LIM: scan.limits.on, LOCK: !!lock};
  document.querySelectorAll("[data-mark]").forEach(one => one.classList.toggle("on", on[one.dataset.mark]));
  document.querySelector("[data-mark=ERR]").classList.add("bad");
}
function drawSettings() {
  const {scan, message} = state, count = scan.scans || scan.count;
  put("list", scan.list);
  front("list").title = scan.list;
  put("source", `${scan.source}, ${count} scan${count > 1 ? "s" : ""}` + (scan.state == "waiting" ? " \u00b7 waits" : ""));
  front("source").classList.toggle("strong", scan.state == "waiting");
  put("range", `\u00b1${scan.range} V`);
  put("limits", scan.limits.on ? `${plain(scan.limits.lower)} to ${plain(scan.limits.upper)}` : "off");
  put("monitor", `channel ${scan.monitor}`);
  const said = [message.held && `${message.held} waits for the scan`, message.response && `response of ${message.response} byte${message.response > 1 ? "s" : ""}`, message.text && !message.held && "text of a message"].filter(Boolean);
  put("message", said.join(", ") || "none under way");
}

// Lamps. One that was lit and is off again flashes. `seen` has how often each had been lit when it was drawn last, or else in the
// first state that came: the next state can come before that one is drawn.
const lamps = [...document.querySelectorAll("[data-lamp]")], numbers = [...document.querySelectorAll("[data-value]")];
const register = where => where.split(".").reduce((found, part) => found[part], state.registers);
const seen = new Map(), rises = lamp => (register(lamp.dataset.lamp).rises || {})[lamp.dataset.bit] || 0;
function drawLamps() {
  for (const lamp of lamps) {
    const bit = lamp.dataset.bit, on = register(lamp.dataset.lamp).bits.includes(bit), count = rises(lamp);
    if (lamp.classList.toggle("on", on) !== (lamp.ariaLabel || "").endsWith("on")) lamp.ariaLabel = `${lamp.dataset.lamp} ${bit}: ${on ? "on" : "off"}`;
    if (!on && count > seen.get(lamp)) {
      lamp.classList.add("flash");
      setTimeout(() => lamp.classList.remove("flash"), 350);
    }
    seen.set(lamp, count);
  }
  for (const one of numbers) { const text = String(register(one.dataset.value).value); if (one.textContent != text) one.textContent = text; }
}

const filled = (id, nodes) => front(id).replaceChildren(...nodes);
function drawQueue() {
  filled("errors", state.errors.map(one => made("li", "", `${one.number} ${one.text}`)));
  put("lost", state.lost ? `${state.lost} lost` : "");
}
function drawWho() {
  const waits = state.waits.map(one => {
    const box = made("div", "wait"), who = `c${one.connection}${one.link ? " link " + one.link : ""}`, head = made("div");
    head.append(made("b", "c" + one.connection % 6, who + " "), `${one.call.replace(/^device_/, "")} has waited since ${ms(one.since)} for ${one.for} `);
    if (one.until !== null) { const left = made("span", "left"); left.dataset.until = one.until; head.append(left); }
    const chain = made("div", "chain");
    one.because.forEach(text => chain.append(made("i", "", "\u2190"), made("span", "", text)));
    box.append(head, chain);
    return box;
  });
  filled("waits", waits.length ? waits : [made("span", "dim", "nobody waits")]);
  const grid = made("div", "grid"), add = (...cells) => cells.forEach(([text, kind]) => grid.append(made("span", kind, text)));
  for (const one of state.connections) {
    const links = state.links.filter(link => link.connection == one.connection), name = ["c" + one.connection, "c" + one.connection % 6];
    const channel = one.interrupt ? "interrupt channel" : "";
    if (!links.length) add(name, ["", ""], [one.role == "core" ? "no link" : one.role == "abort" ? "abort channel" : "port mapper", "dim"]);
    for (const link of links) {
      const more = [link.requests ? "service requests on" : "", channel].filter(Boolean).join(", ");
      add(name, ["link " + link.link, ""], [link.lock ? "holds the lock" + (more ? ", " + more : "") : more, link.lock ? "lock" : "dim"]);
    }
  }
  filled("links-now", state.connections.length ? [grid] : [made("span", "dim", "no connections")]);
}
function drawLog() {
  filled("log", state.log.map(one => {
    const row = made("div", "happened" + (one.fault ? " err" : "")), words = made("div");
    const conn = /^c(\d+)/.exec(one.who);
    words.append(one.what.replace(/^device_/, ""));
    if (one.reply) words.append(made("span", "re", " \u2192 " + one.reply));
    if (one.times > 1) words.append(made("span", "dim", `  ${one.times} times`));
    row.append(made("span", "when", one.clock.toLocaleString("en")), made("span", "by " + (conn ? "c" + conn[1] % 6 : "c9"), one.who.replace("link ", "L")), words);
    return row;
  }));
}

// How server and panel do.
function drawLife(gone) {
  const server = state && state.server, life = front("life"), alarm = front("alarm");
  const said = gone ? "the panel doesn't answer; it is tried again" : !server ? "" : server.ended ? server.ended : server.silent ? "the server doesn't answer" : server.fault;
  const more = !gone && server && server.ended && server.fault ? "; " + server.fault : "";
  life.textContent = gone ? "no panel" : !server ? "connecting" : server.ended ? "ended" : server.silent ? "silent" : server.fault ? "not followed" : server.behind > 100000 ? `behind by ${Math.round(server.behind / 1000)} kB` : "serving";
  life.className = "pill " + (said ? "ended" : server && server.behind <= 100000 ? "runs" : "");
  alarm.hidden = !(said || !token);
  alarm.className = said ? "" : "quiet";
  alarm.textContent = said ? said[0].toUpperCase() + said.slice(1) + more + "." : "This address has no token: the panel shows all, and changes nothing.";
  const off = !token || gone || !server || !!server.ended;
  ["channel", "volts", "set", "slider", "zero", "external"].forEach(id => { if (id != "channel") front(id).disabled = off; });
}
function drawClock() {
  if (!state) return;
  const stands = state.server.ended || state.server.silent || lostAt, now = state.clock + (stands ? 0 : Math.max(0, Math.floor(performance.now() - came)));
  put("clock", now.toLocaleString("en"));
  document.querySelectorAll("[data-until]").forEach(one => {
    const rest = one.dataset.until - now, text = rest > 0 ? `${rest > 172800000 ? Math.floor(rest / 86400000) + " days" : rest > 20000 ? Math.ceil(rest / 1000) + " s" : ms(Math.ceil(rest / 100) * 100)} left` : "";
    if (one.textContent != text) one.textContent = text;
  });
}

// The knobs. While one request is under way, only the newest value waits.
let sending = false, next = null, held = false, heldUntil = 0;
function choose(number) {
  if (!(number >= 1 && number <= 128)) return;
  chosen = number;
  held = false;
  heldUntil = 0;
  front("channel").value = number;
  drawKnobs();
  if (state) drawTiles();
}
function drawKnobs() {
  const range = state ? state.scan.range : 10, one = channelOf(chosen), slider = front("slider"), at = front("scale").querySelector(".at");
  const most = range * 1.2;
  slider.max = most; slider.min = -most; slider.step = range / 1000;
  put("least", plain(-most)); put("most", plain(most));
  if (!held && performance.now() > heldUntil) { slider.value = one.input; front("volts").value = one.input; }
  const [low, high] = front("scale").querySelectorAll(".lim"), place = value => within(value, most);
  const limits = state ? state.scan.limits : {on: false};
  low.style.left = "0"; low.style.width = limits.on ? place(limits.lower) + "%" : "0";
  high.style.right = "0"; high.style.width = limits.on ? 100 - place(limits.upper) + "%" : "0";
  at.hidden = one.reading === null;
  at.style.left = one.reading in OVERLOAD ? (one.reading == "+over" ? "100%" : "0%") : place(one.reading || 0) + "%";
  at.classList.toggle("out", ["above", "below", "overload"].includes(one.is));
  front("external").classList.toggle("awaited", !!state && state.scan.state == "waiting" && state.scan.source == "EXTernal");
}
async function send(path, body) {
  const answer = await fetch(`${path}?token=${encodeURIComponent(token)}`, {method: "POST", body}).then(async one => [one.ok, await one.json()], () => [false, {error: "the panel doesn't answer"}]);
  const said = front("said");
  said.className = answer[0] ? "" : "bad";
  said.textContent = answer[0] ? path == "/external" ? "triggered" : `channel ${answer[1].channel} = ${plain(answer[1].input)}` : answer[1].error;
  return answer[0];
}
async function set(number, text) {
  next = [number, text];
  heldUntil = performance.now() + 400;
  if (sending) return;
  sending = true;
  while (next) {
    const [channel, value] = next;
    next = null;
    await send("/inputs/" + channel, String(value).trim().replace(MINUS, "-").replace(",", "."));
  }
  sending = false;
}
front("channel").oninput = () => choose(Math.round(+front("channel").value));
front("slider").oninput = () => { held = true; front("volts").value = front("slider").value; set(chosen, front("slider").value); };
front("slider").onchange = () => { held = false; };
front("volts").onfocus = () => { held = true; };
front("volts").onblur = () => { held = false; };
front("volts").onkeydown = event => { if (event.key == "Enter") set(chosen, front("volts").value); };
front("set").onclick = () => set(chosen, front("volts").value);
front("zero").onclick = () => { front("volts").value = 0; held = false; set(chosen, "0"); };
front("external").onclick = () => send("/external", "");

// The stream of states. If it breaks, the browser tries again by itself.
let due = false, lostAt = false;
function drawFront() {
  if (!due) return;
  due = false;
  drawLife(false);
  drawDisplay(); drawSettings(); drawTiles(); drawLamps(); drawQueue(); drawWho(); drawLog(); drawKnobs(); drawClock();
}
const stream = new EventSource("/events");
stream.onmessage = event => {
  const first = state === null;
  state = JSON.parse(event.data);
  if (first) lamps.forEach(lamp => seen.set(lamp, rises(lamp)));
  came = performance.now();
  lostAt = false;
  due = true;
  requestAnimationFrame(drawFront);
  setTimeout(drawFront, 60);                // a page in the background has no frames
  dispatchEvent(new Event("state"));
};
stream.onerror = () => { lostAt = true; drawLife(true); };
setInterval(drawClock, 50);
drawLife(false);
drawKnobs();
