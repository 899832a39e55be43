"use strict";
// The session: explained anew while it is followed, and whole once that is stopped.
let following = true, asking = false, had = -1, cost = 0, timer = null, wholeNext = false;
function openTab(name) {
  tab = name;
  document.body.className = name;
  document.querySelectorAll("[data-tab]").forEach(one => { one.classList.toggle("on", one.dataset.tab == name); one.ariaSelected = String(one.dataset.tab == name); });
  $("front").hidden = name != "front";
  $("session").hidden = name != "session";
  if (name == "session") { plan(); clamp(); draw(); ask(); }
}
document.querySelectorAll("[data-tab]").forEach(one => one.onclick = () => openTab(one.dataset.tab));

// Asks for the session, if there is something new in it. It costs the panel some time, so it has a rest of three times that.
async function ask(whole = false) {
  clearTimeout(timer);
  timer = null;
  wholeNext = whole && asking;
  if (asking || tab != "session" || !whole && (!following || !state || state.happened + "," + state.scan.readings == had)) return;
  asking = true;
  const started = performance.now(), mark = state ? state.happened + "," + state.scan.readings : -1;
  try {
    const answer = await fetch(whole ? "/session?all=1" : "/session"), told = await answer.json();
    if (answer.ok) { if (whole || following) { had = mark; takeSession(told); } } else $("facts").textContent = told.error;
  } catch (fault) { $("facts").textContent = "the panel doesn't answer"; }
  cost = performance.now() - started;
  asking = false;
  if (wholeNext) ask(true);
  if (whole || !following) return;
  timer = setTimeout(() => { timer = null; ask(); }, Math.max(250, 3 * cost));
}
function takeSession(told) {
  take(told.data);
  marks = [];
  $("table").style.setProperty("--clock", told.wide + "ch");
  $("table").innerHTML = told.table;
  $("ending").innerHTML = told.end;
  $("facts").textContent = told.facts;
  offerLinks();
  filter();
  layout();
  plan();
  fit();
  if (mode == "steps" && px < LEAST) px = NEAR;
  clamp();
  left = total;
  clamp();
  if (!N) { draw(); return; }
  pick(N - 1);
  $("table").scrollTop = $("table").scrollHeight;
}
function follow(on) {
  following = on;
  $("follow").classList.toggle("on", on);
  $("follow").ariaPressed = String(on);
  $("follow").textContent = on ? "follow" : "stopped";
}
// Who looks at something is not to lose it.
for (const box of [svg, over, $("table"), $("below")]) box.addEventListener("pointerdown", () => follow(false));
$("follow").onclick = () => {
  follow(!following);
  had = -1;
  ask(!following);
};
addEventListener("state", () => { if (!timer) ask(); });
const opened = new URLSearchParams(location.hash.slice(1)).get("tab");
if (opened == "session") openTab("session");
