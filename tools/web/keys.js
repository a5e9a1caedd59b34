// How clicks, keys and the page's address change what is shown.
"use strict";

// ---- the address, so that a view can be sent

function addressOf() {
  const told = new URLSearchParams();
  if (ALL.before && place === 0) told.set("net", "before");
  if (change && place) told.set("step", place);
  if (shown.vid !== null) told.set("vlan", shown.vid);
  else if (shown.tree !== CIST) told.set("tree", shown.tree);
  if (shown.failure) told.set("fail", shown.failure.key);
  for (const end of ["from", "to"]) if (shown[end] !== null) told.set(end, shown[end]);
  if (shown.selected) told.set("at", shown.selected);
  if (shown.sheet !== SHEETS[0][0]) told.set("sheet", shown.sheet);
  if (boxes.changed.size) told.set("open", boxes.isAnyClosed ? [...boxes.changed].join(",") : "all");
  return told;
}

// What the browser's Back leaves again, and stays on the page.
const OPENED = ["net", "fail", "at", "sheet", "from", "to"];

function showAddress() {
  const told = addressOf(), last = new URLSearchParams(location.hash.slice(1));
  if (`${told}` === `${last}`) return;
  const isOpened = OPENED.some(key => told.get(key) !== last.get(key));
  try {
    history[isOpened ? "pushState" : "replaceState"](null, "", `#${told}`);
  } catch (fault) {
    // A page in a frame without an address has none to change.
    if (fault.name !== "SecurityError") throw fault;
  }
}

/** The place of the network that an address says. */
function placeIn(told) {
  if (ALL.before) return told.get("net") === "before" ? 0 : 1;
  const step = Number(told.get("step"));
  return Number.isInteger(step) && networks[step] ? step : FIRST_PLACE;
}

function readAddress() {
  const told = new URLSearchParams(location.hash.slice(1)), tree = Number(told.get("tree") ?? CIST), vid = Number(told.get("vlan"));
  const open = told.get("open"), was = [...boxes.changed].join();
  if (open === "all") boxes.makeAll(true);
  else boxes.changed = new Set((open ?? "").split(",").filter(name => boxes.all.has(name)));
  if (picture && was !== [...boxes.changed].join()) redraw();
  goTo(placeIn(told));
  shown.tree = network.trees.has(tree) ? tree : CIST;
  shown.vid = Number.isInteger(vid) && vid >= 1 && vid <= LAST_VID ? vid : null;
  shown.failure = network.failures.get(told.get("fail")) ?? null;
  for (const end of ["from", "to"]) shown[end] = networks.some(it => it.bridges.has(told.get(end))) ? told.get(end) : null;
  openPath();
  shown.selected = told.get("at");
  shown.sheet = SHEETS.some(([name]) => name === told.get("sheet")) ? told.get("sheet") : SHEETS[0][0];
}

// ---- clicks and keys

const toTop = () => scrollTo({ top: 0, behavior: "smooth" });
const isInSheet = at => Boolean(at.closest("#sheet"));

/** Opens the boxes that something is in, and goes to it where it isn't seen. */
function reveal(selected) {
  const [what, ...rest] = selected.split(" "), name = rest.join(" ");
  const ports = what === "lan" ? network.lans.get(name)?.ports ?? [] : what === "port" ? [name] : [];
  const bridges = what === "bridge" ? [name] : ports.map(bridgeOf);
  if (bridges.map(bridge => boxes.reveal(bridge)).some(Boolean)) redraw();
  const spot = picture.middleOf(selected);
  if (spot && boxes.rows) sight.goTo(spot);
}

/** One end of a path is chosen, or none. Without a VLAN it is the first one that joins both ends. */
function choose(end, bridge) {
  shown[end] = bridge;
  openPath();
}

/** Shows a VLAN for a path, and opens the boxes that it goes through. */
function openPath() {
  const { from, to } = shown;
  if (from === null || to === null) return;
  const joining = network.groups.find(({ islands }) => islands.some(it => it.includes(from) && it.includes(to)));
  shown.vid ??= joining ? vids(joining.vids).first : 1;
  const path = route.paths.path(shown.vid, from, to, shown.failure);
  if ((path ? bridgesOf(from, path) : [from, to]).map(bridge => boxes.reveal(bridge)).some(Boolean)) redraw();
}

/** Selects something. From elsewhere than in the picture the picture goes there. */
function select(selected, at) {
  shown.selected = selected;
  shown.find = "";
  byId("find").value = "";
  if (!at.closest("#network")) reveal(selected);
  if (isInSheet(at)) toTop();
}

/** A switch's own button chooses it: its other end isn't told any more, but the path. */
function choosing(end, bridge) {
  if (shown[end === "from" ? "to" : "from"] !== null) shown.selected = null;
  choose(end, bridge);
}

/** What a click does, by the first of these names that the element has as data-NAME. */
const CLICKS = {
  zoom: how => ({ in: () => sight.scale(0.75), out: () => sight.scale(1.33), fit: () => sight.see(sight.whole),
    save: () => picture.save(`${network.script.replace(/\.\w+$/, "")}${change && place ? `-step-${place}` : ""}.svg`, sight.whole) })[how](),
  past: () => byId("panel").focus(),
  net: time => {
    shown.failure = null;
    goTo(TIMES.indexOf(time));
  },
  step: (number, at) => {
    goTo(Number(number));
    if (isInSheet(at)) toTop();
  },
  fail: (key, at) => {
    const failure = network.failures.get(key);
    shown.failure = shown.failure === failure ? null : failure;
    if (!isInSheet(at)) return;
    const lan = [...network.lans].find(([, { members }]) => failure.what === "lan" && members.includes(failure.name));
    select(lan ? `lan ${lan[0]}` : key, at);
  },
  close: () => {
    if (!shown.find && telling.selected(shown) === null) CLICKS.clear("path");
    shown.selected = null;
    shown.find = byId("find").value = "";
  },
  clear: what => {
    const cleared = { vlan: ["vid"], failure: ["failure"], path: ["from", "to"] };
    for (const it of cleared[what]) shown[it] = null;
  },
  from: bridge => choosing("from", bridge),
  to: bridge => choosing("to", bridge),
  rows: () => { shown.isWhole = true; },
  boxes: () => {
    boxes.makeAll(boxes.isAnyClosed);
    redraw();
    sight.see(sight.whole);
  },
  fold: name => {
    boxes.changeOver(name);
    redraw();
  },
  links: (key, at) => select(`links ${key}`, at),
  port: (port, at) => {
    select(`port ${port}`, at);
    if (at.dataset.tree === undefined) return;
    CLICKS.tree(at.dataset.tree);
    toTop();
  },
  lan: (lan, at) => select(`lan ${lan}`, at),
  bridge: (bridge, at) => select(`bridge ${bridge}`, at),
  tree: tree => {
    shown.tree = Number(tree);
    shown.vid = null;
  },
  vlan: (vid, at) => {
    shown.vid = Number(vid);
    if (isInSheet(at)) toTop();
  },
  sheet: name => {
    shown.sheet = name;
    shown.isWhole = false;
  },
  open: name => {
    CLICKS.sheet(name);
    byId("sheet").scrollIntoView({ behavior: "smooth" });
  },
};

function changed() {
  showAll();
  showAddress();
}

document.addEventListener("click", event => {
  const isInPicture = event.target.closest("#network");
  if (isInPicture && sight.hasMoved) return;
  const at = event.target.closest(Object.keys(CLICKS).map(name => `[data-${name}]`).join(","));
  if (!at && !isInPicture) return;
  const name = at && Object.keys(CLICKS).find(it => it in at.dataset);
  keepingFocus(() => {
    if (at) CLICKS[name](at.dataset[name], at);
    else shown.selected = null;
    if (name !== "zoom" && name !== "past") changed();
  });
});
document.addEventListener("change", event => {
  if (event.target.id !== "moretrees") return;
  CLICKS.tree(Number(event.target.value) || CIST);
  changed();
});
byId("step").addEventListener("input", ({ target }) => {
  goTo(Number(target.value));
  changed();
});
byId("vlan").addEventListener("input", ({ target }) => {
  const vid = Number(target.value), isFine = target.value === "" || (Number.isInteger(vid) && vid >= 1 && vid <= LAST_VID);
  target.classList.toggle("warned", !isFine);
  shown.vid = isFine && target.value !== "" ? vid : null;
  changed();
});
for (const end of ["from", "to"]) {
  byId(end).addEventListener("input", ({ target }) => {
    const name = target.value.trim(), isThere = networks.some(it => it.bridges.has(name));
    target.classList.toggle("warned", name !== "" && !isThere);
    if (isThere) shown.selected = null;
    choose(end, isThere ? name : null);
    changed();
  });
}
byId("find").addEventListener("input", ({ target }) => {
  shown.find = target.value.trim();
  showPanel();
  if (shown.sheet === "switches") showSheet();
});

/** From one tab to the next, by the arrow keys. */
function goAlong(tabs, step) {
  const all = [...tabs.querySelectorAll("[role=tab]")], at = all.indexOf(document.activeElement);
  const next = all[(at + step + all.length) % all.length];
  next.focus();
  next.click();
}

const STEPS = { ArrowLeft: -1, ArrowRight: 1 };

/** What a key does; nothing of it where it isn't one of these. */
function press(event) {
  const { key, target } = event;
  if (key === "Escape") {
    if (shown.find) byId("find").value = shown.find = "";
    else shown[shown.failure ? "failure" : shown.selected ? "selected" : "vid"] = null;
    changed();
  } else if (key === "Enter" && target.id === "find") byId("panel").querySelector(".row")?.dispatchEvent(new MouseEvent("click", { bubbles: true }));
  else if (STEPS[key] && target.getAttribute("role") === "tab") goAlong(target.parentElement, STEPS[key]);
  else if ((key === "Enter" || key === " ") && target.matches("[tabindex='0']")) {
    event.preventDefault();
    target.dispatchEvent(new MouseEvent("click", { bubbles: true }));
  }
}
document.addEventListener("keydown", press);
// What gets the focus by the keyboard is to be seen.
byId("network").addEventListener("focusin", ({ target }) => {
  const [key, value] = Object.entries(target.dataset).find(([name]) => name in CLICKS) ?? [];
  if (!key || !target.matches(":focus-visible")) return;
  const spot = picture.middleOf(key === "fold" ? value : `${key} ${value}`);
  if (spot && !sight.sees(spot)) sight.goTo(spot);
});
addEventListener("popstate", () => {
  readAddress();
  if (shown.selected) reveal(shown.selected);
  showAll();
});
addEventListener("beforeprint", makePrint);
addEventListener("afterprint", endPrint);
begin();
