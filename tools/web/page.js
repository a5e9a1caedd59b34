// What is shown, by what the page has.
"use strict";

const byId = id => document.getElementById(id);
const ALL = JSON.parse(byId("data").textContent);
const TIMES = ["before", "after"];
// The networks of the page, of which one is shown at a time: one, or those before and after a change, or those before and behind its steps.
const networks = (ALL.before ? [ALL.before, ALL.after] : [ALL.after, ...(ALL.change?.steps ?? []).map(it => it.network)]).map(told => new Network(told));
const change = ALL.change ? new Change(ALL.change, networks) : null;
const FIRST_PLACE = ALL.before ? 1 : 0;
const sight = new Sight(byId("network"));
const boxes = new Boxes(ALL.places);
const tally = new Tally();
const LACKS = { steps: !change, promises: !networks[0].promises, failures: !networks[0].swept };
const SHEETS = [
  ["steps", "Steps"], ["promises", "Promises"], ["failures", "Single failures"], ["switches", "Switches"], ["vlans", "VLANs"], ["links", "Links"],
  ["blocked", "Blocked ports"],
].filter(([name]) => !LACKS[name]);
const MOST_BUTTONS = 12, MOST_GROUPS = 8;
const shown = { tree: CIST, vid: null, failure: null, selected: null, from: null, to: null, sheet: SHEETS[0][0], otherTime: "", find: "", isWhole: false };
// What is shown of the network at a place. Rings are roles that the other one, where there is one, has otherwise.
let place, network, other, picture, telling, sheets, route;

/** Goes to a network of the page, with what is selected as far as it is there. */
function goTo(at) {
  if (at === place) return;
  place = at;
  network = networks[place];
  interfaces = network.interfaces;
  other = (ALL.before ? networks[1 - place] : networks[place - 1]) ?? null;
  picture = new Picture(network, boxes);
  sight.resize(picture.layout);
  telling = new Telling(network, ALL, picture);
  sheets = new Sheets(network, telling);
  route = new PathTelling(network, telling);
  if (!network.trees.has(shown.tree)) shown.tree = CIST;
  shown.failure = network.failures.get(shown.failure?.key) ?? null;
}

/** Draws the picture anew, with the boxes that are open now. */
function redraw() {
  picture.draw();
  sight.resize(picture.layout);
}

function roleBefore(tree, port) {
  return other && !shown.failure ? other.role(tree, port, null) : network.role(tree, port, null);
}

/** The path that is chosen: the one that is shown, and the one that it is compared with, where there is such a network. */
function pathsShown() {
  const { vid, from, to, failure } = shown;
  if (from === null || to === null || vid === null) return null;
  const before = failure ? route.paths.path(vid, from, to, null) : other ? new Paths(other).path(vid, from, to, null) : undefined;
  return { path: route.paths.path(vid, from, to, failure), before };
}

function put(id, content) {
  byId(id).innerHTML = escaped(content);
}

function showControls() {
  const button = (key, value, text, isOn, title = "") =>
    markup`<button data-${key}="${value}" class="${isOn ? "on" : ""}" aria-pressed="${Boolean(isOn)}" title="${title}">${text}</button>`;
  const { treeNumbers: trees, groups } = network;
  if (ALL.before) put("times", TIMES.map((time, i) => button("net", time, i ? "After" : "Before", i === place)));
  const isShown = tree => shown.vid === null && shown.tree === tree;
  const more = trees.slice(MOST_BUTTONS).map(tree => markup`<option ${isShown(tree) ? "selected" : ""}>${tree}</option>`);
  put("trees", [
    trees.slice(0, MOST_BUTTONS).map(tree => button("tree", tree, tree === CIST ? "0 CIST" : tree, isShown(tree))),
    more.length ? markup`<select id="moretrees" aria-label="more trees"><option>…</option>${more}</select>` : "",
  ]);
  put("groups", groups.length > MOST_GROUPS ? "" : groups.map(group =>
    button("vlan", vids(group.vids).first, shortened(group.vids, 14), shown.vid !== null && vids(group.vids).has(shown.vid), group.vids)));
  for (const [id, value] of [["vlan", shown.vid], ["from", shown.from], ["to", shown.to]]) {
    if (document.activeElement !== byId(id)) byId(id).value = value ?? "";
  }
  byId("boxes").hidden = !boxes.rows;
  byId("boxes").textContent = boxes.isAnyClosed ? "open all" : "close all";
}

function showBanner(paths) {
  const told = paths ? route.banner(shown, paths.path, paths.before) : sheets.banner(shown), banner = byId("banner");
  banner.hidden = !told;
  if (!told) return;
  banner.className = told[0];
  put("banner", told[1]);
}

function showStep() {
  byId("change").hidden = !change;
  if (!change) return;
  Object.assign(byId("step"), { max: networks.length - 1, value: place, disabled: networks.length === 1 });
  put("place", change.heading(place));
  byId("steptold").className = place ? "" : "short";
  put("steptold", change.told(place));
}

function sheetTold(name, isWhole) {
  return name === "steps" ? change.sheet(place) : sheets.told(name, shown, isWhole);
}

function showSheet() {
  const tab = ([name, title]) => {
    const isOn = shown.sheet === name;
    return markup`<button role="tab" aria-controls="sheet" aria-selected="${isOn}" class="${isOn ? "on" : ""}" data-sheet="${name}">${title}</button>`;
  };
  put("tabs", SHEETS.map(tab));
  put("sheet", sheetTold(shown.sheet, shown.isWhole));
}

const narrow = matchMedia("(max-width: 700px)");

/** On a phone the overview stands first, and what is selected lies over the lower part of the page. */
function showPanel() {
  const paths = pathsShown(), ofPath = () => (paths ? route.panel(shown, paths.path, paths.before) : null);
  const told = shown.find ? telling.found(shown) : telling.selected(shown) ?? ofPath(), isOver = Boolean(narrow.matches && told);
  put("panel", told && !isOver ? told : telling.overview.told(shown));
  byId("detail").hidden = !isOver;
  put("detail", isOver ? [markup`<button data-close="" aria-label="close">×</button>`, told] : "");
}
narrow.addEventListener("change", showPanel);

/** Shows something, and leaves the focus where it is: what had it may have been made anew, with the same data. */
function keepingFocus(show) {
  const at = document.activeElement, part = at?.closest("#panel, #detail, #sheet, #tabs, #trees, #times, #groups, #network, #banner, #chips");
  const data = Object.entries(at?.dataset ?? {}).map(([key, value]) => `[data-${key}="${CSS.escape(value)}"]`).join("");
  show();
  if (!part || document.contains(at)) return;
  const again = data && at !== part ? part.querySelector(data) : null;
  (again ?? (part.hidden ? byId("panel") : part)).focus({ preventScroll: true });
}

function showAll() {
  const otherTime = change ? "before the step" : `${TIMES[1 - place]} the change`;
  shown.otherTime = shown.failure ? "was" : otherTime;
  const paths = pathsShown();
  keepingFocus(() => {
    showHead();
    showControls();
    showStep();
    showBanner(paths);
    new Painter(picture, shown, roleBefore, paths).paint();
    showPanel();
    showSheet();
  });
}

/** All sheets with all of their rows, which are printed one after another. */
function makePrint() {
  put("print", SHEETS.map(([name, title]) => markup`<h2>${title}</h2>${sheetTold(name, true)}`));
  sight.svg.setAttribute("viewBox", textOf(sight.whole));
}
function endPrint() {
  put("print", "");
  sight.see(sight.frame);
}

function showLegend() {
  const drawn = (width, draw) => {
    const svg = element("svg", { width, height: 20, viewBox: `${-width / 2} -10 ${width} 20` });
    draw(svg);
    return new Markup(svg.outerHTML);
  };
  const sample = (state, width) => drawn(34, svg => {
    const cable = element("g", { class: `cable ${state}` }, svg);
    element("path", { class: "line", d: "M-15 0 L15 0", style: width ? `stroke-width:${width}` : "" }, cable);
  });
  const roles = ["Root", "Designated", "Alternate", "Master", "Disabled"].map(role =>
    markup`<span>${drawn(22, SIGNS[role][0])}${role === "Alternate" ? "Alternate, Backup: blocks" : role}</span>`);
  const lines = [
    ["forwards", "forwards (thick: 10 Gb/s and more)", 4], ["forwards carries", "carries the VLAN", 4],
    ["blocked", "blocked at an end"], ["elsewhere", "other region"], ["down", "down, or an end is off"],
  ].map(([state, text, width]) => markup`<span>${sample(state, width)}${text}</span>`);
  put("legend", [roles, lines]);
}

/** How many regions there are. An RSTP switch is one of its own, which isn't counted with those of MST. */
function regionsTold({ region_count: count }) {
  const alone = network.regions.filter(it => it.region_kind === "rstp").length;
  if (network.isAllRstp) return "all RSTP, no MST region";
  return alone ? `${counted(count - alone, "MST region")}, ${counted(alone, "RSTP switch", "RSTP switches")}` : counted(count, "region");
}

function showHead() {
  const counts = network.summary.find(it => it.kind === "bridges"), { promises, failures, refused } = network;
  const cutting = told => [...told.failures.values()].filter(it => it.cut).length;
  const chip = (text, kind = "", title = "") => markup`<span class="chip ${kind}" title="${title}">${text}</span>`;
  const jump = (sheet, text, isWarned) => markup`<button class="chip ${isWarned ? "warned" : "well"}" data-open="${sheet}">${text}</button>`;
  const cuts = cutting(network), swept = counted(failures.size, "single failure");
  const failing = cuts > 1 ? `${cuts} of ${swept} cut a VLAN` : `${cuts || "none"} of ${swept} cuts a VLAN`;
  const kept = promises && (promises.broken.length ? `${promises.hold} of ${counted(promises.expectations, "promise")} kept` : "all promises kept");
  const scripts = ALL.before ? `${ALL.before.script} → ${ALL.after.script}` : [ALL.after.script, ALL.change?.name].filter(Boolean).join(", ");
  const compared = tally.every > 1 ? ` · 1 in ${tally.every} failures compared` : "";
  byId("made").textContent = `${scripts} · ${ALL.version} · ${ALL.made}${compared}`;
  put("chips", [
    chip(`${counted(counts.bridge_count, "switch", "switches")}${counts.on_count === counts.bridge_count ? "" : `, ${counts.on_count} on`}`),
    chip(counted(network.lans.size, "link")), chip(regionsTold(counts)), chip(counted(counts.tree_count, "tree")),
    network.swept ? jump("failures", failing, cuts) : "",
    ALL.before && network.swept ? chip(`${TIMES[1 - place]}: ${cutting(other)}`) : "",
    promises ? jump("promises", kept, promises.broken.length) : "",
    change ? jump("steps", `${counted(change.steps.length, "step")}: ${change.counts}`, change.isWarned) : "",
    refused.length ? chip(counted(refused.length, "refused line"), "warned") : "",
    tally.wrong.length ? chip("page and program differ", "warned", tally.wrong.slice(0, 5).join(", ")) : "",
  ]);
}

/** What is compared, one after another: the network that is shown first, all others, and the steps. */
function* comparisons() {
  for (const it of [network, ...networks.filter(other => other !== network)]) {
    const comparison = new Comparison(it, tally), failures = [...it.failures.values()];
    yield* comparison.standing();
    const every = comparison.every(failures.length);
    for (const failure of failures.filter((_, i) => i % every === 0)) yield* comparison.after(failure);
  }
  for (const step of change?.steps ?? []) yield step.compare(tally);
}

/** Compares, and lets the page answer between. */
async function compareAll() {
  let begun = performance.now();
  for (const _ of comparisons()) {
    if (performance.now() - begun > 50) {
      await new Promise(done => setTimeout(done, 0));
      begun = performance.now();
    }
  }
  document.documentElement.dataset.checked = tally.compared;
  document.documentElement.dataset.wrong = tally.wrong.length;
  showHead();
}

function begin() {
  put("switches", [...new Set(networks.flatMap(it => [...it.bridges.keys()]))].sort(byNumbers).map(it => markup`<option value="${it}"></option>`));
  readAddress();
  showLegend();
  if (shown.selected) reveal(shown.selected);
  showAll();
  requestAnimationFrame(() => setTimeout(() => {
    document.documentElement.dataset.shown = Math.round(performance.now());
    compareAll();
  }, 0));
}
