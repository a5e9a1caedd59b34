// The sheets below the picture. Each is a table: its heads, and its rows, of which a long one shows the first.
"use strict";

const MOST_ROWS = 200;

class Sheets {
  constructor(network, telling) {
    Object.assign(this, { network, telling });
  }

  /** A sheet by its name, with all of its rows or the first ones. */
  told(name, shown, isWhole) {
    const { before, heads, rows } = this[name](shown), seen = isWhole ? rows : rows.slice(0, MOST_ROWS);
    const more = markup`<button class="action" data-rows="all">Show all ${rows.length} rows</button>`;
    return [before ?? "", rows.length || !before ? table(heads, seen) : "", seen.length < rows.length ? more : ""];
  }

  failures(shown) {
    const { network } = this, isBridge = it => Number(it.what === "bridge");
    const cutting = [...network.failures.values()].sort((a, b) =>
      Boolean(b.cut) - Boolean(a.cut) || isBridge(a) - isBridge(b) || byNumbers(a.name, b.name));
    const rows = cutting.map(failure => ({ data: { fail: failure.key }, isSelected: shown.failure === failure, cells: [
      markup`${failure.what === "lan" ? "LAN" : "switch"} <b>${failure.name}</b>`,
      failure.cut ? markup`<span class="warning">${listed(failure.cut)}</span>` : markup`<span class="fine">none</span>`,
      failure.parts.map(([cut, parts]) => line([failure.parts.length > 1 ? [listed(cut), ": "] : "", partsTold(parts)])),
      newRoots(network, failure).map(it => line([`${treeName(it.tree)}: ${it.before} → ${it.root}`, minor(` for ${it.whose}`)])),
      failure.changed,
    ] }));
    return { heads: ["What fails", "VLANs cut", "Parts", "New roots", "#Roles changed"], rows };
  }

  /** Each promise that isn't kept, with its line in the policy, where it isn't, and why; a click shows the failure. */
  promises(shown) {
    const { broken, policy, expectations, hold, step } = this.network.promises;
    if (!broken.length) return { before: markup`<div class="fine">All ${expectations} promises of ${policy} are kept.</div>`, heads: [], rows: [] };
    // (of a network that no change is of no promise has a step)
    const isOlder = it => it.step < step;
    const rows = broken.map(it => {
      const failure = this.network.failures.get(it.failure);
      const [what, name] = (it.failure ?? "").split(" ");
      const now = it.again ? `after ${counted(it.again, "failure")}` : "now";
      const place = it.refused ? "the line is refused" : it.failure ? `after ${entityName({ what, name })} has failed` : now;
      const since = isOlder(it) ? minor(it.step ? `told behind step ${it.step}` : "told before the first step") : "";
      const why = markup`<span class="warning said">${it.said}</span><div><code class="minor">${it.why}</code> ${since}</div>`;
      const cells = [it.line, markup`<b>${it.promise}</b>`, place, why];
      return failure ? { data: { fail: failure.key }, isSelected: shown.failure === failure, cells } : cells;
    });
    const older = broken.some(isOlder) ? " What was told behind an earlier step may be over by now, where its line has another reason." : "";
    const before = minor(`${hold} of ${counted(expectations, "promise")} of ${policy} ${hold === 1 ? "is" : "are"} kept.${older}`);
    return { before, heads: ["#Line", "Promise", "Where it isn't kept", "Why"], rows };
  }

  /** All switches, or those that were looked for. */
  switches(shown) {
    const { network, telling } = this, tree = shown.tree;
    const found = network.found(shown.find).bridges;
    const rows = found.map(bridge => {
      const { mac, on } = network.bridges.get(bridge), ports = network.portsOf(bridge);
      const rootPort = ports.find(port => ["Root", "Master"].includes(network.role(tree, port, shown.failure)));
      const blocked = ports.filter(port => BLOCKING.has(network.role(tree, port, shown.failure))).length;
      const isRoot = network.root(tree, bridge, shown.failure) === bridge, by = rootPort ? `root port ${numberOf(rootPort)}` : DASH;
      const state = !on ? "off" : !network.bridgeIn(tree, bridge) ? "not in this tree" : isRoot ? markup`<b>root</b>` : by;
      return { data: { bridge }, isSelected: shown.selected === `bridge ${bridge}`, cells: [
        markup`<b>${bridge}</b>`, mac, telling.regionText(bridge), network.priority(tree, bridge) ?? DASH, state, ports.length, blocked,
      ] };
    });
    const before = shown.find ? minor(`${counted(rows.length, "switch", "switches")} of ${network.bridges.size} by “${shown.find}”.`) : "";
    return { before, heads: ["Switch", "MAC", "Region", "#Priority", `In ${treeName(tree)}`, "#Ports", "#Blocked"], rows };
  }

  vlans({ failure }) {
    const rows = this.network.groupsAfter(failure).map(text => {
      const list = vids(text), islands = this.network.inhabited(list.first, failure).map(island => [...island].sort(byNumbers));
      const apart = listed(islands.slice(0, MOST_ISLANDS).map(island => some(island, MOST_NAMES).flat().join("")).join(" | "));
      const told = islands.length < 2 ? markup`<span class="fine">whole</span>`
        : markup`<span class="warning">${islands.length} islands</span>: ${apart}${islands.length > MOST_ISLANDS ? " | …" : ""}`;
      const { size } = this.network.having(list.first);
      return { data: { vlan: list.first }, cells: [markup`<b>${listed(text)}</b>`, list.count, size, told] };
    });
    return { before: this.after(failure), heads: ["VLANs", "#Number", "#Switches with a port in it", "Of these"], rows };
  }

  links({ failure }) {
    const links = [...this.network.lans].map(([lan, told]) => ({ lan, ...told, carried: this.network.carried(lan, failure) }));
    links.sort((a, b) => b.carried.count - a.carried.count || byNumbers(a.lan, b.lan));
    const rows = links.map(({ lan, ports, speed, carried }) => ({ data: { lan }, cells: [
      markup`<b>${lan}</b>`, ports.map(portName).join(` ${DASH} `), speedText(speed), carried.count,
      carried.count === LAST_VID ? "all" : carried.count ? listed(carried.text)
        : minor(this.network.isBetween(lan) ? `spare: carries nothing ${failure ? "now" : "while all is well"}` : "one switch alone"),
    ] }));
    return { before: this.after(failure), heads: ["LAN", "Ends", "Speed", "#VLANs carried", ""], rows };
  }

  blocked({ failure }) {
    const { network } = this;
    const rows = network.treeNumbers.flatMap(tree => network.blockedIn(tree, failure).map(port => ({ data: { port, tree }, cells: [
      markup`<b>${portName(port)}</b>`, network.lanOf(port), treeName(tree), roleTag(network.role(tree, port, failure)),
      failure ? "" : joined(this.telling.why(port, tree), " "),
    ] })));
    return { before: this.after(failure), heads: ["Port", "LAN", "Tree", "Role", failure ? "" : "Why"], rows };
  }

  /** Of which network a sheet tells, where a failure is shown. */
  after(failure) { return failure ? line(markup`<b>After ${entityName(failure)} has failed</b>`) : ""; }

  // ---- above the picture

  /** What is told above the picture, and in which colour: of a failure, of the VLAN that is shown, or of both. */
  banner({ vid, failure }) {
    if (!failure) return vid === null ? null : this.bannerOfVlan(vid);
    const roots = newRoots(this.network, failure).map(it => markup`; new root of ${treeName(it.tree)} for ${it.whose}: <b>${it.root}</b>, before ${it.before}`);
    const islands = vid === null ? 0 : this.network.inhabited(vid, failure).length;
    const isCut = vid === null ? Boolean(failure.cut) : failure.partsOf(vid).length > 0;
    const told = vid === null ? this.cutTold(failure.cut, isCut) : this.cutOfVlan(vid, failure, isCut, islands);
    return [isCut || islands > 1 ? "warned" : "", markup`<button data-clear="failure">Back to the whole network</button>
      <b>After ${entityName(failure)} has failed</b>${told}${roots};
      ${counted(failure.changed, "role")} of ports in use ${failure.changed === 1 ? "changes" : "change"}.
      ${minor("Dashed rings: another role than before.")}`];
  }

  cutTold(cut, isCut) {
    return markup`: ${isCut ? markup`<span class="warning">VLANs ${listed(cut)} are cut</span>` : "no VLAN is cut"}`;
  }

  /** Of the VLAN that is shown first, and then of others. */
  cutOfVlan(vid, failure, isCut, islands) {
    const others = vids(failure.cut).without(vid), was = this.network.inhabited(vid, null).length;
    const parts = isCut ? markup`<span class="warning">VLAN ${vid} is cut</span>: ${partsTold(failure.partsOf(vid))}` : `VLAN ${vid} isn't cut`;
    const apart = markup`, <span class="warning">and is in ${counted(islands, "island")}</span>${was === islands ? " as before" : ""}`;
    const before = !isCut && islands > 1 ? apart : "", more = others ? markup`; ${isCut ? "so are VLANs" : "other VLANs are:"} ${listed(shortened(others, 60))}` : "";
    return markup`, ${parts}${before}${more}`;
  }

  bannerOfVlan(vid) {
    const islands = this.network.inhabited(vid, null).length, without = this.network.bridges.size - this.network.having(vid).size;
    const whole = without ? "reaches every switch that is on and has a port in it" : "reaches every switch that is on";
    const told = islands > 1 ? `is in ${islands} islands; switches in red aren't in the largest` : whole;
    const pale = without ? `; ${counted(without, "pale switch has", "pale switches have")} none` : "";
    return [islands > 1 ? "warned" : "well", markup`<button data-clear="vlan">Back to trees</button><b>VLAN ${vid}</b> ${told}${pale}.
      ${minor("Each switch is drawn with its own tree of this VLAN.")}`];
  }
}
