// What is told of the whole network beside the picture, where nothing is selected.
"use strict";

/** `telling` is that of the network, and `all` has both networks where there are two. */
class Overview {
  constructor(network, all, telling) {
    Object.assign(this, { network, all, telling });
  }

  /** Of the network while all is well, or after the failure that is shown. */
  told({ failure }) {
    const trees = this.network.treeNumbers.map(tree => this.roots(tree, failure));
    if (failure) {
      return markup`<h2>Overview after ${entityName(failure)} has failed</h2>${this.cuts(failure)}${trees}
        ${this.regions(failure)}${this.spares(failure)}`;
    }
    return markup`<h2>Overview</h2><div class="minor">Click a switch, a cable or a port's number; by keyboard Tab and Enter.</div>
      ${this.all.before ? this.change() : ""}${this.refusals()}${trees}
      ${this.regions(null)}${this.ties()}${this.spares(null)}${this.looks()}${this.notes()}`;
  }

  /** What a failure cuts, and the roots that it makes. */
  cuts(failure) {
    const cuts = failure.parts.map(([cut, parts]) => markup`<div class="warning">VLANs ${listed(cut)} come apart:</div><div>${partsTold(parts)}</div>`);
    return cuts.length ? cuts : markup`<div class="fine">No VLAN is cut between the switches that stay.</div>`;
  }

  change() {
    const told = this.all.differences, roles = new Map();
    const apart = islands => islands.map(names => names.join(",")).join(" | ") || DASH;
    const regionText = it => (it.region_kind === "rstp" ? "RSTP" : `${it.name} ${it.revision}`);
    for (const it of told.filter(record => record.kind === "port")) kept(roles, it.tree, () => []).push(portJump(portText(it)));
    const roots = told.filter(it => it.kind === "root").map(it =>
      markup`<div>Root of ${treeName(it.tree)}: ${it.old_root ?? DASH} → <b>${it.new_root ?? DASH}</b></div>`);
    const regions = told.filter(it => it.kind === "region").map(it => markup`<div>Region of ${this.telling.bridgeJump(it.bridge)}:
      ${regionText(it.old_region)} → <b>${regionText(it.new_region)}</b></div>`);
    const reach = told.filter(it => it.kind === "reach").map(it => [
      markup`<div class="warning">VLANs ${listed(listOf(it.vids))} reach other switches:</div>`,
      line([apart(it.old_islands), " → ", apart(it.new_islands)]),
    ]);
    const ports = [...roles].map(([tree, list]) =>
      markup`<div>${treeName(tree)}: ${counted(list.length, "role")} ${minor(some(list, MOST_PORTS))}</div>`);
    const changes = [...roots, ...regions, ...reach, ...ports];
    const none = minor("No root, role, region or reach is another one.");
    return markup`<h3>What the change does</h3>${changes.length ? changes : line(none)}${this.failuresCompared()}`;
  }

  /** Which single failures cut a VLAN after the change, and didn't before. */
  failuresCompared() {
    if (!this.network.swept) return "";
    const cutting = told => new Set(told.failures.filter(it => it.cut).map(entityName));
    const before = cutting(this.all.before), after = cutting(this.all.after);
    const worse = [...after].filter(it => !before.has(it)), better = [...before].filter(it => !after.has(it));
    if (!worse.length && !better.length) return minor(`The same single failures cut VLANs as before: ${after.size}.`);
    return [
      ...worse.map(it => markup`<div class="warning">From now on the failure of ${it} cuts a VLAN.</div>`),
      ...better.map(it => markup`<div class="fine">The failure of ${it} cuts nothing any more.</div>`),
    ];
  }

  refusals() {
    const { refused } = this.network;
    const rows = refused.map(it => [`line ${it.line}`, markup`<span class="warning">${it.error} ${it.text}</span>`]);
    return rows.length ? markup`<h3>Refused lines</h3>${table(["", ""], rows)}` : "";
  }

  roots(tree, failure) {
    const { network, telling } = this, blocked = network.blockedIn(tree, failure);
    const nextOf = next => (next ? [telling.bridgeJump(next), ` ${network.priority(tree, next)}`] : DASH);
    const rows = network.rootsIn(tree, failure).map(({ root, next, bridges }) =>
      [telling.bridgeJump(root), network.priority(tree, root), nextOf(next), bridges.length]);
    const ports = blocked.length > MOST_NAMES ? `${blocked.length} ports` : joined(blocked.map(portJump), ", ");
    return markup`<h3>${treeName(tree)}</h3>${table(["Root", "Priority", "Next", "#Switches"], rows)}
      ${minor(["Blocked: ", blocked.length ? ports : "no port"])}`;
  }

  /** Regions by name. An RSTP bridge is a region of its own, which isn't told of each. */
  regions(failure) {
    const { network, telling } = this, isOn = bridge => !failure?.takesAway("bridge", bridge);
    const standing = network.regions.map(it => ({ ...it, bridges: it.bridges.filter(isOn).sort(byNumbers) })).filter(it => it.bridges.length);
    const all = standing.filter(it => it.region_kind === "mstp");
    const alone = standing.filter(it => it.region_kind === "rstp").flatMap(it => it.bridges).sort(byNumbers);
    const names = bridges => some(bridges.map(bridge => telling.bridgeJump(bridge)), MOST_NAMES);
    const rows = all.slice(0, MOST_NAMES).map(({ name, revision, bridges }) => {
      const sign = markup`<span class="hue" style="background:${telling.hue(bridges[0])}"></span>`;
      return markup`<div>${sign}<b>${name}</b> revision ${revision}: ${names(bridges)}</div>`;
    });
    if (all.length > rows.length) rows.push(minor(`and ${all.length - rows.length} more`));
    const each = alone.length === 1 ? "1 switch is RSTP, and a region of its own" : `${alone.length} switches are RSTP, each a region of its own`;
    if (network.isAllRstp) rows.push(markup`<div>No MST region: all switches are RSTP, and each is a region of its own.</div>`);
    else if (alone.length) rows.push(markup`<div>${each}: ${names(alone)}</div>`);
    return markup`<h3>Regions</h3>${rows}`;
  }

  /** Blocked ports that a MAC address alone decides on: costs and priorities are equal. */
  ties() {
    const ties = new Map();
    for (const [port, byTree] of this.network.reasons) {
      for (const [tree, records] of Object.entries(byTree)) {
        const tie = records.find(it => it.kind === "root" && it.field === "bridge" && it.value_id.slice(0, 4) === it.loser_id.slice(0, 4));
        if (tie && BLOCKING.has(this.network.role(Number(tree), port, null))) {
          kept(ties, comparedIn(tie).map(id => this.network.named(id)).join(" "), () => new Set()).add(port);
        }
      }
    }
    if (!ties.size) return "";
    const rows = [...ties].sort(([one], [other]) => byNumbers(one, other)).slice(0, MOST_PORTS).map(([pair, ports]) => {
      const blocked = ports.size > 4 ? `${ports.size} ports` : joined([...ports].sort(byNumbers).map(portJump), ", ");
      const bridges = joined(pair.split(" ").map(bridge => this.telling.bridgeJump(bridge)), " before ");
      return markup`<div>${bridges} ${minor(["blocks ", blocked])}</div>`;
    });
    const left = ties.size - rows.length;
    return markup`<h3>Decided by a MAC address alone</h3>${rows}${left > 0 ? line(`and ${counted(left, "more pair")}`) : ""}
      ${minor("Costs and priorities are equal there.")}`;
  }

  spares(failure) {
    const { network } = this, isUsed = port => network.role(CIST, port, failure) !== "Disabled";
    const isSpare = ([lan, { ports }]) => network.isBetween(lan) && ports.every(isUsed) && !network.carried(lan, failure).count;
    const spare = [...network.lans].filter(isSpare).sort(([one], [other]) => byNumbers(one, other));
    if (!spare.length) return "";
    const told = spare.length > MOST_NAMES ? `${spare.length} links` : joined(spare.map(([lan]) => lanJump(lan)), ", ");
    return markup`<h3>Spare links</h3><div>${told} ${minor(`${spare.length === 1 ? "carries" : "carry"} no VLAN ${failure ? "now" : "while all is well"}`)}</div>`;
  }

  /** What is most often a slip. */
  looks() {
    const looks = this.network.summary.filter(it => it.kind === "look"), rows = looks.slice(0, MOST_NAMES).map(it => line(this.slip(it)));
    if (looks.length > rows.length) rows.push(minor(`and ${looks.length - rows.length} more`));
    return rows.length ? markup`<h3>Worth a look</h3>${rows}` : "";
  }

  slip(it) {
    const { telling } = this, named = (name, bridges) => [markup`<b>${name}</b> (`, some(bridges.map(bridge => telling.bridgeJump(bridge)), MOST_NAMES), ")"];
    const end = (port, vids) => [portJump(portText(port)), " ", vids.length ? listed(listOf(vids)) : DASH];
    if (it.look === "lan") return [lanJump(it.lan), ` has ${speedText(it.speed)}, and the slowest link beside it ${speedText(it.next_speed)}`];
    if (it.look === "vlans") return ["VLANs that one end of a link alone allows: ", end(it, it.vids), ", ", end(it.other_port, it.other_vids)];
    if (it.vids) return [telling.bridgeJump(it.bridge), markup` has another MSTI than all others of <b>${it.name}</b> for VLANs `, listed(listOf(it.vids))];
    return ["Regions whose names are nearly one: ", named(it.name, it.bridges), ", ", named(it.other_name, it.other_bridges)];
  }

  notes() {
    const told = this.network.notes.map(({ kind, ...note }) => Object.entries(note).map(([key, value]) => `${key} ${value}`).join(" "));
    return told.length ? markup`<h3>Notes</h3>${told.map(text => markup`<div class="warning">${text}</div>`)}` : "";
  }
}
