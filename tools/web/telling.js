// What is told beside the picture, of a port, a LAN, a switch and a box.
"use strict";

class Telling {
  /** `picture` has the boxes that are open, and the colours of regions; `all` has both networks where there are two. */
  constructor(network, all, picture) {
    Object.assign(this, { network, picture });
    this.overview = new Overview(network, all, this);
  }

  hue(bridge) { return this.picture.hue(bridge); }

  /** With two networks a bridge may be in the other one alone. */
  bridgeJump(bridge) {
    return this.network.bridges.has(bridge) ? jump("bridge", bridge) : bridge;
  }

  // ---- the panel

  panel(shown) { return this.selected(shown) ?? this.overview.told(shown); }

  /** What is told of what is selected, where it is there. */
  selected(shown) {
    const [what, ...rest] = (shown.selected ?? "").split(" "), name = rest.join(" ");
    if (what === "port" && this.network.ports.has(name)) return this.port(name, shown);
    if (what === "lan" && this.network.lans.has(name)) return this.lan(name, shown);
    if (what === "bridge" && this.network.bridges.has(name)) return this.bridge(name, shown);
    if (what === "links" && this.picture.cables.some(it => it.key === shown.selected)) return this.links(shown);
    return null;
  }

  /** What was looked for, to be gone to. */
  found(shown) {
    const { bridges, lans } = this.network.found(shown.find), count = bridges.length + lans.length;
    const rows = [
      ...bridges.slice(0, MOST_FOUND).map(bridge => ({ data: { bridge }, cells: [markup`<b>${bridge}</b>`, this.regionText(bridge)] })),
      ...lans.slice(0, Math.max(0, MOST_FOUND - bridges.length)).map(lan => ({ data: { lan }, cells: [lan, "LAN"] })),
    ];
    return markup`<h2>Found</h2><div class="minor">${counted(bridges.length, "switch", "switches")} and ${counted(lans.length, "LAN")}
      with “${shown.find}”${count > rows.length ? `, of which the first ${rows.length}` : ""}; Enter goes to the first.</div>
      ${rows.length ? table(["", ""], rows) : ""}`;
  }

  regionText(bridge) {
    const region = this.network.regionAt.get(bridge);
    if (this.network.bridges.get(bridge).kind === "rstp") return "RSTP";
    return region ? `${region.name} ${region.revision}` : DASH;
  }

  /** The LANs that one line to a closed box stands for. */
  links(shown) {
    const { network, picture } = this, { links, ends } = picture.cables.find(it => it.key === shown.selected);
    const treeOf = port => (shown.vid === null ? shown.tree : network.treeOf(bridgeOf(port), shown.vid));
    const end = port => [portJump(port), " ", roleTag(network.role(treeOf(port), port, shown.failure))];
    const rows = links.map(({ lan, ports }) => [lanJump(lan), ...ports.map(port => (port ? line(end(port)) : DASH))]);
    const boxes = ends.map(it => it.node).filter(node => picture.boxes.all.has(node));
    return markup`<h2>${counted(links.length, "link")}</h2><div class="minor">from ${ends.map(it => picture.nameOf(it.node)).join(" to ")}</div>
      ${boxes.map(box => markup`<button class="action" data-fold="${box}">Open ${picture.boxes.title(box)}</button>`)}
      ${table(["LAN", "", ""], rows)}`;
  }

  port(port, shown) {
    const { network } = this, lan = network.lanOf(port), { speed, ports } = network.lans.get(lan), set = network.ports.get(port);
    const others = ports.filter(it => it !== port).map(portJump);
    const trees = network.treeNumbers.filter(tree => network.role(tree, port, null) !== null);
    const name = interfaces.get(port);
    return markup`<h2>Port ${portName(port)}</h2>
      ${name ? line(minor(`${port} in the script: ${name.join(", of ")}`)) : ""}
      <div class="minor">on ${lanJump(lan)}, ${speedText(speed)}; to ${others.length ? joined(others, ", ") : "no other port"}</div>
      <div class="minor">VLANs ${set.vlans || "none"}${set.restricted ? "; role restricted" : ""}</div>
      ${trees.map(tree => this.portInTree(port, tree, shown))}
      ${network.lans.get(lan).members.map(member => this.failing(`lan ${member}`, shown))}`;
  }

  portInTree(port, tree, shown) {
    const { network } = this, before = network.role(tree, port, null), after = network.role(tree, port, shown.failure);
    const { port_id: id, ext, int } = network.trees.get(tree).ports.get(port);
    const isShown = tree === (shown.vid === null ? shown.tree : network.treeOf(bridgeOf(port), shown.vid));
    return markup`<h3>${treeName(tree)}${isShown ? " · shown" : ""}</h3>${roleTag(after)}
      ${shown.failure ? [" after this failure", before === after ? ", as before it" : [", before it ", roleTag(before)]] : ""}
      ${minor(id ? `${id}${ext === undefined ? "" : ` ext ${ext}`} int ${int}` : "")}
      ${shown.failure ? line(minor("Why it was so before the failure:")) : ""}
      <div class="why">${this.why(port, tree).map(line)}${this.printedWhy(port, tree)}</div>`;
  }

  /** What a port's role stands on, in words. One that is alone on its LAN isn't explained by the program. */
  why(port, tree) {
    const told = this.network.reasons.get(port)?.[tree], lan = this.network.lanOf(port);
    if (told) return told.map(record => this.reason(record, port));
    if (!this.network.isOn(bridgeOf(port), null)) return this.reason({ kind: "off", off_bridge: bridgeOf(port) }, port);
    if (this.network.isDown(lan, null)) return this.reason({ kind: "down", down_lan: lan }, port);
    return "No other port is on its LAN, so it is compared with none.";
  }
  printedWhy(port, tree) {
    const told = this.network.reasons.get(port)?.[tree];
    return told ? markup`<code>${told.map(printedReason).join("\n")}</code>` : "";
  }

  reason(record, port) {
    const at = (other, own) => (portText(other) === port ? own : portJump(portText(other)));
    const { kind, winner, loser } = record;
    if (kind === "boundary") {
      return markup`At the boundary of its region it does as in the CIST: ${roleTag(record.role)} there, and
        ${portJump(portText(record.designated))} is the LAN's designated port.`;
    }
    if (kind === "designated" && loser === undefined) {
      return markup`${portJump(portText(winner))} is the only port of the tree on its LAN.`;
    }
    if (kind === "designated") {
      return markup`On the LAN ${at(winner, "it")} is the <b>designated port</b> rather than
        ${at(loser, "this port")}: ${this.comparison(record)}.`;
    }
    if (kind === "root" && loser === undefined) return printedReason(record);
    if (kind === "root" && winner === null) {
      return markup`<b>${bridgeOf(port)} is the root itself</b>, which is better than what ${at(loser, "this port")} hears:
        ${this.comparison(record)}.`;
    }
    if (kind === "root") {
      const over = loser === null ? "itself as root" : at(loser, "this one");
      return markup`The switch's <b>root port</b> is ${at(winner, "this one")} rather than ${over}:
        ${this.comparison(record)}.`;
    }
    if (kind === "restricted") return markup`The port's role is <b>restricted</b>: it never becomes a root port.`;
    return kind === "off" ? markup`${this.bridgeJump(record.off_bridge)} is off.` : markup`${lanJump(record.down_lan)} is down.`;
  }

  comparison(record) {
    const named = id => (this.network.names.has(id) ? `${id} (${this.network.named(id)})` : id);
    const [value, other] = comparedIn(record).map(named);
    return markup`${FIELDS[record.field] ?? record.field} <span class="values">${value} &lt; ${other}</span>`;
  }

  lan(lan, shown) {
    const { network } = this, { members, speed, ports } = network.lans.get(lan), carried = network.carried(lan, shown.failure);
    const trees = network.treeNumbers;
    return markup`<h2>LAN ${lan}</h2>
      <div class="minor">${speedText(speed)}${members.length > 1 ? `; counts as one link: ${members.join(", ")}` : ""}
        ${network.isDown(lan, shown.failure) ? "; down" : ""}</div>
      <h3>Carries VLANs${shown.failure ? " after this failure" : ""}</h3>
      <div>${listed(carried.text || "none")} ${minor(`(${carried.count})`)}</div>
      <h3>Roles at its ends${shown.failure ? " after this failure" : ""}</h3>
      ${table(["Port", ...trees.map(treeName)], ports.map(port =>
        [portJump(port), ...trees.map(tree => roleTag(network.role(tree, port, shown.failure)))]))}
      ${members.map(member => this.failing(`lan ${member}`, shown))}`;
  }

  bridge(bridge, shown) {
    const { network } = this, { mac, kind, vids: mapped } = network.bridges.get(bridge), region = network.regionAt.get(bridge);
    const maps = kind === "rstp" ? [] : Object.entries(mapped).map(([tree, list]) => `${list} in MST ${tree}`);
    const trees = network.treeNumbers, short = role => roleTag(role, role === "Disabled" ? "×" : role?.[0]);
    const ports = network.portsOf(bridge).map(port =>
      [portJump(port), lanJump(network.lanOf(port)), ...trees.map(tree => short(network.role(tree, port, shown.failure)))]);
    return markup`<h2>Switch ${bridge}</h2>
      <div class="minor">${mac}; ${kind === "rstp" ? "RSTP" : `MSTP, region ${region?.name}`}${network.isOn(bridge, shown.failure) ? "" : "; off"}</div>
      <button class="action" data-from="${bridge}">Path from here</button><button class="action" data-to="${bridge}">Path to here</button>
      <h3>Trees${shown.failure ? " after this failure" : ""}</h3>
      ${network.isOn(bridge, shown.failure) ? table(["Tree", "Priority", "Root", "Root port", "#Cost"], this.treeRows(bridge, shown.failure)) : "It is off."}
      ${maps.length ? minor(`VLANs ${maps.join("; ")}; all others in the CIST`) : ""}
      <h3>Ports${shown.failure ? " after this failure" : ""}</h3>${table(["Port", "LAN", ...trees.map(String)], ports)}
      ${this.failing(`bridge ${bridge}`, shown)}`;
  }

  treeRows(bridge, failure) {
    const { network } = this, ports = network.portsOf(bridge);
    return network.treeNumbers.filter(tree => network.root(tree, bridge, failure) !== null).map(tree => {
      const { ext, int } = network.cost(tree, bridge, failure);
      const rootPort = ports.find(port => ["Root", "Master"].includes(network.role(tree, port, failure)));
      const cost = tree === CIST ? `${ext}+${int}` : int;
      const root = this.bridgeJump(network.root(tree, bridge, failure));
      return [treeName(tree), network.priority(tree, bridge), root, rootPort ? portJump(rootPort) : DASH, cost];
    });
  }

  /** What an entity's failure does, with a button that shows it; nothing where it is no failure of the sweep. */
  failing(key, shown) {
    const failure = this.network.failures.get(key);
    if (!failure) return "";
    const cuts = failure.parts.map(([cut, parts]) => markup`<div class="warning">VLANs ${listed(cut)} come apart:</div>
      <div>${partsTold(parts)}</div>`);
    const roots = newRoots(this.network, failure).map(it => markup`<div>Root of ${treeName(it.tree)} for ${it.whose}:
      ${this.bridgeJump(it.before)} → ${this.bridgeJump(it.root)}</div>`);
    const does = shown.failure === failure ? "Back to the whole network" : "Show this failure";
    return markup`<h3>If ${entityName(failure)} fails</h3>
      ${cuts.length ? cuts : markup`<div class="fine">No VLAN is cut between the switches that stay.</div>`}${roots}
      <div>${counted(failure.changed, "role")} of ports that stay in use ${failure.changed === 1 ? "changes" : "change"}.</div>
      <button class="action" data-fail="${key}">${does}</button>`;
  }
}

/** What is compared in a contest: the value of the winner and that of the loser, of a cost or of an identifier. */
const comparedIn = ({ value, loser_value: loserValue, value_id: id, loser_id: loserId }) => [value ?? id, loserValue ?? loserId];

/** The line of `explain` that a record stands for. */
function printedReason(record) {
  const { kind, winner, loser, field } = record, named = port => (port === null ? "own" : portText(port));
  if (kind === "boundary") return `boundary ${record.role} designated ${portText(record.designated)}`;
  if (kind === "off") return `off ${record.off_bridge}`;
  if (kind === "down") return `down ${record.down_lan}`;
  if (winner === undefined) return kind;
  if (loser === undefined) return `${kind} ${named(winner)} alone`;
  const compared = field === undefined ? [] : [field, ...comparedIn(record)];
  return [kind, named(winner), "over", named(loser), ...compared].join(" ");
}
