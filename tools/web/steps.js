// A change in steps: what each does to the network before it, in words and as printed, and what the page works out of the same.
"use strict";

/** The lines that tell what isn't kept of a policy, and what is kept again. */
const printedPromises = (news, mends) => [
  ...news.map(it => (it.refused ? `policy ${it.line} ${it.why}` : `fails ${it.line} ${it.failure ?? "now"} ${it.why}`)),
  ...mends.map(number => `mends ${number}`),
];

/** A step of a change, with the network before it and that after it. */
class Step {
  constructor(told, number, before, after) {
    Object.assign(this, told, { number, before, after });
    // A bridge stays that is on before and afterwards.
    this.staying = new Set([...before.bridges.keys()].filter(it => before.isOn(it, null) && after.bridges.has(it) && after.isOn(it, null)));
  }

  partsOf(vid) { return this.parts.find(([cut]) => vids(cut).has(vid))?.[1] ?? []; }

  /** Roots that a bridge has before, each with that which it has afterwards, by tree. A root that gets another identifier is another one. */
  roots() {
    const { before, after } = this, found = new Map();
    for (const tree of before.treeNumbers.filter(it => after.trees.has(it))) {
      for (const bridge of before.trees.get(tree).bridges.keys()) {
        const [old, now] = [before.rootId(tree, bridge), after.rootId(tree, bridge)];
        if (old && now && old !== now) kept(found, tree, () => new Map()).set(`${old} ${now}`, [before.named(old), after.named(now)]);
      }
    }
    return new Map([...found].map(([tree, pairs]) => [tree, [...pairs.values()]]));
  }

  /** How many roles of ports that are in use before and afterwards are other ones. */
  roleCount() {
    const isUsed = role => role !== null && role !== "Disabled", { before, after } = this;
    const trees = [...before.trees.keys()].filter(tree => after.trees.has(tree));
    const pairs = trees.flatMap(tree => [...before.trees.get(tree).ports.keys()].map(port => [before.role(tree, port, null), after.role(tree, port, null)]));
    return pairs.filter(([old, now]) => isUsed(old) && isUsed(now) && old !== now).length;
  }

  /** The ports that link switches which stay in a VLAN, with their LANs. */
  links(network, vid) {
    const lans = [...network.lans.keys()];
    return network.joinsOf(vid).flatMap((members, place) => {
      const active = members.filter(({ port, bridge, tree }) => this.staying.has(bridge) && FORWARDING.has(network.role(tree, port, null)));
      return active.filter(({ bridge }) => active.some(other => other.bridge !== bridge)).map(({ port }) => `${lans[place]} ${port}`);
    });
  }

  compare(tally) {
    const what = `step ${this.number}`, networks = [this.before, this.after], sums = { cut: 0, joined: 0, moved: 0 };
    for (const { first, count } of classesOf(networks)) {
      const [old, now] = networks.map(network => network.islands(first, null));
      const [oldLinks, nowLinks] = networks.map(network => this.links(network, first).sort().join());
      const cut = partsOf(old, now).map(part => part.join(",")), isJoined = partsOf(now, old).length > 0;
      const found = { cut: cut.length > 0, joined: isJoined, moved: cut.length > 0 || isJoined || oldLinks !== nowLinks };
      tally.expect(`${what}, VLAN ${first}`, cut, this.partsOf(first));
      for (const word of Object.keys(found)) {
        tally.expect(`${what}, VLAN ${first} ${word}`, [found[word]], [vids(this[word]).has(first)]);
        if (found[word]) sums[word] += count;
      }
    }
    for (const word of Object.keys(sums)) tally.expect(`${what}, VLANs ${word}`, [sums[word]], [vids(this[word]).count]);
    tally.expect(`${what}, roots`, this.roots().keys(), this.trees);
    tally.expect(`${what}, roles`, [this.roleCount()], [this.changed]);
  }

  /** The lines of a policy that aren't kept behind it, and those of them that it breaks; none where there is no policy. */
  unkept() { return linesUnkept(this.after); }
  breaks() {
    const before = linesUnkept(this.before);
    return [...this.unkept()].filter(number => !before.has(number));
  }

  /** The lines of `steps` that it has there. */
  printed() {
    const { number, lines, trees, changed, moved, cut, joined: together } = this, list = text => text || "-";
    const told = [`roots ${list(trees.join(","))}`, `ports ${changed}`, `moved ${list(moved)}`, `cut ${list(cut)}`, `joined ${list(together)}`];
    return [
      ...this.refused.map(it => `change ${it.line} ${it.error} ${it.text}`),
      `step ${number} lines ${lines} ${told.join(" ")}`,
      ...this.parts.map(([those, parts]) => `cut ${those} parts ${parts.join(" ")}`),
      ...this.turns.map(([trees, bridges]) => `turns ${trees} ${bridges}`),
      ...(this.restarts.length ? [`restarts ${this.restarts.join(",")}`] : []),
      ...printedPromises(this.news ?? [], this.mends ?? []),
    ];
  }
}

const linesUnkept = network => new Set((network.promises?.broken ?? []).map(it => it.line));

/** A change, with the network before its first step and those behind each. */
class Change {
  constructor({ steps, ...told }, networks) {
    Object.assign(this, told);
    this.steps = steps.map((it, i) => new Step(it, i + 1, networks[i], networks[i + 1]));
  }

  get counts() {
    const kinds = [["moving", "move VLANs"], ["cutting", "cut some"], ["failing", "break a promise"]];
    const told = kinds.filter(([word]) => this[word] !== null).map(([word, does]) => `${this[word]} ${does}`).join(", ");
    return this.unkept ? `${told}; ${counted(this.unkept, "promise isn't", "promises aren't")} kept in the end` : told;
  }
  get isWarned() { return Boolean(this.cutting || this.failing || this.unkept || this.steps.some(it => it.refused.length)); }

  /** What is printed of the policy in front of all steps: lines that aren't read, and what isn't kept before the change. */
  printedBefore() {
    const { unread, start, news } = this.front ?? { unread: [], start: [], news: [] };
    return [...printedPromises(unread, []), ...start.map(count => `start unkept ${count}`), ...printedPromises(news, [])];
  }

  heading(place) {
    if (!place) return markup`<b>As it is</b> ${minor("before the first step")}`;
    return markup`<b>Step ${place} of ${this.steps.length}</b> ${minor(`lines ${this.steps[place - 1].lines}; rings: another role than before it`)}`;
  }

  /** What is typed in a step, and what it does. */
  told(place) {
    const step = this.steps[place - 1];
    const before = this.printedBefore().join("\n");
    if (!step) return markup`<div>${counted(this.steps.length, "step")} of ${this.name}: ${this.counts}.</div>${before ? markup`<code>${before}</code>` : ""}`;
    const refused = new Set(step.refused.map(it => it.line));
    const typed = step.typed.map(([number, text]) => {
      const kind = refused.has(number) ? "warning" : text.trim().startsWith("#") ? "minor" : "";
      return markup`<div class="${kind}"><span class="number">${number}</span> ${text}</div>`;
    });
    return markup`<div class="typed">${typed}</div><div>${this.does(step)}</div><code>${step.printed().join("\n")}</code>`;
  }

  does(step) {
    const { moved, joined: together, changed, refused, turns, restarts } = step;
    const roots = [...step.roots()].flatMap(([tree, pairs]) => pairs.map(([old, now]) =>
      line(markup`Root of ${treeName(tree)}: ${old} → <b>${now}</b>${old === now ? " with another priority" : ""}`)));
    return [
      refused.map(it => markup`<div class="warning">Line ${it.line} is refused: ${it.error} ${it.text}</div>`),
      moved ? markup`<div>It moves VLANs ${listed(moved)}.</div>` : markup`<div class="fine">It moves no VLAN to other links.</div>`,
      turns.map(([trees, bridges]) => line(markup`In ${trees === "0" ? "tree" : "trees"} ${listed(trees)} the way out is another one of
        ${some(bridges.split(","), MOST_NAMES)}.`)),
      restarts.length ? markup`<div class="warning">${counted(restarts.length, "port begins", "ports begin")} anew and may discard for a while:
        ${some(restarts, MOST_NAMES)}.</div>` : "",
      step.parts.map(([those, parts]) => markup`<div class="warning">VLANs ${listed(those)} come apart:
        ${joined(parts.map(part => part.split(",").join(", ")), " | ")}</div>`),
      together ? markup`<div>VLANs ${listed(together)} come together.</div>` : "", roots,
      line(`${counted(changed, "role")} of ports in use ${changed === 1 ? "changes" : "change"}.`), this.keeps(step),
    ];
  }

  keeps(step) {
    if (!step.after.promises) return "";
    const unkept = step.unkept().size, broken = step.breaks().length, mended = step.mends.length;
    const news = [broken ? `it breaks ${broken}` : "", mended ? `${counted(mended, "is", "are")} kept again` : ""].filter(Boolean).join(", ");
    const told = `${counted(unkept, "promise isn't kept", "promises aren't kept")} behind it${news ? `: ${news}` : ", as before"}.`;
    return unkept ? markup`<div class="warning">${told}</div>` : markup`<div class="fine">All promises are kept behind it.</div>`;
  }

  /** All steps; a click goes to the network behind one. */
  sheet(place) {
    const none = markup`<span class="fine">none</span>`, warned = text => (text ? markup`<span class="warning">${text}</span>` : none);
    const rows = this.steps.map(step => ({ data: { step: step.number }, isSelected: step.number === place, cells: [
      step.number, step.lines, step.typed.filter(([, text]) => !text.trim().startsWith("#")).map(([, text]) => line(text)),
      step.moved ? listed(step.moved) : none, step.cut ? markup`<span class="warning">${listed(step.cut)}</span>` : none,
      step.joined ? listed(step.joined) : none, step.trees.map(treeName).join(", "), step.changed,
      step.restarts.length || none,
      warned([step.refused.length ? `${counted(step.refused.length, "line")} refused` : "", step.breaks().length ? `${step.breaks().length} broken` : "",
        step.unkept().size ? `${step.unkept().size} unkept` : ""].filter(Boolean).join(", ")),
    ] }));
    return table(["#Step", "Lines", "", "VLANs moved", "Cut", "Joined", "Roots of", "#Roles changed", "#Ports anew", "Refused, broken, not kept"], rows);
  }
}
